//! Compares two implementations of the registry audit and its reference host: this one, written from the
//! scope paper alone, and the proved one, linked as a static library.

#[cfg(feature = "proved")]
mod against;
mod audit;
#[cfg(feature = "proved")]
mod bench;
mod cases;
mod checks;
mod damage;
mod host;
mod machine;
mod maps;
mod order;
#[cfg(feature = "proved")]
mod pairs;
mod plain;
#[cfg(feature = "proved")]
mod proved;
mod random;
mod reduce;
mod rule;
mod texts;
mod vectors;
mod worked;

use cases::Case;
use checks::Check;
use plain::Found;
use std::path::{Path, PathBuf};
use std::process::ExitCode;
use std::time::{SystemTime, UNIX_EPOCH};

const HELP: &str = "\
usage: compare [--alone] [--cases N] [--seed S] [--out DIR] [--vectors DIR]
       compare bench
       compare vectors DIR

Runs N cases (10000 if not given): the worked ones, then half from a fixed seed and the rest from seed S
(taken from the clock if not given, and printed). Each case is a batch, honest or damaged, and a schedule.
Then the proved functions compare two million pairs of numbers by code 4.
  --alone    only the checks within this implementation: acceptance against a search of all orders, the
             counts against the lines of the texts, the order that is printed against its rule and a plain
             run, and what the host writes against the audit
  --out DIR  where a difference, reduced, is written (differences)
  --vectors DIR  also sees that the stored vectors of crate `vectors` are those that `vectors` writes
The last line is 'N passed, M failed'; the exit status is 0 only where nothing failed.

bench prints a table of times and, where valgrind is installed, of instructions: the proved functions and
this implementation on the same inputs. vectors writes the stored vectors and what must be printed of them.";

struct Options {
    alone: bool,
    cases: usize,
    seed: u64,
    out: PathBuf,
    vectors: Option<PathBuf>,
}

fn main() -> ExitCode {
    let arguments: Vec<String> = std::env::args().skip(1).collect();
    if arguments.iter().any(|argument| argument == "--help") {
        println!("{HELP}");
        return ExitCode::SUCCESS;
    }
    let done = match arguments.split_first() {
        Some((first, rest)) if first == "bench" => bench(rest).map(|()| ExitCode::SUCCESS),
        Some((first, rest)) if first == "vectors" => {
            write_vectors(rest).map(|()| ExitCode::SUCCESS)
        }
        _ => options(arguments).and_then(|options| Ok(compare(&checks(&options)?, &options))),
    };
    done.unwrap_or_else(|problem| {
        eprintln!("compare: {problem} (--help says how it is called)");
        ExitCode::from(2)
    })
}

fn write_vectors(arguments: &[String]) -> Result<(), String> {
    let [folder] = arguments else {
        return Err("vectors takes one folder".into());
    };
    vectors::write(Path::new(folder)).map_err(|problem| format!("{folder}: {problem}"))
}

#[cfg(feature = "proved")]
fn bench(arguments: &[String]) -> Result<(), String> {
    bench::run(arguments)
}

#[cfg(not(feature = "proved"))]
fn bench(_: &[String]) -> Result<(), String> {
    Err("built without the proved functions: there is nothing to measure against".into())
}

fn options(arguments: Vec<String>) -> Result<Options, String> {
    let mut options = Options {
        alone: false,
        cases: 10_000,
        seed: seed_of_the_clock(),
        out: PathBuf::from("differences"),
        vectors: None,
    };
    let mut arguments = arguments.into_iter();
    while let Some(argument) = arguments.next() {
        let mut value = || arguments.next().ok_or(format!("{argument} needs a value"));
        match argument.as_str() {
            "--alone" => options.alone = true,
            "--cases" => options.cases = number(&value()?)?,
            "--seed" => options.seed = number(&value()?)?,
            "--out" => options.out = PathBuf::from(value()?),
            "--vectors" => options.vectors = Some(PathBuf::from(value()?)),
            _ => return Err(format!("{argument} is not known")),
        }
    }
    Ok(options)
}

fn number<N: std::str::FromStr>(text: &str) -> Result<N, String> {
    text.parse().map_err(|_| format!("{text} is no number"))
}

fn seed_of_the_clock() -> u64 {
    SystemTime::now()
        .duration_since(UNIX_EPOCH)
        .map_or(0, |time| time.as_secs())
}

#[cfg(feature = "proved")]
fn checks(options: &Options) -> Result<Vec<Check>, String> {
    let mut checks = checks::ALONE.to_vec();
    if !options.alone {
        checks.extend(against::AGAINST_PROVED);
    }
    Ok(checks)
}

#[cfg(not(feature = "proved"))]
fn checks(options: &Options) -> Result<Vec<Check>, String> {
    if !options.alone {
        return Err("built without the proved functions: only --alone can be run".into());
    }
    Ok(checks::ALONE.to_vec())
}

/// What the cases were like, so that a reader sees what was reached.
#[derive(Default)]
struct Tally {
    verdicts: [usize; 13],
    /// Accepted batches with a block of operations at least.
    blocks: usize,
    schedules: [usize; 17],
    orders: usize,
    no_orders: usize,
    given_up: usize,
    open: Share,
    /// By the answer that a line of kind 10 shows.
    held: [Share; 2],
}

/// Batches that come to row 7 and schedules that are followed, of one sort.
#[derive(Default)]
struct Share {
    batches: usize,
    accepted: usize,
    /// Batches that the search of all orders did not give up.
    searched: usize,
    schedules: usize,
}

impl Share {
    /// Counts a case by whether its batch, and what the host writes, are of this sort.
    fn count(&mut self, [batch, written]: [bool; 2], accepted: bool, found: Option<Found>) {
        self.schedules += usize::from(written);
        if found.is_some() && batch {
            self.batches += 1;
            self.accepted += usize::from(accepted);
            self.searched += usize::from(found != Some(Found::GaveUp));
        }
    }

    fn print(&self, sort: &str) {
        println!(
            "with {sort}: {} batches, {} of them accepted, {} searched; {} schedules",
            self.batches, self.accepted, self.searched, self.schedules
        );
    }
}

impl Tally {
    fn count(&mut self, case: &Case) {
        let audited = checks::audit_of(&case.batch);
        self.verdicts[audited.verdict as usize] += 1;
        self.blocks += usize::from(audited.blocks > 0);
        let recorded = checks::record_of(case);
        self.schedules[recorded.verdict as usize] += 1;
        let found = checks::search(&case.batch);
        match found {
            Some(Found::Order) => self.orders += 1,
            Some(Found::NoOrder) => self.no_orders += 1,
            Some(Found::GaveUp) => self.given_up += 1,
            None => {}
        }
        let accepted = audited.verdict == 0;
        let open = [&case.batch.trace, &recorded.trace].map(|trace| checks::leaves_open(trace));
        self.open.count(open, accepted, found);
        for (answer, share) in (0..).zip(&mut self.held) {
            let reports = [&case.batch.report, &recorded.report];
            let shown = reports.map(|report| checks::shows_held(report, answer));
            share.count(shown, accepted, found);
        }
    }

    fn print(&self) {
        println!("audit: {}", shares(&self.verdicts));
        println!(
            "accepted with a hundred operations or more: {}",
            self.blocks
        );
        println!("record: {}", shares(&self.schedules));
        println!(
            "search of all orders: {} with an order, {} with none, {} given up",
            self.orders, self.no_orders, self.given_up
        );
        self.open.print("open requests");
        self.held[0].print("a key found not held");
        self.held[1].print("a key found held");
    }
}

fn shares(counts: &[usize]) -> String {
    let reached = counts.iter().enumerate().filter(|(_, count)| **count > 0);
    let shares: Vec<String> = reached
        .map(|(verdict, count)| format!("verdict {verdict}: {count}"))
        .collect();
    shares.join(", ")
}

fn compare(checks: &[Check], options: &Options) -> ExitCode {
    println!(
        "fixed seed {}, then seed {}",
        cases::FIXED_SEED,
        options.seed
    );
    let mut tally = Tally::default();
    let (mut passed, mut failed) = (0, 0);
    for case in cases::cases(options.cases, options.seed) {
        tally.count(&case);
        match checks.iter().find(|check| check(&case).is_some()) {
            None => passed += 1,
            Some(check) => {
                failed += 1;
                if failed <= TOLD {
                    tell(case, *check, &options.out);
                }
            }
        }
    }
    tally.print();
    for wrong in beside(options) {
        match wrong {
            None => passed += 1,
            Some(wrong) => {
                failed += 1;
                println!("{wrong}");
            }
        }
    }
    println!("{passed} passed, {failed} failed");
    if failed == 0 {
        ExitCode::SUCCESS
    } else {
        ExitCode::FAILURE
    }
}

/// What is looked at once, beside the cases; each says what is wrong, or nothing.
fn beside(options: &Options) -> Vec<Option<String>> {
    let mut beside = Vec::new();
    if let Some(folder) = &options.vectors {
        let outdated = vectors::outdated(folder).map(|file| folder.join(file));
        beside
            .push(outdated.map(|file| format!("{} is not what `vectors` writes", file.display())));
    }
    #[cfg(feature = "proved")]
    if !options.alone {
        beside.push(pairs::wrong(options.seed));
    }
    beside
}

/// So many differences are reduced and written; the others are counted.
const TOLD: usize = 20;

/// Reduces a difference, writes it to a folder of its own and says where.
fn tell(case: Case, check: Check, out: &Path) {
    let reduced = reduce::reduce(case, check);
    let difference = check(&reduced).unwrap_or_default();
    let folder = out.join(&reduced.name);
    println!("{}: {difference}", folder.display());
    if let Err(problem) = reduce::write(&reduced, &folder, &difference) {
        println!("{}: not written: {problem}", folder.display());
    }
}

#[cfg(test)]
mod tests {
    use super::*;

    #[test]
    fn open_requests_and_each_answer_of_code_10_are_in_a_tenth_of_the_random_cases() {
        let mut tally = Tally::default();
        let cases = 1_000;
        cases::fixed(cases).for_each(|case| tally.count(&case));
        let [not_held, held] = &tally.held;
        for sort in [&tally.open, not_held, held] {
            for (share, of) in [
                (sort.batches, cases),
                (sort.accepted, tally.verdicts[0]),
                (sort.searched, tally.orders + tally.no_orders),
                (sort.schedules, tally.schedules[0]),
            ] {
                assert!(10 * share >= of, "{share} of {of}");
            }
        }
    }
}
