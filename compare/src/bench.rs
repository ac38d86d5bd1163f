//! Measures the proved functions against this implementation, on the same bytes in one run: time and
//! instructions.

mod batches;

use crate::host;
use crate::order::{order_quickly, printed};
use crate::texts::TEXT_LIMIT;
use crate::{audit, proved};
use batches::Measured;
use std::env;
use std::hint::black_box;
use std::process::Command;
use std::time::{Duration, Instant};

/// `Audit` gives verdict and counts alone; `Printed` is the text that the program `audit` prints, the order with
/// it. `Read` is the audit of texts whose report has an unreadable last line, so that it ends at row 5: the texts
/// are read, programs and trace are checked, and no more.
#[derive(Clone, Copy, Debug, PartialEq)]
enum Function {
    Audit,
    Read,
    Printed,
    Record,
}

impl Function {
    /// The verdict that each side must give.
    fn verdict(self) -> u64 {
        match self {
            Function::Audit | Function::Printed | Function::Record => 0,
            Function::Read => 5,
        }
    }
}

#[derive(Clone, Copy)]
enum Side {
    Proved,
    Rust,
}

/// One function on one input. The proved `record` writes into the same two buffers at each call, as the proved
/// text of the audit is written into one, and they are not cleared between the calls.
struct Subject {
    function: Function,
    measured: Measured,
    trace: Vec<u8>,
    report: Vec<u8>,
    text: Vec<u8>,
}

impl Subject {
    fn new(function: Function, mut measured: Measured) -> Subject {
        if function == Function::Read {
            measured.batch.report.extend(b"?\n");
        }
        Subject {
            function,
            measured,
            trace: vec![0; TEXT_LIMIT],
            report: vec![0; TEXT_LIMIT],
            text: vec![0; TEXT_LIMIT],
        }
    }

    /// One call, with its verdict.
    fn call(&mut self, side: Side) -> u64 {
        let Measured {
            schedule, batch, ..
        } = &self.measured;
        match (self.function, side) {
            (Function::Audit | Function::Read, Side::Proved) => proved::audit(batch).verdict,
            (Function::Audit | Function::Read, Side::Rust) => {
                audit::audit(&batch.programs, &batch.trace, &batch.report).verdict
            }
            (Function::Printed, Side::Proved) => {
                let length = proved::audit_text(batch, &mut self.text);
                printed_verdict(&self.text[..length])
            }
            (Function::Printed, Side::Rust) => {
                let text = printed(batch, order_quickly);
                printed_verdict(black_box(text.as_bytes()))
            }
            (Function::Record, Side::Proved) => {
                let (trace, report) = (&mut self.trace, &mut self.report);
                proved::record(&batch.programs, schedule, trace, report).verdict
            }
            (Function::Record, Side::Rust) => {
                let recorded = host::record(&batch.programs, schedule, TEXT_LIMIT, TEXT_LIMIT);
                black_box(&recorded).verdict
            }
        }
    }
}

/// 0 where a printed text begins with that verdict.
fn printed_verdict(text: &[u8]) -> u64 {
    u64::from(!text.starts_with(b"verdict=0\n"))
}

const LINES: [usize; 4] = [128, 256, 512, 1_024];

fn subjects() -> Vec<Subject> {
    let [audited, printed] = [(); 2].map(|()| vec![batches::usual(), batches::worst()]);
    let longest = batches::longest_schedule();
    let recorded = vec![batches::usual(), batches::worst(), longest];
    let mut subjects = of(Function::Audit, audited);
    let read = [batches::usual(), batches::worst()];
    subjects.extend(read.map(|input| Subject::new(Function::Read, input)));
    subjects.extend(of(Function::Printed, printed));
    subjects.extend(of(Function::Record, recorded));
    subjects
}

/// A function on these inputs and on growing ones.
fn of(function: Function, inputs: Vec<Measured>) -> Vec<Subject> {
    let growing = LINES.map(batches::growing);
    let inputs = inputs.into_iter().chain(growing);
    inputs.map(|input| Subject::new(function, input)).collect()
}

/// Prints the table; with `--once`, makes the one call that is counted.
pub fn run(arguments: &[String]) -> Result<(), String> {
    match arguments {
        [] => print_table(),
        [once, place, side] if once == ONCE => call_once(place, side),
        _ => Err("bench takes no arguments".into()),
    }
}

fn print_table() -> Result<(), String> {
    let counting = valgrind_is_there();
    if !counting {
        println!("valgrind is not installed: instructions are not counted");
    }
    print_heads(["function", "input", "measured", "proved", "Rust", "ratio"]);
    let mut subjects = subjects();
    let mut figures = Vec::new();
    for (place, subject) in subjects.iter_mut().enumerate() {
        for figure in measure(subject, place, counting)? {
            if subject.function != Function::Read {
                print_figures(&figure, figure.proved, figure.rust);
            }
            figures.push(figure);
        }
    }
    print_reading(&figures);
    print_sizes(&subjects);
    Ok(())
}

/// What was measured of a function on an input, for each side.
struct Figure {
    function: Function,
    input: String,
    what: &'static str,
    decimals: usize,
    proved: f64,
    rust: f64,
}

/// The time, and the instructions where they can be counted.
fn measure(subject: &mut Subject, place: usize, counting: bool) -> Result<Vec<Figure>, String> {
    let (function, input) = (subject.function, subject.measured.name.clone());
    let expected = function.verdict();
    if [Side::Proved, Side::Rust].map(|side| subject.call(side)) != [expected; 2] {
        return Err(format!("{input} is not verdict {expected}"));
    }
    let figure = |what, decimals, [proved, rust]: [f64; 2]| Figure {
        function,
        input: input.clone(),
        what,
        decimals,
        proved,
        rust,
    };
    let times = best_times(subject).map(|time| time.as_nanos() as f64 / 1e3);
    let mut figures = vec![figure("time, µs", 1, times)];
    if counting {
        let [proved, rust] = [Side::Proved, Side::Rust].map(|side| instructions(place, side));
        figures.push(figure("instructions", 0, [proved?, rust?]));
    }
    Ok(figures)
}

/// The proved audit against its reading of the same texts alone.
fn print_reading(figures: &[Figure]) {
    println!("\nThe proved audit, and how much of it is reading the same texts:\n");
    print_heads(["function", "input", "measured", "audit", "read", "ratio"]);
    for read in figures
        .iter()
        .filter(|read| read.function == Function::Read)
    {
        let same = |audit: &&Figure| audit.input == read.input && audit.what == read.what;
        if let Some(audit) = figures.iter().find(same) {
            print_figures(audit, audit.proved, read.proved);
        }
    }
}

/// The size of each input, once.
fn print_sizes(subjects: &[Subject]) {
    println!();
    let mut sizes: Vec<String> = Vec::new();
    let whole = subjects
        .iter()
        .filter(|subject| subject.function != Function::Read);
    for size in whole.map(|subject| subject.measured.sizes()) {
        if !sizes.contains(&size) {
            println!("{size}");
            sizes.push(size);
        }
    }
}

/// A row with one figure, the other it is held against, and their ratio.
fn print_figures(figure: &Figure, one: f64, other: f64) {
    let decimals = figure.decimals;
    print_row([
        format!("{:?}", figure.function).to_lowercase(),
        figure.input.clone(),
        figure.what.to_string(),
        format!("{one:.decimals$}"),
        format!("{other:.decimals$}"),
        format!("{:.2}", one / other),
    ]);
}

fn print_heads(heads: [&str; 6]) {
    print_row(heads.map(str::to_string));
    print_row(heads.map(|_| "---".to_string()));
}

fn print_row([function, input, what, one, other, ratio]: [String; 6]) {
    println!("| {function:<8} | {input:<16} | {what:<12} | {one:>10} | {other:>10} | {ratio:>5} |");
}

/// A sample is as many calls as take about this long, so that the clock's own time does not show.
const SAMPLE: Duration = Duration::from_millis(1);
const ROUNDS: usize = 200;

/// The best time of a call of each side. Each round runs the two sides in both orders.
fn best_times(subject: &mut Subject) -> [Duration; 2] {
    let once = time(subject, Side::Proved, 1).as_nanos().max(1);
    let calls = (SAMPLE.as_nanos() / once).clamp(1, 1_000) as u32;
    let mut best = [Duration::MAX; 2];
    for _ in 0..ROUNDS {
        for side in [Side::Proved, Side::Rust, Side::Rust, Side::Proved] {
            let best = &mut best[side as usize];
            *best = time(subject, side, calls).min(*best);
        }
    }
    best
}

/// The time of one call, over so many.
fn time(subject: &mut Subject, side: Side, calls: u32) -> Duration {
    let start = Instant::now();
    for _ in 0..calls {
        black_box(measured_call(black_box(subject), side));
    }
    start.elapsed() / calls
}

/// The call that is counted; valgrind finds it by this name.
#[inline(never)]
fn measured_call(subject: &mut Subject, side: Side) -> u64 {
    subject.call(side)
}

const ONCE: &str = "--once";

/// The call that `instructions` counts, after one that is not, so that symbols are bound and memory is there.
fn call_once(place: &str, side: &str) -> Result<(), String> {
    let place: usize = place.parse().map_err(|_| format!("{place} is no number"))?;
    let mut subjects = subjects();
    let subject = subjects.get_mut(place).ok_or("there is no such input")?;
    let side = if side == "0" {
        Side::Proved
    } else {
        Side::Rust
    };
    black_box(subject.call(side));
    black_box(measured_call(black_box(subject), side));
    Ok(())
}

fn valgrind_is_there() -> bool {
    Command::new("valgrind").arg("--version").output().is_ok()
}

/// The C library then clears and copies by vector instructions. By `rep stosb`, which it takes for long
/// blocks, each byte would count as an instruction.
const NO_REP: &str =
    "glibc.cpu.x86_rep_stosb_threshold=1000000000:glibc.cpu.x86_rep_movsb_threshold=1000000000";

/// The instructions of one call, counted by valgrind.
fn instructions(place: usize, side: Side) -> Result<f64, String> {
    let program = env::current_exe().map_err(|problem| problem.to_string())?;
    let output = Command::new("valgrind")
        .env("GLIBC_TUNABLES", NO_REP)
        .args(["--tool=callgrind", "--callgrind-out-file=/dev/null"])
        .arg("--toggle-collect=*measured_call*")
        .arg(program)
        .args(["bench", ONCE])
        .args([place, side as usize].map(|number| number.to_string()))
        .output()
        .map_err(|problem| format!("valgrind: {problem}"))?;
    let said = String::from_utf8_lossy(&output.stderr);
    let counted = said.lines().find(|line| line.contains("Collected"));
    let count = counted.and_then(|line| line.rsplit(' ').next()?.parse().ok());
    count.ok_or(format!("valgrind counted nothing: {said}"))
}
