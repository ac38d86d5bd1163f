//! `teaselshears audit-all`: every batch of a spool once, several at a time, with the results kept.

mod folder;
mod progress;
mod workers;

use crate::arguments::{Given, Objects, BRIEF, COMPLETE, JOBS, JSON, LIST, NULL};
use crate::audit::wanted;
use crate::commands::Command;
use crate::findings::{Auditor, Finding, State, Wanted};
use crate::help;
use crate::kept;
use crate::outcome::{print_to, say, standard_output, NotRun, Status};
use crate::shown;
use crate::system;
use crate::table;
use crate::texts;
use crate::verdicts;
use folder::Results;
use progress::Progress;
use std::collections::BTreeMap;
use std::ffi::{OsStr, OsString};
use std::os::unix::ffi::OsStrExt;
use std::path::Path;
use std::thread;

pub const COMMAND: Command = Command {
    name: "audit-all",
    flags: &[BRIEF, COMPLETE, JOBS, JSON, LIST, NULL],
    help: help::AUDIT_ALL,
    run,
};

/// What a run prints.
#[derive(Clone, Copy, PartialEq, Eq)]
enum Prints {
    Nothing,
    Objects(Objects),
    Names(State),
}

struct Options {
    jobs: usize,
    prints: Prints,
    null: bool,
    wanted: Wanted,
}

fn run(given: &Given) -> Result<Status, NotRun> {
    let options = Options::read(given)?;
    let [spool, folder] = given.exactly("two folders are")?;
    let (spool, folder) = (Path::new(spool), Path::new(folder));
    // Where objects cannot be printed nothing is begun.
    let mut output = match options.prints {
        Prints::Objects(objects) => Some((standard_output()?, objects)),
        Prints::Names(_) | Prints::Nothing => None,
    };
    let results = Results::open(folder, spool)?;
    let names = batches_of(spool)?;
    system::note_signals();
    let mut printed = Ok(());
    let findings = audit_batches(spool, &results, &names, &options, |finding| {
        if let (Some((output, objects)), Ok(())) = (&mut output, &printed) {
            printed = print_to(output, finding.json(*objects).as_bytes());
        }
    });
    let rows = with_others(&findings, &results.folder, options.wanted)?;
    results.keep_table(&table::text(rows.values()))?;
    printed?;
    print_names(&rows, &options)?;
    ended(spool, &findings)
}

impl Options {
    fn read(given: &Given) -> Result<Options, NotRun> {
        let prints = match (given.value(&LIST), given.objects()?) {
            (Some(word), None) => Prints::Names(state_listed(word)?),
            (None, Some(objects)) => Prints::Objects(objects),
            (None, None) => Prints::Nothing,
            (Some(_), Some(_)) => {
                return Err(NotRun::new("--json and --list are not given together"))
            }
        };
        if given.has(&NULL) && !given.has(&LIST) {
            return Err(NotRun::new("--null is for the names of --list"));
        }
        Ok(Options {
            jobs: jobs(given.value(&JOBS))?,
            prints,
            null: given.has(&NULL),
            wanted: wanted(given),
        })
    }
}

/// A state that somebody has to see to.
fn state_listed(word: &OsStr) -> Result<State, NotRun> {
    let mut listed = State::ALL.to_vec();
    listed.retain(|state| !matches!(state, State::Accepted | State::Waiting));
    let words: Vec<&str> = listed.iter().map(|state| state.word()).collect();
    State::named(word)
        .filter(|state| listed.contains(state))
        .ok_or_else(|| NotRun(format!("--list takes one of {}", words.join(", "))))
}

fn jobs(word: Option<&OsStr>) -> Result<usize, NotRun> {
    let Some(word) = word else {
        return Ok(thread::available_parallelism().map_or(1, usize::from));
    };
    let number = verdicts::number(word.as_bytes()).and_then(|number| number.try_into().ok());
    number
        .filter(|number| (1..=999).contains(number))
        .ok_or_else(|| NotRun::new("--jobs takes a number from 1 to 999"))
}

/// The names of a spool that are batches, in their order.
fn batches_of(spool: &Path) -> Result<Vec<OsString>, NotRun> {
    let mut names = texts::names_in(spool).map_err(|why| {
        let spool = shown::name(spool.as_os_str());
        NotRun(format!("{spool} cannot be read: {why}"))
    })?;
    names.retain(|name| !name.as_bytes().starts_with(b"."));
    names.sort();
    Ok(names)
}

type Findings = BTreeMap<OsString, Finding>;

/// Looks at every batch, and hands on what is found of each. Those that a stopped run did not come to wait.
fn audit_batches(
    spool: &Path,
    results: &Results,
    names: &[OsString],
    options: &Options,
    mut take: impl FnMut(&Finding),
) -> Findings {
    let mut findings = Findings::new();
    let mut progress = Progress::new(names.len());
    let work = workers::Work::new(spool, results, names, options.wanted);
    workers::run(&work, options.jobs, &mut progress, |finding| {
        take(&finding);
        findings.insert(finding.batch.clone(), finding.without_order());
    });
    progress.end();
    for name in names {
        findings.entry(name.clone()).or_insert_with(|| {
            let waiting = waiting(name);
            take(&waiting);
            waiting
        });
    }
    findings
}

fn waiting(name: &OsStr) -> Finding {
    let sentence = "the run was stopped before it".to_owned();
    Finding::none(name.to_owned(), State::Waiting, sentence)
}

/// The batches of the spool as they were found, and the kept results of those that are no longer in it.
fn with_others(findings: &Findings, folder: &Path, wanted: Wanted) -> Result<Findings, NotRun> {
    let mut auditor = Auditor::new(wanted);
    let mut rows = findings.clone();
    for name in kept::names(folder)? {
        if rows.contains_key(&name) {
            continue;
        }
        if let Some(finding) = kept::found(folder, &name, &mut auditor)? {
            rows.insert(name, finding.without_order());
        }
    }
    Ok(rows)
}

fn print_names(rows: &Findings, options: &Options) -> Result<(), NotRun> {
    let Prints::Names(state) = options.prints else {
        return Ok(());
    };
    let mut listed = Vec::new();
    for finding in rows.values().filter(|finding| finding.state == state) {
        match options.null {
            true => listed.extend([finding.batch.as_bytes(), b"\0"].concat()),
            false => listed.extend(format!("{}\n", shown::name(&finding.batch)).into_bytes()),
        }
    }
    print_to(&mut standard_output()?, &listed)
}

/// Says the counts, and gives the status over all batches.
fn ended(spool: &Path, findings: &Findings) -> Result<Status, NotRun> {
    let count = |state| findings.values().filter(|f| f.state == state).count();
    let mut counts: Vec<String> = Vec::new();
    for state in State::ALL {
        // The others are rare.
        let always = [
            State::Accepted,
            State::Refused,
            State::Changed,
            State::Failed,
        ];
        if always.contains(&state) || count(state) > 0 {
            counts.push(format!("{} {}", count(state), state.word()));
        }
    }
    if count(State::Waiting) > 0 {
        say("stopped before all batches were audited; run it again to go on");
    }
    let (all, counts) = (findings.len(), counts.join(", "));
    say(&format!("of {all} in the spool: {counts}"));
    let statuses = findings.values().map(|finding| finding.state.status());
    let spool = shown::name(spool.as_os_str());
    statuses
        .max()
        .ok_or_else(|| NotRun(format!("there is no batch in {spool}")))
}
