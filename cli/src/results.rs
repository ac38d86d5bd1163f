//! `teaselshears results`: what is kept in a folder of results, by time. It reads and writes nothing, and waits for nobody.

use crate::arguments::{Given, BRIEF, COMPLETE, JSON, SINCE, STATE, VERDICT};
use crate::audit::wanted;
use crate::commands::Command;
use crate::files;
use crate::findings::{Auditor, Finding, State};
use crate::help;
use crate::kept::{self, MARK, MARKER};
use crate::outcome::{print, NotRun, Status};
use crate::shown;
use crate::table;
use crate::texts;
use crate::time;
use crate::verdicts;
use std::collections::BTreeMap;
use std::ffi::OsString;
use std::fs::File;
use std::os::unix::ffi::OsStrExt;
use std::path::Path;

pub const COMMAND: Command = Command {
    name: "results",
    flags: &[BRIEF, COMPLETE, JSON, SINCE, STATE, VERDICT],
    help: help::RESULTS,
    run,
};

fn run(given: &Given) -> Result<Status, NotRun> {
    let asked = Asked::read(given)?;
    let objects = given.objects()?;
    let [folder] = given.exactly("one folder is")?;
    let folder = Path::new(folder);
    let opened = open(folder)?;
    let mut found: Vec<Finding> = found(folder, &opened, &mut Auditor::new(wanted(given)))?
        .into_values()
        .filter(|finding| asked.has(finding))
        .collect();
    found.sort_by(|one, other| (&one.time, &one.batch).cmp(&(&other.time, &other.batch)));
    let lines = found.iter().map(|finding| match objects {
        Some(objects) => finding.json(objects),
        None => line(finding),
    });
    print(lines.collect::<String>().as_bytes())?;
    Ok(Status::Success)
}

/// Which results are asked for.
struct Asked<'a> {
    since: Option<&'a str>,
    state: Option<State>,
    verdict: Option<u64>,
}

impl Asked<'_> {
    fn read(given: &Given) -> Result<Asked<'_>, NotRun> {
        let since = given.value(&SINCE).map(|word| {
            let word = word.to_str().filter(|word| time::is_moment(word));
            word.ok_or_else(|| {
                NotRun::new(
                    "--since takes a day, as 2026-11-16, or a time, as 2026-11-16T08:30:00Z",
                )
            })
        });
        let state = given.value(&STATE).map(|word| {
            let words = State::ALL.map(State::word).join(", ");
            State::named(word).ok_or_else(|| NotRun(format!("--state takes one of {words}")))
        });
        let verdict = given.value(&VERDICT).map(|word| {
            let verdict = verdicts::number(word.as_bytes()).and_then(verdicts::verdict);
            verdict.map(|verdict| verdict.number).ok_or_else(|| {
                NotRun::new("--verdict takes the number of a verdict ('explain --help' says which there are)")
            })
        });
        Ok(Asked {
            since: since.transpose()?,
            state: state.transpose()?,
            verdict: verdict.transpose()?,
        })
    }

    fn has(&self, finding: &Finding) -> bool {
        let verdict = finding.audited.map(|audited| audited.verdict);
        let time = &*finding.time;
        // A row of an earlier version may have none.
        self.since
            .is_none_or(|since| time.is_empty() || time >= since)
            && self.state.is_none_or(|state| finding.state == state)
            && self.verdict.is_none_or(|number| verdict == Some(number))
    }
}

/// A line for a person: name, time, state, verdict and sentence, with a tab between two of them.
fn line(finding: &Finding) -> String {
    let verdict = finding.audited.map(|audited| audited.verdict.to_string());
    let fields = [
        &shown::name(&finding.batch),
        &finding.time,
        finding.state.word(),
        &verdict.unwrap_or_default(),
        &finding.sentence,
    ];
    fields.join("\t") + "\n"
}

/// Opens a folder, and sees that it is one that `audit-all` made.
fn open(folder: &Path) -> Result<File, NotRun> {
    let opened = texts::open_folder(folder)?;
    let name = shown::name(folder.as_os_str());
    match files::read_one(&opened, MARKER)? {
        Some(mark) if mark == MARK => Ok(opened),
        Some(_) => Err(NotRun(format!(
            "{name} was made by another version of this program"
        ))),
        None => Err(NotRun(format!(
            "{name} holds no results of 'teaselshears audit-all'"
        ))),
    }
}

type Findings = BTreeMap<OsString, Finding>;

/// What is kept, as the proved function finds it now; and what the last run could not keep, or found changed, as its table says.
fn found(folder: &Path, opened: &File, auditor: &mut Auditor) -> Result<Findings, NotRun> {
    let mut found = Findings::new();
    for name in kept::names(folder)? {
        if let Some(finding) = kept::found(folder, &name, auditor)? {
            found.insert(name, finding);
        }
    }
    for told in told(opened)? {
        let finding = match found.get(&told.batch) {
            None if told.state.is_verdict() => damaged(told.batch, "its kept result is gone"),
            None => told,
            Some(kept) => match together(kept, told) {
                Some(finding) => finding,
                None => continue,
            },
        };
        found.insert(finding.batch.clone(), finding);
    }
    Ok(found)
}

/// What is found of a batch that has a kept result and a row in the table, where that is not what the kept result says by itself.
/// Only a run that looked at the spool can say that a batch changed or could not be read; and what it accepted or refused is what
/// was kept.
fn together(kept: &Finding, told: Finding) -> Option<Finding> {
    let refused = |finding: &Finding| finding.state == State::Refused;
    let both = kept.state.is_verdict() && told.state.is_verdict();
    match told.state {
        _ if kept.state == State::Damaged => None,
        State::Changed | State::Failed => Some(told),
        _ if both && refused(kept) != refused(&told) => Some(damaged(
            told.batch,
            "its kept result is not the one that the table is of",
        )),
        _ => None,
    }
}

fn damaged(name: OsString, sentence: &str) -> Finding {
    Finding::none(name, State::Damaged, sentence.to_owned())
}

/// What the table says that the last run left, if one has ended.
fn told(folder: &File) -> Result<Vec<Finding>, NotRun> {
    let name = table::FILE;
    match files::read_one(folder, name)? {
        None => Ok(Vec::new()),
        Some(bytes) => table::findings(&bytes).ok_or_else(|| {
            let name = name.to_string_lossy();
            NotRun(format!("{name} is not a table of this program"))
        }),
    }
}
