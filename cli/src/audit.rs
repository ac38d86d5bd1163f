//! `teaselshears audit`: the batches of some folders, or those named on standard input.

use crate::arguments::{Given, Objects, BRIEF, COMPLETE, JSON, MISSING_AS_EMPTY, NULL};
use crate::commands::Command;
use crate::findings::{Auditor, Finding, State, Wanted};
use crate::help;
use crate::outcome::{print_to, say, standard_output, NotRun, Status};
use crate::shown;
use crate::texts::{Missing, Texts, BATCH};
use std::ffi::{OsStr, OsString};
use std::io::{self, BufRead};
use std::os::unix::ffi::OsStringExt;
use std::path::Path;

pub const COMMAND: Command = Command {
    name: "audit",
    flags: &[BRIEF, COMPLETE, JSON, MISSING_AS_EMPTY, NULL],
    help: help::AUDIT,
    run,
};

fn run(given: &Given) -> Result<Status, NotRun> {
    let objects = given.objects()?;
    let mut audits = Audits {
        missing: missing(given),
        auditor: Auditor::new(wanted(given)),
    };
    let folders = &given.arguments;
    match (given.dash, objects) {
        _ if folders.is_empty() => Err(NotRun::new("a folder is to be given ('--help' says more)")),
        (true, _) if folders.len() > 1 => Err(NotRun::new(
            "'-', for names on standard input, stands alone ('-- -' is a folder of that name)",
        )),
        (true, None) => Err(NotRun::new("names on standard input need --json")),
        (false, _) if given.has(&NULL) => Err(NotRun::new(
            "--null is for names on standard input ('-' in place of the folder)",
        )),
        (true, Some(objects)) => {
            let end = if given.has(&NULL) { 0 } else { b'\n' };
            print_objects(names_given(end), objects, &mut audits)
        }
        (false, Some(objects)) => {
            let folders = folders
                .iter()
                .map(|folder| Ok(Named::Ended(folder.clone())));
            print_objects(folders, objects, &mut audits)
        }
        (false, None) => print_lines(folders, &mut audits),
    }
}

/// What to do about missing files, as the options have it.
pub fn missing(given: &Given) -> Missing {
    match given.has(&MISSING_AS_EMPTY) {
        true => Missing::AsEmpty,
        false => Missing::NotRun,
    }
}

/// What an accepted batch has to be, as the options have it.
pub fn wanted(given: &Given) -> Wanted {
    match given.has(&COMPLETE) {
        true => Wanted::Complete,
        false => Wanted::Accepted,
    }
}

struct Audits {
    missing: Missing,
    auditor: Auditor,
}

impl Audits {
    /// What is found of a folder, and what the proved function printed of it, if it could be asked.
    fn look_at(&mut self, folder: &OsStr) -> (Finding, Vec<u8>) {
        Texts::read(Path::new(folder), &BATCH, self.missing)
            .and_then(|texts| self.auditor.audit(folder.to_owned(), &texts))
            .unwrap_or_else(|why| (failed(folder.to_owned(), &why), Vec::new()))
    }
}

fn failed(folder: OsString, why: &NotRun) -> Finding {
    Finding::none(folder, State::Failed, why.sentence())
}

/// What the proved function prints of each folder, under the folder's name where there are several, and a sentence for each.
fn print_lines(folders: &[OsString], audits: &mut Audits) -> Result<Status, NotRun> {
    let mut output = standard_output()?;
    let mut status = Status::Success;
    for folder in folders {
        let (finding, mut printed) = audits.look_at(folder);
        let mut sentence = finding.sentence;
        if folders.len() > 1 {
            let name = shown::name(folder);
            sentence = format!("{name}: {sentence}");
            if !printed.is_empty() {
                printed.splice(..0, format!("batch={name}\n").into_bytes());
            }
        }
        print_to(&mut output, &printed)?;
        say(&sentence);
        status = status.max(finding.state.status());
    }
    Ok(status)
}

/// A name as it was given; the last one on standard input may have been cut off.
enum Named {
    Ended(OsString),
    CutOff(OsString),
}

/// An object for each folder that is named, in their order.
fn print_objects(
    names: impl Iterator<Item = Result<Named, NotRun>>,
    objects: Objects,
    audits: &mut Audits,
) -> Result<Status, NotRun> {
    let mut output = standard_output()?;
    let mut status = None;
    for name in names {
        let finding = match name? {
            Named::Ended(name) => audits.look_at(&name).0,
            Named::CutOff(name) => {
                let why = NotRun::new("the name is not ended by a zero byte, and may be cut off");
                failed(name, &why)
            }
        };
        print_to(&mut output, finding.json(objects).as_bytes())?;
        status = status.max(Some(finding.state.status()));
    }
    status.ok_or_else(|| NotRun::new("standard input names no folder"))
}

/// The names on standard input, each ended by this byte. The last line feed may be left out, as in any text; a zero byte may not.
fn names_given(end: u8) -> impl Iterator<Item = Result<Named, NotRun>> {
    let mut input = io::stdin().lock();
    std::iter::from_fn(move || {
        let mut name = Vec::new();
        match input.read_until(end, &mut name) {
            Ok(0) => return None,
            Ok(_) => {}
            Err(why) => return Some(Err(NotRun(format!("standard input cannot be read: {why}")))),
        }
        let ended = name.pop_if(|last| *last == end).is_some() || end != 0;
        let name = OsString::from_vec(name);
        Some(Ok(match ended {
            true => Named::Ended(name),
            false => Named::CutOff(name),
        }))
    })
}
