//! The commands, and which of them the words of the command line ask for.

use crate::arguments::{self, Flag, Given, HELP};
use crate::outcome::{print, NotRun, Status};
use crate::{audit, audit_all, explain, help, order, record, results, shown};
use std::ffi::{OsStr, OsString};

pub struct Command {
    pub name: &'static str,
    pub flags: &'static [Flag],
    pub help: &'static str,
    pub run: fn(&Given) -> Result<Status, NotRun>,
}

const COMMANDS: [&Command; 6] = [
    &audit::COMMAND,
    &order::COMMAND,
    &record::COMMAND,
    &audit_all::COMMAND,
    &results::COMMAND,
    &explain::COMMAND,
];

pub fn run(words: &[OsString]) -> Result<Status, NotRun> {
    let Some((first, rest)) = words.split_first() else {
        return Err(NotRun::new(
            "no command is given ('teaselshears --help' lists them)",
        ));
    };
    match (first.to_str(), rest) {
        (Some("-h" | "--help" | "help"), []) => tell(first, help::PROGRAM),
        (Some("help"), [name]) if name == "help" => tell(first, help::PROGRAM),
        (Some("-V" | "--version"), []) => tell(first, &help::version()),
        (Some("help"), [name]) => tell(first, find(name)?.help),
        (Some("-h" | "--help" | "help" | "-V" | "--version"), _) => Err(not_alone(first)),
        _ => find(first)?.called(rest),
    }
}

impl Command {
    fn called(&self, words: &[OsString]) -> Result<Status, NotRun> {
        let given = arguments::read(words, self.flags)?;
        match words {
            [word] if given.has(&HELP) => tell(word, self.help),
            _ if given.has(&HELP) => Err(not_alone(OsStr::new(HELP.long))),
            _ => (self.run)(&given),
        }
    }
}

/// Prints a text that was asked for by a word.
fn tell(word: &OsStr, text: &str) -> Result<Status, NotRun> {
    arguments::is_no_name(word)?;
    print(text.as_bytes())?;
    Ok(Status::Success)
}

fn not_alone(word: &OsStr) -> NotRun {
    let word = shown::name(word);
    NotRun(format!(
        "'{word}' is answered where nothing else is asked; 'teaselshears help COMMAND' says more of a command"
    ))
}

fn find(word: &OsStr) -> Result<&'static Command, NotRun> {
    let found = COMMANDS.into_iter().find(|command| word == command.name);
    found.ok_or_else(|| {
        let hint = nearest(&word.to_string_lossy());
        let hint = hint.map_or(String::new(), |name| format!("; is '{name}' meant?"));
        let word = shown::name(word);
        NotRun(format!(
            "there is no command '{word}'{hint} ('teaselshears --help' lists them)"
        ))
    })
}

/// The command that a mistyped word is nearest to, if it is near to one.
fn nearest(word: &str) -> Option<&'static str> {
    let word = word.to_lowercase();
    let names = COMMANDS.map(|command| command.name).into_iter();
    let apart = names.map(|name| (distance(&word, name), name));
    let (apart, name) = apart.min()?;
    (apart <= 2).then_some(name)
}

/// How many letters have to be put in, taken out or exchanged to make one word of the other.
fn distance(from: &str, to: &str) -> usize {
    let to: Vec<char> = to.chars().collect();
    let mut row: Vec<usize> = (0..=to.len()).collect();
    for (line, letter) in from.chars().enumerate() {
        let mut above = row[0];
        row[0] = line + 1;
        for (column, other) in to.iter().enumerate() {
            let exchanged = above + usize::from(letter != *other);
            above = row[column + 1];
            row[column + 1] = exchanged.min(above + 1).min(row[column] + 1);
        }
    }
    row[to.len()]
}

#[cfg(test)]
mod tests {
    use super::*;

    #[test]
    fn words_are_so_far_apart() {
        assert_eq!(distance("", "audit"), 5);
        assert_eq!(distance("audit", "audit"), 0);
        assert_eq!(distance("adit", "audit"), 1);
        assert_eq!(distance("auditt", "audit"), 1);
        assert_eq!(distance("aduit", "audit"), 2);
        assert_eq!(distance("kitten", "sitting"), 3);
    }

    #[test]
    fn a_mistyped_command_has_a_nearest() {
        for (word, name) in [
            ("adit", "audit"),
            ("AUDIT", "audit"),
            ("audit_all", "audit-all"),
            ("auditall", "audit-all"),
            ("reslts", "results"),
            ("oder", "order"),
        ] {
            assert_eq!(nearest(word), Some(name), "{word}");
        }
        for word in ["", "/", "wipe", "everything", "\u{fffd}"] {
            assert_eq!(nearest(word), None, "{word}");
        }
    }
}
