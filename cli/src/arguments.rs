//! The words of the command line: options anywhere before `--`, and arguments.

use crate::outcome::NotRun;
use crate::shown;
use std::ffi::{OsStr, OsString};
use std::fs;
use std::io;
use std::os::unix::ffi::{OsStrExt, OsStringExt};

/// An option of a command.
pub struct Flag {
    pub long: &'static str,
    pub short: Option<u8>,
    pub takes_value: bool,
}

/// Every command has this one.
pub const HELP: Flag = flag("--help", Some(b'h'));
pub const BRIEF: Flag = flag("--brief", None);
pub const COMPLETE: Flag = flag("--complete", None);
pub const JOBS: Flag = valued("--jobs", Some(b'j'));
pub const JSON: Flag = flag("--json", None);
pub const LIST: Flag = valued("--list", None);
pub const MISSING_AS_EMPTY: Flag = flag("--missing-as-empty", None);
pub const NULL: Flag = flag("--null", Some(b'0'));
pub const SINCE: Flag = valued("--since", None);
pub const STATE: Flag = valued("--state", None);
pub const VERDICT: Flag = valued("--verdict", None);

const fn flag(long: &'static str, short: Option<u8>) -> Flag {
    Flag {
        long,
        short,
        takes_value: false,
    }
}

const fn valued(long: &'static str, short: Option<u8>) -> Flag {
    Flag {
        takes_value: true,
        ..flag(long, short)
    }
}

/// What was given.
#[derive(Debug, Default)]
pub struct Given {
    options: Vec<(&'static str, Option<OsString>)>,
    pub arguments: Vec<OsString>,
    /// Whether one of them is a dash that stands for standard input: behind `--` it is a name like any other.
    pub dash: bool,
}

impl Given {
    pub fn has(&self, flag: &Flag) -> bool {
        self.options.iter().any(|(long, _)| *long == flag.long)
    }

    /// How an object is to be printed, where one is.
    pub fn objects(&self) -> Result<Option<Objects>, NotRun> {
        match (self.has(&JSON), self.has(&BRIEF)) {
            (true, true) => Ok(Some(Objects::Brief)),
            (true, false) => Ok(Some(Objects::Whole)),
            (false, true) => Err(NotRun::new("--brief is for --json")),
            (false, false) => Ok(None),
        }
    }

    /// The value of an option; of several the last.
    pub fn value(&self, flag: &Flag) -> Option<&OsStr> {
        let mut given = self.options.iter().rev();
        given.find(|(long, _)| *long == flag.long)?.1.as_deref()
    }

    /// So many arguments, or a sentence on what they are.
    pub fn exactly<const N: usize>(&self, what: &str) -> Result<[&OsStr; N], NotRun> {
        let arguments: Vec<&OsStr> = self.arguments.iter().map(OsString::as_os_str).collect();
        let found = arguments.len();
        arguments.try_into().map_err(|_| {
            NotRun(format!(
                "{what} to be given, and not {found} ('--help' says more)"
            ))
        })
    }
}

/// Whether objects of JSON have their orders.
#[derive(Clone, Copy, Debug, PartialEq, Eq)]
pub enum Objects {
    Whole,
    Brief,
}

/// Reads the words of a command that has these options, and the one that every command has.
pub fn read(words: &[OsString], flags: &[Flag]) -> Result<Given, NotRun> {
    let mut words = words.iter().cloned();
    let mut given = Given::default();
    while let Some(word) = words.next() {
        if word == "--" {
            given.arguments.extend(words);
            return Ok(given);
        }
        if word == "-" || !word.as_bytes().starts_with(b"-") {
            given.dash |= word == "-";
            given.arguments.push(word);
            continue;
        }
        let (flag, attached) = find(&word, flags)?;
        is_no_name(&word)?;
        let value = match (flag.takes_value, attached) {
            (true, None) => Some(words.next().ok_or_else(|| needs_value(flag))?),
            (_, attached) => attached,
        };
        given.options.push((flag.long, value));
    }
    Ok(given)
}

/// Refuses a word that is a name in the working folder: a shell may have put it there (`audit *`), and what it names would be
/// passed over, or the status of a help text taken for that of a batch.
pub fn is_no_name(word: &OsStr) -> Result<(), NotRun> {
    match fs::symlink_metadata(word) {
        Err(why) if why.kind() == io::ErrorKind::NotFound => Ok(()),
        _ => {
            let word = shown::name(word);
            Err(NotRun(format!(
                "'{word}' is a name in this folder, so it is not taken for an option or a question; a folder of that name is './{word}'"
            )))
        }
    }
}

/// The option that a word names, with the value that stands in the same word.
fn find<'a>(word: &OsStr, flags: &'a [Flag]) -> Result<(&'a Flag, Option<OsString>), NotRun> {
    let found = flags
        .iter()
        .chain([&HELP])
        .find_map(|flag| Some((flag, value_in(word.as_bytes(), flag)?)));
    let word = shown::name(word);
    found.ok_or_else(|| {
        NotRun(format!(
            "unknown option '{word}' ('--help' lists the options)"
        ))
    })
}

/// What stands behind an option in its word, as in `--jobs=3` or `-j3`, if anything; none where the word is another.
fn value_in(word: &[u8], flag: &Flag) -> Option<Option<OsString>> {
    let long = word.strip_prefix(flag.long.as_bytes());
    let short = flag.short.map(|letter| [b'-', letter]);
    let short = short.and_then(|short| word.strip_prefix(&short));
    let value = match (long, short) {
        (Some([]), _) | (_, Some([])) => return Some(None),
        (Some([b'=', value @ ..]), _) | (None, Some(value)) if flag.takes_value => value,
        _ => return None,
    };
    Some(Some(OsString::from_vec(value.to_vec())))
}

fn needs_value(flag: &Flag) -> NotRun {
    NotRun(format!("{} needs a value", flag.long))
}

#[cfg(test)]
mod tests {
    use super::*;

    fn read_words(words: &[&str]) -> Result<Given, NotRun> {
        let words: Vec<OsString> = words.iter().map(OsString::from).collect();
        read(&words, &[JSON, JOBS, BRIEF])
    }

    #[test]
    fn options_stand_anywhere_before_two_dashes() {
        let given = read_words(&["a", "--json", "-", "-j", "3", "--", "--help"]).unwrap();
        assert!(given.has(&JSON) && !given.has(&HELP));
        assert_eq!(given.value(&JOBS), Some(OsStr::new("3")));
        assert_eq!(given.arguments, ["a", "-", "--help"]);
        assert!(given.dash && !read_words(&["--", "-"]).unwrap().dash);
        for words in [["--jobs=4"], ["-j4"]] {
            assert_eq!(
                read_words(&words).unwrap().value(&JOBS),
                Some(OsStr::new("4"))
            );
        }
    }

    #[test]
    fn an_order_can_be_left_out_of_objects_alone() {
        let objects = |words: &[&str]| read_words(words).unwrap().objects();
        assert_eq!(objects(&[]).unwrap(), None);
        assert_eq!(objects(&["--json"]).unwrap(), Some(Objects::Whole));
        let brief = objects(&["--json", "--brief"]).unwrap();
        assert_eq!(brief, Some(Objects::Brief));
        assert!(objects(&["--brief"]).is_err());
    }

    #[test]
    fn what_is_not_an_option_is_said() {
        for words in [
            ["--jsonx"],
            ["--json=1"],
            ["-x"],
            ["-hx"],
            ["--jobs"],
            ["-j"],
            ["---"],
        ] {
            assert!(read_words(&words).is_err(), "{words:?}");
        }
    }
}
