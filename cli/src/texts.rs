//! The texts of a folder, each read once into memory. What was read is what is audited, kept and compared.

use crate::files;
use crate::outcome::NotRun;
use crate::shown;
use crate::system;
use std::ffi::{CStr, OsString};
use std::fs::{self, File};
use std::io;
use std::path::Path;

/// One byte more than a text may have, so that an overlong one is seen as such.
const READ_LIMIT: u64 = 65_536;

/// A text by the name of its file.
#[derive(Clone, Copy, Debug, PartialEq, Eq)]
pub enum Text {
    Programs,
    Trace,
    Report,
    Schedule,
}

/// What the audit reads, and what the reference host reads.
pub const BATCH: [Text; 3] = [Text::Programs, Text::Trace, Text::Report];
pub const RUN: [Text; 2] = [Text::Programs, Text::Schedule];

impl Text {
    pub fn file(self) -> &'static str {
        let name = self.c_name();
        name.to_str().expect("the names are ASCII")
    }

    pub fn c_name(self) -> &'static CStr {
        match self {
            Text::Programs => c"programs.txt",
            Text::Trace => c"trace.txt",
            Text::Report => c"report.txt",
            Text::Schedule => c"schedule.txt",
        }
    }
}

/// What was read of a folder.
#[derive(Debug, Default)]
pub struct Texts {
    read: Vec<(Text, Vec<u8>)>,
    /// Those that were not there, and were read as empty.
    pub missing: Vec<Text>,
}

/// What to do about a text that is not there.
#[derive(Clone, Copy, PartialEq, Eq)]
pub enum Missing {
    NotRun,
    AsEmpty,
}

impl Texts {
    pub fn of(read: Vec<(Text, Vec<u8>)>) -> Texts {
        Texts {
            read,
            missing: Vec::new(),
        }
    }

    /// Reads the texts of a folder. One with none of them is no batch, whatever is said of missing ones.
    pub fn read(folder: &Path, texts: &[Text], missing: Missing) -> Result<Texts, NotRun> {
        let opened = open_folder(folder)?;
        let names: Vec<&CStr> = texts.iter().map(|text| text.c_name()).collect();
        let mut found = Texts::default();
        for (text, bytes) in texts.iter().zip(files::read(&opened, &names, READ_LIMIT)?) {
            match bytes {
                Some(bytes) => found.read.push((*text, bytes)),
                None => found.missing.push(*text),
            }
        }
        if found.read.is_empty() || (missing == Missing::NotRun && !found.missing.is_empty()) {
            let files: Vec<&str> = found.missing.iter().map(|text| text.file()).collect();
            return Err(NotRun(format!("not there: {}", files.join(", "))));
        }
        Ok(found)
    }

    /// The bytes of a text; none of one that was not read.
    pub fn bytes(&self, text: Text) -> &[u8] {
        let found = self.read.iter().find(|(read, _)| *read == text);
        found.map_or(&[], |(_, bytes)| bytes)
    }

    /// The first text whose bytes differ from those of the other.
    pub fn first_difference(&self, other: &Texts) -> Option<Text> {
        BATCH
            .into_iter()
            .find(|text| self.bytes(*text) != other.bytes(*text))
    }
}

/// How many lines of a text begin with this word.
pub fn lines_of(text: &[u8], word: &[u8]) -> u64 {
    let lines = text.split(|byte| *byte == b'\n');
    lines.filter(|line| line.starts_with(word)).count() as u64
}

pub fn open_folder(path: &Path) -> Result<File, NotRun> {
    if path.as_os_str().is_empty() {
        return Err(NotRun::new("the name of the folder is empty"));
    }
    system::open_folder(path).map_err(|why| {
        let name = shown::name(path.as_os_str());
        match why.kind() {
            io::ErrorKind::NotFound => NotRun(format!("{name} is not there")),
            io::ErrorKind::NotADirectory => NotRun(format!("{name} is not a folder")),
            _ => NotRun(format!("{name} cannot be entered: {why}")),
        }
    })
}

/// The names in a folder.
pub fn names_in(folder: &Path) -> io::Result<Vec<OsString>> {
    let entries = fs::read_dir(folder)?;
    entries
        .map(|entry| entry.map(|entry| entry.file_name()))
        .collect()
}
