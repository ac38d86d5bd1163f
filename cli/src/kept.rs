//! A kept result: the folder that `audit-all` leaves of a batch. It counts only where the proved function, asked again for the kept
//! texts, prints what was kept; who has written over it gets no verdict by it.

use crate::files;
use crate::findings::{Auditor, Finding, Program, State};
use crate::outcome::NotRun;
use crate::shown;
use crate::system;
use crate::texts::{self, Text, Texts, BATCH};
use crate::time;
use crate::verdicts;
use std::ffi::{CStr, OsStr, OsString};
use std::fmt::Display;
use std::fs;
use std::io;
use std::path::{Path, PathBuf};

/// The file by which a folder is known as one of results, and what it says.
pub const MARKER: &CStr = c".teaselshears";
pub const MARK: &[u8] = b"teaselshears results 1\n";
/// What is kept of a batch beside its texts.
const OUTPUT: &CStr = c"output";
const ABOUT: &CStr = c"about";
/// More than any kept file has.
const LIMIT: u64 = 1 << 20;
/// The lines that every version printed first: verdict, line and the two counts.
const FIRST_LINES: usize = 4;

/// Where the results of a folder are kept, one by the name of each batch.
pub fn batches(folder: &Path) -> PathBuf {
    folder.join("batches")
}

/// The names that have a result.
pub fn names(folder: &Path) -> Result<Vec<OsString>, NotRun> {
    texts::names_in(&batches(folder))
        .map_err(|why| NotRun(format!("the kept results cannot be read: {why}")))
}

pub struct Kept {
    pub texts: Texts,
    output: Vec<u8>,
    about: About,
}

/// Why a kept result says nothing: it is damaged, or it could not be read now.
pub struct Unusable {
    state: State,
    sentence: String,
}

impl Unusable {
    fn damaged(why: impl Display) -> Unusable {
        Unusable {
            state: State::Damaged,
            sentence: format!("its kept result is damaged: {why}"),
        }
    }

    fn unread(why: impl Display) -> Unusable {
        Unusable {
            state: State::Failed,
            sentence: format!("its kept result cannot be used: {why}"),
        }
    }

    pub fn finding(self, name: OsString) -> Finding {
        Finding::none(name, self.state, self.sentence)
    }
}

impl Kept {
    /// The result that was kept of a name, if any.
    pub fn read(folder: &Path, name: &OsStr) -> Result<Option<Kept>, Unusable> {
        let opened = match system::open_folder(&batches(folder).join(name)) {
            Ok(opened) => opened,
            Err(why) => match why.kind() {
                io::ErrorKind::NotFound => return Ok(None),
                io::ErrorKind::NotADirectory => {
                    return Err(Unusable::damaged("it is not a folder"))
                }
                _ => return Err(Unusable::unread(why)),
            },
        };
        let texts = BATCH.into_iter().map(Text::c_name);
        let names: Vec<&CStr> = texts.chain([OUTPUT, ABOUT]).collect();
        let read =
            files::read(&opened, &names, LIMIT).map_err(|NotRun(why)| Unusable::unread(why))?;
        let mut contents = Vec::new();
        for (name, bytes) in names.iter().zip(read) {
            let gone = || Unusable::damaged(format!("{} is not there", name.to_string_lossy()));
            contents.push(bytes.ok_or_else(gone)?);
        }
        let about = contents.pop().and_then(|bytes| About::read(&bytes));
        let about = about.ok_or_else(|| Unusable::damaged("about is not as it was written"))?;
        let output = contents.pop().unwrap_or_default();
        let texts = Texts::of(BATCH.into_iter().zip(contents).collect());
        Ok(Some(Kept {
            texts,
            output,
            about,
        }))
    }

    /// What the proved function finds of the kept texts now, where that is what was kept; with the time at which it was kept, and the
    /// program that kept it.
    pub fn finding(&self, name: &OsStr, auditor: &mut Auditor) -> Result<Finding, NotRun> {
        let (finding, printed) = auditor.audit(name.to_owned(), &self.texts)?;
        let About { time, program, .. } = &self.about;
        let ours = program.library == Program::this().library;
        let same = match ours {
            true => self.output == printed,
            false => are_among(&self.output, &printed),
        };
        if same {
            return Ok(Finding {
                time: time.clone(),
                program: program.clone(),
                ..finding
            });
        }
        if ours {
            let why = "output is not what this library prints of the kept texts";
            return Ok(Unusable::damaged(why).finding(finding.batch));
        }
        let sentence = format!(
            "kept by version {}, library {}, as {}; this library gives {}: to have it audited anew, remove its kept result",
            program.version,
            program.library,
            verdict_of(&self.output),
            verdict_of(&printed)
        );
        Ok(Finding::none(finding.batch, State::Outdated, sentence))
    }
}

/// What is found of a name that has a result; none where that is gone meanwhile.
pub fn found(
    folder: &Path,
    name: &OsStr,
    auditor: &mut Auditor,
) -> Result<Option<Finding>, NotRun> {
    match Kept::read(folder, name) {
        Ok(Some(kept)) => kept.finding(name, auditor).map(Some),
        Ok(None) => Ok(None),
        Err(unusable) => Ok(Some(unusable.finding(name.to_owned()))),
    }
}

/// Whether the lines of an output that another library printed are lines of what is printed now, in their order, with the verdict in
/// front: versions without a bill, or without an order, printed less.
fn are_among(output: &[u8], printed: &[u8]) -> bool {
    let mut now = lines(printed);
    let front = lines(output)
        .take(FIRST_LINES)
        .eq(lines(printed).take(FIRST_LINES));
    front && lines(output).all(|line| now.any(|other| other == line))
}

fn lines(bytes: &[u8]) -> impl Iterator<Item = &[u8]> {
    bytes.split_inclusive(|byte| *byte == b'\n')
}

fn verdict_of(output: &[u8]) -> String {
    match verdicts::numbers(output, ["verdict=", "line="]) {
        Some(([verdict, line], _)) => format!("verdict {verdict}, line {line}"),
        None => "no verdict".to_owned(),
    }
}

/// Writes a result to a folder that is there.
pub fn write(folder: &Path, finding: &Finding, texts: &Texts, printed: &[u8]) -> io::Result<()> {
    for text in BATCH {
        fs::write(folder.join(text.file()), texts.bytes(text))?;
    }
    let about = About::of(finding).text();
    for (name, bytes) in [(OUTPUT, printed), (ABOUT, about.as_bytes())] {
        fs::write(folder.join(&*name.to_string_lossy()), bytes)?;
    }
    Ok(())
}

/// What is kept of a result beside its texts and its output. The sentence is for whoever looks at the file, and is not read again.
struct About {
    time: String,
    program: Program,
    sentence: String,
}

impl About {
    fn of(finding: &Finding) -> About {
        About {
            time: finding.time.clone(),
            program: finding.program.clone(),
            sentence: finding.sentence.clone(),
        }
    }

    fn text(&self) -> String {
        let About { time, sentence, .. } = self;
        let Program {
            version,
            library,
            kit,
        } = &self.program;
        format!(
            "time={time}\nversion={version}\nlibrary={library}\nkit={kit}\nsentence={sentence}\n"
        )
    }

    fn read(bytes: &[u8]) -> Option<About> {
        let text = std::str::from_utf8(bytes).ok()?;
        let mut lines = text.strip_suffix('\n')?.split('\n');
        let mut value = |word: &str| {
            let value = lines.next()?.strip_prefix(word)?;
            // It is shown to people, and anything may have been written there.
            shown::is_harmless(value).then(|| value.to_owned())
        };
        let time = value("time=").filter(|time| time::is_time(time))?;
        let program = Program {
            version: value("version=")?,
            library: value("library=")?,
            kit: value("kit=")?,
        };
        let sentence = value("sentence=")?;
        lines.next().is_none().then_some(About {
            time,
            program,
            sentence,
        })
    }
}

#[cfg(test)]
mod tests {
    use super::*;

    const PRINTED: &[u8] = b"verdict=0\nline=0\nrequests=1\noperations=1\nblocks=0\nrest=1\n\
event=1\nop=1,1\nevent=2\n";

    #[test]
    fn an_earlier_output_has_lines_of_todays() {
        for output in [
            PRINTED,
            b"verdict=0\nline=0\nrequests=1\noperations=1\n",
            b"verdict=0\nline=0\nrequests=1\noperations=1\nevent=1\nop=1,1\nevent=2\n",
            b"verdict=0\nline=0\nrequests=1\noperations=1\nblocks=0\nrest=1\n",
        ] {
            assert!(are_among(output, PRINTED), "{output:?}");
        }
    }

    #[test]
    fn an_output_that_says_something_else_has_not() {
        for output in [
            &b""[..],
            b"verdict=0\n",
            b"verdict=0\nline=0\nrequests=1\n",
            b"line=0\nrequests=1\noperations=1\nblocks=0\n",
            b"verdict=9\nline=0\nrequests=0\noperations=0\n",
            b"verdict=0\nline=0\nrequests=1\noperations=2\n",
            b"verdict=0\nline=0\nrequests=1\noperations=1\nblocks=1\nrest=0\n",
            b"verdict=0\nline=0\nrequests=1\noperations=1\nevent=2\nevent=1\n",
            b"verdict=0\nline=0\nrequests=1\noperations=1\nevent=1\nevent=1\n",
            b"verdict=0\nline=0\nrequests=1\noperations=1\nevent=2",
            b"verdict=0\nline=0\nrequests=1\noperations=1\n\n",
        ] {
            assert!(!are_among(output, PRINTED), "{output:?}");
        }
    }

    #[test]
    fn what_is_about_a_result_is_read_as_it_was_written() {
        let text = "time=2026-11-16T08:30:00Z\nversion=v\nlibrary=l\nkit=k\nsentence=s = t\n";
        assert_eq!(About::read(text.as_bytes()).unwrap().text(), text);
        for wrong in [
            "",
            "time=2026-11-16T08:30:00Z\n",
            &text[1..],
            &text[..text.len() - 1],
            &format!("{text}\n"),
            &text.replace("T08:30:00Z", ""),
            &text.replace("2026", "today"),
            &text.replace("version=v", "version=\x1b[2J"),
            &text.replace("library=l", "library=\u{202e}"),
        ] {
            assert!(About::read(wrong.as_bytes()).is_none(), "{wrong:?}");
        }
    }
}
