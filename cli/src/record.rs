//! `teaselshears record`: the run of a schedule, and the batch that it means written to a folder.

mod new_folder;

use crate::arguments::{Given, MISSING_AS_EMPTY};
use crate::audit::missing;
use crate::commands::Command;
use crate::findings;
use crate::help;
use crate::outcome::{count, print, say, NotRun, Status};
use crate::proved::Proved;
use crate::shown;
use crate::system;
use crate::texts::{lines_of, Missing, Text, Texts, BATCH, RUN};
use crate::verdicts;
use new_folder::NewFolder;
use std::fs::{self, File};
use std::io::{self, Write};
use std::path::{Path, PathBuf};

pub const COMMAND: Command = Command {
    name: "record",
    flags: &[MISSING_AS_EMPTY],
    help: help::RECORD,
    run,
};

fn run(given: &Given) -> Result<Status, NotRun> {
    let [folder, out] = given.exactly("two folders are")?;
    let texts = Texts::read(Path::new(folder), &RUN, missing(given))?;
    let mut proved = Proved::new();
    let printed = proved.record(&texts)?;
    let recorded = Recorded::read(printed).ok_or_else(|| {
        NotRun::new("the library's answer is no verdict with a trace and a report")
    })?;
    if recorded.verdict != 0 {
        print(recorded.front)?;
        say(&findings::refused(recorded.verdict, recorded.line, &texts));
        return Ok(Status::Refused);
    }
    let batch = Texts::of(vec![
        (Text::Programs, texts.bytes(Text::Programs).to_vec()),
        (Text::Trace, recorded.trace.to_vec()),
        (Text::Report, recorded.report.to_vec()),
    ]);
    publish(Path::new(out), &batch)?;
    print(recorded.front)?;
    let requests = count(lines_of(recorded.report, b"of="), "request");
    let operations = count(lines_of(recorded.report, b"log="), "operation");
    let open = findings::left_open(recorded.trace);
    let (name, missing) = (shown::name(out), findings::missing(&texts));
    say(&format!(
        "recorded to {name}: {requests}, {operations}{open}{missing}"
    ));
    Ok(Status::Success)
}

/// What the host printed, in its parts.
struct Recorded<'a> {
    verdict: u64,
    line: u64,
    /// The lines before the trace.
    front: &'a [u8],
    trace: &'a [u8],
    report: &'a [u8],
}

impl Recorded<'_> {
    /// Takes what was printed apart; none where it is not these parts in this order, and nothing else.
    fn read(printed: &[u8]) -> Option<Recorded<'_>> {
        let ([verdict, line], rest) = verdicts::numbers(printed, ["verdict=", "line="])?;
        let front = &printed[..printed.len() - rest.len()];
        let trace = lines_with(rest, &[b"request=", b"response="]);
        let report = lines_with(&rest[trace.len()..], &[b"of=", b"log="]);
        let whole = trace.len() + report.len() == rest.len() && (verdict == 0 || rest.is_empty());
        whole.then_some(Recorded {
            verdict,
            line,
            front,
            trace,
            report,
        })
    }
}

/// The lines in front that begin with one of these words.
fn lines_with<'a>(text: &'a [u8], words: &[&[u8]]) -> &'a [u8] {
    let lines = text.split_inclusive(|byte| *byte == b'\n');
    let front = lines.take_while(|line| words.iter().any(|word| line.starts_with(word)));
    &text[..front.map(<[u8]>::len).sum()]
}

/// Writes a batch to a new folder beside OUT, and renames it to OUT. What is there already is left alone; it is well if it is
/// this batch.
fn publish(out: &Path, batch: &Texts) -> Result<(), NotRun> {
    let shown = shown::name(out.as_os_str());
    let cannot = |why: io::Error| NotRun(format!("'{shown}' cannot be written: {why}"));
    let parent =
        parent_of(out).ok_or_else(|| NotRun(format!("'{shown}' is no name of a new folder")))?;
    match fs::symlink_metadata(out) {
        Ok(_) => return is_batch(out, batch),
        Err(why) if why.kind() == io::ErrorKind::NotFound => {}
        Err(why) => return Err(cannot(why)),
    }
    fs::create_dir_all(&parent).map_err(cannot)?;
    new_folder::clear_left(&parent);
    let new = NewFolder::make(&parent).map_err(cannot)?;
    let moved = write_batch(&new.path, batch).and_then(|()| system::rename_new(&new.path, out));
    if let Err(why) = moved {
        let _ = fs::remove_dir_all(&new.path);
        return match fs::symlink_metadata(out) {
            // Another run was first.
            Ok(_) => is_batch(out, batch),
            Err(_) => Err(cannot(why)),
        };
    }
    sync(&parent).map_err(cannot)
}

/// The folder that a new folder of this name lies in.
fn parent_of(out: &Path) -> Option<PathBuf> {
    out.file_name()?;
    let parent = out.parent()?;
    match parent.as_os_str().is_empty() {
        true => Some(PathBuf::from(".")),
        false => Some(parent.to_owned()),
    }
}

/// Sees that a folder holds these three texts and nothing else.
fn is_batch(out: &Path, batch: &Texts) -> Result<(), NotRun> {
    let entries = fs::read_dir(out).map_or(0, Iterator::count);
    let same = Texts::read(out, &BATCH, Missing::NotRun)
        .is_ok_and(|there| there.first_difference(batch).is_none());
    match same && entries == BATCH.len() {
        true => Ok(()),
        false => Err(NotRun(format!(
            "{} is there already, and is not this batch",
            shown::name(out.as_os_str())
        ))),
    }
}

fn write_batch(folder: &Path, batch: &Texts) -> io::Result<()> {
    for text in BATCH {
        let mut file = File::create_new(folder.join(text.file()))?;
        file.write_all(batch.bytes(text))?;
        file.sync_all()?;
    }
    sync(folder)
}

fn sync(folder: &Path) -> io::Result<()> {
    File::open(folder)?.sync_all()
}
