//! Texts that change while they are read, in place or by another's name: what is audited was there at one time, or nothing is.

use crate::exchange::meanwhile;
use crate::harness::{tests, Done, Skipped};
use crate::room::{example, read, Room};
use crate::run::{audit, program, Run};
use crate::traced::{end_of_file, traced};
use std::fs::{self, OpenOptions};
use std::io::Write;
use std::path::{Path, PathBuf};
use std::process::Command;

tests![
    two_refused_batches_exchanged_between_system_calls,
    two_refused_batches_written_over_between_system_calls,
    two_refused_batches_written_over_without_end,
    a_trace_that_grows,
    files_that_end_early,
    a_text_that_appears,
];

/// Trace and report of two batches with the programs of case C. Each is refused; the first's trace with the second's report is case C.
fn refused() -> [[Vec<u8>; 2]; 2] {
    let of = |name: &str, text: &str| read(example(name).join(text));
    let other = of("refused-04-response-without-request", "trace.txt");
    [
        [of("case-c", "trace.txt"), of("case-b", "report.txt")],
        [other, of("case-c", "report.txt")],
    ]
}

const CHANGED: [&str; 2] = ["trace.txt", "report.txt"];

fn put(batch: &Path, version: &[Vec<u8>; 2]) {
    for (text, bytes) in CHANGED.into_iter().zip(version) {
        fs::write(batch.join(text), bytes).unwrap();
    }
}

/// A batch that is the first of the two, each of which is refused.
fn first_of_two(room: &Room) -> PathBuf {
    let batch = room.batch("batch", "case-c");
    for version in refused().iter().rev() {
        put(&batch, version);
        audit(&batch).is(1);
    }
    batch
}

fn auditing(batch: &Path) -> Command {
    let mut program = program("audit");
    program.arg(batch);
    program
}

/// How often an audit of a batch is stopped.
fn stops(batch: &Path) -> Result<usize, Skipped> {
    Ok(traced(&mut auditing(batch), |_, _| {})?.stops)
}

/// The status of an audit at one of whose stops something is done.
fn status_with(
    batch: &Path,
    moment: usize,
    mut turn: impl FnMut(),
) -> Result<Option<i32>, Skipped> {
    let ended = traced(&mut auditing(batch), |stop, _| {
        if stop == moment {
            turn();
        }
    })?;
    Ok(ended.status.code())
}

/// Nothing that never was there at one time is accepted, at whatever moment all texts are exchanged; and some moments are seen.
fn exchanged_at_every_stop(room: &Room, exchange: impl Fn(&Path, &[Vec<u8>; 2])) -> Done {
    let batch = first_of_two(room);
    let [first, second] = refused();
    let mut seen = 0;
    for moment in 0..stops(&batch)? {
        exchange(&batch, &first);
        let status = status_with(&batch, moment, || exchange(&batch, &second))?;
        assert!(matches!(status, Some(1 | 2)), "{status:?} at {moment}");
        seen += usize::from(status == Some(2));
    }
    assert!(seen >= 5, "{seen} moments at which it is seen");
    Ok(())
}

fn two_refused_batches_exchanged_between_system_calls(room: &Room) -> Done {
    let spare = room.path("spare");
    exchanged_at_every_stop(room, |batch, version| {
        for (text, bytes) in CHANGED.into_iter().zip(version) {
            fs::write(&spare, bytes).unwrap();
            fs::rename(&spare, batch.join(text)).unwrap();
        }
    })
}

fn two_refused_batches_written_over_between_system_calls(room: &Room) -> Done {
    exchanged_at_every_stop(room, put)
}

fn two_refused_batches_written_over_without_end(room: &Room) -> Done {
    let batch = first_of_two(room);
    let versions = refused();
    let turn = || versions.iter().for_each(|version| put(&batch, version));
    meanwhile(turn, || {
        for _ in 0..150 {
            let ended = audit(&batch);
            let status = ended.status.code();
            assert!(matches!(status, Some(1 | 2)), "{ended}");
        }
    });
    Ok(())
}

/// A recorder that is still at work. Before the first look its line is in the batch, which is refused; behind the last one it is not.
fn a_trace_that_grows(room: &Room) -> Done {
    let batch = room.batch("batch", "case-c");
    let trace = read(batch.join("trace.txt"));
    let grow = || {
        let file = OpenOptions::new()
            .append(true)
            .open(batch.join("trace.txt"));
        file.unwrap().write_all(b"request=9,0,0,0\n").unwrap();
    };
    let mut statuses = Vec::new();
    for moment in 0..stops(&batch)? {
        fs::write(batch.join("trace.txt"), &trace).unwrap();
        statuses.push(status_with(&batch, moment, grow)?);
    }
    let seen = statuses.iter().filter(|s| **s == Some(2)).count();
    assert!(seen >= 5, "the moments at which it is seen: {statuses:?}");
    assert_eq!(statuses[0], Some(1), "before the first look");
    assert_eq!(*statuses.last().unwrap(), Some(0), "behind the last one");
    Ok(())
}

/// Every read ends at once, as if the file had ended: three empty texts, which would be accepted.
fn files_that_end_early(room: &Room) -> Done {
    let batch = room.batch("batch", "case-c");
    for command in ["audit", "order"] {
        let mut program = program(command);
        let ended = end_of_file(program.arg(&batch))?;
        assert_eq!(ended.status.code(), Some(2), "{command}");
    }
    Ok(())
}

/// A text that was missing, and taken for empty, and then is there.
fn a_text_that_appears(room: &Room) -> Done {
    let batch = room.batch("batch", "empty");
    let report = batch.join("report.txt");
    let asked = || {
        let mut asked = auditing(&batch);
        asked.arg("--missing-as-empty");
        asked
    };
    let mut seen = 0;
    for moment in 0..stops(&batch)? {
        let _ = fs::remove_file(&report);
        let ended = traced(&mut asked(), |stop, _| {
            if stop == moment {
                fs::write(&report, "of=1,0\n").unwrap();
            }
        })?;
        seen += usize::from(ended.status.code() == Some(2));
    }
    assert!(seen >= 3, "{seen} moments at which it is seen");
    let turn = || {
        fs::write(&report, "of=1,0\n").unwrap();
        fs::remove_file(&report).unwrap();
    };
    meanwhile(turn, || {
        for _ in 0..50 {
            let ended = asked().end();
            if !matches!(ended.status.code(), Some(1 | 3)) {
                ended.could_not("report.txt");
            }
        }
    });
    Ok(())
}
