//! `record` and `audit-all` killed at many moments: what is there is whole, and the next run completes it.

use crate::harness::{tests, Done, Skipped};
use crate::results::{check_goes_on, until_kept};
use crate::room::{check_recorded, example, names, names_in, Room};
use crate::run::{audit_all, program, record};
use crate::system::{kill, SIGKILL};
use crate::traced::traced;
use std::fs;
use std::os::unix::ffi::OsStrExt;
use std::os::unix::process::ExitStatusExt;
use std::path::Path;
use std::process::{Child, Command, Stdio};
use std::thread;
use std::time::{Duration, Instant};

tests![
    audit_all_killed_at_spread_moments,
    record_killed_at_spread_moments,
    record_killed_at_every_system_call,
    audit_all_killed_at_system_calls,
];

/// Starts a command and kills it after a wait; true where it was still at work.
fn killed_after(command: &mut Command, wait: impl FnOnce(&mut Child)) -> bool {
    let mut child = command
        .stdin(Stdio::null())
        .stdout(Stdio::null())
        .stderr(Stdio::null())
        .spawn()
        .unwrap();
    wait(&mut child);
    let _ = child.kill();
    child.wait().unwrap().signal() == Some(SIGKILL)
}

fn recording(out: &Path) -> Command {
    let mut program = program("record");
    program.arg(example("case-c")).arg(out);
    program
}

/// OUT is whole or not there, and beside it is at most what a killed run may leave.
#[track_caller]
fn check_out(place: &Path) {
    let out = place.join("out");
    if out.exists() {
        check_recorded("case-c", &out);
    }
    for name in names_in(place) {
        let may_be = name == "out" || name.as_bytes().starts_with(b".teaselshears-");
        assert!(may_be, "left by a killed run: {name:?}");
    }
}

/// The next run succeeds, whatever the killed one left, and clears it away.
#[track_caller]
fn record_goes_on(place: &Path) {
    check_out(place);
    record(example("case-c"), place.join("out"))
        .is(0)
        .printed("verdict=0\nline=0\n");
    check_recorded("case-c", &place.join("out"));
    assert_eq!(names_in(place), names(["out"]), "nothing is left for good");
}

/// How long a whole run takes, of five.
fn time_of_a_record(place: &Path) -> Duration {
    let begun = Instant::now();
    for number in 0..5 {
        record(example("case-c"), place.join(number.to_string())).is(0);
    }
    begun.elapsed() / 5
}

fn record_killed_at_spread_moments(room: &Room) -> Done {
    let whole = time_of_a_record(&room.folder("times"));
    let mut killed = 0;
    for number in 0..400 {
        let place = room.folder("place");
        let moment = whole * (number % 40) / 40;
        killed += usize::from(killed_after(&mut recording(&place.join("out")), |_| {
            thread::sleep(moment)
        }));
        record_goes_on(&place);
        fs::remove_dir_all(place).unwrap();
        if killed >= 40 {
            return Ok(());
        }
    }
    panic!("only {killed} of 400 kills met it at work");
}

/// Kills a command at one of its stops; false where it ended before.
fn killed_at(command: &mut Command, moment: usize) -> Result<bool, Skipped> {
    let ended = traced(command, |stop, pid| {
        if stop == moment {
            kill(pid, SIGKILL);
        }
    })?;
    Ok(ended.status.signal() == Some(SIGKILL))
}

fn record_killed_at_every_system_call(room: &Room) -> Done {
    let all = traced(&mut recording(&room.path("whole")), |_, _| {})?.stops;
    let mut kills = 0;
    for moment in 0..all {
        let place = room.folder("place");
        kills += usize::from(killed_at(&mut recording(&place.join("out")), moment)?);
        record_goes_on(&place);
        fs::remove_dir_all(place).unwrap();
    }
    assert!(kills >= 20, "{kills} kills");
    Ok(())
}

fn auditing(spool: &Path, results: &Path) -> Command {
    let mut program = program("audit-all");
    program.args(["--jobs", "2"]).arg(spool).arg(results);
    program
}

/// A moment is so many results, and a part of the time of a group more. Times alone do not spread over a run: on a busy
/// disk one run takes many times as long as another.
fn audit_all_killed_at_spread_moments(room: &Room) -> Done {
    let spool = room.spool("spool", "case-c", 150);
    let begun = Instant::now();
    audit_all(&spool, room.path("whole")).is(0);
    let whole = begun.elapsed();
    let (mut killed, mut partial) = (0, 0);
    for number in 0..120 {
        let results = room.path(&format!("results-{number}"));
        let (kept, more) = (number as usize % 5 * 30, whole / 40 * (number / 5 % 5));
        killed += usize::from(killed_after(&mut auditing(&spool, &results), |child| {
            until_kept(child, &results, kept);
            thread::sleep(more);
        }));
        let found = names_in(&results.join("batches")).len();
        partial += usize::from((1..150).contains(&found));
        check_goes_on(&spool, &results);
        fs::remove_dir_all(results).unwrap();
        if killed >= 20 && partial >= 5 {
            return Ok(());
        }
    }
    panic!("{killed} kills met it at work, {partial} of them between results");
}

/// A run over three batches, killed at a hundred places among its system calls.
fn audit_all_killed_at_system_calls(room: &Room) -> Done {
    let (spool, results) = (room.spool("spool", "case-c", 3), room.path("results"));
    let all = traced(&mut auditing(&spool, &room.path("whole")), |_, _| {})?.stops;
    let mut kills = 0;
    for moment in (0..all).step_by(1 + all / 100) {
        kills += usize::from(killed_at(&mut auditing(&spool, &results), moment)?);
        check_goes_on(&spool, &results);
        fs::remove_dir_all(&results).unwrap();
    }
    assert!(kills >= 20, "{kills} kills");
    Ok(())
}
