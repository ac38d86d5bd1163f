//! Runs of `audit-all` that are stopped, or that meet another at work.

use crate::harness::{tests, Done};
use crate::results::{check_all_kept, check_goes_on, states, until_kept};
use crate::room::{names_in, tree, Room};
use crate::run::{audit_all, collect, program, Ended};
use crate::system::{heeds_interrupts, kill, lock, SIGINT, SIGTERM};
use std::fs::File;
use std::path::{Path, PathBuf};
use std::process::{Child, Stdio};
use std::thread;
use std::time::{Duration, Instant};

tests![
    stopped_by_ctrl_c,
    stopped_by_a_kill_that_can_be_heeded,
    two_runs_at_once,
    two_first_runs_at_once,
    a_lock_that_is_held,
    a_lock_that_is_let_go,
];

fn begin(spool: &Path, results: &Path, jobs: &str) -> Child {
    let mut program = program("audit-all");
    program.args(["--jobs", jobs]).arg(spool).arg(results);
    program
        .stdin(Stdio::null())
        .stdout(Stdio::piped())
        .stderr(Stdio::piped());
    heeds_interrupts(&mut program).spawn().unwrap()
}

/// Begins a run, sends it a signal once some results are kept, and waits for it.
fn stopped(spool: &Path, results: &Path, signal: i32) -> Ended {
    let mut child = begin(spool, results, "1");
    until_kept(&mut child, results, 5);
    kill(child.id(), signal);
    collect(child, Duration::from_secs(30))
}

fn stopped_by_ctrl_c(room: &Room) -> Done {
    let spool = room.spool("spool", "case-c", 400);
    let results = room.path("results");
    let ended = stopped(&spool, &results, SIGINT);
    let last = ended.is(2).said().pop().unwrap_or_default();
    let waiting = last
        .rsplit_once(", ")
        .map(|(_, end)| end.to_string())
        .unwrap_or_default();
    let waiting: usize = waiting
        .strip_suffix(" waiting")
        .expect(&last)
        .parse()
        .unwrap();
    assert!(waiting > 0, "stopped before the end");
    let found = names_in(&results.join("batches")).len();
    let counts = format!(
        "of 400 in the spool: {found} accepted, 0 refused, 0 changed, 0 failed, {waiting} waiting"
    );
    assert_eq!(last, counts);
    let states = states(&results);
    assert_eq!(
        states.values().filter(|state| *state == "waiting").count(),
        waiting
    );
    assert_eq!(states.len(), 400, "a row for each batch");
    check_goes_on(&spool, &results);
    Ok(())
}

/// It may end by the signal or by itself, and never as if it were done.
fn stopped_by_a_kill_that_can_be_heeded(room: &Room) -> Done {
    let (spool, results) = (room.spool("spool", "case-c", 400), room.path("results"));
    let ended = stopped(&spool, &results, SIGTERM);
    assert!(!matches!(ended.status.code(), Some(0 | 1)), "{ended}");
    check_goes_on(&spool, &results);
    Ok(())
}

/// How many batches a run says that it audited: those that are accepted are said in no other run.
fn audited(ended: &Ended) -> usize {
    ended
        .said()
        .iter()
        .filter(|line| line.contains(": accepted: "))
        .count()
}

/// The second waits for the first or, on a slow machine, gives up; no batch is audited twice.
#[track_caller]
fn both_end(spool: &Path, results: &Path, children: [Child; 2]) {
    let ended = children.map(|child| collect(child, Duration::from_secs(60)));
    let mut good = 0;
    for one in &ended {
        match one.status.code() {
            Some(0) => good += 1,
            _ => drop(one.is(2).printed("")),
        }
    }
    assert!(
        good > 0,
        "one of them is done; {} and {}",
        ended[0],
        ended[1]
    );
    check_all_kept(spool, results);
    assert_eq!(
        audited(&ended[0]) + audited(&ended[1]),
        300,
        "each batch is audited once"
    );
}

fn two_runs_at_once(room: &Room) -> Done {
    let (spool, results) = (room.spool("spool", "case-c", 300), room.path("results"));
    let mut first = begin(&spool, &results, "2");
    until_kept(&mut first, &results, 1);
    let second = begin(&spool, &results, "2");
    both_end(&spool, &results, [first, second]);
    Ok(())
}

/// Both find no RESULTS, and make it.
fn two_first_runs_at_once(room: &Room) -> Done {
    let spool = room.spool("spool", "case-c", 300);
    for number in 0..5 {
        let results = room.path(&format!("results-{number}"));
        let children = ["2", "2"].map(|jobs| begin(&spool, &results, jobs));
        both_end(&spool, &results, children);
    }
    Ok(())
}

/// A spool with a batch that is not audited yet, its results, and the file by which they are locked.
fn locked_results(room: &Room) -> (PathBuf, PathBuf, File) {
    let (spool, results) = (room.spool("spool", "case-c", 2), room.path("results"));
    audit_all(&spool, &results).is(0);
    room.batch("spool/later", "case-c");
    let marker = results.join(".teaselshears");
    let file = File::options().append(true).open(marker).unwrap();
    lock(&file);
    (spool, results, file)
}

fn a_lock_that_is_held(room: &Room) -> Done {
    let (spool, results, file) = locked_results(room);
    let before = tree(&results);
    let begun = Instant::now();
    audit_all(&spool, &results).could_not("another run");
    let waited = begun.elapsed();
    assert!(
        waited >= Duration::from_millis(2800),
        "it waits three seconds: {waited:?}"
    );
    assert_eq!(tree(&results), before, "nothing is touched");
    drop(file);
    audit_all(&spool, &results).is(0);
    check_all_kept(&spool, &results);
    Ok(())
}

fn a_lock_that_is_let_go(room: &Room) -> Done {
    let (spool, results, file) = locked_results(room);
    let child = begin(&spool, &results, "2");
    thread::sleep(Duration::from_millis(700));
    assert_eq!(names_in(&results.join("batches")).len(), 2, "it waits");
    drop(file);
    collect(child, Duration::from_secs(30)).is(0);
    check_all_kept(&spool, &results);
    Ok(())
}
