//! Texts that are exchanged, or moved away and back, while the program reads them: what it says is of what it read, or that it
//! changed meanwhile.

use crate::harness::{tests, Done};
use crate::results::rows;
use crate::room::{check_recorded, example, expected, names, names_in, read, Room, TEXTS};
use crate::run::{audit, audit_all, program, record, Ended, Run};
use crate::traced::traced;
use std::collections::BTreeSet;
use std::fs;
use std::path::Path;
use std::sync::atomic::{AtomicBool, Ordering};
use std::thread;
use std::time::Duration;

tests![
    a_report_that_is_exchanged_in_a_spool,
    a_report_that_is_exchanged_under_an_audit,
    a_report_that_is_moved_away_and_back,
    a_report_that_is_moved_away_and_back_and_may_be_missing,
    programs_that_are_exchanged_under_a_record,
    a_report_that_is_exchanged_between_system_calls,
];

/// Does `turn` over and over in a thread of its own while `work` runs.
pub fn meanwhile<T>(turn: impl Fn() + Send, work: impl FnOnce() -> T) -> T {
    /// Ends the thread where `work` panics, too.
    struct Stop<'a>(&'a AtomicBool);
    impl Drop for Stop<'_> {
        fn drop(&mut self) {
            self.0.store(true, Ordering::Relaxed);
        }
    }
    let stopped = AtomicBool::new(false);
    thread::scope(|scope| {
        let _stop = Stop(&stopped);
        let stopped = &stopped;
        scope.spawn(move || {
            while !stopped.load(Ordering::Relaxed) {
                turn();
            }
        });
        work()
    })
}

/// Exchanges a file for one version and the other, each by one rename, while `work` runs; now and then it stays long enough to be
/// read.
fn while_exchanged<T>(
    room: &Room,
    file: &Path,
    versions: [&[u8]; 2],
    work: impl FnOnce() -> T,
) -> T {
    let spare = room.path("spare");
    let turn = || {
        for (number, version) in versions.into_iter().cycle().take(20).enumerate() {
            fs::write(&spare, version).unwrap();
            fs::rename(&spare, file).unwrap();
            thread::sleep(Duration::from_millis(if number < 18 { 0 } else { 40 }));
        }
    };
    meanwhile(turn, work)
}

/// The reports of cases C and B: with the other texts of case C, one is accepted and the other refused.
fn reports() -> [Vec<u8>; 2] {
    ["case-c", "case-b"].map(|name| read(example(name).join("report.txt")))
}

/// A text changed while it was read, and nothing is said of the batch but that.
fn is_changed(ended: &Ended) -> bool {
    let said = ended.said();
    let changed = said
        .iter()
        .any(|line| line.ends_with("changed while it was read"));
    changed && ended.status.code() == Some(2) && ended.stdout.is_empty()
}

/// What is kept of the only batch belongs together, and is what the run said; or a text changed, and nothing is kept.
#[track_caller]
fn check_kept(results: &Path, ended: Option<i32>) {
    let kept = results.join("batches/batch-1");
    if ended == Some(2) {
        let row = rows(results).remove(0);
        let sentence = "could not be run: report.txt changed while it was read";
        assert_eq!((&*row.state, &*row.sentence), ("failed", sentence));
        assert!(!kept.exists(), "nothing is kept");
        return;
    }
    let [good, bad] = reports();
    let report = read(kept.join("report.txt"));
    let (status, name) = if report == good {
        (0, "case-c")
    } else {
        (1, "case-b")
    };
    assert!(
        report == good || report == bad,
        "a report that never was: {report:?}"
    );
    assert_eq!(
        read(kept.join("output")),
        expected(name),
        "the output is of the kept report"
    );
    assert_eq!(ended, Some(status));
    audit(&kept).is(status).printed(expected(name));
    let row = rows(results).remove(0);
    assert_eq!(row.state, if status == 0 { "accepted" } else { "refused" });
}

fn a_report_that_is_exchanged_in_a_spool(room: &Room) -> Done {
    let spool = room.spool("spool", "case-c", 1);
    let [good, bad] = reports();
    while_exchanged(
        room,
        &spool.join("batch-1/report.txt"),
        [&bad, &good],
        || {
            for number in 0..150 {
                let results = room.path(&format!("results-{number}"));
                let ended = audit_all(&spool, &results);
                check_kept(&results, ended.status.code());
            }
        },
    );
    Ok(())
}

fn a_report_that_is_exchanged_under_an_audit(room: &Room) -> Done {
    let batch = room.batch("batch", "case-c");
    let [good, bad] = reports();
    while_exchanged(room, &batch.join("report.txt"), [&bad, &good], || {
        for _ in 0..150 {
            let ended = audit(&batch);
            let (status, name) = if ended.status.success() {
                (0, "case-c")
            } else {
                (1, "case-b")
            };
            if !is_changed(&ended) {
                ended.is(status).printed(expected(name)).sentence();
            }
        }
    });
    Ok(())
}

/// Moves the report of a batch away and back while `work` runs; it is there at the end.
fn while_moved<T>(room: &Room, batch: &Path, work: impl FnOnce() -> T) -> T {
    let (report, away) = (batch.join("report.txt"), room.path("away"));
    let turn = || {
        fs::rename(&report, &away).unwrap();
        fs::rename(&away, &report).unwrap();
    };
    meanwhile(turn, work)
}

/// Without its report the batch `empty` would be accepted, were the report taken for empty.
fn a_report_that_is_moved_away_and_back(room: &Room) -> Done {
    let batch = room.batch("batch", "empty");
    // Bytes that are refused where they are read.
    fs::write(batch.join("report.txt"), "of=1,0\n").unwrap();
    while_moved(room, &batch, || {
        for _ in 0..200 {
            let ended = audit(&batch);
            match ended.status.code() {
                Some(1) => ended.printed(expected("refused-05-report-unreadable")),
                _ => ended.could_not("report.txt"),
            };
        }
    });
    Ok(())
}

fn a_report_that_is_moved_away_and_back_and_may_be_missing(room: &Room) -> Done {
    let batch = room.batch("batch", "empty");
    fs::write(batch.join("report.txt"), "of=1,0\n").unwrap();
    while_moved(room, &batch, || {
        for _ in 0..200 {
            let ended = program("audit").arg("--missing-as-empty").arg(&batch).end();
            match ended.status.code() {
                // What is accepted is the empty text, and it says so.
                Some(3) => ended
                    .printed(expected("empty"))
                    .said_part("missing, and read as empty: report.txt"),
                Some(1) => ended.printed(expected("refused-05-report-unreadable")),
                _ => ended.could_not("report.txt"),
            };
        }
    });
    Ok(())
}

fn programs_that_are_exchanged_under_a_record(room: &Room) -> Done {
    let batch = room.batch("batch", "case-c");
    let own = read(batch.join("programs.txt"));
    let others = b"program=0\ndo=0,0,0,0\nprogram=1\ndo=0,0,0,0\n";
    while_exchanged(room, &batch.join("programs.txt"), [others, &own], || {
        for number in 0..100 {
            let out = room.path(&format!("out-{number}"));
            let ended = record(&batch, &out);
            if is_changed(&ended) {
                assert!(!out.exists(), "nothing is written");
                continue;
            }
            ended.is(0);
            audit(&out).is(0);
            assert_eq!(names_in(&out), names(TEXTS));
            if read(out.join("programs.txt")) == own {
                check_recorded("case-c", &out);
            }
        }
    });
    Ok(())
}

/// The report is exchanged once, at every second stop of a run: before the first look at it, between two, and behind the last.
fn a_report_that_is_exchanged_between_system_calls(room: &Room) -> Done {
    let spool = room.spool("spool", "case-c", 1);
    let (report, spare) = (spool.join("batch-1/report.txt"), room.path("spare"));
    let mut versions = reports();
    let run = |results: &Path| {
        let mut program = program("audit-all");
        program.args(["--jobs", "1"]).arg(&spool).arg(results);
        program
    };
    let stops = traced(&mut run(&room.path("whole")), |_, _| {})?.stops;
    let mut ends = BTreeSet::new();
    for moment in (0..stops).step_by(2) {
        let results = room.path(&format!("results-{moment}"));
        let ended = traced(&mut run(&results), |stop, _| {
            if stop == moment {
                fs::write(&spare, &versions[0]).unwrap();
                fs::rename(&spare, &report).unwrap();
                versions.swap(0, 1);
            }
        })?;
        check_kept(&results, ended.status.code());
        ends.extend(ended.status.code());
    }
    assert!(
        ends.into_iter().eq([0, 1, 2]),
        "it is each of these for some"
    );
    Ok(())
}
