//! What runs of `record` leave that were killed: the next one clears it away, and nothing else.

use crate::harness::{skip, tests, Done};
use crate::room::{check_recorded, example, names, names_in, read, tree, Room};
use crate::run::{program, record};
use crate::system::{is_root, lock};
use crate::traced::traced;
use std::fs::{self, File};
use std::os::unix::fs::{chown, symlink};
use std::process::{Child, Stdio};

tests![
    what_a_killed_run_left,
    what_a_run_is_at_work_on,
    what_is_not_of_a_run,
    what_another_user_left,
    a_link_in_the_place_of_what_was_left,
    many_runs_at_once,
];

fn what_a_killed_run_left(room: &Room) -> Done {
    let place = room.folder("place");
    for (number, texts) in [&[][..], &["programs.txt"], &["programs.txt", "trace.txt"]]
        .into_iter()
        .enumerate()
    {
        let left = room.folder(&format!("place/.teaselshears-{number}-0"));
        for text in texts {
            fs::write(left.join(text), "half").unwrap();
        }
    }
    record(example("case-c"), place.join("out")).is(0);
    assert_eq!(names_in(&place), names(["out"]));
    check_recorded("case-c", &place.join("out"));
    Ok(())
}

/// Its lock is held for as long as a run lives.
fn what_a_run_is_at_work_on(room: &Room) -> Done {
    let place = room.folder("place");
    let work = room.folder("place/.teaselshears-1-0");
    fs::write(work.join("programs.txt"), "half").unwrap();
    let held = File::open(&work).unwrap();
    lock(&held);
    record(example("case-c"), place.join("out")).is(0);
    assert_eq!(read(work.join("programs.txt")), b"half");
    drop(held);
    record(example("case-c"), place.join("second")).is(0);
    assert_eq!(names_in(&place), names(["out", "second"]));
    Ok(())
}

fn what_is_not_of_a_run(room: &Room) -> Done {
    let place = room.folder("place");
    room.folder("place/.teaselshears-notes");
    room.file("place/.teaselshears-1-1", "a file");
    room.folder("place/.teaselshears-1-2");
    room.file("place/.teaselshears-1-2/notes.txt", "foreign");
    room.file("place/.teaselshears-1-2/trace.txt", "foreign");
    let elsewhere = room.folder("elsewhere");
    room.file("elsewhere/trace.txt", "foreign");
    symlink(&elsewhere, place.join(".teaselshears-1-3")).unwrap();
    record(example("case-c"), place.join("out")).is(0);
    let there = [
        ".teaselshears-notes",
        ".teaselshears-1-1",
        ".teaselshears-1-2",
        ".teaselshears-1-3",
        "out",
    ];
    assert_eq!(names_in(&place), names(there));
    for file in ["notes.txt", "trace.txt"] {
        let path = place.join(".teaselshears-1-2").join(file);
        assert_eq!(read(path), b"foreign");
    }
    assert_eq!(read(elsewhere.join("trace.txt")), b"foreign");
    Ok(())
}

fn what_another_user_left(room: &Room) -> Done {
    if !is_root() {
        return skip("only root may give a folder to another user");
    }
    let place = room.folder("place");
    let left = room.folder("place/.teaselshears-1-0");
    fs::write(left.join("trace.txt"), "of another").unwrap();
    chown(&left, Some(65_534), None).unwrap();
    record(example("case-c"), place.join("out")).is(0);
    assert_eq!(read(left.join("trace.txt")), b"of another");
    Ok(())
}

/// What was left is exchanged for a link to somebody's batch while it is cleared away.
fn a_link_in_the_place_of_what_was_left(room: &Room) -> Done {
    let (place, victim) = (room.folder("place"), room.batch("victim", "case-c"));
    let (left, moved) = (place.join(".teaselshears-1-1"), room.path("moved"));
    let recording = |out: &str| {
        let mut program = program("record");
        program.arg(example("case-c")).arg(place.join(out));
        program
    };
    let before = tree(&victim);
    let stops = traced(&mut recording("out"), |_, _| {})?.stops;
    for moment in 0..stops + 10 {
        for old in [&left, &moved] {
            let _ = fs::remove_file(old).or_else(|_| fs::remove_dir_all(old));
        }
        fs::create_dir(&left).unwrap();
        fs::write(left.join("programs.txt"), "half").unwrap();
        traced(&mut recording(&moment.to_string()), |stop, _| {
            if stop == moment && fs::rename(&left, &moved).is_ok() {
                symlink(&victim, &left).unwrap();
            }
        })?;
        assert_eq!(tree(&victim), before, "at {moment}");
    }
    Ok(())
}

/// None takes what another has just made for something that was left.
fn many_runs_at_once(room: &Room) -> Done {
    let place = room.folder("place");
    let begin = |number: usize| -> Child {
        let mut program = program("record");
        program
            .arg(example("case-c"))
            .arg(place.join(number.to_string()));
        program
            .stdin(Stdio::null())
            .stdout(Stdio::null())
            .stderr(Stdio::null());
        program.spawn().unwrap()
    };
    for round in 0..10 {
        let runs: Vec<Child> = (0..12).map(|number| begin(round * 12 + number)).collect();
        for mut run in runs {
            assert_eq!(run.wait().unwrap().code(), Some(0));
        }
    }
    let found = names_in(&place);
    assert_eq!(found.len(), 120, "{found:?}");
    for name in found {
        check_recorded("case-c", &place.join(name));
    }
    Ok(())
}
