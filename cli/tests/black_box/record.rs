//! `record`: where OUT may be, what is left alone, and two runs at once.

use crate::harness::{tests, Done};
use crate::room::{check_recorded, example, names, names_in, tree, Room, TEXTS};
use crate::run::{audit, collect, program, record, shell, Ended, Run, PROGRAM};
use crate::traced::traced;
use std::fs;
use std::os::unix::fs::{symlink, PermissionsExt};
use std::path::Path;
use std::process::Stdio;
use std::time::Duration;

tests![
    the_same_batch_again,
    another_thing_in_the_place_of_out,
    a_link_in_the_place_of_out,
    a_folder_that_is_not_there_yet,
    a_folder_that_cannot_be_made,
    a_slash_at_the_end,
    here_and_above,
    within_its_own_folder,
    nothing_else_is_made,
    a_refused_schedule_leaves_out_alone,
    two_at_once_of_different_batches,
    two_at_once_of_the_same_batch,
    texts_are_for_everyone_to_read,
    an_out_that_appears_meanwhile,
];

fn the_same_batch_again(room: &Room) -> Done {
    let out = room.path("out");
    for _ in 0..3 {
        record(example("case-c"), &out)
            .is(0)
            .printed("verdict=0\nline=0\n")
            .sentence();
        check_recorded("case-c", &out);
    }
    // What was written has no schedule, so that it cannot be recorded itself.
    record(&out, room.path("second")).could_not("schedule.txt");
    record(&out, &out).could_not("schedule.txt");
    assert_eq!(names_in(&room.path("")), names(["out"]));
    Ok(())
}

/// Records case C to an OUT that is there and is something else: it is left as it is.
#[track_caller]
fn left_alone(room: &Room, out: &Path) {
    let before = tree(&room.path(""));
    record(example("case-c"), out).could_not("");
    assert_eq!(tree(&room.path("")), before, "left as it is");
}

fn another_thing_in_the_place_of_out(room: &Room) -> Done {
    left_alone(room, &room.folder("empty"));
    left_alone(room, &room.file("file", "bytes"));
    left_alone(room, &room.file("file-of-nothing", ""));
    left_alone(room, &room.batch("other", "stores"));
    left_alone(room, &room.batch("more", "case-c"));
    for missing in TEXTS {
        let name = format!("lacks-{missing}");
        record(example("case-c"), room.path(&name)).is(0);
        fs::remove_file(room.path(&name).join(missing)).unwrap();
        left_alone(room, &room.path(&name));
        fs::write(room.path(&name).join(missing), "").unwrap();
        left_alone(room, &room.path(&name));
        fs::remove_file(room.path(&name).join(missing)).unwrap();
        fs::create_dir(room.path(&name).join(missing)).unwrap();
        left_alone(room, &room.path(&name));
    }
    record(example("case-c"), room.path("hidden")).is(0);
    room.file("hidden/.notes", "");
    left_alone(room, &room.path("hidden"));
    Ok(())
}

fn a_link_in_the_place_of_out(room: &Room) -> Done {
    room.folder("folder");
    room.batch("other", "stores");
    for to in ["nowhere", "folder", "other", "/dev/null", "circular"] {
        let link = room.path("circular");
        symlink(to, &link).unwrap();
        left_alone(room, &link);
        fs::remove_file(link).unwrap();
    }
    Ok(())
}

fn a_folder_that_is_not_there_yet(room: &Room) -> Done {
    let out = room.path("some/folders/above/out");
    record(example("case-c"), &out).is(0);
    check_recorded("case-c", &out);
    // A relative name, from the folder in which the program runs.
    let ended = program("record")
        .arg(example("loop"))
        .arg("new/out")
        .current_dir(room.path("some"))
        .end();
    ended.is(0);
    check_recorded("loop", &room.path("some/new/out"));
    Ok(())
}

fn a_folder_that_cannot_be_made(room: &Room) -> Done {
    let file = room.file("file", "");
    left_alone(room, &file.join("out"));
    left_alone(room, Path::new("/proc/out"));
    left_alone(room, Path::new("/dev/null/out"));
    left_alone(room, &room.path(&"x".repeat(256)));
    Ok(())
}

fn a_slash_at_the_end(room: &Room) -> Done {
    let place = room.folder("place");
    record(example("case-c"), place.join("out/")).is(0);
    check_recorded("case-c", &place.join("out"));
    record(example("case-c"), place.join("out/")).is(0);
    assert_eq!(names_in(&place), names(["out"]));
    Ok(())
}

fn here_and_above(room: &Room) -> Done {
    let place = room.folder("place/within");
    for out in [".", "..", "./", "../within", "/"] {
        let before = tree(&room.path(""));
        let ended = program("record")
            .arg(example("case-c"))
            .arg(out)
            .current_dir(&place)
            .end();
        ended.could_not("");
        assert_eq!(tree(&room.path("")), before, "{out}");
    }
    Ok(())
}

/// DIR has a schedule, and is therefore no OUT.
fn within_its_own_folder(room: &Room) -> Done {
    let batch = room.batch("batch", "case-c");
    let before = tree(&batch);
    record(&batch, &batch).could_not("");
    let ended = program("record").args([".", "."]).current_dir(&batch).end();
    ended.could_not("");
    assert_eq!(tree(&batch), before);
    Ok(())
}

fn nothing_else_is_made(room: &Room) -> Done {
    let (place, home) = (room.folder("place"), room.folder("home"));
    let mut program = program("record");
    program
        .arg(example("case-c"))
        .arg("out")
        .current_dir(&place);
    program.env("HOME", &home).env("TMPDIR", &home).end().is(0);
    assert_eq!(names_in(&place), names(["out"]));
    assert!(names_in(&home).is_empty());
    check_recorded("case-c", &place.join("out"));
    Ok(())
}

fn a_refused_schedule_leaves_out_alone(room: &Room) -> Done {
    let place = room.folder("place");
    for name in [
        "refused-13-schedule-unreadable",
        "refused-14-turn-before-arrival",
    ] {
        record(example(name), place.join("above/out")).is(1);
        assert!(names_in(&place).is_empty(), "nothing is made of {name}");
    }
    let out = room.batch("out", "stores");
    let before = tree(&out);
    record(example("refused-13-schedule-unreadable"), &out);
    assert_eq!(tree(&out), before);
    Ok(())
}

/// Two records to one OUT, begun together.
fn both_at_once(examples: [&str; 2], out: &Path) -> [Ended; 2] {
    let begin = |name: &str| {
        let mut program = program("record");
        program.arg(example(name)).arg(out);
        program
            .stdin(Stdio::null())
            .stdout(Stdio::piped())
            .stderr(Stdio::piped());
        program.spawn().unwrap()
    };
    examples
        .map(begin)
        .map(|child| collect(child, Duration::from_secs(30)))
}

fn two_at_once_of_different_batches(room: &Room) -> Done {
    for number in 0..60 {
        let place = room.folder(&format!("place-{number}"));
        let examples = if number % 2 == 0 {
            ["case-c", "stores"]
        } else {
            ["stores", "case-c"]
        };
        let ended = both_at_once(examples, &place.join("out"));
        let first = ended[0].status.success();
        let (good, bad) = if first { (0, 1) } else { (1, 0) };
        ended[good].is(0);
        ended[bad].could_not("");
        check_recorded(examples[good], &place.join("out"));
        assert_eq!(names_in(&place), names(["out"]));
    }
    Ok(())
}

fn two_at_once_of_the_same_batch(room: &Room) -> Done {
    for number in 0..60 {
        let place = room.folder(&format!("place-{number}"));
        for ended in both_at_once(["case-c", "case-c"], &place.join("out")) {
            ended.is(0).printed("verdict=0\nline=0\n");
        }
        check_recorded("case-c", &place.join("out"));
        assert_eq!(names_in(&place), names(["out"]));
    }
    Ok(())
}

/// A batch is for others to audit: it is made with the permissions that files have by the umask.
fn texts_are_for_everyone_to_read(room: &Room) -> Done {
    let out = room.path("out");
    let script = "umask 022 && exec \"$@\"";
    let mut shell = shell(script);
    shell
        .arg(PROGRAM)
        .arg("record")
        .arg(example("case-c"))
        .arg(&out)
        .end()
        .is(0);
    let mode = |path: &Path| fs::metadata(path).unwrap().permissions().mode() & 0o777;
    assert_eq!((mode(&out), mode(&out.join("report.txt"))), (0o755, 0o644));
    audit(&out).is(0);
    Ok(())
}

/// A folder of OUT's name is made at each moment of a run, between two system calls: if OUT was not there yet, it is not ours.
fn an_out_that_appears_meanwhile(room: &Room) -> Done {
    let out = room.path("out");
    let recording = || {
        let mut program = program("record");
        program.arg(example("case-c")).arg(&out);
        program
    };
    let all = traced(&mut recording(), |_, _| {})?.stops;
    for moment in 0..all {
        let mut made = false;
        fs::remove_dir_all(&out).unwrap();
        let ended = traced(&mut recording(), |stop, _| {
            made |= stop == moment && fs::create_dir(&out).is_ok();
        })?;
        let status = if made { 2 } else { 0 };
        assert_eq!(
            ended.status.code(),
            Some(status),
            "at stop {moment} of {all}"
        );
        assert_eq!(
            names_in(&out).len(),
            if made { 0 } else { 3 },
            "at stop {moment} of {all}"
        );
    }
    assert_eq!(
        names_in(&room.path("")),
        names(["out"]),
        "nothing else is left"
    );
    Ok(())
}
