//! Standard output that takes nothing is status 2; standard error is spoken to and not relied on.

use crate::harness::{tests, Done};
use crate::results::check_all_kept;
use crate::room::{check_recorded, example, expected, tree, Room};
use crate::run::{audit, collect, program, record, shell, Run, PROGRAM};
use crate::system::unread_pipe;
use std::fs::File;
use std::process::{Command, Stdio};
use std::time::Duration;

tests![
    standard_output_is_full,
    standard_output_is_closed,
    standard_output_is_for_reading_only,
    nobody_reads_standard_output,
    standard_error_is_closed,
    standard_error_is_full,
    all_streams_are_closed,
    record_without_standard_output,
];

/// Commands that print something, for a spool and results.
fn commands(room: &Room) -> Vec<Vec<String>> {
    let spool = room.path("spool");
    if !spool.exists() {
        room.spool("spool", "case-b", 2);
    }
    let (case_c, case_b) = (example("case-c"), example("case-b"));
    let text = |path: &std::path::Path| path.to_str().unwrap().to_string();
    let (case_c, case_b, spool) = (text(&case_c), text(&case_b), text(&spool));
    let results = text(&room.path("results"));
    let lines = [
        vec!["audit", &case_c],
        vec!["audit", &case_b],
        vec!["order", &case_c],
        vec!["audit", "--json", &case_c],
        vec!["audit", "--json", &case_b],
        vec!["audit-all", "--json", &spool, &results],
        vec!["audit-all", "--list", "refused", &spool, &results],
        vec!["explain", "3"],
        vec!["--help"],
        vec!["audit", "--help"],
        vec!["--version"],
    ];
    let own = |line: &Vec<&str>| line.iter().map(|word| word.to_string()).collect();
    lines.iter().map(own).collect()
}

/// Each of the commands, by a script of the shell that begins it as "$@", ends with status 2.
#[track_caller]
fn each_could_not(room: &Room, script: &str) {
    for command in commands(room) {
        let ended = shell(script).arg(PROGRAM).args(&command).end();
        assert_eq!(
            ended.status.code(),
            Some(2),
            "{script} of {command:?}; {ended}"
        );
        assert!(!ended.said().is_empty(), "it is said; {ended}");
    }
}

fn standard_output_is_full(room: &Room) -> Done {
    each_could_not(room, "exec \"$@\" >/dev/full");
    Ok(())
}

fn standard_output_is_closed(room: &Room) -> Done {
    each_could_not(room, "exec \"$@\" >&-");
    Ok(())
}

fn standard_output_is_for_reading_only(room: &Room) -> Done {
    each_could_not(room, "exec \"$@\" 1</dev/null");
    Ok(())
}

fn nobody_reads_standard_output(room: &Room) -> Done {
    for command in commands(room) {
        let mut program = Command::new(PROGRAM);
        program
            .args(&command)
            .stdin(Stdio::null())
            .stdout(unread_pipe())
            .stderr(Stdio::piped());
        let ended = collect(program.spawn().unwrap(), Duration::from_secs(20));
        assert_eq!(ended.status.code(), Some(2), "{command:?}; {ended}");
    }
    Ok(())
}

/// The status is what it is with all streams open, and so is what is printed.
#[track_caller]
fn each_is_the_same(script: &str) {
    for (folder, status) in [
        (example("case-c"), 0),
        (example("case-b"), 1),
        ("/".into(), 2),
    ] {
        let ended = shell(script).arg(PROGRAM).arg("audit").arg(&folder).end();
        assert_eq!(ended.status.code(), Some(status), "{script}; {ended}");
        let printed = std::fs::read(folder.join("expected")).unwrap_or_default();
        ended.printed(printed);
    }
}

fn standard_error_is_closed(room: &Room) -> Done {
    each_is_the_same("exec \"$@\" 2>&-");
    // The numbers of closed streams are free for files that are opened: nothing that is said may get into one.
    let script = "exec \"$@\" 2>&- <&-";
    each_is_the_same(script);
    let ended = shell(script)
        .arg(PROGRAM)
        .arg("record")
        .arg(example("case-c"))
        .arg(room.path("out"))
        .end();
    ended.is(0).printed("verdict=0\nline=0\n");
    check_recorded("case-c", &room.path("out"));
    Ok(())
}

fn standard_error_is_full(room: &Room) -> Done {
    each_is_the_same("exec \"$@\" 2>/dev/full");
    let spool = room.spool("spool", "case-c", 3);
    for (results, status) in [("results", 0), ("spool/results", 2)] {
        let full = File::options().write(true).open("/dev/full").unwrap();
        let mut program = program("audit-all");
        program
            .arg(&spool)
            .arg(room.path(results))
            .stdout(Stdio::null())
            .stderr(full);
        assert_eq!(program.status().unwrap().code(), Some(status));
    }
    Ok(())
}

fn all_streams_are_closed(room: &Room) -> Done {
    let (spool, results) = (room.spool("spool", "case-c", 3), room.path("results"));
    let script = "\"$@\" <&- >&- 2>&-; echo $?";
    // Nothing is to be printed but by audit, whose output is lost.
    for (command, status) in [
        (["audit-all"].as_slice(), "0\n"),
        (&["audit-all", "--json"], "2\n"),
    ] {
        let ended = shell(script)
            .arg(PROGRAM)
            .args(command)
            .arg(&spool)
            .arg(&results)
            .end();
        ended.printed(status);
        check_all_kept(&spool, &results);
    }
    let ended = shell(script)
        .arg(PROGRAM)
        .arg("audit")
        .arg(example("case-c"))
        .end();
    ended.printed("2\n");
    Ok(())
}

/// What cannot be said on standard output is not status 0, and OUT is whole or not there.
fn record_without_standard_output(room: &Room) -> Done {
    for (number, to) in [">/dev/full", ">&-", "1</dev/null"].into_iter().enumerate() {
        let place = room.folder(&format!("place-{number}"));
        let out = place.join("out");
        let script = format!("exec \"$@\" {to}");
        let run = || {
            shell(&script)
                .arg(PROGRAM)
                .arg("record")
                .arg(example("case-c"))
                .arg(&out)
                .end()
        };
        run().is(2);
        assert!(
            tree(&place).len() == 1 || out.exists(),
            "nothing but OUT is left"
        );
        if out.exists() {
            check_recorded("case-c", &out);
        }
        record(example("case-c"), &out)
            .is(0)
            .printed("verdict=0\nline=0\n");
        assert_eq!(expected("case-c"), audit(&out).stdout);
    }
    Ok(())
}
