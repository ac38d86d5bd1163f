//! Commands, options and arguments: what is taken, what is not, and that nothing is made of what is not.

use crate::harness::{tests, Done};
use crate::room::{check_recorded, copy_folder, example, expected, names, names_in, tree, Room};
use crate::run::{audit, program, record, Ended, Run, PROGRAM};
use std::ffi::OsStr;
use std::fs;
use std::os::unix::ffi::OsStrExt;
use std::path::Path;
use std::process::Command;

tests![
    help_of_the_program_and_every_command,
    help_is_asked_for_alone,
    names_that_are_words_for_help,
    help_by_its_own_command,
    examples_in_every_help,
    nothing_at_all,
    hints_for_mistyped_commands,
    unknown_commands,
    unknown_options,
    options_of_other_commands,
    too_few_and_too_many_arguments,
    empty_names,
    folders_named_like_options,
    a_folder_named_by_a_dash,
    options_that_are_names,
    names_that_a_shell_could_take_for_something_else,
    options_behind_arguments,
    jobs_that_are_numbers,
    jobs_that_are_not,
    lists_of_no_state,
    bytes_that_are_not_utf8,
];

pub const COMMANDS: [&str; 6] = [
    "audit",
    "order",
    "record",
    "audit-all",
    "results",
    "explain",
];

/// The program with these arguments, in a folder of its own, which it leaves as it is.
#[track_caller]
fn untouched(room: &Room, arguments: &[&str]) -> Ended {
    let folder = room.folder("untouched");
    let before = tree(&folder);
    let ended = Command::new(PROGRAM)
        .args(arguments)
        .current_dir(&folder)
        .end();
    assert_eq!(tree(&folder), before, "{arguments:?} makes nothing");
    ended
}

/// A folder with a batch that is accepted, as an argument.
fn case_c() -> String {
    example("case-c").to_str().unwrap().to_string()
}

fn help_of_the_program_and_every_command(room: &Room) -> Done {
    let program = untouched(room, &["--help"]);
    assert!(
        program
            .is(0)
            .text()
            .starts_with("usage: teaselshears COMMAND"),
        "{program}"
    );
    untouched(room, &["-h"]).is(0).printed(&program.stdout);
    for command in COMMANDS {
        let help = untouched(room, &[command, "--help"]);
        assert!(
            help.is(0)
                .text()
                .starts_with(&format!("usage: teaselshears {command} ")),
            "{help}"
        );
        assert!(help.said().is_empty(), "{help}");
        untouched(room, &[command, "-h"])
            .is(0)
            .printed(&help.stdout);
        assert!(
            program.text().contains(&format!("  {command} ")),
            "{command} is in the program's help"
        );
    }
    Ok(())
}

/// Among other words it may be a name that was not meant as a question: nothing is printed, and nothing done.
fn help_is_asked_for_alone(room: &Room) -> Done {
    let from = case_c();
    for arguments in [
        &["record", &from, "--help"][..],
        &["record", &from, "out", "--help"],
        &["record", "-h", &from, "out"],
        &["audit", &from, "--help"],
        &["audit", "--json", "-h"],
        &["audit", "--help", "--help"],
        &["order", &from, "--help"],
        &["audit-all", "--help", &from, "out"],
        &["audit-all", &from, "-h"],
        &["results", "-h", "out"],
        &["explain", "3", "--help"],
        &["--help", "audit"],
        &["-h", "--version"],
        &["--version", &from],
        &["-V", "-V"],
        &["help", "audit", "order"],
    ] {
        untouched(room, arguments).does_not_take("");
    }
    Ok(())
}

/// A script that goes through the names of a folder meets one of these, and must not take the help's status for a verdict.
fn names_that_are_words_for_help(room: &Room) -> Done {
    let place = room.folder("place");
    let within = |arguments: &[&str]| {
        let mut program = Command::new(PROGRAM);
        program.args(arguments).current_dir(&place).end()
    };
    let questions = |word: &'static str| {
        let mut questions = vec![vec![word]];
        if ["-h", "--help"].contains(&word) {
            questions.extend(COMMANDS.map(|command| vec![command, word]));
        }
        questions
    };
    for word in ["-h", "--help", "-V", "--version", "help"] {
        for question in questions(word) {
            within(&question).is(0);
        }
        let make: [fn(&Path); 3] = [
            |path| copy_folder(&example("case-c"), path),
            |path| fs::write(path, "").unwrap(),
            |path| std::os::unix::fs::symlink("nowhere", path).unwrap(),
        ];
        for make in make {
            make(&place.join(word));
            for question in questions(word) {
                within(&question).does_not_take(word);
            }
            let _ =
                fs::remove_dir_all(place.join(word)).or_else(|_| fs::remove_file(place.join(word)));
        }
    }
    // The loop of a script, over a folder that is a refused batch.
    room.batch("place/-h", "case-b");
    let script = "for b in *; do \"$0\" audit \"$b\" && echo \"wiped $b\"; done; true";
    let mut shell = Command::new("sh");
    shell.args(["-c", script, PROGRAM]).current_dir(&place);
    shell.end().is(0).printed("");
    Ok(())
}

fn help_by_its_own_command(room: &Room) -> Done {
    let program = untouched(room, &["--help"]);
    untouched(room, &["help"]).is(0).printed(&program.stdout);
    for command in COMMANDS {
        let help = untouched(room, &[command, "--help"]);
        untouched(room, &["help", command])
            .is(0)
            .printed(&help.stdout);
    }
    untouched(room, &["help", "adit"]).does_not_take("is 'audit' meant?");
    untouched(room, &["help", "help"])
        .is(0)
        .printed(&program.stdout);
    untouched(room, &["help", "--help"]).does_not_take("");
    Ok(())
}

fn examples_in_every_help(room: &Room) -> Done {
    for command in COMMANDS {
        let help = untouched(room, &["help", command]).text();
        let (_, examples) = help.split_once("\nExamples:\n").expect("examples");
        let named = format!("teaselshears {command} ");
        let lines: Vec<&str> = examples.lines().collect();
        assert_eq!(lines.len(), 2, "{help}");
        assert!(lines.iter().all(|line| line.contains(&named)), "{help}");
    }
    Ok(())
}

fn hints_for_mistyped_commands(room: &Room) -> Done {
    for (word, command) in [
        ("adit", "audit"),
        ("Audit", "audit"),
        ("audit_all", "audit-all"),
        ("recrod", "record"),
        ("result", "results"),
    ] {
        let ended = untouched(room, &[word, &case_c()]);
        ended.does_not_take(&format!("is '{command}' meant?"));
    }
    let ended = untouched(room, &["wipe", &case_c()]);
    assert!(!ended.is(2).sentence().contains("meant"), "{ended}");
    Ok(())
}

fn nothing_at_all(room: &Room) -> Done {
    untouched(room, &[]).does_not_take("");
    Ok(())
}

fn unknown_commands(room: &Room) -> Done {
    for command in ["adit", "AUDIT", "audit ", "audit_all", "/", "audit-all\n"] {
        untouched(room, &[command, &case_c()]).does_not_take(command.trim());
    }
    untouched(room, &["", &case_c()]).does_not_take("");
    Ok(())
}

fn unknown_options(room: &Room) -> Done {
    let from = case_c();
    for option in [
        "--jsn",
        "--jso",
        "-x",
        "--missing",
        "--json=yes",
        "-json",
        "--help=1",
        "---",
    ] {
        let named = option.split('=').next().unwrap();
        // Of letters behind one dash, the first that is unknown may be named alone.
        let named = if option == "-json" { "-j" } else { named };
        untouched(room, &["audit", option, &from]).does_not_take(named);
        untouched(room, &["audit", &from, option]).does_not_take(named);
        untouched(room, &["order", option, &from]).does_not_take(named);
        untouched(room, &["record", option, &from, "out"]).does_not_take(named);
        untouched(room, &["explain", option, "1"]).does_not_take(named);
    }
    for option in ["--jsn", "-x", "--quiet", "--results=out"] {
        let named = option.split('=').next().unwrap();
        untouched(room, &["audit-all", option, &from, "out"]).does_not_take(named);
        untouched(room, &[option]).does_not_take(named);
    }
    Ok(())
}

fn options_of_other_commands(room: &Room) -> Done {
    let from = case_c();
    untouched(room, &["audit", "--jobs", "2", &from]).does_not_take("--jobs");
    untouched(room, &["audit", "--list", "refused", &from]).does_not_take("--list");
    untouched(room, &["audit", "--since", "2026-11-16", &from]).does_not_take("--since");
    untouched(room, &["record", "--complete", &from, "out"]).does_not_take("--complete");
    untouched(room, &["results", "--list", "refused", &from]).does_not_take("--list");
    untouched(room, &["order", "--json", &from]).does_not_take("--json");
    untouched(room, &["order", "-0", &from]).does_not_take("-0");
    untouched(room, &["record", "--json", &from, "out"]).does_not_take("--json");
    untouched(room, &["record", "--jobs=2", &from, "out"]).does_not_take("--jobs");
    untouched(room, &["audit-all", "--missing-as-empty", &from, "out"])
        .does_not_take("--missing-as-empty");
    untouched(room, &["explain", "--json", "1"]).does_not_take("--json");
    untouched(
        room,
        &["audit-all", "--json", "--list", "refused", &from, "out"],
    )
    .does_not_take("");
    Ok(())
}

fn too_few_and_too_many_arguments(room: &Room) -> Done {
    let from = case_c();
    for arguments in [
        &["audit"][..],
        &["audit", "--"],
        &["audit", "--json"],
        &["audit", "--complete"],
        &["order"],
        &["order", "--missing-as-empty"],
        &["order", &from, &from],
        &["record"],
        &["record", &from],
        &["record", &from, "--"],
        &["record", &from, "out", "more"],
        &["record", "--", &from, "out", "--missing-as-empty"],
        &["audit-all"],
        &["audit-all", &from],
        &["audit-all", &from, "--jobs", "2"],
        &["audit-all", &from, "out", "more"],
        &["results"],
        &["results", &from, &from],
        &["explain"],
        &["explain", "1", "2"],
    ] {
        untouched(room, arguments).does_not_take("");
    }
    Ok(())
}

fn empty_names(room: &Room) -> Done {
    let from = case_c();
    for arguments in [
        &["audit", ""][..],
        &["audit", "--json", ""],
        &["order", ""],
        &["record", "", "out"],
        &["record", &from, ""],
        &["audit-all", "", "out"],
        &["audit-all", &from, ""],
        &["results", ""],
        &["explain", ""],
    ] {
        assert_eq!(
            untouched(room, arguments).status.code(),
            Some(2),
            "{arguments:?}"
        );
    }
    Ok(())
}

fn folders_named_like_options(room: &Room) -> Done {
    let place = room.folder("place");
    for name in ["--help", "--json", "-h", "--", "-0"] {
        room.batch(&format!("place/{name}"), "case-c");
        let within = |arguments: &[&str]| {
            Command::new(PROGRAM)
                .args(arguments)
                .current_dir(&place)
                .end()
        };
        within(&["audit", "--", name])
            .is(0)
            .printed(expected("case-c"));
        within(&["audit", &format!("./{name}")])
            .is(0)
            .printed(expected("case-c"));
        let out = format!("{name}-out");
        within(&["record", "--", name, &out])
            .is(0)
            .printed("verdict=0\nline=0\n");
        assert!(place.join(&out).join("report.txt").exists(), "{out}");
    }
    Ok(())
}

fn a_folder_named_by_a_dash(room: &Room) -> Done {
    let place = room.folder("place");
    room.batch("place/-", "case-c");
    let ended = program("audit").arg("./-").current_dir(&place).end();
    ended.is(0).printed(expected("case-c"));
    // Behind two dashes it is a name too, with names on standard input as well.
    for options in [&["--", "-"][..], &["--json", "--brief", "--", "-"]] {
        let mut program = program("audit");
        let ended = program.args(options).current_dir(&place);
        ended.end_with(b"nowhere\n").is(0);
    }
    // A dash alone stands for names on standard input, which only --json takes.
    program("audit")
        .arg("-")
        .current_dir(&place)
        .end()
        .is(2)
        .printed("");
    Ok(())
}

/// A shell that puts all names in the place of a star puts them before `--`, where one that is an option would be passed over.
fn options_that_are_names(room: &Room) -> Done {
    let place = room.folder("place");
    for name in ["a", "b"] {
        room.batch(&format!("place/{name}"), "case-c");
    }
    let all = || {
        let mut shell = Command::new("sh");
        shell.args(["-c", "\"$0\" audit *", PROGRAM]);
        shell.current_dir(&place).end()
    };
    all().is(0);
    for name in ["--json", "--complete", "--missing-as-empty"] {
        room.batch(&format!("place/{name}"), "case-b");
        all().does_not_take(name);
        fs::remove_dir_all(place.join(name)).unwrap();
    }
    Ok(())
}

/// Beside each folder with an accepted batch, where CDPATH leads, stands one of the same name that is refused.
fn names_that_a_shell_could_take_for_something_else(room: &Room) -> Done {
    let place = room.folder("place");
    for name in [
        "two words",
        "line\nfeed",
        "*",
        "$HOME",
        "it's",
        "\"quoted\"",
        "\\",
        "`id`",
        " ",
    ] {
        room.batch(&format!("place/{name}"), "case-c");
        room.batch(name, "case-b");
        let ended = program("audit")
            .arg(name)
            .current_dir(&place)
            .env("CDPATH", room.path(""))
            .end();
        assert_eq!(
            ended.is(0).printed(expected("case-c")).sentence(),
            "accepted: 2 requests, 4 operations (0 blocks, rest 4)"
        );
    }
    Ok(())
}

fn options_behind_arguments(room: &Room) -> Done {
    let batch = room.batch("batch", "case-c");
    let before = program("audit").arg("--json").arg(&batch).end();
    let behind = program("audit").arg(&batch).arg("--json").end();
    behind.is(0).printed(&before.is(0).stdout);
    fs::remove_file(batch.join("schedule.txt")).unwrap();
    program("record")
        .arg(&batch)
        .arg(room.path("out"))
        .end()
        .is(2);
    let ended = program("record")
        .arg(&batch)
        .arg(room.path("out"))
        .arg("--missing-as-empty")
        .end();
    ended.is(0).printed("verdict=0\nline=0\n");
    Ok(())
}

fn jobs_that_are_numbers(room: &Room) -> Done {
    let spool = room.spool("spool", "case-c", 2);
    let spool = spool.to_str().unwrap();
    for (number, jobs) in [
        &["--jobs=3"][..],
        &["--jobs", "3"],
        &["-j", "3"],
        &["--jobs", "1"],
        &["--jobs=999"],
    ]
    .into_iter()
    .enumerate()
    {
        let before = room.path(&format!("before-{number}"));
        program("audit-all")
            .args(jobs)
            .arg(spool)
            .arg(&before)
            .end()
            .is(0)
            .printed("");
        let behind = room.path(&format!("behind-{number}"));
        program("audit-all")
            .arg(spool)
            .arg(&behind)
            .args(jobs)
            .end()
            .is(0)
            .printed("");
        assert_eq!(names_in(&before), names_in(&behind));
        assert_eq!(
            names_in(&behind.join("batches")),
            names(["batch-1", "batch-2"])
        );
    }
    Ok(())
}

fn jobs_that_are_not(room: &Room) -> Done {
    let spool = room.spool("spool", "case-c", 1);
    let spool = spool.to_str().unwrap();
    for jobs in [
        "0",
        "1000",
        "x",
        "",
        "-1",
        "+1",
        "1.5",
        " 1",
        "0x1",
        "18446744073709551617",
    ] {
        untouched(room, &["audit-all", "--jobs", jobs, spool, "out"]).does_not_take("--jobs");
        untouched(
            room,
            &["audit-all", &format!("--jobs={jobs}"), spool, "out"],
        )
        .does_not_take("--jobs");
    }
    untouched(room, &["audit-all", spool, "out", "--jobs"]).does_not_take("--jobs");
    untouched(room, &["audit-all", spool, "out", "-j"]).does_not_take("");
    Ok(())
}

fn lists_of_no_state(room: &Room) -> Done {
    let spool = room.spool("spool", "case-c", 1);
    let spool = spool.to_str().unwrap();
    for state in ["accepted", "waiting", "Refused", "", "refused,failed"] {
        untouched(room, &["audit-all", "--list", state, spool, "out"]).does_not_take("--list");
    }
    untouched(room, &["audit-all", spool, "out", "--list"]).does_not_take("--list");
    Ok(())
}

fn bytes_that_are_not_utf8(room: &Room) -> Done {
    let name = OsStr::from_bytes(b"b\xffch");
    let folder = room.path("").join(name);
    copy_folder(&example("case-c"), &folder);
    audit(&folder).is(0).printed(expected("case-c"));
    let out = room.path("").join(OsStr::from_bytes(b"\xfe"));
    record(&folder, &out).is(0).sentence();
    check_recorded("case-c", &out);
    let option = OsStr::from_bytes(b"--j\xff");
    program("audit")
        .arg(option)
        .arg(&folder)
        .end()
        .does_not_take("");
    Command::new(PROGRAM).arg(name).end().does_not_take("");
    program("explain").arg(name).end().does_not_take("");
    Ok(())
}
