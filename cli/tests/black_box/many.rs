//! `audit --json -`: names of folders from standard input, and an object for each, so that a spool can be spread over hosts.

use crate::harness::{skip, tests, Done};
use crate::json::{objects, text, timeless, Object, Value};
use crate::room::{copy_folder, example, expected, expected_order, read, root, Room};
use crate::run::{needs, program, shell, Ended, Run, PROGRAM};
use std::ffi::OsStr;
use std::fs::{self, File};
use std::os::unix::ffi::OsStrExt;
use std::process::{Command, Stdio};

tests![
    names_by_line,
    names_by_zero_byte,
    statuses_of_several,
    a_folder_that_is_not_there_among_them,
    missing_texts_among_them,
    no_names,
    an_empty_name,
    a_last_name_without_a_line_feed,
    a_last_name_without_its_zero_byte,
    several_folders_as_arguments,
    several_folders_in_json,
    a_dash_without_json,
    a_dash_and_a_folder,
    standard_input_that_cannot_be_read,
    a_thousand_names,
    names_that_are_not_utf8,
    the_find_of_the_documents,
    spread_by_gnu_parallel,
];

/// The command with these names on its standard input, in the room.
fn several(room: &Room, options: &[&str], names: &[u8]) -> Ended {
    let mut program = program("audit");
    program
        .args(["--json", "-"])
        .args(options)
        .current_dir(room.path(""))
        .end_with(names)
}

/// The names and states of what was printed, in its order.
#[track_caller]
fn states(ended: &Ended) -> Vec<(String, String)> {
    let field = |object: &Object, key: &str| match &object[key] {
        Value::Text(text) => text.clone(),
        other => panic!("{key} is {other:?}"),
    };
    let state = |object: &Object| (field(object, "batch"), field(object, "state"));
    objects(&ended.stdout).iter().map(state).collect()
}

fn wanted(pairs: &[(&str, &str)]) -> Vec<(String, String)> {
    pairs
        .iter()
        .map(|(name, state)| (name.to_string(), state.to_string()))
        .collect()
}

fn names_by_line(room: &Room) -> Done {
    room.batch("good", "case-c");
    room.batch("bad one", "case-b");
    room.batch("-0", "case-c");
    let ended = several(room, &[], b"good\nbad one\n-0\ngood\n");
    let pairs = [
        ("good", "accepted"),
        ("bad one", "refused"),
        ("-0", "accepted"),
        ("good", "accepted"),
    ];
    assert_eq!(
        states(ended.is(1)),
        wanted(&pairs),
        "each, in the order given"
    );
    let alone = program("audit")
        .args(["--json", "bad one"])
        .current_dir(room.path(""))
        .end();
    assert_eq!(
        timeless(objects(&ended.stdout).remove(1)),
        timeless(objects(&alone.stdout).remove(0)),
        "as of one alone"
    );
    Ok(())
}

fn names_by_zero_byte(room: &Room) -> Done {
    room.batch("line\nfeed", "case-c");
    room.batch("line", "case-b");
    for option in ["-0", "--null"] {
        let ended = several(room, &[option], b"line\nfeed\0line\0");
        let objects = objects(&ended.is(1).stdout);
        let states: Vec<&Value> = objects.iter().map(|object| &object["state"]).collect();
        assert_eq!(states, [&text("accepted"), &text("refused")]);
    }
    Ok(())
}

fn statuses_of_several(room: &Room) -> Done {
    room.batch("good", "case-c");
    room.batch("bad", "case-b");
    several(room, &[], b"good\ngood\n").is(0);
    several(room, &[], b"bad\ngood\n").is(1);
    several(room, &[], b"good\nbad\n").is(1);
    several(room, &[], b"bad\nnowhere\ngood\n").is(2);
    Ok(())
}

fn a_folder_that_is_not_there_among_them(room: &Room) -> Done {
    room.batch("good", "case-c");
    room.batch("bad", "case-b");
    let ended = several(room, &[], b"good\nnowhere\nbad\n/\n");
    let pairs = [
        ("good", "accepted"),
        ("nowhere", "failed"),
        ("bad", "refused"),
        ("/", "failed"),
    ];
    assert_eq!(states(ended.is(2)), wanted(&pairs));
    let objects = objects(&ended.stdout);
    assert_eq!(
        (&objects[1]["verdict"], &objects[1]["requests"]),
        (&Value::Null, &Value::Null)
    );
    let orders: Vec<&Value> = objects.iter().map(|object| &object["order"]).collect();
    let good = Value::Lines(expected_order("case-c"));
    assert_eq!(orders, [&good, &Value::Null, &Value::Null, &Value::Null]);
    let alone = program("audit")
        .arg("nowhere")
        .current_dir(room.path(""))
        .end();
    assert_eq!(objects[1]["sentence"], text(&alone.sentence()));
    Ok(())
}

fn missing_texts_among_them(room: &Room) -> Done {
    let batch = room.batch("lacks", "empty");
    fs::remove_file(batch.join("trace.txt")).unwrap();
    room.folder("nothing");
    assert_eq!(
        states(several(room, &[], b"lacks\n").is(2)),
        wanted(&[("lacks", "failed")])
    );
    let ended = several(room, &["--missing-as-empty"], b"lacks\n");
    assert_eq!(states(ended.is(3)), wanted(&[("lacks", "empty")]));
    let ended = several(room, &["--missing-as-empty"], b"nothing\n");
    assert_eq!(states(ended.is(2)), wanted(&[("nothing", "failed")]));
    Ok(())
}

fn no_names(room: &Room) -> Done {
    several(room, &[], b"").is(2).printed("");
    several(room, &["-0"], b"").is(2).printed("");
    let closed = shell("exec \"$@\" <&-")
        .arg(PROGRAM)
        .args(["audit", "--json", "-"])
        .end();
    closed.is(2).printed("");
    Ok(())
}

fn an_empty_name(room: &Room) -> Done {
    room.batch("good", "case-c");
    several(room, &[], b"\n").is(2);
    let ended = several(room, &[], b"good\n\n");
    assert_eq!(states(ended.is(2))[0], wanted(&[("good", "accepted")])[0]);
    several(room, &["-0"], b"\0").is(2);
    Ok(())
}

fn a_last_name_without_a_line_feed(room: &Room) -> Done {
    room.batch("good", "case-c");
    room.batch("bad", "case-b");
    let pairs = wanted(&[("good", "accepted"), ("bad", "refused")]);
    assert_eq!(states(several(room, &[], b"good\nbad").is(1)), pairs);
    Ok(())
}

/// Where names end in a zero byte, one that does not may be the front of another, of a batch that is not meant.
fn a_last_name_without_its_zero_byte(room: &Room) -> Done {
    room.batch("good", "case-c");
    room.batch("good-2", "case-b");
    let ended = several(room, &["-0"], b"good-2\0good");
    let pairs = wanted(&[("good-2", "refused"), ("good", "failed")]);
    assert_eq!(states(ended.is(2)), pairs);
    let object = objects(&ended.stdout).remove(1);
    assert_eq!(object["verdict"], Value::Null);
    let Value::Text(sentence) = &object["sentence"] else {
        panic!("{object:?}");
    };
    assert!(sentence.contains("not ended by a zero byte"), "{sentence}");
    Ok(())
}

/// A heading for each, sentences with their names, and the worst status.
fn several_folders_as_arguments(room: &Room) -> Done {
    room.batch("good", "case-c");
    room.batch("line\nfeed", "case-b");
    room.batch("nothing", "empty");
    let run = |folders: &[&str]| {
        let mut program = program("audit");
        program.args(folders).current_dir(room.path("")).end()
    };
    let part = |name: &str, of: &str| {
        let printed = String::from_utf8(expected(of)).unwrap();
        format!("batch={name}\n{printed}")
    };
    let ended = run(&["good", "line\nfeed", "good"]);
    let all = [
        part("good", "case-c"),
        part("line\\x0afeed", "case-b"),
        part("good", "case-c"),
    ];
    ended.is(1).printed(all.concat());
    let said = ended.said();
    let refused = "line\\x0afeed: refused, verdict 9 (the order returns to itself)";
    assert_eq!(said[1], refused);
    assert!(said[0].starts_with("good: accepted: 2 requests"), "{ended}");
    assert_eq!(said.len(), 3, "{ended}");
    let ended = run(&["nowhere", "good", "nothing"]);
    ended
        .is(2)
        .printed(part("good", "case-c") + &part("nothing", "empty"));
    ended.said_part("nowhere: could not be run: nowhere is not there");
    run(&["good", "good"]).is(0);
    run(&["nothing", "good"]).is(3);
    run(&["nothing", "line\nfeed"]).is(1);
    Ok(())
}

fn several_folders_in_json(room: &Room) -> Done {
    room.batch("good", "case-c");
    room.batch("bad", "case-b");
    let mut program = program("audit");
    program.args(["--json", "good", "nowhere", "bad"]);
    let ended = program.current_dir(room.path("")).end();
    let pairs = [
        ("good", "accepted"),
        ("nowhere", "failed"),
        ("bad", "refused"),
    ];
    assert_eq!(states(ended.is(2)), wanted(&pairs));
    assert!(ended.said().is_empty(), "{ended}");
    Ok(())
}

fn a_dash_without_json(room: &Room) -> Done {
    room.batch("good", "case-c");
    let ended = program("audit")
        .arg("-")
        .current_dir(room.path(""))
        .end_with(b"good\n");
    ended.does_not_take("");
    Ok(())
}

fn a_dash_and_a_folder(room: &Room) -> Done {
    room.batch("good", "case-c");
    several(room, &["good"], b"good\n").does_not_take("");
    Ok(())
}

fn standard_input_that_cannot_be_read(_: &Room) -> Done {
    let folder = File::open("/").unwrap();
    let mut program = program("audit");
    program
        .args(["--json", "-"])
        .stdin(folder)
        .stdout(Stdio::piped())
        .stderr(Stdio::piped());
    let ended = program.output().unwrap();
    assert_eq!(ended.status.code(), Some(2));
    assert_eq!(ended.stdout, b"");
    Ok(())
}

/// More names, and more objects, than a pipe holds.
fn a_thousand_names(room: &Room) -> Done {
    room.batch("good", "case-c");
    let ended = several(room, &[], "good\n".repeat(1000).as_bytes());
    let states = states(ended.is(0));
    assert_eq!(states.len(), 1000);
    assert!(states
        .iter()
        .all(|one| *one == wanted(&[("good", "accepted")])[0]));
    Ok(())
}

fn names_that_are_not_utf8(room: &Room) -> Done {
    let name = b"\xff\xfe";
    copy_folder(
        &example("case-c"),
        &room.path("").join(OsStr::from_bytes(name)),
    );
    let ended = several(room, &[], b"\xff\xfe\n");
    let object = objects(&ended.is(0).stdout).remove(0);
    assert_eq!(object["verdict"], Value::Number(0));
    assert_eq!(object["batch"], Value::Bytes(name.to_vec()));
    Ok(())
}

/// Names with a dot stand for batches that are being written: what README and the manual have for a spool leaves them out.
fn the_find_of_the_documents(room: &Room) -> Done {
    let spool = room.spool("spool", "case-c", 3);
    room.batch("spool/.half", "empty");
    let wanted = "batch-1\0batch-2\0batch-3\0";
    for file in ["README.md", "cli/teaselshears.1"] {
        let text = String::from_utf8(read(root().join(file))).unwrap();
        let text = text.replace("\\-", "-");
        let found = text
            .lines()
            .filter(|line| line.trim().starts_with("find /spool"));
        let commands: Vec<&str> = found.map(|line| line.split('|').next().unwrap()).collect();
        assert!(!commands.is_empty(), "{file} has one");
        for command in commands {
            let script = command.replace("/spool", ".") + "| sort -z | sed -z 's/^..//'";
            let ended = shell(&script).current_dir(&spool).end();
            ended.is(0).printed(wanted);
        }
    }
    Ok(())
}

/// Debian's package `parallel`, as README has it; the one of moreutils goes by the same name.
fn spread_by_gnu_parallel(room: &Room) -> Done {
    needs("parallel")?;
    let version = Command::new("parallel")
        .arg("--version")
        .env("HOME", room.path(""))
        .end();
    if !version.text().starts_with("GNU parallel") {
        return skip("parallel is not GNU's");
    }
    let mut names = String::new();
    for number in 0..23 {
        let of = if number % 5 == 0 { "case-b" } else { "case-c" };
        room.batch(&format!("batch-{number:02}"), of);
        names += &format!("batch-{number:02}\n");
    }
    let mut parallel = Command::new("parallel");
    parallel.args(["--pipe", "-N", "5", PROGRAM, "audit", "--json", "-"]);
    let ended = parallel
        .current_dir(room.path(""))
        .env("HOME", room.path(""))
        .end_with(names.as_bytes());
    let mut states = states(&ended);
    states.sort();
    assert_eq!(states.len(), 23);
    for (number, (name, state)) in states.iter().enumerate() {
        let wanted = if number % 5 == 0 {
            "refused"
        } else {
            "accepted"
        };
        assert_eq!((name, &**state), (&format!("batch-{number:02}"), wanted));
    }
    Ok(())
}
