//! The order of an accepted batch: what `audit` prints behind the verdict lines, and what `order` tells of it in words.

use crate::harness::{tests, Done};
use crate::room::{
    audited_examples, example, expected_order, left_open, read, state_of, Room, EMPTY, TEXTS,
    VERDICT_LINES,
};
use crate::run::{audit, order, program, record, Ended, Run};
use std::fs;
use std::path::{Path, PathBuf};

tests![
    order_of_every_example,
    case_c_in_words,
    every_operation_in_words,
    a_read_gets_what_was_written_before_it_in_the_order,
    a_well_filled_with_0_and_one_never_filled,
    a_refused_batch_has_no_order,
    the_longest_order,
    an_order_that_could_not_be_run,
    missing_texts_of_an_order,
    help_says_what_is_proved,
];

/// The first word of each line that was printed.
fn items(ended: &Ended) -> Vec<String> {
    let item = |line: &str| line.split(' ').next().unwrap().to_string();
    ended.text().lines().map(item).collect()
}

/// The lines of a text.
fn lines(folder: &Path, text: &str) -> Vec<String> {
    let text = String::from_utf8(read(folder.join(text))).unwrap();
    text.lines().map(String::from).collect()
}

/// From column 15 on stands the place of a line with its bytes, and that line is the item's.
#[track_caller]
fn check_line(folder: &Path, line: &str) {
    let (item, words) = (line[..14].trim_end(), &line[14..]);
    let (file, words) = words.split_once(", line ").expect("a place");
    let (number, words) = words.split_once(": \"").expect("a line");
    let bytes = words.split_once('"').expect("its end").0;
    let number: usize = number.parse().unwrap();
    assert_eq!(lines(folder, file)[number - 1], bytes, "{line}");
    match item.split_once('=').unwrap() {
        ("event", wanted) => assert_eq!((file, wanted), ("trace.txt", &*number.to_string())),
        (_, wanted) => {
            let named: Vec<&str> = bytes.split(',').collect();
            assert!(file == "report.txt" && bytes.starts_with("log="), "{line}");
            assert_eq!(wanted, named[1..3].join(","), "{line}");
        }
    }
}

fn order_of_every_example(_: &Room) -> Done {
    for name in audited_examples() {
        let (ended, audited) = (order(example(&name)), audit(example(&name)));
        assert_eq!(ended.status, audited.status, "{name}");
        // Behind the sentence of the audit are the requests left open.
        let said = ended.sentence();
        let behind = said.strip_prefix(&audited.sentence()).unwrap();
        let open = audited.status.success() && left_open(&example(&name)) > 0;
        assert_eq!(behind.starts_with(": request "), open, "{name}: {said}");
        assert!(open || behind.is_empty(), "{name}: {said}");
        assert_eq!(items(&ended), expected_order(&name), "{name}");
        for line in ended.text().lines() {
            check_line(&example(&name), line);
        }
    }
    Ok(())
}

fn case_c_in_words(_: &Room) -> Done {
    let ended = order(example("case-c"));
    ended.is(0).printed(
        r#"event=1       trace.txt, line 1: "request=1,0,0,0"
op=1,1        report.txt, line 3: "log=0,1,1,7,0,1": request 1 writes 1 to register 0
event=2       trace.txt, line 2: "request=2,1,0,0"
op=2,1        report.txt, line 5: "log=1,2,1,7,0,1": request 2 writes 1 to register 1
op=2,2        report.txt, line 4: "log=0,2,2,6,0,1": request 2 reads register 0 and gets 1
op=1,2        report.txt, line 6: "log=1,1,2,6,0,1": request 1 reads register 1 and gets 1
event=3       trace.txt, line 3: "response=1,0,1"
event=4       trace.txt, line 4: "response=2,0,1"
"#,
    );
    assert_eq!(
        ended.sentence(),
        "accepted: 2 requests, 4 operations (0 blocks, rest 4)"
    );
    Ok(())
}

/// A batch that the host recorded of these programs and this schedule.
#[track_caller]
pub fn recorded(room: &Room, name: &str, programs: &str, schedule: &str) -> PathBuf {
    let folder = room.folder("schedule");
    fs::write(folder.join("programs.txt"), programs).unwrap();
    fs::write(folder.join("schedule.txt"), schedule).unwrap();
    record(&folder, room.path(name)).is(0);
    room.path(name)
}

/// The item of each operation, and what its request does.
#[track_caller]
fn operations(ended: &Ended) -> Vec<String> {
    let text = ended.is(0).text();
    let done = |line: &str| {
        let (item, words) = (line[..14].trim_end(), line.split_once("\": request ")?.1);
        Some(format!("{item}: {words}"))
    };
    text.lines().filter_map(done).collect()
}

fn every_operation_in_words(room: &Room) -> Done {
    // Register 7 becomes a and is read; store 15 gets b at key a; keys a and b are read and asked for, the second never put.
    let programs = "program=0\ndo=6,2,7,0\ndo=7,7,0,0\ndo=6,2,7,0\ndo=9,15,0,1\ndo=8,3,15,0\ndo=8,4,15,1\ndo=10,5,15,0\ndo=10,6,15,1\ndo=0,3,0,0\n";
    let schedule = format!(
        "arrive=65535,0,3,18446744073709551615\n{}",
        "turn=65535\n".repeat(9)
    );
    let batch = recorded(room, "batch", programs, &schedule);
    let wanted = [
        "op=65535,1: 65535 reads register 7 and gets 0",
        "op=65535,2: 65535 writes 3 to register 7",
        "op=65535,3: 65535 reads register 7 and gets 3",
        "op=65535,4: 65535 puts 18446744073709551615 at key 3 of store 15",
        "op=65535,5: 65535 reads key 3 of store 15 and gets 18446744073709551615",
        "op=65535,6: 65535 reads key 18446744073709551615 of store 15 and gets 0",
        "op=65535,7: 65535 asks whether store 15 holds key 3 and gets 1 (yes)",
        "op=65535,8: 65535 asks whether store 15 holds key 18446744073709551615 and gets 0 (no)",
    ];
    assert_eq!(operations(&order(batch)), wanted);
    Ok(())
}

/// In the log of the store one read stands before the put and one behind it.
fn a_read_gets_what_was_written_before_it_in_the_order(_: &Room) -> Done {
    let wanted = [
        "op=11,1: 11 reads key 7 of store 8 and gets 0",
        "op=10,1: 10 puts 42 at key 7 of store 8",
        "op=12,1: 12 reads key 7 of store 8 and gets 42",
    ];
    assert_eq!(operations(&order(example("stores"))), wanted);
    Ok(())
}

/// Their volumes read alike; only the question tells them apart.
fn a_well_filled_with_0_and_one_never_filled(_: &Room) -> Done {
    let wanted = [
        "op=1,1: 1 puts 0 at key 7 of store 8",
        "op=2,1: 2 asks whether store 8 holds key 7 and gets 1 (yes)",
        "op=3,1: 3 asks whether store 8 holds key 12 and gets 0 (no)",
        "op=2,2: 2 reads key 7 of store 8 and gets 0",
        "op=3,2: 3 reads key 12 of store 8 and gets 0",
    ];
    assert_eq!(operations(&order(example("wells"))), wanted);
    Ok(())
}

fn a_refused_batch_has_no_order(_: &Room) -> Done {
    let mut names = audited_examples();
    names.retain(|name| state_of(name).0 == "refused");
    assert!(names.len() >= 12, "an example of each refusal");
    for name in names {
        let audited = audit(example(&name));
        let lines = audited.is(1).text().lines().count();
        assert_eq!(lines, VERDICT_LINES, "{audited}");
        let ended = order(example(&name));
        assert_eq!(
            ended.is(1).printed("").sentence(),
            audited.sentence(),
            "{name}"
        );
    }
    Ok(())
}

/// 64 requests with 16 operations each, as many as there may be: eight times each reads a register, and writes one more.
fn the_longest_order(room: &Room) -> Done {
    let step = "do=6,2,0,0\ndo=2,2,2,0\ndo=7,0,2,0\n";
    let programs = format!("program=0\n{}do=0,2,0,0\n", step.repeat(8));
    let rids = 65_472..65_536;
    let arrivals: String = rids
        .clone()
        .map(|r| format!("arrive={r},0,1,0\n"))
        .collect();
    // One request after another, so that no write is lost: what is read goes from 0 to 511.
    let turns: String = rids.map(|r| format!("turn={r}\n").repeat(17)).collect();
    let batch = recorded(room, "batch", &programs, &(arrivals + &turns));
    let printed = audit(&batch).is(0).text();
    let order_lines: Vec<&str> = printed.lines().skip(VERDICT_LINES).collect();
    assert_eq!(order_lines.len(), 1_024 + 128);
    let ended = order(&batch);
    let counts = "accepted: 64 requests, 1024 operations (10 blocks, rest 24)";
    assert_eq!(ended.sentence(), counts);
    assert_eq!(items(ended.is(0)), order_lines);
    let operations = operations(&ended);
    let reads = operations.iter().filter(|line| line.contains(" reads "));
    let values: Vec<String> = reads
        .map(|line| line.rsplit_once(' ').unwrap().1.to_string())
        .collect();
    let wanted: Vec<String> = (0..512).map(|value: u64| value.to_string()).collect();
    assert_eq!(values, wanted);
    Ok(())
}

fn an_order_that_could_not_be_run(room: &Room) -> Done {
    order(room.path("nowhere")).could_not("nowhere");
    order(room.folder("empty")).could_not("");
    order(example("case-c").join("trace.txt")).could_not("");
    let batch = room.batch("batch", "case-c");
    fs::remove_file(batch.join("report.txt")).unwrap();
    fs::create_dir(batch.join("report.txt")).unwrap();
    order(&batch).could_not("report.txt");
    Ok(())
}

fn missing_texts_of_an_order(room: &Room) -> Done {
    for missing in TEXTS {
        let batch = room.batch(missing, "empty");
        fs::remove_file(batch.join(missing)).unwrap();
        order(&batch).could_not(missing);
        let ended = program("order").arg("--missing-as-empty").arg(&batch).end();
        let said = format!("{EMPTY}; missing, and read as empty: {missing}");
        assert_eq!(ended.is(3).printed("").sentence(), said);
    }
    Ok(())
}

/// A text with its line ends taken for spaces.
pub fn flowing(text: &str) -> String {
    text.split_whitespace().collect::<Vec<_>>().join(" ")
}

/// The help of a command.
#[track_caller]
pub fn help(command: &str) -> String {
    flowing(&program(command).arg("--help").end().is(0).text())
}

fn help_says_what_is_proved(_: &Room) -> Done {
    let order = help("order");
    for part in [
        "the order that 'teaselshears audit' prints",
        "The order is proved: the first word of each line.",
        "The words behind it and the line numbers are not",
        "reads register O and gets V",
        "puts V at key K of store O",
        "asks whether store O holds key K and gets 1 (yes) or 0 (no)",
    ] {
        assert!(order.contains(part), "{part}: {order}");
    }
    let audit = help("audit");
    for part in [
        "event=N",
        "op=RID,NUM",
        "only where it is accepted",
        "'order' is a list",
    ] {
        assert!(audit.contains(part), "{part}: {audit}");
    }
    Ok(())
}
