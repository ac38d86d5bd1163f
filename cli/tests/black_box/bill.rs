//! The bill of a batch, its operations by the hundred: the same wherever the program tells it.

use crate::harness::{tests, Done};
use crate::json::{objects, only_object, Value};
use crate::order::{flowing, help, recorded};
use crate::results::row;
use crate::room::{read, root, Room};
use crate::run::{audit, audit_all, audit_all_json, program, Run};
use std::fs;
use std::path::PathBuf;

tests![
    bills_around_the_hundreds,
    bills_in_the_table,
    a_refused_batch_is_charged_nothing,
    no_bill_without_a_verdict,
    help_says_what_is_charged,
];

/// Operations, their blocks and rest, and these in words.
const BILLS: [(usize, usize, usize, &str); 8] = [
    (0, 0, 0, "0 operations (0 blocks, rest 0)"),
    (1, 0, 1, "1 operation (0 blocks, rest 1)"),
    (99, 0, 99, "99 operations (0 blocks, rest 99)"),
    (100, 1, 0, "100 operations (1 block, rest 0)"),
    (101, 1, 1, "101 operations (1 block, rest 1)"),
    (199, 1, 99, "199 operations (1 block, rest 99)"),
    (200, 2, 0, "200 operations (2 blocks, rest 0)"),
    (1_024, 10, 24, "1024 operations (10 blocks, rest 24)"),
];

/// Lines in the place of case C's bill that are none: one missing, both exchanged, not adding up, not in their one spelling.
pub const WRONG_BILLS: [&str; 7] = [
    "blocks=0\n",
    "rest=4\n",
    "rest=4\nblocks=0\n",
    "blocks=4\nrest=0\n",
    "blocks=0\nrest=5\n",
    "blocks=1\nrest=4\n",
    "blocks=0\nrest=04\n",
];

/// A batch of so many operations: requests with 32 of them each, and one with those that are left.
fn batch_of(room: &Room, name: &str, operations: usize) -> PathBuf {
    let program = |number: usize, writes: usize| {
        let writes = "do=7,0,0,0\n".repeat(writes);
        format!("program={number}\n{writes}do=0,0,0,0\n")
    };
    let last = operations / 32;
    let request = |rid: usize| {
        let number = usize::from(rid == last);
        format!("arrive={rid},{number},0,0\n") + &format!("turn={rid}\n").repeat(33)
    };
    let programs = program(0, 32) + &program(1, operations % 32);
    let schedule: String = (0..=last).map(request).collect();
    recorded(room, name, &programs, &schedule)
}

fn bills_around_the_hundreds(room: &Room) -> Done {
    for (operations, blocks, rest, words) in BILLS {
        let batch = batch_of(room, &operations.to_string(), operations);
        let ended = audit(&batch);
        let printed = ended.is(0).text();
        let lines: Vec<&str> = printed.lines().skip(3).take(3).collect();
        let wanted = format!("operations={operations}\nblocks={blocks}\nrest={rest}");
        assert_eq!(lines.join("\n"), wanted);
        assert!(ended.sentence().ends_with(&format!(", {words}")), "{ended}");
        let ended = program("audit").arg("--json").arg(&batch).end();
        let keys = format!(
            r#","operations":{operations},"blocks":{blocks},"rest":{rest},"open":0,"order":["#
        );
        assert!(ended.is(0).text().contains(&keys), "{keys}; {ended}");
    }
    Ok(())
}

fn bills_in_the_table(room: &Room) -> Done {
    let (spool, results) = (room.path("spool"), room.path("results"));
    for (operations, ..) in BILLS {
        batch_of(room, &format!("spool/{operations}"), operations);
    }
    // The second run has them from what is kept.
    for _ in 0..2 {
        audit_all(&spool, &results).is(0);
        for (operations, blocks, rest, words) in BILLS {
            let row = row(&results, &operations.to_string());
            let wanted = [operations, blocks, rest].map(|number| number.to_string());
            assert_eq!([row.operations, row.blocks, row.rest], wanted);
            assert!(row.sentence.ends_with(&format!(", {words}")), "{words}");
        }
    }
    Ok(())
}

/// The batch has 150 operations, and one response with another value.
fn a_refused_batch_is_charged_nothing(room: &Room) -> Done {
    let batch = batch_of(room, "spool/batch", 150);
    let trace = String::from_utf8(read(batch.join("trace.txt"))).unwrap();
    let changed = trace.replace("response=4,0,0\n", "response=4,0,5\n");
    fs::write(batch.join("trace.txt"), changed).unwrap();
    let ended = audit(&batch);
    let lines = "requests=0\noperations=0\nblocks=0\nrest=0\n";
    ended.is(1).printed(format!("verdict=11\nline=5\n{lines}"));
    assert!(!ended.sentence().contains("block"), "{ended}");
    let results = room.path("results");
    let ended = audit_all_json(room.path("spool"), &results);
    let object = only_object(&ended.is(1).stdout);
    let row = row(&results, "batch");
    assert_eq!((&*row.blocks, &*row.rest), ("0", "0"));
    for key in ["blocks", "rest"] {
        assert_eq!(object[key], Value::Number(0), "{key}");
    }
    Ok(())
}

/// One batch that failed, and one that changed.
fn no_bill_without_a_verdict(room: &Room) -> Done {
    let (spool, results) = (room.spool("spool", "case-c", 1), room.path("results"));
    audit_all(&spool, &results).is(0);
    fs::write(spool.join("batch-1/report.txt"), "").unwrap();
    room.folder("spool/nothing");
    let objects = objects(&audit_all_json(&spool, &results).is(2).stdout);
    assert_eq!(objects.len(), 2);
    for object in objects {
        for key in ["operations", "blocks", "rest"] {
            assert_eq!(object[key], Value::Null, "{key}");
        }
    }
    for (batch, state) in [("batch-1", "changed"), ("nothing", "failed")] {
        let row = row(&results, batch);
        assert_eq!(row.state, state);
        assert_eq!([row.operations, row.blocks, row.rest], ["", "", ""]);
    }
    Ok(())
}

fn help_says_what_is_charged(_: &Room) -> Done {
    let manual = String::from_utf8(read(root().join("cli/teaselshears.1"))).unwrap();
    let (audit, all, manual) = (help("audit"), help("audit-all"), flowing(&manual));
    for (text, part) in [
        (
            &audit,
            "blocks=N the whole hundreds of operations, by which they are charged",
        ),
        (&audit, "rest=N the operations left over, 0 to 99"),
        (&audit, "requests, operations, blocks, rest, open, order"),
        (&all, "requests, operations, blocks, rest, time"),
        (
            &manual,
            "the whole hundreds of operations, by which they are charged",
        ),
        (&manual, "requests, operations, blocks, rest, open, order"),
        (&manual, "requests, operations, blocks, rest, time"),
    ] {
        assert!(text.contains(part), "{part}: {text}");
    }
    Ok(())
}
