//! Requests that never got a response: how many an accepted batch has, the same wherever the program tells it.

use crate::harness::{tests, Done};
use crate::json::{objects, Object, Value};
use crate::order::{flowing, help, recorded};
use crate::results::row;
use crate::room::{example, read, root, Room};
use crate::run::{audit, audit_all_json, order, program, Run};
use std::fs;

tests![
    which_they_are_in_an_order,
    left_open_in_objects_and_the_table,
    nothing_left_open_without_a_verdict,
    power_lost_at_every_turn,
    as_many_as_there_may_be,
    help_says_what_is_left_open,
];

/// Examples, and what their audit says.
const SAID: [(&str, &str); 6] = [
    (
        "case-c",
        "accepted: 2 requests, 4 operations (0 blocks, rest 4)",
    ),
    (
        "open-before-first-operation",
        "accepted: 2 requests, 2 operations (0 blocks, rest 2), 1 request left open",
    ),
    (
        "open-after-operation",
        "accepted: 2 requests, 3 operations (0 blocks, rest 3), 1 request left open",
    ),
    (
        "open-arrivals-only",
        "accepted: 2 requests, 0 operations (0 blocks, rest 0), 2 requests left open",
    ),
    (
        "refused-10-open-request",
        r#"refused, verdict 10 (operation or count differs): report.txt, line 1: "of=1,0,1""#,
    ),
    (
        "refused-12-open-request",
        r#"refused, verdict 12 (path differs in a group): report.txt, line 2: "of=2,0,0""#,
    ),
];

/// Behind the sentence, each with how many operations it had carried out.
fn which_they_are_in_an_order(_: &Room) -> Done {
    let behind = [
        "",
        ": request 2 after 0 operations",
        ": request 1 after 1 operation",
        ": request 1 after 0 operations, request 2 after 0 operations",
        "",
        "",
    ];
    for ((name, said), behind) in SAID.into_iter().zip(behind) {
        assert_eq!(order(example(name)).sentence(), format!("{said}{behind}"));
    }
    Ok(())
}

fn left_open_in_objects_and_the_table(room: &Room) -> Done {
    let (spool, results) = (room.folder("spool"), room.path("results"));
    for (name, _) in SAID {
        room.batch(&format!("spool/{name}"), name);
    }
    // The second run has them from what is kept, and so has the table where a batch is no longer in the spool.
    for _ in 0..2 {
        let objects = objects(&audit_all_json(&spool, &results).is(1).stdout);
        let open = |object: &Object| (object["batch"].clone(), object["open"].clone());
        let found: Vec<(Value, Value)> = objects.iter().map(open).collect();
        for ((name, said), number) in SAID.into_iter().zip([0, 1, 1, 2, 0, 0]) {
            let wanted = (Value::Text(name.to_string()), Value::Number(number));
            assert!(found.contains(&wanted), "{wanted:?}: {found:?}");
            let row = row(&results, name);
            assert_eq!((row.open, &*row.sentence), (number.to_string(), said));
        }
    }
    fs::remove_dir_all(spool.join("open-arrivals-only")).unwrap();
    audit_all_json(&spool, &results).is(1);
    assert_eq!(row(&results, "open-arrivals-only").open, "2");
    Ok(())
}

/// One batch that failed, and one that changed.
fn nothing_left_open_without_a_verdict(room: &Room) -> Done {
    let spool = room.spool("spool", "open-arrivals-only", 1);
    let results = room.path("results");
    audit_all_json(&spool, &results).is(0);
    fs::write(spool.join("batch-1/report.txt"), "").unwrap();
    room.folder("spool/nothing");
    let objects = objects(&audit_all_json(&spool, &results).is(2).stdout);
    assert_eq!(objects.len(), 2);
    for object in objects {
        assert_eq!(object["open"], Value::Null, "{object:?}");
    }
    for (batch, state) in [("batch-1", "changed"), ("nothing", "failed")] {
        let row = row(&results, batch);
        assert_eq!((&*row.state, &*row.open), (state, ""));
    }
    Ok(())
}

/// The schedule of case C, which has two arrivals, four turns for operations and two for replies, ended behind each line.
fn power_lost_at_every_turn(room: &Room) -> Done {
    let [programs, schedule] = ["programs.txt", "schedule.txt"]
        .map(|text| String::from_utf8(read(example("case-c").join(text))).unwrap());
    let lines: Vec<&str> = schedule.split_inclusive('\n').collect();
    for run in 0..=lines.len() {
        let batch = recorded(room, &run.to_string(), &programs, &lines[..run].concat());
        let (requests, responses) = (run.min(2), run.saturating_sub(6));
        let operations = run.saturating_sub(2).min(4);
        let ended = program("audit").arg("--json").arg(&batch).end();
        let keys = format!(
            r#""requests":{requests},"operations":{operations},"blocks":0,"rest":{operations},"open":{},"#,
            requests - responses
        );
        // Before the first arrival nothing is in it.
        let status = if requests == 0 { 3 } else { 0 };
        assert!(ended.is(status).text().contains(&keys), "{keys}; {ended}");
    }
    Ok(())
}

/// 64 requests, each of which arrives and takes one turn, for an operation.
fn as_many_as_there_may_be(room: &Room) -> Done {
    let programs = "program=0\ndo=7,0,0,0\ndo=0,0,0,0\n";
    let request = |rid: usize| format!("arrive={rid},0,0,0\nturn={rid}\n");
    let schedule: String = (0..64).map(request).collect();
    let batch = recorded(room, "batch", programs, &schedule);
    let counts = "accepted: 64 requests, 64 operations (0 blocks, rest 64), 64 requests left open";
    assert_eq!(audit(&batch).is(0).sentence(), counts);
    let each: Vec<String> = (0..64)
        .map(|rid| format!("request {rid} after 1 operation"))
        .collect();
    let said = format!("{counts}: {}", each.join(", "));
    assert_eq!(order(&batch).is(0).sentence(), said);
    Ok(())
}

fn help_says_what_is_left_open(_: &Room) -> Done {
    let manual = String::from_utf8(read(root().join("cli/teaselshears.1"))).unwrap();
    let explained = |verdict: &str| flowing(&program("explain").arg(verdict).end().is(0).text());
    let earlier = "may then be accepted, with that request left open";
    for (text, part) in [
        (
            help("audit"),
            "how many requests were left open (never got a response)",
        ),
        (help("audit"), "'open' is how many requests were left open"),
        (help("order"), "which requests were left open"),
        (help("record"), "how many requests were left open"),
        (help("record"), "1, 2, 13, 14 refused"),
        (help("audit-all"), "rest, time, sentence, open"),
        (help("audit-all"), earlier),
        (help("explain"), "verdict N (0 to 14, 16)"),
        (flowing(&manual), "rest, time, sentence, open"),
        (flowing(&manual), earlier),
        (
            flowing(&manual),
            "look at the counts and at requests left open",
        ),
        (explained("0"), "A request left open never got its response"),
    ] {
        assert!(text.contains(part), "{part}: {text}");
    }
    assert!(!explained("4").contains("answered"), "no fault any more");
    Ok(())
}
