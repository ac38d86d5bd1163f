//! Every example through audit and record: what is printed, byte for byte; the status; and the sentence.

use crate::harness::{tests, Done, Skipped};
use crate::json::{only_object, text, Object, Value};
use crate::room::{
    audited_examples, check_recorded, example, examples, expected, expected_order, left_open,
    names_in, read, state_of, Room, EMPTY,
};
use crate::run::{audit, program, proved, record, Run};
use std::collections::BTreeSet;
use std::fs;
use std::path::Path;

tests![
    audit_of_every_example,
    audit_prints_what_the_proved_program_prints,
    audit_in_json_of_every_example,
    record_of_every_schedule,
    record_prints_what_the_proved_program_prints,
    record_of_programs_that_are_refused,
    an_example_of_every_verdict,
    causes_of_unreadable_lines_differ,
    codes_and_kinds_end_at_10,
    causes_of_verdict_4_differ,
    causes_of_verdict_7_differ,
    causes_of_verdict_14_differ,
];

/// The place that the sentence of a refused example ends in; the first that its name begins with.
const PLACES: [(&str, &str); 16] = [
    ("refused-01", r#"programs.txt, line 1: "do=1,2""#),
    ("refused-02", r#"programs.txt, line 2: "do=0,8,0,0""#),
    ("refused-03", r#"trace.txt, line 1: "request=01,0,0,0""#),
    ("refused-04", r#"trace.txt, line 1: "response=1,0,0""#),
    ("refused-05", r#"report.txt, line 1: "of=1,0""#),
    ("refused-06", "report.txt, line 1, which is behind its end"),
    ("refused-07", r#"report.txt, line 2: "log=0,1,1,7,0,1""#),
    ("refused-08", r#"report.txt, line 1: "of=1,0,1""#),
    ("refused-10-open", r#"report.txt, line 1: "of=1,0,1""#),
    ("refused-10-well", r#"report.txt, line 3: "of=3,2,2""#),
    ("refused-10", r#"report.txt, line 1: "of=1,0,2""#),
    ("refused-11", r#"report.txt, line 2: "of=2,1,2""#),
    ("refused-12-open", r#"report.txt, line 2: "of=2,0,0""#),
    ("refused-12", r#"report.txt, line 2: "of=2,0,2""#),
    ("refused-13", r#"schedule.txt, line 1: "turn=1,""#),
    ("refused-14", r#"schedule.txt, line 1: "turn=1""#),
];

/// The number behind a word of what an example must print.
fn number(printed: &[u8], word: &str) -> Option<u64> {
    let printed = String::from_utf8_lossy(printed).into_owned();
    let mut lines = printed.lines().filter_map(|line| line.split_once('='));
    lines
        .find(|(name, _)| *name == word)
        .map(|(_, number)| number.parse().unwrap())
}

/// A number of an accepted example with its noun, as a sentence says it.
fn count(name: &str, word: &str) -> String {
    match number(&expected(name), word) {
        Some(1) => format!("1 {}", word.trim_end_matches('s')),
        many => format!("{} {word}", many.unwrap()),
    }
}

/// How many requests and operations an accepted example has.
fn counts(name: &str) -> String {
    format!("{}, {}", count(name, "requests"), count(name, "operations"))
}

/// Blocks and rest of an accepted example.
fn bill(name: &str) -> String {
    let rest = number(&expected(name), "rest").unwrap();
    format!("{}, rest {rest}", count(name, "blocks"))
}

/// What stands behind the counts where an accepted example has requests without a response.
fn open(name: &str) -> String {
    match left_open(&example(name)) {
        0 => String::new(),
        1 => ", 1 request left open".to_string(),
        many => format!(", {many} requests left open"),
    }
}

#[track_caller]
fn check_refusal(name: &str, sentence: &str) {
    let verdict = number(&expected(name), "verdict").unwrap();
    if verdict == 9 {
        assert_eq!(sentence, "refused, verdict 9 (the order returns to itself)");
        return;
    }
    let place = PLACES
        .iter()
        .find(|(front, _)| name.starts_with(front))
        .unwrap()
        .1;
    assert!(
        sentence.starts_with(&format!("refused, verdict {verdict} (")),
        "{name}: {sentence}"
    );
    assert!(
        sentence.ends_with(&format!("): {place}")),
        "{name}: {sentence}"
    );
}

fn audit_of_every_example(_: &Room) -> Done {
    for name in audited_examples() {
        let ended = audit(example(&name));
        ended.printed(expected(&name));
        let (state, status) = state_of(&name);
        let sentence = ended.is(status).sentence();
        match state {
            "accepted" => {
                let (counts, bill, open) = (counts(&name), bill(&name), open(&name));
                assert_eq!(sentence, format!("accepted: {counts} ({bill}){open}"));
            }
            "empty" => assert_eq!(sentence, EMPTY),
            _ => check_refusal(&name, &sentence),
        }
    }
    Ok(())
}

/// What a proved program prints in a folder.
fn proved_prints(name: &str, folder: &Path) -> Result<Vec<u8>, Skipped> {
    Ok(proved(name, folder)?.end().is(0).stdout.clone())
}

fn audit_prints_what_the_proved_program_prints(_: &Room) -> Done {
    for name in audited_examples() {
        audit(example(&name)).printed(proved_prints("audit", &example(&name))?);
    }
    Ok(())
}

fn record_prints_what_the_proved_program_prints(room: &Room) -> Done {
    for name in examples() {
        let folder = example(&name);
        if !folder.join("schedule.txt").exists() {
            continue;
        }
        let proved = proved_prints("record", &folder)?;
        let lines: Vec<&[u8]> = proved.split_inclusive(|byte| *byte == b'\n').collect();
        let out = room.path(&name);
        record(&folder, &out).printed(lines[..2].concat());
        if out.exists() {
            let written = [read(out.join("trace.txt")), read(out.join("report.txt"))];
            assert_eq!(written.concat(), lines[2..].concat(), "{name}");
        }
    }
    Ok(())
}

fn audit_in_json_of_every_example(_: &Room) -> Done {
    for name in audited_examples() {
        let folder = example(&name);
        let ended = program("audit").arg("--json").arg(&folder).end();
        let plain = audit(&folder);
        assert_eq!(ended.status, plain.status);
        assert_eq!(ended.said().len(), 0, "an object in place of both; {ended}");
        let object = only_object(&ended.stdout);
        let (state, _) = state_of(&name);
        assert_eq!(object["batch"], text(folder.to_str().unwrap()));
        assert_eq!(object["state"], text(state));
        assert_eq!(object["sentence"], text(&plain.sentence()));
        for key in [
            "verdict",
            "line",
            "requests",
            "operations",
            "blocks",
            "rest",
        ] {
            let number = number(&expected(&name), key).unwrap();
            assert_eq!(object[key], Value::Number(number), "{key} of {name}");
        }
        let (open, order) = match state {
            "refused" => (0, Value::Null),
            _ => (left_open(&folder), Value::Lines(expected_order(&name))),
        };
        assert_eq!(object["open"], Value::Number(open as u64), "{name}");
        assert_eq!(object["order"], order, "{name}");
        check_place(&name, &object);
    }
    Ok(())
}

/// Text and bytes of an object are those of the place that the sentence ends in.
#[track_caller]
fn check_place(name: &str, object: &Object) {
    let place = PLACES
        .iter()
        .find(|(front, _)| name.starts_with(front))
        .map(|(_, place)| place);
    let file = place.map_or(Value::Null, |place| text(place.split_once(',').unwrap().0));
    let bytes = place.and_then(|place| place.split_once(": \""));
    let bytes = bytes.map_or(Value::Null, |(_, bytes)| {
        text(bytes.strip_suffix('"').unwrap())
    });
    assert_eq!(object["text"], file, "{name}");
    assert_eq!(object["bytes"], bytes, "{name}");
}

fn record_of_every_schedule(room: &Room) -> Done {
    for name in examples() {
        let (folder, out) = (example(&name), room.path(&name));
        if !folder.join("schedule.txt").exists() {
            continue;
        }
        let ended = record(&folder, &out);
        if !folder.join("trace.txt").exists() {
            check_refusal(&name, &ended.is(1).printed(expected(&name)).sentence());
            assert!(!out.exists(), "{name} writes nothing");
            continue;
        }
        let (counts, open) = (counts(&name), open(&name));
        let said = format!("recorded to {}: {counts}{open}", out.display());
        assert_eq!(ended.is(0).printed("verdict=0\nline=0\n").sentence(), said);
        check_recorded(&name, &out);
        audit(&out).is(0).printed(expected(&name));
    }
    assert!(
        names_in(&room.path("")).len() >= 3,
        "some are recorded, and nothing else is left"
    );
    Ok(())
}

fn record_of_programs_that_are_refused(room: &Room) -> Done {
    for (name, printed) in [
        ("refused-01-programs-unreadable", "verdict=1\nline=1\n"),
        ("refused-02-local-8", "verdict=2\nline=2\n"),
    ] {
        let folder = room.batch(name, name);
        fs::write(folder.join("schedule.txt"), "").unwrap();
        let ended = record(&folder, room.path("out"));
        check_refusal(name, &ended.is(1).printed(printed).sentence());
    }
    assert!(!room.path("out").exists(), "nothing is written");
    Ok(())
}

fn an_example_of_every_verdict(_: &Room) -> Done {
    let verdict = |name: &String| number(&expected(name), "verdict").unwrap();
    let verdicts: BTreeSet<u64> = examples().iter().map(verdict).collect();
    assert!(verdicts.into_iter().eq(0..=14));
    Ok(())
}

/// The cause in the sentence of a refusal.
#[track_caller]
fn cause(sentence: &str) -> String {
    let behind = sentence.split_once(" (").expect("a cause").1;
    behind.rsplit_once("): ").expect("a place").0.to_string()
}

/// Puts each of these in the place of a text, and sees that each is refused with this verdict and a cause of its own.
#[track_caller]
fn check_causes(folder: &Path, file: &str, verdict: u64, cases: &[String]) {
    let mut causes = BTreeSet::new();
    for case in cases {
        fs::write(folder.join(file), case).unwrap();
        let ended = match file {
            "schedule.txt" => record(folder, folder.with_extension("never")),
            _ => audit(folder),
        };
        assert_eq!(
            number(&ended.is(1).stdout, "verdict"),
            Some(verdict),
            "{case:?}; {ended}"
        );
        causes.insert(cause(&ended.sentence()));
    }
    assert_eq!(
        causes.len(),
        cases.len(),
        "verdict {verdict} has a cause for each: {causes:?}"
    );
}

fn strings<const N: usize>(cases: [&str; N]) -> Vec<String> {
    cases.into_iter().map(String::from).collect()
}

/// Lines of a text that is read: the front of one, and a number that is too large for its first place.
fn causes_of_unreadable_lines_differ(room: &Room) -> Done {
    for (file, verdict, front, rest, most, too_large) in [
        (
            "programs.txt",
            1,
            "program=",
            "",
            16,
            "18446744073709551616",
        ),
        ("trace.txt", 3, "request=", ",0,0,0", 64, "65536"),
        ("report.txt", 5, "of=", ",0,0", 64, "65536"),
        ("schedule.txt", 13, "arrive=", ",0,0,0", 64, "65536"),
    ] {
        let line = |number: &str| format!("{front}{number}{rest}\n");
        let many = (1..=most + 1)
            .map(|number| line(&number.to_string()))
            .collect();
        let ended_by_cr = line("1").replace('\n', "\r\n");
        let cases = [ended_by_cr, line("01"), line(too_large), many];
        check_causes(&room.batch(file, "case-c"), file, verdict, &cases);
    }
    Ok(())
}

/// Code 11 breaks a rule and kind 11 is unreadable; kind 10 is readable on a register, where it fits no operation.
fn codes_and_kinds_end_at_10(room: &Room) -> Done {
    for (file, line, wrong, refused) in [
        (
            "programs.txt",
            "do=10,2,8,0",
            "do=11,2,8,0",
            r#"2 (a program rule broken): programs.txt, line 5: "do=11,2,8,0""#,
        ),
        (
            "report.txt",
            "log=8,2,1,10,7,1",
            "log=8,2,1,11,7,1",
            r#"5 (report unreadable: the field kind is not in its range, 6 to 10): report.txt, line 5: "log=8,2,1,11,7,1""#,
        ),
        (
            "report.txt",
            "log=8,2,1,10,7,1",
            "log=7,2,1,10,7,1",
            r#"10 (operation or count differs): report.txt, line 2: "of=2,1,2""#,
        ),
    ] {
        let path = room.batch(wrong, "wells").join(file);
        let text = String::from_utf8(read(&path)).unwrap();
        fs::write(path, text.replace(line, wrong)).unwrap();
        let said = audit(room.path(wrong)).is(1).sentence();
        assert_eq!(said, format!("refused, verdict {refused}"));
    }
    Ok(())
}

fn causes_of_verdict_4_differ(room: &Room) -> Done {
    let cases = strings([
        "request=1,0,0,0\nresponse=1,0,1\nrequest=1,0,0,0\nresponse=1,0,1\n",
        "request=1,9,0,0\nresponse=1,0,1\n",
        "response=1,0,0\n",
    ]);
    check_causes(&room.batch("batch", "case-c"), "trace.txt", 4, &cases);
    Ok(())
}

fn causes_of_verdict_7_differ(room: &Room) -> Done {
    let cases = strings([
        "of=1,0,0\nlog=0,2,1,7,0,1\n",
        "of=1,0,1\nlog=0,1,0,7,0,1\n",
        "of=1,0,0\nlog=0,1,1,7,0,1\n",
        "of=1,0,1\nlog=0,1,1,7,0,1\nlog=0,1,1,7,0,1\n",
    ]);
    let folder = room.batch("batch", "refused-07-number-above-count");
    check_causes(&folder, "report.txt", 7, &cases);
    Ok(())
}

/// The last schedule has 17 requests of 63 operations each, which is more than 1,024.
fn causes_of_verdict_14_differ(room: &Room) -> Done {
    let folder = room.batch("batch", "case-c");
    let program = format!("program=0\n{}do=0,0,0,0\n", "do=7,0,0,0\n".repeat(63));
    fs::write(folder.join("programs.txt"), program).unwrap();
    let arrivals: String = (1..=17)
        .map(|rid| format!("arrive={rid},0,0,0\n"))
        .collect();
    let turns: String = (1..=17)
        .map(|rid| format!("turn={rid}\n").repeat(63))
        .collect();
    let mut cases = strings([
        "arrive=1,0,0,0\narrive=1,0,0,0\n",
        "arrive=1,9,0,0\n",
        "turn=1\n",
    ]);
    cases.push(arrivals + &turns);
    check_causes(&folder, "schedule.txt", 14, &cases);
    Ok(())
}
