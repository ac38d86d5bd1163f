//! The texts of a batch: missing ones, the longest ones and those that are too long, and how the bytes of a line are shown.

use crate::harness::{tests, Done};
use crate::json::{only_object, text, Value};
use crate::room::{check_recorded, example, expected, Room, EMPTY, TEXTS};
use crate::run::{audit, audit_all, needs, program, record, Ended, Run};
use std::fs::{self, File};
use std::os::unix::fs::symlink;
use std::path::Path;
use std::process::Command;
use std::time::Duration;

tests![
    a_missing_text_of_an_audit,
    a_missing_text_of_a_record,
    a_missing_text_that_is_read_as_empty,
    several_missing_texts_that_are_read_as_empty,
    a_missing_text_of_a_record_that_is_read_as_empty,
    a_folder_with_none_of_the_texts,
    no_folder,
    links_are_followed,
    one_byte_too_many,
    ten_gigabytes,
    ten_gigabytes_in_a_spool,
    the_longest_text,
    the_longest_text_that_is_good,
    bytes_that_are_not_printable,
    every_byte_as_sed_shows_it,
    a_hundred_bytes_and_one_more,
    an_empty_line,
    bytes_in_json,
];

fn a_missing_text_of_an_audit(room: &Room) -> Done {
    for missing in TEXTS {
        // Three empty texts are accepted, so that a missing one could be taken for an empty one.
        for of in ["case-c", "empty"] {
            let batch = room.batch(&format!("{of}-{missing}"), of);
            fs::remove_file(batch.join(missing)).unwrap();
            audit(&batch).could_not(missing);
        }
    }
    Ok(())
}

fn a_missing_text_of_a_record(room: &Room) -> Done {
    for missing in ["programs.txt", "schedule.txt"] {
        let batch = room.batch(missing, "case-c");
        fs::remove_file(batch.join(missing)).unwrap();
        record(&batch, room.path("out")).could_not(missing);
    }
    assert!(!room.path("out").exists());
    Ok(())
}

fn with_missing_as_empty(folder: &Path) -> Ended {
    program("audit").arg("--missing-as-empty").arg(folder).end()
}

fn a_missing_text_that_is_read_as_empty(room: &Room) -> Done {
    for missing in TEXTS {
        let batch = room.batch(&format!("empty-{missing}"), "empty");
        fs::remove_file(batch.join(missing)).unwrap();
        let ended = with_missing_as_empty(&batch);
        let said = format!("{EMPTY}; missing, and read as empty: {missing}");
        assert_eq!(ended.is(3).printed(expected("empty")).sentence(), said);
    }
    for (missing, like, place) in [
        (
            "report.txt",
            "refused-06-of-line-missing",
            "report.txt, line 1",
        ),
        (
            "programs.txt",
            "refused-04-response-without-request",
            r#"trace.txt, line 1: "request=1,0,0,0""#,
        ),
    ] {
        let batch = room.batch(&format!("case-c-{missing}"), "case-c");
        fs::remove_file(batch.join(missing)).unwrap();
        let ended = with_missing_as_empty(&batch);
        ended.is(1).printed(expected(like)).said_part(place);
        ended
            .said_part(&format!("missing, and read as empty: {missing}"))
            .sentence();
    }
    Ok(())
}

fn several_missing_texts_that_are_read_as_empty(room: &Room) -> Done {
    let batch = room.batch("batch", "empty");
    fs::remove_file(batch.join("trace.txt")).unwrap();
    fs::remove_file(batch.join("report.txt")).unwrap();
    let ended = with_missing_as_empty(&batch);
    let sentence = ended.is(3).printed(expected("empty")).sentence();
    let (_, missing) = sentence
        .split_once("missing, and read as empty: ")
        .expect("it is said");
    assert!(
        missing.contains("trace.txt") && missing.contains("report.txt"),
        "{sentence}"
    );
    assert!(!missing.contains("programs.txt"), "{sentence}");
    Ok(())
}

fn a_missing_text_of_a_record_that_is_read_as_empty(room: &Room) -> Done {
    let run = |missing: &str| {
        let batch = room.batch(missing, "case-c");
        fs::remove_file(batch.join(missing)).unwrap();
        program("record")
            .arg("--missing-as-empty")
            .arg(batch)
            .arg(room.path("out"))
            .end()
    };
    let ended = run("programs.txt");
    ended
        .is(1)
        .printed("verdict=14\nline=1\n")
        .said_part("programs.txt");
    assert!(!room.path("out").exists());
    let ended = run("schedule.txt");
    ended
        .is(0)
        .printed("verdict=0\nline=0\n")
        .said_part("0 requests, 0 operations");
    ended.said_part("missing, and read as empty: schedule.txt");
    audit(room.path("out")).is(3).printed(expected("empty"));
    Ok(())
}

fn a_folder_with_none_of_the_texts(room: &Room) -> Done {
    let folder = room.folder("folder");
    room.file("folder/expected", "verdict=0\n");
    for folder in [folder.as_path(), Path::new("/")] {
        audit(folder).could_not("");
        with_missing_as_empty(folder).could_not("");
        record(folder, room.path("out")).could_not("");
        let command = program("record")
            .arg("--missing-as-empty")
            .arg(folder)
            .arg(room.path("out"))
            .end();
        command.could_not("");
    }
    // A folder with texts, but none that the host reads.
    fs::write(folder.join("trace.txt"), "").unwrap();
    record(&folder, room.path("out")).could_not("");
    assert!(!room.path("out").exists());
    Ok(())
}

fn no_folder(room: &Room) -> Done {
    let dangling = room.path("dangling");
    symlink("nowhere", &dangling).unwrap();
    for place in [
        room.path("nowhere"),
        example("case-c").join("trace.txt"),
        dangling,
        "/dev/null".into(),
    ] {
        audit(&place).could_not("");
        with_missing_as_empty(&place).could_not("");
        record(&place, room.path("out")).could_not("");
    }
    assert!(!room.path("out").exists());
    Ok(())
}

fn links_are_followed(room: &Room) -> Done {
    let batch = room.folder("batch");
    for text in TEXTS {
        symlink(example("case-c").join(text), batch.join(text)).unwrap();
    }
    audit(&batch).is(0).printed(expected("case-c"));
    symlink("batch", room.path("link")).unwrap();
    audit(room.path("link")).is(0).printed(expected("case-c"));
    symlink(
        example("case-c").join("schedule.txt"),
        batch.join("schedule.txt"),
    )
    .unwrap();
    record(&batch, room.path("out")).is(0);
    let written = fs::symlink_metadata(room.path("out/programs.txt")).unwrap();
    assert!(
        written.file_type().is_file(),
        "the text is written, and not the link"
    );
    check_recorded("case-c", &room.path("out"));
    Ok(())
}

/// The texts that the two commands read, with the verdict of one that cannot be read.
pub const READ: [(&str, &str, u64); 5] = [
    ("audit", "programs.txt", 1),
    ("audit", "trace.txt", 3),
    ("audit", "report.txt", 5),
    ("record", "programs.txt", 1),
    ("record", "schedule.txt", 13),
];

/// Runs a command on a copy of case C in which a text was put by `put`, and within a time that reads no gigabytes.
pub fn with_text(room: &Room, command: &str, text: &str, put: impl FnOnce(&Path)) -> Ended {
    let batch = room.batch("batch", "case-c");
    fs::remove_file(batch.join(text)).unwrap();
    put(&batch.join(text));
    let mut program = program(command);
    program.arg(&batch);
    if command == "record" {
        program.arg(room.path("never"));
    }
    let ended = program.end_within(Duration::from_secs(10));
    assert!(!room.path("never").exists(), "nothing is written");
    fs::remove_dir_all(batch).unwrap();
    ended
}

#[track_caller]
fn refused_at(ended: &Ended, verdict: u64, line: u64) {
    let front = format!("verdict={verdict}\nline={line}\n");
    assert!(ended.is(1).text().starts_with(&front), "{ended}");
}

/// The verdict on a text that is too long names no line, and the sentence ends in no place.
#[track_caller]
fn check_overlong(ended: &Ended, verdict: u64) {
    refused_at(ended, verdict, 0);
    let sentence = ended.sentence();
    assert!(
        sentence.contains("has more than 65,535 bytes"),
        "{sentence}"
    );
    assert!(!sentence.contains(", line "), "{sentence}");
}

fn one_byte_too_many(room: &Room) -> Done {
    for (command, text, verdict) in READ {
        let ended = with_text(room, command, text, |path| {
            fs::write(path, [b'x'; 65536]).unwrap()
        });
        check_overlong(&ended, verdict);
    }
    Ok(())
}

/// A file of this length that takes no room on the disk.
fn make_sparse(path: &Path, length: u64) {
    File::create(path).unwrap().set_len(length).unwrap();
}

fn ten_gigabytes(room: &Room) -> Done {
    for (command, text, verdict) in READ {
        let ended = with_text(room, command, text, |path| make_sparse(path, 10 << 30));
        check_overlong(&ended, verdict);
    }
    Ok(())
}

fn ten_gigabytes_in_a_spool(room: &Room) -> Done {
    let spool = room.spool("spool", "case-c", 2);
    make_sparse(&spool.join("batch-1/report.txt"), 10 << 30);
    let results = room.path("results");
    for _ in 0..2 {
        let mut program = program("audit-all");
        let ended = program
            .arg(&spool)
            .arg(&results)
            .end_within(Duration::from_secs(10));
        ended.is(1).said_part("batch-1: refused, verdict 5 (");
        ended.said_part("of 2 in the spool: 1 accepted, 1 refused, 0 changed, 0 failed");
        let kept = fs::metadata(results.join("batches/batch-1/report.txt"))
            .unwrap()
            .len();
        assert!(kept <= 65536, "{kept} bytes are kept");
    }
    // What was kept tells it from a text that only begins so.
    make_sparse(&spool.join("batch-1/report.txt"), 65535);
    audit_all(&spool, &results)
        .is(2)
        .said_part("1 accepted, 0 refused, 1 changed, 0 failed");
    Ok(())
}

fn the_longest_text(room: &Room) -> Done {
    let shown = format!("\"{}\" and more, without a line feed", "x".repeat(100));
    for (command, text, verdict) in READ {
        let ended = with_text(room, command, text, |path| {
            fs::write(path, [b'x'; 65535]).unwrap()
        });
        refused_at(&ended, verdict, 1);
        assert!(
            ended
                .sentence()
                .ends_with(&format!("): {text}, line 1: {shown}")),
            "{ended}"
        );
    }
    Ok(())
}

/// A schedule of 65,535 bytes for the programs of the example loop, most of whose turns come behind the response.
pub fn longest_schedule() -> String {
    let schedule = format!("arrive=1,0,0,0\n{}", "turn=1\n".repeat(9360));
    assert_eq!(schedule.len(), 65535);
    schedule
}

fn the_longest_text_that_is_good(room: &Room) -> Done {
    let batch = room.batch("batch", "loop");
    let schedule = longest_schedule();
    fs::write(batch.join("schedule.txt"), &schedule).unwrap();
    record(&batch, room.path("out")).is(0);
    check_recorded("loop", &room.path("out"));
    fs::write(batch.join("schedule.txt"), schedule + "\n").unwrap();
    record(&batch, room.path("never"))
        .is(1)
        .printed("verdict=13\nline=0\n");
    assert!(!room.path("never").exists());
    Ok(())
}

/// The sentence on case C with this report.
fn with_report(room: &Room, report: &[u8]) -> String {
    let batch = room.batch("batch", "case-c");
    fs::write(batch.join("report.txt"), report).unwrap();
    let ended = audit(&batch);
    assert!(ended.is(1).text().starts_with("verdict=5\n"), "{ended}");
    assert!(
        ended
            .stderr
            .iter()
            .all(|b| (b' '..0x7f).contains(b) || *b == b'\n'),
        "harmless; {ended}"
    );
    ended.sentence()
}

fn bytes_that_are_not_printable(room: &Room) -> Done {
    let sentence = with_report(room, b"of=1,0,2\n\x1b[31m\r\0\t\\\xff\n");
    let shown = r#"): report.txt, line 2: "\033[31m\r\000\t\\\377""#;
    assert!(sentence.ends_with(shown), "{sentence}");
    Ok(())
}

fn every_byte_as_sed_shows_it(room: &Room) -> Done {
    needs("sed")?;
    let bytes: Vec<u8> = (0..=255).filter(|byte| *byte != b'\n').collect();
    for part in bytes.chunks(90) {
        let file = room.file("line", [part, b"\n"].concat());
        let sed = Command::new("sed")
            .args(["-n", "l 0"])
            .arg(file)
            .env("LC_ALL", "C")
            .end();
        let shown = sed.is(0).text();
        let sentence = with_report(room, &[part, b"\n"].concat());
        let shown = shown.trim_end_matches('\n').strip_suffix('$').unwrap();
        assert!(
            sentence.ends_with(&format!("line 1: \"{shown}\"")),
            "{sentence}, and sed: {shown}"
        );
    }
    Ok(())
}

fn a_hundred_bytes_and_one_more(room: &Room) -> Done {
    let hundred = "0".repeat(100);
    let sentence = with_report(room, format!("{hundred}\n").as_bytes());
    assert!(
        sentence.ends_with(&format!("line 1: \"{hundred}\"")),
        "{sentence}"
    );
    let sentence = with_report(room, hundred.as_bytes());
    assert!(
        sentence.ends_with(&format!("line 1: \"{hundred}\", without a line feed")),
        "{sentence}"
    );
    let sentence = with_report(room, format!("{hundred}1\n").as_bytes());
    assert!(
        sentence.ends_with(&format!("line 1: \"{hundred}\" and more")),
        "{sentence}"
    );
    let sentence = with_report(room, format!("{hundred}1").as_bytes());
    let shown = format!("line 1: \"{hundred}\" and more, without a line feed");
    assert!(sentence.ends_with(&shown), "{sentence}");
    Ok(())
}

fn an_empty_line(room: &Room) -> Done {
    let sentence = with_report(room, b"of=1,0,2\n\n");
    assert!(
        sentence.ends_with("): report.txt, line 2: \"\""),
        "{sentence}"
    );
    Ok(())
}

/// A byte of `bytes` is the character of its number.
fn bytes_in_json(room: &Room) -> Done {
    let batch = room.batch("batch", "case-c");
    let bytes: Vec<u8> = (0..=255).filter(|byte| *byte != b'\n').collect();
    for part in bytes.chunks(90) {
        fs::write(batch.join("report.txt"), [part, b"\n"].concat()).unwrap();
        let ended = program("audit").arg("--json").arg(&batch).end();
        let object = only_object(&ended.is(1).stdout);
        let characters: String = part.iter().map(|byte| char::from(*byte)).collect();
        assert_eq!(object["bytes"], text(&characters));
        assert_eq!(
            (&object["text"], &object["line"]),
            (&text("report.txt"), &Value::Number(1))
        );
    }
    fs::write(batch.join("report.txt"), [b'x'; 65536]).unwrap();
    let object = only_object(
        &program("audit")
            .arg("--json")
            .arg(&batch)
            .end()
            .is(1)
            .stdout,
    );
    assert_eq!(
        (&object["verdict"], &object["bytes"]),
        (&Value::Number(5), &Value::Null)
    );
    Ok(())
}
