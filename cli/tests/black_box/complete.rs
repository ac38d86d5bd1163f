//! Status 3: batches that are accepted and that nobody is to wipe on, with no request in them or, where that is asked about, with
//! requests left open.

use crate::harness::{tests, Done};
use crate::json::{only_object, text};
use crate::results::{check_all_kept, row, states};
use crate::room::{example, expected, read, root, Room, EMPTY, TEXTS};
use crate::run::{audit, audit_all, order, program, Ended, Run};
use std::fs;
use std::path::Path;

tests![
    three_empty_texts,
    texts_without_a_request,
    an_empty_batch_in_a_spool,
    requests_left_open_where_all_are_to_be_answered,
    a_spool_where_all_are_to_be_answered,
    the_worst_of_several,
    wipe_on_0_and_on_nothing_else,
];

/// As a copy onto a full disk leaves them.
fn three_empty_texts(room: &Room) -> Done {
    let batch = room.batch("batch", "case-c");
    for text in TEXTS {
        fs::write(batch.join(text), "").unwrap();
    }
    let ended = audit(&batch);
    let sentence = ended.is(3).printed(expected("empty")).sentence();
    assert_eq!(sentence, EMPTY);
    order(&batch).is(3).printed("");
    let ended = program("audit").arg("--json").arg(&batch).end();
    let object = only_object(&ended.is(3).stdout);
    assert_eq!(object["state"], text("empty"));
    Ok(())
}

/// Programs alone make no request.
fn texts_without_a_request(room: &Room) -> Done {
    let batch = room.batch("batch", "case-c");
    for text in ["trace.txt", "report.txt"] {
        fs::write(batch.join(text), "").unwrap();
    }
    assert_eq!(audit(&batch).is(3).sentence(), EMPTY);
    Ok(())
}

fn an_empty_batch_in_a_spool(room: &Room) -> Done {
    let (spool, results) = (room.spool("spool", "case-c", 2), room.path("results"));
    room.batch("spool/nothing", "empty");
    // A kept result is no more than a new one.
    for _ in 0..2 {
        let ended = audit_all(&spool, &results);
        ended
            .is(3)
            .said_part("of 3 in the spool: 2 accepted, 1 empty, 0 refused, 0 changed, 0 failed");
        ended.said_part(&format!("nothing: {EMPTY}"));
        assert_eq!(row(&results, "nothing").state, "empty");
        check_all_kept(&spool, &results);
    }
    room.batch("spool/refused", "case-b");
    audit_all(&spool, &results).is(1);
    fs::create_dir(spool.join("failed")).unwrap();
    audit_all(&spool, &results).is(2);
    Ok(())
}

fn complete(command: &str, folder: impl AsRef<Path>) -> Ended {
    let mut program = program(command);
    program.arg("--complete").arg(folder.as_ref()).end()
}

fn requests_left_open_where_all_are_to_be_answered(_: &Room) -> Done {
    for name in [
        "open-before-first-operation",
        "open-after-operation",
        "open-arrivals-only",
    ] {
        let without = audit(example(name)).is(0).sentence();
        let counts = without.strip_prefix("accepted: ").unwrap();
        let ended = complete("audit", example(name));
        ended.is(3).printed(expected(name));
        let said = format!("accepted, but not complete: {counts}");
        assert_eq!(ended.sentence(), said);
        complete("order", example(name)).is(3).said_part(&said);
        let mut json = program("audit");
        let ended = json.args(["--complete", "--json"]).arg(example(name)).end();
        let object = only_object(&ended.is(3).stdout);
        assert_eq!(object["state"], text("open"));
    }
    complete("audit", example("case-c"))
        .is(0)
        .printed(expected("case-c"));
    complete("audit", example("empty")).is(3);
    complete("audit", example("refused-10-open-request")).is(1);
    Ok(())
}

/// What was kept does not say what was asked, so the same results are open in one run and accepted in the next.
fn a_spool_where_all_are_to_be_answered(room: &Room) -> Done {
    let (spool, results) = (room.spool("spool", "case-c", 1), room.path("results"));
    room.batch("spool/lost", "open-after-operation");
    let run = |options: &[&str]| {
        let mut program = program("audit-all");
        program.args(options).arg(&spool).arg(&results).end()
    };
    let ended = run(&["--complete"]);
    ended
        .is(3)
        .said_part("of 2 in the spool: 1 accepted, 1 open, 0 refused, 0 changed, 0 failed");
    ended.said_part("lost: accepted, but not complete: 2 requests");
    assert_eq!(row(&results, "lost").state, "open");
    run(&[]).is(0);
    assert_eq!(states(&results)["lost"], "accepted");
    run(&["--complete", "--list", "open"])
        .is(3)
        .printed("lost\n");
    run(&["--list", "open"]).is(0).printed("");
    Ok(())
}

fn the_worst_of_several(room: &Room) -> Done {
    for (name, of) in [("good", "case-c"), ("bad", "case-b"), ("nothing", "empty")] {
        room.batch(name, of);
    }
    let several = |names: &[u8]| {
        let mut program = program("audit");
        program.args(["--json", "-"]).current_dir(room.path(""));
        program.end_with(names).status.code()
    };
    assert_eq!(several(b"good\nnothing\ngood\n"), Some(3));
    assert_eq!(several(b"nothing\nbad\ngood\n"), Some(1));
    assert_eq!(several(b"bad\nnothing\nnowhere\n"), Some(2));
    Ok(())
}

/// The documents that staff read say it in these words, and name the status.
fn wipe_on_0_and_on_nothing_else(_: &Room) -> Done {
    let read = |file: &str| String::from_utf8(read(root().join(file))).unwrap();
    let help = |words: &[&str]| {
        let mut help = program("help");
        help.args(words).end().is(0).text()
    };
    for text in [
        read("README.md"),
        read("cli/teaselshears.1"),
        help(&[]),
        help(&["audit"]),
        help(&["audit-all"]),
    ] {
        let text = crate::order::flowing(&text);
        let wipe = text.split(". ").any(|sentence| {
            let has = |words: &str| sentence.contains(words);
            (has("Wipe") || has("wipe")) && has(" 0 ") && has("on nothing else")
        });
        assert!(wipe, "{text}");
        assert!(text.contains("no request in it"), "{text}");
    }
    Ok(())
}
