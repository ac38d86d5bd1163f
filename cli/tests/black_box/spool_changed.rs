//! Batches that fail, batches that change, and kept results that are damaged or written over: none of them is ever accepted.

use crate::bill::WRONG_BILLS;
use crate::harness::{tests, Done};
use crate::results::{check_all_kept, check_kept, kept, row, states};
use crate::room::{copy_folder, example, names, names_in, read, tree, Room, TEXTS};
use crate::run::{audit, audit_all, Ended};
use crate::spool_earlier::{with_order, EARLIEST};
use std::fs;
use std::os::unix::fs::symlink;
use std::path::{Path, PathBuf};

tests![
    batches_that_fail_and_are_repaired,
    batches_with_all_that_can_be_wrong,
    a_batch_that_changes,
    a_changed_batch_that_is_audited_again,
    a_batch_that_changes_in_each_text,
    a_batch_that_loses_a_text,
    a_refused_batch_that_becomes_good,
    a_kept_result_whose_output_is_empty,
    a_kept_result_whose_order_is_damaged,
    a_kept_result_whose_bill_is_damaged,
    a_kept_result_that_cannot_be_read,
    a_kept_result_with_bytes_for_a_terminal,
    a_kept_result_that_lacks_a_file,
    a_kept_result_with_another_text,
    an_accepting_output_over_a_refusing_one,
    new_texts_over_the_kept_ones,
    a_kept_sentence_is_not_taken_at_its_word,
    a_kept_result_that_is_a_file,
];

/// A spool of three accepted batches with their results.
pub fn kept_spool(room: &Room) -> (PathBuf, PathBuf) {
    let (spool, results) = (room.spool("spool", "case-c", 3), room.path("results"));
    audit_all(&spool, &results).is(0);
    (spool, results)
}

/// The counts that are the last line.
#[track_caller]
fn counted(ended: &Ended, counts: &str) {
    let last = ended.said().pop().unwrap_or_default();
    assert!(
        last.ends_with(&format!("in the spool: {counts}")),
        "{counts}; {ended}"
    );
}

fn batches_that_fail_and_are_repaired(room: &Room) -> Done {
    let (spool, results) = (room.spool("spool", "case-c", 3), room.path("results"));
    fs::remove_file(spool.join("batch-1/trace.txt")).unwrap();
    fs::remove_file(spool.join("batch-2/report.txt")).unwrap();
    fs::create_dir(spool.join("batch-2/report.txt")).unwrap();
    fs::write(spool.join("file"), "").unwrap();
    for _ in 0..2 {
        let ended = audit_all(&spool, &results);
        counted(ended.is(2), "1 accepted, 0 refused, 0 changed, 3 failed");
        check_failed(&results, &ended, "batch-1", "trace.txt");
        check_failed(&results, &ended, "batch-2", "report.txt");
        check_failed(&results, &ended, "file", "");
        let kept = names_in(&results.join("batches"));
        assert_eq!(kept, names(["batch-3"]), "none of them is kept");
    }
    fs::remove_file(spool.join("file")).unwrap();
    fs::remove_dir(spool.join("batch-2/report.txt")).unwrap();
    copy_folder(&example("case-c"), &spool.join("batch-1"));
    copy_folder(&example("case-c"), &spool.join("batch-2"));
    let ended = audit_all(&spool, &results);
    counted(ended.is(0), "3 accepted, 0 refused, 0 changed, 0 failed");
    check_all_kept(&spool, &results);
    Ok(())
}

/// A batch failed, which is in the table, and why was said in these words.
#[track_caller]
fn check_failed(results: &Path, ended: &Ended, batch: &str, words: &str) {
    assert_eq!(row(results, batch).state, "failed");
    let said = ended.said();
    let front = format!("{batch}: could not be run: ");
    let why = said.iter().find_map(|line| line.strip_prefix(&front));
    assert!(
        why.is_some_and(|why| why.contains(words)),
        "{batch}; {ended}"
    );
}

/// Each missing text, no text at all, and a schedule without a trace, beside a batch that is refused.
fn batches_with_all_that_can_be_wrong(room: &Room) -> Done {
    let (spool, results) = (room.folder("spool"), room.path("results"));
    for text in TEXTS {
        let batch = room.batch(&format!("spool/lacks-{text}"), "empty");
        fs::remove_file(batch.join(text)).unwrap();
    }
    room.folder("spool/nothing");
    room.batch("spool/schedule", "refused-13-schedule-unreadable");
    room.batch("spool/refused", "case-b");
    symlink("nowhere", spool.join("dangling")).unwrap();
    let ended = audit_all(&spool, &results);
    counted(ended.is(2), "0 accepted, 1 refused, 0 changed, 6 failed");
    for text in TEXTS {
        assert_eq!(row(&results, &format!("lacks-{text}")).state, "failed");
        ended.said_part(&format!("lacks-{text}: could not be run: "));
    }
    assert_eq!(states(&results).len(), 7, "a row for each");
    assert_eq!(names_in(&results.join("batches")), names(["refused"]));
    Ok(())
}

fn a_batch_that_changes(room: &Room) -> Done {
    let (spool, results) = kept_spool(room);
    let (before, table) = (kept(&results), read(results.join("table.csv")));
    let report = spool.join("batch-1/report.txt");
    fs::write(&report, read(example("case-b").join("report.txt"))).unwrap();
    for _ in 0..2 {
        let ended = audit_all(&spool, &results);
        counted(ended.is(2), "2 accepted, 0 refused, 1 changed, 0 failed");
        let said = ended.said();
        let line = said.iter().find(|line| line.starts_with("batch-1: "));
        let named = line.is_some_and(|line| line.contains("report.txt"));
        assert!(named, "the text that changed is named; {ended}");
        assert_eq!(row(&results, "batch-1").state, "changed");
        assert_eq!(kept(&results), before, "what was kept stays");
    }
    fs::write(&report, read(example("case-c").join("report.txt"))).unwrap();
    counted(
        audit_all(&spool, &results).is(0),
        "3 accepted, 0 refused, 0 changed, 0 failed",
    );
    assert_eq!(kept(&results), before, "nothing is audited again");
    assert_eq!(read(results.join("table.csv")), table);
    Ok(())
}

fn a_changed_batch_that_is_audited_again(room: &Room) -> Done {
    let (spool, results) = kept_spool(room);
    let batch = spool.join("batch-1");
    fs::write(
        batch.join("report.txt"),
        read(example("case-b").join("report.txt")),
    )
    .unwrap();
    fs::write(
        batch.join("expected"),
        read(example("case-b").join("expected")),
    )
    .unwrap();
    audit_all(&spool, &results).is(2);
    fs::remove_dir_all(results.join("batches/batch-1")).unwrap();
    let ended = audit_all(&spool, &results);
    counted(
        ended.is(1).said_part("batch-1: refused, verdict 9 ("),
        "2 accepted, 1 refused, 0 changed, 0 failed",
    );
    check_all_kept(&spool, &results);
    Ok(())
}

/// A byte more or less in any of the texts is a change, one that the audit would accept too.
fn a_batch_that_changes_in_each_text(room: &Room) -> Done {
    let (spool, results) = (room.folder("spool"), room.path("results"));
    let batch = room.batch("spool/batch", "empty");
    audit_all(&spool, &results).is(3);
    for text in TEXTS {
        let path = batch.join(text);
        fs::write(&path, "x").unwrap();
        audit_all(&spool, &results).is(2);
        assert_eq!(row(&results, "batch").state, "changed", "{text}");
        fs::write(&path, "").unwrap();
        audit_all(&spool, &results).is(3);
    }
    fs::write(batch.join("programs.txt"), "program=0\ndo=0,0,0,0\n").unwrap();
    audit(&batch).is(3);
    audit_all(&spool, &results).is(2);
    assert_eq!(row(&results, "batch").state, "changed");
    Ok(())
}

/// Never accepted, whichever of the two words it is.
#[track_caller]
fn changed_or_failed(spool: &Path, results: &Path, batch: &str) {
    let ended = audit_all(spool, results);
    ended.is(2);
    let state = row(results, batch).state;
    assert!(
        state == "changed" || state == "failed",
        "{batch} is {state}; {ended}"
    );
    assert!(
        ended
            .said()
            .iter()
            .any(|line| line.starts_with(&format!("{batch}: "))),
        "it is said; {ended}"
    );
}

fn a_batch_that_loses_a_text(room: &Room) -> Done {
    let (spool, results) = kept_spool(room);
    for text in TEXTS {
        fs::remove_file(spool.join("batch-2").join(text)).unwrap();
        changed_or_failed(&spool, &results, "batch-2");
        copy_folder(&example("case-c"), &spool.join("batch-2"));
        audit_all(&spool, &results).is(0);
    }
    fs::remove_dir_all(spool.join("batch-2")).unwrap();
    fs::write(spool.join("batch-2"), "").unwrap();
    changed_or_failed(&spool, &results, "batch-2");
    Ok(())
}

/// The name of a batch is used once: a good one under the name of a refused one is not accepted.
fn a_refused_batch_that_becomes_good(room: &Room) -> Done {
    let (spool, results) = (room.spool("spool", "case-b", 1), room.path("results"));
    audit_all(&spool, &results).is(1);
    copy_folder(&example("case-c"), &spool.join("batch-1"));
    counted(
        audit_all(&spool, &results).is(2),
        "0 accepted, 0 refused, 1 changed, 0 failed",
    );
    assert_eq!(row(&results, "batch-1").state, "changed");
    Ok(())
}

/// A damaged result is said and is left for staff to look at; once removed it is made again.
#[track_caller]
fn damaged(spool: &Path, results: &Path, batch: &str) {
    let before = tree(&results.join("batches"));
    let ended = audit_all(spool, results);
    let counts = "2 accepted, 0 refused, 0 changed, 1 damaged, 0 failed";
    counted(ended.is(2), counts);
    assert_eq!(row(results, batch).state, "damaged");
    ended.said_part(&format!("{batch}: its kept result is damaged: "));
    let after = tree(&results.join("batches"));
    assert!(
        before.keys().all(|path| after.contains_key(path)),
        "nothing is taken away"
    );
    let kept = results.join("batches").join(batch);
    if kept.is_dir() {
        fs::remove_dir_all(kept).unwrap();
    } else {
        fs::remove_file(kept).unwrap();
    }
    audit_all(spool, results).is(0);
    check_kept(spool, results, batch.as_ref());
}

fn a_kept_result_whose_output_is_empty(room: &Room) -> Done {
    let (spool, results) = kept_spool(room);
    for output in [
        "",
        "verdict=0\n",
        "verdict=0\nline=0\nrequests=2\n",
        "verdict=00\nline=0\nrequests=2\noperations=4\n",
    ] {
        fs::write(results.join("batches/batch-2/output"), output).unwrap();
        damaged(&spool, &results, "batch-2");
    }
    Ok(())
}

fn a_kept_result_whose_order_is_damaged(room: &Room) -> Done {
    let (spool, results) = kept_spool(room);
    let whole = String::from_utf8(read(results.join("batches/batch-2/output"))).unwrap();
    for output in [
        whole.strip_suffix("event=4\n").unwrap(),
        whole.strip_suffix('\n').unwrap(),
        &format!("{whole}\n"),
        &whole.replace("op=2,2\n", ""),
        &whole.replace("op=2,2\n", "op=2\n"),
        &whole.replace("verdict=0\n", "verdict=9\n"),
        &with_order().replace("event=4\n", ""),
        &with_order().replace("op=2,2\n", ""),
    ] {
        fs::write(results.join("batches/batch-2/output"), output).unwrap();
        damaged(&spool, &results, "batch-2");
    }
    Ok(())
}

fn a_kept_result_whose_bill_is_damaged(room: &Room) -> Done {
    let (spool, results) = kept_spool(room);
    let whole = String::from_utf8(read(results.join("batches/batch-2/output"))).unwrap();
    let bill = |lines: &str| whole.replace("blocks=0\nrest=4\n", lines);
    let others = [
        format!("{EARLIEST}blocks=0\n"),
        format!("{EARLIEST}blocks=0\nrest=4\n"),
        bill("blocks=0\nrest=4\nblocks=0\nrest=4\n"),
        bill("blocks=18446744073709551615\nrest=4\n"),
    ];
    for output in WRONG_BILLS.map(bill).into_iter().chain(others) {
        fs::write(results.join("batches/batch-2/output"), output).unwrap();
        damaged(&spool, &results, "batch-2");
    }
    Ok(())
}

/// A result that cannot be read now may be sound, and is not to be removed for that.
fn a_kept_result_that_cannot_be_read(room: &Room) -> Done {
    let (spool, results) = kept_spool(room);
    let output = results.join("batches/batch-2/output");
    let kept = read(&output);
    fs::remove_file(&output).unwrap();
    fs::create_dir(&output).unwrap();
    let ended = audit_all(&spool, &results);
    let counts = "2 accepted, 0 refused, 0 changed, 1 failed";
    counted(ended.is(2), counts);
    ended.said_part("batch-2: its kept result cannot be used: output cannot be read: ");
    fs::remove_dir(&output).unwrap();
    fs::write(&output, kept).unwrap();
    audit_all(&spool, &results).is(0);
    Ok(())
}

/// What is about a result is shown to people.
fn a_kept_result_with_bytes_for_a_terminal(room: &Room) -> Done {
    let (spool, results) = kept_spool(room);
    for (line, wrong) in [
        ("version=", "version=\x1b[2J"),
        ("library=", "library=\u{202e}"),
        ("time=2", "time=\t2"),
        ("time=2", "time=soon 2"),
    ] {
        let path = results.join("batches/batch-2/about");
        let about = String::from_utf8(read(&path)).unwrap();
        let wrong = about.replace(line, wrong);
        fs::write(path, wrong).unwrap();
        damaged(&spool, &results, "batch-2");
    }
    Ok(())
}

fn a_kept_result_that_lacks_a_file(room: &Room) -> Done {
    let (spool, results) = kept_spool(room);
    for file in ["programs.txt", "trace.txt", "report.txt", "output", "about"] {
        fs::remove_file(results.join("batches/batch-1").join(file)).unwrap();
        damaged(&spool, &results, "batch-1");
    }
    Ok(())
}

fn a_kept_result_with_another_text(room: &Room) -> Done {
    let (spool, results) = kept_spool(room);
    let report = results.join("batches/batch-3/report.txt");
    fs::write(&report, read(example("case-b").join("report.txt"))).unwrap();
    damaged(&spool, &results, "batch-3");
    Ok(())
}

/// Verdict lines of an accepted batch over those of a refused one, with its order and without, in a run that follows and where
/// the batch is no longer in the spool.
fn an_accepting_output_over_a_refusing_one(room: &Room) -> Done {
    let accepting = read(example("case-c").join("expected"));
    for (number, output) in [&accepting[..], EARLIEST.as_bytes(), with_order().as_bytes()]
        .into_iter()
        .enumerate()
    {
        let spool = room.spool(&format!("spool-{number}"), "case-b", 1);
        let results = room.path(&format!("results-{number}"));
        audit_all(&spool, &results).is(1);
        fs::write(results.join("batches/batch-1/output"), output).unwrap();
        let ended = audit_all(&spool, &results);
        let counts = "0 accepted, 0 refused, 0 changed, 1 damaged, 0 failed";
        counted(ended.is(2), counts);
        assert_eq!(row(&results, "batch-1").state, "damaged");
        fs::rename(spool.join("batch-1"), spool.join(".batch-1")).unwrap();
        audit_all(&spool, &results).is(2);
        assert_eq!(row(&results, "batch-1").state, "damaged");
    }
    Ok(())
}

/// The texts of a changed batch over those that were kept: its output is of the others.
fn new_texts_over_the_kept_ones(room: &Room) -> Done {
    let (spool, results) = kept_spool(room);
    let report = read(example("case-b").join("report.txt"));
    fs::write(spool.join("batch-1/report.txt"), &report).unwrap();
    audit_all(&spool, &results).is(2);
    assert_eq!(row(&results, "batch-1").state, "changed");
    fs::write(results.join("batches/batch-1/report.txt"), &report).unwrap();
    let ended = audit_all(&spool, &results);
    let counts = "2 accepted, 0 refused, 0 changed, 1 damaged, 0 failed";
    counted(ended.is(2), counts);
    Ok(())
}

/// What is said of a batch is of its texts, whatever was written over the kept sentence.
fn a_kept_sentence_is_not_taken_at_its_word(room: &Room) -> Done {
    let (spool, results) = (room.spool("spool", "case-b", 1), room.path("results"));
    audit_all(&spool, &results).is(1);
    let path = results.join("batches/batch-1/about");
    let about = String::from_utf8(read(&path)).unwrap();
    let (front, sentence) = about.split_once("sentence=").unwrap();
    fs::write(&path, format!("{front}sentence=accepted: 2 requests\n")).unwrap();
    audit_all(&spool, &results).is(1);
    let row = row(&results, "batch-1");
    assert_eq!(
        (&*row.state, &*row.sentence),
        ("refused", sentence.trim_end())
    );
    Ok(())
}

fn a_kept_result_that_is_a_file(room: &Room) -> Done {
    let (spool, results) = kept_spool(room);
    fs::remove_dir_all(results.join("batches/batch-1")).unwrap();
    fs::write(results.join("batches/batch-1"), "").unwrap();
    damaged(&spool, &results, "batch-1");
    fs::remove_dir_all(results.join("batches/batch-1")).unwrap();
    fs::create_dir(results.join("batches/batch-1")).unwrap();
    damaged(&spool, &results, "batch-1");
    Ok(())
}
