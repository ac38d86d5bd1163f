//! Results that other versions kept: they count where this library gives the same, and are outdated where it does not.

use crate::harness::{tests, Done};
use crate::identity::about;
use crate::json::{objects, text, Value};
use crate::results::{check_all_kept, kept, row};
use crate::room::{example, expected_order, read, Room};
use crate::run::{audit_all, audit_all_json};
use crate::spool_changed::kept_spool;
use std::fs;
use std::path::Path;

tests![
    a_result_from_before_there_was_an_order,
    a_result_from_before_there_was_a_bill,
    a_refused_result_from_before_there_was_a_bill,
    a_result_from_before_reads_were_shown,
    a_result_from_before_requests_were_left_open,
    an_accepting_output_of_another_library,
    a_version_that_is_a_formula,
];

/// What the earliest version printed of case C, and said.
pub const EARLIEST: &str = "verdict=0\nline=0\nrequests=2\noperations=4\n";
const SENTENCE: &str = "accepted: 2 requests, 4 operations";

/// Another version, and its library.
const VERSION: &str = "0.0.1";
const LIBRARY: &str = "1111111111111111111111111111111111111111111111111111111111111111";

/// What was printed of case C when there was an order and no bill.
pub fn with_order() -> String {
    format!("{EARLIEST}{}\n", expected_order("case-c").join("\n"))
}

/// Puts what another version kept, and said, in the place of the result of batch-2.
fn put_earlier(results: &Path, output: &str, sentence: &str) {
    let kept = results.join("batches/batch-2");
    fs::write(kept.join("output"), output).unwrap();
    let lines = read(kept.join("about"));
    let (time, kit) = (about(&lines, "time"), about(&lines, "kit"));
    let front = format!("time={time}\nversion={VERSION}\nlibrary={LIBRARY}\nkit={kit}\n");
    fs::write(kept.join("about"), format!("{front}sentence={sentence}\n")).unwrap();
}

/// What was put there counts, as kept by that version, and stays; it has what the proved function gives of its texts now.
#[track_caller]
fn check_counts(spool: &Path, results: &Path) {
    let before = kept(results);
    for object in objects(&audit_all_json(spool, results).is(0).stdout) {
        let order = Value::Lines(expected_order("case-c"));
        let told = ["operations", "blocks", "rest", "order"].map(|key| object[key].clone());
        let [four, none] = [4, 0].map(Value::Number);
        assert_eq!(told, [four.clone(), none, four, order]);
        let earlier = object["batch"] == text("batch-2");
        assert_eq!(object["library"] == text(LIBRARY), earlier);
        assert_eq!(object["version"] == text(VERSION), earlier);
    }
    let row = row(results, "batch-2");
    assert_eq!((&*row.state, &*row.operations), ("accepted", "4"));
    assert_eq!([&row.blocks, &row.rest, &row.open], ["0", "4", "0"]);
    assert_eq!([&row.version, &row.library], [VERSION, LIBRARY]);
    assert_eq!(kept(results), before, "nothing is kept anew");
}

/// The four verdict lines alone.
fn a_result_from_before_there_was_an_order(room: &Room) -> Done {
    let (spool, results) = kept_spool(room);
    put_earlier(&results, EARLIEST, SENTENCE);
    check_counts(&spool, &results);
    Ok(())
}

fn a_result_from_before_there_was_a_bill(room: &Room) -> Done {
    let (spool, results) = kept_spool(room);
    put_earlier(&results, &with_order(), SENTENCE);
    check_counts(&spool, &results);
    // Its row is the same when the batch is no longer in the spool.
    let before = row(&results, "batch-2");
    fs::rename(spool.join("batch-2"), room.path("batch-2")).unwrap();
    audit_all(&spool, &results).is(0);
    assert_eq!(row(&results, "batch-2"), before);
    // Once it is removed it is made again, by this version.
    fs::rename(room.path("batch-2"), spool.join("batch-2")).unwrap();
    fs::remove_dir_all(results.join("batches/batch-2")).unwrap();
    audit_all(&spool, &results).is(0);
    check_all_kept(&spool, &results);
    Ok(())
}

fn a_refused_result_from_before_there_was_a_bill(room: &Room) -> Done {
    let (spool, results) = (room.spool("spool", "case-b", 2), room.path("results"));
    audit_all(&spool, &results).is(1);
    let earlier = "verdict=9\nline=0\nrequests=0\noperations=0\n";
    put_earlier(&results, earlier, "refused, verdict 9");
    let before = kept(&results);
    audit_all(&spool, &results).is(1);
    let row = row(&results, "batch-2");
    assert_eq!((&*row.state, &*row.verdict), ("refused", "9"));
    assert_eq!((&*row.blocks, &*row.library), ("0", LIBRARY));
    assert_eq!(kept(&results), before, "nothing is kept anew");
    Ok(())
}

/// It is not accepted and not refused, stays as it was kept, and what was kept by which library, and what this one gives, is said.
#[track_caller]
fn check_outdated(spool: &Path, results: &Path, was: &str, is: &str) {
    let before = kept(results);
    let ended = audit_all(spool, results);
    ended
        .is(2)
        .said_part("2 accepted, 0 refused, 0 changed, 1 outdated, 0 failed");
    let said = format!(
        "batch-2: kept by version {VERSION}, library {LIBRARY}, as {was}; this library gives {is}: "
    );
    ended.said_part(&said);
    let row = row(results, "batch-2");
    assert_eq!((&*row.state, &*row.verdict), ("outdated", ""));
    assert_eq!(kept(results), before, "it stays as it was");
}

/// A batch that was accepted with 0 in the lines of its reads: audited anew it is a 10.
fn a_result_from_before_reads_were_shown(room: &Room) -> Done {
    let (spool, results) = kept_spool(room);
    let earlier = read(example("refused-10-read-not-shown").join("report.txt"));
    for batch in [spool.join("batch-2"), results.join("batches/batch-2")] {
        fs::write(batch.join("report.txt"), &earlier).unwrap();
    }
    put_earlier(&results, &with_order(), SENTENCE);
    check_outdated(&spool, &results, "verdict 0, line 0", "verdict 10, line 1");
    fs::remove_dir_all(results.join("batches/batch-2")).unwrap();
    audit_all(&spool, &results).is(1);
    let row = row(&results, "batch-2");
    assert_eq!((&*row.state, &*row.verdict), ("refused", "10"));
    Ok(())
}

/// A batch that was refused as 4, since a request was never answered: audited anew it is accepted, with one left open.
fn a_result_from_before_requests_were_left_open(room: &Room) -> Done {
    let spool = room.spool("spool", "open-after-operation", 3);
    let results = room.path("results");
    audit_all(&spool, &results).is(0);
    let output = "verdict=4\nline=1\nrequests=0\noperations=0\nblocks=0\nrest=0\n";
    put_earlier(
        &results,
        output,
        "refused, verdict 4 (request never answered)",
    );
    check_outdated(&spool, &results, "verdict 4, line 1", "verdict 0, line 0");
    fs::remove_dir_all(results.join("batches/batch-2")).unwrap();
    audit_all(&spool, &results).is(0);
    let anew = row(&results, "batch-2");
    assert_eq!((&*anew.state, &*anew.open), ("accepted", "1"));
    check_all_kept(&spool, &results);
    Ok(())
}

/// Who writes over the output may write over the library too: that gets nothing accepted either.
fn an_accepting_output_of_another_library(room: &Room) -> Done {
    let (spool, results) = (room.spool("spool", "case-c", 1), room.path("results"));
    for name in ["batch-2", "batch-3"] {
        room.batch(&format!("spool/{name}"), "case-b");
    }
    audit_all(&spool, &results).is(1);
    for output in [EARLIEST, &with_order(), "", "verdict=0\n"] {
        put_earlier(&results, output, SENTENCE);
        let ended = audit_all(&spool, &results);
        ended
            .is(2)
            .said_part("1 accepted, 1 refused, 0 changed, 1 outdated, 0 failed");
        assert_eq!(row(&results, "batch-2").state, "outdated");
    }
    Ok(())
}

/// What another version calls itself is no formula in the table either.
fn a_version_that_is_a_formula(room: &Room) -> Done {
    let (spool, results) = kept_spool(room);
    put_earlier(&results, EARLIEST, SENTENCE);
    let path = results.join("batches/batch-2/about");
    let about = String::from_utf8(read(&path)).unwrap();
    let formula = about.replace(&format!("version={VERSION}"), "version==1+1");
    fs::write(path, formula).unwrap();
    audit_all(&spool, &results).is(0);
    assert_eq!(row(&results, "batch-2").version, "\\x3d1+1");
    Ok(())
}
