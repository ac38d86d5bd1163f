//! `results`: what is kept, by time, without a lock and with nothing written.

use crate::harness::{tests, Done};
use crate::json::{brief_objects, objects, text, Object, Value};
use crate::room::{example, expected_order, read, root, tree, Room};
use crate::run::{audit_all, program, Ended, Run};
use crate::system::{lock, make_fifo};
use std::fs::{self, File};
use std::path::{Path, PathBuf};
use std::process::Command;

tests![
    by_time_with_their_sentences,
    since_a_day_or_a_time,
    by_state_and_by_verdict,
    in_json,
    while_a_run_is_at_work,
    results_that_are_written_over,
    what_the_last_run_could_not_keep,
    a_table_of_an_earlier_version,
    a_result_under_another_name,
    what_is_not_a_file,
    a_result_that_is_gone,
    requests_left_open,
    no_results,
    what_is_not_asked_so,
    the_line_of_the_documents,
];

/// Sets the time at which a batch was audited.
fn set_time(results: &Path, batch: &str, time: &str) {
    let path = results.join("batches").join(batch).join("about");
    let about = String::from_utf8(read(&path)).unwrap();
    let (_, behind) = about.split_once('\n').unwrap();
    fs::write(path, format!("time={time}\n{behind}")).unwrap();
}

/// Three batches in a folder of results: the accepted one is the oldest, and the one that is refused with 9 the newest.
fn three(room: &Room) -> (PathBuf, PathBuf) {
    let (spool, results) = (room.folder("spool"), room.path("results"));
    for (name, of) in [
        ("a", "case-b"),
        ("b", "refused-10-value-read"),
        ("c", "case-c"),
    ] {
        room.batch(&format!("spool/{name}"), of);
    }
    audit_all(&spool, &results).is(1);
    set_time(&results, "a", "2026-11-17T00:00:00Z");
    set_time(&results, "b", "2026-11-16T12:00:00Z");
    set_time(&results, "c", "2026-11-15T23:59:59Z");
    (spool, results)
}

fn results(options: &[&str], folder: &Path) -> Ended {
    let mut program = program("results");
    program.args(options).arg(folder).end()
}

/// The names that are listed, in their order.
#[track_caller]
fn listed(options: &[&str], folder: &Path) -> Vec<String> {
    let ended = results(options, folder);
    assert!(ended.is(0).said().is_empty(), "{ended}");
    let name = |line: &str| line.split('\t').next().unwrap().to_string();
    ended.text().lines().map(name).collect()
}

fn by_time_with_their_sentences(room: &Room) -> Done {
    let (_, kept) = three(room);
    let before = tree(&kept);
    let place = r#"report.txt, line 1: "of=1,0,2""#;
    results(&[], &kept).is(0).printed(format!(
        "c\t2026-11-15T23:59:59Z\taccepted\t0\taccepted: 2 requests, 4 operations (0 blocks, rest 4)\n\
         b\t2026-11-16T12:00:00Z\trefused\t10\trefused, verdict 10 (operation or count differs): {place}\n\
         a\t2026-11-17T00:00:00Z\trefused\t9\trefused, verdict 9 (the order returns to itself)\n"
    ));
    assert_eq!(tree(&kept), before, "nothing is written");
    Ok(())
}

fn since_a_day_or_a_time(room: &Room) -> Done {
    let (_, kept) = three(room);
    for (since, names) in [
        ("2026-11-15", &["c", "b", "a"][..]),
        ("2026-11-16", &["b", "a"]),
        ("2026-11-16T12:00:00Z", &["b", "a"]),
        ("2026-11-16T12:00:01Z", &["a"]),
        ("2026-11-18", &[]),
    ] {
        assert_eq!(listed(&["--since", since], &kept), names, "{since}");
    }
    Ok(())
}

fn by_state_and_by_verdict(room: &Room) -> Done {
    let (_, kept) = three(room);
    for (options, names) in [
        (&["--state", "refused"][..], &["b", "a"][..]),
        (&["--state", "accepted"], &["c"]),
        (&["--state", "changed"], &[]),
        (&["--verdict", "9"], &["a"]),
        (&["--verdict=0"], &["c"]),
        (&["--verdict", "11"], &[]),
        (&["--state", "refused", "--since", "2026-11-17"], &["a"]),
        (&["--state", "accepted", "--verdict", "9"], &[]),
    ] {
        assert_eq!(listed(options, &kept), names, "{options:?}");
    }
    Ok(())
}

fn in_json(room: &Room) -> Done {
    let (_, kept) = three(room);
    let found: Vec<Object> = objects(&results(&["--json"], &kept).is(0).stdout);
    let field = |key: &str| -> Vec<Value> { found.iter().map(|o| o[key].clone()).collect() };
    assert_eq!(field("batch"), ["c", "b", "a"].map(text));
    assert_eq!(field("verdict"), [0, 10, 9].map(Value::Number));
    assert_eq!(found[0]["order"], Value::Lines(expected_order("case-c")));
    assert_eq!(found[2]["time"], text("2026-11-17T00:00:00Z"));
    let brief = results(&["--json", "--brief"], &kept);
    assert_eq!(brief_objects(&brief.is(0).stdout).len(), 3);
    Ok(())
}

fn while_a_run_is_at_work(room: &Room) -> Done {
    let (_, kept) = three(room);
    let held = File::open(kept.join(".teaselshears")).unwrap();
    lock(&held);
    assert_eq!(listed(&[], &kept), ["c", "b", "a"]);
    Ok(())
}

/// An output, or texts, that are not those of the result.
fn results_that_are_written_over(room: &Room) -> Done {
    let (_, kept) = three(room);
    let accepting = read(example("case-c").join("expected"));
    fs::write(kept.join("batches/a/output"), accepting).unwrap();
    assert_eq!(listed(&["--state", "accepted"], &kept), ["c"]);
    assert_eq!(listed(&["--state", "damaged"], &kept), ["a"]);
    fs::remove_file(kept.join("batches/b/about")).unwrap();
    assert_eq!(listed(&["--state", "damaged"], &kept).len(), 2);
    // The table is not asked what was accepted.
    let table = kept.join("table.csv");
    let told = String::from_utf8(read(&table)).unwrap();
    fs::write(&table, told.replace(",refused,", ",accepted,")).unwrap();
    assert_eq!(listed(&["--state", "accepted"], &kept), ["c"]);
    Ok(())
}

/// Batches that changed or failed are told as the run found them that looked at the spool.
fn what_the_last_run_could_not_keep(room: &Room) -> Done {
    let (spool, kept) = three(room);
    fs::write(spool.join("c/report.txt"), "").unwrap();
    fs::create_dir(spool.join("=d\\ \u{e4}")).unwrap();
    audit_all(&spool, &kept).is(2);
    assert_eq!(listed(&["--state", "changed"], &kept), ["c"]);
    assert_eq!(listed(&["--state", "failed"], &kept), ["=d\\\\ \u{e4}"]);
    let ended = results(&["--state", "failed", "--json"], &kept);
    let object = objects(&ended.is(0).stdout).remove(0);
    assert_eq!(object["batch"], text("=d\\ \u{e4}"));
    assert_eq!([&object["verdict"], &object["kit"]], [&Value::Null; 2]);
    assert_eq!(listed(&["--state", "accepted"], &kept), [""; 0]);
    // Whatever time was written over, and where a text is not there any more.
    set_time(&kept, "c", "2999-01-01T00:00:00Z");
    assert_eq!(listed(&["--state", "changed"], &kept), ["c"]);
    fs::remove_file(spool.join("c/report.txt")).unwrap();
    audit_all(&spool, &kept).is(2);
    assert_eq!(listed(&["--state", "failed"], &kept).len(), 2);
    assert_eq!(listed(&["--state", "accepted"], &kept), [""; 0]);
    // Audited anew, it is what it is now.
    fs::write(spool.join("c/report.txt"), "").unwrap();
    fs::remove_dir_all(kept.join("batches/c")).unwrap();
    audit_all(&spool, &kept).is(2);
    assert_eq!(listed(&["--verdict", "6"], &kept), ["c"]);
    Ok(())
}

/// Tables of versions whose rows without a verdict had no time.
fn a_table_of_an_earlier_version(room: &Room) -> Done {
    let (_, kept) = three(room);
    let heading = "batch,state,verdict,line,requests,operations,blocks,rest,time,sentence,open\r\n";
    let row = "c,changed,,,,,,,,trace.txt is not the text that was audited,\r\n";
    fs::write(kept.join("table.csv"), format!("{heading}{row}")).unwrap();
    assert_eq!(listed(&["--state", "accepted"], &kept), [""; 0]);
    assert_eq!(listed(&["--state", "changed"], &kept), ["c"]);
    let since = ["--state", "changed", "--since", "2026-11-16"];
    assert_eq!(listed(&since, &kept), ["c"], "it has no time to go by");
    Ok(())
}

/// A good result under the name of a refused batch is not what the run of the table kept.
fn a_result_under_another_name(room: &Room) -> Done {
    let (_, kept) = three(room);
    for file in ["programs.txt", "trace.txt", "report.txt", "output", "about"] {
        let from = kept.join("batches/c").join(file);
        fs::copy(from, kept.join("batches/a").join(file)).unwrap();
    }
    assert_eq!(listed(&["--state", "accepted"], &kept), ["c"]);
    assert_eq!(listed(&["--state", "damaged"], &kept), ["a"]);
    Ok(())
}

/// Neither is waited for, as a fifo would have it.
fn what_is_not_a_file(room: &Room) -> Done {
    for file in ["table.csv", ".teaselshears"] {
        let (spool, kept) = (
            room.spool(&format!("{file}-s"), "case-c", 1),
            room.path(file),
        );
        audit_all(&spool, &kept).is(0);
        fs::remove_file(kept.join(file)).unwrap();
        make_fifo(&kept.join(file));
        results(&[], &kept).could_not(file);
    }
    Ok(())
}

fn a_result_that_is_gone(room: &Room) -> Done {
    let (_, kept) = three(room);
    fs::remove_dir_all(kept.join("batches/b")).unwrap();
    let ended = results(&["--state", "damaged"], &kept);
    assert!(
        ended.is(0).text().ends_with("\tits kept result is gone\n"),
        "{ended}"
    );
    assert_eq!(listed(&["--state", "refused"], &kept), ["a"]);
    // Without a table there is what is kept.
    fs::remove_file(kept.join("table.csv")).unwrap();
    assert_eq!(listed(&[], &kept), ["c", "a"]);
    Ok(())
}

fn requests_left_open(room: &Room) -> Done {
    let (spool, kept) = (
        room.spool("spool", "open-after-operation", 1),
        room.path("results"),
    );
    room.batch("spool/nothing", "empty");
    audit_all(&spool, &kept).is(3);
    assert_eq!(listed(&["--state", "accepted"], &kept), ["batch-1"]);
    assert_eq!(listed(&["--state", "empty"], &kept), ["nothing"]);
    assert_eq!(
        listed(&["--complete", "--state", "open"], &kept),
        ["batch-1"]
    );
    Ok(())
}

fn no_results(room: &Room) -> Done {
    let other = room.folder("other");
    for folder in [
        &other,
        &room.path("nowhere"),
        &example("case-c"),
        Path::new("/dev/null"),
    ] {
        results(&[], folder).could_not("");
    }
    room.file("other/.teaselshears", "teaselshears results 2\n");
    results(&[], &other).could_not("another version");
    let (spool, kept) = (room.folder("spool"), room.path("results"));
    audit_all(&spool, &kept).is(2);
    results(&[], &kept).is(0).printed("");
    let heading = "batch,state,verdict,time,sentence\r\n";
    for table in [
        "not a table".to_string(),
        format!("{heading}a,failed,,,\x1b[2J\r\n"),
    ] {
        fs::write(kept.join("table.csv"), table).unwrap();
        results(&[], &kept).could_not("table.csv");
    }
    // As the versions wrote it whose rows without a verdict had no time.
    let table = format!("{heading}a,failed,,,could not be run\r\n");
    fs::write(kept.join("table.csv"), table).unwrap();
    results(&[], &kept)
        .is(0)
        .printed("a\t\tfailed\t\tcould not be run\n");
    Ok(())
}

fn what_is_not_asked_so(room: &Room) -> Done {
    let (_, kept) = three(room);
    for option in [
        "--since=yesterday",
        "--since=",
        "--since=2026-11",
        "--state=good",
        "--state=",
        "--verdict=15",
        "--verdict=x",
        "--verdict=-1",
    ] {
        let named = option.split('=').next().unwrap();
        results(&[option], &kept).does_not_take(named);
    }
    results(&["--jobs=1"], &kept).does_not_take("--jobs");
    program("results").end().does_not_take("");
    program("results")
        .args([&kept, &kept])
        .end()
        .does_not_take("");
    Ok(())
}

/// "What was refused yesterday, and why" is one line of README.
fn the_line_of_the_documents(room: &Room) -> Done {
    let (_, kept) = three(room);
    let readme = String::from_utf8(read(root().join("README.md"))).unwrap();
    let mut lines = readme.lines().map(str::trim);
    let line = lines.find(|line| line.starts_with("teaselshears results "));
    let line = line.expect("README has the line");
    assert!(
        line.contains("--state refused") && line.contains("yesterday"),
        "{line}"
    );
    let line = line.replace("teaselshears ", &format!("{} ", crate::run::PROGRAM));
    let line = line.replace("/results", kept.to_str().unwrap());
    set_time(&kept, "a", "2026-01-01T00:00:00Z");
    set_time(&kept, "b", "2999-01-01T00:00:00Z");
    let ended = Command::new("sh").args(["-c", &line]).end();
    assert!(ended.is(0).text().starts_with("b\t2999-01-01"), "{ended}");
    assert_eq!(ended.text().lines().count(), 1, "{ended}");
    Ok(())
}
