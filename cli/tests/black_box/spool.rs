//! `audit-all` over whole spools: every example, a second run, JSON and lists, many batches.

use crate::harness::{tests, Done};
use crate::json::{brief_objects, objects, only_object, text, timeless, Object, Value};
use crate::results::{check_all_kept, check_stays, kept, row, states};
use crate::room::{
    audited_examples, copy_folder, example, expected_order, names_in, read, state_of, Room,
};
use crate::run::{audit, audit_all, needs, program, Run, PROGRAM};
use std::collections::BTreeMap;
use std::fs;
use std::path::{Path, PathBuf};
use std::process::Command;

tests![
    a_thousand_batches,
    every_example,
    a_second_run,
    jobs_make_no_difference,
    json_of_every_batch,
    json_without_the_orders,
    lists_of_names,
    lists_of_names_that_are_gone,
    batches_that_come_later,
    batches_that_are_taken_away,
    names_that_begin_with_a_dot,
    no_batch,
    all_accepted_and_all_refused,
    progress_on_a_terminal,
];

/// A spool of every example that can be audited.
fn example_spool(room: &Room) -> PathBuf {
    let spool = room.folder("spool");
    for name in audited_examples() {
        copy_folder(&example(&name), &spool.join(name));
    }
    spool
}

/// The examples that have a state.
fn examples_that_are(state: &str) -> Vec<String> {
    let mut names = audited_examples();
    names.retain(|name| state_of(name).0 == state);
    names
}

/// The examples that a run says something of each time.
fn examples_to_see_to() -> Vec<String> {
    [examples_that_are("empty"), examples_that_are("refused")].concat()
}

fn every_example(room: &Room) -> Done {
    let (spool, results) = (example_spool(room), room.path("results"));
    let ended = audit_all(&spool, &results);
    let said = ended.is(1).printed("").said();
    check_all_kept(&spool, &results);
    let [accepted, empty, refused] =
        ["accepted", "empty", "refused"].map(|state| examples_that_are(state).len());
    let all = audited_examples().len();
    let counts = format!(
        "of {all} in the spool: {accepted} accepted, {empty} empty, {refused} refused, 0 changed, 0 failed"
    );
    assert_eq!(said.last(), Some(&counts), "the counts are the last line");
    assert_eq!(said.len(), all + 1, "a line for each batch; {ended}");
    for name in audited_examples() {
        let line = format!("{name}: {}", audit(example(&name)).sentence());
        assert!(said.contains(&line), "{line}; {ended}");
    }
    Ok(())
}

fn a_second_run(room: &Room) -> Done {
    let (spool, results) = (example_spool(room), room.path("results"));
    audit_all(&spool, &results).is(1);
    let (before, table) = (kept(&results), read(results.join("table.csv")));
    let ended = audit_all(&spool, &results);
    assert_eq!(kept(&results), before, "nothing is audited again");
    assert_eq!(read(results.join("table.csv")), table, "the same table");
    check_all_kept(&spool, &results);
    let said = ended.is(1).said();
    for name in examples_to_see_to() {
        let line = format!("{name}: {}", audit(example(&name)).sentence());
        assert!(said.contains(&line), "{line}; {ended}");
    }
    assert_eq!(
        said.len(),
        examples_to_see_to().len() + 1,
        "those that are not accepted, and the counts; {ended}"
    );
    Ok(())
}

fn jobs_make_no_difference(room: &Room) -> Done {
    let spool = example_spool(room);
    let mut tables = Vec::new();
    for jobs in ["1", "8"] {
        let results = room.path(&format!("results-{jobs}"));
        program("audit-all")
            .args(["--jobs", jobs])
            .arg(&spool)
            .arg(&results)
            .end()
            .is(1);
        check_all_kept(&spool, &results);
        tables.push(states(&results));
    }
    assert_eq!(tables[0], tables[1]);
    Ok(())
}

/// Objects by the names of their batches.
#[track_caller]
fn by_batch(printed: &[u8]) -> BTreeMap<String, Object> {
    let objects = objects(printed);
    let number = objects.len();
    let name = |object: &Object| match &object["batch"] {
        Value::Text(name) => name.clone(),
        other => panic!("no name: {other:?}"),
    };
    let found: BTreeMap<String, Object> = objects.into_iter().map(|o| (name(&o), o)).collect();
    assert_eq!(found.len(), number, "each batch once");
    found
}

fn json_of_every_batch(room: &Room) -> Done {
    let (spool, results) = (example_spool(room), room.path("results"));
    fs::create_dir(spool.join("nothing")).unwrap();
    // The second run gives the same from what is kept.
    for _ in 0..2 {
        let ended = program("audit-all")
            .arg("--json")
            .arg(&spool)
            .arg(&results)
            .end();
        let mut objects = by_batch(&ended.is(2).stdout);
        let failed = objects.remove("nothing").expect("one that failed");
        assert_eq!(
            (&failed["state"], &failed["verdict"]),
            (&text("failed"), &Value::Null)
        );
        assert_eq!(failed["order"], Value::Null);
        let order = Value::Lines(expected_order("case-c"));
        assert_eq!(objects["case-c"]["order"], order);
        assert_eq!(objects.len(), audited_examples().len());
        for (name, object) in objects {
            let alone = program("audit").arg("--json").arg(spool.join(&name)).end();
            let mut alone = only_object(&alone.stdout);
            alone.insert("batch".to_string(), text(&name));
            assert_eq!(timeless(object), timeless(alone), "as of audit --json");
        }
    }
    Ok(())
}

fn json_without_the_orders(room: &Room) -> Done {
    let (spool, results) = (room.spool("spool", "case-c", 2), room.path("results"));
    let mut run = program("audit-all");
    run.args(["--json", "--brief"]).arg(&spool).arg(&results);
    assert_eq!(brief_objects(&run.end().is(0).stdout).len(), 2);
    let mut one = program("audit");
    one.args(["--json", "--brief"]).arg(spool.join("batch-1"));
    let object = brief_objects(&one.end().is(0).stdout).remove(0);
    assert_eq!(object["operations"], Value::Number(4));
    for command in [
        &["audit", "--brief", "x"][..],
        &["audit-all", "--brief", "x", "y"],
        &["results", "--brief", "x"],
    ] {
        let mut program = program(command[0]);
        program.args(&command[1..]).end().does_not_take("--brief");
    }
    Ok(())
}

/// The names that --list prints, by this ending.
#[track_caller]
fn listed(state: &str, zero: bool, spool: &Path, results: &Path) -> Vec<String> {
    let mut program = program("audit-all");
    program
        .args(["--list", state])
        .args(zero.then_some("-0"))
        .arg(spool)
        .arg(results);
    let ended = program.end();
    let end = if zero { '\0' } else { '\n' };
    let text = ended.is(2).text();
    assert!(text.is_empty() || text.ends_with(end), "{ended}");
    let mut names: Vec<String> = text.split_terminator(end).map(String::from).collect();
    names.sort();
    names
}

fn lists_of_names(room: &Room) -> Done {
    let (spool, results) = (example_spool(room), room.path("results"));
    audit_all(&spool, &results).is(1);
    fs::write(spool.join("case-c/report.txt"), "").unwrap();
    fs::create_dir(spool.join("nothing")).unwrap();
    let refused = examples_that_are("refused");
    for zero in [false, true] {
        assert_eq!(listed("refused", zero, &spool, &results), refused);
        assert_eq!(listed("empty", zero, &spool, &results), ["empty"]);
        assert_eq!(listed("changed", zero, &spool, &results), ["case-c"]);
        assert_eq!(listed("failed", zero, &spool, &results), ["nothing"]);
    }
    // A list of nothing is empty, and a list of a first run is of what it audits.
    let spool = room.spool("good", "case-c", 2);
    let list = |state: &str| {
        let mut program = program("audit-all");
        program
            .args([&format!("--list={state}"), "--null"])
            .arg(&spool)
            .arg(room.path("new"))
            .end()
    };
    list("refused").is(0).printed("");
    list("failed").is(0).printed("");
    Ok(())
}

/// A list is of every row of the table: of batches that are in the spool no longer, too.
fn lists_of_names_that_are_gone(room: &Room) -> Done {
    let (spool, results) = (room.spool("spool", "case-c", 1), room.path("results"));
    room.batch("spool/bad", "case-b");
    audit_all(&spool, &results).is(1);
    fs::remove_dir_all(spool.join("bad")).unwrap();
    let mut program = program("audit-all");
    program
        .args(["--list", "refused"])
        .arg(&spool)
        .arg(&results);
    program.end().is(0).printed("bad\n");
    Ok(())
}

fn a_thousand_batches(room: &Room) -> Done {
    let (spool, results) = (room.spool("spool", "case-c", 1000), room.path("results"));
    let ended = program("audit-all")
        .args(["--jobs", "8"])
        .arg(&spool)
        .arg(&results)
        .end();
    ended
        .is(0)
        .said_part("of 1000 in the spool: 1000 accepted, 0 refused, 0 changed, 0 failed");
    check_all_kept(&spool, &results);
    let before = kept(&results);
    let ended = program("audit-all")
        .args(["--jobs", "1"])
        .arg(&spool)
        .arg(&results)
        .end();
    assert_eq!(ended.is(0).said().len(), 1, "the counts alone");
    assert_eq!(kept(&results), before, "nothing is audited again");
    Ok(())
}

fn batches_that_come_later(room: &Room) -> Done {
    let (spool, results) = (room.spool("spool", "case-c", 3), room.path("results"));
    audit_all(&spool, &results).is(0);
    let before = kept(&results);
    room.batch("spool/later", "case-b");
    let ended = audit_all(&spool, &results);
    ended
        .is(1)
        .said_part("of 4 in the spool: 3 accepted, 1 refused, 0 changed, 0 failed");
    assert_eq!(ended.said().len(), 2, "the new one and the counts");
    check_stays(&before, &results);
    check_all_kept(&spool, &results);
    Ok(())
}

/// A kept result stays in the table; the status is over the batches that are in the spool now.
fn batches_that_are_taken_away(room: &Room) -> Done {
    let (spool, results) = (room.spool("spool", "case-c", 2), room.path("results"));
    room.batch("spool/bad", "case-b");
    audit_all(&spool, &results).is(1);
    let before = row(&results, "bad");
    fs::remove_dir_all(spool.join("bad")).unwrap();
    let ended = audit_all(&spool, &results);
    ended
        .is(0)
        .said_part("of 2 in the spool: 2 accepted, 0 refused, 0 changed, 0 failed");
    assert_eq!(row(&results, "bad"), before);
    assert_eq!(states(&results).len(), 3);
    Ok(())
}

fn names_that_begin_with_a_dot(room: &Room) -> Done {
    let (spool, results) = (room.spool("spool", "case-c", 1), room.path("results"));
    room.batch("spool/.unfinished", "case-b");
    room.file("spool/.notes", "");
    let ended = audit_all(&spool, &results);
    ended
        .is(0)
        .said_part("of 1 in the spool: 1 accepted, 0 refused, 0 changed, 0 failed");
    check_all_kept(&spool, &results);
    // Renamed, it is a batch.
    fs::rename(spool.join(".unfinished"), spool.join("finished")).unwrap();
    audit_all(&spool, &results)
        .is(1)
        .said_part("finished: refused, verdict 9 (");
    Ok(())
}

fn no_batch(room: &Room) -> Done {
    let spool = room.folder("spool");
    audit_all(&spool, room.path("results"))
        .is(2)
        .printed("")
        .said_part("");
    fs::create_dir(spool.join(".unfinished")).unwrap();
    audit_all(&spool, room.path("results")).is(2).printed("");
    let kept = names_in(&room.path("results/batches"));
    assert!(kept.is_empty());
    Ok(())
}

fn all_accepted_and_all_refused(room: &Room) -> Done {
    let good = room.spool("good", "case-c", 3);
    audit_all(&good, room.path("good-results")).is(0);
    let bad = room.spool("bad", "case-b", 3);
    let ended = audit_all(&bad, room.path("bad-results"));
    ended
        .is(1)
        .said_part("of 3 in the spool: 0 accepted, 3 refused, 0 changed, 0 failed");
    Ok(())
}

/// On a terminal is a line of progress in place of a line for each batch; `script` of util-linux makes one.
fn progress_on_a_terminal(room: &Room) -> Done {
    needs("script")?;
    let (spool, results) = (room.spool("spool", "case-c", 50), room.path("results"));
    room.batch("spool/bad", "case-b");
    let words = [
        PROGRAM,
        "audit-all",
        spool.to_str().unwrap(),
        results.to_str().unwrap(),
    ];
    let mut script = Command::new("script");
    script.args(["-q", "-e", "-c", &words.join(" "), "/dev/null"]);
    let ended = script.end();
    let seen = ended.is(1).text();
    assert!(
        !seen.contains("batch-7: accepted"),
        "no line for each; {ended}"
    );
    assert!(
        seen.contains("bad: refused, verdict 9 ("),
        "what is refused is said; {ended}"
    );
    let counts = "of 51 in the spool: 50 accepted, 1 refused, 0 changed, 0 failed";
    assert!(seen.trim_end().ends_with(counts), "{ended}");
    check_all_kept(&spool, &results);
    Ok(())
}
