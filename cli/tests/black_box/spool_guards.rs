//! SPOOL and RESULTS that are not to be used: nothing in them is touched.

use crate::harness::{tests, Done};
use crate::results::check_all_kept;
use crate::room::{read, tree, Room};
use crate::run::{audit_all, program, Run};
use std::fs;
use std::os::unix::fs::symlink;
use std::path::Path;

tests![
    results_with_foreign_files,
    results_of_the_older_tools,
    results_that_are_no_folder,
    results_that_are_empty_or_deep,
    foreign_files_beside_results,
    a_foreign_folder_of_what_is_being_made,
    results_in_the_spool,
    the_spool_in_results,
    results_are_the_spool,
    no_spool,
    a_table_that_cannot_be_written,
    a_folder_of_results_that_is_a_file,
];

/// A run that must not be, and touches nothing in the room.
#[track_caller]
fn guarded(room: &Room, spool: &Path, results: &Path) {
    let before = tree(&room.path(""));
    let ended = audit_all(spool, results);
    ended.could_not("");
    assert_eq!(tree(&room.path("")), before, "nothing is touched");
}

fn results_with_foreign_files(room: &Room) -> Done {
    let spool = room.spool("spool", "case-c", 1);
    for name in ["notes.txt", ".hidden", ".working", "batches", "table.csv"] {
        let results = room.folder(&format!("results-{name}"));
        room.file(&format!("results-{name}/{name}"), "foreign");
        guarded(room, &spool, &results);
    }
    for name in [".working", "batches", ".lock"] {
        let results = room.folder(&format!("folder-{name}"));
        room.folder(&format!("folder-{name}/{name}"));
        room.file(&format!("folder-{name}/{name}/notes.txt"), "foreign");
        guarded(room, &spool, &results);
    }
    Ok(())
}

/// What the bash tools kept has no texts with it, so that it cannot be held against the spool.
fn results_of_the_older_tools(room: &Room) -> Done {
    let spool = room.spool("spool", "case-c", 1);
    let results = room.folder("results");
    room.folder("results/batches/batch-1");
    room.file("results/.lock", "");
    room.file(
        "results/table.tsv",
        "time\tbatch\tverdict\tline\trequests\toperations\n",
    );
    room.file(
        "results/batches/batch-1/output",
        "verdict=0\nline=0\nrequests=2\noperations=4\n",
    );
    guarded(room, &spool, &results);
    Ok(())
}

fn results_that_are_no_folder(room: &Room) -> Done {
    let spool = room.spool("spool", "case-c", 1);
    guarded(room, &spool, &room.file("file", ""));
    guarded(room, &spool, &room.path("file").join("results"));
    guarded(room, &spool, Path::new("/dev/null"));
    guarded(room, &spool, Path::new("/proc/results"));
    Ok(())
}

fn results_that_are_empty_or_deep(room: &Room) -> Done {
    let spool = room.spool("spool", "case-c", 1);
    let empty = room.folder("empty");
    audit_all(&spool, &empty).is(0);
    check_all_kept(&spool, &empty);
    let deep = room.path("some/folders/results");
    audit_all(&spool, &deep).is(0);
    check_all_kept(&spool, &deep);
    // A link to results is the results, and a slash at the end is nothing.
    symlink(&deep, room.path("link")).unwrap();
    let before = tree(&deep.join("batches"));
    audit_all(&spool, room.path("link/")).is(0);
    assert_eq!(tree(&deep.join("batches")), before);
    Ok(())
}

/// What others put into RESULTS once it is made stays.
fn foreign_files_beside_results(room: &Room) -> Done {
    let (spool, results) = (room.spool("spool", "case-c", 1), room.path("results"));
    audit_all(&spool, &results).is(0);
    room.file("results/notes.txt", "foreign");
    room.folder("results/reports");
    room.file("results/reports/one", "foreign");
    audit_all(&spool, &results);
    assert_eq!(read(results.join("notes.txt")), b"foreign");
    assert_eq!(read(results.join("reports/one")), b"foreign");
    Ok(())
}

/// The folder in which results are made may be a link that somebody put there: what it leads to stays.
fn a_foreign_folder_of_what_is_being_made(room: &Room) -> Done {
    let (spool, results) = (room.spool("spool", "case-c", 1), room.path("results"));
    audit_all(&spool, &results).is(0);
    room.folder("elsewhere");
    room.file("elsewhere/notes.txt", "foreign");
    symlink("../elsewhere", results.join(".working")).unwrap();
    audit_all(&spool, &results);
    assert_eq!(read(room.path("elsewhere/notes.txt")), b"foreign");
    Ok(())
}

fn results_in_the_spool(room: &Room) -> Done {
    let spool = room.spool("spool", "case-c", 1);
    symlink("spool", room.path("link")).unwrap();
    symlink("spool/batch-1", room.path("link-to-batch")).unwrap();
    let places = [
        "spool/results",
        "spool/.results",
        "spool/some/folders/results",
        "spool/batch-1/results",
        "link/results",
        "link-to-batch/results",
        "spool/../spool/results",
        "nowhere/../spool/results",
        "./spool//results/",
    ];
    for place in places {
        guarded(room, &spool, &room.path(place));
        guarded(room, &room.path("link"), &room.path(place));
    }
    Ok(())
}

fn the_spool_in_results(room: &Room) -> Done {
    let results = room.folder("results");
    room.folder("results/batches");
    let spool = room.spool("results/spool", "case-c", 1);
    guarded(room, &spool, &results);
    symlink("results/spool", room.path("link")).unwrap();
    guarded(room, &room.path("link"), &results);
    symlink("results", room.path("link-to-results")).unwrap();
    guarded(room, &room.path("link"), &room.path("link-to-results"));
    // Of results that are ours, too.
    let (spool, results) = (room.spool("good", "case-c", 1), room.path("ours"));
    audit_all(&spool, &results).is(0);
    guarded(room, &results.join("batches"), &results);
    room.spool("ours/spool", "case-c", 1);
    guarded(room, &results.join("spool"), &results);
    Ok(())
}

fn results_are_the_spool(room: &Room) -> Done {
    let spool = room.spool("spool", "case-c", 1);
    symlink("spool", room.path("link")).unwrap();
    let empty = room.folder("empty");
    guarded(room, &spool, &spool);
    guarded(room, &spool, &room.path("link"));
    guarded(room, &room.path("link"), &spool);
    guarded(room, &spool, &spool.join("../spool/."));
    guarded(room, &empty, &empty);
    let before = tree(&spool);
    program("audit-all")
        .args([".", "."])
        .current_dir(&spool)
        .end()
        .could_not("");
    assert_eq!(tree(&spool), before);
    Ok(())
}

fn no_spool(room: &Room) -> Done {
    let results = room.path("results");
    guarded(room, &room.path("nowhere"), &results);
    guarded(room, &room.file("file", ""), &results);
    guarded(room, Path::new("/dev/null"), &results);
    symlink("nothing", room.path("dangling")).unwrap();
    guarded(room, &room.path("dangling"), &results);
    Ok(())
}

fn a_table_that_cannot_be_written(room: &Room) -> Done {
    let (spool, results) = (room.spool("spool", "case-c", 2), room.path("results"));
    audit_all(&spool, &results).is(0);
    let table = results.join("table.csv");
    let before = read(&table);
    fs::remove_file(&table).unwrap();
    fs::create_dir(&table).unwrap();
    fs::write(table.join("notes.txt"), "foreign").unwrap();
    for _ in 0..2 {
        audit_all(&spool, &results).is(2).said_part("table.csv");
        assert_eq!(read(table.join("notes.txt")), b"foreign");
    }
    fs::remove_dir_all(&table).unwrap();
    audit_all(&spool, &results).is(0);
    assert_eq!(read(&table), before);
    check_all_kept(&spool, &results);
    Ok(())
}

fn a_folder_of_results_that_is_a_file(room: &Room) -> Done {
    let (spool, results) = (room.spool("spool", "case-c", 2), room.path("results"));
    audit_all(&spool, &results).is(0);
    fs::remove_dir_all(results.join("batches")).unwrap();
    fs::write(results.join("batches"), "").unwrap();
    audit_all(&spool, &results).is(2);
    fs::remove_file(results.join("batches")).unwrap();
    audit_all(&spool, &results).is(0);
    check_all_kept(&spool, &results);
    Ok(())
}
