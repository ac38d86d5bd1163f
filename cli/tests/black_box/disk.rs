//! Disks without room: nothing half is left, the status is 2, and with room again all is completed.

use crate::harness::{skip, tests, Done, Skipped};
use crate::results::{check_all_kept, check_kept_whole};
use crate::room::{check_recorded, example, names, names_in, Room};
use crate::run::{audit_all, record, shell, Run, PROGRAM};
use crate::system::is_root;
use std::fs::File;
use std::io::Write;
use std::path::{Path, PathBuf};
use std::process::Command;

tests![
    record_on_a_full_disk,
    record_on_disks_of_every_small_size,
    record_on_a_disk_without_room_for_names,
    audit_all_on_a_full_disk,
    files_that_may_not_grow,
];

/// A small file system in memory; it is unmounted at its end.
struct Disk(PathBuf);

impl Disk {
    fn mounted(room: &Room, options: &str) -> Result<Disk, Skipped> {
        if !is_root() {
            return skip("only root may mount a small disk");
        }
        let path = room.folder("disk");
        let mut mount = Command::new("mount");
        mount
            .args(["-t", "tmpfs", "-o", options, "tmpfs"])
            .arg(&path);
        match mount.output() {
            Ok(ended) if ended.status.success() => Ok(Disk(path)),
            _ => skip("no small disk can be mounted here"),
        }
    }

    fn set(&self, options: &str) {
        let options = format!("remount,{options}");
        Command::new("mount")
            .args(["-o", &options])
            .arg(&self.0)
            .end()
            .is(0);
    }

    fn path(&self, name: &str) -> PathBuf {
        self.0.join(name)
    }

    /// Takes what room is left.
    fn fill(&self) {
        let mut filler = File::create(self.path("filler")).unwrap();
        while filler.write_all(&[0; 4096]).is_ok() {}
    }
}

impl Drop for Disk {
    fn drop(&mut self) {
        let _ = Command::new("umount").arg(&self.0).status();
    }
}

fn record_on_a_full_disk(room: &Room) -> Done {
    let disk = Disk::mounted(room, "size=64k")?;
    disk.fill();
    record(example("case-c"), disk.path("out")).could_not("");
    assert_eq!(names_in(&disk.0), names(["filler"]), "nothing is left");
    disk.set("size=8m");
    record(example("case-c"), disk.path("out")).is(0);
    check_recorded("case-c", &disk.path("out"));
    assert_eq!(names_in(&disk.0), names(["filler", "out"]));
    Ok(())
}

/// OUT is whole, or it is not there and the status is 2.
#[track_caller]
fn check_whole_or_none(disk: &Disk) -> bool {
    let ended = record(example("case-c"), disk.path("out"));
    if ended.status.success() {
        check_recorded("case-c", &disk.path("out"));
        return true;
    }
    ended.could_not("");
    assert!(names_in(&disk.0).is_empty(), "nothing is left; {ended}");
    false
}

fn record_on_disks_of_every_small_size(room: &Room) -> Done {
    let disk = Disk::mounted(room, "size=4k")?;
    for pages in 1..=16 {
        disk.set(&format!("size={}k", 4 * pages));
        if check_whole_or_none(&disk) {
            assert!(pages >= 3, "three texts take three");
            return Ok(());
        }
    }
    panic!("64 KB are not enough for three small texts");
}

fn record_on_a_disk_without_room_for_names(room: &Room) -> Done {
    let disk = Disk::mounted(room, "size=8m,nr_inodes=1")?;
    for inodes in 2..=16 {
        disk.set(&format!("nr_inodes={inodes}"));
        if check_whole_or_none(&disk) {
            assert!(inodes > 4, "a folder and three texts take four");
            return Ok(());
        }
    }
    panic!("16 names are not enough for three texts");
}

fn audit_all_on_a_full_disk(room: &Room) -> Done {
    let spool = room.spool("spool", "case-c", 12);
    let disk = Disk::mounted(room, "size=64k")?;
    let results = disk.path("results");
    for _ in 0..2 {
        audit_all(&spool, &results)
            .is(2)
            .said_part("could not be run");
        assert!(
            names_in(&results.join("batches")).len() < 12,
            "not all results"
        );
        check_kept_whole(&spool, &results);
    }
    disk.set("size=8m");
    audit_all(&spool, &results).is(0);
    check_all_kept(&spool, &results);
    Ok(())
}

/// Without a small disk: a limit by which no file grows.
fn files_that_may_not_grow(room: &Room) -> Done {
    let run = |command: &str, arguments: [&Path; 2]| {
        let script = "trap '' XFSZ; ulimit -f 0 && exec \"$@\"";
        shell(script)
            .arg(PROGRAM)
            .arg(command)
            .args(arguments)
            .end()
    };
    let place = room.folder("place");
    run("record", [&example("case-c"), &place.join("out")]).could_not("");
    assert!(names_in(&place).is_empty(), "nothing is left");
    let (spool, results) = (room.spool("spool", "case-c", 3), room.path("results"));
    run("audit-all", [&spool, &results])
        .is(2)
        .said_part("could not be run");
    assert!(names_in(&results.join("batches")).is_empty());
    audit_all(&spool, &results).is(0);
    check_all_kept(&spool, &results);
    Ok(())
}
