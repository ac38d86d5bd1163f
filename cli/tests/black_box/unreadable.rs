//! Names that are there and cannot be read as a text: the batch is not run, the text is named, and nothing hangs.

use crate::harness::{skip, tests, Done, Skipped};
use crate::room::{check_recorded, expected, names, names_in, recorded, Room, TEXTS};
use crate::run::{audit, audit_all, program, proved, proved_program, Ended, Run, PROGRAM};
use crate::system::{is_root, make_fifo};
use crate::texts::{with_text, READ};
use std::fs::{self, Permissions};
use std::os::unix::fs::{symlink, PermissionsExt};
use std::os::unix::process::CommandExt;
use std::path::{Path, PathBuf};
use std::process::{Command, Stdio};
use std::time::Duration;

tests![
    texts_that_cannot_be_read,
    none_of_them_is_missing,
    texts_that_cannot_be_read_in_a_spool,
    texts_that_the_proved_programs_cannot_read,
    texts_without_permission,
    texts_of_a_record_without_permission,
    texts_of_the_proved_programs_without_permission,
    folders_without_permission,
    places_without_permission,
];

const KINDS: [&str; 7] = [
    "folder",
    "dangling",
    "circular",
    "failing",
    "device",
    "fifo",
    "fifo behind a link",
];

/// Puts something that cannot be read in the place of a text.
fn make_unreadable(kind: &str, path: &Path) {
    match kind {
        "folder" => fs::create_dir(path).unwrap(),
        "dangling" => symlink("nowhere", path).unwrap(),
        "circular" => symlink(path.file_name().unwrap(), path).unwrap(),
        "failing" => symlink("/proc/self/mem", path).unwrap(),
        "device" => symlink("/dev/zero", path).unwrap(),
        "fifo" => make_fifo(path),
        _ => {
            make_fifo(&path.with_extension("fifo"));
            symlink(path.with_extension("fifo"), path).unwrap();
        }
    }
}

fn texts_that_cannot_be_read(room: &Room) -> Done {
    for kind in KINDS {
        for (command, text, _) in READ {
            with_text(room, command, text, |path| make_unreadable(kind, path)).could_not(text);
        }
    }
    Ok(())
}

fn none_of_them_is_missing(room: &Room) -> Done {
    for kind in KINDS {
        for text in TEXTS {
            let batch = room.batch(&format!("{kind}-{text}"), "empty");
            fs::remove_file(batch.join(text)).unwrap();
            make_unreadable(kind, &batch.join(text));
            let ended = program("audit")
                .arg("--missing-as-empty")
                .arg(&batch)
                .end_within(Duration::from_secs(10));
            ended.could_not(text);
        }
    }
    Ok(())
}

fn texts_that_cannot_be_read_in_a_spool(room: &Room) -> Done {
    let spool = room.folder("spool");
    for kind in KINDS {
        let batch = room.batch(&format!("spool/{kind}"), "case-c");
        fs::remove_file(batch.join("report.txt")).unwrap();
        make_unreadable(kind, &batch.join("report.txt"));
    }
    room.batch("spool/good", "case-c");
    let ended = audit_all(&spool, room.path("results"));
    ended
        .is(2)
        .said_part("of 8 in the spool: 1 accepted, 0 refused, 0 changed, 7 failed");
    let said = ended.said();
    for kind in KINDS {
        let line = said
            .iter()
            .find_map(|line| line.strip_prefix(&format!("{kind}: ")));
        let line = line.unwrap_or_else(|| panic!("{kind} is said; {ended}"));
        assert!(
            line.starts_with("could not be run: ") && line.contains("report.txt"),
            "{line}"
        );
    }
    assert_eq!(names_in(&room.path("results/batches")), names(["good"]));
    Ok(())
}

/// The example whose texts a proved program reads; of the audit three empty ones, so that one which it cannot read and
/// takes for empty would be accepted.
fn example_for(command: &str) -> &'static str {
    match command {
        "audit" => "empty",
        _ => "case-c",
    }
}

/// It printed nothing, and said why of this text. A proved program ends with status 0 whatever it met.
#[track_caller]
pub fn gave_no_verdict(ended: &Ended, text: &str) {
    ended.is(0).printed("");
    let said = String::from_utf8_lossy(&ended.stderr);
    assert!(said.starts_with(&format!("{text}: ")), "{ended}");
}

/// What fails when it is opened, or when it is read, for every user. The proved programs wait for a fifo, and read a device.
fn texts_that_the_proved_programs_cannot_read(room: &Room) -> Done {
    for kind in ["folder", "circular", "failing"] {
        for (command, text, _) in READ {
            let batch = room.batch(&format!("{kind}-{command}-{text}"), example_for(command));
            fs::remove_file(batch.join(text)).unwrap();
            make_unreadable(kind, &batch.join(text));
            gave_no_verdict(&proved(command, &batch)?.end(), text);
        }
    }
    Ok(())
}

/// A program run by a user whom permissions bind, which root is not. It is a copy: the folders of the original may be
/// closed to that user.
fn as_another(room: &Room, program: &Path) -> Result<Command, Skipped> {
    if !is_root() {
        return Ok(Command::new(program));
    }
    let copy = copy_for_all(room, program);
    let another = || {
        let mut command = Command::new(&copy);
        command.uid(65534).gid(65534);
        command
    };
    let mut trial = another();
    trial
        .arg("--version")
        .current_dir(room.path(""))
        .stdin(Stdio::null())
        .stdout(Stdio::null())
        .stderr(Stdio::null());
    if !trial.status().is_ok_and(|status| status.success()) {
        return skip("user 65534 cannot run a program in the folder for temporary files");
    }
    Ok(another())
}

/// Made by a process of its own: what this one has open for writing, while another test starts a program, could not be
/// run yet.
fn copy_for_all(room: &Room, program: &Path) -> PathBuf {
    let copy = room.path(program.file_name().unwrap().to_str().unwrap());
    if !copy.exists() {
        Command::new("cp").arg(program).arg(&copy).end().is(0);
        set_mode(&copy, 0o755);
    }
    copy
}

/// A command of the program, run by another user.
fn command_as_another(room: &Room, command: &str) -> Result<Command, Skipped> {
    let mut program = as_another(room, Path::new(PROGRAM))?;
    program.arg(command);
    Ok(program)
}

fn set_mode(path: &Path, mode: u32) {
    fs::set_permissions(path, Permissions::from_mode(mode)).unwrap();
}

fn texts_without_permission(room: &Room) -> Done {
    for text in TEXTS {
        let batch = room.batch(text, "empty");
        set_mode(&batch.join(text), 0);
        command_as_another(room, "audit")?
            .arg(&batch)
            .end()
            .could_not(text);
        command_as_another(room, "audit")?
            .arg("--missing-as-empty")
            .arg(&batch)
            .end()
            .could_not(text);
        set_mode(&batch.join(text), 0o444);
        command_as_another(room, "audit")?
            .arg(&batch)
            .end()
            .is(3)
            .printed(expected("empty"));
    }
    Ok(())
}

fn texts_of_a_record_without_permission(room: &Room) -> Done {
    let place = room.folder("place");
    set_mode(&place, 0o777);
    for text in ["programs.txt", "schedule.txt"] {
        let (batch, out) = (room.batch(text, "case-c"), place.join(text));
        let run = |options: &[&str]| -> Result<Ended, Skipped> {
            let mut record = command_as_another(room, "record")?;
            Ok(record.args(options).arg(&batch).arg(&out).end())
        };
        set_mode(&batch.join(text), 0);
        run(&[])?.could_not(text);
        run(&["--missing-as-empty"])?.could_not(text);
        assert!(!out.exists(), "nothing is made");
        set_mode(&batch.join(text), 0o444);
        run(&[])?.is(0).printed("verdict=0\nline=0\n");
        check_recorded("case-c", &out);
    }
    Ok(())
}

/// What a proved program prints of the example that it is tried on.
fn printed_of_example(command: &str, batch: &Path) -> Vec<u8> {
    match command {
        "audit" => expected(example_for(command)),
        _ => recorded(batch),
    }
}

fn texts_of_the_proved_programs_without_permission(room: &Room) -> Done {
    for (command, text, _) in READ {
        let batch = room.batch(&format!("{command}-{text}"), example_for(command));
        let run = || -> Result<Ended, Skipped> {
            let mut proved = as_another(room, &proved_program(command)?)?;
            Ok(proved.current_dir(&batch).end())
        };
        set_mode(&batch.join(text), 0);
        gave_no_verdict(&run()?, text);
        set_mode(&batch.join(text), 0o444);
        run()?.is(0).printed(printed_of_example(command, &batch));
    }
    Ok(())
}

fn folders_without_permission(room: &Room) -> Done {
    let batch = room.batch("batch", "empty");
    for mode in [0, 0o444, 0o222] {
        set_mode(&batch, mode);
        command_as_another(room, "audit")?
            .arg(&batch)
            .end()
            .could_not("");
        command_as_another(room, "audit")?
            .arg("--missing-as-empty")
            .arg(&batch)
            .end()
            .could_not("");
    }
    set_mode(&batch, 0o755);
    audit(&batch).is(3);
    Ok(())
}

/// Places that another user may not write to, for what record and audit-all make.
fn places_without_permission(room: &Room) -> Done {
    let (batch, spool) = (
        room.batch("batch", "case-c"),
        room.spool("spool", "case-c", 1),
    );
    let place = room.folder("place");
    set_mode(&place, 0o555);
    command_as_another(room, "record")?
        .arg(&batch)
        .arg(place.join("out"))
        .end()
        .could_not("");
    command_as_another(room, "audit-all")?
        .arg(&spool)
        .arg(place.join("results"))
        .end()
        .could_not("");
    assert!(names_in(&place).is_empty(), "nothing is made");
    set_mode(&place, 0o755);
    Ok(())
}
