//! Nothing in the environment changes a verdict, a status or what is printed.

use crate::harness::{skip, tests, Done, Skipped};
use crate::results::check_all_kept;
use crate::room::{check_recorded, example, expected, Room};
use crate::run::{needs, program, shell, Run, PROGRAM};
use std::ffi::OsStr;
use std::fs;
use std::path::PathBuf;
use std::process::Command;

tests![
    an_empty_environment,
    variables_of_the_system,
    variables_of_the_loader,
    variables_of_the_runtime,
    a_library_loaded_before_all_others,
    libraries_in_the_place_of_the_systems,
    a_small_stack,
    a_spool_with_a_small_stack,
];

/// An accepted and a refused batch give what they always give; the command is changed by `change` before it is run.
#[track_caller]
fn check_same(what: &str, change: impl Fn(&mut Command)) {
    for (name, status) in [("case-c", 0), ("case-b", 1)] {
        let mut audit = program("audit");
        audit.arg(example(name));
        change(&mut audit);
        let ended = audit.end();
        assert_eq!(ended.status.code(), Some(status), "{what}; {ended}");
        assert_eq!(ended.stdout, expected(name), "{what}; {ended}");
        let word = if status == 0 {
            "accepted: "
        } else {
            "refused, "
        };
        assert!(ended.sentence().starts_with(word), "{what}; {ended}");
    }
}

/// Each of these variables alone.
#[track_caller]
fn check_variables(variables: &[(&str, &str)]) {
    for (name, value) in variables {
        check_same(&format!("{name}={value}"), |command| {
            command.env(name, value);
        });
    }
}

fn an_empty_environment(room: &Room) -> Done {
    check_same("an empty environment", |command| {
        command.env_clear();
    });
    let out = room.path("out");
    let ended = program("record")
        .arg(example("case-c"))
        .arg(&out)
        .env_clear()
        .end();
    ended.is(0).printed("verdict=0\nline=0\n");
    let (spool, results) = (room.spool("spool", "case-c", 2), room.path("results"));
    program("audit-all")
        .arg(&spool)
        .arg(&results)
        .env_clear()
        .end()
        .is(0);
    check_all_kept(&spool, &results);
    Ok(())
}

fn variables_of_the_system(_: &Room) -> Done {
    check_variables(&[
        ("PATH", ""),
        ("HOME", "/nowhere"),
        ("TMPDIR", "/nowhere"),
        ("PWD", "/"),
        ("TZ", "Pacific/Kiritimati"),
        ("TZ", ":/dev/zero"),
        ("LANG", "de_DE.UTF-8"),
        ("LC_ALL", "tr_TR.UTF-8"),
        ("LANGUAGE", "xx"),
        ("TERM", "dumb"),
        ("COLUMNS", "1"),
        ("NO_COLOR", "1"),
        ("POSIXLY_CORRECT", "1"),
        ("SHELLOPTS", "noexec"),
        ("BASH_ENV", "/dev/zero"),
        ("CDPATH", "/"),
        ("IFS", "/"),
    ]);
    Ok(())
}

fn variables_of_the_loader(_: &Room) -> Done {
    check_variables(&[
        ("LD_TRACE_LOADED_OBJECTS", "1"),
        ("LD_SHOW_AUXV", "1"),
        ("LD_VERBOSE", "1"),
        ("LD_BIND_NOW", "1"),
        ("LD_DEBUG", "all"),
        ("LD_LIBRARY_PATH", "/nowhere"),
        ("LD_PRELOAD", "/nowhere.so"),
        (
            "GLIBC_TUNABLES",
            "glibc.malloc.check=3:glibc.pthread.stack_cache_size=0",
        ),
        ("MALLOC_PERTURB_", "255"),
        ("MALLOC_ARENA_MAX", "1"),
        ("MALLOC_TOP_PAD_", "1"),
    ]);
    Ok(())
}

fn variables_of_the_runtime(room: &Room) -> Done {
    let variables = [
        ("RUST_BACKTRACE", "full"),
        ("RUST_MIN_STACK", "1"),
        ("RUST_MIN_STACK", "999999999999999"),
        ("RUST_LOG", "trace"),
        ("RUST_TEST_THREADS", "0"),
    ];
    check_variables(&variables);
    let spool = room.spool("spool", "case-c", 5);
    for (number, (name, value)) in variables.into_iter().enumerate() {
        let results = room.path(&format!("results-{number}"));
        program("audit-all")
            .arg(&spool)
            .arg(&results)
            .env(name, value)
            .end()
            .is(0);
        check_all_kept(&spool, &results);
    }
    Ok(())
}

/// Functions in the place of the C library's: every status is 0, and every file is empty.
const REPLACED: &str = r#"
#include <stddef.h>
#include <sys/syscall.h>
#include <sys/types.h>
#include <unistd.h>
static void end(void) { for (;;) syscall(SYS_exit_group, 0); }
void exit(int status) { end(); }
void _exit(int status) { end(); }
void _Exit(int status) { end(); }
void quick_exit(int status) { end(); }
void exit_group(int status) { end(); }
void abort(void) { end(); }
ssize_t read(int file, void *bytes, size_t length) { return 0; }
ssize_t pread(int file, void *bytes, size_t length, off_t from) { return 0; }
ssize_t pread64(int file, void *bytes, size_t length, off_t from) { return 0; }
static int nothing(void) { return syscall(SYS_openat, -100, "/dev/null", 0); }
int open(const char *path, int flags, ...) { return nothing(); }
int open64(const char *path, int flags, ...) { return nothing(); }
int openat(int at, const char *path, int flags, ...) { return nothing(); }
int openat64(int at, const char *path, int flags, ...) { return nothing(); }
"#;

/// Ends every program in status 0 before it begins.
const ENDED: &str = r#"
#include <sys/syscall.h>
#include <unistd.h>
__attribute__((constructor)) static void end(void) { for (;;) syscall(SYS_exit_group, 0); }
"#;

/// A shared library of this source. A shell that is to end in status 1 shows that it works.
fn shared_library(room: &Room, name: &str, source: &str) -> Result<PathBuf, Skipped> {
    needs("cc")?;
    let (library, source) = (
        room.path(&format!("{name}.so")),
        room.file(&format!("{name}.c"), source),
    );
    let options = ["-shared", "-fPIC", "-w", "-fno-builtin", "-O1", "-o"];
    Command::new("cc")
        .args(options)
        .arg(&library)
        .arg(source)
        .end()
        .is(0);
    let shown = shell("exit 1").env("LD_PRELOAD", &library).end();
    if shown.status.code() != Some(0) {
        return skip("a library that is loaded first does nothing to sh");
    }
    Ok(library)
}

fn a_library_loaded_before_all_others(room: &Room) -> Done {
    for (name, source) in [("replaced", REPLACED), ("ended", ENDED)] {
        let library = shared_library(room, name, source)?;
        for variable in ["LD_PRELOAD", "LD_AUDIT"] {
            check_same(&format!("{variable}, {name}"), |command| {
                command.env(variable, &library);
            });
        }
    }
    Ok(())
}

fn libraries_in_the_place_of_the_systems(room: &Room) -> Done {
    let library = shared_library(room, "ended", ENDED)?;
    let folder = room.folder("libraries");
    let names = [
        "libc.so.6",
        "libgcc_s.so.1",
        "libm.so.6",
        "libpthread.so.0",
        "libdl.so.2",
        "libnss_files.so.2",
    ];
    for name in names {
        fs::copy(&library, folder.join(name)).unwrap();
    }
    check_same("LD_LIBRARY_PATH", |command| {
        command.env("LD_LIBRARY_PATH", &folder);
    });
    Ok(())
}

/// A script that runs the program with a stack of 64 KiB, far less than the proved functions take.
const SMALL_STACK: &str = "ulimit -s 64 && exec \"$@\"";

fn a_small_stack(room: &Room) -> Done {
    for (name, status) in [
        ("case-c", 0),
        ("case-b", 1),
        ("stores", 0),
        ("refused-12-path-in-group", 1),
    ] {
        let ended = shell(SMALL_STACK)
            .arg(PROGRAM)
            .arg("audit")
            .arg(example(name))
            .end();
        ended.is(status).printed(expected(name));
    }
    let out = room.path("out");
    let ended = shell(SMALL_STACK)
        .arg(PROGRAM)
        .arg("record")
        .arg(example("case-c"))
        .arg(&out)
        .end();
    ended.is(0).printed("verdict=0\nline=0\n");
    check_recorded("case-c", &out);
    Ok(())
}

fn a_spool_with_a_small_stack(room: &Room) -> Done {
    let (spool, results) = (room.spool("spool", "case-c", 20), room.path("results"));
    let arguments: [&OsStr; 5] = [
        PROGRAM.as_ref(),
        "audit-all".as_ref(),
        "--jobs=4".as_ref(),
        spool.as_ref(),
        results.as_ref(),
    ];
    shell(SMALL_STACK).args(arguments).end().is(0);
    check_all_kept(&spool, &results);
    Ok(())
}
