//! tools/install PREFIX: what it puts there works without the sources, without rt, and with an empty environment, whatever
//! the name of PREFIX, and below DESTDIR.

use crate::arguments::COMMANDS;
use crate::harness::{tests, Done};
use crate::launcher::with_rt;
use crate::library::check_example;
use crate::room::{check_recorded, example, expected, read, root, Room};
use crate::run::{is_there, shell, Ended, Run, PROGRAM};
use std::collections::BTreeSet;
use std::path::Path;
use std::process::Command;
use std::time::Duration;

tests![
    what_is_installed,
    a_prefix_with_blanks,
    a_prefix_that_pkg_config_cannot_name,
    below_destdir,
];

/// Runs the tool, which may build first.
fn install(prefix: &Path, destdir: Option<&Path>) -> Ended {
    let mut install = Command::new(root().join("tools/install"));
    install.arg(prefix).env_remove("DESTDIR");
    install.envs(destdir.map(|folder| ("DESTDIR", folder)));
    install.end_within(Duration::from_secs(300))
}

/// One test, since installing takes a while.
fn what_is_installed(room: &Room) -> Done {
    let _one = with_rt()?;
    let prefix = room.path("prefix");
    install(&prefix, None).is(0);
    check_programs(room, &prefix);
    check_library(room, &prefix);
    check_binding(room, &prefix);
    check_manual(&prefix.join("share/man/man1/teaselshears.1"));
    for (file, source) in [
        (
            "share/bash-completion/completions/teaselshears",
            "cli/teaselshears.bash",
        ),
        ("share/doc/teaselshears/FORMATS.md", "docs/FORMATS.md"),
        ("share/doc/teaselshears/CHANGELOG.md", "CHANGELOG.md"),
    ] {
        let same = read(prefix.join(file)) == read(root().join(source));
        assert!(same, "{file} is {source}");
    }
    Ok(())
}

fn a_prefix_with_blanks(room: &Room) -> Done {
    let _one = with_rt()?;
    let prefix = room.path("with  two blanks");
    install(&prefix, None).is(0);
    check_library(room, &prefix);
    check_binding(room, &prefix);
    Ok(())
}

fn a_prefix_that_pkg_config_cannot_name(room: &Room) -> Done {
    let _one = with_rt()?;
    for name in ["a#b", "a$b", "a\"b", "a\\b", "a(b", "a\nb"] {
        let prefix = room.path(name);
        install(&prefix, None).is(2).printed("");
        assert!(!prefix.exists(), "{name:?} is not made");
    }
    Ok(())
}

/// The files go below it, and name their places as they are without it.
fn below_destdir(room: &Room) -> Done {
    let _one = with_rt()?;
    let (stage, prefix) = (room.path("stage"), room.path("later"));
    install(&prefix, Some(&stage)).is(0);
    assert!(!prefix.exists(), "nothing is put at the place itself");
    let staged = stage.join(prefix.strip_prefix("/").unwrap());
    check_programs(room, &staged);
    let named = read(staged.join("lib/pkgconfig/teaselshears.pc"));
    let line = format!("prefix={}\n", prefix.display());
    assert!(String::from_utf8(named).unwrap().starts_with(&line));
    // Put at its place it works, as a package does.
    std::fs::rename(&staged, &prefix).unwrap();
    check_library(room, &prefix);
    let relative = install(Path::new("later"), Some(&room.path("other")));
    relative.is(2).printed("");
    assert!(!room.path("other").exists() && !room.path("otherlater").exists());
    Ok(())
}

fn check_programs(room: &Room, prefix: &Path) {
    let (path, out) = (prefix.join("bin/teaselshears"), room.path("out"));
    let program = |command: &str| {
        let mut program = Command::new(&path);
        program.arg(command).env_clear().current_dir("/");
        program
    };
    for (name, status) in [("case-c", 0), ("case-b", 1)] {
        let ended = program("audit").arg(example(name)).end();
        ended.is(status).printed(expected(name));
    }
    let own = Command::new(PROGRAM).arg("--version").end();
    program("--version").end().is(0).printed(&own.stdout);
    let ended = program("record").arg(example("case-c")).arg(&out).end();
    ended.is(0).printed("verdict=0\nline=0\n");
    check_recorded("case-c", &out);
    for (command, name) in [
        ("audit", "case-b"),
        ("record", "refused-13-schedule-unreadable"),
    ] {
        let mut proved = Command::new(prefix.join("libexec/teaselshears").join(command));
        let ended = proved.current_dir(example(name)).env_clear().end();
        ended.is(0).printed(expected(name));
    }
}

/// Library and header are found by pkg-config, and a program in C is built with what it says.
fn check_library(room: &Room, prefix: &Path) {
    for file in [
        "lib/libteaselshears.a",
        "include/teaselshears.h",
        "lib/pkgconfig/teaselshears.pc",
    ] {
        assert!(prefix.join(file).is_file(), "{file}");
    }
    if !is_there("pkg-config") || !is_there("cc") {
        println!("        what pkg-config says is not tried: it or cc is not installed");
        return;
    }
    let program = room.path("example");
    // By itself, so that no header of the sources is found beside it.
    let source = room.file("example.c", read(root().join("crates/export/example.c")));
    let script = r#"options=$(pkg-config --cflags --libs teaselshears) && eval "cc \"\$1\" $options -o \"\$2\"""#;
    let mut cc = shell(script);
    cc.arg(source).arg(&program);
    cc.env("PKG_CONFIG_PATH", prefix.join("lib/pkgconfig"))
        .end()
        .is(0);
    check_example(&program);
}

/// The library for Rust is included by its path.
fn check_binding(room: &Room, prefix: &Path) {
    if !is_there("rustc") {
        println!("        the library for Rust is not tried: rustc is not installed");
        return;
    }
    let binding = prefix.join("share/teaselshears/teaselshears.rs");
    let example = String::from_utf8(read(root().join("crates/export/example.rs"))).unwrap();
    let included = format!("#[path = {binding:?}]\nmod teaselshears;");
    let source = room.file(
        "example.rs",
        example.replace("mod teaselshears;", &included),
    );
    let program = room.path("example-rs");
    let mut rustc = Command::new("rustc");
    rustc.args(["--edition", "2021", "-l", "static=teaselshears", "-L"]);
    rustc.arg(prefix.join("lib")).arg(source);
    rustc.arg("-o").arg(&program).end().is(0);
    check_example(&program);
}

/// The options that the help texts name.
fn options() -> BTreeSet<String> {
    let mut helps = vec![Command::new(PROGRAM).arg("--help").end()];
    helps.extend(COMMANDS.map(|command| Command::new(PROGRAM).args([command, "--help"]).end()));
    let text: String = helps.iter().map(|help| help.is(0).text()).collect();
    let words = text.split(|c: char| !c.is_ascii_alphanumeric() && c != '-');
    let is_option =
        |word: &&str| word.starts_with('-') && word.bytes().any(|b| b.is_ascii_alphanumeric());
    words.filter(is_option).map(String::from).collect()
}

/// The manual names every option and command, and groff has nothing to say of it.
fn check_manual(page: &Path) {
    let text = String::from_utf8(read(page)).unwrap().replace("\\-", "-");
    let options = options();
    assert!(
        options.contains("--missing-as-empty") && options.len() >= 8,
        "{options:?}"
    );
    for name in options.iter().map(String::as_str).chain(COMMANDS) {
        let mut words = text.split(|c: char| !c.is_ascii_alphanumeric() && c != '-');
        // A font change may stand before the word: \fB-0.
        assert!(
            words.any(|word| word == name || word.ends_with(&format!("fB{name}"))),
            "{name} is in the manual"
        );
    }
    if !is_there("groff") {
        println!("        the manual is not set: groff is not installed");
        return;
    }
    let ended = Command::new("groff")
        .args(["-man", "-Tutf8", "-ww", "-z"])
        .arg(page)
        .end();
    assert!(ended.is(0).stderr.is_empty(), "{ended}");
}
