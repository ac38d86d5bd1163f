//! tools/teaselshears, the bash script that runs the program from the sources: the same for every environment and from every
//! place, and what the sources say, whatever the times of files are and whatever was left there.

use crate::harness::{tests, Done, Skipped};
use crate::room::{copy_folder, example, expected, names_in, read, root, Room};
use crate::run::{is_there, needs, shell, Ended, Run, PROGRAM};
use std::fs::{self, File, Permissions};
use std::os::unix::fs::{symlink, MetadataExt, PermissionsExt};
use std::path::{Path, PathBuf};
use std::process::Command;
use std::sync::{Mutex, MutexGuard, PoisonError};
use std::thread;
use std::time::{Duration, SystemTime};

tests![
    a_library_written_over,
    the_launcher_whatever_the_environment,
    a_source_with_an_older_time,
    a_program_written_over,
    files_above_the_repository,
    how_far_the_proofs_are,
    a_launcher_that_cannot_build,
    every_tool_says_what_it_does,
];

/// The first call may prove and build.
const LIMIT: Duration = Duration::from_secs(300);

/// Held by a test for as long as it runs what calls rt: two of them at once in one repository undo one another's work.
pub fn with_rt() -> Result<MutexGuard<'static, ()>, Skipped> {
    static ONE_AT_A_TIME: Mutex<()> = Mutex::new(());
    needs("rt")?;
    // A test that failed has left nothing half done here.
    Ok(ONE_AT_A_TIME.lock().unwrap_or_else(PoisonError::into_inner))
}

fn launcher() -> PathBuf {
    root().join("tools/teaselshears")
}

/// The launcher, changed by `change`, gives the verdicts of an accepted and of a refused batch.
#[track_caller]
fn check_same(what: &str, launcher: &Path, change: impl Fn(&mut Command)) {
    for (name, status) in [("case-c", 0), ("case-b", 1)] {
        let mut command = Command::new(launcher);
        command.arg("audit").arg(example(name));
        change(&mut command);
        let ended = command.end_within(LIMIT);
        assert_eq!(ended.status.code(), Some(status), "{what}; {ended}");
        assert_eq!(ended.stdout, expected(name), "{what}; {ended}");
    }
}

/// A folder of false commands, each of which says so and ends in status 0.
fn false_commands(room: &Room) -> PathBuf {
    let folder = room.folder("false");
    for name in [
        "rt",
        "cargo",
        "rustc",
        "dirname",
        "readlink",
        "realpath",
        "env",
        "bash",
        "sh",
        "cat",
        "teaselshears",
    ] {
        let path = folder.join(name);
        fs::write(&path, "#!/bin/sh\necho 'verdict=0'\nexit 0\n").unwrap();
        fs::set_permissions(path, Permissions::from_mode(0o755)).unwrap();
    }
    folder
}

/// Variables that bash itself heeds, each with a value that would let a refused batch end in status 0.
fn variables(room: &Room) -> Vec<(&'static str, String)> {
    let script = room
        .file("script", "echo verdict=0\nexit 0\n")
        .to_str()
        .unwrap()
        .to_string();
    let commands = false_commands(room).to_str().unwrap().to_string();
    let function = || "() { echo verdict=0; exit 0; }".to_string();
    vec![
        ("SHELLOPTS", "noexec".into()),
        ("SHELLOPTS", "xtrace".into()),
        ("PS4", "$(echo verdict=0)".into()),
        ("BASH_ENV", script.clone()),
        ("ENV", script),
        ("BASHOPTS", "dotglob:extdebug:nullglob".into()),
        ("CDPATH", commands.clone()),
        ("IFS", "/e".into()),
        ("POSIXLY_CORRECT", "1".into()),
        ("BASH_FUNC_rt%%", function()),
        ("BASH_FUNC_cargo%%", function()),
        ("BASH_FUNC_dirname%%", function()),
        ("BASH_FUNC_cd%%", function()),
        ("BASH_FUNC_exec%%", function()),
        ("BASH_FUNC_set%%", function()),
        ("BASH_FUNC_[%%", function()),
        (
            "PATH",
            format!("{commands}:{}", std::env::var("PATH").unwrap_or_default()),
        ),
        ("PATH", commands),
    ]
}

/// Which file the program is, and from when: another where it was built again.
fn built() -> (u64, i64, i64) {
    let about = fs::metadata(PROGRAM).unwrap();
    (about.ino(), about.mtime(), about.mtime_nsec())
}

/// One test, since every call waits for the same locks of rt and cargo.
fn the_launcher_whatever_the_environment(room: &Room) -> Done {
    let (_one, launcher) = (with_rt()?, launcher());
    let before = built();
    check_same("the environment as it is", &launcher, |_| {});
    for (name, value) in variables(room) {
        check_same(&format!("{name}={value}"), &launcher, |command| {
            command.env(name, &value);
        });
    }
    check_same("another working directory", &launcher, |command| {
        command.current_dir("/");
    });
    let link = room.path("link");
    symlink(&launcher, &link).unwrap();
    check_same("a symbolic link", &link, |command| {
        command.current_dir(room.path(""));
    });
    // A link to a link, by a relative name.
    symlink("link", room.path("second")).unwrap();
    check_same("two symbolic links", Path::new("./second"), |command| {
        command.current_dir(room.path(""));
    });
    assert_eq!(
        built(),
        before,
        "the program that the tests were built with"
    );
    Ok(())
}

/// A copy of what the launcher needs of the repository, with what was built there, so that it is not done again. What the kit
/// keeps of the proofs stays behind, since it is large; other tests may call rt meanwhile, where all is up to date.
fn copy(room: &Room) -> Result<PathBuf, Skipped> {
    needs("rt")?;
    let to = room.folder("above/copy");
    let script = r#"cd "$1" && tar -cf - --exclude='crates/*/out' tools cli crates crates.txt \
        target/staticlib target/cli/release/teaselshears* | tar -xf - -C "$2""#;
    let mut copied = shell(script);
    copied.arg(root()).arg(&to).end().is(0);
    Ok(to)
}

fn launch(copy: &Path) -> Ended {
    let mut command = Command::new(copy.join("tools/teaselshears"));
    command.arg("--help").end_within(LIMIT)
}

/// The program that runs is the one whose help has this name.
#[track_caller]
fn check_runs(copy: &Path, name: &str) {
    let ended = launch(copy);
    let text = ended.is(0).text();
    assert_eq!(text.split_whitespace().nth(1), Some(name), "{ended}");
}

/// Gives the program another name in its help, which is what the repository has but for that.
fn edit(copy: &Path, name: &str) -> PathBuf {
    let text = String::from_utf8(read(root().join("cli/src/help.rs"))).unwrap();
    let edited = text.replace(
        "usage: teaselshears COMMAND",
        &format!("usage: {name} COMMAND"),
    );
    assert_ne!(edited, text, "the help of the program is in help.rs");
    let path = copy.join("cli/src/help.rs");
    fs::write(&path, edited).unwrap();
    path
}

/// Gives a file a time from before everything that was built.
fn make_older(path: &Path) {
    let file = File::options().write(true).open(path).unwrap();
    let long_ago = SystemTime::UNIX_EPOCH + Duration::from_secs(1_000_000_000);
    file.set_modified(long_ago).unwrap();
}

fn a_source_with_an_older_time(room: &Room) -> Done {
    let copy = copy(room)?;
    check_runs(&copy, "teaselshears");
    make_older(&edit(&copy, "edited"));
    check_runs(&copy, "edited");
    let source = copy.join("cli/src/help.rs");
    fs::write(&source, "this is no Rust").unwrap();
    make_older(&source);
    let ended = launch(&copy);
    ended.is(2).printed("");
    let said = String::from_utf8_lossy(&ended.stderr);
    assert!(said.contains("teaselshears: could not be run: "), "{ended}");
    Ok(())
}

/// Two calls at once both run what the sources say.
fn a_program_written_over(room: &Room) -> Done {
    let copy = copy(room)?;
    check_runs(&copy, "teaselshears");
    let program = copy.join("target/cli/release/teaselshears");
    fs::write(&program, "#!/bin/sh\necho usage: another\n").unwrap();
    thread::scope(|scope| {
        let second = scope.spawn(|| launch(&copy));
        check_runs(&copy, "teaselshears");
        let text = second.join().unwrap().is(0).text();
        assert!(text.starts_with("usage: teaselshears "), "{text}");
    });
    Ok(())
}

/// What cargo and rustup would heed in the folders above the program, and in its own: another place for what is built, a compiler
/// that is not there, and a workspace that it is no part of.
fn files_above_the_repository(room: &Room) -> Done {
    let copy = copy(room)?;
    check_runs(&copy, "teaselshears");
    room.folder("above/.cargo");
    let config = "[build]\ntarget = \"x86_64-unknown-linux-gnu\"\nrustc-wrapper = \"false\"\n";
    room.file("above/.cargo/config.toml", config);
    room.file("above/Cargo.toml", "[workspace]\n");
    for place in ["above", "above/copy", "above/copy/cli"] {
        let channel = "[toolchain]\nchannel = \"1.0.0-none\"\n";
        room.file(&format!("{place}/rust-toolchain.toml"), channel);
    }
    check_runs(&copy, "teaselshears");
    edit(&copy, "edited");
    check_runs(&copy, "edited");
    Ok(())
}

/// The library is made anew where it is not what was built. The libraries below it are taken as they were proved.
fn a_library_written_over(room: &Room) -> Done {
    let copy = copy(room)?;
    let script = r#"cd "$1" && for built in crates/*/out/rlib; do
        ! [ -d "$built" ] || cp -a --parents "$built" "$2" || exit; done"#;
    shell(script).arg(root()).arg(&copy).end().is(0);
    let library = copy.join("target/staticlib/libexport.a");
    let own = read(&library);
    fs::write(&library, "!<arch>\n").unwrap();
    let mut tool = Command::new(copy.join("tools/library"));
    tool.end_within(LIMIT).is(0);
    assert!(read(&library) == own, "the library is what it was");
    Ok(())
}

/// The tool with two crates of its own, which nobody has proved: in these words, that is.
fn two_crates(room: &Room) -> PathBuf {
    for (folder, library) in [
        ("low", "pub fn least(a: u64, b: u64) -> u64 {\n    if a < b { a } else { b }\n}"),
        (
            "export",
            "#[unsafe(no_mangle)]\npub extern \"C\" fn least(a: u64) -> u64 {\n    low::least(a, 7)\n}",
        ),
    ] {
        room.folder(&format!("crates/{folder}/src"));
        let head = format!("// {}, {:?}", room.path("").display(), SystemTime::now());
        let text = format!("{head}\n#![tactic(auto)]\n\n{library}\n");
        room.file(&format!("crates/{folder}/src/lib.rt"), text);
    }
    room.file("crates.txt", "low:\nexport staticlib: low\n");
    room.folder("tools");
    let tool = room.path("tools/library");
    fs::copy(root().join("tools/library"), &tool).unwrap();
    tool
}

/// While a crate is proved it is told, in lines or in the one line of a terminal; and nothing where all is up to date.
fn how_far_the_proofs_are(room: &Room) -> Done {
    needs("rt")?;
    let tool = two_crates(room);
    let said = Command::new(&tool).end_within(LIMIT).is(0).said();
    let words = ["crate low proved in ", " s: 1 of 2, ", " s so far"];
    assert!(words.iter().all(|word| said[0].contains(word)), "{said:?}");
    let words = ["crate export proved in ", " s: 2 of 2, ", " s so far"];
    assert!(words.iter().all(|word| said[1].contains(word)), "{said:?}");
    assert_eq!(said.len(), 2, "{said:?}");
    let quiet = Command::new(&tool).end_within(LIMIT);
    assert!(quiet.is(0).stderr.is_empty(), "{quiet}");
    if !is_there("script") {
        println!("        the line of a terminal is not tried: script is not installed");
        return Ok(());
    }
    let on_terminal = || {
        let mut script = Command::new("script");
        script.args(["-qec", tool.to_str().unwrap(), "/dev/null"]);
        script.end_within(LIMIT).is(0).text()
    };
    assert_eq!(on_terminal(), "");
    // It takes longer than a second, after which the line is written.
    let source = room.path("crates/export/src/lib.rt");
    let text = String::from_utf8(read(&source)).unwrap();
    fs::write(&source, text.replace("a, 7", "a, 8")).unwrap();
    let text = on_terminal();
    assert!(text.contains(" s; next export\x1b[K"), "{text:?}");
    assert!(!text.contains('\n'), "one line: {text:?}");
    assert!(text.ends_with("\r\x1b[K"), "taken away again: {text:?}");
    Ok(())
}

/// Where the sources cannot be proved, a program that lies there from before is not run.
fn a_launcher_that_cannot_build(room: &Room) -> Done {
    needs("rt")?;
    copy_folder(&root().join("tools"), &room.folder("copy/tools"));
    for name in names_in(&room.path("copy/tools")) {
        let path = room.path("copy/tools").join(name);
        fs::set_permissions(path, Permissions::from_mode(0o755)).unwrap();
    }
    let older = false_commands(room).join("teaselshears");
    room.folder("copy/target/cli/release");
    fs::copy(older, room.path("copy/target/cli/release/teaselshears")).unwrap();
    let mut command = Command::new("bash");
    command.arg("-p").arg(room.path("copy/tools/teaselshears"));
    let ended = command
        .arg("audit")
        .arg(example("case-c"))
        .end_within(LIMIT);
    ended.is(2).printed("");
    let said = String::from_utf8_lossy(&ended.stderr);
    assert!(said.contains("teaselshears: could not be run: "), "{ended}");
    Ok(())
}

/// Who asks what a tool does is told so, at once and with nothing else done.
fn every_tool_says_what_it_does(_: &Room) -> Done {
    let _rt = with_rt()?;
    let tools = root().join("tools");
    // The launcher builds what has changed before it asks the program.
    Command::new(launcher())
        .arg("--help")
        .end_within(LIMIT)
        .is(0);
    for name in names_in(&tools) {
        for option in ["--help", "-h"] {
            let ended = Command::new(tools.join(&name))
                .arg(option)
                .end_within(Duration::from_secs(5));
            assert_eq!(ended.status.code(), Some(0), "{name:?} {option}; {ended}");
            assert!(
                ended.text().starts_with("usage: "),
                "{name:?} {option}; {ended}"
            );
        }
    }
    Ok(())
}
