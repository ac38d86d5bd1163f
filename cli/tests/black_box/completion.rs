//! The completion for bash, cli/teaselshears.bash: what it offers at each place of a command line.

use crate::harness::{tests, Done};
use crate::room::{root, Room};
use crate::run::{program, Run};
use std::collections::BTreeSet;
use std::path::Path;
use std::process::Command;

tests![
    the_commands,
    the_options_of_every_command,
    the_options_are_those_of_the_help,
    the_values_of_options,
    the_arguments_that_are_words,
    folders,
];

/// Calls the function as bash does, and prints what it offers, each ended by a zero byte.
const COMPLETE: &str = r#"
source "$1" && shift && COMP_WORDS=("$@") && COMP_CWORD=$(($# - 1)) && _teaselshears &&
    [ "${#COMPREPLY[@]}" -eq 0 ] || printf '%s\0' "${COMPREPLY[@]}"
"#;

const STATES: &str = "accepted empty open refused changed outdated damaged failed waiting";
const LISTED: &str = "empty open refused changed outdated damaged failed";
const VERDICTS: &str = "0 1 2 3 4 5 6 7 8 9 10 11 12 13 14 16";

/// Each command with its options.
const OPTIONS: [(&str, &str); 6] = [
    (
        "audit",
        "--json --brief --complete --missing-as-empty -0 --null -h --help",
    ),
    ("order", "--complete --missing-as-empty -h --help"),
    ("record", "--missing-as-empty -h --help"),
    (
        "audit-all",
        "-j --jobs --json --brief --list --complete -0 --null -h --help",
    ),
    (
        "results",
        "--since --state --verdict --complete --json --brief -h --help",
    ),
    ("explain", "-h --help"),
];

/// What is offered in a folder for the last of these words, which stand behind `teaselshears`.
#[track_caller]
fn offered_in(folder: &Path, words: &[&str]) -> BTreeSet<String> {
    let mut bash = Command::new("bash");
    bash.args(["--norc", "-c", COMPLETE, "bash"])
        .arg(root().join("cli/teaselshears.bash"))
        .arg("teaselshears")
        .args(words);
    let ended = bash.current_dir(folder).end();
    assert!(ended.is(0).stderr.is_empty(), "{words:?}; {ended}");
    let text = ended.text();
    text.split_terminator('\0').map(String::from).collect()
}

/// Just these are offered, in a folder that has folders of its own.
#[track_caller]
fn check(room: &Room, words: &[&str], offered: &str) {
    let expected = offered.split_whitespace().map(String::from).collect();
    let folder = room.folder("folder");
    room.folder("folder/batch");
    assert_eq!(offered_in(&folder, words), expected, "{words:?}");
}

fn the_commands(room: &Room) -> Done {
    let commands = "audit order record audit-all results explain help";
    let options = "-h --help -V --version";
    check(room, &[""], &format!("{commands} {options}"));
    check(room, &["a"], "audit audit-all");
    check(room, &["re"], "record results");
    check(room, &["-"], options);
    check(room, &["unknown", ""], "");
    Ok(())
}

fn the_options_of_every_command(room: &Room) -> Done {
    for (command, options) in OPTIONS {
        check(room, &[command, "-"], options);
        check(room, &[command, "batch", "-"], options);
    }
    check(room, &["audit", "--j"], "--json");
    // Behind '--' everything is an argument.
    check(room, &["audit", "--", "-"], "");
    Ok(())
}

/// The long options of a help text: those at the start of the lines that tell of options.
fn long_options(help: &str) -> BTreeSet<String> {
    let lines = help.lines().map(str::trim_start);
    let options = lines.filter(|line| line.starts_with('-'));
    // What they mean stands behind two blanks.
    let names = options.filter_map(|line| line.split("  ").next());
    let words = names.flat_map(|names| names.split([' ', ',']));
    let long = words.filter(|word| word.starts_with("--"));
    long.map(String::from).collect()
}

fn the_options_are_those_of_the_help(room: &Room) -> Done {
    for (command, _) in OPTIONS {
        let help = program(command).arg("--help").end().is(0).text();
        let mut offered = offered_in(&room.path(""), &[command, "-"]);
        offered.retain(|word| word.starts_with("--"));
        assert_eq!(offered, long_options(&help), "{command}");
    }
    Ok(())
}

fn the_values_of_options(room: &Room) -> Done {
    check(room, &["audit-all", "--list", ""], LISTED);
    check(room, &["audit-all", "--list", "re"], "refused");
    // Bash splits at the sign.
    check(room, &["audit-all", "--list", "=", "re"], "refused");
    check(room, &["audit-all", "--list", "="], LISTED);
    check(room, &["results", "--state", ""], STATES);
    check(room, &["results", "--verdict", ""], VERDICTS);
    for (command, option) in [
        ("audit-all", "--jobs"),
        ("audit-all", "-j"),
        ("results", "--since"),
    ] {
        check(room, &[command, option, ""], "");
    }
    // A value is no argument.
    check(
        room,
        &["audit-all", "-j", "3", "--list", "open", "b"],
        "batch",
    );
    Ok(())
}

fn the_arguments_that_are_words(room: &Room) -> Done {
    check(room, &["explain", ""], VERDICTS);
    check(room, &["explain", "1"], "1 10 11 12 13 14 16");
    check(room, &["explain", "1", ""], "");
    let commands = OPTIONS.map(|(command, _)| command).join(" ");
    check(room, &["help", ""], &commands);
    check(room, &["help", "audit", ""], "");
    Ok(())
}

/// As many as the command takes, each as one word whatever its name has; no files.
fn folders(room: &Room) -> Done {
    let at = room.folder("at");
    for name in ["one", "with a blank", "with 'a' $quote"] {
        room.folder(&format!("at/{name}/below"));
    }
    room.file("at/file", "");
    let all = ["one", "with 'a' $quote", "with a blank"].map(String::from);
    for (command, most) in [
        ("audit", 9),
        ("order", 1),
        ("record", 2),
        ("audit-all", 2),
        ("results", 1),
    ] {
        for given in 0..=most {
            let mut words = vec![command];
            words.extend(vec!["one"; given]);
            words.push("");
            let several = given < most || command == "audit";
            let expected = BTreeSet::from(all.clone()).into_iter().filter(|_| several);
            assert_eq!(offered_in(&at, &words), expected.collect(), "{words:?}");
        }
    }
    let below = BTreeSet::from(["with a blank/below".to_string()]);
    assert_eq!(offered_in(&at, &["audit", "with a blank/"]), below);
    assert_eq!(offered_in(&at, &["audit", "--", "with a blank/"]), below);
    Ok(())
}
