//! `explain`, and what the program says of itself: version, library and kit, the same wherever they stand.

use crate::harness::{tests, Done};
use crate::json::{only_object, text};
use crate::room::{example, read, root, Room};
use crate::run::{audit_all, needs, program, Ended, Run, PROGRAM};
use std::collections::BTreeSet;
use std::process::Command;

tests![
    explain_every_verdict,
    explain_nothing_else,
    version_in_three_lines,
    version_names_the_library_that_was_proved,
    version_in_results_and_json,
    version_first_in_the_changelog,
];

fn explain(verdict: &str) -> Ended {
    program("explain").arg(verdict).end()
}

fn explain_every_verdict(_: &Room) -> Done {
    let mut texts = BTreeSet::new();
    for verdict in (0..=14).chain([16]) {
        let ended = explain(&verdict.to_string());
        let text = ended.is(0).text();
        let mut words = text.split(|c: char| !c.is_alphanumeric());
        assert!(
            words.any(|word| word == verdict.to_string()),
            "it names {verdict}: {text}"
        );
        assert!(
            text.lines().count() >= 3 && text.ends_with('\n'),
            "rule, example and advice: {text}"
        );
        assert!(ended.said().is_empty(), "{ended}");
        texts.insert(text);
    }
    assert_eq!(texts.len(), 16, "each says something of its own");
    Ok(())
}

fn explain_nothing_else(_: &Room) -> Done {
    for word in [
        "15",
        "17",
        "99",
        "accepted",
        "1x",
        " 1",
        "+1",
        "1.0",
        "0x1",
        "18446744073709551616",
        "verdict=1",
    ] {
        explain(word).does_not_take(word.trim());
    }
    // A dash begins an option, which there is none of.
    explain("-1").does_not_take("-1");
    program("explain")
        .args(["--", "-1"])
        .end()
        .does_not_take("-1");
    Ok(())
}

/// The three lines of --version.
fn version() -> Vec<String> {
    let ended = Command::new(PROGRAM).arg("--version").end();
    assert!(ended.is(0).said().is_empty(), "{ended}");
    Command::new(PROGRAM)
        .arg("-V")
        .end()
        .is(0)
        .printed(&ended.stdout);
    let lines: Vec<String> = ended.text().lines().map(String::from).collect();
    assert_eq!(lines.len(), 3, "{ended}");
    lines
}

/// The sum of the library: 64 hexadecimal digits, in the second line.
fn library() -> String {
    let line = version().remove(1);
    let is_sum = |word: &&str| word.len() == 64 && word.bytes().all(|b| b.is_ascii_hexdigit());
    let mut words = line.split(|c: char| !c.is_ascii_alphanumeric());
    words
        .find(is_sum)
        .unwrap_or_else(|| panic!("no sum: {line}"))
        .to_string()
}

fn version_in_three_lines(_: &Room) -> Done {
    let lines = version();
    assert!(lines[0].starts_with("teaselshears "), "{lines:?}");
    assert!(lines[0].contains(env!("CARGO_PKG_VERSION")), "{lines:?}");
    assert_eq!(library().len(), 64);
    assert!(!lines[2].trim().is_empty(), "{lines:?}");
    Ok(())
}

/// The sum is that of the sources as they stand, counted anew.
fn version_names_the_library_that_was_proved(_: &Room) -> Done {
    needs("rt")?;
    let mut tool = Command::new(root().join("tools/library"));
    let sum = tool.arg("--sum").end().is(0).text();
    assert_eq!(library(), sum.trim());
    Ok(())
}

/// The value of a line of a result's `about`.
pub fn about(lines: &[u8], key: &str) -> String {
    let lines = String::from_utf8_lossy(lines).into_owned();
    let mut pairs = lines.lines().filter_map(|line| line.split_once('='));
    let found = pairs.find(|(name, _)| *name == key);
    found
        .unwrap_or_else(|| panic!("no {key}: {lines}"))
        .1
        .to_string()
}

fn version_in_results_and_json(room: &Room) -> Done {
    let (spool, results) = (room.spool("spool", "case-c", 1), room.path("results"));
    audit_all(&spool, &results).is(0);
    let kept = read(results.join("batches/batch-1/about"));
    let object = only_object(
        &program("audit")
            .arg("--json")
            .arg(example("case-b"))
            .end()
            .is(1)
            .stdout,
    );
    let lines = version();
    for (key, line) in ["version", "library", "kit"].into_iter().zip(&lines) {
        let value = about(&kept, key);
        assert!(
            !value.is_empty() && line.contains(&value),
            "{key} is {value}: {lines:?}"
        );
        assert_eq!(object[key], text(&value));
    }
    assert_eq!(about(&kept, "library"), library());
    Ok(())
}

/// The entries of CHANGELOG.md go from this version down, each once.
fn version_first_in_the_changelog(_: &Room) -> Done {
    let text = String::from_utf8(read(root().join("CHANGELOG.md"))).unwrap();
    let headings = text.lines().filter_map(|line| line.strip_prefix("## "));
    let versions: Vec<&str> = headings.filter_map(|h| h.split(' ').next()).collect();
    assert_eq!(versions.first(), Some(&env!("CARGO_PKG_VERSION")));
    let numbers = |version: &&str| {
        version
            .split('.')
            .map(|n| n.parse::<u64>().unwrap())
            .collect()
    };
    let numbers: Vec<Vec<u64>> = versions.iter().map(numbers).collect();
    assert!(
        numbers.windows(2).all(|pair| pair[0] > pair[1]),
        "{versions:?}"
    );
    Ok(())
}
