//! The library of the proved functions, as programs in C, C++ and Rust use it.

use crate::harness::{skip, tests, Done, Skipped};
use crate::room::{read, root, Room};
use crate::run::{needs, Run};
use std::path::{Path, PathBuf};
use std::process::Command;

tests![
    an_example_in_c,
    an_example_in_cpp,
    an_example_in_rust,
    a_caller_for_fewer_numbers,
    the_header_alone,
    one_version_in_the_sources,
    one_version_in_c,
];

fn folder() -> PathBuf {
    root().join("crates/export")
}

fn built() -> Result<PathBuf, Skipped> {
    let library = root().join("target/staticlib/libexport.a");
    if !library.exists() {
        return skip("target/staticlib/libexport.a is not there");
    }
    Ok(library)
}

/// The example runs, and says that something is accepted.
#[track_caller]
pub fn check_example(program: &Path) {
    let ended = Command::new(program).end();
    let text = ended.is(0).text();
    assert!(text.contains("verdict=0\nline=0\n"), "{ended}");
}

fn an_example_in_c(room: &Room) -> Done {
    needs("cc")?;
    let (library, program) = (built()?, room.path("example"));
    let mut cc = Command::new("cc");
    cc.args(["-std=c99", "-Wall", "-Wextra", "-Werror", "-pedantic", "-I"])
        .arg(folder());
    cc.arg(folder().join("example.c"))
        .arg(library)
        .arg("-o")
        .arg(&program)
        .end()
        .is(0);
    check_example(&program);
    Ok(())
}

fn an_example_in_cpp(room: &Room) -> Done {
    needs("g++")?;
    let (library, program) = (built()?, room.path("example"));
    let mut cc = Command::new("g++");
    cc.args(["-Wall", "-Wextra", "-Werror", "-I"])
        .arg(folder())
        .args(["-x", "c++"]);
    cc.arg(folder().join("example.c"))
        .args(["-x", "none"])
        .arg(library);
    cc.arg("-o").arg(&program).end().is(0);
    check_example(&program);
    Ok(())
}

fn an_example_in_rust(room: &Room) -> Done {
    needs("rustc")?;
    let (library, program) = (built()?, room.path("example"));
    let mut rustc = Command::new("rustc");
    rustc.args([
        "--edition",
        "2021",
        "-D",
        "warnings",
        "-l",
        "static=export",
        "-L",
    ]);
    rustc
        .arg(library.parent().unwrap())
        .arg(folder().join("example.rs"));
    rustc.arg("-o").arg(&program).end().is(0);
    check_example(&program);
    Ok(())
}

/// Looks at what the audit answers to a caller that knows of four numbers, of five with the order, with slices as long and longer.
const EARLIER_CALLER: &str = r#"
#include "teaselshears.h"

int main(void) {
    const uint8_t nothing[1] = {0};
    uint64_t out[8], order[2];
    size_t i;
    for (i = 0; i < 8; i++)
        out[i] = 7;
    if (teaselshears_audit(nothing, 0, nothing, 0, nothing, 0, out, 4) != 0)
        return 1;
    if (teaselshears_order(nothing, 0, nothing, 0, nothing, 0, out, 5, order, 2) != 0)
        return 2;
    for (i = 0; i < 8; i++)
        if (out[i] != 7)
            return 3;
    if (teaselshears_audit(nothing, 0, nothing, 0, nothing, 0, out, 8) != 6)
        return 4;
    return teaselshears_order(nothing, 0, nothing, 0, nothing, 0, out, 8, order, 2) != 7 ? 5 : 0;
}
"#;

/// A caller that was compiled before there were blocks and rest never gets the answer that it looks for.
fn a_caller_for_fewer_numbers(room: &Room) -> Done {
    needs("cc")?;
    let (library, program) = (built()?, room.path("earlier"));
    let source = room.file("earlier.c", EARLIER_CALLER);
    let mut cc = Command::new("cc");
    cc.args(["-std=c99", "-Wall", "-Wextra", "-Werror", "-I"])
        .arg(folder());
    cc.arg(source).arg(library).arg("-o").arg(&program);
    cc.end().is(0);
    Command::new(&program).end().is(0);
    Ok(())
}

/// The header stands by itself in both languages, and has the numbers of the verdicts, of which none is 15.
fn the_header_alone(room: &Room) -> Done {
    needs("cc")?;
    needs("g++")?;
    let source = "#include \"teaselshears.h\"\n#include \"teaselshears.h\"\n";
    for (compiler, language) in [("cc", "c"), ("g++", "c++")] {
        let file = room.file("header.c", source);
        let mut compiler = Command::new(compiler);
        compiler.args([
            "-x",
            language,
            "-Wall",
            "-Wextra",
            "-Werror",
            "-fsyntax-only",
            "-I",
        ]);
        compiler.arg(folder()).arg(file).end().is(0);
    }
    let header = String::from_utf8(read(folder().join("teaselshears.h"))).unwrap();
    assert!(header.contains("extern \"C\""));
    for verdict in 0..=16 {
        let ends = |line: &str| {
            line.split_whitespace()
                .any(|w| w.trim_end_matches(',') == verdict.to_string())
        };
        let named = |line: &str| line.contains("TEASELSHEARS_") && ends(line);
        assert_eq!(
            header.lines().any(named),
            verdict != 15,
            "a constant for verdict {verdict}"
        );
    }
    Ok(())
}

/// The program's version as one number: major * 1000000 + minor * 1000 + patch.
fn version_number() -> u64 {
    let parts = env!("CARGO_PKG_VERSION").split('.');
    let parts: Vec<u64> = parts.map(|part| part.parse().unwrap()).collect();
    let [major, minor, patch] = parts[..] else {
        panic!("{parts:?} are not three numbers");
    };
    assert!(minor < 1_000 && patch < 1_000, "{parts:?}");
    major * 1_000_000 + minor * 1_000 + patch
}

/// Header and binding say the program's version, each once.
fn one_version_in_the_sources(_: &Room) -> Done {
    let (version, number) = (env!("CARGO_PKG_VERSION"), version_number());
    for (file, name, value) in [
        (
            "teaselshears.h",
            "#define TEASELSHEARS_VERSION ",
            format!("\"{version}\""),
        ),
        (
            "teaselshears.h",
            "#define TEASELSHEARS_VERSION_NUMBER ",
            format!("{number}"),
        ),
        (
            "teaselshears.rs",
            "pub const VERSION: u64 = ",
            format!("{number};"),
        ),
    ] {
        let text = String::from_utf8(read(folder().join(file))).unwrap();
        let values = text.lines().filter_map(|line| line.strip_prefix(name));
        assert_eq!(values.collect::<Vec<_>>(), [value], "{file}: {name}");
    }
    Ok(())
}

/// Prints the header's version, its number, and what the library answers. The preprocessor has to understand the number too.
const VERSION_CALLER: &str = r#"
#include "teaselshears.h"
#include <stdio.h>

#if TEASELSHEARS_VERSION_NUMBER < 6001
#error "a version from before there was a number"
#endif

int main(void) {
    printf("%s\n%d\n", TEASELSHEARS_VERSION, TEASELSHEARS_VERSION_NUMBER);
    printf("%llu\n", (unsigned long long)teaselshears_version());
    return teaselshears_version() == TEASELSHEARS_VERSION_NUMBER ? 0 : 1;
}
"#;

/// The header's version, its number and the library's answer are those of the program, as a caller in C gets them.
fn one_version_in_c(room: &Room) -> Done {
    needs("cc")?;
    let (library, program) = (built()?, room.path("version"));
    let source = room.file("version.c", VERSION_CALLER);
    let mut cc = Command::new("cc");
    cc.args(["-std=c99", "-Wall", "-Wextra", "-Werror", "-pedantic", "-I"])
        .arg(folder());
    cc.arg(source).arg(library).arg("-o").arg(&program);
    cc.end().is(0);
    let (version, number) = (env!("CARGO_PKG_VERSION"), version_number());
    let printed = format!("{version}\n{number}\n{number}\n");
    Command::new(&program).end().is(0).printed(printed);
    Ok(())
}
