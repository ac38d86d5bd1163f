//! Batches on both sides of every limit.

use super::{accepted, batch, refused, Case, WRITES};
use crate::texts::{BatchTexts, TEXT_LIMIT};

const REPLIES: &str = "program=0\ndo=0,0,0,0\n";
const ANSWERED: &str = "request=1,0,0,0\nresponse=1,0,0\n";

pub fn limits() -> Vec<Case> {
    let mut cases = counts();
    cases.extend(instructions());
    cases.extend(lengths());
    cases.extend(numbers());
    cases.extend(ranges());
    cases
}

fn counts() -> Vec<Case> {
    let full = requests(64);
    let with = |trace: &str, report: &str| BatchTexts {
        programs: full.programs.clone(),
        trace: [&full.trace, trace.as_bytes()].concat(),
        report: [&full.report, report.as_bytes()].concat(),
    };
    vec![
        accepted("64 requests", requests(64), [64, 0, 0, 0]),
        refused("65 requests", requests(65), 3, 65),
        refused("65 responses", with("response=0,0,7\n", ""), 3, 129),
        refused("65 of lines", with("", "of=0,0,0\n"), 5, 65),
        accepted("1,024 log lines", operations(0), [32, 1_024, 10, 24]),
        refused("1,025 log lines", operations(1), 5, 32 + 1_025),
        accepted(
            "16 programs",
            batch(&programs(16, 1), ANSWERED, "of=1,0,0\n"),
            [1, 0, 0, 0],
        ),
        refused("17 programs", batch(&programs(17, 1), "x", "x"), 1, 33),
        accepted(
            "64 instructions",
            batch(&programs(1, 64), ANSWERED, "of=1,0,0\n"),
            [1, 0, 0, 0],
        ),
        refused("65 instructions", batch(&programs(1, 65), "x", "x"), 1, 66),
    ]
}

fn instructions() -> Vec<Case> {
    vec![
        accepted(
            "reply as 256th instruction",
            rounds(126, "0,0"),
            [1, 0, 0, 0],
        ),
        refused("reply as 257th instruction", rounds(127, "0,0"), 11, 1),
        accepted("cut off before the 257th", rounds(127, "1,0"), [1, 0, 0, 0]),
        refused("cut off too early", rounds(126, "1,0"), 11, 1),
        accepted(
            "128 operations, the last the 256th",
            writes(128),
            [1, 128, 1, 28],
        ),
        refused("a 129th operation behind the cut", writes(129), 10, 1),
    ]
}

fn lengths() -> Vec<Case> {
    let full = |line: &str, length| line.repeat(length)[..length].to_string();
    let repeated = "request=1,0,0,0\n";
    vec![
        refused(
            "programs of 65,535 bytes",
            batch(&long_programs(), "x", "x"),
            2,
            2,
        ),
        refused(
            "programs of 65,536 bytes",
            batch(&full("x", 65_536), "x", "x"),
            1,
            0,
        ),
        refused(
            "a trace of 65,535 bytes",
            batch(REPLIES, &full(repeated, 65_535), "x"),
            3,
            65,
        ),
        refused(
            "a trace of 65,536 bytes",
            batch(REPLIES, &full(repeated, 65_536), "x"),
            3,
            0,
        ),
        refused(
            "a report of 65,535 bytes",
            batch(REPLIES, ANSWERED, &full("\n", 65_535)),
            5,
            1,
        ),
        refused(
            "a report of 65,536 bytes",
            batch(REPLIES, ANSWERED, &full("\n", 65_536)),
            5,
            0,
        ),
    ]
}

/// Programs of the greatest length that are readable; their fields break the rules.
fn long_programs() -> String {
    let program = |number| format!("program={number}\n{}", instruction(67).repeat(64));
    let whole: String = (0..16).map(program).collect();
    let least = instruction(11).len();
    let end = whole[..TEXT_LIMIT - least]
        .rfind('\n')
        .map_or(0, |feed| feed + 1);
    let front = &whole[..end];
    format!("{front}{}", instruction(TEXT_LIMIT - end))
}

/// An instruction line of this length, 11 to 87 bytes: four numbers share its digits.
fn instruction(length: usize) -> String {
    let digits = length - "do=,,,\n".len();
    let number = |place| format!("1{}", "0".repeat((digits + place) / 4 - 1));
    let [a, b, c, d] = [0, 1, 2, 3].map(number);
    format!("do={a},{b},{c},{d}\n")
}

fn numbers() -> Vec<Case> {
    vec![
        accepted("0 minus 1", minus("18446744073709551615"), [1, 0, 0, 0]),
        refused("0 minus 1 is not 0", minus("0"), 11, 1),
        refused("2^64 is no number", minus("18446744073709551616"), 3, 2),
        refused("20 digits above 2^64", minus("99999999999999999999"), 3, 2),
        refused("21 digits", minus("184467440737095516150"), 3, 2),
        refused("10^20", minus("100000000000000000000"), 3, 2),
        refused("40 digits", minus(&"9".repeat(40)), 3, 2),
        refused("a leading zero", minus("018446744073709551615"), 3, 2),
        refused("two zeros", minus("00"), 3, 2),
        refused("an empty field", minus(""), 3, 2),
        refused("a sign", minus("+1"), 3, 2),
        refused("a blank", minus(" 1"), 3, 2),
    ]
}

/// The highest number of every range, and the one above it.
fn ranges() -> Vec<Case> {
    let trace = |text: &str| batch(REPLIES, text, "x");
    let report = |text: &str| batch(REPLIES, ANSWERED, text);
    let two = "request=65535,0,0,18446744073709551615\nresponse=65535,0,0\n";
    vec![
        accepted(
            "rid 65,535, group 63",
            batch(REPLIES, two, "of=65535,63,0\n"),
            [1, 0, 0, 0],
        ),
        refused("rid 65,536", trace("request=65536,0,0,0\n"), 3, 1),
        refused(
            "rid 65,536 of a response",
            trace("response=65536,0,0\n"),
            3,
            1,
        ),
        refused("status 2", trace("response=1,2,0\n"), 3, 1),
        refused(
            "program 2^64 - 1",
            trace("request=1,18446744073709551615,0,0\n"),
            4,
            1,
        ),
        refused(
            "input 2^64",
            trace("request=1,0,18446744073709551616,0\n"),
            3,
            1,
        ),
        refused("group 64", report("of=1,64,0\n"), 5, 1),
        refused("count 256", report("of=1,0,256\n"), 8, 1),
        refused("count 257", report("of=1,0,257\n"), 5, 1),
        refused("rid 65,536 of an of line", report("of=65536,0,0\n"), 5, 1),
        refused("object 15", report("of=1,0,1\nlog=15,1,1,9,0,0\n"), 10, 1),
        refused("object 16", report("of=1,0,1\nlog=16,1,1,9,0,0\n"), 5, 2),
        refused("num 256", report("of=1,0,1\nlog=0,1,256,7,0,0\n"), 7, 2),
        refused("num 257", report("of=1,0,1\nlog=0,1,257,7,0,0\n"), 5, 2),
        refused("kind 5", report("of=1,0,1\nlog=0,1,1,5,0,0\n"), 5, 2),
        refused("kind 6", report("of=1,0,1\nlog=0,1,1,6,0,0\n"), 10, 1),
        refused("kind 10", report("of=1,0,1\nlog=0,1,1,10,0,0\n"), 10, 1),
        refused(
            "key 2^64 - 1",
            report("of=1,0,1\nlog=8,1,1,9,18446744073709551615,0\n"),
            10,
            1,
        ),
        refused(
            "key 2^64",
            report("of=1,0,1\nlog=8,1,1,9,18446744073709551616,0\n"),
            5,
            2,
        ),
        refused("no line feed at the end", report("of=1,0,0"), 5, 1),
        refused("an empty line", report("of=1,0,0\n\n"), 5, 2),
        refused("a carriage return", report("of=1,0,0\r\n"), 5, 1),
        refused(
            "an of line behind a log line",
            report("of=1,0,0\nlog=0,1,1,7,0,0\nof=2,0,0\n"),
            5,
            3,
        ),
        refused(
            "a program rule",
            batch("program=0\ndo=18446744073709551615,0,0,0\n", "x", "x"),
            2,
            2,
        ),
        refused(
            "an empty program",
            batch("program=0\nprogram=1\ndo=0,0,0,0\n", "x", "x"),
            2,
            1,
        ),
        refused(
            "a wrong last code",
            batch("program=0\ndo=0,0,0,0\ndo=1,0,0,0\n", "x", "x"),
            2,
            3,
        ),
        refused(
            "a target behind the end",
            batch("program=0\ndo=5,0,2,0\ndo=0,0,0,0\n", "x", "x"),
            2,
            2,
        ),
        refused(
            "do before any program",
            batch("do=0,0,0,0\n", "x", "x"),
            1,
            1,
        ),
    ]
}

/// So many programs of so many instructions, the last a reply.
fn programs(count: usize, instructions: usize) -> String {
    let before = "do=1,2,0,0\n".repeat(instructions - 1);
    let program = |number| format!("program={number}\n{before}do=0,0,0,0\n");
    (0..count).map(program).collect()
}

/// A request that writes register 0 at every second instruction until it is cut off, with so many lines.
fn writes(lines: usize) -> BatchTexts {
    let line = |num| format!("log=0,1,{num},7,0,1\n");
    let log: String = (1..=lines).map(line).collect();
    batch(
        WRITES,
        "request=1,0,0,0\nresponse=1,1,0\n",
        &format!("of=1,0,{lines}\n{log}"),
    )
}

/// So many requests that reply at once; all arrive before the first is answered.
fn requests(count: usize) -> BatchTexts {
    let lines = |write: &dyn Fn(usize) -> String| (0..count).map(write).collect::<String>();
    let trace = lines(&|rid| format!("request={rid},0,7,0\n"))
        + &lines(&|rid| format!("response={rid},0,7\n"));
    let report = lines(&|rid| format!("of={rid},{},0\n", rid.min(63)));
    batch("program=0\ndo=0,0,0,0\n", &trace, &report)
}

/// Thirty-two requests one after the other, with 32 writes each in the log of register 0, and so many log
/// lines more behind them.
fn operations(more: usize) -> BatchTexts {
    let programs = format!("program=0\n{}do=0,0,0,0\n", "do=7,0,0,0\n".repeat(32));
    let (mut trace, mut of, mut log) = (String::new(), String::new(), String::new());
    for rid in 0..32 {
        trace += &format!("request={rid},0,{rid},0\nresponse={rid},0,{rid}\n");
        of += &format!("of={rid},0,32\n");
        for num in 1..=32 {
            log += &format!("log=0,{rid},{num},7,0,{rid}\n");
        }
    }
    log += &"log=0,0,1,7,0,0\n".repeat(more);
    batch(&programs, &trace, &(of + &log))
}

/// A request that counts down so many rounds: 3 instructions before, 2 for each round, 1 reply.
fn rounds(count: usize, response: &str) -> BatchTexts {
    batch(
        "program=0\ndo=1,2,1,0\ndo=1,3,0,0\ndo=1,3,0,0\ndo=3,0,0,2\ndo=5,0,3,0\ndo=0,0,0,0\n",
        &format!("request=1,0,{count},0\nresponse=1,{response}\n"),
        "of=1,0,0\n",
    )
}

/// The difference of the inputs 0 and 1, answered with this value.
fn minus(value: &str) -> BatchTexts {
    batch(
        "program=0\ndo=3,2,0,1\ndo=0,2,0,0\n",
        &format!("request=1,0,0,1\nresponse=1,0,{value}\n"),
        "of=1,0,0\n",
    )
}
