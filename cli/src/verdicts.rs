//! The verdicts: what each number means, an example, what to do next, and how a verdict stands in what was printed.

use crate::texts::Text;

/// A verdict's row in the scope's table, and what staff do about it.
pub struct Verdict {
    pub number: u64,
    pub rule: &'static str,
    /// The text that its line belongs to.
    pub text: Option<Text>,
    pub example: &'static str,
    pub next: &'static str,
}

/// The verdict of a number.
pub fn verdict(number: u64) -> Option<&'static Verdict> {
    VERDICTS.iter().find(|verdict| verdict.number == number)
}

pub fn rule(number: u64) -> &'static str {
    verdict(number).map_or("a verdict that this program does not know", |verdict| {
        verdict.rule
    })
}

pub fn text(number: u64) -> Option<Text> {
    verdict(number).and_then(|verdict| verdict.text)
}

const VERDICT_LINES: [&str; 6] = [
    "verdict=",
    "line=",
    "requests=",
    "operations=",
    "blocks=",
    "rest=",
];

/// What an audit found, as its verdict lines say it.
#[derive(Clone, Copy, Debug, PartialEq, Eq)]
pub struct Audited {
    pub verdict: u64,
    pub line: u64,
    pub requests: u64,
    pub operations: u64,
    pub bill: Bill,
}

/// Operations by the hundred, as they are charged: whole hundreds, and what is left over.
#[derive(Clone, Copy, Debug, PartialEq, Eq)]
pub struct Bill {
    pub blocks: u64,
    pub rest: u64,
}

impl Bill {
    fn of(operations: u64) -> Bill {
        Bill {
            blocks: operations / 100,
            rest: operations % 100,
        }
    }
}

impl Audited {
    /// Reads the verdict lines in front of what an audit printed, and gives what stands behind them with it. The bill is read and
    /// not made: one that does not add up is no bill.
    pub fn read(printed: &[u8]) -> Option<(Audited, &[u8])> {
        let ([verdict, line, requests, operations, blocks, rest], behind) =
            numbers(printed, VERDICT_LINES)?;
        let bill = Bill { blocks, rest };
        let audited = Audited {
            verdict,
            line,
            requests,
            operations,
            bill,
        };
        // An accepted batch names no line, and of a refused one nothing is counted.
        let holds = match verdict {
            0 => line == 0,
            _ => requests == 0 && operations == 0,
        };
        (holds && bill == Bill::of(operations)).then_some((audited, behind))
    }
}

/// The numbers of the lines with these words, in this order, in front of what was printed; and what stands behind them.
pub fn numbers<'a, const N: usize>(
    printed: &'a [u8],
    words: [&str; N],
) -> Option<([u64; N], &'a [u8])> {
    let mut found = [0; N];
    let mut rest = printed;
    for (place, word) in found.iter_mut().zip(words) {
        let end = rest.iter().position(|byte| *byte == b'\n')?;
        *place = number(rest[..end].strip_prefix(word.as_bytes())?)?;
        rest = &rest[end + 1..];
    }
    Some((found, rest))
}

/// A number in its one spelling.
pub fn number(digits: &[u8]) -> Option<u64> {
    let number: u64 = std::str::from_utf8(digits).ok()?.parse().ok()?;
    (number.to_string().as_bytes() == digits).then_some(number)
}

const UNREADABLE: &str = "Look at the line that is named: its form, the range of each number and how many lines of its kind \
there may be stand in FORMATS.md. Where the file was sent or copied, send it again whole and unchanged; editors and mail \
programs change line ends.";

const HOST_AT_FAULT: &str = "Keep the lane and the three files. The report does not fit what the recorder saw: ask the hosting \
firm for its log of this batch, and audit what it sends as a new batch.";

const VERDICTS: [Verdict; 16] = [
    Verdict {
        number: 0,
        rule: "accepted",
        text: None,
        example: "three empty texts",
        next: "Look at the counts: they are those of the batch you meant. A request left open never got its response: see that \
the trace goes on to the end of the batch, and see to the instrument that lost power. A batch with no request in it is \
accepted too, and ends in status 3: see where its texts went. On status 0 the lane may be wiped.",
    },
    Verdict {
        number: 1,
        rule: "programs unreadable",
        text: Some(Text::Programs),
        example: "programs `do=1,2`: line 1",
        next: UNREADABLE,
    },
    Verdict {
        number: 2,
        rule: "a program rule broken",
        text: Some(Text::Programs),
        example: "programs `program=0`, `do=0,8,0,0`: line 2, since there is no local 8",
        next: "Hold the line against the table of codes in FORMATS.md, and give the programs that the host really ran.",
    },
    Verdict {
        number: 3,
        rule: "trace unreadable",
        text: Some(Text::Trace),
        example: "trace `request=01,0,0,0`: line 1",
        next: UNREADABLE,
    },
    Verdict {
        number: 4,
        rule: "rid used twice, unknown program, response with no open request",
        text: Some(Text::Trace),
        example: "trace `response=1,0,0`: line 1",
        next: "Keep the lane. The recorder's trace does not hold together: see that it is the whole trace of one batch, begun \
before its first request.",
    },
    Verdict {
        number: 5,
        rule: "report unreadable",
        text: Some(Text::Report),
        example: "report `of=1,0`: line 1",
        next: UNREADABLE,
    },
    Verdict {
        number: 6,
        rule: "`of` lines are not one per request in arrival order",
        text: Some(Text::Report),
        example: "request 1 in the trace, and an empty report: line 1, the one after the last `of`",
        next: HOST_AT_FAULT,
    },
    Verdict {
        number: 7,
        rule: "log line's rid unknown, num 0 or above count, or claimed before",
        text: Some(Text::Report),
        example: "report `of=1,0,0`, `log=0,1,1,7,0,1`: line 2, since request 1 has no operation",
        next: HOST_AT_FAULT,
    },
    Verdict {
        number: 8,
        rule: "an operation within the count has no log line",
        text: Some(Text::Report),
        example: "report `of=1,0,1` alone: line 1",
        next: HOST_AT_FAULT,
    },
    Verdict {
        number: 9,
        rule: "the order returns to itself",
        text: None,
        example: "case B (examples/case-b): each request writes, then reads, and by the logs each read before the other wrote",
        next: HOST_AT_FAULT,
    },
    Verdict {
        number: 10,
        rule: "operation or count differs",
        text: Some(Text::Report),
        example: "case C with 2 as the first log value: line 1, the `of` line of the request that differs; a log line that does \
not show the value read (examples/refused-10-read-not-shown), or shows a key as held that was never put \
(examples/refused-10-well-never-filled), is a 10 too, and so is an open request whose program has fewer operations than its \
`of` counts (examples/refused-10-open-request)",
        next: HOST_AT_FAULT,
    },
    Verdict {
        number: 11,
        rule: "status or value differs",
        text: Some(Text::Report),
        example: "case C with `response=2,0,5`: line 2, the `of` line of request 2",
        next: HOST_AT_FAULT,
    },
    Verdict {
        number: 12,
        rule: "path differs in a group",
        text: Some(Text::Report),
        example: "case C with `of=2,0,2`: line 2, since request 2 did not go the way of request 1",
        next: HOST_AT_FAULT,
    },
    Verdict {
        number: 13,
        rule: "schedule unreadable",
        text: Some(Text::Schedule),
        example: "schedule `turn=1,`: line 1",
        next: UNREADABLE,
    },
    Verdict {
        number: 14,
        rule: "rid arrives twice, unknown program, turn of a rid not arrived, a 1,025th operation",
        text: Some(Text::Schedule),
        example: "schedule `turn=1`: line 1",
        next: "Mend the schedule at the line that is named.",
    },
    Verdict {
        number: 16,
        rule: "a lent buffer is too short for its text",
        text: None,
        example: "case C's schedule with 10 bytes for the trace (from C or Rust; this program's buffers are never too short)",
        next: "Lend a buffer of 65,535 bytes for each text.",
    },
];

#[cfg(test)]
mod tests {
    use super::*;

    const LINES: &str = "verdict=0\nline=0\nrequests=2\noperations=304\nblocks=3\nrest=4\n";

    #[test]
    fn verdict_lines_are_read_with_what_stands_behind_them() {
        let printed = format!("{LINES}event=1\n");
        let audited = Audited {
            verdict: 0,
            line: 0,
            requests: 2,
            operations: 304,
            bill: Bill { blocks: 3, rest: 4 },
        };
        let read = Audited::read(printed.as_bytes());
        assert_eq!(read, Some((audited, &b"event=1\n"[..])));
    }

    #[test]
    fn verdict_lines_are_read_or_not_at_all() {
        for (lines, wrong) in [
            (LINES, ""),
            ("rest=4\n", "rest=4"),
            ("rest=4\n", ""),
            ("blocks=3\n", ""),
            ("blocks=3\nrest=4\n", ""),
            ("blocks=3\nrest=4\n", "rest=4\nblocks=3\n"),
            ("blocks=3\nrest=4\n", "blocks=4\nrest=3\n"),
            ("blocks=3\n", "blocks=03\n"),
            ("blocks=3\n", "blocks=3 \n"),
            ("rest=4\n", "rest=04\n"),
            ("rest=4\n", "rest=+4\n"),
            ("rest=4\n", "rest=\n"),
            ("line=0\n", "line=1\n"),
            ("line=0\n", ""),
            ("verdict=0\n", "verdict=00\n"),
            ("verdict=0\n", "verdict=+0\n"),
            ("verdict=0\n", "verdict=\n"),
            ("verdict=0\n", "verdict=-1\n"),
            ("verdict=0\n", "verdict=0 \n"),
            ("verdict=0\n", " verdict=0\n"),
            ("verdict=0\n", "verdict=18446744073709551616\n"),
        ] {
            let printed = LINES.replace(lines, wrong);
            assert_eq!(Audited::read(printed.as_bytes()), None, "{printed}");
        }
    }

    #[test]
    fn a_bill_adds_up_or_is_not_read() {
        let read = |operations: u64, blocks: u64, rest: u64| {
            let front = format!("verdict=0\nline=0\nrequests=1\noperations={operations}\n");
            let printed = format!("{front}blocks={blocks}\nrest={rest}\n");
            Audited::read(printed.as_bytes()).map(|(audited, _)| audited.bill)
        };
        for (operations, blocks, rest) in [
            (0, 0, 0),
            (4, 0, 4),
            (99, 0, 99),
            (100, 1, 0),
            (101, 1, 1),
            (1_024, 10, 24),
            (u64::MAX, 184_467_440_737_095_516, 15),
        ] {
            let bill = Bill { blocks, rest };
            assert_eq!(read(operations, blocks, rest), Some(bill));
        }
        for (operations, blocks, rest) in [
            (0, 0, 1),
            (0, 1, 0),
            (4, 0, 3),
            (4, 4, 0),
            (100, 0, 100),
            (104, 0, 104),
            (200, 1, 100),
            // A hundred times 2^62 is 0 modulo 2^64.
            (4, 1 << 62, 4),
            (u64::MAX, 0, u64::MAX),
            (u64::MAX, u64::MAX, u64::MAX),
            (u64::MAX, 184_467_440_737_095_517, 15),
        ] {
            let read = read(operations, blocks, rest);
            assert_eq!(read, None, "{operations}, {blocks}, {rest}");
        }
    }

    #[test]
    fn a_refusal_counts_nothing() {
        let read = |lines: &str| {
            let printed = format!("verdict=9\nline=0\n{lines}");
            Audited::read(printed.as_bytes()).map(|(audited, _)| audited.bill)
        };
        let bill = Bill { blocks: 0, rest: 0 };
        assert_eq!(
            read("requests=0\noperations=0\nblocks=0\nrest=0\n"),
            Some(bill)
        );
        for lines in [
            "requests=0\noperations=4\nblocks=0\nrest=4\n",
            "requests=2\noperations=0\nblocks=0\nrest=0\n",
            "requests=0\noperations=0\nblocks=0\nrest=4\n",
            "requests=0\noperations=0\nblocks=1\nrest=0\n",
            "requests=0\noperations=0\n",
        ] {
            assert_eq!(read(lines), None, "{lines}");
        }
    }

    #[test]
    fn a_verdict_is_found_by_its_number() {
        let numbers: Vec<u64> = (0..=20).filter(|n| verdict(*n).is_some()).collect();
        let wanted: Vec<u64> = (0..=14).chain([16]).collect();
        assert_eq!(numbers, wanted);
        assert_eq!(rule(15), "a verdict that this program does not know");
        assert_eq!(rule(16), "a lent buffer is too short for its text");
    }

    #[test]
    fn the_rules_are_those_of_the_document() {
        let path = concat!(env!("CARGO_MANIFEST_DIR"), "/../docs/FORMATS.md");
        let document = std::fs::read_to_string(path).unwrap();
        for Verdict { number, rule, .. } in &VERDICTS {
            let row = format!("\n| {number} | {rule}");
            assert!(document.contains(&row), "{number}");
        }
        assert!(!document.contains("\n| 15 |"), "there is none");
    }
}
