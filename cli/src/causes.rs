//! Why a verdict was given, in a few words, where its rule has several causes. The verdict and its line come from the
//! proved library and are taken as they are: this only finds which cause holds at that line.

use crate::formats::{fault, records, Record};
use crate::texts::{Text, Texts};

/// The cause of a verdict at a line; none where the verdict's rule says it all, or no cause is found.
pub fn cause(verdict: u64, line: u64, texts: &Texts) -> Option<String> {
    match verdict {
        1 => unreadable(Text::Programs, line, texts),
        3 => unreadable(Text::Trace, line, texts),
        4 => trace_cause(line, texts),
        5 => unreadable(Text::Report, line, texts),
        7 => claim_cause(line, texts),
        13 => unreadable(Text::Schedule, line, texts),
        14 => schedule_cause(line, texts),
        _ => None,
    }
}

fn unreadable(text: Text, line: u64, texts: &Texts) -> Option<String> {
    let fault = fault(text, texts.bytes(text), line)?;
    let name = text.file().trim_end_matches(".txt");
    Some(format!("{name} unreadable: {fault}"))
}

fn trace_cause(line: u64, texts: &Texts) -> Option<String> {
    let trace = records(Text::Trace, texts.bytes(Text::Trace));
    let (word, numbers) = at(&trace, line)?;
    match (word, numbers) {
        ("request", &[rid, prog, ..]) => {
            let first = first_of(&trace, "request", rid).filter(|first| *first < line);
            let twice = first.map(|first| format!("rid {rid} used twice, first on line {first}"));
            twice.or_else(|| unknown_program(prog, texts))
        }
        ("response", &[rid, ..]) => not_open(&trace, rid, line),
        _ => None,
    }
}

/// Why there is no open request with this rid at a line of the trace.
fn not_open(trace: &[Record], rid: u64, line: u64) -> Option<String> {
    let why = match first_of(trace, "request", rid) {
        None => format!("rid {rid} is never requested"),
        Some(request) if request > line => format!("rid {rid} is requested only on line {request}"),
        Some(_) => {
            let answer = first_of(trace, "response", rid).filter(|answer| *answer < line)?;
            format!("rid {rid} is already answered, on line {answer}")
        }
    };
    Some(format!("response with no open request: {why}"))
}

/// The programs are numbered from 0 on, by the rule of verdict 2, so their number says which there are.
fn unknown_program(prog: u64, texts: &Texts) -> Option<String> {
    let programs = records(Text::Programs, texts.bytes(Text::Programs));
    let count = programs
        .iter()
        .filter(|record| record.word == "program")
        .count() as u64;
    if prog < count {
        return None;
    }
    let known = match count {
        0 => "there is none".into(),
        1 => "there is only program 0".into(),
        _ => format!("there are programs 0 to {}", count - 1),
    };
    Some(format!("unknown program {prog}: {known}"))
}

fn claim_cause(line: u64, texts: &Texts) -> Option<String> {
    let report = records(Text::Report, texts.bytes(Text::Report));
    let ("log", &[_, rid, num, ..]) = at(&report, line)? else {
        return None;
    };
    let Some(count) = count_of(&report, rid) else {
        return Some(format!("rid {rid} unknown: no request has it"));
    };
    if num == 0 {
        return Some("operation number 0: numbers begin at 1".into());
    }
    if num > count {
        return Some(format!(
            "operation number {num} is above the count {count} of rid {rid}"
        ));
    }
    let before = first_claim(&report, rid, num).filter(|before| *before < line)?;
    Some(format!(
        "operation {num} of rid {rid} claimed before, by line {before}"
    ))
}

/// How many operations the report counts for a request.
fn count_of(report: &[Record], rid: u64) -> Option<u64> {
    report
        .iter()
        .find_map(|record| match (record.word, &record.numbers[..]) {
            ("of", &[of, _, count, ..]) if of == rid => Some(count),
            _ => None,
        })
}

/// The first line that claims an operation, in whichever object's log.
fn first_claim(report: &[Record], rid: u64, num: u64) -> Option<u64> {
    let claims =
        |record: &&Record| record.word == "log" && record.numbers.get(1..3) == Some(&[rid, num]);
    report.iter().find(claims).map(|record| record.line)
}

fn schedule_cause(line: u64, texts: &Texts) -> Option<String> {
    let schedule = records(Text::Schedule, texts.bytes(Text::Schedule));
    let (word, numbers) = at(&schedule, line)?;
    let &[rid, ..] = numbers else { return None };
    let arrival = first_of(&schedule, "arrive", rid);
    match (word, arrival, numbers) {
        ("arrive", Some(first), _) if first < line => {
            Some(format!("rid {rid} arrives twice, first on line {first}"))
        }
        ("arrive", _, &[_, prog, ..]) => unknown_program(prog, texts),
        ("turn", None, _) => Some(format!("turn of rid {rid}, which never arrives")),
        ("turn", Some(first), _) if first > line => Some(format!(
            "turn of rid {rid}, which arrives only on line {first}"
        )),
        // A turn of a request that has arrived has no other fault.
        ("turn", _, _) => Some("a 1,025th operation".into()),
        _ => None,
    }
}

/// The word and the numbers of a line.
fn at(records: &[Record], line: u64) -> Option<(&'static str, &[u64])> {
    let record = records.iter().find(|record| record.line == line)?;
    Some((record.word, &record.numbers))
}

/// The first line with this word whose first number is this rid.
fn first_of(records: &[Record], word: &str, rid: u64) -> Option<u64> {
    let found = records
        .iter()
        .find(|record| record.word == word && record.numbers.first() == Some(&rid));
    found.map(|record| record.line)
}

#[cfg(test)]
mod tests {
    use super::*;
    use std::fs;
    use std::path::{Path, PathBuf};

    const ALL: [Text; 4] = [Text::Programs, Text::Trace, Text::Report, Text::Schedule];
    /// The verdicts whose rule has several causes.
    const SEVERAL: [u64; 7] = [1, 3, 4, 5, 7, 13, 14];
    const TWO_PROGRAMS: &str = "program=0\ndo=0,0,0,0\nprogram=1\ndo=0,0,0,0\n";

    /// Two programs and one text more.
    fn with(text: Text, bytes: &str) -> Texts {
        Texts::of(vec![
            (Text::Programs, TWO_PROGRAMS.into()),
            (text, bytes.into()),
        ])
    }

    fn in_trace(line: u64, trace: &str) -> String {
        cause(4, line, &with(Text::Trace, trace)).unwrap_or_default()
    }

    fn in_report(line: u64, report: &str) -> String {
        cause(7, line, &with(Text::Report, report)).unwrap_or_default()
    }

    fn in_schedule(line: u64, schedule: &str) -> String {
        cause(14, line, &with(Text::Schedule, schedule)).unwrap_or_default()
    }

    #[test]
    fn an_unreadable_line_is_named_with_its_text() {
        let texts = with(Text::Trace, "request=01,0,0,0\n");
        let zero = "trace unreadable: the field rid has a leading zero";
        assert_eq!(cause(3, 1, &texts).as_deref(), Some(zero));
        let texts = Texts::of(vec![(Text::Report, vec![b'x'; 65_536])]);
        let long = "report unreadable: it has more than 65,535 bytes";
        assert_eq!(cause(5, 0, &texts).as_deref(), Some(long));
    }

    #[test]
    fn a_request_line_of_verdict_4() {
        let twice = "request=1,0,0,0\nresponse=1,0,0\nrequest=1,9,0,0\n";
        assert_eq!(in_trace(3, twice), "rid 1 used twice, first on line 1");
        let unknown = "request=1,2,0,0\n";
        assert_eq!(
            in_trace(1, unknown),
            "unknown program 2: there are programs 0 to 1"
        );
        // A request that is never answered is no fault.
        assert_eq!(in_trace(1, "request=1,0,0,0\n"), "");
    }

    #[test]
    fn the_programs_that_there_are() {
        let trace = || {
            (
                Text::Trace,
                b"request=1,18446744073709551615,0,0\n".to_vec(),
            )
        };
        let none = Texts::of(vec![trace()]);
        let unknown = "unknown program 18446744073709551615: there is none";
        assert_eq!(cause(4, 1, &none).as_deref(), Some(unknown));
        let one = Texts::of(vec![
            trace(),
            (Text::Programs, b"program=0\ndo=0,0,0,0\n".to_vec()),
        ]);
        let unknown = "unknown program 18446744073709551615: there is only program 0";
        assert_eq!(cause(4, 1, &one).as_deref(), Some(unknown));
    }

    #[test]
    fn a_response_line_of_verdict_4() {
        let none = "response with no open request: rid 1 is";
        assert_eq!(
            in_trace(1, "response=1,0,0\n"),
            format!("{none} never requested")
        );
        let early = "response=1,0,0\nrequest=1,0,0,0\n";
        assert_eq!(
            in_trace(1, early),
            format!("{none} requested only on line 2")
        );
        let again = "request=1,0,0,0\nresponse=1,0,0\nresponse=1,0,0\n";
        assert_eq!(
            in_trace(3, again),
            format!("{none} already answered, on line 2")
        );
        assert_eq!(in_trace(2, again), "");
    }

    #[test]
    fn a_log_line_of_verdict_7() {
        let report = |log: &str| format!("of=1,0,2\nof=2,1,0\n{log}\n");
        let at_3 = |log: &str| in_report(3, &report(log));
        assert_eq!(at_3("log=0,9,1,7,0,1"), "rid 9 unknown: no request has it");
        assert_eq!(
            at_3("log=0,1,0,7,0,1"),
            "operation number 0: numbers begin at 1"
        );
        assert_eq!(
            at_3("log=0,1,3,7,0,1"),
            "operation number 3 is above the count 2 of rid 1"
        );
        assert_eq!(at_3("log=0,1,2,7,0,1"), "");
        let before = report("log=0,1,2,7,0,1\nlog=0,1,1,7,0,1\nlog=8,1,2,9,5,1");
        assert_eq!(
            in_report(5, &before),
            "operation 2 of rid 1 claimed before, by line 3"
        );
        assert_eq!(in_report(1, &before), "");
    }

    #[test]
    fn a_schedule_line_of_verdict_14() {
        let twice = "arrive=1,0,0,0\narrive=1,9,0,0\n";
        assert_eq!(
            in_schedule(2, twice),
            "rid 1 arrives twice, first on line 1"
        );
        let unknown = "unknown program 7: there are programs 0 to 1";
        assert_eq!(in_schedule(1, "arrive=1,7,0,0\n"), unknown);
        assert_eq!(in_schedule(1, "arrive=1,1,0,0\n"), "");
        assert_eq!(
            in_schedule(1, "turn=1\n"),
            "turn of rid 1, which never arrives"
        );
        let early = "turn=1\narrive=1,0,0,0\n";
        assert_eq!(
            in_schedule(1, early),
            "turn of rid 1, which arrives only on line 2"
        );
        assert_eq!(
            in_schedule(2, "arrive=1,0,0,0\nturn=1\n"),
            "a 1,025th operation"
        );
    }

    fn examples_folder() -> PathBuf {
        Path::new(env!("CARGO_MANIFEST_DIR")).join("../examples")
    }

    /// The folders of examples, in order of their names.
    fn examples() -> Vec<PathBuf> {
        let entries = fs::read_dir(examples_folder()).expect("the examples are there");
        let mut folders: Vec<PathBuf> = entries.map(|entry| entry.unwrap().path()).collect();
        folders.sort();
        folders
    }

    fn texts_of(folder: &Path) -> Vec<(Text, Vec<u8>)> {
        let read = |text: Text| Some((text, fs::read(folder.join(text.file())).ok()?));
        ALL.into_iter().filter_map(read).collect()
    }

    /// Verdict and line as the example expects them.
    fn expected(folder: &Path) -> (u64, u64) {
        let lines = fs::read_to_string(folder.join("expected")).expect("each example has it");
        let number = |key| {
            lines
                .lines()
                .find_map(|line| line.strip_prefix(key)?.parse().ok())
        };
        (number("verdict=").unwrap(), number("line=").unwrap())
    }

    fn cause_of_example(folder: &Path) -> Option<String> {
        let (verdict, line) = expected(folder);
        cause(verdict, line, &Texts::of(texts_of(folder)))
    }

    #[test]
    fn the_examples_have_their_causes() {
        let causes = [
            (
                "01-programs-unreadable",
                "programs unreadable: 2 fields in place of 4: code, a, b, c",
            ),
            (
                "03-leading-zero",
                "trace unreadable: the field rid has a leading zero",
            ),
            (
                "04-response-without-request",
                "response with no open request: rid 1 is never requested",
            ),
            (
                "05-report-unreadable",
                "report unreadable: 2 fields in place of 3: rid, group, count",
            ),
            (
                "07-number-above-count",
                "operation number 1 is above the count 0 of rid 1",
            ),
            (
                "13-schedule-unreadable",
                "schedule unreadable: 2 fields in place of 1: rid",
            ),
            (
                "14-turn-before-arrival",
                "turn of rid 1, which never arrives",
            ),
        ];
        for (name, words) in causes {
            let folder = examples_folder().join(format!("refused-{name}"));
            assert_eq!(cause_of_example(&folder).as_deref(), Some(words));
        }
    }

    #[test]
    fn an_example_has_a_cause_where_its_rule_has_several() {
        for folder in examples() {
            let several = SEVERAL.contains(&expected(&folder).0);
            assert_eq!(cause_of_example(&folder).is_some(), several, "{folder:?}");
        }
    }

    /// Random numbers, the same in every run (xorshift).
    struct Random(u64);

    impl Random {
        fn below(&mut self, bound: usize) -> usize {
            self.0 ^= self.0 << 13;
            self.0 ^= self.0 >> 7;
            self.0 ^= self.0 << 17;
            (self.0 % bound as u64) as usize
        }

        /// A place in a text; its end is one too.
        fn place(&mut self, bytes: &[u8]) -> usize {
            self.below(bytes.len() + 1)
        }
    }

    const PIECES: [&[u8]; 16] = [
        b"\n",
        b"\r\n",
        b" ",
        b",",
        b"=",
        b"0",
        b"1",
        b"-",
        b"\xEF\xBB\xBF",
        b"\xFF",
        b"\0",
        b"18446744073709551616",
        b"99999999999999999999999",
        b"do=",
        b"log=0,1,1,7,0,1\n",
        b"turn=1\n",
    ];

    /// A piece put in, a stretch taken out, or a stretch repeated.
    fn mutate(random: &mut Random, bytes: &mut Vec<u8>) {
        let (one, other) = (random.place(bytes), random.place(bytes));
        let (start, end) = (one.min(other), one.max(other));
        match random.below(4) {
            0 => drop(bytes.drain(start..end.min(start + 9))),
            1 => bytes.extend_from_within(start..end),
            _ => drop(bytes.splice(one..one, PIECES[random.below(PIECES.len())].to_vec())),
        }
        bytes.truncate(3_000);
    }

    fn ask_all(texts: &Texts) {
        let feeds = |text| {
            texts
                .bytes(text)
                .iter()
                .filter(|byte| **byte == b'\n')
                .count() as u64
        };
        let most = ALL.map(feeds).into_iter().max().unwrap_or(0);
        let pairs = (0..=20).flat_map(|verdict| (0..=most + 3).map(move |line| (verdict, line)));
        for (verdict, line) in pairs.chain([(4, u64::MAX), (u64::MAX, 1)]) {
            let found = cause(verdict, line, texts);
            assert!(found.is_none() || SEVERAL.contains(&verdict));
            assert!(found.is_none_or(|words| words.is_ascii() && words.len() < 90));
        }
    }

    #[test]
    fn no_text_makes_it_panic() {
        let mut random = Random(0x9E37_79B9_7F4A_7C15);
        let originals: Vec<_> = examples().iter().map(|folder| texts_of(folder)).collect();
        let mut texts = originals[0].clone();
        for round in 0..1_500 {
            if round % 5 == 0 {
                texts = originals[random.below(originals.len())].clone();
            }
            let index = random.below(texts.len());
            mutate(&mut random, &mut texts[index].1);
            ask_all(&Texts::of(texts.clone()));
        }
    }

    #[test]
    fn the_longest_texts_do_not_make_it_panic() {
        let lines = [
            "turn=1\n",
            "request=1,0,0,0\n",
            "log=0,1,1,7,0,1\n",
            "9",
            "\n",
            "do=,",
        ];
        for line in lines {
            let bytes = line.repeat(65_536).as_bytes()[..65_536].to_vec();
            let texts = Texts::of(ALL.map(|text| (text, bytes.clone())).to_vec());
            let numbers = [0, 1, 2, 65, 4_097, 9_363, 65_536, 65_537];
            let pairs = SEVERAL
                .iter()
                .flat_map(|verdict| numbers.map(|line| (*verdict, line)));
            let mut causes = pairs.filter_map(|(verdict, line)| cause(verdict, line, &texts));
            assert!(causes.all(|words| words.len() < 90));
        }
    }
}
