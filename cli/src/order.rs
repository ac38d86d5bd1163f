//! `teaselshears order`: how an accepted batch could have gone, told to a person. The order is the proved library's; the words are
//! those of each item's line.

use crate::answer::Item;
use crate::arguments::{Given, COMPLETE, MISSING_AS_EMPTY};
use crate::audit::{missing, wanted};
use crate::commands::Command;
use crate::findings::Auditor;
use crate::formats;
use crate::help;
use crate::outcome::{count, print, say, NotRun, Status};
use crate::shown;
use crate::texts::{Text, Texts, BATCH};
use std::collections::BTreeMap;
use std::path::Path;

pub const COMMAND: Command = Command {
    name: "order",
    flags: &[COMPLETE, MISSING_AS_EMPTY],
    help: help::ORDER,
    run,
};

fn run(given: &Given) -> Result<Status, NotRun> {
    let [folder] = given.exactly("one folder is")?;
    let texts = Texts::read(Path::new(folder), &BATCH, missing(given))?;
    let (finding, _) = Auditor::new(wanted(given)).audit(folder.to_owned(), &texts)?;
    let mut sentence = finding.sentence;
    if let Some(order) = &finding.order {
        let told = told(order, &texts).ok_or_else(|| {
            NotRun::new("the library's order names an operation that has no log line")
        })?;
        print(told.as_bytes())?;
        sentence.push_str(&left_open(&texts));
    }
    say(&sentence);
    Ok(finding.state.status())
}

/// A line for each item; none where one is not in the texts, or an operation stands there twice.
fn told(order: &[Item], texts: &Texts) -> Option<String> {
    let [trace, report] = [Text::Trace, Text::Report].map(|text| Lines::of(text, texts));
    let mut log = log_of(texts);
    let mut told = String::new();
    for item in order {
        let words = match item {
            Item::Event(line) => trace.shown(*line)?,
            Item::Operation { rid, num } => {
                let (line, logged) = log.remove(&(*rid, *num))?;
                let done = logged.in_words()?;
                format!("{}: request {rid} {done}", report.shown(line)?)
            }
        };
        // As wide as the longest item, op=65535,256.
        told.push_str(&format!("{:<12}  {words}\n", item.to_string()));
    }
    Some(told)
}

/// Which requests were left open, and after how many operations, behind a sentence that ends in their number: where there is a
/// request, no text was missing.
fn left_open(texts: &Texts) -> String {
    let [trace, report] =
        [Text::Trace, Text::Report].map(|text| formats::records(text, texts.bytes(text)));
    let is_answered = |rid| {
        let mut responses = trace.iter().filter(|record| record.word == "response");
        responses.any(|response| response.numbers.first() == Some(&rid))
    };
    let open = report.iter().filter_map(|record| match record.numbers[..] {
        [rid, _, operations] if !is_answered(rid) => Some(format!(
            "request {rid} after {}",
            count(operations, "operation")
        )),
        _ => None,
    });
    let open: Vec<String> = open.collect();
    match open.is_empty() {
        true => String::new(),
        false => format!(": {}", open.join(", ")),
    }
}

/// The lines of a text.
struct Lines<'a> {
    file: &'static str,
    lines: Vec<&'a [u8]>,
}

impl Lines<'_> {
    fn of(text: Text, texts: &Texts) -> Lines<'_> {
        let lines = texts.bytes(text).split_inclusive(|byte| *byte == b'\n');
        Lines {
            file: text.file(),
            lines: lines.collect(),
        }
    }

    /// A line by its number from 1, with its place, as in the sentence of a refusal.
    fn shown(&self, line: u64) -> Option<String> {
        let before = usize::try_from(line).ok()?.checked_sub(1)?;
        let bytes = shown::line(self.lines.get(before)?);
        Some(format!("{}, line {line}: {bytes}", self.file))
    }
}

/// What a log line says of its operation.
struct Logged {
    object: u64,
    kind: u64,
    key: u64,
    value: u64,
}

impl Logged {
    /// The operation in words; the log line of a read shows the value that it got, and that of a question the answer.
    fn in_words(&self) -> Option<String> {
        let Logged {
            object,
            kind,
            key,
            value,
        } = self;
        Some(match kind {
            6 => format!("reads register {object} and gets {value}"),
            7 => format!("writes {value} to register {object}"),
            8 => format!("reads key {key} of store {object} and gets {value}"),
            9 => format!("puts {value} at key {key} of store {object}"),
            10 => {
                let answer = if *value == 0 { "no" } else { "yes" };
                format!("asks whether store {object} holds key {key} and gets {value} ({answer})")
            }
            _ => return None,
        })
    }
}

/// The log lines with their numbers in the report, each by the rid and the number of the operation that it claims.
fn log_of(texts: &Texts) -> BTreeMap<(u64, u64), (u64, Logged)> {
    let records = formats::records(Text::Report, texts.bytes(Text::Report));
    let log = records.into_iter().filter_map(|record| {
        let [object, rid, num, kind, key, value] = record.numbers.try_into().ok()?;
        let logged = Logged {
            object,
            kind,
            key,
            value,
        };
        Some(((rid, num), (record.line, logged)))
    });
    log.collect()
}

#[cfg(test)]
mod tests {
    use super::*;

    fn texts(trace: &str, report: &str) -> Texts {
        Texts::of(vec![
            (Text::Trace, trace.into()),
            (Text::Report, report.into()),
        ])
    }

    fn op(rid: u64, num: u64) -> Item {
        Item::Operation { rid, num }
    }

    /// What is said of each operation of one request, in their order.
    fn words(log: &[&str]) -> Vec<String> {
        let order: Vec<Item> = (1..).zip(log).map(|(num, _)| op(1, num)).collect();
        let told = told(&order, &texts("", &log.concat())).unwrap();
        let words = |line: &str| line.split_once("\": request 1 ").unwrap().1.to_owned();
        told.lines().map(words).collect()
    }

    #[test]
    fn case_c() {
        let trace = "request=1,0,0,0\nrequest=2,1,0,0\nresponse=1,0,1\nresponse=2,0,1\n";
        let report = "of=1,0,2\nof=2,1,2\nlog=0,1,1,7,0,1\nlog=0,2,2,6,0,1\nlog=1,2,1,7,0,1\nlog=1,1,2,6,0,1\n";
        let event = Item::Event;
        let order = [
            event(1),
            op(1, 1),
            event(2),
            op(2, 1),
            op(2, 2),
            op(1, 2),
            event(3),
            event(4),
        ];
        let wanted = "\
event=1       trace.txt, line 1: \"request=1,0,0,0\"
op=1,1        report.txt, line 3: \"log=0,1,1,7,0,1\": request 1 writes 1 to register 0
event=2       trace.txt, line 2: \"request=2,1,0,0\"
op=2,1        report.txt, line 5: \"log=1,2,1,7,0,1\": request 2 writes 1 to register 1
op=2,2        report.txt, line 4: \"log=0,2,2,6,0,1\": request 2 reads register 0 and gets 1
op=1,2        report.txt, line 6: \"log=1,1,2,6,0,1\": request 1 reads register 1 and gets 1
event=3       trace.txt, line 3: \"response=1,0,1\"
event=4       trace.txt, line 4: \"response=2,0,1\"
";
        assert_eq!(told(&order, &texts(trace, report)).as_deref(), Some(wanted));
    }

    #[test]
    fn each_kind_has_its_words() {
        let log = [
            "log=7,1,1,7,0,18446744073709551615\n",
            "log=7,1,2,6,0,18446744073709551615\n",
            "log=6,1,3,6,0,0\n",
            "log=8,1,4,9,3,10\n",
            "log=8,1,5,8,3,10\n",
            "log=9,1,6,8,3,0\n",
            "log=8,1,7,10,3,1\n",
            "log=15,1,8,10,18446744073709551615,0\n",
        ];
        let wanted = [
            "writes 18446744073709551615 to register 7",
            "reads register 7 and gets 18446744073709551615",
            "reads register 6 and gets 0",
            "puts 10 at key 3 of store 8",
            "reads key 3 of store 8 and gets 10",
            "reads key 3 of store 9 and gets 0",
            "asks whether store 8 holds key 3 and gets 1 (yes)",
            "asks whether store 15 holds key 18446744073709551615 and gets 0 (no)",
        ];
        assert_eq!(words(&log), wanted);
    }

    #[test]
    fn requests_left_open_are_named() {
        let report = "of=1,0,2\nof=2,1,1\nof=3,2,0\nlog=0,2,1,7,0,1\n";
        let requests = "request=1,0,0,0\nrequest=2,1,0,0\nrequest=3,1,0,0\n";
        let open = |responses: &str| left_open(&texts(&format!("{requests}{responses}"), report));
        let first = "request 1 after 2 operations";
        let others = "request 2 after 1 operation, request 3 after 0 operations";
        assert_eq!(open(""), format!(": {first}, {others}"));
        assert_eq!(open("response=1,0,2\n"), format!(": {others}"));
        let all = "response=3,0,2\nresponse=1,0,2\nresponse=2,0,3\n";
        assert_eq!(open(all), "");
    }

    #[test]
    fn what_the_texts_do_not_have_is_not_told() {
        let texts = texts("request=1,0,0,0\n", "of=1,0,1\nlog=0,1,1,7,0,1\n");
        for order in [
            &[Item::Event(0)][..],
            &[Item::Event(2)],
            &[Item::Event(u64::MAX)],
            &[op(1, 2)],
            &[op(2, 1)],
            &[op(1, 1), op(1, 1)],
        ] {
            assert_eq!(told(order, &texts), None, "{order:?}");
        }
    }
}
