//! What is known of a batch: its verdict with the words for it, or why it has none.

use crate::answer::{Answer, Item};
use crate::arguments::Objects;
use crate::causes;
use crate::json::{self, Object, Value};
use crate::outcome::{count, NotRun, Status};
use crate::proved::{self, Proved};
use crate::shown;
use crate::texts::{lines_of, Text, Texts};
use crate::time;
use crate::verdicts::{self, Audited, Bill};
use std::ffi::{OsStr, OsString};

/// The number of the form that objects of JSON have: raised when a key is added, goes or means something else.
const FORM: u64 = 1;

/// What became of a batch. Only the first four are verdicts, and only the first of them is one to wipe on.
#[derive(Clone, Copy, Debug, PartialEq, Eq)]
pub enum State {
    Accepted,
    /// Accepted, with no request in it.
    Empty,
    /// Accepted, with requests left open, where it was asked to be complete.
    Open,
    Refused,
    /// The texts are not those that were audited.
    Changed,
    /// Kept by another library, and this one finds something else.
    Outdated,
    /// Its kept result is not what this library makes of the kept texts, or is not whole.
    Damaged,
    Failed,
    Waiting,
}

impl State {
    pub const ALL: [State; 9] = [
        State::Accepted,
        State::Empty,
        State::Open,
        State::Refused,
        State::Changed,
        State::Outdated,
        State::Damaged,
        State::Failed,
        State::Waiting,
    ];

    pub fn word(self) -> &'static str {
        match self {
            State::Accepted => "accepted",
            State::Empty => "empty",
            State::Open => "open",
            State::Refused => "refused",
            State::Changed => "changed",
            State::Outdated => "outdated",
            State::Damaged => "damaged",
            State::Failed => "failed",
            State::Waiting => "waiting",
        }
    }

    pub fn named(word: &OsStr) -> Option<State> {
        State::ALL.into_iter().find(|state| word == state.word())
    }

    pub fn is_verdict(self) -> bool {
        matches!(
            self,
            State::Accepted | State::Empty | State::Open | State::Refused
        )
    }

    pub fn status(self) -> Status {
        match self {
            State::Accepted => Status::Success,
            State::Empty | State::Open => Status::Incomplete,
            State::Refused => Status::Refused,
            State::Changed | State::Outdated | State::Damaged | State::Failed | State::Waiting => {
                Status::NotRun
            }
        }
    }
}

/// Whether an accepted batch may have requests that never got a response.
#[derive(Clone, Copy, Debug, PartialEq, Eq)]
pub enum Wanted {
    Accepted,
    Complete,
}

impl Wanted {
    fn state(self, audited: &Audited, open: u64) -> State {
        match (audited.verdict, audited.requests, open) {
            (0, 0, _) => State::Empty,
            (0, _, 1..) if self == Wanted::Complete => State::Open,
            (0, ..) => State::Accepted,
            _ => State::Refused,
        }
    }
}

/// The program that found it.
#[derive(Clone, Debug, PartialEq, Eq)]
pub struct Program {
    pub version: String,
    pub library: String,
    pub kit: String,
}

impl Program {
    pub fn this() -> Program {
        Program {
            version: proved::VERSION.to_owned(),
            library: proved::LIBRARY.to_owned(),
            kit: proved::KIT.to_owned(),
        }
    }
}

#[derive(Clone, Debug)]
pub struct Finding {
    pub batch: OsString,
    pub state: State,
    pub audited: Option<Audited>,
    /// How many requests of an accepted batch never got a response; 0 of a refused one, of which nothing is counted.
    pub open: Option<u64>,
    /// The text that a refusal is about, and the line that it names, where there is such a line.
    pub text: Option<Text>,
    pub bytes: Option<Vec<u8>>,
    /// The order of an accepted batch.
    pub order: Option<Vec<Item>>,
    pub sentence: String,
    pub program: Program,
    /// When it was found, in UTC.
    pub time: String,
}

/// Audits batches, one after the other.
pub struct Auditor {
    proved: Proved,
    wanted: Wanted,
}

impl Auditor {
    pub fn new(wanted: Wanted) -> Auditor {
        let proved = Proved::new();
        Auditor { proved, wanted }
    }

    /// Audits a batch, and gives what was printed with what it means.
    pub fn audit(&mut self, batch: OsString, texts: &Texts) -> Result<(Finding, Vec<u8>), NotRun> {
        let printed = self.proved.audit(texts)?;
        let answer = Answer::read(printed, texts)
            .map_err(|what| NotRun(format!("the library's answer is {what}")))?;
        let finding = Finding::of(batch, answer, texts, self.wanted);
        Ok((finding, printed.to_vec()))
    }
}

impl Finding {
    fn of(batch: OsString, answer: Answer, texts: &Texts, wanted: Wanted) -> Finding {
        let Answer { audited, order } = answer;
        let open = match audited.verdict {
            0 => open(texts.bytes(Text::Trace)),
            _ => 0,
        };
        let state = wanted.state(&audited, open);
        let text = verdicts::text(audited.verdict);
        let bytes = text.and_then(|text| line_of(texts.bytes(text), audited.line));
        Finding {
            audited: Some(audited),
            open: Some(open),
            text,
            bytes: bytes.map(<[u8]>::to_vec),
            order,
            ..Finding::none(batch, state, sentence(state, &audited, texts))
        }
    }

    /// A batch without a verdict.
    pub fn none(batch: OsString, state: State, sentence: String) -> Finding {
        Finding {
            batch,
            state,
            audited: None,
            open: None,
            text: None,
            bytes: None,
            order: None,
            sentence,
            program: Program::this(),
            time: time::now(),
        }
    }

    /// The finding as the table has it. An order is long, and of a large spool there are very many findings at once.
    pub fn without_order(self) -> Finding {
        Finding {
            order: None,
            ..self
        }
    }

    /// One line of JSON.
    pub fn json(&self, objects: Objects) -> String {
        let mut object = Object::new();
        let audited = self.audited.as_ref();
        let bytes = self.bytes.as_deref();
        object.add("form", json::number(Some(FORM)));
        object.add("batch", json::name(&self.batch));
        object.add("state", json::string(self.state.word()));
        object.add("verdict", json::number(audited.map(|a| a.verdict)));
        object.add("line", json::number(audited.map(|a| a.line)));
        object.add(
            "text",
            json::optional(self.text.map(|text| json::string(text.file()))),
        );
        object.add("bytes", json::optional(bytes.map(json::bytes)));
        object.add("requests", json::number(audited.map(|a| a.requests)));
        object.add("operations", json::number(audited.map(|a| a.operations)));
        object.add("blocks", json::number(audited.map(|a| a.bill.blocks)));
        object.add("rest", json::number(audited.map(|a| a.bill.rest)));
        object.add("open", json::number(self.open));
        if objects == Objects::Whole {
            object.add("order", json::optional(self.order.as_deref().map(listed)));
        }
        object.add("sentence", json::string(&self.sentence));
        // What the table of an earlier run does not have is empty.
        for (key, word) in [
            ("time", &self.time),
            ("version", &self.program.version),
            ("library", &self.program.library),
            ("kit", &self.program.kit),
        ] {
            let word = (!word.is_empty()).then(|| json::string(word));
            object.add(key, json::optional(word));
        }
        object.line()
    }
}

/// An order as a list of its lines.
fn listed(order: &[Item]) -> Value {
    let lines = order.iter().map(|item| json::string(&item.to_string()));
    json::list(lines)
}

/// An audit's result in one sentence. What is accepted and not to be wiped on says so first.
fn sentence(state: State, audited: &Audited, texts: &Texts) -> String {
    let front = match state {
        State::Accepted => "accepted: ",
        State::Open => "accepted, but not complete: ",
        State::Empty => return format!("accepted, but with no request in it{}", missing(texts)),
        _ => return refused(audited.verdict, audited.line, texts),
    };
    let requests = count(audited.requests, "request");
    let operations = count(audited.operations, "operation");
    let Bill { blocks, rest } = audited.bill;
    let blocks = count(blocks, "block");
    let (open, missing) = (left_open(texts.bytes(Text::Trace)), missing(texts));
    format!("{front}{requests}, {operations} ({blocks}, rest {rest}){open}{missing}")
}

/// How many requests of an accepted batch never got a response: each response of its trace answers another request.
fn open(trace: &[u8]) -> u64 {
    let [requests, responses] = [&b"request="[..], b"response="].map(|word| lines_of(trace, word));
    requests.saturating_sub(responses)
}

/// These behind the counts of a sentence, which has nothing there where no request was left open.
pub fn left_open(trace: &[u8]) -> String {
    match open(trace) {
        0 => String::new(),
        number => format!(", {} left open", count(number, "request")),
    }
}

/// A refusal in one sentence: the verdict, its cause or else its rule, and the line that it names.
pub fn refused(verdict: u64, line: u64, texts: &Texts) -> String {
    let cause = causes::cause(verdict, line, texts);
    let cause = cause.unwrap_or_else(|| verdicts::rule(verdict).to_owned());
    let place = place(verdict, line, texts);
    format!(
        "refused, verdict {verdict} ({cause}){place}{}",
        missing(texts)
    )
}

fn place(verdict: u64, line: u64, texts: &Texts) -> String {
    let text = verdicts::text(verdict).filter(|_| line > 0);
    let Some(text) = text else {
        return String::new();
    };
    let file = text.file();
    match line_of(texts.bytes(text), line) {
        Some(bytes) => format!(": {file}, line {line}: {}", shown::line(bytes)),
        None => format!(": {file}, line {line}, which is behind its end"),
    }
}

/// What was read as empty, for the end of a sentence.
pub fn missing(texts: &Texts) -> String {
    let files: Vec<&str> = texts.missing.iter().map(|text| text.file()).collect();
    match files.is_empty() {
        true => String::new(),
        false => format!("; missing, and read as empty: {}", files.join(", ")),
    }
}

/// A line by its number from 1, with its line feed where it has one.
fn line_of(text: &[u8], line: u64) -> Option<&[u8]> {
    let before = usize::try_from(line).ok()?.checked_sub(1)?;
    text.split_inclusive(|byte| *byte == b'\n').nth(before)
}

#[cfg(test)]
mod tests {
    use super::*;

    const ALL_ANSWERED: &str = "request=1,0,0,0\nrequest=2,0,0,0\nresponse=2,0,0\nresponse=1,0,0\n";
    const ONE_OPEN: &str = "request=1,0,0,0\nrequest=2,0,0,0\nresponse=2,0,0\n";
    const TWO_OPEN: &str = "request=1,0,0,0\nrequest=2,0,0,0\n";

    /// What is found of a batch with this verdict, so many requests and this trace.
    fn found(verdict: u64, requests: u64, trace: &str, wanted: Wanted) -> Finding {
        let audited = Audited {
            verdict,
            line: 0,
            requests,
            operations: requests,
            bill: Bill {
                blocks: 0,
                rest: requests,
            },
        };
        let texts = Texts::of(vec![(Text::Trace, trace.into())]);
        let answer = Answer {
            audited,
            order: None,
        };
        Finding::of(OsString::new(), answer, &texts, wanted)
    }

    #[track_caller]
    fn check(found: Finding, state: State, open: u64, sentence: &str) {
        assert_eq!((found.state, found.open), (state, Some(open)));
        assert_eq!(found.sentence, sentence);
    }

    const COUNTS: &str = "2 requests, 2 operations (0 blocks, rest 2)";

    #[test]
    fn requests_left_open_are_counted_and_said() {
        for (trace, open, behind) in [
            (ALL_ANSWERED, 0, ""),
            (ONE_OPEN, 1, ", 1 request left open"),
            (TWO_OPEN, 2, ", 2 requests left open"),
        ] {
            let said = format!("accepted: {COUNTS}{behind}");
            let finding = found(0, 2, trace, Wanted::Accepted);
            check(finding, State::Accepted, open, &said);
        }
    }

    #[test]
    fn what_is_to_be_complete_has_none_of_them() {
        let finding = found(0, 2, ALL_ANSWERED, Wanted::Complete);
        let said = format!("accepted: {COUNTS}");
        check(finding, State::Accepted, 0, &said);
        let finding = found(0, 2, ONE_OPEN, Wanted::Complete);
        let said = format!("accepted, but not complete: {COUNTS}, 1 request left open");
        check(finding, State::Open, 1, &said);
    }

    #[test]
    fn no_request_at_all_is_not_accepted_as_others_are() {
        for wanted in [Wanted::Accepted, Wanted::Complete] {
            let said = "accepted, but with no request in it";
            check(found(0, 0, "", wanted), State::Empty, 0, said);
        }
    }

    #[test]
    fn of_a_refused_batch_none_is_counted() {
        let said = "refused, verdict 9 (the order returns to itself)";
        for trace in [ALL_ANSWERED, ONE_OPEN, TWO_OPEN] {
            for wanted in [Wanted::Accepted, Wanted::Complete] {
                check(found(9, 0, trace, wanted), State::Refused, 0, said);
            }
        }
    }

    #[test]
    fn no_trace_makes_it_panic() {
        for trace in ["", "\n", "request", "response=1,0,0\n", "x\nresponse="] {
            let finding = found(0, 2, trace, Wanted::Accepted);
            assert_eq!(finding.open, Some(0), "{trace:?}");
        }
    }

    #[test]
    fn a_status_for_each_state() {
        let accepted = State::ALL
            .into_iter()
            .filter(|state| state.status() == Status::Success);
        assert!(accepted.eq([State::Accepted]), "nothing else ends in 0");
        for state in State::ALL {
            assert_eq!(State::named(OsStr::new(state.word())), Some(state));
            assert_eq!(state.is_verdict(), state.status() < Status::NotRun);
        }
        assert_eq!(State::named(OsStr::new("Accepted")), None);
    }
}
