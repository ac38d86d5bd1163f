//! The four texts: programs, trace, report and schedule, read into records, and trace and report written.
//!
//! A text is read whole before anything is asked of what it says, so reading knows forms, ranges and
//! counts only; which rules a readable text keeps is the matter of `machine` and `audit`.

use std::fmt;
use std::io::Write;
use std::ops::RangeInclusive;

pub const TEXT_LIMIT: usize = 65_535;
pub const PROGRAM_LIMIT: usize = 16;
pub const INSTRUCTION_LIMIT: usize = 64;
pub const REQUEST_LIMIT: usize = 64;
pub const LOG_LIMIT: usize = 1_024;

const V: RangeInclusive<u64> = 0..=u64::MAX;
const RID: RangeInclusive<u64> = 0..=65_535;
const STATUS: RangeInclusive<u64> = 0..=1;
const GROUP: RangeInclusive<u64> = 0..=63;
const COUNT: RangeInclusive<u64> = 0..=256;
const OBJECT: RangeInclusive<u64> = 0..=15;
const KIND: RangeInclusive<u64> = 6..=10;

/// The line at which a text is unreadable, counted from 1; 0 for an overlong text.
#[derive(Clone, Copy, Debug, PartialEq, Eq)]
pub struct Unreadable(pub usize);

/// The bytes of the three texts that the audit reads.
#[derive(Clone, Debug, Default, PartialEq, Eq)]
pub struct BatchTexts {
    pub programs: Vec<u8>,
    pub trace: Vec<u8>,
    pub report: Vec<u8>,
}

#[derive(Clone, Debug)]
pub struct Instruction {
    pub code: u64,
    pub a: u64,
    pub b: u64,
    pub c: u64,
    pub line: usize,
}

#[derive(Clone, Debug)]
pub struct Program {
    pub number: u64,
    pub line: usize,
    pub instructions: Vec<Instruction>,
}

#[derive(Clone, Copy, Debug, PartialEq, Eq)]
pub struct Request {
    pub rid: u64,
    pub program: u64,
    pub a: u64,
    pub b: u64,
}

#[derive(Clone, Copy, Debug, PartialEq, Eq)]
pub struct Response {
    pub rid: u64,
    pub status: u64,
    pub value: u64,
}

/// A line of the trace; event i (from 0) stands on line i + 1.
#[derive(Clone, Copy, Debug, PartialEq, Eq)]
pub enum Event {
    Request(Request),
    Response(Response),
}

#[derive(Clone, Copy, Debug, PartialEq, Eq)]
pub struct OfLine {
    pub rid: u64,
    pub group: u64,
    pub count: u64,
}

#[derive(Clone, Copy, Debug, PartialEq, Eq)]
pub struct LogLine {
    pub object: u64,
    pub rid: u64,
    pub num: u64,
    pub kind: u64,
    pub key: u64,
    pub value: u64,
}

/// `of` line i (from 0) stands on line i + 1, and the `log` lines follow behind the last of them.
#[derive(Clone, Debug, Default, PartialEq, Eq)]
pub struct Report {
    pub of: Vec<OfLine>,
    pub log: Vec<LogLine>,
}

impl Report {
    pub fn line_of_log(&self, index: usize) -> usize {
        self.of.len() + index + 1
    }

    /// The log of one object: its lines, read downward.
    pub fn log_of(&self, object: u64) -> impl Iterator<Item = &LogLine> {
        self.log.iter().filter(move |line| line.object == object)
    }
}

/// A line of the schedule; entry i (from 0) stands on line i + 1.
#[derive(Clone, Copy, Debug, PartialEq, Eq)]
pub enum Entry {
    Arrive(Request),
    Turn(u64),
}

pub fn read_programs(text: &[u8]) -> Result<Vec<Program>, Unreadable> {
    let mut programs: Vec<Program> = Vec::new();
    read_each_line(text, |number, line| {
        if let Some([n]) = fields(line, "program", [V]) {
            programs.push(Program {
                number: n,
                line: number,
                instructions: Vec::new(),
            });
            return within(programs.len(), PROGRAM_LIMIT);
        }
        let [code, a, b, c] = fields(line, "do", [V, V, V, V])?;
        let instructions = &mut programs.last_mut()?.instructions;
        instructions.push(Instruction {
            code,
            a,
            b,
            c,
            line: number,
        });
        within(instructions.len(), INSTRUCTION_LIMIT)
    })?;
    Ok(programs)
}

pub fn read_trace(text: &[u8]) -> Result<Vec<Event>, Unreadable> {
    let mut trace = Vec::new();
    let (mut requests, mut responses) = (0, 0);
    read_each_line(text, |_, line| {
        if let Some(request) = read_request(line, "request") {
            trace.push(Event::Request(request));
            requests += 1;
            return within(requests, REQUEST_LIMIT);
        }
        let [rid, status, value] = fields(line, "response", [RID, STATUS, V])?;
        trace.push(Event::Response(Response { rid, status, value }));
        responses += 1;
        within(responses, REQUEST_LIMIT)
    })?;
    Ok(trace)
}

pub fn read_report(text: &[u8]) -> Result<Report, Unreadable> {
    let mut report = Report::default();
    read_each_line(text, |_, line| {
        if let Some([rid, group, count]) = fields(line, "of", [RID, GROUP, COUNT]) {
            if !report.log.is_empty() {
                return None;
            }
            report.of.push(OfLine { rid, group, count });
            return within(report.of.len(), REQUEST_LIMIT);
        }
        let [object, rid, num, kind, key, value] =
            fields(line, "log", [OBJECT, RID, COUNT, KIND, V, V])?;
        report.log.push(LogLine {
            object,
            rid,
            num,
            kind,
            key,
            value,
        });
        within(report.log.len(), LOG_LIMIT)
    })?;
    Ok(report)
}

pub fn read_schedule(text: &[u8]) -> Result<Vec<Entry>, Unreadable> {
    let mut schedule = Vec::new();
    let mut arrivals = 0;
    read_each_line(text, |_, line| {
        if let Some(request) = read_request(line, "arrive") {
            schedule.push(Entry::Arrive(request));
            arrivals += 1;
            return within(arrivals, REQUEST_LIMIT);
        }
        let [rid] = fields(line, "turn", [RID])?;
        schedule.push(Entry::Turn(rid));
        Some(())
    })?;
    Ok(schedule)
}

pub fn write_programs(programs: &[Program]) -> Vec<u8> {
    let mut text = Text::default();
    for program in programs {
        text.add(format_args!("program={}\n", program.number));
        for Instruction { code, a, b, c, .. } in &program.instructions {
            text.add(format_args!("do={code},{a},{b},{c}\n"));
        }
    }
    text.bytes
}

pub fn write_trace(trace: &[Event]) -> Vec<u8> {
    let mut text = Text::default();
    for event in trace {
        match event {
            Event::Request(request) => text.add_request("request", request),
            Event::Response(Response { rid, status, value }) => {
                text.add(format_args!("response={rid},{status},{value}\n"));
            }
        }
    }
    text.bytes
}

pub fn write_report(report: &Report) -> Vec<u8> {
    let mut text = Text::default();
    for OfLine { rid, group, count } in &report.of {
        text.add(format_args!("of={rid},{group},{count}\n"));
    }
    for line in &report.log {
        let LogLine {
            object,
            rid,
            num,
            kind,
            key,
            value,
        } = line;
        text.add(format_args!(
            "log={object},{rid},{num},{kind},{key},{value}\n"
        ));
    }
    text.bytes
}

pub fn write_schedule(schedule: &[Entry]) -> Vec<u8> {
    let mut text = Text::default();
    for entry in schedule {
        match entry {
            Entry::Arrive(request) => text.add_request("arrive", request),
            Entry::Turn(rid) => text.add(format_args!("turn={rid}\n")),
        }
    }
    text.bytes
}

/// A text that is being written, line after line.
#[derive(Default)]
struct Text {
    bytes: Vec<u8>,
}

impl Text {
    fn add(&mut self, line: fmt::Arguments) {
        self.bytes
            .write_fmt(line)
            .expect("a vector takes every byte");
    }

    fn add_request(&mut self, key: &str, request: &Request) {
        let Request { rid, program, a, b } = request;
        self.add(format_args!("{key}={rid},{program},{a},{b}\n"));
    }
}

fn read_request(line: &[u8], key: &str) -> Option<Request> {
    let [rid, program, a, b] = fields(line, key, [RID, V, V, V])?;
    Some(Request { rid, program, a, b })
}

/// Hands each line, without its line feed, to `take`, which answers `None` where it cannot be read.
fn read_each_line(
    text: &[u8],
    mut take: impl FnMut(usize, &[u8]) -> Option<()>,
) -> Result<(), Unreadable> {
    if text.len() > TEXT_LIMIT {
        return Err(Unreadable(0));
    }
    for (index, line) in text.split_inclusive(|&byte| byte == b'\n').enumerate() {
        let number = index + 1;
        line.strip_suffix(b"\n")
            .and_then(|body| take(number, body))
            .ok_or(Unreadable(number))?;
    }
    Ok(())
}

fn within(count: usize, limit: usize) -> Option<()> {
    (count <= limit).then_some(())
}

/// The numbers of a line `key=n,n,..` when there are exactly N of them, each in its range.
fn fields<const N: usize>(
    line: &[u8],
    key: &str,
    ranges: [RangeInclusive<u64>; N],
) -> Option<[u64; N]> {
    let list = line.strip_prefix(key.as_bytes())?.strip_prefix(b"=")?;
    let mut parts = list.split(|&byte| byte == b',');
    let mut values = [0; N];
    for (value, range) in values.iter_mut().zip(ranges) {
        *value = number(parts.next()?).filter(|n| range.contains(n))?;
    }
    parts.next().is_none().then_some(values)
}

fn number(digits: &[u8]) -> Option<u64> {
    let leading_zero = digits.len() > 1 && digits[0] == b'0';
    if digits.is_empty() || leading_zero {
        return None;
    }
    digits.iter().try_fold(0u64, |value, digit| {
        if !digit.is_ascii_digit() {
            return None;
        }
        value.checked_mul(10)?.checked_add(u64::from(digit - b'0'))
    })
}

#[cfg(test)]
mod tests {
    use super::*;

    #[test]
    fn numbers_have_one_spelling() {
        assert_eq!(number(b"0"), Some(0));
        assert_eq!(number(b"18446744073709551615"), Some(u64::MAX));
        for wrong in [
            &b""[..],
            b"00",
            b"01",
            b"+1",
            b"-1",
            b" 1",
            b"1 ",
            b"1\r",
            b"18446744073709551616",
            b"99999999999999999999",
            b"100000000000000000000000000000",
        ] {
            assert_eq!(number(wrong), None, "{}", String::from_utf8_lossy(wrong));
        }
    }

    #[test]
    fn a_last_line_without_line_feed_is_unreadable_at_its_own_number() {
        assert_eq!(read_schedule(b"turn=1\nturn=2"), Err(Unreadable(2)));
        assert_eq!(read_schedule(b"turn=1,\nturn=2"), Err(Unreadable(1)));
        assert_eq!(read_schedule(b"\n"), Err(Unreadable(1)));
        assert_eq!(read_schedule(b"turn=1\r\n"), Err(Unreadable(1)));
        assert_eq!(read_schedule(b""), Ok(vec![]));
    }

    #[test]
    fn an_overlong_text_is_unreadable_at_line_0() {
        // 9,362 lines of 7 bytes, and one byte more for a rid of two digits: exactly the limit.
        let full = [&b"turn=1\n".repeat(9_361)[..], b"turn=11\n"].concat();
        assert_eq!(full.len(), TEXT_LIMIT);
        assert!(read_schedule(&full).is_ok());
        let over = vec![b'x'; TEXT_LIMIT + 1];
        assert_eq!(read_schedule(&over), Err(Unreadable(0)));
        assert_eq!(read_schedule(&over[1..]), Err(Unreadable(1)));
    }

    #[test]
    fn sections_keep_their_order() {
        assert_eq!(read_programs(b"do=0,0,0,0\n").err(), Some(Unreadable(1)));
        let report = read_report(b"of=1,0,1\nlog=0,1,1,7,0,1\nof=2,0,0\n");
        assert_eq!(report, Err(Unreadable(3)));
    }

    #[test]
    fn ranges_end_where_they_are_named() {
        let good: [&[u8]; 4] = [
            b"log=15,65535,256,10,0,0\n",
            b"log=0,0,0,6,0,0\n",
            b"of=65535,63,256\n",
            b"of=0,0,0\n",
        ];
        for line in good {
            assert!(read_report(line).is_ok());
        }
        let wrong: [&[u8]; 8] = [
            b"log=16,0,1,7,0,0\n",
            b"log=0,65536,1,7,0,0\n",
            b"log=0,0,257,7,0,0\n",
            b"log=0,0,1,5,0,0\n",
            b"log=0,0,1,11,0,0\n",
            b"of=65536,0,0\n",
            b"of=0,64,0\n",
            b"of=0,0,257\n",
        ];
        for line in wrong {
            assert_eq!(read_report(line), Err(Unreadable(1)));
        }
        assert_eq!(read_trace(b"response=1,2,0\n"), Err(Unreadable(1)));
        assert_eq!(read_trace(b"request=65536,0,0,0\n"), Err(Unreadable(1)));
    }

    #[test]
    fn the_first_line_over_a_count_is_unreadable() {
        let programs = b"program=0\n".repeat(17);
        assert_eq!(read_programs(&programs).err(), Some(Unreadable(17)));
        let long = [&b"program=0\n"[..], &b"do=0,0,0,0\n".repeat(65)].concat();
        assert_eq!(read_programs(&long).err(), Some(Unreadable(66)));
        let responses = b"response=1,0,0\n".repeat(65);
        assert_eq!(read_trace(&responses), Err(Unreadable(65)));
        let of = b"of=1,0,0\n".repeat(65);
        assert_eq!(read_report(&of), Err(Unreadable(65)));
        let arrivals = b"arrive=1,0,0,0\n".repeat(65);
        assert_eq!(read_schedule(&arrivals), Err(Unreadable(65)));
    }
}
