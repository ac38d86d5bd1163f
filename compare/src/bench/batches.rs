//! The schedules that are measured, each with the batch that the host makes of it.

use crate::checks::lines_with;
use crate::host::Host;
use crate::texts::{
    read_programs, write_report, write_schedule, write_trace, BatchTexts, Entry, Request,
};

/// A schedule and its batch, over the same programs.
pub struct Measured {
    pub name: String,
    pub schedule: Vec<u8>,
    pub batch: BatchTexts,
}

impl Measured {
    /// How large the input is.
    pub fn sizes(&self) -> String {
        let BatchTexts { trace, report, .. } = &self.batch;
        format!(
            "{}: {} requests, {} operations, {} bytes of report; {} turns, {} bytes of schedule",
            self.name,
            lines_with(trace, b"request="),
            lines_with(report, b"log="),
            report.len(),
            lines_with(&self.schedule, b"turn="),
            self.schedule.len()
        )
    }
}

/// Two operations that a program repeats, on the objects that belong to its number.
type Operations = fn(usize) -> [String; 2];

/// Register and store in turn, reads and writes.
const MIXED: Operations = |program| match program % 4 {
    0 => [format!("9,{},0,1", 8 + program / 2), "6,4,0,0".into()],
    1 => [format!("7,{},1,0", program / 2), "8,4,9,0".into()],
    2 => [format!("8,4,{},0", 8 + program / 2), "9,8,0,1".into()],
    _ => [format!("6,4,{},0", program / 2), "7,1,0,0".into()],
};

/// Writes with a key: the longest lines that a log has.
const LONG: Operations = |program| {
    let store = |place: usize| format!("9,{},0,1", 10 + (program + place) % 6);
    [store(0), store(3)]
};

/// Eight requests of four short programs, with 60 operations.
pub fn usual() -> Measured {
    let programs = "program=0\ndo=6,2,0,0\ndo=1,3,1,0\ndo=2,2,2,3\ndo=7,0,2,0\ndo=8,4,8,0\ndo=2,4,4,1\ndo=9,8,0,4\ndo=8,5,9,1\n\
         do=4,6,4,5\ndo=9,9,1,6\ndo=6,7,1,0\ndo=0,4,0,0\n\
         program=1\ndo=8,2,8,0\ndo=2,2,2,1\ndo=9,8,0,2\ndo=6,3,1,0\ndo=2,3,3,2\ndo=7,1,3,0\ndo=8,4,9,0\ndo=9,9,0,3\ndo=6,5,0,0\n\
         do=8,6,10,5\ndo=0,3,0,0\n";
    let arrivals = (0..8).map(|place| Request {
        rid: 101 + place,
        program: place % 2,
        a: 10 + place / 4,
        b: 20 + place,
    });
    run("usual", programs, arrivals.collect(), 0)
}

/// Sixty-four requests with sixteen operations and 255 instructions each, and lines as long as they get.
pub fn worst() -> Measured {
    run("worst", &programs(LONG), arrivals(64), 0)
}

/// So many log lines: sixteen mixed operations and 255 instructions for each request.
pub fn growing(lines: usize) -> Measured {
    let name = format!("{lines} log lines");
    run(&name, &programs(MIXED), arrivals(lines as u64 / 16), 0)
}

/// Sixty-four requests with 1,024 operations and short numbers, and turns after the responses up to 9,000.
pub fn longest_schedule() -> Measured {
    let request = |place| Request {
        rid: place,
        program: place % 16,
        a: place % 8,
        b: place,
    };
    let arrivals = (0..64).map(request).collect();
    run("longest schedule", &programs(MIXED), arrivals, 9_000)
}

/// Sixteen programs of 255 instructions: eight rounds of two operations, on the objects of their number.
fn programs(operations: Operations) -> String {
    let program = |number| {
        let [first, second] = operations(number);
        let before = "do=1,2,1,0\ndo=1,3,8,0\n".to_string() + &"do=2,5,5,2\n".repeat(4);
        let after = "do=2,6,5,2\ndo=4,7,6,5\n".repeat(12) + "do=2,5,6,2\n";
        let round = format!("do={first}\ndo={second}\ndo=3,0,0,2\ndo=3,1,1,2\n{after}");
        format!("program={number}\n{before}{round}do=3,3,3,2\ndo=5,3,6,0\ndo=0,4,0,0\n")
    };
    (0..16).map(program).collect()
}

/// Requests with long rids and inputs, spread over the sixteen programs.
fn arrivals(count: u64) -> Vec<Request> {
    let request = |place| Request {
        rid: 65_535 - place,
        program: place % 16,
        a: u64::MAX - 1_000 * (place % 8),
        b: u64::MAX - 1_000_000 * place,
    };
    (0..count).map(request).collect()
}

/// All requests arrive, then each takes a turn after the other until all are answered; turns of the first
/// request, which then do nothing, make the schedule this long.
fn run(name: &str, programs: &str, arrivals: Vec<Request>, turns: usize) -> Measured {
    let read = read_programs(programs.as_bytes()).expect("the programs can be read");
    let mut host = Host::new(&read);
    let arrive = arrivals.iter().map(|request| Entry::Arrive(*request));
    let mut entries: Vec<Entry> = arrive.collect();
    for entry in &entries {
        host.follow(entry).expect("each request arrives once");
    }
    while !host.open_rids().is_empty() {
        for rid in host.open_rids() {
            entries.push(Entry::Turn(rid));
            host.follow(&Entry::Turn(rid))
                .expect("an open request takes its turn");
        }
    }
    let length = entries.len().max(arrivals.len() + turns);
    entries.resize(length, Entry::Turn(arrivals[0].rid));
    Measured {
        name: name.into(),
        schedule: write_schedule(&entries),
        batch: BatchTexts {
            programs: programs.into(),
            trace: write_trace(host.trace()),
            report: write_report(&host.report()),
        },
    }
}
