//! What is asked of every case of the proved functions: that they agree with this implementation, to the last
//! byte of every buffer.

use crate::audit::{audited, Audited};
use crate::cases::Case;
use crate::checks::{audit_of, checked_of, not_accepted, printed_of, Check};
use crate::host::record;
use crate::order::order;
use crate::plain::Item;
use crate::proved;
use crate::texts::TEXT_LIMIT;

pub const AGAINST_PROVED: [Check; 7] = [
    audits_agree,
    records_agree,
    orders_agree,
    printed_audits_agree,
    printed_records_agree,
    host_numbers_agree,
    what_the_proved_host_writes_is_accepted,
];

/// The result as numbers, with places to spare, with just enough and with every number of places too few; a
/// caller that knows of neither blocks nor rest lends four.
fn audits_agree(case: &Case) -> Option<String> {
    let result = result_of(audit_of(&case.batch));
    let places = result.len();
    [places + 2, places]
        .into_iter()
        .chain(0..places)
        .find_map(|room| audits_differ(case, &result, room))
}

/// A result as its numbers.
fn result_of(audited: Audited) -> [u64; proved::AUDIT_NUMBERS] {
    [
        audited.verdict,
        audited.line as u64,
        audited.requests as u64,
        audited.operations as u64,
        audited.blocks as u64,
        audited.rest as u64,
    ]
}

/// The result is written whole, or nothing where the room is too little.
fn audits_differ(case: &Case, result: &[u64], room: usize) -> Option<String> {
    let mut out = vec![UNTOUCHED; room + BEHIND];
    let written = proved::audit_into(&case.batch, &mut out[..room]);
    let result = if room < result.len() { &[] } else { result };
    let agrees = written == result.len() && holds_numbers(&out, result);
    (!agrees).then(|| {
        format!("here {result:?}, proved {written} numbers in {out:?}, with {room} places of room")
    })
}

/// The order as numbers, with room enough, with just enough and with too little in one of the two: a place too
/// few, and as many as a caller lends that knows of neither blocks nor rest.
fn orders_agree(case: &Case) -> Option<String> {
    let checked = checked_of(&case.batch);
    let accepted = checked.as_ref().ok();
    let items = accepted.map(order).unwrap_or_default().into_iter();
    let order: Vec<u64> = items.flat_map(numbers).collect();
    let result = result_of(audited(&checked));
    let result = [&result[..], &[order.len() as u64]].concat();
    let (places, needed) = (result.len(), order.len());
    let rooms = [
        (places + 2, needed + 2),
        (places, needed),
        (places - 1, needed),
        (places - 2, needed),
        (places - 3, needed),
        (places, needed.saturating_sub(1)),
    ];
    rooms
        .into_iter()
        .find_map(|rooms| orders_differ(case, &result, &order, rooms))
}

/// An item as two numbers.
fn numbers(item: Item) -> [u64; 2] {
    match item {
        Item::Event { line } => [line as u64, 0],
        Item::Operation { rid, num } => [rid, num],
    }
}

/// Both are written whole, or neither where the room of one is too little.
fn orders_differ(
    case: &Case,
    result: &[u64],
    order: &[u64],
    rooms: (usize, usize),
) -> Option<String> {
    let mut out = vec![UNTOUCHED; rooms.0 + BEHIND];
    let mut items = vec![UNTOUCHED; rooms.1 + BEHIND];
    let written = proved::order_into(&case.batch, &mut out[..rooms.0], &mut items[..rooms.1]);
    let enough = rooms.0 >= result.len() && rooms.1 >= order.len();
    let [result, order] = [result, order].map(|numbers| if enough { numbers } else { &[] });
    let difference = if written != result.len() || !holds_numbers(&out, result) {
        format!("here {result:?}, proved {written} numbers in {out:?}")
    } else if !holds_numbers(&items, order) {
        "the order's places differ".into()
    } else {
        return None;
    };
    Some(format!(
        "{difference}, with {} and {} places of room",
        rooms.0, rooms.1
    ))
}

/// What a place for a number holds before; no result and no item has it.
const UNTOUCHED: u64 = u64::MAX;

/// So many places lie behind those that are lent, so that a number written there is seen.
const BEHIND: usize = 8;

/// Whether these numbers stand at the front, and every place behind them is untouched.
fn holds_numbers(places: &[u64], numbers: &[u64]) -> bool {
    let behind = places.strip_prefix(numbers);
    behind.is_some_and(|behind| behind.iter().all(|place| *place == UNTOUCHED))
}

/// What the program `audit` prints, the order with it.
fn printed_audits_agree(case: &Case) -> Option<String> {
    let text = printed_of(&case.batch);
    prints_differ(text.as_bytes(), |out| proved::audit_text(&case.batch, out))
}

/// What the program `record` prints.
fn printed_records_agree(case: &Case) -> Option<String> {
    let programs = &case.batch.programs;
    let here = record(programs, &case.schedule, TEXT_LIMIT, TEXT_LIMIT);
    let front = format!("verdict={}\nline={}\n", here.verdict, here.line);
    let text = [front.as_bytes(), &here.trace, &here.report].concat();
    prints_differ(&text, |out| {
        proved::record_text(programs, &case.schedule, out)
    })
}

/// A text that is printed whole, or not at all where the buffer is too short.
fn prints_differ(text: &[u8], print: impl Fn(&mut [u8]) -> usize) -> Option<String> {
    rooms(text.len()).into_iter().find_map(|room| {
        let mut out = PATTERN[..room].to_vec();
        let written = print(&mut out);
        let expected: &[u8] = if room < text.len() { b"" } else { text };
        let agrees = written == expected.len() && holds(&out, expected);
        (!agrees).then(|| format!("{written} bytes printed, with {room} bytes of room"))
    })
}

/// The two hosts, with buffers of every length about the needed one, of the trace and of the report.
fn records_agree(case: &Case) -> Option<String> {
    let written = record(&case.batch.programs, &case.schedule, TEXT_LIMIT, TEXT_LIMIT);
    let traces = rooms(written.trace.len());
    let reports = rooms(written.report.len());
    let own = (case.room_trace, case.room_report);
    let trace_varied = traces.map(|room| (room, TEXT_LIMIT));
    let report_varied = reports.map(|room| (TEXT_LIMIT, room));
    let both_varied = traces.into_iter().zip(reports);
    [own]
        .into_iter()
        .chain(trace_varied)
        .chain(report_varied)
        .chain(both_varied)
        .find_map(|rooms| records_differ(case, rooms))
}

/// None, one byte, the lengths about the needed one, and more than a text can need.
fn rooms(needed: usize) -> [usize; 8] {
    let less = |bytes| needed.saturating_sub(bytes);
    let more = |bytes| needed + bytes;
    [0, 1, less(2), less(1), needed, more(1), more(2), LONGEST]
}

fn records_differ(case: &Case, (room_trace, room_report): (usize, usize)) -> Option<String> {
    let programs = &case.batch.programs;
    let here = record(programs, &case.schedule, room_trace, room_report);
    let [mut trace, mut report] = [room_trace, room_report].map(|room| PATTERN[..room].to_vec());
    let proved = proved::record(programs, &case.schedule, &mut trace, &mut report);
    let expected = proved::Recorded {
        verdict: here.verdict,
        line: here.line,
        trace_length: here.trace.len(),
        report_length: here.report.len(),
    };
    let difference = if proved != expected {
        format!("here {expected:?}, proved {proved:?}")
    } else if !holds(&trace, &here.trace) {
        "the trace's buffer differs".into()
    } else if !holds(&report, &here.report) {
        "the report's buffer differs".into()
    } else {
        return None;
    };
    Some(format!(
        "{difference}, with {room_trace} and {room_report} bytes of room"
    ))
}

/// The longest buffer that is lent; nothing that is written needs as much.
const LONGEST: usize = 2 * TEXT_LIMIT + 5_000;

/// What a lent buffer holds before: bytes that no text has, each unlike its neighbours.
static PATTERN: [u8; LONGEST] = {
    let mut bytes = [0; LONGEST];
    let mut place = 0;
    while place < LONGEST {
        bytes[place] = 128 + (place % 127) as u8;
        place += 1;
    }
    bytes
};

/// Whether a buffer has this text over its front and the pattern behind it.
fn holds(buffer: &[u8], text: &[u8]) -> bool {
    buffer.starts_with(text) && buffer[text.len()..] == PATTERN[text.len()..buffer.len()]
}

/// The host's result as numbers, with places to spare and with too few.
fn host_numbers_agree(case: &Case) -> Option<String> {
    let places = proved::RECORD_NUMBERS;
    [places + 2, case.schedule.len() % places]
        .into_iter()
        .find_map(|room| host_numbers_differ(case, room))
}

/// With too little room for the numbers of the result nothing is written anywhere.
fn host_numbers_differ(case: &Case, room: usize) -> Option<String> {
    let programs = &case.batch.programs;
    let here = record(programs, &case.schedule, TEXT_LIMIT, TEXT_LIMIT);
    let lengths = [&here.trace, &here.report].map(|text| text.len() as u64);
    let result = [here.verdict, here.line as u64, lengths[0], lengths[1]];
    let enough = room >= result.len();
    let result = if enough { &result[..] } else { &[] };
    let texts = [here.trace, here.report].map(|text| if enough { text } else { Vec::new() });
    let mut out = vec![UNTOUCHED; room + BEHIND];
    let [mut trace, mut report] = [TEXT_LIMIT; 2].map(|room| PATTERN[..room].to_vec());
    let places = &mut out[..room];
    let written = proved::record_into(programs, &case.schedule, &mut trace, &mut report, places);
    let difference = if written != result.len() || !holds_numbers(&out, result) {
        format!("here {result:?}, proved {written} numbers in {out:?}")
    } else if !holds(&trace, &texts[0]) || !holds(&report, &texts[1]) {
        "the buffer of trace or report differs".into()
    } else {
        return None;
    };
    Some(format!("{difference}, with {room} places of room"))
}

fn what_the_proved_host_writes_is_accepted(case: &Case) -> Option<String> {
    let (recorded, written) = proved::recorded(&case.batch.programs, &case.schedule);
    not_accepted(recorded.verdict, &written, proved::audit)
}
