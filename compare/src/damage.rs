//! Damage done to texts: what a careless or a lying host, a broken transfer or a hand edit may leave.
//!
//! Some damage knows nothing of the forms (bytes), some keeps a line readable (a number exchanged), some
//! keeps a whole batch readable (neighbours in a log exchanged, requests put into one group), so that every
//! verdict is reached.

use crate::machine::{is_read, Objects, Operation};
use crate::random::{interleave, Random};
use crate::texts::{
    read_report, read_schedule, read_trace, write_report, write_schedule, write_trace, BatchTexts,
    Entry, Event, LogLine, OfLine, Report, Request, Response, LOG_LIMIT, REQUEST_LIMIT, TEXT_LIMIT,
};

/// Numbers at the ends of the ranges, and some that no text can hold.
const EDGES: [&str; 30] = [
    "0",
    "1",
    "2",
    "5",
    "6",
    "7",
    "8",
    "9",
    "10",
    "11",
    "15",
    "16",
    "17",
    "63",
    "64",
    "65",
    "255",
    "256",
    "257",
    "65535",
    "65536",
    "9223372036854775808",
    "18446744073709551614",
    "18446744073709551615",
    "18446744073709551616",
    "18446744073709551617",
    "99999999999999999999",
    "184467440737095516150",
    "340282366920938463463374607431768211456",
    "",
];

/// Every kind, and the first number behind them, which no line can hold, half as often.
const KINDS: [u64; 11] = [6, 6, 7, 7, 8, 8, 9, 9, 10, 10, 11];

/// Bytes that mean something in a line, or nearly do.
const BYTES: [u8; 20] = [
    b'0', b'1', b'2', b'9', b',', b'=', b'\n', b'\r', b' ', b'-', b'+', b'/', b':', b'd', b'l',
    b'o', b'r', b'L', 0, 255,
];

/// Damages a batch in one to three places.
pub fn damage_batch(random: &mut Random, batch: &mut BatchTexts) {
    for _ in 0..*random.pick(&[1, 1, 1, 2, 3]) {
        match random.below(100) {
            0..=7 => damage_text(random, &mut batch.programs),
            8..=17 => damage_text(random, &mut batch.trace),
            18..=32 => exchange_neighbours(random, &mut batch.trace),
            33..=37 => change_response(random, &mut batch.trace),
            38..=42 => misstate_read(random, batch),
            43..=50 => damage_text(random, &mut batch.report),
            51..=62 => change_open(random, batch),
            _ => damage_report(random, &mut batch.report),
        }
    }
}

/// Damages a text without regard to what it says.
pub fn damage_text(random: &mut Random, text: &mut Vec<u8>) {
    match random.below(100) {
        0..=14 => change_byte(random, text),
        15..=19 => {
            text.pop();
        }
        20..=22 => fill_to_the_limit(random, text),
        23..=27 => repeat_beyond_a_count(random, text),
        28..=74 => change_number(random, text),
        _ => change_lines(random, text),
    }
}

/// Damages a schedule: as any text, or so that it stays readable.
pub fn damage_schedule(random: &mut Random, text: &mut Vec<u8>) {
    let Ok(mut entries) = read_schedule(text) else {
        return damage_text(random, text);
    };
    let place = random.below(entries.len() + 1);
    match random.below(10) {
        0 => change_program(random, &mut entries),
        1 => entries.insert(place, Entry::Turn(random.below(8) as u64)),
        2 => repeat_arrival(random, &mut entries),
        3 => fill_arrivals(random, &mut entries),
        _ => return damage_text(random, text),
    }
    *text = write_schedule(&entries);
}

/// Lets a request ask for any program, known or not.
fn change_program(random: &mut Random, entries: &mut [Entry]) {
    let choices: [u64; 6] = [0, 1, 2, 3, 16, u64::MAX];
    let mut arrivals: Vec<&mut Request> = entries.iter_mut().filter_map(arrival).collect();
    if !arrivals.is_empty() {
        let place = random.below(arrivals.len());
        arrivals[place].program = *random.pick(&choices);
    }
}

fn arrival(entry: &mut Entry) -> Option<&mut Request> {
    match entry {
        Entry::Arrive(request) => Some(request),
        Entry::Turn(_) => None,
    }
}

/// Lets a request arrive a second time, with other inputs perhaps.
fn repeat_arrival(random: &mut Random, entries: &mut Vec<Entry>) {
    let arrivals: Vec<Request> = entries.iter_mut().filter_map(arrival).map(|r| *r).collect();
    if !arrivals.is_empty() {
        let mut again = *random.pick(&arrivals);
        again.a = random.below(2) as u64;
        let place = random.below(entries.len() + 1);
        entries.insert(place, Entry::Arrive(again));
    }
}

/// Brings the arrivals to their limit or beside it, and gives the new ones turns that short programs need.
fn fill_arrivals(random: &mut Random, entries: &mut Vec<Entry>) {
    let arrivals = entries.iter_mut().filter_map(arrival).count();
    let wanted = random.between(REQUEST_LIMIT - 1, REQUEST_LIMIT + 1);
    for rid in (1_000..).take(wanted.saturating_sub(arrivals)) {
        entries.push(Entry::Arrive(Request {
            rid,
            program: 0,
            a: 1,
            b: rid,
        }));
        entries.extend([Entry::Turn(rid); 6]);
    }
}

/// Damages a report so that it often stays readable; another report where it cannot be read. Half of the time its
/// reads then show what its logs give, so that the damage is seen behind row 10 too.
fn damage_report(random: &mut Random, text: &mut Vec<u8>) {
    let Ok(mut report) = read_report(text) else {
        return damage_text(random, text);
    };
    match random.below(20) {
        0..=3 => exchange_in_log(random, &mut report),
        4 => report = interleave(random, &report),
        5..=6 => join_groups(random, &mut report),
        7 => change_count(random, &mut report),
        8 => renumber(random, &mut report),
        9..=13 => misstate_write(random, &mut report),
        14 => hide_reads(&mut report),
        15 => exchange_lookup(random, &mut report),
        _ => change_log_line(random, &mut report),
    }
    if random.percent(50) {
        show_reads(&mut report);
    }
    *text = write_report(&report);
}

fn change_byte(random: &mut Random, text: &mut Vec<u8>) {
    let place = random.below(text.len() + 1);
    let byte = *random.pick(&BYTES);
    match random.below(3) {
        0 => text.insert(place, byte),
        _ if place == text.len() => text.push(byte),
        1 => text[place] = byte,
        _ => {
            text.remove(place);
        }
    }
}

/// Brings a text to the longest length that is read, or one byte beyond it.
fn fill_to_the_limit(random: &mut Random, text: &mut Vec<u8>) {
    let length = random.between(TEXT_LIMIT - 1, TEXT_LIMIT + 1);
    let line = *random.pick(&[&b"\n"[..], b"0", b"turn=1\n", b"request=1,0,0,0\n"]);
    while text.len() < length {
        text.extend_from_slice(line);
    }
    text.truncate(length);
}

fn repeat_beyond_a_count(random: &mut Random, text: &mut Vec<u8>) {
    let mut lines = lines(text);
    if lines.is_empty() {
        return;
    }
    let place = random.below(lines.len());
    let limit = *random.pick(&[16, REQUEST_LIMIT, LOG_LIMIT]);
    let line = lines[place].clone();
    lines.splice(
        place..place,
        vec![line; random.between(limit - 1, limit + 1)],
    );
    *text = lines.concat();
}

/// Exchanges one number of one line for a small one, one at an end of a range, or another spelling.
fn change_number(random: &mut Random, text: &mut Vec<u8>) {
    let mut numbers = numbers(text);
    if numbers.is_empty() {
        return;
    }
    let (start, end) = numbers.swap_remove(random.below(numbers.len()));
    let old = String::from_utf8_lossy(&text[start..end]).into_owned();
    let new = match random.below(10) {
        0..=4 => random.below(4).to_string(),
        5 => format!("0{old}"),
        6 => neighbour(random, &old),
        _ => random.pick(&EDGES).to_string(),
    };
    text.splice(start..end, new.into_bytes());
}

fn neighbour(random: &mut Random, digits: &str) -> String {
    let value: u64 = digits.parse().unwrap_or(0);
    let up = random.percent(50);
    let near = if up {
        value.wrapping_add(1)
    } else {
        value.wrapping_sub(1)
    };
    near.to_string()
}

/// The start and end of every run of digits.
fn numbers(text: &[u8]) -> Vec<(usize, usize)> {
    let digit = |place: usize| text.get(place).is_some_and(u8::is_ascii_digit);
    let starts = (0..text.len()).filter(|&place| digit(place) && !(place > 0 && digit(place - 1)));
    let end = |start: usize| (start..).find(|&place| !digit(place)).unwrap_or(start);
    starts.map(|start| (start, end(start))).collect()
}

fn lines(text: &[u8]) -> Vec<Vec<u8>> {
    let lines = text.split_inclusive(|&byte| byte == b'\n');
    lines.map(<[u8]>::to_vec).collect()
}

fn change_lines(random: &mut Random, text: &mut Vec<u8>) {
    let mut lines = lines(text);
    if lines.is_empty() {
        return;
    }
    let [one, other] = [random.below(lines.len()), random.below(lines.len())];
    match random.below(6) {
        0 => lines.swap(one, other),
        1 => lines.insert(other, lines[one].clone()),
        2 => {
            let line = lines.remove(one);
            lines.insert(other, line);
        }
        3 => lines.insert(one, b"\n".to_vec()),
        _ => {
            lines.remove(one);
        }
    }
    *text = lines.concat();
}

fn exchange_neighbours(random: &mut Random, text: &mut Vec<u8>) {
    let mut lines = lines(text);
    if lines.len() < 2 {
        return;
    }
    let upper = random.below(lines.len() - 1);
    lines.swap(upper, upper + 1);
    *text = lines.concat();
}

/// Changes the status or the value of a response.
fn change_response(random: &mut Random, text: &mut Vec<u8>) {
    let Ok(mut trace) = read_trace(text) else {
        return damage_text(random, text);
    };
    let mut responses: Vec<&mut Response> = trace.iter_mut().filter_map(response).collect();
    if responses.is_empty() {
        return;
    }
    let place = random.below(responses.len());
    if random.percent(30) {
        responses[place].status ^= 1;
    } else {
        responses[place].value = random.below(4) as u64;
    }
    *text = write_trace(&trace);
}

fn response(event: &mut Event) -> Option<&mut Response> {
    match event {
        Event::Response(response) => Some(response),
        Event::Request(_) => None,
    }
}

/// Exchanges two neighbours in one object's log, wherever their lines stand.
fn exchange_in_log(random: &mut Random, report: &mut Report) {
    if report.log.is_empty() {
        return;
    }
    let upper = random.below(report.log.len());
    let object = report.log[upper].object;
    let below = (upper + 1..report.log.len()).find(|&place| report.log[place].object == object);
    if let Some(lower) = below {
        report.log.swap(upper, lower);
    }
}

fn join_groups(random: &mut Random, report: &mut Report) {
    let groups = random.between(1, 3) as u64;
    for of in &mut report.of {
        of.group %= groups;
    }
}

/// Leaves a request open, half of the time or where all are answered, and most often changes what the report says
/// of an open one. The reads then mostly show what the logs give, so that an honest host could have reported it.
fn change_open(random: &mut Random, batch: &mut BatchTexts) {
    let (Ok(mut trace), Ok(mut report)) = (read_trace(&batch.trace), read_report(&batch.report))
    else {
        return damage_text(random, &mut batch.report);
    };
    if random.percent(50) || open_places(&trace, &report).is_empty() {
        drop_response(random, &mut trace);
    }
    let open = open_places(&trace, &report);
    if !open.is_empty() {
        let place = *random.pick(&open);
        match random.below(6) {
            0..=1 => change_count_at(random, &mut report, place),
            2 => delay_last(&mut report, place),
            3..=4 => join_alike(random, &trace, &mut report),
            _ => {}
        }
    }
    if random.percent(80) {
        show_reads(&mut report);
    }
    (batch.trace, batch.report) = (write_trace(&trace), write_report(&report));
}

fn drop_response(random: &mut Random, trace: &mut Vec<Event>) {
    let is_response = |&place: &usize| matches!(trace[place], Event::Response(_));
    let places: Vec<usize> = (0..trace.len()).filter(is_response).collect();
    if !places.is_empty() {
        trace.remove(*random.pick(&places));
    }
}

/// The places of the `of` lines whose requests the trace leaves open.
fn open_places(trace: &[Event], report: &Report) -> Vec<usize> {
    let answers = |rid| move |event: &Event| matches!(event, Event::Response(r) if r.rid == rid);
    let is_open = |&place: &usize| !trace.iter().any(answers(report.of[place].rid));
    (0..report.of.len()).filter(is_open).collect()
}

/// Puts the requests of one count, and most often one program, into one group: their paths may agree where all of
/// them are open, or none.
fn join_alike(random: &mut Random, trace: &[Event], report: &mut Report) {
    let by_program = random.percent(70);
    let program = |rid| {
        trace.iter().find_map(|event| match event {
            Event::Request(request) if request.rid == rid => Some(request.program),
            _ => None,
        })
    };
    let key = |of: &OfLine| (of.count, program(of.rid).filter(|_| by_program));
    let keys: Vec<_> = report.of.iter().map(key).collect();
    for (of, own) in report.of.iter_mut().zip(&keys) {
        let first = keys.iter().position(|key| key == own);
        of.group = first.map_or(0, |place| place as u64);
    }
}

/// Puts the last operation of a request behind all others of its object.
fn delay_last(report: &mut Report, place: usize) {
    let of = report.of[place];
    let is_last = |line: &LogLine| (line.rid, line.num) == (of.rid, of.count);
    if let Some(place) = report.log.iter().position(is_last) {
        let line = report.log.remove(place);
        report.log.push(line);
    }
}

fn change_count(random: &mut Random, report: &mut Report) {
    if !report.of.is_empty() {
        let place = random.below(report.of.len());
        change_count_at(random, report, place);
    }
}

/// Changes a count by one and, most often, the log with it, so that the claims still fit the count.
fn change_count_at(random: &mut Random, report: &mut Report, place: usize) {
    let rid = report.of[place].rid;
    let count = &mut report.of[place].count;
    let less = random.percent(50) && *count > 0;
    if less {
        let dropped = *count;
        *count -= 1;
        if random.percent(70) {
            report
                .log
                .retain(|line| (line.rid, line.num) != (rid, dropped));
        }
    } else if *count < 256 {
        *count += 1;
        let num = *count;
        if random.percent(70) && !report.log.is_empty() {
            let mut line = *random.pick(&report.log);
            (line.rid, line.num) = (rid, num);
            report.log.push(line);
        }
    }
}

/// Gives each read of a report the value that the lines above it in its object's log leave.
fn show_reads(report: &mut Report) {
    let mut objects = Objects::default();
    for line in &mut report.log {
        let answer = objects.perform(Operation::claimed_by(line));
        if is_read(line.kind) {
            line.value = answer;
        }
    }
}

fn reads(report: &mut Report) -> impl Iterator<Item = &mut LogLine> {
    report.log.iter_mut().filter(|line| is_read(line.kind))
}

/// Shows 0 for every read, as reports did before reads were shown.
fn hide_reads(report: &mut Report) {
    reads(report).for_each(|line| line.value = 0);
}

/// Claims a lookup of a store with the kind of the other code that looks a key up.
fn exchange_lookup(random: &mut Random, report: &mut Report) {
    let mut lookups: Vec<&mut LogLine> = reads(report).filter(|line| line.kind != 6).collect();
    if !lookups.is_empty() {
        let line = lookups.swap_remove(random.below(lookups.len()));
        line.kind = 18 - line.kind;
    }
}

/// Shows another value for a read, half of the time 0 for 1 and 1 for 0, which kind 10 may show. Half of the time
/// its request answers with that value.
fn misstate_read(random: &mut Random, batch: &mut BatchTexts) {
    let (Ok(mut trace), Ok(mut report)) = (read_trace(&batch.trace), read_report(&batch.report))
    else {
        return damage_text(random, &mut batch.report);
    };
    let mut reads: Vec<&mut LogLine> = reads(&mut report).collect();
    if reads.is_empty() {
        return;
    }
    let line = reads.swap_remove(random.below(reads.len()));
    line.value = match random.below(4) {
        0..=1 => line.value ^ 1,
        more => line.value.wrapping_add(more as u64),
    };
    let (rid, wrong) = (line.rid, line.value);
    if random.percent(50) {
        let responses = trace.iter_mut().filter_map(response);
        let own = responses.filter(|response| response.rid == rid);
        own.for_each(|response| response.value = wrong);
    }
    (batch.trace, batch.report) = (write_trace(&trace), write_report(&report));
}

/// Exchanges what two log lines claim: the operations go to other places, or to each other's requests.
fn renumber(random: &mut Random, report: &mut Report) {
    if report.log.is_empty() {
        return;
    }
    let [one, other] = [
        random.below(report.log.len()),
        random.below(report.log.len()),
    ];
    let claim = (report.log[one].rid, report.log[one].num);
    (report.log[one].rid, report.log[one].num) = (report.log[other].rid, report.log[other].num);
    (report.log[other].rid, report.log[other].num) = claim;
}

/// Gives a key to a register's write, or a write another kind, where a request that arrived earlier reads it.
/// What that request reads then depends on whether the line still counts as a write, and it is looked at
/// before the request whose line is misstated.
fn misstate_write(random: &mut Random, report: &mut Report) {
    let feeds = |&place: &usize| read_by_earlier(report, place);
    let places: Vec<usize> = (0..report.log.len()).filter(feeds).collect();
    if places.is_empty() {
        return change_log_line(random, report);
    }
    let line = &mut report.log[*random.pick(&places)];
    if line.kind == 7 && random.percent(50) {
        line.key = random.between(1, 3) as u64;
    } else {
        line.kind = *random.pick(&[7, 9, 10, 16 - line.kind, 16 - line.kind]);
    }
}

/// Whether the log line at this place is a write, and the next line of its object and key is a read by a
/// request that arrived earlier.
fn read_by_earlier(report: &Report, place: usize) -> bool {
    let write = &report.log[place];
    let mut below = report.log[place + 1..].iter();
    let next = below.find(|line| (line.object, line.key) == (write.object, write.key));
    let arrival = |line: &LogLine| report.of.iter().position(|of| of.rid == line.rid);
    next.is_some_and(|read| {
        let fed = Operation::claimed_by(write).is_write() && is_read(read.kind);
        fed && arrival(read) < arrival(write)
    })
}

fn change_log_line(random: &mut Random, report: &mut Report) {
    if report.log.is_empty() {
        return;
    }
    let place = random.below(report.log.len());
    let small = random.below(4) as u64;
    let line = &mut report.log[place];
    match random.below(7) {
        0 => line.value = small,
        1..=2 => line.key = small,
        3..=4 => line.kind = *random.pick(&KINDS),
        5 => line.object = (line.object + 8) % 16,
        _ => line.object = small,
    }
}

#[cfg(test)]
mod tests {
    use super::*;
    use crate::audit::{audit, read_batch};
    use crate::random::{run, SMALL};

    fn damaged() -> impl Iterator<Item = BatchTexts> {
        (0..3_000).map(|seed| {
            let mut random = Random::new(seed);
            let mut batch = run(&mut random, SMALL).batch;
            damage_batch(&mut random, &mut batch);
            batch
        })
    }

    #[test]
    fn every_verdict_of_the_audit_is_reached() {
        let mut seen = [0; 13];
        for batch in damaged() {
            let audited = audit(&batch.programs, &batch.trace, &batch.report);
            seen[audited.verdict as usize] += 1;
        }
        assert!(seen.iter().all(|&count| count > 0), "{seen:?}");
    }

    /// Rows 10 and 12 at open requests, the others with one in the batch; no 11 is looked for.
    #[test]
    fn open_requests_reach_every_row_behind_the_sixth_but_the_eleventh() {
        let mut seen = [0; 13];
        for batch in damaged() {
            let read = read_batch(&batch.programs, &batch.trace, &batch.report);
            let Ok(read) = read else { continue };
            let audited = audit(&batch.programs, &batch.trace, &batch.report);
            let is_open = |place: usize| read.requests[place].1.is_none();
            let open = match audited.verdict {
                10..=12 => is_open(audited.line - 1),
                _ => (0..read.requests.len()).any(is_open),
            };
            seen[audited.verdict as usize] += usize::from(open);
        }
        for verdict in [0, 7, 8, 9, 10, 12] {
            assert!(seen[verdict] > 0, "{verdict}: {seen:?}");
        }
        assert_eq!(seen[11], 0);
    }

    #[test]
    fn kind_10_comes_to_registers_and_kind_11_to_reports() {
        let reports_with = |fits: fn(&[u64; 6]) -> bool| {
            let reports = damaged().map(|batch| batch.report);
            reports
                .filter(|report| log_lines(report).iter().any(fits))
                .count()
        };
        assert!(reports_with(|[object, _, _, kind, ..]| *object < 8 && *kind == 10) > 10);
        assert!(reports_with(|[_, _, _, kind, ..]| *kind == 11) > 10);
    }

    /// The numbers of the log lines, whatever their ranges are.
    fn log_lines(report: &[u8]) -> Vec<[u64; 6]> {
        let text = String::from_utf8_lossy(report);
        let log = text.lines().filter_map(|line| line.strip_prefix("log="));
        let numbers = log.map(|list| list.split(',').flat_map(str::parse).collect());
        numbers.flat_map(|list: Vec<u64>| list.try_into()).collect()
    }

    #[test]
    fn numbers_are_found_where_they_stand() {
        assert_eq!(numbers(b"of=12,0\n"), [(3, 5), (6, 7)]);
        assert_eq!(numbers(b"7"), [(0, 1)]);
        assert_eq!(numbers(b""), []);
    }
}
