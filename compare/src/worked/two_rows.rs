//! Batches that break two rows of the table at once, for each two that stand next to each other in its order: the
//! first is the verdict and, once that is mended, the second.

use super::{batch, refused, Case, PROGRAMS};
use crate::texts::BatchTexts;

pub fn two_rows() -> Vec<Case> {
    let pairs = [texts(), reports(), returning(), replays()];
    let mut cases: Vec<Case> = pairs.into_iter().flatten().flatten().collect();
    cases.extend(across());
    cases
}

/// A batch that breaks two rows, and the same with the first mended.
type Pair = [Case; 2];

/// Their names, and what is found of each: verdict and line.
type Found = [(&'static str, u64, usize); 2];

fn pair([first, second]: Found, both: BatchTexts, mended: BatchTexts) -> Pair {
    [
        refused(first.0, both, first.1, first.2),
        refused(second.0, mended, second.1, second.2),
    ]
}

/// A local that does not exist, in line 2.
const NO_LOCAL: &str = "program=0\ndo=0,8,0,0\n";
const REPLIES: &str = "program=0\ndo=0,0,0,0\n";
const ANSWERED: &str = "request=1,0,0,0\nresponse=1,0,0\n";
const NO_REQUEST: &str = "response=1,0,0\n";
const LEADING_ZERO: &str = "request=01,0,0,0\n";

/// Rows 1 to 4: programs and trace.
fn texts() -> Vec<Pair> {
    let programs = |found, [both, mended]: [&str; 2], trace| {
        pair(found, batch(both, trace, ""), batch(mended, trace, ""))
    };
    let unreadable = format!("{NO_LOCAL}do=1\n");
    vec![
        programs(
            [("rows 1 and 2", 1, 3), ("row 2 behind 1", 2, 2)],
            [&unreadable, NO_LOCAL],
            "",
        ),
        programs(
            [("rows 1 and 3", 1, 1), ("row 3 behind 1", 3, 1)],
            ["do=1,2\n", REPLIES],
            LEADING_ZERO,
        ),
        programs(
            [("rows 2 and 3", 2, 2), ("row 3 behind 2", 3, 1)],
            [NO_LOCAL, REPLIES],
            LEADING_ZERO,
        ),
        programs(
            [("rows 1 and 4", 1, 1), ("row 4 behind 1", 4, 1)],
            ["do=1,2\n", REPLIES],
            NO_REQUEST,
        ),
        programs(
            [("rows 2 and 4", 2, 2), ("row 4 behind 2", 4, 1)],
            [NO_LOCAL, REPLIES],
            NO_REQUEST,
        ),
        pair(
            [("rows 3 and 4", 3, 2), ("row 4 behind 3", 4, 1)],
            batch(REPLIES, &format!("{NO_REQUEST}{LEADING_ZERO}"), ""),
            batch(REPLIES, NO_REQUEST, ""),
        ),
    ]
}

/// Rows 3 to 8, with the report.
fn reports() -> Vec<Pair> {
    let trace = |found, trace| {
        let both = batch(REPLIES, trace, "of=1,0\n");
        pair(found, both, batch(REPLIES, "", "of=1,0\n"))
    };
    let report = |found, both, mended| {
        let mended = batch(REPLIES, ANSWERED, mended);
        pair(found, batch(REPLIES, ANSWERED, both), mended)
    };
    vec![
        trace(
            [("rows 3 and 5", 3, 1), ("row 5 behind 3", 5, 1)],
            LEADING_ZERO,
        ),
        trace(
            [("rows 4 and 5", 4, 1), ("row 5 behind 4", 5, 1)],
            NO_REQUEST,
        ),
        report(
            [("rows 5 and 6", 5, 2), ("row 6 behind 5", 6, 1)],
            "of=2,0,0\nlog=0\n",
            "of=2,0,0\n",
        ),
        // An `of` line too many, and an operation above the count.
        report(
            [("rows 6 and 7", 6, 2), ("row 7 behind 6", 7, 2)],
            "of=1,0,0\nof=2,1,0\nlog=0,1,1,7,0,1\n",
            "of=1,0,0\nlog=0,1,1,7,0,1\n",
        ),
        // The line of operation 1 claims operation 2.
        report(
            [("rows 7 and 8", 7, 2), ("row 8 behind 7", 8, 1)],
            "of=1,0,1\nlog=0,1,2,7,0,1\n",
            "of=1,0,1\n",
        ),
    ]
}

/// Rows 8 to 12 of case B, whose order returns to itself. It does not, once the lines of register 1 are exchanged: then
/// request 2 is first, and request 1 reads 1.
fn returning() -> Vec<Pair> {
    let case = |of: [&str; 2], reply, log_1: &str| {
        let trace =
            format!("request=1,0,0,0\nrequest=2,1,0,0\nresponse=1,0,{reply}\nresponse=2,0,0\n");
        let log_0 = "log=0,2,2,6,0,0\nlog=0,1,1,7,0,1\n";
        let report = format!("{}\n{}\n{log_0}{log_1}", of[0], of[1]);
        batch(PROGRAMS, &trace, &report)
    };
    let reads = |value| format!("log=1,1,2,6,0,{value}\nlog=1,2,1,7,0,1\n");
    let reads_later = |value| format!("log=1,2,1,7,0,1\nlog=1,1,2,6,0,{value}\n");
    let ofs = ["of=1,0,2", "of=2,1,2"];
    let one_group = ["of=1,0,2", "of=2,0,2"];
    vec![
        // Operation 3 has no line.
        pair(
            [("rows 8 and 9", 8, 1), ("row 9 behind 8", 9, 0)],
            case(["of=1,0,3", "of=2,1,2"], 0, &reads(0)),
            case(ofs, 0, &reads(0)),
        ),
        pair(
            [("rows 9 and 10", 9, 0), ("row 10 behind 9", 10, 1)],
            case(ofs, 0, &reads(7)),
            case(ofs, 0, &reads_later(7)),
        ),
        pair(
            [("rows 9 and 11", 9, 0), ("row 11 behind 9", 11, 1)],
            case(ofs, 5, &reads(0)),
            case(ofs, 5, &reads_later(1)),
        ),
        pair(
            [("rows 9 and 12", 9, 0), ("row 12 behind 9", 12, 2)],
            case(one_group, 0, &reads(0)),
            case(one_group, 1, &reads_later(1)),
        ),
    ]
}

/// Three requests of programs that reply at once. Rows that requests 2 and 3 break: 10 by an operation in the report,
/// 11 by another response, 12 by the group of request 1, whose program is another.
fn three(second: &[u64], third: &[u64]) -> BatchTexts {
    let [mut requests, mut responses, mut of, mut log] = [(); 4].map(|()| String::new());
    for (place, rows) in [&[][..], second, third].into_iter().enumerate() {
        let breaks = |row| usize::from(rows.contains(&row));
        let (rid, program) = (place + 1, place.min(1));
        let (count, value, group) = (breaks(10), 5 * breaks(11), place * (1 - breaks(12)));
        requests += &format!("request={rid},{program},0,0\n");
        responses += &format!("response={rid},0,{value}\n");
        of += &format!("of={rid},{group},{count}\n");
        log += &format!("log=0,{rid},1,7,0,1\n").repeat(count);
    }
    batch(
        "program=0\ndo=0,0,0,0\nprogram=1\ndo=0,0,0,0\n",
        &(requests + &responses),
        &(of + &log),
    )
}

/// Two of rows 10 to 12 in one request.
fn replays() -> Vec<Pair> {
    let both = |found, [first, second]: [u64; 2]| {
        pair(found, three(&[first, second], &[]), three(&[second], &[]))
    };
    vec![
        both(
            [("rows 10 and 11", 10, 2), ("row 11 behind 10", 11, 2)],
            [10, 11],
        ),
        both(
            [("rows 10 and 12", 10, 2), ("row 12 behind 10", 12, 2)],
            [10, 12],
        ),
        both(
            [("rows 11 and 12", 11, 2), ("row 12 behind 11", 12, 2)],
            [11, 12],
        ),
    ]
}

/// Each of rows 10 to 12 in request 2 before each in request 3, and each of them in request 3 alone.
fn across() -> Vec<Case> {
    let named = [
        ("10 before 10", 10, 10),
        ("10 before 11", 10, 11),
        ("10 before 12", 10, 12),
        ("11 before 10", 11, 10),
        ("11 before 11", 11, 11),
        ("11 before 12", 11, 12),
        ("12 before 10", 12, 10),
        ("12 before 11", 12, 11),
        ("12 before 12", 12, 12),
    ];
    let alone = [("10 alone", 10), ("11 alone", 11), ("12 alone", 12)];
    let both =
        named.map(|(name, second, third)| refused(name, three(&[second], &[third]), second, 2));
    let alone = alone.map(|(name, third)| refused(name, three(&[], &[third]), third, 3));
    both.into_iter().chain(alone).collect()
}
