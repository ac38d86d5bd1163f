//! Requests that were never answered, each batch with the result worked out by hand.

use super::{
    accepted, batch, case_a, case_b, case_c, changed_c, refused, Case, LOOP, PROGRAMS, WRITES,
};
use crate::texts::BatchTexts;

/// Two programs that reply at once.
const REPLIES: &str = "program=0\ndo=0,0,0,0\nprogram=1\ndo=0,0,0,0\n";
/// Two operations, and between them an instruction more where the input is 0; both programs are the same.
const PARTING: &str = "program=0\ndo=7,0,2,0\ndo=5,0,3,0\ndo=1,2,0,0\ndo=7,1,2,0\ndo=0,0,0,0\n\
                       program=1\ndo=7,0,2,0\ndo=5,0,3,0\ndo=1,2,0,0\ndo=7,1,2,0\ndo=0,0,0,0\n";

const BOTH_OPEN: &str = "request=1,0,0,0\nrequest=2,1,0,0\n";
/// Both have carried out nothing and are in one group.
const NOTHING: &str = "of=1,0,0\nof=2,0,0\n";

pub fn open() -> Vec<Case> {
    let mut cases = stops();
    cases.extend(no_response());
    cases.extend(lines());
    cases.extend(too_few_operations());
    cases.extend(other_operations());
    cases.extend(groups_of_nothing());
    cases.extend(groups_of_operations());
    cases.extend(groups_with_answered());
    cases.extend(cut_off());
    cases.extend(later_operations());
    cases.extend(chains_that_return());
    cases
}

/// An open request of program 0.
fn one(programs: &str, report: &str) -> BatchTexts {
    batch(programs, "request=1,0,0,0\n", report)
}

fn with_trace(trace: &str, batch: BatchTexts) -> BatchTexts {
    BatchTexts {
        trace: trace.into(),
        ..batch
    }
}

/// The places where a request may stop.
fn stops() -> Vec<Case> {
    let write = "log=0,1,1,7,0,1\n";
    let none = one(PROGRAMS, "of=1,0,0\n");
    let first = one(PROGRAMS, &format!("of=1,0,1\n{write}"));
    let both = one(PROGRAMS, &format!("of=1,0,2\n{write}log=1,1,2,6,0,0\n"));
    // Request 2 would write 1 into register 0, where request 1 reads 0.
    let not_written = batch(
        PROGRAMS,
        "request=2,0,0,0\nrequest=1,1,0,0\nresponse=1,0,0\n",
        "of=2,0,0\nof=1,1,2\nlog=0,1,2,6,0,0\nlog=1,1,1,7,0,1\n",
    );
    vec![
        accepted("open before its operations", none, [1, 0, 0, 0]).in_order("event=1\n"),
        accepted("open behind one of two operations", first, [1, 1, 0, 1])
            .in_order("event=1\nop=1,1\n"),
        accepted("open behind both operations", both, [1, 2, 0, 2])
            .in_order("event=1\nop=1,1\nop=1,2\n"),
        accepted("a first operation not come to", not_written, [2, 2, 0, 2])
            .in_order("event=1\nevent=2\nop=1,1\nop=1,2\nevent=3\n"),
    ]
}

/// A reply of 1 or a cut would follow, and no response is asked for.
fn no_response() -> Vec<Case> {
    let first_open = with_trace(
        "request=1,0,0,0\nrequest=2,1,0,0\nresponse=2,0,1\n",
        case_c(),
    );
    let both_open = with_trace(BOTH_OPEN, case_c());
    let looped = one(LOOP, "of=1,0,0\n");
    vec![
        accepted("C without its first response", first_open, [2, 4, 0, 4])
            .in_order("event=1\nop=1,1\nevent=2\nop=2,1\nop=2,2\nop=1,2\nevent=3\n"),
        accepted("C without responses", both_open, [2, 4, 0, 4])
            .in_order("event=1\nop=1,1\nevent=2\nop=2,1\nop=2,2\nop=1,2\n"),
        accepted("a loop left open", looped, [1, 0, 0, 0]).in_order("event=1\n"),
    ]
}

/// What rows 4 to 8 ask of the lines they ask of open requests too.
fn lines() -> Vec<Case> {
    let twice = "request=1,0,0,0\nrequest=1,0,0,0\n";
    let report = |text: &str| one(PROGRAMS, text);
    let uncounted = "of=1,0,0\nlog=0,1,1,7,0,1\n";
    vec![
        refused("rid of an open request", batch(PROGRAMS, twice, "x"), 4, 2),
        refused("open without its of line", report(""), 6, 1),
        refused("open with a line too many", report(uncounted), 7, 2),
        refused("open without its log line", report("of=1,0,1\n"), 8, 1),
    ]
}

/// Programs that come to a reply or a cut before the operation that is counted.
fn too_few_operations() -> Vec<Case> {
    let counted = "of=1,0,1\nlog=0,1,1,7,0,0\n";
    let third = "of=1,0,3\nlog=0,1,1,7,0,1\nlog=1,1,2,6,0,0\nlog=1,1,3,6,0,0\n";
    vec![
        refused("open, a reply at once", one(REPLIES, counted), 10, 1),
        refused("open, cut off with none", one(LOOP, counted), 10, 1),
        refused("open, a third of two", one(PROGRAMS, third), 10, 1),
    ]
}

fn other_operations() -> Vec<Case> {
    let last = "of=1,0,1\nlog=0,1,1,7,0,2\n";
    let earlier = "of=1,0,2\nlog=0,1,1,7,0,2\nlog=1,1,2,6,0,0\n";
    let read = changed_c(
        ["response=2,0,1\n", ""],
        ["log=0,2,2,6,0,1", "log=0,2,2,6,0,7"],
    );
    // Request 1 rightly answers the 2 that it read, but request 2 writes 1.
    let fed = batch(
        PROGRAMS,
        "request=1,1,0,0\nrequest=2,0,0,0\nresponse=1,0,2\n",
        "of=1,0,2\nof=2,1,1\nlog=0,2,1,7,0,2\nlog=0,1,2,6,0,2\nlog=1,1,1,7,0,1\n",
    );
    vec![
        refused("open, its last write differs", one(PROGRAMS, last), 10, 1),
        refused(
            "open, an earlier one differs",
            one(PROGRAMS, earlier),
            10,
            1,
        ),
        refused("open, its last read differs", read, 10, 2),
        refused("open, a wrong write is read", fed, 10, 2),
    ]
}

fn groups_of_nothing() -> Vec<Case> {
    let one_program = "request=1,0,0,0\nrequest=2,0,1,0\n";
    let alike = batch(PARTING, one_program, NOTHING);
    let two_programs = batch(PARTING, BOTH_OPEN, NOTHING);
    let lines = |line: fn(usize) -> String| (0..64).map(line).collect::<String>();
    let requests = lines(|rid| format!("request={rid},0,0,0\n"));
    let of = lines(|rid| format!("of={rid},0,0\n"));
    let full = batch(REPLIES, &requests, &of);
    vec![
        accepted("nothing of one program", alike, [2, 0, 0, 0]).in_order("event=1\nevent=2\n"),
        refused("nothing of two programs", two_programs, 12, 2),
        accepted("64 open requests", full, [64, 0, 0, 0]),
    ]
}

/// Two open requests, the second with this input.
fn groups_of_operations() -> Vec<Case> {
    let two = |input: u64, report: &str| {
        let trace = format!("request=1,0,0,0\nrequest=2,0,{input},0\n");
        batch(PARTING, &trace, report)
    };
    let firsts = "log=0,1,1,7,0,0\nlog=0,2,1,7,0,0\n";
    let first = format!("of=1,0,1\nof=2,0,1\n{firsts}");
    let both = format!("of=1,0,2\nof=2,0,2\n{firsts}log=1,1,2,7,0,0\nlog=1,2,2,7,0,0\n");
    let uneven = format!("of=1,0,2\nof=2,0,1\n{firsts}log=1,1,2,7,0,0\n");
    vec![
        accepted("parting behind the last", two(1, &first), [2, 2, 0, 2])
            .in_order("event=1\nop=1,1\nevent=2\nop=2,1\n"),
        refused("parting before the last", two(1, &both), 12, 2),
        accepted("not parting", two(0, &both), [2, 4, 0, 4]),
        refused("stopping an operation earlier", two(0, &uneven), 12, 2),
    ]
}

/// A request that is answered and one that is not; the reply is in one path alone.
fn groups_with_answered() -> Vec<Case> {
    let open_last = "request=1,0,0,0\nresponse=1,0,0\nrequest=2,0,0,0\n";
    let open_first = "request=1,0,0,0\nrequest=2,0,0,0\nresponse=2,0,0\n";
    let writes = "log=0,1,1,7,0,1\nlog=0,2,1,7,0,1\n";
    let reads = "log=1,1,2,6,0,0\nlog=1,2,2,6,0,0\n";
    let operations = format!("of=1,0,2\nof=2,0,2\n{writes}{reads}");
    let of_c = |trace| batch(PROGRAMS, trace, &operations);
    let replies = batch(REPLIES, open_last, NOTHING);
    vec![
        refused("answered, then open", of_c(open_last), 12, 2),
        refused("open, then answered", of_c(open_first), 12, 2),
        refused("a reply alone, then open", replies, 12, 2),
    ]
}

/// Operations at the cut; the path of a request that is cut off right behind one ends there too.
fn cut_off() -> Vec<Case> {
    let [answered, open] = [true, false];
    let at_cut = |count, requests: &[bool]| writing(WRITES, count, requests);
    // Write k is instruction 2k + 1, write 127 the 255th.
    let later = WRITES.replacen("do=1,2,1,0\n", "do=1,2,1,0\ndo=1,2,1,0\n", 1);
    let later = later.replacen("do=5,2,1,0\n", "do=5,2,2,0\n", 1);
    let before_cut = writing(&later, 127, &[answered, open]);
    let counts = [2, 256, 2, 56];
    vec![
        accepted("open at the 256th", at_cut(128, &[open]), [1, 128, 1, 28]),
        refused("open behind the 256th", at_cut(129, &[open]), 10, 1),
        accepted("cut off, then open", at_cut(128, &[answered, open]), counts),
        accepted("open, then cut off", at_cut(128, &[open, answered]), counts),
        refused("cut off an instruction later", before_cut, 12, 2),
    ]
}

/// Requests of one group, one after the other, answered with the cut or not: each writes 1 into register 0 so
/// many times.
fn writing(programs: &str, count: usize, requests: &[bool]) -> BatchTexts {
    let [mut trace, mut of, mut log] = [(); 3].map(|()| String::new());
    for (rid, &answered) in requests.iter().enumerate() {
        trace += &format!("request={rid},0,0,0\n");
        if answered {
            trace += &format!("response={rid},1,0\n");
        }
        of += &format!("of={rid},0,{count}\n");
        for num in 1..=count {
            log += &format!("log=0,{rid},{num},7,0,1\n");
        }
    }
    batch(programs, &trace, &(of + &log))
}

/// The last operation of an open request comes before no response: it may stand behind what came later.
fn later_operations() -> Vec<Case> {
    let without_first = with_trace(
        "request=1,0,0,0\nrequest=2,1,0,0\nresponse=2,0,0\n",
        case_a(0),
    );
    vec![
        accepted("A without its first response", without_first, [2, 4, 0, 4])
            .in_order("event=1\nevent=2\nop=2,1\nop=2,2\nop=1,1\nop=1,2\nevent=3\n"),
        accepted("a later write is read", read_of_later(""), [3, 3, 0, 3])
            .in_order("event=1\nevent=2\nop=2,1\nevent=3\nevent=4\nop=3,1\nop=1,1\nevent=5\n"),
        refused(
            "a later write is read, answered before",
            read_of_later("response=1,0,6\n"),
            9,
            0,
        ),
    ]
}

/// Request 1 reads what request 3 wrote; this line of the trace stands before request 3.
fn read_of_later(line: &str) -> BatchTexts {
    let trace = "request=1,0,0,0\nrequest=2,1,5,0\nresponse=2,0,5\n";
    batch(
        "program=0\ndo=6,2,0,0\ndo=0,2,0,0\nprogram=1\ndo=7,0,0,0\ndo=0,0,0,0\n",
        &format!("{trace}{line}request=3,1,6,0\nresponse=3,0,6\n"),
        "of=1,0,1\nof=2,1,1\nof=3,1,1\nlog=0,2,1,7,0,5\nlog=0,3,1,7,0,6\nlog=0,1,1,6,0,6\n",
    )
}

fn chains_that_return() -> Vec<Case> {
    let without_second = with_trace(
        "request=1,0,0,0\nresponse=1,0,1\nrequest=2,1,0,0\n",
        case_a(0),
    );
    let without_both = with_trace(BOTH_OPEN, case_b(0));
    let against_numbers = one(
        "program=0\ndo=7,0,0,0\ndo=7,0,0,0\ndo=0,0,0,0\n",
        "of=1,0,2\nlog=0,1,2,7,0,0\nlog=0,1,1,7,0,0\n",
    );
    vec![
        refused("A without its second response", without_second, 9, 0),
        refused("B without responses", without_both, 9, 0),
        refused("open, against its numbers", against_numbers, 9, 0),
    ]
}
