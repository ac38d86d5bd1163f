//! The batches and schedules that the scope paper works out, an example of every row of its table, and the
//! limits, each with the result that the paper gives; full hundreds of operations; orders to read, reads in the
//! log, open requests, comparisons, held keys and two rows at once, worked out by hand.

mod comparisons;
mod held;
mod hundreds;
mod limits;
mod open;
mod orders;
mod reads;
mod schedules;
mod two_rows;

use crate::audit::Audited;
use crate::texts::BatchTexts;

pub const PROGRAMS: &str = "program=0\ndo=1,2,1,0\ndo=7,0,2,0\ndo=6,0,1,0\ndo=0,0,0,0\n\
                            program=1\ndo=1,2,1,0\ndo=7,1,2,0\ndo=6,0,0,0\ndo=0,0,0,0\n";
pub const LOOP: &str = "program=0\ndo=1,2,1,0\ndo=5,2,0,0\ndo=0,0,0,0\n";
/// One constant, then write and jump in turn up to the cut: write k is instruction 2k, write 128 the 256th.
const WRITES: &str = "program=0\ndo=1,2,1,0\ndo=7,0,2,0\ndo=5,2,1,0\ndo=0,0,0,0\n";
/// Fills the well of key a with b where nobody filled it, and replies whether somebody had.
pub const FILL: &str = "program=0\ndo=10,2,8,0\ndo=5,2,3,0\ndo=9,8,0,1\ndo=0,2,0,0\n";
pub const SCHEDULE_OF_C: &[u8] =
    b"arrive=1,0,0,0\narrive=2,1,0,0\nturn=1\nturn=2\nturn=1\nturn=2\nturn=1\nturn=2\n";

const TRACE_OF_C: &str = "request=1,0,0,0\nrequest=2,1,0,0\nresponse=1,0,1\nresponse=2,0,1\n";
const REPORT_OF_C: &str = "of=1,0,2\nof=2,1,2\n\
                           log=0,1,1,7,0,1\nlog=0,2,2,6,0,1\nlog=1,2,1,7,0,1\nlog=1,1,2,6,0,1\n";
const ORDER_OF_C: &str = "event=1\nop=1,1\nevent=2\nop=2,1\nop=2,2\nop=1,2\nevent=3\nevent=4\n";

#[cfg(test)]
pub use schedules::{in_turns, FILLING};
pub use schedules::{schedules, stored_schedules, Schedule};

pub struct Case {
    pub name: &'static str,
    pub batch: BatchTexts,
    pub expected: Audited,
    /// The lines of the order, where they were worked out by hand; a refused batch has none.
    pub order: Option<&'static str>,
}

impl Case {
    /// An accepted batch with the lines of its order.
    fn in_order(self, order: &'static str) -> Case {
        Case {
            order: Some(order),
            ..self
        }
    }
}

pub fn batch(programs: &str, trace: &str, report: &str) -> BatchTexts {
    BatchTexts {
        programs: programs.into(),
        trace: trace.into(),
        report: report.into(),
    }
}

pub fn case_c() -> BatchTexts {
    batch(PROGRAMS, TRACE_OF_C, REPORT_OF_C)
}

/// Every batch of these files.
pub fn batches() -> Vec<Case> {
    let mut cases = stored_batches();
    cases.extend(two_rows::two_rows());
    cases
}

/// Those that crate `vectors` stores too.
pub fn stored_batches() -> Vec<Case> {
    let mut cases = worked();
    cases.extend(rows());
    cases.extend(readings());
    cases.extend(limits::limits());
    cases.extend(orders::orders());
    cases.extend(hundreds::hundreds());
    cases.extend(reads::reads());
    cases.extend(open::open());
    cases.extend(comparisons::comparisons());
    cases.extend(held::held());
    cases
}

/// An accepted batch with its requests, operations, blocks and rest, each worked out by hand.
fn accepted(name: &'static str, batch: BatchTexts, counts: [usize; 4]) -> Case {
    let [requests, operations, blocks, rest] = counts;
    let expected = Audited {
        verdict: 0,
        line: 0,
        requests,
        operations,
        blocks,
        rest,
    };
    Case {
        name,
        batch,
        expected,
        order: None,
    }
}

fn refused(name: &'static str, batch: BatchTexts, verdict: u64, line: usize) -> Case {
    let expected = Audited {
        verdict,
        line,
        requests: 0,
        operations: 0,
        blocks: 0,
        rest: 0,
    };
    Case {
        name,
        batch,
        expected,
        order: Some(""),
    }
}

/// Case C with a piece of its report or trace exchanged for another.
fn changed_c(trace: [&str; 2], report: [&str; 2]) -> BatchTexts {
    let exchanged = |text: &str, [old, new]: [&str; 2]| {
        assert!(text.contains(old));
        text.replacen(old, new, 1)
    };
    batch(
        PROGRAMS,
        &exchanged(TRACE_OF_C, trace),
        &exchanged(REPORT_OF_C, report),
    )
}

const SAME: [&str; 2] = ["", ""];

/// Case B, whose reads show this value; by its logs both gave 0.
fn case_b(read: u64) -> BatchTexts {
    let log_0 = format!("log=0,2,2,6,0,{read}\nlog=0,1,1,7,0,1\n");
    let log_1 = format!("log=1,1,2,6,0,{read}\nlog=1,2,1,7,0,1\n");
    batch(
        PROGRAMS,
        "request=1,0,0,0\nrequest=2,1,0,0\nresponse=1,0,0\nresponse=2,0,0\n",
        &format!("of=1,0,2\nof=2,1,2\n{log_0}{log_1}"),
    )
}

/// Case A, whose read of register 0 shows this value; by its log it gave 0.
fn case_a(read: u64) -> BatchTexts {
    let log_0 = format!("log=0,2,2,6,0,{read}\nlog=0,1,1,7,0,1\n");
    let log_1 = "log=1,2,1,7,0,1\nlog=1,1,2,6,0,1\n";
    batch(
        PROGRAMS,
        "request=1,0,0,0\nresponse=1,0,1\nrequest=2,1,0,0\nresponse=2,0,0\n",
        &format!("of=1,0,2\nof=2,1,2\n{log_0}{log_1}"),
    )
}

fn worked() -> Vec<Case> {
    let looped = batch(LOOP, "request=1,0,0,0\nresponse=1,1,0\n", "of=1,0,0\n");
    vec![
        accepted("case C", case_c(), [2, 4, 0, 4]).in_order(ORDER_OF_C),
        refused("case B", case_b(0), 9, 0),
        refused("case A", case_a(0), 9, 0),
        accepted("all empty", BatchTexts::default(), [0; 4]).in_order(""),
        accepted("the loop", looped, [1, 0, 0, 0]).in_order("event=1\nevent=2\n"),
    ]
}

fn rows() -> Vec<Case> {
    let one = "request=1,0,0,0\nresponse=1,0,0\n";
    let replies = "program=0\ndo=0,0,0,0\n";
    vec![
        refused("row 1", batch("do=1,2\n", "x", "x"), 1, 1),
        refused("row 2", batch("program=0\ndo=0,8,0,0\n", "x", "x"), 2, 2),
        refused("row 3", batch("", "request=01,0,0,0\n", "x"), 3, 1),
        refused("row 4", batch("", "response=1,0,0\n", "x"), 4, 1),
        refused("row 5", batch("", "", "of=1,0\n"), 5, 1),
        refused("row 6", batch(replies, one, ""), 6, 1),
        refused(
            "row 7",
            batch(replies, one, "of=1,0,0\nlog=0,1,1,7,0,1\n"),
            7,
            2,
        ),
        refused("row 8", batch(replies, one, "of=1,0,1\n"), 8, 1),
        refused(
            "row 10",
            changed_c(SAME, ["log=0,1,1,7,0,1", "log=0,1,1,7,0,2"]),
            10,
            1,
        ),
        refused(
            "row 11",
            changed_c(["response=2,0,1", "response=2,0,5"], SAME),
            11,
            2,
        ),
        refused("row 12", changed_c(SAME, ["of=2,1,2", "of=2,0,2"]), 12, 2),
    ]
}

/// Places where a sentence of the paper has to be read closely.
fn readings() -> Vec<Case> {
    let replies = "program=0\ndo=0,0,0,0\nprogram=1\ndo=0,0,0,0\n";
    let two = "request=1,0,0,0\nrequest=2,1,0,0\nresponse=1,0,0\nresponse=2,0,0\n";
    let trace = |text: &str| batch(replies, text, "x");
    let report = |text: &str| batch(replies, two, text);
    let writes_0 = "program=0\ndo=7,0,0,0\ndo=0,0,0,0\n";
    let answered = "request=1,0,0,0\nresponse=1,0,0\n";
    vec![
        refused(
            "unreadable below a broken rule",
            batch("program=0\ndo=0,8,0,0\nx\n", "", ""),
            1,
            3,
        ),
        refused("program unknown", trace("request=1,2,0,0\n"), 4, 1),
        refused(
            "rid used twice, though answered",
            trace("request=1,0,0,0\nresponse=1,0,0\nrequest=1,0,0,0\nresponse=1,0,0\n"),
            4,
            3,
        ),
        refused(
            "answered twice",
            trace("request=1,0,0,0\nresponse=1,0,0\nresponse=1,0,0\n"),
            4,
            3,
        ),
        refused(
            "a response below open requests, of another rid",
            trace("request=1,0,0,0\nrequest=2,1,0,0\nresponse=3,0,0\n"),
            4,
            3,
        ),
        refused(
            "requests never answered are no fault of the trace",
            trace("request=3,0,0,0\nrequest=1,0,0,0\nresponse=3,0,0\nrequest=2,1,0,0\n"),
            5,
            1,
        ),
        refused("of lines exchanged", report("of=2,0,0\nof=1,1,0\n"), 6, 1),
        refused(
            "an of line too many",
            report("of=1,0,0\nof=2,1,0\nof=3,2,0\n"),
            6,
            3,
        ),
        refused("an of line missing", report("of=1,0,0\n"), 6, 2),
        refused(
            "an of line missing above the log",
            report("of=1,0,0\nlog=0,1,1,7,0,1\n"),
            6,
            2,
        ),
        refused(
            "equal positions of two programs",
            report("of=1,0,0\nof=2,0,0\n"),
            12,
            2,
        ),
        refused(
            "operation 0 claimed",
            batch(writes_0, answered, "of=1,0,1\nlog=0,1,0,7,0,0\n"),
            7,
            2,
        ),
        refused(
            "claimed before",
            batch(
                writes_0,
                answered,
                "of=1,0,1\nlog=0,1,1,7,0,0\nlog=1,1,1,7,0,0\n",
            ),
            7,
            3,
        ),
        refused(
            "rid of a log line unknown",
            batch(writes_0, answered, "of=1,0,1\nlog=0,2,1,7,0,0\n"),
            7,
            2,
        ),
        refused(
            "a register line with a key",
            batch(writes_0, answered, "of=1,0,1\nlog=0,1,1,7,1,0\n"),
            10,
            1,
        ),
        refused(
            "fewer operations than counted",
            batch(
                writes_0,
                answered,
                "of=1,0,2\nlog=0,1,1,7,0,0\nlog=0,1,2,7,0,0\n",
            ),
            10,
            1,
        ),
        refused(
            "more operations than counted",
            batch(writes_0, answered, "of=1,0,0\n"),
            10,
            1,
        ),
        refused(
            "operations of one request against their numbers",
            batch(
                "program=0\ndo=7,0,0,0\ndo=7,0,0,0\ndo=0,0,0,0\n",
                answered,
                "of=1,0,2\nlog=0,1,2,7,0,0\nlog=0,1,1,7,0,0\n",
            ),
            9,
            0,
        ),
        // Request 1 writes 5 into register 0 by a line that claims key 3: a write all the same, so request 2
        // reads 5 and is right; the fault is request 1's own.
        refused(
            "a write with a wrong key feeds a read",
            batch(
                "program=0\ndo=7,0,0,0\ndo=0,1,0,0\nprogram=1\ndo=6,0,0,0\ndo=0,0,0,0\n",
                "request=2,1,0,0\nrequest=1,0,5,0\nresponse=2,0,5\nresponse=1,0,0\n",
                "of=2,0,1\nof=1,1,1\nlog=0,1,1,7,3,5\nlog=0,2,1,6,0,5\n",
            ),
            10,
            2,
        ),
        // Kind 9 on a register is no write: request 2 reads 0, so its 5 is the first fault.
        refused(
            "a kind that does not fit its object feeds nothing",
            batch(
                "program=0\ndo=7,0,0,0\ndo=0,1,0,0\nprogram=1\ndo=6,0,0,0\ndo=0,0,0,0\n",
                "request=2,1,0,0\nrequest=1,0,5,0\nresponse=2,0,5\nresponse=1,0,0\n",
                "of=2,0,1\nof=1,1,1\nlog=0,1,1,9,0,5\nlog=0,2,1,6,0,0\n",
            ),
            11,
            1,
        ),
    ]
}
