//! What is asked of every case. Each check says what differs, or nothing.

use crate::audit::{audit, checked, read_batch, Accepted, Audited, Fault};
use crate::cases::Case;
use crate::host::{record, Recorded};
use crate::order::{order, order_quickly, printed, verdict_lines};
use crate::plain::{allows, search_orders, Found};
use crate::rule;
use crate::texts::{read_report, BatchTexts, TEXT_LIMIT};

pub type Check = fn(&Case) -> Option<String>;

/// The checks within this implementation.
pub const ALONE: [Check; 6] = [
    the_paper_agrees,
    the_counts_are_those_of_the_texts,
    acceptance_means_an_order,
    the_order_worked_out_is_printed,
    the_order_is_right,
    what_the_host_writes_is_accepted,
];

/// A search that would follow more items than this is given up.
const SEARCH_BUDGET: usize = 3_000;

pub fn audit_of(batch: &BatchTexts) -> Audited {
    audit(&batch.programs, &batch.trace, &batch.report)
}

/// The batch with what comes before what, where it is accepted.
pub fn checked_of(batch: &BatchTexts) -> Result<Accepted, Fault> {
    checked(&batch.programs, &batch.trace, &batch.report)
}

/// What the program `audit` prints of a batch.
pub fn printed_of(batch: &BatchTexts) -> String {
    printed(batch, order)
}

pub fn record_of(case: &Case) -> Recorded {
    let rooms = (case.room_trace, case.room_report);
    record(&case.batch.programs, &case.schedule, rooms.0, rooms.1)
}

/// Whether the batch has an order by the search; nothing for texts that rows 1 to 6 refuse.
pub fn search(batch: &BatchTexts) -> Option<Found> {
    let batch = read_batch(&batch.programs, &batch.trace, &batch.report).ok()?;
    Some(search_orders(&batch, SEARCH_BUDGET))
}

fn the_paper_agrees(case: &Case) -> Option<String> {
    let audited = audit_of(&case.batch);
    let wrong = case.expected.filter(|expected| audited != *expected);
    if let Some(expected) = wrong {
        return Some(format!("expected {expected:?}, and {audited:?}"));
    }
    let Recorded { verdict, line, .. } = record_of(case);
    let wrong = case
        .expected_record
        .filter(|expected| (verdict, line) != *expected);
    wrong.map(|expected| {
        format!(
            "expected {expected:?} of the host, and {:?}",
            (verdict, line)
        )
    })
}

/// An accepted batch has the counts of its texts; a refused one has none.
fn the_counts_are_those_of_the_texts(case: &Case) -> Option<String> {
    let audited = audit_of(&case.batch);
    let expected = match audited {
        Audited { verdict: 0, .. } => counted(&case.batch),
        Audited { verdict, line, .. } => Audited {
            verdict,
            line,
            requests: 0,
            operations: 0,
            blocks: 0,
            rest: 0,
        },
    };
    (audited != expected).then(|| format!("expected {expected:?}, and {audited:?}"))
}

/// The result of an accepted batch, counted in its texts: each hundredth operation makes a block full.
fn counted(batch: &BatchTexts) -> Audited {
    let operations = lines_with(&batch.report, b"log=");
    let (mut blocks, mut rest) = (0, 0);
    for _ in 0..operations {
        rest += 1;
        if rest == 100 {
            blocks += 1;
            rest = 0;
        }
    }
    Audited {
        verdict: 0,
        line: 0,
        requests: lines_with(&batch.trace, b"request="),
        operations,
        blocks,
        rest,
    }
}

fn acceptance_means_an_order(case: &Case) -> Option<String> {
    let audited = audit_of(&case.batch);
    let accepted = audited.verdict == 0;
    match search(&case.batch) {
        Some(Found::Order) if !accepted => Some(format!("an order exists, and {audited:?}")),
        Some(Found::NoOrder) if accepted => Some(format!("no order exists, and {audited:?}")),
        _ => None,
    }
}

fn the_order_worked_out_is_printed(case: &Case) -> Option<String> {
    let expected = verdict_lines(case.expected?) + case.expected_order?;
    let printed = printed_of(&case.batch);
    (printed != expected).then(|| format!("expected {expected:?}, and {printed:?}"))
}

/// The order of an accepted batch is allowed by demand 3 and by the rule, and both ways to make it agree.
fn the_order_is_right(case: &Case) -> Option<String> {
    let accepted = checked_of(&case.batch).ok()?;
    let batch = &accepted.batch;
    let order = order(&accepted);
    let wrong = if !rule::has_each_item_once(batch, &order) {
        "an item is missing or stands twice"
    } else if !allows(batch, &order) {
        "demand 3 does not allow the order"
    } else if !rule::is_kept(batch, &order) {
        "another item should have gone first"
    } else if order_quickly(&accepted) != order {
        "the quick way gives another order"
    } else {
        return None;
    };
    Some(wrong.into())
}

fn what_the_host_writes_is_accepted(case: &Case) -> Option<String> {
    let programs = &case.batch.programs;
    let recorded = record(programs, &case.schedule, TEXT_LIMIT, TEXT_LIMIT);
    let written = BatchTexts {
        programs: programs.clone(),
        trace: recorded.trace,
        report: recorded.report,
    };
    not_accepted(recorded.verdict, &written, audit_of)
}

/// What an audit says against a batch that the host wrote with this verdict; nothing where it accepts the
/// batch with its counts, or the host refused.
pub fn not_accepted(
    verdict: u64,
    written: &BatchTexts,
    audit: fn(&BatchTexts) -> Audited,
) -> Option<String> {
    let expected = counted(written);
    let audited = audit(written);
    (verdict == 0 && audited != expected)
        .then(|| format!("the host wrote it, and {audited:?}, expected {expected:?}"))
}

/// Whether a trace that keeps row 4 has a request without a response.
pub fn leaves_open(trace: &[u8]) -> bool {
    lines_with(trace, b"request=") > lines_with(trace, b"response=")
}

/// Whether a report that can be read has a line of kind 10 with this answer.
pub fn shows_held(report: &[u8], answer: u64) -> bool {
    let Ok(report) = read_report(report) else {
        return false;
    };
    let mut lines = report.log.iter();
    lines.any(|line| (line.kind, line.value) == (10, answer))
}

/// How many lines of a text begin with this word.
pub fn lines_with(text: &[u8], word: &[u8]) -> usize {
    let lines = text.split(|&byte| byte == b'\n');
    lines.filter(|line| line.starts_with(word)).count()
}

#[cfg(test)]
mod tests {
    use super::*;
    use crate::cases;

    #[test]
    fn random_batches_with_code_10_pass_every_check() {
        let asks = |case: &Case| (0..=1).any(|answer| shows_held(&case.batch.report, answer));
        for case in cases::fixed(1_000).filter(asks) {
            for check in ALONE {
                assert_eq!(check(&case), None, "{}", case.name);
            }
        }
    }
}
