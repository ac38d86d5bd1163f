//! The proved functions, linked from the static library of crate `export`.

use crate::audit::Audited;
use crate::texts::{BatchTexts, TEXT_LIMIT};

#[path = "../../crates/export/teaselshears.rs"]
mod teaselshears;

pub use teaselshears::{record as record_into, record_text};

/// How many numbers the audit's result has, and the host's.
pub const AUDIT_NUMBERS: usize = 6;
pub const RECORD_NUMBERS: usize = 4;

pub fn audit(batch: &BatchTexts) -> Audited {
    let mut out = [u64::MAX; AUDIT_NUMBERS];
    assert_eq!(audit_into(batch, &mut out), AUDIT_NUMBERS);
    let [verdict, line, requests, operations, blocks, rest] = out;
    Audited {
        verdict,
        line: line as usize,
        requests: requests as usize,
        operations: operations as usize,
        blocks: blocks as usize,
        rest: rest as usize,
    }
}

/// The audit with its numbers to the front of `out`: how many were written.
pub fn audit_into(batch: &BatchTexts, out: &mut [u64]) -> usize {
    teaselshears::audit(&batch.programs, &batch.trace, &batch.report, out)
}

/// The audit with its numbers and how many stand in `order` to the front of `out`, and the order to the front
/// of `order`: how many were written to `out`.
pub fn order_into(batch: &BatchTexts, out: &mut [u64], order: &mut [u64]) -> usize {
    teaselshears::order(&batch.programs, &batch.trace, &batch.report, out, order)
}

/// What the program `audit` prints, to the front of `out`: how many bytes were written.
pub fn audit_text(batch: &BatchTexts, out: &mut [u8]) -> usize {
    teaselshears::audit_text(&batch.programs, &batch.trace, &batch.report, out)
}

/// What the host answers; what it wrote stands in the two buffers.
#[derive(Clone, Copy, Debug, PartialEq, Eq)]
pub struct Recorded {
    pub verdict: u64,
    pub line: usize,
    pub trace_length: usize,
    pub report_length: usize,
}

pub fn record(programs: &[u8], schedule: &[u8], trace: &mut [u8], report: &mut [u8]) -> Recorded {
    let mut out = [u64::MAX; RECORD_NUMBERS];
    let written = record_into(programs, schedule, trace, report, &mut out);
    assert_eq!(written, RECORD_NUMBERS);
    let [verdict, line, trace_length, report_length] = out;
    Recorded {
        verdict,
        line: line as usize,
        trace_length: trace_length as usize,
        report_length: report_length as usize,
    }
}

/// What the host answers, and the batch that it writes where both texts have room.
pub fn recorded(programs: &[u8], schedule: &[u8]) -> (Recorded, BatchTexts) {
    let [mut trace, mut report] = [(); 2].map(|()| vec![0; TEXT_LIMIT]);
    let recorded = record(programs, schedule, &mut trace, &mut report);
    trace.truncate(recorded.trace_length);
    report.truncate(recorded.report_length);
    let programs = programs.to_vec();
    let written = BatchTexts {
        programs,
        trace,
        report,
    };
    (recorded, written)
}
