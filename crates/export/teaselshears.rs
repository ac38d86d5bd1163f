//! The proved audit and reference host for Rust: each function of teaselshears.h, which says what it promises, over slices.
//! Include it as a module (`#[path = ".."] mod teaselshears;`), and link target/staticlib/libexport.a.

// Who includes it need not call all of it.
#![allow(dead_code)]

/// The version that this module was written for, as a number: major * 1000000 + minor * 1000 + patch.
pub const VERSION: u64 = 6001;

extern "C" {
    fn teaselshears_version() -> u64;

    fn teaselshears_audit(
        programs: *const u8,
        programs_length: usize,
        trace: *const u8,
        trace_length: usize,
        report: *const u8,
        report_length: usize,
        out: *mut u64,
        out_length: usize,
    ) -> usize;

    fn teaselshears_record(
        programs: *const u8,
        programs_length: usize,
        schedule: *const u8,
        schedule_length: usize,
        trace: *mut u8,
        trace_length: usize,
        report: *mut u8,
        report_length: usize,
        out: *mut u64,
        out_length: usize,
    ) -> usize;

    fn teaselshears_order(
        programs: *const u8,
        programs_length: usize,
        trace: *const u8,
        trace_length: usize,
        report: *const u8,
        report_length: usize,
        out: *mut u64,
        out_length: usize,
        order: *mut u64,
        order_length: usize,
    ) -> usize;

    fn teaselshears_audit_text(
        programs: *const u8,
        programs_length: usize,
        trace: *const u8,
        trace_length: usize,
        report: *const u8,
        report_length: usize,
        out: *mut u8,
        out_length: usize,
    ) -> usize;

    fn teaselshears_record_text(
        programs: *const u8,
        programs_length: usize,
        schedule: *const u8,
        schedule_length: usize,
        out: *mut u8,
        out_length: usize,
    ) -> usize;
}

/// The version of the library, as a number. Module and library belong together where it is `VERSION`.
pub fn version() -> u64 {
    // SAFETY: it takes nothing, and there is no state.
    unsafe { teaselshears_version() }
}

// SAFETY, of the other five: each address comes with the length of the slice that it is the start of; the slices live until the call
// returns, and those that are written to are lent to it alone.

/// Verdict, line, requests, operations, blocks and rest to the front of `out`: 6, or 0 where `out` is too short and nothing is written.
pub fn audit(programs: &[u8], trace: &[u8], report: &[u8], out: &mut [u64]) -> usize {
    let [(p, pn), (t, tn), (r, rn)] = [programs, trace, report].map(|s| (s.as_ptr(), s.len()));
    unsafe { teaselshears_audit(p, pn, t, tn, r, rn, out.as_mut_ptr(), out.len()) }
}

/// The numbers of `audit` and how many stand in `order` to the front of `out`, and the order of an accepted batch to the front of
/// `order`, two numbers for each item: an event's trace line and 0, or an operation's rid and num. 7, or 0 where one of the two is too
/// short and nothing is written.
pub fn order(
    programs: &[u8],
    trace: &[u8],
    report: &[u8],
    out: &mut [u64],
    order: &mut [u64],
) -> usize {
    let [(p, pn), (t, tn), (r, rn)] = [programs, trace, report].map(|s| (s.as_ptr(), s.len()));
    let [(o, on), (q, qn)] = [out, order].map(|s| (s.as_mut_ptr(), s.len()));
    unsafe { teaselshears_order(p, pn, t, tn, r, rn, o, on, q, qn) }
}

/// Verdict, line and the lengths of the two texts to the front of `out`, and the texts to the fronts of their buffers: 4, or 0
/// where `out` is too short and nothing is written.
pub fn record(
    programs: &[u8],
    schedule: &[u8],
    trace: &mut [u8],
    report: &mut [u8],
    out: &mut [u64],
) -> usize {
    let [(p, pn), (s, sn)] = [programs, schedule].map(|s| (s.as_ptr(), s.len()));
    let [(t, tn), (r, rn)] = [trace, report].map(|s| (s.as_mut_ptr(), s.len()));
    unsafe { teaselshears_record(p, pn, s, sn, t, tn, r, rn, out.as_mut_ptr(), out.len()) }
}

/// What the program `audit` prints, to the front of `out`: its length, or 0 where `out` is too short and nothing is written.
pub fn audit_text(programs: &[u8], trace: &[u8], report: &[u8], out: &mut [u8]) -> usize {
    let [(p, pn), (t, tn), (r, rn)] = [programs, trace, report].map(|s| (s.as_ptr(), s.len()));
    unsafe { teaselshears_audit_text(p, pn, t, tn, r, rn, out.as_mut_ptr(), out.len()) }
}

/// What the program `record` prints, to the front of `out`: its length, or 0 where `out` is too short and nothing is written.
pub fn record_text(programs: &[u8], schedule: &[u8], out: &mut [u8]) -> usize {
    let [(p, pn), (s, sn)] = [programs, schedule].map(|s| (s.as_ptr(), s.len()));
    unsafe { teaselshears_record_text(p, pn, s, sn, out.as_mut_ptr(), out.len()) }
}
