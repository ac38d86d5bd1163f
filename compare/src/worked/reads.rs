//! Log lines that show what a read gave, rightly and wrongly, each with the result worked out by hand.

use super::{
    accepted, batch, case_a, case_b, changed_c, refused, Case, PROGRAMS, REPORT_OF_C, SAME,
    TRACE_OF_C,
};

/// Request 1 puts b at key a of store 8; request 2 looks a key up.
const STORE: &str = "program=0\ndo=9,8,0,1\ndo=0,1,0,0\nprogram=1\ndo=8,2,8,0\ndo=0,2,0,0\n";

pub fn reads() -> Vec<Case> {
    let mut cases = registers();
    cases.extend(stores());
    cases.extend(above_row_10());
    cases
}

/// Case C: request 2 reads register 0 by line 4, request 1 register 1 by line 6, and both get 1.
fn registers() -> Vec<Case> {
    let of_before = REPORT_OF_C.replace(",6,0,1\n", ",6,0,0\n");
    let shown_as = |value| ["log=0,2,2,6,0,1", value];
    let answered_as = |value| ["response=2,0,1", value];
    vec![
        refused(
            "reads not shown",
            batch(PROGRAMS, TRACE_OF_C, &of_before),
            10,
            1,
        ),
        refused(
            "one read not shown",
            changed_c(SAME, shown_as("log=0,2,2,6,0,0")),
            10,
            2,
        ),
        // Had request 2 read 7, it would have answered 7.
        refused(
            "a wrong value shown and answered",
            changed_c(
                answered_as("response=2,0,7"),
                shown_as("log=0,2,2,6,0,7"),
            ),
            10,
            2,
        ),
        refused(
            "a wrong value shown and the right one answered",
            changed_c(SAME, shown_as("log=0,2,2,6,0,7")),
            10,
            2,
        ),
        refused(
            "the largest value shown for 1",
            changed_c(SAME, shown_as("log=0,2,2,6,0,18446744073709551615")),
            10,
            2,
        ),
        accepted(
            "the largest value read",
            batch(
                "program=0\ndo=7,0,0,0\ndo=6,1,0,0\ndo=0,1,0,0\n",
                "request=1,0,18446744073709551615,0\nresponse=1,0,18446744073709551615\n",
                "of=1,0,2\nlog=0,1,1,7,0,18446744073709551615\nlog=0,1,2,6,0,18446744073709551615\n",
            ),
            [1, 2, 0, 2],
        ),
    ]
}

fn stores() -> Vec<Case> {
    let trace = |key: u64, value: u64| {
        format!("request=1,0,3,4\nresponse=1,0,4\nrequest=2,1,{key},0\nresponse=2,0,{value}\n")
    };
    let report = |key: u64, value: u64| {
        format!("of=1,0,1\nof=2,1,1\nlog=8,1,1,9,3,4\nlog=8,2,1,8,{key},{value}\n")
    };
    let looked_up = |key, answered, shown| batch(STORE, &trace(key, answered), &report(key, shown));
    vec![
        accepted("a value looked up", looked_up(3, 4, 4), [2, 2, 0, 2]),
        accepted("a key never put", looked_up(5, 0, 0), [2, 2, 0, 2]),
        refused("a value looked up not shown", looked_up(3, 4, 0), 10, 2),
        refused("another key's value shown", looked_up(5, 4, 4), 10, 2),
        refused("a value that was never put", looked_up(3, 9, 9), 10, 2),
    ]
}

/// Cases A and B with the lines of case C as they stand, exchanged: the order is looked at first.
fn above_row_10() -> Vec<Case> {
    vec![
        refused("case B and C's values", case_b(1), 9, 0),
        refused("case A and C's values", case_a(1), 9, 0),
    ]
}
