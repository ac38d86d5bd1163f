//! Code 4 on equal locals, at both ends and on the two sides of 2^63.

use super::{accepted, batch, refused, Case};
use crate::texts::BatchTexts;

const LAST: u64 = u64::MAX;
const MIDDLE: u64 = 1 << 63;

/// Two locals, and what code 4 makes of them.
const COMPARED: [(&str, [u64; 3]); 10] = [
    ("0 below 0", [0, 0, 0]),
    ("7 below 7", [7, 7, 0]),
    ("the last number below itself", [LAST, LAST, 0]),
    ("2^63 below itself", [MIDDLE, MIDDLE, 0]),
    ("6 not below 7", [6, 7, 1]),
    ("7 below 6", [7, 6, 0]),
    ("0 not below the last number", [0, LAST, 1]),
    ("the last number below 0", [LAST, 0, 0]),
    ("2^63 - 1 not below 2^63", [MIDDLE - 1, MIDDLE, 1]),
    ("2^63 below 2^63 - 1", [MIDDLE, MIDDLE - 1, 0]),
];

/// All of them as they are, and each by itself the other way.
pub fn comparisons() -> Vec<Case> {
    let all = COMPARED.map(|(_, compared)| compared);
    let mut cases = vec![accepted("code 4", replied(&all), [10, 0, 0, 0])];
    cases.extend(COMPARED.map(|(name, [x, y, reply])| {
        let other = [x, y, 1 - reply];
        refused(name, replied(&[other]), 11, 1)
    }));
    cases
}

/// A request for each two numbers, answered with the third.
fn replied(compared: &[[u64; 3]]) -> BatchTexts {
    let [mut trace, mut report] = [(); 2].map(|()| String::new());
    for (rid, [x, y, reply]) in compared.iter().enumerate() {
        trace += &format!("request={rid},0,{x},{y}\nresponse={rid},0,{reply}\n");
        report += &format!("of={rid},0,0\n");
    }
    batch("program=0\ndo=4,2,0,1\ndo=0,2,0,0\n", &trace, &report)
}
