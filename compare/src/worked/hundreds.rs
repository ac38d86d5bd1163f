//! Batches on both sides of a full hundred of operations.

use super::{accepted, batch, refused, Case};
use crate::texts::BatchTexts;

pub fn hundreds() -> Vec<Case> {
    vec![
        accepted("0 operations", writes(&[0], 7), [1, 0, 0, 0]),
        accepted("99 operations", writes(&[50, 49], 7), [2, 99, 0, 99]),
        accepted("100 operations", writes(&[50, 50], 7), [2, 100, 1, 0]),
        accepted("101 operations", writes(&[50, 51], 7), [2, 101, 1, 1]),
        accepted(
            "199 operations",
            writes(&[50, 50, 50, 49], 7),
            [4, 199, 1, 99],
        ),
        accepted("200 operations", writes(&[50; 4], 7), [4, 200, 2, 0]),
        refused(
            "199 operations and a wrong response",
            writes(&[50, 50, 50, 49], 8),
            11,
            1,
        ),
    ]
}

/// A request for each of these numbers, one after the other, that writes 7 into register 0 so many times and
/// replies with it; each is answered with this value.
fn writes(counts: &[usize], value: u64) -> BatchTexts {
    let [mut programs, mut trace, mut of, mut log] = [(); 4].map(|()| String::new());
    for (rid, &count) in counts.iter().enumerate() {
        let writes = "do=7,0,0,0\n".repeat(count);
        programs += &format!("program={rid}\n{writes}do=0,0,0,0\n");
        trace += &format!("request={rid},{rid},7,0\nresponse={rid},0,{value}\n");
        of += &format!("of={rid},{rid},{count}\n");
        for num in 1..=count {
            log += &format!("log=0,{rid},{num},7,0,7\n");
        }
    }
    batch(&programs, &trace, &(of + &log))
}
