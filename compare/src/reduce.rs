//! A difference made small: lines are dropped while it stays, for a bounded number of tries.

use crate::cases::Case;
use crate::checks::Check;
use std::fs;
use std::io;
use std::path::Path;

/// The smallest case found in which the check still tells a difference. A worked case stays as it is:
/// its result is known of the whole.
pub fn reduce(mut case: Case, check: Check) -> Case {
    if case.expected.is_some() || case.expected_record.is_some() {
        return case;
    }
    let mut tries = TRIES;
    while let Some(smaller) = TEXTS
        .into_iter()
        .find_map(|text| with_fewer_lines(&case, text, check, &mut tries))
    {
        case = smaller;
    }
    case
}

/// A text may have tens of thousands of lines, and a try may search for an order.
const TRIES: usize = 1_000;

/// Picks one text of a case.
type Text = fn(&mut Case) -> &mut Vec<u8>;

const TEXTS: [Text; 4] = [
    |case| &mut case.schedule,
    |case| &mut case.batch.report,
    |case| &mut case.batch.trace,
    |case| &mut case.batch.programs,
];

/// The case with a stretch of lines of one text left out, long stretches first.
fn with_fewer_lines(case: &Case, text: Text, check: Check, tries: &mut usize) -> Option<Case> {
    let mut shorter = case.clone();
    let whole = text(&mut shorter).clone();
    let lines: Vec<&[u8]> = whole.split_inclusive(|&byte| byte == b'\n').collect();
    let halves = std::iter::successors(Some(lines.len()), |length| Some(length / 2));
    for length in halves.take_while(|length| *length > 0) {
        for start in (0..=lines.len() - length).step_by(length) {
            *tries = tries.checked_sub(1)?;
            *text(&mut shorter) = [&lines[..start], &lines[start + length..]]
                .concat()
                .concat();
            if check(&shorter).is_some() {
                return Some(shorter);
            }
        }
    }
    None
}

/// Writes a case into a folder, as the programs `audit` and `record` read it, with what was found.
pub fn write(case: &Case, folder: &Path, difference: &str) -> io::Result<()> {
    fs::create_dir_all(folder)?;
    fs::write(folder.join("programs.txt"), &case.batch.programs)?;
    fs::write(folder.join("trace.txt"), &case.batch.trace)?;
    fs::write(folder.join("report.txt"), &case.batch.report)?;
    fs::write(folder.join("schedule.txt"), &case.schedule)?;
    let rooms = format!(
        "{} bytes for the trace, {} for the report",
        case.room_trace, case.room_report
    );
    fs::write(
        folder.join("difference.txt"),
        format!("{difference}\n{rooms}\n"),
    )
}

#[cfg(test)]
mod tests {
    use super::*;
    use crate::texts::BatchTexts;

    #[test]
    fn what_does_not_matter_is_dropped() {
        let case = Case {
            name: String::new(),
            batch: BatchTexts {
                programs: b"a\nb\nc\n".to_vec(),
                trace: b"d\ne".to_vec(),
                report: b"f\nX\ng\nh\nX\n".to_vec(),
            },
            schedule: b"i\n".to_vec(),
            room_trace: 0,
            room_report: 0,
            expected: None,
            expected_order: None,
            expected_record: None,
        };
        let reduced = reduce(case, |case| {
            let kept = case.batch.report.contains(&b'X') && case.batch.trace.contains(&b'e');
            kept.then(String::new)
        });
        assert_eq!(reduced.batch.report, b"X\n");
        assert_eq!(reduced.batch.trace, b"e");
        assert!(reduced.batch.programs.is_empty() && reduced.schedule.is_empty());
    }
}
