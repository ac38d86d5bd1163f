//! The stored vectors of crate `vectors`: the files that its program reads, and what it must print by this
//! implementation.
//!
//! A file is one vector after the other. A vector is a header, `NAME=n,n,..` and a line feed, and then its
//! texts, with nothing between them. A batch has three numbers, the lengths of its texts; a schedule has four,
//! the lengths of programs and schedule and of the buffers that are lent for trace and report. What is printed
//! is the name, `=` and the numbers of the result: of a batch the audit's first four, then length and sum of the
//! text that the program `audit` prints, which has all of them; of a schedule the host's, then a sum over each
//! buffer.

use crate::cases::{self, Case};
use crate::checks::{audit_of, printed_of, record_of};
use crate::texts::{BatchTexts, TEXT_LIMIT};
use crate::worked;
use std::fs;
use std::io;
use std::path::{Path, PathBuf};

/// The program reads a file whole into a buffer of this length.
const FILE_LIMIT: usize = 262_144;
/// So many files; the program names each.
const FILES: usize = 3;
/// So many random batches and schedules of each verdict, none longer than this.
const OF_EACH: usize = 6;
const RANDOM_LIMIT: usize = 3_000;

/// What a vector is stored as, and the line that is printed of it.
struct Vector {
    stored: Vec<u8>,
    printed: String,
}

/// The files below a folder, with what they hold.
fn files() -> Vec<(PathBuf, Vec<u8>)> {
    let mut vectors = batch_vectors();
    vectors.extend(schedule_vectors());
    let printed: String = vectors.iter().map(|vector| &*vector.printed).collect();
    let mut files = packed(&vectors);
    files.push((PathBuf::from("stdout"), printed.into_bytes()));
    files
}

/// Writes every file.
pub fn write(folder: &Path) -> io::Result<()> {
    for (name, bytes) in files() {
        fs::write(folder.join(name), bytes)?;
    }
    Ok(())
}

/// The first file that is not what would be written.
pub fn outdated(folder: &Path) -> Option<PathBuf> {
    let outdated = |(name, bytes): &(PathBuf, Vec<u8>)| {
        fs::read(folder.join(name)).ok().as_ref() != Some(bytes)
    };
    files().into_iter().find(outdated).map(|(name, _)| name)
}

/// The vectors in order, each file as full as it gets.
fn packed(vectors: &[Vector]) -> Vec<(PathBuf, Vec<u8>)> {
    let mut packed = vec![Vec::new()];
    for Vector { stored, .. } in vectors {
        if packed.last().map_or(0, Vec::len) + stored.len() > FILE_LIMIT {
            packed.push(Vec::new());
        }
        packed.last_mut().expect("one at least").extend(stored);
    }
    assert_eq!(packed.len(), FILES, "the program names the files");
    let path = |number| PathBuf::from(format!("data/vectors-{number}.txt"));
    (1..).map(path).zip(packed).collect()
}

fn batch_vectors() -> Vec<Vector> {
    let worked = worked::stored_batches().into_iter();
    let worked = worked.map(|case| batch_vector(case.name, &case.batch));
    let random = random_of_each(
        |case| audit_of(&case.batch).verdict,
        |case| {
            let BatchTexts {
                programs,
                trace,
                report,
            } = &case.batch;
            programs.len() + trace.len() + report.len()
        },
    );
    let random = random
        .iter()
        .map(|case| batch_vector(&case.name, &case.batch));
    worked.chain(random).collect()
}

fn batch_vector(name: &str, batch: &BatchTexts) -> Vector {
    let audited = audit_of(batch);
    let text = printed_of(batch);
    let BatchTexts {
        programs,
        trace,
        report,
    } = batch;
    let lengths = [programs, trace, report].map(|text| text.len() as u64);
    let results = [
        audited.verdict,
        audited.line as u64,
        audited.requests as u64,
        audited.operations as u64,
        text.len() as u64,
        sum(text.as_bytes()),
    ];
    Vector {
        stored: [line(name, &lengths).as_bytes(), programs, trace, report].concat(),
        printed: line(name, &results),
    }
}

fn schedule_vectors() -> Vec<Vector> {
    let worked = cases::of_schedules(worked::stored_schedules()).chain(case_c_in_rooms());
    let random = random_of_each(
        |case| record_of(case).verdict,
        |case| case.batch.programs.len() + case.schedule.len(),
    );
    worked
        .chain(random)
        .map(|case| schedule_vector(&case))
        .collect()
}

/// The schedule of case C with buffers that are just too short, just long enough and a byte longer.
fn case_c_in_rooms() -> impl Iterator<Item = Case> {
    let c = worked::case_c();
    let needed = (c.trace.len(), c.report.len());
    let rooms = [0, 1, 2]
        .into_iter()
        .flat_map(|more| [(more, 1), (1, more)]);
    rooms.map(move |(trace, report)| Case {
        name: format!("C with {trace} and {report} bytes more than one too few"),
        batch: c.clone(),
        schedule: worked::SCHEDULE_OF_C.to_vec(),
        room_trace: needed.0 + trace - 1,
        room_report: needed.1 + report - 1,
        expected: None,
        expected_order: None,
        expected_record: None,
    })
}

fn schedule_vector(case: &Case) -> Vector {
    let recorded = record_of(case);
    let (programs, schedule) = (&case.batch.programs, &case.schedule);
    let lengths = [
        programs.len(),
        schedule.len(),
        case.room_trace,
        case.room_report,
    ];
    let results = [
        recorded.verdict,
        recorded.line as u64,
        recorded.trace.len() as u64,
        recorded.report.len() as u64,
        sum_over(&recorded.trace, 254),
        sum_over(&recorded.report, 255),
    ];
    let header = line(&case.name, &lengths.map(|length| length as u64));
    Vector {
        stored: [header.as_bytes(), programs, schedule].concat(),
        printed: line(&case.name, &results),
    }
}

/// A sum over a buffer of so many bytes that held this one everywhere, after a text was written to its front.
fn sum_over(text: &[u8], before: u8) -> u64 {
    let mut buffer = vec![before; TEXT_LIMIT + 1];
    buffer[..text.len()].copy_from_slice(text);
    sum(&buffer)
}

/// The bytes as digits to the base 257, modulo the largest prime below 2^32.
fn sum(bytes: &[u8]) -> u64 {
    let add = |sum, byte: &u8| (sum * 257 + u64::from(*byte)) % 4_294_967_291;
    bytes.iter().fold(0, add)
}

fn line(name: &str, numbers: &[u64]) -> String {
    let numbers: Vec<String> = numbers.iter().map(u64::to_string).collect();
    format!("{name}={}\n", numbers.join(","))
}

/// The first short random cases of each verdict.
fn random_of_each(verdict: fn(&Case) -> u64, length: fn(&Case) -> usize) -> Vec<Case> {
    let mut found = [0; 17];
    let mut wanted = |case: &Case| {
        let place = verdict(case) as usize;
        let taken = length(case) <= RANDOM_LIMIT && found[place] < OF_EACH;
        found[place] += usize::from(taken);
        taken
    };
    cases::fixed(2_000).filter(|case| wanted(case)).collect()
}
