//! The cases of a comparison, each made from its number and a seed.

use crate::audit::Audited;
use crate::damage::{damage_batch, damage_schedule};
use crate::random::{self, Random, Run};
use crate::texts::{read_report, write_report, BatchTexts, TEXT_LIMIT};
use crate::worked::{self, Schedule};

/// The seed of the cases that are the same in every comparison.
pub const FIXED_SEED: u64 = 1;

/// A batch for the audit, and a schedule with the room for what it means for the host; both over the same
/// programs.
#[derive(Clone, Debug)]
pub struct Case {
    pub name: String,
    pub batch: BatchTexts,
    pub schedule: Vec<u8>,
    pub room_trace: usize,
    pub room_report: usize,
    /// The audit's result, where the paper gives it.
    pub expected: Option<Audited>,
    /// The lines of the order, where they were worked out by hand.
    pub expected_order: Option<&'static str>,
    /// The host's verdict and line, where the paper gives them.
    pub expected_record: Option<(u64, usize)>,
}

/// So many cases: the worked ones, then half of them from the fixed seed and the rest from this one.
pub fn cases(count: usize, seed: u64) -> impl Iterator<Item = Case> {
    let varied = (0..).map(move |number| random_case(seed, number));
    worked_cases()
        .chain(fixed(count.div_ceil(2)))
        .chain(varied)
        .take(count)
}

/// So many cases from the fixed seed.
pub fn fixed(count: usize) -> impl Iterator<Item = Case> {
    (0..count as u64).map(|number| random_case(FIXED_SEED, number))
}

fn worked_cases() -> impl Iterator<Item = Case> {
    let batches = worked::batches().into_iter().map(|case| Case {
        name: folder_name(case.name),
        batch: case.batch,
        schedule: worked::SCHEDULE_OF_C.to_vec(),
        room_trace: TEXT_LIMIT,
        room_report: TEXT_LIMIT,
        expected: Some(case.expected),
        expected_order: case.order,
        expected_record: None,
    });
    let schedules = of_schedules(worked::schedules()).map(|case| Case {
        name: folder_name(&case.name),
        ..case
    });
    batches.chain(schedules)
}

/// Worked schedules as cases; trace and report of their batches are empty.
pub fn of_schedules(schedules: Vec<Schedule>) -> impl Iterator<Item = Case> {
    schedules.into_iter().map(|case| Case {
        name: case.name.into(),
        batch: worked::batch(&case.programs, "", ""),
        schedule: case.schedule.into(),
        room_trace: case.room_trace,
        room_report: TEXT_LIMIT,
        expected: None,
        expected_order: None,
        expected_record: Some(case.expected),
    })
}

fn folder_name(name: &str) -> String {
    name.replace([' ', ','], "-")
}

fn random_case(seed: u64, number: u64) -> Case {
    let mut random = Random::new(Random::new(seed).next() ^ number);
    let size = random::size(&mut random);
    let run = random::run(&mut random, size);
    let mut schedule = random::schedule_over(&mut random, &run, size);
    let Run { mut batch, .. } = run;
    let room_trace = room(&mut random, batch.trace.len());
    let room_report = room(&mut random, batch.report.len());
    if random.percent(85) {
        damage_batch(&mut random, &mut batch);
    }
    if random.percent(40) {
        damage_schedule(&mut random, &mut schedule);
    }
    if random.percent(30) {
        interleave_logs(&mut random, &mut batch.report);
    }
    Case {
        name: format!("seed-{seed}-case-{number}"),
        batch,
        schedule,
        room_trace,
        room_report,
        expected: None,
        expected_order: None,
        expected_record: None,
    }
}

/// The report told otherwise, where it can be read: the order to read goes by report lines, and the host writes
/// one object's log behind the other's.
fn interleave_logs(random: &mut Random, report: &mut Vec<u8>) {
    if let Ok(read) = read_report(report) {
        *report = write_report(&random::interleave(random, &read));
    }
}

/// Enough room most of the time, else a length around the one that is needed, or none.
fn room(random: &mut Random, needed: usize) -> usize {
    match random.below(10) {
        0..=5 => TEXT_LIMIT,
        6 => needed.saturating_sub(1),
        7 => needed,
        8 => needed + 1,
        _ => random.below(needed + 1),
    }
}
