//! Random programs, schedules and batches.
//!
//! Objects, keys and constants come from small ranges, so that requests meet in the same cells. Batches are
//! made by running the host, so they are honest; `damage` makes the others.

use crate::host::Host;
use crate::machine::{broken_rule, is_read};
use crate::texts::{
    read_programs, read_schedule, write_programs, write_report, write_schedule, write_trace,
    BatchTexts, Entry, Instruction, Program, Report, Request,
};

/// A generator of numbers from a seed (SplitMix64), so that every case can be made again.
pub struct Random {
    state: u64,
}

impl Random {
    pub fn new(seed: u64) -> Random {
        Random { state: seed }
    }

    pub fn next(&mut self) -> u64 {
        self.state = self.state.wrapping_add(0x9e37_79b9_7f4a_7c15);
        let mut z = self.state;
        z = (z ^ (z >> 30)).wrapping_mul(0xbf58_476d_1ce4_e5b9);
        z = (z ^ (z >> 27)).wrapping_mul(0x94d0_49bb_1331_11eb);
        z ^ (z >> 31)
    }

    /// A number below the bound, which is not 0.
    pub fn below(&mut self, bound: usize) -> usize {
        (self.next() % bound as u64) as usize
    }

    pub fn between(&mut self, low: usize, high: usize) -> usize {
        low + self.below(high - low + 1)
    }

    /// True in so many cases of a hundred.
    pub fn percent(&mut self, share: usize) -> bool {
        self.below(100) < share
    }

    pub fn pick<'a, T>(&mut self, choices: &'a [T]) -> &'a T {
        &choices[self.below(choices.len())]
    }

    fn shuffle<T>(&mut self, items: &mut [T]) {
        for last in (1..items.len()).rev() {
            items.swap(last, self.below(last + 1));
        }
    }
}

/// How large the programs and batches are.
#[derive(Clone, Copy)]
pub struct Size {
    programs: usize,
    instructions: usize,
    requests: usize,
    flow: Flow,
    objects: Objects,
}

/// What operations go to; one that stands twice is drawn more often.
#[derive(Clone, Copy)]
struct Objects {
    registers: [u64; 4],
    stores: [u64; 4],
}

const SOME: Objects = Objects {
    registers: [0, 0, 1, 7],
    stores: [8, 8, 9, 15],
};
/// All requests meet in one register and one store.
const FEW: Objects = Objects {
    registers: [5; 4],
    stores: [8; 4],
};

/// How a program goes from instruction to instruction.
#[derive(Clone, Copy)]
enum Flow {
    Straight,
    /// Jumps to anywhere: some requests are cut off.
    Jumps,
    /// One loop of operations that goes on to the cut: an operation may be the 256th instruction, and a few
    /// requests come to the 1,025th operation.
    Loop,
}

/// Few enough items for the search of all orders.
pub const SMALL: Size = Size {
    programs: 2,
    instructions: 5,
    requests: 3,
    flow: Flow::Straight,
    objects: SOME,
};
pub const USUAL: Size = Size {
    programs: 4,
    instructions: 10,
    requests: 6,
    flow: Flow::Jumps,
    objects: SOME,
};
pub const LARGE: Size = Size {
    programs: 16,
    instructions: 64,
    requests: 64,
    flow: Flow::Jumps,
    objects: SOME,
};
pub const LOOPS: Size = Size {
    programs: 2,
    instructions: 20,
    requests: 6,
    flow: Flow::Loop,
    objects: SOME,
};

/// A size, over some objects or few; most batches are small, so that many are run and most faults stand alone.
pub fn size(random: &mut Random) -> Size {
    let size = match random.below(100) {
        0..=48 => SMALL,
        49..=94 => USUAL,
        95..=96 => LOOPS,
        _ => LARGE,
    };
    if random.percent(70) {
        size
    } else {
        Size {
            objects: FEW,
            ..size
        }
    }
}

const VALUES: [u64; 10] = [0, 0, 1, 1, 2, 3, 7, 1 << 63, u64::MAX - 1, u64::MAX];

/// Programs that keep the rules.
pub fn programs(random: &mut Random, size: Size) -> Vec<Program> {
    let count = random.between(1, size.programs);
    let programs: Vec<Program> = (0..count as u64)
        .map(|number| program(random, number, size))
        .collect();
    debug_assert_eq!(broken_rule(&programs), None);
    programs
}

fn program(random: &mut Random, number: u64, size: Size) -> Program {
    let least = if random.percent(80) {
        size.instructions / 2
    } else {
        1
    };
    let length = random.between(least, size.instructions);
    let mut instructions: Vec<Instruction> = (1..length)
        .map(|_| match size.flow {
            Flow::Straight => straight(random, size.objects),
            Flow::Jumps => instruction(random, size.objects, length),
            Flow::Loop => operation(random, size.objects, 1),
        })
        .collect();
    if let Flow::Loop = size.flow {
        // Nothing in the loop changes local 0.
        instructions.push(make(5, 0, 0, 0));
    }
    let reply = reply_local(random, &instructions);
    instructions.push(make(0, reply, 0, 0));
    Program {
        number,
        line: 0,
        instructions,
    }
}

/// Most often what was read last, so that the response depends on other requests.
fn reply_local(random: &mut Random, instructions: &[Instruction]) -> u64 {
    match instructions.iter().rfind(|i| is_read(i.code)) {
        Some(read) if random.percent(70) => read.a,
        _ => local(random),
    }
}

fn make(code: u64, a: u64, b: u64, c: u64) -> Instruction {
    let line = 0;
    Instruction {
        code,
        a,
        b,
        c,
        line,
    }
}

/// Low locals more often than high ones, so that values go on from instruction to instruction.
fn local(random: &mut Random) -> u64 {
    let highest = *random.pick(&[1, 2, 3, 7]);
    random.between(0, highest) as u64
}

/// The local of a key: most often one that is seldom written to, so that requests meet at key 0.
fn key(random: &mut Random) -> u64 {
    let any = random.between(0, 3) as u64;
    *random.pick(&[7, 7, 7, any])
}

/// Any instruction of a program of this length.
fn instruction(random: &mut Random, objects: Objects, length: usize) -> Instruction {
    match random.below(24) {
        0 => make(0, local(random), 0, 0),
        1..=2 => make(5, local(random), random.below(length) as u64, 0),
        _ => straight(random, objects),
    }
}

/// An instruction that the next one follows.
fn straight(random: &mut Random, objects: Objects) -> Instruction {
    let [x, y, z] = [local(random), local(random), local(random)];
    match random.below(22) {
        0..=2 => make(1, x, *random.pick(&VALUES), 0),
        3 => make(2, x, y, z),
        4 => make(3, x, y, z),
        5 => make(4, x, y, z),
        _ => operation(random, objects, 0),
    }
}

/// An operation that reads into no local below this one.
fn operation(random: &mut Random, objects: Objects, lowest: u64) -> Instruction {
    let [x, key] = [local(random), key(random)];
    let register = *random.pick(&objects.registers);
    let store = *random.pick(&objects.stores);
    // An input, most often: other locals may still be 0, and a 0 written where 0 was is seen by code 10 alone.
    let written = *random.pick(&[0, 1, x]);
    match random.below(10) {
        0..=1 => make(6, x.max(lowest), register, 0),
        2..=3 => make(7, register, written, 0),
        4 => make(8, x.max(lowest), store, key),
        5..=6 => make(10, x.max(lowest), store, key),
        _ => make(9, store, key, written),
    }
}

/// How often of a hundred times a request that would take its turn is lost instead: it gets no turn any more and
/// stays open. Four schedules of ten lose requests so, early or late, and most of them one at least: well over a
/// tenth of the schedules, and of the batches that the host makes of them, have open requests.
const LOSSES: [usize; 10] = [0, 0, 0, 0, 0, 0, 5, 15, 30, 60];

/// A schedule for so many requests at most, and its host at the end of it; no host where the last turn is one
/// operation too many.
pub fn schedule<'a>(
    random: &mut Random,
    programs: &'a [Program],
    size: Size,
) -> (Vec<Entry>, Option<Host<'a>>) {
    let mut host = Host::new(programs);
    let mut entries = Vec::new();
    let mut arrivals = arrivals(random, programs.len(), size);
    // Turns are more likely than arrivals where fewer requests are to run side by side.
    let eagerness = random.between(10, 90);
    // Where the request that arrived last goes on first, earlier ones read what later ones wrote.
    let last_first = random.percent(40);
    let loss = *random.pick(&LOSSES);
    let mut lost = Vec::new();
    loop {
        let mut open = host.open_rids();
        open.retain(|rid| !lost.contains(rid));
        let arrival = open.is_empty() || random.percent(eagerness);
        let entry = match arrivals.pop_if(|_| arrival) {
            Some(request) => Entry::Arrive(request),
            None if open.is_empty() => return (entries, Some(host)),
            None if last_first && random.percent(80) => Entry::Turn(open[open.len() - 1]),
            None => Entry::Turn(*random.pick(&open)),
        };
        if let Entry::Turn(rid) = entry {
            if random.percent(loss) {
                lost.push(rid);
                continue;
            }
        }
        entries.push(entry);
        if host.follow(&entry).is_none() {
            return (entries, None);
        }
    }
}

fn arrivals(random: &mut Random, programs: usize, size: Size) -> Vec<Request> {
    let least = if random.percent(90) { 2 } else { 0 };
    let count = random.between(least, size.requests);
    let mut rids: Vec<u64> = (0..count as u64).collect();
    if random.percent(30) {
        let spread = 65_535 / size.requests as u64;
        rids.iter_mut()
            .for_each(|rid| *rid = 65_535 - *rid * spread);
    }
    random.shuffle(&mut rids);
    let mut request = |rid| Request {
        rid,
        program: random.below(programs) as u64,
        a: *random.pick(&VALUES),
        b: if random.percent(50) {
            10 + rid
        } else {
            *random.pick(&VALUES)
        },
    };
    rids.into_iter().map(&mut request).collect()
}

/// Programs and a schedule that the host follows, with the batch that it writes.
pub struct Run {
    pub schedule: Vec<u8>,
    pub batch: BatchTexts,
}

/// A run of the host that comes to no fault.
pub fn run(random: &mut Random, size: Size) -> Run {
    loop {
        let programs = programs(random, size);
        let (entries, Some(host)) = schedule(random, &programs, size) else {
            continue;
        };
        return Run {
            schedule: write_schedule(&entries),
            batch: BatchTexts {
                programs: write_programs(&programs),
                trace: write_trace(host.trace()),
                report: write_report(&host.report()),
            },
        };
    }
}

/// A schedule over the programs of a run: mostly its own, else that one with turns more or cut short, or
/// another, which may come to the 1,025th operation.
pub fn schedule_over(random: &mut Random, run: &Run, size: Size) -> Vec<u8> {
    let choice = random.below(10);
    if choice < 5 {
        return run.schedule.clone();
    }
    let mut entries = match choice {
        5..=6 => read_schedule(&run.schedule).expect("the host followed it"),
        _ => {
            let programs = read_programs(&run.batch.programs).expect("the host ran them");
            schedule(random, &programs, size).0
        }
    };
    match choice {
        5 => add_turns(random, &mut entries),
        6 => entries.truncate(random.below(entries.len() + 1)),
        _ => {}
    }
    write_schedule(&entries)
}

/// Adds turns of requests that have arrived; the request goes on earlier, and its last turns do nothing.
fn add_turns(random: &mut Random, entries: &mut Vec<Entry>) {
    for _ in 0..random.between(1, 4) {
        let place = random.below(entries.len() + 1);
        let arrived: Vec<u64> = entries[..place]
            .iter()
            .filter_map(|entry| match entry {
                Entry::Arrive(request) => Some(request.rid),
                Entry::Turn(_) => None,
            })
            .collect();
        if !arrived.is_empty() {
            entries.insert(place, Entry::Turn(*random.pick(&arrived)));
        }
    }
}

/// The same report told otherwise: the logs of the objects lie in one another, each in its own order.
pub fn interleave(random: &mut Random, report: &Report) -> Report {
    let mut objects: Vec<u64> = report.log.iter().map(|line| line.object).collect();
    random.shuffle(&mut objects);
    let mut logs: Vec<_> = (0..16).map(|object| report.log_of(object)).collect();
    let log = objects
        .iter()
        .filter_map(|object| logs[*object as usize].next())
        .copied()
        .collect();
    Report {
        of: report.of.clone(),
        log,
    }
}

#[cfg(test)]
mod tests {
    use super::*;
    use crate::audit::audit;
    use crate::host::record;
    use crate::texts::read_report;

    #[test]
    fn a_seed_gives_the_same_run() {
        let [one, two] = [1, 1].map(|seed| run(&mut Random::new(seed), USUAL));
        assert_eq!(one.batch, two.batch);
        assert_eq!(one.schedule, two.schedule);
    }

    #[test]
    fn what_the_host_writes_is_accepted() {
        for seed in 0..300 {
            let mut random = Random::new(seed);
            let size = size(&mut random);
            let Run { schedule, batch } = run(&mut random, size);
            let audited = audit(&batch.programs, &batch.trace, &batch.report);
            assert_eq!(audited.verdict, 0, "seed {seed}");
            let recorded = record(&batch.programs, &schedule, 65_535, 65_535);
            assert_eq!(recorded.trace, batch.trace, "seed {seed}");
            assert_eq!(recorded.report, batch.report, "seed {seed}");
        }
    }

    /// What the nearest put above a line left at its key, by the lines alone.
    fn put_above(report: &Report, place: usize) -> Option<u64> {
        let line = &report.log[place];
        let mut above = report.log[..place].iter();
        let put = above.rfind(|put| (put.object, put.kind, put.key) == (line.object, 9, line.key));
        put.map(|put| put.value)
    }

    /// For each line of kind 10 of a run what was put at its key; the line shows whether anything was.
    fn puts_asked_for(seed: u64) -> Vec<Option<u64>> {
        let mut random = Random::new(seed);
        let size = size(&mut random);
        let report = read_report(&run(&mut random, size).batch.report);
        let report = report.expect("the host wrote it");
        let asked = (0..report.log.len()).filter(|&place| report.log[place].kind == 10);
        let put = |place: usize| {
            let put = put_above(&report, place);
            let shown = report.log[place].value;
            assert_eq!(shown, u64::from(put.is_some()), "seed {seed}");
            put
        };
        asked.map(put).collect()
    }

    #[test]
    fn a_tenth_of_the_runs_ask_for_keys_never_put_put_as_0_and_put_otherwise() {
        let sorts: [fn(&Option<u64>) -> bool; 3] = [
            |put| put.is_none(),
            |put| *put == Some(0),
            |put| put.is_some_and(|value| value != 0),
        ];
        let puts: Vec<_> = (0..500).map(puts_asked_for).collect();
        for (place, sort) in sorts.into_iter().enumerate() {
            let share = puts.iter().filter(|puts| puts.iter().any(sort)).count();
            assert!(10 * share >= puts.len(), "sort {place}: {share}");
        }
    }
}
