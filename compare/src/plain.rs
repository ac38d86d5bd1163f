//! The plain run of an order, and the search of all orders of a small batch.
//!
//! The search knows nothing of "comes before" or of replay: it tries every order of operations and trace
//! lines and asks whether demand 3 allows it. So it checks the audit's acceptance by other means.

use crate::audit::Batch;
use crate::machine::{Objects, Path, Pause, Running};
use crate::texts::{Event, LogLine, Program, Request, Response};
use std::collections::BTreeMap;
use std::fmt;

/// An item of an order: a trace line by its number, or an operation.
#[derive(Clone, Copy, Debug, PartialEq, Eq, PartialOrd, Ord)]
pub enum Item {
    Event { line: usize },
    Operation { rid: u64, num: u64 },
}

impl fmt::Display for Item {
    fn fmt(&self, out: &mut fmt::Formatter) -> fmt::Result {
        match self {
            Item::Event { line } => write!(out, "event={line}"),
            Item::Operation { rid, num } => write!(out, "op={rid},{num}"),
        }
    }
}

/// The state of the plain run.
#[derive(Clone)]
pub struct PlainRun<'a> {
    programs: &'a [Program],
    trace: &'a [Event],
    objects: Objects,
    logs: BTreeMap<u64, Vec<LogLine>>,
    requests: BTreeMap<u64, Followed<'a>>,
}

#[derive(Clone)]
struct Followed<'a> {
    open: bool,
    running: Running<'a>,
}

impl<'a> PlainRun<'a> {
    pub fn new(programs: &'a [Program], trace: &'a [Event]) -> PlainRun<'a> {
        PlainRun {
            programs,
            trace,
            objects: Objects::default(),
            logs: BTreeMap::new(),
            requests: BTreeMap::new(),
        }
    }

    /// Runs one item; `None` where the run fails.
    pub fn run(&mut self, item: Item) -> Option<()> {
        match item {
            Item::Event { line } => match self.trace[line - 1] {
                Event::Request(request) => self.open(request),
                Event::Response(response) => self.respond(response),
            },
            Item::Operation { rid, num } => self.operate(rid, num),
        }
    }

    fn open(&mut self, request: Request) -> Option<()> {
        let running = Running::open(self.programs, &request);
        let open = true;
        self.requests
            .insert(request.rid, Followed { open, running });
        Some(())
    }

    fn open_request(&mut self, rid: u64) -> Option<&mut Followed<'a>> {
        self.requests.get_mut(&rid).filter(|request| request.open)
    }

    fn operate(&mut self, rid: u64, num: u64) -> Option<()> {
        let request = self.open_request(rid)?;
        let Pause::Operation(operation) = request.running.go_on() else {
            return None;
        };
        if request.running.operations() != num {
            return None;
        }
        let answer = self.objects.perform(operation);
        self.open_request(rid)?.running.answer(answer);
        let log = self.logs.entry(operation.object).or_default();
        log.push(operation.log_line(rid, num, answer));
        Some(())
    }

    fn respond(&mut self, response: Response) -> Option<()> {
        let request = self.open_request(response.rid)?;
        request.open = false;
        let Response { status, value, .. } = response;
        (request.running.go_on() == Pause::End { status, value }).then_some(())
    }

    /// Whether the logs so far are the fronts of the report's. A log only grows at its end, so a run
    /// that left the report cannot come back to it.
    fn keeps_to(&self, batch: &Batch) -> bool {
        self.logs.iter().all(|(object, log)| {
            let mut reported = batch.report.log_of(*object);
            log.iter().all(|line| reported.next() == Some(line))
        })
    }

    /// What demand 3 asks of the end of a run: counts, logs and one path for each group. A request that is
    /// still open has come through its last operation and no further, and its path ends there.
    fn ends_as_reported(&self, batch: &Batch) -> bool {
        let counts_agree = batch
            .report
            .of
            .iter()
            .all(|of| self.requests[&of.rid].running.operations() == of.count);
        let reported_operations = batch.report.log.len();
        let operations: usize = self.logs.values().map(Vec::len).sum();
        let logs_agree = operations == reported_operations && self.keeps_to(batch);
        counts_agree && logs_agree && self.groups_agree(batch)
    }

    fn groups_agree(&self, batch: &Batch) -> bool {
        let mut paths: BTreeMap<u64, Path> = BTreeMap::new();
        batch.report.of.iter().all(|of| {
            let path = self.requests[&of.rid].running.path();
            *paths.entry(of.group).or_insert_with(|| path.clone()) == path
        })
    }
}

/// Whether demand 3 allows this order.
pub fn allows(batch: &Batch, order: &[Item]) -> bool {
    let lines = order.iter().filter_map(|item| match item {
        Item::Event { line } => Some(*line),
        Item::Operation { .. } => None,
    });
    let mut run = PlainRun::new(&batch.programs, &batch.trace);
    lines.eq(1..=batch.trace.len())
        && order.iter().all(|item| run.run(*item).is_some())
        && run.ends_as_reported(batch)
}

/// What the search found.
#[derive(Clone, Copy, Debug, PartialEq, Eq)]
pub enum Found {
    Order,
    NoOrder,
    /// The batch has more orders than the search was allowed to follow.
    GaveUp,
}

/// Whether demand 3 allows some order of the batch, found within so many items.
pub fn search_orders(batch: &Batch, budget: usize) -> Found {
    let mut search = Search { batch, budget };
    match search.extend(&PlainRun::new(&batch.programs, &batch.trace), 0) {
        Some(true) => Found::Order,
        Some(false) => Found::NoOrder,
        None => Found::GaveUp,
    }
}

struct Search<'a> {
    batch: &'a Batch,
    budget: usize,
}

impl Search<'_> {
    /// Whether the run can be brought to an allowed end; `None` when the budget is used up.
    fn extend(&mut self, run: &PlainRun, events: usize) -> Option<bool> {
        if events == run.trace.len() && run.ends_as_reported(self.batch) {
            return Some(true);
        }
        for item in next_items(run, events) {
            self.budget = self.budget.checked_sub(1)?;
            let mut next = run.clone();
            if next.run(item).is_none() || !next.keeps_to(self.batch) {
                continue;
            }
            let events = events + usize::from(matches!(item, Item::Event { .. }));
            if self.extend(&next, events)? {
                return Some(true);
            }
        }
        Some(false)
    }
}

/// Every item that does not fail at once: the trace line behind these, and the next operation of each open
/// request.
fn next_items(run: &PlainRun, events: usize) -> Vec<Item> {
    let operations = run.requests.iter().filter(|(_, request)| request.open);
    let operations = operations.map(|(rid, request)| Item::Operation {
        rid: *rid,
        num: request.running.operations() + 1,
    });
    let line = events + 1;
    let event = (line <= run.trace.len()).then_some(Item::Event { line });
    operations.chain(event).collect()
}

#[cfg(test)]
mod tests {
    use super::*;
    use crate::audit::read_batch;
    use crate::worked::{self, Case};

    #[test]
    fn the_search_agrees_on_the_worked_batches() {
        for Case {
            name,
            batch,
            expected,
            ..
        } in worked::batches()
        {
            let read = read_batch(&batch.programs, &batch.trace, &batch.report);
            let Ok(read) = read else {
                assert!((1..=6).contains(&expected.verdict), "{name}");
                continue;
            };
            let found = search_orders(&read, 10_000);
            let accepted = expected.verdict == 0;
            assert!(
                found == Found::GaveUp || (found == Found::Order) == accepted,
                "{name}: {found:?}"
            );
        }
    }
}
