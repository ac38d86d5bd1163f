//! The audit: verdicts 0 to 12 over programs, trace and report.
//!
//! Each check hands on what the next ones need, so their order in `checked` is the order of the verdicts.

use crate::machine::{broken_rule, Objects, Operation, Path, Pause, Running};
use crate::maps::Map;
use crate::texts::{
    read_programs, read_report, read_trace, Event, LogLine, OfLine, Program, Report, Request,
    Response, Unreadable,
};

/// A refusal: its verdict and the line that it names.
#[derive(Clone, Copy, Debug, PartialEq, Eq)]
pub struct Fault {
    pub verdict: u64,
    pub line: usize,
}

impl Fault {
    pub fn new(verdict: u64, line: usize) -> Fault {
        Fault { verdict, line }
    }

    pub fn unreadable(verdict: u64) -> impl Fn(Unreadable) -> Fault {
        move |Unreadable(line)| Fault { verdict, line }
    }
}

#[derive(Clone, Copy, Debug, PartialEq, Eq)]
pub struct Audited {
    pub verdict: u64,
    pub line: usize,
    pub requests: usize,
    pub operations: usize,
    /// The operations by the hundred: the whole hundreds, and what is left over.
    pub blocks: usize,
    pub rest: usize,
}

/// Verdict, line and counts of a batch.
pub fn audit(programs: &[u8], trace: &[u8], report: &[u8]) -> Audited {
    audited(&checked(programs, trace, report))
}

/// Verdict, line and counts of what was checked.
pub fn audited(checked: &Result<Accepted, Fault>) -> Audited {
    match checked {
        Ok(Accepted { batch, .. }) => {
            let operations = batch.report.log.len();
            let (blocks, rest) = by_the_hundred(operations);
            Audited {
                verdict: 0,
                line: 0,
                requests: batch.requests.len(),
                operations,
                blocks,
                rest,
            }
        }
        Err(Fault { verdict, line }) => Audited {
            verdict: *verdict,
            line: *line,
            requests: 0,
            operations: 0,
            blocks: 0,
            rest: 0,
        },
    }
}

/// Whole hundreds of operations, and what is left over.
fn by_the_hundred(operations: usize) -> (usize, usize) {
    (operations / 100, operations % 100)
}

/// An accepted batch, and what comes before what in it. The nodes are the events of the trace and, behind
/// them, the log lines, each of which stands for the operation that it claims.
pub struct Accepted {
    pub batch: Batch,
    pub graph: Graph,
}

/// The batch where no row holds of it, else the first fault.
pub fn checked(programs: &[u8], trace: &[u8], report: &[u8]) -> Result<Accepted, Fault> {
    let batch = read_batch(programs, trace, report)?;
    let claims = claims(&batch.report)?;
    every_operation_claimed(&batch.report, &claims)?;
    let graph = comes_before(&batch, &claims);
    if graph.has_cycle() {
        return Err(Fault::new(9, 0));
    }
    replay_all(&batch, &claims)?;
    Ok(Accepted { batch, graph })
}

/// A batch whose texts are readable and keep the rules.
pub struct Batch {
    pub programs: Vec<Program>,
    pub trace: Vec<Event>,
    pub report: Report,
    /// The requests of the trace in arrival order.
    pub requests: Vec<Arrived>,
}

/// A request with its response; an open one has none.
pub type Arrived = (Request, Option<Response>);

/// The texts read and held against rows 1 to 6.
pub fn read_batch(programs: &[u8], trace: &[u8], report: &[u8]) -> Result<Batch, Fault> {
    let programs = checked_programs(programs)?;
    let trace = read_trace(trace).map_err(Fault::unreadable(3))?;
    let requests = arrived_requests(&trace, programs.len())?;
    let report = read_report(report).map_err(Fault::unreadable(5))?;
    one_of_line_per_request(&report.of, &requests)?;
    Ok(Batch {
        programs,
        trace,
        report,
        requests,
    })
}

/// Rows 1 and 2, which the host shares.
pub fn checked_programs(text: &[u8]) -> Result<Vec<Program>, Fault> {
    let programs = read_programs(text).map_err(Fault::unreadable(1))?;
    match broken_rule(&programs) {
        Some(line) => Err(Fault::new(2, line)),
        None => Ok(programs),
    }
}

/// Row 4; where it does not hold, the requests in arrival order.
fn arrived_requests(trace: &[Event], programs: usize) -> Result<Vec<Arrived>, Fault> {
    let mut requests: Map<u64, Request> = Map::default();
    let mut responses: Map<u64, Response> = Map::default();
    for (line, event) in (1..).zip(trace) {
        let faulty = match event {
            Event::Request(request) => {
                requests.insert(request.rid, *request).is_some()
                    || request.program >= programs as u64
            }
            Event::Response(response) => {
                !requests.contains_key(&response.rid)
                    || responses.insert(response.rid, *response).is_some()
            }
        };
        if faulty {
            return Err(Fault::new(4, line));
        }
    }
    let arrived = trace.iter().filter_map(|event| match event {
        Event::Request(request) => Some((*request, responses.get(&request.rid).copied())),
        Event::Response(_) => None,
    });
    Ok(arrived.collect())
}

/// Row 6.
fn one_of_line_per_request(of: &[OfLine], requests: &[Arrived]) -> Result<(), Fault> {
    for (index, line) in of.iter().enumerate() {
        let expected = requests.get(index).map(|(request, _)| request.rid);
        if expected != Some(line.rid) {
            return Err(Fault::new(6, index + 1));
        }
    }
    if of.len() < requests.len() {
        return Err(Fault::new(6, of.len() + 1));
    }
    Ok(())
}

/// For each rid and number the place of the log line that claims this operation.
type Claims = Map<(u64, u64), usize>;

/// Row 7.
fn claims(report: &Report) -> Result<Claims, Fault> {
    let counts: Map<u64, u64> = report.of.iter().map(|of| (of.rid, of.count)).collect();
    let mut claims = Claims::default();
    for (index, line) in report.log.iter().enumerate() {
        let within_count = counts
            .get(&line.rid)
            .is_some_and(|count| (1..=*count).contains(&line.num));
        if !within_count || claims.insert((line.rid, line.num), index).is_some() {
            return Err(Fault::new(7, report.line_of_log(index)));
        }
    }
    Ok(claims)
}

/// Row 8.
fn every_operation_claimed(report: &Report, claims: &Claims) -> Result<(), Fault> {
    for (line, of) in (1..).zip(&report.of) {
        if !(1..=of.count).all(|num| claims.contains_key(&(of.rid, num))) {
            return Err(Fault::new(8, line));
        }
    }
    Ok(())
}

/// What comes before what; row 9 stands where some chain of it returns to its start.
fn comes_before(batch: &Batch, claims: &Claims) -> Graph {
    let events = batch.trace.len();
    let mut graph = Graph::new(events + batch.report.log.len());
    graph.chain(0..events);
    for of in &batch.report.of {
        let request = place_of(
            &batch.trace,
            |event| matches!(event, Event::Request(r) if r.rid == of.rid),
        );
        let response = place_of(
            &batch.trace,
            |event| matches!(event, Event::Response(r) if r.rid == of.rid),
        );
        let operations = (1..=of.count).map(|num| events + claims[&(of.rid, num)]);
        graph.chain(request.into_iter().chain(operations).chain(response));
    }
    for object in 0..16 {
        let lines = batch.report.log.iter().enumerate();
        graph.chain(
            lines
                .filter(|(_, line)| line.object == object)
                .map(|(index, _)| events + index),
        );
    }
    graph
}

/// Where the wanted event stands; the response of an open request stands nowhere.
fn place_of(trace: &[Event], wanted: impl Fn(&Event) -> bool) -> Option<usize> {
    trace.iter().position(wanted)
}

pub struct Graph {
    /// For each node those that it comes before.
    pub successors: Vec<Vec<usize>>,
}

#[derive(Clone, Copy, PartialEq, Eq)]
enum Visit {
    NotYet,
    UnderWay,
    Done,
}

impl Graph {
    fn new(nodes: usize) -> Graph {
        Graph {
            successors: vec![Vec::new(); nodes],
        }
    }

    /// Each node of the chain comes before the next.
    fn chain(&mut self, nodes: impl IntoIterator<Item = usize>) {
        let mut before = None;
        for node in nodes {
            if let Some(before) = before.replace(node) {
                self.successors[before].push(node);
            }
        }
    }

    /// For each node those that come before it.
    pub fn forerunners(&self) -> Vec<Vec<usize>> {
        let mut forerunners = vec![Vec::new(); self.successors.len()];
        for (node, successors) in self.successors.iter().enumerate() {
            for &next in successors {
                forerunners[next].push(node);
            }
        }
        forerunners
    }

    fn has_cycle(&self) -> bool {
        let mut visits = vec![Visit::NotYet; self.successors.len()];
        (0..visits.len()).any(|node| self.returns_from(node, &mut visits))
    }

    /// Depth-first: an edge to a node that is still under way closes a cycle. A path has at most 128
    /// events and 1,024 operations, so recursion is deep enough and no deeper.
    fn returns_from(&self, node: usize, visits: &mut [Visit]) -> bool {
        match visits[node] {
            Visit::UnderWay => return true,
            Visit::Done => return false,
            Visit::NotYet => visits[node] = Visit::UnderWay,
        }
        let returns = self.successors[node]
            .iter()
            .any(|&next| self.returns_from(next, visits));
        visits[node] = Visit::Done;
        returns
    }
}

/// Rows 10, 11 and 12, request by request in arrival order.
fn replay_all(batch: &Batch, claims: &Claims) -> Result<(), Fault> {
    let answers = answers(&batch.report.log);
    let mut first_paths: Map<u64, Path> = Map::default();
    for (index, arrived) in batch.requests.iter().enumerate() {
        let line = index + 1;
        let of = &batch.report.of[index];
        let replayed =
            replay(batch, claims, &answers, arrived, of.count).ok_or(Fault::new(10, line))?;
        if replayed.response != arrived.1 {
            return Err(Fault::new(11, line));
        }
        let first = first_paths
            .entry(of.group)
            .or_insert_with(|| replayed.path.clone());
        if *first != replayed.path {
            return Err(Fault::new(12, line));
        }
    }
    Ok(())
}

/// For each log line the answer that its operation takes, by what the lines above it wrote.
fn answers(log: &[LogLine]) -> Vec<u64> {
    let mut objects = Objects::default();
    log.iter()
        .map(|line| objects.perform(Operation::claimed_by(line)))
        .collect()
}

struct Replayed {
    /// None of an open request: the instructions behind its last operation are not run.
    response: Option<Response>,
    path: Path,
}

/// The request run against the logs, an open one no further than the operation that its count numbers; `None`
/// where an operation or the count differs.
fn replay(
    batch: &Batch,
    claims: &Claims,
    answers: &[u64],
    (request, answered): &Arrived,
    count: u64,
) -> Option<Replayed> {
    let rid = request.rid;
    let mut running = Running::open(&batch.programs, request);
    let mut response = None;
    while response.is_none() && (answered.is_some() || running.operations() < count) {
        match running.go_on() {
            Pause::Operation(operation) => {
                let num = running.operations();
                let index = *claims.get(&(rid, num))?;
                let answer = answers[index];
                if batch.report.log[index] != operation.log_line(rid, num, answer) {
                    return None;
                }
                running.answer(answer);
            }
            Pause::End { status, value } => response = Some(Response { rid, status, value }),
        }
    }
    let path = running.path();
    (running.operations() == count).then_some(Replayed { response, path })
}

#[cfg(test)]
mod tests {
    use super::*;
    use crate::worked::{self, Case};

    #[test]
    fn worked_batches_have_their_verdicts() {
        for Case {
            name,
            batch,
            expected,
            ..
        } in worked::batches()
        {
            assert_eq!(
                audit(&batch.programs, &batch.trace, &batch.report),
                expected,
                "{name}"
            );
        }
    }

    #[test]
    fn blocks_are_whole_hundreds_and_the_rest_is_below_a_hundred() {
        for operations in 0..=1_024 {
            let (blocks, rest) = by_the_hundred(operations);
            assert_eq!(100 * blocks + rest, operations);
            assert!(rest < 100, "{rest} of {operations}");
            let counted = (100..=operations).step_by(100).count();
            assert_eq!(blocks, counted, "of {operations}");
        }
    }
}
