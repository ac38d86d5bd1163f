//! The reference host: runs a schedule and writes the trace and the report that it means.

use crate::audit::{checked_programs, Fault};
use crate::machine::{Objects, Pause, Running};
use crate::texts::{
    read_schedule, write_report, write_trace, Entry, Event, LogLine, OfLine, Program, Report,
    Request, Response, LOG_LIMIT,
};

/// What the host answers; both texts are empty on a refusal.
#[derive(Clone, Debug, PartialEq, Eq)]
pub struct Recorded {
    pub verdict: u64,
    pub line: usize,
    pub trace: Vec<u8>,
    pub report: Vec<u8>,
}

/// Runs the schedule, with so many bytes of room for the trace and for the report.
pub fn record(programs: &[u8], schedule: &[u8], room_trace: usize, room_report: usize) -> Recorded {
    match run(programs, schedule, room_trace, room_report) {
        Ok((trace, report)) => Recorded {
            verdict: 0,
            line: 0,
            trace,
            report,
        },
        Err(Fault { verdict, line }) => Recorded {
            verdict,
            line,
            trace: Vec::new(),
            report: Vec::new(),
        },
    }
}

fn run(
    programs: &[u8],
    schedule: &[u8],
    room_trace: usize,
    room_report: usize,
) -> Result<(Vec<u8>, Vec<u8>), Fault> {
    let programs = checked_programs(programs)?;
    let schedule = read_schedule(schedule).map_err(Fault::unreadable(13))?;
    let mut host = Host::new(&programs);
    for (line, entry) in (1..).zip(&schedule) {
        host.follow(entry).ok_or(Fault::new(14, line))?;
    }
    let trace = write_trace(host.trace());
    let report = write_report(&host.report());
    if trace.len() > room_trace || report.len() > room_report {
        return Err(Fault::new(16, 0));
    }
    Ok((trace, report))
}

/// The host between two lines of its schedule.
pub struct Host<'a> {
    programs: &'a [Program],
    objects: Objects,
    /// In arrival order; a rid arrives once.
    requests: Vec<Arrived<'a>>,
    trace: Vec<Event>,
    /// All operations in order of execution.
    executed: Vec<LogLine>,
}

struct Arrived<'a> {
    rid: u64,
    running: Running<'a>,
    answered: bool,
}

impl<'a> Host<'a> {
    pub fn new(programs: &'a [Program]) -> Host<'a> {
        Host {
            programs,
            objects: Objects::default(),
            requests: Vec::new(),
            trace: Vec::new(),
            executed: Vec::new(),
        }
    }

    /// Follows one line of the schedule; `None` is a fault of row 14.
    pub fn follow(&mut self, entry: &Entry) -> Option<()> {
        match entry {
            Entry::Arrive(request) => self.arrive(request),
            Entry::Turn(rid) => self.turn(*rid),
        }
    }

    /// The rids of the requests that were not answered yet.
    pub fn open_rids(&self) -> Vec<u64> {
        let open = self.requests.iter().filter(|request| !request.answered);
        open.map(|request| request.rid).collect()
    }

    pub fn trace(&self) -> &[Event] {
        &self.trace
    }

    pub fn report(&self) -> Report {
        let of = (0..).zip(&self.requests).map(|(group, request)| OfLine {
            rid: request.rid,
            group,
            count: request.running.operations(),
        });
        let mut log = self.executed.clone();
        // A stable sort: within one object the order of execution stays.
        log.sort_by_key(|line| line.object);
        Report {
            of: of.collect(),
            log,
        }
    }

    fn place(&self, rid: u64) -> Option<usize> {
        self.requests.iter().position(|request| request.rid == rid)
    }

    fn arrive(&mut self, request: &Request) -> Option<()> {
        if self.place(request.rid).is_some() || request.program >= self.programs.len() as u64 {
            return None;
        }
        self.requests.push(Arrived {
            rid: request.rid,
            running: Running::open(self.programs, request),
            answered: false,
        });
        self.trace.push(Event::Request(*request));
        Some(())
    }

    fn turn(&mut self, rid: u64) -> Option<()> {
        let place = self.place(rid)?;
        let request = &mut self.requests[place];
        if request.answered {
            return Some(());
        }
        match request.running.go_on() {
            Pause::Operation(operation) => {
                if self.executed.len() == LOG_LIMIT {
                    return None;
                }
                let num = request.running.operations();
                let answer = self.objects.perform(operation);
                self.executed.push(operation.log_line(rid, num, answer));
                request.running.answer(answer);
            }
            Pause::End { status, value } => {
                request.answered = true;
                self.trace
                    .push(Event::Response(Response { rid, status, value }));
            }
        }
        Some(())
    }
}

#[cfg(test)]
mod tests {
    use super::*;
    use crate::worked;

    const ROOM: usize = 65_535;

    #[test]
    fn the_schedule_of_c_writes_c() {
        let c = worked::case_c();
        let result = record(
            &c.programs,
            worked::SCHEDULE_OF_C,
            c.trace.len(),
            c.report.len(),
        );
        assert_eq!((result.verdict, result.line), (0, 0));
        assert_eq!(result.trace, c.trace);
        assert_eq!(result.report, c.report);
    }

    #[test]
    fn a_buffer_that_is_too_short_is_refused() {
        let c = worked::case_c();
        for (trace, report) in [
            (10, ROOM),
            (c.trace.len() - 1, ROOM),
            (ROOM, c.report.len() - 1),
            (0, 0),
        ] {
            let result = record(&c.programs, worked::SCHEDULE_OF_C, trace, report);
            assert_eq!((result.verdict, result.line), (16, 0));
        }
    }

    #[test]
    fn worked_schedules_have_their_verdicts() {
        for case in worked::schedules() {
            let (programs, schedule) = (case.programs.as_bytes(), case.schedule.as_bytes());
            let result = record(programs, schedule, case.room_trace, ROOM);
            assert_eq!(
                (result.verdict, result.line),
                case.expected,
                "{}",
                case.name
            );
            let refused = result.verdict != 0;
            assert!(!refused || (result.trace.is_empty() && result.report.is_empty()));
        }
    }

    /// What is written of both programs' requests, the first of which gets so many turns.
    fn left_open(turns: usize) -> [String; 2] {
        let turns = "turn=1\n".repeat(turns);
        let schedule = format!("arrive=1,0,0,0\n{turns}arrive=2,1,0,0\n");
        written(worked::PROGRAMS, &schedule)
    }

    /// The trace and the report of a schedule that is followed.
    fn written(programs: &str, schedule: &str) -> [String; 2] {
        let result = record(programs.as_bytes(), schedule.as_bytes(), ROOM, ROOM);
        assert_eq!((result.verdict, result.line), (0, 0));
        [result.trace, result.report].map(|text| String::from_utf8(text).expect("digits"))
    }

    #[test]
    fn open_requests_have_no_response_and_count_what_was_carried_out() {
        let trace = "request=1,0,0,0\nrequest=2,1,0,0\n";
        for (turns, report) in [
            (0, "of=1,0,0\nof=2,1,0\n"),
            (1, "of=1,0,1\nof=2,1,0\nlog=0,1,1,7,0,1\n"),
            (2, "of=1,0,2\nof=2,1,0\nlog=0,1,1,7,0,1\nlog=1,1,2,6,0,0\n"),
        ] {
            assert_eq!(left_open(turns), [trace, report], "{turns} turns");
        }
    }

    /// A well put as 0 is filled, and the second request fills it only where it asks before that put.
    #[test]
    fn a_key_is_held_behind_its_put_and_not_before() {
        let requests = "request=1,0,3,0\nrequest=2,0,3,7\n";
        for (turns, responses, report) in [
            (
                "11221",
                "response=2,0,1\nresponse=1,0,0\n",
                "of=1,0,2\nof=2,1,1\nlog=8,1,1,10,3,0\nlog=8,1,2,9,3,0\nlog=8,2,1,10,3,1\n",
            ),
            (
                "121212",
                "response=1,0,0\nresponse=2,0,0\n",
                "of=1,0,2\nof=2,1,2\n\
                 log=8,1,1,10,3,0\nlog=8,2,1,10,3,0\nlog=8,1,2,9,3,0\nlog=8,2,2,9,3,7\n",
            ),
            (
                "12",
                "",
                "of=1,0,1\nof=2,1,1\nlog=8,1,1,10,3,0\nlog=8,2,1,10,3,0\n",
            ),
        ] {
            let schedule = worked::in_turns(worked::FILLING, turns);
            let trace = format!("{requests}{responses}");
            let texts = [trace.as_str(), report];
            assert_eq!(written(worked::FILL, &schedule), texts, "turns {turns}");
        }
    }

    #[test]
    fn the_loop_program_is_cut_off() {
        let schedule = b"arrive=1,0,0,0\nturn=1\n";
        let result = record(worked::LOOP.as_bytes(), schedule, ROOM, ROOM);
        assert_eq!(result.trace, b"request=1,0,0,0\nresponse=1,1,0\n");
        assert_eq!(result.report, b"of=1,0,0\n");
    }
}
