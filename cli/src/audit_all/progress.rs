//! What a run says while it goes on: on a terminal one line of progress, elsewhere a line for each batch.

use crate::findings::{Finding, State};
use crate::outcome::say;
use crate::shown;
use std::io::{self, IsTerminal, Write};
use std::time::{Duration, Instant};

/// How often the line of progress is written.
pub const INTERVAL: Duration = Duration::from_millis(100);

pub struct Progress {
    terminal: bool,
    began: Instant,
    written: Instant,
    all: usize,
    done: usize,
    refused: usize,
}

impl Progress {
    pub fn new(all: usize) -> Progress {
        let now = Instant::now();
        Progress {
            terminal: io::stderr().is_terminal(),
            began: now,
            written: now,
            all,
            done: 0,
            refused: 0,
        }
    }

    /// Notes a batch that was audited now, or whose result was kept before.
    pub fn note(&mut self, finding: &Finding, audited: bool) {
        self.done += 1;
        self.refused += usize::from(finding.state == State::Refused);
        if finding.state != State::Accepted || (audited && !self.terminal) {
            self.clear();
            let name = shown::name(&finding.batch);
            say(&format!("{name}: {}", finding.sentence));
        }
        self.refresh();
    }

    /// Writes the line of progress again where it is time.
    pub fn refresh(&mut self) {
        if !self.terminal || self.written.elapsed() < INTERVAL {
            return;
        }
        self.written = Instant::now();
        let seconds = self.began.elapsed().as_secs_f64();
        let rate = self.done as f64 / seconds;
        let left = (self.all - self.done) as f64 / rate.max(f64::MIN_POSITIVE);
        let (all, done, refused) = (self.all, self.done, self.refused);
        let line = format!(
            "{done} of {all} done, {refused} refused, {rate:.0} a second, {left:.0} s left"
        );
        let _ = io::stderr().write_all(format!("\r\x1b[K{line}").as_bytes());
    }

    pub fn end(&mut self) {
        self.clear();
    }

    fn clear(&mut self) {
        if self.terminal {
            let _ = io::stderr().write_all(b"\r\x1b[K");
        }
    }
}
