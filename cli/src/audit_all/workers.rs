//! The threads that look at the batches of a spool.

use super::folder::{Prepared, Results};
use super::progress::{Progress, INTERVAL};
use crate::findings::{Auditor, Finding, State, Wanted};
use crate::kept::Kept;
use crate::outcome::NotRun;
use crate::proved::STACK;
use crate::system;
use crate::texts::{Missing, Texts, BATCH};
use std::ffi::{OsStr, OsString};
use std::path::Path;
use std::sync::atomic::{AtomicUsize, Ordering};
use std::sync::mpsc::{self, RecvTimeoutError, Sender};
use std::thread;

/// How many results are brought to the disk together.
const GROUP: usize = 64;

/// What the threads share.
pub struct Work<'a> {
    spool: &'a Path,
    results: &'a Results,
    names: &'a [OsString],
    wanted: Wanted,
    taken: AtomicUsize,
}

/// A batch that is done with, and whether it was audited now.
struct Done {
    finding: Finding,
    audited: bool,
}

/// Looks at each batch, so many at a time, and hands on what is found, until all are done or a signal stops it.
pub fn run(work: &Work, jobs: usize, progress: &mut Progress, mut take: impl FnMut(Finding)) {
    let (sender, receiver) = mpsc::channel();
    thread::scope(|scope| {
        let mut started = 0;
        for _ in 0..jobs.min(work.names.len()) {
            let sender = sender.clone();
            let thread = thread::Builder::new().stack_size(STACK);
            let thread = thread.spawn_scoped(scope, move || look_at_batches(work, &sender));
            started += usize::from(thread.is_ok());
        }
        if started == 0 {
            // No thread can be started: this one does the work.
            look_at_batches(work, &sender);
        }
        drop(sender);
        loop {
            match receiver.recv_timeout(INTERVAL) {
                Ok(Done { finding, audited }) => {
                    progress.note(&finding, audited);
                    take(finding);
                }
                Err(RecvTimeoutError::Timeout) => progress.refresh(),
                Err(RecvTimeoutError::Disconnected) => return,
            }
        }
    });
}

fn look_at_batches(work: &Work, sender: &Sender<Done>) {
    let mut auditor = Auditor::new(work.wanted);
    let mut group = Vec::new();
    while let Some(name) = work.next() {
        match work.look_at(name, &mut auditor) {
            Ok(Found::Kept(finding)) => send(sender, finding, false),
            Ok(Found::Audited(finding, prepared)) => group.push((finding, prepared)),
            Err(why) => {
                let failed = Finding::none(name.clone(), State::Failed, why.sentence());
                send(sender, failed, true);
            }
        }
        if group.len() == GROUP {
            work.keep(std::mem::take(&mut group), sender);
        }
    }
    work.keep(group, sender);
}

/// What is found of a batch: now, with a result that is still to be kept, or before.
enum Found {
    Kept(Finding),
    Audited(Finding, Prepared),
}

impl<'a> Work<'a> {
    pub fn new(
        spool: &'a Path,
        results: &'a Results,
        names: &'a [OsString],
        wanted: Wanted,
    ) -> Work<'a> {
        Work {
            spool,
            results,
            names,
            wanted,
            taken: AtomicUsize::new(0),
        }
    }

    /// The next batch that no thread has taken.
    fn next(&self) -> Option<&OsString> {
        if system::stopped() {
            return None;
        }
        self.names.get(self.taken.fetch_add(1, Ordering::Relaxed))
    }

    /// Audits a batch, or holds it against its kept result.
    fn look_at(&self, name: &OsStr, auditor: &mut Auditor) -> Result<Found, NotRun> {
        let texts = Texts::read(&self.spool.join(name), &BATCH, Missing::NotRun)?;
        match Kept::read(&self.results.folder, name) {
            Ok(None) => {}
            Ok(Some(kept)) => return compared(name, &texts, &kept, auditor).map(Found::Kept),
            Err(unusable) => return Ok(Found::Kept(unusable.finding(name.to_owned()))),
        }
        let (finding, printed) = auditor.audit(name.to_owned(), &texts)?;
        let prepared = self.results.prepare(&finding, &texts, &printed);
        let prepared = prepared.map_err(|why| not_kept(&why))?;
        Ok(Found::Audited(finding, prepared))
    }

    /// Keeps a group of results. One that could not be kept is no result.
    fn keep(&self, group: Vec<(Finding, Prepared)>, sender: &Sender<Done>) {
        if group.is_empty() {
            return;
        }
        let synced = self.results.sync().map_err(|why| not_kept(&why).sentence());
        for (finding, prepared) in group {
            let kept = synced.clone().and_then(|()| {
                let kept = self.results.keep(&prepared);
                kept.map_err(|why| not_kept(&why).sentence())
            });
            let finding = match kept {
                Ok(()) => finding,
                Err(sentence) => Finding::none(finding.batch, State::Failed, sentence),
            };
            send(sender, finding, true);
        }
    }
}

/// What is found of a batch that has a kept result: what that says, where it counts and the texts are those that were audited.
fn compared(
    name: &OsStr,
    texts: &Texts,
    kept: &Kept,
    auditor: &mut Auditor,
) -> Result<Finding, NotRun> {
    let finding = kept.finding(name, auditor)?;
    let differs = texts.first_difference(&kept.texts);
    Ok(match differs.filter(|_| finding.state != State::Damaged) {
        None => finding,
        Some(text) => {
            let why = format!("{} is not the text that was audited", text.file());
            Finding::none(name.to_owned(), State::Changed, why)
        }
    })
}

fn not_kept(why: &std::io::Error) -> NotRun {
    NotRun(format!("its result cannot be kept: {why}"))
}

fn send(sender: &Sender<Done>, finding: Finding, audited: bool) {
    // The receiver is there until all senders are gone.
    let _ = sender.send(Done { finding, audited });
}
