//! `teaselshears`: the audit of registry batches and the reference host, over the proved library. Everything that decides a
//! verdict is proved; this program reads the texts, once, hands them over, and keeps, prints and words what comes back.

mod answer;
mod arguments;
mod audit;
mod audit_all;
mod causes;
mod commands;
mod csv;
mod explain;
mod files;
mod findings;
mod formats;
mod help;
mod json;
mod kept;
mod order;
mod outcome;
mod proved;
mod record;
mod results;
mod shown;
mod system;
mod table;
mod texts;
mod time;
mod verdicts;

use outcome::{say, NotRun, Status};
use std::env;
use std::ffi::OsString;
use std::process::ExitCode;
use std::thread;

/// The proved functions take more stack than a small limit leaves to the first thread, so everything runs on a second one.
fn main() -> ExitCode {
    let words: Vec<OsString> = env::args_os().skip(1).collect();
    let started = thread::Builder::new()
        .stack_size(proved::STACK)
        .spawn(move || commands::run(&words));
    let ended = started
        .map_err(|why| NotRun(format!("no thread can be started: {why}")))
        .and_then(|thread| thread.join().expect("a panic ends the program"));
    let status = ended.unwrap_or_else(|why| {
        say(&why.sentence());
        Status::NotRun
    });
    status.into()
}
