//! Runs the tests, two at a time, each in a folder of its own, and counts them.

use crate::room::Room;
use std::cell::{Cell, RefCell};
use std::panic::{self, AssertUnwindSafe, PanicHookInfo};
use std::process::ExitCode;
use std::sync::atomic::{AtomicUsize, Ordering};
use std::thread;
use std::time::Instant;

/// Why a test cannot be tried on this machine.
pub struct Skipped(pub String);

/// A test panics where the program is wrong.
pub type Done = Result<(), Skipped>;

/// The name of a test, and the test: it works in the folder that it is given.
pub type Test = (&'static str, fn(&Room) -> Done);

/// The tests of a module, by the names of their functions.
macro_rules! tests {
    ($($name:ident),* $(,)?) => {
        pub const TESTS: &[crate::harness::Test] =
            &[$((concat!(module_path!(), "::", stringify!($name)), $name)),*];
    };
}
pub(crate) use tests;

/// Answers that a test cannot be tried.
pub fn skip<T>(because: &str) -> Result<T, Skipped> {
    Err(Skipped(because.to_string()))
}

thread_local! {
    /// What the last panic of this thread said.
    static SAID: RefCell<String> = const { RefCell::new(String::new()) };
    /// Whether this thread runs tests, and is not a test's own.
    static RUNS_TESTS: Cell<bool> = const { Cell::new(false) };
}

#[derive(Default)]
struct Counts {
    passed: AtomicUsize,
    failed: AtomicUsize,
    skipped: AtomicUsize,
}

/// Runs the tests that the command line asks for; what begins with a dash is cargo's.
pub fn run(tests: &[Test]) -> ExitCode {
    let words: Vec<String> = std::env::args().skip(1).collect();
    let words: Vec<String> = words.into_iter().filter(|w| !w.starts_with('-')).collect();
    let asked = |name: &str| words.is_empty() || words.iter().any(|word| name.contains(word));
    let chosen: Vec<Test> = tests.iter().filter(|t| asked(t.0)).copied().collect();
    panic::set_hook(Box::new(keep_what_was_said));
    let (counts, next) = (Counts::default(), AtomicUsize::new(0));
    thread::scope(|scope| {
        for _ in 0..2 {
            scope.spawn(|| {
                RUNS_TESTS.set(true);
                while let Some(test) = chosen.get(next.fetch_add(1, Ordering::Relaxed)) {
                    run_one(*test, &counts);
                }
            });
        }
    });
    report(&counts)
}

fn keep_what_was_said(info: &PanicHookInfo) {
    let payload = info.payload();
    let text = payload.downcast_ref::<String>().map(String::as_str);
    let text = text.or(payload.downcast_ref::<&str>().copied());
    let place = info.location().map_or(String::new(), |l| format!("{l}: "));
    let said = format!("{place}{}", text.unwrap_or("panicked"));
    // What a test's own thread says is not kept for the line of the test.
    if !RUNS_TESTS.get() {
        eprintln!("{said}");
    }
    SAID.with(|last| *last.borrow_mut() = said);
}

fn run_one((name, test): Test, counts: &Counts) {
    let name = name.split_once("::").map_or(name, |(_, rest)| rest);
    let begun = Instant::now();
    let done = panic::catch_unwind(AssertUnwindSafe(|| test(&Room::new())));
    let took = begun.elapsed().as_millis();
    let counter = match done {
        Ok(Ok(())) => {
            println!("ok      {name} ({took} ms)");
            &counts.passed
        }
        Ok(Err(Skipped(because))) => {
            println!("skipped {name}, because {because}");
            &counts.skipped
        }
        Err(_) => {
            println!(
                "FAILED  {name}: {}",
                SAID.with(|said| said.borrow().clone())
            );
            &counts.failed
        }
    };
    counter.fetch_add(1, Ordering::Relaxed);
}

fn report(counts: &Counts) -> ExitCode {
    let of = |counter: &AtomicUsize| counter.load(Ordering::Relaxed);
    let skipped = match of(&counts.skipped) {
        0 => String::new(),
        some => format!(", {some} skipped"),
    };
    println!(
        "{} passed, {} failed{skipped}",
        of(&counts.passed),
        of(&counts.failed)
    );
    ExitCode::from(u8::from(of(&counts.failed) > 0))
}
