//! Black-box tests of the program `teaselshears`, written from what its help texts promise and not from its code.
//!
//! A word on the command line runs only the tests whose names contain it. The last line is `N passed, M failed`, with
//! `, K skipped` behind it where a test could not be tried on this machine; what it lacked is said above.

mod arguments;
mod bill;
mod complete;
mod completion;
mod csv;
mod disk;
mod environment;
mod examples;
mod exchange;
mod harness;
mod identity;
mod install;
mod json;
mod kills;
mod launcher;
mod left;
mod library;
mod listed;
mod many;
mod open;
mod order;
mod order_answers;
mod proved;
mod record;
mod results;
mod room;
mod run;
mod spool;
mod spool_changed;
mod spool_earlier;
mod spool_guards;
mod spool_names;
mod spool_stopped;
mod streams;
mod system;
mod texts;
mod torn;
mod traced;
mod unreadable;

use std::process::ExitCode;

fn main() -> ExitCode {
    // The slow ones first, so that the two that run at a time end together.
    let tests = [
        launcher::TESTS,
        kills::TESTS,
        spool_stopped::TESTS,
        exchange::TESTS,
        torn::TESTS,
        left::TESTS,
        spool::TESTS,
        examples::TESTS,
        arguments::TESTS,
        identity::TESTS,
        order::TESTS,
        order_answers::TESTS,
        bill::TESTS,
        open::TESTS,
        complete::TESTS,
        texts::TESTS,
        unreadable::TESTS,
        proved::TESTS,
        streams::TESTS,
        environment::TESTS,
        record::TESTS,
        spool_names::TESTS,
        spool_changed::TESTS,
        spool_earlier::TESTS,
        spool_guards::TESTS,
        listed::TESTS,
        many::TESTS,
        disk::TESTS,
        library::TESTS,
        install::TESTS,
        completion::TESTS,
    ];
    harness::run(&tests.concat())
}
