//! Accepted batches whose order to read was worked out by hand, and the largest batch, whose requests run side
//! by side.

use super::{accepted, batch, Case};
use crate::host::Host;
use crate::random::{interleave, Random};
use crate::texts::{read_programs, write_report, write_trace, BatchTexts, Entry, Request};

pub fn orders() -> Vec<Case> {
    vec![
        accepted("what is free later goes first", free_later(), [2, 5, 0, 5]).in_order(
            "event=1\nevent=2\nop=2,1\nop=2,2\nop=2,3\nop=1,1\nop=1,2\nevent=3\nevent=4\n",
        ),
        accepted(
            "operations go before a response",
            response_waits(),
            [2, 2, 0, 2],
        )
        .in_order("event=1\nevent=2\nop=2,1\nop=2,2\nevent=3\nevent=4\n"),
        accepted("registers and stores", registers_and_stores(), [3, 9, 0, 9]).in_order(
            "event=1\nop=30,1\nop=30,2\nop=30,3\nevent=2\nop=10,1\nop=10,2\nevent=3\nevent=4\n\
             op=20,1\nop=20,2\nop=20,3\nop=10,3\nevent=5\nevent=6\n",
        ),
        accepted(
            "64 requests side by side",
            side_by_side(),
            [64, 1_024, 10, 24],
        ),
    ]
}

/// Operation 1 of request 1 is free behind operation 1 of request 2, but its report line is below those of
/// operations 2 and 3, which are free one after the other.
fn free_later() -> BatchTexts {
    batch(
        "program=0\ndo=6,2,0,0\ndo=7,2,2,0\ndo=0,2,0,0\n\
         program=1\ndo=7,0,0,0\ndo=7,1,0,0\ndo=7,3,0,0\ndo=0,0,0,0\n",
        "request=1,0,0,0\nrequest=2,1,5,0\nresponse=1,0,5\nresponse=2,0,5\n",
        "of=1,0,2\nof=2,1,3\n\
         log=1,2,2,7,0,5\nlog=3,2,3,7,0,5\nlog=0,2,1,7,0,5\nlog=0,1,1,6,0,5\nlog=2,1,2,7,0,5\n",
    )
}

/// The response of request 1, which has no operation, is free together with the operations of request 2.
fn response_waits() -> BatchTexts {
    batch(
        "program=0\ndo=0,0,0,0\nprogram=1\ndo=9,8,0,1\ndo=8,2,8,0\ndo=0,2,0,0\n",
        "request=1,0,7,0\nrequest=2,1,3,4\nresponse=1,0,7\nresponse=2,0,4\n",
        "of=1,0,0\nof=2,1,2\nlog=8,2,1,9,3,4\nlog=8,2,2,8,3,4\n",
    )
}

/// Three requests over a register and two stores; the logs lie in one another, and a line may stand above its
/// forerunners.
fn registers_and_stores() -> BatchTexts {
    batch(
        "program=0\ndo=6,2,0,0\ndo=2,2,2,1\ndo=7,0,2,0\ndo=9,8,0,2\ndo=0,2,0,0\n\
         program=1\ndo=8,2,8,0\ndo=9,9,0,2\ndo=6,3,0,0\ndo=0,3,0,0\n",
        "request=30,0,1,5\nrequest=10,1,1,0\nresponse=30,0,5\n\
         request=20,0,2,7\nresponse=20,0,12\nresponse=10,0,12\n",
        "of=30,0,3\nof=10,1,3\nof=20,0,3\n\
         log=9,10,2,9,1,5\nlog=8,30,3,9,1,5\nlog=0,30,1,6,0,0\nlog=8,10,1,8,1,5\nlog=0,30,2,7,0,5\n\
         log=8,20,3,9,2,12\nlog=0,20,1,6,0,5\nlog=0,20,2,7,0,12\nlog=0,10,3,6,0,12\n",
    )
}

/// As many requests and operations as there can be, over all objects: later arrivals fall between the turns of
/// earlier ones, then the last that arrived goes on first, and the logs lie in one another.
fn side_by_side() -> BatchTexts {
    let programs: String = (0..8).map(sixteen_operations).collect();
    let read = read_programs(programs.as_bytes()).expect("the programs can be read");
    let mut host = Host::new(&read);
    let mut follow = |entry| host.follow(&entry).expect("the host follows it");
    for place in 0..64 {
        follow(Entry::Arrive(Request {
            rid: 1_000 * (63 - place),
            program: place % 8,
            a: place % 5,
            b: place,
        }));
        let turn = |place| Entry::Turn(1_000 * (63 - place));
        follow(turn(place / 2));
        follow(turn(place / 3));
    }
    for _ in 0..17 {
        (0..64).for_each(|place| follow(Entry::Turn(1_000 * place)));
    }
    let report = interleave(&mut Random::new(64), &host.report());
    BatchTexts {
        programs: programs.into_bytes(),
        trace: write_trace(host.trace()),
        report: write_report(&report),
    }
}

/// A program with four operations of each of the codes 6 to 9, on objects that its number decides.
fn sixteen_operations(number: usize) -> String {
    let round = |round: usize| {
        let object = |step: usize| (number + step * round) % 8;
        let [read, put, got, written] = [object(1), 8 + object(3), 8 + object(5), object(7)];
        format!("do=6,2,{read},0\ndo=9,{put},0,1\ndo=8,3,{got},0\ndo=7,{written},3,0\n")
    };
    let rounds: String = (0..4).map(round).collect();
    format!("program={number}\n{rounds}do=0,3,0,0\n")
}
