//! Code 10, which tells a key that was never put from one that was put, with 0 too: each batch with the result
//! worked out by hand.

use super::{accepted, batch, refused, Case, FILL, ORDER_OF_C};
use crate::texts::BatchTexts;

/// Program 0 puts b at key a of store 8, the volume of a well; program 1 asks whether key a is held there.
const WELLS: &str = "program=0\ndo=9,8,0,1\ndo=0,1,0,0\nprogram=1\ndo=10,2,8,0\ndo=0,2,0,0\n";
/// Program 2 where it looks the volume up.
const VOLUME: &str = "program=2\ndo=8,2,8,0\ndo=0,2,0,0\n";
/// Program 2 where it asks another store.
const ELSEWHERE: &str = "program=2\ndo=10,2,9,0\ndo=0,2,0,0\n";

pub fn held() -> Vec<Case> {
    let mut cases = wells();
    cases.extend(wrong_answers());
    cases.extend(wrong_operations());
    cases.extend(changes_nothing());
    cases.extend(replies());
    cases.extend(orders());
    cases.extend(as_in_b_and_c());
    cases.extend(left_open());
    cases.extend(groups());
    cases.extend(ranges());
    cases.extend(rules());
    cases
}

/// A request by its program and inputs, its operation as object, kind, key and value, and its reply.
type Asked = ([u64; 3], [u64; 4], u64);

/// Well 3, filled with volume 0 and with volume 5.
const FILLED_0: Asked = ([0, 3, 0], [8, 9, 3, 0], 0);
const FILLED_5: Asked = ([0, 3, 5], [8, 9, 3, 5], 5);

/// A request of program 1 that asks for a well and gets this answer.
fn asks(key: u64, answer: u64) -> Asked {
    ([1, key, 0], [8, 10, key, answer], answer)
}

/// Requests one after the other, over the wells and this program 2; those of a program are a group.
fn in_turn(program_2: &str, requests: &[Asked]) -> BatchTexts {
    let [mut trace, mut of, mut log] = [(); 3].map(|()| String::new());
    for (rid, ([program, a, b], [object, kind, key, value], reply)) in (1..).zip(requests) {
        trace += &format!("request={rid},{program},{a},{b}\nresponse={rid},0,{reply}\n");
        of += &format!("of={rid},{program},1\n");
        log += &format!("log={object},{rid},1,{kind},{key},{value}\n");
    }
    batch(&format!("{WELLS}{program_2}"), &trace, &(of + &log))
}

/// Honest answers.
fn wells() -> Vec<Case> {
    let volume = |key, value| ([2, key, 0], [8, 8, key, value], value);
    let filled = [FILLED_0, asks(3, 1), volume(3, 0)];
    // Looking a key up, by either code, does not make it held.
    let never_filled = [asks(4, 0), volume(4, 0), asks(4, 0)];
    let other_store = ([2, 3, 0], [9, 10, 3, 0], 0);
    vec![
        accepted(
            "filled with 0 and never filled",
            in_turn(VOLUME, &[filled, never_filled].concat()),
            [6, 6, 0, 6],
        )
        .in_order(
            "event=1\nop=1,1\nevent=2\nevent=3\nop=2,1\nevent=4\nevent=5\nop=3,1\nevent=6\n\
             event=7\nop=4,1\nevent=8\nevent=9\nop=5,1\nevent=10\nevent=11\nop=6,1\nevent=12\n",
        ),
        accepted(
            "asked before the put and behind it",
            in_turn("", &[asks(3, 0), FILLED_5, asks(3, 1)]),
            [3, 3, 0, 3],
        ),
        accepted(
            "held with 5, then with 0",
            in_turn("", &[FILLED_5, FILLED_0, asks(3, 1)]),
            [3, 3, 0, 3],
        ),
        accepted(
            "held in another store",
            in_turn(ELSEWHERE, &[FILLED_5, other_store]),
            [2, 2, 0, 2],
        ),
    ]
}

/// A wrong answer shown, and replied with: row 10 goes before row 11.
fn wrong_answers() -> Vec<Case> {
    let two = |first, second| in_turn("", &[first, second]);
    let shown = |value| ([1, 3, 0], [8, 10, 3, value], value);
    let other_store = ([2, 3, 0], [9, 10, 3, 1], 1);
    let elsewhere = in_turn(ELSEWHERE, &[FILLED_5, other_store]);
    vec![
        refused("0 for a key put as 0", two(FILLED_0, shown(0)), 10, 2),
        refused("the volume for 1", two(FILLED_5, shown(5)), 10, 2),
        refused("2 for 1", two(FILLED_5, shown(2)), 10, 2),
        refused("1 for another key", two(FILLED_5, asks(4, 1)), 10, 2),
        refused("1 for another store", elsewhere, 10, 2),
        refused("1 for a key never put", in_turn("", &[shown(1)]), 10, 1),
    ]
}

/// Lines that claim another operation than the program's, each with the answer that the claimed one would get.
fn wrong_operations() -> Vec<Case> {
    let filled_1 = ([0, 3, 1], [8, 9, 3, 1], 1);
    let claimed = |line| in_turn("", &[filled_1, ([1, 3, 0], line, 1)]);
    let volume_asked = ([2, 3, 0], [8, 10, 3, 1], 1);
    // The line of request 1 stands in the log of store 9, below that of request 2: the order is looked at first.
    let below_later = batch(
        &format!("{WELLS}{ELSEWHERE}"),
        "request=1,1,3,0\nresponse=1,0,0\nrequest=2,2,3,0\nresponse=2,0,0\n",
        "of=1,0,1\nof=2,1,1\nlog=9,2,1,10,3,0\nlog=9,1,1,10,3,0\n",
    );
    vec![
        refused("kind 8 for code 10", claimed([8, 8, 3, 1]), 10, 2),
        refused(
            "kind 10 for code 8",
            in_turn(VOLUME, &[filled_1, volume_asked]),
            10,
            2,
        ),
        refused("code 10 with another key", claimed([8, 10, 4, 0]), 10, 2),
        refused("code 10 on another store", claimed([9, 10, 3, 0]), 10, 2),
        refused("code 10 on a register", claimed([0, 10, 3, 0]), 10, 2),
        refused("on another store below a later line", below_later, 9, 0),
    ]
}

/// Request 2 arrives first and reads behind request 1, which writes by a line that claims another operation. What
/// request 2 reads is by that line, and it is looked at before request 1.
fn changes_nothing() -> Vec<Case> {
    let registers = "program=0\ndo=7,0,1,0\ndo=0,1,0,0\nprogram=1\ndo=6,2,0,0\ndo=0,2,0,0\n";
    let fed = |programs, claimed: &str, read: &str, value: u64| {
        let arrivals = "request=2,1,3,0\nrequest=1,0,3,1\n";
        let trace = format!("{arrivals}response=2,0,{value}\nresponse=1,0,1\n");
        let of = "of=2,0,1\nof=1,1,1\n";
        let report = format!("{of}log={claimed}\nlog={read},{value}\n");
        batch(programs, &trace, &report)
    };
    let register = |value| fed(registers, "0,1,1,10,0,1", "0,2,1,6,0", value);
    let store = |claimed, value| fed(WELLS, claimed, "8,2,1,10,3", value);
    let kind_10 = "8,1,1,10,3,1";
    vec![
        refused("kind 10 on a register writes nothing", register(0), 10, 2),
        refused("kind 10 on a register read", register(1), 10, 1),
        refused("kind 10 makes no key held", store(kind_10, 0), 10, 2),
        refused("kind 10 taken for a put", store(kind_10, 1), 10, 1),
        refused("kind 7 makes no key held", store("8,1,1,7,3,1", 0), 10, 2),
        refused("a put of 2 for 1 holds", store("8,1,1,9,3,2", 1), 10, 2),
    ]
}

/// The right answer shown, and the other one replied with.
fn replies() -> Vec<Case> {
    let replied = |key, answer| ([1, key, 0], [8, 10, key, answer], 1 - answer);
    let behind_put = |asked| in_turn("", &[FILLED_0, asked]);
    vec![
        refused("0 replied for a key held", behind_put(replied(3, 1)), 11, 2),
        refused(
            "1 replied for a key not held",
            behind_put(replied(4, 0)),
            11,
            2,
        ),
    ]
}

/// Request 1 asks for well 3, which request 2 fills with 0; neither is answered before the other arrives.
fn orders() -> Vec<Case> {
    let behind = batch(
        WELLS,
        "request=1,1,3,0\nrequest=2,0,3,0\nresponse=1,0,1\nresponse=2,0,0\n",
        "of=1,0,1\nof=2,1,1\nlog=8,2,1,9,3,0\nlog=8,1,1,10,3,1\n",
    );
    vec![accepted("held by a later request", behind, [2, 2, 0, 2])
        .in_order("event=1\nevent=2\nop=2,1\nop=1,1\nevent=3\nevent=4\n")]
}

/// Each request puts 0 into its own store and asks the other's, where B and C write and read registers.
fn as_in_b_and_c() -> Vec<Case> {
    let programs = "program=0\ndo=9,8,0,1\ndo=10,2,9,0\ndo=0,2,0,0\n\
                    program=1\ndo=9,9,0,1\ndo=10,2,8,0\ndo=0,2,0,0\n";
    let with =
        |trace: &str, log: &str| batch(programs, trace, &format!("of=1,0,2\nof=2,1,2\n{log}"));
    let c = with(
        "request=1,0,3,0\nrequest=2,1,3,0\nresponse=1,0,1\nresponse=2,0,1\n",
        "log=8,1,1,9,3,0\nlog=8,2,2,10,3,1\nlog=9,2,1,9,3,0\nlog=9,1,2,10,3,1\n",
    );
    let b = with(
        "request=1,0,3,0\nrequest=2,1,3,0\nresponse=1,0,0\nresponse=2,0,0\n",
        "log=8,2,2,10,3,0\nlog=8,1,1,9,3,0\nlog=9,1,2,10,3,0\nlog=9,2,1,9,3,0\n",
    );
    vec![
        accepted("C with held keys", c, [2, 4, 0, 4]).in_order(ORDER_OF_C),
        refused("B with held keys", b, 9, 0),
    ]
}

/// Request 2 asks for well 3, which request 1 filled with 0, and is never answered.
fn left_open() -> Vec<Case> {
    let open = |answer: u64| {
        let log = format!("log=8,1,1,9,3,0\nlog=8,2,1,10,3,{answer}\n");
        batch(
            WELLS,
            "request=1,0,3,0\nresponse=1,0,0\nrequest=2,1,3,0\n",
            &format!("of=1,0,1\nof=2,1,1\n{log}"),
        )
    };
    vec![
        accepted("open behind code 10", open(1), [2, 2, 0, 2])
            .in_order("event=1\nop=1,1\nevent=2\nevent=3\nop=2,1\n"),
        refused("open behind a wrong answer", open(0), 10, 2),
    ]
}

/// Wells filled once: request 1 fills well 3, request 2 finds it filled, and request 3 fills well 4.
fn groups() -> Vec<Case> {
    let log = "log=8,1,1,10,3,0\nlog=8,1,2,9,3,0\nlog=8,2,1,10,3,1\nlog=8,3,1,10,4,0\n";
    let filling = |[second, third]: [u64; 2]| {
        batch(
            FILL,
            "request=1,0,3,0\nresponse=1,0,0\nrequest=2,0,3,7\nresponse=2,0,1\n\
             request=3,0,4,7\nresponse=3,0,0\n",
            &format!("of=1,0,2\nof=2,{second},1\nof=3,{third},2\n{log}log=8,3,2,9,4,7\n"),
        )
    };
    // Requests 2 and 3 have come no further than the question, so their paths are one.
    let both_open = batch(
        FILL,
        "request=1,0,3,0\nresponse=1,0,0\nrequest=2,0,3,7\nrequest=3,0,4,7\n",
        &format!("of=1,0,2\nof=2,1,1\nof=3,1,1\n{log}"),
    );
    let filled_twice = batch(
        FILL,
        "request=1,0,3,0\nresponse=1,0,0\nrequest=2,0,3,7\nresponse=2,0,0\n",
        "of=1,0,2\nof=2,0,2\n\
         log=8,1,1,10,3,0\nlog=8,1,2,9,3,0\nlog=8,2,1,10,3,0\nlog=8,2,2,9,3,7\n",
    );
    vec![
        accepted("one path by one answer", filling([1, 0]), [3, 5, 0, 5]),
        refused("two answers in a group", filling([1, 1]), 12, 3),
        accepted("two answers, both left open", both_open, [3, 4, 0, 4]),
        refused("a well filled twice", filled_twice, 10, 2),
    ]
}

/// The first kind and the first code that there are not.
fn ranges() -> Vec<Case> {
    let kind_11 = ([1, 3, 0], [8, 11, 3, 0], 0);
    let of_11 = "program=0\ndo=11,0,8,0\ndo=0,0,0,0\n";
    vec![
        refused("kind 11", in_turn("", &[kind_11]), 5, 2),
        refused("code 11", batch(of_11, "x", "x"), 2, 2),
    ]
}

/// Code 10 with each field at its end and beyond it.
fn rules() -> Vec<Case> {
    let highest = batch(
        "program=0\ndo=10,7,15,7\ndo=0,7,0,0\n",
        "request=1,0,0,0\nresponse=1,0,0\n",
        "of=1,0,1\nlog=15,1,1,10,0,0\n",
    );
    let beyond = |fields: &str| {
        let programs = format!("program=0\ndo=10,{fields}\ndo=0,0,0,0\n");
        batch(&programs, "x", "x")
    };
    vec![
        accepted("code 10, highest fields", highest, [1, 1, 0, 1]),
        refused("code 10 into local 8", beyond("8,8,0"), 2, 2),
        refused("code 10 of register 7", beyond("0,7,0"), 2, 2),
        refused("code 10 of object 16", beyond("0,16,0"), 2, 2),
        refused("code 10 at local 8", beyond("0,8,8"), 2, 2),
    ]
}
