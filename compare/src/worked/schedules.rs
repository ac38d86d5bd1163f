//! Schedules for the host, each with the verdict and line that the paper gives.

use super::{FILL, LOOP, PROGRAMS, SCHEDULE_OF_C, WRITES};
use crate::texts::TEXT_LIMIT;

pub struct Schedule {
    pub name: &'static str,
    pub programs: String,
    pub schedule: String,
    /// How many bytes are lent for the trace; the report has room enough.
    pub room_trace: usize,
    pub expected: (u64, usize),
}

fn case(
    name: &'static str,
    programs: &str,
    schedule: impl Into<String>,
    verdict: u64,
    line: usize,
) -> Schedule {
    Schedule {
        name,
        programs: programs.into(),
        schedule: schedule.into(),
        room_trace: TEXT_LIMIT,
        expected: (verdict, line),
    }
}

/// Every schedule of this file.
pub fn schedules() -> Vec<Schedule> {
    let mut cases = stored_schedules();
    cases.extend(two_rows());
    cases
}

/// Those that crate `vectors` stores too.
pub fn stored_schedules() -> Vec<Schedule> {
    let mut cases = rows();
    cases.extend(turns());
    cases.extend(limits());
    cases.extend(open());
    cases.extend(held());
    cases
}

const ARRIVE: &str = "arrive=1,0,0,0\n";
const REPLIES: &str = "program=0\ndo=0,0,0,0\n";
/// A local that does not exist, in line 2.
const NO_LOCAL: &str = "program=0\ndo=0,8,0,0\n";

fn schedule_of_c() -> String {
    String::from_utf8_lossy(SCHEDULE_OF_C).into_owned()
}

fn rows() -> Vec<Schedule> {
    let short = Schedule {
        room_trace: 10,
        ..case("host row 16", PROGRAMS, schedule_of_c(), 16, 0)
    };
    vec![
        case("schedule of C", PROGRAMS, schedule_of_c(), 0, 0),
        case("nothing scheduled", "", "", 0, 0),
        case("host row 1", "do=1,2\n", "turn=1,\n", 1, 1),
        case("host row 2", NO_LOCAL, "turn=1,\n", 2, 2),
        case("host row 13", PROGRAMS, "turn=1,\n", 13, 1),
        case(
            "unreadable below a fault",
            PROGRAMS,
            "turn=1\nturn=1,\n",
            13,
            2,
        ),
        case("host row 14", PROGRAMS, "turn=1\n", 14, 1),
        case("rid arrives twice", PROGRAMS, ARRIVE.repeat(2), 14, 2),
        case("arrival of no program", PROGRAMS, "arrive=1,2,0,0\n", 14, 1),
        case(
            "turn of another rid",
            PROGRAMS,
            format!("{ARRIVE}turn=2\n"),
            14,
            2,
        ),
        case(
            "turn before its arrival",
            PROGRAMS,
            format!("turn=1\n{ARRIVE}"),
            14,
            1,
        ),
        short,
    ]
}

/// A row by itself, and two at once: the one that comes first in the order is given.
fn two_rows() -> Vec<Schedule> {
    let unreadable = format!("{NO_LOCAL}do=1\n");
    let no_arrival = schedule_of_c() + "turn=3\n";
    let empty_program = format!("{PROGRAMS}program=2\n");
    let short = |case| Schedule {
        room_trace: 10,
        ..case
    };
    vec![
        case("host row 1 alone", "do=1,2\n", "", 1, 1),
        case("host row 2 alone", NO_LOCAL, "", 2, 2),
        case("host rows 1 and 2", &unreadable, "", 1, 3),
        case("host rows 1 and 14", "do=1,2\n", "turn=1\n", 1, 1),
        case("host rows 2 and 14", NO_LOCAL, "turn=1\n", 2, 2),
        short(case(
            "host rows 2 and 16",
            &empty_program,
            schedule_of_c(),
            2,
            11,
        )),
        short(case("host rows 14 and 16", PROGRAMS, no_arrival, 14, 9)),
    ]
}

fn turns() -> Vec<Schedule> {
    let more = schedule_of_c() + "turn=1\nturn=2\n";
    let turns = |count| format!("{ARRIVE}{}", "turn=1\n".repeat(count));
    vec![
        case("turns after the response", PROGRAMS, more, 0, 0),
        case("loop cut off", LOOP, turns(1), 0, 0),
        case("256th instruction an operation", WRITES, turns(128), 0, 0),
        case("cut by the next turn", WRITES, turns(129), 0, 0),
        case("turn after the cut", WRITES, turns(130), 0, 0),
    ]
}

fn limits() -> Vec<Schedule> {
    // Rounds of 62 operations and a jump: 252 operations before the cut, and 253 turns with it.
    let loops = format!(
        "program=0\n{}do=5,0,0,0\ndo=0,0,0,0\n",
        "do=7,0,0,0\n".repeat(62)
    );
    let full: String = (1..=4)
        .map(|rid| {
            format!(
                "arrive={rid},0,1,0\n{}",
                format!("turn={rid}\n").repeat(253)
            )
        })
        .collect();
    // 1,008 operations so far; the fifth request takes its first 16 and is left open.
    let last = |turns| format!("{full}arrive=5,0,1,0\n{}", "turn=5\n".repeat(turns));
    let arrivals = |count| -> String {
        (0..count)
            .map(|rid| format!("arrive={rid},0,7,8\nturn={rid}\n"))
            .collect()
    };
    // The arrival has 15 bytes, or 16 with an input of two digits, and a turn has 7.
    let with_turns = |arrival: &str| format!("{arrival}{}", "turn=1\n".repeat(9_360));
    let wide = "arrive=65535,0,18446744073709551615,0\nturn=65535\n";
    vec![
        case("1,008 operations", &loops, full.clone(), 0, 0),
        case("1,024th operation", &loops, last(16), 0, 0),
        case("1,025th operation", &loops, last(17), 14, 4 * 254 + 18),
        case("64 arrivals", REPLIES, arrivals(64), 0, 0),
        case("65 arrivals", REPLIES, arrivals(65), 13, 129),
        case(
            "schedule of 65,535 bytes",
            REPLIES,
            with_turns(ARRIVE),
            0,
            0,
        ),
        case(
            "schedule of 65,536 bytes",
            REPLIES,
            with_turns("arrive=1,0,10,0\n"),
            13,
            0,
        ),
        case("widest arrival", REPLIES, wide, 0, 0),
        case(
            "rid above its range",
            REPLIES,
            "arrive=65536,0,0,0\n",
            13,
            1,
        ),
        case("turn above its range", REPLIES, "turn=65536\n", 13, 1),
        case(
            "input of 2^64",
            REPLIES,
            "arrive=1,0,18446744073709551616,0\n",
            13,
            1,
        ),
        case(
            "program of 2^64 - 1",
            REPLIES,
            "arrive=1,18446744073709551615,0,0\n",
            14,
            1,
        ),
        case(
            "turn of 21 digits",
            REPLIES,
            "turn=100000000000000000000\n",
            13,
            1,
        ),
        case(
            "turn with a leading zero",
            REPLIES,
            format!("{ARRIVE}turn=01\n"),
            13,
            2,
        ),
        case(
            "schedule without its last line feed",
            REPLIES,
            format!("{ARRIVE}turn=1"),
            13,
            2,
        ),
    ]
}

/// Requests that get too few turns for an answer, or none.
fn open() -> Vec<Schedule> {
    let arrivals = format!("{ARRIVE}arrive=2,1,0,0\n");
    let turns = |order| in_turns(&arrivals, order);
    vec![
        case("an arrival alone", PROGRAMS, ARRIVE, 0, 0),
        case("arrivals alone", PROGRAMS, arrivals.clone(), 0, 0),
        case("the first left open", PROGRAMS, turns("222"), 0, 0),
        case("the second left open", PROGRAMS, turns("111"), 0, 0),
        case("open after one operation", PROGRAMS, turns("1222"), 0, 0),
        case("open after all operations", PROGRAMS, turns("12122"), 0, 0),
        case(
            "a fault below an open request",
            PROGRAMS,
            format!("{ARRIVE}turn=1\n{ARRIVE}"),
            14,
            3,
        ),
    ]
}

/// These arrivals, and then the turns of these rids, of one digit each.
pub fn in_turns(arrivals: &str, rids: &str) -> String {
    let turns = rids.chars().map(|rid| format!("turn={rid}\n"));
    format!("{arrivals}{}", turns.collect::<String>())
}

/// Two requests that fill one well where nobody filled it, the first with 0.
pub const FILLING: &str = "arrive=1,0,3,0\narrive=2,0,3,7\n";

fn held() -> Vec<Schedule> {
    let turns = |order| in_turns(FILLING, order);
    let code_11 = "program=0\ndo=11,0,8,0\ndo=0,0,0,0\n";
    vec![
        case("a well filled once", FILL, turns("11221"), 0, 0),
        case("both ask, then both fill", FILL, turns("121212"), 0, 0),
        case("asking and left open", FILL, turns("12"), 0, 0),
        case("host code 11", code_11, "turn=1,\n", 2, 2),
    ]
}
