//! The proved programs by themselves: texts as long as they may be, a byte shorter and a byte longer, and reads that give less
//! than was asked for, or fail behind others. No contract speaks of what the system reads, so tests do.

use crate::harness::{tests, Done, Skipped};
use crate::room::{example, read, recorded, Room};
use crate::run::{proved, Ended, Run};
use crate::texts::{longest_schedule, READ};
use crate::traced::{with_fates, Fate, FAILED};
use crate::unreadable::gave_no_verdict;
use std::fs::{self, File};
use std::path::{Path, PathBuf};

tests![
    programs_around_the_longest,
    a_trace_around_the_longest,
    a_report_around_the_longest,
    a_schedule_around_the_longest,
    a_wrong_turn_at_the_end_of_the_longest_schedule,
    a_wrong_response_at_the_end_of_a_long_trace,
    a_long_schedule,
    reads_that_give_less,
    reads_that_fail_behind_others,
    what_is_read_of_an_overlong_text,
];

/// The most bytes of a text.
const MOST: usize = 65535;

/// What a proved program prints of a refusal.
fn refusal(command: &str, verdict: u64, line: usize) -> String {
    let front = format!("verdict={verdict}\nline={line}\n");
    match command {
        "audit" => front + "requests=0\noperations=0\nblocks=0\nrest=0\n",
        _ => front,
    }
}

/// The verdict on one of the texts where it cannot be read.
fn unreadable(text: &str) -> u64 {
    READ.iter().find(|(_, name, _)| *name == text).unwrap().2
}

/// What is printed of a text of 65,535 bytes; without its last byte the last line cannot be read, and with one more none can.
fn around_the_longest(
    room: &Room,
    command: &str,
    text: &str,
    longest: &str,
    printed: impl AsRef<[u8]>,
) -> Done {
    assert_eq!(longest.len(), MOST);
    let batch = room.batch(command, "loop");
    let run = |bytes: &str| -> Result<Ended, Skipped> {
        fs::write(batch.join(text), bytes).unwrap();
        Ok(proved(command, &batch)?.end())
    };
    let cannot = |line| refusal(command, unreadable(text), line);
    run(&longest[..MOST - 1])?
        .is(0)
        .printed(cannot(longest.lines().count()));
    run(longest)?.is(0).printed(printed);
    run(&format!("{longest}\n"))?.is(0).printed(cannot(0));
    Ok(())
}

/// Sixteen programs of 64 instructions, all readable. By the rules they could have no more than 31,000 bytes: so six keep them,
/// and each instruction of the others breaks them.
fn longest_programs() -> String {
    let good = format!("do=1,7,{},0\n", u64::MAX).repeat(63) + "do=0,0,0,0\n";
    let wrong = |digits| format!("do={0},{0},{0},{1}\n", u64::MAX, "1".repeat(digits));
    let program = |number| match number {
        0..=5 => format!("program={number}\n{good}"),
        _ => format!("program={number}\n{}", wrong(17).repeat(64)),
    };
    let programs: String = (0..16).map(program).collect();
    programs.replacen(&wrong(17), &wrong(18), MOST - programs.len())
}

fn programs_around_the_longest(room: &Room) -> Done {
    // Behind six programs, and the first line of the seventh.
    let line = 6 * 65 + 2;
    for command in ["audit", "record"] {
        let (programs, printed) = (longest_programs(), refusal(command, 2, line));
        around_the_longest(room, command, "programs.txt", &programs, printed)?;
    }
    Ok(())
}

/// Lines that can be read, as many and as long as there may be, and behind them one that cannot, which fills the text.
fn filled(lines: String) -> String {
    let rest = "x".repeat(MOST - 1 - lines.len());
    lines + &rest + "\n"
}

fn a_trace_around_the_longest(room: &Room) -> Done {
    let request = format!("request=65535,{0},{0},{0}\n", u64::MAX);
    let response = format!("response=65535,1,{}\n", u64::MAX);
    let trace = filled(request.repeat(64) + &response.repeat(64));
    let printed = refusal("audit", 3, 129);
    around_the_longest(room, "audit", "trace.txt", &trace, printed)
}

fn a_report_around_the_longest(room: &Room) -> Done {
    let log = format!("log=15,65535,256,10,{0},{0}\n", u64::MAX);
    let report = filled("of=65535,63,256\n".repeat(64) + &log.repeat(1024));
    let printed = refusal("audit", 5, 1089);
    around_the_longest(room, "audit", "report.txt", &report, printed)
}

fn a_schedule_around_the_longest(room: &Room) -> Done {
    let (schedule, printed) = (longest_schedule(), recorded(&example("loop")));
    around_the_longest(room, "record", "schedule.txt", &schedule, printed)
}

/// The one thing wrong with it is the rid in its last line.
fn a_wrong_turn_at_the_end_of_the_longest_schedule(room: &Room) -> Done {
    let batch = room.batch("batch", "loop");
    let schedule = &longest_schedule()[..MOST - 2];
    fs::write(batch.join("schedule.txt"), format!("{schedule}2\n")).unwrap();
    let ended = proved("record", &batch)?.end();
    ended.is(0).printed(refusal("record", 14, 9361));
    Ok(())
}

/// A line for each request of the long batch, in the order of their arrival, made of its rid and its group.
fn each(line: impl Fn(u64, usize) -> String) -> String {
    let rids = (9978..=10041).rev();
    rids.zip(0..).map(|(rid, group)| line(rid, group)).collect()
}

/// What a request of the long batch is answered with: its second input.
fn answer(rid: u64) -> u64 {
    u64::MAX - rid
}

/// A text of the long batch: 64 requests with numbers as long as they may be, all of which arrive before the first response.
/// They carry out no operations, so that the trace is honest wherever it is cut between two responses, with requests left
/// open. One response ends with byte 4,096 of the trace: a program that reads no further accepts whatever stands behind it.
fn long_text(text: &str) -> String {
    let asked = |rid| format!("{rid},15,{},{}\n", u64::MAX, answer(rid));
    match text {
        "programs.txt" => (0..16)
            .map(|number| format!("program={number}\ndo=0,1,0,0\n"))
            .collect(),
        "trace.txt" => {
            each(|rid, _| format!("request={}", asked(rid)))
                + &each(|rid, _| format!("response={rid},0,{}\n", answer(rid)))
        }
        "report.txt" => each(|rid, group| format!("of={rid},{group},0\n")),
        _ => {
            each(|rid, _| format!("arrive={}", asked(rid)))
                + &each(|rid, _| format!("turn={rid}\n"))
        }
    }
}

fn long_batch(room: &Room, name: &str) -> PathBuf {
    let batch = room.folder(name);
    for (_, text, _) in READ {
        fs::write(batch.join(text), long_text(text)).unwrap();
    }
    batch
}

/// What is printed of the long batch with so many lines of its trace.
fn accepted(events: usize) -> String {
    let order: String = (1..=events).map(|n| format!("event={n}\n")).collect();
    format!("verdict=0\nline=0\nrequests=64\noperations=0\nblocks=0\nrest=0\n{order}")
}

fn a_wrong_response_at_the_end_of_a_long_trace(room: &Room) -> Done {
    let batch = long_batch(room, "batch");
    let run = |trace: &str| -> Result<Ended, Skipped> {
        fs::write(batch.join("trace.txt"), trace).unwrap();
        Ok(proved("audit", &batch)?.end())
    };
    let trace = long_text("trace.txt");
    run(&trace)?.is(0).printed(accepted(128));
    run(&trace[..4096])?.is(0).printed(accepted(64 + 9));
    let last = |value| format!("response=9978,0,{value}\n");
    let (front, _) = trace.split_once(&last(answer(9978))).unwrap();
    let wrong = front.to_string() + &last(answer(9978) - 1);
    run(&wrong)?.is(0).printed(refusal("audit", 11, 64));
    Ok(())
}

/// The host makes the long batch of it.
fn a_long_schedule(room: &Room) -> Done {
    let batch = long_batch(room, "batch");
    let ended = proved("record", &batch)?.end();
    ended.is(0).printed(recorded(&batch));
    Ok(())
}

/// A line that spoils a text of the long batch where it stands behind its end, and the verdict then.
fn spoils(text: &str) -> (&'static str, u64) {
    match text {
        "programs.txt" => ("do=11,0,0,0\n", 2),
        "trace.txt" => ("response=1,0,0\n", 3),
        "report.txt" => ("log=0,1,1,7,0,1\n", 7),
        _ => ("turn=1\n", 14),
    }
}

/// The long batch with a text that is spoilt in its last line.
fn spoilt_batch(room: &Room, text: &str) -> PathBuf {
    let batch = long_batch(room, &format!("spoilt-{text}"));
    fs::write(batch.join(text), long_text(text) + spoils(text).0).unwrap();
    batch
}

/// Ways to read a text up to its spoilt line: at once, and line by line.
fn parts(text: &str) -> [Vec<usize>; 2] {
    let front = long_text(text);
    let lines = front.split_inclusive('\n').map(str::len).collect();
    [vec![front.len()], lines]
}

/// Reads that give these parts of a text.
fn given(lengths: &[usize]) -> Vec<Fate> {
    lengths.iter().map(|n| Fate::AtMost(*n)).collect()
}

/// Runs a proved program with a fate for each of the first reads of a text; the results of all of them stand beside how it
/// ended. What it prints goes to files, so that it waits for nobody.
fn with_reads(
    room: &Room,
    command: &str,
    text: &Path,
    fates: &[Fate],
) -> Result<(Ended, Vec<i64>), Skipped> {
    let (stdout, stderr) = (room.path("stdout"), room.path("stderr"));
    let mut proved = proved(command, text.parent().unwrap())?;
    proved
        .stdout(File::create(&stdout).unwrap())
        .stderr(File::create(&stderr).unwrap());
    let (traced, results) = with_fates(&mut proved, text, fates)?;
    let ended = Ended {
        status: traced.status,
        stdout: read(stdout),
        stderr: read(stderr),
    };
    Ok((ended, results))
}

/// Less than was asked for is not the end of a text.
fn reads_that_give_less(room: &Room) -> Done {
    for (command, text, _) in READ {
        let batch = spoilt_batch(room, text);
        let line = long_text(text).lines().count() + 1;
        for lengths in parts(text) {
            let (ended, results) = with_reads(room, command, &batch.join(text), &given(&lengths))?;
            ended.is(0).printed(refusal(command, spoils(text).1, line));
            let read = results.iter().map(|result| *result as usize);
            assert!(read.take(lengths.len()).eq(lengths), "{text}: {results:?}");
        }
    }
    Ok(())
}

/// What was read before would be accepted, and what would have been read next is what spoils it.
fn reads_that_fail_behind_others(room: &Room) -> Done {
    for (command, text, _) in READ {
        let honest = proved(command, &long_batch(room, "honest"))?.end();
        assert!(honest.text().starts_with("verdict=0\n"), "{honest}");
        let batch = spoilt_batch(room, text);
        for lengths in parts(text) {
            let fates = [given(&lengths), vec![Fate::Fails]].concat();
            let (ended, results) = with_reads(room, command, &batch.join(text), &fates)?;
            gave_no_verdict(&ended, text);
            assert_eq!(results[lengths.len()..], [FAILED], "{text}: {results:?}");
        }
    }
    Ok(())
}

/// One byte more than a text may have is read of a longer one, by which it is seen to be that, and none behind it.
fn what_is_read_of_an_overlong_text(room: &Room) -> Done {
    for (command, text, verdict) in READ {
        let batch = room.batch(&format!("{command}-{text}"), "loop");
        fs::write(batch.join(text), [b'x'; 70000]).unwrap();
        let (ended, results) = with_reads(room, command, &batch.join(text), &[])?;
        ended.is(0).printed(refusal(command, verdict, 0));
        let bytes: i64 = results.iter().sum();
        assert_eq!(bytes, MOST as i64 + 1, "{command}, {text}: {results:?}");
    }
    Ok(())
}
