//! Code 4 of the proved functions on some million pairs of locals, the ends among them: the host carries out
//! each comparison, and the audit replays it.

use crate::proved;
use crate::random::Random;
use crate::texts::{
    read_trace, write_schedule, write_trace, Entry, Event, Request, Response, REQUEST_LIMIT,
};

const PAIRS: usize = 2_000_000;

/// Replies 4 where local 0 is below local 1, 2 where local 1 is below local 0, and 1 more where local 0 is below
/// itself.
const PROGRAM: &[u8] = b"program=0\n\
    do=4,2,0,1\ndo=4,3,1,0\ndo=4,0,0,0\n\
    do=2,2,2,2\ndo=2,2,2,3\ndo=2,2,2,2\ndo=2,2,2,0\ndo=0,2,0,0\n";

type Pair = (u64, u64);

/// Says of the first pair that is compared wrongly what came of it, or nothing.
pub fn wrong(seed: u64) -> Option<String> {
    let mut random = Random::new(seed);
    let mut pairs = ends();
    pairs.resize_with(PAIRS, || pair(&mut random));
    pairs.chunks(REQUEST_LIMIT).find_map(wrong_batch)
}

/// The powers of two with the numbers before and behind them, and the last two numbers, each against each.
fn ends() -> Vec<Pair> {
    let powers = (0..64).map(|place| 1 << place);
    let mut ends: Vec<u64> = powers
        .flat_map(|power| [power - 1, power, power + 1])
        .collect();
    ends.extend([u64::MAX - 1, u64::MAX]);
    let against_each = |x| ends.iter().map(move |y| (x, *y));
    ends.iter().copied().flat_map(against_each).collect()
}

/// Numbers of any length, half of the time with much in common.
fn pair(random: &mut Random) -> Pair {
    let [x, y] = [0; 2].map(|_| random.next() >> random.below(64));
    let close = match random.below(10) {
        0 => x,
        1 => x.wrapping_add(1),
        2 => x.wrapping_sub(1),
        3 => x ^ 1 << random.below(64),
        4 => !x,
        _ => y,
    };
    (x, close)
}

/// A batch with a request for each pair: the host must write it, and the audit accept it, but not with another
/// reply to its last request.
fn wrong_batch(pairs: &[Pair]) -> Option<String> {
    let requests: Vec<Request> = (0..).zip(pairs).map(request).collect();
    let mut events: Vec<Event> = requests.iter().copied().map(Event::Request).collect();
    events.extend(requests.iter().map(response));
    let (_, mut batch) = proved::recorded(PROGRAM, &schedule(&requests));
    if batch.trace != write_trace(&events) {
        let written = read_trace(&batch.trace).unwrap_or_default();
        let differing = written.iter().zip(&events).find(|(w, e)| w != e);
        return Some(format!(
            "code 4 on {pairs:?}: written and expected {differing:?}"
        ));
    }
    let accepted = proved::audit(&batch).verdict;
    if let Some(Event::Response(last)) = events.last_mut() {
        last.value += 1;
    }
    batch.trace = write_trace(&events);
    let refused = proved::audit(&batch).verdict;
    ((accepted, refused) != (0, 11)).then(|| {
        format!("code 4 on {pairs:?}: audited with {accepted}, with another reply {refused}")
    })
}

fn request((rid, (a, b)): (u64, &Pair)) -> Request {
    Request {
        rid,
        program: 0,
        a: *a,
        b: *b,
    }
}

/// What the program replies by the scope.
fn response(request: &Request) -> Event {
    let Request { rid, a, b, .. } = *request;
    Event::Response(Response {
        rid,
        status: 0,
        value: 4 * u64::from(a < b) + 2 * u64::from(b < a),
    })
}

/// All requests arrive, and then each takes the one turn that it needs.
fn schedule(requests: &[Request]) -> Vec<u8> {
    let arrivals = requests.iter().copied().map(Entry::Arrive);
    let turns = requests.iter().map(|request| Entry::Turn(request.rid));
    write_schedule(&arrivals.chain(turns).collect::<Vec<Entry>>())
}
