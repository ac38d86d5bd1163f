//! Whether an order is by the rule, asked of the finished order: "comes before" is told of two items at a time,
//! as the paper says it, and nothing is shared with the graph that the order was made from.

use crate::audit::Batch;
use crate::plain::Item;
use crate::texts::{Event, LogLine};

/// An item, with what the texts say of it.
#[derive(Clone, Copy)]
enum Told {
    Request {
        line: usize,
        rid: u64,
    },
    Response {
        line: usize,
        rid: u64,
        /// What the `of` line of its request counts: the number of its last operation.
        count: u64,
    },
    Operation {
        line: usize,
        rid: u64,
        num: u64,
        object: u64,
        /// How many lines of this object's log stand above.
        above: usize,
    },
}

/// Whether every item of the batch stands in the order a single time, and no other stands there.
pub fn has_each_item_once(batch: &Batch, order: &[Item]) -> bool {
    let events = (1..=batch.trace.len()).map(|line| Item::Event { line });
    let claimed = |&LogLine { rid, num, .. }: &LogLine| Item::Operation { rid, num };
    let mut items: Vec<Item> = events.chain(batch.report.log.iter().map(claimed)).collect();
    let mut printed = order.to_vec();
    items.sort();
    printed.sort();
    items == printed
}

/// Whether each item stands behind its forerunners, and none of those below it that were free by then should
/// have gone first. The order has each item of the batch once.
pub fn is_kept(batch: &Batch, order: &[Item]) -> bool {
    let told: Vec<Told> = order.iter().map(|item| tell(batch, *item)).collect();
    let free_from: Vec<usize> = told.iter().map(|item| place_behind(&told, item)).collect();
    (0..told.len()).all(|place| {
        let mut free = (place + 1..told.len()).filter(|&other| free_from[other] <= place);
        free_from[place] <= place && free.all(|other| goes_first(told[place], told[other]))
    })
}

/// The first place behind all forerunners of an item.
fn place_behind(told: &[Told], item: &Told) -> usize {
    let last = told.iter().rposition(|other| comes_before(other, item));
    last.map_or(0, |last| last + 1)
}

/// The five sorts of neighbours that "comes before" joins.
fn comes_before(one: &Told, other: &Told) -> bool {
    use Told::{Operation, Request, Response};
    match (*one, *other) {
        (
            Request { line, .. } | Response { line, .. },
            Request { line: next, .. } | Response { line: next, .. },
        ) => line + 1 == next,
        (Request { rid, .. }, Operation { rid: of, num, .. }) => rid == of && num == 1,
        (Operation { rid, num, .. }, Response { rid: of, count, .. }) => rid == of && num == count,
        (Operation { .. }, Request { .. }) | (Response { .. }, Operation { .. }) => false,
        (
            Operation {
                rid,
                num,
                object,
                above,
                ..
            },
            Operation {
                rid: next_rid,
                num: next_num,
                object: next_object,
                above: next_above,
                ..
            },
        ) => {
            (rid, num + 1) == (next_rid, next_num)
                || (object, above + 1) == (next_object, next_above)
        }
    }
}

/// Of two items that are free, whether the first is next: operations go before events, and of operations the
/// one with the smaller report line. Two events are never free at once.
fn goes_first(one: Told, other: Told) -> bool {
    match (one, other) {
        (Told::Operation { line, .. }, Told::Operation { line: next, .. }) => line < next,
        (Told::Operation { .. }, _) => true,
        _ => false,
    }
}

fn tell(batch: &Batch, item: Item) -> Told {
    match item {
        Item::Event { line } => match batch.trace[line - 1] {
            Event::Request(request) => Told::Request {
                line,
                rid: request.rid,
            },
            Event::Response(response) => Told::Response {
                line,
                rid: response.rid,
                count: count_of(batch, response.rid),
            },
        },
        Item::Operation { rid, num } => {
            let log = &batch.report.log;
            let claims = |line: &LogLine| (line.rid, line.num) == (rid, num);
            let index = log.iter().position(claims).expect("each is claimed");
            let object = log[index].object;
            let same_object = log[..index].iter().filter(|line| line.object == object);
            Told::Operation {
                line: batch.report.line_of_log(index),
                rid,
                num,
                object,
                above: same_object.count(),
            }
        }
    }
}

fn count_of(batch: &Batch, rid: u64) -> u64 {
    let mut of = batch.report.of.iter();
    of.find(|of| of.rid == rid)
        .expect("row 6 leaves an `of` line for each request")
        .count
}

#[cfg(test)]
mod tests {
    use super::*;
    use crate::audit::read_batch;
    use crate::worked;

    fn of_c(order: &[Item]) -> [bool; 2] {
        let c = worked::case_c();
        let batch = read_batch(&c.programs, &c.trace, &c.report);
        let batch = batch.expect("case C can be read");
        let complete = has_each_item_once(&batch, order);
        [complete, complete && is_kept(&batch, order)]
    }

    /// The order of case C.
    fn order() -> Vec<Item> {
        let event = |line| Item::Event { line };
        let operation = |rid, num| Item::Operation { rid, num };
        vec![
            event(1),
            operation(1, 1),
            event(2),
            operation(2, 1),
            operation(2, 2),
            operation(1, 2),
            event(3),
            event(4),
        ]
    }

    #[test]
    fn the_order_of_c_keeps_the_rule_and_no_exchange_of_two_items_does() {
        assert_eq!(of_c(&order()), [true, true]);
        for (one, other) in (0..8).flat_map(|one| (0..one).map(move |other| (one, other))) {
            let mut exchanged = order();
            exchanged.swap(one, other);
            assert_eq!(of_c(&exchanged), [true, false], "{exchanged:?}");
        }
    }

    #[test]
    fn an_item_too_few_too_many_or_twice_is_seen() {
        let mut longer = order();
        longer.push(Item::Operation { rid: 1, num: 3 });
        let mut twice = order();
        twice[4] = twice[3];
        for wrong in [&order()[1..], &longer, &twice] {
            assert!(!of_c(wrong)[0], "{wrong:?}");
        }
    }
}
