//! The order to read: every event and operation of an accepted batch, each behind its forerunners, and the text
//! that the program `audit` prints with it.

use crate::audit::{audited, checked, Accepted, Audited};
use crate::plain::Item;
use crate::texts::BatchTexts;
use std::cmp::Reverse;
use std::collections::BinaryHeap;
use std::fmt::Write;

/// The order by its rule. At each step all items left are gone through, operations by their report lines and
/// then events: the first that no item left comes before is next.
pub fn order(accepted: &Accepted) -> Vec<Item> {
    let events = accepted.batch.trace.len();
    let forerunners = accepted.graph.forerunners();
    let mut left: Vec<usize> = (events..forerunners.len()).chain(0..events).collect();
    let mut printed = vec![false; forerunners.len()];
    let mut order = Vec::new();
    let free =
        |node: usize, printed: &[bool]| forerunners[node].iter().all(|&before| printed[before]);
    while let Some(place) = left.iter().position(|&node| free(node, &printed)) {
        let node = left.remove(place);
        printed[node] = true;
        order.push(item(accepted, node));
    }
    order
}

/// The same order by a heap of the items that are free, as one writes it for speed.
pub fn order_quickly(accepted: &Accepted) -> Vec<Item> {
    let events = accepted.batch.trace.len();
    let successors = &accepted.graph.successors;
    let mut waits_for = vec![0; successors.len()];
    for &next in successors.iter().flatten() {
        waits_for[next] += 1;
    }
    let key = |node| Reverse((node < events, node));
    let free = (0..successors.len()).filter(|&node| waits_for[node] == 0);
    let mut free: BinaryHeap<_> = free.map(key).collect();
    let mut order = Vec::with_capacity(successors.len());
    while let Some(Reverse((_, node))) = free.pop() {
        order.push(item(accepted, node));
        for &next in &successors[node] {
            waits_for[next] -= 1;
            if waits_for[next] == 0 {
                free.push(key(next));
            }
        }
    }
    order
}

/// The item that a node of the graph stands for.
fn item(Accepted { batch, .. }: &Accepted, node: usize) -> Item {
    match node.checked_sub(batch.trace.len()) {
        None => Item::Event { line: node + 1 },
        Some(index) => {
            let line = &batch.report.log[index];
            Item::Operation {
                rid: line.rid,
                num: line.num,
            }
        }
    }
}

/// What the program `audit` prints, with the order made in this way.
pub fn printed(texts: &BatchTexts, order: fn(&Accepted) -> Vec<Item>) -> String {
    let checked = checked(&texts.programs, &texts.trace, &texts.report);
    let mut text = verdict_lines(audited(&checked));
    if let Ok(accepted) = checked {
        for item in order(&accepted) {
            writeln!(text, "{item}").expect("a string takes every line");
        }
    }
    text
}

/// The lines that stand before the order; a refused batch has no others.
pub fn verdict_lines(audited: Audited) -> String {
    let Audited {
        verdict,
        line,
        requests,
        operations,
        blocks,
        rest,
    } = audited;
    format!(
        "verdict={verdict}\nline={line}\nrequests={requests}\noperations={operations}\n\
         blocks={blocks}\nrest={rest}\n"
    )
}

#[cfg(test)]
mod tests {
    use super::*;
    use crate::checks::printed_of;
    use crate::worked::{self, Case};

    /// What the rule says, word by word, with chains of "comes before" in place of direct pairs.
    fn order_by_chains(accepted: &Accepted) -> Vec<Item> {
        let events = accepted.batch.trace.len();
        let chains = chains(&accepted.graph.successors);
        let mut left: Vec<usize> = (0..chains.len()).collect();
        let mut order = Vec::new();
        while !left.is_empty() {
            let free = |node: &&usize| left.iter().all(|before| !chains[*before][**node]);
            let next = left.iter().filter(free);
            let next = next.min_by_key(|&&node| (node < events, node)).copied();
            let next = next.expect("no chain returns to its start");
            left.retain(|node| *node != next);
            order.push(item(accepted, next));
        }
        order
    }

    /// For each node the nodes that a chain leads to from it.
    fn chains(successors: &[Vec<usize>]) -> Vec<Vec<bool>> {
        let reached_from = |start: usize| {
            let mut reached = vec![false; successors.len()];
            let mut open = successors[start].clone();
            while let Some(node) = open.pop() {
                if !std::mem::replace(&mut reached[node], true) {
                    open.extend(&successors[node]);
                }
            }
            reached
        };
        (0..successors.len()).map(reached_from).collect()
    }

    #[test]
    fn case_c_prints_its_fourteen_lines() {
        let text = "verdict=0\nline=0\nrequests=2\noperations=4\nblocks=0\nrest=4\n\
                    event=1\nop=1,1\nevent=2\nop=2,1\nop=2,2\nop=1,2\nevent=3\nevent=4\n";
        assert_eq!(printed_of(&worked::case_c()), text);
    }

    #[test]
    fn empty_texts_have_no_line_in_their_order() {
        let text = "verdict=0\nline=0\nrequests=0\noperations=0\nblocks=0\nrest=0\n";
        assert_eq!(printed_of(&BatchTexts::default()), text);
    }

    #[test]
    fn a_refused_batch_prints_its_verdict_lines_alone() {
        let refused = worked::batch("do=1,2\n", "", "");
        let text = "verdict=1\nline=1\nrequests=0\noperations=0\nblocks=0\nrest=0\n";
        assert_eq!(printed_of(&refused), text);
    }

    #[test]
    fn no_refused_batch_shows_a_count() {
        let worked = worked::batches().into_iter();
        for case in worked.filter(|case| case.expected.verdict != 0) {
            let Audited { verdict, line, .. } = case.expected;
            let counts = "requests=0\noperations=0\nblocks=0\nrest=0\n";
            let text = format!("verdict={verdict}\nline={line}\n{counts}");
            assert_eq!(printed_of(&case.batch), text, "{}", case.name);
        }
    }

    #[test]
    fn worked_batches_print_the_order_worked_out() {
        let worked_out = |case: &Case| case.order.map(|order| verdict_lines(case.expected) + order);
        for case in worked::batches() {
            let printed = printed_of(&case.batch);
            if let Some(text) = worked_out(&case) {
                assert_eq!(printed, text, "{}", case.name);
            }
        }
    }

    #[test]
    fn direct_pairs_and_chains_give_the_same_order() {
        for Case { name, batch, .. } in worked::batches() {
            let checked = checked(&batch.programs, &batch.trace, &batch.report);
            let Ok(accepted) = checked else { continue };
            let order = order(&accepted);
            assert_eq!(order, order_by_chains(&accepted), "{name}");
            assert_eq!(order, order_quickly(&accepted), "{name}");
        }
    }
}
