//! What an audit printed, taken apart: the verdict lines and, behind those of an accepted batch, its order.

use crate::texts::{Text, Texts};
use crate::verdicts::{number, Audited};
use std::fmt;

/// An item of an order.
#[derive(Clone, Copy, Debug, PartialEq, Eq)]
pub enum Item {
    /// A line of the trace, counted from 1.
    Event(u64),
    Operation {
        rid: u64,
        num: u64,
    },
}

impl Item {
    fn read(line: &[u8]) -> Option<Item> {
        if let Some(line) = line.strip_prefix(b"event=") {
            return number(line).map(Item::Event);
        }
        let numbers = line.strip_prefix(b"op=")?;
        let comma = numbers.iter().position(|byte| *byte == b',')?;
        Some(Item::Operation {
            rid: number(&numbers[..comma])?,
            num: number(&numbers[comma + 1..])?,
        })
    }
}

/// As it is printed.
impl fmt::Display for Item {
    fn fmt(&self, out: &mut fmt::Formatter) -> fmt::Result {
        match self {
            Item::Event(line) => write!(out, "event={line}"),
            Item::Operation { rid, num } => write!(out, "op={rid},{num}"),
        }
    }
}

#[derive(Clone, Debug, PartialEq, Eq)]
pub struct Answer {
    pub audited: Audited,
    /// None of a refused batch.
    pub order: Option<Vec<Item>>,
}

impl Answer {
    /// Reads what an audit of these texts printed, all of it, or says what it is instead.
    pub fn read(printed: &[u8], texts: &Texts) -> Result<Answer, &'static str> {
        let (audited, behind) = Audited::read(printed).ok_or("no verdict")?;
        let order = match audited.verdict {
            0 => items(behind)
                .filter(|items| is_whole(items, &audited, texts))
                .map(Some),
            _ => behind.is_empty().then_some(None),
        };
        let order = order.ok_or("a verdict with something else than its order behind it")?;
        Ok(Answer { audited, order })
    }
}

fn items(lines: &[u8]) -> Option<Vec<Item>> {
    let lines = lines.split_inclusive(|byte| *byte == b'\n');
    let items = lines.map(|line| Item::read(line.strip_suffix(b"\n")?));
    items.collect()
}

/// Whether every line of the trace stands there, in its order, and as many operations as were counted. More is proved of what the
/// library answers; this is what a status rests on.
fn is_whole(items: &[Item], audited: &Audited, texts: &Texts) -> bool {
    let trace = texts.bytes(Text::Trace);
    let lines = trace.iter().filter(|byte| **byte == b'\n').count() as u64;
    let events = items.iter().filter_map(|item| match item {
        Item::Event(line) => Some(*line),
        Item::Operation { .. } => None,
    });
    events.eq(1..=lines) && items.len() as u64 - lines == audited.operations
}

#[cfg(test)]
mod tests {
    use super::*;

    const FRONT: &str = "verdict=0\nline=0\nrequests=1\noperations=1\nblocks=0\nrest=1\n";
    const REFUSED: &str = "verdict=9\nline=0\nrequests=0\noperations=0\nblocks=0\nrest=0\n";
    const ORDER: &str = "event=1\nop=65535,1\nevent=2\n";

    fn texts() -> Texts {
        let trace = b"request=65535,0,0,0\nresponse=65535,0,0\n";
        Texts::of(vec![(Text::Trace, trace.to_vec())])
    }

    fn read(printed: &str) -> Result<Answer, &'static str> {
        Answer::read(printed.as_bytes(), &texts())
    }

    #[test]
    fn an_order_is_read_and_printed_again() {
        let order = read(&format!("{FRONT}{ORDER}")).unwrap().order.unwrap();
        let operation = Item::Operation { rid: 65535, num: 1 };
        assert_eq!(order, [Item::Event(1), operation, Item::Event(2)]);
        let printed: String = order.iter().map(|item| format!("{item}\n")).collect();
        assert_eq!(printed, ORDER);
    }

    #[test]
    fn a_refused_batch_has_no_order() {
        assert_eq!(read(REFUSED).unwrap().order, None);
        for behind in [ORDER, "event=1\n", "\n", "x"] {
            assert!(read(&format!("{REFUSED}{behind}")).is_err(), "{behind}");
        }
    }

    #[test]
    fn nothing_else_is_an_order() {
        for behind in [
            "",
            "\n",
            "event=1\nop=65535,1\n",
            "event=1\nevent=2\n",
            "event=1\nop=65535,1\nevent=2",
            "event=1\nop=65535,1\nevent=2\n\n",
            "event=1\nop=65535,1\nevent=2\nevent=3\n",
            "event=1\nop=65535,1\nevent=2\nop=65535,2\n",
            "event=2\nop=65535,1\nevent=1\n",
            "event=1\nop=65535,1\nevent=02\n",
            "event=1\nop=65535,1,0\nevent=2\n",
            "event=1\nop=65535\nevent=2\n",
            "event=1\nop=,1\nevent=2\n",
            "event=1\nop=65535, 1\nevent=2\n",
            "event=1\nop=65535,1\r\nevent=2\n",
            "event=1\nblocks=0\nop=65535,1\nevent=2\n",
            "rest=1\nevent=1\nop=65535,1\nevent=2\n",
        ] {
            assert!(read(&format!("{FRONT}{behind}")).is_err(), "{behind:?}");
        }
        assert_eq!(read("verdict=0\n"), Err("no verdict"));
    }
}
