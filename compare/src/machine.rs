//! The machine: the rules that programs keep, a request that runs from operation to operation, and the
//! objects that the operations work on.

use crate::maps::Map;
use crate::texts::{Instruction, LogLine, Program, Request};

pub const INSTRUCTIONS_PER_REQUEST: usize = 256;
const LOCALS: u64 = 8;
const REGISTERS: u64 = 8;
const OBJECTS: u64 = 16;

pub const REPLIED: u64 = 0;
pub const CUT_OFF: u64 = 1;

/// The first line that breaks a program rule.
pub fn broken_rule(programs: &[Program]) -> Option<usize> {
    programs
        .iter()
        .zip(0..)
        .find_map(|(program, place)| broken_rule_of_program(program, place))
}

fn broken_rule_of_program(program: &Program, place: u64) -> Option<usize> {
    if program.number != place || program.instructions.is_empty() {
        return Some(program.line);
    }
    let length = program.instructions.len();
    let broken = |(position, instruction): (usize, &Instruction)| {
        let last = position + 1 == length;
        !fields_exist(instruction, length as u64) || (last && instruction.code != 0)
    };
    let found = program.instructions.iter().enumerate().position(broken)?;
    Some(program.instructions[found].line)
}

fn fields_exist(instruction: &Instruction, length: u64) -> bool {
    let &Instruction { code, a, b, c, .. } = instruction;
    let local = |field| field < LOCALS;
    let register = |field| field < REGISTERS;
    let store = |field| (REGISTERS..OBJECTS).contains(&field);
    match code {
        0 => local(a) && b == 0 && c == 0,
        1 => local(a) && c == 0,
        2..=4 => local(a) && local(b) && local(c),
        5 => local(a) && b < length && c == 0,
        6 => local(a) && register(b) && c == 0,
        7 => register(a) && local(b) && c == 0,
        8 | 10 => local(a) && store(b) && local(c),
        9 => store(a) && local(b) && local(c),
        _ => false,
    }
}

/// Whether an operation of this kind, which is its code, takes an answer: the value of a register or at a key, or
/// whether the key is held.
pub fn is_read(kind: u64) -> bool {
    matches!(kind, 6 | 8 | 10)
}

/// An operation, without the request that it belongs to. The value is that of a write; of a read it says nothing.
#[derive(Clone, Copy, Debug, PartialEq, Eq)]
pub struct Operation {
    pub object: u64,
    pub kind: u64,
    pub key: u64,
    pub value: u64,
}

impl Operation {
    pub fn claimed_by(line: &LogLine) -> Operation {
        Operation {
            object: line.object,
            kind: line.kind,
            key: line.key,
            value: line.value,
        }
    }

    /// The log line of an operation that got this answer: a read shows it.
    pub fn log_line(self, rid: u64, num: u64, answer: u64) -> LogLine {
        LogLine {
            object: self.object,
            rid,
            num,
            kind: self.kind,
            key: self.key,
            value: if is_read(self.kind) {
                answer
            } else {
                self.value
            },
        }
    }

    /// A line of kind 7 on a register or 9 on a store. A report may claim others, 9 on a register say:
    /// they write nothing.
    pub fn is_write(self) -> bool {
        self.kind == if self.object < REGISTERS { 7 } else { 9 }
    }

    /// What is read or written: a register as a whole, whatever key is claimed, or one key of a store.
    fn cell(self) -> (u64, u64) {
        let key = if self.object < REGISTERS { 0 } else { self.key };
        (self.object, key)
    }

    /// The answer, by what the cell holds: of kind 10 whether it was ever written, of the others its value, which
    /// is 0 where it never was.
    fn answer(self, held: Option<u64>) -> u64 {
        match self.kind {
            10 => u64::from(held.is_some()),
            _ => held.unwrap_or(0),
        }
    }
}

/// The contents of registers and stores: the cells that were written. A 0 that was written is there.
#[derive(Clone, Debug, Default)]
pub struct Objects {
    cells: Map<(u64, u64), u64>,
}

impl Objects {
    /// Carries an operation out; the answer is by what its cell held before.
    pub fn perform(&mut self, operation: Operation) -> u64 {
        let cell = operation.cell();
        let before = self.lookup(cell);
        if operation.is_write() {
            self.cells.insert(cell, operation.value);
        }
        operation.answer(before)
    }

    /// What a cell holds, or that it was never written.
    fn lookup(&self, cell: (u64, u64)) -> Option<u64> {
        self.cells.get(&cell).copied()
    }
}

/// Where a request stands after it went on.
#[derive(Clone, Copy, Debug, PartialEq, Eq)]
pub enum Pause {
    /// An operation is to be performed; `Running::answer` hands its result in.
    Operation(Operation),
    /// The request ended with this status and value.
    End { status: u64, value: u64 },
}

/// A program number and the positions of the instructions carried out.
#[derive(Clone, Debug, PartialEq, Eq)]
pub struct Path {
    pub program: u64,
    pub positions: Vec<usize>,
}

/// A request under way.
#[derive(Clone, Debug)]
pub struct Running<'a> {
    program: &'a Program,
    locals: [u64; LOCALS as usize],
    position: usize,
    carried_out: Vec<usize>,
    operations: u64,
    awaiting: Option<usize>,
}

impl<'a> Running<'a> {
    /// The request of a program that exists, with nothing carried out.
    pub fn open(programs: &'a [Program], request: &Request) -> Running<'a> {
        let mut locals = [0; LOCALS as usize];
        locals[0] = request.a;
        locals[1] = request.b;
        Running {
            program: &programs[request.program as usize],
            locals,
            position: 0,
            carried_out: Vec::new(),
            operations: 0,
            awaiting: None,
        }
    }

    /// How many operations the request has come to so far.
    pub fn operations(&self) -> u64 {
        self.operations
    }

    pub fn path(&self) -> Path {
        Path {
            program: self.program.number,
            positions: self.carried_out.clone(),
        }
    }

    /// Goes on through the next operation, or to the reply or cut.
    pub fn go_on(&mut self) -> Pause {
        while self.carried_out.len() < INSTRUCTIONS_PER_REQUEST {
            if let Some(pause) = self.step() {
                return pause;
            }
        }
        Pause::End {
            status: CUT_OFF,
            value: 0,
        }
    }

    /// The answer to the operation that the request paused at: a read takes it, a write does not look.
    pub fn answer(&mut self, value: u64) {
        if let Some(local) = self.awaiting.take() {
            self.locals[local] = value;
        }
    }

    fn step(&mut self) -> Option<Pause> {
        let Instruction { code, a, b, c, .. } = self.program.instructions[self.position];
        self.carried_out.push(self.position);
        self.position += 1;
        match code {
            0 => {
                return Some(Pause::End {
                    status: REPLIED,
                    value: self.local(a),
                })
            }
            1 => self.locals[a as usize] = b,
            2 => self.locals[a as usize] = self.local(b).wrapping_add(self.local(c)),
            3 => self.locals[a as usize] = self.local(b).wrapping_sub(self.local(c)),
            4 => self.locals[a as usize] = u64::from(self.local(b) < self.local(c)),
            5 if self.local(a) != 0 => self.position = b as usize,
            5 => {}
            6 => return Some(self.read(a, b, 6, 0)),
            7 => return Some(self.write(a, 7, 0, self.local(b))),
            8 | 10 => return Some(self.read(a, b, code, self.local(c))),
            9 => return Some(self.write(a, 9, self.local(b), self.local(c))),
            _ => unreachable!("the program rules leave no other code"),
        }
        None
    }

    fn local(&self, number: u64) -> u64 {
        self.locals[number as usize]
    }

    fn read(&mut self, local: u64, object: u64, kind: u64, key: u64) -> Pause {
        self.awaiting = Some(local as usize);
        self.pause_at(Operation {
            object,
            kind,
            key,
            value: 0,
        })
    }

    fn write(&mut self, object: u64, kind: u64, key: u64, value: u64) -> Pause {
        self.pause_at(Operation {
            object,
            kind,
            key,
            value,
        })
    }

    fn pause_at(&mut self, operation: Operation) -> Pause {
        self.operations += 1;
        Pause::Operation(operation)
    }
}

#[cfg(test)]
mod tests {
    use super::*;
    use crate::texts::read_programs;

    fn rule_line(text: &str) -> Option<usize> {
        broken_rule(&read_programs(text.as_bytes()).unwrap())
    }

    fn run(text: &str, a: u64, b: u64) -> (u64, u64, usize) {
        let programs = read_programs(text.as_bytes()).unwrap();
        assert_eq!(broken_rule(&programs), None);
        let request = Request {
            rid: 1,
            program: 0,
            a,
            b,
        };
        let mut objects = Objects::default();
        let mut running = Running::open(&programs, &request);
        loop {
            match running.go_on() {
                Pause::Operation(operation) => running.answer(objects.perform(operation)),
                Pause::End { status, value } => {
                    return (status, value, running.path().positions.len())
                }
            }
        }
    }

    #[test]
    fn rules_name_the_first_line_that_breaks_one() {
        assert_eq!(rule_line(""), None);
        assert_eq!(rule_line("program=0\ndo=0,8,0,0\n"), Some(2));
        assert_eq!(rule_line("program=0\n"), Some(1));
        assert_eq!(rule_line("program=1\ndo=0,0,0,0\n"), Some(1));
        assert_eq!(rule_line("program=0\nprogram=1\ndo=0,0,0,0\n"), Some(1));
        assert_eq!(rule_line("program=0\ndo=0,0,0,0\nprogram=0\n"), Some(3));
        assert_eq!(rule_line("program=0\ndo=0,0,0,0\ndo=1,0,0,0\n"), Some(3));
        assert_eq!(rule_line("program=0\ndo=5,0,2,0\ndo=0,0,0,0\n"), Some(2));
        assert_eq!(rule_line("program=0\ndo=5,0,1,0\ndo=0,0,0,0\n"), None);
        assert_eq!(rule_line("program=0\ndo=11,0,8,0\ndo=0,0,0,0\n"), Some(2));
    }

    #[test]
    fn each_field_of_each_code_has_its_range() {
        let highest: [(u64, [u64; 3]); 11] = [
            (0, [7, 0, 0]),
            (1, [7, u64::MAX, 0]),
            (2, [7, 7, 7]),
            (3, [7, 7, 7]),
            (4, [7, 7, 7]),
            (5, [7, 1, 0]),
            (6, [7, 7, 0]),
            (7, [7, 7, 0]),
            (8, [7, 15, 7]),
            (9, [15, 7, 7]),
            (10, [7, 15, 7]),
        ];
        let line = |code, [a, b, c]: [u64; 3]| {
            rule_line(&format!("program=0\ndo={code},{a},{b},{c}\ndo=0,0,0,0\n"))
        };
        for (code, top) in highest {
            assert_eq!(line(code, top), None, "code {code}");
            for field in 0..3 {
                let mut over = top;
                let Some(above) = over[field].checked_add(1) else {
                    continue;
                };
                over[field] = above;
                assert_eq!(line(code, over), Some(2), "code {code}, field {field}");
            }
        }
        for (code, [below, lowest]) in [
            (8, [[0, 7, 0], [0, 8, 0]]),
            (9, [[7, 0, 0], [8, 0, 0]]),
            (10, [[0, 7, 0], [0, 8, 0]]),
        ] {
            assert_eq!(line(code, below), Some(2), "code {code}");
            assert_eq!(line(code, lowest), None, "code {code}");
        }
    }

    #[test]
    fn sums_and_differences_wrap() {
        let minus = "program=0\ndo=3,2,0,1\ndo=0,2,0,0\n";
        assert_eq!(run(minus, 0, 1), (REPLIED, 18446744073709551615, 2));
        let plus = "program=0\ndo=2,2,0,1\ndo=0,2,0,0\n";
        assert_eq!(run(plus, u64::MAX, 1), (REPLIED, 0, 2));
    }

    #[test]
    fn comparison_is_strict() {
        let below = "program=0\ndo=4,2,0,1\ndo=0,2,0,0\n";
        assert_eq!(run(below, 1, 1).1, 0);
        assert_eq!(run(below, 0, u64::MAX).1, 1);
        assert_eq!(run(below, u64::MAX, 0).1, 0);
        assert_eq!(run(below, (1 << 63) - 1, 1 << 63).1, 1);
        assert_eq!(run(below, 1 << 63, (1 << 63) - 1).1, 0);
    }

    #[test]
    fn the_loop_is_cut_off() {
        let program = "program=0\ndo=1,2,1,0\ndo=5,2,0,0\ndo=0,0,0,0\n";
        assert_eq!(run(program, 0, 0), (CUT_OFF, 0, 256));
    }

    #[test]
    fn a_reply_as_256th_instruction_is_given_and_as_257th_is_not() {
        // Local 0 counts down to 0: three instructions each time round, two before, one reply.
        let countdown =
            "program=0\ndo=1,2,1,0\ndo=5,1,3,0\ndo=1,3,0,0\ndo=3,0,0,2\ndo=5,0,3,0\ndo=0,0,0,0\n";
        // With b = 0 the jump is not taken: 3 before the loop, 2 for each round, 1 reply.
        assert_eq!(run(countdown, 126, 0), (REPLIED, 0, 256));
        assert_eq!(run(countdown, 127, 0), (CUT_OFF, 0, 256));
        // With b = 1 one instruction is passed over: 2 before the loop.
        assert_eq!(run(countdown, 126, 1), (REPLIED, 0, 255));
    }

    #[test]
    fn objects_start_as_0_and_stores_keep_keys_apart() {
        let stores = "program=0\ndo=9,8,0,1\ndo=8,2,8,1\ndo=8,3,8,0\ndo=2,4,2,3\ndo=0,4,0,0\n";
        assert_eq!(run(stores, 5, 9).1, 9);
        let register = "program=0\ndo=6,2,0,0\ndo=7,0,0,0\ndo=6,3,0,0\ndo=3,4,3,2\ndo=0,4,0,0\n";
        assert_eq!(run(register, 5, 0).1, 5);
    }

    /// What store 8 says of key 3, and then whether store 9 holds it, after these puts into store 8.
    fn told_after(puts: &[(u64, u64)]) -> [u64; 3] {
        let mut objects = Objects::default();
        let mut perform = |object, kind, (key, value)| {
            objects.perform(Operation {
                object,
                kind,
                key,
                value,
            })
        };
        for &put in puts {
            perform(8, 9, put);
        }
        [(8, 8), (8, 10), (9, 10)].map(|(object, kind)| perform(object, kind, (3, 0)))
    }

    #[test]
    fn a_key_is_held_once_it_was_put_with_0_too() {
        assert_eq!(told_after(&[]), [0, 0, 0]);
        assert_eq!(told_after(&[(3, 0)]), [0, 1, 0]);
        assert_eq!(told_after(&[(3, 5)]), [5, 1, 0]);
        assert_eq!(told_after(&[(3, 5), (3, 0)]), [0, 1, 0]);
        assert_eq!(told_after(&[(4, 5)]), [0, 0, 0]);
    }

    #[test]
    fn code_10_takes_1_or_0_and_no_kind_10_makes_a_key_held() {
        // Whether key a is held before the put, and after it, as the digits of a number to the base 2.
        let asks = "program=0\ndo=10,2,8,0\ndo=10,2,8,0\ndo=9,8,0,1\ndo=10,3,8,0\n\
                    do=2,2,2,2\ndo=2,2,2,3\ndo=0,2,0,0\n";
        assert_eq!(run(asks, 3, 0), (REPLIED, 1, 7));
        assert_eq!(run(asks, 3, u64::MAX), (REPLIED, 1, 7));
    }
}
