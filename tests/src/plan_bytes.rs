//! A plan and a part of its next line as the programs under test take and give them, all numbers lowest byte first, and
//! the commands that load them.

use crate::model::bench::{self, Fate};
use crate::model::held::Record;
use crate::model::node::Node;
use crate::model::part::{Part, KEPT};
use crate::model::pieces::{Outcome, Plan};
use crate::model::program::Told;
use crate::model::refusal;
use crate::model::ring::{Set, LIMIT};
use crate::random::Random;
use crate::record_bytes::{record_bytes, Reader, RECORD};
use crate::records::choices_of;

/// The rows of a plan.
pub const ROWS: usize = 32;

#[derive(Clone)]
pub enum Load {
    Numbers { over: bool, lines: u64, n: u32, outcome: Outcome },
    Row(u8, Record),
    Part(Part),
}

impl Load {
    pub fn push(&self, out: &mut Vec<u8>) {
        match self {
            Load::Numbers { over, lines, n, outcome } => {
                out.push(b'P');
                push_numbers(*over, *lines, *n, outcome, out);
            }
            Load::Row(row, record) => {
                out.extend([b'L', *row]);
                out.extend(record_bytes(record));
            }
            Load::Part(part) => {
                out.extend([b'T', 0]);
                push_part(part, out);
            }
        }
    }

    pub fn run(&self, plan: &mut Plan, part: &mut Part) {
        match self {
            Load::Numbers { over, lines, n, outcome } => {
                (plan.over, plan.lines, plan.n, plan.outcome) = (*over, *lines, *n, *outcome);
            }
            Load::Row(row, record) => plan.rows[usize::from(*row)] = *record,
            Load::Part(loaded) => *part = loaded.clone(),
        }
    }
}

/// The plan before line one. In a row of no node all bytes are 0 but the state, 7.
pub fn first() -> Plan {
    let mut bytes = [0; RECORD];
    bytes[20] = 7;
    Plan::new(Reader(&bytes).record(), ROWS)
}

fn push_numbers(over: bool, lines: u64, n: u32, outcome: &Outcome, out: &mut Vec<u8>) {
    out.push(u8::from(over));
    out.extend(lines.to_le_bytes());
    out.extend(n.to_le_bytes());
    push_outcome(outcome, out);
}

pub fn push_plan(plan: &Plan, out: &mut Vec<u8>) {
    push_numbers(plan.over, plan.lines, plan.n, &plan.outcome, out);
    plan.rows.iter().for_each(|row| out.extend(record_bytes(row)));
}

pub fn push_part(part: &Part, out: &mut Vec<u8>) {
    out.extend(part.length.to_le_bytes());
    out.extend(part.text);
}

/// 23 bytes; what an outcome does not have is 0.
fn push_outcome(outcome: &Outcome, out: &mut Vec<u8>) {
    let (kind, told) = match *outcome {
        Outcome::Quiet => (0, NOTHING),
        Outcome::Slot(told) => (1, told),
        Outcome::Refused(number) => (2, Told { sender: number, ..NOTHING }),
    };
    out.push(kind);
    out.extend(told.slot.to_le_bytes());
    out.extend(told.sender.to_le_bytes());
    out.extend([told.fate as u8, u8::from(told.list.is_some())]);
    out.extend(told.list.map_or(0, |set| set.0).to_le_bytes());
    out.extend(told.distance.to_le_bytes());
}

const NOTHING: Told = Told { slot: 0, sender: 0, fate: Fate::Silent, list: None, distance: 0 };

/// Any that can be loaded: a refusal is one by 12.
pub fn outcome(random: &mut Random) -> Outcome {
    let fates = [Fate::Silent, Fate::Lost, Fate::Knock, Fate::Sent];
    match random.below(3) {
        0 => Outcome::Quiet,
        1 => Outcome::Slot(Told {
            slot: random.number(),
            sender: random.number() as u32,
            fate: fates[random.below(4) as usize],
            list: random.bit().then(|| Set(random.number() as u32)),
            distance: random.number() as u32,
        }),
        _ => Outcome::Refused(refusal::LINE),
    }
}

/// The table of n nodes that set-up leaves, with any choices; or the same at the slot limit.
pub fn table_at(random: &mut Random, n: u32, at_limit: bool) -> Vec<Record> {
    let nodes = bench::set_up(choices_of(random, n), n as usize).expect("the choices are in range");
    let slots = if at_limit { LIMIT } else { 0 };
    nodes.into_iter().map(|node| Node { slots, ..node }.into()).collect()
}

/// Often one that goes on with a line that can be read; some hold a line feed. `begun` is what may have come of it.
pub fn part(random: &mut Random, begun: &[&[u8]]) -> Part {
    let begun = begun[random.below(begun.len() as u64) as usize];
    let mut text = [b'0'; KEPT];
    text[..begun.len()].copy_from_slice(begun);
    let length = match random.below(8) {
        0 => u64::from(random.byte()),
        1 => random.within(119, 123),
        2 => [256, 256 + 4, 1 << 16, 1 << 32, (1 << 63) + 4, u64::MAX][random.below(6) as usize],
        _ => begun.len() as u64,
    };
    Part { length, text }
}
