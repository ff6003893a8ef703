//! A record as the programs under test take and give it, all numbers lowest byte first: the record of the rules, 92
//! bytes, and the record as it is held, which has its row's length where that one has its set, and its row's 32 places
//! after all else; and the counts that stand beside one.

use crate::model::choices::Choices;
use crate::model::counts::{Counts, NONE};
use crate::model::held::Record;
use crate::model::node::{Cause, ListeningData, Node, State};
use crate::model::ring::Set;
use crate::model::row::Row;
use crate::model::slot_table::Order;

/// The bytes of a record of the rules.
pub const RULES: usize = 92;

/// The bytes of a record as it is held.
pub const RECORD: usize = RULES + Row::PLACES;

/// Where the set stands, or the row's length.
const SET: usize = 21;

const CAUSES: [Cause; 4] = [Cause::Unconfirmed, Cause::NothingHeard, Cause::MissedReturn, Cause::SwitchedOff];

fn state_number(state: State) -> u8 {
    match state {
        State::Member => 0,
        State::Listening => 1,
        State::Following => 2,
        State::Knocking => 3,
        State::Out(cause) => 3 + cause as u8,
    }
}

/// Every number past 7 is read as 7.
fn state_of(number: u8) -> State {
    match number {
        0 => State::Member,
        1 => State::Listening,
        2 => State::Following,
        3 => State::Knocking,
        4..=7 => State::Out(CAUSES[usize::from(number) - 4]),
        _ => State::Out(Cause::SwitchedOff),
    }
}

pub fn rules_bytes(record: &Node) -> [u8; RULES] {
    let mut out = Vec::with_capacity(RULES);
    let ListeningData { done, heard, shortest, return_seen, last } = record.listening;
    for number in [record.chosen.n, record.chosen.k, record.own] {
        out.extend(number.to_le_bytes());
    }
    out.extend(record.slots.to_le_bytes());
    out.push(state_number(record.state));
    for number in [record.set.0, record.marks.0, record.returning] {
        out.extend(number.to_le_bytes());
    }
    out.push(u8::from(record.return_heard));
    for number in [done, heard.0, shortest] {
        out.extend(number.to_le_bytes());
    }
    out.push(u8::from(return_seen));
    out.extend(last.0.to_le_bytes());
    out.push(u8::from(record.yes_heard));
    for number in [record.chosen.m, record.chosen.lag] {
        out.extend(number.to_le_bytes());
    }
    out.extend(record.chosen.order.0);
    out.try_into().expect("92 bytes")
}

pub fn record_bytes(record: &Record) -> [u8; RECORD] {
    let mut out = [0; RECORD];
    let (rules, places) = out.split_at_mut(RULES);
    rules.copy_from_slice(&rules_bytes(&record.node));
    rules[SET..SET + 4].copy_from_slice(&record.row.length.to_le_bytes());
    places.copy_from_slice(&record.row.nodes);
    out
}

/// Puts the counts of one node: 32 rows of 8, eight bytes each.
pub fn push_counts(counts: &Counts, out: &mut Vec<u8>) {
    counts.iter().flatten().for_each(|count| out.extend(count.to_le_bytes()));
}

/// The counts of this node whose count is not 0, as sender, job and count.
pub fn shown_counts(counts: &Counts) -> String {
    let mut text = Vec::new();
    for (sender, row) in (1..).zip(counts) {
        for (job, &count) in (1..).zip(row).filter(|(_, &count)| count != 0) {
            text.push(format!("node {sender} job {job}: {count}"));
        }
    }
    if text.is_empty() {
        return "all 0".to_string();
    }
    text.join(", ")
}

/// Takes bytes apart; those not yet taken.
pub struct Reader<'a>(pub &'a [u8]);

impl<'a> Reader<'a> {
    pub fn take(&mut self, length: usize) -> &'a [u8] {
        let (taken, rest) = self.0.split_at(length);
        self.0 = rest;
        taken
    }

    pub fn u8(&mut self) -> u8 {
        self.take(1)[0]
    }

    pub fn u32(&mut self) -> u32 {
        u32::from_le_bytes(self.take(4).try_into().expect("four bytes"))
    }

    pub fn u64(&mut self) -> u64 {
        u64::from_le_bytes(self.take(8).try_into().expect("eight bytes"))
    }

    pub fn counts(&mut self) -> Counts {
        let mut counts = NONE;
        counts.iter_mut().flatten().for_each(|count| *count = self.u64());
        counts
    }

    pub fn record(&mut self) -> Record {
        let node = self.rules();
        // Where the set stands there is the length.
        let length = node.set.0;
        Record::new(node, Row { length, nodes: self.take(Row::PLACES).try_into().expect("32 bytes") })
    }

    /// Fields are taken in the order in which they are written here.
    pub fn rules(&mut self) -> Node {
        let (n, k) = (self.u32(), self.u32());
        let node = Node {
            chosen: Choices::plain(n, k),
            own: self.u32(),
            slots: self.u64(),
            state: state_of(self.u8()),
            set: Set(self.u32()),
            marks: Set(self.u32()),
            returning: self.u32(),
            return_heard: self.u8() == 1,
            listening: ListeningData {
                done: self.u32(),
                heard: Set(self.u32()),
                shortest: self.u32(),
                return_seen: self.u8() == 1,
                last: Set(self.u32()),
            },
            yes_heard: self.u8() == 1,
        };
        let (m, lag) = (self.u32(), self.u32());
        let order = Order(self.take(32).try_into().expect("32 bytes"));
        Node { chosen: Choices { n, k, m, lag, order }, ..node }
    }
}

fn shown_set(set: Set) -> String {
    format!("{:?}", set.nodes().collect::<Vec<u32>>())
}

/// A record as it is held.
pub fn shown_held(record: &Record) -> String {
    let Row { length, nodes } = record.row;
    format!("row {length} {nodes:?} {}", shown_record(&record.node))
}

pub fn shown_record(record: &Node) -> String {
    let data = &record.listening;
    format!(
        "n {} k {} m {} lag {} table {:?} own {} slots {} {:?} set {} marks {} returning {} return heard {} yes heard {}; done {} heard {} shortest {} return seen {} last {}",
        record.chosen.n,
        record.chosen.k,
        record.chosen.m,
        record.chosen.lag,
        record.chosen.order.0,
        record.own,
        record.slots,
        record.state,
        shown_set(record.set),
        shown_set(record.marks),
        record.returning,
        record.return_heard,
        record.yes_heard,
        data.done,
        shown_set(data.heard),
        data.shortest,
        data.return_seen,
        shown_set(data.last),
    )
}
