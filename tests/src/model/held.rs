//! Document 02, request l: "The set shall be held as a row". The rules speak of sets, and "each step on the row equals
//! the step on the set": a call on a held record is that on the record of the rules.

use super::counts::Counts;
use super::node::Node;
use super::refusal;
use super::ring::Set;
use super::row::Row;

/// A record as it is held.
#[derive(Clone, Copy, PartialEq, Eq)]
pub struct Record {
    /// The record of the rules; its set is what stands in the row.
    pub node: Node,
    pub row: Row,
}

/// "Conversion each way": the record of the rules as it is held.
impl From<Node> for Record {
    fn from(node: Node) -> Record {
        Record { row: Row::of(node.chosen.order, node.set), node }.read()
    }
}

impl Record {
    /// With the row as it stands.
    pub fn new(node: Node, row: Row) -> Record {
        Record { node, row }.read()
    }

    fn read(self) -> Record {
        Record { node: Node { set: self.row.set(), ..self.node }, ..self }
    }

    /// The same with another set.
    pub fn hold(&mut self, set: Set) {
        *self = Node { set, ..self.node }.into();
    }

    /// The record of the rules that calls are made on. A row that is not sound: "4, in its old place", where a set with
    /// other numbers was found.
    pub fn rules(&self) -> Result<Node, u32> {
        if self.row.is_sound(self.node.chosen.n, self.node.chosen.order) {
            Ok(self.node)
        } else {
            Err(refusal::UNSOUND)
        }
    }

    pub fn is_sound(&self) -> bool {
        self.rules().is_ok_and(|node| node.is_sound())
    }

    /// "Conversion each way": that record, if it is sound.
    pub fn as_set(&self) -> Result<Node, u32> {
        let node = self.rules()?;
        node.check_sound().map(|()| node)
    }

    pub fn counted_slot(&self, counts: &mut Counts, bytes: &[u8]) -> Result<Record, u32> {
        Ok(self.rules()?.counted_slot(counts, bytes)?.into())
    }

    pub fn send(&self, jobs: u8, out: &mut [u8]) -> Result<usize, u32> {
        self.rules()?.send(jobs, out)
    }

    pub fn off(&self) -> Result<Record, u32> {
        Ok(self.rules()?.off()?.into())
    }

    pub fn restart(&self) -> Result<Record, u32> {
        Ok(self.rules()?.restart()?.into())
    }
}

/// The table of the rules that held records stand for: one that has a row that is not sound is none.
pub fn rules(table: &[Record]) -> Result<Vec<Node>, u32> {
    table.iter().map(Record::rules).collect()
}

/// A call on a table: it is made on the table of the rules, and what it leaves is held. A refused one leaves all.
pub fn call<T>(table: &mut [Record], call: impl FnOnce(&mut [Node]) -> Result<T, u32>) -> Result<T, u32> {
    let mut nodes = rules(table)?;
    let told = call(&mut nodes)?;
    hold(table, &nodes);
    Ok(told)
}

/// The records become these.
pub fn hold(table: &mut [Record], nodes: &[Node]) {
    table.iter_mut().zip(nodes).for_each(|(record, &node)| *record = node.into());
}
