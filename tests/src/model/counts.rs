//! Document 02, request h: "Each node keeps, for every node and every job, the number of reports heard from senders in
//! its set as the slot begins". They stand beside the record.

use super::message::Said;
use super::node::Node;
use super::refusal;

/// A row for each sender from node 1 on, in it a place for each job from job 1 on.
pub type Counts = [[u64; 8]; 32];

/// "only set-up clears them"
pub const NONE: Counts = [[0; 8]; 32];

/// "A report count above the slot count .. gives 4": any of them, also that of a node or a job that there is not.
pub fn check(counts: &Counts, slots: u64) -> Result<(), u32> {
    if counts.iter().flatten().all(|&count| count <= slots) {
        Ok(())
    } else {
        Err(refusal::UNSOUND)
    }
}

/// "not one array of counts per node in set-up or bench slot"
pub fn check_number(counts: &[Counts], n: usize) -> Result<(), u32> {
    if counts.len() == n {
        Ok(())
    } else {
        Err(refusal::UNSOUND)
    }
}

/// What the next slot of this record adds, with this heard in it. What becomes of the node in it does not matter: "even
/// if that message makes it leave". A listening or out node has an empty set.
pub fn enter(counts: &mut Counts, node: &Node, heard: Option<Said>) {
    let sender = node.next_sender();
    let Some(said) = heard else { return };
    // "A message handed over in the own slot is ignored."
    if sender == node.own || !node.set.has(sender) {
        return;
    }
    for (job, count) in counts[sender as usize - 1].iter_mut().enumerate() {
        *count += u64::from(said.jobs >> job & 1);
    }
}
