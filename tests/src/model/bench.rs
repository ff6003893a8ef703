//! Document 01, "The bench", with the order of changes of document 02, request c. The calls take a table of
//! records and change it, slot and off also the ledger of request a, set-up and slot also the counts of request h; a
//! refused call gives the number of the refusal and leaves all as it was.

use super::choices::Asked;
use super::counts::{self, Counts};
use super::ledger::{self, Figures};
use super::message::{self, Said};
use super::node::{Node, State};
use super::refusal;
use super::ring::{self, Set};

/// "a lent buffer of at least 64 bytes"
pub const ROOM: usize = 64;

/// What the nodes do. The bench itself is the same for all of them: a test can try other rules on it.
pub trait Rules {
    /// What a node says in the next slot, if it sends; it is given this job byte.
    fn says(&self, node: &Node, jobs: u8) -> Option<Said>;
    /// A record after the next slot, in which this was heard.
    fn step(&self, node: &Node, heard: Option<Said>) -> Node;
}

/// The rules as they stand.
pub struct Document01;

impl Rules for Document01 {
    fn says(&self, node: &Node, jobs: u8) -> Option<Said> {
        node.says(jobs)
    }

    fn step(&self, node: &Node, heard: Option<Said>) -> Node {
        node.step(heard)
    }
}

/// "`silent` if nothing is sent, also on a `lost` line; else `lost` if lost, a knock included; else
/// `knock` or `sent`"
#[derive(Clone, Copy, PartialEq, Eq, Debug)]
pub enum Fate {
    Silent,
    Lost,
    Knock,
    Sent,
}

/// "1 left, 2 listening to following, 3 knocked, 4 joined, 5 knocking to following, 6 to listening from
/// following or knocking"
#[derive(Clone, Copy, PartialEq, Eq, Debug)]
pub enum Kind {
    Left = 1,
    Follows = 2,
    Knocked = 3,
    Joined = 4,
    FollowsAgain = 5,
    Listens = 6,
}

/// What happened in a slot: its message, and each node whose state changed. "Within one slot, first come the
/// nodes that left, then all the others, each group by rising node number."
pub struct Slot {
    pub sender: u32,
    pub fate: Fate,
    pub changes: Vec<(u32, Kind)>,
}

/// "Demand 3's calls are the bench's slot, off and restart"
#[derive(Clone, Copy, PartialEq, Eq)]
pub enum Call {
    Slot { lost: bool, missed: Set },
    Off(u32),
    Restart(u32),
}

/// "All start as members", a record for each node in the lent table of this length.
pub fn set_up(asked: impl Into<Asked>, length: usize) -> Result<Vec<Node>, u32> {
    let first = Node::set_up(asked, 1)?;
    let n = first.chosen.n;
    if length != n as usize {
        return Err(refusal::UNSOUND);
    }
    Ok((1..=n).map(|own| Node { own, ..first }).collect())
}

/// The same beside the counts, which it clears: "not one array of counts per node in set-up .. gives 4".
pub fn counted_set_up(
    asked: impl Into<Asked>,
    length: usize,
    counts: &mut [Counts],
) -> Result<Vec<Node>, u32> {
    let table = set_up(asked, length)?;
    counts::check_number(counts, table.len())?;
    counts.fill(counts::NONE);
    Ok(table)
}

/// "one per node in number order, all with the same n, k and slot count", each of them sound; "so does a kept choice
/// .. not the same throughout the table"
pub fn check_table(nodes: &[Node]) -> Result<(), u32> {
    let Some(first) = nodes.first() else { return Err(refusal::UNSOUND) };
    let alike = |node: &Node| (node.chosen, node.slots) == (first.chosen, first.slots);
    let in_order = nodes.iter().zip(1..).all(|(node, number)| node.own == number);
    let whole = nodes.len() == first.chosen.n as usize && in_order;
    if whole && nodes.iter().all(|node| alike(node) && node.is_sound()) {
        Ok(())
    } else {
        Err(refusal::UNSOUND)
    }
}

/// "node number not 1 to n"
fn check_node(nodes: &[Node], x: u32) -> Result<(), u32> {
    ring::check_node(nodes[0].chosen.n, x)
}

/// A table that is none, or counts that do not fit it: 4.
fn check_counted(nodes: &[Node], counts: &[Counts]) -> Result<(), u32> {
    check_table(nodes)?;
    counts::check_number(counts, nodes.len())?;
    counts.iter().try_for_each(|counts| counts::check(counts, nodes[0].slots))
}

/// "node number not 1 to n", of those who miss a message
fn check_missed(nodes: &[Node], missed: Set) -> Result<(), u32> {
    if missed.within(Set::full(nodes[0].chosen.n)) {
        Ok(())
    } else {
        Err(refusal::NODE)
    }
}

fn check_limit(nodes: &[Node]) -> Result<(), u32> {
    if nodes[0].slots < ring::LIMIT {
        Ok(())
    } else {
        Err(refusal::LIMIT)
    }
}

fn check_room(room: usize) -> Result<(), u32> {
    if room >= ROOM {
        Ok(())
    } else {
        Err(refusal::OUTPUT)
    }
}

/// One slot's message: lost to all or not, missed by these nodes, with this job byte given to the sender.
#[derive(Clone, Copy)]
pub struct Message {
    pub lost: bool,
    pub missed: Set,
    pub jobs: u8,
}

/// What is lent beside the table: the ledger, and an array of counts for each node.
pub struct Beside<'a> {
    pub ledger: &'a mut [Figures],
    pub counts: &'a mut [Counts],
}

/// One slot; `room` is the length of the lent buffer. A leaving is dated with the slot's number. "13, just before 5";
/// a job past m is 8, in table order.
pub fn slot(nodes: &mut [Node], beside: Beside, message: Message, room: usize) -> Result<Slot, u32> {
    let Beside { ledger, counts } = beside;
    check_counted(nodes, counts)?;
    check_missed(nodes, message.missed)?;
    ledger::check(ledger, nodes)?;
    check_limit(nodes)?;
    message::check_jobs(nodes[0].chosen.m, message.jobs)?;
    check_room(room)?;
    let before = nodes.to_vec();
    let slot = run_slot(&Document01, nodes, message, |node, heard| {
        counts::enter(&mut counts[node.own as usize - 1], node, heard);
    });
    ledger::enter(ledger, &before, nodes, before[0].slots + 1);
    Ok(slot)
}

/// "`off` counts as a leaving if the node was a member, dated with the slots done so far."
pub fn off(nodes: &mut [Node], ledger: &mut [Figures], x: u32) -> Result<(), u32> {
    check_table(nodes)?;
    check_node(nodes, x)?;
    ledger::check(ledger, nodes)?;
    let before = nodes.to_vec();
    switch_off(nodes, x)?;
    ledger::enter(ledger, &before, nodes, before[0].slots);
    Ok(())
}

/// "`off` works in every state, giving cause 4."
fn switch_off(nodes: &mut [Node], x: u32) -> Result<(), u32> {
    let node = &mut nodes[x as usize - 1];
    *node = node.off()?;
    Ok(())
}

/// "Restart takes a node from out to listening."
pub fn restart(nodes: &mut [Node], x: u32) -> Result<(), u32> {
    check_table(nodes)?;
    check_node(nodes, x)?;
    let node = &mut nodes[x as usize - 1];
    *node = node.restart()?;
    Ok(())
}

/// Any of the calls on a table that has neither ledger nor counts, by these rules; what happened, if it is a slot. No
/// job is reported.
pub fn run(rules: &impl Rules, nodes: &mut [Node], call: Call) -> Result<Option<Slot>, u32> {
    match call {
        Call::Slot { lost, missed } => {
            check_table(nodes)?;
            check_missed(nodes, missed)?;
            check_limit(nodes)?;
            Ok(Some(run_slot(rules, nodes, Message { lost, missed, jobs: 0 }, |_, _| {})))
        }
        Call::Off(x) => {
            check_table(nodes)?;
            check_node(nodes, x)?;
            switch_off(nodes, x).map(|()| None)
        }
        Call::Restart(x) => restart(nodes, x).map(|()| None),
    }
}

/// What can be seen of a table without running a slot: how many slots are done, whose slot is next and what
/// becomes of its message, lost or not; the list and the greatest distance.
pub struct Look {
    pub slots: u64,
    pub sender: u32,
    pub fate: Fate,
    pub list: Option<Set>,
    pub distance: u32,
}

/// Changes nothing, so it does not ask for the limit.
pub fn look(nodes: &[Node], lost: bool) -> Result<Look, u32> {
    check_table(nodes)?;
    let sender = next_sender(nodes);
    let speaker = &nodes[sender as usize - 1];
    Ok(Look {
        slots: nodes[0].slots,
        sender,
        fate: fate(speaker, speaker.says(0), lost),
        list: list(nodes),
        distance: greatest_distance(nodes),
    })
}

/// The sender of the table's next slot.
pub fn next_sender(nodes: &[Node]) -> u32 {
    nodes[0].next_sender()
}

/// One slot of a table that is as it must be and below the limit. `hear` is told of each node as the slot begins, and
/// what it hears.
fn run_slot(
    rules: &impl Rules,
    nodes: &mut [Node],
    Message { lost, missed, jobs }: Message,
    mut hear: impl FnMut(&Node, Option<Said>),
) -> Slot {
    let sender = next_sender(nodes);
    let speaker = &nodes[sender as usize - 1];
    let said = rules.says(speaker, jobs);
    let fate = fate(speaker, said, lost);
    // "A lost message is heard by nobody, named or not."
    let said = if lost { None } else { said };
    let (mut left, mut others) = (Vec::new(), Vec::new());
    for node in nodes {
        // "A sender or silent slot is unaffected by being named." What it says the sender does not hear.
        let hears = node.own != sender && !missed.has(node.own);
        let heard = if hears { said } else { None };
        hear(node, heard);
        let next = rules.step(node, heard);
        match change(node.state, next.state) {
            Some(Kind::Left) => left.push((node.own, Kind::Left)),
            Some(kind) => others.push((node.own, kind)),
            None => {}
        }
        *node = next;
    }
    Slot { sender, fate, changes: [left, others].concat() }
}

/// What becomes of the message of this node, whose slot it is.
fn fate(speaker: &Node, said: Option<Said>, lost: bool) -> Fate {
    match (said, speaker.state) {
        (None, _) => Fate::Silent,
        _ if lost => Fate::Lost,
        (_, State::Member) => Fate::Sent,
        _ => Fate::Knock,
    }
}

/// The kind of a change of state in one slot.
fn change(before: State, after: State) -> Option<Kind> {
    match (before, after) {
        (State::Member, State::Out(_)) => Some(Kind::Left),
        (State::Listening, State::Following) => Some(Kind::Follows),
        (State::Following, State::Knocking) => Some(Kind::Knocked),
        (State::Knocking, State::Member) => Some(Kind::Joined),
        (State::Knocking, State::Following) => Some(Kind::FollowsAgain),
        (State::Following | State::Knocking, State::Listening) => Some(Kind::Listens),
        _ => None,
    }
}

/// The sets of the nodes in the member state, by rising number.
pub fn member_sets(nodes: &[Node]) -> impl Iterator<Item = Set> + '_ {
    nodes.iter().filter(|node| node.state == State::Member).map(|node| node.set)
}

/// "*The list* is the set of the lowest-numbered member-state node": none if there is no such node.
pub fn list(nodes: &[Node]) -> Option<Set> {
    member_sets(nodes).next()
}

/// "the greatest distance between sets of two members (0 if fewer than two)"
pub fn greatest_distance(nodes: &[Node]) -> u32 {
    let sets: Vec<Set> = member_sets(nodes).collect();
    let mut greatest = 0;
    for (i, set) in sets.iter().enumerate() {
        for other in &sets[i + 1..] {
            greatest = greatest.max(set.distance(*other));
        }
    }
    greatest
}
