//! Runs of single nodes with literal answers, typed from document 01 and requests e and f; neither side makes an
//! expected answer. The examples of whole cables are followed on each of their nodes. The cables have no jobs and no lag.

use super::compare::compare;
use super::protocol::{Command, Script};
use comparison::messages::hex;
use comparison::model::choices::Choices;
use comparison::model::counts::{Counts, NONE};
use comparison::model::node::{Cause, ListeningData, Node, State};
use comparison::model::ring::Set;
use comparison::model::slot_table::Order;
use comparison::record_bytes::{shown_counts, shown_record};
use comparison::report::Count;

pub type Nodes = &'static [u32];
pub type Bytes = &'static [u8];

/// A record but for the choices, own number and slot count, which are told by the run.
#[derive(Clone, Copy)]
pub enum Is {
    /// Set, marks, returning; no yes heard for the own message since the own slot.
    Member(Nodes, Nodes, u32),
    /// The same with yes heard.
    Confirmed(Nodes, Nodes, u32),
    /// Set, marks, returning.
    Following(Nodes, Nodes, u32),
    /// Set, marks, return heard.
    Knocking(Nodes, Nodes, bool),
    /// Slots done, nodes heard, shortest run, return bit seen, nodes of the last clean window.
    Listening(u32, Nodes, u32, bool, Nodes),
    Out(Cause),
}

pub enum Step {
    /// One slot with these bytes heard, none for nothing.
    Slot(Bytes, Is),
    SlotRefused(Bytes, u32),
    /// The node sends these bytes; the slot is the next step.
    Sends(Bytes),
    SendRefused(u32),
    /// The node is given this job byte and sends these bytes, or refuses.
    Reports(u8, Bytes),
    ReportRefused(u8, u32),
    /// The counts beside the record: sender, job, count; all others are 0.
    Counted(&'static [(usize, usize, u64)]),
    /// One of them becomes this.
    CountIs(usize, usize, u64),
    /// Set-up once more, with the same numbers.
    SetUp(Is),
    Off,
    OffRefused(u32),
    Restart(Is),
    RestartRefused,
}

use Is::*;
use Step::*;

/// n, k, own number; slot count and record where it does not start at set-up; the steps.
pub struct Run {
    pub what: &'static str,
    pub ring: (u32, u32, u32),
    pub from: Option<(u64, Is)>,
    pub steps: &'static [Step],
}

/// The messages of k = 2, 3 and 4 and no job, named by their acknowledgement bits, bit 1 first.
pub const YY: Bytes = &[0x02, 0x03, 0x01, 0x00, 0x00, 0x00];
pub const NY: Bytes = &[0x02, 0x02, 0x01, 0x00, 0x00, 0x00];
pub const YN: Bytes = &[0x02, 0x01, 0x01, 0x00, 0x00, 0x00];
pub const NN: Bytes = &[0x02, 0x00, 0x01, 0x00, 0x00, 0x00];
pub const YY_RETURN: Bytes = &[0x02, 0x03, 0x01, 0x01, 0x00, 0x00];
pub const NNN: Bytes = &[0x03, 0x00, 0x01, 0x00, 0x00, 0x00];
pub const YNN: Bytes = &[0x03, 0x01, 0x01, 0x00, 0x00, 0x00];
const NYN: Bytes = &[0x03, 0x02, 0x01, 0x00, 0x00, 0x00];
const NNY: Bytes = &[0x03, 0x04, 0x01, 0x00, 0x00, 0x00];
const NYY: Bytes = &[0x03, 0x06, 0x01, 0x00, 0x00, 0x00];
pub const YYN: Bytes = &[0x03, 0x03, 0x01, 0x00, 0x00, 0x00];
pub const YYY: Bytes = &[0x03, 0x07, 0x01, 0x00, 0x00, 0x00];
const YNN_RETURN: Bytes = &[0x03, 0x01, 0x01, 0x01, 0x00, 0x00];
const NNNY: Bytes = &[0x04, 0x08, 0x01, 0x00, 0x00, 0x00];
const YNNN: Bytes = &[0x04, 0x01, 0x01, 0x00, 0x00, 0x00];
pub const NOTHING: Bytes = &[];

pub const ALL: Nodes = &[1, 2, 3, 4];
pub const FIVE: Nodes = &[1, 2, 3, 4, 5];
const SIX: Nodes = &[1, 2, 3, 4, 5, 6];

#[rustfmt::skip]
const RUNS: &[Run] = &[
    // "P: the listing above; node 2 is out, cause 1." Node 1's message of slot 1 already says yes to 4 and 3.
    Run { what: "the listing, node 1", ring: (4, 2, 1), from: None, steps: &[
        Sends(YY),
        Slot(NOTHING, Member(ALL, ALL, 0)),
        Slot(NOTHING, Member(ALL, &[1, 3, 4], 0)),
        Slot(NY, Confirmed(ALL, &[1, 3, 4], 0)),
        Slot(YN, Confirmed(&[1, 3, 4], &[1, 3, 4], 0)),
    ] },
    // Its mark is on until node 3's no.
    Run { what: "the listing, node 2", ring: (4, 2, 2), from: None, steps: &[
        Slot(YY, Member(ALL, ALL, 0)),
        Sends(YY),
        Slot(NOTHING, Member(ALL, ALL, 0)),
        Slot(NY, Member(ALL, &[1, 3, 4], 0)),
        Slot(YN, Out(Cause::Unconfirmed)),
        SendRefused(10),
        Slot(YY, Out(Cause::Unconfirmed)),
        SendRefused(10),
    ] },
    Run { what: "the listing, node 3", ring: (4, 2, 3), from: None, steps: &[
        Slot(YY, Confirmed(ALL, ALL, 0)),
        Slot(NOTHING, Confirmed(ALL, &[1, 3, 4], 0)),
        Sends(NY),
        Slot(NOTHING, Member(ALL, &[1, 3, 4], 0)),
        Slot(YN, Confirmed(&[1, 3, 4], &[1, 3, 4], 0)),
    ] },
    Run { what: "the listing, node 4", ring: (4, 2, 4), from: None, steps: &[
        Slot(YY, Confirmed(ALL, ALL, 0)),
        Slot(NOTHING, Confirmed(ALL, &[1, 3, 4], 0)),
        Slot(NY, Confirmed(ALL, &[1, 3, 4], 0)),
        Sends(YN),
        Slot(NOTHING, Member(&[1, 3, 4], &[1, 3, 4], 0)),
    ] },
    // "P: n = 4, k = 2, node 3 alone misses slot 2: after slot 4 all hold {1,2,3,4}."
    Run { what: "node 3 misses slot 2, node 1", ring: (4, 2, 1), from: None, steps: &[
        Sends(YY),
        Slot(NOTHING, Member(ALL, ALL, 0)),
        Slot(YY, Confirmed(ALL, ALL, 0)),
        Slot(NY, Confirmed(ALL, ALL, 0)),
        Slot(YY, Confirmed(ALL, ALL, 0)),
    ] },
    Run { what: "node 3 misses slot 2, node 2", ring: (4, 2, 2), from: None, steps: &[
        Slot(YY, Member(ALL, ALL, 0)),
        Sends(YY),
        Slot(NOTHING, Member(ALL, ALL, 0)),
        Slot(NY, Member(ALL, &[1, 3, 4], 0)),
        Slot(YY, Confirmed(ALL, ALL, 0)),
    ] },
    Run { what: "node 3 misses slot 2, node 3", ring: (4, 2, 3), from: None, steps: &[
        Slot(YY, Confirmed(ALL, ALL, 0)),
        Slot(NOTHING, Confirmed(ALL, &[1, 3, 4], 0)),
        Sends(NY),
        Slot(NOTHING, Member(ALL, &[1, 3, 4], 0)),
        Slot(YY, Confirmed(ALL, ALL, 0)),
    ] },
    // "Letting a later no erase a yes": node 3's no leaves the mark of node 2.
    Run { what: "node 3 misses slot 2, node 4", ring: (4, 2, 4), from: None, steps: &[
        Slot(YY, Confirmed(ALL, ALL, 0)),
        Slot(YY, Confirmed(ALL, ALL, 0)),
        Slot(NY, Confirmed(ALL, ALL, 0)),
        Sends(YY),
        Slot(NOTHING, Member(ALL, ALL, 0)),
    ] },
    // "P: the same with slot 4 lost: two failures; node 3 holds {1,3,4}, node 1 all four, node 2 is out"
    // "Skipping the decision because the sender was silent": it is made on each node.
    Run { what: "slot 4 lost too, node 1", ring: (4, 2, 1), from: None, steps: &[
        Slot(NOTHING, Member(ALL, ALL, 0)),
        Slot(YY, Confirmed(ALL, ALL, 0)),
        Slot(NY, Confirmed(ALL, ALL, 0)),
        Slot(NOTHING, Confirmed(ALL, &[1, 2, 3], 0)),
    ] },
    // Node 3's no decides: node 4's yes, which is lost, would have come in time.
    Run { what: "slot 4 lost too, node 2", ring: (4, 2, 2), from: None, steps: &[
        Slot(YY, Member(ALL, ALL, 0)),
        Slot(NOTHING, Member(ALL, ALL, 0)),
        Slot(NY, Member(ALL, &[1, 3, 4], 0)),
        Slot(NOTHING, Out(Cause::Unconfirmed)),
    ] },
    Run { what: "slot 4 lost too, node 3", ring: (4, 2, 3), from: None, steps: &[
        Slot(YY, Confirmed(ALL, ALL, 0)),
        Slot(NOTHING, Confirmed(ALL, &[1, 3, 4], 0)),
        Slot(NOTHING, Member(ALL, &[1, 3, 4], 0)),
        Slot(NOTHING, Member(&[1, 3, 4], &[1, 3], 0)),
    ] },
    // "P: n = 4, k = 3, nodes 1 and 2 off from the start", by request f: "then has 2 leaving at slot 4". In it node 4
    // sponsors 3, 2 and 1 and decides 1; of {2,3,4} it sponsors 3 and 2 and decides 2; of {3,4} it decides 3. With ks as
    // the slot began, 3, nobody would be the third before it of {2,3,4}.
    Run { what: "nodes 1 and 2 off, node 1", ring: (4, 3, 1), from: None, steps: &[
        Off,
        SendRefused(10),
        Slot(NOTHING, Out(Cause::SwitchedOff)),
        Slot(NOTHING, Out(Cause::SwitchedOff)),
        Slot(NNY, Out(Cause::SwitchedOff)),
    ] },
    Run { what: "nodes 1 and 2 off, node 3", ring: (4, 3, 3), from: None, steps: &[
        Slot(NOTHING, Member(ALL, &[2, 3, 4], 0)),
        Slot(NOTHING, Member(ALL, &[3, 4], 0)),
        Sends(NNY),
        Slot(NOTHING, Member(ALL, &[3, 4], 0)),
        Slot(YNN, Confirmed(&[3, 4], &[3, 4], 0)),
        Slot(NOTHING, Confirmed(&[3, 4], &[3, 4], 0)),
        Slot(NOTHING, Confirmed(&[3, 4], &[3, 4], 0)),
        Sends(YNN),
        Slot(NOTHING, Member(&[3, 4], &[3, 4], 0)),
        Slot(YNN, Confirmed(&[3, 4], &[3, 4], 0)),
    ] },
    Run { what: "nodes 1 and 2 off, node 4", ring: (4, 3, 4), from: None, steps: &[
        Slot(NOTHING, Member(ALL, &[2, 3, 4], 0)),
        Slot(NOTHING, Member(ALL, &[3, 4], 0)),
        Slot(NNY, Confirmed(ALL, &[3, 4], 0)),
        Sends(YNN),
        Slot(NOTHING, Member(&[3, 4], &[3, 4], 0)),
        Slot(NOTHING, Member(&[3, 4], &[3, 4], 0)),
        Slot(NOTHING, Member(&[3, 4], &[3, 4], 0)),
        Slot(YNN, Confirmed(&[3, 4], &[3, 4], 0)),
        Sends(YNN),
        Slot(NOTHING, Member(&[3, 4], &[3, 4], 0)),
    ] },
    // Slots 1 and 2 lost: node 3 says no to node 2, and in slot 4 it is the second that node 4 decides. "or the node
    // itself has left", heard or not.
    Run { what: "slots 1 and 2 lost, node 2", ring: (4, 3, 2), from: None, steps: &[
        Slot(NOTHING, Member(ALL, &[2, 3, 4], 0)),
        Sends(NYY),
        Slot(NOTHING, Member(ALL, &[2, 3, 4], 0)),
        Slot(NNY, Member(ALL, &[3, 4], 0)),
        Slot(YNN, Out(Cause::Unconfirmed)),
    ] },
    Run { what: "slots 1, 2 and 4 lost, node 2", ring: (4, 3, 2), from: Some((3, Member(ALL, &[3, 4], 0))), steps: &[
        Slot(NOTHING, Out(Cause::Unconfirmed)),
    ] },
    // It leaves with cause 1 before step 4 finds no other marked.
    Run { what: "nothing heard, node 2", ring: (4, 3, 2), from: Some((3, Member(ALL, &[], 0))), steps: &[
        Slot(NOTHING, Out(Cause::Unconfirmed)),
    ] },
    // n = 5, k = 4; 1, 2 and 3 are off and leave in slot 5: node 5 decides 1 of five, 2 of four, 3 of three, and stops
    // at 4.
    Run { what: "three off, node 4", ring: (5, 4, 4), from: None, steps: &[
        Slot(NOTHING, Member(FIVE, &[2, 3, 4, 5], 0)),
        Slot(NOTHING, Member(FIVE, &[3, 4, 5], 0)),
        Slot(NOTHING, Member(FIVE, &[4, 5], 0)),
        Sends(NNNY),
        Slot(NOTHING, Member(FIVE, &[4, 5], 0)),
        Slot(YNNN, Confirmed(&[4, 5], &[4, 5], 0)),
    ] },
    Run { what: "three off, node 5", ring: (5, 4, 5), from: None, steps: &[
        Slot(NOTHING, Member(FIVE, &[2, 3, 4, 5], 0)),
        Slot(NOTHING, Member(FIVE, &[3, 4, 5], 0)),
        Slot(NOTHING, Member(FIVE, &[4, 5], 0)),
        Slot(NNNY, Confirmed(FIVE, &[4, 5], 0)),
        Sends(YNNN),
        Slot(NOTHING, Member(&[4, 5], &[4, 5], 0)),
    ] },
    // As long as k + 1 are left the next one stands further back: node 4 sponsors 3 and 2, then 3 and 1, then 3 and 6,
    // which is marked. Then the same with its message lost.
    Run { what: "two leave of six", ring: (6, 2, 5), from: Some((3, Member(SIX, &[3, 4, 5, 6], 0))), steps: &[
        Slot(YN, Member(&[3, 4, 5, 6], &[3, 4, 5, 6], 0)),
    ] },
    Run { what: "two leave of six, sender not heard", ring: (6, 2, 3), from: Some((3, Member(SIX, &[3, 4, 5, 6], 0))), steps: &[
        Slot(NOTHING, Member(&[3, 4, 5, 6], &[3, 5, 6], 0)),
    ] },
    // "until the decided member is marked": node 4 sponsors 3, 2 and 1 and decides 1, then 3, 2 and 6 and decides 6. A
    // nearer one stays, its mark on or off, be it the next or not.
    Run { what: "the next nearer is not decided", ring: (6, 3, 5), from: Some((3, Member(SIX, &[3, 4, 5, 6], 0))), steps: &[
        Slot(YNN, Member(&[2, 3, 4, 5, 6], &[3, 4, 5, 6], 0)),
    ] },
    Run { what: "the nearest is not decided", ring: (6, 3, 5), from: Some((3, Member(SIX, &[2, 4, 5, 6], 0))), steps: &[
        Slot(NYN, Member(&[2, 3, 4, 5, 6], &[2, 4, 5, 6], 0)),
    ] },
    // The bits are read on the set as the slot begins: the second is a no for node 2, which leaves, and none for node
    // 1, which then stands in its place and has heard no yes. Its mark decides.
    Run { what: "bits are not read again", ring: (5, 2, 1), from: Some((3, Member(FIVE, &[1, 3, 4, 5], 0))), steps: &[
        Slot(YN, Member(&[1, 3, 4, 5], &[1, 3, 4, 5], 0)),
    ] },
    Run { what: "the node itself, further back", ring: (5, 2, 1), from: Some((3, Member(FIVE, &[3, 4, 5], 0))), steps: &[
        Slot(YN, Out(Cause::Unconfirmed)),
    ] },
    // "nobody is decided": the sender, here the node itself, is left alone. Step 4 follows.
    Run { what: "all others leave", ring: (4, 2, 1), from: Some((0, Member(&[1, 2, 3], &[], 0))), steps: &[
        Sends(NN),
        Slot(NOTHING, Out(Cause::NothingHeard)),
    ] },
    // Following and knocking nodes: node 5 decides 2 of four, then 3 of three. Of {3,4,5} it takes 3 and 4: one member
    // is too few, also for a knocking node that would join in this slot.
    Run { what: "two leave, following", ring: (6, 3, 1), from: Some((4, Following(&[2, 3, 4, 5], &[4, 5], 0))), steps: &[
        Slot(YNN, Following(&[4, 5], &[4, 5], 0)),
    ] },
    Run { what: "two leave, knocking", ring: (6, 3, 1), from: Some((4, Knocking(&[2, 3, 4, 5], &[4, 5], false))), steps: &[
        Slot(YNN_RETURN, Member(&[1, 4, 5], &[1, 4, 5], 0)),
    ] },
    Run { what: "two leave of three, following", ring: (6, 3, 1), from: Some((4, Following(&[3, 4, 5], &[5], 0))), steps: &[
        Slot(NNN, Listening(0, &[], 3, false, &[])),
    ] },
    Run { what: "two leave of three, knocking", ring: (6, 3, 1), from: Some((4, Knocking(&[3, 4, 5], &[5], true))), steps: &[
        Slot(&[0x03, 0x00, 0x01, 0x01, 0x00, 0x00], Listening(0, &[], 3, false, &[])),
    ] },
    // Joining comes after the last departure. n = 6, k = 4: 5 leaves, then 6, and only then is node 4 the nearest
    // member before 1.
    Run { what: "two leave and one joins", ring: (6, 4, 3), from: Some((3, Member(&[2, 3, 4, 5, 6], &[2, 3, 4], 1))), steps: &[
        Slot(&[0x04, 0x03, 0x01, 0x01, 0x00, 0x00], Confirmed(&[1, 2, 3, 4], &[1, 2, 3, 4], 0)),
    ] },
    // n = 5, k = 3: 5 leaves, and of the k members left 2 does, too; 1 joins. Nodes 3, 2 and 1.
    Run { what: "k between departure and joining, node 3", ring: (5, 3, 3), from: Some((18, Member(&[2, 3, 4, 5], &[3, 4], 1))), steps: &[
        Slot(YNN_RETURN, Confirmed(&[1, 3, 4], &[1, 3, 4], 0)),
    ] },
    Run { what: "k between departure and joining, node 2", ring: (5, 3, 2), from: Some((18, Member(&[2, 3, 4, 5], &[3, 4], 1))), steps: &[
        Slot(YNN_RETURN, Out(Cause::Unconfirmed)),
    ] },
    Run { what: "k between departure and joining, node 1", ring: (5, 3, 1), from: Some((18, Knocking(&[2, 3, 4, 5], &[3, 4], true))), steps: &[
        Slot(YNN_RETURN, Member(&[1, 3, 4], &[1, 3, 4], 0)),
    ] },
    // "P: n = 4, slot 4 has sender 4; slot 5 has 1."
    Run { what: "sender of slot 4", ring: (4, 2, 4), from: Some((3, Member(ALL, ALL, 0))), steps: &[Sends(YY)] },
    Run { what: "sender of slot 5", ring: (4, 2, 1), from: Some((4, Member(ALL, ALL, 0))), steps: &[Sends(YY)] },
    // "P: set {1,3,4}, k = 2: node 1 sponsors 4, 3 and decides 3."
    Run { what: "sponsored by 1", ring: (4, 2, 1), from: Some((0, Member(&[1, 3, 4], &[1, 3], 0))), steps: &[Sends(NY)] },
    Run { what: "decided by 1: no", ring: (4, 2, 4), from: Some((0, Member(&[1, 3, 4], &[4], 0))), steps: &[
        Slot(YN, Confirmed(&[1, 4], &[1, 4], 0)),
    ] },
    // Bit 1 is a no for node 4 itself: its own mark goes off, and of {1,4} node 1 decides it.
    Run { what: "decided by 1: no, then node 4", ring: (4, 2, 4), from: Some((0, Member(&[1, 3, 4], &[4], 0))), steps: &[
        Slot(NN, Out(Cause::Unconfirmed)),
    ] },
    Run { what: "decided by 1: yes", ring: (4, 2, 4), from: Some((0, Member(&[1, 3, 4], &[4], 0))), steps: &[
        Slot(NY, Member(&[1, 3, 4], &[1, 3], 0)),
    ] },
    // "P: set {2,5}, k = 3: node 5 sponsors and decides 2." Bits past ks are "ignored when heard".
    Run { what: "sponsored by 5", ring: (5, 3, 5), from: Some((4, Member(&[2, 5], &[2, 5], 0))), steps: &[Sends(YNN)] },
    Run { what: "decided by 5: no", ring: (5, 3, 2), from: Some((4, Member(&[2, 5], &[5], 0))), steps: &[
        Slot(NYY, Out(Cause::Unconfirmed)),
    ] },
    Run { what: "decided by 5: yes", ring: (5, 3, 2), from: Some((4, Member(&[2, 5], &[5], 0))), steps: &[
        Slot(YNN, Confirmed(&[2, 5], &[2, 5], 0)),
    ] },
    // "P: set {2}: nobody."
    Run { what: "alone", ring: (5, 3, 2), from: Some((1, Member(&[2], &[2], 0))), steps: &[
        Sends(NNN),
        Slot(NOTHING, Out(Cause::NothingHeard)),
    ] },
    // "P: k = 9, all yes, return: 09 FF 01 01 01."
    Run { what: "all yes, return", ring: (11, 9, 1),
          from: Some((11, Member(&[1, 2, 3, 4, 5, 6, 7, 8, 9, 10], &[1, 2, 3, 4, 5, 6, 7, 8, 9, 10], 11))),
          steps: &[Sends(&[0x09, 0xFF, 0x01, 0x01, 0x01, 0x00, 0x00])] },
    // "P: for k = 2, 02 07 01 00 is refusal 8; 02 03 02 00 is 7." "An unreadable message counts as not heard."
    Run { what: "a spare bit", ring: (4, 2, 1), from: Some((1, Member(ALL, ALL, 0))), steps: &[
        Slot(&[0x02, 0x07, 0x01, 0x00, 0x00, 0x00], Member(ALL, &[1, 3, 4], 0)),
    ] },
    Run { what: "a wrong count", ring: (4, 2, 1), from: Some((1, Member(ALL, ALL, 0))), steps: &[
        Slot(&[0x02, 0x03, 0x02, 0x00, 0x00, 0x00], Member(ALL, &[1, 3, 4], 0)),
    ] },
    // Node 1 is away from the start and comes back. The first window meets the bits that say no to it.
    Run { what: "coming back", ring: (4, 2, 1), from: None, steps: &[
        RestartRefused,
        Off,
        Restart(Listening(0, &[], 2, false, &[])),
        RestartRefused,
        SendRefused(10),
        Slot(NOTHING, Listening(1, &[], 2, false, &[])),
        Slot(NY, Listening(2, &[2], 0, false, &[])),
        Slot(YN, Listening(3, &[2, 3], 0, false, &[])),
        Slot(YY, Listening(0, &[], 2, false, &[])),
        Slot(NOTHING, Listening(1, &[], 2, false, &[])),
        Slot(YY, Listening(2, &[2], 2, false, &[])),
        Slot(YY, Listening(3, &[2, 3], 2, false, &[])),
        Slot(YY, Listening(0, &[], 2, false, &[2, 3, 4])),
        Slot(NOTHING, Listening(1, &[], 2, false, &[2, 3, 4])),
        Slot(YY, Listening(2, &[2], 2, false, &[2, 3, 4])),
        Slot(YY, Listening(3, &[2, 3], 2, false, &[2, 3, 4])),
        Slot(YY, Following(&[2, 3, 4], &[2, 3, 4], 0)),
        Sends(NN),
        Slot(NOTHING, Knocking(&[2, 3, 4], &[2, 3, 4], false)),
        Slot(YY_RETURN, Knocking(&[2, 3, 4], &[2, 3, 4], true)),
        Slot(YY_RETURN, Knocking(&[2, 3, 4], &[2, 3, 4], true)),
        Slot(YY_RETURN, Member(ALL, ALL, 0)),
        Sends(YY),
        Slot(NOTHING, Member(ALL, ALL, 0)),
        Slot(YY, Confirmed(ALL, ALL, 0)),
    ] },
    Run { what: "seen by node 2", ring: (4, 2, 2), from: None, steps: &[
        Slot(NOTHING, Member(ALL, &[2, 3, 4], 0)),
        Sends(NY),
        Slot(NOTHING, Member(ALL, &[2, 3, 4], 0)),
        Slot(YN, Confirmed(&[2, 3, 4], &[2, 3, 4], 0)),
        Slot(YY, Confirmed(&[2, 3, 4], &[2, 3, 4], 0)),
        Slot(NN, Confirmed(&[2, 3, 4], &[2, 3, 4], 1)),
        Sends(YY_RETURN),
        Slot(NOTHING, Member(&[2, 3, 4], &[2, 3, 4], 1)),
        Slot(YY_RETURN, Confirmed(&[2, 3, 4], &[2, 3, 4], 1)),
        Slot(YY_RETURN, Confirmed(ALL, ALL, 0)),
        Slot(YY, Confirmed(ALL, ALL, 0)),
        Sends(YY),
    ] },
    // "Joining a knocker that nobody heard"
    Run { what: "a knock that nobody heard", ring: (4, 2, 1), from: Some((12, Following(&[2, 3, 4], &[2, 3, 4], 0))), steps: &[
        Slot(NOTHING, Knocking(&[2, 3, 4], &[2, 3, 4], false)),
        Slot(YY, Knocking(&[2, 3, 4], &[2, 3, 4], false)),
        Slot(YY, Knocking(&[2, 3, 4], &[2, 3, 4], false)),
        Slot(YY, Following(&[2, 3, 4], &[2, 3, 4], 0)),
        Sends(NN),
    ] },
    // The bit of the joining slot counts: step 1 comes before step 5.
    Run { what: "a return bit in the joining slot", ring: (4, 2, 1), from: Some((14, Knocking(&[2, 3, 4], &[2, 3, 4], false))), steps: &[
        Slot(NOTHING, Knocking(&[2, 3, 4], &[2, 4], false)),
        Slot(YY_RETURN, Member(ALL, ALL, 0)),
    ] },
    // "A return bit of 1 heard while returning is 0 means leaving with cause 3"
    Run { what: "a knock missed by a member", ring: (4, 2, 3), from: Some((12, Member(&[2, 3, 4], &[2, 3, 4], 0))), steps: &[
        Slot(NOTHING, Member(&[2, 3, 4], &[2, 3, 4], 0)),
        Slot(YY_RETURN, Out(Cause::MissedReturn)),
    ] },
    Run { what: "a knock missed by a following node", ring: (5, 2, 5), from: Some((15, Following(&[2, 3, 4], &[2, 3, 4], 0))), steps: &[
        Slot(NOTHING, Following(&[2, 3, 4], &[2, 3, 4], 0)),
        Slot(YY_RETURN, Listening(0, &[], 2, false, &[])),
    ] },
    // "A following node in its own slot with returning 0 knocks": not with returning 1.
    Run { what: "another is returning", ring: (5, 2, 5), from: Some((15, Following(&[2, 3, 4], &[2, 3, 4], 0))), steps: &[
        Slot(NN, Following(&[2, 3, 4], &[2, 3, 4], 1)),
        Slot(YY_RETURN, Following(&[2, 3, 4], &[2, 3, 4], 1)),
        Slot(YY_RETURN, Following(&[2, 3, 4], &[2, 3, 4], 1)),
        Slot(YY_RETURN, Following(ALL, ALL, 0)),
        Sends(NN),
        Slot(NOTHING, Knocking(ALL, ALL, false)),
    ] },
    // Node 5 is outside the set; its own slot is silent while node 1 is returning.
    Run { what: "another is returning, own slot", ring: (5, 2, 5), from: Some((4, Following(&[2, 3, 4], &[2, 3, 4], 1))), steps: &[
        SendRefused(10),
        Slot(YY, Following(&[2, 3, 4], &[2, 3, 4], 1)),
        Slot(NN, Following(&[2, 3, 4], &[2, 3, 4], 1)),
    ] },
    // "if returning is not 0 it is ignored. The contents don't matter." The knocks of slots 5, 6 and 7 say neither
    // yes nor no to node 3.
    Run { what: "a later knock", ring: (6, 2, 3), from: Some((4, Member(&[2, 3, 4], &[2, 3, 4], 0))), steps: &[
        Slot(YY_RETURN, Member(&[2, 3, 4], &[2, 3, 4], 5)),
        Slot(NN, Member(&[2, 3, 4], &[2, 3, 4], 5)),
        Slot(NN, Member(&[2, 3, 4], &[2, 3, 4], 5)),
        Slot(YY_RETURN, Confirmed(&[2, 3, 4], &[2, 3, 4], 5)),
        Sends(YY_RETURN),
        Slot(NOTHING, Member(&[2, 3, 4], &[2, 3, 4], 5)),
        Slot(YY_RETURN, Confirmed(&[2, 3, 4, 5], &[2, 3, 4, 5], 0)),
    ] },
    // "if no other member is marked, this node leaves with cause 2"
    Run { what: "nothing heard", ring: (5, 2, 1), from: None, steps: &[
        Sends(YY),
        Slot(NOTHING, Member(FIVE, FIVE, 0)),
        Slot(YY, Confirmed(FIVE, FIVE, 0)),
        Slot(NOTHING, Confirmed(FIVE, &[1, 2, 4, 5], 0)),
        Slot(NOTHING, Confirmed(FIVE, &[1, 2, 5], 0)),
        Slot(NOTHING, Confirmed(&[1, 2, 4, 5], &[1, 2], 0)),
        Sends(NN),
        Slot(NOTHING, Member(&[1, 2, 5], &[1, 2], 0)),
        Slot(NOTHING, Out(Cause::NothingHeard)),
    ] },
    // "Following and knocking need two members or more in the set"
    Run { what: "one member remains", ring: (5, 2, 1), from: Some((2, Following(&[3, 4], &[3, 4], 0))), steps: &[
        Slot(YY, Following(&[3, 4], &[3, 4], 0)),
        Slot(NOTHING, Following(&[3, 4], &[3], 0)),
        Slot(NOTHING, Following(&[3, 4], &[3], 0)),
        Sends(NN),
        Slot(NOTHING, Knocking(&[3, 4], &[3], false)),
        Slot(NOTHING, Knocking(&[3, 4], &[3], false)),
        Slot(NN, Listening(0, &[], 2, false, &[])),
    ] },
    // "Joining before departing in one slot": 3 decides 4, which leaves; then 3 is the nearest before 5.
    Run { what: "departing and joining", ring: (5, 3, 1), from: Some((2, Member(&[1, 2, 3, 4], &[1, 2, 3], 5))), steps: &[
        Slot(&[0x03, 0x03, 0x01, 0x01, 0x00, 0x00], Confirmed(&[1, 2, 3, 5], &[1, 2, 3, 5], 0)),
    ] },
    // Request e's example: n = 6, k = 2; 2, 3, 5 and 6 are off. 2 leaves at slot 4, 3 at 5, 5 at 7, 6 at 10. Slot
    // 3 decides node 1 and slot 6 node 4, and neither has heard a yes or a no.
    Run { what: "feeder cut, node 1", ring: (6, 2, 1), from: None, steps: &[
        Sends(YY),
        Slot(NOTHING, Member(SIX, SIX, 0)),
        Slot(NOTHING, Member(SIX, &[1, 3, 4, 5, 6], 0)),
        Slot(NOTHING, Member(SIX, &[1, 4, 5, 6], 0)),
        Slot(NN, Member(&[1, 3, 4, 5, 6], &[1, 4, 5, 6], 0)),
        Slot(NOTHING, Member(&[1, 4, 5, 6], &[1, 4, 6], 0)),
        Slot(NOTHING, Member(&[1, 4, 5, 6], &[1, 4], 0)),
        Sends(NN),
        Slot(NOTHING, Member(&[1, 4, 6], &[1, 4], 0)),
        Slot(NOTHING, Member(&[1, 4, 6], &[1, 4], 0)),
        Slot(NOTHING, Member(&[1, 4, 6], &[1, 4], 0)),
        Slot(YN, Confirmed(&[1, 4], &[1, 4], 0)),
        Slot(NOTHING, Confirmed(&[1, 4], &[1, 4], 0)),
        Slot(NOTHING, Confirmed(&[1, 4], &[1, 4], 0)),
        Sends(YN),
        Slot(NOTHING, Member(&[1, 4], &[1, 4], 0)),
        Slot(NOTHING, Member(&[1, 4], &[1, 4], 0)),
        Slot(NOTHING, Member(&[1, 4], &[1, 4], 0)),
        Slot(YN, Confirmed(&[1, 4], &[1, 4], 0)),
    ] },
    Run { what: "feeder cut, node 4", ring: (6, 2, 4), from: None, steps: &[
        Slot(YY, Member(SIX, SIX, 0)),
        Slot(NOTHING, Member(SIX, &[1, 3, 4, 5, 6], 0)),
        Slot(NOTHING, Member(SIX, &[1, 4, 5, 6], 0)),
        Sends(NN),
        Slot(NOTHING, Member(&[1, 3, 4, 5, 6], &[1, 4, 5, 6], 0)),
        Slot(NOTHING, Member(&[1, 4, 5, 6], &[1, 4, 6], 0)),
        Slot(NOTHING, Member(&[1, 4, 5, 6], &[1, 4], 0)),
        Slot(NN, Member(&[1, 4, 6], &[1, 4], 0)),
        Slot(NOTHING, Member(&[1, 4, 6], &[1, 4], 0)),
        Slot(NOTHING, Member(&[1, 4, 6], &[1, 4], 0)),
        Sends(YN),
        Slot(NOTHING, Member(&[1, 4], &[1, 4], 0)),
        Slot(NOTHING, Member(&[1, 4], &[1, 4], 0)),
        Slot(NOTHING, Member(&[1, 4], &[1, 4], 0)),
        Slot(YN, Confirmed(&[1, 4], &[1, 4], 0)),
        Slot(NOTHING, Confirmed(&[1, 4], &[1, 4], 0)),
        Slot(NOTHING, Confirmed(&[1, 4], &[1, 4], 0)),
        Sends(YN),
        Slot(NOTHING, Member(&[1, 4], &[1, 4], 0)),
    ] },
    // "the own slot sets the own mark on, in place of off"; yes heard is "cleared .. in the own slot". What is handed
    // over in it says neither yes nor no.
    Run { what: "own slot", ring: (4, 2, 1), from: Some((0, Confirmed(ALL, &[2, 3, 4], 0))), steps: &[
        Slot(NOTHING, Member(ALL, ALL, 0)),
    ] },
    Run { what: "own slot, a no handed over", ring: (4, 2, 1), from: Some((0, Member(ALL, ALL, 0))), steps: &[
        Slot(NN, Member(ALL, ALL, 0)),
    ] },
    Run { what: "own slot, a yes handed over", ring: (4, 2, 1), from: Some((0, Confirmed(ALL, ALL, 0))), steps: &[
        Slot(YY, Member(ALL, ALL, 0)),
    ] },
    // "A heard no for the own message puts it off", and the next sponsor decides node 1, heard or not.
    Run { what: "a no, then another", ring: (4, 2, 1), from: Some((1, Member(ALL, ALL, 0))), steps: &[
        Slot(NY, Member(ALL, &[2, 3, 4], 0)),
        Slot(YN, Out(Cause::Unconfirmed)),
    ] },
    Run { what: "a no, then silence", ring: (4, 2, 1), from: Some((1, Member(ALL, ALL, 0))), steps: &[
        Slot(NY, Member(ALL, &[2, 3, 4], 0)),
        Slot(NOTHING, Out(Cause::Unconfirmed)),
    ] },
    // "unless a yes has been heard since that slot": slot 3's no does nothing, nor does slot 4's message, in which
    // no bit concerns node 1. In slot 6 the yes of the round before is past.
    Run { what: "a yes, then a no", ring: (4, 2, 1), from: Some((1, Member(ALL, ALL, 0))), steps: &[
        Slot(YY, Confirmed(ALL, ALL, 0)),
        Slot(YN, Confirmed(ALL, ALL, 0)),
        Slot(NN, Confirmed(ALL, ALL, 0)),
        Sends(YY),
        Slot(NOTHING, Member(ALL, ALL, 0)),
        Slot(NY, Member(ALL, &[2, 3, 4], 0)),
        Slot(YN, Out(Cause::Unconfirmed)),
    ] },
    // "a yes puts it on and keeps it on": n = 5, k = 3, so that nodes 2, 3 and 4 answer node 1; node 4 decides it.
    Run { what: "a no, a yes, a no", ring: (5, 3, 1), from: Some((1, Member(FIVE, FIVE, 0))), steps: &[
        Slot(NYY, Member(FIVE, &[2, 3, 4, 5], 0)),
        Slot(YYY, Confirmed(FIVE, FIVE, 0)),
        Slot(YYN, Confirmed(FIVE, FIVE, 0)),
    ] },
    Run { what: "a no, a no, a yes", ring: (5, 3, 1), from: Some((1, Member(FIVE, FIVE, 0))), steps: &[
        Slot(NYY, Member(FIVE, &[2, 3, 4, 5], 0)),
        Slot(YNN, Member(FIVE, &[2, 3, 4, 5], 0)),
        Slot(YYY, Confirmed(FIVE, FIVE, 0)),
    ] },
    // A silent sponsor says no to nobody, nor does one whose message cannot be read. Then the own mark is no cause,
    // but with nothing heard at all node 4 leaves with cause 2.
    Run { what: "two silent sponsors", ring: (4, 2, 1), from: Some((1, Member(ALL, ALL, 0))), steps: &[
        Slot(NOTHING, Member(ALL, &[1, 3, 4], 0)),
        Slot(NOTHING, Member(ALL, &[1, 4], 0)),
    ] },
    Run { what: "all silent", ring: (4, 2, 4), from: Some((12, Member(&[1, 3, 4], &[1, 3, 4], 0))), steps: &[
        Slot(NOTHING, Member(&[1, 3, 4], &[3, 4], 0)),
        Slot(NOTHING, Member(&[1, 3, 4], &[3, 4], 0)),
        Slot(NOTHING, Out(Cause::NothingHeard)),
    ] },
    Run { what: "an unreadable no", ring: (4, 2, 1), from: Some((1, Member(ALL, ALL, 0))), steps: &[
        Slot(&[0x02, 0x00, 0x02, 0x00, 0x00, 0x00], Member(ALL, &[1, 3, 4], 0)),
    ] },
    // Node 4 sponsors 3 and 2, not node 1; and a no takes no other node's mark.
    Run { what: "a no for others", ring: (4, 2, 1), from: Some((3, Member(ALL, ALL, 0))), steps: &[
        Slot(NN, Member(ALL, ALL, 0)),
    ] },
    // Bits past ks say neither no nor yes: in the set {2,5} node 5 sponsors node 2 alone, by bit 1.
    Run { what: "no past ks", ring: (5, 3, 2), from: Some((4, Member(&[2, 5], &[2, 5], 0))), steps: &[
        Slot(YNN, Confirmed(&[2, 5], &[2, 5], 0)),
    ] },
    Run { what: "yes past ks", ring: (5, 3, 2), from: Some((4, Member(&[2, 5], &[2, 5], 0))), steps: &[
        Slot(NYY, Out(Cause::Unconfirmed)),
    ] },
    Run { what: "yes past ks, yes heard", ring: (5, 3, 2), from: Some((4, Confirmed(&[2, 5], &[2, 5], 0))), steps: &[
        Slot(NYY, Confirmed(&[2, 5], &[2, 5], 0)),
    ] },
    // A knock's bits are nothing; node 5 is outside the set.
    Run { what: "a knock's no", ring: (6, 2, 3), from: Some((4, Member(&[2, 3, 4], &[2, 3, 4], 0))), steps: &[
        Slot(NN, Member(&[2, 3, 4], &[2, 3, 4], 5)),
    ] },
    Run { what: "a knock's yes", ring: (6, 2, 3), from: Some((4, Member(&[2, 3, 4], &[2, 4], 0))), steps: &[
        Slot(YY, Member(&[2, 3, 4], &[2, 4], 5)),
    ] },
    // Yes heard is "off whenever the node is not a member": after leaving with each cause, and then listening.
    Run { what: "yes heard, cause 1", ring: (4, 2, 1), from: Some((2, Confirmed(ALL, &[2, 3, 4], 0))), steps: &[
        Slot(NOTHING, Out(Cause::Unconfirmed)),
    ] },
    Run { what: "yes heard, cause 2", ring: (4, 2, 1), from: Some((1, Confirmed(ALL, &[1, 2], 0))), steps: &[
        Slot(NOTHING, Out(Cause::NothingHeard)),
    ] },
    Run { what: "yes heard, cause 3", ring: (4, 2, 3), from: Some((13, Confirmed(&[2, 3, 4], &[2, 3, 4], 0))), steps: &[
        Slot(YY_RETURN, Out(Cause::MissedReturn)),
    ] },
    Run { what: "yes heard, cause 4", ring: (4, 2, 1), from: Some((2, Confirmed(ALL, ALL, 0))), steps: &[
        Off,
        Restart(Listening(0, &[], 2, false, &[])),
    ] },
    // Six windows: other nodes replace the clean one, with a run of 1, enough for two nodes heard; a run
    // of 1 is too short for three and wipes it out; clean; a return bit; a knock; one node heard.
    Run { what: "windows", ring: (4, 2, 1), from: Some((0, Listening(0, &[], 2, false, &[2, 3]))), steps: &[
        Slot(YY, Listening(1, &[], 2, false, &[2, 3])),
        Slot(YN, Listening(2, &[2], 1, false, &[2, 3])),
        Slot(NOTHING, Listening(3, &[2], 1, false, &[2, 3])),
        Slot(YY, Listening(0, &[], 2, false, &[2, 4])),
        Slot(YY, Listening(1, &[], 2, false, &[2, 4])),
        Slot(YN, Listening(2, &[2], 1, false, &[2, 4])),
        Slot(YY, Listening(3, &[2, 3], 1, false, &[2, 4])),
        Slot(YY, Listening(0, &[], 2, false, &[])),
        Slot(YY, Listening(1, &[], 2, false, &[])),
        Slot(YY, Listening(2, &[2], 2, false, &[])),
        Slot(YY, Listening(3, &[2, 3], 2, false, &[])),
        Slot(NOTHING, Listening(0, &[], 2, false, &[2, 3])),
        Slot(YY, Listening(1, &[], 2, false, &[2, 3])),
        Slot(YY_RETURN, Listening(2, &[2], 2, true, &[2, 3])),
        Slot(YY, Listening(3, &[2, 3], 2, true, &[2, 3])),
        Slot(NOTHING, Listening(0, &[], 2, false, &[])),
        Slot(YY, Listening(1, &[], 2, false, &[])),
        Slot(YY, Listening(2, &[2], 2, false, &[])),
        Slot(NN, Listening(3, &[2, 3], 0, false, &[])),
        Slot(YY, Listening(0, &[], 2, false, &[])),
        Slot(YY, Listening(1, &[], 2, false, &[])),
        Slot(YY, Listening(2, &[2], 2, false, &[])),
        Slot(NOTHING, Listening(3, &[2], 2, false, &[])),
        Slot(NOTHING, Listening(0, &[], 2, false, &[])),
    ] },
];

fn nodes(nodes: Nodes) -> Set {
    nodes.iter().fold(Set::EMPTY, |set, &x| set.with(x))
}

pub fn record(chosen: Choices, own: u32, slots: u64, is: Is) -> Node {
    let (mut set, mut marks, mut returning, mut return_heard) = (&[][..], &[][..], 0, false);
    let mut listening = ListeningData::default();
    let state = match is {
        Member(..) | Confirmed(..) => State::Member,
        Following(..) => State::Following,
        Knocking(..) => State::Knocking,
        Listening(..) => State::Listening,
        Out(cause) => State::Out(cause),
    };
    match is {
        Member(s, m, r) | Confirmed(s, m, r) | Following(s, m, r) => (set, marks, returning) = (s, m, r),
        Knocking(s, m, r) => (set, marks, returning, return_heard) = (s, m, own, r),
        Listening(done, heard, shortest, return_seen, last) => {
            listening = ListeningData { done, heard: nodes(heard), shortest, return_seen, last: nodes(last) };
        }
        Out(_) => {}
    }
    let (set, marks, yes_heard) = (nodes(set), nodes(marks), matches!(is, Confirmed(..)));
    Node { chosen, own, slots, state, set, marks, returning, return_heard, listening, yes_heard }
}

/// The record must be this one.
fn see(
    count: &mut Count,
    what: &str,
    got: Result<Node, u32>,
    expected: Result<Node, u32>,
) -> Result<(), String> {
    count.expected(expected.err().unwrap_or(0));
    let shown = |answer: &Result<Node, u32>| match answer {
        Ok(record) => shown_record(record),
        Err(number) => format!("refusal {number}"),
    };
    count.check(got == expected, || {
        format!("{what}:\n        model:    {}\n        expected: {}", shown(&got), shown(&expected))
    })
}

/// The node is given this job byte, and the model must send this.
fn see_sent(
    count: &mut Count,
    what: &str,
    (node, jobs): (&Node, u8),
    expected: Result<Bytes, u32>,
) -> Result<(), String> {
    count.expected(expected.err().unwrap_or(0));
    let mut out = [0; ROOM as usize];
    let got = node.send(jobs, &mut out).map(|length| &out[..length]);
    count.check(got == expected, || {
        let shown = |answer: Result<&[u8], u32>| answer.map(hex);
        format!("{what}: model sends {:?}, expected {:?}", shown(got), shown(expected))
    })
}

/// A buffer that holds every message.
const ROOM: u8 = 10;

/// What is sent in this step, and the job byte that is given; none if it is no step of sending.
fn sending(step: &Step) -> Option<(u8, Result<Bytes, u32>)> {
    match *step {
        Sends(bytes) => Some((0, Ok(bytes))),
        SendRefused(number) => Some((0, Err(number))),
        Reports(jobs, bytes) => Some((jobs, Ok(bytes))),
        ReportRefused(jobs, number) => Some((jobs, Err(number))),
        _ => None,
    }
}

/// The record before the first step.
fn start(script: &mut Script, (chosen, own): (Choices, u32), run: &Run) -> Result<Node, String> {
    if let Some((slots, is)) = run.from {
        let node = record(chosen, own, slots, is);
        script.load(node);
        return Ok(node);
    }
    script.push(&Command::SetUp(chosen.into(), own));
    Node::set_up(chosen, own).map_err(|number| format!("{}: refusal {number}", run.what))
}

/// The counts must be these.
fn see_counts(
    count: &mut Count,
    what: &str,
    got: &Counts,
    expected: &[(usize, usize, u64)],
) -> Result<(), String> {
    let mut counts = NONE;
    expected.iter().for_each(|&(sender, job, number)| counts[sender - 1][job - 1] = number);
    count.expected(0);
    count.check(*got == counts, || {
        format!("{what}: model counts {}, expected {}", shown_counts(got), shown_counts(&counts))
    })
}

/// Steps that leave the record: sending, and those that see or set a count. Whether this was one.
fn stays(
    count: &mut Count,
    script: &mut Script,
    what: &str,
    (node, counts): (&Node, &mut Counts),
    step: &Step,
) -> Result<bool, String> {
    if let Some((jobs, expected)) = sending(step) {
        script.push(&Command::Send { room: ROOM, jobs });
        see_sent(count, what, (node, jobs), expected)?;
        return Ok(true);
    }
    match *step {
        Counted(expected) => {
            script.push(&Command::Counts);
            see_counts(count, what, counts, expected)?;
        }
        CountIs(sender, job, number) => {
            script.push(&Command::Count { row: sender as u8 - 1, job: job as u8 - 1, count: number });
            counts[sender - 1][job - 1] = number;
        }
        _ => return Ok(false),
    }
    Ok(true)
}

/// The model against the document, step by step, on a cable of this m and lag; the script is for the program.
pub fn follow(count: &mut Count, script: &mut Script, (m, lag): (u32, u32), run: &Run) -> Result<(), String> {
    follow_by(count, script, (m, lag, Order::plain(run.ring.0)), run)
}

/// What a step that may change the record asks of the program, and of the model; and what is expected. None for the
/// others.
type Asks = (Command<'static>, Result<Node, u32>, Result<Is, u32>);

fn asks((chosen, own): (Choices, u32), (node, counts): (&Node, &mut Counts), step: &Step) -> Option<Asks> {
    Some(match *step {
        Slot(bytes, is) => (Command::Slot(bytes), node.counted_slot(counts, bytes), Ok(is)),
        SlotRefused(bytes, number) => (Command::Slot(bytes), node.counted_slot(counts, bytes), Err(number)),
        SetUp(is) => {
            *counts = NONE;
            (Command::SetUp(chosen.into(), own), Node::set_up(chosen, own), Ok(is))
        }
        Off => (Command::Off, node.off(), Ok(Out(Cause::SwitchedOff))),
        OffRefused(number) => (Command::Off, node.off(), Err(number)),
        Restart(is) => (Command::Restart, node.restart(), Ok(is)),
        RestartRefused => (Command::Restart, node.restart(), Err(11)),
        _ => return None,
    })
}

/// The same with this slot table.
pub fn follow_by(
    count: &mut Count,
    script: &mut Script,
    (m, lag, order): (u32, u32, Order),
    run: &Run,
) -> Result<(), String> {
    let (n, k, own) = run.ring;
    let chosen = Choices { n, k, m, lag, order };
    let mut node = start(script, (chosen, own), run)?;
    let mut counts = NONE;
    let mut slots = node.slots;
    for (i, step) in run.steps.iter().enumerate() {
        let what = format!("{}, step {}", run.what, i + 1);
        if stays(count, script, &what, (&node, &mut counts), step)? {
            continue;
        }
        let Some((command, got, expected)) = asks((chosen, own), (&node, &mut counts), step) else {
            continue;
        };
        slots = match *step {
            Slot(..) => slots + 1,
            SetUp(_) => 0,
            _ => slots,
        };
        script.push(&command);
        let expected = expected.map(|is| record(chosen, own, slots, is));
        see(count, &what, got, expected)?;
        node = expected.unwrap_or(node);
    }
    Ok(())
}

pub fn single_nodes(count: &mut Count) -> Result<(), String> {
    let mut script = Script::default();
    for run in RUNS {
        follow(count, &mut script, (0, 0), run)?;
    }
    compare(count, &script)
}
