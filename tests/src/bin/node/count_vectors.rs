//! Runs of single nodes whose counts are typed from request h; neither side makes an expected answer. k is 2 and m is 3.

use super::compare::compare;
use super::protocol::Script;
use super::vectors::{follow, Bytes, Is::*, Nodes, Run, Step::*};
use comparison::model::node::Cause;
use comparison::report::Count;

/// The messages, named by their acknowledgement bits and the jobs that they report.
const YY: Bytes = &[0x02, 0x03, 0x01, 0x00, 0x03, 0x00];
const YY_1: Bytes = &[0x02, 0x03, 0x01, 0x00, 0x03, 0x01];
const YY_13: Bytes = &[0x02, 0x03, 0x01, 0x00, 0x03, 0x05];
const YY_123: Bytes = &[0x02, 0x03, 0x01, 0x00, 0x03, 0x07];
const YN_2: Bytes = &[0x02, 0x01, 0x01, 0x00, 0x03, 0x02];
const NY_2: Bytes = &[0x02, 0x02, 0x01, 0x00, 0x03, 0x02];
const NN_3: Bytes = &[0x02, 0x00, 0x01, 0x00, 0x03, 0x04];
const NN_123: Bytes = &[0x02, 0x00, 0x01, 0x00, 0x03, 0x07];
const YY_RETURN_2: Bytes = &[0x02, 0x03, 0x01, 0x01, 0x03, 0x02];
const NOTHING: Bytes = &[];

const ALL: Nodes = &[1, 2, 3, 4];
const OTHERS: Nodes = &[2, 3, 4];

#[rustfmt::skip]
const RUNS: &[Run] = &[
    // "the number of reports heard": one more for each set bit, in the sender's row and the job's place.
    Run { what: "a member counts", ring: (4, 2, 1), from: None, steps: &[
        Counted(&[]),
        Slot(NOTHING, Member(ALL, ALL, 0)),
        Counted(&[]),
        Slot(YY_1, Confirmed(ALL, ALL, 0)),
        Counted(&[(2, 1, 1)]),
        Slot(YY_123, Confirmed(ALL, ALL, 0)),
        Counted(&[(2, 1, 1), (3, 1, 1), (3, 2, 1), (3, 3, 1)]),
        Slot(YY, Confirmed(ALL, ALL, 0)),
        Counted(&[(2, 1, 1), (3, 1, 1), (3, 2, 1), (3, 3, 1)]),
        Slot(NOTHING, Member(ALL, ALL, 0)),
        Slot(YY_13, Confirmed(ALL, ALL, 0)),
        Counted(&[(2, 1, 2), (2, 3, 1), (3, 1, 1), (3, 2, 1), (3, 3, 1)]),
    ] },
    // A message handed over in the own slot is ignored.
    Run { what: "the own slot", ring: (4, 2, 1), from: Some((4, Member(ALL, ALL, 0))), steps: &[
        Reports(0b111, YY_123),
        Slot(YY_123, Member(ALL, ALL, 0)),
        Counted(&[]),
    ] },
    // Not heard, or not readable: lost or missed, another m, a spare bit, a wrong count, the form of document 01.
    Run { what: "unheard", ring: (4, 2, 1), from: Some((1, Member(ALL, ALL, 0))), steps: &[
        Slot(NOTHING, Member(ALL, &[1, 3, 4], 0)),
        Counted(&[]),
    ] },
    Run { what: "another m", ring: (4, 2, 1), from: Some((1, Member(ALL, ALL, 0))), steps: &[
        Slot(&[0x02, 0x03, 0x01, 0x00, 0x02, 0x01], Member(ALL, &[1, 3, 4], 0)),
        Counted(&[]),
    ] },
    Run { what: "a spare bit", ring: (4, 2, 1), from: Some((1, Member(ALL, ALL, 0))), steps: &[
        Slot(&[0x02, 0x03, 0x01, 0x00, 0x03, 0x0F], Member(ALL, &[1, 3, 4], 0)),
        Counted(&[]),
    ] },
    Run { what: "a wrong count", ring: (4, 2, 1), from: Some((1, Member(ALL, ALL, 0))), steps: &[
        Slot(&[0x02, 0x03, 0x02, 0x00, 0x03, 0x07], Member(ALL, &[1, 3, 4], 0)),
        Counted(&[]),
    ] },
    // "from senders in its set as the slot begins": node 2 is outside, as a member of another set or as one that knocks
    // with bits that no knock carries.
    Run { what: "outside the set", ring: (4, 2, 1), from: Some((1, Member(&[1, 3, 4], &[1, 3, 4], 0))), steps: &[
        Slot(YY_123, Member(&[1, 3, 4], &[1, 3, 4], 2)),
        Counted(&[]),
        Slot(YY_1, Confirmed(&[1, 3, 4], &[1, 3, 4], 2)),
        Counted(&[(3, 1, 1)]),
    ] },
    Run { what: "a later knock", ring: (5, 2, 1), from: Some((1, Member(&[1, 4, 5], &[1, 4, 5], 3))), steps: &[
        Slot(NN_123, Member(&[1, 4, 5], &[1, 4, 5], 3)),
        Counted(&[]),
    ] },
    // Node 2 joins in slot 17, which is node 1's: in its own slot, the next, it is in the set.
    Run { what: "one that joins", ring: (4, 2, 3), from: Some((16, Member(&[1, 3, 4], &[1, 3, 4], 2))), steps: &[
        Slot(YY_RETURN_2, Confirmed(ALL, ALL, 0)),
        Counted(&[(1, 2, 1)]),
        Slot(YY_13, Confirmed(ALL, ALL, 0)),
        Counted(&[(1, 2, 1), (2, 1, 1), (2, 3, 1)]),
    ] },
    // Node 4 decides 2, whose mark is off, in slot 4; until then node 2 is in the set. Its report of slot 6 is one from
    // outside.
    Run { what: "one that is taken off", ring: (4, 2, 1), from: Some((2, Confirmed(ALL, &[1, 3, 4], 0))), steps: &[
        Slot(NY_2, Confirmed(ALL, &[1, 3, 4], 0)),
        Slot(YN_2, Confirmed(&[1, 3, 4], &[1, 3, 4], 0)),
        Counted(&[(3, 2, 1), (4, 2, 1)]),
        Slot(NOTHING, Member(&[1, 3, 4], &[1, 3, 4], 0)),
        Slot(YY_123, Member(&[1, 3, 4], &[1, 3, 4], 2)),
        Counted(&[(3, 2, 1), (4, 2, 1)]),
    ] },
    // "even if that message makes it leave": with cause 1 by a no of slot 2 and the decision of slot 3, with cause 3.
    // Out it counts nothing more, and keeps its counts.
    Run { what: "leaves with cause 1", ring: (4, 2, 1), from: Some((1, Member(ALL, ALL, 0))), steps: &[
        Slot(NY_2, Member(ALL, OTHERS, 0)),
        Counted(&[(2, 2, 1)]),
        Slot(YN_2, Out(Cause::Unconfirmed)),
        Counted(&[(2, 2, 1), (3, 2, 1)]),
        Slot(YY_123, Out(Cause::Unconfirmed)),
        Counted(&[(2, 2, 1), (3, 2, 1)]),
    ] },
    Run { what: "leaves with cause 3", ring: (4, 2, 3), from: Some((13, Member(OTHERS, OTHERS, 0))), steps: &[
        Slot(YY_RETURN_2, Out(Cause::MissedReturn)),
        Counted(&[(2, 2, 1)]),
        Slot(YY_123, Out(Cause::MissedReturn)),
        Counted(&[(2, 2, 1)]),
    ] },
    // With cause 2 no other member is marked, so that no member was heard in that slot; a knock with bits is none.
    Run { what: "leaves with cause 2", ring: (4, 2, 1), from: Some((1, Member(ALL, &[1, 2], 0))), steps: &[
        Slot(NOTHING, Out(Cause::NothingHeard)),
        Counted(&[]),
    ] },
    Run { what: "leaves with cause 2 in a knock", ring: (4, 2, 1), from: Some((1, Member(&[1, 3, 4], &[1], 0))), steps: &[
        Slot(NN_123, Out(Cause::NothingHeard)),
        Counted(&[]),
    ] },
    // Its set is that of the two windows.
    Run { what: "a following node counts", ring: (5, 2, 5), from: Some((15, Following(OTHERS, OTHERS, 0))), steps: &[
        Slot(NN_123, Following(OTHERS, OTHERS, 1)),
        Counted(&[]),
        Slot(YY_RETURN_2, Following(OTHERS, OTHERS, 1)),
        Counted(&[(2, 2, 1)]),
    ] },
    Run { what: "a following node that missed a return", ring: (5, 2, 5), from: Some((16, Following(OTHERS, OTHERS, 0))), steps: &[
        Slot(YY_RETURN_2, Listening(0, &[], 2, false, &[])),
        Counted(&[(2, 2, 1)]),
        Slot(YY_123, Listening(1, &[3], 2, false, &[])),
        Counted(&[(2, 2, 1)]),
    ] },
    Run { what: "a following node with too few members", ring: (5, 2, 5), from: Some((1, Following(&[1, 2], &[2], 0))), steps: &[
        Slot(NN_3, Listening(0, &[], 2, false, &[])),
        Counted(&[(2, 3, 1)]),
    ] },
    Run { what: "a knocking node counts", ring: (4, 2, 1), from: Some((12, Following(OTHERS, OTHERS, 0))), steps: &[
        Slot(YY_123, Knocking(OTHERS, OTHERS, false)),
        Counted(&[]),
        Slot(YY_RETURN_2, Knocking(OTHERS, OTHERS, true)),
        Counted(&[(2, 2, 1)]),
        Slot(YY_123, Knocking(OTHERS, OTHERS, true)),
        Slot(YY_RETURN_2, Member(ALL, ALL, 0)),
        Counted(&[(2, 2, 1), (3, 1, 1), (3, 2, 1), (3, 3, 1), (4, 2, 1)]),
    ] },
    Run { what: "a knocking node with too few members", ring: (5, 2, 5), from: Some((1, Knocking(&[1, 2], &[2], false))), steps: &[
        Slot(NN_3, Listening(0, &[], 2, false, &[])),
        Counted(&[(2, 3, 1)]),
    ] },
    // A listening node has no set, though it hears; it follows at the end of the slot.
    Run { what: "a listening node", ring: (4, 2, 1), from: Some((2, Listening(2, &[2], 2, false, &[2, 3]))), steps: &[
        Slot(YY_123, Listening(3, &[2, 3], 2, false, &[2, 3])),
        Slot(NOTHING, Following(&[2, 3], &[2, 3], 0)),
        Counted(&[]),
    ] },
    Run { what: "a listening node that follows", ring: (4, 2, 1), from: Some((3, Listening(3, &[2, 3], 2, false, OTHERS))), steps: &[
        Slot(YY_123, Following(OTHERS, OTHERS, 0)),
        Counted(&[]),
    ] },
    Run { what: "an out node", ring: (4, 2, 1), from: Some((1, Out(Cause::SwitchedOff))), steps: &[
        Slot(YY_123, Out(Cause::SwitchedOff)),
        Counted(&[]),
    ] },
    // "only set-up clears them": neither off nor restart does, nor a refused call.
    Run { what: "off and restart", ring: (4, 2, 1), from: Some((1, Member(ALL, ALL, 0))), steps: &[
        Slot(YY_13, Confirmed(ALL, ALL, 0)),
        RestartRefused,
        Counted(&[(2, 1, 1), (2, 3, 1)]),
        Off,
        Counted(&[(2, 1, 1), (2, 3, 1)]),
        Restart(Listening(0, &[], 2, false, &[])),
        Counted(&[(2, 1, 1), (2, 3, 1)]),
        Slot(YY_123, Listening(1, &[3], 2, false, &[])),
        Counted(&[(2, 1, 1), (2, 3, 1)]),
        SetUp(Member(ALL, ALL, 0)),
        Counted(&[]),
        Slot(NOTHING, Member(ALL, ALL, 0)),
        Slot(YY_1, Confirmed(ALL, ALL, 0)),
        Counted(&[(2, 1, 1)]),
    ] },
    // "A report count above the slot count .. gives 4": one that is equal is taken, and can rise with the slot count.
    Run { what: "as many as slots", ring: (4, 2, 1), from: Some((5, Member(ALL, ALL, 0))), steps: &[
        CountIs(2, 1, 5),
        CountIs(32, 8, 5),
        Slot(YY_1, Confirmed(ALL, ALL, 0)),
        Counted(&[(2, 1, 6), (32, 8, 5)]),
        Slot(YY_1, Confirmed(ALL, ALL, 0)),
        Counted(&[(2, 1, 6), (3, 1, 1), (32, 8, 5)]),
    ] },
    Run { what: "one more than slots", ring: (4, 2, 1), from: Some((5, Member(ALL, ALL, 0))), steps: &[
        CountIs(2, 1, 6),
        SlotRefused(YY_1, 4),
        Counted(&[(2, 1, 6)]),
        CountIs(2, 1, 5),
        Slot(YY_1, Confirmed(ALL, ALL, 0)),
        Counted(&[(2, 1, 6)]),
    ] },
    // Also in the row of a node that there is not, of the node itself, in the place of a job that there is not.
    Run { what: "a spare row", ring: (4, 2, 1), from: Some((5, Member(ALL, ALL, 0))), steps: &[
        CountIs(5, 1, 6),
        SlotRefused(NOTHING, 4),
        CountIs(5, 1, 0),
        CountIs(32, 1, 6),
        SlotRefused(NOTHING, 4),
        Counted(&[(32, 1, 6)]),
    ] },
    Run { what: "a spare job", ring: (4, 2, 1), from: Some((5, Member(ALL, ALL, 0))), steps: &[
        CountIs(2, 4, 6),
        SlotRefused(NOTHING, 4),
        CountIs(2, 4, 0),
        CountIs(4, 8, 6),
        SlotRefused(NOTHING, 4),
        Counted(&[(4, 8, 6)]),
    ] },
    Run { what: "the own row", ring: (4, 2, 1), from: Some((5, Member(ALL, ALL, 0))), steps: &[
        CountIs(1, 1, 6),
        SlotRefused(NOTHING, 4),
        CountIs(1, 1, 5),
        Slot(NOTHING, Member(ALL, &[1, 3, 4], 0)),
    ] },
    // In every state, also where no set is known; sending, off and restart take no counts.
    Run { what: "one more than slots, out", ring: (4, 2, 1), from: Some((5, Out(Cause::Unconfirmed))), steps: &[
        CountIs(2, 1, 6),
        SlotRefused(NOTHING, 4),
        Restart(Listening(0, &[], 2, false, &[])),
        SlotRefused(YY_1, 4),
        Off,
        Counted(&[(2, 1, 6)]),
    ] },
    Run { what: "one more than slots, sending", ring: (4, 2, 1), from: Some((4, Member(ALL, ALL, 0))), steps: &[
        CountIs(2, 1, 5),
        Reports(0b001, YY_1),
        SlotRefused(NOTHING, 4),
    ] },
    // 4 comes before 5.
    Run { what: "at the limit", ring: (4, 2, 1), from: Some((1_000_000_000_000_000, Member(ALL, ALL, 0))), steps: &[
        CountIs(2, 1, 1_000_000_000_000_000),
        SlotRefused(YY_1, 5),
        CountIs(2, 1, 1_000_000_000_000_001),
        SlotRefused(YY_1, 4),
        CountIs(2, 1, u64::MAX),
        SlotRefused(YY_1, 4),
        Counted(&[(2, 1, u64::MAX)]),
    ] },
];

pub fn single_nodes(count: &mut Count) -> Result<(), String> {
    let mut script = Script::default();
    for run in RUNS {
        follow(count, &mut script, (3, 0), run)?;
    }
    compare(count, &script)
}
