//! Runs of single nodes with literal answers, typed from request j; neither side makes an expected answer. The lag is 1
//! where nothing else is said, and there are no jobs.

use super::compare::compare;
use super::protocol::Script;
use super::vectors::{follow, Bytes, Is::*, Nodes, Run, Step::*};
use super::vectors::{ALL, FIVE, NN, NNN, NOTHING, NY, YN, YNN, YY, YYN, YYY, YY_RETURN};
use comparison::model::node::Cause;
use comparison::report::Count;

/// Two nos for k = 2, with the return bit.
const NN_RETURN: Bytes = &[0x02, 0x00, 0x01, 0x01, 0x00, 0x00];

const THREE: Nodes = &[1, 3, 4];
const OTHERS: Nodes = &[2, 3, 4, 5];

#[rustfmt::skip]
const RUNS: &[Run] = &[
    // n = 4, k = 2, and slot 2 is lost. Node 3 does not judge node 2, the nearest before it: it says yes to 1 and 4. Node
    // 4 says no to 2 and yes to 1. "leaving falls at the (k + lag)-th member after": that of node 2 is node 1, in slot 5.
    Run { what: "slot 2 lost, node 1", ring: (4, 2, 1), from: None, steps: &[
        Sends(YY),
        Slot(NOTHING, Member(ALL, ALL, 0)),
        Slot(NOTHING, Member(ALL, THREE, 0)),
        Slot(YY, Confirmed(ALL, THREE, 0)),
        Slot(NY, Confirmed(ALL, THREE, 0)),
        Sends(YN),
        Slot(NOTHING, Member(THREE, THREE, 0)),
        // Of three members ks is 1: node 3 says yes to 4, node 4 to 1, node 1 to 3.
        Slot(NOTHING, Member(THREE, THREE, 0)),
        Slot(YN, Member(THREE, THREE, 0)),
        Slot(YN, Confirmed(THREE, THREE, 0)),
        Sends(YN),
        Slot(NOTHING, Member(THREE, THREE, 0)),
    ] },
    Run { what: "slot 2 lost, node 2", ring: (4, 2, 2), from: None, steps: &[
        Slot(YY, Confirmed(ALL, ALL, 0)),
        Sends(YY),
        Slot(NOTHING, Member(ALL, ALL, 0)),
        Slot(YY, Member(ALL, ALL, 0)),
        Slot(NY, Member(ALL, THREE, 0)),
        Slot(YN, Out(Cause::Unconfirmed)),
    ] },
    Run { what: "slot 2 lost, node 3", ring: (4, 2, 3), from: None, steps: &[
        Slot(YY, Confirmed(ALL, ALL, 0)),
        Slot(NOTHING, Confirmed(ALL, THREE, 0)),
        Sends(YY),
        Slot(NOTHING, Member(ALL, THREE, 0)),
        Slot(NY, Member(ALL, THREE, 0)),
        Slot(YN, Confirmed(THREE, THREE, 0)),
    ] },
    Run { what: "slot 2 lost, node 4", ring: (4, 2, 4), from: None, steps: &[
        Slot(YY, Member(ALL, ALL, 0)),
        Slot(NOTHING, Member(ALL, THREE, 0)),
        Slot(YY, Confirmed(ALL, THREE, 0)),
        Sends(NY),
        Slot(NOTHING, Member(ALL, THREE, 0)),
        Slot(YN, Member(THREE, THREE, 0)),
    ] },
    // Set {1,3,4}, k = 2: node 1 sponsors and decides 3, and nothing else. The other bit is past ks.
    Run { what: "sponsored by 1: yes", ring: (4, 2, 1), from: Some((0, Member(THREE, &[1, 3], 0))), steps: &[Sends(YN)] },
    Run { what: "sponsored by 1: no", ring: (4, 2, 1), from: Some((0, Member(THREE, &[1, 4], 0))), steps: &[Sends(NN)] },
    Run { what: "decided by 1: yes", ring: (4, 2, 4), from: Some((0, Member(THREE, &[4], 0))), steps: &[
        Slot(YN, Member(THREE, THREE, 0)),
    ] },
    Run { what: "decided by 1: no", ring: (4, 2, 4), from: Some((0, Member(THREE, &[4], 0))), steps: &[
        Slot(NN, Member(&[1, 4], &[1, 4], 0)),
    ] },
    Run { what: "decided by 1: yes past ks", ring: (4, 2, 4), from: Some((0, Member(THREE, &[4], 0))), steps: &[
        Slot(NY, Member(&[1, 4], &[1, 4], 0)),
    ] },
    Run { what: "decided by 1: node 3 itself, no", ring: (4, 2, 3), from: Some((0, Member(THREE, THREE, 0))), steps: &[
        Slot(NY, Out(Cause::Unconfirmed)),
    ] },
    Run { what: "decided by 1: node 3 itself, yes", ring: (4, 2, 3), from: Some((0, Member(THREE, &[1, 4], 0))), steps: &[
        Slot(YN, Confirmed(THREE, THREE, 0)),
    ] },
    // The nearest before the sender is told nothing: node 4 keeps its own mark, on or off.
    Run { what: "the nearest, own mark off", ring: (4, 2, 4), from: Some((0, Member(THREE, &[1, 3], 0))), steps: &[
        Slot(YY, Member(THREE, &[1, 3], 0)),
    ] },
    // "bit 1 concerns the second member back": before 3 stand 2, 1, 5, 4, so that the bits concern 1 and 5, and 5 is
    // decided. With 5 gone it is node 4 itself, whose mark is on.
    Run { what: "bit 1 of node 3", ring: (5, 2, 4), from: Some((2, Member(FIVE, &[2, 3, 4], 0))), steps: &[
        Slot(YN, Member(ALL, ALL, 0)),
    ] },
    Run { what: "bit 2 of node 3", ring: (5, 2, 4), from: Some((2, Member(FIVE, &[2, 3, 4], 0))), steps: &[
        Slot(NY, Member(FIVE, OTHERS, 0)),
    ] },
    Run { what: "bits of node 3, node 1", ring: (5, 2, 1), from: Some((2, Member(FIVE, FIVE, 0))), steps: &[
        Slot(NY, Member(FIVE, OTHERS, 0)),
    ] },
    Run { what: "bits of node 3, node 2", ring: (5, 2, 2), from: Some((2, Member(FIVE, FIVE, 0))), steps: &[
        Slot(NN, Member(FIVE, FIVE, 0)),
    ] },
    // "with two members or fewer nobody is decided", no bit is sent and none is heard. What is left is step 4.
    Run { what: "two members, sends", ring: (5, 3, 5), from: Some((4, Member(&[2, 5], &[2, 5], 0))), steps: &[
        Sends(NNN),
        Slot(NOTHING, Member(&[2, 5], &[2, 5], 0)),
    ] },
    Run { what: "two members, a no", ring: (5, 3, 2), from: Some((4, Member(&[2, 5], &[2, 5], 0))), steps: &[
        Slot(NNN, Member(&[2, 5], &[2, 5], 0)),
    ] },
    Run { what: "two members, a yes", ring: (5, 3, 2), from: Some((4, Member(&[2, 5], &[5], 0))), steps: &[
        Slot(YYY, Member(&[2, 5], &[5], 0)),
    ] },
    Run { what: "two members, silence", ring: (5, 3, 2), from: Some((4, Member(&[2, 5], &[2, 5], 0))), steps: &[
        Slot(NOTHING, Out(Cause::NothingHeard)),
    ] },
    Run { what: "two members, own slot", ring: (5, 3, 5), from: Some((4, Member(&[2, 5], &[5], 0))), steps: &[
        Sends(NNN),
        Slot(NOTHING, Out(Cause::NothingHeard)),
    ] },
    Run { what: "two members, following", ring: (5, 3, 1), from: Some((4, Following(&[2, 5], &[5], 0))), steps: &[
        Slot(NNN, Following(&[2, 5], &[5], 0)),
        Slot(NOTHING, Knocking(&[2, 5], &[5], false)),
        Slot(NNN, Knocking(&[2, 5], &[2, 5], false)),
    ] },
    Run { what: "alone", ring: (5, 3, 2), from: Some((1, Member(&[2], &[2], 0))), steps: &[
        Sends(NNN),
        Slot(NOTHING, Out(Cause::NothingHeard)),
    ] },
    // The repeat of request f. Node 5 decides 1 of five, 2 of four, and of three the second back, 3, which is marked.
    Run { what: "two leave of five", ring: (5, 3, 3), from: Some((4, Member(FIVE, &[3, 4, 5], 0))), steps: &[
        Slot(YNN, Confirmed(&[3, 4, 5], &[3, 4, 5], 0)),
    ] },
    // Node 4 decides 1 of four and 2 of three; of {3,4} nobody, marked or not.
    Run { what: "two leave of four", ring: (4, 2, 4), from: Some((3, Member(ALL, &[3, 4], 0))), steps: &[
        Sends(NN),
        Slot(NOTHING, Member(&[3, 4], &[3, 4], 0)),
    ] },
    Run { what: "two leave of four, no other marked", ring: (4, 2, 4), from: Some((3, Member(ALL, &[4], 0))), steps: &[
        Slot(NOTHING, Out(Cause::NothingHeard)),
    ] },
    // Of {3,4,5} node 5 takes 3, and two members are enough.
    Run { what: "one leaves of three, following", ring: (5, 3, 1), from: Some((4, Following(&[3, 4, 5], &[5], 0))), steps: &[
        Slot(NNN, Following(&[4, 5], &[5], 0)),
    ] },
    Run { what: "no mark, following", ring: (5, 3, 1), from: Some((4, Following(&[3, 4, 5], &[5], 0))), steps: &[
        Slot(NOTHING, Listening(0, &[], 3, false, &[])),
    ] },
    // Joining is next to the nearest member before, as without lag.
    Run { what: "one leaves and one joins", ring: (6, 3, 4), from: Some((4, Member(&[2, 3, 4, 5, 6], OTHERS, 1))), steps: &[
        Slot(&[0x03, 0x03, 0x01, 0x01, 0x00, 0x00], Member(FIVE, FIVE, 0)),
    ] },
    // Node 1 is away from the start and comes back. Node 3 says no to it in slot 3 and node 4 in slot 4, in which it
    // leaves the lists. Then four are heard, and two yes are needed.
    Run { what: "coming back", ring: (5, 2, 1), from: None, steps: &[
        Off,
        Restart(Listening(0, &[], 2, false, &[])),
        Slot(NOTHING, Listening(1, &[], 2, false, &[])),
        Slot(YY, Listening(2, &[2], 2, false, &[])),
        Slot(NY, Listening(3, &[2, 3], 0, false, &[])),
        Slot(YN, Listening(4, &[2, 3, 4], 0, false, &[])),
        Slot(YY, Listening(0, &[], 2, false, &[])),
        Slot(NOTHING, Listening(1, &[], 2, false, &[])),
        Slot(YY, Listening(2, &[2], 2, false, &[])),
        Slot(YY, Listening(3, &[2, 3], 2, false, &[])),
        Slot(YY, Listening(4, &[2, 3, 4], 2, false, &[])),
        Slot(YY, Listening(0, &[], 2, false, OTHERS)),
        Slot(NOTHING, Listening(1, &[], 2, false, OTHERS)),
        Slot(YY, Listening(2, &[2], 2, false, OTHERS)),
        Slot(YY, Listening(3, &[2, 3], 2, false, OTHERS)),
        Slot(YY, Listening(4, &[2, 3, 4], 2, false, OTHERS)),
        Slot(YY, Following(OTHERS, OTHERS, 0)),
        Sends(NN),
        Slot(NOTHING, Knocking(OTHERS, OTHERS, false)),
        Slot(YY_RETURN, Knocking(OTHERS, OTHERS, true)),
        Slot(YY_RETURN, Knocking(OTHERS, OTHERS, true)),
        Slot(YY_RETURN, Knocking(OTHERS, OTHERS, true)),
        Slot(YY_RETURN, Member(FIVE, FIVE, 0)),
        Sends(YY),
        Slot(NOTHING, Member(FIVE, FIVE, 0)),
        Slot(YY, Member(FIVE, FIVE, 0)),
        Slot(YY, Confirmed(FIVE, FIVE, 0)),
    ] },
    Run { what: "seen by node 2", ring: (5, 2, 2), from: None, steps: &[
        Slot(NOTHING, Member(FIVE, OTHERS, 0)),
        Sends(YY),
        Slot(NOTHING, Member(FIVE, OTHERS, 0)),
        Slot(NY, Member(FIVE, OTHERS, 0)),
        Slot(YN, Confirmed(OTHERS, OTHERS, 0)),
        Slot(YY, Confirmed(OTHERS, OTHERS, 0)),
    ] },
    // "Return bits are made as before": node 2 speaks next after the knock.
    Run { what: "the knock seen by node 2", ring: (5, 2, 2), from: Some((15, Confirmed(OTHERS, OTHERS, 0))), steps: &[
        Slot(NN, Confirmed(OTHERS, OTHERS, 1)),
        Sends(YY_RETURN),
        Slot(NOTHING, Member(OTHERS, OTHERS, 1)),
        Slot(YY_RETURN, Member(OTHERS, OTHERS, 1)),
        Slot(YY_RETURN, Confirmed(OTHERS, OTHERS, 1)),
        Slot(YY_RETURN, Confirmed(FIVE, FIVE, 0)),
    ] },
    Run { what: "the knock missed by node 3", ring: (5, 2, 3), from: Some((15, Confirmed(OTHERS, OTHERS, 0))), steps: &[
        Slot(NOTHING, Confirmed(OTHERS, OTHERS, 0)),
        Slot(NN_RETURN, Out(Cause::MissedReturn)),
    ] },
    // "The listening rule uses the same reduced number": three heard need a run of 1, whatever k.
    Run { what: "three heard, runs of 1", ring: (4, 2, 1), from: Some((0, Listening(0, &[], 2, false, &[]))), steps: &[
        Slot(YY, Listening(1, &[], 2, false, &[])),
        Slot(YN, Listening(2, &[2], 1, false, &[])),
        Slot(YN, Listening(3, &[2, 3], 1, false, &[])),
        Slot(YY, Listening(0, &[], 2, false, &[2, 3, 4])),
        Slot(NOTHING, Listening(1, &[], 2, false, &[2, 3, 4])),
        Slot(YY, Listening(2, &[2], 2, false, &[2, 3, 4])),
        Slot(YN, Listening(3, &[2, 3], 1, false, &[2, 3, 4])),
        Slot(YN, Following(&[2, 3, 4], &[2, 3, 4], 0)),
    ] },
    Run { what: "three heard, a run of 0", ring: (4, 2, 1), from: Some((2, Listening(2, &[2], 2, false, &[2, 3, 4]))), steps: &[
        Slot(NY, Listening(3, &[2, 3], 0, false, &[2, 3, 4])),
        Slot(YY, Listening(0, &[], 2, false, &[])),
    ] },
    Run { what: "three heard, runs of 1, k = 3", ring: (5, 3, 1), from: Some((4, Listening(4, &[2, 3], 1, false, &[2, 3, 5]))), steps: &[
        Slot(YNN, Following(&[2, 3, 5], &[2, 3, 5], 0)),
    ] },
    Run { what: "four heard, runs of 2, k = 3", ring: (5, 3, 1), from: Some((4, Listening(4, &[2, 3, 4], 3, false, OTHERS))), steps: &[
        Slot(YYN, Following(OTHERS, OTHERS, 0)),
    ] },
    Run { what: "four heard, a run of 1, k = 3", ring: (5, 3, 1), from: Some((4, Listening(4, &[2, 3, 4], 3, false, OTHERS))), steps: &[
        Slot(YNN, Listening(0, &[], 3, false, &[])),
    ] },
    // No more than k: five heard of six, k = 2.
    Run { what: "five heard, runs of 2, k = 2", ring: (6, 2, 1), from: Some((5, Listening(5, &[2, 3, 4, 5], 2, false, &[2, 3, 4, 5, 6]))), steps: &[
        Slot(YY, Following(&[2, 3, 4, 5, 6], &[2, 3, 4, 5, 6], 0)),
    ] },
    Run { what: "five heard, a run of 1, k = 2", ring: (6, 2, 1), from: Some((5, Listening(5, &[2, 3, 4, 5], 2, false, &[2, 3, 4, 5, 6]))), steps: &[
        Slot(YN, Listening(0, &[], 2, false, &[])),
    ] },
    // Two heard need no yes, but still no return bit; one heard is too few.
    Run { what: "two heard, runs of 0", ring: (4, 2, 1), from: Some((0, Listening(0, &[], 2, false, &[]))), steps: &[
        Slot(NOTHING, Listening(1, &[], 2, false, &[])),
        Slot(NN, Listening(2, &[2], 0, false, &[])),
        Slot(NOTHING, Listening(3, &[2], 0, false, &[])),
        Slot(NN, Listening(0, &[], 2, false, &[2, 4])),
        Slot(NOTHING, Listening(1, &[], 2, false, &[2, 4])),
        Slot(NY, Listening(2, &[2], 0, false, &[2, 4])),
        Slot(NOTHING, Listening(3, &[2], 0, false, &[2, 4])),
        Slot(NN, Following(&[2, 4], &[2, 4], 0)),
    ] },
    Run { what: "two heard, a return bit", ring: (4, 2, 1), from: Some((1, Listening(1, &[], 2, false, &[2, 4]))), steps: &[
        Slot(YY_RETURN, Listening(2, &[2], 2, true, &[2, 4])),
        Slot(NOTHING, Listening(3, &[2], 2, true, &[2, 4])),
        Slot(YY, Listening(0, &[], 2, false, &[])),
    ] },
    Run { what: "one heard", ring: (4, 2, 1), from: Some((2, Listening(2, &[2], 2, false, &[2, 4]))), steps: &[
        Slot(NOTHING, Listening(3, &[2], 2, false, &[2, 4])),
        Slot(NOTHING, Listening(0, &[], 2, false, &[])),
    ] },
];

/// Records that are not sound, each with its lag: a lag above 1, and a k above n - 1 less the lag. The last two are
/// sound.
#[rustfmt::skip]
const KEPT: &[(u32, Run)] = &[
    (2, Run { what: "lag 2", ring: (5, 2, 1), from: Some((0, Member(FIVE, FIVE, 0))), steps: &[
        SendRefused(4), SlotRefused(NOTHING, 4), SlotRefused(YY, 4), OffRefused(4),
    ] }),
    (2, Run { what: "lag 2, own slot past", ring: (5, 2, 1), from: Some((1, Following(OTHERS, OTHERS, 0))), steps: &[
        SendRefused(4), SlotRefused(YY, 4), OffRefused(4),
    ] }),
    (256, Run { what: "lag 256", ring: (5, 2, 1), from: Some((0, Out(Cause::Unconfirmed))), steps: &[
        SendRefused(4), SlotRefused(NOTHING, 4), OffRefused(4),
    ] }),
    (u32::MAX, Run { what: "the largest lag", ring: (5, 2, 1), from: Some((0, Listening(0, &[], 2, false, &[]))), steps: &[
        SendRefused(4), SlotRefused(NOTHING, 4), OffRefused(4),
    ] }),
    (1, Run { what: "k = n - 1", ring: (4, 3, 1), from: Some((0, Member(ALL, ALL, 0))), steps: &[
        SendRefused(4), SlotRefused(NOTHING, 4), OffRefused(4),
    ] }),
    (1, Run { what: "three nodes", ring: (3, 2, 1), from: Some((0, Member(&[1, 2, 3], &[1, 2, 3], 0))), steps: &[
        SendRefused(4), SlotRefused(NOTHING, 4), OffRefused(4),
    ] }),
    (0, Run { what: "k = n - 1 with lag 0", ring: (4, 3, 1), from: Some((0, Member(ALL, ALL, 0))), steps: &[
        Sends(YYY), Slot(NOTHING, Member(ALL, ALL, 0)),
    ] }),
    (1, Run { what: "k = n - 2", ring: (5, 3, 1), from: Some((0, Member(FIVE, FIVE, 0))), steps: &[
        Sends(YYY), Slot(NOTHING, Member(FIVE, FIVE, 0)),
    ] }),
];

pub fn single_nodes(count: &mut Count) -> Result<(), String> {
    let mut script = Script::default();
    for run in RUNS {
        follow(count, &mut script, (0, 1), run)?;
    }
    for (lag, run) in KEPT {
        follow(count, &mut script, (0, *lag), run)?;
    }
    compare(count, &script)
}
