//! Runs of single nodes with literal answers, typed from request h; neither side makes an expected answer.

use super::compare::compare;
use super::protocol::Script;
use super::vectors::{follow, Bytes, Is::*, Nodes, Run, Step::*};
use comparison::model::node::Cause;
use comparison::report::Count;

/// The messages of k = 2 and m = 3, named by their acknowledgement bits and the jobs that they report.
const YY: Bytes = &[0x02, 0x03, 0x01, 0x00, 0x03, 0x00];
const YY_1: Bytes = &[0x02, 0x03, 0x01, 0x00, 0x03, 0x01];
const YY_13: Bytes = &[0x02, 0x03, 0x01, 0x00, 0x03, 0x05];
const YY_123: Bytes = &[0x02, 0x03, 0x01, 0x00, 0x03, 0x07];
const NN: Bytes = &[0x02, 0x00, 0x01, 0x00, 0x03, 0x00];
const NN_2: Bytes = &[0x02, 0x00, 0x01, 0x00, 0x03, 0x02];
const YY_RETURN_3: Bytes = &[0x02, 0x03, 0x01, 0x01, 0x03, 0x04];
const NOTHING: Bytes = &[];

const ALL: Nodes = &[1, 2, 3, 4];
const OTHERS: Nodes = &[2, 3, 4];

/// Each with its m.
#[rustfmt::skip]
const RUNS: &[(u32, Run)] = &[
    // "Sending .. is given the sender's job byte": it is the last byte of what is sent.
    (3, Run { what: "reports", ring: (4, 2, 1), from: None, steps: &[
        Sends(YY),
        Reports(0b001, YY_1),
        Reports(0b101, YY_13),
        Reports(0b111, YY_123),
        Slot(NOTHING, Member(ALL, ALL, 0)),
        Slot(YY_123, Confirmed(ALL, ALL, 0)),
        Slot(YY_1, Confirmed(ALL, ALL, 0)),
        Slot(YY, Confirmed(ALL, ALL, 0)),
        Reports(0b001, YY_1),
    ] }),
    (8, Run { what: "all of eight jobs", ring: (4, 2, 1), from: None, steps: &[
        Reports(0xFF, &[0x02, 0x03, 0x01, 0x00, 0x08, 0xFF]),
        Reports(0x80, &[0x02, 0x03, 0x01, 0x00, 0x08, 0x80]),
    ] }),
    (1, Run { what: "one job", ring: (11, 9, 1), from: None, steps: &[
        Reports(1, &[0x09, 0xFF, 0x01, 0x01, 0x00, 0x01, 0x01]),
        ReportRefused(2, 8),
    ] }),
    // "a spare bit, also in a given job byte": before 10, which comes where it is not the node's slot.
    (3, Run { what: "a job past m", ring: (4, 2, 1), from: None, steps: &[
        ReportRefused(0b1000, 8),
        ReportRefused(0x80, 8),
        ReportRefused(0xFF, 8),
        Slot(NOTHING, Member(ALL, ALL, 0)),
        ReportRefused(0b1000, 8),
        ReportRefused(0b111, 10),
    ] }),
    (0, Run { what: "a job where there is none", ring: (4, 2, 1), from: None, steps: &[
        ReportRefused(1, 8),
        Sends(&[0x02, 0x03, 0x01, 0x00, 0x00, 0x00]),
    ] }),
    (3, Run { what: "a job past m, out", ring: (4, 2, 1), from: Some((0, Out(Cause::SwitchedOff))), steps: &[
        ReportRefused(0b1000, 8),
        ReportRefused(0b111, 10),
    ] }),
    // 5 comes before it, and the record's own faults before that.
    (3, Run { what: "a job past m, at the limit", ring: (4, 2, 1), from: Some((1_000_000_000_000_000, Member(ALL, ALL, 0))), steps: &[
        ReportRefused(0b1000, 5),
        ReportRefused(0b111, 5),
    ] }),
    (3, Run { what: "a job past m, not sound", ring: (4, 2, 1), from: Some((1_000_000_000_000_000, Member(ALL, &[5], 0))), steps: &[
        ReportRefused(0b1000, 4),
    ] }),
    (9, Run { what: "m out of range", ring: (4, 2, 1), from: Some((0, Member(ALL, ALL, 0))), steps: &[
        SendRefused(4),
        ReportRefused(0xFF, 4),
        SlotRefused(NOTHING, 4),
        SlotRefused(&[0x02, 0x03, 0x01, 0x00, 0x09, 0x00], 4),
        OffRefused(4),
    ] }),
    // "A knock carries zero job bits."
    (3, Run { what: "a knock", ring: (4, 2, 1), from: Some((12, Following(OTHERS, OTHERS, 0))), steps: &[
        Reports(0b111, NN),
        Sends(NN),
        ReportRefused(0b1000, 8),
        Slot(NOTHING, Knocking(OTHERS, OTHERS, false)),
        ReportRefused(0b111, 10),
        Slot(YY_RETURN_3, Knocking(OTHERS, OTHERS, true)),
    ] }),
    // "The contents don't matter" of a sender outside the set, its jobs neither.
    (3, Run { what: "a knock heard", ring: (4, 2, 3), from: Some((12, Member(OTHERS, OTHERS, 0))), steps: &[
        Slot(NN_2, Member(OTHERS, OTHERS, 1)),
    ] }),
    // "its controllers read and send only that m, and any other message is unheard": fewer jobs, more, none.
    (3, Run { what: "another m", ring: (4, 2, 1), from: Some((1, Member(ALL, ALL, 0))), steps: &[
        Slot(&[0x02, 0x03, 0x01, 0x00, 0x02, 0x01], Member(ALL, &[1, 3, 4], 0)),
        Slot(&[0x02, 0x03, 0x01, 0x00, 0x08, 0x01], Member(ALL, &[1, 4], 0)),
    ] }),
    (3, Run { what: "no jobs where there are some", ring: (4, 2, 1), from: Some((1, Member(ALL, ALL, 0))), steps: &[
        Slot(&[0x02, 0x03, 0x01, 0x00, 0x00, 0x00], Member(ALL, &[1, 3, 4], 0)),
    ] }),
    (0, Run { what: "jobs where there are none", ring: (4, 2, 1), from: Some((1, Member(ALL, ALL, 0))), steps: &[
        Slot(&[0x02, 0x03, 0x01, 0x00, 0x01, 0x00], Member(ALL, &[1, 3, 4], 0)),
    ] }),
    // The form of document 01 is two bytes too short.
    (0, Run { what: "no third section", ring: (4, 2, 1), from: Some((1, Member(ALL, ALL, 0))), steps: &[
        Slot(&[0x02, 0x03, 0x01, 0x00], Member(ALL, &[1, 3, 4], 0)),
    ] }),
    (3, Run { what: "a spare bit of the jobs", ring: (4, 2, 1), from: Some((1, Member(ALL, ALL, 0))), steps: &[
        Slot(&[0x02, 0x03, 0x01, 0x00, 0x03, 0x08], Member(ALL, &[1, 3, 4], 0)),
    ] }),
    // Unheard, so that no knock is seen, no return bit and no listening node hears anything.
    (3, Run { what: "another m, a knock", ring: (4, 2, 3), from: Some((12, Member(OTHERS, OTHERS, 0))), steps: &[
        Slot(&[0x02, 0x00, 0x01, 0x00, 0x02, 0x00], Member(OTHERS, OTHERS, 0)),
    ] }),
    (3, Run { what: "another m, a return bit", ring: (4, 2, 3), from: Some((13, Member(OTHERS, OTHERS, 0))), steps: &[
        Slot(&[0x02, 0x03, 0x01, 0x01, 0x02, 0x00], Member(OTHERS, &[3, 4], 0)),
    ] }),
    (3, Run { what: "another m, listening", ring: (4, 2, 1), from: Some((1, Listening(1, &[], 2, false, &[]))), steps: &[
        Slot(&[0x02, 0x03, 0x01, 0x00, 0x02, 0x00], Listening(2, &[], 2, false, &[])),
        Slot(YY_13, Listening(3, &[3], 2, false, &[])),
    ] }),
    // Jobs are nothing to a listening node but part of a message.
    (3, Run { what: "jobs, listening", ring: (4, 2, 1), from: Some((1, Listening(1, &[], 2, false, &[2, 3]))), steps: &[
        Slot(YY_123, Listening(2, &[2], 2, false, &[2, 3])),
        Slot(YY_1, Listening(3, &[2, 3], 2, false, &[2, 3])),
        Slot(NOTHING, Following(&[2, 3], &[2, 3], 0)),
    ] }),
];

pub fn single_nodes(count: &mut Count) -> Result<(), String> {
    let mut script = Script::default();
    for (m, run) in RUNS {
        follow(count, &mut script, (*m, 0), run)?;
    }
    compare(count, &script)
}
