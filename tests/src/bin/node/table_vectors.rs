//! Runs of single nodes with literal answers on a cable with the slot table 3, 1, 4, 2, typed from request k; neither
//! side makes an expected answer. There are no jobs and no lag.

use super::compare::compare;
use super::protocol::Script;
use super::row_vectors::see;
use super::vectors::{follow_by, record, Is::*, Nodes, Run, Step::*};
use super::vectors::{ALL, NN, NOTHING, NY, YN, YY, YY_RETURN};
use comparison::model::choices::Choices;
use comparison::model::held::Record;
use comparison::model::node::Cause;
use comparison::model::row::Row;
use comparison::model::slot_table::Order;
use comparison::report::Count;
use comparison::typed_rows::TABLE;

const WITHOUT_1: Nodes = &[2, 3, 4];
const WITHOUT_2: Nodes = &[1, 3, 4];

#[rustfmt::skip]
const RUNS: &[Run] = &[
    // The listing of document 01, k = 2: slot 2 is lost, which is that of node 1. Node 4 speaks next: no to 1, yes to 3;
    // then node 2: yes to 4, no to 1, which it decides.
    Run { what: "slot 2 lost, node 3", ring: (4, 2, 3), from: None, steps: &[
        Sends(YY),
        Slot(NOTHING, Member(ALL, ALL, 0)),
        Slot(NOTHING, Member(ALL, WITHOUT_1, 0)),
        Slot(NY, Confirmed(ALL, WITHOUT_1, 0)),
        SendRefused(10),
        Slot(YN, Confirmed(WITHOUT_1, WITHOUT_1, 0)),
        // Before 3 stand 2 and 4.
        Sends(YY),
    ] },
    Run { what: "slot 2 lost, node 1", ring: (4, 2, 1), from: None, steps: &[
        SendRefused(10),
        Slot(YY, Member(ALL, ALL, 0)),
        Sends(YY),
        Slot(NOTHING, Member(ALL, ALL, 0)),
        Slot(NY, Member(ALL, WITHOUT_1, 0)),
        Slot(YN, Out(Cause::Unconfirmed)),
    ] },
    Run { what: "slot 2 lost, node 4", ring: (4, 2, 4), from: None, steps: &[
        Slot(YY, Confirmed(ALL, ALL, 0)),
        Slot(NOTHING, Confirmed(ALL, WITHOUT_1, 0)),
        Sends(NY),
        Slot(NOTHING, Member(ALL, WITHOUT_1, 0)),
        Slot(YN, Confirmed(WITHOUT_1, WITHOUT_1, 0)),
    ] },
    Run { what: "slot 2 lost, node 2", ring: (4, 2, 2), from: None, steps: &[
        Slot(YY, Confirmed(ALL, ALL, 0)),
        Slot(NOTHING, Confirmed(ALL, WITHOUT_1, 0)),
        Slot(NY, Confirmed(ALL, WITHOUT_1, 0)),
        Sends(YN),
        Slot(NOTHING, Member(WITHOUT_1, WITHOUT_1, 0)),
    ] },
    // Node 2 returns. The nearest member before it is 4, not 1.
    Run { what: "joining, not in the slot of 1", ring: (4, 2, 3), from: Some((1, Member(WITHOUT_2, WITHOUT_2, 2))), steps: &[
        Slot(YY_RETURN, Confirmed(WITHOUT_2, WITHOUT_2, 2)),
    ] },
    Run { what: "joining in the slot of 4", ring: (4, 2, 3), from: Some((2, Member(WITHOUT_2, WITHOUT_2, 2))), steps: &[
        Slot(YY_RETURN, Confirmed(ALL, ALL, 0)),
    ] },
    // It listens, follows, knocks in slot 12 and joins in slot 15, that of node 4.
    Run { what: "coming back", ring: (4, 2, 2), from: Some((0, Listening(0, &[], 2, false, &[]))), steps: &[
        Slot(YY, Listening(1, &[3], 2, false, &[])),
        Slot(YY, Listening(2, &[1, 3], 2, false, &[])),
        Slot(YY, Listening(3, WITHOUT_2, 2, false, &[])),
        Slot(NOTHING, Listening(0, &[], 2, false, WITHOUT_2)),
        Slot(YY, Listening(1, &[3], 2, false, WITHOUT_2)),
        Slot(YY, Listening(2, &[1, 3], 2, false, WITHOUT_2)),
        Slot(YY, Listening(3, WITHOUT_2, 2, false, WITHOUT_2)),
        Slot(NOTHING, Following(WITHOUT_2, WITHOUT_2, 0)),
        Slot(YY, Following(WITHOUT_2, WITHOUT_2, 0)),
        Slot(YY, Following(WITHOUT_2, WITHOUT_2, 0)),
        Slot(YY, Following(WITHOUT_2, WITHOUT_2, 0)),
        Sends(NN),
        Slot(NOTHING, Knocking(WITHOUT_2, WITHOUT_2, false)),
        Slot(YY_RETURN, Knocking(WITHOUT_2, WITHOUT_2, true)),
        Slot(YY_RETURN, Knocking(WITHOUT_2, WITHOUT_2, true)),
        Slot(YY_RETURN, Member(ALL, ALL, 0)),
        Sends(YY),
        SetUp(Member(ALL, ALL, 0)),
        SendRefused(10),
    ] },
];

/// Kept tables of four nodes that are none: "A node missing or doubled .. kept so, or with a spare place used: 4".
const NONE: &[&[u8]] = &[
    &[3, 1, 4],
    &[3, 1, 4, 4],
    &[3, 1, 4, 0],
    &[0, 3, 1, 4, 2],
    &[3, 1, 4, 5],
    &[3, 1, 4, 34],
    &[3, 1, 4, 130],
    &[3, 1, 4, 0, 2],
    &[3, 1, 4, 2, 5],
    &[3, 1, 4, 2, 3],
    &[3, 1, 4, 2, 0, 255],
    &[3, 1, 4, 2, 0, 0, 0, 0, 0, 0, 0, 0, 0, 0, 0, 0, 0, 0, 0, 0, 0, 0, 0, 0, 0, 0, 0, 0, 0, 0, 0, 1],
    &[],
];

/// Every call on a member and on a node that is out with such a table. The row of the member is that of all nodes by the
/// table 3, 1, 4, 2.
fn unsound(count: &mut Count, script: &mut Script, table: &[u8]) -> Result<(), String> {
    let chosen = Choices { order: Order::kept(table), ..Choices::plain(4, 2) };
    let what = format!("the table {table:?}");
    let member = Record::new(record(chosen, 3, 0, Member(ALL, ALL, 0)), Row::new(4, TABLE));
    see(count, script, &what, member, 4)?;
    see(count, script, &what, record(chosen, 1, 0, Out(Cause::Unconfirmed)).into(), 4)
}

pub fn single_nodes(count: &mut Count) -> Result<(), String> {
    let mut script = Script::default();
    for run in RUNS {
        follow_by(count, &mut script, (0, 0, Order::kept(TABLE)), run)?;
    }
    for table in NONE {
        unsound(count, &mut script, table)?;
    }
    compare(count, &script)
}
