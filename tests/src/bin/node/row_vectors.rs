//! Rows typed from request l on cables without jobs and lag: of sets, after calls, and damaged ones, which every call
//! refuses by 4; neither side makes an expected answer.

use super::compare::compare;
use super::protocol::{run_by_model, Command, Held, Script};
use super::vectors::{Bytes, NN, NOTHING, NY, YN, YY, YY_RETURN};
use comparison::model::choices::Choices;
use comparison::model::held::Record;
use comparison::model::node::Node;
use comparison::model::ring::Set;
use comparison::model::row::Row;
use comparison::model::slot_table::Order;
use comparison::record_bytes::shown_held;
use comparison::report::Count;
use comparison::typed_rows::{self, record_of, BACKWARDS, TABLE};

const PLAIN: &[u8] = &[1, 2, 3, 4];
const FIVE: &[u8] = &[5, 2, 4, 1, 3];

/// A slot table, a set by rising number, and its row.
#[rustfmt::skip]
const SETS: &[(&[u8], &[u32], &[u8])] = &[
    (PLAIN, &[], &[]),
    (PLAIN, &[2, 4], &[2, 4]),
    (PLAIN, &[1, 2, 3, 4], &[1, 2, 3, 4]),
    (TABLE, &[], &[]),
    (TABLE, &[4], &[4]),
    (TABLE, &[1, 2], &[1, 2]),
    (TABLE, &[1, 3], &[3, 1]),
    (TABLE, &[2, 3], &[3, 2]),
    (TABLE, &[2, 4], &[4, 2]),
    (TABLE, &[1, 2, 3], &[3, 1, 2]),
    (TABLE, &[1, 2, 4], &[1, 4, 2]),
    (TABLE, &[1, 2, 3, 4], &[3, 1, 4, 2]),
    (FIVE, &[1, 2, 3], &[2, 1, 3]),
    (FIVE, &[3, 5], &[5, 3]),
    (FIVE, &[1, 2, 3, 4, 5], &[5, 2, 4, 1, 3]),
    (BACKWARDS, &[1, 32], &[32, 1]),
    (BACKWARDS, &[1, 2, 17, 31], &[31, 17, 2, 1]),
];

/// The row of each set, and the set of each row.
pub fn sets(count: &mut Count) -> Result<(), String> {
    let mut script = Script::default();
    for &(slots, set, members) in SETS {
        let (node, row) = (record_of(slots, set), Row::new(members.len() as u32, members));
        let held = Record::from(node);
        count.check(held.row == row, || format!("{slots:?}, {set:?}: {} by the model", shown_held(&held)))?;
        let back = Record::new(Node { set: Set::EMPTY, ..node }, row).as_set();
        count.check(back == Ok(node), || {
            format!("{slots:?}, {members:?}: not the set {set:?} by the model")
        })?;
        script.push(&Command::Hold(node));
        script.push(&Command::AsSet);
        script.load(Record::new(node, row));
        script.push(&Command::AsSet);
        script.push(&Command::Slot(NOTHING));
    }
    compare(count, &script)
}

enum Step {
    SetUp,
    Slot(Bytes),
    Off,
    Restart,
}

use Step::{Off, Restart, SetUp, Slot};

/// The own number, and steps on a cable of the table 3, 1, 4, 2, k = 2, each with the row after it.
type Run = (u32, &'static [(Step, &'static [u8])]);

#[rustfmt::skip]
const RUNS: &[Run] = &[
    // Slot 2 is lost, that of node 1: it leaves in slot 4, which is node 2's, and those after it move up. It knocks in
    // slot 6 and joins in slot 9, that of node 3: it stands in its old place.
    (3, &[
        (SetUp, &[3, 1, 4, 2]), (Slot(NOTHING), &[3, 1, 4, 2]), (Slot(NOTHING), &[3, 1, 4, 2]), (Slot(NY), &[3, 1, 4, 2]),
        (Slot(YN), &[3, 4, 2]), (Slot(NOTHING), &[3, 4, 2]), (Slot(NN), &[3, 4, 2]), (Slot(YY_RETURN), &[3, 4, 2]),
        (Slot(YY_RETURN), &[3, 4, 2]), (Slot(NOTHING), &[3, 1, 4, 2]), (Off, &[]), (Restart, &[]),
    ]),
    // The first in the row leaves: slot 1 is lost, that of node 3, and node 4 decides it in slot 3.
    (2, &[
        (SetUp, &[3, 1, 4, 2]), (Slot(NOTHING), &[3, 1, 4, 2]), (Slot(NY), &[3, 1, 4, 2]), (Slot(YN), &[1, 4, 2]),
        (Slot(NOTHING), &[1, 4, 2]),
    ]),
    // Node 2 leaves by itself: its own message is lost, in slot 4, and nodes 3 and 1 say no.
    (2, &[
        (SetUp, &[3, 1, 4, 2]), (Slot(YY), &[3, 1, 4, 2]), (Slot(YY), &[3, 1, 4, 2]), (Slot(YY), &[3, 1, 4, 2]),
        (Slot(NOTHING), &[3, 1, 4, 2]), (Slot(NY), &[3, 1, 4, 2]), (Slot(YN), &[]),
        // It hears 3, 1 and 4 in two windows from slot 7 on and follows them; in slot 16 it knocks, in slot 19 it joins.
        (Restart, &[]), (Slot(YY), &[]), (Slot(NOTHING), &[]), (Slot(YY), &[]), (Slot(YY), &[]),
        (Slot(YY), &[]), (Slot(NOTHING), &[]), (Slot(YY), &[]), (Slot(YY), &[3, 1, 4]),
        (Slot(YY), &[3, 1, 4]), (Slot(NOTHING), &[3, 1, 4]), (Slot(YY_RETURN), &[3, 1, 4]), (Slot(YY_RETURN), &[3, 1, 4]),
        (Slot(YY_RETURN), &[3, 1, 4, 2]),
    ]),
];

/// The rows after calls: the model against what is typed; the script is for the program.
pub fn runs(count: &mut Count) -> Result<(), String> {
    let mut script = Script::default();
    let chosen = Choices { order: Order::kept(TABLE), ..Choices::plain(4, 2) };
    for &(own, steps) in RUNS {
        let (mut held, mut answer) = (Held::first(), Vec::new());
        for (i, (step, members)) in steps.iter().enumerate() {
            let command = match *step {
                SetUp => Command::SetUp(chosen.into(), own),
                Slot(bytes) => Command::Slot(bytes),
                Off => Command::Off,
                Restart => Command::Restart,
            };
            let number = run_by_model(&mut held, &command, &mut answer);
            let same = number == Some(0) && held.record.row == Row::new(members.len() as u32, members);
            count.check(same, || {
                format!("node {own}, step {}: {number:?}, {} by the model", i + 1, shown_held(&held.record))
            })?;
            script.push(&command);
        }
    }
    compare(count, &script)
}

/// Every call on the record is answered by this number, but that a sound one refuses to send (10) or to be restarted
/// (11). The answer of off, which comes next, shows what a refused call leaves.
pub fn see(
    count: &mut Count,
    script: &mut Script,
    name: &str,
    record: Record,
    expected: u32,
) -> Result<(), String> {
    for call in [
        Command::AsSet,
        Command::Slot(NOTHING),
        Command::Slot(YY),
        Command::Send { room: 10, jobs: 0 },
        Command::Restart,
        Command::Off,
    ] {
        let mut held = Held::first();
        held.record = record;
        let number = run_by_model(&mut held, &call, &mut Vec::new()).unwrap_or(0);
        let others: &[u32] = match (&call, expected) {
            (Command::Send { .. }, 0) => &[10],
            (Command::Restart, 0) => &[0, 11],
            _ => &[expected],
        };
        count.check(others.contains(&number), || format!("{name}: {number} by the model"))?;
        script.load(record);
        script.push(&call);
        script.push(&Command::Off);
    }
    Ok(())
}

/// Damaged rows in records that are sound but for them.
pub fn damaged(count: &mut Count) -> Result<(), String> {
    let mut script = Script::default();
    for (name, record) in typed_rows::sound() {
        see(count, &mut script, name, record, 0)?;
    }
    for (name, record) in typed_rows::damaged() {
        see(count, &mut script, name, record, 4)?;
    }
    compare(count, &script)
}
