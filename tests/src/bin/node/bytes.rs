//! Records of bytes that no call writes: a state past 7, a yes or no that is neither, a spare place of the row in use. A
//! refused call leaves every byte as it was.

use super::compare::compare;
use super::protocol::{Command, Script};
use comparison::model::choices::{Asked, Choices};
use comparison::model::counts::NONE;
use comparison::model::held::Record;
use comparison::model::node::{Cause, State};
use comparison::model::ring::LIMIT;
use comparison::model::slot_table::Slots;
use comparison::random::Random;
use comparison::record_bytes::{record_bytes, Reader, RECORD};
use comparison::records::{sound, STATES};
use comparison::report::Count;
use comparison::rows::use_spare;

/// The places of the state and of the three yes or no in a record's bytes.
const STATE: usize = 20;
const RETURN_HEARD: usize = 33;
const RETURN_SEEN: usize = 46;
const YES_HEARD: usize = 51;

const CALLS: &[&str] = &[
    "refused: slot",
    "refused: sending",
    "refused: off",
    "refused: restart",
    "refused: set-up",
    "refused: as a set",
];

/// Other bytes of the same record.
fn rewritten(random: &mut Random, record: &Record) -> [u8; RECORD] {
    let mut bytes = record_bytes(record);
    if record.node.state == State::Out(Cause::SwitchedOff) {
        bytes[STATE] = random.within(8, 255) as u8;
    }
    for place in [RETURN_HEARD, RETURN_SEEN, YES_HEARD] {
        if bytes[place] == 0 {
            bytes[place] = random.within(2, 255) as u8;
        }
    }
    bytes
}

/// A readable message of k = 2, all yes, no job.
const HEARD: &[u8] = &[2, 3, 1, 0, 0, 0];

/// Set-up of four nodes with this slot table.
fn with_table(slots: &[u8]) -> Asked {
    Asked { slots: Slots::new(slots), ..Choices::of(4, 2, 8, 1).into() }
}

/// Loads the bytes and makes each call that is refused. What sending and the conversion to a set leave is seen in the
/// next answer.
fn refused_calls(count: &mut Count, script: &mut Script, bytes: [u8; RECORD]) {
    let record = Reader(&bytes).record();
    let calls = [
        (CALLS[0], Command::Slot(HEARD), record.counted_slot(&mut NONE.clone(), HEARD).is_err()),
        (CALLS[1], Command::Send { room: 0, jobs: 0 }, true),
        (CALLS[5], Command::AsSet, record.as_set().is_err()),
        (CALLS[2], Command::Off, record.off().is_err()),
        (CALLS[3], Command::Restart, record.restart().is_err()),
        (CALLS[1], Command::Send { room: 0, jobs: 0 }, true),
        (CALLS[4], Command::SetUp(Choices::of(33, 2, 0, 0).into(), 1), true),
        (CALLS[4], Command::SetUp(Choices::of(4, 2, 0, 2).into(), 1), true),
        (CALLS[4], Command::SetUp(Choices::of(4, 4, 0, 0).into(), 1), true),
        (CALLS[4], Command::SetUp(Choices::of(4, 3, 0, 1).into(), 1), true),
        (CALLS[4], Command::SetUp(Choices::of(4, 2, 9, 1).into(), 1), true),
        (CALLS[4], Command::SetUp(with_table(&[1, 2, 3]), 1), true),
        (CALLS[4], Command::SetUp(with_table(&[1, 2, 3, 3]), 1), true),
        (CALLS[4], Command::SetUp(Choices::of(4, 2, 8, 1).into(), 5), true),
    ];
    script.load_bytes(bytes);
    for (name, call, refused) in calls {
        if refused {
            count.event(name);
            script.push(&call);
        }
    }
}

/// Sound records below the limit and at it, and ones that are not sound; after the refused calls one that
/// may be done, which writes the record anew.
pub fn left_by_refusals(count: &mut Count) -> Result<(), String> {
    let mut random = Random::new(24);
    let mut script = Script::default();
    let mut few = [0; RECORD];
    (few[STATE], few[RETURN_HEARD], few[RETURN_SEEN], few[YES_HEARD]) = (9, 5, 2, 3);
    refused_calls(count, &mut script, few);
    for state in STATES {
        for i in 0..4 * 500 {
            let mut record = Record::from(sound(&mut random, state));
            match i % 4 {
                0 => record.node.slots = LIMIT,
                1 => record.node.listening.done = record.node.chosen.n,
                2 => use_spare(&mut random, &mut record),
                _ => {}
            }
            refused_calls(count, &mut script, rewritten(&mut random, &record));
            script.push(&[Command::Slot(&[]), Command::Off, Command::Restart][random.below(3) as usize]);
        }
    }
    count.needs(CALLS)?;
    compare(count, &script)
}
