//! Records that are loaded as they stand: sound ones that no run need reach, and ones that are not.

use super::compare::compare;
use super::protocol::{Command, Script};
use super::{events, heard};
use comparison::messages::job_byte;
use comparison::model::held::Record;
use comparison::model::node::{Node, State};
use comparison::random::Random;
use comparison::record_bytes::{shown_held, shown_record};
use comparison::records::{broken, clauses, disturb, sound, BREAKS, STATES};
use comparison::report::Count;

/// What slots on any sound record must meet, beyond what cables meet.
const BEYOND_CABLES: &[&str] = &[
    "knocking: silent in the own slot",
    "repeat: as many are sponsored",
    "repeat: following",
    "repeat: knocking",
    "out: counts a slot",
    "listening: goes on",
];

/// Loads the record; then one to three slots, and sometimes another call.
fn slots_on(count: &mut Count, random: &mut Random, script: &mut Script, mut node: Node) {
    script.load(node);
    for _ in 0..random.within(1, 3) {
        let bytes = heard::anything(random, (node.chosen.k, node.chosen.m));
        script.push(&Command::Slot(&bytes));
        if let Ok(next) = node.slot(&bytes) {
            events::slot(count, &node, &next, &bytes);
            node = next;
        }
    }
    match random.below(8) {
        0 => script.push(&Command::Off),
        1 => script.push(&Command::Restart),
        2 => {
            let (room, jobs) = (random.below(12) as u8, job_byte(random, node.chosen.m));
            script.push(&Command::Send { room, jobs });
        }
        _ => {}
    }
}

pub fn sound_in_every_state(count: &mut Count) -> Result<(), String> {
    let mut random = Random::new(21);
    let mut script = Script::default();
    for state in STATES {
        let times = if matches!(state, State::Out(_)) { 3_000 } else { 60_000 };
        for _ in 0..times {
            let node = sound(&mut random, state);
            count.check(node.is_sound(), || format!("not sound: {}", shown_record(&node)))?;
            slots_on(count, &mut random, &mut script, node);
        }
    }
    let of_slots =
        events::OF_CABLES.iter().filter(|name| !name.starts_with("off") && !name.starts_with("restart"));
    count.needs(events::OF_CABLES_WITHOUT_LAG)?;
    count.needs(events::OF_CABLES_WITH_LAG)?;
    count.needs(&of_slots.chain(BEYOND_CABLES).chain(events::OF_OTHER_M).copied().collect::<Vec<_>>())?;
    compare(count, &script)
}

/// Every call on the record, each time loaded anew, with bytes and rooms right and wrong.
pub fn every_call(random: &mut Random, script: &mut Script, record: &Record) {
    let node = &record.node;
    let bytes = heard::readable(random, (node.chosen.k.clamp(2, 31), node.chosen.m.min(8)));
    let room = random.below(12) as u8;
    let jobs = if random.below(4) == 0 { random.byte() } else { job_byte(random, node.chosen.m.min(8)) };
    for call in [
        Command::Slot(&bytes),
        Command::Slot(&[]),
        Command::Send { room: 0, jobs },
        Command::Send { room, jobs: 0 },
        Command::Send { room: 12, jobs },
        Command::Off,
        Command::Restart,
        Command::AsSet,
    ] {
        script.load(*record);
        script.push(&call);
    }
}

/// Every call on a record that breaks these clauses and no other.
pub fn push_broken(
    count: &mut Count,
    random: &mut Random,
    script: &mut Script,
    (record, breaks): (&Record, &[&str]),
) -> Result<(), String> {
    let broken = broken(record);
    count.check(broken == breaks, || format!("breaks {broken:?}, not {breaks:?}: {}", shown_held(record)))?;
    broken.iter().for_each(|says| count.event(says));
    every_call(random, script, record);
    Ok(())
}

pub fn unsound_in_one_clause(count: &mut Count) -> Result<(), String> {
    let mut random = Random::new(22);
    let mut script = Script::default();
    for case in BREAKS {
        for &state in case.states {
            for _ in 0..150 {
                let node = sound(&mut random, state);
                if let Some(record) = case.of(&mut random, node) {
                    push_broken(count, &mut random, &mut script, (&record, case.breaks))?;
                }
            }
        }
    }
    count.needs(&clauses())?;
    compare(count, &script)
}

/// Yes heard, in each of the five states.
const YES_HEARD: [&str; 5] = [
    "yes heard: member",
    "yes heard: listening",
    "yes heard: following",
    "yes heard: knocking",
    "yes heard: out",
];

fn note_yes_heard(count: &mut Count, node: &Node) {
    if node.yes_heard {
        count.event(match node.state {
            State::Member => YES_HEARD[0],
            State::Listening => YES_HEARD[1],
            State::Following => YES_HEARD[2],
            State::Knocking => YES_HEARD[3],
            State::Out(_) => YES_HEARD[4],
        });
    }
}

/// Records of small and wild values: most are not sound, in many clauses at once.
pub fn wild(count: &mut Count) -> Result<(), String> {
    let mut random = Random::new(23);
    let mut script = Script::default();
    for _ in 0..30_000 {
        let state = STATES[random.below(8) as usize];
        let mut record = sound(&mut random, state).into();
        for _ in 0..random.below(4) {
            disturb(&mut random, &mut record);
        }
        count.event(if record.is_sound() { "sound" } else { "not sound" });
        note_yes_heard(count, &record.node);
        every_call(&mut random, &mut script, &record);
    }
    count.needs(&YES_HEARD)?;
    compare(count, &script)
}

/// The sender of the next slot is this node.
pub fn own_slot_next(node: &Node) -> bool {
    node.next_sender() == node.own
}
