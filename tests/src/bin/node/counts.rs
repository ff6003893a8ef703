//! Counts of reports: runs of cables after each call of which they are asked for, and counts that are set as they
//! stand. What the model answers to these is checked against request h's words here, and the program's answers against
//! the model's.

use super::compare::compare;
use super::events::{self, OWN_REPORT};
use super::heard;
use super::protocol::{Command, Script};
use super::runs;
use super::tally::TALLIES;
use comparison::events::{COUNTED, UNCOUNTED};
use comparison::model::choices::Choices;
use comparison::model::counts::NONE;
use comparison::model::node::{Node, State};
use comparison::model::ring::LIMIT;
use comparison::random::Random;
use comparison::record_bytes::record_bytes;
use comparison::records::{choices_of, sound, spoil, STATES};
use comparison::report::Count;

/// Every n and m; the bytes of one run in two are tampered with.
pub fn cables(count: &mut Count) -> Result<(), String> {
    let mut random = Random::new(41);
    let mut script = Script::default();
    for n in 3..=32_u32 {
        for (m, tampered) in [(n % 9, 0), ((n + 4) % 9, 8)] {
            let chosen = Choices { m, ..choices_of(&mut random, n) };
            let kind = runs::Kind { slots: 1_200 / n + 4 * n, calm: 3 * n, tampered };
            runs::watched(count, &mut random, chosen, &kind).into_script(&mut script);
        }
    }
    // A following or knocking node seldom leaves as it hears a report: that is met by records.
    count.needs(&[&COUNTED[..4], &COUNTED[5..7], &UNCOUNTED].concat())?;
    count.needs(&[OWN_REPORT])?;
    count.needs(&["off: of a member", "restart: after cause 1", "knocking: joins"])?;
    compare(count, &script)?;
    count.needs(TALLIES)
}

/// A slot with this count in this place, all others 0, and the counts after it: it is refused by 4 just if the count
/// is above the slot count.
fn edge(
    count: &mut Count,
    random: &mut Random,
    script: &mut Script,
    node: &Node,
    (row, job, number): (u8, u8, u64),
) -> Result<(), String> {
    let bytes = heard::readable(random, (node.chosen.k, node.chosen.m));
    let mut counts = NONE;
    counts[usize::from(row)][usize::from(job)] = number;
    let got = node.counted_slot(&mut counts, &bytes).err().unwrap_or(0);
    let taken = if node.slots == LIMIT { 5 } else { 0 };
    let expected = if number > node.slots { 4 } else { taken };
    count.check(got == expected, || format!("{got} by the model, not {expected}"))?;
    script.load(*node);
    script.push(&Command::Count { row, job, count: number });
    script.push(&Command::Slot(&bytes));
    script.push(&Command::Counts);
    Ok(())
}

/// Every row and place in every state, each with counts at the slot count and past it.
pub fn edges(count: &mut Count) -> Result<(), String> {
    let mut random = Random::new(42);
    let mut script = Script::default();
    for state in STATES {
        for place in 0..=255 {
            let mut node = sound(&mut random, state);
            if random.below(8) == 0 {
                node.slots = LIMIT;
            }
            let (row, job) = (place / 8, place % 8);
            let wild =
                [1 << 32, 1 << 56, u64::MAX - 1, u64::MAX][random.below(4) as usize].max(node.slots + 1);
            for number in [node.slots, node.slots + 1, wild] {
                edge(count, &mut random, &mut script, &node, (row, job, number))?;
            }
        }
    }
    // No count has these places.
    for (row, job) in [(32, 0), (0, 8), (255, 255), (40, 7), (31, 8)] {
        script.push(&Command::Count { row, job, count: u64::MAX });
        script.push(&Command::Counts);
    }
    // A record that is loaded leaves the counts.
    script.push(&Command::Count { row: 31, job: 7, count: 1 });
    script.push(&Command::Load(record_bytes(&sound(&mut random, State::Member).into())));
    script.push(&Command::Counts);
    compare(count, &script)
}

/// The causes of a slot's refusal: each has its bit, 5, 4 by a count, 4 by the record.
const CAUSES: [&str; 8] = [
    "slot: no cause",
    "slot: 5",
    "slot: 4 by a count",
    "slot: 4 by a count, 5",
    "slot: 4",
    "slot: 4, 5",
    "slot: 4, 4 by a count",
    "slot: 4, 4 by a count, 5",
];

/// Several causes at once; every call leaves the counts but a slot that is run. Off and restart take none.
pub fn order(count: &mut Count) -> Result<(), String> {
    let mut random = Random::new(43);
    let mut script = Script::default();
    for (state, i) in STATES.iter().flat_map(|&state| (0..8 * 12).map(move |i| (state, i))) {
        let mut node = sound(&mut random, state);
        node.slots = if i & 1 == 1 { LIMIT } else { node.slots };
        let slots = node.slots;
        let mut record = node.into();
        if i & 4 == 4 {
            spoil(&mut random, &mut record);
        }
        script.load(record);
        for _ in 0..random.below(4) {
            any_count(&mut random, &mut script, slots);
        }
        if i & 2 == 2 {
            let (row, job) = (random.below(32) as u8, random.below(8) as u8);
            script.push(&Command::Count { row, job, count: slots + 1 + random.below(2) });
        }
        count.event(CAUSES[i & 7]);
        every_call(&mut random, &mut script, &node);
    }
    count.needs(&CAUSES)?;
    compare(count, &script)
}

/// A count that fits.
fn any_count(random: &mut Random, script: &mut Script, slots: u64) {
    let (row, job) = (random.below(32) as u8, random.below(8) as u8);
    script.push(&Command::Count { row, job, count: random.below(slots + 1) });
}

/// Each call, and the counts after it.
fn every_call(random: &mut Random, script: &mut Script, node: &Node) {
    let bytes = heard::readable(random, (node.chosen.k.clamp(2, 31), node.chosen.m.min(8)));
    for call in [
        Command::Slot(&bytes),
        Command::Send { room: 12, jobs: 0 },
        Command::Slot(&[]),
        Command::Restart,
        Command::Off,
        Command::Restart,
        Command::Slot(&bytes),
        Command::SetUp(Choices::of(4, 2, 8, 2).into(), 1),
        Command::SetUp(Choices::of(4, 2, 9, 1).into(), 1),
        Command::SetUp(Choices::of(4, 2, 8, 1).into(), 1),
    ] {
        script.push(&call);
        script.push(&Command::Counts);
    }
}

/// Any sound record beside any counts that fit: slots with any bytes, the counts after each.
pub fn records(count: &mut Count) -> Result<(), String> {
    let mut random = Random::new(44);
    let mut script = Script::default();
    for state in STATES {
        for _ in 0..if matches!(state, State::Out(_)) { 200 } else { 2_500 } {
            let mut node = sound(&mut random, state);
            script.load(node);
            for _ in 0..random.below(6) {
                any_count(&mut random, &mut script, node.slots);
            }
            for _ in 0..random.within(1, 2) {
                let bytes = heard::anything(&mut random, (node.chosen.k, node.chosen.m));
                script.push(&Command::Slot(&bytes));
                script.push(&Command::Counts);
                let next = node.slot(&bytes).expect("a sound record below the limit");
                events::slot(count, &node, &next, &bytes);
                node = next;
            }
        }
    }
    count.needs(&COUNTED)?;
    count.needs(&UNCOUNTED)?;
    count.needs(&[OWN_REPORT])?;
    compare(count, &script)
}
