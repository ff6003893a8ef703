//! Ledgers that are lent as they stand. What the model answers is checked against request a's words here, and
//! the program's answers against the model's.

use super::compare::{compare, OFFS};
use super::figures;
use super::protocol::{Call, Command, ENTRIES};
use super::script::Script;
use super::tables::{self, sound_table};
use comparison::events::KINDS;
use comparison::model::ledger::Figures;
use comparison::model::node::{Node, State};
use comparison::model::ring::LIMIT;
use comparison::random::Random;
use comparison::records::{sound_of, STATES};
use comparison::report::Count;

const SLOT: Call = Call::Slot { lost: false, missed: 0, jobs: 0 };

/// A call, and the refusal's number by request a, or 0.
fn answered(
    count: &mut Count,
    random: &mut Random,
    script: &mut Script,
    (call, expected): (Call, u8),
) -> Result<(), String> {
    let number = script.call(random, call);
    count.check(number == expected, || format!("{number} by the model, not {expected}"))
}

/// Every length there is, for every n; a number past 33 counts as 33, and before the first no entry is lent.
pub fn lengths(count: &mut Count) -> Result<(), String> {
    let mut random = Random::new(111);
    let mut script = Script::new();
    script.load_rows(&mut random, &tables::all_leave(3));
    answered(count, &mut random, &mut script, (SLOT, 13))?;
    for n in 3..=32 {
        for length in (0..=35).chain([64, 255]) {
            let (chosen, slots) = tables::ring_of(&mut random, n);
            let table = sound_table(&mut random, (chosen, slots));
            script.load(&mut random, &table);
            script.push(Command::Lend(length));
            let expected = if u32::from(length) == n { 0 } else { 13 };
            answered(count, &mut random, &mut script, (SLOT, expected))?;
            answered(count, &mut random, &mut script, (Call::Off(n), expected))?;
            // No other call tests it.
            script.call(&mut random, Call::Restart(n));
            answered(count, &mut random, &mut script, (Call::Look { lost: false }, 0))?;
            answered(count, &mut random, &mut script, (Call::SetUp(chosen.into()), 0))?;
        }
    }
    compare(count, &script.commands)
}

/// Which of the three figures.
#[derive(Clone, Copy, PartialEq, Eq)]
enum Which {
    Left,
    Joined,
    Last,
}

/// An entry of zeros but for this figure.
fn only(which: Which, number: u64) -> Figures {
    match which {
        Which::Left => Figures { left: number, ..Figures::default() },
        Which::Joined => Figures { joined: number, ..Figures::default() },
        Which::Last => Figures { last: number, ..Figures::default() },
    }
}

/// Numbers around the slot count plus one, ones that look small if high bytes are lost, and the last one.
fn numbers(slots: u64) -> [u64; 7] {
    [slots, slots + 1, slots + 2, 1 << 32, 1 << 56, u64::MAX - 1, u64::MAX]
}

/// Slot and off, lent zeros but for this figure of the entry in this place.
fn edge(
    count: &mut Count,
    random: &mut Random,
    script: &mut Script,
    (table, place): (&[Node], usize),
    (which, number): (Which, u64),
) -> Result<(), String> {
    let (n, slots) = (table.len(), table[0].slots);
    let fits = place >= n || which == Which::Last || number <= slots + 1;
    let slot = if slots == LIMIT { 5 } else { 0 };
    for (call, taken) in [(SLOT, slot), (Call::Off(place as u32 % n as u32 + 1), 0)] {
        script.load_rows(random, table);
        script.lend(random, &vec![Figures::default(); n]);
        script.push(Command::Enter(place as u8, only(which, number)));
        answered(count, random, script, (call, if fits { taken } else { 13 }))?;
    }
    Ok(())
}

/// The entry is the first, a middle, the last, or the one after those lent.
pub fn edges(count: &mut Count) -> Result<(), String> {
    let mut random = Random::new(112);
    let mut script = Script::new();
    for n in [3, 4, 17, 32] {
        for slots in [0, 1, 300, LIMIT - 1, LIMIT] {
            let (chosen, _) = tables::ring_of(&mut random, n as u32);
            let table = sound_table(&mut random, (chosen, slots));
            for place in [0, n / 2, n - 1, n] {
                for which in [Which::Left, Which::Joined, Which::Last] {
                    for number in numbers(slots) {
                        edge(count, &mut random, &mut script, (&table, place), (which, number))?;
                    }
                }
            }
        }
    }
    compare(count, &script.commands)
}

/// Each entry in turn has a count that does not fit; the ones after those lent are no matter.
pub fn every_entry(count: &mut Count) -> Result<(), String> {
    let mut random = Random::new(113);
    let mut script = Script::new();
    for n in 3..=32 {
        let (chosen, slots) = tables::ring_of(&mut random, n as u32);
        let table = sound_table(&mut random, (chosen, slots));
        for place in 0..ENTRIES {
            script.load(&mut random, &table);
            let past = slots + 2 + random.below(2);
            let which = if random.bit() { Which::Left } else { Which::Joined };
            script.push(Command::Enter(place as u8, only(which, past)));
            let expected = if place < n { 13 } else { 0 };
            let x = random.within(1, n as u64) as u32;
            answered(count, &mut random, &mut script, (SLOT, expected))?;
            answered(count, &mut random, &mut script, (Call::Off(x), expected))?;
        }
        // No entry has these numbers.
        for entry in [33, 34, 64, 255] {
            script.push(Command::Enter(entry, only(Which::Left, u64::MAX)));
        }
        answered(count, &mut random, &mut script, (Call::Look { lost: false }, 0))?;
    }
    compare(count, &script.commands)
}

/// The model's entries after a call, by request a.
fn kept(count: &mut Count, script: &Script, expected: &[Figures]) -> Result<(), String> {
    let got = script.entries();
    count.check(got == expected, || format!("by the model {got:?}\n        expected     {expected:?}"))
}

/// `off` adds to the count of a member alone, "dated with the slots done so far".
pub fn offs(count: &mut Count) -> Result<(), String> {
    let mut random = Random::new(114);
    let mut script = Script::new();
    for state in STATES.repeat(60) {
        let (chosen, slots) = tables::ring(&mut random);
        let x = random.within(1, u64::from(chosen.n)) as u32;
        let mut table = sound_table(&mut random, (chosen, slots));
        table[x as usize - 1] = sound_of(&mut random, state, (chosen, x), slots);
        script.load(&mut random, &table);
        let mut expected = script.entries().to_vec();
        if state == State::Member {
            let figures = &mut expected[x as usize - 1];
            *figures = Figures { left: figures.left + 1, last: slots, ..*figures };
        }
        // Restart and look change no figure.
        for call in [Call::Off(x), Call::Restart(x), Call::Look { lost: false }] {
            answered(count, &mut random, &mut script, (call, 0))?;
            kept(count, &script, &expected)?;
        }
    }
    compare(count, &script.commands)?;
    count.needs(&OFFS)
}

/// An off that takes a count past the slot count plus one; it is kept, and then slot and off are refused.
pub fn off_past(count: &mut Count) -> Result<(), String> {
    let mut random = Random::new(117);
    let mut script = Script::new();
    for _ in 0..200 {
        let (chosen, slots) = tables::ring(&mut random);
        let x = random.within(1, u64::from(chosen.n)) as u32;
        let mut table = sound_table(&mut random, (chosen, slots));
        table[x as usize - 1] = sound_of(&mut random, State::Member, (chosen, x), slots);
        script.load(&mut random, &table);
        let joined = random.below(slots + 2);
        script.push(Command::Enter(x as u8 - 1, Figures { left: slots + 1, joined, last: 0 }));
        let mut expected = script.entries().to_vec();
        expected[x as usize - 1] = Figures { left: slots + 2, joined, last: slots };
        let look = Call::Look { lost: false };
        let calls =
            [(Call::Off(x), 0), (SLOT, 13), (Call::Off(x), 13), (Call::Restart(x), 0), (SLOT, 13), (look, 0)];
        for call in calls {
            answered(count, &mut random, &mut script, call)?;
            kept(count, &script, &expected)?;
        }
    }
    compare(count, &script.commands)
}

/// All nodes leave in slot 1. A count that was the slot count plus one is so again: no slot is refused for it.
pub fn all_leave(count: &mut Count) -> Result<(), String> {
    let mut random = Random::new(115);
    let mut script = Script::new();
    for n in 3..=32 {
        script.load(&mut random, &tables::all_leave(n));
        let mut expected = script.entries().to_vec();
        for figures in &mut expected[..n as usize] {
            *figures = Figures { left: figures.left + 1, last: 1, ..*figures };
        }
        for call in [Call::Slot { lost: true, missed: 0, jobs: 0 }, SLOT, Call::Off(n), SLOT] {
            answered(count, &mut random, &mut script, (call, 0))?;
            kept(count, &script, &expected)?;
        }
    }
    compare(count, &script.commands)?;
    count.needs(&KINDS[..1])
}

/// Any small ledger; the tables have run few slots, so that the counts fit or not.
pub fn small(count: &mut Count) -> Result<(), String> {
    let mut random = Random::new(116);
    let mut script = Script::new();
    for _ in 0..1_200 {
        let (chosen, _) = tables::ring(&mut random);
        let slots = random.below(3);
        let table = sound_table(&mut random, (chosen, slots));
        script.load_rows(&mut random, &table);
        let ledger = figures::small(&mut random, table.len());
        script.lend(&mut random, &ledger);
        script.every_call(&mut random, chosen);
    }
    compare(count, &script.commands)?;
    count.needs(&OFFS)?;
    count.needs(&KINDS)
}
