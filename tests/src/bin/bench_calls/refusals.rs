//! Set-up's arguments, and several causes of refusal at once.

use super::compare::compare;
use super::figures;
use super::protocol::{Call, Command, ROWS};
use super::script::{any_record, no_node, Script, ENOUGH, SHORT};
use super::tables::sound_records;
use comparison::causes::Causes;
use comparison::model::choices::Choices;
use comparison::model::held::Record;
use comparison::model::node::State;
use comparison::model::ring::LIMIT;
use comparison::numbers::{no_job_counts, no_lags};
use comparison::random::Random;
use comparison::records::{choices_of, sound_of, spoil};
use comparison::report::Count;

/// Every number of rows, for every n and k that could be one and a few that could not; m and the lag are in range and
/// out of it. Any ledger is lent, and mostly as many arrays of counts.
pub fn set_up(count: &mut Count) -> Result<(), String> {
    let mut random = Random::new(96);
    let mut script = Script::new();
    let counts: Vec<u32> = (0..=8).chain(no_job_counts()).collect();
    // Of those that are none a small one leaves room for a k in range.
    let lags: Vec<u32> = [0, 1, 0, 1, 2, 3].repeat(3).into_iter().chain(no_lags()).collect();
    for size in (0..=36).chain([255]) {
        for row in 0..ROWS {
            let node = any_record(&mut random);
            script.push(Command::Load(row as u8, node));
        }
        script.push(Command::Size(size));
        let ledger = figures::small(&mut random, usize::from(size));
        script.lend(&mut random, &ledger);
        script.push(Command::Arrays(if random.below(4) == 0 { random.below(36) as u8 } else { size }));
        for n in (0..=34).chain([64, 256 + 4, 1 << 31, u32::MAX]) {
            let near = n.wrapping_sub(1);
            for k in [0, 1, 2, 3, near.wrapping_sub(1), near, n, 31, 32, 256 + 2, u32::MAX] {
                let room = if random.bit() { 0 } else { ENOUGH[random.below(6) as usize] };
                let m = counts[random.below(counts.len() as u64) as usize];
                let lag = lags[random.below(lags.len() as u64) as usize];
                let chosen = Choices::of(n, k, m, lag);
                let (causes, first) = set_up_causes(chosen, script.lent());
                count.event(causes);
                let told = script.push(Command::Call(Call::SetUp(chosen.into()), room));
                let number = told.map_or(0, |told| told.number);
                count.check(number == first, || {
                    format!("{chosen:?}: {number} by the model, not the first of {causes}")
                })?;
            }
        }
    }
    // There are 32 rows: where n is out of range, either they are not so many, or no k is in range.
    let met = SET_UP.iter().enumerate().filter(|(causes, _)| causes & 0b10101 != 0b10000);
    count.needs(&met.map(|(_, name)| *name).collect::<Vec<_>>())?;
    compare(count, &script.commands)
}

/// The causes of a set-up; each number has its bit: 4, 14, 2, 16, 1.
const SET_UP: [&str; 32] = [
    "set-up: no cause",
    "set-up: 4",
    "set-up: 14",
    "set-up: 14, 4",
    "set-up: 2",
    "set-up: 2, 4",
    "set-up: 2, 14",
    "set-up: 2, 14, 4",
    "set-up: 16",
    "set-up: 16, 4",
    "set-up: 16, 14",
    "set-up: 16, 14, 4",
    "set-up: 16, 2",
    "set-up: 16, 2, 4",
    "set-up: 16, 2, 14",
    "set-up: 16, 2, 14, 4",
    "set-up: 1",
    "set-up: 1, 4",
    "set-up: 1, 14",
    "set-up: 1, 14, 4",
    "set-up: 1, 2",
    "set-up: 1, 2, 4",
    "set-up: 1, 2, 14",
    "set-up: 1, 2, 14, 4",
    "set-up: 1, 16",
    "set-up: 1, 16, 4",
    "set-up: 1, 16, 14",
    "set-up: 1, 16, 14, 4",
    "set-up: 1, 16, 2",
    "set-up: 1, 16, 2, 4",
    "set-up: 1, 16, 2, 14",
    "set-up: 1, 16, 2, 14, 4",
];

/// The causes that apply, and the number of the first of them.
fn set_up_causes(chosen: Choices, lent: (usize, usize)) -> (&'static str, u8) {
    let Choices { n, k, m, lag, .. } = chosen;
    let wide = i64::from;
    let causes = [
        (1, !(3..=32).contains(&n)),
        (16, lag > 1),
        (2, k < 2 || wide(k) > wide(n) - 1 - wide(lag)),
        (14, m > 8),
        (4, lent != (n as usize, n as usize)),
    ];
    let bits = causes.iter().fold(0, |bits, cause| 2 * bits + usize::from(cause.1));
    (SET_UP[bits], causes.iter().find(|cause| cause.1).map_or(0, |cause| cause.0))
}

const CAUSES: [&str; 32] = [
    "slot: no cause",
    "slot: 9",
    "slot: 5",
    "slot: 5, 9",
    "slot: 13",
    "slot: 13, 9",
    "slot: 13, 5",
    "slot: 13, 5, 9",
    "slot: 3",
    "slot: 3, 9",
    "slot: 3, 5",
    "slot: 3, 5, 9",
    "slot: 3, 13",
    "slot: 3, 13, 9",
    "slot: 3, 13, 5",
    "slot: 3, 13, 5, 9",
    "slot: 4",
    "slot: 4, 9",
    "slot: 4, 5",
    "slot: 4, 5, 9",
    "slot: 4, 13",
    "slot: 4, 13, 9",
    "slot: 4, 13, 5",
    "slot: 4, 13, 5, 9",
    "slot: 4, 3",
    "slot: 4, 3, 9",
    "slot: 4, 3, 5",
    "slot: 4, 3, 5, 9",
    "slot: 4, 3, 13",
    "slot: 4, 3, 13, 9",
    "slot: 4, 3, 13, 5",
    "slot: 4, 3, 13, 5, 9",
];

/// A table for these causes, 4 and 5, in which node x is out or is not.
fn table(random: &mut Random, (chosen, x): (Choices, u32), unsound: bool, at_limit: bool) -> Vec<Record> {
    let slots = if at_limit { LIMIT } else { random.below(LIMIT) };
    let mut table = sound_records(random, (chosen, slots));
    if random.bit() {
        table[x as usize - 1] = sound_of(random, State::Member, (chosen, x), slots).into();
    }
    if unsound {
        let row = random.below(u64::from(chosen.n)) as usize;
        spoil(random, &mut table[row]);
    }
    table
}

const OFF: Causes = Causes { numbers: &[4, 3, 13], pairs: &["off: 4 and 3", "off: 3 and 13"] };

/// 11 comes after these; it is said of a node that there is.
const RESTART: Causes = Causes { numbers: &[4, 3], pairs: &["restart: 4 and 3"] };

/// The first cause of an off or a restart that applies, if it is one of these: not sound, no such node, a ledger that
/// does not fit.
fn first(count: &mut Count, call: Call, causes: &[bool; 3]) -> u32 {
    match call {
        Call::Off(_) => OFF.first(count, causes),
        Call::Restart(_) => RESTART.first(count, &causes[..2]),
        _ => 0,
    }
}

/// Every choice of causes for a slot, and of those that the other calls share: 4 and 3, for off 13, for
/// restart 11.
pub fn order(count: &mut Count) -> Result<(), String> {
    let mut random = Random::new(97);
    let mut script = Script::new();
    for i in 0..32 * 90 {
        let (unsound, outside, unfit) = (i & 16 != 0, i & 8 != 0, i & 4 != 0);
        let (at_limit, short) = (i & 2 != 0, i & 1 != 0);
        let n = random.within(3, 31) as u32;
        let chosen = choices_of(&mut random, n);
        let x = random.within(1, u64::from(n)) as u32;
        let table = table(&mut random, (chosen, x), unsound, at_limit);
        count.event(CAUSES[i & 31]);
        script.load(&mut random, &table);
        if unfit {
            let ledger = figures::unfit(&mut random, n as usize, table[0].node.slots);
            script.lend(&mut random, &ledger);
        }
        let room = if short { SHORT[random.below(5) as usize] } else { ENOUGH[random.below(6) as usize] };
        let missed = 1 << if outside { random.within(u64::from(n), 31) as u32 } else { x - 1 };
        let x = if outside { no_node(&mut random, n) } else { x };
        let jobs = script.jobs(&mut random);
        for call in [
            Call::Look { lost: random.bit() },
            Call::Restart(x),
            Call::Slot { lost: random.bit(), missed, jobs },
            Call::Off(x),
            Call::Restart(x),
        ] {
            let first = first(count, call, &[unsound, outside, unfit]);
            let number = script.push(Command::Call(call, room)).map_or(0, |told| told.number);
            count.check([0, number.into()].contains(&first), || {
                format!("{number} by the model, not {first}")
            })?;
        }
    }
    count.needs(&CAUSES)?;
    OFF.met(count)?;
    RESTART.met(count)?;
    compare(count, &script.commands)
}
