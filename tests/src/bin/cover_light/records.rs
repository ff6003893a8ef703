//! Records as they may be lent: sound ones, ones that are not, and bytes that are none.

use super::compare::{bases, every_lamp, level, levels, too_bright};
use comparison::causes::Causes;
use comparison::library;
use comparison::model::cover_light;
use comparison::model::held::Record;
use comparison::model::node::State;
use comparison::random::Random;
use comparison::record_bytes::{record_bytes, RECORD};
use comparison::records::{broken, clauses, disturb, sound, spoil, BREAKS, STATES};
use comparison::report::Count;
use comparison::rows::{self, DAMAGES};
use comparison::{numbers, typed_rows};

/// Both calls with bases that fit and that do not, lamps that are one and that are not, and rooms of any kind.
fn any_calls(count: &mut Count, random: &mut Random, record: &Record) -> Result<(), String> {
    let n = record.node.chosen.n.clamp(1, 40);
    let entries = if random.below(4) == 0 { random.below(41) as u32 } else { n };
    let mut table = bases(random, entries);
    if entries > 0 && random.below(4) == 0 {
        too_bright(random, &mut table);
    }
    let wild = numbers::small_and_large().nth(random.below(55) as usize).unwrap_or(0);
    for lamp in [1, random.within(1, u64::from(n)) as u32, wild] {
        level(count, record, &table, lamp)?;
    }
    levels(count, record, &table, n as usize)?;
    levels(count, record, &table, random.below(41) as usize)?;
    Ok(())
}

pub fn sound_in_every_state(count: &mut Count) -> Result<(), String> {
    let mut random = Random::new(96);
    for state in STATES {
        let times = if state == State::Member { 20_000 } else { 1_500 };
        for _ in 0..times {
            let node = sound(&mut random, state);
            let bases = bases(&mut random, node.chosen.n);
            every_lamp(count, &node.into(), &bases)?;
            any_calls(count, &mut random, &node.into())?;
        }
    }
    Ok(())
}

pub fn unsound_in_one_clause(count: &mut Count) -> Result<(), String> {
    let mut random = Random::new(97);
    for case in BREAKS {
        for &state in case.states {
            for _ in 0..100 {
                let node = sound(&mut random, state);
                let Some(record) = case.of(&mut random, node) else { continue };
                broken(&record).iter().for_each(|says| count.event(says));
                any_calls(count, &mut random, &record)?;
            }
        }
    }
    count.needs(&clauses())
}

pub fn damaged_rows(count: &mut Count) -> Result<(), String> {
    let mut random = Random::new(98);
    for damage in DAMAGES {
        for &state in damage.states {
            for _ in 0..100 {
                let node = sound(&mut random, state);
                let Some(record) = damage.of(&mut random, node) else { continue };
                count.event(damage.name);
                broken(&record).iter().for_each(|says| count.event(says));
                any_calls(count, &mut random, &record)?;
            }
        }
    }
    for (_, record) in typed_rows::sound().into_iter().chain(typed_rows::damaged()) {
        any_calls(count, &mut random, &record)?;
    }
    count.needs(&rows::names())
}

pub fn wild(count: &mut Count) -> Result<(), String> {
    let mut random = Random::new(99);
    for _ in 0..60_000 {
        let state = STATES[random.below(8) as usize];
        let mut record = sound(&mut random, state).into();
        for _ in 0..random.below(4) {
            disturb(&mut random, &mut record);
        }
        count.event(if record.is_sound() { "sound" } else { "not sound" });
        any_calls(count, &mut random, &record)?;
    }
    Ok(())
}

const LEVEL: Causes = Causes { numbers: &[4, 3, 20], pairs: &["level: 4 and 3", "level: 3 and 20"] };

const LEVELS: Causes = Causes { numbers: &[4, 20, 9], pairs: &["levels: 4 and 20", "levels: 20 and 9"] };

/// Bases that do not fit: one of 255, or one too few or too many.
fn unfit(random: &mut Random, n: u32) -> Vec<u8> {
    let mut table = bases(random, n);
    match random.below(3) {
        0 => too_bright(random, &mut table),
        1 => drop(table.pop()),
        _ => table.push(0),
    }
    table
}

/// Every choice of causes, in every state: of those that apply to a call the first is told.
pub fn several_causes(count: &mut Count) -> Result<(), String> {
    let mut random = Random::new(103);
    for (state, i) in STATES.iter().flat_map(|&state| (0..16 * 50).map(move |i| (state, i))) {
        let [unsound, outside, wrong, short] = [1, 2, 4, 8].map(|bit| i & bit == bit);
        let mut record = Record::from(sound(&mut random, state));
        let n = record.node.chosen.n;
        if unsound {
            spoil(&mut random, &mut record);
        }
        let table = if wrong { unfit(&mut random, n) } else { bases(&mut random, n) };
        let no_lamp = [0, n + 1, 256 + n, u32::MAX][random.below(4) as usize];
        let lamp = if outside { no_lamp } else { random.within(1, n.into()) as u32 };
        let room = if short { random.below(n.into()) } else { random.within(n.into(), 40) } as usize;
        let firsts =
            [LEVEL.first(count, &[unsound, outside, wrong]), LEVELS.first(count, &[unsound, wrong, short])];
        let one = cover_light::level(&record, &table, lamp).err().unwrap_or(0);
        let all = cover_light::levels(&record, &table, &mut vec![0; room]).err().unwrap_or(0);
        count.check([one, all] == firsts, || format!("{one} and {all} by the model, not {firsts:?}"))?;
        level(count, &record, &table, lamp)?;
        levels(count, &record, &table, room)?;
    }
    LEVEL.met(count)?;
    LEVELS.met(count)
}

/// A state's number, and the three that are yes or no.
const STATE: usize = 20;
const YES_OR_NO: [usize; 3] = [33, 46, 51];

/// The library refuses these bytes by 4, and leaves what is lent.
fn refused(count: &mut Count, bytes: &[u8], bases: &[u8]) -> Result<(), String> {
    count.expected(4);
    let mut lent = [9; 40];
    let got = (library::level(bytes, bases, 1), library::levels(bytes, bases, &mut lent));
    count.check(got == (Err(4), Err(4)) && lent == [9; 40], || {
        format!("{} bytes, {bytes:?}: {got:?} {lent:?}", bytes.len())
    })
}

/// Of another length, cut off or longer; with a state's number above 7; with a yes or no above 1.
pub fn no_record(count: &mut Count) -> Result<(), String> {
    let mut random = Random::new(100);
    for state in STATES {
        let record: Record = sound(&mut random, state).into();
        let bases = bases(&mut random, record.node.chosen.n);
        every_lamp(count, &record, &bases)?;
        let bytes = record_bytes(&record);
        let longer = [bytes.as_slice(), &[0; 40]].concat();
        for length in (0..longer.len()).filter(|&length| length != RECORD) {
            refused(count, &longer[..length], &bases)?;
        }
        for (at, least) in [(STATE, 8)].into_iter().chain(YES_OR_NO.map(|at| (at, 2))) {
            for value in least..=255 {
                let mut other = bytes;
                other[at] = value;
                refused(count, &other, &bases)?;
            }
        }
    }
    Ok(())
}
