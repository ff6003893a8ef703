//! Tables of bases: every base, and every length.

use super::compare::{bases, level, levels, too_bright};
use comparison::model::node::{Node, State};
use comparison::model::ring::Set;
use comparison::random::Random;
use comparison::records::{choices_of, size, sound, sound_of, STATES};
use comparison::report::Count;

/// Of lamp 3 of 5: every base of it, of a neighbour that is listed or not, and of a lamp that is none of its neighbours.
pub fn every_base(count: &mut Count) -> Result<(), String> {
    let mut random = Random::new(94);
    let chosen = choices_of(&mut random, 5);
    let member = sound_of(&mut random, State::Member, (chosen, 3), 9);
    for list in [0b0_0100, 0b0_1100, 0b0_0110, 0b0_1110].map(Set) {
        let record = Node { set: list, marks: Set::EMPTY, returning: 0, ..member }.into();
        for at in 0..5 {
            for base in 0..=255 {
                let mut table = [60, 61, 62, 63, 64];
                table[at] = base;
                for lamp in 1..=5 {
                    level(count, &record, &table, lamp)?;
                }
                levels(count, &record, &table, 5)?;
            }
        }
    }
    Ok(())
}

pub fn every_length(count: &mut Count) -> Result<(), String> {
    let mut random = Random::new(95);
    for _ in 0..60 {
        let state = STATES[random.below(8) as usize];
        let node = sound(&mut random, state);
        let n = node.chosen.n;
        for entries in (0..=40).chain([n + 256]) {
            let mut table = bases(&mut random, entries);
            if entries > 0 && random.below(8) == 0 {
                too_bright(&mut random, &mut table);
            }
            for lamp in [0, 1, size(&mut random), n, n + 1] {
                level(count, &node.into(), &table, lamp)?;
            }
            let room = random.below(41) as usize;
            levels(count, &node.into(), &table, room)?;
        }
        let table = bases(&mut random, n);
        for room in 0..=40 {
            levels(count, &node.into(), &table, room)?;
        }
    }
    Ok(())
}
