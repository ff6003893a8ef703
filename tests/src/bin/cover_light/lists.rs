//! Members with every list, and what request n says of two lists.

use super::compare::{bases, every_lamp, level, levels};
use comparison::model::held::Record;
use comparison::model::node::{Node, State};
use comparison::model::ring::Set;
use comparison::random::Random;
use comparison::records::{choices_of, sound, sound_of};
use comparison::report::Count;

/// A sound member of this list, which has its own number; nobody is marked.
fn member(random: &mut Random, n: u32, list: Set) -> Node {
    let own = random.one_of(list).expect("a list has a node");
    let chosen = choices_of(random, n);
    let node = sound_of(random, State::Member, (chosen, own), 5);
    Node { set: list, marks: Set::EMPTY, returning: 0, ..node }
}

pub fn every_list(count: &mut Count) -> Result<(), String> {
    let mut random = Random::new(91);
    for n in 3..=8 {
        for list in (1..1 << n).map(Set) {
            for _ in 0..3 {
                let record = member(&mut random, n, list).into();
                let bases = bases(&mut random, n);
                every_lamp(count, &record, &bases)?;
            }
        }
    }
    Ok(())
}

/// "taking a node off a list makes no remaining lamp darker": any node but the own one.
pub fn no_darker(count: &mut Count) -> Result<(), String> {
    let mut random = Random::new(92);
    for _ in 0..20_000 {
        let node = sound(&mut random, State::Member);
        let Some(x) = random.one_of(node.set.without(node.own)) else { continue };
        let less = Node { set: node.set.without(x), marks: node.marks.without(x), ..node };
        let bases = bases(&mut random, node.chosen.n);
        for lamp in 1..=node.chosen.n {
            let before = level(count, &node.into(), &bases, lamp)?;
            let after = level(count, &less.into(), &bases, lamp)?;
            count.event(if before == after { "lamp: as bright" } else { "lamp: brighter" });
            count.check(before.is_some() && after.is_some() && before <= after, || {
                format!("lamp {lamp} without node {x}: {before:?}, then {after:?}")
            })?;
        }
    }
    count.needs(&["lamp: as bright", "lamp: brighter"])
}

/// "Two members with equal lists and equal base tables work out equal levels for every lamp": whatever else differs, k,
/// jobs, lag and slot table, too.
pub fn equal(count: &mut Count) -> Result<(), String> {
    let mut random = Random::new(93);
    for _ in 0..5_000 {
        let one = sound(&mut random, State::Member);
        let other = member(&mut random, one.chosen.n, one.set);
        let bases = bases(&mut random, one.chosen.n);
        let [a, b]: [Record; 2] = [one.into(), other.into()];
        let (a, b) = (levels(count, &a, &bases, 40)?, levels(count, &b, &bases, 40)?);
        count.check(a.is_some() && a == b, || format!("one list, {a:?} and {b:?}"))?;
    }
    Ok(())
}
