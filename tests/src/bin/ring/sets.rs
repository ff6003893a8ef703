//! The functions on sets.

use super::inputs::{chosen_sets, small_sets};
use comparison::library;
use comparison::model::ring::Set;
use comparison::model::roll::Roll;
use comparison::numbers::small_and_large;
use comparison::random::Random;
use comparison::report::Count;
use std::fmt::Debug;

/// The roll's answer beside that of the library, and beside that of the model's sets where these have
/// such a function.
fn same<A: PartialEq + Debug>(
    count: &mut Count,
    call: impl Fn() -> String,
    expected: A,
    library: A,
    model: Option<A>,
) -> Result<(), String> {
    count.check(library == expected, || format!("{}: library {library:?}, roll {expected:?}", call()))?;
    match model {
        Some(got) => count.check(got == expected, || format!("{}: model {got:?}, roll {expected:?}", call())),
        None => Ok(()),
    }
}

fn node(count: &mut Count, s: u32, x: u32) -> Result<(), String> {
    let (roll, set) = (Roll::of(s), Set(s));
    let call = |name| move || format!("{name} set = {s:#X}, node {x}");
    same(count, call("has"), roll.has(x), library::nodeset_has(s, x), Some(set.has(x)))?;
    let with = roll.told(x, true).number();
    same(count, call("with"), with, library::nodeset_with(s, x), Some(set.with(x).0))?;
    let without = roll.told(x, false).number();
    same(count, call("without"), without, library::nodeset_without(s, x), Some(set.without(x).0))
}

fn counted(count: &mut Count, n: u32, s: u32) -> Result<(), String> {
    let (roll, set) = (Roll::of(s), Set(s));
    let call = |name| move || format!("{name} n = {n}, set = {s:#X}");
    let size = roll.up_to(n).count();
    same(count, call("size"), size, library::nodeset_size(n, s), Some(set.up_to(n).count()))?;
    let within = roll.is_within(Roll::first(n));
    count.event(if within { "within n: yes" } else { "within n: no" });
    same(count, call("is_within"), within, library::nodeset_is_within(n, s), Some(set.within(Set::full(n))))
}

fn full(count: &mut Count, n: u32) -> Result<(), String> {
    let call = || format!("full n = {n}");
    same(count, call, Roll::first(n).number(), library::nodeset_full(n), Some(Set::full(n).0))
}

fn run(count: &mut Count, s: u32) -> Result<(), String> {
    let call = || format!("run of {s:#X}");
    same(count, call, Roll::of(s).run(), library::nodeset_run(s), None)
}

fn pair(count: &mut Count, a: u32, b: u32) -> Result<(), String> {
    let call = |name| move || format!("{name} {a:#X}, {b:#X}");
    let union = Roll::of(a).union(Roll::of(b)).number();
    same(count, call("union"), union, library::nodeset_union(a, b), None)?;
    let within = Roll::of(a).is_within(Roll::of(b));
    count.event(if within { "subset: yes" } else { "subset: no" });
    same(count, call("is_subset"), within, library::nodeset_is_subset(a, b), Some(Set(a).within(Set(b))))
}

fn distance(count: &mut Count, n: u32, a: u32, b: u32) -> Result<(), String> {
    let call = || format!("distance n = {n}, sets {a:#X}, {b:#X}");
    let apart = Roll::of(a).difference(Roll::of(b)).up_to(n).count();
    let by_model = Set(a).up_to(n).distance(Set(b).up_to(n));
    same(count, call, apart, library::nodeset_distance(n, a, b), Some(by_model))
}

/// The small sets, then the chosen ones.
fn all_sets() -> impl Iterator<Item = u32> {
    small_sets().chain(chosen_sets())
}

pub fn one_set(count: &mut Count) -> Result<(), String> {
    for n in small_and_large() {
        full(count, n)?;
    }
    for s in all_sets() {
        run(count, s)?;
        run(count, !s)?;
        for number in small_and_large() {
            node(count, s, number)?;
            counted(count, number, s)?;
        }
    }
    count.needs(&["within n: yes", "within n: no"])
}

pub fn two_sets(count: &mut Count) -> Result<(), String> {
    let chosen = chosen_sets();
    for a in all_sets() {
        for &b in &chosen {
            pair(count, a, b)?;
            pair(count, b, a)?;
            for n in small_and_large() {
                distance(count, n, a, b)?;
            }
        }
    }
    count.needs(&["subset: yes", "subset: no"])
}

/// Sets of all densities: some of the nodes of one set are another.
pub fn random(count: &mut Count) -> Result<(), String> {
    let mut random = Random::new(5);
    for _ in 0..200_000 {
        let a = random.number() as u32;
        let b = a | random.number() as u32;
        let c = a & random.number() as u32;
        let number = random.below(35) as u32;
        for s in [a, b, c] {
            run(count, s)?;
            node(count, s, number)?;
            counted(count, number, s)?;
            pair(count, c, s)?;
            pair(count, s, a)?;
            distance(count, number, s, a)?;
        }
    }
    count.needs(&["subset: yes", "subset: no", "within n: yes", "within n: no"])
}
