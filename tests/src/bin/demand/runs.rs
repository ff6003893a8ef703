//! Runs that keep the premises, by the rules and by the mutants.

use super::mutants;
use super::without::Other;
use comparison::careful::Run;
use comparison::model::bench::{Call, Document01, Kind, Rules, Slot};
use comparison::model::choices::Choices;
use comparison::model::demand::{Broken, Claim, Demand};
use comparison::random::Random;
use comparison::report::Count;
use comparison::slot_tables;
use std::collections::BTreeSet;

/// Runs with each lag by the rules, and by each mutant.
const RUNS: u64 = 20_000;
const MUTANT_RUNS: u64 = 7_500;

/// The choices of a run with this lag, with any slot table. Most rings are small, since more happens in them.
pub fn ring(random: &mut Random, lag: u32) -> Choices {
    let largest = match random.below(20) {
        0 => 32,
        1 => 16,
        _ => 8,
    };
    let n = (random.within(4, largest) as u32 + lag).min(32);
    let most = n - lag - if random.below(4) == 0 { 1 } else { 2 };
    let k = if random.bit() { most.min(3) } else { random.within(2, u64::from(most)) as u32 };
    Choices { order: slot_tables::order(random, n), ..Choices::of(n, k, 0, lag) }
}

/// One run of up to 25 n calls: the choices and the claim that fails, if one does.
fn run(
    count: &mut Count,
    random: &mut Random,
    lag: u32,
    rules: &impl Rules,
    demand: fn(Choices) -> Demand,
) -> Option<(Choices, Claim)> {
    let chosen = ring(random, lag);
    slot_tables::note(count, chosen.n, chosen.order);
    let seldom = random.within(2, 8);
    let mut run = Run::new(rules, chosen, random.number(), seldom).judged(demand(chosen));
    let mut met = BTreeSet::new();
    let ends = (0..25 * chosen.n).find_map(|_| match run.advance() {
        Ok((call, slot)) => {
            note(count, &mut met, call, slot);
            None
        }
        Err(broken) => Some(broken),
    });
    met.into_iter().for_each(|name| count.event(name));
    match ends {
        None => count.event("runs: to their end"),
        Some(Broken::Premise(_)) => count.event("runs: to where a premise must break"),
        Some(Broken::Claim(claim)) => return Some((chosen, claim)),
    }
    None
}

/// Counts what happens, and notes what a run has met.
fn note(count: &mut Count, met: &mut BTreeSet<&'static str>, call: Call, slot: Option<Slot>) {
    count.event(match call {
        Call::Slot { .. } => "calls: slot",
        Call::Off(_) => "calls: off",
        Call::Restart(_) => "calls: restart",
    });
    if let Call::Restart(_) = call {
        met.insert("runs: with restarts");
    }
    for (_, kind) in slot.into_iter().flat_map(|slot| slot.changes) {
        match kind {
            Kind::Left => met.insert("runs: with departures"),
            Kind::Joined => met.insert("runs: with returns"),
            _ => false,
        };
        count.event(change(kind));
    }
}

fn change(kind: Kind) -> &'static str {
    match kind {
        Kind::Left => "changes: left",
        Kind::Follows => "changes: listening to following",
        Kind::Knocked => "changes: knocked",
        Kind::Joined => "changes: joined",
        Kind::FollowsAgain => "changes: knocking to following",
        Kind::Listens => "changes: to listening",
    }
}

const NEEDED: &[&str] = &[
    "calls: slot",
    "calls: off",
    "calls: restart",
    "changes: knocking to following",
    "runs: with departures",
    "runs: with restarts",
    "runs: with returns",
    "runs: to their end",
];

fn true_rules(count: &mut Count, seed: u64, lag: u32) -> Result<(), String> {
    let mut random = Random::new(seed);
    for i in 1..=RUNS {
        let failed = run(count, &mut random, lag, &Document01, Demand::new);
        count.check(failed.is_none(), || format!("run {i}: the claim that fails: {failed:?}"))?;
    }
    count.needs(&slot_tables::KINDS)?;
    count.needs(NEEDED)
}

pub fn true_rules_without_lag(count: &mut Count) -> Result<(), String> {
    true_rules(count, 71, 0)
}

pub fn true_rules_with_lag(count: &mut Count) -> Result<(), String> {
    true_rules(count, 76, 1)
}

/// Notes in how many runs with this lag a claim fails.
fn fails(
    count: &mut Count,
    lag: u32,
    (rules, name): (&impl Rules, &'static str),
    demand: fn(Choices) -> Demand,
) -> Result<(), String> {
    let mut random = Random::new(72);
    let mut found = false;
    for _ in 0..MUTANT_RUNS {
        if run(&mut Count::default(), &mut random, lag, rules, demand).is_some() {
            count.event(name);
            found = true;
        }
    }
    count.check(found, || format!("lag {lag}: no claim fails for {name}"))
}

/// With lag 0, the changes that concern the lag left out.
pub fn mutants_without_lag(count: &mut Count) -> Result<(), String> {
    for (mutant, name) in mutants::ALL {
        fails(count, 0, (&mutant, name), Demand::new)?;
    }
    fails(count, 0, (&Document01, ONE_FEWER), Demand::one_member_fewer)
}

pub fn mutants_with_lag(count: &mut Count) -> Result<(), String> {
    for (mutant, name) in mutants::ALL {
        fails(count, 1, (&mutant, name), Demand::new)?;
    }
    fails(count, 1, (&Other::DecidesEarly, "claim fails: decided one member early"), Demand::new)?;
    fails(count, 1, (&Document01, ONE_FEWER), Demand::one_member_fewer)
}

/// Rules that follow node numbers where they are to follow the slot table.
pub fn by_number(count: &mut Count) -> Result<(), String> {
    for lag in [0, 1] {
        fails(count, lag, (&Other::WalksByNumber, "claim fails: sponsored by number"), Demand::new)?;
        fails(count, lag, (&Other::JoinsByNumber, "claim fails: joined by number"), Demand::new)?;
    }
    Ok(())
}

/// No change of the rules, but of a premise.
const ONE_FEWER: &str = "claim fails: a list of one member fewer";
