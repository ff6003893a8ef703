//! Runs of a bench that keep the premises of demand 3: after each call all member-state nodes give the same levels.

use super::compare::{bases, levels};
use comparison::careful::Run;
use comparison::model::bench::{Document01, Kind};
use comparison::model::choices::Choices;
use comparison::model::node::{Node, State};
use comparison::random::Random;
use comparison::report::Count;
use comparison::slot_tables;

fn same_levels(count: &mut Count, nodes: &[Node], table: &[u8]) -> Result<(), String> {
    let members = nodes.iter().filter(|node| node.state == State::Member);
    let mut written = Vec::new();
    for node in members {
        written.push(levels(count, &(*node).into(), table, 40)?);
    }
    count.check(written.windows(2).all(|two| two[0].is_some() && two[0] == two[1]), || {
        format!("bases {table:?}: {written:?}")
    })
}

fn run(count: &mut Count, random: &mut Random, lag: u32) -> Result<(), String> {
    let n = random.within(u64::from(4 + lag), 12) as u32;
    let k = random.within(2, u64::from(n - lag - 2)) as u32;
    let chosen = Choices { order: slot_tables::order(random, n), ..Choices::of(n, k, 0, lag) };
    slot_tables::note(count, n, chosen.order);
    let seldom = random.within(2, 8);
    let mut run = Run::new(&Document01, chosen, random.number(), seldom);
    let table = bases(random, n);
    for _ in 0..15 * n {
        // A run ends where a premise must break.
        let Ok((_, slot)) = run.advance() else { break };
        for (_, kind) in slot.into_iter().flat_map(|slot| slot.changes) {
            match kind {
                Kind::Left => count.event("runs: a departure"),
                Kind::Joined => count.event("runs: a return"),
                _ => {}
            }
        }
        same_levels(count, &run.nodes, &table)?;
    }
    Ok(())
}

fn many(count: &mut Count, seed: u64, lag: u32) -> Result<(), String> {
    let mut random = Random::new(seed);
    for _ in 0..400 {
        run(count, &mut random, lag)?;
    }
    count.needs(&["runs: a departure", "runs: a return"])?;
    count.needs(&slot_tables::KINDS)
}

pub fn without_lag(count: &mut Count) -> Result<(), String> {
    many(count, 101, 0)
}

pub fn with_lag(count: &mut Count) -> Result<(), String> {
    many(count, 102, 1)
}
