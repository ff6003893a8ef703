//! Request f: "On a run from a common start that keeps the premises of the agreement, the k + 1 members included, here
//! also counted between a departure and a joining in the same slot, nothing differs from before". With a lag they are
//! k + 1 members plus the lag. The premises are read on the run of the rules without it.

use super::runs::ring;
use super::typed::{calls, Plan};
use super::without::{Between, Other};
use comparison::careful::Run;
use comparison::model::bench::{self, Call, Document01, Kind, Slot};
use comparison::model::demand::{Broken, Demand};
use comparison::model::node::{Cause, Node, State};
use comparison::random::Random;
use comparison::report::Count;

/// Runs with each lag.
const RUNS: u64 = 12_000;

/// If the call is a slot, the list holds k + 1 members plus the lag between a departure and a joining in it.
fn kept_between(nodes: &[Node], call: Call) -> bool {
    let mut between = nodes.to_vec();
    let slot = bench::run(&Between, &mut between, call).expect("no call here is refused");
    slot.is_none()
        || bench::list(&between).is_some_and(|list| list.count() > nodes[0].chosen.k + nodes[0].chosen.lag)
}

/// Notes a slot with k + 1 members in between.
fn note(count: &mut Count, slot: &Slot) {
    let has = |kind| slot.changes.iter().any(|change| change.1 == kind);
    if has(Kind::Left) {
        count.event("k + 1 in between: a node left");
    }
    if has(Kind::Left) && has(Kind::Joined) {
        count.event("k + 1 in between: a node left and another joined");
    }
}

/// One run by the rules without request f, and the same calls by the rules now; what differs, or a claim that fails.
fn run(count: &mut Count, random: &mut Random, lag: u32) -> Result<(), String> {
    let chosen = ring(random, lag);
    let seldom = random.within(2, 8);
    let mut run = Run::new(&Other::WithoutF, chosen, random.number(), seldom);
    for _ in 0..25 * chosen.n {
        let mut now = run.nodes.clone();
        let call = match run.advance() {
            Ok((call, _)) => call,
            Err(Broken::Premise(_)) => return Ok(()),
            Err(claim) => return Err(format!("{chosen:?}: {claim:?} without request f")),
        };
        let between = kept_between(&now, call);
        let slot = bench::run(&Document01, &mut now, call).expect("no call here is refused");
        let same = now == run.nodes;
        if !between {
            count.event(if same { "k in between: no difference" } else { "k in between: a difference" });
            return Ok(());
        }
        count.check(same, || format!("{chosen:?}: the tables differ"))?;
        slot.iter().for_each(|slot| note(count, slot));
    }
    Ok(())
}

/// As far as the tables have not differed they are one, so that each call is made on the same table by both rules.
fn generated(count: &mut Count, seed: u64, lag: u32) -> Result<(), String> {
    let mut random = Random::new(seed);
    for i in 1..=RUNS {
        run(count, &mut random, lag).map_err(|why| format!("run {i}: {why}"))?;
    }
    count.needs(&[
        "k in between: a difference",
        "k in between: no difference",
        "k + 1 in between: a node left",
        "k + 1 in between: a node left and another joined",
    ])
}

pub fn generated_without_lag(count: &mut Count) -> Result<(), String> {
    generated(count, 73, 0)
}

pub fn generated_with_lag(count: &mut Count) -> Result<(), String> {
    generated(count, 77, 1)
}

/// Node 1 leaves in slot 4, listens from slot 5 on and follows {2,3,4,5} after slot 14. The messages of 5 and 2 in
/// slots 15 and 17 are lost, and in slot 16 it knocks. In slot 19 node 4 sponsors 3, 2 and 5 and decides 5, which
/// leaves. Of three members it sponsors 3 and 2 and now decides 2. Then it is the nearest before 1, which joins.
const NEEDED: Plan = &[
    (1, "5 3"),
    (1, "lost"),
    (3, "ok"),
    (1, "on 1"),
    (10, "ok"),
    (1, "lost"),
    (1, "ok"),
    (1, "lost"),
    (2, "ok"),
];

/// A node's state and its set.
type After = (State, &'static [u32]);

const UNCONFIRMED: State = State::Out(Cause::Unconfirmed);

/// After slot 19: 2 stays without request f, and k + 1 members are on the list again.
const BEFORE: &[After] = &[
    (State::Member, &[1, 2, 3, 4]),
    (State::Member, &[1, 2, 3, 4]),
    (State::Member, &[1, 2, 3, 4]),
    (State::Member, &[1, 2, 3, 4]),
    (UNCONFIRMED, &[]),
];

const NOW: &[After] = &[
    (State::Member, &[1, 3, 4]),
    (UNCONFIRMED, &[]),
    (State::Member, &[1, 3, 4]),
    (State::Member, &[1, 3, 4]),
    (UNCONFIRMED, &[]),
];

/// The same with lag 1, six nodes and k = 3. Node 1 leaves in slot 5, listens from slot 6 on and follows {2,3,4,5,6}
/// after slot 17. The messages of 6 and 2 in slots 18 and 20 are lost, and in slot 19 it knocks. In slot 23 node 5
/// sponsors 3, 2 and 6 and decides 6, which leaves. Of four members it sponsors 3 and 2 and now decides 2. Then it is
/// the nearest before 1, which joins.
const NEEDED_WITH_LAG: Plan = &[
    (1, "6 3 1"),
    (1, "lost"),
    (4, "ok"),
    (1, "on 1"),
    (12, "ok"),
    (1, "lost"),
    (1, "ok"),
    (1, "lost"),
    (3, "ok"),
];

const BEFORE_WITH_LAG: &[After] = &[
    (State::Member, &[1, 2, 3, 4, 5]),
    (State::Member, &[1, 2, 3, 4, 5]),
    (State::Member, &[1, 2, 3, 4, 5]),
    (State::Member, &[1, 2, 3, 4, 5]),
    (State::Member, &[1, 2, 3, 4, 5]),
    (UNCONFIRMED, &[]),
];

const NOW_WITH_LAG: &[After] = &[
    (State::Member, &[1, 3, 4, 5]),
    (UNCONFIRMED, &[]),
    (State::Member, &[1, 3, 4, 5]),
    (State::Member, &[1, 3, 4, 5]),
    (State::Member, &[1, 3, 4, 5]),
    (UNCONFIRMED, &[]),
];

fn is_table(nodes: &[Node], expected: &[After]) -> bool {
    let alike = |(node, after): (&Node, &After)| {
        node.state == after.0 && node.set.nodes().eq(after.1.iter().copied())
    };
    nodes.len() == expected.len() && nodes.iter().zip(expected).all(alike)
}

/// The last line alone breaks the clause, and there the tables differ; without the clause nothing is broken.
fn follow(count: &mut Count, plan: Plan, tables: [&[After]; 2]) -> Result<(), String> {
    let (chosen, calls) = calls(plan);
    let mut before = bench::set_up(chosen, chosen.n as usize).expect("the choices are in range");
    let mut now = before.clone();
    let mut demand = Demand::new(chosen);
    let last = calls.len() - 1;
    for (i, call) in calls.into_iter().enumerate() {
        let table = before.clone();
        let slot = bench::run(&Other::WithoutF, &mut before, call).expect("no line is refused");
        bench::run(&Document01, &mut now, call).expect("no line is refused");
        let broken = demand.judge(&table, call, slot.as_ref(), &before);
        count.check(broken.is_ok(), || format!("line {}: {broken:?}", i + 2))?;
        let between = kept_between(&table, call);
        let (differs, at_last) = (before != now, i == last);
        count.check(differs == at_last && between != at_last, || {
            format!("line {}: k + 1 in between: {between}, the tables differ: {differs}", i + 2)
        })?;
    }
    count.check(is_table(&before, tables[0]), || "the table without request f is another".to_string())?;
    count.check(is_table(&now, tables[1]), || "the table with request f is another".to_string())
}

pub fn typed(count: &mut Count) -> Result<(), String> {
    follow(count, NEEDED, [BEFORE, NOW])?;
    follow(count, NEEDED_WITH_LAG, [BEFORE_WITH_LAG, NOW_WITH_LAG])
}
