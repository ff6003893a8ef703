//! Request g: many dead at once. It holds for the rules in every run of few nodes and in runs of any number, and not
//! for rules without one of requests e and f, or with another reading of it.

use super::typed::{calls, Plan};
use super::without::Other;
use comparison::events::{several, SEVERAL};
use comparison::model::bench::{self, Call, Document01, Fate, Rules, Slot};
use comparison::model::choices::Choices;
use comparison::model::many_dead::{Broken, Claim, ManyDead};
use comparison::model::node::{Cause, Node, State};
use comparison::model::ring::Set;
use comparison::model::slot_table::Order;
use comparison::power_cut::PowerCut;
use comparison::random::Random;
use comparison::report::Count;
use comparison::slot_tables;
use std::collections::HashSet;

/// A table and what was judged up to it.
#[derive(Clone, PartialEq, Eq, Hash)]
struct Moment {
    nodes: Vec<Node>,
    judge: ManyDead,
}

impl Moment {
    fn first(chosen: Choices) -> Moment {
        let nodes = bench::set_up(chosen, chosen.n as usize).expect("the choices are in range");
        Moment { nodes, judge: ManyDead::new(chosen.n) }
    }

    /// The moment after a call, or what is then broken.
    fn after(&self, rules: &impl Rules, call: Call) -> Result<Moment, Broken> {
        let mut next = self.clone();
        let slot = bench::run(rules, &mut next.nodes, call).expect("no call here is refused");
        next.judge.judge(&self.nodes, call, slot.as_ref(), &next.nodes)?;
        Ok(next)
    }
}

const FINE: Call = Call::Slot { lost: false, missed: Set::EMPTY };

/// The line that breaks something, counted from 1, and what; none if the plan ends before.
fn follow(plan: Plan, rules: &impl Rules) -> Option<(u32, Broken)> {
    let (chosen, calls) = calls(plan);
    let mut moment = Moment::first(chosen);
    for (line, call) in (2..).zip(calls) {
        match moment.after(rules, call) {
            Ok(next) => moment = next,
            Err(broken) => return Some((line, broken)),
        }
    }
    None
}

/// Nodes 1 and 2 of four die, one after the other. In slot 4 node 4 strikes 1 off, and of the three that are left 2.
const SECOND_LINGERS: Plan = &[(1, "4 3"), (1, "off 1"), (1, "ok"), (1, "off 2"), (5, "ok")];

/// Both sponsors of node 1 die after it has sent: in slot 3 it is decided and has heard neither yes nor no.
const SPONSORS_DEAD: Plan = &[(1, "4 2"), (1, "ok"), (1, "off 2"), (1, "ok"), (1, "off 3"), (1, "ok")];

/// The examples of request e and of document 01.
const FEEDER_CUT: Plan = &[(1, "6 2"), (1, "off 2"), (1, "off 3"), (1, "off 5"), (1, "off 6"), (18, "ok")];
const TWO_OFF: Plan = &[(1, "4 3"), (1, "off 1"), (1, "off 2"), (8, "ok")];

/// Lag 1, four nodes, k = 2. In slot 4 node 4 sponsors 2 and 1 and decides 1; of {2,3,4} it sponsors and decides 2; of
/// {3,4} nobody.
const TWO_OFF_WITH_LAG: Plan = &[(1, "4 2 1"), (1, "off 1"), (1, "off 2"), (8, "ok")];

/// Lag 1, five nodes, k = 2: node 1's sponsors are 3 and 4, which decides it. They die after it has sent.
const SPONSORS_DEAD_WITH_LAG: Plan =
    &[(1, "5 2 1"), (2, "ok"), (1, "off 3"), (1, "ok"), (1, "off 4"), (6, "ok")];

/// plans/power-cut.plan: 5, 6, 1 and 2 of six die one after the other.
const POWER_CUT: Plan = &[
    (1, "6 3"),
    (4, "ok"),
    (1, "off 5"),
    (1, "ok"),
    (1, "off 6"),
    (1, "ok"),
    (1, "off 1"),
    (1, "ok"),
    (1, "off 2"),
    (9, "ok"),
];

/// A plan, other rules, and the line that breaks a claim by them.
type Failing = (Plan, Other, (u32, Claim));

const FAILING: &[Failing] = &[
    // 2 fell silent in slot 2 and is listed as slot 5 ends.
    (SECOND_LINGERS, Other::WithoutF, (8, Claim::Late)),
    (SECOND_LINGERS, Other::KsKept, (8, Claim::Late)),
    (TWO_OFF, Other::WithoutF, (8, Claim::Late)),
    // Node 1 leaves in slot 3.
    (SPONSORS_DEAD, Other::WithoutE, (6, Claim::Leaves)),
    (SPONSORS_DEAD, Other::SilenceIsNo, (6, Claim::Leaves)),
    (FEEDER_CUT, Other::WithoutE, (8, Claim::Leaves)),
    // In slot 4 node 2 leaves, and node 1 stands in its place: the no for 2 counts for 1.
    (FEEDER_CUT, Other::BitsAgain, (9, Claim::Leaves)),
    // Node 4 leaves in slot 7, the third silent one after its own.
    (POWER_CUT, Other::WithoutE, (11, Claim::Leaves)),
    // 2 fell silent in slot 8 and is listed as slot 13 ends.
    (POWER_CUT, Other::WithoutF, (18, Claim::Late)),
    // 2 fell silent in slot 2 and is listed as slot 5 ends.
    (TWO_OFF_WITH_LAG, Other::WithoutF, (8, Claim::Late)),
    (TWO_OFF_WITH_LAG, Other::KsKept, (8, Claim::Late)),
    (TWO_OFF_WITH_LAG, Other::KsWithoutLag, (8, Claim::Late)),
    // Node 1 leaves in slot 4.
    (SPONSORS_DEAD_WITH_LAG, Other::WithoutE, (7, Claim::Leaves)),
    (SPONSORS_DEAD_WITH_LAG, Other::SilenceIsNo, (7, Claim::Leaves)),
];

/// Nothing is broken by the rules; by the others the claim is, in that line.
pub fn typed(count: &mut Count) -> Result<(), String> {
    for &(plan, other, (line, claim)) in FAILING {
        let found = follow(plan, &Document01);
        count.check(found.is_none(), || format!("{plan:?}: {found:?}"))?;
        let found = follow(plan, &other);
        let fails = found == Some((line, Broken::Claim(claim)));
        count.check(fails, || {
            format!("{plan:?}, {other:?}: line {line} is to break {claim:?}, found {found:?}")
        })?;
    }
    Ok(())
}

/// A change of the table after slot 1, which node 1 is silent in, and what is then broken; nodes 1 and 2 are off.
type Change = (fn(&mut [Node]), Result<(), Claim>);

const CHANGES: &[Change] = &[
    (|_| {}, Ok(())),
    (|nodes| nodes[2].set = Set(0x0e), Err(Claim::Lists)),
    (|nodes| nodes[2].state = State::Out(Cause::Unconfirmed), Err(Claim::Leaves)),
    (|nodes| nodes.iter_mut().for_each(|node| node.set = Set(0x0e)), Err(Claim::Early)),
    (|nodes| nodes.iter_mut().for_each(|node| node.set = Set(0x0d)), Err(Claim::Early)),
];

/// A line that breaks a premise.
#[rustfmt::skip]
const PREMISES: &[(Plan, u32)] = &[
    (&[(1, "4 2"), (1, "lost")], 2),
    (&[(1, "4 2"), (1, "off 1"), (1, "lost"), (1, "lost")], 4),
    (&[(1, "4 2"), (1, "off 1"), (1, "miss 2"), (1, "miss 1 2"), (1, "miss 1 4")], 5),
    (&[(1, "4 2"), (1, "off 1"), (5, "ok"), (1, "on 1")], 8),
    (&[(1, "4 2"), (1, "off 1"), (1, "off 2"), (1, "off 2"), (1, "off 3")], 5),
];

/// The judge finds the claims broken in tables changed by hand, but for `Late`, which `typed` has; and each premise in
/// a plan.
pub fn judge(count: &mut Count) -> Result<(), String> {
    for (i, &(change, expected)) in CHANGES.iter().enumerate() {
        let mut moment = Moment::first(Choices::plain(4, 2));
        for x in [1, 2] {
            moment = moment.after(&Document01, Call::Off(x)).map_err(|why| format!("{why:?}"))?;
        }
        let mut after = moment.nodes.clone();
        change(&mut after);
        let slot = Slot { sender: 1, fate: Fate::Silent, changes: Vec::new() };
        let found = moment.judge.judge(&moment.nodes, FINE, Some(&slot), &after);
        let expected = expected.map_err(Broken::Claim);
        count.check(found == expected, || format!("change {}: {found:?}, not {expected:?}", i + 1))?;
    }
    for &(plan, line) in PREMISES {
        let found = follow(plan, &Document01);
        let same = found == Some((line, Broken::Premise));
        count.check(same, || format!("{plan:?}: line {line} is to break a premise, found {found:?}"))?;
    }
    Ok(())
}

/// Every table that a run can lead to, the slot count taken modulo n; before each slot any nodes are switched off.
fn every_table(count: &mut Count, chosen: Choices) -> Result<(), String> {
    let n = chosen.n;
    let mut open = vec![Moment::first(chosen)];
    let mut met: HashSet<Moment> = open.iter().cloned().collect();
    while let Some(moment) = open.pop() {
        for call in (1..=n).map(Call::Off).chain([FINE]) {
            let next = moment.after(&Document01, call);
            let broken = next.as_ref().err().copied();
            if broken == Some(Broken::Premise) {
                continue;
            }
            count.check(broken.is_none(), || format!("{chosen:?}: {broken:?}"))?;
            let Ok(mut next) = next else { continue };
            next.nodes.iter_mut().for_each(|node| node.slots %= u64::from(n));
            note(count, &moment.nodes, &next.nodes);
            if met.insert(next.clone()) {
                open.push(next);
            }
        }
    }
    Ok(())
}

/// Notes what happens in a call that keeps the premises.
fn note(count: &mut Count, before: &[Node], after: &[Node]) {
    let list = bench::list(after).expect("two are on");
    before
        .iter()
        .zip(after)
        .filter_map(|(node, next)| several(node, next))
        .for_each(|name| count.event(name));
    if list.count() <= after[0].chosen.k {
        count.event("list: k members or fewer");
    }
    if list.count() == 2 {
        count.event("list: two members");
    }
}

const MET: [&str; 2] = ["list: k members or fewer", "list: two members"];

/// Every k with this lag.
fn rings(n: u32, lag: u32) -> impl Iterator<Item = Choices> {
    (2..n - lag).map(move |k| Choices::of(n, k, 0, lag))
}

fn few_nodes(count: &mut Count, lag: u32) -> Result<(), String> {
    let mut random = Random::new(79);
    for n in 3 + lag..=7 {
        for chosen in rings(n, lag) {
            every_table(count, chosen)?;
            if n <= 5 {
                let order = Order::kept(&slot_tables::other_table(&mut random, n));
                every_table(count, Choices { order, ..chosen })?;
            }
        }
    }
    count.needs(&SEVERAL)?;
    count.needs(&MET)
}

/// One run of up to 6 n calls; the claim that fails, if one does.
fn run(count: &mut Count, rules: &impl Rules, chosen: Choices, seed: u64) -> Option<Broken> {
    let mut cut = PowerCut::new(seed, chosen.n);
    let mut moment = Moment::first(chosen);
    for _ in 0..6 * chosen.n {
        let call = cut.next(&moment.nodes);
        match moment.after(rules, call) {
            Ok(next) => {
                note(count, &moment.nodes, &next.nodes);
                moment = next;
            }
            Err(broken) => return Some(broken),
        }
    }
    None
}

pub fn few_nodes_without_lag(count: &mut Count) -> Result<(), String> {
    few_nodes(count, 0)
}

pub fn few_nodes_with_lag(count: &mut Count) -> Result<(), String> {
    few_nodes(count, 1)
}

/// 12 runs for each n and k with this lag.
fn any_number(count: &mut Count, seed: u64, lag: u32) -> Result<(), String> {
    let mut random = Random::new(seed);
    for n in 3 + lag..=32 {
        for chosen in rings(n, lag) {
            for _ in 0..12 {
                let chosen = Choices { order: slot_tables::order(&mut random, n), ..chosen };
                slot_tables::note(count, n, chosen.order);
                let broken = run(count, &Document01, chosen, random.number());
                count.check(broken.is_none(), || format!("{chosen:?}: {broken:?}"))?;
            }
        }
    }
    count.needs(&slot_tables::KINDS)?;
    count.needs(&SEVERAL)?;
    count.needs(&MET)
}

pub fn any_number_without_lag(count: &mut Count) -> Result<(), String> {
    any_number(count, 74, 0)
}

pub fn any_number_with_lag(count: &mut Count) -> Result<(), String> {
    any_number(count, 78, 1)
}

/// The other rules, with the names that the report shows. The last one is another only with lag 1.
const OTHERS: [(Other, &str); 6] = [
    (Other::WithoutE, "claim fails: without request e"),
    (Other::SilenceIsNo, "claim fails: an unheard sponsor counts as a no"),
    (Other::WithoutF, "claim fails: without request f"),
    (Other::KsKept, "claim fails: ks of the set as the slot begins"),
    (Other::BitsAgain, "claim fails: bits read again on the shortened set"),
    (Other::KsWithoutLag, "claim fails: ks not reduced by the lag"),
];

/// Notes in how many runs with this lag a claim fails; each is of another ring.
fn others(count: &mut Count, lag: u32, others: &[(Other, &'static str)]) -> Result<(), String> {
    for &(other, name) in others {
        let mut random = Random::new(75);
        for chosen in (3 + lag..=12).flat_map(|n| rings(n, lag)) {
            let broken = run(&mut Count::default(), &other, chosen, random.number());
            count.check(broken != Some(Broken::Premise), || format!("{chosen:?}: a premise is broken"))?;
            if broken.is_some() {
                count.event(name);
            }
        }
        count.needs(&[name])?;
    }
    Ok(())
}

pub fn others_without_lag(count: &mut Count) -> Result<(), String> {
    others(count, 0, &OTHERS[..5])
}

pub fn others_with_lag(count: &mut Count) -> Result<(), String> {
    others(count, 1, &OTHERS)
}
