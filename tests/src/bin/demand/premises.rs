//! Plans that break one premise and keep the others: it is found, and without it a claim fails. And plans
//! that keep all of them.

use super::typed::{calls, Plan};
use super::without::Other;
use comparison::model::bench::{self, Document01, Rules};
use comparison::model::choices::Choices;
use comparison::model::demand::{Broken, Claim, Demand, Premise};
use comparison::report::Count;

#[rustfmt::skip]
const BROKEN: &[(Plan, Premise, Claim)] = &[
    // Both sponsors of 1 miss it; in slot 3 node 1 leaves, 2 and 3 hold {2,3,4}, 4 holds all four.
    (&[(1, "4 2"), (1, "miss 2 3"), (2, "ok")], Premise::Failures, Claim::Distance),
    // "two failures; node 3 holds {1,3,4}, node 1 all four, node 2 is out, distance 1"
    (&[(1, "4 2"), (1, "ok"), (1, "miss 3"), (1, "ok"), (1, "lost")], Premise::Failures, Claim::Distance),
    // The knock of 1 in slot 21 is lost, and 2 knocks in slot 22.
    (&[(1, "5 2"), (1, "lost"), (3, "ok"), (1, "on 1"), (2, "ok"), (1, "lost"), (2, "ok"), (1, "on 2"), (11, "ok"), (1, "lost"), (4, "ok")],
     Premise::Outside, Claim::Distance),
    // The list is {2,3,4}; in slot 16 node 4 decides 2 with ks = 2, but 1, which heard it, joins with all.
    (&[(1, "4 3"), (1, "lost"), (3, "ok"), (1, "on 1"), (9, "ok"), (1, "miss 3 4"), (2, "ok")], Premise::List, Claim::Distance),
    // In slot 4 node 4 decides 1 and then, with three members left, 2: as the slot began, the third member after 2 was 1.
    (&[(1, "4 3"), (2, "lost"), (2, "ok")], Premise::List, Claim::LeavesEarly),
    // Nobody is left who decides 1.
    (&[(1, "4 2"), (1, "lost"), (1, "off 1"), (1, "off 2"), (1, "off 3"), (1, "off 4"), (3, "ok")], Premise::List, Claim::NoDecidingSlot),
    // 1 misses node 2 in both windows, follows {3,4} and joins with {1,3,4}.
    (&[(1, "4 2"), (1, "off 1"), (1, "on 1"), (1, "ok"), (1, "miss 1"), (3, "ok"), (1, "miss 1"), (6, "ok")], Premise::Hearing, Claim::Distance),
    // Lag 1: both sponsors of 1, 3 and 4, miss it; in slot 4 node 1 leaves, 3 and 4 hold {2,3,4}, 2 holds all four.
    (&[(1, "4 2 1"), (1, "miss 3 4"), (3, "ok")], Premise::Failures, Claim::Distance),
    // 1 leaves in slot 4 and 2, whose slot 8 is lost, in slot 11. They follow {3,4,5,6} after slots 28 and 27. The knock
    // of 1 in slot 31 is lost, and 2 knocks in slot 32. In slot 36 node 1 joins for itself, and 2 for all others.
    (&[(1, "6 2 1"), (1, "lost"), (3, "ok"), (1, "on 1"), (3, "ok"), (1, "lost"), (7, "ok"), (1, "on 2"), (15, "ok"), (1, "lost"), (5, "ok")],
     Premise::Outside, Claim::Distance),
    // The list is {2,3,4,5}, and 2 is sponsored by 4 and 5; in slot 20 node 5 decides it with ks = 2. 3 and 1 have heard
    // it, and 1 joins with all.
    (&[(1, "5 3 1"), (1, "lost"), (4, "ok"), (1, "on 1"), (11, "ok"), (1, "miss 4 5"), (3, "ok")], Premise::List, Claim::Distance),
    // In slot 5 node 5 decides 1 and then, with four members left, 2: as the slot began, the fourth member after 2 was 1.
    (&[(1, "5 3 1"), (2, "lost"), (3, "ok")], Premise::List, Claim::LeavesEarly),
    (&[(1, "4 2 1"), (1, "lost"), (1, "off 1"), (1, "off 2"), (1, "off 3"), (1, "off 4"), (3, "ok")], Premise::List, Claim::NoDecidingSlot),
    // The first window meets the bits that say no to 1. Then it misses node 2 in both windows, follows {3,4,5} after slot
    // 15 and joins in slot 20 with {1,3,4,5}.
    (&[(1, "5 2 1"), (1, "off 1"), (1, "on 1"), (6, "ok"), (1, "miss 1"), (4, "ok"), (1, "miss 1"), (8, "ok")], Premise::Hearing, Claim::Distance),
];

/// Plans whose list keeps one member fewer than it must: k with lag 0 and k + 1 with lag 1.
#[rustfmt::skip]
const ONE_FEWER: &[(Plan, Claim)] = &[
    (&[(1, "4 3"), (1, "lost"), (3, "ok"), (1, "on 1"), (9, "ok"), (1, "miss 3 4"), (2, "ok")], Claim::Distance),
    (&[(1, "5 3 1"), (1, "lost"), (4, "ok"), (1, "on 1"), (11, "ok"), (1, "miss 4 5"), (3, "ok")], Claim::Distance),
];

/// Rules with lag 1 that decide one member early, and the slot in which 1 leaves by them: 3, where the third member after
/// 1 is 4. By the rules nothing is broken.
#[rustfmt::skip]
const EARLY: &[Plan] = &[
    &[(1, "5 2 1"), (1, "lost"), (2, "ok")],
    &[(1, "5 2 1"), (1, "off 1"), (3, "ok")],
];

#[rustfmt::skip]
const KEPT: &[Plan] = &[
    // The listing: one failure, and k - 1 is one.
    &[(1, "4 2"), (1, "ok"), (1, "lost"), (2, "ok")],
    // One node missing a message, once in n slots.
    &[(1, "4 2"), (1, "miss 2"), (3, "ok"), (1, "miss 3"), (3, "ok")],
    // A silent slot is one failure, on a lost line and with nodes named; a sender may be named.
    &[(1, "5 2"), (1, "off 1"), (1, "miss 2 3 4"), (1, "miss 2"), (3, "ok"), (1, "on 1"), (4, "ok")],
    &[(1, "5 2"), (1, "off 1"), (1, "lost"), (4, "ok")],
    // A silent slot of a node that is not listed is none, and an out node may be named.
    &[(1, "5 2"), (1, "off 1"), (5, "ok"), (1, "lost"), (1, "miss 1"), (1, "lost")],
    // With k = 3 two nodes may miss one message, and the same two the next one not.
    &[(1, "5 3"), (1, "miss 2 3"), (4, "ok"), (1, "miss 4 5")],
    // Out, back and a knock that all hear.
    &[(1, "4 2"), (1, "off 3"), (5, "ok"), (1, "on 3"), (30, "ok")],
    // Lag 1: n members are kept with k = n - 2, and one failure is k - 1.
    &[(1, "4 2 1"), (1, "miss 2"), (3, "ok"), (1, "miss 3"), (3, "ok")],
    // 2 leaves in slot 5, its third after, and 4 members stay on the list.
    &[(1, "5 2 1"), (1, "ok"), (1, "lost"), (10, "ok")],
    // Two failures with k = 3, in one slot and in two.
    &[(1, "6 3 1"), (1, "miss 3 4"), (5, "ok"), (1, "miss 3"), (1, "lost"), (4, "ok")],
    // Out, back and a knock that all hear.
    &[(1, "5 2 1"), (1, "off 3"), (6, "ok"), (1, "on 3"), (40, "ok")],
];

/// The line that breaks something, counted from 1, and what; none if the plan ends before.
fn follow(plan: Plan, rules: &impl Rules, demand: impl Fn(Choices) -> Demand) -> Option<(usize, Broken)> {
    let (chosen, calls) = calls(plan);
    let mut nodes = bench::set_up(chosen, chosen.n as usize).expect("the choices are in range");
    let mut demand = demand(chosen);
    for (line, call) in (2..).zip(calls) {
        let before = nodes.clone();
        let slot = bench::run(rules, &mut nodes, call).expect("no line is refused");
        if let Err(broken) = demand.judge(&before, call, slot.as_ref(), &nodes) {
            return Some((line, broken));
        }
    }
    None
}

fn lines(plan: Plan) -> usize {
    plan.iter().map(|&(times, _)| times as usize).sum()
}

/// Each plan breaks its premise first; if that is not judged, its last line breaks the claim.
pub fn each_is_needed(count: &mut Count) -> Result<(), String> {
    for &(plan, premise, claim) in BROKEN {
        let lines = lines(plan);
        let first = follow(plan, &Document01, Demand::new);
        let found = first.is_some_and(|(_, broken)| broken == Broken::Premise(premise));
        count.check(found, || format!("{plan:?}: {premise:?} is to be broken, found {first:?}"))?;
        let then = follow(plan, &Document01, |chosen| Demand::ignoring(chosen, premise));
        let fails = then == Some((lines, Broken::Claim(claim)));
        count.check(fails, || format!("{plan:?}: line {lines} is to break {claim:?}, found {then:?}"))?;
    }
    Ok(())
}

pub fn kept(count: &mut Count) -> Result<(), String> {
    for &plan in KEPT {
        let found = follow(plan, &Document01, Demand::new);
        count.check(found.is_none(), || format!("{plan:?}: nothing is to be broken, found {found:?}"))?;
    }
    Ok(())
}

/// "the list must keep k + 1 members plus the lag": with one fewer asked for, the last line breaks the claim.
pub fn one_member_fewer(count: &mut Count) -> Result<(), String> {
    for &(plan, claim) in ONE_FEWER {
        let lines = lines(plan);
        let found = follow(plan, &Document01, Demand::one_member_fewer);
        let fails = found == Some((lines, Broken::Claim(claim)));
        count.check(fails, || format!("{plan:?}: line {lines} is to break {claim:?}, found {found:?}"))?;
    }
    Ok(())
}

/// "leaving falls at the (k + lag)-th member after": not one before.
pub fn decides_early(count: &mut Count) -> Result<(), String> {
    for &plan in EARLY {
        let found = follow(plan, &Document01, Demand::new);
        count.check(found.is_none(), || format!("{plan:?}: nothing is to be broken, found {found:?}"))?;
        let (lines, found) = (lines(plan), follow(plan, &Other::DecidesEarly, Demand::new));
        let fails = found == Some((lines, Broken::Claim(Claim::LeavesEarly)));
        count.check(fails, || format!("{plan:?}: line {lines} is to break a claim, found {found:?}"))?;
    }
    Ok(())
}
