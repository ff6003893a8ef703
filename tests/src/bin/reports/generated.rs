//! Files of plans that are drawn line by line with the table before each line in view.

use super::compare::compare;
use comparison::adversary::Adversary;
use comparison::drawn_plans::{any_k, push};
use comparison::events::KINDS;
use comparison::lasting::Lasting;
use comparison::plan::Plan;
use comparison::plan_files::{any_plan, parted, PLANS};
use comparison::report::Count;

/// Three files for each n and k: a plan of these first, and others after it.
pub fn every_n_and_k(count: &mut Count) -> Result<(), String> {
    let mut adversary = Adversary::new(91);
    for (n, k) in (3..=32).flat_map(|n| (2..n).map(move |k| (n, k))) {
        for _ in 0..3 {
            let mut plans = vec![any_plan(count, &mut adversary, n, k, 12)];
            for _ in 0..adversary.random.below(4) {
                let n = adversary.random.within(3, 32) as u32;
                let k = any_k(&mut adversary.random, n);
                plans.push(any_plan(count, &mut adversary, n, k, 3));
            }
            compare(count, &parted(&plans))?;
        }
    }
    count.needs(PLANS)?;
    count.needs(&KINDS)
}

/// 4,000 files of up to eight plans for n from 3 to 9: each is long enough to leave, return and leave again.
pub fn small_rings(count: &mut Count) -> Result<(), String> {
    let mut adversary = Adversary::new(92);
    for _ in 0..4_000 {
        let mut plans = Vec::new();
        for _ in 0..adversary.random.within(1, 8) {
            let n = adversary.random.within(3, 9) as u32;
            let k = any_k(&mut adversary.random, n);
            plans.push(any_plan(count, &mut adversary, n, k, 8));
        }
        compare(count, &parted(&plans))?;
    }
    count.needs(PLANS)?;
    count.needs(&KINDS)
}

/// A file of 10,000 short plans, and one of 70,000 that have hardly a line.
pub fn many_plans(count: &mut Count) -> Result<(), String> {
    let mut adversary = Adversary::new(93);
    let mut plans = Vec::new();
    for _ in 0..10_000 {
        let n = adversary.random.within(3, 12) as u32;
        let k = any_k(&mut adversary.random, n);
        plans.push(any_plan(count, &mut adversary, n, k, 3));
    }
    compare(count, &parted(&plans))?;
    // Five plans, each with the `next` after it.
    let tiny = b"3 2\nnext\nnext\n3 2\nok\nnext\n4 2\noff 5\nok\nnext\n3 2\noff 1\nlost\nnext\n";
    compare(count, &tiny.repeat(14_000))
}

/// Plans of 70,000 lines in one file, in which the nodes go and come back all the time; after each of them the same one
/// with a refused line at its end.
pub fn long(count: &mut Count) -> Result<(), String> {
    let mut plans = Vec::new();
    for (n, k) in [(3, 2), (9, 4), (32, 3)] {
        let mut lasting = Lasting::new(u64::from(n));
        let mut plan = Plan::new(n, k);
        for _ in 0..70_000 {
            let call = lasting.next(&plan.nodes);
            push(count, &mut plan, call);
        }
        plans.push(plan.text.clone());
        plan.text.extend(b"off 99\nok\nok\n");
        plans.push(plan.text);
    }
    compare(count, &parted(&plans))?;
    count.needs(&KINDS[..5])
}
