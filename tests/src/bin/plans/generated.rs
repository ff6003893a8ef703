//! Plans drawn line by line with the table before each line in view.

use super::compare::{compare, SLOTS};
use comparison::adversary::Adversary;
use comparison::drawn_plans::{any_k, end, plan, push};
use comparison::events::{KINDS, SEVERAL};
use comparison::lasting::Lasting;
use comparison::plan::Plan;
use comparison::power_cut::PowerCut;
use comparison::random::Random;
use comparison::report::Count;

fn compare_drawn(count: &mut Count, adversary: &mut Adversary, n: u32, k: u32) -> Result<(), String> {
    let lines = adversary.random.within(u64::from(n), 10 * u64::from(n));
    let mut plan = plan(count, adversary, n, k, lines);
    end(&mut adversary.random, &mut plan);
    compare(count, &plan.text)
}

/// Twelve plans for each n and k.
pub fn every_n_and_k(count: &mut Count) -> Result<(), String> {
    let mut adversary = Adversary::new(41);
    for n in 3..=32 {
        for k in 2..n {
            for _ in 0..12 {
                compare_drawn(count, &mut adversary, n, k)?;
            }
        }
    }
    count.needs(SLOTS)?;
    count.needs(&SEVERAL)?;
    count.needs(&KINDS)
}

/// 15,000 plans for n from 3 to 9: each is short, but long enough to leave, return and leave again.
pub fn small_rings(count: &mut Count) -> Result<(), String> {
    let mut adversary = Adversary::new(42);
    for i in 0..15_000 {
        let n = 3 + i % 7;
        let k = any_k(&mut adversary.random, n);
        compare_drawn(count, &mut adversary, n, k)?;
    }
    count.needs(SLOTS)?;
    count.needs(&SEVERAL)?;
    count.needs(&KINDS)
}

/// Two plans for each n and k in which nodes are switched off and nothing else happens.
pub fn power_cuts(count: &mut Count) -> Result<(), String> {
    let mut random = Random::new(43);
    for n in 3..=32 {
        for k in (2..n).flat_map(|k| [k; 2]) {
            let mut cut = PowerCut::new(random.number(), n);
            let mut plan = Plan::new(n, k);
            for _ in 0..4 * n {
                let call = cut.next(&plan.nodes);
                push(count, &mut plan, call);
            }
            compare(count, &plan.text)?;
        }
    }
    count.needs(&["slot: silent", "slot: sent"])?;
    count.needs(&SEVERAL)
}

/// A few plans of 50,000 lines in which the nodes go and come back all the time, each with a refused line
/// at its end.
pub fn long(count: &mut Count) -> Result<(), String> {
    for (n, k) in [(3, 2), (5, 2), (9, 4), (32, 3)] {
        let mut lasting = Lasting::new(u64::from(n));
        let mut plan = Plan::new(n, k);
        for _ in 0..50_000 {
            let call = lasting.next(&plan.nodes);
            push(count, &mut plan, call);
        }
        plan.text.extend(b"off 99\n");
        compare(count, &plan.text)?;
    }
    count.needs(&SLOTS[..4])?;
    count.needs(&KINDS[..5])
}
