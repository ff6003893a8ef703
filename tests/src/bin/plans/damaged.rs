//! Plans that were damaged on their way, or written by somebody who had not read document 01.

use super::compare::compare;
use comparison::adversary::Adversary;
use comparison::damaged_plans::{damage, DAMAGES};
use comparison::drawn_plans::{any_k, plan};
use comparison::report::Count;

/// 8,000 short plans with up to three damages each.
pub fn damaged(count: &mut Count) -> Result<(), String> {
    let mut adversary = Adversary::new(51);
    for i in 0..8_000 {
        let n = 3 + i % 30;
        let k = any_k(&mut adversary.random, n);
        let lines = adversary.random.below(40);
        let mut text = plan(count, &mut adversary, n, k, lines).text;
        for _ in 0..adversary.random.within(1, 3) {
            damage(count, &mut adversary.random, &mut text);
        }
        compare(count, &text)?;
    }
    count.needs(DAMAGES)
}
