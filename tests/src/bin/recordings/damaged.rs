//! Texts that were damaged on their way, or written by somebody who had not read the format.

use super::compare::{compare, FORMS};
use comparison::random::Random;
use comparison::recorded_lines::{damage, text, DAMAGES};
use comparison::report::Count;

/// 6,000 short texts with up to three damages each.
pub fn damaged(count: &mut Count) -> Result<(), String> {
    let mut random = Random::new(84);
    for i in 0..6_000 {
        let form = FORMS[i % 2];
        let lines = random.within(1, 20);
        let mut text = text(&mut random, form, 2 + (i / 2) as u32 % 30, lines);
        for _ in 0..random.within(1, 3) {
            damage(count, &mut random, &mut text);
        }
        compare(count, form, &text)?;
    }
    count.needs(DAMAGES)
}
