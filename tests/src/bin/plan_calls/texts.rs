//! Plan texts: drawn line by line with the table in view, some of them with a line that is refused, cut off
//! or too long.

use comparison::adversary::Adversary;
use comparison::plan::Plan;
use comparison::random::Random;

const LINES: &[&str] = &[
    "",
    "ok ",
    "o",
    "lost x",
    "miss",
    "miss 2 1",
    "miss 1 99",
    "off 0",
    "off 33",
    "on 1",
    "on 99999999999",
    "\r",
];

/// A plan of so many lines after the first; then perhaps one that is refused, and lines after it.
pub fn text(adversary: &mut Adversary, n: u32, k: u32, lines: u64) -> Vec<u8> {
    let mut plan = Plan::new(n, k);
    adversary.calm_down(n);
    for _ in 0..lines {
        let call = adversary.next(&plan.nodes);
        plan.push(call);
    }
    let random = &mut adversary.random;
    let mut text = plan.text;
    match random.below(6) {
        0 => text
            .extend([LINES[random.below(LINES.len() as u64) as usize].as_bytes(), b"\nok\noff 1\n"].concat()),
        1 => text.truncate(random.below(text.len() as u64 + 1) as usize),
        2 => text.extend([&long(random)[..], b"\nok\n"].concat()),
        3 => text[0] = random.byte(),
        _ => {}
    }
    text
}

/// About as long as a line may be.
fn long(random: &mut Random) -> Vec<u8> {
    let length = random.within(117, 124) as usize;
    let mut line = b"off 1".to_vec();
    line.resize(length, b'0');
    line
}
