//! Lines of plans and of recorded messages to which several causes of refusal apply.

use crate::causes::Causes;
use crate::message_causes;
use crate::messages::{all_yes, recorded_of};
use crate::model::recorded_text::{line, Form};
use crate::random::Random;
use crate::report::Count;

/// A line with its line feed, and the number of the first cause that applies.
pub type Refused = (Vec<u8>, u32);

pub const LINE_ONE: Causes =
    Causes { numbers: &[12, 1, 2], pairs: &["line one: 12 and 1", "line one: 1 and 2"] };

/// `ok` and `lost`.
pub const SLOT: Causes = Causes { numbers: &[12, 5], pairs: &["slot: 12 and 5"] };

pub const MISS: Causes = Causes { numbers: &[12, 3, 5], pairs: &["miss: 12 and 3", "miss: 3 and 5"] };

pub const OFF: Causes = Causes { numbers: &[12, 3], pairs: &["off: 12 and 3"] };

/// 11 comes after these; it is said of a node that there is.
pub const ON: Causes = Causes { numbers: &[12, 3], pairs: &["on: 12 and 3"] };

/// A piece of plans that is fed.
pub const FEED: Causes = Causes { numbers: &[4, 9], pairs: &["feed: 4 and 9"] };

pub const TO_THREE: Causes = Causes {
    numbers: &[12, 2, 6, 7, 8],
    pairs: &["to three: 12 and 2", "to three: 2 and 6", "to three: 6 and 7", "to three: 7 and 8"],
};

pub const TO_TWO: Causes = Causes {
    numbers: &[12, 2, 6, 7, 8, 15],
    pairs: &["to two: 12 and 2", "to two: 2 and 6", "to two: 6 and 7", "to two: 7 and 8", "to two: 8 and 15"],
};

/// Ends the line, where told so that it cannot be read.
fn ended(random: &mut Random, mut line: Vec<u8>, unreadable: bool) -> Vec<u8> {
    if unreadable {
        let ends: [&[u8]; 5] = [b" ", b"\r", b"x", b" 0 ", &[b'0'; 120]];
        line.extend(ends[random.below(5) as usize]);
    }
    line.push(b'\n');
    line
}

/// Line one with every choice of causes, for every n.
pub fn lines_one(count: &mut Count, random: &mut Random) -> Vec<Refused> {
    let mut lines = Vec::new();
    for (right, choice) in (3..=32_u64).flat_map(|n| (1..8).map(move |choice| (n, choice))) {
        let [unreadable, wrong_n, wrong_k] = [1, 2, 4].map(|bit| choice & bit == bit);
        let n = if wrong_n { [0, 2, 33, 1 << 32 | right][random.below(4) as usize] } else { right };
        let no_k = [0, 1, n, n + 1, u64::MAX][random.below(5) as usize];
        let k = if wrong_k { no_k } else { random.within(2, right - 1) };
        let applying = [unreadable, !(3..=32).contains(&n), k < 2 || k >= n];
        let line = ended(random, format!("{n} {k}").into_bytes(), unreadable);
        lines.push((line, LINE_ONE.first(count, &applying)));
    }
    lines
}

/// Later lines for a table of n nodes, at the slot limit or below it.
pub fn later_lines(count: &mut Count, random: &mut Random, n: u32, at_limit: bool) -> Vec<Refused> {
    let mut lines = Vec::new();
    for [unreadable, outside] in [[false, false], [false, true], [true, false], [true, true]] {
        let no_node = [0, n + 1, 33, u32::MAX][random.below(4) as usize];
        let x = if outside { no_node } else { random.within(1, n.into()) as u32 };
        let named = [unreadable, outside];
        let slot = SLOT.first(count, &[unreadable, at_limit]);
        let firsts = [
            ("ok".to_string(), slot),
            ("lost".to_string(), slot),
            (format!("miss {x}"), MISS.first(count, &[unreadable, outside, at_limit])),
            (format!("off {x}"), OFF.first(count, &named)),
            (format!("on {x}"), ON.first(count, &named)),
        ];
        for (line, first) in firsts.into_iter().filter(|line| line.1 != 0) {
            lines.push((ended(random, line.into_bytes(), unreadable), first));
        }
    }
    lines
}

/// What `lines_one` and `later_lines` must meet where no table is at the slot limit.
pub fn below_limit_met(count: &Count) -> Result<(), String> {
    count.needs(&[LINE_ONE.pairs, &MISS.pairs[..1], OFF.pairs, ON.pairs].concat())
}

/// The same where some are.
pub fn all_met(count: &Count) -> Result<(), String> {
    count.needs(&[LINE_ONE.pairs, SLOT.pairs, MISS.pairs, OFF.pairs, ON.pairs].concat())
}

/// A message of k to be brought to this form, with these faults: a wrong length, a wrong count, a spare bit, jobs.
fn faulty(random: &mut Random, form: Form, k: u32, faults: [bool; 4]) -> Vec<u8> {
    let [length, section, spare, jobs] = faults;
    let mut bytes = recorded_of(k, random.number() as u32 & all_yes(k), random.bit());
    let last = bytes.len() - 1;
    bytes[last] |= 2 * u8::from(spare);
    bytes[[0, last - 1][random.below(2) as usize]] ^= u8::from(section);
    if form == Form::Two {
        bytes.extend([if jobs { random.within(1, 8) as u8 } else { 0 }, 0]);
    }
    if length {
        bytes.resize(bytes.len() + 1 - 2 * random.below(2) as usize, 0);
    }
    bytes
}

/// Lines of messages to be brought to this form, with every choice of causes, for every k.
pub fn recorded_lines(count: &mut Count, random: &mut Random, form: Form) -> Vec<Refused> {
    let mut lines = Vec::new();
    for (right, choice) in (2..=31).flat_map(|k| (1..64).map(move |choice| (k, choice))) {
        let wrong = |bit: u32| choice >> bit & 1 == 1;
        let bytes = faulty(random, form, right, [wrong(2), wrong(3), wrong(4), wrong(5)]);
        let k = if wrong(1) { [0, 1, 32, 33, u32::MAX][random.below(5) as usize] } else { right };
        let mut text = line(k, &bytes);
        text.pop();
        let text = ended(random, text, wrong(0));
        let (all, of_message) = match form {
            Form::Three => (&TO_THREE, message_causes::to_three(k, &bytes, 40)),
            Form::Two => (&TO_TWO, message_causes::to_two(k, &bytes, 40)),
        };
        // The last of a message's causes is a room that is too short: a line has no such cause.
        let applying = [&[wrong(0)], &of_message[..of_message.len() - 1]].concat();
        let first = all.first(count, &applying);
        if first != 0 {
            lines.push((text, first));
        }
    }
    lines
}

/// Fails if two causes of such a line were never met at once.
pub fn recorded_met(count: &Count, form: Form) -> Result<(), String> {
    match form {
        Form::Three => TO_THREE.met(count),
        Form::Two => TO_TWO.met(count),
    }
}
