//! Texts of recorded messages: generated, and damaged on their way, or written by somebody who had not read the format.

use crate::messages::{self, all_yes, job_byte, message_of, recorded_of};
use crate::model::message::Said;
use crate::model::recorded_text::{line, Form};
use crate::random::Random;
use crate::report::Count;

pub const FORMS: [Form; 2] = [Form::Three, Form::Two];

/// Any message of k in the form that is brought to the other, valid or damaged.
fn message(random: &mut Random, form: Form, k: u32) -> Vec<u8> {
    let acks = random.number() as u32 & all_yes(k);
    let return_bit = random.bit();
    let mut bytes = match form {
        Form::Three => recorded_of(k, acks, return_bit),
        Form::Two => {
            let m = if random.bit() { 0 } else { random.below(9) as u32 };
            let jobs = job_byte(random, m);
            message_of(k, m, Said { acks, return_bit, jobs })
        }
    };
    if random.below(3) == 0 {
        messages::damage(random, &mut bytes);
    }
    bytes
}

/// A text of so many lines; now and then a k that is out of range.
pub fn text(random: &mut Random, form: Form, k: u32, lines: u64) -> Vec<u8> {
    let mut text = Vec::new();
    for _ in 0..lines {
        let bytes = message(random, form, k);
        let written = match random.below(16) {
            0 => random.number() as u32 >> random.below(32),
            _ => k,
        };
        text.extend(line(written, &bytes));
    }
    text
}

pub const DAMAGES: &[&str] = &[
    "damage: bits turned",
    "damage: cut",
    "damage: byte put in",
    "damage: byte taken out",
    "damage: other byte",
    "damage: long word",
    "damage: lines joined",
];

/// Bytes that matter to a reader of these lines, and any others.
fn odd_byte(random: &mut Random) -> u8 {
    const ODD: &[u8] = b" \n\r\t\x00 0019AFafG/:@`\n-+x\xff";
    if random.below(4) == 0 {
        random.byte()
    } else {
        ODD[random.below(ODD.len() as u64) as usize]
    }
}

/// Damages a text in one place.
pub fn damage(count: &mut Count, random: &mut Random, text: &mut Vec<u8>) {
    let kind = random.below(DAMAGES.len() as u64) as usize;
    count.event(DAMAGES[kind]);
    let at = random.below(text.len() as u64 + 1) as usize;
    match kind {
        0 => text.iter_mut().skip(at).take(2).for_each(|byte| *byte ^= 1 << random.below(8)),
        1 => text.truncate(at),
        2 => text.insert(at, odd_byte(random)),
        3 if at < text.len() => {
            text.remove(at);
        }
        4 if at < text.len() => text[at] = odd_byte(random),
        5 => {
            let digit = b"09AF"[random.below(4) as usize];
            text.splice(at..at, vec![digit; random.within(1, 130) as usize]);
        }
        6 => {
            if let Some(end) = text.iter().skip(at).position(|&byte| byte == b'\n') {
                text[at + end] = b' ';
            }
        }
        _ => {}
    }
}

/// Notes the answer of each line, by the expected output.
pub fn note(count: &mut Count, expected: &[u8]) {
    for line in expected.split_inclusive(|&byte| byte == b'\n') {
        let line = std::str::from_utf8(line).expect("the output is text");
        let words: Vec<&str> = line.trim_end().split(' ').collect();
        match words[..] {
            ["line", _, "refusal", number] => count.expected(number.parse().expect("a number")),
            _ => count.expected(0),
        }
    }
}
