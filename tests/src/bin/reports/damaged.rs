//! Files of plans that were damaged on their way, or written by somebody who had not read request m.

use super::compare::compare;
use comparison::adversary::Adversary;
use comparison::damaged_plans::{damage, DAMAGES};
use comparison::drawn_plans::{any_k, plan};
use comparison::plan_files::{parted, PLANS};
use comparison::random::Random;
use comparison::report::Count;

/// 6,000 files of up to five short plans with up to four damages each.
pub fn damaged(count: &mut Count) -> Result<(), String> {
    let mut adversary = Adversary::new(94);
    for _ in 0..6_000 {
        let mut plans = Vec::new();
        for _ in 0..adversary.random.within(1, 5) {
            let n = adversary.random.within(3, 32) as u32;
            let k = any_k(&mut adversary.random, n);
            let lines = adversary.random.below(20);
            plans.push(plan(count, &mut adversary, n, k, lines).text);
        }
        let mut text = parted(&plans);
        let random = &mut adversary.random;
        for _ in 0..random.within(1, 4) {
            match random.bit() {
                true => damage(count, random, &mut text),
                false => damage_parting(count, random, &mut text),
            }
        }
        compare(count, &text)?;
    }
    count.needs(PLANS)?;
    count.needs(DAMAGES)?;
    count.needs(PARTINGS)
}

const PARTINGS: &[&str] = &[
    "parting: line put in",
    "parting: word put in anywhere",
    "parting: line put in anywhere",
    "parting: taken out",
    "parting: doubled",
    "parting: without its line feed",
    "parting: other case",
    "parting: spaces",
    "parting: cut after it",
];

const NEXT: &[u8] = b"next\n";

/// Damages a line `next`, or puts one in where it does not belong.
fn damage_parting(count: &mut Count, random: &mut Random, text: &mut Vec<u8>) {
    let kind = random.below(PARTINGS.len() as u64) as usize;
    let anywhere = random.below(text.len() as u64 + 1) as usize;
    let start = text[..anywhere].iter().rposition(|&byte| byte == b'\n').map_or(0, |at| at + 1);
    let put_in: (usize, &[u8]) = match kind {
        0 => (start, NEXT),
        1 => (anywhere, b"next"),
        2 => (anywhere, b"\nnext\n"),
        _ => return replace_parting(count, random, text, kind),
    };
    count.event(PARTINGS[kind]);
    text.splice(put_in.0..put_in.0, put_in.1.iter().copied());
}

/// Puts something else in the place of a line `next`, if there is one.
fn replace_parting(count: &mut Count, random: &mut Random, text: &mut Vec<u8>, kind: usize) {
    let places: Vec<usize> = (0..text.len()).filter(|&at| text[at..].starts_with(NEXT)).collect();
    if places.is_empty() {
        return;
    }
    let at = places[random.below(places.len() as u64) as usize];
    count.event(PARTINGS[kind]);
    let new: &[u8] = match kind {
        3 => b"",
        4 => b"next\nnext\n",
        5 => b"next",
        6 => [&b"Next\n"[..], b"NEXT\n", b"nexT\n"][random.below(3) as usize],
        7 => [&b" next\n"[..], b"next \n", b"next\r\n"][random.below(3) as usize],
        _ => {
            text.truncate(at + 5);
            [NEXT, b"next"][random.below(2) as usize]
        }
    };
    text.splice(at..at + NEXT.len(), new.iter().copied());
}
