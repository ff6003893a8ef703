//! Several causes at once for the converter. The expected answer is the first of the causes that an input was given, so
//! the model is tested as well.

use super::converting::{convert, Call, TO_THREE, TO_TWO};
use comparison::causes::Causes;
use comparison::message_causes;
use comparison::messages::all_yes;
use comparison::random::Random;
use comparison::report::Count;

/// A number that is no k.
fn no_k(random: &mut Random) -> u32 {
    [0, 1, 32, 33, 40, 256 + 2, 1 << 31, u32::MAX][random.below(8) as usize]
}

/// Makes a count wrong: of the first section, the second, or a job count above 8.
fn wrong_count(random: &mut Random, k: u32, sections: usize, bytes: &mut [u8]) {
    let second = 1 + k.div_ceil(8) as usize;
    match random.below(sections as u64) {
        0 => bytes[0] ^= 1 << random.below(8),
        1 => bytes[second] ^= 1 << random.below(8),
        _ => bytes[second + 2] = random.within(9, 255) as u8,
    }
}

/// Sets a spare bit: of the acknowledgements if they have any, of the return bit's byte, or of the job byte if the job
/// count is below 8.
fn spare_bit(random: &mut Random, k: u32, sections: usize, bytes: &mut [u8]) {
    let second = 1 + k.div_ceil(8) as usize;
    match random.below(sections as u64) {
        0 if k % 8 != 0 => bytes[second - 1] |= 1 << random.within(u64::from(k % 8), 7),
        2 if bytes[second + 2] < 8 => {
            bytes[second + 3] |= 1 << random.within(u64::from(bytes[second + 2]), 7);
        }
        _ => bytes[second + 1] |= 1 << random.within(1, 7),
    }
}

/// A job count of 1 to 8 and some of its jobs.
fn put_jobs(random: &mut Random, bytes: &mut [u8]) {
    let place = bytes.len() - 2;
    let m = random.within(1, 8);
    bytes[place] = m as u8;
    bytes[place + 1] = random.byte() >> (8 - m);
}

/// Makes the length wrong by up to three bytes.
fn wrong_length(random: &mut Random, bytes: &mut Vec<u8>) {
    let length = bytes.len() + [0, 1, 2, 4, 5, 6][random.below(6) as usize] - 3;
    bytes.resize(length, random.byte());
}

/// An input with these causes and no other: k, the bytes, how many bytes to lend.
fn with_causes(random: &mut Random, call: &Call, k: u32, causes: &[u32]) -> (u32, Vec<u8>, usize) {
    let has = |cause| causes.contains(&cause);
    let sections = if call.answers.contains(&15) { 3 } else { 2 };
    let mut bytes = call.message(k, random.number() as u32 & all_yes(k), random.bit());
    if has(15) {
        put_jobs(random, &mut bytes);
    }
    if has(8) {
        spare_bit(random, k, sections, &mut bytes);
    }
    if has(7) {
        wrong_count(random, k, sections, &mut bytes);
    }
    if has(6) {
        wrong_length(random, &mut bytes);
    }
    let needed = call.gives(k) as u64;
    let lent = if has(9) { random.below(needed) } else { random.within(needed, needed + 3) };
    (if has(2) { no_k(random) } else { k }, bytes, lent as usize)
}

/// Which causes apply to k, bytes and so many lent ones.
type Applying = fn(u32, &[u8], usize) -> Vec<bool>;

/// Every choice of causes, for every k.
fn every_choice(count: &mut Count, call: &Call, (all, apply): (&Causes, Applying)) -> Result<(), String> {
    let mut random = Random::new(26);
    for k in 2..=31 {
        for choice in 0..1_u32 << (call.answers.len() - 1) {
            let chosen = |&(place, _): &(usize, &u32)| choice >> place & 1 == 1;
            let causes: Vec<u32> =
                call.answers.iter().enumerate().filter(chosen).map(|(_, &cause)| cause).collect();
            for _ in 0..24 {
                let (k, bytes, lent) = with_causes(&mut random, call, k, &causes);
                let answer = convert(count, call, k, &bytes, lent, &mut random)?;
                let firsts =
                    [causes.first().copied().unwrap_or(0), all.first(count, &apply(k, &bytes, lent))];
                count.check(firsts == [answer; 2], || {
                    format!("k = {k}, bytes {bytes:X?}, {lent} lent: {answer}, causes {causes:?}")
                })?;
            }
        }
    }
    all.met(count)?;
    count.often(call.answers, 1_000)
}

pub fn to_three(count: &mut Count) -> Result<(), String> {
    every_choice(count, &TO_THREE, (&message_causes::TO_THREE, message_causes::to_three))
}

pub fn to_two(count: &mut Count) -> Result<(), String> {
    every_choice(count, &TO_TWO, (&message_causes::TO_TWO, message_causes::to_two))
}
