//! The reader and the writer of messages in two sections.

use super::converting::{convert, WRITE_TWO};
use comparison::library;
use comparison::message_causes::{self, READ_TWO, WRITE_TWO as WRITES};
use comparison::messages::{all_yes, damage, hex, recorded_of};
use comparison::model::message::Said;
use comparison::model::recorded;
use comparison::numbers::small_and_large;
use comparison::random::Random;
use comparison::report::Count;

/// Reads by both and compares. A message in two sections reports no job. It gives the expected answer, 0 for an accepted
/// call.
fn read(count: &mut Count, k: u32, bytes: &[u8]) -> Result<u32, String> {
    let expected = recorded::read(k, bytes);
    let got = library::read_two(k, bytes);
    let number = expected.err().unwrap_or(0);
    count.expected(number);
    let said = expected.map(|(acks, return_bit)| Said { acks, return_bit, jobs: 0 }).map_err(u64::from);
    count
        .check(got == said, || format!("k = {k}, bytes [{}]: library {got:?}, model {said:?}", hex(bytes)))?;
    Ok(number)
}

fn any_message(random: &mut Random, k: u32) -> Vec<u8> {
    recorded_of(k, random.number() as u32 & all_yes(k), random.bit())
}

/// A message of k, or of the nearest k in range, with each byte changed to every value, and of each length up to three
/// bytes more than it has.
pub fn read_near(count: &mut Count) -> Result<(), String> {
    let mut random = Random::new(31);
    for k in small_and_large() {
        let mut bytes = any_message(&mut random, k.clamp(2, 31));
        for place in 0..bytes.len() {
            let kept = bytes[place];
            for value in 0..=255 {
                bytes[place] = value;
                read(count, k, &bytes)?;
            }
            bytes[place] = kept;
        }
        for length in (0..bytes.len() + 4).chain([bytes.len(), 256 + bytes.len(), 65_536 + bytes.len()]) {
            let mut resized = bytes.clone();
            resized.resize(length, 0);
            read(count, k, &resized)?;
        }
    }
    Ok(())
}

pub fn read_random(count: &mut Count) -> Result<(), String> {
    let mut random = Random::new(32);
    for _ in 0..300_000 {
        let of = random.within(2, 31) as u32;
        let mut bytes = any_message(&mut random, of);
        for _ in 0..random.below(3) {
            damage(&mut random, &mut bytes);
        }
        let k = if random.below(8) == 0 { random.below(41) as u32 } else { of };
        read(count, k, &bytes)?;
    }
    count.often(&[0, 2, 6, 7, 8], 5_000)
}

/// A message whose counts are wrong and whose spare bits are set where told, by a bit each.
fn faulty(k: u32, length: usize, wrong: u8) -> [u8; 8] {
    let mut bytes = [0; 8];
    bytes[0] = k as u8 + (wrong & 1);
    bytes[length - 3] = if wrong & 2 == 2 { 0xFF } else { 0 };
    bytes[length - 2] = 1 + (wrong >> 2 & 1);
    bytes[length - 1] = if wrong & 8 == 8 { 2 } else { 1 };
    bytes
}

/// Every k with each choice of two counts, two bytes and a length, right and wrong: of the causes that apply the first
/// is told.
pub fn read_several_faults(count: &mut Count) -> Result<(), String> {
    for k in 1..=32 {
        let length = recorded::length(k.clamp(2, 31));
        for wrong in 0..16 {
            for size in [length - 1, length, length + 1] {
                let bytes = &faulty(k, length, wrong)[..size];
                let first = READ_TWO.first(count, &message_causes::read_two(k, bytes));
                let number = read(count, k, bytes)?;
                count.check(number == first, || format!("k = {k}, {bytes:X?}: {number}, not {first}"))?;
            }
        }
    }
    READ_TWO.met(count)
}

/// Acknowledgements within k and past it, with each number of lent bytes up to three more than a message has: of the
/// causes that apply the first is told.
pub fn written(count: &mut Count) -> Result<(), String> {
    let mut random = Random::new(33);
    for k in small_and_large() {
        let within = all_yes(k.clamp(2, 31));
        for lent in (0..=WRITE_TWO.gives(k.clamp(2, 31)) + 3).chain([255, 256, 257]) {
            for turn in 0..32 {
                let any = random.number() as u32;
                let acks = [any & within, within, any, 1 << turn, within + 1][turn as usize % 5];
                let mut bytes = acks.to_le_bytes().to_vec();
                bytes.push(u8::from(random.bit()));
                let first = WRITES.first(count, &message_causes::write_two(k, acks, lent));
                let number = convert(count, &WRITE_TWO, k, &bytes, lent, &mut random)?;
                count.check(number == first, || {
                    format!("k = {k}, {acks:X}, {lent} lent: {number}, not {first}")
                })?;
            }
        }
    }
    WRITES.met(count)?;
    count.often(&[0, 2, 8, 9], 1_000)
}
