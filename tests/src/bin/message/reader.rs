//! Byte strings for the reader.

use super::compare::read;
use comparison::message_causes::{self, READ};
use comparison::messages::{all_jobs, all_yes, damage, job_byte, message_of};
use comparison::model::message::{self, Said};
use comparison::numbers::{no_job_counts, small_and_large};
use comparison::random::Random;
use comparison::report::Count;

/// Cuts `bytes` to `length`, or extends them by `filler`.
fn resized(bytes: &[u8], length: usize, filler: u8) -> Vec<u8> {
    let mut changed = bytes.to_vec();
    changed.resize(length, filler);
    changed
}

/// Lengths 0 to 12, and those that look short if their high bits are lost.
fn lengths() -> impl Iterator<Item = usize> {
    (0..=12).chain((5..=10).flat_map(|n| [256 + n, 65_536 + n]))
}

/// All acknowledgements yes, return bit 1, every job reported.
fn full_message(k: u32, m: u32) -> Vec<u8> {
    message_of(k, m, Said { acks: all_yes(k), return_bit: true, jobs: all_jobs(m) })
}

fn empty_message(k: u32, m: u32) -> Vec<u8> {
    message_of(k, m, Said { acks: 0, return_bit: false, jobs: 0 })
}

/// Messages of every k for this one to read, and some that are none.
fn starts(k: u32, m: u32) -> Vec<Vec<u8>> {
    // A k out of range gets messages of the others too.
    let mut starts: Vec<Vec<u8>> = (2..=31).map(|of| full_message(of, m)).collect();
    // The first byte is k as far as it fits.
    starts.push(vec![k as u8, 0, 1, 0, m as u8, 0]);
    starts.push(vec![k as u8, 0, 0, 0, 0, 1, 1, m as u8, 0]);
    starts.push(vec![k as u8, 0, 0, 0, 0, 0, 1, 1, m as u8, 0]);
    starts.push(vec![0x00; 6]);
    starts.push(vec![0xFF; 6]);
    if (2..=31).contains(&k) {
        starts.push(empty_message(k, m));
        for from_end in [1, 3] {
            let mut spare = empty_message(k, m);
            let place = spare.len() - from_end;
            spare[place] |= 1 << if from_end == 1 { m.min(7) } else { 1 };
            starts.push(spare);
        }
    }
    starts
}

pub fn every_k(count: &mut Count) -> Result<(), String> {
    for (k, turn) in small_and_large().zip(0_u32..) {
        let m = turn % 9;
        for start in &starts(k, m) {
            read(count, k, m, start)?;
            for length in lengths() {
                for filler in [0x00, 0x01, 0xFF] {
                    read(count, k, m, &resized(start, length, filler))?;
                }
            }
        }
    }
    Ok(())
}

/// Every k with every m and with numbers that are none: messages of each m, the lengths around theirs.
pub fn every_k_and_m(count: &mut Count) -> Result<(), String> {
    for k in small_and_large() {
        for m in (0..=8).chain(no_job_counts()) {
            for of in 0..=8 {
                let near = k.clamp(2, 31);
                let mut spare = full_message(near, of);
                spare.last_mut().into_iter().for_each(|jobs| *jobs = 0xFF);
                for start in [full_message(near, of), empty_message(near, of), spare] {
                    let length = start.len();
                    for size in [length - 2, length - 1, length, length + 1] {
                        read(count, k, m, &resized(&start, size, 0x00))?;
                    }
                }
            }
        }
    }
    Ok(())
}

/// `bytes` with each byte changed to each value, the first `length` of them read.
fn each_byte_changed(
    count: &mut Count,
    (k, m): (u32, u32),
    bytes: &[u8],
    length: usize,
) -> Result<(), String> {
    let mut changed = bytes.to_vec();
    for i in 0..length {
        for value in 0..=255 {
            changed[i] = value;
            read(count, k, m, &changed[..length])?;
        }
        changed[i] = bytes[i];
    }
    Ok(())
}

/// m and the job byte take turns: a spare bit and a wrong count of the third section are met with each.
pub fn near_messages_of_small_k(count: &mut Count) -> Result<(), String> {
    let mut random = Random::new(5);
    for k in 2..=8 {
        for acks in 0..=all_yes(k) {
            for return_bit in [false, true] {
                let m = random.below(9) as u32;
                let said = Said { acks, return_bit, jobs: job_byte(&mut random, m) };
                let long = resized(&message_of(k, m, said), 10, 0x01);
                read(count, k, m, &[])?;
                for length in 1..=10 {
                    each_byte_changed(count, (k, m), &long, length)?;
                }
            }
        }
    }
    Ok(())
}

pub fn near_messages_of_large_k(count: &mut Count) -> Result<(), String> {
    let mut random = Random::new(6);
    for k in 9..=31 {
        let ones = (0..k).map(|i| 1 << i);
        let patterns = ones.clone().chain(ones.map(|one| all_yes(k) ^ one)).chain([0, all_yes(k)]);
        for acks in patterns {
            for return_bit in [false, true] {
                let m = random.below(9) as u32;
                let said = Said { acks, return_bit, jobs: job_byte(&mut random, m) };
                let bytes = message_of(k, m, said);
                each_byte_changed(count, (k, m), &bytes, bytes.len())?;
            }
        }
    }
    Ok(())
}

/// Every message of each m with k = 2, 8, 9 and 31: the third section takes every two bytes.
pub fn every_third_section(count: &mut Count) -> Result<(), String> {
    for k in [2, 8, 9, 31] {
        for m in 0..=9 {
            let mut bytes = full_message(k, 0);
            let place = bytes.len() - 2;
            for third in 0..=u16::MAX {
                bytes[place..].copy_from_slice(&third.to_be_bytes());
                read(count, k, m, &bytes)?;
            }
        }
    }
    Ok(())
}

/// Every k with each choice of a first count, an acknowledgement byte, a second count, a return byte and a length,
/// right and wrong, so that every two checks meet. The third section is right, or wrong in one of two ways.
pub fn several_faults(count: &mut Count) -> Result<(), String> {
    let mut random = Random::new(7);
    for k in 0..=40_u32 {
        let length = message::length(k.min(31));
        for first in [0, 1, k as u8, k.wrapping_add(1) as u8, 0x80 | k as u8, 255] {
            for ack in 0..=255 {
                for second in [0, 1, 2, 3, 0x81, 255] {
                    for last in [0, 1, 2, 3, 0x80, 0xFF] {
                        let mut bytes = [0x55; 11];
                        bytes[0] = first;
                        bytes[length - 5] = ack;
                        bytes[length - 4] = second;
                        bytes[length - 3] = last;
                        let m = random.below(10) as u32;
                        bytes[length - 2] = m as u8 ^ u8::from(random.below(4) == 0);
                        bytes[length - 1] = if random.below(4) == 0 { random.byte() } else { 0 };
                        let size = length - 1 + random.below(3) as usize;
                        read(count, k, m, &bytes[..size])?;
                        read(count, k, m, &bytes[..length])?;
                    }
                }
            }
        }
    }
    Ok(())
}

/// The same for the third section: every k and m with each choice of three counts, three bytes and a length. Of the
/// causes that apply the first is told.
pub fn several_faults_of_jobs(count: &mut Count) -> Result<(), String> {
    for k in 1..=32_u32 {
        let length = message::length(k.clamp(2, 31));
        for m in (0..=9).chain([255, 256 + 3, u32::MAX]) {
            for wrong in 0..8_u8 {
                for spare in 0..8_u8 {
                    for size in [length - 1, length, length + 1] {
                        let bytes = &faulty((k, m), length, wrong, spare)[..size];
                        let first = READ.first(count, &message_causes::read(k, m, bytes));
                        let number = read(count, k, m, bytes)?;
                        count.check(number == first, || format!("{bytes:X?}: {number}, not {first}"))?;
                    }
                }
            }
        }
    }
    READ.met(count)
}

/// A message whose counts are wrong and whose spare bits are set where told, by a bit for each section. Where a section
/// has no spare bit, all its bits are set.
fn faulty((k, m): (u32, u32), length: usize, wrong: u8, spare: u8) -> [u8; 11] {
    let mut bytes = [0; 11];
    bytes[0] = k as u8 + (wrong & 1);
    bytes[length - 5] = if spare & 1 == 1 { 0xFF } else { 0 };
    bytes[length - 4] = 1 + (wrong >> 1 & 1);
    bytes[length - 3] = if spare >> 1 & 1 == 1 { 2 } else { 1 };
    bytes[length - 2] = (m as u8).wrapping_add(wrong >> 2 & 1);
    bytes[length - 1] = if spare >> 2 & 1 == 1 { 0xFF } else { 0 };
    bytes
}

/// The k or m that a message is read with: mostly its own.
fn near(random: &mut Random, of: u32, limit: u64) -> u32 {
    if random.below(8) == 0 {
        random.below(limit) as u32
    } else {
        of
    }
}

pub fn random(count: &mut Count) -> Result<(), String> {
    let mut random = Random::new(1);
    for _ in 0..600_000 {
        let of = random.within(2, 31) as u32;
        let of_m = random.below(9) as u32;
        let acks = random.number() as u32 & all_yes(of);
        let said = Said { acks, return_bit: random.bit(), jobs: job_byte(&mut random, of_m) };
        let mut bytes = message_of(of, of_m, said);
        for _ in 0..random.below(3) {
            damage(&mut random, &mut bytes);
        }
        if random.below(16) == 0 {
            bytes = (0..random.below(13)).map(|_| random.byte()).collect();
        }
        let k = near(&mut random, of, 41);
        let m = near(&mut random, of_m, 11);
        // At any place of a larger buffer: what stands around the string must not matter.
        let place = random.below(8) as usize;
        let mut around: Vec<u8> = (0..place + bytes.len() + 8).map(|_| random.byte()).collect();
        around[place..place + bytes.len()].copy_from_slice(&bytes);
        read(count, k, m, &around[place..place + bytes.len()])?;
    }
    Ok(())
}
