//! Calls of the writer.

use super::compare::write;
use comparison::message_causes::{self, WRITE};
use comparison::messages::{job_byte, spare_job_byte};
use comparison::model::message::Said;
use comparison::numbers::{no_job_counts, small_and_large};
use comparison::random::Random;
use comparison::report::Count;

/// None, all, each alone, and each with all below it: some within k and some past it.
fn acknowledgements() -> Vec<u32> {
    let mut patterns = vec![0, u32::MAX];
    for i in 0..32 {
        patterns.push(1 << i);
        patterns.push((1 << i) - 1);
        patterns.push((1 << i) | 1);
    }
    patterns
}

/// Output lengths 0 to 12, and those that look short if their high bits are lost.
fn lengths() -> impl Iterator<Item = usize> {
    (0..=12).chain([255, 256, 257, 65_536])
}

/// m and the job byte take turns; one in eight has a bit past m.
fn jobs(random: &mut Random) -> (u32, u8) {
    let m = random.below(9) as u32;
    match spare_job_byte(random, m) {
        Some(spare) if random.below(8) == 0 => (m, spare),
        _ => (m, job_byte(random, m)),
    }
}

pub fn every_k(count: &mut Count) -> Result<(), String> {
    let mut random = Random::new(8);
    for k in small_and_large() {
        for length in lengths() {
            // The longest output is slow to compare, so it gets few patterns.
            let all = acknowledgements();
            let patterns = if length > 1000 { &all[..4] } else { &all[..] };
            for &acks in patterns {
                for return_bit in [false, true] {
                    let (m, jobs) = jobs(&mut random);
                    write(count, k, m, Said { acks, return_bit, jobs }, length)?;
                }
            }
        }
    }
    Ok(())
}

pub fn all_of_small_k(count: &mut Count) -> Result<(), String> {
    let mut random = Random::new(9);
    for k in 2..=8 {
        for acks in 0..1 << (k + 1) {
            for return_bit in [false, true] {
                for length in 0..=12 {
                    let (m, jobs) = jobs(&mut random);
                    write(count, k, m, Said { acks, return_bit, jobs }, length)?;
                }
            }
        }
    }
    Ok(())
}

/// Every job byte of every m and of numbers that are none, with k, acknowledgements and room right and wrong. Of the
/// causes that apply the first is told.
pub fn every_job_byte(count: &mut Count) -> Result<(), String> {
    for m in (0..=8).chain(no_job_counts()) {
        for jobs in 0..=255 {
            for (k, acks) in [(1, 0), (2, 0b11), (2, 0b100), (9, 0x1FF), (31, 0), (32, 0)] {
                for length in [0, 5, 6, 7, 8, 9, 10] {
                    let said = Said { acks, return_bit: jobs & 1 == 1, jobs };
                    let first = WRITE.first(count, &message_causes::write(k, m, said, length));
                    let number = write(count, k, m, said, length)?;
                    count.check(number == first, || {
                        format!("k = {k}, m = {m}, {said:X?}, {length} lent: {number}, not {first}")
                    })?;
                }
            }
        }
    }
    WRITE.met(count)
}

pub fn random(count: &mut Count) -> Result<(), String> {
    let mut random = Random::new(2);
    for _ in 0..300_000 {
        let k = if random.below(8) == 0 { random.below(41) } else { random.within(2, 31) } as u32;
        // As wide as k for most calls, else of any width.
        let width = if random.below(4) == 0 { random.below(33) as u32 } else { k.min(32) };
        let acks = (random.number() & ((1 << width) - 1)) as u32;
        let (m, jobs) = jobs(&mut random);
        let m = if random.below(16) == 0 { random.below(20) as u32 } else { m };
        let said = Said { acks, return_bit: random.bit(), jobs };
        write(count, k, m, said, random.below(13) as usize)?;
    }
    Ok(())
}
