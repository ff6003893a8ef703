//! Messages for the converter of request i, valid and damaged.

use super::converting::{convert, room, Call, TO_THREE, TO_TWO};
use comparison::messages::{all_yes, damage, job_byte, spare_job_byte};
use comparison::numbers::small_and_large;
use comparison::random::Random;
use comparison::report::Count;

/// Lengths 0 to 12, and those that look short if their high bits are lost.
fn lengths() -> impl Iterator<Item = usize> {
    (0..=12).chain((4..=9).flat_map(|n| [256 + n, 65_536 + n]))
}

/// Messages of every k for this one to convert, in the form that the call takes, and some that are none.
fn starts(call: &Call, k: u32) -> Vec<Vec<u8>> {
    let mut starts: Vec<Vec<u8>> = (2..=31).map(|of| call.message(of, all_yes(of), true)).collect();
    // The first byte is k as far as it fits.
    for middle in [1, 4, 5] {
        let mut bytes = vec![0; middle + 5];
        bytes[0] = k as u8;
        bytes[middle + 1] = 1;
        starts.push(bytes);
    }
    if (2..=31).contains(&k) {
        let own = call.message(k, 0, false);
        for (place, flip) in (0..own.len()).flat_map(|place| [(place, 0x01), (place, 0x80)]) {
            let mut changed = own.clone();
            changed[place] ^= flip;
            starts.push(changed);
        }
        starts.push(own);
    }
    starts
}

fn every_k(count: &mut Count, call: &Call) -> Result<(), String> {
    let mut random = Random::new(21);
    for k in small_and_large() {
        for start in &starts(call, k) {
            convert(count, call, k, start, room(&mut random, call, k), &mut random)?;
            for length in lengths() {
                let mut bytes = start.clone();
                bytes.resize(length, 0x00);
                convert(count, call, k, &bytes, room(&mut random, call, k), &mut random)?;
            }
        }
    }
    count.often(call.answers, 40)
}

pub fn every_k_to_three(count: &mut Count) -> Result<(), String> {
    every_k(count, &TO_THREE)
}

pub fn every_k_to_two(count: &mut Count) -> Result<(), String> {
    every_k(count, &TO_TWO)
}

/// A valid message of k with any acknowledgements.
fn any_message(random: &mut Random, call: &Call, k: u32) -> Vec<u8> {
    call.message(k, random.number() as u32 & all_yes(k), random.bit())
}

/// Every k: a message with each byte changed to every value, and with up to three bytes more or fewer.
fn near(count: &mut Count, call: &Call) -> Result<(), String> {
    let mut random = Random::new(22);
    for k in 2..=31 {
        for _ in 0..8 {
            let mut bytes = any_message(&mut random, call, k);
            for place in 0..bytes.len() {
                let kept = bytes[place];
                for value in 0..=255 {
                    bytes[place] = value;
                    convert(count, call, k, &bytes, call.gives(k), &mut random)?;
                }
                bytes[place] = kept;
            }
            for length in bytes.len() - 3..=bytes.len() + 3 {
                let filler = [0, random.byte()][random.below(2) as usize];
                bytes.resize(length, filler);
                convert(count, call, k, &bytes, call.gives(k), &mut random)?;
            }
        }
    }
    let met: Vec<u32> = call.answers.iter().copied().filter(|number| ![2, 9].contains(number)).collect();
    count.often(&met, 1_000)
}

pub fn near_to_three(count: &mut Count) -> Result<(), String> {
    near(count, &TO_THREE)
}

pub fn near_to_two(count: &mut Count) -> Result<(), String> {
    near(count, &TO_TWO)
}

/// Every two bytes as third section; the acknowledgements have a spare bit in every fourth.
pub fn every_third_section(count: &mut Count) -> Result<(), String> {
    let mut random = Random::new(23);
    for k in [2, 3, 8, 9, 31] {
        let mut bytes = TO_TWO.message(k, all_yes(k), true);
        let place = bytes.len() - 2;
        for third in 0..=u16::MAX {
            bytes[place..].copy_from_slice(&third.to_be_bytes());
            bytes[place - 1] = if random.below(4) == 0 { 3 } else { 1 };
            convert(count, &TO_TWO, k, &bytes, TO_TWO.gives(k), &mut random)?;
        }
    }
    count.often(&[7, 8, 15], 1_000)
}

/// Every k, each number of lent bytes from none to three more than the result has.
fn every_room(count: &mut Count, call: &Call) -> Result<(), String> {
    let mut random = Random::new(24);
    for k in 2..=31 {
        for lent in 0..=call.gives(k) + 3 {
            for turn in 0..24 {
                let mut bytes = any_message(&mut random, call, k);
                if turn % 3 == 0 {
                    damage(&mut random, &mut bytes);
                }
                convert(count, call, k, &bytes, lent, &mut random)?;
            }
        }
    }
    count.often(&[0, 9], 1_000)
}

pub fn every_room_to_three(count: &mut Count) -> Result<(), String> {
    every_room(count, &TO_THREE)
}

pub fn every_room_to_two(count: &mut Count) -> Result<(), String> {
    every_room(count, &TO_TWO)
}

/// For a call that takes three sections: jobs in one of two messages, one in four of these with a spare bit.
fn put_jobs(random: &mut Random, call: &Call, bytes: &mut [u8]) {
    if call.takes(2) == 4 || random.bit() {
        return;
    }
    let m = random.below(9) as u32;
    let place = bytes.len() - 2;
    bytes[place] = m as u8;
    bytes[place + 1] = match spare_job_byte(random, m) {
        Some(spare) if random.below(4) == 0 => spare,
        _ => job_byte(random, m),
    };
}

fn random(count: &mut Count, call: &Call) -> Result<(), String> {
    let mut random = Random::new(25);
    for _ in 0..300_000 {
        let of = random.within(2, 31) as u32;
        let mut bytes = any_message(&mut random, call, of);
        put_jobs(&mut random, call, &mut bytes);
        for _ in 0..random.below(3) {
            damage(&mut random, &mut bytes);
        }
        let k = if random.below(8) == 0 { random.below(41) as u32 } else { of };
        // At any place of a larger buffer: what stands around the message must not matter.
        let place = random.below(8) as usize;
        let mut around: Vec<u8> = (0..place + bytes.len() + 8).map(|_| random.byte()).collect();
        around[place..place + bytes.len()].copy_from_slice(&bytes);
        let lent = room(&mut random, call, k);
        convert(count, call, k, &around[place..place + bytes.len()], lent, &mut random)?;
    }
    count.often(call.answers, 5_000)
}

pub fn random_to_three(count: &mut Count) -> Result<(), String> {
    random(count, &TO_THREE)
}

pub fn random_to_two(count: &mut Count) -> Result<(), String> {
    random(count, &TO_TWO)
}
