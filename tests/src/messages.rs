//! Byte strings to be heard: messages, and what a cable or a careless sender might make of them.

use crate::model::message::{self, Said};
use crate::random::Random;

/// A message of k and m, by the model. It only makes inputs: the vectors test the model itself.
pub fn message_of(k: u32, m: u32, said: Said) -> Vec<u8> {
    let mut bytes = vec![0; message::length(k)];
    message::write(k, m, said, &mut bytes).expect("k, m, acknowledgements and jobs are in range");
    bytes
}

/// A message of k in the two-section form of document 01.
pub fn recorded_of(k: u32, acks: u32, return_bit: bool) -> Vec<u8> {
    let mut bytes = vec![k as u8];
    bytes.extend(&acks.to_le_bytes()[..k.div_ceil(8) as usize]);
    bytes.extend([1, u8::from(return_bit)]);
    bytes
}

/// All k acknowledgements yes, for k from 2 to 31.
pub fn all_yes(k: u32) -> u32 {
    (1 << k) - 1
}

/// The bits of all m jobs, for m from 0 to 8.
pub fn all_jobs(m: u32) -> u8 {
    ((1_u32 << m) - 1) as u8
}

/// A job byte of m jobs: none, all, one or any.
pub fn job_byte(random: &mut Random, m: u32) -> u8 {
    match random.below(4) {
        0 => 0,
        1 => all_jobs(m),
        2 if m > 0 => 1 << random.below(u64::from(m)),
        _ => random.byte() & all_jobs(m),
    }
}

/// A job byte with a bit past m; none if there is no such bit.
pub fn spare_job_byte(random: &mut Random, m: u32) -> Option<u8> {
    (m < 8).then(|| 1 << random.within(u64::from(m), 7) | random.byte() & all_jobs(m))
}

/// Damages `bytes` in one of the ways that a cable or a careless sender might.
pub fn damage(random: &mut Random, bytes: &mut Vec<u8>) {
    let kind = random.below(8);
    let length = bytes.len() as u64;
    if kind == 1 {
        for _ in 0..random.within(1, 6) {
            bytes.push(random.byte());
        }
    }
    if length < 3 {
        return;
    }
    match kind {
        0 => bytes.truncate(random.below(length) as usize),
        2 => bytes[0] = random.within(0, 33) as u8,
        3 => bytes[length as usize - 2] = random.byte(),
        4 => bytes[length as usize - random.within(1, 3) as usize] |= 1 << random.below(8),
        // The counts of the last two sections.
        5 => bytes[length as usize - 2] = random.below(10) as u8,
        6 if length > 3 => bytes[length as usize - 4] = random.below(4) as u8,
        _ => {
            for _ in 0..random.within(1, 3) {
                bytes[random.below(length) as usize] ^= 1 << random.below(8);
            }
        }
    }
}

/// The bytes in hexadecimal; of a long string its start and its length.
pub fn hex(bytes: &[u8]) -> String {
    let shown = bytes.len().min(32);
    let mut text: Vec<String> = bytes[..shown].iter().map(|byte| format!("{byte:02X}")).collect();
    if shown < bytes.len() {
        text.push(format!(".. {} bytes", bytes.len()));
    }
    text.join(" ")
}
