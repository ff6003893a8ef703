//! Document 02, request i: messages in the two-section form of document 01 are brought to the three-section form with
//! no jobs, and taken back.

use super::message;
use super::refusal;

/// "Length for k = 8 is 4 bytes, for k = 9 it is 5": a count and the acknowledgements, a count and a byte.
pub fn length(k: u32) -> usize {
    1 + k.div_ceil(8) as usize + 2
}

/// The first two sections.
struct Two<'a> {
    counts: [u8; 2],
    acks: &'a [u8],
    last: u8,
}

impl Two<'_> {
    /// Of as many bytes as `length` says for some k.
    fn of(bytes: &[u8]) -> Two<'_> {
        let (acks, rest) = bytes[1..].split_at(bytes.len() - 3);
        Two { counts: [bytes[0], rest[0]], acks, last: rest[1] }
    }

    /// "a byte holding k", "a byte holding 1"
    fn check_counts(&self, k: u32) -> Result<(), u32> {
        if self.counts.map(u32::from) == [k, 1] {
            Ok(())
        } else {
            Err(refusal::COUNT)
        }
    }

    /// "lowest bit first"
    fn acks(&self) -> u32 {
        self.acks.iter().rev().fold(0, |acks, &byte| acks << 8 | u32::from(byte))
    }

    /// "Spare bits are 0."
    fn check_spare(&self, k: u32) -> Result<(), u32> {
        if self.acks() >> k == 0 && self.last >> 1 == 0 {
            Ok(())
        } else {
            Err(refusal::SPARE)
        }
    }
}

/// "message length wrong for k", that of the form.
fn check_length(bytes: &[u8], length: usize) -> Result<(), u32> {
    if bytes.len() == length {
        Ok(())
    } else {
        Err(refusal::LENGTH)
    }
}

/// The acknowledgements and the return bit of a message in two sections, or the number of the refusal.
pub fn read(k: u32, bytes: &[u8]) -> Result<(u32, bool), u32> {
    message::check_k(k)?;
    check_length(bytes, length(k))?;
    let two = Two::of(bytes);
    two.check_counts(k)?;
    two.check_spare(k)?;
    Ok((two.acks(), two.last == 1))
}

/// "Lent bytes after the result stay untouched", and every byte if it does not fit.
fn put(result: &[u8], out: &mut [u8]) -> Result<usize, u32> {
    if out.len() < result.len() {
        return Err(refusal::OUTPUT);
    }
    out[..result.len()].copy_from_slice(result);
    Ok(result.len())
}

/// A message in two sections, "spare bits are 0": the number of bytes written, or the number of the refusal.
pub fn write(k: u32, acks: u32, return_bit: bool, out: &mut [u8]) -> Result<usize, u32> {
    message::check_k(k)?;
    if acks >> k != 0 {
        return Err(refusal::SPARE);
    }
    let mut bytes = vec![k as u8];
    for first in (0..k).step_by(8) {
        bytes.push((acks >> first) as u8);
    }
    bytes.extend([1, u8::from(return_bit)]);
    put(&bytes, out)
}

/// "brings a message to the three-section form with no jobs": "00 00 added". The number of bytes written, or the number
/// of the refusal.
pub fn to_three(k: u32, bytes: &[u8], out: &mut [u8]) -> Result<usize, u32> {
    read(k, bytes)?;
    put(&[bytes, &[0, 0]].concat(), out)
}

/// "takes one with no jobs back". Its own count of jobs judges the job byte: "15, after 8, which judges spare bits by
/// that count. A job count above 8 there gives 7."
pub fn to_two(k: u32, bytes: &[u8], out: &mut [u8]) -> Result<usize, u32> {
    message::check_k(k)?;
    check_length(bytes, message::length(k))?;
    let (sections, third) = bytes.split_at(length(k));
    let two = Two::of(sections);
    let jobs = u32::from(third[0]);
    two.check_counts(k)?;
    if jobs > message::MOST_JOBS {
        return Err(refusal::COUNT);
    }
    two.check_spare(k)?;
    message::check_jobs(jobs, third[1])?;
    if jobs > 0 {
        return Err(refusal::TAKEN_BACK);
    }
    put(sections, out)
}
