//! Document 01, "The message", with the third section of document 02, request h. Acknowledgement bit 1 is the lowest
//! bit of a number, and so is that of job 1.

use super::refusal;

/// "the number of jobs m, 0 to 8"
pub const MOST_JOBS: u32 = 8;

/// What a readable message says.
#[derive(Clone, Copy, PartialEq, Eq, Debug)]
pub struct Said {
    pub acks: u32,
    pub return_bit: bool,
    /// "one byte with a bit per job"
    pub jobs: u8,
}

/// "reader and writer alone: 2 to 31"
pub fn check_k(k: u32) -> Result<(), u32> {
    if (2..=31).contains(&k) {
        Ok(())
    } else {
        Err(refusal::K)
    }
}

/// "Job count above 8 at set-up, in reader or writer"
pub fn check_m(m: u32) -> Result<(), u32> {
    if m <= MOST_JOBS {
        Ok(())
    } else {
        Err(refusal::JOBS)
    }
}

/// "a spare bit, also in a given job byte"; m is in range.
pub fn check_jobs(m: u32, jobs: u8) -> Result<(), u32> {
    if u32::from(jobs) >> m == 0 {
        Ok(())
    } else {
        Err(refusal::SPARE)
    }
}

/// "k acknowledgement bits in as few bytes as hold them"
fn acknowledgement_bytes(k: u32) -> usize {
    k.div_ceil(8) as usize
}

/// A count and the acknowledgements, a count and the return bit's byte, a count and the job byte.
pub fn length(k: u32) -> usize {
    1 + acknowledgement_bytes(k) + 2 + 2
}

/// What the bytes say, or the number of the refusal.
/// "Checks run in table order", "14, after 2": all counts come before any spare bit.
pub fn read(k: u32, m: u32, bytes: &[u8]) -> Result<Said, u32> {
    check_k(k)?;
    check_m(m)?;
    if bytes.len() != length(k) {
        return Err(refusal::LENGTH);
    }
    let (one, rest) = bytes.split_at(1 + acknowledgement_bytes(k));
    let (two, three) = rest.split_at(2);
    if u32::from(one[0]) != k || two[0] != 1 || u32::from(three[0]) != m {
        return Err(refusal::COUNT);
    }
    let mut acks = 0;
    for (i, &byte) in one[1..].iter().enumerate() {
        acks |= u32::from(byte) << (8 * i);
    }
    if acks >> k != 0 || two[1] > 1 {
        return Err(refusal::SPARE);
    }
    check_jobs(m, three[1])?;
    Ok(Said { acks, return_bit: two[1] == 1, jobs: three[1] })
}

/// The number of bytes written, or the number of the refusal.
/// "The writer leaves lent bytes after its message untouched", and every byte if it refuses.
pub fn write(k: u32, m: u32, said: Said, out: &mut [u8]) -> Result<usize, u32> {
    check_k(k)?;
    check_m(m)?;
    if said.acks >> k != 0 {
        return Err(refusal::SPARE);
    }
    check_jobs(m, said.jobs)?;
    let length = length(k);
    if out.len() < length {
        return Err(refusal::OUTPUT);
    }
    let held = acknowledgement_bytes(k);
    let (one, rest) = out[..length].split_at_mut(1 + held);
    one[0] = k as u8;
    one[1..].copy_from_slice(&said.acks.to_le_bytes()[..held]);
    rest.copy_from_slice(&[1, u8::from(said.return_bit), m as u8, said.jobs]);
    Ok(length)
}
