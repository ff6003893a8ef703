//! Which causes of refusal apply to a message that is read or to be written, each looked at by itself. Where k or the
//! length is wrong, counts and spare bits are those of the bytes that stand at the places which k gives.

use crate::causes::Causes;
use crate::model::message::Said;

pub const READ: Causes = Causes {
    numbers: &[2, 14, 6, 7, 8],
    pairs: &["read: 2 and 14", "read: 14 and 6", "read: 6 and 7", "read: 7 and 8"],
};

pub const WRITE: Causes =
    Causes { numbers: &[2, 14, 8, 9], pairs: &["write: 2 and 14", "write: 14 and 8", "write: 8 and 9"] };

pub const READ_TWO: Causes = Causes {
    numbers: &[2, 6, 7, 8],
    pairs: &["read two: 2 and 6", "read two: 6 and 7", "read two: 7 and 8"],
};

pub const WRITE_TWO: Causes =
    Causes { numbers: &[2, 8, 9], pairs: &["write two: 2 and 8", "write two: 8 and 9"] };

pub const TO_THREE: Causes = Causes {
    numbers: &[2, 6, 7, 8, 9],
    pairs: &["to three: 2 and 6", "to three: 6 and 7", "to three: 7 and 8", "to three: 8 and 9"],
};

pub const TO_TWO: Causes = Causes {
    numbers: &[2, 6, 7, 8, 15, 9],
    pairs: &["to two: 2 and 6", "to two: 6 and 7", "to two: 7 and 8", "to two: 8 and 15", "to two: 15 and 9"],
};

fn no_k(k: u32) -> bool {
    !(2..=31).contains(&k)
}

/// The place of the second count; that of the third is two further on.
fn second(k: u32) -> usize {
    1 + k.div_ceil(8) as usize
}

/// The byte at this place is another number.
fn other(bytes: &[u8], place: usize, due: u32) -> bool {
    bytes.get(place).is_some_and(|&byte| u32::from(byte) != due)
}

/// There is a bit past so many.
fn past(bits: u32, number: u32) -> bool {
    number.checked_shr(bits).is_some_and(|spare| spare != 0)
}

/// The byte at this place has such a bit.
fn spare(bytes: &[u8], place: usize, bits: u32) -> bool {
    bytes.get(place).is_some_and(|&byte| past(bits, byte.into()))
}

/// A wrong count and a spare bit of the first two sections.
fn in_two(k: u32, bytes: &[u8]) -> (bool, bool) {
    let second = second(k);
    let acks = k % 8 != 0 && spare(bytes, second - 1, k % 8);
    (other(bytes, 0, k) || other(bytes, second, 1), acks || spare(bytes, second + 1, 1))
}

pub fn read(k: u32, m: u32, bytes: &[u8]) -> [bool; 5] {
    let third = second(k) + 2;
    let (count, bit) = in_two(k, bytes);
    let (count, bit) = (count || other(bytes, third, m), bit || spare(bytes, third + 1, m));
    [no_k(k), m > 8, bytes.len() != third + 2, count, bit]
}

pub fn write(k: u32, m: u32, said: Said, room: usize) -> [bool; 4] {
    [no_k(k), m > 8, past(k, said.acks) || past(m, said.jobs.into()), room < second(k) + 4]
}

pub fn read_two(k: u32, bytes: &[u8]) -> [bool; 4] {
    let (count, bit) = in_two(k, bytes);
    [no_k(k), bytes.len() != second(k) + 2, count, bit]
}

pub fn write_two(k: u32, acks: u32, room: usize) -> [bool; 3] {
    [no_k(k), past(k, acks), room < second(k) + 2]
}

pub fn to_three(k: u32, bytes: &[u8], room: usize) -> Vec<bool> {
    [&read_two(k, bytes)[..], &[room < second(k) + 4]].concat()
}

/// The message's own job count says which job bits are spare.
pub fn to_two(k: u32, bytes: &[u8], room: usize) -> Vec<bool> {
    let third = second(k) + 2;
    let jobs = bytes.get(third).map_or(0, |&jobs| u32::from(jobs));
    let (count, bit) = in_two(k, bytes);
    let (count, bit) = (count || jobs > 8, bit || spare(bytes, third + 1, jobs));
    vec![no_k(k), bytes.len() != third + 2, count, bit, (1..=8).contains(&jobs), room < third]
}
