//! The library under test, as safe functions.

use crate::model::choices::Asked;
use crate::model::message::Said;

mod c {
    unsafe extern "C" {
        pub unsafe fn message_read(k: u32, m: u32, ptr: *const u8, len: usize) -> u64;
        pub unsafe fn message_write(
            k: u32,
            m: u32,
            acks: u32,
            ret: bool,
            jobs: u8,
            ptr: *mut u8,
            len: usize,
        ) -> u64;
        pub unsafe fn message_read_two(k: u32, ptr: *const u8, len: usize) -> u64;
        pub unsafe fn message_write_two(k: u32, acks: u32, ret: bool, ptr: *mut u8, len: usize) -> u64;
        pub unsafe fn message_to_three(
            k: u32,
            ptr: *const u8,
            len: usize,
            out_ptr: *mut u8,
            out_len: usize,
        ) -> u64;
        pub unsafe fn message_to_two(
            k: u32,
            ptr: *const u8,
            len: usize,
            out_ptr: *mut u8,
            out_len: usize,
        ) -> u64;
        pub unsafe fn cover_light_level(
            node_ptr: *const u8,
            node_len: usize,
            bases_ptr: *const u8,
            bases_len: usize,
            lamp: u32,
        ) -> u64;
        pub unsafe fn cover_light_levels(
            node_ptr: *const u8,
            node_len: usize,
            bases_ptr: *const u8,
            bases_len: usize,
            out_ptr: *mut u8,
            out_len: usize,
        ) -> u64;
        pub unsafe fn ring_sender(n: u32, ptr: *const u8, len: usize, done: u64) -> u64;
        pub unsafe fn ring_before(n: u32, ptr: *const u8, len: usize, set: u32, x: u32, j: u32) -> u64;
        pub unsafe fn ring_sponsored(
            n: u32,
            k: u32,
            lag: u32,
            ptr: *const u8,
            len: usize,
            set: u32,
            x: u32,
            j: u32,
        ) -> u64;
        pub unsafe fn ring_decided(
            n: u32,
            k: u32,
            lag: u32,
            ptr: *const u8,
            len: usize,
            set: u32,
            x: u32,
        ) -> u64;
        pub unsafe fn ring_before_back(n: u32, ptr: *const u8, len: usize, set: u32, x: u32, j: u32) -> u64;
        pub unsafe fn ring_sponsored_back(
            n: u32,
            k: u32,
            lag: u32,
            ptr: *const u8,
            len: usize,
            set: u32,
            x: u32,
            j: u32,
        ) -> u64;
        pub unsafe fn ring_decided_back(
            n: u32,
            k: u32,
            lag: u32,
            ptr: *const u8,
            len: usize,
            set: u32,
            x: u32,
        ) -> u64;
    }
}

// Those whose answers need no reading.
unsafe extern "C" {
    pub safe fn nodeset_has(s: u32, x: u32) -> bool;
    pub safe fn nodeset_with(s: u32, x: u32) -> u32;
    pub safe fn nodeset_without(s: u32, x: u32) -> u32;
    pub safe fn nodeset_union(a: u32, b: u32) -> u32;
    pub safe fn nodeset_full(n: u32) -> u32;
    pub safe fn nodeset_is_subset(a: u32, b: u32) -> bool;
    pub safe fn nodeset_is_within(n: u32, s: u32) -> bool;
    pub safe fn nodeset_size(n: u32, s: u32) -> u32;
    pub safe fn nodeset_distance(n: u32, a: u32, b: u32) -> u32;
    pub safe fn nodeset_run(s: u32) -> u32;
    pub safe fn ring_is_ring_size(n: u32) -> bool;
    pub safe fn ring_is_node_number(n: u32, x: u32) -> bool;
    pub safe fn ring_is_sponsor_count(n: u32, k: u32, lag: u32) -> bool;
    pub safe fn ring_ks(n: u32, k: u32, lag: u32, c: u32) -> u32;
}

/// What is below this bit if that is the highest bit set. Any other answer is kept whole, so that one
/// which is not exactly a refusal's number differs from each of them.
fn below(bit: u32, answer: u64) -> Result<u64, u64> {
    if answer >> bit == 1 {
        Ok(answer - (1 << bit))
    } else {
        Err(answer)
    }
}

/// An answer that stands below bit 33.
fn value(answer: u64) -> Result<u64, u64> {
    below(33, answer)
}

/// The answer of the reader, as the library gives it.
pub fn read_answer(k: u32, m: u32, bytes: &[u8]) -> u64 {
    // SAFETY: the pointer and the length are those of one slice, which is only read.
    unsafe { c::message_read(k, m, bytes.as_ptr(), bytes.len()) }
}

/// What the message says, or the number of the refusal. The job byte stands below bit 41, the return bit is bit 32.
pub fn read(k: u32, m: u32, bytes: &[u8]) -> Result<Said, u64> {
    said(read_answer(k, m, bytes))
}

fn said(answer: u64) -> Result<Said, u64> {
    below(41, answer).map(|v| Said { acks: v as u32, return_bit: v >> 32 & 1 == 1, jobs: (v >> 33) as u8 })
}

/// The number of bytes written, or the number of the refusal.
pub fn write(k: u32, m: u32, said: Said, out: &mut [u8]) -> Result<u64, u64> {
    let Said { acks, return_bit, jobs } = said;
    // SAFETY: the pointer and the length are those of one slice, lent for the call alone.
    let answer = unsafe { c::message_write(k, m, acks, return_bit, jobs, out.as_mut_ptr(), out.len()) };
    value(answer)
}

/// What a message in two sections says, with no job, or the number of the refusal.
pub fn read_two(k: u32, bytes: &[u8]) -> Result<Said, u64> {
    // SAFETY: as for `read`.
    let answer = unsafe { c::message_read_two(k, bytes.as_ptr(), bytes.len()) };
    said(answer)
}

/// A message in two sections: the number of bytes written, or the number of the refusal.
pub fn write_two(k: u32, acks: u32, return_bit: bool, out: &mut [u8]) -> Result<u64, u64> {
    // SAFETY: as for `write`.
    let answer = unsafe { c::message_write_two(k, acks, return_bit, out.as_mut_ptr(), out.len()) };
    value(answer)
}

/// A message in two sections brought to three: the number of bytes written, or the number of the refusal.
pub fn to_three(k: u32, bytes: &[u8], out: &mut [u8]) -> Result<u64, u64> {
    // SAFETY: each pointer and its length are those of one slice; one is only read, the other lent for the call alone.
    let answer = unsafe { c::message_to_three(k, bytes.as_ptr(), bytes.len(), out.as_mut_ptr(), out.len()) };
    value(answer)
}

/// A message in three sections with no jobs taken back to two.
pub fn to_two(k: u32, bytes: &[u8], out: &mut [u8]) -> Result<u64, u64> {
    // SAFETY: as above.
    let answer = unsafe { c::message_to_two(k, bytes.as_ptr(), bytes.len(), out.as_mut_ptr(), out.len()) };
    value(answer)
}

/// The sender of the slot that follows `done` slots, or the number of the refusal.
pub fn sender(asked: &Asked, done: u64) -> Result<u64, u64> {
    let slots = asked.slots.bytes();
    // SAFETY: the pointer and the length are those of one slice, which is only read; so it is below.
    value(unsafe { c::ring_sender(asked.n, slots.as_ptr(), slots.len(), done) })
}

/// A number or, where there is nobody, none; or the number of the refusal.
pub type Answer = Result<Option<u64>, u64>;

/// Nobody has 2^32 in the place of a number.
fn answer(answer: u64) -> Answer {
    value(answer).map(|v| if v == 1 << 32 { None } else { Some(v) })
}

/// A member, and how many slots back it speaks: the answers of two functions.
#[derive(Clone, Copy, PartialEq, Eq, Debug)]
pub struct Found {
    pub member: Answer,
    pub back: Answer,
}

/// The j-th member before node x.
pub fn before(asked: &Asked, set: u32, x: u32, j: u32) -> Found {
    let (n, slots) = (asked.n, asked.slots.bytes());
    let (table, places) = (slots.as_ptr(), slots.len());
    // SAFETY: as above.
    let (member, back) = unsafe {
        (c::ring_before(n, table, places, set, x, j), c::ring_before_back(n, table, places, set, x, j))
    };
    Found { member: answer(member), back: answer(back) }
}

/// The j-th member that node x sponsors.
pub fn sponsored(asked: &Asked, set: u32, x: u32, j: u32) -> Found {
    let (Asked { n, k, lag, .. }, slots) = (*asked, asked.slots.bytes());
    let (table, places) = (slots.as_ptr(), slots.len());
    // SAFETY: as above.
    let (member, back) = unsafe {
        (
            c::ring_sponsored(n, k, lag, table, places, set, x, j),
            c::ring_sponsored_back(n, k, lag, table, places, set, x, j),
        )
    };
    Found { member: answer(member), back: answer(back) }
}

/// The member that node x decides.
pub fn decided(asked: &Asked, set: u32, x: u32) -> Found {
    let (Asked { n, k, lag, .. }, slots) = (*asked, asked.slots.bytes());
    let (table, places) = (slots.as_ptr(), slots.len());
    // SAFETY: as above.
    let (member, back) = unsafe {
        (
            c::ring_decided(n, k, lag, table, places, set, x),
            c::ring_decided_back(n, k, lag, table, places, set, x),
        )
    };
    Found { member: answer(member), back: answer(back) }
}

/// The level of a lamp, or the number of the refusal. A record is lent as bytes.
pub fn level(node: &[u8], bases: &[u8], lamp: u32) -> Result<u64, u64> {
    // SAFETY: each pointer and its length are those of one slice, which is only read.
    let answer =
        unsafe { c::cover_light_level(node.as_ptr(), node.len(), bases.as_ptr(), bases.len(), lamp) };
    value(answer)
}

/// The number of levels written, or the number of the refusal.
pub fn levels(node: &[u8], bases: &[u8], out: &mut [u8]) -> Result<u64, u64> {
    let (lent, room) = (out.as_mut_ptr(), out.len());
    // SAFETY: each pointer and its length are those of one slice; two are only read, the last lent for the call alone.
    let answer =
        unsafe { c::cover_light_levels(node.as_ptr(), node.len(), bases.as_ptr(), bases.len(), lent, room) };
    value(answer)
}
