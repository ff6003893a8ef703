//! One comparison of a call of the converter.

use comparison::library;
use comparison::messages::{hex, recorded_of};
use comparison::model::{message, recorded};
use comparison::random::Random;
use comparison::report::Count;

/// A call that takes bytes and gives bytes.
pub struct Call {
    name: &'static str,
    model: fn(u32, &[u8], &mut [u8]) -> Result<usize, u32>,
    library: fn(u32, &[u8], &mut [u8]) -> Result<u64, u64>,
    /// The lengths of what it takes and of what it gives, for k from 2 to 31.
    lengths: [fn(u32) -> usize; 2],
    /// What is added to a message in two sections to make one that it takes.
    added: &'static [u8],
    /// Every answer, an accepted call as 0, in the order of the checks.
    pub answers: &'static [u32],
}

pub const TO_THREE: Call = Call {
    name: "to three",
    model: recorded::to_three,
    library: library::to_three,
    lengths: [recorded::length, message::length],
    added: &[],
    answers: &[2, 6, 7, 8, 9, 0],
};

pub const TO_TWO: Call = Call {
    name: "to two",
    model: recorded::to_two,
    library: library::to_two,
    lengths: [message::length, recorded::length],
    added: &[0, 0],
    answers: &[2, 6, 7, 8, 15, 9, 0],
};

/// The writer of two sections, as a call that takes the acknowledgements' four bytes and the return bit's.
pub const WRITE_TWO: Call = Call {
    name: "write two",
    model: |k, bytes, out| recorded::write(k, acks(bytes), bytes[4] == 1, out),
    library: |k, bytes, out| library::write_two(k, acks(bytes), bytes[4] == 1, out),
    lengths: [|_| 5, recorded::length],
    added: &[],
    answers: &[2, 8, 9, 0],
};

fn acks(bytes: &[u8]) -> u32 {
    u32::from_le_bytes([bytes[0], bytes[1], bytes[2], bytes[3]])
}

impl Call {
    pub fn takes(&self, k: u32) -> usize {
        self.lengths[0](k)
    }

    pub fn gives(&self, k: u32) -> usize {
        self.lengths[1](k)
    }

    /// A message that it accepts, for k from 2 to 31.
    pub fn message(&self, k: u32, acks: u32, return_bit: bool) -> Vec<u8> {
        [&recorded_of(k, acks, return_bit), self.added].concat()
    }
}

/// How many bytes to lend: in one call of eight fewer than the result has, else up to three more.
pub fn room(random: &mut Random, call: &Call, k: u32) -> usize {
    let needed = call.gives(k.min(31)) as u64;
    let lent = if random.below(8) == 0 { random.below(needed) } else { random.within(needed, needed + 3) };
    lent as usize
}

/// Bytes before and after the lent ones, which nobody may touch.
const GUARD: usize = 8;

/// Converts by both into part of a buffer of random bytes, then of their complements, and compares the answers and every
/// byte; all that is not of a result must stay as it was. It gives the expected answer, 0 for an accepted call.
pub fn convert(
    count: &mut Count,
    call: &Call,
    k: u32,
    bytes: &[u8],
    length: usize,
    random: &mut Random,
) -> Result<u32, String> {
    let fill: Vec<u8> = (0..GUARD + length + GUARD).map(|_| random.byte()).collect();
    let lent = GUARD..GUARD + length;
    let mut number = 0;
    for flip in [0x00, 0xFF] {
        let before: Vec<u8> = fill.iter().map(|byte| byte ^ flip).collect();
        let (mut by_model, mut by_library) = (before.clone(), before.clone());
        let expected = (call.model)(k, bytes, &mut by_model[lent.clone()]);
        let got = (call.library)(k, bytes, &mut by_library[lent.clone()]);
        number = expected.err().unwrap_or(0);
        count.expected(number);
        let input = || format!("{} k = {k}, bytes [{}], output of {length} bytes", call.name, hex(bytes));
        let answer = expected.map(|n| n as u64).map_err(u64::from);
        count.check(got == answer, || format!("{}: library {got:?}, model {expected:?}", input()))?;
        let written = GUARD..GUARD + expected.unwrap_or(0);
        let mut rest = by_library.clone();
        rest[written.clone()].copy_from_slice(&before[written]);
        count.check(rest == before, || {
            format!("{}: library changed a byte outside the result: [{}]", input(), hex(&by_library))
        })?;
        count.check(by_library == by_model, || {
            format!("{}: library [{}], model [{}]", input(), hex(&by_library), hex(&by_model))
        })?;
    }
    Ok(number)
}
