//! One comparison of the reader, one of the writer.

use comparison::library;
use comparison::messages::hex;
use comparison::model::message::{self, Said};
use comparison::report::Count;

/// Reads by both and compares the answers. It gives the expected one, 0 for an accepted call.
pub fn read(count: &mut Count, k: u32, m: u32, bytes: &[u8]) -> Result<u32, String> {
    let expected = message::read(k, m, bytes);
    let number = expected.err().unwrap_or(0);
    count.expected(number);
    let got = library::read(k, m, bytes);
    count.check(got == expected.map_err(u64::from), || {
        format!("read k = {k}, m = {m}, bytes [{}]: library {got:?}, model {expected:?}", hex(bytes))
    })?;
    Ok(number)
}

/// Bytes before and after the lent ones, which nobody may touch.
const GUARD: usize = 8;

/// A byte of the fill at each place, and its complement, so that no written byte equals both.
fn fill(length: usize, flip: u8) -> Vec<u8> {
    (0..length).map(|i| (i as u8).wrapping_mul(37) ^ 0xA5 ^ flip).collect()
}

/// Writes by both into part of a filled buffer and compares answers and buffers; every byte that
/// is not of a written message must still be the fill. It gives the expected answer, 0 for an accepted call.
pub fn write(count: &mut Count, k: u32, m: u32, said: Said, length: usize) -> Result<u32, String> {
    let mut number = 0;
    for flip in [0x00, 0xFF] {
        let before = fill(GUARD + length + GUARD, flip);
        let lent = GUARD..GUARD + length;
        let mut by_model = before.clone();
        let expected = message::write(k, m, said, &mut by_model[lent.clone()]);
        let mut by_library = before.clone();
        let got = library::write(k, m, said, &mut by_library[lent]);

        number = expected.err().unwrap_or(0);
        count.expected(number);
        let call = || format!("write k = {k}, m = {m}, {said:X?}, output of {length} bytes");
        let answer = expected.map(|n| n as u64).map_err(u64::from);
        count.check(got == answer, || format!("{}: library {got:?}, model {expected:?}", call()))?;
        let written = expected.unwrap_or(0);
        for (who, after) in [("model", &by_model), ("library", &by_library)] {
            let same =
                after[..GUARD] == before[..GUARD] && after[GUARD + written..] == before[GUARD + written..];
            count.check(same, || {
                format!(
                    "{}: {who} changed a byte outside the message, from [{}] to [{}] ({GUARD} guard bytes on each side)",
                    call(),
                    hex(&before),
                    hex(after)
                )
            })?;
        }
        count.check(by_library == by_model, || {
            format!("{}: library [{}], model [{}]", call(), hex(&by_library), hex(&by_model))
        })?;
    }
    Ok(number)
}
