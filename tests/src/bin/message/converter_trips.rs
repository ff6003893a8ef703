//! The converter there and back, and what is read from both forms. The expected answer is what went in.

use comparison::library;
use comparison::messages::{all_yes, hex, message_of, recorded_of};
use comparison::model::message::Said;
use comparison::model::recorded;
use comparison::random::Random;
use comparison::report::Count;

/// The library's result in a buffer of random bytes, cut to what it says that it wrote.
fn converted(
    call: fn(u32, &[u8], &mut [u8]) -> Result<u64, u64>,
    k: u32,
    bytes: &[u8],
    random: &mut Random,
) -> Result<Vec<u8>, String> {
    let mut out: Vec<u8> = (0..16).map(|_| random.byte()).collect();
    match call(k, bytes, &mut out) {
        Ok(n) if n <= 16 => {
            out.truncate(n as usize);
            Ok(out)
        }
        answer => Err(format!("k = {k}, bytes [{}]: library {answer:?}", hex(bytes))),
    }
}

/// Every k with all acknowledgements if it is small, else with some; both return bits.
fn each_said(mut each: impl FnMut(u32, u32, bool, &mut Random) -> Result<(), String>) -> Result<(), String> {
    let mut random = Random::new(27);
    for k in 2..=31 {
        for i in 0..1 << k.min(11) {
            let acks = if k <= 11 { i } else { random.number() as u32 & all_yes(k) };
            for return_bit in [false, true] {
                each(k, acks, return_bit, &mut random)?;
            }
        }
    }
    Ok(())
}

fn same(count: &mut Count, k: u32, began: &[u8], ended: &[u8]) -> Result<(), String> {
    count.expected(0);
    count.check(began == ended, || {
        format!("k = {k}: there and back from [{}] gave [{}]", hex(began), hex(ended))
    })
}

/// "Going there and back gives the bytes we began with, from either side."
pub fn from_two(count: &mut Count) -> Result<(), String> {
    each_said(|k, acks, return_bit, random| {
        let began = recorded_of(k, acks, return_bit);
        let there = converted(library::to_three, k, &began, random)?;
        let ended = converted(library::to_two, k, &there, random)?;
        same(count, k, &began, &ended)
    })?;
    count.often(&[0], 50_000)
}

pub fn from_three(count: &mut Count) -> Result<(), String> {
    each_said(|k, acks, return_bit, random| {
        let began = message_of(k, 0, Said { acks, return_bit, jobs: 0 });
        let there = converted(library::to_two, k, &began, random)?;
        let ended = converted(library::to_three, k, &there, random)?;
        same(count, k, &began, &ended)
    })?;
    count.often(&[0], 50_000)
}

/// "The acknowledgements and the return bit read from both forms are equal": by the library from three sections, by the
/// model from two. Once the library makes the three sections, once the two.
pub fn reads(count: &mut Count) -> Result<(), String> {
    each_said(|k, acks, return_bit, random| {
        let said = Said { acks, return_bit, jobs: 0 };
        let two = recorded_of(k, acks, return_bit);
        let three = converted(library::to_three, k, &two, random)?;
        let written = message_of(k, 0, said);
        let taken = converted(library::to_two, k, &written, random)?;
        for (three, two) in [(three, two), (written, taken)] {
            count.expected(0);
            let from_three = library::read(k, 0, &three);
            let from_two = recorded::read(k, &two);
            count.check(from_three == Ok(said) && from_two == Ok((acks, return_bit)), || {
                format!(
                    "k = {k}: [{}] reads as {from_three:?}, [{}] as {from_two:?}; said {said:?}",
                    hex(&three),
                    hex(&two)
                )
            })?;
        }
        Ok(())
    })?;
    count.often(&[0], 50_000)
}
