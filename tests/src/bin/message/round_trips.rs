//! Both functions together. The expected answer is what went in.

use comparison::library;
use comparison::messages::{hex, job_byte, message_of};
use comparison::model::message::{self, Said};
use comparison::random::Random;
use comparison::report::Count;

/// Writes by the library and by the model, reads each by the other and by the library.
fn there_and_back(count: &mut Count, k: u32, m: u32, said: Said) -> Result<(), String> {
    let call = || format!("k = {k}, m = {m}, {said:X?}");
    let mut written = [0xEE; 10];
    let answer = library::write(k, m, said, &mut written);
    let length = match answer {
        Ok(n) if n <= 10 => n as usize,
        _ => return Err(format!("{}: library wrote {answer:?} into 10 bytes", call())),
    };
    let by_library = &written[..length];
    let by_model = message_of(k, m, said);
    let trips = [
        ("library, model", by_library, message::read(k, m, by_library).map_err(u64::from)),
        ("model, library", &by_model, library::read(k, m, &by_model)),
        ("library, library", by_library, library::read(k, m, by_library)),
    ];
    for (who, bytes, got) in trips {
        count.expected(0);
        count.check(got == Ok(said), || {
            format!("{}: written and read by {who}: [{}] gave {got:?}", call(), hex(bytes))
        })?;
    }
    Ok(())
}

pub fn written_then_read(count: &mut Count) -> Result<(), String> {
    let mut random = Random::new(3);
    for k in 2..=31 {
        for i in 0..1 << k.min(13) {
            // All acknowledgements of a small k, random ones of a large k.
            let acks = if k <= 13 { i } else { random.number() as u32 >> (32 - k) };
            for return_bit in [false, true] {
                let m = random.below(9) as u32;
                let jobs = job_byte(&mut random, m);
                there_and_back(count, k, m, Said { acks, return_bit, jobs })?;
            }
        }
    }
    Ok(())
}

/// Every job byte of every k and m.
pub fn every_job_byte(count: &mut Count) -> Result<(), String> {
    let mut random = Random::new(4);
    for k in 2..=31 {
        for m in 0..=8 {
            for jobs in 0..1 << m {
                let acks = random.number() as u32 >> (32 - k);
                for return_bit in [false, true] {
                    there_and_back(count, k, m, Said { acks, return_bit, jobs: jobs as u8 })?;
                }
            }
        }
    }
    Ok(())
}

/// Every string with right counts whose bytes are these or any in the two places that vary: those that the library
/// accepts must be as many as told, and each must come back from the library's writer.
fn all_strings(
    count: &mut Count,
    (k, m): (u32, u32),
    string: impl Fn(u8, u8) -> [u8; 6],
    messages: u32,
) -> Result<(), String> {
    let mut accepted = 0;
    for one in 0..=255 {
        for other in 0..=255 {
            let bytes = string(one, other);
            let Ok(said) = library::read(k, m, &bytes) else { continue };
            accepted += 1;
            count.expected(0);
            let mut again = [0xEE; 6];
            let answer = library::write(k, m, said, &mut again);
            count.check(answer == Ok(6) && again == bytes, || {
                format!("k = {k}, m = {m}: read [{}], wrote {answer:?} [{}]", hex(&bytes), hex(&again))
            })?;
        }
    }
    count.check(accepted == messages, || {
        format!("k = {k}, m = {m}: library accepts {accepted} strings with right counts, not {messages}")
    })
}

/// "k acknowledgement bits" and the return bit; then these and the jobs; then the return bit and the jobs.
pub fn read_then_written(count: &mut Count) -> Result<(), String> {
    for k in 2..=8_u32 {
        for m in 0..=8_u32 {
            let (first, third) = (k as u8, m as u8);
            all_strings(count, (k, m), |ack, last| [first, ack, 1, last, third, 0], 1 << (k + 1))?;
            all_strings(count, (k, m), |ack, jobs| [first, ack, 1, 1, third, jobs], 1 << (k + m))?;
            all_strings(count, (k, m), |last, jobs| [first, 1, 1, last, third, jobs], 1 << (m + 1))?;
        }
    }
    Ok(())
}
