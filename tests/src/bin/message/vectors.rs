//! Literal inputs and answers, typed from document 01 and request h; neither side makes an expected answer.

use comparison::library;
use comparison::messages::hex;
use comparison::model::message::{self, Said};
use comparison::report::Count;

/// Acknowledgements, return bit, job byte.
type Saying = (u32, bool, u8);

fn said((acks, return_bit, jobs): Saying) -> Said {
    Said { acks, return_bit, jobs }
}

/// k, m, the bytes, the answer.
type Read = (u32, u32, &'static [u8], Result<Saying, u32>);

#[rustfmt::skip]
const READS: &[Read] = &[
    // "P: k = 2, both yes, no return: 02 03 01 00." "document 01's messages get 00 00 added for m = 0"
    (2, 0, &[0x02, 0x03, 0x01, 0x00, 0x00, 0x00], Ok((0b11, false, 0))),
    // "P: k = 9, all yes, return: 09 FF 01 01 01."
    (9, 0, &[0x09, 0xFF, 0x01, 0x01, 0x01, 0x00, 0x00], Ok((0x1FF, true, 0))),
    // "P: for k = 2, 02 07 01 00 is refusal 8; 02 03 02 00 is 7."
    (2, 0, &[0x02, 0x07, 0x01, 0x00, 0x00, 0x00], Err(8)),
    (2, 0, &[0x02, 0x03, 0x02, 0x00, 0x00, 0x00], Err(7)),
    // "lowest bit first; bit 1 concerns the nearest member": the nearest, the second, the ninth.
    (9, 0, &[0x09, 0x01, 0x00, 0x01, 0x00, 0x00, 0x00], Ok((0x001, false, 0))),
    (9, 0, &[0x09, 0x02, 0x00, 0x01, 0x00, 0x00, 0x00], Ok((0x002, false, 0))),
    (9, 0, &[0x09, 0x00, 0x01, 0x01, 0x00, 0x00, 0x00], Ok((0x100, false, 0))),
    (31, 0, &[0x1F, 0x01, 0x02, 0x04, 0x48, 0x01, 0x01, 0x00, 0x00], Ok((0x4804_0201, true, 0))),
    // "Length for k = 8 is 4 bytes, for k = 9 it is 5", and "The length that 6 tests grows by two bytes."
    (8, 0, &[0x08, 0x80, 0x01, 0x01, 0x00, 0x00], Ok((0x80, true, 0))),
    (8, 0, &[0x08, 0x80, 0x00, 0x01, 0x01, 0x00, 0x00], Err(6)),
    (9, 0, &[0x09, 0x80, 0x01, 0x01, 0x00, 0x00], Err(6)),
    // The two-section form is too short, "present also for m = 0".
    (2, 0, &[0x02, 0x03, 0x01, 0x00], Err(6)),
    (2, 0, &[0x02, 0x03, 0x01, 0x00, 0x00], Err(6)),
    (9, 3, &[0x09, 0xFF, 0x01, 0x01, 0x01], Err(6)),
    // "then one byte with a bit per job, lowest first": none of three, the first, the third, all; all of eight.
    (2, 3, &[0x02, 0x03, 0x01, 0x00, 0x03, 0x00], Ok((0b11, false, 0))),
    (2, 3, &[0x02, 0x03, 0x01, 0x00, 0x03, 0x01], Ok((0b11, false, 0b001))),
    (2, 3, &[0x02, 0x03, 0x01, 0x00, 0x03, 0x04], Ok((0b11, false, 0b100))),
    (2, 3, &[0x02, 0x00, 0x01, 0x01, 0x03, 0x07], Ok((0b00, true, 0b111))),
    (9, 8, &[0x09, 0xFF, 0x01, 0x01, 0x01, 0x08, 0xFF], Ok((0x1FF, true, 0xFF))),
    (2, 8, &[0x02, 0x03, 0x01, 0x00, 0x08, 0x80], Ok((0b11, false, 0x80))),
    (31, 1, &[0x1F, 0x01, 0x02, 0x04, 0x48, 0x01, 0x01, 0x01, 0x01], Ok((0x4804_0201, true, 1))),
    // "Spare bits are 0": of the acknowledgements, of the return bit's byte, of the jobs.
    (9, 0, &[0x09, 0xFF, 0x03, 0x01, 0x01, 0x00, 0x00], Err(8)),
    (31, 0, &[0x1F, 0x00, 0x00, 0x00, 0x80, 0x01, 0x00, 0x00, 0x00], Err(8)),
    (2, 0, &[0x02, 0x03, 0x01, 0x02, 0x00, 0x00], Err(8)),
    (2, 0, &[0x02, 0x03, 0x01, 0x81, 0x00, 0x00], Err(8)),
    (2, 0, &[0x02, 0x03, 0x01, 0x00, 0x00, 0x01], Err(8)),
    (2, 3, &[0x02, 0x03, 0x01, 0x00, 0x03, 0x08], Err(8)),
    (2, 3, &[0x02, 0x03, 0x01, 0x00, 0x03, 0x87], Err(8)),
    (2, 7, &[0x02, 0x03, 0x01, 0x00, 0x07, 0x80], Err(8)),
    // Another m, more jobs or fewer, is a wrong count.
    (2, 3, &[0x02, 0x03, 0x01, 0x00, 0x02, 0x01], Err(7)),
    (2, 3, &[0x02, 0x03, 0x01, 0x00, 0x04, 0x01], Err(7)),
    (2, 3, &[0x02, 0x03, 0x01, 0x00, 0x00, 0x00], Err(7)),
    (2, 0, &[0x02, 0x03, 0x01, 0x00, 0x08, 0x00], Err(7)),
    (2, 8, &[0x02, 0x03, 0x01, 0x00, 0x09, 0x00], Err(7)),
    (2, 8, &[0x02, 0x03, 0x01, 0x00, 0x88, 0x00], Err(7)),
    // "Checks run in table order"; "Job count above 8 .. 14, after 2".
    (1, 0, &[], Err(2)),
    (1, 0, &[0x01, 0x01, 0x01, 0x00, 0x00, 0x00], Err(2)),
    (32, 0, &[0x20, 0x00, 0x00, 0x00, 0x00, 0x01, 0x00, 0x00, 0x00], Err(2)),
    (1, 9, &[0x01, 0x01, 0x01, 0x00, 0x09, 0x00], Err(2)),
    (32, 9, &[], Err(2)),
    (2, 9, &[0x02, 0x03, 0x01, 0x00, 0x09, 0x00], Err(14)),
    (2, 9, &[], Err(14)),
    (2, 256, &[0x02, 0x03, 0x01, 0x00, 0x00, 0x00], Err(14)),
    (2, u32::MAX, &[0x03, 0xFF, 0x02, 0xFF, 0xFF, 0xFF], Err(14)),
    (2, 0, &[], Err(6)),
    (2, 0, &[0x03, 0xFF, 0x02], Err(6)),
    (2, 3, &[0x03, 0xFF, 0x02, 0xFF, 0x04], Err(6)),
    (2, 0, &[0x03, 0xFF, 0x01, 0x00, 0x00, 0x00], Err(7)),
    (2, 0, &[0x02, 0xFF, 0x00, 0xFF, 0x00, 0x00], Err(7)),
    // A wrong count of any section before a spare bit of any.
    (2, 3, &[0x02, 0xFF, 0x01, 0xFF, 0x02, 0xFF], Err(7)),
    (2, 3, &[0x02, 0x07, 0x01, 0x00, 0x02, 0x00], Err(7)),
    (2, 3, &[0x02, 0x03, 0x01, 0x02, 0x04, 0x00], Err(7)),
    (2, 3, &[0x03, 0x03, 0x01, 0x00, 0x03, 0x08], Err(7)),
    (2, 3, &[0x02, 0x03, 0x00, 0x00, 0x03, 0x08], Err(7)),
    (2, 3, &[0x02, 0xFF, 0x01, 0xFF, 0x03, 0xFF], Err(8)),
];

pub fn reads(count: &mut Count) -> Result<(), String> {
    for &(k, m, bytes, answer) in READS {
        let expected = answer.map(said).map_err(u64::from);
        count.expected(answer.err().unwrap_or(0));
        let sides = [
            ("model", message::read(k, m, bytes).map_err(u64::from)),
            ("library", library::read(k, m, bytes)),
        ];
        for (who, got) in sides {
            count.check(got == expected, || {
                format!(
                    "read k = {k}, m = {m}, bytes [{}]: {who} {got:?}, the documents {answer:?}",
                    hex(bytes)
                )
            })?;
        }
    }
    Ok(())
}

/// k, m, what is said, the lent bytes (each 0xEE), the answer, the bytes then.
type Write = (u32, u32, Saying, usize, Result<usize, u32>, &'static [u8]);

#[rustfmt::skip]
const WRITES: &[Write] = &[
    // "P: k = 2, both yes, no return: 02 03 01 00." "document 01's messages get 00 00 added for m = 0"
    (2, 0, (0b11, false, 0), 6, Ok(6), &[0x02, 0x03, 0x01, 0x00, 0x00, 0x00]),
    // "P: k = 9, all yes, return: 09 FF 01 01 01."
    (9, 0, (0x1FF, true, 0), 7, Ok(7), &[0x09, 0xFF, 0x01, 0x01, 0x01, 0x00, 0x00]),
    // "The writer leaves lent bytes after its message untouched."
    (2, 0, (0b01, true, 0), 8, Ok(6), &[0x02, 0x01, 0x01, 0x01, 0x00, 0x00, 0xEE, 0xEE]),
    // "Length for k = 8 is 4 bytes, for k = 9 it is 5", and two more.
    (8, 0, (0x80, false, 0), 7, Ok(6), &[0x08, 0x80, 0x01, 0x00, 0x00, 0x00, 0xEE]),
    (9, 0, (0x080, false, 0), 7, Ok(7), &[0x09, 0x80, 0x00, 0x01, 0x00, 0x00, 0x00]),
    (9, 0, (0x100, false, 0), 7, Ok(7), &[0x09, 0x00, 0x01, 0x01, 0x00, 0x00, 0x00]),
    (31, 0, (0x4804_0201, true, 0), 9, Ok(9), &[0x1F, 0x01, 0x02, 0x04, 0x48, 0x01, 0x01, 0x00, 0x00]),
    // "the number of jobs m, 0 to 8, then one byte with a bit per job, lowest first"
    (2, 3, (0b11, false, 0b000), 6, Ok(6), &[0x02, 0x03, 0x01, 0x00, 0x03, 0x00]),
    (2, 3, (0b11, false, 0b001), 6, Ok(6), &[0x02, 0x03, 0x01, 0x00, 0x03, 0x01]),
    (2, 3, (0b10, true, 0b110), 7, Ok(6), &[0x02, 0x02, 0x01, 0x01, 0x03, 0x06, 0xEE]),
    (9, 8, (0x1FF, true, 0xFF), 7, Ok(7), &[0x09, 0xFF, 0x01, 0x01, 0x01, 0x08, 0xFF]),
    // Each refusal, and "every byte" left as it was.
    (1, 0, (0, false, 0), 6, Err(2), &[0xEE; 6]),
    (32, 0, (0, false, 0), 9, Err(2), &[0xEE; 9]),
    (2, 9, (0b11, false, 0), 6, Err(14), &[0xEE; 6]),
    (2, 256, (0b11, false, 0), 6, Err(14), &[0xEE; 6]),
    (2, 0, (0b100, false, 0), 6, Err(8), &[0xEE; 6]),
    (31, 0, (0x8000_0000, true, 0), 9, Err(8), &[0xEE; 9]),
    (2, 0, (0b11, false, 1), 6, Err(8), &[0xEE; 6]),
    (2, 3, (0b11, false, 0b1000), 6, Err(8), &[0xEE; 6]),
    (2, 7, (0b11, false, 0x80), 6, Err(8), &[0xEE; 6]),
    (2, 0, (0b11, false, 0), 5, Err(9), &[0xEE; 5]),
    (2, 0, (0b11, false, 0), 4, Err(9), &[0xEE; 4]),
    (9, 3, (0x1FF, true, 1), 6, Err(9), &[0xEE; 6]),
    (2, 8, (0b11, false, 0xFF), 0, Err(9), &[]),
    // "Checks run in table order"; 14 "after 2".
    (1, 9, (0xFF, false, 0xFF), 0, Err(2), &[]),
    (32, 0, (0, false, 0), 0, Err(2), &[]),
    (2, 9, (0xFF, false, 0xFF), 0, Err(14), &[]),
    (2, u32::MAX, (0b100, false, 0xFF), 6, Err(14), &[0xEE; 6]),
    (2, 0, (0b100, false, 0), 5, Err(8), &[0xEE; 5]),
    (2, 3, (0b11, false, 0b1000), 5, Err(8), &[0xEE; 5]),
    (2, 0, (0xFFFF_FFFF, true, 0xFF), 0, Err(8), &[]),
];

pub fn writes(count: &mut Count) -> Result<(), String> {
    for &(k, m, saying, length, expected, bytes) in WRITES {
        count.expected(expected.err().unwrap_or(0));
        let said = said(saying);
        let answer = expected.map(|n| n as u64).map_err(u64::from);
        let mut by_model = vec![0xEE; length];
        let mut by_library = vec![0xEE; length];
        let model = message::write(k, m, said, &mut by_model).map(|n| n as u64).map_err(u64::from);
        let library = library::write(k, m, said, &mut by_library);
        for (who, got, after) in [("model", model, by_model), ("library", library, by_library)] {
            count.check(got == answer && after == bytes, || {
                format!(
                    "write k = {k}, m = {m}, {said:X?}, output of {length} bytes: {who} {got:?} [{}], the documents {expected:?} [{}]",
                    hex(&after),
                    hex(bytes)
                )
            })?;
        }
    }
    Ok(())
}
