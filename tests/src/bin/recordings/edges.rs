//! Lines about as long as a line may be, lines that lie across the end of the program's buffer, and texts in pieces.

use super::compare::{compare, compare_in_pieces, FORMS};
use comparison::random::Random;
use comparison::recorded_lines::text;
use comparison::report::Count;

/// Valid lines for both forms: whichever is asked for, one of each two is converted.
const VALID: &[u8] = b"2 02 03 01 00\n2 02 03 01 00 00 00\n";

/// What a line of any length can look like: its start and what fills it up. The first ones are readable where the
/// length is right.
const SHAPES: &[(&str, &str)] = &[
    ("2", " 00"),
    ("31", " FF"),
    ("12", "3"),
    ("9", "9"),
    ("2 02 03 01 00", " "),
    ("", "0"),
    ("", " "),
    ("2", " 0"),
];

/// A line of this length if it is not shorter than its start, and its line feed.
fn line(shape: &(&str, &str), length: usize) -> Vec<u8> {
    let &(start, filling) = shape;
    let fill = filling.bytes().cycle().take(length.saturating_sub(start.len()));
    start.bytes().chain(fill).chain([b'\n']).collect()
}

/// Every shape with lengths from 0 to 130 and some that are much longer.
pub fn lengths(count: &mut Count) -> Result<(), String> {
    for length in (0..=130).chain([240, 241, 4_095, 4_096, 4_097, 8_192, 70_000]) {
        for shape in SHAPES {
            let text = [VALID, &line(shape, length), VALID].concat();
            for form in FORMS {
                compare(count, form, &text)?;
            }
        }
    }
    Ok(())
}

/// Each byte of a valid line changed to every value.
pub fn places(count: &mut Count) -> Result<(), String> {
    for (form, line) in FORMS.into_iter().zip([&b"13 0D FF 1F 01 01\n"[..], b"13 0D FF 1F 01 01 00 00\n"]) {
        for place in 0..line.len() {
            let mut text = Vec::new();
            for value in 0..=255 {
                let mut changed = line.to_vec();
                changed[place] = value;
                text.extend(changed);
            }
            compare(count, form, &text)?;
        }
    }
    Ok(())
}

/// The start of a text, so many bytes long: valid lines, and empty ones to fill it up.
fn filled(length: usize) -> Vec<u8> {
    let mut text = Vec::new();
    while text.len() + VALID.len() <= length {
        text.extend(VALID);
    }
    text.resize(length, b'\n');
    text
}

/// Lines of several lengths that begin up to 125 bytes before the end of the first or the second 4,096 bytes. The lines
/// after it show that it was read to its end and no further.
pub fn buffer(count: &mut Count) -> Result<(), String> {
    for before in 0..=125 {
        let end = if before % 4 == 0 { 2 * 4_096 } else { 4_096 };
        for (shape, length) in [(0, 13), (0, 19), (0, 118), (2, 120), (2, 121), (1, 26)] {
            let text = [&filled(end - before)[..], &line(&SHAPES[shape], length), VALID].concat();
            for form in FORMS {
                compare(count, form, &text)?;
            }
        }
    }
    Ok(())
}

/// Texts that end, with or without their last line feed, up to three bytes from the end of a buffer; the empty text, and
/// texts of a byte.
pub fn ends(count: &mut Count) -> Result<(), String> {
    for form in FORMS {
        for end in [4_096, 8_192] {
            for length in end - 3..=end + 3 {
                let text = [&filled(length - VALID.len())[..], VALID].concat();
                compare(count, form, &text)?;
                compare(count, form, &text[..length - 1])?;
            }
        }
        for text in [&b""[..], b"\n", b"2", b" ", b"\n\n", b"\n2"] {
            compare(count, form, text)?;
        }
    }
    Ok(())
}

/// The text comes in pieces, so that a read gives less than the buffer holds.
pub fn pieces(count: &mut Count) -> Result<(), String> {
    let mut random = Random::new(85);
    for i in 0..200 {
        let form = FORMS[i % 2];
        let mut text = text(&mut random, form, 2 + i as u32 % 30, 30);
        text.extend(b"31");
        compare_in_pieces(count, form, &text, [1, 2, 3, 5, 7, 64, 100][i % 7])?;
    }
    for piece in [4_095, 4_096, 1_000] {
        for form in FORMS {
            compare_in_pieces(count, form, &filled(40_001), piece)?;
        }
    }
    Ok(())
}
