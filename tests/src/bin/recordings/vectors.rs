//! Texts whose conversion is worked out by hand from the documents.

use super::compare::compare_with;
use comparison::model::recorded_text::Form::{Three, Two};
use comparison::report::Count;

/// "k = 2, both yes, no return: 02 03 01 00", "k = 9, all yes, return: 09 FF 01 01 01", and the least and the most.
const BOTH: &[(&str, &str)] = &[
    ("2 02 03 01 00\n", "2 02 03 01 00 00 00\n"),
    ("9 09 FF 01 01 01\n", "9 09 FF 01 01 01 00 00\n"),
    ("2 02 00 01 00\n", "2 02 00 01 00 00 00\n"),
    ("8 08 A5 01 01\n", "8 08 A5 01 01 00 00\n"),
    ("31 1F FF FF FF 7F 01 01\n", "31 1F FF FF FF 7F 01 01 00 00\n"),
    ("", ""),
];

pub fn examples(count: &mut Count) -> Result<(), String> {
    for (two, three) in BOTH {
        compare_with(count, Three, two.as_bytes(), three.as_bytes())?;
        compare_with(count, Two, three.as_bytes(), two.as_bytes())?;
    }
    Ok(())
}

/// Lines that are refused in both directions, and by which cause.
const LINES: &[(&str, u32)] = &[
    ("1 02 03 01 00", 2),
    ("32 02 03 01 00", 2),
    ("0 02 03 01 00", 2),
    ("4294967298 02 03 01 00", 2),
    ("2", 6),
    ("2 02 03 01", 6),
    ("2 02 03 01 00 00", 6),
    ("2 02 03 01 00 00 00 00", 6),
    ("9 09 FF 01 01", 6),
    ("", 12),
    (" 2 02 03 01 00", 12),
    ("02 02 03 01 00", 12),
    ("+2 02 03 01 00", 12),
    ("two 02 03 01 00", 12),
    ("2 02 03 01 00 ", 12),
    ("2  02 03 01 00", 12),
    ("2 02 03 01 0", 12),
    ("2 02 03 01 000", 12),
    ("2 02 03 01 0a", 12),
    ("2 02 03 01 0G", 12),
    ("2 02 03 01 0@", 12),
    ("2 02 03 01 0/", 12),
    ("2 02 03 01 0:", 12),
    ("2\t02 03 01 00", 12),
    ("2 02 03 01 00\r", 12),
];

/// Lines that are refused to three sections, and back.
const TO_THREE: &[(&str, u32)] =
    &[("2 02 07 01 00", 8), ("2 02 03 02 00", 7), ("2 02 03 01 02", 8), ("2 03 03 01 00", 7)];

const TO_TWO: &[(&str, u32)] = &[
    ("2 02 07 01 00 00 00", 8),
    ("2 02 03 02 00 00 00", 7),
    ("2 02 03 01 00 09 00", 7),
    ("2 02 03 01 00 00 01", 8),
    ("2 02 03 01 00 03 08", 8),
    ("2 02 03 01 00 03 07", 15),
    ("2 02 03 01 00 08 00", 15),
];

/// Each refused line between two that are converted: the conversion goes on.
pub fn refused(count: &mut Count) -> Result<(), String> {
    let (two, three) = BOTH[0];
    for (line, number) in LINES.iter().chain(TO_THREE) {
        let expected = format!("{three}line 2 refusal {number}\n{three}");
        compare_with(count, Three, format!("{two}{line}\n{two}").as_bytes(), expected.as_bytes())?;
    }
    for (line, number) in LINES.iter().chain(TO_TWO) {
        let expected = format!("{two}line 2 refusal {number}\n{two}");
        compare_with(count, Two, format!("{three}{line}\n{three}").as_bytes(), expected.as_bytes())?;
    }
    let unended = format!("{two}{}", two.trim_end());
    compare_with(count, Three, unended.as_bytes(), format!("{three}line 2 refusal 12\n").as_bytes())
}
