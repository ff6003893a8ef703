//! "It reads standard input through a buffer of 4,096 bytes": what the program holds does not grow with what it reads.

use super::compare::REPORT;
use comparison::report::Count;

/// What a text is, how it starts, and what follows over and over.
const TEXTS: &[(&str, &str, &str)] = &[
    ("plans of three slots", "", "4 2\nok\nlost\nok\nnext\n"),
    ("plans without lines", "", "next\n"),
    ("refused plans", "", "4 2\noff 5\nok\nnext\n"),
    ("a plan of many lines", "4 2\n", "ok\n"),
    ("a refused plan of many lines", "4 2\noff 5\n", "ok\n"),
    ("a line of many bytes", "4 2\n", "x"),
    ("a line of many bytes in a refused plan", "4 2\noff 5\n", "x"),
];

/// Bytes of a text, and of the same text when it goes on.
const SHORT: usize = 256 * 1024;
const LONG: usize = 4 * 1024 * 1024;

/// KiB by which two runs may differ for other reasons. A byte for each line that is read would be more.
const SLACK: u64 = 256;

/// The text goes on to this length.
fn text(start: &str, over_and_over: &str, length: usize) -> Vec<u8> {
    start.bytes().chain(over_and_over.bytes().cycle()).take(length).collect()
}

pub fn peaks(count: &mut Count) -> Result<(), String> {
    for &(what, start, over_and_over) in TEXTS {
        let short = REPORT.peak(&text(start, over_and_over, SHORT))?;
        let long = REPORT.peak(&text(start, over_and_over, LONG))?;
        count.check(long <= short + SLACK, || {
            format!("{what}: {short} KiB for {SHORT} bytes, {long} KiB for {LONG} bytes")
        })?;
    }
    Ok(())
}
