//! One run of the program for each plan, its whole output beside the expected one.

use comparison::model::program;
use comparison::printed::{see, Program};
use comparison::report::Count;

const BENCH: Program = Program { name: "bench_main", arguments: &[] };

/// The program prints what the model says.
pub fn compare(count: &mut Count, plan: &[u8]) -> Result<(), String> {
    let expected = program::run(plan);
    note(count, &expected);
    BENCH.prints(count, plan, &expected)
}

/// The same, where each read gives the program so many bytes.
pub fn compare_in_pieces(count: &mut Count, plan: &[u8], piece: usize) -> Result<(), String> {
    let expected = program::run(plan);
    note(count, &expected);
    BENCH.prints_in_pieces(count, plan, &expected, piece)
}

/// Model and program print this.
pub fn compare_with(count: &mut Count, plan: &[u8], expected: &[u8]) -> Result<(), String> {
    note(count, expected);
    see(count, "the model", plan, &program::run(plan), expected)?;
    BENCH.prints(count, plan, expected)
}

/// Notes what happens in a plan, by its expected output.
fn note(count: &mut Count, expected: &[u8]) {
    let mut refused = 0;
    for line in expected.split(|&byte| byte == b'\n') {
        let line = std::str::from_utf8(line).expect("the output is text");
        let words: Vec<&str> = line.split(' ').collect();
        match words[..] {
            ["line", _, "refusal", number] => refused = number.parse().expect("a number"),
            [_, _, fate, list, distance] => note_slot(count, fate, list, distance),
            _ => {}
        }
    }
    count.expected(refused);
}

fn note_slot(count: &mut Count, fate: &str, list: &str, distance: &str) {
    count.event(match fate {
        "silent" => "slot: silent",
        "lost" => "slot: lost",
        "knock" => "slot: knock",
        _ => "slot: sent",
    });
    if list == "--------" {
        count.event("list: none");
    }
    if distance != "0" {
        count.event("list: distance above 0");
    }
}

/// What the slots of many plans must meet.
pub const SLOTS: &[&str] =
    &["slot: silent", "slot: lost", "slot: knock", "slot: sent", "list: none", "list: distance above 0"];
