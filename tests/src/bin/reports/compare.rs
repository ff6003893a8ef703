//! One run of the program for each file of plans, its whole output beside the expected one.

use comparison::model::plan_report;
use comparison::plan_files::note_file;
use comparison::printed::{see, Program};
use comparison::report::Count;

pub const REPORT: Program = Program { name: "report_main", arguments: &[] };

/// The program prints what the model says.
pub fn compare(count: &mut Count, text: &[u8]) -> Result<(), String> {
    let expected = plan_report::run(text);
    note_file(count, &expected);
    REPORT.prints(count, text, &expected)
}

/// The same, where each read gives the program so many bytes.
pub fn compare_in_pieces(count: &mut Count, text: &[u8], piece: usize) -> Result<(), String> {
    let expected = plan_report::run(text);
    note_file(count, &expected);
    REPORT.prints_in_pieces(count, text, &expected, piece)
}

/// Model and program print this.
pub fn compare_with(count: &mut Count, text: &[u8], expected: &[u8]) -> Result<(), String> {
    note_file(count, expected);
    see(count, "the model", text, &plan_report::run(text), expected)?;
    REPORT.prints(count, text, expected)
}
