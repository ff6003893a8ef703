//! One run of the program for each text and form, its whole output beside the expected one.

use comparison::model::recorded_text::{run, Form};
use comparison::printed::{see, Program};
use comparison::recorded_lines::note;
pub use comparison::recorded_lines::FORMS;
use comparison::report::Count;

fn program(form: Form) -> Program {
    let arguments: &[&str] = match form {
        Form::Three => &["three"],
        Form::Two => &["two"],
    };
    Program { name: "convert_main", arguments }
}

/// The program prints what the model says.
pub fn compare(count: &mut Count, form: Form, text: &[u8]) -> Result<(), String> {
    let expected = run(form, text);
    note(count, &expected);
    program(form).prints(count, text, &expected)
}

/// The same, where each read gives the program so many bytes.
pub fn compare_in_pieces(count: &mut Count, form: Form, text: &[u8], piece: usize) -> Result<(), String> {
    let expected = run(form, text);
    note(count, &expected);
    program(form).prints_in_pieces(count, text, &expected, piece)
}

/// Model and program print this.
pub fn compare_with(count: &mut Count, form: Form, text: &[u8], expected: &[u8]) -> Result<(), String> {
    note(count, expected);
    see(count, "the model", text, &run(form, text), expected)?;
    program(form).prints(count, text, expected)
}
