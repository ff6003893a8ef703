//! One run of the program, call by call beside the model.

use super::protocol::{Command, Held};
use comparison::lent;
use comparison::report::Count;

/// Runs the program on the commands and compares every answer: the refusal or the count, each byte of the
/// buffer, the whole plan, and the part.
pub fn compare(count: &mut Count, commands: &[Command]) -> Result<(), String> {
    let mut held = Held::first();
    lent::compare(count, "plan_runs", commands, |_, command, out| held.run(command, out))
}
