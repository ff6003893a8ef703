//! One run of the program, command by command beside the model.

use super::protocol::{next_command, run_by_model, Command, Held, Script};
use super::tally::History;
use comparison::child;
use comparison::messages::hex;
use comparison::model::choices::Asked;
use comparison::record_bytes::{record_bytes, shown_counts, shown_held, shown_record, Reader, RECORD};
use comparison::report::Count;
use std::io::Read;

/// Runs the program on the script and compares every answer. Notes each answer that is expected.
pub fn compare(count: &mut Count, script: &Script) -> Result<(), String> {
    child::run(count, "node_runs", script.bytes(), |count, output| answers(count, script, output))
}

/// Compares the answers of all commands, and the counts with the tally over what was answered before.
fn answers(count: &mut Count, script: &Script, output: &mut dyn Read) -> Result<(), String> {
    let mut commands = Reader(script.bytes());
    let mut held = Held::first();
    let mut expected = Vec::new();
    let mut got = Vec::new();
    let mut position = 0_u64;
    let mut history = History::default();
    while let Some(command) = next_command(&mut commands) {
        position += 1;
        let before = held.record;
        let Some(number) = run_by_model(&mut held, &command, &mut expected) else {
            history.end();
            continue;
        };
        count.expected(number);
        let at = || {
            let (call, record) = (shown_command(&command), shown_held(&before));
            format!("command {position}: {call}\n        record before: {record}")
        };
        // What is given to be held need not be sound.
        let any = matches!(command, Command::Counts | Command::Hold(_));
        if number == 0 && !any && !held.record.is_sound() {
            let record = shown_held(&held.record);
            return Err(format!("{}\n        the model leaves one that is not sound: {record}", at()));
        }
        child::read_answer(output, expected.len(), &mut got)
            .map_err(|why| format!("{}\n        the answer cannot be read: {why}", at()))?;
        count.check(got == expected, || {
            format!("{}\n        {}", at(), shown_difference(&command, &got, &expected))
        })?;
        history.follow(count, &command, &got).map_err(|why| format!("{}\n        {why}", at()))?;
    }
    Ok(())
}

/// Where the answers differ first, and both of them.
fn shown_difference(command: &Command, got: &[u8], expected: &[u8]) -> String {
    format!(
        "first difference at byte {} of the answer\n        program: {}\n        model:   {}",
        got.iter().zip(expected).take_while(|(a, b)| a == b).count() + 1,
        shown_answer(command, got, expected.len()),
        shown_answer(command, expected, expected.len()),
    )
}

fn shown_command(command: &Command) -> String {
    match *command {
        Command::SetUp(Asked { n, k, m, lag, slots }, own) => {
            format!("set-up n = {n}, k = {k}, m = {m}, lag {lag}, own {own}, table {:?}", slots.bytes())
        }
        Command::Slot(heard) => format!("slot, heard [{}]", hex(heard)),
        Command::Send { room, jobs } => format!("send jobs {jobs:02X} into {room} bytes"),
        Command::Off => "off".to_string(),
        Command::Restart => "restart".to_string(),
        Command::Load(bytes) => format!("load {}", shown_held(&Reader(&bytes).record())),
        Command::Hold(ref node) => format!("hold {}", shown_record(node)),
        Command::AsSet => "as a set".to_string(),
        Command::Count { row, job, count } => format!("count of row {row}, job {job}: {count}"),
        Command::Counts => "all counts".to_string(),
    }
}

/// The answer taken apart if it has its length and every value its range, else its bytes.
fn shown_answer(command: &Command, answer: &[u8], length: usize) -> String {
    if answer.len() != length {
        return format!("only {} of {length} bytes: [{}]", answer.len(), hex(answer));
    }
    match command {
        Command::Send { .. } => {
            return format!("{}, {} bytes written, [{}]", answer[0], answer[1], hex(&answer[2..]));
        }
        Command::Counts => return shown_counts(&Reader(answer).counts()),
        Command::AsSet => return format!("{}, {}", answer[0], shown_record(&Reader(&answer[1..]).rules())),
        _ => {}
    }
    if answer[1 + 20] > 7 {
        return format!("state {}: [{}]", answer[1 + 20], hex(answer));
    }
    let record = Reader(&answer[1..1 + RECORD]).record();
    if record_bytes(&record) != answer[1..] {
        return format!("a yes or no that is neither: [{}]", hex(answer));
    }
    format!("{}, {}", answer[0], shown_held(&record))
}
