//! What the program `recording_runs` takes and gives: commands on a recording. All numbers are lowest byte first.

use comparison::lent::{self, Call};
use comparison::model::recorded_pieces::Recording;
use comparison::model::recorded_text::Form;
use comparison::plan_bytes::push_part;
use comparison::recorded_lines::note;
use comparison::report::Count;

pub enum Command {
    New(Form),
    Load(Recording),
    Call(Call),
}

fn form_byte(form: Form) -> u8 {
    match form {
        Form::Three => 0,
        Form::Two => 1,
    }
}

fn push_recording(recording: &Recording, out: &mut Vec<u8>) {
    out.push(form_byte(recording.form));
    out.extend(recording.lines.to_le_bytes());
    push_part(&recording.part, out);
}

impl lent::Command for Command {
    fn push(&self, out: &mut Vec<u8>) {
        match self {
            Command::New(form) => out.extend([b'N', form_byte(*form)]),
            Command::Load(recording) => {
                out.push(b'L');
                push_recording(recording, out);
            }
            Command::Call(call) => call.push(out),
        }
    }

    fn call(&self) -> Option<&Call> {
        match self {
            Command::Call(call) => Some(call),
            _ => None,
        }
    }
}

/// What a call writes by the model.
fn written(recording: &mut Recording, call: &Call) -> Result<Vec<u8>, u32> {
    match call {
        Call::Feed(piece, room) => recording.feed(piece, *room),
        Call::Finish(room) => recording.finish(*room),
        Call::Print(..) => unreachable!("a recording has no such call"),
    }
}

/// Carries a command out by the model, and notes the answer of each line that is printed.
fn run(count: &mut Count, recording: &mut Recording, command: &Command, out: &mut Vec<u8>) -> u32 {
    match command {
        Command::New(form) => *recording = Recording::new(*form),
        Command::Load(loaded) => *recording = loaded.clone(),
        Command::Call(call) => {
            let written = written(recording, call);
            if let Ok(text) = &written {
                note(count, text);
            }
            let number = call.push_written(&written, out);
            push_recording(recording, out);
            return number;
        }
    }
    0
}

/// Runs the program on the commands and compares every answer: the refusal or the count, each byte of the buffer, and
/// the whole recording.
pub fn compare(count: &mut Count, commands: &[Command]) -> Result<(), String> {
    let mut recording = Recording::new(Form::Three);
    lent::compare(count, "recording_runs", commands, |count, command, out| {
        run(count, &mut recording, command, out)
    })
}
