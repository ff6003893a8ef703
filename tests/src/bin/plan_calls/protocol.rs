//! What the program `plan_runs` takes and gives: commands on a plan and a part of its next line.

use comparison::lent::{self, Call};
use comparison::model::part::Part;
use comparison::model::pieces::{Plan, LINE};
use comparison::model::program;
use comparison::model::refusal;
use comparison::plan_bytes::{first, push_part, push_plan, Load};

#[derive(Clone)]
pub enum Command {
    New,
    Load(Load),
    Call(Call),
}

impl lent::Command for Command {
    fn push(&self, out: &mut Vec<u8>) {
        match self {
            Command::New => out.extend([b'N', 0]),
            Command::Load(load) => load.push(out),
            Command::Call(call) => call.push(out),
        }
    }

    fn call(&self) -> Option<&Call> {
        match self {
            Command::Call(call) => Some(call),
            _ => None,
        }
    }
}

/// The plan and the part by the model.
pub struct Held {
    pub plan: Plan,
    part: Part,
}

impl Held {
    pub fn first() -> Held {
        Held { plan: first(), part: Part::new() }
    }

    /// Carries a command out. The answer's bytes go into `out`, none for a command that has no answer. The number is
    /// that of the refusal.
    pub fn run(&mut self, command: &Command, out: &mut Vec<u8>) -> u32 {
        match command {
            Command::New => *self = Held::first(),
            Command::Load(load) => load.run(&mut self.plan, &mut self.part),
            Command::Call(call) => {
                let written = self.written(call);
                let number = call.push_written(&written, out);
                push_plan(&self.plan, out);
                push_part(&self.part, out);
                return number;
            }
        }
        0
    }

    /// What a call writes.
    fn written(&mut self, call: &Call) -> Result<Vec<u8>, u32> {
        match call {
            Call::Feed(piece, room) => self.plan.feed(&mut self.part, piece, *room),
            Call::Finish(room) => self.plan.finish(&self.part, *room),
            Call::Print(text, room) if (text.len() + 1) * LINE <= *room => Ok(program::run(text)),
            Call::Print(..) => Err(refusal::OUTPUT),
        }
    }
}
