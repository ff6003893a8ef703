//! What the program `report_runs` takes and gives: commands on a report. All numbers are lowest byte first.

use comparison::lent::{self, Call, Rooms};
use comparison::model::plan_report::Figures;
use comparison::model::report_pieces::{Report, END, LINE};
use comparison::plan_bytes::{first, push_part, push_plan, Load};
use comparison::plan_files::note;
use comparison::report::Count;

pub const ROOMS: Rooms = Rooms { byte: LINE, end: END, most: 27_648 };

/// The numbers of a report but for those of its plan.
#[derive(Clone, Copy)]
pub struct Numbers {
    pub plans: u64,
    pub fault: u32,
    pub figures: Figures,
    pub totals: Figures,
}

impl Numbers {
    pub fn push(&self, out: &mut Vec<u8>) {
        out.extend(self.plans.to_le_bytes());
        out.extend(self.fault.to_le_bytes());
        push_figures(&self.figures, out);
        push_figures(&self.totals, out);
    }
}

pub enum Command {
    New,
    Numbers(Numbers),
    Load(Load),
    Call(Call),
}

impl lent::Command for Command {
    fn push(&self, out: &mut Vec<u8>) {
        match self {
            Command::New => out.extend([b'N', 0]),
            Command::Numbers(numbers) => {
                out.extend([b'M', 0]);
                numbers.push(out);
            }
            Command::Load(load) => load.push(out),
            Command::Call(call) => call.push(out),
        }
    }

    fn call(&self) -> Option<&Call> {
        match self {
            Command::Call(call) => Some(call),
            _ => None,
        }
    }
}

pub fn push_figures(figures: &Figures, out: &mut Vec<u8>) {
    figures.iter().for_each(|figure| out.extend(figure.to_le_bytes()));
}

fn push_report(report: &Report, out: &mut Vec<u8>) {
    let Report { plans, ref plan, figures, fault, totals, ref part } = *report;
    Numbers { plans, fault, figures, totals }.push(out);
    push_plan(plan, out);
    push_part(part, out);
}

/// The report that `start` gives, by the model.
pub fn start() -> Report {
    Report::new(first())
}

/// What a call writes by the model.
pub fn written(report: &mut Report, call: &Call) -> Result<Vec<u8>, u32> {
    match call {
        Call::Feed(piece, room) => report.feed(piece, *room),
        Call::Finish(room) => report.finish(*room),
        Call::Print(..) => unreachable!("a report has no such call"),
    }
}

/// Carries a command without an answer out by the model.
pub fn load(report: &mut Report, command: &Command) {
    match command {
        Command::New => *report = start(),
        Command::Numbers(Numbers { plans, fault, figures, totals }) => {
            (report.plans, report.fault) = (*plans, *fault);
            (report.figures, report.totals) = (*figures, *totals);
        }
        Command::Load(load) => load.run(&mut report.plan, &mut report.part),
        Command::Call(_) => unreachable!("a call has an answer"),
    }
}

/// Runs the program on the commands and compares every answer: the refusal or the count, each byte of the buffer, and the
/// whole report. What becomes of each plan whose end is printed is noted.
pub fn compare(count: &mut Count, commands: &[Command]) -> Result<(), String> {
    let mut report = start();
    lent::compare(count, "report_runs", commands, |count, command, out| {
        let Command::Call(call) = command else {
            load(&mut report, command);
            return 0;
        };
        let written = written(&mut report, call);
        if let Ok(text) = &written {
            note(count, text);
        }
        let number = call.push_written(&written, out);
        push_report(&report, out);
        number
    })
}
