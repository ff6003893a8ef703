//! The counts made again without the model's: over the whole history of calls and of the tables that the program
//! answers, from set-up on. And what happens to the reports in the inputs.

use super::protocol::{rows_of, Call, Command, Told};
use comparison::events::report;
use comparison::model::counts::{Counts, NONE};
use comparison::model::node::{Node, State};
use comparison::model::ring::Set;
use comparison::record_bytes::{shown_counts, Reader};
use comparison::report::Count;

/// What becomes of a job byte that is given and reports something, beside what its hearers do with it.
pub const GIVEN: [&str; 4] = [
    "report: not counted, given to a node that is silent",
    "report: not counted, the message is lost",
    "report: not counted, given for a knock",
    "report: not counted, the message is missed",
];

/// What the tallies must meet.
pub const TALLIES: [&str; 3] =
    ["tally of counts: all 0", "tally of counts: a report", "tally of counts: one job of one node twice"];

/// Notes a slot that was run.
pub fn note(count: &mut Count, call: Call, told: &Told, (before, after): (&[Node], &[Node])) {
    let Call::Slot { missed, jobs, .. } = call else { return };
    match told.fate {
        _ if jobs == 0 => {}
        1 => count.event(GIVEN[0]),
        2 if before[told.sender as usize - 1].state == State::Member => count.event(GIVEN[1]),
        3 => count.event(GIVEN[2]),
        4 => {
            for (node, after) in before.iter().zip(after).filter(|(node, _)| node.own != told.sender) {
                let unheard = Set(missed).has(node.own);
                count.event(if unheard { GIVEN[3] } else { report(node, after) });
            }
        }
        _ => {}
    }
}

/// A member's message that was not lost: who heard it and had its sender in the set as the slot began.
struct Report {
    sender: u32,
    jobs: u8,
    by: Set,
}

/// The sets of the table that was answered last, and the reports before it; none where nobody set up, or somebody else
/// wrote table or counts since.
#[derive(Default)]
pub struct Reports {
    sets: Vec<Set>,
    reports: Vec<Report>,
}

impl Reports {
    /// Takes in a command and its whole answer, if it has one; the table and the counts lent have these lengths.
    pub fn follow(
        &mut self,
        count: &mut Count,
        command: &Command,
        (size, counted): (usize, usize),
        answer: &[u8],
    ) -> Result<(), String> {
        match *command {
            Command::Lend(_) | Command::Enter(..) | Command::Arrays(_) => {}
            Command::Count { array, .. } if usize::from(array) >= self.sets.len() => {}
            Command::Size(_) | Command::Load(..) | Command::Count { .. } => self.sets.clear(),
            Command::Counts(array) => return self.judge(count, usize::from(array), answer),
            Command::Call(call, _) => return self.call(call, (size, counted), answer),
        }
        Ok(())
    }

    fn call(&mut self, call: Call, (size, counted): (usize, usize), answer: &[u8]) -> Result<(), String> {
        let told = Told::of(answer);
        match call {
            Call::SetUp(_) if told.number == 0 => {
                self.reports.clear();
                self.sets = vec![Set::EMPTY; size];
            }
            Call::Slot { missed, jobs, .. } if told.fate == 4 => self.hear(told.sender, missed, jobs),
            Call::Slot { .. } if told.number == 4 && self.lent(counted) => {
                return Err("refused by 4 in a run from set-up".to_string());
            }
            _ => {}
        }
        for (set, row) in self.sets.iter_mut().zip(rows_of(answer)) {
            *set = row.node.set;
        }
        Ok(())
    }

    /// A run is followed, and as many arrays are lent as it has nodes.
    fn lent(&self, counted: usize) -> bool {
        !self.sets.is_empty() && counted == self.sets.len()
    }

    fn hear(&mut self, sender: u32, missed: u32, jobs: u8) {
        let mut by = Set::EMPTY;
        for (x, set) in (1..).zip(&self.sets) {
            if x != sender && !Set(missed).has(x) && set.has(sender) {
                by = by.with(x);
            }
        }
        if jobs != 0 && !self.sets.is_empty() {
            self.reports.push(Report { sender, jobs, by });
        }
    }

    /// The counts of this node.
    fn tally(&self, node: u32) -> Counts {
        let mut tally = NONE;
        for report in self.reports.iter().filter(|report| report.by.has(node)) {
            let row = &mut tally[report.sender as usize - 1];
            for (job, bit) in [1, 2, 4, 8, 16, 32, 64, 128].into_iter().enumerate() {
                row[job] += u64::from(report.jobs & bit != 0);
            }
        }
        tally
    }

    fn judge(&self, count: &mut Count, array: usize, answer: &[u8]) -> Result<(), String> {
        if array >= self.sets.len() {
            return Ok(());
        }
        let (tally, counts) = (self.tally(array as u32 + 1), Reader(answer).counts());
        count.event(match tally.iter().flatten().max() {
            Some(0) => TALLIES[0],
            Some(1) => TALLIES[1],
            _ => TALLIES[2],
        });
        count.check(counts == tally, || {
            format!("counts {}\n        but the tally is {}", shown_counts(&counts), shown_counts(&tally))
        })
    }
}
