//! The counts made again without the model's: over the whole history of the records that the program answers, from
//! set-up on.

use super::protocol::Command;
use comparison::model::counts::{Counts, NONE};
use comparison::model::message;
use comparison::model::node::Node;
use comparison::record_bytes::{shown_counts, Reader};
use comparison::report::Count;

/// What the tallies must meet.
pub const TALLIES: &[&str] = &["tally: counts of 0", "tally: a report", "tally: one job of one node twice"];

/// A job byte heard from a sender in the set.
struct Report {
    sender: u32,
    jobs: u8,
}

/// The record that was answered last, and the reports before it; none where nobody set up, or somebody else wrote
/// record or counts since.
#[derive(Default)]
pub struct History {
    record: Option<Node>,
    reports: Vec<Report>,
}

impl History {
    pub fn end(&mut self) {
        self.record = None;
    }

    /// Takes in a command and its whole answer.
    pub fn follow(&mut self, count: &mut Count, command: &Command, answer: &[u8]) -> Result<(), String> {
        match *command {
            Command::Send { .. } | Command::AsSet => return Ok(()),
            Command::Counts => return self.judge(count, answer),
            Command::SetUp { .. } if answer[0] == 0 => {
                self.reports.clear();
                self.record = Some(Reader(&answer[1..]).record().node);
            }
            Command::Slot(heard) if answer[0] == 0 => self.hear(heard),
            // Somebody else wrote the record.
            Command::Hold(_) => self.end(),
            _ => {}
        }
        let Some(record) = &mut self.record else { return Ok(()) };
        *record = Reader(&answer[1..]).record().node;
        if answer[0] == 4 {
            return Err("refused by 4 in a run from set-up".to_string());
        }
        Ok(())
    }

    /// A slot was run, and these bytes were heard.
    fn hear(&mut self, heard: &[u8]) {
        let Some(before) = self.record else { return };
        let sender = before.next_sender();
        let readable = message::read(before.chosen.k, before.chosen.m, heard).is_ok();
        if let (true, Some(&jobs)) = (readable && sender != before.own, heard.last()) {
            if jobs != 0 && before.set.nodes().any(|x| x == sender) {
                self.reports.push(Report { sender, jobs });
            }
        }
    }

    fn tally(&self) -> Counts {
        let mut tally = NONE;
        for report in &self.reports {
            let row = &mut tally[report.sender as usize - 1];
            for (job, bit) in [1, 2, 4, 8, 16, 32, 64, 128].into_iter().enumerate() {
                row[job] += u64::from(report.jobs & bit != 0);
            }
        }
        tally
    }

    fn judge(&self, count: &mut Count, answer: &[u8]) -> Result<(), String> {
        if self.record.is_none() {
            return Ok(());
        }
        let (tally, counts) = (self.tally(), Reader(answer).counts());
        count.event(match tally.iter().flatten().max() {
            Some(0) => TALLIES[0],
            Some(1) => TALLIES[1],
            _ => TALLIES[2],
        });
        count.check(counts == tally, || {
            format!("counts {}\n        but the tally is {}", shown_counts(&counts), shown_counts(&tally))
        })
    }
}
