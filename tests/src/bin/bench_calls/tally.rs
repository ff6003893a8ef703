//! The figures counted again without the model: over the whole history of the tables that the program answers,
//! from set-up and a ledger of zeros on.

use super::protocol::{entries_of, rows_of, Call, Command, Told};
use comparison::model::ledger::Figures;
use comparison::model::node::State;
use comparison::model::ring::Set;
use comparison::report::Count;

/// The table after a call: the slots done, and who is in the member state.
struct Moment {
    slots: u64,
    members: Set,
}

fn moment(answer: &[u8], n: usize) -> Moment {
    let mut moment = Moment { slots: 0, members: Set::EMPTY };
    for (row, x) in rows_of(answer).take(n).zip(1..) {
        moment.slots = row.node.slots;
        if row.node.state == State::Member {
            moment.members = moment.members.with(x);
        }
    }
    moment
}

/// The moments since set-up; none where nobody set up, or somebody else wrote table or ledger since.
#[derive(Default)]
pub struct History {
    n: usize,
    moments: Vec<Moment>,
}

impl History {
    /// Takes in a command and its whole answer, if it has one; the table and the ledger lent have these lengths.
    pub fn follow(
        &mut self,
        count: &mut Count,
        command: &Command,
        (size, lent): (usize, usize),
        answer: &[u8],
    ) -> Result<(), String> {
        match *command {
            Command::Lend(_) | Command::Arrays(_) | Command::Count { .. } | Command::Counts(_) => {
                return Ok(())
            }
            Command::Enter(entry, _) if usize::from(entry) >= self.n => return Ok(()),
            Command::Size(_) | Command::Load(..) | Command::Enter(..) => {
                self.moments.clear();
                return Ok(());
            }
            Command::Call(Call::SetUp(_), _) if Told::of(answer).number == 0 => {
                self.begin((size, lent), answer);
            }
            Command::Call(..) if self.moments.is_empty() => {}
            Command::Call(..) => self.moments.push(moment(answer, self.n)),
        }
        if self.moments.is_empty() {
            return Ok(());
        }
        self.judge(count, lent, answer)
    }

    /// A table is set up; its history is followed if the ledger is one of zeros.
    fn begin(&mut self, (size, lent): (usize, usize), answer: &[u8]) {
        self.moments.clear();
        self.n = size;
        let zeros = entries_of(answer).take(self.n).all(|figures| figures == Figures::default());
        if lent == self.n && zeros {
            self.moments.push(moment(answer, self.n));
        }
    }

    /// A leaving: in the member state before a call and not after it, a joining the other way round. The slots
    /// done after the call are its date, be it a slot or `off`.
    fn tally(&self) -> Vec<Figures> {
        let mut tally = vec![Figures::default(); self.n];
        for pair in self.moments.windows(2) {
            let (before, after) = (pair[0].members, pair[1].members);
            if before == after {
                continue;
            }
            for (x, figures) in (1..).zip(&mut tally) {
                if before.has(x) && !after.has(x) {
                    *figures = Figures { left: figures.left + 1, last: pair[1].slots, ..*figures };
                }
                if !before.has(x) && after.has(x) {
                    figures.joined += 1;
                }
            }
        }
        tally
    }

    /// "Each figure must equal the tally over the whole history"; and with a ledger of n entries no call is
    /// refused by 13.
    fn judge(&self, count: &mut Count, lent: usize, answer: &[u8]) -> Result<(), String> {
        let tally = self.tally();
        let ledger: Vec<Figures> = entries_of(answer).take(self.n).collect();
        count.check(ledger == tally, || {
            format!("the ledger {ledger:?}\n        is not the tally {tally:?}")
        })?;
        let refused = lent == self.n && Told::of(answer).number == 13;
        count.check(!refused, || "refused by 13".to_string())?;
        note(count, &tally);
        Ok(())
    }
}

fn note(count: &mut Count, tally: &[Figures]) {
    count.event("tally: a ledger");
    if tally.iter().any(|figures| figures.joined > 0) {
        count.event("tally: a node that left and joined again");
    }
    if tally.iter().any(|figures| figures.left > 1) {
        count.event("tally: a node that left twice");
    }
}
