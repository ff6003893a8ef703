//! Commands in a row, made with the table, the ledger and the counts before each of them in view.

use super::figures;
use super::protocol::{buffer_of, Call, Command, Held, Told, ENTRIES, ROWS};
use comparison::messages::job_byte;
use comparison::model::choices::Choices;
use comparison::model::counts::{Counts, NONE};
use comparison::model::held::Record;
use comparison::model::ledger::Figures;
use comparison::model::node::{Node, State};
use comparison::model::ring::LIMIT;
use comparison::random::Random;
use comparison::records::{disturb, job_count, sound, STATES};

/// Buffers that are long enough.
pub const ENOUGH: [u8; 6] = [64, 65, 66, 100, 128, 255];

/// Buffers that are too short.
pub const SHORT: [u8; 5] = [0, 1, 2, 62, 63];

/// Numbers that name no node of a ring of n.
pub fn no_node(random: &mut Random, n: u32) -> u32 {
    [0, n + 1, n + 2, 33, 64, 256 + 1, 1 << 31, u32::MAX][random.below(8) as usize]
}

pub struct Script {
    pub commands: Vec<Command>,
    held: Held,
    answer: Vec<u8>,
}

impl Script {
    pub fn new() -> Script {
        Script { commands: Vec::new(), held: Held::first(), answer: Vec::new() }
    }

    pub fn table(&self) -> Vec<Node> {
        self.held.table()
    }

    /// The lengths of the table and of the counts that are lent.
    pub fn lent(&self) -> (usize, usize) {
        (self.held.size, self.held.counted)
    }

    /// All entries, those after the ledger too.
    pub fn entries(&self) -> &[Figures] {
        &self.held.entries
    }

    /// All arrays of counts, those after the ones lent too.
    pub fn arrays(&self) -> &[Counts] {
        &self.held.arrays
    }

    /// A job byte that fits the table; none reported where there is no table.
    pub fn jobs(&self, random: &mut Random) -> u8 {
        self.table()
            .first()
            .filter(|node| node.chosen.m <= 8)
            .map_or(0, |node| job_byte(random, node.chosen.m))
    }

    /// The buffer as the last command, a call, left it.
    pub fn buffer(&self) -> &[u8] {
        buffer_of(&self.answer)
    }

    /// What the model tells, if it is a call.
    pub fn push(&mut self, command: Command) -> Option<Told> {
        self.commands.push(command);
        self.held.run(&command, &mut self.answer)
    }

    /// A call with a buffer that is long enough; the number of the refusal by the model, or 0.
    pub fn call(&mut self, random: &mut Random, call: Call) -> u8 {
        let told = self.push(Command::Call(call, ENOUGH[random.below(6) as usize]));
        told.expect("a call is answered").number
    }

    /// Asks for the counts of each of so many nodes.
    pub fn ask_counts(&mut self, n: u32) {
        for array in 0..n as u8 {
            self.push(Command::Counts(array));
        }
    }

    /// Lends this ledger. An entry after it holds figures of any kind.
    pub fn lend(&mut self, random: &mut Random, ledger: &[Figures]) {
        self.push(Command::Lend(ledger.len() as u8));
        for (entry, figures) in (0..).zip(ledger) {
            self.push(Command::Enter(entry, *figures));
        }
        if ledger.len() < ENTRIES {
            let entry = random.within(ledger.len() as u64, ENTRIES as u64 - 1) as u8;
            self.push(Command::Enter(entry, figures::any(random)));
        }
    }

    /// Loads the rows of a table and lends a ledger that fits it, if any does.
    pub fn load(&mut self, random: &mut Random, table: &[impl Into<Record> + Copy]) {
        self.load_rows(random, table);
        let slots = table.first().map_or(0, |&record| record.into().node.slots.min(LIMIT));
        let ledger = figures::fitting(random, table.len(), slots);
        self.lend(random, &ledger);
    }

    /// Makes the counts of so many nodes 0 by a set-up, where one is not: most tables have a slot count below it.
    fn clear_counts(&mut self, arrays: usize) {
        if self.held.arrays[..arrays].iter().any(|counts| *counts != NONE) {
            let n = arrays.max(3);
            self.push(Command::Size(n as u8));
            self.push(Command::Arrays(n as u8));
            self.push(Command::Call(Call::SetUp(Choices::plain(n as u32, 2).into()), 0));
        }
    }

    /// Loads the rows of a table and lends as many arrays of counts, all 0. The rows after it hold records of any kind.
    pub fn load_rows(&mut self, random: &mut Random, table: &[impl Into<Record> + Copy]) {
        self.clear_counts(table.len().min(32));
        self.push(Command::Size(table.len() as u8));
        self.push(Command::Arrays(table.len() as u8));
        for (row, &record) in (0..).zip(table) {
            self.push(Command::Load(row, record.into()));
        }
        if table.len() < ROWS {
            let row = random.within(table.len() as u64, ROWS as u64 - 1) as u8;
            self.push(Command::Load(row, any_record(random)));
        }
    }

    /// Every call, each on the table that the one before it left; the last is a set-up of these choices with any m.
    pub fn every_call(&mut self, random: &mut Random, chosen: Choices) {
        let (n, m) = (chosen.n, job_count(random));
        let all = if n < 32 { (1 << n) - 1 } else { u32::MAX };
        let x = random.within(1, u64::from(n)) as u32;
        let missed = all & random.number() as u32;
        let jobs = self.jobs(random);
        for call in [
            Call::Look { lost: false },
            Call::Look { lost: true },
            Call::Slot { lost: random.bit(), missed: 0, jobs },
            Call::Restart(x),
            Call::Slot { lost: false, missed, jobs },
            Call::Off(x),
            Call::Restart(x),
            Call::SetUp(Choices { m, ..chosen }.into()),
        ] {
            self.call(random, call);
        }
    }
}

/// A record of any kind, most often not sound.
pub fn any_record(random: &mut Random) -> Record {
    let state = STATES[random.below(8) as usize];
    let mut record = sound(random, state).into();
    for _ in 0..random.below(4) {
        disturb(random, &mut record);
    }
    record
}

/// A node that is not out, if there is one.
pub fn one_not_out(random: &mut Random, table: &[Node]) -> Option<u32> {
    let others: Vec<u32> =
        table.iter().filter(|node| !matches!(node.state, State::Out(_))).map(|node| node.own).collect();
    match others.len() as u64 {
        0 => None,
        c => Some(others[random.below(c) as usize]),
    }
}
