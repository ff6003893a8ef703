//! Document 01, "The bench program": a plan text that comes in pieces.

use super::bench;
use super::held::{self, Record};
use super::node::Node;
use super::part::Part;
use super::program::{line_one, print_refusal, run_line, Told, LONGEST};
use super::refusal;

/// A line of output has 80 bytes at the most.
pub const LINE: usize = 80;

/// What came of the last line that ended: nothing to print, a slot, or a refusal by this number.
#[derive(Clone, Copy, PartialEq, Eq)]
pub enum Outcome {
    Quiet,
    Slot(Told),
    Refused(u32),
}

/// A plan as far as its lines have been run. The table is the first n rows, all where n is larger.
#[derive(Clone)]
pub struct Plan {
    pub lines: u64,
    pub n: u32,
    pub over: bool,
    pub rows: Vec<Record>,
    pub outcome: Outcome,
    /// A row of no node.
    pub none: Record,
}

impl Plan {
    pub fn new(none: Record, rows: usize) -> Plan {
        Plan { lines: 0, n: 0, over: false, rows: vec![none; rows], outcome: Outcome::Quiet, none }
    }

    fn table(&self) -> &[Record] {
        &self.rows[..self.rows.len().min(self.n as usize)]
    }

    /// The table of the rules.
    pub fn nodes(&self) -> Result<Vec<Node>, u32> {
        held::rules(self.table())
    }

    /// "Record not sound, table not as above" is 4; there is a table between line one and the end.
    pub fn check(&self) -> Result<(), u32> {
        if self.over || self.lines == 0 {
            return Ok(());
        }
        bench::check_table(&self.nodes()?)
    }

    /// The number of the next line; the count stops at the last number of 64 bits.
    pub fn next_line(&self) -> u64 {
        self.lines.saturating_add(1)
    }

    fn open(&mut self, line: &[u8]) -> Result<(), u32> {
        let rows = self.rows.len();
        self.n = 0;
        self.rows = vec![self.none; rows];
        let table = if line.len() <= LONGEST { line_one(line)? } else { return Err(refusal::LINE) };
        self.n = table.len() as u32;
        held::hold(&mut self.rows, &table);
        Ok(())
    }

    fn step(&mut self, line: &[u8]) -> Result<Outcome, u32> {
        if self.lines == 0 {
            return self.open(line).map(|()| Outcome::Quiet);
        }
        if line.len() > LONGEST {
            return Err(refusal::LINE);
        }
        let size = self.table().len();
        let told = held::call(&mut self.rows[..size], |nodes| run_line(nodes, line))?;
        Ok(told.map_or(Outcome::Quiet, Outcome::Slot))
    }

    /// Runs a line; "A refused line .. ends the run", and a line after it does nothing.
    pub fn run(&mut self, line: &[u8]) {
        self.outcome = Outcome::Quiet;
        if self.over {
            return;
        }
        let ran = self.step(line);
        self.lines = self.next_line();
        self.over = ran.is_err();
        self.outcome = ran.unwrap_or_else(Outcome::Refused);
    }

    /// What is printed of the last line.
    fn print(&self, out: &mut Vec<u8>) {
        match self.outcome {
            Outcome::Quiet => {}
            Outcome::Slot(told) => told.print(out),
            Outcome::Refused(number) => print_refusal(self.lines, number, out),
        }
    }

    /// Runs the lines that end in the piece, where a part has come of the first, into `room` bytes: what is printed. The
    /// part is then that of the next line.
    pub fn feed(&mut self, part: &mut Part, piece: &[u8], room: usize) -> Result<Vec<u8>, u32> {
        self.check()?;
        if room < LINE * piece.len() {
            return Err(refusal::OUTPUT);
        }
        let mut out = Vec::new();
        let mut line = part.bytes().to_vec();
        for &byte in piece {
            if byte == b'\n' {
                self.run(&line);
                self.print(&mut out);
                line.clear();
            } else {
                line.push(byte);
            }
        }
        *part = Part::of(&line);
        Ok(out)
    }

    /// "Empty input or a missing last line feed is an unreadable line."
    pub fn finish(&self, part: &Part, room: usize) -> Result<Vec<u8>, u32> {
        if room < LINE {
            return Err(refusal::OUTPUT);
        }
        let mut out = Vec::new();
        if !self.over && (self.lines == 0 || part.length > 0) {
            print_refusal(self.next_line(), refusal::LINE, &mut out);
        }
        Ok(out)
    }
}
