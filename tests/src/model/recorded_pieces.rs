//! Document 02, request i: a text of recorded messages that comes in pieces. What the documents leave open, the room that
//! a call asks for and what is kept of a line, is as the contracts say; sentences marked (contract) are those of
//! `converter_text/specs/Calls` and of what it cites.

use super::part::Part;
use super::pieces::LINE;
use super::recorded_text::{print, Form};
use super::refusal;

/// A recording as far as it has come.
#[derive(Clone)]
pub struct Recording {
    pub form: Form,
    /// How many lines have ended.
    pub lines: u64,
    /// What has come of the next line.
    pub part: Part,
}

impl Recording {
    /// "Before the first line." (contract)
    pub fn new(form: Form) -> Recording {
        Recording { form, lines: 0, part: Part::new() }
    }

    /// "The count stops at the last number of 64 bits" (contract)
    fn next_line(&self) -> u64 {
        self.lines.saturating_add(1)
    }

    /// The next line ends. "After the end of the line." (contract)
    fn end_line(&mut self, out: &mut Vec<u8>) {
        let mut line = self.part.end();
        line.push(b'\n');
        self.lines = self.next_line();
        print(self.form, self.lines, &line, out);
    }

    /// What is printed of a piece into `room` bytes. "Lent output too short is 9, and changes nothing. A line has a byte
    /// at least, its line feed, and prints 80 at the most." (contract)
    pub fn feed(&mut self, piece: &[u8], room: usize) -> Result<Vec<u8>, u32> {
        if room < LINE * piece.len() {
            return Err(refusal::OUTPUT);
        }
        let mut out = Vec::new();
        for (i, part) in piece.split(|&byte| byte == b'\n').enumerate() {
            if i > 0 {
                self.end_line(&mut out);
            }
            self.part.keep(part);
        }
        Ok(out)
    }

    /// "a missing last line feed is an unreadable line", whatever has come of it; "80 bytes from the place on hold every
    /// line" (contract).
    pub fn finish(&self, room: usize) -> Result<Vec<u8>, u32> {
        if room < LINE {
            return Err(refusal::OUTPUT);
        }
        let mut out = Vec::new();
        if self.part.length > 0 {
            print(self.form, self.next_line(), b"unended", &mut out);
        }
        Ok(out)
    }
}
