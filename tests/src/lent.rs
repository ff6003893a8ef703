//! Calls on a text that comes in pieces, with a lent buffer: their bytes for a program that runs them, rooms for the
//! buffer, and the comparison of every answer. All numbers are lowest byte first.

use crate::child;
use crate::model::pieces::LINE;
use crate::random::Random;
use crate::report::Count;
use std::io::Read;

/// The most bytes of a piece.
pub const PIECE: usize = 250;

/// The room that calls ask for, for each byte of a piece and for the end, and the longest buffer there is.
pub struct Rooms {
    pub byte: usize,
    pub end: usize,
    pub most: usize,
}

/// Those of plans and of recordings.
pub const LINES: Rooms = Rooms { byte: LINE, end: LINE, most: 20_480 };

/// Each byte of a lent buffer before the call.
const FILL: u8 = 0xA5;

/// A call, with the length of the lent buffer.
#[derive(Clone)]
pub enum Call {
    Feed(Vec<u8>, usize),
    Finish(usize),
    Print(Vec<u8>, usize),
}

impl Call {
    fn parts(&self) -> (u8, &[u8], usize) {
        match self {
            Call::Feed(piece, room) => (b'F', piece, *room),
            Call::Finish(room) => (b'E', &[], *room),
            Call::Print(text, room) => (b'A', text, *room),
        }
    }

    pub fn push(&self, out: &mut Vec<u8>) {
        let (letter, text, room) = self.parts();
        out.extend([letter, text.len() as u8]);
        out.extend((room as u32).to_le_bytes());
        out.extend(text);
    }

    /// The first bytes of the answer: 0 or the refusal's number, the count of bytes, and the whole buffer, of which
    /// what was not written is as it was.
    pub fn push_written(&self, written: &Result<Vec<u8>, u32>, out: &mut Vec<u8>) -> u32 {
        let (_, _, room) = self.parts();
        let mut buffer = vec![FILL; room];
        let (number, count) = match written {
            Ok(text) => {
                buffer[..text.len()].copy_from_slice(text);
                (0, text.len() as u32)
            }
            Err(number) => (*number, 0),
        };
        out.push(number as u8);
        out.extend(count.to_le_bytes());
        out.extend(buffer);
        number
    }

    fn note(&self, count: &mut Count, number: u32, answer: &[u8]) {
        let printed = answer[1..5] != [0; 4];
        count.expected(number);
        count.event(match (self, number) {
            (Call::Feed(..), 0) if printed => "call: a piece that prints",
            (Call::Feed(..), 0) => "call: a piece that prints nothing",
            (Call::Finish(_), 0) if printed => "call: an end that prints",
            (Call::Finish(_), 0) => "call: an end that prints nothing",
            (Call::Print(..), 0) => "call: a whole text",
            _ => "call: refused",
        });
    }

    fn shown(&self) -> String {
        match self {
            Call::Feed(piece, room) => format!("feed '{}' into {room} bytes", piece.escape_ascii()),
            Call::Finish(room) => format!("finish into {room} bytes"),
            Call::Print(text, room) => format!("print '{}' into {room} bytes", text.escape_ascii()),
        }
    }
}

/// What many texts in pieces must meet.
pub const CALLS: &[&str] = &[
    "call: a piece that prints",
    "call: a piece that prints nothing",
    "call: an end that prints",
    "call: an end that prints nothing",
    "call: refused",
];

/// A command of a program that runs calls.
pub trait Command {
    fn push(&self, out: &mut Vec<u8>);

    /// The call; only such a command has an answer.
    fn call(&self) -> Option<&Call>;
}

/// Runs the program on the commands and compares every byte of every answer. `run` carries a command out by the model:
/// the answer's bytes, and the number of the refusal.
pub fn compare<C: Command>(
    count: &mut Count,
    program: &str,
    commands: &[C],
    mut run: impl FnMut(&mut Count, &C, &mut Vec<u8>) -> u32,
) -> Result<(), String> {
    let mut script = Vec::new();
    commands.iter().for_each(|command| command.push(&mut script));
    child::run(count, program, &script, |count, output| {
        for (i, command) in commands.iter().enumerate() {
            let mut expected = Vec::new();
            let number = run(count, command, &mut expected);
            let Some(call) = command.call() else { continue };
            call.note(count, number, &expected);
            same(count, output, &expected)
                .map_err(|why| format!("command {}: {}{why}", i + 1, call.shown()))?;
        }
        Ok(())
    })
}

fn same(count: &mut Count, output: &mut dyn Read, expected: &[u8]) -> Result<(), String> {
    let mut got = Vec::new();
    child::read_answer(output, expected.len(), &mut got)
        .map_err(|why| format!(": the answer cannot be read: {why}"))?;
    count.check(got == expected, || {
        let place = got.iter().zip(expected).take_while(|(a, b)| a == b).count();
        format!(
            "\n        byte {place} of {} differs from the expected one of {}: {:?}, not {:?}",
            got.len(),
            expected.len(),
            got.get(place),
            expected.get(place)
        )
    })
}

/// A room that is too short where so many bytes are needed.
pub fn short(random: &mut Random, least: usize) -> usize {
    match random.below(3) {
        0 => least - 1,
        1 => random.below(least as u64) as usize,
        _ => 0,
    }
}

impl Rooms {
    /// One that is enough, often just so.
    pub fn enough(&self, random: &mut Random, least: usize) -> usize {
        match random.below(3) {
            0 => self.most,
            1 => random.within(least as u64, self.most as u64) as usize,
            _ => least,
        }
    }

    /// A piece is fed; now and then, before that, into a buffer that is too short.
    pub fn feed(&self, random: &mut Random, piece: &[u8], calls: &mut Vec<Call>) {
        let least = self.byte * piece.len();
        if random.below(8) == 0 && !piece.is_empty() {
            calls.push(Call::Feed(piece.to_vec(), short(random, least)));
        }
        calls.push(Call::Feed(piece.to_vec(), self.enough(random, least)));
    }

    /// The text ends; now and then, before that, with a buffer that is too short.
    pub fn finish(&self, random: &mut Random, calls: &mut Vec<Call>) {
        if random.below(4) == 0 {
            calls.push(Call::Finish(short(random, self.end)));
        }
        calls.push(Call::Finish(self.enough(random, self.end)));
    }

    /// The text in pieces of at most so many bytes, and its end.
    pub fn cut(&self, random: &mut Random, text: &[u8], most: usize) -> Vec<Call> {
        let mut calls = Vec::new();
        let mut rest = text;
        while !rest.is_empty() {
            let (piece, more) = rest.split_at((random.within(0, most as u64) as usize).min(rest.len()));
            self.feed(random, piece, &mut calls);
            rest = more;
        }
        self.finish(random, &mut calls);
        calls
    }

    /// The text in two pieces, cut at a place, and its end.
    pub fn cut_at(&self, text: &[u8], at: usize) -> [Call; 3] {
        let (a, b) = text.split_at(at);
        let feed = |piece: &[u8]| Call::Feed(piece.to_vec(), self.most);
        [feed(a), feed(b), Call::Finish(self.end)]
    }
}
