//! Recordings as no call leaves them: any number of lines, any length, any bytes.

use super::protocol::{compare, Command};
use comparison::lent::{Call, LINES, PIECE};
use comparison::model::part::{Part, KEPT};
use comparison::model::pieces::LINE;
use comparison::model::recorded_pieces::Recording;
use comparison::model::recorded_text::Form;
use comparison::random::Random;
use comparison::recorded_lines::{damage, text, FORMS};
use comparison::report::Count;

/// Lengths that no line has: just past 121, ones that look small if their high bits are lost, and the ends.
const LARGE: [u64; 10] = [131, 200, 250, 255, 256, 256 + 13, 65_536, 1 << 32, (1 << 63) + 13, u64::MAX];

/// The start and the filling of 121 bytes. Some of the first `length` are a valid line, or a line of the form.
const SHAPES: [(&[u8], &[u8]); 6] = [
    (b"2 02 03 01 00 00 00", b" 00"),
    (b"13 0D FF 1F 01 01 00 00", b"\n"),
    (b"2", b" 00"),
    (b"", b"9"),
    (b"2 02 03 01 00\n", b"2 02 03 01 00\n"),
    (b"", b"\xff\x00"),
];

fn filled(start: &[u8], filling: &[u8]) -> [u8; KEPT] {
    let mut text = [0; KEPT];
    let bytes = start.iter().chain(filling.iter().cycle());
    text.iter_mut().zip(bytes).for_each(|(place, &byte)| *place = byte);
    text
}

/// Each length and shape with pieces that end the line, go on with it, or neither; then the end.
pub fn lengths(count: &mut Count) -> Result<(), String> {
    let mut commands = Vec::new();
    for length in (0..=130).chain(LARGE) {
        for (start, filling) in SHAPES {
            for form in FORMS {
                let part = Part { length, text: filled(start, filling) };
                let loaded = Recording { form, lines: length % 7, part };
                ended(&loaded, &mut commands);
            }
        }
    }
    compare(count, &commands)
}

fn ended(loaded: &Recording, commands: &mut Vec<Command>) {
    for piece in [&b"\n"[..], b"", b" 00\n2 02 03 01 00\n", b"7", b"\n\n8 08"] {
        commands.push(Command::Load(loaded.clone()));
        commands.push(Command::Call(Call::Feed(piece.to_vec(), LINE * piece.len())));
        commands.push(Command::Call(Call::Finish(LINE)));
        commands.push(Command::Call(Call::Finish(LINES.most)));
    }
}

/// The number of lines before: few, so many that the count stops, or any.
fn lines(count: &mut Count, random: &mut Random) -> u64 {
    let (name, lines) = match random.below(4) {
        0 => ("lines: few", random.below(3)),
        1 => ("lines: the last number of 64 bits", u64::MAX),
        2 => ("lines: about the last number", u64::MAX - random.within(1, 20)),
        _ => ("lines: any", random.number() >> random.below(64)),
    };
    count.event(name);
    lines
}

/// A length for so many bytes of a line: these, or another.
fn length(count: &mut Count, random: &mut Random, begun: usize) -> u64 {
    let length = match random.below(6) {
        0 => random.within(0, 121),
        1 => random.within(119, 124),
        2 => LARGE[random.below(LARGE.len() as u64) as usize],
        3 => random.number(),
        _ => begun as u64,
    };
    count.event(match length {
        0 => "length: 0",
        1..=120 => "length: 1 to 120",
        121 => "length: 121",
        _ => "length: above 121",
    });
    length
}

/// A recording in the middle of the first line of a text, and the text from there on, as much as a piece holds.
fn begun(count: &mut Count, random: &mut Random, form: Form, k: u32) -> (Recording, Vec<u8>) {
    let lines_after = random.within(1, 12);
    let mut whole = text(random, form, k, lines_after);
    if random.bit() {
        damage(count, random, &mut whole);
    }
    let first = whole.iter().position(|&byte| byte == b'\n').unwrap_or(whole.len());
    let at = random.within(0, first.min(KEPT) as u64) as usize;
    let mut kept = [0; KEPT];
    if random.bit() {
        kept.iter_mut().for_each(|byte| *byte = random.byte());
    }
    kept[..at].copy_from_slice(&whole[..at]);
    let mut piece = whole.split_off(at);
    piece.truncate(PIECE);
    let (lines, length) = (lines(count, random), length(count, random, at));
    (Recording { form, lines, part: Part { length, text: kept } }, piece)
}

/// Recordings of every k and both forms, each fed twice; some calls are first made with a buffer that is too short.
pub fn drawn(count: &mut Count) -> Result<(), String> {
    let mut random = Random::new(88);
    let mut commands = Vec::new();
    for i in 0..8_000 {
        let (loaded, piece) = begun(count, &mut random, FORMS[i % 2], 2 + (i / 2) as u32 % 30);
        let (a, b) = piece.split_at(random.below(piece.len() as u64 + 1) as usize);
        let mut calls = Vec::new();
        LINES.feed(&mut random, a, &mut calls);
        LINES.feed(&mut random, b, &mut calls);
        LINES.finish(&mut random, &mut calls);
        commands.push(Command::Load(loaded));
        commands.extend(calls.into_iter().map(Command::Call));
    }
    compare(count, &commands)?;
    count.needs(LOADED)
}

const LOADED: &[&str] = &[
    "length: 0",
    "length: 1 to 120",
    "length: 121",
    "length: above 121",
    "lines: few",
    "lines: the last number of 64 bits",
    "lines: about the last number",
    "lines: any",
];
