//! Damages to a plan's text, as they happen on its way or are made by somebody who has not read document 01.

use crate::random::Random;
use crate::report::Count;

pub const DAMAGES: &[&str] = &[
    "damage: bits turned",
    "damage: cut",
    "damage: byte put in",
    "damage: byte taken out",
    "damage: other bytes for a byte",
    "damage: other number",
    "damage: line put in",
    "damage: other line one",
    "damage: lines exchanged",
];

pub fn damage(count: &mut Count, random: &mut Random, text: &mut Vec<u8>) {
    let kind = random.below(DAMAGES.len() as u64) as usize;
    count.event(DAMAGES[kind]);
    match kind {
        0 => turn_bits(random, text),
        1 => text.truncate(place(random, text)),
        2 => {
            let at = place(random, text);
            text.insert(at, odd_byte(random));
        }
        3 => replace(random, text, |_| true, |_, _| Vec::new()),
        4 => replace(random, text, |_| true, odd_bytes),
        5 => replace(random, text, |byte| byte.is_ascii_digit(), odd_number),
        6 => put_line_in(random, text),
        7 => other_line_one(random, text),
        _ => exchange_lines(random, text),
    }
}

/// A place in the text; its end often enough, since the last line feed matters.
fn place(random: &mut Random, text: &[u8]) -> usize {
    let length = text.len() as u64;
    if random.below(4) == 0 {
        length.saturating_sub(1) as usize
    } else {
        random.below(length + 1) as usize
    }
}

fn turn_bits(random: &mut Random, text: &mut [u8]) {
    for _ in 0..random.within(1, 4) {
        let at = place(random, text);
        if let Some(byte) = text.get_mut(at) {
            *byte ^= 1 << random.below(8);
        }
    }
}

/// Bytes that matter to a reader of plans, and any others.
fn odd_byte(random: &mut Random) -> u8 {
    const ODD: &[u8] = b" \n\r\t\x00 0019\n-+,kK\xff";
    if random.below(4) == 0 {
        random.byte()
    } else {
        ODD[random.below(ODD.len() as u64) as usize]
    }
}

fn odd_bytes(random: &mut Random, byte: u8) -> Vec<u8> {
    match random.below(6) {
        0 => vec![byte, byte],
        1 => vec![byte.to_ascii_uppercase()],
        2 => vec![b'\r', byte],
        3 => vec![b' ', byte],
        4 => vec![byte, b' '],
        _ => vec![odd_byte(random)],
    }
}

/// In place of a digit.
fn odd_number(random: &mut Random, digit: u8) -> Vec<u8> {
    match random.below(8) {
        0 => vec![b'0', digit],
        1 => b"0".to_vec(),
        2 => random.within(0, 40).to_string().into_bytes(),
        3 => random.number().to_string().into_bytes(),
        4 => (u64::from(u32::MAX) + random.within(1, 40)).to_string().into_bytes(),
        5 => (u128::from(u64::MAX) + u128::from(random.within(1, 40))).to_string().into_bytes(),
        6 => format!("+{}", digit as char).into_bytes(),
        _ => (0..random.within(1, 130)).map(|_| b'0' + random.below(10) as u8).collect(),
    }
}

/// Replaces one of the bytes that are wanted.
fn replace(
    random: &mut Random,
    text: &mut Vec<u8>,
    wanted: fn(&u8) -> bool,
    new: fn(&mut Random, u8) -> Vec<u8>,
) {
    let places: Vec<usize> = (0..text.len()).filter(|&at| wanted(&text[at])).collect();
    if places.is_empty() {
        return;
    }
    let at = places[random.below(places.len() as u64) as usize];
    let bytes = new(random, text[at]);
    text.splice(at..at + 1, bytes);
}

/// A line of any length, before a random one.
fn put_line_in(random: &mut Random, text: &mut Vec<u8>) {
    let starts: Vec<usize> = (0..=text.len()).filter(|&at| at == 0 || text[at - 1] == b'\n').collect();
    let at = starts[random.below(starts.len() as u64) as usize];
    let line = odd_line(random);
    text.splice(at..at, line);
}

fn odd_line(random: &mut Random) -> Vec<u8> {
    let length = match random.below(4) {
        0 => random.within(115, 125),
        1 => random.within(0, 300),
        2 => random.within(4_000, 9_000),
        _ => random.within(1, 20),
    } as usize;
    let start: &[u8] =
        [&b"off "[..], b"on ", b"miss ", b"miss 1 2 3 ", b"ok", b"", b"4 "][random.below(7) as usize];
    let mut line = start.to_vec();
    let filling = b"1190 x\0"[random.below(7) as usize];
    line.resize(length.max(start.len()), filling);
    line.push(b'\n');
    line
}

fn other_line_one(random: &mut Random, text: &mut Vec<u8>) {
    let end = text.iter().position(|&byte| byte == b'\n').unwrap_or(text.len());
    let line = format!("{} {}", random.below(36), random.below(36));
    text.splice(0..end, line.into_bytes());
}

fn exchange_lines(random: &mut Random, text: &mut Vec<u8>) {
    let mut lines: Vec<&[u8]> = text.split_inclusive(|&byte| byte == b'\n').collect();
    if lines.is_empty() {
        return;
    }
    let first = random.below(lines.len() as u64) as usize;
    let second = random.below(lines.len() as u64) as usize;
    lines.swap(first, second);
    *text = lines.concat();
}
