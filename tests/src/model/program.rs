//! Document 01, "The bench program".

use super::bench::{self, Call, Document01, Fate, Slot};
use super::choices::Choices;
use super::node::Node;
use super::refusal;
use super::ring::{is_node, Set};
use std::io::Write;

/// "Lines of at most 120 bytes end in a line feed, itself not counted."
pub const LONGEST: usize = 120;

/// All that the program prints for this input. "A refused line prints `line L refusal N`, lines counted
/// from 1, and ends the run."
pub fn run(input: &[u8]) -> Vec<u8> {
    let mut out = Vec::new();
    if let Err((line, number)) = run_lines(lines(input), |_, told| told.print(&mut out)) {
        print_refusal(line, number, &mut out);
    }
    out
}

/// The lines of a text, each with its line feed; the last one may have none.
pub fn lines(input: &[u8]) -> impl Iterator<Item = &[u8]> {
    input.split_inclusive(|&byte| byte == b'\n')
}

/// Runs the lines of a plan; `see` is given the table after each slot, and what is told of it. The number of the line
/// that is refused, and of the refusal.
pub fn run_lines<'a>(
    lines: impl Iterator<Item = &'a [u8]>,
    mut see: impl FnMut(&[Node], &Told),
) -> Result<(), (u64, u32)> {
    let mut lines = (1..).zip(lines);
    // "Empty input .. is an unreadable line."
    let (_, first) = lines.next().ok_or((1, refusal::LINE))?;
    let mut nodes = whole(first).and_then(line_one).map_err(|number| (1, number))?;
    for (number, line) in lines {
        let told =
            whole(line).and_then(|line| run_line(&mut nodes, line)).map_err(|cause| (number, cause))?;
        if let Some(told) = told {
            see(&nodes, &told);
        }
    }
    Ok(())
}

/// The line without its line feed. One that is too long or has none is refused.
pub fn whole(line: &[u8]) -> Result<&[u8], u32> {
    match line.strip_suffix(b"\n") {
        Some(line) if line.len() <= LONGEST => Ok(line),
        _ => Err(refusal::LINE),
    }
}

/// "Line one: n, space, k." "The bench program keeps its lines, with m = 0 and later lag 0"
pub fn line_one(line: &[u8]) -> Result<Vec<Node>, u32> {
    let (n, k) = parted(line);
    let n = number(n)?;
    let k = number(k.ok_or(refusal::LINE)?)?;
    bench::set_up(Choices::plain(n, k), n as usize)
}

/// Runs a line that is not the first: what is told of it, if it is a slot.
pub fn run_line(nodes: &mut [Node], line: &[u8]) -> Result<Option<Told>, u32> {
    let call = call(nodes[0].chosen.n, line)?;
    Ok(bench::run(&Document01, nodes, call)?.map(|slot| Told::new(nodes, &slot)))
}

/// What a line says. "Then `ok`, `lost`, `miss a b` (numbers rising, at least one) each run a slot;
/// `off a` and `on a` switch or restart a node, no slot."
pub fn call(n: u32, line: &[u8]) -> Result<Call, u32> {
    match parted(line) {
        (b"ok", None) => Ok(Call::Slot { lost: false, missed: Set::EMPTY }),
        (b"lost", None) => Ok(Call::Slot { lost: true, missed: Set::EMPTY }),
        (b"miss", Some(numbers)) => Ok(Call::Slot { lost: false, missed: named(n, numbers)? }),
        (b"off", Some(digits)) => Ok(Call::Off(number(digits)?)),
        (b"on", Some(digits)) => Ok(Call::Restart(number(digits)?)),
        _ => Err(refusal::LINE),
    }
}

/// "Each slot prints: slot, sender, fate, the set of the lowest-numbered member .., the greatest distance between sets
/// of two members"
#[derive(Clone, Copy, PartialEq, Eq)]
pub struct Told {
    pub slot: u64,
    pub sender: u32,
    pub fate: Fate,
    pub list: Option<Set>,
    pub distance: u32,
}

impl Told {
    fn new(nodes: &[Node], slot: &Slot) -> Told {
        Told {
            slot: nodes[0].slots,
            sender: slot.sender,
            fate: slot.fate,
            list: bench::list(nodes),
            distance: bench::greatest_distance(nodes),
        }
    }

    /// The set is printed "as eight hexadecimal digits (node 1 is the lowest bit; `--------` if none)".
    pub fn print(&self, out: &mut Vec<u8>) {
        let Told { slot, sender, fate, list, distance } = *self;
        let list = list.map_or("--------".to_string(), |set| format!("{:08x}", set.0));
        writeln!(out, "{slot} {sender} {} {list} {distance}", word(fate)).expect("a vector takes every byte");
    }
}

/// "A refused line prints `line L refusal N`"
pub fn print_refusal(line: u64, number: u32, out: &mut Vec<u8>) {
    writeln!(out, "line {line} refusal {number}").expect("a vector takes every byte");
}

fn word(fate: Fate) -> &'static str {
    match fate {
        Fate::Silent => "silent",
        Fate::Lost => "lost",
        Fate::Knock => "knock",
        Fate::Sent => "sent",
    }
}

/// What stands before the first space, and what after it.
fn parted(line: &[u8]) -> (&[u8], Option<&[u8]>) {
    match line.iter().position(|&byte| byte == b' ') {
        Some(space) => (&line[..space], Some(&line[space + 1..])),
        None => (line, None),
    }
}

/// "Decimal, no leading zeros": a number of any length, here the largest u32 for all that are too large
/// for one.
pub fn number(digits: &[u8]) -> Result<u32, u32> {
    let leading_zero = digits.len() > 1 && digits[0] == b'0';
    if digits.is_empty() || leading_zero || !digits.iter().all(u8::is_ascii_digit) {
        return Err(refusal::LINE);
    }
    let add = |value: u32, digit: &u8| value.saturating_mul(10).saturating_add(u32::from(digit - b'0'));
    Ok(digits.iter().fold(0, add))
}

/// The nodes of a `miss` line. All numbers are readable and rising before one of them is judged: "a plan
/// line is tested for 12 first".
fn named(n: u32, numbers: &[u8]) -> Result<Set, u32> {
    let mut set = Set::EMPTY;
    let mut wrong_value = false;
    let mut before: &[u8] = &[];
    for digits in numbers.split(|&byte| byte == b' ') {
        let x = number(digits)?;
        // Of two numbers without leading zeros the longer one is the larger.
        if (digits.len(), digits) <= (before.len(), before) {
            return Err(refusal::LINE);
        }
        wrong_value |= !is_node(n, x);
        set = set.with(x);
        before = digits;
    }
    if wrong_value {
        Err(refusal::NODE)
    } else {
        Ok(set)
    }
}
