//! Document 02, request i: a file of recorded messages as text, one message a line, brought to the other form.

use super::program::{number, whole};
use super::{recorded, refusal};
use std::io::Write;

/// The form that the messages are brought to.
#[derive(Clone, Copy, PartialEq, Eq, Debug)]
pub enum Form {
    Three,
    Two,
}

const DIGITS: &[u8; 16] = b"0123456789ABCDEF";

/// A line with its line feed: k in decimal, then a space and two hexadecimal digits for each byte.
pub fn line(k: u32, message: &[u8]) -> Vec<u8> {
    let mut line = k.to_string().into_bytes();
    for byte in message {
        line.extend([b' ', DIGITS[usize::from(byte >> 4)], DIGITS[usize::from(byte & 15)]]);
    }
    line.push(b'\n');
    line
}

fn digit(byte: u8) -> Result<u8, u32> {
    DIGITS.iter().position(|&digit| digit == byte).map(|at| at as u8).ok_or(refusal::LINE)
}

fn byte(word: &[u8]) -> Result<u8, u32> {
    match *word {
        [high, low] => Ok(digit(high)? << 4 | digit(low)?),
        _ => Err(refusal::LINE),
    }
}

/// The line for a line, or the number of the refusal: 12 first, then those of the conversion.
fn converted(form: Form, text: &[u8]) -> Result<Vec<u8>, u32> {
    let mut words = text.split(|&byte| byte == b' ');
    let k = number(words.next().unwrap_or_default())?;
    let message = words.map(byte).collect::<Result<Vec<u8>, u32>>()?;
    let mut out = [0; 40];
    let length = match form {
        Form::Three => recorded::to_three(k, &message, &mut out)?,
        Form::Two => recorded::to_two(k, &message, &mut out)?,
    };
    Ok(line(k, &out[..length]))
}

/// Prints a line, with its line feed, that has this number: "`line L refusal N`" if it is refused.
pub fn print(form: Form, number: u64, line: &[u8], out: &mut Vec<u8>) {
    match whole(line).and_then(|line| converted(form, line)) {
        Ok(text) => out.extend(text),
        Err(cause) => {
            writeln!(out, "line {number} refusal {cause}").expect("a vector takes every byte");
        }
    }
}

/// All that the program prints for this input, "lines counted from 1". A refusal ends nothing.
pub fn run(form: Form, input: &[u8]) -> Vec<u8> {
    let mut out = Vec::new();
    for (number, line) in (1_u64..).zip(input.split_inclusive(|&byte| byte == b'\n')) {
        print(form, number, line, &mut out);
    }
    out
}
