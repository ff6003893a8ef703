//! Texts cut into pieces of every size, and buffers of every length about those that are needed.

use super::compare::compare;
use super::protocol::Command;
use super::texts::text;
use comparison::adversary::Adversary;
use comparison::lent::{short, Call, CALLS, LINES, PIECE};
use comparison::model::pieces::LINE;
use comparison::report::Count;

/// Plans of every n, in pieces of up to 250 bytes.
pub fn drawn(count: &mut Count) -> Result<(), String> {
    let mut adversary = Adversary::new(71);
    let mut commands = Vec::new();
    for i in 0..300 {
        let n = 3 + i % 30;
        let k = adversary.random.within(2, u64::from(n) - 1) as u32;
        let lines = adversary.random.below(150);
        let text = text(&mut adversary, n, k, lines);
        let most = [1, 2, 3, 7, 40, 250][i as usize % 6];
        commands.push(Command::New);
        commands.extend(LINES.cut(&mut adversary.random, &text, most).into_iter().map(Command::Call));
    }
    compare(count, &commands)?;
    count.needs(CALLS)
}

/// Short texts in two pieces, cut at every place.
pub fn every_cut(count: &mut Count) -> Result<(), String> {
    let mut commands = Vec::new();
    let long = [&b"off "[..], &[b'1'; 117], b"\nok\n"].concat();
    for text in [
        &b""[..],
        b"4 2\nok\nlost\nok\nok\n",
        b"4 2\nmiss 1 3\non 2\nok\n",
        b"3 2\noff 1\n\nok",
        b"33 2\nok\n",
        &long,
    ] {
        for at in 0..=text.len() {
            commands.push(Command::New);
            commands.extend(LINES.cut_at(text, at).map(Command::Call));
        }
    }
    compare(count, &commands)
}

/// Whole texts, with buffers that are long enough and too short.
pub fn whole(count: &mut Count) -> Result<(), String> {
    let mut adversary = Adversary::new(73);
    let mut commands = Vec::new();
    for i in 0..2_000 {
        let n = 3 + i % 30;
        let k = adversary.random.within(2, u64::from(n) - 1) as u32;
        let lines = adversary.random.below(60);
        let mut text = text(&mut adversary, n, k, lines);
        text.truncate(adversary.random.within(0, PIECE as u64) as usize);
        let random = &mut adversary.random;
        let least = LINE * (text.len() + 1);
        let room = if random.below(4) == 0 { short(random, least) } else { LINES.enough(random, least) };
        commands.push(Command::Call(Call::Print(text, room)));
    }
    compare(count, &commands)?;
    count.needs(&["call: a whole text", "call: refused"])
}
