//! Files of plans cut into pieces of every size, and buffers of every length about those that are needed.

use super::protocol::{compare, start, written, Command, ROOMS};
use comparison::adversary::Adversary;
use comparison::drawn_plans::any_k;
use comparison::lent::{Call, PIECE};
use comparison::model::plan_report;
use comparison::model::report_pieces::{END, LINE};
use comparison::plan_files::{any_plan, parted};
use comparison::plan_lines::filled;
use comparison::report::Count;

/// A file of up to six plans, some of them refused or damaged.
fn file(count: &mut Count, adversary: &mut Adversary) -> Vec<u8> {
    let mut plans = Vec::new();
    for _ in 0..adversary.random.within(1, 6) {
        let n = adversary.random.within(3, 32) as u32;
        let k = any_k(&mut adversary.random, n);
        plans.push(any_plan(count, adversary, n, k, 3));
    }
    parted(&plans)
}

/// What the model's calls write, one after the other, is what is printed of the whole file.
fn together(count: &mut Count, file: &[u8], calls: &[Call]) -> Result<(), String> {
    let mut report = start();
    let texts = calls.iter().filter_map(|call| written(&mut report, call).ok());
    let pieces = texts.collect::<Vec<_>>().concat();
    count.check(pieces == plan_report::run(file), || {
        format!("in pieces the model prints another text of '{}'", file.escape_ascii())
    })
}

/// Files in pieces of up to 250 bytes.
pub fn drawn(count: &mut Count) -> Result<(), String> {
    let mut adversary = Adversary::new(98);
    let mut commands = Vec::new();
    for i in 0..400 {
        let file = file(count, &mut adversary);
        let calls = ROOMS.cut(&mut adversary.random, &file, [2, 3, 7, 40, 120, PIECE][i % 6]);
        together(count, &file, &calls)?;
        commands.push(Command::New);
        commands.extend(calls.into_iter().map(Command::Call));
    }
    compare(count, &commands)?;
    count.needs(&[
        "call: a piece that prints",
        "call: a piece that prints nothing",
        "call: an end that prints",
        "call: refused",
        "plan: refused in line 1",
        "plan: refused later",
    ])
}

/// Short files in two pieces, cut at every place.
pub fn every_cut(count: &mut Count) -> Result<(), String> {
    let mut commands = Vec::new();
    let off = |digits| [&b"4 2\noff "[..], &b"1".repeat(digits), b"\nnext\n4 2\nok\n"].concat();
    let (fits, too_long) = (off(116), off(117));
    for file in [
        &b""[..],
        b"next\nnext",
        b"4 2\nok\nlost\nok\nok\nnext\n4 2\nmiss 1 3\non 2\nok\nnext\n3 2\nok\n",
        b"3 2\noff 1\n\nok\nnext\r\nnext\n4 2\nok\nnext \nnext\n3 2\nok\nnext",
        b"33 2\nok\nnext\nnextnext\nnext\n\nnext\n3 2\nok",
        &fits,
        &too_long,
    ] {
        for at in 0..=file.len() {
            let calls = ROOMS.cut_at(file, at);
            together(count, file, &calls)?;
            commands.push(Command::New);
            commands.extend(calls.map(Command::Call));
        }
    }
    compare(count, &commands)
}

/// Pieces of every length: a refused call, and the same with just enough room. The end is then asked for so, too.
pub fn rooms(count: &mut Count) -> Result<(), String> {
    let mut commands = Vec::new();
    for length in 1..=PIECE {
        let mut piece = b"next\n3 2\nnext\n".to_vec();
        piece.extend(filled(300));
        piece.truncate(length);
        commands.push(Command::New);
        commands.extend(
            [LINE * length - 1, LINE * length].map(|room| Command::Call(Call::Feed(piece.clone(), room))),
        );
        commands.extend([END - 1, END].map(|room| Command::Call(Call::Finish(room))));
    }
    compare(count, &commands)
}
