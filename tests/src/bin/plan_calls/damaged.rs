//! Plans and parts as no call leaves them: rows that are no table, any numbers, any bytes.

use super::compare::compare;
use super::protocol::Command;
use comparison::lent::{Call, LINES, PIECE};
use comparison::model::bench;
use comparison::plan_bytes::{outcome, part, Load, ROWS};
use comparison::random::Random;
use comparison::records::{choices_of, disturb};
use comparison::report::Count;
use comparison::slot_tables;

fn numbers(random: &mut Random, n: u32) -> Command {
    let lines = match random.below(4) {
        0 => 0,
        1 => u64::MAX - random.below(3),
        _ => random.within(1, 300),
    };
    let n = if random.below(4) == 0 { [0, 1, n + 1, 33, 40, u32::MAX][random.below(6) as usize] } else { n };
    Command::Load(Load::Numbers { over: random.below(6) == 0, lines, n, outcome: outcome(random) })
}

const BEGUN: &[&[u8]] = &[b"", b"o", b"ok", b"miss 1 ", b"4 2\nok", b"off "];

fn piece(random: &mut Random) -> Vec<u8> {
    let pieces: [&[u8]; 8] = [
        b"",
        b"\n",
        b"k\nok\n",
        b"ok\nlost\n",
        b"2\nok",
        b"4 2\nok\n",
        b"on 1\nok\n",
        b"miss 1 2 3\nok\n\nok\n",
    ];
    let mut piece = pieces[random.below(8) as usize].to_vec();
    if random.below(5) == 0 {
        piece.resize(random.below(PIECE as u64 + 1) as usize, b'1');
    }
    piece
}

/// Tables of every n, most of them with a record that was disturbed or is missing. A table of another m or lag than 0 or
/// of another slot table than the plain one is one, too, and no line reports a job.
pub fn plans(count: &mut Count) -> Result<(), String> {
    let mut random = Random::new(79);
    let mut commands = Vec::new();
    for i in 0..3_000 {
        let n = 3 + i % 30;
        let chosen = choices_of(&mut random, n);
        slot_tables::note(count, n, chosen.order);
        let table = bench::set_up(chosen, n as usize).expect("the choices are in range");
        commands.push(Command::New);
        for (row, node) in (0..).zip(&table) {
            commands.push(Command::Load(Load::Row(row, (*node).into())));
        }
        if random.below(3) == 0 {
            let row = random.below(ROWS as u64) as usize;
            let mut record = table[row % table.len()].into();
            disturb(&mut random, &mut record);
            commands.push(Command::Load(Load::Row(row as u8, record)));
        }
        commands.push(numbers(&mut random, n));
        commands.push(Command::Load(Load::Part(part(&mut random, BEGUN))));
        for _ in 0..3 {
            let room = if random.below(8) == 0 { 79 } else { LINES.most };
            commands.push(Command::Call(Call::Feed(piece(&mut random), room)));
        }
        commands.push(Command::Call(Call::Finish(if random.below(8) == 0 { 79 } else { 80 })));
    }
    count.needs(&slot_tables::KINDS)?;
    compare(count, &commands)
}
