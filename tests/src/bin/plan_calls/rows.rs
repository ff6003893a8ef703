//! Plans with a row of members that is damaged, typed from request l and in every way: no line of them is run.

use super::compare::compare;
use super::protocol::{Command, Held};
use comparison::lent::{Call, LINES};
use comparison::model::held::Record;
use comparison::model::pieces::Outcome;
use comparison::plan_bytes::{Load, ROWS};
use comparison::random::Random;
use comparison::record_bytes::shown_held;
use comparison::records::sound;
use comparison::report::Count;
use comparison::rows::{names, DAMAGES};
use comparison::typed_rows::{self, table_about};

/// A plan of this table, whose line one has been run; a record that is not one of the table, if there is room.
fn load(commands: &mut Vec<Command>, table: &[Record], spare: &Record) {
    commands.push(Command::New);
    let load = |row, record: &Record| Command::Load(Load::Row(row, *record));
    commands.extend((0..).zip(table).map(|(row, record)| load(row, record)));
    if table.len() < ROWS {
        commands.push(load(table.len() as u8, spare));
    }
    let n = table.len() as u32;
    commands.push(Command::Load(Load::Numbers { over: false, lines: 1, n, outcome: Outcome::Quiet }));
}

/// A piece is fed to this plan; the model answers by this number.
fn feed(count: &mut Count, commands: &mut Vec<Command>, piece: &[u8], expected: u32) -> Result<(), String> {
    commands.push(Command::Call(Call::Feed(piece.to_vec(), LINES.most)));
    let start = commands.iter().rposition(|command| matches!(command, Command::New)).unwrap_or(0);
    let mut held = Held::first();
    let numbers = commands[start..].iter().map(|command| held.run(command, &mut Vec::new()));
    let number = numbers.last().unwrap_or(0);
    count.check(number == expected, || {
        let rows: Vec<String> = held.plan.rows.iter().map(shown_held).collect();
        format!("{number} by the model, not {expected}: {}", rows.join("\n        "))
    })
}

/// A damaged row in the table is refused by 4; after the table it stays as it is.
pub fn typed(count: &mut Count) -> Result<(), String> {
    let mut commands = Vec::new();
    let sound = typed_rows::sound();
    for (_, record) in sound {
        load(&mut commands, &table_about(&record), &record);
        feed(count, &mut commands, b"ok\noff 1\n", 0)?;
    }
    for (_, record) in typed_rows::damaged() {
        load(&mut commands, &table_about(&record), &record);
        feed(count, &mut commands, b"ok\n", 4)?;
        feed(count, &mut commands, b"", 4)?;
        commands.push(Command::Call(Call::Finish(80)));
        load(&mut commands, &table_about(&sound[0].1), &record);
        feed(count, &mut commands, b"ok\nlost\n", 0)?;
    }
    compare(count, &commands)
}

/// Rows damaged in every way, any slot tables.
pub fn damaged(count: &mut Count) -> Result<(), String> {
    let mut random = Random::new(80);
    let mut commands = Vec::new();
    for damage in DAMAGES {
        for &state in damage.states {
            // Some ways ask for 32 nodes.
            for _ in 0..60 / damage.states.len() {
                let node = sound(&mut random, state);
                let Some(record) = damage.of(&mut random, node) else { continue };
                count.event(damage.name);
                damage.breaks.iter().for_each(|says| count.event(says));
                load(&mut commands, &table_about(&record), &record);
                feed(count, &mut commands, [&b"ok\n"[..], b"on 1\n", b"o"][random.below(3) as usize], 4)?;
            }
        }
    }
    count.needs(&names())?;
    compare(count, &commands)
}
