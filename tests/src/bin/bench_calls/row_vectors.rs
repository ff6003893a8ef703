//! Rows of whole tables typed from request l: after calls, and damaged ones, of which every call but set-up is refused by
//! 4; neither side makes an expected answer.

use super::compare::compare;
use super::protocol::{rows_of, Call, Command, Held};
use super::script::Script;
use comparison::model::choices::Choices;
use comparison::model::held::Record;
use comparison::model::row::Row;
use comparison::model::slot_table::Order;
use comparison::random::Random;
use comparison::record_bytes::shown_held;
use comparison::report::Count;
use comparison::typed_rows::{self, table_about, TABLE};

const OK: Call = Call::Slot { lost: false, missed: 0, jobs: 0 };
const LOST: Call = Call::Slot { lost: true, missed: 0, jobs: 0 };

const ALL: &[u8] = &[3, 1, 4, 2];
const WITHOUT_1: &[u8] = &[3, 4, 2];

/// A call that is made so many times, and the rows of nodes 1 to 4 after each: those of `RUNS` in `set_ups`, with the
/// table 3, 1, 4, 2 and k = 2. Node 1 leaves in slot 4, follows from slot 12 on and joins in slot 17.
#[rustfmt::skip]
const AFTER: &[(Call, u32, [&[u8]; 4])] = &[
    (OK, 1, [ALL, ALL, ALL, ALL]),
    (LOST, 1, [ALL, ALL, ALL, ALL]),
    (OK, 1, [ALL, ALL, ALL, ALL]),
    (OK, 1, [&[], WITHOUT_1, WITHOUT_1, WITHOUT_1]),
    (Call::Restart(1), 1, [&[], WITHOUT_1, WITHOUT_1, WITHOUT_1]),
    (OK, 7, [&[], WITHOUT_1, WITHOUT_1, WITHOUT_1]),
    (OK, 5, [WITHOUT_1, WITHOUT_1, WITHOUT_1, WITHOUT_1]),
    (OK, 1, [ALL, ALL, ALL, ALL]),
    (Call::Look { lost: false }, 1, [ALL, ALL, ALL, ALL]),
    (Call::Off(4), 1, [ALL, ALL, ALL, &[]]),
];

/// The rows after calls: the model against what is typed; the commands are for the program.
pub fn after_calls(count: &mut Count) -> Result<(), String> {
    let chosen = Choices { order: Order::kept(TABLE), ..Choices::plain(4, 2) };
    let set_up = Command::Call(Call::SetUp(chosen.into()), 0);
    let mut commands = vec![Command::Size(4), Command::Lend(4), Command::Arrays(4), set_up];
    let (mut held, mut answer) = (Held::first(), Vec::new());
    for command in &commands {
        held.run(command, &mut answer);
    }
    for &(call, times, members) in AFTER {
        for _ in 0..times {
            commands.push(Command::Call(call, 64));
            held.run(&Command::Call(call, 64), &mut answer);
            for (record, members) in rows_of(&answer).zip(members) {
                let row = Row::new(members.len() as u32, members);
                count.check(record.row == row, || format!("by the model {}", shown_held(&record)))?;
            }
        }
    }
    compare(count, &commands)
}

/// Every call on a table about this record; but for set-up each is answered by this number, and a restart of a sound
/// node that is not out by 11.
fn see(
    count: &mut Count,
    random: &mut Random,
    script: &mut Script,
    (name, record): (&str, Record),
    expected: u8,
) -> Result<(), String> {
    let (n, own) = (record.node.chosen.n, record.node.own);
    for call in [
        OK,
        LOST,
        Call::Look { lost: false },
        Call::Off(own),
        Call::Off(own % n + 1),
        Call::Restart(own),
        Call::SetUp(record.node.chosen.into()),
    ] {
        script.load(random, &table_about(&record));
        let number = script.call(random, call);
        let others: &[u8] = match (call, expected) {
            (Call::Restart(_), 0) => &[0, 11],
            (Call::SetUp(_), _) => &[0],
            _ => &[expected],
        };
        count.check(others.contains(&number), || format!("{name}: {number} by the model"))?;
    }
    Ok(())
}

/// One row of a table is damaged.
pub fn damaged(count: &mut Count) -> Result<(), String> {
    let mut random = Random::new(136);
    let mut script = Script::new();
    for named in typed_rows::sound() {
        see(count, &mut random, &mut script, named, 0)?;
    }
    for named in typed_rows::damaged() {
        see(count, &mut random, &mut script, named, 4)?;
    }
    compare(count, &script.commands)
}
