//! Set-up of the bench with slot tables, right and damaged, typed from request k and generated; and runs with a literal
//! slot table.

use super::compare::compare;
use super::protocol::{buffer_of, Call, Command, Held, FILL};
use super::script::{any_record, Script, ENOUGH};
use comparison::asked;
use comparison::model::choices::{Asked, Choices};
use comparison::model::ledger::Figures;
use comparison::model::slot_table::{Order, Slots};
use comparison::random::Random;
use comparison::records::choices_of;
use comparison::report::Count;
use comparison::slot_tables::{make_wrong, of_length, table, WRONG};

/// n, k, m, the lag, the rows, the arrays of counts, the slot table; 0 or the number of the refusal.
type Typed = (u32, u32, u32, u32, u8, u8, &'static [u8], u32);

#[rustfmt::skip]
const TYPED: &[Typed] = &[
    (4, 2, 0, 0, 4, 4, &[1, 2, 3, 4], 0),
    (4, 2, 3, 1, 4, 4, &[3, 1, 4, 2], 0),
    (3, 2, 0, 0, 3, 3, &[3, 2, 1], 0),
    (4, 2, 0, 0, 4, 4, &[1, 2, 3], 17),
    (4, 2, 0, 0, 4, 4, &[1, 2, 3, 4, 0], 17),
    (4, 2, 0, 0, 4, 4, &[], 17),
    (4, 2, 0, 0, 4, 4, &[1, 2, 3, 3], 18),
    (4, 2, 0, 0, 4, 4, &[1, 2, 3, 0], 18),
    (4, 2, 0, 0, 4, 4, &[5, 4, 3, 2], 18),
    // Two causes at once.
    (4, 2, 9, 0, 4, 4, &[1, 2, 3], 14),
    (4, 2, 9, 0, 4, 4, &[1, 2, 3, 3], 14),
    (4, 2, 0, 0, 4, 4, &[1, 2, 2], 17),
    (4, 2, 0, 0, 4, 4, &[1, 1, 1, 1, 1], 17),
    (4, 2, 0, 0, 3, 4, &[1, 2, 3], 17),
    (4, 2, 0, 0, 4, 5, &[1, 2, 3], 17),
    (4, 2, 0, 0, 5, 4, &[1, 2, 3, 3], 18),
    (4, 2, 0, 0, 4, 3, &[1, 2, 3, 3], 18),
    (4, 2, 0, 0, 3, 4, &[4, 3, 2, 1], 4),
    (4, 2, 0, 0, 4, 3, &[4, 3, 2, 1], 4),
    (4, 2, 0, 0, 5, 4, &[4, 3, 2, 1], 4),
];

fn answered(
    count: &mut Count,
    random: &mut Random,
    script: &mut Script,
    asked: Asked,
    expected: u32,
) -> Result<(), String> {
    let got = script.call(random, Call::SetUp(asked));
    count.check(u32::from(got) == expected, || {
        let (Asked { n, k, m, lag, .. }, slots) = (asked, asked.slots.bytes());
        format!("{n} {k} {m} {lag} {slots:?}: {got} by the model, not {expected}")
    })
}

/// After each set-up the calls that do not look at the lent slot table.
pub fn typed(count: &mut Count) -> Result<(), String> {
    let mut random = Random::new(131);
    let mut script = Script::new();
    for &(n, k, m, lag, rows, arrays, slots, expected) in TYPED {
        script.push(Command::Size(rows));
        script.push(Command::Arrays(arrays));
        script.push(Command::Lend(rows));
        let slots = Slots::new(slots);
        answered(count, &mut random, &mut script, Asked { n, k, m, lag, slots }, expected)?;
        for call in [Call::Slot { lost: false, missed: 0, jobs: 0 }, Call::Look { lost: false }] {
            script.call(&mut random, call);
        }
    }
    compare(count, &script.commands)
}

/// Lends rows of any kind, and so many of them and of the arrays.
fn lend(random: &mut Random, script: &mut Script, rows: u8, arrays: u8) {
    let (row, node) = (random.below(32) as u8, any_record(random));
    script.push(Command::Load(row, node));
    script.push(Command::Size(rows));
    script.push(Command::Arrays(arrays));
}

/// Several causes at once: the number of rows or arrays is right in three of four.
pub fn order(count: &mut Count) -> Result<(), String> {
    let mut random = Random::new(132);
    let mut script = Script::new();
    for _ in 0..8_000 {
        let (asked, n) = asked::any(&mut random);
        let (rows, arrays) = match random.below(8) {
            0 => (n - 1, n),
            1 => (n, n + 1),
            _ => (n, n),
        };
        lend(&mut random, &mut script, rows as u8, arrays as u8);
        let last = script.lent() != (asked.n as usize, asked.n as usize);
        let first = asked::first(count, asked, last.then_some(4));
        answered(count, &mut random, &mut script, asked, first)?;
    }
    asked::all_met(count)?;
    compare(count, &script.commands)
}

/// Every n with tables of every length from 0 to 40, and with a wrong place in every way.
pub fn every_length(count: &mut Count) -> Result<(), String> {
    let mut random = Random::new(133);
    let mut script = Script::new();
    for n in 3..=32 {
        lend(&mut random, &mut script, n as u8, n as u8);
        for i in 0..=40 + WRONG.len() {
            let slots = match i.checked_sub(41) {
                None => of_length(&mut random, n, i),
                Some(way) => {
                    let mut slots = table(&mut random, n);
                    make_wrong(&mut random, &mut slots, way);
                    count.event(WRONG[way]);
                    slots
                }
            };
            let asked = Asked { slots: Slots::new(&slots), ..choices_of(&mut random, n).into() };
            let first = asked::first(count, asked, None);
            answered(count, &mut random, &mut script, asked, first)?;
        }
    }
    count.needs(&WRONG)?;
    asked::alone_met(count)?;
    compare(count, &script.commands)
}

const OK: Call = Call::Slot { lost: false, missed: 0, jobs: 0 };
const LOST: Call = Call::Slot { lost: true, missed: 0, jobs: 0 };

/// A call; of a slot its sender, the list after it, and the pairs.
type Step = (Call, u32, u32, &'static [(u8, u8)]);

/// n, k and the slot table, and the calls.
type Run = (u32, u32, &'static [u8], &'static [Step]);

#[rustfmt::skip]
const RUNS: &[Run] = &[
    // The listing of document 01 with the table 3, 1, 4, 2: slot 2 is that of node 1, which leaves in slot 4. Restarted,
    // it follows after two windows, knocks in slot 14 and joins in the slot of node 3, which stands before it.
    (4, 2, &[3, 1, 4, 2], &[
        (OK, 3, 0b1111, &[]), (LOST, 1, 0b1111, &[]), (OK, 4, 0b1111, &[]), (OK, 2, 0b1110, &[(1, 1)]),
        (Call::Restart(1), 0, 0, &[]),
        (OK, 3, 0b1110, &[]), (OK, 1, 0b1110, &[]), (OK, 4, 0b1110, &[]), (OK, 2, 0b1110, &[]),
        (OK, 3, 0b1110, &[]), (OK, 1, 0b1110, &[]), (OK, 4, 0b1110, &[]), (OK, 2, 0b1110, &[(1, 2)]),
        (OK, 3, 0b1110, &[]), (OK, 1, 0b1110, &[(1, 3)]), (OK, 4, 0b1110, &[]), (OK, 2, 0b1110, &[]),
        (OK, 3, 0b1111, &[(1, 4)]),
    ]),
    // Five nodes, k = 4: nodes 5, 2 and 4 are lost, and node 3 decides all of them. "Changes within a slot keep the order
    // of c)": by rising number.
    (5, 4, &[5, 2, 4, 1, 3], &[
        (LOST, 5, 0b1_1111, &[]), (LOST, 2, 0b1_1111, &[]), (LOST, 4, 0b1_1111, &[]), (OK, 1, 0b1_1111, &[]),
        (OK, 3, 0b0_0101, &[(2, 1), (4, 1), (5, 1)]),
    ]),
    // Backwards, k = 2: the message of node 3 is missed by node 2 alone, which says no; node 1 says yes, and it stays.
    (4, 2, &[4, 3, 2, 1], &[
        (OK, 4, 0b1111, &[]), (Call::Slot { lost: false, missed: 0b0010, jobs: 0 }, 3, 0b1111, &[]),
        (OK, 2, 0b1111, &[]), (OK, 1, 0b1111, &[]), (OK, 4, 0b1111, &[]),
    ]),
    // Both sponsors of node 3 miss it: 2 and 1 strike it off in the slot of 1, and node 4 does not.
    (4, 2, &[4, 3, 2, 1], &[
        (OK, 4, 0b1111, &[]), (Call::Slot { lost: false, missed: 0b0011, jobs: 0 }, 3, 0b1111, &[]),
        (OK, 2, 0b1111, &[]), (OK, 1, 0b1011, &[(3, 1)]),
    ]),
];

/// The model against what is typed; the commands are for the program.
fn follow(count: &mut Count, &(n, k, slots, steps): &Run) -> Result<Vec<Command>, String> {
    let chosen = Choices { order: Order::kept(slots), ..Choices::plain(n, k) };
    let size = n as u8;
    let set_up = Command::Call(Call::SetUp(chosen.into()), 0);
    let mut commands = vec![Command::Size(size), Command::Lend(size), Command::Arrays(size), set_up];
    let mut held = Held::first();
    let mut answer = Vec::new();
    for command in &commands {
        held.run(command, &mut answer);
    }
    for (i, &(call, sender, list, pairs)) in steps.iter().enumerate() {
        let command = Command::Call(call, 64);
        let told = held.run(&command, &mut answer).expect("a call is answered");
        let mut bytes: Vec<u8> = pairs.iter().flat_map(|&(node, kind)| [node, kind]).collect();
        bytes.resize(64, FILL);
        let same = (told.number, told.sender, told.list.unwrap_or(0)) == (0, sender, list)
            && told.pairs as usize == pairs.len()
            && buffer_of(&answer) == bytes;
        count.check(same, || format!("{slots:?}, call {}: by the model {told:?}", i + 1))?;
        commands.push(command);
    }
    Ok(commands)
}

pub fn runs(count: &mut Count) -> Result<(), String> {
    let runs = RUNS.iter().map(|run| follow(count, run)).collect::<Result<Vec<_>, _>>()?;
    runs.iter().try_for_each(|commands| compare(count, commands))
}

/// A set-up and every other call, with slot tables of any kind lent to the others.
pub fn lent_to_others(count: &mut Count) -> Result<(), String> {
    let mut random = Random::new(134);
    let mut script = Script::new();
    for n in (3..=32).flat_map(|n| [n; 12]) {
        let chosen = choices_of(&mut random, n);
        lend(&mut random, &mut script, n as u8, n as u8);
        script.lend(&mut random, &vec![Figures::default(); n as usize]);
        answered(count, &mut random, &mut script, chosen.into(), 0)?;
        // Refused, it leaves its table lent.
        let (asked, _) = asked::any(&mut random);
        if asked::causes(asked).contains(&true) {
            let first = asked::first(count, asked, None);
            answered(count, &mut random, &mut script, asked, first)?;
        }
        let jobs = script.jobs(&mut random);
        let x = random.within(1, u64::from(n)) as u32;
        for call in [
            Call::Slot { lost: false, missed: 0, jobs },
            Call::Off(x),
            Call::Restart(x),
            Call::Look { lost: true },
        ] {
            let told = script.push(Command::Call(call, ENOUGH[random.below(6) as usize]));
            let number = told.expect("a call is answered").number;
            count.check(number == 0, || format!("{number} by the model"))?;
        }
    }
    compare(count, &script.commands)
}
