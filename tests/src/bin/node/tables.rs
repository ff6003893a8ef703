//! Set-up with slot tables: ones that it takes, and damaged ones among the other causes of a refusal.

use super::compare::compare;
use super::protocol::{Command, Script};
use comparison::asked;
use comparison::model::choices::{Asked, Choices};
use comparison::model::node::Node;
use comparison::model::slot_table::{Order, Slots};
use comparison::random::Random;
use comparison::records::choices_of;
use comparison::report::Count;
use comparison::slot_tables::{make_wrong, note, of_length, table, KINDS, WRONG};

/// n, k, m, the lag, the own number, the table; 0 or the number of the refusal.
type Typed = (u32, u32, u32, u32, u32, &'static [u8], u32);

#[rustfmt::skip]
const TYPED: &[Typed] = &[
    (4, 2, 0, 0, 1, &[1, 2, 3, 4], 0),
    (4, 2, 0, 0, 4, &[4, 3, 2, 1], 0),
    (4, 2, 8, 1, 3, &[3, 1, 4, 2], 0),
    (3, 2, 0, 0, 1, &[2, 3, 1], 0),
    // "Table of the wrong length: 17"
    (4, 2, 0, 0, 1, &[], 17),
    (4, 2, 0, 0, 1, &[1, 2, 3], 17),
    (4, 2, 0, 0, 1, &[1, 2, 3, 4, 5], 17),
    (4, 2, 0, 0, 1, &[1, 2, 3, 4, 0], 17),
    (4, 2, 0, 0, 1, &[1, 2, 3, 4, 4], 17),
    (4, 2, 0, 0, 1, &[1, 2, 3, 4, 0, 0, 0, 0, 0, 0, 0, 0, 0, 0, 0, 0, 0, 0, 0, 0, 0, 0, 0, 0, 0, 0, 0, 0, 0, 0, 0, 0], 17),
    // "A node missing or doubled: 18"
    (4, 2, 0, 0, 1, &[1, 2, 3, 3], 18),
    (4, 2, 0, 0, 1, &[1, 1, 1, 1], 18),
    (4, 2, 0, 0, 1, &[1, 2, 3, 0], 18),
    (4, 2, 0, 0, 1, &[0, 1, 2, 3], 18),
    (4, 2, 0, 0, 1, &[1, 2, 3, 5], 18),
    (4, 2, 0, 0, 1, &[1, 2, 3, 36], 18),
    (4, 2, 0, 0, 1, &[1, 2, 3, 132], 18),
    (4, 2, 0, 0, 1, &[5, 4, 3, 2], 18),
    (3, 2, 0, 0, 1, &[0, 0, 0], 18),
    // "17, after 14": before 17 and 18 come 1, 16, 2, 14.
    (4, 2, 9, 0, 1, &[1, 2, 3], 14),
    (4, 2, 9, 0, 1, &[1, 2, 3, 3], 14),
    (4, 3, 0, 1, 1, &[1, 2, 3], 2),
    (4, 1, 0, 0, 1, &[1, 2, 3, 3], 2),
    (4, 2, 0, 2, 1, &[1, 2, 3], 16),
    (4, 2, 0, 2, 1, &[1, 2, 3, 3], 16),
    (2, 2, 0, 0, 1, &[1, 2, 3], 1),
    (33, 2, 0, 0, 1, &[1, 2, 3, 3], 1),
    (0, 2, 0, 0, 1, &[], 1),
    // "18, next": 17 before 18.
    (4, 2, 0, 0, 1, &[1, 2, 2], 17),
    (4, 2, 0, 0, 1, &[1, 1, 1, 1, 1], 17),
    // Both before 3.
    (4, 2, 0, 0, 5, &[1, 2, 3], 17),
    (4, 2, 0, 0, 0, &[1, 2, 3, 4, 5], 17),
    (4, 2, 0, 0, 5, &[1, 2, 3, 3], 18),
    (4, 2, 0, 0, 0, &[1, 2, 3, 5], 18),
    (4, 2, 0, 0, 5, &[4, 3, 2, 1], 3),
    (4, 2, 0, 0, 0, &[4, 3, 2, 1], 3),
    (4, 2, 0, 0, 5, &[1, 2, 3, 5], 18),
];

fn answered(
    count: &mut Count,
    script: &mut Script,
    (asked, own): (Asked, u32),
    expected: u32,
) -> Result<(), String> {
    let got = Node::set_up(asked, own).err().unwrap_or(0);
    count.check(got == expected, || {
        let (Asked { n, k, m, lag, .. }, slots) = (asked, asked.slots.bytes());
        format!("{n} {k} {m} {lag} {slots:?}, own {own}: {got} by the model, not {expected}")
    })?;
    script.push(&Command::SetUp(asked, own));
    Ok(())
}

pub fn typed(count: &mut Count) -> Result<(), String> {
    let mut script = Script::default();
    for &(n, k, m, lag, own, slots, expected) in TYPED {
        let asked = Asked { n, k, m, lag, slots: Slots::new(slots) };
        answered(count, &mut script, (asked, own), expected)?;
    }
    compare(count, &script)
}

/// Notes the causes that apply and sees that the model answers the first of them.
fn push(count: &mut Count, script: &mut Script, asked: Asked, own: u32) -> Result<(), String> {
    let outside = own < 1 || own > asked.n;
    let first = asked::first(count, asked, outside.then_some(3));
    answered(count, script, (asked, own), first)
}

/// Every n with tables of every length from 0 to 40, each three times, and with one wrong place in every way; own
/// numbers in range and out of it.
pub fn every_length(count: &mut Count) -> Result<(), String> {
    let mut random = Random::new(51);
    let mut script = Script::default();
    for n in 3..=32 {
        for places in (0..=40).flat_map(|places| [places; 3]) {
            let slots = Slots::new(&of_length(&mut random, n, places));
            let own = random.below(u64::from(n) + 2) as u32;
            push(count, &mut script, Asked { slots, ..choices_of(&mut random, n).into() }, own)?;
        }
        for way in 0..4 * WRONG.len() {
            let way = way % WRONG.len();
            let mut slots = table(&mut random, n);
            make_wrong(&mut random, &mut slots, way);
            count.event(WRONG[way]);
            let own = random.below(u64::from(n) + 2) as u32;
            let slots = Slots::new(&slots);
            push(count, &mut script, Asked { slots, ..choices_of(&mut random, n).into() }, own)?;
        }
    }
    count.needs(&WRONG)?;
    asked::alone_met(count)?;
    compare(count, &script)
}

/// Every byte at every place of a table.
pub fn every_byte(count: &mut Count) -> Result<(), String> {
    let mut random = Random::new(52);
    let mut script = Script::default();
    for n in [3, 4, 8, 31, 32] {
        let chosen = choices_of(&mut random, n);
        let whole = table(&mut random, n);
        for place in 0..n as usize {
            for byte in 0..=255 {
                let mut slots = whole.clone();
                slots[place] = byte;
                let slots = Slots::new(&slots);
                push(count, &mut script, Asked { slots, ..chosen.into() }, 1)?;
            }
        }
    }
    compare(count, &script)
}

/// Several causes at once.
pub fn order(count: &mut Count) -> Result<(), String> {
    let mut random = Random::new(53);
    let mut script = Script::default();
    for _ in 0..60_000 {
        let (asked, n) = asked::any(&mut random);
        let own = [1, n, 0, n + 1, n + 2][random.below(5) as usize];
        push(count, &mut script, asked, own)?;
    }
    asked::all_met(count)?;
    compare(count, &script)
}

/// Tables that set-up takes, of every n; the record keeps what was given.
pub fn taken(count: &mut Count) -> Result<(), String> {
    let mut random = Random::new(54);
    let mut script = Script::default();
    for n in (3..=32).flat_map(|n| [n; 100]) {
        let chosen = choices_of(&mut random, n);
        note(count, n, chosen.order);
        let own = random.within(1, u64::from(n)) as u32;
        let slots = table(&mut random, n);
        let kept = Node::set_up(Asked { slots: Slots::new(&slots), ..chosen.into() }, own);
        let mut places = [0; 32];
        places[..n as usize].copy_from_slice(&slots);
        let same = kept.is_ok_and(|node| node.chosen == Choices { order: Order(places), ..chosen });
        count.check(same, || format!("the model keeps another table than {slots:?}"))?;
        push(count, &mut script, Asked { slots: Slots::new(&slots), ..chosen.into() }, own)?;
        script.push(&Command::Slot(&[]));
        push(count, &mut script, chosen.into(), own)?;
        script.push(&Command::Send { room: 12, jobs: 0 });
    }
    count.needs(&KINDS)?;
    compare(count, &script)
}
