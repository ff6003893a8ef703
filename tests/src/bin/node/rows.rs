//! Rows of any kind: damaged ones, every row of a small cable, and both conversions, there and back.

use super::compare::compare;
use super::heard;
use super::protocol::{Command, Script};
use super::records::push_broken;
use comparison::model::choices::Choices;
use comparison::model::held::Record;
use comparison::model::node::{Cause, Node, State};
use comparison::model::ring::Set;
use comparison::model::row::Row;
use comparison::model::slot_table::Order;
use comparison::random::Random;
use comparison::record_bytes::shown_held;
use comparison::records::{disturb, sound, STATES};
use comparison::report::Count;
use comparison::rows::{names, DAMAGES};
use comparison::slot_tables;

/// Every call on records whose row is damaged, in every way and state.
pub fn damaged(count: &mut Count) -> Result<(), String> {
    let mut random = Random::new(61);
    let mut script = Script::default();
    for damage in DAMAGES {
        for &state in damage.states {
            for _ in 0..200 {
                let node = sound(&mut random, state);
                let Some(record) = damage.of(&mut random, node) else { continue };
                count.event(damage.name);
                push_broken(count, &mut random, &mut script, (&record, damage.breaks))?;
            }
        }
    }
    count.needs(&names())?;
    compare(count, &script)
}

/// The slot tables of three nodes.
const TABLES: [[u8; 3]; 6] = [[1, 2, 3], [1, 3, 2], [2, 1, 3], [2, 3, 1], [3, 1, 2], [3, 2, 1]];

/// A record with this row that is sound but for it: of the lowest node in it, which alone is marked; out where there is
/// none.
fn with_row(slots: &[u8], row: Row) -> Record {
    let chosen = Choices { order: Order::kept(slots), ..Choices::plain(slots.len() as u32, 2) };
    let own = row.set().nodes().find(|&x| x <= chosen.n);
    let first = Node::set_up(chosen, own.unwrap_or(1)).expect("in range");
    let marks = own.map_or(Set::EMPTY, |x| Set::EMPTY.with(x));
    let state = if own.is_some() { State::Member } else { State::Out(Cause::NothingHeard) };
    Record::new(Node { state, marks, ..first }, row)
}

/// The row of the nodes at these places of the table: a bit for each place.
fn at_places(slots: &[u8], places: u64) -> Row {
    let used = (0..slots.len()).filter(|&place| places >> place & 1 == 1);
    let members: Vec<u8> = used.map(|place| slots[place]).collect();
    Row::new(members.len() as u32, &members)
}

/// Every row of three nodes with a length of 0 to 5 and a number of 0 to 4 in each of the first four places.
pub fn every_row(count: &mut Count) -> Result<(), String> {
    let mut script = Script::default();
    let mut taken = 0;
    for slots in TABLES {
        let sound: Vec<Row> = (0..8).map(|places| at_places(&slots, places)).collect();
        for i in 0..6 * 625 {
            let (length, places) = (i / 625, i % 625);
            let numbers = [1, 5, 25, 125].map(|power| (places / power % 5) as u8);
            let record = with_row(&slots, Row::new(length, &numbers));
            let expected = sound.contains(&record.row);
            taken += usize::from(expected);
            count.check(record.is_sound() == expected, || {
                format!("sound by the model: {}, {}", !expected, shown_held(&record))
            })?;
            script.load(record);
            script.push(&Command::AsSet);
            script.push(&[Command::Slot(&[]), Command::Off][places as usize % 2]);
        }
    }
    count.check(taken == 48, || format!("{taken} rows are sound by the model, not 8 of each table"))?;
    compare(count, &script)
}

/// Both conversions of a sound record, from either side: nothing is lost.
fn there_and_back(count: &mut Count, script: &mut Script, node: Node, row: Row) -> Result<(), String> {
    let record = Record::new(node, row);
    count.check(record.as_set() == Ok(node) && Record::from(node) == record, || {
        format!("not there and back by the model: {}", shown_held(&record))
    })?;
    script.load(record);
    script.push(&Command::AsSet);
    script.push(&Command::Hold(node));
    script.push(&Command::AsSet);
    Ok(())
}

/// Sound records of every n and any slot table, in every state; then a slot on what is held.
pub fn conversions(count: &mut Count) -> Result<(), String> {
    let mut random = Random::new(62);
    let mut script = Script::default();
    for state in STATES {
        for _ in 0..2_500 {
            let node = sound(&mut random, state);
            slot_tables::note(count, node.chosen.n, node.chosen.order);
            there_and_back(count, &mut script, node, Record::from(node).row)?;
            script.push(&Command::Slot(&heard::anything(&mut random, (node.chosen.k, node.chosen.m))));
        }
    }
    for n in (3..=32).flat_map(|n| [n; 100]) {
        let slots = slot_tables::table(&mut random, n);
        let row = at_places(&slots, random.number());
        let set = row.nodes.iter().fold(Set::EMPTY, |set, &x| set.with(u32::from(x)));
        there_and_back(count, &mut script, Node { set, ..with_row(&slots, row).node }, row)?;
    }
    count.needs(&slot_tables::KINDS)?;
    compare(count, &script)
}

/// Records that need not be sound: what is held has the nodes of the table that are in the set, and any set may be given.
/// A record that is not sound stands for none.
pub fn wild_conversions(count: &mut Count) -> Result<(), String> {
    let mut random = Random::new(63);
    let mut script = Script::default();
    for _ in 0..20_000 {
        let state = STATES[random.below(8) as usize];
        let mut record = Record::from(sound(&mut random, state));
        for _ in 0..random.below(3) {
            disturb(&mut random, &mut record);
        }
        script.load(record);
        script.push(&Command::AsSet);
        let set = if random.bit() { record.node.set } else { Set(random.number() as u32) };
        script.push(&Command::Hold(Node { set, ..record.node }));
        script.push(&Command::AsSet);
        script.push(&Command::Off);
    }
    compare(count, &script)
}
