//! Tables that are loaded as they stand: ones of any sound records, and ones that are no table.

use super::compare::{compare, LOWER, OFFS, OWN_MARKS};
use super::figures;
use super::protocol::{Call, Command};
use super::script::{Script, ENOUGH};
use comparison::events::{KINDS, SEVERAL};
use comparison::model::bench::check_table;
use comparison::model::choices::Choices;
use comparison::model::held::{self, Record};
use comparison::model::node::{Node, State};
use comparison::model::refusal;
use comparison::model::ring::{Set, LIMIT};
use comparison::model::slot_table::Order;
use comparison::numbers::{no_job_counts, no_lags};
use comparison::random::Random;
use comparison::record_bytes::shown_held;
use comparison::records::{choices_of, clauses, size, sound_of, BREAKS, STATES};
use comparison::report::Count;
use comparison::rows::{self, DAMAGES};
use comparison::slot_tables;

/// Choices and a slot count below the limit.
pub fn ring(random: &mut Random) -> (Choices, u64) {
    let n = size(random);
    ring_of(random, n)
}

/// The same for n nodes.
pub fn ring_of(random: &mut Random, n: u32) -> (Choices, u64) {
    let chosen = choices_of(random, n);
    let slots = if random.bit() { random.below(3 * u64::from(n)) } else { random.below(LIMIT - 5) };
    (chosen, slots)
}

/// A table of sound records in any states; half of the tables have many members.
pub fn sound_table(random: &mut Random, (chosen, slots): (Choices, u64)) -> Vec<Node> {
    let members = random.bit();
    let state = |random: &mut Random| match random.below(2) {
        0 if members => State::Member,
        _ => STATES[random.below(8) as usize],
    };
    (1..=chosen.n)
        .map(|own| {
            let state = state(random);
            sound_of(random, state, (chosen, own), slots)
        })
        .collect()
}

/// The same as it is held.
pub fn sound_records(random: &mut Random, ring: (Choices, u64)) -> Vec<Record> {
    sound_table(random, ring).into_iter().map(Record::from).collect()
}

/// Any sound table, every call.
pub fn sound(count: &mut Count) -> Result<(), String> {
    let mut random = Random::new(91);
    let mut script = Script::new();
    for _ in 0..4_000 {
        let ring = ring(&mut random);
        let table = sound_table(&mut random, ring);
        count.check(check_table(&table).is_ok(), || "the table is not as it must be".to_string())?;
        script.load(&mut random, &table);
        script.every_call(&mut random, ring.0);
    }
    compare(count, &script.commands)?;
    count.needs(&KINDS)?;
    count.needs(&LOWER)?;
    count.needs(&OFFS)?;
    count.needs(&OWN_MARKS)?;
    count.needs(&SEVERAL)?;
    count.needs(&["told: no list", "told: a list", "told: sets that differ"])
}

/// Loads what is no table, with a ledger of as many entries or any small one, and makes every call; then
/// set-up, which takes it.
fn no_table(
    count: &mut Count,
    random: &mut Random,
    script: &mut Script,
    rows: &[Record],
) -> Result<(), String> {
    let checked = held::rules(rows).and_then(|nodes| check_table(&nodes));
    count.check(checked == Err(refusal::UNSOUND), || {
        format!("this is a table: {}", rows.iter().map(shown_held).collect::<Vec<_>>().join("\n        "))
    })?;
    script.load(random, rows);
    if random.bit() {
        let ledger = figures::small(random, rows.len());
        script.lend(random, &ledger);
    }
    script.every_call(random, Choices::plain((rows.len() as u32).clamp(3, 32), 2));
    Ok(())
}

/// A table with one record in this state that is broken; none if the record does not allow it.
fn broken_table(
    random: &mut Random,
    state: State,
    broken: impl FnOnce(&mut Random, Node) -> Option<Record>,
) -> Option<Vec<Record>> {
    let (chosen, slots) = ring(random);
    let mut table = sound_records(random, (chosen, slots));
    let own = random.within(1, u64::from(chosen.n)) as u32;
    let node = sound_of(random, state, (chosen, own), slots);
    table[own as usize - 1] = broken(random, node)?;
    Some(table)
}

/// One record is not sound, in each clause and each state.
pub fn unsound_record(count: &mut Count) -> Result<(), String> {
    let mut random = Random::new(92);
    let mut script = Script::new();
    for case in BREAKS {
        for &state in case.states {
            for _ in 0..6 {
                let broken = broken_table(&mut random, state, |random, node| case.of(random, node));
                let Some(table) = broken else { continue };
                case.breaks.iter().for_each(|says| count.event(says));
                no_table(count, &mut random, &mut script, &table)?;
            }
        }
    }
    count.needs(&clauses())?;
    compare(count, &script.commands)
}

/// One record's row is damaged, in each way and each state.
pub fn damaged_row(count: &mut Count) -> Result<(), String> {
    let mut random = Random::new(135);
    let mut script = Script::new();
    for damage in DAMAGES {
        for &state in damage.states {
            // Some ways ask for 32 nodes.
            for _ in 0..60 / damage.states.len() {
                let damaged = broken_table(&mut random, state, |random, node| damage.of(random, node));
                let Some(table) = damaged else { continue };
                count.event(damage.name);
                damage.breaks.iter().for_each(|says| count.event(says));
                no_table(count, &mut random, &mut script, &table)?;
            }
        }
    }
    count.needs(&rows::names())?;
    compare(count, &script.commands)
}

const WAYS: &[&str] = &[
    "no table: other n",
    "no table: other k",
    "no table: other slot count",
    "no table: two records swapped",
    "no table: one record twice",
    "no table: last record missing",
    "no table: first record missing",
    "no table: one record more",
    "no table: all records of another n",
    "no table: no record",
    "no table: other m",
    "no table: all records of an m out of range",
    "no table: other lag",
    "no table: all records of a lag out of range",
    "no table: all records of a k that the lag does not allow",
    "no table: other slot table",
    "no table: all records of a slot table with a wrong place",
    "no table: all records of a slot table with a spare place used",
];

/// Gives a record this k; the shortest run is k while nothing is heard.
fn with_k(row: &mut Node, k: u32) {
    row.chosen.k = k;
    if row.state == State::Listening && row.listening.heard == Set::EMPTY {
        row.listening.shortest = k;
    }
}

/// The same choices for another n, with any slot table of it.
fn with_n(random: &mut Random, chosen: Choices, n: u32) -> Choices {
    Choices { n, order: slot_tables::order(random, n), ..chosen }
}

/// Another table for as many nodes.
fn another_order(random: &mut Random, chosen: Choices) -> Order {
    loop {
        let order = slot_tables::order(random, chosen.n);
        if order != chosen.order {
            return order;
        }
    }
}

/// Rows that are no table in one way; none if this ring does not allow it. But for the ways of all records each row is
/// sound by itself.
fn rows_in_way(random: &mut Random, way: usize) -> Option<Vec<Record>> {
    let (chosen, slots) = ring(random);
    let Choices { n, k, lag, .. } = chosen;
    let mut rows = sound_records(random, (chosen, slots));
    let (i, j) = (random.below(u64::from(n)) as usize, random.below(u64::from(n)) as usize);
    let own = i as u32 + 1;
    let state = rows[i].node.state;
    match way {
        0 if own < n && k < n - 1 - lag => {
            let chosen = with_n(random, chosen, n - 1);
            rows[i] = sound_of(random, state, (chosen, own), slots).into();
        }
        0 if n < 32 => {
            let chosen = with_n(random, chosen, n + 1);
            rows[i] = sound_of(random, state, (chosen, own), slots).into();
        }
        1 if n > 3 + lag => {
            let k = if k > 2 { k - 1 } else { 3 };
            rows[i] = sound_of(random, state, (Choices { k, ..chosen }, own), slots).into();
        }
        2 => rows[i] = sound_of(random, state, (chosen, own), slots + 1).into(),
        3 if i != j => rows.swap(i, j),
        4 if i != j => rows[i] = rows[j],
        5 => drop(rows.pop()),
        6 => drop(rows.remove(0)),
        7 if n < 32 => rows.push(rows[n as usize - 1]),
        8 if n < 32 => {
            let chosen = with_n(random, chosen, n + 1);
            rows = sound_records(random, (chosen, slots)).split_off(1);
        }
        9 => rows.clear(),
        10.. => choices_in_way(random, way, &mut rows, i)?,
        _ => return None,
    }
    Some(rows)
}

/// The ways that concern m, the lag or the slot table, of row i or of all rows.
fn choices_in_way(random: &mut Random, way: usize, rows: &mut [Record], i: usize) -> Option<()> {
    let chosen = rows[i].node.chosen;
    let Choices { n, k, m, lag, mut order } = chosen;
    match way {
        10 => rows[i].node.chosen.m = (m + random.within(1, 8) as u32) % 9,
        11 => {
            let m = no_job_counts().nth(random.below(11) as usize).unwrap_or(9);
            rows.iter_mut().for_each(|record| record.node.chosen.m = m);
        }
        // The row keeps its k.
        12 if k < n - 1 => rows[i].node.chosen.lag = 1 - lag,
        13 => {
            let lag = no_lags().nth(random.below(12) as usize).unwrap_or(2);
            rows.iter_mut().for_each(|record| record.node.chosen.lag = lag);
        }
        14 => rows.iter_mut().for_each(|record| with_k(&mut record.node, n - lag)),
        15 => {
            rows[i].node.chosen.order = another_order(random, chosen);
            rows[i].hold(rows[i].node.set);
        }
        16 => {
            let way = random.below(4) as usize;
            slot_tables::make_wrong(random, &mut order.0[..n as usize], way);
            rows.iter_mut().for_each(|record| record.node.chosen.order = order);
        }
        17 if n < 32 => {
            let (place, number) = (random.within(u64::from(n), 31) as usize, random.within(1, 255) as u8);
            rows.iter_mut().for_each(|record| record.node.chosen.order.0[place] = number);
        }
        _ => return None,
    }
    Some(())
}

/// Every record is sound, or all keep the same choices out of range, and together they are no table.
pub fn no_tables(count: &mut Count) -> Result<(), String> {
    let mut random = Random::new(93);
    let mut script = Script::new();
    for (way, name) in WAYS.iter().enumerate() {
        for _ in 0..250 {
            if let Some(rows) = rows_in_way(&mut random, way) {
                count.event(name);
                no_table(count, &mut random, &mut script, &rows)?;
            }
        }
    }
    count.needs(WAYS)?;
    compare(count, &script.commands)
}

/// Tables at the limit and up to two slots below it: slots up to it, then 5; no other call asks for it. An off
/// can take a count past those that fit: then 13.
pub fn limit(count: &mut Count) -> Result<(), String> {
    let mut random = Random::new(94);
    let mut script = Script::new();
    for i in 0..1_500 {
        let (chosen, _) = ring(&mut random);
        let table = sound_table(&mut random, (chosen, LIMIT - i % 3));
        script.load(&mut random, &table);
        let x = random.within(1, u64::from(chosen.n)) as u32;
        let jobs = script.jobs(&mut random);
        for call in [
            Call::Look { lost: random.bit() },
            Call::Slot { lost: random.bit(), missed: 0, jobs },
            Call::Look { lost: random.bit() },
            Call::Slot { lost: false, missed: 1 << (x - 1), jobs },
            Call::Off(x),
            Call::Slot { lost: false, missed: 0, jobs: 0 },
            Call::Restart(x),
            Call::Restart(x),
        ] {
            script.call(&mut random, call);
        }
    }
    compare(count, &script.commands)
}

/// Every length of the buffer, for every call.
pub fn rooms(count: &mut Count) -> Result<(), String> {
    let mut random = Random::new(95);
    let mut script = Script::new();
    for room in (0..=255).flat_map(|room| [room; 4]) {
        let (chosen, slots) = ring(&mut random);
        let table = sound_table(&mut random, (chosen, slots));
        script.load(&mut random, &table);
        let jobs = script.jobs(&mut random);
        for call in [
            Call::Slot { lost: false, missed: 0, jobs },
            Call::Look { lost: false },
            Call::Off(chosen.n),
            Call::Restart(chosen.n),
            Call::SetUp(chosen.into()),
        ] {
            script.push(Command::Call(call, room));
        }
    }
    compare(count, &script.commands)
}

/// A table of members none of whom has marked another: all leave in the next slot if it is lost.
pub fn all_leave(n: u32) -> Vec<Node> {
    let first = Node::set_up(Choices::plain(n, 2), 1).expect("in range");
    (1..=n).map(|own| Node { own, marks: Set::EMPTY.with(own), ..first }).collect()
}

/// As many pairs as there can be: those of 32 nodes fill a buffer of 64 bytes.
pub fn most_pairs(count: &mut Count) -> Result<(), String> {
    let mut random = Random::new(98);
    let mut script = Script::new();
    for n in 3..=32 {
        for room in ENOUGH {
            script.load(&mut random, &all_leave(n));
            script.push(Command::Call(Call::Slot { lost: true, missed: 0, jobs: 0 }, room));
            let all_out = script.table().iter().all(|node| matches!(node.state, State::Out(_)));
            count.check(all_out, || format!("not all of {n} nodes leave by the model"))?;
        }
    }
    compare(count, &script.commands)
}
