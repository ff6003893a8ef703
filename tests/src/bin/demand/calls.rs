//! The refusals of the bench's calls and the pairs of a slot, typed from document 01 and requests a and h.

use comparison::model::bench::{self, Beside, Call, Document01, Fate, Kind, Message};
use comparison::model::choices::{Asked, Choices};
use comparison::model::counts::{self, Counts};
use comparison::model::ledger::Figures;
use comparison::model::node::{Node, State};
use comparison::model::ring::{Set, LIMIT};
use comparison::model::slot_table::{Order, Slots};
use comparison::report::Count;

fn table(n: u32, k: u32) -> Vec<Node> {
    bench::set_up(Choices::plain(n, k), n as usize).expect("n and k are in range")
}

/// Set-up: 1, 16, 2, 14, then 4 for a table that has not one record per node.
pub fn set_up(count: &mut Count) -> Result<(), String> {
    #[rustfmt::skip]
    let sizes = [
        (2, 9, 9, 0, 2, 1), (33, 0, 0, 0, 33, 1), (33, 2, 0, 2, 33, 1), (2, 0, 9, u32::MAX, 0, 1),
        (4, 2, 0, 2, 4, 16), (32, 2, 0, 2, 32, 16), (32, 2, 0, 256, 32, 16), (32, 2, 0, u32::MAX, 32, 16),
        (4, 1, 0, 2, 4, 16), (4, 4, 9, 2, 9, 16), (4, 2, 9, 2, 4, 16), (4, 2, 0, 2, 3, 16),
        (4, 1, 9, 0, 4, 2), (4, 4, 0, 0, 9, 2), (4, 3, 0, 1, 4, 2), (3, 2, 0, 1, 3, 2), (32, 31, 9, 1, 0, 2),
        (4, 2, 9, 0, 4, 14), (4, 2, 9, 1, 3, 14),
        (4, 2, 0, 0, 3, 4), (4, 2, 8, 1, 5, 4), (4, 2, 0, 0, 0, 4),
        (3, 2, 0, 0, 3, 0), (4, 3, 1, 0, 4, 0), (32, 31, 8, 0, 32, 0), (4, 2, 1, 1, 4, 0), (32, 30, 8, 1, 32, 0),
    ];
    for (n, k, m, lag, length, expected) in sizes {
        count.expected(expected);
        let chosen = Choices::of(n, k, m, lag);
        let got = bench::set_up(chosen, length).map(|nodes| nodes.len());
        let same = got == if expected == 0 { Ok(n as usize) } else { Err(expected) };
        count.check(same, || format!("set-up {chosen:?}, table of {length}: {got:?}, not {expected}"))?;
    }
    Ok(())
}

/// The rows, m and the slot table of a set-up of four nodes: 14, 17, 18, then 4.
#[rustfmt::skip]
const SLOT_TABLES: &[(usize, u32, &[u8], u32)] = &[
    (4, 0, &[1, 2, 3, 4], 0), (4, 8, &[3, 1, 4, 2], 0), (4, 0, &[4, 3, 2, 1], 0),
    (4, 0, &[], 17), (4, 0, &[3, 1, 4], 17), (4, 0, &[3, 1, 4, 2, 5], 17), (4, 0, &[3, 1, 4, 2, 0], 17),
    (4, 0, &[3, 1, 4, 4], 18), (4, 0, &[3, 1, 4, 0], 18), (4, 0, &[3, 1, 4, 5], 18), (4, 0, &[3, 1, 4, 34], 18),
    (4, 9, &[3, 1, 4], 14), (4, 9, &[3, 1, 4, 4], 14),
    (4, 0, &[3, 1, 1], 17), (3, 0, &[3, 1, 4], 17), (5, 0, &[3, 1, 4, 2, 2], 17),
    (3, 0, &[3, 1, 4, 4], 18), (5, 0, &[3, 1, 4, 5], 18),
    (3, 0, &[3, 1, 4, 2], 4), (5, 0, &[3, 1, 4, 2], 4),
];

/// "Table of the wrong length: 17, after 14. A node missing or doubled: 18, next"; "the record keeps it with spare places
/// 0".
pub fn slot_tables(count: &mut Count) -> Result<(), String> {
    for &(rows, m, slots, expected) in SLOT_TABLES {
        count.expected(expected);
        let asked = Asked { slots: Slots::new(slots), ..Choices::of(4, 2, m, 0).into() };
        let got = bench::set_up(asked, rows);
        let number = got.as_ref().err().copied().unwrap_or(0);
        let kept = got.into_iter().flatten().all(|node| {
            let (table, spare) = node.chosen.order.0.split_at(4);
            table == slots && spare == [0; 28]
        });
        count.check(number == expected && kept, || {
            format!("{rows} rows, m = {m}, {slots:?}: {number}, not {expected}")
        })?;
    }
    Ok(())
}

/// Tables that are not "one per node in number order, all with the same n, k and slot count", nor with one m, one lag and
/// one slot table, or hold a record that is not sound.
fn bad_tables() -> Vec<Vec<Node>> {
    let changed = |change: fn(&mut Vec<Node>)| {
        let mut nodes = table(4, 2);
        change(&mut nodes);
        nodes
    };
    vec![
        changed(|nodes| nodes.clear()),
        changed(|nodes| nodes.truncate(3)),
        changed(|nodes| nodes.push(nodes[3])),
        changed(|nodes| nodes.swap(0, 3)),
        changed(|nodes| nodes[2] = nodes[1]),
        changed(|nodes| nodes[3].slots = 1),
        changed(|nodes| nodes[1].chosen.k = 3),
        changed(|nodes| nodes[0] = table(5, 2)[0]),
        changed(|nodes| nodes[3].marks = Set(0x10)),
        changed(|nodes| nodes[0].state = State::Following),
        changed(|nodes| nodes[1] = Node { yes_heard: true, ..nodes[1].off().expect("a sound record") }),
        changed(|nodes| nodes[3].chosen.m = 1),
        changed(|nodes| nodes.iter_mut().for_each(|node| node.chosen.m = 9)),
        changed(|nodes| nodes[2].chosen.lag = 1),
        changed(|nodes| nodes[0].chosen.lag = 1),
        changed(|nodes| nodes.iter_mut().for_each(|node| node.chosen.lag = 2)),
        changed(|nodes| nodes.iter_mut().for_each(|node| node.chosen.lag = u32::MAX)),
        changed(|nodes| nodes.iter_mut().for_each(|node| (node.chosen.k, node.chosen.lag) = (3, 1))),
        changed(|nodes| nodes[0].chosen.order = Order::kept(&[1, 2, 4, 3])),
        changed(|nodes| nodes[3].chosen.order = Order::kept(&[1, 2, 4, 3])),
        changed(|nodes| nodes.iter_mut().for_each(|node| node.chosen.order = Order::kept(&[1, 2, 3, 3]))),
        changed(|nodes| nodes.iter_mut().for_each(|node| node.chosen.order = Order::kept(&[1, 2, 3]))),
        changed(|nodes| nodes.iter_mut().for_each(|node| node.chosen.order = Order::kept(&[1, 2, 3, 5]))),
        changed(|nodes| nodes.iter_mut().for_each(|node| node.chosen.order.0[31] = 1)),
        changed(|nodes| nodes.iter_mut().for_each(|node| node.chosen.order.0[4] = 5)),
    ]
}

/// A refused call gives this number and leaves the table and the ledger as they were.
fn refused(
    count: &mut Count,
    (nodes, ledger): (&[Node], &[Figures]),
    expected: u32,
    call: impl Fn(&mut [Node], &mut [Figures]) -> Result<(), u32>,
) -> Result<(), String> {
    count.expected(expected);
    let (mut after, mut entries) = (nodes.to_vec(), ledger.to_vec());
    let got = call(&mut after, &mut entries);
    let same = got == Err(expected) && after == nodes && entries == ledger;
    count.check(same, || format!("{got:?}, expected refusal {expected}"))
}

/// Ledgers that do not fit a table of four nodes with this slot count: a wrong length, a count past it plus one.
fn bad_ledgers(slots: u64) -> Vec<Vec<Figures>> {
    let with = |figures| vec![Figures::default(), figures, Figures::default(), Figures::default()];
    vec![
        vec![],
        vec![Figures::default(); 3],
        vec![Figures::default(); 5],
        with(Figures { left: slots + 2, joined: 0, last: 0 }),
        with(Figures { left: 0, joined: slots + 2, last: 0 }),
        with(Figures { left: u64::MAX, joined: u64::MAX, last: u64::MAX }),
    ]
}

/// "Checks run in table order, except that .. 4 comes just before 3 where n is taken from a record." "13, just
/// before 5"
pub fn refusals(count: &mut Count) -> Result<(), String> {
    let slot = |missed, room| {
        move |nodes: &mut [Node], ledger: &mut [Figures]| {
            let counts = &mut vec![counts::NONE; nodes.len()];
            let message = Message { lost: false, missed, jobs: 0 };
            bench::slot(nodes, Beside { ledger, counts }, message, room).map(|_| ())
        }
    };
    let off = |x| move |nodes: &mut [Node], ledger: &mut [Figures]| bench::off(nodes, ledger, x);
    let restart = |x| move |nodes: &mut [Node], _: &mut [Figures]| bench::restart(nodes, x);
    for nodes in bad_tables() {
        refused(count, (&nodes, &[]), 4, slot(Set(0x80), 0))?;
        refused(count, (&nodes, &[]), 4, off(9))?;
        refused(count, (&nodes, &[]), 4, restart(9))?;
    }
    let mut nodes = table(4, 2);
    // A count of one more than there were slots fits, and so does every date.
    let fitting = [Figures { left: 1, joined: 1, last: u64::MAX }; 4];
    refused(count, (&nodes, &fitting), 9, slot(Set(0xf), 63))?;
    refused(count, (&nodes, &fitting), 11, restart(4))?;
    nodes.iter_mut().for_each(|node| node.slots = LIMIT);
    for ledger in bad_ledgers(LIMIT) {
        refused(count, (&nodes, &ledger), 3, slot(Set(0x10), 0))?;
        refused(count, (&nodes, &ledger), 13, slot(Set(0xf), 0))?;
        refused(count, (&nodes, &ledger), 3, off(5))?;
        refused(count, (&nodes, &ledger), 13, off(4))?;
        refused(count, (&nodes, &ledger), 11, restart(4))?;
    }
    refused(count, (&nodes, &fitting), 3, slot(Set(0x10), 0))?;
    refused(count, (&nodes, &fitting), 5, slot(Set(0xf), 0))?;
    for x in [0, 5, 33, u32::MAX] {
        refused(count, (&nodes, &fitting), 3, off(x))?;
        refused(count, (&nodes, &fitting), 3, restart(x))?;
    }
    // "Off and restart don't test 5."
    let mut ledger = fitting;
    let switched = bench::off(&mut nodes, &mut ledger, 1).and_then(|()| bench::restart(&mut nodes, 1));
    count.check(switched == Ok(()), || format!("off and restart at the limit: {switched:?}"))
}

/// A slot of a table of four nodes on a cable of three jobs gives this number, and changes counts only if it is 0.
fn counted(
    count: &mut Count,
    (nodes, ledger, counts): (&[Node], &[Figures], &[Counts]),
    (missed, jobs, room): (u32, u8, usize),
    expected: u32,
) -> Result<(), String> {
    count.expected(expected);
    let (mut after, mut entries, mut kept) = (nodes.to_vec(), ledger.to_vec(), counts.to_vec());
    let beside = Beside { ledger: &mut entries, counts: &mut kept };
    let message = Message { lost: false, missed: Set(missed), jobs };
    let got = bench::slot(&mut after, beside, message, room).map(|_| ());
    let number = got.err().unwrap_or(0);
    let same = (after == nodes && kept == counts) == (number != 0);
    count.check(number == expected && same, || format!("{got:?}, expected {expected}; counts {same}"))
}

/// The counts of four nodes, all as large as they may be after seven slots, but for one of these.
fn with_count(array: usize, sender: usize, job: usize, number: u64) -> Vec<Counts> {
    let mut counts = vec![[[7; 8]; 32]; 4];
    counts[array][sender - 1][job - 1] = number;
    counts
}

/// Request h: "A report count above the slot count, or not one array of counts per node in .. bench slot, gives 4";
/// then 3, 13, 5, 8 for a job past m, 9.
pub fn counts(count: &mut Count) -> Result<(), String> {
    let mut nodes =
        bench::set_up(Choices { m: 3, ..Choices::plain(4, 2) }, 4).expect("the choices are in range");
    nodes.iter_mut().for_each(|node| node.slots = 7);
    let fitting = with_count(0, 1, 1, 7);
    let ledger = [Figures::default(); 4];
    for (array, sender, job) in
        [(0, 1, 1), (3, 4, 3), (1, 5, 1), (2, 2, 4), (3, 32, 8), (0, 4, 8), (1, 32, 1)]
    {
        let counts = with_count(array, sender, job, 8);
        counted(count, (&nodes, &[], &counts), (0x10, 8, 0), 4)?;
        counted(count, (&nodes, &ledger, &counts), (0, 0, 64), 4)?;
    }
    for arrays in [0, 3, 5] {
        counted(count, (&nodes, &ledger, &vec![counts::NONE; arrays]), (0, 0, 64), 4)?;
    }
    counted(count, (&nodes, &[], &fitting), (0x10, 8, 0), 3)?;
    counted(count, (&nodes, &[], &fitting), (0, 8, 0), 13)?;
    for jobs in [0x08, 0x80, 0xFF] {
        counted(count, (&nodes, &ledger, &fitting), (0, jobs, 0), 8)?;
    }
    counted(count, (&nodes, &ledger, &fitting), (0, 7, 63), 9)?;
    counted(count, (&nodes, &ledger, &fitting), (0, 7, 64), 0)?;
    nodes.iter_mut().for_each(|node| node.slots = LIMIT);
    counted(count, (&nodes, &ledger, &fitting), (0, 8, 0), 5)
}

/// Set-up clears the counts; "not one array of counts per node" gives 4, after 14.
pub fn cleared(count: &mut Count) -> Result<(), String> {
    for (m, arrays, expected) in [(9, 3, 14), (8, 3, 4), (0, 5, 4), (8, 0, 4), (8, 4, 0), (0, 4, 0)] {
        count.expected(expected);
        let mut counts = vec![[[7; 8]; 32]; arrays];
        let before = counts.clone();
        let got = bench::counted_set_up(Choices { m, ..Choices::plain(4, 2) }, 4, &mut counts)
            .map(|nodes| nodes.len());
        let same = if expected == 0 { got == Ok(4) } else { got == Err(expected) };
        let kept = counts == if expected == 0 { vec![counts::NONE; arrays] } else { before };
        count.check(same && kept, || format!("m = {m}, {arrays} arrays: {got:?}, not {expected}"))?;
    }
    Ok(())
}

/// A slot, its fate and its pairs.
type Changed = (u64, Fate, &'static [(u32, Kind)]);

/// A run in which node 3 of four goes and comes back, its first knock lost; k is 2. In all other slots no
/// state changes.
#[rustfmt::skip]
const CHANGES: &[Changed] = &[
    (13, Fate::Sent, &[(3, Kind::Follows)]),
    (15, Fate::Lost, &[(3, Kind::Knocked)]),
    (18, Fate::Sent, &[(3, Kind::FollowsAgain)]),
    (19, Fate::Knock, &[(3, Kind::Knocked)]),
    (22, Fate::Sent, &[(3, Kind::Joined)]),
    (23, Fate::Lost, &[]),
    (25, Fate::Sent, &[(3, Kind::Left)]),
];

pub fn changes(count: &mut Count) -> Result<(), String> {
    let mut nodes = table(4, 2);
    let mut run = |call| bench::run(&Document01, &mut nodes, call).expect("no call is refused");
    run(Call::Off(3));
    for number in 1..=30 {
        if number == 6 {
            run(Call::Restart(3));
        }
        let lost = [15, 23].contains(&number);
        let slot = run(Call::Slot { lost, missed: Set::EMPTY }).expect("a slot");
        let expected = CHANGES.iter().find(|row| row.0 == number);
        let same = expected.is_none_or(|row| row.1 == slot.fate)
            && slot.changes == expected.map_or(&[][..], |row| row.2);
        count.check(same, || format!("slot {number}: {:?} {:?}", slot.fate, slot.changes))?;
    }
    Ok(())
}
