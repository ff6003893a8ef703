//! Counts of reports: runs in which they are asked for after each call, and counts that are set as they stand. What the
//! model answers to these is checked against request h's words here, and the program's answers against the model's.

use super::compare::compare;
use super::figures;
use super::protocol::{Call, Command, ARRAYS};
use super::reports::{GIVEN, TALLIES};
use super::runs::{between, call_of, set_up};
use super::script::{Script, ENOUGH, SHORT};
use super::tables::{self, sound_records, sound_table};
use comparison::adversary::Adversary;
use comparison::causes::Causes;
use comparison::events::{COUNTED, UNCOUNTED};
use comparison::messages::{job_byte, spare_job_byte};
use comparison::model::bench::{self, Document01};
use comparison::model::choices::{Asked, Choices};
use comparison::model::counts::NONE;
use comparison::model::ledger::Figures;
use comparison::model::node::Node;
use comparison::model::ring::LIMIT;
use comparison::model::slot_table::Slots;
use comparison::random::Random;
use comparison::records::{choices_of, lag, spoil};
use comparison::report::Count;
use comparison::slot_tables;

const SLOT: Call = Call::Slot { lost: false, missed: 0, jobs: 0 };

/// A call, and the refusal's number by request h, or 0.
fn answered(
    count: &mut Count,
    random: &mut Random,
    script: &mut Script,
    (call, expected): (Call, u8),
) -> Result<(), String> {
    let number = script.call(random, call);
    count.check(number == expected, || format!("{number} by the model, not {expected}"))
}

/// The counts of every node of a small ring; of a large one those of a few, and now and then all.
fn ask(script: &mut Script, random: &mut Random, n: u32) {
    if n <= 8 || random.below(16) == 0 {
        return script.ask_counts(n);
    }
    for _ in 0..4 {
        script.push(Command::Counts(random.below(u64::from(n)) as u8));
    }
}

fn without_jobs(node: &Node) -> Node {
    Node { chosen: Choices { m: 0, ..node.chosen }, ..*node }
}

/// "membership is the same as if the section were absent": the table is that of the same calls without jobs.
fn see_plain(count: &mut Count, table: &[Node], plain: &[Node]) -> Result<(), String> {
    let same = table.iter().zip(plain).all(|(node, plain)| without_jobs(node) == *plain);
    count.check(same, || format!("{} slots done: not the table without jobs", plain[0].slots))
}

/// A run of so many calls, but for those in between.
fn run(
    count: &mut Count,
    script: &mut Script,
    adversary: &mut Adversary,
    chosen: Choices,
    calls: u32,
) -> Result<(), String> {
    let any_count = |random: &mut Random| Command::Count {
        array: random.below(ARRAYS as u64) as u8,
        row: random.below(32) as u8,
        job: random.below(8) as u8,
        count: random.number(),
    };
    // Whatever the counts are, set-up clears them.
    for _ in 0..8 {
        script.push(any_count(&mut adversary.random));
    }
    let Choices { n, m, .. } = chosen;
    set_up(script, &mut adversary.random, chosen);
    script.ask_counts(n);
    let mut plain = bench::set_up(Choices { m: 0, ..chosen }, n as usize).expect("the choices are in range");
    adversary.calm_down(n);
    for _ in 0..calls {
        between(script, &mut adversary.random);
        let call = adversary.next(&script.table());
        let jobs = job_byte(&mut adversary.random, m);
        script.call(&mut adversary.random, call_of(call, jobs));
        bench::run(&Document01, &mut plain, call).expect("the call is not refused");
        see_plain(count, &script.table(), &plain)?;
        ask(script, &mut adversary.random, n);
    }
    script.ask_counts(n);
    Ok(())
}

/// Every n and every m.
pub fn every_n_and_m(count: &mut Count) -> Result<(), String> {
    let mut adversary = Adversary::new(122);
    let mut script = Script::new();
    for n in 3..=32 {
        for m in [n % 9, (n + 3) % 9, (n + 7) % 9] {
            let chosen = Choices { m, ..choices_of(&mut adversary.random, n) };
            run(count, &mut script, &mut adversary, chosen, 6 * n + 20)?;
        }
    }
    met(count, &script)
}

/// Small rings, long enough to leave, return and leave again.
pub fn small_rings(count: &mut Count) -> Result<(), String> {
    let mut adversary = Adversary::new(123);
    let mut script = Script::new();
    for i in 0..120 {
        let n = 3 + i % 5;
        let chosen = Choices { m: i % 9, ..choices_of(&mut adversary.random, n) };
        run(count, &mut script, &mut adversary, chosen, 20 * n)?;
    }
    met(count, &script)
}

fn met(count: &mut Count, script: &Script) -> Result<(), String> {
    compare(count, &script.commands)?;
    count.needs(&GIVEN)?;
    count.needs(&UNCOUNTED)?;
    count.needs(&[&COUNTED[..4], &COUNTED[5..7]].concat())?;
    count.needs(&TALLIES)?;
    count.needs(&["call: set-up", "call: off", "call: restart", "call: slot", "call: look", "call: refused"])
}

/// Any sound table beside counts that fit: a slot in which all goes well, one that some miss, and all counts after it.
pub fn sound(count: &mut Count) -> Result<(), String> {
    let mut random = Random::new(124);
    let mut script = Script::new();
    for _ in 0..1_200 {
        let (chosen, slots) = tables::ring(&mut random);
        let Choices { n, m, .. } = chosen;
        let table = sound_table(&mut random, (chosen, slots));
        script.load(&mut random, &table);
        for _ in 0..random.below(6) {
            let array = random.below(u64::from(n)) as u8;
            let (row, job) = (random.below(32) as u8, random.below(8) as u8);
            script.push(Command::Count { array, row, job, count: random.below(slots + 1) });
        }
        let missed = if random.bit() { 0 } else { random.number() as u32 & (!0 >> (32 - n)) };
        let jobs = job_byte(&mut random, m);
        answered(count, &mut random, &mut script, (Call::Slot { lost: false, missed, jobs }, 0))?;
        script.ask_counts(n);
    }
    compare(count, &script.commands)?;
    count.needs(&GIVEN[2..])?;
    count.needs(&COUNTED)?;
    count.needs(&UNCOUNTED)
}

/// Every number of arrays, for every n; a number past 33 counts as 33, and before the first none is lent.
pub fn numbers(count: &mut Count) -> Result<(), String> {
    let mut random = Random::new(125);
    let mut script = Script::new();
    script.push(Command::Size(3));
    answered(count, &mut random, &mut script, (Call::SetUp(Choices::plain(3, 2).into()), 4))?;
    for n in 3..=32 {
        for arrays in (0..=35).chain([64, 255]) {
            let (chosen, slots) = tables::ring_of(&mut random, n);
            let table = sound_table(&mut random, (chosen, slots));
            script.load(&mut random, &table);
            script.push(Command::Arrays(arrays));
            let expected = if u32::from(arrays) == n { 0 } else { 4 };
            let jobs = job_byte(&mut random, chosen.m);
            let slot = Call::Slot { lost: false, missed: 0, jobs };
            answered(count, &mut random, &mut script, (slot, expected))?;
            // No other call but set-up tests it.
            answered(count, &mut random, &mut script, (Call::Off(n), 0))?;
            answered(count, &mut random, &mut script, (Call::Restart(n), 0))?;
            answered(count, &mut random, &mut script, (Call::Look { lost: false }, 0))?;
            let last = arrays.min(32);
            script.push(Command::Count { array: last, row: 31, job: 7, count: 1 });
            answered(count, &mut random, &mut script, (Call::SetUp(chosen.into()), expected))?;
            script.push(Command::Counts(last));
            script.push(Command::Counts(last.saturating_sub(1)));
        }
    }
    compare(count, &script.commands)
}

/// A slot beside counts of 0 but for this one; then off, restart and look, which test none and change none.
fn edge(
    count: &mut Count,
    random: &mut Random,
    script: &mut Script,
    (table, array): (&[Node], u8),
    number: u64,
) -> Result<(), String> {
    let (n, slots) = (table.len(), table[0].slots);
    let (row, job) = (random.below(32) as u8, random.below(8) as u8);
    let fits = usize::from(array) >= n || number <= slots;
    let taken = if slots == LIMIT { 5 } else { 0 };
    script.load(random, table);
    script.push(Command::Count { array, row, job, count: number });
    let jobs = job_byte(random, table[0].chosen.m);
    let slot = Call::Slot { lost: false, missed: 0, jobs };
    answered(count, random, script, (slot, if fits { taken } else { 4 }))?;
    script.push(Command::Counts(array));
    let x = u32::from(array) % n as u32 + 1;
    script.lend(random, &vec![Figures::default(); n]);
    for call in [Call::Off(x), Call::Restart(x), Call::Look { lost: true }] {
        answered(count, random, script, (call, 0))?;
    }
    script.push(Command::Counts(array));
    Ok(())
}

/// The array is the first, a middle, the last, or the one after those lent; the row and the job are any.
pub fn edges(count: &mut Count) -> Result<(), String> {
    let mut random = Random::new(126);
    let mut script = Script::new();
    for n in [3, 4, 17, 32_u8] {
        for slots in [0, 1, 300, LIMIT - 1, LIMIT] {
            let (chosen, _) = tables::ring_of(&mut random, u32::from(n));
            let table = sound_table(&mut random, (chosen, slots));
            for array in [0, n / 2, n - 1, n] {
                for number in [0, slots, slots + 1, slots + 2, 1 << 32, 1 << 56, u64::MAX] {
                    edge(count, &mut random, &mut script, (&table, array), number)?;
                }
            }
        }
    }
    compare(count, &script.commands)
}

/// Each count of every node in turn is one above the slot count; then all are at it, and the slot is taken. Other
/// numbers are no count's.
pub fn every_count(count: &mut Count) -> Result<(), String> {
    let mut random = Random::new(127);
    let mut script = Script::new();
    for n in [3, 8, 32_u8] {
        let (chosen, slots) = tables::ring_of(&mut random, u32::from(n));
        let table = sound_table(&mut random, (chosen, slots));
        script.load(&mut random, &table);
        for (array, place) in (0..n).flat_map(|array| (0..=255).map(move |place| (array, place))) {
            let (row, job) = (place / 8, place % 8);
            script.push(Command::Count { array, row, job, count: slots + 1 });
            answered(count, &mut random, &mut script, (SLOT, 4))?;
            script.push(Command::Count { array, row, job, count: slots });
        }
        for (array, row, job) in [(33, 0, 0), (0, 32, 0), (0, 0, 8), (255, 255, 255), (n, 0, 0)] {
            script.push(Command::Count { array, row, job, count: u64::MAX });
        }
        answered(count, &mut random, &mut script, (SLOT, 0))?;
        (0..=33).chain([64, 255]).for_each(|array| {
            script.push(Command::Counts(array));
        });
    }
    compare(count, &script.commands)
}

/// The first cause of a slot's refusal, in their order; the last is none.
const CAUSES: [&str; 8] = [
    "first cause: 4 by a record",
    "first cause: 4 by a count or the number of arrays",
    "first cause: 3",
    "first cause: 13",
    "first cause: 5",
    "first cause: 8",
    "first cause: 9",
    "first cause: none",
];

const SLOTS: Causes = Causes {
    numbers: &[4, 3, 13, 5, 8, 9],
    pairs: &["slot: 4 and 3", "slot: 3 and 13", "slot: 13 and 5", "slot: 5 and 8", "slot: 8 and 9"],
};

/// Counts that do not fit: a wrong number of arrays, or one count above the slot count.
fn unfit(random: &mut Random, script: &mut Script, n: u32, slots: u64) {
    if random.below(3) == 0 {
        let other = [n - 1, n + 1, 0, 33][random.below(4) as usize];
        script.push(Command::Arrays(if other == n { 0 } else { other as u8 }));
        return;
    }
    let array = random.below(u64::from(n)) as u8;
    let (row, job) = (random.below(32) as u8, random.below(8) as u8);
    script.push(Command::Count { array, row, job, count: slots + 1 + random.below(2) });
}

/// Every choice of causes for a slot at once; the counts stay as they are unless there is none.
pub fn order(count: &mut Count) -> Result<(), String> {
    let mut random = Random::new(128);
    let mut script = Script::new();
    for i in 0..128 * 12_u32 {
        let wrong = |cause: u32| i >> cause & 1 == 1;
        let (n, m) = (random.within(3, 31) as u32, random.below(8) as u32);
        let chosen = Choices { m, ..choices_of(&mut random, n) };
        let slots = if wrong(4) { LIMIT } else { random.below(LIMIT) };
        let mut table = sound_records(&mut random, (chosen, slots));
        if wrong(0) {
            let row = random.below(u64::from(n)) as usize;
            spoil(&mut random, &mut table[row]);
        }
        script.load(&mut random, &table);
        if wrong(1) {
            unfit(&mut random, &mut script, n, slots);
        }
        if wrong(3) {
            let ledger = figures::unfit(&mut random, n as usize, slots);
            script.lend(&mut random, &ledger);
        }
        let spare = spare_job_byte(&mut random, m).filter(|_| wrong(5));
        let jobs = spare.unwrap_or_else(|| job_byte(&mut random, m));
        let missed = if wrong(2) { 1 << n } else { random.number() as u32 & (!0 >> (32 - n)) };
        let room = if wrong(6) { SHORT[random.below(5) as usize] } else { ENOUGH[random.below(6) as usize] };
        count.event(CAUSES[(0..7).find(|&cause| wrong(cause)).unwrap_or(7) as usize]);
        let causes = [wrong(0) || wrong(1), wrong(2), wrong(3), wrong(4), wrong(5), wrong(6)];
        let first = SLOTS.first(count, &causes);
        let told = script.push(Command::Call(Call::Slot { lost: random.bit(), missed, jobs }, room));
        let number = told.map_or(0, |told| told.number);
        count.check(u32::from(number) == first, || format!("{number} by the model, not {first}"))?;
        script.push(Command::Counts(random.below(u64::from(n)) as u8));
    }
    count.needs(&CAUSES)?;
    SLOTS.met(count)?;
    compare(count, &script.commands)
}

/// What set-up is given for n nodes, with these causes: 1, 16, 2, 14, and 17 and 18 as causes 6 and 7.
fn asked_with(random: &mut Random, n: u32, wrong: impl Fn(u32) -> bool) -> Asked {
    let mut slots = slot_tables::table(random, n);
    if wrong(7) {
        slot_tables::make_wrong(random, &mut slots, n as usize % 4);
    }
    if wrong(6) {
        slots.push(0);
    }
    Asked {
        n: if wrong(0) { 33 } else { n },
        k: if wrong(2) { 1 } else { 2 },
        m: if wrong(3) { 9 } else { random.below(9) as u32 },
        lag: if wrong(1) { 2 } else { lag(random, n) },
        slots: Slots::new(&slots),
    }
}

/// Set-up's causes with the number of arrays in view: any counts are cleared, or all are left.
pub fn set_ups(count: &mut Count) -> Result<(), String> {
    let mut random = Random::new(129);
    let mut script = Script::new();
    for i in 0..256 * 10_u32 {
        let wrong = |cause: u32| i >> cause & 1 == 1;
        let n = random.within(3, 31) as u8;
        let array = random.below(u64::from(n)) as u8;
        let place = (random.below(32) as u8, random.below(8) as u8);
        script.push(Command::Count { array, row: place.0, job: place.1, count: random.number() });
        script.push(Command::Size(if wrong(4) { n + 1 } else { n }));
        script.push(Command::Arrays(if wrong(5) { [n - 1, n + 1][random.below(2) as usize] } else { n }));
        let call = Call::SetUp(asked_with(&mut random, u32::from(n), wrong));
        let first = [0, 1, 2, 3, 6, 7, 4, 5].iter().position(|&cause| wrong(cause)).unwrap_or(8);
        answered(count, &mut random, &mut script, (call, [1, 16, 2, 14, 17, 18, 4, 4, 0][first]))?;
        script.push(Command::Counts(array));
        let cleared = script.arrays()[..usize::from(n)].iter().all(|counts| *counts == NONE);
        count.check(first != 8 || cleared, || "set-up leaves a count by the model".to_string())?;
    }
    compare(count, &script.commands)
}
