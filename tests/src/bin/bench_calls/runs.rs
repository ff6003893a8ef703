//! Runs from set-up and a ledger of zeros on, with losses, misses, offs and restarts, and refused calls and
//! looks in between.

use super::compare::{compare, BOTH, LOWER, OFFS, OWN_MARKS};
use super::protocol::{Call, Command, ROWS};
use super::script::{any_record, no_node, one_not_out, Script, SHORT};
use comparison::adversary::Adversary;
use comparison::events::{KINDS, SEVERAL};
use comparison::lasting::Lasting;
use comparison::messages::spare_job_byte;
use comparison::model::bench;
use comparison::model::choices::{Asked, Choices};
use comparison::model::ledger::Figures;
use comparison::model::node::Node;
use comparison::model::slot_table::{Order, Slots};
use comparison::random::Random;
use comparison::records::job_count;
use comparison::report::Count;
use comparison::slot_tables;

const TOLD: &[&str] = &[
    "call: set-up",
    "call: off",
    "call: restart",
    "call: slot",
    "call: look",
    "call: refused",
    "told: silent",
    "told: lost",
    "told: knock",
    "told: sent",
    "told: a list",
    "tally: a ledger",
    "tally: a node that left and joined again",
    "tally: a node that left twice",
];

/// The same call, with a job byte for a slot.
pub fn call_of(call: bench::Call, jobs: u8) -> Call {
    match call {
        bench::Call::Slot { lost, missed } => Call::Slot { lost, missed: missed.0, jobs },
        bench::Call::Off(x) => Call::Off(x),
        bench::Call::Restart(x) => Call::Restart(x),
    }
}

/// Sets a table of n rows up, whatever they and the counts hold; the ledger holds zeros.
pub fn set_up(script: &mut Script, random: &mut Random, chosen: Choices) {
    let n = chosen.n;
    for row in 0..ROWS {
        let node = any_record(random);
        script.push(Command::Load(row as u8, node));
    }
    script.push(Command::Size(n as u8));
    script.push(Command::Arrays(n as u8));
    script.lend(random, &vec![Figures::default(); n as usize]);
    script.call(random, Call::SetUp(chosen.into()));
}

/// A call that this table refuses, whatever buffer is lent; none if all nodes are out and one that is not was
/// asked for.
fn refused(random: &mut Random, table: &[Node]) -> Option<Call> {
    let chosen = table[0].chosen;
    let Choices { n, k, m, lag, .. } = chosen;
    Some(match random.below(13) {
        0 => Call::Off(no_node(random, n)),
        1 => Call::Restart(no_node(random, n)),
        2 | 3 => Call::Restart(one_not_out(random, table)?),
        4 if n < 32 => Call::Slot { lost: random.bit(), missed: 1 << n, jobs: 0 },
        7 if m < 8 => Call::Slot { lost: random.bit(), missed: 0, jobs: spare_job_byte(random, m)? },
        5 => Call::SetUp(Choices { k: if k < n - 1 - lag { n - lag } else { 1 }, ..chosen }.into()),
        6 => Call::SetUp(Choices { m: 9, ..chosen }.into()),
        8 => Call::SetUp(Choices { lag: 2, ..chosen }.into()),
        9 | 10 => Call::SetUp(with_no_table(random, chosen)),
        _ => Call::SetUp(Choices { m, ..Choices::plain(if n < 32 { n + 1 } else { n - 1 }, 2) }.into()),
    })
}

/// These choices with a slot table of a wrong length, or with a wrong place.
fn with_no_table(random: &mut Random, chosen: Choices) -> Asked {
    let n = chosen.n as usize;
    let mut slots = slot_tables::table(random, chosen.n);
    match random.below(4) {
        0 => drop(slots.pop()),
        1 => slots = slot_tables::of_length(random, chosen.n, n + 1),
        _ => {
            let way = random.below(4) as usize;
            slot_tables::make_wrong(random, &mut slots, way);
        }
    }
    Asked { slots: Slots::new(&slots), ..chosen.into() }
}

/// A slot and an off for which the ledger is an entry too short or too long; a slot for which there is an array of
/// counts too few or too many.
fn wrong_length(script: &mut Script, random: &mut Random) {
    let n = script.table()[0].chosen.n as u8;
    let (lost, x, jobs) = (random.bit(), random.within(1, u64::from(n)) as u32, script.jobs(random));
    let other = if random.bit() { n - 1 } else { n + 1 };
    script.push(Command::Lend(other));
    script.call(random, Call::Slot { lost, missed: 0, jobs });
    script.call(random, Call::Off(x));
    script.push(Command::Lend(n));
    script.push(Command::Arrays(other));
    script.call(random, Call::Slot { lost, missed: 0, jobs });
    script.push(Command::Arrays(n));
}

/// What comes between two calls of a run: now and then both looks, a refused call, or a slot with a buffer that
/// is too short, or a ledger or counts of a wrong length.
pub fn between(script: &mut Script, random: &mut Random) {
    if random.below(3) == 0 {
        let lost = random.bit();
        script.call(random, Call::Look { lost });
        script.call(random, Call::Look { lost: !lost });
    }
    if random.below(8) == 0 {
        if let Some(call) = refused(random, &script.table()) {
            script.call(random, call);
        }
    }
    if random.below(16) == 0 {
        let room = SHORT[random.below(5) as usize];
        let jobs = script.jobs(random);
        script.push(Command::Call(Call::Slot { lost: random.bit(), missed: 0, jobs }, room));
    }
    if random.below(32) == 0 {
        wrong_length(script, random);
    }
}

/// A run of so many calls, but for those in between.
fn run(script: &mut Script, adversary: &mut Adversary, (n, k, lag): (u32, u32, u32), calls: u32) {
    let m = job_count(&mut adversary.random);
    let order = slot_tables::order(&mut adversary.random, n);
    set_up(script, &mut adversary.random, Choices { n, k, m, lag, order });
    adversary.calm_down(n);
    for _ in 0..calls {
        between(script, &mut adversary.random);
        let jobs = script.jobs(&mut adversary.random);
        let call = call_of(adversary.next(&script.table()), jobs);
        script.call(&mut adversary.random, call);
    }
    script.ask_counts(n);
}

fn compare_met(count: &mut Count, script: &Script) -> Result<(), String> {
    compare(count, &script.commands)?;
    count.needs(TOLD)?;
    count.needs(&["told: sets that differ"])?;
    count.needs(&OFFS)?;
    count.needs(&OWN_MARKS)?;
    count.needs(&[BOTH, LOWER[2], LOWER[4]])?;
    count.needs(&SEVERAL)?;
    count.needs(&slot_tables::KINDS)?;
    count.needs(&KINDS)
}

pub fn every_n_and_k(count: &mut Count) -> Result<(), String> {
    let mut adversary = Adversary::new(81);
    let mut script = Script::new();
    for n in 3..=32 {
        for (lag, k) in [0, 1].into_iter().flat_map(|lag| (2..n - lag).map(move |k| (lag, k))) {
            run(&mut script, &mut adversary, (n, k, lag), 6 * n);
        }
    }
    compare_met(count, &script)
}

/// Runs of seven small rings with this lag: each is long enough to leave, return and leave again.
fn small_rings(count: &mut Count, seed: u64, lag: u32) -> Result<(), String> {
    let mut adversary = Adversary::new(seed);
    let mut script = Script::new();
    for i in 0..350 {
        let n = 3 + lag + i % 7;
        let k = adversary.random.within(2, u64::from(n - 1 - lag)) as u32;
        run(&mut script, &mut adversary, (n, k, lag), 20 * n);
    }
    compare_met(count, &script)
}

pub fn small_rings_without_lag(count: &mut Count) -> Result<(), String> {
    small_rings(count, 82, 0)
}

pub fn small_rings_with_lag(count: &mut Count) -> Result<(), String> {
    small_rings(count, 84, 1)
}

/// Runs in which the nodes go and come back all the time.
pub fn lasting(count: &mut Count) -> Result<(), String> {
    let mut random = Random::new(83);
    let mut script = Script::new();
    for (n, k, lag) in [(3, 2, 0), (5, 2, 1), (9, 4, 0), (32, 3, 1)] {
        let m = job_count(&mut random);
        let order = Order::kept(&slot_tables::other_table(&mut random, n));
        set_up(&mut script, &mut random, Choices { n, k, m, lag, order });
        let mut lasting = Lasting::new(u64::from(n));
        for _ in 0..6_000 {
            between(&mut script, &mut random);
            let jobs = script.jobs(&mut random);
            let call = call_of(lasting.next(&script.table()), jobs);
            script.call(&mut random, call);
        }
        script.ask_counts(n);
    }
    compare(count, &script.commands)?;
    count.needs(TOLD)?;
    count.needs(&OWN_MARKS)?;
    count.needs(&KINDS[..5])
}
