//! Set-up, sending, the slot limit, and the order of the refusals.

use super::compare::compare;
use super::protocol::{Command, Script};
use super::records::{every_call, own_slot_next};
use super::{events, heard};
use comparison::causes::Causes;
use comparison::messages::{job_byte, spare_job_byte};
use comparison::model::choices::Choices;
use comparison::model::counts::NONE;
use comparison::model::held::Record;
use comparison::model::message;
use comparison::model::node::{Node, State};
use comparison::model::ring::{self, LIMIT};
use comparison::numbers::{no_job_counts, no_lags, small_and_large};
use comparison::random::Random;
use comparison::records::{before_own, sound, spoil, STATES};
use comparison::report::Count;

/// The causes of a refused set-up; each number has its bit: 3, 14, 2, 16, 1.
const SET_UP: [&str; 32] = [
    "set-up: no cause",
    "set-up: 3",
    "set-up: 14",
    "set-up: 14, 3",
    "set-up: 2",
    "set-up: 2, 3",
    "set-up: 2, 14",
    "set-up: 2, 14, 3",
    "set-up: 16",
    "set-up: 16, 3",
    "set-up: 16, 14",
    "set-up: 16, 14, 3",
    "set-up: 16, 2",
    "set-up: 16, 2, 3",
    "set-up: 16, 2, 14",
    "set-up: 16, 2, 14, 3",
    "set-up: 1",
    "set-up: 1, 3",
    "set-up: 1, 14",
    "set-up: 1, 14, 3",
    "set-up: 1, 2",
    "set-up: 1, 2, 3",
    "set-up: 1, 2, 14",
    "set-up: 1, 2, 14, 3",
    "set-up: 1, 16",
    "set-up: 1, 16, 3",
    "set-up: 1, 16, 14",
    "set-up: 1, 16, 14, 3",
    "set-up: 1, 16, 2",
    "set-up: 1, 16, 2, 3",
    "set-up: 1, 16, 2, 14",
    "set-up: 1, 16, 2, 14, 3",
];

/// Notes the causes that apply and sees that the model answers the first of them: 1, 16, 2, 14, 3.
fn push_set_up(count: &mut Count, script: &mut Script, chosen: Choices, own: u32) -> Result<(), String> {
    let Choices { n, k, m, lag, .. } = chosen;
    let wide = i64::from;
    let causes = [
        (1, !(3..=32).contains(&n)),
        (16, lag > 1),
        (2, k < 2 || wide(k) > wide(n) - 1 - wide(lag)),
        (14, m > 8),
        (3, own < 1 || own > n),
    ];
    count.event(SET_UP[causes.iter().fold(0, |bits, cause| 2 * bits + usize::from(cause.1))]);
    let first = causes.iter().find(|cause| cause.1).map_or(0, |cause| cause.0);
    let got = Node::set_up(chosen, own).err().unwrap_or(0);
    count.check(got == first, || format!("{chosen:?}, own {own}: {got} by the model, not {first}"))?;
    script.push(&Command::SetUp(chosen.into(), own));
    Ok(())
}

/// All n, k and own numbers from 0 to 40 and large ones, m and lag in range and out of it in turn; calls on the record
/// before the first set-up, and a refused set-up leaves the record of the last one.
pub fn set_up(count: &mut Count) -> Result<(), String> {
    let mut script = Script::default();
    for call in [Command::Slot(&[]), Command::Send { room: 9, jobs: 0 }, Command::Off, Command::Restart] {
        script.push(&call);
    }
    // 20 and 19 of them, so that each meets each.
    let counts: Vec<u32> = (0..=8).chain(no_job_counts()).collect();
    let lags: Vec<u32> = [0, 1, 0, 1, 0, 1, 1].into_iter().chain(no_lags()).collect();
    let mut turns = counts.iter().cycle().zip(lags.iter().cycle());
    for n in small_and_large() {
        for k in small_and_large() {
            for own in small_and_large() {
                let (&m, &lag) = turns.next().expect("a cycle does not end");
                push_set_up(count, &mut script, Choices::of(n, k, m, lag), own)?;
            }
        }
    }
    count.needs(&SET_UP)?;
    compare(count, &script)
}

/// Every m with each n, and some k and own numbers: 1, 2, 14, 3 in this order, whatever the lag.
pub fn job_counts(count: &mut Count) -> Result<(), String> {
    let mut script = Script::default();
    for n in 2..=33 {
        for m in small_and_large() {
            for k in [1, 2, n - 1, n] {
                for own in [0, 1, n, n + 1] {
                    let lag = (m + own) % 2;
                    push_set_up(count, &mut script, Choices::of(n, k, m, lag), own)?;
                }
            }
        }
    }
    count.needs(&[&SET_UP[..8], &SET_UP[16..24]].concat())?;
    compare(count, &script)
}

/// The largest k of a lag, and the one after it.
const EDGES: [&str; 4] = [
    "k: n - 1 with lag 0, taken",
    "k: n with lag 0, refused",
    "k: n - 2 with lag 1, taken",
    "k: n - 1 with lag 1, refused",
];

fn note_edge(count: &mut Count, chosen: Choices, own: u32) {
    let number = Node::set_up(chosen, own).err().unwrap_or(0);
    let Choices { n, k, lag, .. } = chosen;
    match (lag, n - k.min(n), number) {
        (0, 1, 0) => count.event(EDGES[0]),
        (0, 0, 2) if k == n => count.event(EDGES[1]),
        (1, 2, 0) => count.event(EDGES[2]),
        (1, 1, 2) => count.event(EDGES[3]),
        _ => {}
    }
}

/// Every lag with each n, k around the largest of each lag, some m and own numbers: 1, 16, 2, 14, 3 in this order.
pub fn lags(count: &mut Count) -> Result<(), String> {
    let mut script = Script::default();
    for n in 2..=33_u32 {
        for lag in [0, 1].into_iter().chain(no_lags()) {
            for k in [1, 2, n.saturating_sub(3), n - 2, n - 1, n, n + 1] {
                for m in [0, 8, 9] {
                    for own in [0, 1, n, n + 1] {
                        let chosen = Choices::of(n, k, m, lag);
                        note_edge(count, chosen, own);
                        push_set_up(count, &mut script, chosen, own)?;
                    }
                }
            }
        }
    }
    count.needs(&EDGES)?;
    count.needs(&SET_UP)?;
    compare(count, &script)
}

/// Makes the own slot the next one.
fn turn(node: &mut Node) {
    node.slots = before_own(node.chosen, node.own, node.slots);
}

/// Into rooms 0 to 12 and a large one, with one job byte; then with any, into a room that is enough. Then a restart, which most nodes refuse, shows that the record is
/// as it was: the slot that follows a send sets the own mark and clears yes heard anyway.
pub fn sending(count: &mut Count) -> Result<(), String> {
    let mut random = Random::new(31);
    let mut script = Script::default();
    for state in STATES {
        for _ in 0..if matches!(state, State::Out(_)) { 200 } else { 4_000 } {
            let mut node = sound(&mut random, state);
            if random.below(4) != 0 {
                turn(&mut node);
            }
            note_send(count, &node);
            script.load(node);
            let jobs = job_byte(&mut random, node.chosen.m);
            for room in (0..=12).chain([255]) {
                script.push(&Command::Send { room, jobs });
            }
            for _ in 0..2 {
                let jobs = random.byte();
                note_jobs_given(count, &node, jobs);
                script.push(&Command::Send { room: 12, jobs });
            }
            script.push(&Command::Restart);
            script.push(&Command::Slot(&heard::anything(&mut random, (node.chosen.k, node.chosen.m))));
        }
    }
    count.needs(SENDS)?;
    count.needs(GIVEN)?;
    compare(count, &script)
}

/// A node that sends is given a job byte.
const GIVEN: &[&str] = &[
    "jobs given: to a member",
    "jobs given: to a member, a spare bit",
    "jobs given: for a knock",
    "jobs given: for a knock, a spare bit",
];

fn note_jobs_given(count: &mut Count, node: &Node, jobs: u8) {
    let spare = u32::from(jobs) >> node.chosen.m != 0;
    match (node.state, spare) {
        _ if !sends(node) || jobs == 0 => {}
        (State::Member, false) => count.event(GIVEN[0]),
        (State::Member, true) => count.event(GIVEN[1]),
        (_, false) => count.event(GIVEN[2]),
        (_, true) => count.event(GIVEN[3]),
    }
}

/// The next slot is its own, and it is a member or knocks in it.
fn sends(node: &Node) -> bool {
    own_slot_next(node)
        && match node.state {
            State::Member => true,
            State::Following => node.returning == 0,
            _ => false,
        }
}

const SENDS: &[&str] = &[
    "member: return bit 0",
    "member: return bit 1",
    "member: fewer than k sponsored",
    "member alone",
    "member: one other, lag 1",
    "following: knock",
    "following: silent",
    "not its slot",
    "neither member nor following",
];

fn note_send(count: &mut Count, node: &Node) {
    if !own_slot_next(node) {
        return count.event("not its slot");
    }
    match node.state {
        State::Member => {
            count.event(if node.returning == 0 { "member: return bit 0" } else { "member: return bit 1" });
            if ring::ks(node.chosen, node.set.count()) < node.chosen.k {
                count.event("member: fewer than k sponsored");
            }
            if node.set.count() == 1 {
                count.event("member alone");
            }
            if node.set.count() == 2 && node.chosen.lag == 1 {
                count.event("member: one other, lag 1");
            }
        }
        State::Following if node.returning == 0 => count.event("following: knock"),
        State::Following => count.event("following: silent"),
        _ => count.event("neither member nor following"),
    }
}

/// Slot counts at the limit and up to two below it: the last slots, then 5 for slot and send, and none
/// for off and restart.
pub fn limit(count: &mut Count) -> Result<(), String> {
    let mut random = Random::new(32);
    let mut script = Script::default();
    for state in STATES {
        for _ in 0..1_500 {
            let mut node = sound(&mut random, state);
            node.slots = LIMIT - random.below(3);
            every_call(&mut random, &mut script, &node.into());
            script.load(node);
            for _ in 0..3 {
                let (room, jobs) = (random.below(12) as u8, job_byte(&mut random, node.chosen.m));
                script.push(&Command::Send { room, jobs });
                script.push(&Command::Slot(&heard::anything(&mut random, (node.chosen.k, node.chosen.m))));
            }
            script.push(&Command::Off);
            script.push(&Command::Restart);
            script.push(&Command::Slot(&[]));
        }
    }
    compare(count, &script)
}

/// A sound record, at the limit or below it; its own slot is the next one, or any.
fn drawn(random: &mut Random, state: State, at_limit: bool, own_turn: bool) -> Node {
    loop {
        let mut node = sound(random, state);
        if at_limit {
            node.slots = LIMIT;
        } else if own_turn {
            turn(&mut node);
        }
        if !own_turn || own_slot_next(&node) {
            return node;
        }
    }
}

/// Several causes at once, for every call: not sound, at the limit, a spare job bit, not its turn, no room, not out.
pub fn order(count: &mut Count) -> Result<(), String> {
    let mut random = Random::new(33);
    let mut script = Script::default();
    for state in STATES {
        for i in 0..16 * 200 {
            let (unsound, at_limit, own_turn, spare) = (i & 1 == 1, i & 2 == 2, i & 4 == 4, i & 8 == 8);
            let node = drawn(&mut random, state, at_limit, own_turn);
            let given = spare_job_byte(&mut random, node.chosen.m).filter(|_| spare);
            let jobs = given.unwrap_or_else(|| job_byte(&mut random, node.chosen.m));
            let sending = sends(&node);
            let mut record = node.into();
            if unsound {
                spoil(&mut random, &mut record);
            }
            count.event(causes(unsound, at_limit, given.is_some(), !sending));
            others_first(count, &record, [unsound, at_limit])?;
            every_call(&mut random, &mut script, &record);
            script.load(record);
            let length = message::length(node.chosen.k);
            for room in [length - 1, length] {
                let applying = [unsound, at_limit, given.is_some(), !sending, room < length];
                let number = record.send(jobs, &mut vec![0; room]).err().unwrap_or(0);
                told(count, number, &SEND, &applying)?;
                script.push(&Command::Send { room: room as u8, jobs });
            }
        }
    }
    count.needs(&CAUSES)?;
    for all in [SEND, SLOT, RESTART] {
        all.met(count)?;
    }
    compare(count, &script)
}

const SEND: Causes = Causes {
    numbers: &[4, 5, 8, 10, 9],
    pairs: &["send: 4 and 5", "send: 5 and 8", "send: 8 and 10", "send: 10 and 9"],
};

const SLOT: Causes = Causes { numbers: &[4, 5], pairs: &["slot: 4 and 5"] };

const RESTART: Causes = Causes { numbers: &[4, 11], pairs: &["restart: 4 and 11"] };

/// The model answers the first cause that applies.
fn told(count: &mut Count, number: u32, all: &Causes, applying: &[bool]) -> Result<(), String> {
    let first = all.first(count, applying);
    count.check(number == first, || format!("{number} by the model, not {first}"))
}

/// It does so for a slot and for a restart.
fn others_first(count: &mut Count, record: &Record, causes: [bool; 2]) -> Result<(), String> {
    let slot = record.counted_slot(&mut NONE.clone(), &[]).err().unwrap_or(0);
    told(count, slot, &SLOT, &causes)?;
    let not_out = !matches!(record.node.state, State::Out(_));
    let restart = record.restart().err().unwrap_or(0);
    told(count, restart, &RESTART, &[causes[0], not_out])
}

/// The causes that apply to sending, but for the room; each number has its bit: 10, 8, 5, 4.
const CAUSES: [&str; 16] = [
    "none",
    "10",
    "8",
    "8, 10",
    "5",
    "5, 10",
    "5, 8",
    "5, 8, 10",
    "4",
    "4, 10",
    "4, 8",
    "4, 8, 10",
    "4, 5",
    "4, 5, 10",
    "4, 5, 8",
    "4, 5, 8, 10",
];

fn causes(unsound: bool, at_limit: bool, spare: bool, silent: bool) -> &'static str {
    let bits =
        [unsound, at_limit, spare, silent].into_iter().fold(0, |bits, yes| 2 * bits + usize::from(yes));
    CAUSES[bits]
}

/// Off and restart in every state, and one after the other.
pub fn switching(count: &mut Count) -> Result<(), String> {
    let mut random = Random::new(34);
    let mut script = Script::default();
    for state in STATES {
        for _ in 0..500 {
            let node = sound(&mut random, state);
            for calls in [
                [Command::Off, Command::Off],
                [Command::Off, Command::Restart],
                [Command::Restart, Command::Off],
                [Command::Restart, Command::Restart],
            ] {
                script.load(node);
                for call in calls {
                    script.push(&call);
                }
                script.push(&Command::Slot(&heard::anything(&mut random, (node.chosen.k, node.chosen.m))));
            }
            events::off(count, &node);
            events::restart(count, &node);
        }
    }
    compare(count, &script)
}
