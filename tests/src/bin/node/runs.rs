//! Long random runs of whole cables. Most break a premise of the agreement sooner or later: the rules
//! say what a node does then too.

use super::cable::{Cable, Fate};
use super::compare::compare;
use super::events;
use super::protocol::Script;
use comparison::model::choices::Choices;
use comparison::model::node::State;
use comparison::model::ring::{self, Set};
use comparison::random::Random;
use comparison::records::job_count;
use comparison::report::Count;
use comparison::slot_tables;

/// What goes wrong for some slots.
#[derive(Clone, Copy)]
enum Trouble {
    Nothing,
    /// One message in eight is lost.
    Losses,
    /// Three messages in four are lost.
    Storm,
    /// Members that sponsor the sender miss its message, often all of them.
    Sponsors,
    /// A knock is lost, or missed by some nodes; knocking nodes miss three messages in four.
    Knocks,
    /// Nodes that are not members miss every other message.
    Returning,
    /// Following and knocking nodes hear nothing.
    Cut,
    /// These nodes hear nothing.
    Deaf(Set),
    /// Members are switched off until this many remain.
    FewMembers(u32),
}

impl Trouble {
    fn draw(random: &mut Random, n: u32) -> Trouble {
        match random.below(13) {
            0..=2 => Trouble::Nothing,
            3 => Trouble::Losses,
            4 => Trouble::Storm,
            5 | 6 => Trouble::Sponsors,
            7 | 8 => Trouble::Knocks,
            9 => Trouble::Returning,
            10 => Trouble::Cut,
            11 => {
                let nodes = random.some_of(Set::full(n));
                Trouble::Deaf(random.some_of(nodes))
            }
            _ => Trouble::FewMembers(random.within(1, 3) as u32),
        }
    }

    fn fate(self, random: &mut Random, cable: &Cable) -> Fate {
        let all = Set::full(cable.chosen.n);
        let sender = cable.sender();
        let lost = |lost| Fate { lost, ..Fate::default() };
        let missed_by = |missed_by| Fate { missed_by, ..Fate::default() };
        match self {
            Trouble::Nothing | Trouble::FewMembers(_) => Fate::default(),
            Trouble::Losses => lost(random.below(8) == 0),
            Trouble::Storm => lost(random.below(4) != 0),
            Trouble::Sponsors if random.bit() => {
                let sponsors = sponsors(cable, sender);
                missed_by(if random.bit() { sponsors } else { random.some_of(sponsors) })
            }
            Trouble::Sponsors => Fate::default(),
            Trouble::Knocks if cable.node(sender).state != State::Member => match random.below(3) {
                0 => lost(true),
                1 => missed_by(random.some_of(all)),
                _ => missed_by(random.some_of(cable.those(|node| node.state == State::Following))),
            },
            Trouble::Knocks if random.below(4) != 0 => {
                missed_by(cable.those(|node| node.state == State::Knocking))
            }
            Trouble::Knocks => Fate::default(),
            Trouble::Returning => {
                let returning = cable.those(|node| node.state != State::Member);
                missed_by(random.some_of(returning))
            }
            Trouble::Cut => {
                missed_by(cable.those(|node| matches!(node.state, State::Following | State::Knocking)))
            }
            Trouble::Deaf(nodes) => missed_by(nodes),
        }
    }

    /// Nodes are switched off and on. Where a node follows two members, one of them is a good choice.
    fn switches(self, count: &mut Count, random: &mut Random, cable: &mut Cable) {
        if let Trouble::FewMembers(least) = self {
            let members = cable.members();
            if members.count() > least && random.bit() {
                random.one_of(members).into_iter().for_each(|x| cable.off(count, x));
            }
        }
        if random.below(8) == 0 {
            let pairs =
                cable.nodes.iter().filter(|node| node.state != State::Member && node.set.count() == 2);
            let pair = pairs.last().map_or(Set::EMPTY, |node| node.set);
            random.one_of(pair).into_iter().for_each(|x| cable.off(count, x));
        }
        if random.below(48) == 0 {
            random.one_of(Set::full(cable.chosen.n)).into_iter().for_each(|x| cable.off(count, x));
        }
        let out = cable.those(|node| matches!(node.state, State::Out(_)));
        if random.below(12) == 0 {
            random.one_of(out).into_iter().for_each(|x| cable.on(count, x));
        }
        if random.below(48) == 0 {
            random.one_of(Set::full(cable.chosen.n)).into_iter().for_each(|x| cable.on(count, x));
        }
    }
}

/// The members that sponsor the sender, on the list of the lowest-numbered member.
fn sponsors(cable: &Cable, sender: u32) -> Set {
    let list =
        cable.nodes.iter().find(|node| node.state == State::Member).map_or(Set::EMPTY, |node| node.set);
    let sponsor = |&x: &u32| ring::sponsored(cable.chosen, list, x).any(|met| met.member == sender);
    list.nodes().filter(sponsor).fold(Set::EMPTY, Set::with)
}

/// How a run goes: troubles come after about `calm` slots and last for about n / 2; in `tampered` of
/// 100 slots some receivers get other bytes.
pub struct Kind {
    pub slots: u32,
    pub calm: u32,
    pub tampered: u64,
}

/// Runs a cable with any number of jobs and any slot table.
fn run(count: &mut Count, random: &mut Random, (n, k, lag): (u32, u32, u32), kind: &Kind) -> Cable {
    let m = job_count(random);
    let order = slot_tables::order(random, n);
    slot_tables::note(count, n, order);
    run_on(count, random, Cable::new(Choices { n, k, m, lag, order }), kind)
}

/// Runs a cable whose counts are asked for after each call.
pub fn watched(count: &mut Count, random: &mut Random, chosen: Choices, kind: &Kind) -> Cable {
    run_on(count, random, Cable::watched(chosen), kind)
}

/// It starts anew some time after its last member has left.
fn run_on(count: &mut Count, random: &mut Random, mut cable: Cable, kind: &Kind) -> Cable {
    let n = cable.chosen.n;
    let mut trouble = Trouble::Nothing;
    let mut without_member = 0;
    for _ in 0..kind.slots {
        let lasts = if let Trouble::Nothing = trouble { kind.calm } else { n / 2 + 1 };
        if random.below(u64::from(lasts)) == 0 {
            trouble = Trouble::draw(random, n);
        }
        trouble.switches(count, random, &mut cable);
        let tampered = random.below(100) < kind.tampered;
        let fate = Fate { tampered, ..trouble.fate(random, &cable) };
        cable.slot(count, random, fate);
        without_member = if cable.members() == Set::EMPTY { without_member + 1 } else { 0 };
        if without_member > n + n / 2 {
            cable.set_up();
            without_member = 0;
        }
    }
    cable
}

pub fn every_n_and_k(count: &mut Count) -> Result<(), String> {
    let mut random = Random::new(11);
    let mut script = Script::default();
    for n in 3..=32 {
        for (lag, k) in [0, 1].into_iter().flat_map(|lag| (2..n - lag).map(move |k| (lag, k))) {
            let kind = Kind { slots: 6 * n, calm: 3 * n, tampered: 0 };
            run(count, &mut random, (n, k, lag), &kind).into_script(&mut script);
        }
    }
    count.needs(&slot_tables::KINDS)?;
    compare(count, &script)
}

/// Long runs with this lag over the sizes that have it, with any k. All that can happen must happen.
fn long_runs(count: &mut Count, seed: u64, lag: u32, kind: impl Fn(u32) -> Kind) -> Result<(), String> {
    let mut random = Random::new(seed);
    let mut script = Script::default();
    for &n in SIZES.iter().filter(|&&n| n > 2 + lag) {
        for _ in 0..4 {
            let k = random.within(2, u64::from(n - 1 - lag)) as u32;
            run(count, &mut random, (n, k, lag), &kind(n)).into_script(&mut script);
        }
    }
    count.needs(events::OF_CABLES)?;
    count.needs(if lag == 0 { events::OF_CABLES_WITHOUT_LAG } else { events::OF_CABLES_WITH_LAG })?;
    count.needs(events::OF_REPORTS)?;
    count.needs(&slot_tables::KINDS)?;
    compare(count, &script)
}

const SIZES: &[u32] = &[3, 4, 5, 6, 7, 8, 9, 10, 13, 17, 24, 25, 32];

fn calm(count: &mut Count, seed: u64, lag: u32) -> Result<(), String> {
    long_runs(count, seed, lag, |n| Kind { slots: 12_000 / n, calm: 4 * n, tampered: 0 })
}

fn rough(count: &mut Count, seed: u64, lag: u32) -> Result<(), String> {
    long_runs(count, seed, lag, |n| Kind { slots: 12_000 / n, calm: n / 2 + 1, tampered: 0 })
}

fn tampered(count: &mut Count, seed: u64, lag: u32) -> Result<(), String> {
    long_runs(count, seed, lag, |n| Kind { slots: 12_000 / n, calm: 4 * n, tampered: 8 })?;
    count.needs(events::OF_OTHER_M)
}

pub fn calm_without_lag(count: &mut Count) -> Result<(), String> {
    calm(count, 12, 0)
}

pub fn calm_with_lag(count: &mut Count) -> Result<(), String> {
    calm(count, 15, 1)
}

pub fn rough_without_lag(count: &mut Count) -> Result<(), String> {
    rough(count, 13, 0)
}

pub fn rough_with_lag(count: &mut Count) -> Result<(), String> {
    rough(count, 16, 1)
}

pub fn tampered_without_lag(count: &mut Count) -> Result<(), String> {
    tampered(count, 14, 0)
}

pub fn tampered_with_lag(count: &mut Count) -> Result<(), String> {
    tampered(count, 17, 1)
}
