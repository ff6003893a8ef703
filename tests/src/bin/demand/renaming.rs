//! Request k: "For every other table the node records and the distance after each slot must equal those of the plain run
//! with the nodes renamed in records and calls, the kept table aside." The changes of a slot "match as a set only". The
//! ledger and the counts are renamed too.

use comparison::adversary::Adversary;
use comparison::messages::{job_byte, spare_job_byte};
use comparison::model::bench::{self, Beside, Call, Kind, Message, Slot, ROOM};
use comparison::model::choices::Choices;
use comparison::model::counts::{Counts, NONE};
use comparison::model::ledger::Figures;
use comparison::model::node::{ListeningData, Node};
use comparison::model::ring::{is_node, Set};
use comparison::model::slot_table::Order;
use comparison::random::Random;
use comparison::record_bytes::shown_record;
use comparison::records::choices_of;
use comparison::report::Count;
use comparison::slot_tables::other_table;

/// The node that speaks at place p of the plain table, p itself, is the one at this place of another table.
#[derive(Clone, Copy)]
struct Names {
    n: u32,
    order: Order,
}

impl Names {
    /// A number that names no node stays.
    fn node(self, x: u32) -> u32 {
        if is_node(self.n, x) {
            self.order.speaker(x)
        } else {
            x
        }
    }

    fn set(self, set: Set) -> Set {
        set.nodes().fold(Set::EMPTY, |named, x| named.with(self.node(x)))
    }

    fn record(self, node: &Node) -> Node {
        let ListeningData { heard, last, .. } = node.listening;
        Node {
            chosen: Choices { order: self.order, ..node.chosen },
            own: self.node(node.own),
            set: self.set(node.set),
            marks: self.set(node.marks),
            returning: self.node(node.returning),
            listening: ListeningData { heard: self.set(heard), last: self.set(last), ..node.listening },
            ..*node
        }
    }

    fn call(self, call: Call) -> Call {
        match call {
            Call::Slot { lost, missed } => Call::Slot { lost, missed: self.set(missed) },
            Call::Off(x) => Call::Off(self.node(x)),
            Call::Restart(x) => Call::Restart(self.node(x)),
        }
    }

    /// What there is of each node, node 1's first, in the order of the new names.
    fn each<T: Clone>(self, old: &[T], named: impl Fn(&T) -> T) -> Vec<T> {
        let mut new = old.to_vec();
        for (x, value) in (1..).zip(old) {
            new[self.node(x) as usize - 1] = named(value);
        }
        new
    }

    /// All of a bench.
    fn bench(self, bench: &Bench) -> Bench {
        Bench {
            nodes: self.each(&bench.nodes, |node| self.record(node)),
            ledger: self.each(&bench.ledger, |figures| *figures),
            counts: self.each(&bench.counts, |counts| self.counts(counts)),
        }
    }

    /// The rows past n stay.
    fn counts(self, counts: &Counts) -> Counts {
        let mut new = *counts;
        for (x, row) in (1..=self.n).zip(counts) {
            new[self.node(x) as usize - 1] = *row;
        }
        new
    }
}

/// A table and what is lent beside it.
#[derive(Clone, PartialEq)]
struct Bench {
    nodes: Vec<Node>,
    ledger: Vec<Figures>,
    counts: Vec<Counts>,
}

impl Bench {
    fn set_up(chosen: Choices) -> Bench {
        let n = chosen.n as usize;
        let nodes = bench::set_up(chosen, n).expect("the choices are in range");
        Bench { nodes, ledger: vec![Figures::default(); n], counts: vec![NONE; n] }
    }

    fn call(&mut self, call: Call, jobs: u8) -> Result<Option<Slot>, u32> {
        let (ledger, counts) = (&mut self.ledger[..], &mut self.counts[..]);
        match call {
            Call::Slot { lost, missed } => {
                let message = Message { lost, missed, jobs };
                bench::slot(&mut self.nodes, Beside { ledger, counts }, message, ROOM).map(Some)
            }
            Call::Off(x) => bench::off(&mut self.nodes, ledger, x).map(|()| None),
            Call::Restart(x) => bench::restart(&mut self.nodes, x).map(|()| None),
        }
    }
}

/// What a call tells that is renamed with the nodes: the refusal, or of a slot the sender, its message and the changes as
/// a set.
fn told(answer: Result<Option<Slot>, u32>, name: impl Fn(u32) -> u32) -> String {
    let slot = |slot: Slot| {
        let mut changes: Vec<(u32, Kind)> = slot.changes.iter().map(|&(x, kind)| (name(x), kind)).collect();
        changes.sort_by_key(|change| change.0);
        format!("sender {}, {:?}, {changes:?}", name(slot.sender), slot.fate)
    };
    format!("{:?}", answer.map(|happened| happened.map(slot)))
}

/// The next call: one that is refused now and then.
fn next(adversary: &mut Adversary, nodes: &[Node]) -> (Call, u8) {
    let Choices { n, m, .. } = nodes[0].chosen;
    let random = &mut adversary.random;
    let jobs = match random.below(24) {
        0 => spare_job_byte(random, m).unwrap_or(0),
        _ => job_byte(random, m),
    };
    let no_node = [0, n + 1, u32::MAX][random.below(3) as usize];
    let call = match random.below(48) {
        0 => Call::Off(no_node),
        1 => Call::Restart(no_node),
        2 => Call::Restart(random.within(1, u64::from(n)) as u32),
        3 if n < 32 => Call::Slot { lost: false, missed: Set::EMPTY.with(n + 1) },
        _ => adversary.next(nodes),
    };
    (call, jobs)
}

const MET: [&str; 11] = [
    "distance: 0",
    "distance: above 0",
    "refused: 3",
    "refused: 8",
    "refused: 11",
    "changes: left",
    "changes: listening to following",
    "changes: knocked",
    "changes: joined",
    "changes: knocking to following",
    "changes: to listening",
];

fn note(count: &mut Count, answer: &Result<Option<Slot>, u32>, distance: u32) {
    count.expected(answer.as_ref().err().copied().unwrap_or(0));
    count.event(MET[usize::from(distance > 0)]);
    match answer {
        Err(3) => count.event(MET[2]),
        Err(8) => count.event(MET[3]),
        Err(11) => count.event(MET[4]),
        Ok(Some(slot)) => slot.changes.iter().for_each(|change| count.event(MET[4 + change.1 as usize])),
        _ => {}
    }
}

fn run(count: &mut Count, adversary: &mut Adversary, chosen: Choices, calls: u32) -> Result<(), String> {
    let names = Names { n: chosen.n, order: chosen.order };
    let mut plain = Bench::set_up(Choices { order: Order::plain(chosen.n), ..chosen });
    let mut other = Bench::set_up(chosen);
    adversary.calm_down(chosen.n);
    for i in 1..=calls {
        let (call, jobs) = next(adversary, &plain.nodes);
        let answer = plain.call(call, jobs);
        let distance = bench::greatest_distance(&plain.nodes);
        note(count, &answer, distance);
        let same_told = told(answer, |x| names.node(x)) == told(other.call(names.call(call), jobs), |x| x);
        let same_distance = distance == bench::greatest_distance(&other.nodes);
        let renamed = names.bench(&plain);
        count.check(same_told && same_distance && renamed == other, || {
            let pair = renamed.nodes.iter().zip(&other.nodes).find(|(a, b)| a != b);
            let shown =
                pair.map(|(a, b)| format!("renamed {}\n        got {}", shown_record(a), shown_record(b)));
            format!(
                "{chosen:?}, call {i}: told alike {same_told}, distance alike {same_distance}\n        {}",
                shown.unwrap_or_default()
            )
        })?;
    }
    Ok(())
}

/// Runs of every n, both lags and any m, with tables that are not the plain one.
pub fn generated(count: &mut Count) -> Result<(), String> {
    let mut adversary = Adversary::new(141);
    for n in (3..=32).flat_map(|n| [n; 12]) {
        let random: &mut Random = &mut adversary.random;
        let order = Order::kept(&other_table(random, n));
        let chosen = Choices { order, ..choices_of(random, n) };
        count.event(["lag: 0", "lag: 1"][chosen.lag as usize]);
        run(count, &mut adversary, chosen, 15 * n)?;
    }
    count.needs(&["lag: 0", "lag: 1"])?;
    count.needs(&MET)
}
