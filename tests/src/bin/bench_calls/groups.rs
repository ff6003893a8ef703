//! Slots with many changes, "first .. the nodes that left, then all the others, each group by rising node
//! number". What changes is known from how the tables are made; the model is compared with that, and the program
//! with the model.

use super::compare::{compare, BOTH, LOWER};
use super::protocol::{Call, Command, FILL};
use super::script::{Script, ENOUGH};
use super::tables;
use comparison::events::KINDS;
use comparison::model::bench::{next_sender, Kind};
use comparison::model::choices::Choices;
use comparison::model::node::{Cause, ListeningData, Node, State};
use comparison::model::ring::Set;
use comparison::random::Random;
use comparison::report::Count;

/// What a node does in a slot whose message is lost; `None` is an out node.
type Role = Option<Kind>;

/// One of those open to a node. The sender alone can knock. A knocking node needs the sender as the nearest member
/// before it, and one member more.
fn role(random: &mut Random, node: &Node, sender: u32) -> Role {
    let knocking = sender != node.own && sender != after(node);
    match random.below(8) {
        0 | 1 => Some(Kind::Left),
        2 => Some(Kind::Follows),
        3 if sender == node.own => Some(Kind::Knocked),
        4 if knocking => Some(Kind::Joined),
        5 if knocking => Some(Kind::FollowsAgain),
        6 if sender != node.own => Some(Kind::Listens),
        7 => None,
        _ => Some(Kind::Left),
    }
}

/// The node whose slot comes after this one's.
fn after(node: &Node) -> u32 {
    next_to(node.chosen, node.own)
}

/// The same of node x.
fn next_to(Choices { n, order, .. }: Choices, x: u32) -> u32 {
    let place = order.place(n, x).expect("the table has each node");
    order.speaker(place % n + 1)
}

/// Two nodes other than this one: that of the next slot, and the sender unless it is one of these.
fn two_others(node: &Node, sender: u32) -> Set {
    let next = after(node);
    let far = if sender != node.own && sender != next { sender } else { next_to(node.chosen, next) };
    Set::EMPTY.with(next).with(far)
}

/// A sound record of this role.
fn record(random: &mut Random, node: &Node, sender: u32, role: Role) -> Node {
    let blank = Node { set: Set::EMPTY, marks: Set::EMPTY, state: State::Out(Cause::SwitchedOff), ..*node };
    let others = two_others(node, sender);
    let returns = Node { set: others, marks: others, ..blank };
    let knocks = Node { state: State::Knocking, returning: node.own, ..returns };
    let (done, shortest) = (node.chosen.n - 1, node.chosen.k);
    let window = ListeningData { done, heard: others, shortest, return_seen: false, last: others };
    match role {
        None => blank,
        // No other member is marked.
        Some(Kind::Left) => {
            let set = random.some_of(Set::full(node.chosen.n)).with(node.own);
            let (marks, yes_heard) = (random.some_of(Set::EMPTY.with(node.own)), random.bit());
            Node { state: State::Member, set, marks, yes_heard, ..blank }
        }
        Some(Kind::Follows) => Node { state: State::Listening, listening: window, ..blank },
        Some(Kind::Knocked) => Node { state: State::Following, ..returns },
        Some(Kind::Joined) => Node { return_heard: true, ..knocks },
        Some(Kind::FollowsAgain) => knocks,
        Some(Kind::Listens) if random.bit() => Node { marks: Set::EMPTY, ..knocks },
        Some(Kind::Listens) => Node { state: State::Following, marks: Set::EMPTY, ..returns },
    }
}

/// The buffer after a slot of these roles, node 1's the first: the pairs, then the bytes that stood there.
fn buffer(roles: &[Role], room: u8) -> Vec<u8> {
    let mut bytes = Vec::new();
    for leaves in [true, false] {
        for (node, role) in (1..).zip(roles) {
            match *role {
                Some(kind) if (kind == Kind::Left) == leaves => bytes.extend([node, kind as u8]),
                _ => {}
            }
        }
    }
    bytes.resize(usize::from(room), FILL);
    bytes
}

pub fn pairs(count: &mut Count) -> Result<(), String> {
    let mut random = Random::new(118);
    let mut script = Script::new();
    for n in (3..=32).flat_map(|n| [n; 40]) {
        let (chosen, slots) = tables::ring_of(&mut random, n);
        let mut table: Vec<Node> =
            (1..=n).map(|own| Node { slots, ..Node::set_up(chosen, own).expect("in range") }).collect();
        let sender = next_sender(&table);
        let roles: Vec<Role> = table.iter().map(|node| role(&mut random, node, sender)).collect();
        for (node, &role) in table.iter_mut().zip(&roles) {
            *node = record(&mut random, node, sender, role);
        }
        script.load(&mut random, &table);
        let room = ENOUGH[random.below(6) as usize];
        script.push(Command::Call(Call::Slot { lost: true, missed: 0, jobs: 0 }, room));
        let (got, expected) = (script.buffer(), buffer(&roles, room));
        count.check(got == expected, || {
            format!("n = {n}, sender {sender}, roles {roles:?}\n        by the model {got:?}")
        })?;
    }
    compare(count, &script.commands)?;
    count.needs(&KINDS)?;
    count.needs(&[BOTH])?;
    count.needs(&LOWER)
}
