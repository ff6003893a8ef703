//! Whole cables with literal tables after them: the examples of document 01 that concern a cable, those of requests e
//! and f, a power cut of request g, runs that break a premise of the agreement each, and runs with lag 1. Each is
//! followed without jobs and with some, by request h: "membership is the same as if the section were absent".

use super::cable::{Cable, Fate};
use super::compare::compare;
use super::protocol::Script;
use comparison::model::choices::Choices;
use comparison::model::node::{Cause, State};
use comparison::model::ring::Set;
use comparison::random::Random;
use comparison::report::Count;

enum Line {
    Ok,
    Lost,
    Miss(&'static [u32]),
    Off(u32),
    On(u32),
}
use Line::*;

/// A node's state and its set after a plan.
type After = (u32, State, &'static [u32]);

/// n, k and the lag, the lines with the times that each is run, and what is then known of some nodes.
struct Plan {
    what: &'static str,
    ring: (u32, u32, u32),
    lines: &'static [(u32, Line)],
    after: &'static [After],
}

const MEMBER: State = State::Member;
const UNCONFIRMED: State = State::Out(Cause::Unconfirmed);
const OFF: State = State::Out(Cause::SwitchedOff);

/// Request e's example: "A cut feeder silenced 2, 3, 5 and 6 of six controllers, k = 2." So many slots follow.
const fn feeder_cut(slots: u32) -> [(u32, Line); 5] {
    [(1, Off(2)), (1, Off(3)), (1, Off(5)), (1, Off(6)), (slots, Ok)]
}

/// Request g: 5, 6, 1 and 2 of six die one after the other, k = 3. So many slots follow the last off.
const fn power_cut(slots: u32) -> [(u32, Line); 9] {
    [(4, Ok), (1, Off(5)), (1, Ok), (1, Off(6)), (1, Ok), (1, Off(1)), (1, Ok), (1, Off(2)), (slots, Ok)]
}

#[rustfmt::skip]
const PLANS: &[Plan] = &[
    Plan { what: "the listing", ring: (4, 2, 0), lines: &[(1, Ok), (1, Lost), (2, Ok)], after: &[
        (1, MEMBER, &[1, 3, 4]), (2, UNCONFIRMED, &[]), (3, MEMBER, &[1, 3, 4]), (4, MEMBER, &[1, 3, 4]),
    ] },
    Plan { what: "node 3 alone misses slot 2", ring: (4, 2, 0), lines: &[(1, Ok), (1, Miss(&[3])), (2, Ok)], after: &[
        (1, MEMBER, &[1, 2, 3, 4]), (2, MEMBER, &[1, 2, 3, 4]), (3, MEMBER, &[1, 2, 3, 4]), (4, MEMBER, &[1, 2, 3, 4]),
    ] },
    Plan { what: "the same with slot 4 lost", ring: (4, 2, 0), lines: &[(1, Ok), (1, Miss(&[3])), (1, Ok), (1, Lost)], after: &[
        (1, MEMBER, &[1, 2, 3, 4]), (2, UNCONFIRMED, &[]), (3, MEMBER, &[1, 3, 4]),
    ] },
    Plan { what: "two off, slot 3", ring: (4, 3, 0), lines: &[(1, Off(1)), (1, Off(2)), (3, Ok)], after: &[
        (1, OFF, &[]), (2, OFF, &[]), (3, MEMBER, &[1, 2, 3, 4]), (4, MEMBER, &[1, 2, 3, 4]),
    ] },
    // Request f: "The last example of document 01 then has 2 leaving at slot 4."
    Plan { what: "two off, slot 4", ring: (4, 3, 0), lines: &[(1, Off(1)), (1, Off(2)), (4, Ok)], after: &[
        (1, OFF, &[]), (2, OFF, &[]), (3, MEMBER, &[3, 4]), (4, MEMBER, &[3, 4]),
    ] },
    Plan { what: "two off, slot 8", ring: (4, 3, 0), lines: &[(1, Off(1)), (1, Off(2)), (8, Ok)], after: &[
        (1, OFF, &[]), (2, OFF, &[]), (3, MEMBER, &[3, 4]), (4, MEMBER, &[3, 4]),
    ] },
    // Node 5 decides 1 of five, 2 of four and 3 of three.
    Plan { what: "three lost", ring: (5, 4, 0), lines: &[(3, Lost), (2, Ok)], after: &[
        (1, UNCONFIRMED, &[]), (2, UNCONFIRMED, &[]), (3, UNCONFIRMED, &[]), (4, MEMBER, &[4, 5]), (5, MEMBER, &[4, 5]),
    ] },
    // Nodes 1 and 4 hold the same set throughout: 2 leaves at slot 4, 3 at 5, 5 at 7, 6 at 10.
    Plan { what: "feeder cut, slot 3", ring: (6, 2, 0), lines: &feeder_cut(3), after: &[
        (1, MEMBER, &[1, 2, 3, 4, 5, 6]), (4, MEMBER, &[1, 2, 3, 4, 5, 6]),
    ] },
    Plan { what: "feeder cut, slot 4", ring: (6, 2, 0), lines: &feeder_cut(4), after: &[
        (1, MEMBER, &[1, 3, 4, 5, 6]), (4, MEMBER, &[1, 3, 4, 5, 6]),
    ] },
    Plan { what: "feeder cut, slot 6", ring: (6, 2, 0), lines: &feeder_cut(6), after: &[
        (1, MEMBER, &[1, 4, 5, 6]), (4, MEMBER, &[1, 4, 5, 6]),
    ] },
    Plan { what: "feeder cut, slot 9", ring: (6, 2, 0), lines: &feeder_cut(9), after: &[
        (1, MEMBER, &[1, 4, 6]), (4, MEMBER, &[1, 4, 6]),
    ] },
    Plan { what: "feeder cut, slot 10", ring: (6, 2, 0), lines: &feeder_cut(10), after: &[
        (1, MEMBER, &[1, 4]), (2, OFF, &[]), (3, OFF, &[]), (4, MEMBER, &[1, 4]), (5, OFF, &[]), (6, OFF, &[]),
    ] },
    Plan { what: "feeder cut, slot 30", ring: (6, 2, 0), lines: &feeder_cut(30), after: &[
        (1, MEMBER, &[1, 4]), (4, MEMBER, &[1, 4]),
    ] },
    // Slot 7 decides node 4, whose three sponsors are dead: it stays. Slot 8 is 2's and takes 5, slot 9 takes 6, and in
    // slot 10 node 4 decides 1 of four and 2 of three.
    Plan { what: "power cut, slot 7", ring: (6, 3, 0), lines: &power_cut(0), after: &[
        (1, OFF, &[]), (2, OFF, &[]), (3, MEMBER, &[1, 2, 3, 4, 5, 6]), (4, MEMBER, &[1, 2, 3, 4, 5, 6]), (5, OFF, &[]), (6, OFF, &[]),
    ] },
    Plan { what: "power cut, slot 8", ring: (6, 3, 0), lines: &power_cut(1), after: &[
        (3, MEMBER, &[1, 2, 3, 4, 6]), (4, MEMBER, &[1, 2, 3, 4, 6]),
    ] },
    Plan { what: "power cut, slot 9", ring: (6, 3, 0), lines: &power_cut(2), after: &[
        (3, MEMBER, &[1, 2, 3, 4]), (4, MEMBER, &[1, 2, 3, 4]),
    ] },
    Plan { what: "power cut, slot 10", ring: (6, 3, 0), lines: &power_cut(3), after: &[
        (3, MEMBER, &[3, 4]), (4, MEMBER, &[3, 4]),
    ] },
    // Both sponsors of node 1 miss it.
    Plan { what: "k failures", ring: (4, 2, 0), lines: &[(1, Miss(&[2, 3])), (2, Ok)], after: &[
        (1, UNCONFIRMED, &[]), (2, MEMBER, &[2, 3, 4]), (3, MEMBER, &[2, 3, 4]), (4, MEMBER, &[1, 2, 3, 4]),
    ] },
    // The knock of node 1 in slot 21 is lost, and node 2 knocks in slot 22.
    Plan { what: "two transmissions from outside", ring: (5, 2, 0),
           lines: &[(1, Lost), (3, Ok), (1, On(1)), (2, Ok), (1, Lost), (2, Ok), (1, On(2)), (11, Ok), (1, Lost), (4, Ok)], after: &[
        (1, MEMBER, &[1, 3, 4, 5]), (3, MEMBER, &[2, 3, 4, 5]), (4, MEMBER, &[2, 3, 4, 5]), (5, MEMBER, &[2, 3, 4, 5]),
    ] },
    // Node 4 decides node 2 with ks = 2, and node 1, which heard it, joins with all four.
    Plan { what: "fewer than k + 1 members", ring: (4, 3, 0),
           lines: &[(1, Lost), (3, Ok), (1, On(1)), (9, Ok), (1, Miss(&[3, 4])), (2, Ok)], after: &[
        (1, MEMBER, &[1, 2, 3, 4]), (3, MEMBER, &[1, 3, 4]), (4, MEMBER, &[1, 3, 4]),
    ] },
    // Node 4 decides 1 of four, and 2 of three before the third member after it has its slot.
    Plan { what: "two lost", ring: (4, 3, 0), lines: &[(2, Lost), (2, Ok)], after: &[
        (1, UNCONFIRMED, &[]), (2, UNCONFIRMED, &[]), (3, MEMBER, &[3, 4]), (4, MEMBER, &[3, 4]),
    ] },
    // In slot 19 node 4 decides 5 of four and 2 of three; then node 1 joins.
    Plan { what: "k members between a departure and a joining", ring: (5, 3, 0),
           lines: &[(1, Lost), (3, Ok), (1, On(1)), (10, Ok), (1, Lost), (1, Ok), (1, Lost), (2, Ok)], after: &[
        (1, MEMBER, &[1, 3, 4]), (2, UNCONFIRMED, &[]), (3, MEMBER, &[1, 3, 4]), (4, MEMBER, &[1, 3, 4]), (5, UNCONFIRMED, &[]),
    ] },
    // Node 1 misses node 2 in both windows, follows the other two and joins.
    Plan { what: "a returning node that misses", ring: (4, 2, 0),
           lines: &[(1, Off(1)), (1, On(1)), (1, Ok), (1, Miss(&[1])), (3, Ok), (1, Miss(&[1])), (2, Ok)], after: &[
        (1, State::Following, &[3, 4]),
    ] },
    Plan { what: "a returning node that misses, later", ring: (4, 2, 0),
           lines: &[(1, Off(1)), (1, On(1)), (1, Ok), (1, Miss(&[1])), (3, Ok), (1, Miss(&[1])), (6, Ok)], after: &[
        (1, MEMBER, &[1, 3, 4]),
    ] },
    // Lag 1: the third member after 2 is 1, in slot 5.
    Plan { what: "slot 2 lost with lag 1, slot 4", ring: (4, 2, 1), lines: &[(1, Ok), (1, Lost), (2, Ok)], after: &[
        (1, MEMBER, &[1, 2, 3, 4]), (2, MEMBER, &[1, 2, 3, 4]), (3, MEMBER, &[1, 2, 3, 4]), (4, MEMBER, &[1, 2, 3, 4]),
    ] },
    Plan { what: "slot 2 lost with lag 1, slot 5", ring: (4, 2, 1), lines: &[(1, Ok), (1, Lost), (3, Ok)], after: &[
        (1, MEMBER, &[1, 3, 4]), (2, UNCONFIRMED, &[]), (3, MEMBER, &[1, 3, 4]), (4, MEMBER, &[1, 3, 4]),
    ] },
    // Node 2 does not sponsor node 1; node 3 does, but so does 4.
    Plan { what: "node 2 alone misses slot 1 with lag 1", ring: (4, 2, 1), lines: &[(1, Miss(&[2])), (7, Ok)], after: &[
        (1, MEMBER, &[1, 2, 3, 4]), (2, MEMBER, &[1, 2, 3, 4]), (3, MEMBER, &[1, 2, 3, 4]), (4, MEMBER, &[1, 2, 3, 4]),
    ] },
    Plan { what: "node 3 alone misses slot 1 with lag 1", ring: (4, 2, 1), lines: &[(1, Miss(&[3])), (7, Ok)], after: &[
        (1, MEMBER, &[1, 2, 3, 4]), (2, MEMBER, &[1, 2, 3, 4]), (3, MEMBER, &[1, 2, 3, 4]), (4, MEMBER, &[1, 2, 3, 4]),
    ] },
    Plan { what: "both sponsors with lag 1", ring: (4, 2, 1), lines: &[(1, Miss(&[3, 4])), (3, Ok)], after: &[
        (1, UNCONFIRMED, &[]), (2, MEMBER, &[1, 2, 3, 4]), (3, MEMBER, &[2, 3, 4]), (4, MEMBER, &[2, 3, 4]),
    ] },
    // Node 4 decides 1 of four, 2 of three, and of two nobody.
    Plan { what: "two off with lag 1, slot 3", ring: (4, 2, 1), lines: &[(1, Off(1)), (1, Off(2)), (3, Ok)], after: &[
        (3, MEMBER, &[1, 2, 3, 4]), (4, MEMBER, &[1, 2, 3, 4]),
    ] },
    Plan { what: "two off with lag 1, slot 4", ring: (4, 2, 1), lines: &[(1, Off(1)), (1, Off(2)), (4, Ok)], after: &[
        (1, OFF, &[]), (2, OFF, &[]), (3, MEMBER, &[3, 4]), (4, MEMBER, &[3, 4]),
    ] },
    // Nobody is decided of two: the one that hears nothing leaves by itself.
    Plan { what: "three off with lag 1", ring: (4, 2, 1), lines: &[(1, Off(1)), (1, Off(2)), (6, Ok), (1, Off(4)), (2, Ok)], after: &[
        (3, State::Out(Cause::NothingHeard), &[]), (4, OFF, &[]),
    ] },
    // Two of four heard say no to 1 in the first window; it follows after two more, and knocks in slot 16.
    Plan { what: "coming back with lag 1, slot 15", ring: (5, 2, 1), lines: &[(1, Off(1)), (1, On(1)), (15, Ok)], after: &[
        (1, State::Following, &[2, 3, 4, 5]), (2, MEMBER, &[2, 3, 4, 5]), (5, MEMBER, &[2, 3, 4, 5]),
    ] },
    Plan { what: "coming back with lag 1, slot 20", ring: (5, 2, 1), lines: &[(1, Off(1)), (1, On(1)), (20, Ok)], after: &[
        (1, MEMBER, &[1, 2, 3, 4, 5]), (2, MEMBER, &[1, 2, 3, 4, 5]), (3, MEMBER, &[1, 2, 3, 4, 5]), (5, MEMBER, &[1, 2, 3, 4, 5]),
    ] },
    // Four members are one too few for k = 3: node 5 decides 2 with ks = 2, and node 1, which heard it, joins with all.
    Plan { what: "fewer than k + 2 members with lag 1", ring: (5, 3, 1),
           lines: &[(1, Lost), (4, Ok), (1, On(1)), (11, Ok), (1, Miss(&[4, 5])), (3, Ok)], after: &[
        (1, MEMBER, &[1, 2, 3, 4, 5]), (2, UNCONFIRMED, &[]), (3, MEMBER, &[1, 2, 3, 4, 5]), (4, MEMBER, &[1, 3, 4, 5]), (5, MEMBER, &[1, 3, 4, 5]),
    ] },
    // In slot 23 node 5 decides 6 of five and 2 of four; then node 1 joins.
    Plan { what: "k + 1 members between a departure and a joining with lag 1", ring: (6, 3, 1),
           lines: &[(1, Lost), (4, Ok), (1, On(1)), (12, Ok), (1, Lost), (1, Ok), (1, Lost), (3, Ok)], after: &[
        (1, MEMBER, &[1, 3, 4, 5]), (2, UNCONFIRMED, &[]), (3, MEMBER, &[1, 3, 4, 5]), (4, MEMBER, &[1, 3, 4, 5]), (5, MEMBER, &[1, 3, 4, 5]), (6, UNCONFIRMED, &[]),
    ] },
    // Request e's example with lag 1: 2 leaves at slot 5, 3 at 6, 5 and 6 at 10.
    Plan { what: "feeder cut with lag 1, slot 4", ring: (6, 2, 1), lines: &feeder_cut(4), after: &[
        (1, MEMBER, &[1, 2, 3, 4, 5, 6]), (4, MEMBER, &[1, 2, 3, 4, 5, 6]),
    ] },
    Plan { what: "feeder cut with lag 1, slot 5", ring: (6, 2, 1), lines: &feeder_cut(5), after: &[
        (1, MEMBER, &[1, 3, 4, 5, 6]), (4, MEMBER, &[1, 3, 4, 5, 6]),
    ] },
    Plan { what: "feeder cut with lag 1, slot 9", ring: (6, 2, 1), lines: &feeder_cut(9), after: &[
        (1, MEMBER, &[1, 4, 5, 6]), (4, MEMBER, &[1, 4, 5, 6]),
    ] },
    Plan { what: "feeder cut with lag 1, slot 10", ring: (6, 2, 1), lines: &feeder_cut(10), after: &[
        (1, MEMBER, &[1, 4]), (2, OFF, &[]), (3, OFF, &[]), (4, MEMBER, &[1, 4]), (5, OFF, &[]), (6, OFF, &[]),
    ] },
];

fn follow(count: &mut Count, random: &mut Random, m: u32, plan: &Plan) -> Result<Cable, String> {
    let (n, k, lag) = plan.ring;
    let mut cable = Cable::new(Choices::of(n, k, m, lag));
    for &(times, ref line) in plan.lines {
        for _ in 0..times {
            let fate = match *line {
                Off(x) => {
                    cable.off(count, x);
                    continue;
                }
                On(x) => {
                    cable.on(count, x);
                    continue;
                }
                Ok => Fate::default(),
                Lost => Fate { lost: true, ..Fate::default() },
                Miss(nodes) => Fate {
                    missed_by: nodes.iter().fold(Set::EMPTY, |set, &x| set.with(x)),
                    ..Fate::default()
                },
            };
            cable.slot(count, random, fate);
        }
    }
    Result::Ok(cable)
}

pub fn whole_cables(count: &mut Count) -> Result<(), String> {
    let mut random = Random::new(1);
    let mut script = Script::default();
    for (plan, m) in PLANS.iter().flat_map(|plan| [(plan, 0), (plan, 3), (plan, 8)]) {
        let cable = follow(count, &mut random, m, plan)?;
        for &(x, state, set) in plan.after {
            let node = cable.node(x);
            let got = node.set.nodes().collect::<Vec<u32>>();
            count.check(node.state == state && got == set, || {
                format!(
                    "{}, m = {m}: model: node {x} is {:?} with {got:?}, by the plan {state:?} with {set:?}",
                    plan.what, node.state
                )
            })?;
        }
        cable.into_script(&mut script);
    }
    compare(count, &script)
}
