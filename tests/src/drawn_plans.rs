//! Plans drawn line by line with the table before each line in view.

use crate::adversary::{those, Adversary};
use crate::events::{several, KINDS};
use crate::model::bench::Call;
use crate::model::node::State;
use crate::plan::Plan;
use crate::random::Random;
use crate::report::Count;

/// Writes the line of a call and notes what changes in it.
pub fn push(count: &mut Count, plan: &mut Plan, call: Call) {
    let before = plan.nodes.clone();
    let Some(slot) = plan.push(call) else { return };
    slot.changes.iter().for_each(|&(_, kind)| count.event(KINDS[kind as usize - 1]));
    let departures = before.iter().zip(&plan.nodes).filter_map(|(node, after)| several(node, after));
    departures.for_each(|name| count.event(name));
}

/// A plan of so many lines after the first; no line of it is refused.
pub fn plan(count: &mut Count, adversary: &mut Adversary, n: u32, k: u32, lines: u64) -> Plan {
    let mut plan = Plan::new(n, k);
    adversary.calm_down(n);
    for _ in 0..lines {
        let call = adversary.next(&plan.nodes);
        push(count, &mut plan, call);
    }
    plan
}

/// k of this n: often 2 or 3.
pub fn any_k(random: &mut Random, n: u32) -> u32 {
    let most = if random.bit() { n - 1 } else { 3.min(n - 1) };
    random.within(2, u64::from(most)) as u32
}

/// Two plans in five end with a line that is refused, and lines after it.
pub fn end(random: &mut Random, plan: &mut Plan) {
    let n = plan.nodes[0].chosen.n;
    let line = match random.below(20) {
        0 => format!("off {}", wrong_node(random, n)),
        1 => format!("on {}", wrong_node(random, n)),
        2 => format!("miss {} {}", random.within(1, u64::from(n)), n + 1),
        3 => format!("miss {} {}", random.below(u64::from(n) + 3), random.below(u64::from(n) + 3)),
        4 => ["", "o", "ok ", "lost x", "miss", "off", "on"][random.below(7) as usize].to_string(),
        5..=7 => {
            let not_out = those(&plan.nodes, |node| !matches!(node.state, State::Out(_)));
            match not_out.nodes().nth(random.below(u64::from(n)) as usize) {
                Some(x) => format!("on {x}"),
                None => return,
            }
        }
        _ => return,
    };
    plan.text.extend(line.as_bytes());
    plan.text.extend(b"\nok\nlost\noff 1\non 1\nok\n");
}

fn wrong_node(random: &mut Random, n: u32) -> u32 {
    [0, n + 1, n + 2, 64, 257, u32::MAX][random.below(6) as usize]
}
