//! Plans for the bench program as text, and the table that the model has after their lines.

use crate::model::bench::{self, Call, Document01, Slot};
use crate::model::choices::Choices;
use crate::model::node::Node;

/// A plan that no line of is refused, as far as it is written.
pub struct Plan {
    pub text: Vec<u8>,
    pub nodes: Vec<Node>,
}

impl Plan {
    pub fn new(n: u32, k: u32) -> Plan {
        let nodes = bench::set_up(Choices::plain(n, k), n as usize).expect("n and k are in range");
        Plan { text: format!("{n} {k}\n").into_bytes(), nodes }
    }

    /// Writes the line of a call that is not refused; what happens in it, if it is a slot.
    pub fn push(&mut self, call: Call) -> Option<Slot> {
        self.text.extend(line(call).into_bytes());
        bench::run(&Document01, &mut self.nodes, call).expect("the call is not refused")
    }
}

/// The line for a call, with its line feed. A lost slot names nobody, since no line does both.
pub fn line(call: Call) -> String {
    match call {
        Call::Slot { lost: true, .. } => "lost\n".to_string(),
        Call::Slot { missed, .. } if missed.count() == 0 => "ok\n".to_string(),
        Call::Slot { missed, .. } => {
            let numbers: Vec<String> = missed.nodes().map(|x| x.to_string()).collect();
            format!("miss {}\n", numbers.join(" "))
        }
        Call::Off(x) => format!("off {x}\n"),
        Call::Restart(x) => format!("on {x}\n"),
    }
}
