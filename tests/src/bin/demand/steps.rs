//! The five steps of a slot with some of them changed: what the mutants and the rules of an earlier request share.

use comparison::model::message::Said;
use comparison::model::node::{Leaving, Node, State};

/// The sender of the next slot.
pub fn next_sender(node: &Node) -> u32 {
    node.next_sender()
}

/// The steps that may differ; those that are not given are the model's.
pub trait Steps {
    fn step_1(&self, node: &mut Node, sender: u32, heard: Option<Said>) -> Result<(), Leaving> {
        node.step_1(sender, heard)
    }

    fn step_3(&self, node: &mut Node, sender: u32, _heard: Option<Said>) -> Result<(), Leaving> {
        node.step_3(sender)
    }

    fn step_5(&self, node: &mut Node, sender: u32) {
        node.step_5(sender);
    }

    /// Steps 1 to 3.
    fn up_to_departure(&self, node: &mut Node, sender: u32, heard: Option<Said>) -> Result<(), Leaving> {
        if !node.set.has(sender) {
            node.step_2(sender, heard);
            return Ok(());
        }
        self.step_1(node, sender, heard)?;
        self.step_3(node, sender, heard)
    }

    /// All five.
    fn steps(&self, node: &mut Node, sender: u32, heard: Option<Said>) -> Result<(), Leaving> {
        let in_set = node.set.has(sender);
        self.up_to_departure(node, sender, heard)?;
        node.enough_members()?;
        node.step_4()?;
        if in_set {
            self.step_5(node, sender);
        }
        Ok(())
    }
}

/// One slot, by these steps where the node takes any.
pub fn slot(
    node: &Node,
    heard: Option<Said>,
    steps: impl Fn(&mut Node, u32, Option<Said>) -> Result<(), Leaving>,
) -> Node {
    if matches!(node.state, State::Listening | State::Out(_)) {
        return node.step(heard);
    }
    let mut next = Node { slots: node.slots + 1, ..*node };
    if let Err(why) = steps(&mut next, next_sender(node), heard) {
        next.leave(why);
    }
    next
}
