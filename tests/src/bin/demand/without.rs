//! The rules without one of requests e and f, or with another reading of it or of requests j and k.

use super::steps::{self, Steps};
use comparison::model::bench::Rules;
use comparison::model::choices::Choices;
use comparison::model::message::Said;
use comparison::model::node::{Leaving, Node, State};
use comparison::model::ring;
use comparison::model::slot_table::Order;

#[derive(Clone, Copy, PartialEq, Eq, Debug)]
pub enum Other {
    /// Without request e: "its own mark goes off" in the own slot; a no does nothing.
    WithoutE,
    /// A sponsor that is not heard counts as a no.
    SilenceIsNo,
    /// Without request f: "the decided member leaves if its mark is off", once in a slot.
    WithoutF,
    /// ks stays that of the set as the slot begins.
    KsKept,
    /// The message's bits are read again on each shortened set.
    BitsAgain,
    /// With lag 1 the ks-th member before the sender is decided, not the (ks + lag)-th.
    DecidesEarly,
    /// The decided member stands (ks + lag) back with ks the smaller of k and c - 1: often nobody does.
    KsWithoutLag,
    /// Bits and decisions go back by node number, whatever the slot table.
    WalksByNumber,
    /// A node joins in the slot of the nearest member before it by number.
    JoinsByNumber,
}

use Other::*;

impl Steps for Other {
    fn step_1(&self, node: &mut Node, sender: u32, heard: Option<Said>) -> Result<(), Leaving> {
        match self {
            WithoutE => own_mark_off(node, sender, heard),
            SilenceIsNo => silence_is_no(node, sender, heard),
            WalksByNumber => numbered(node, |node| node.step_1(sender, heard)),
            _ => node.step_1(sender, heard),
        }
    }

    fn step_3(&self, node: &mut Node, sender: u32, heard: Option<Said>) -> Result<(), Leaving> {
        match self {
            WithoutF => node.departing(sender).map_or(Ok(()), |member| node.depart(member)),
            KsKept => ks_kept(node, sender),
            BitsAgain => bits_again(node, sender, heard),
            DecidesEarly => depart_at(node, sender, |node| ring::ks(node.chosen, node.set.count())),
            KsWithoutLag => depart_at(node, sender, |node| {
                let ks = node.chosen.k.min(node.set.count() - 1);
                if ks == 0 {
                    0
                } else {
                    ks + node.chosen.lag
                }
            }),
            WalksByNumber => numbered(node, |node| node.step_3(sender)),
            _ => node.step_3(sender),
        }
    }

    fn step_5(&self, node: &mut Node, sender: u32) {
        match self {
            JoinsByNumber => numbered(node, |node| node.step_5(sender)),
            _ => node.step_5(sender),
        }
    }
}

/// What is done to the record with the plain slot table.
fn numbered<T>(node: &mut Node, step: impl FnOnce(&mut Node) -> T) -> T {
    let order = node.chosen.order;
    node.chosen.order = Order::plain(node.chosen.n);
    let done = step(node);
    node.chosen.order = order;
    done
}

/// The bits of a member by number.
fn numbered_bits(node: &Node) -> u32 {
    let plain = Choices { order: Order::plain(node.chosen.n), ..node.chosen };
    let sponsored = ring::sponsored(plain, node.set, node.own).enumerate();
    sponsored.fold(0, |acks, (bit, met)| acks | u32::from(node.marks.has(met.member)) << bit)
}

impl Rules for Other {
    fn says(&self, node: &Node, jobs: u8) -> Option<Said> {
        let said = node.says(jobs)?;
        Some(match (self, node.state) {
            (WalksByNumber, State::Member) => Said { acks: numbered_bits(node), ..said },
            _ => said,
        })
    }

    fn step(&self, node: &Node, heard: Option<Said>) -> Node {
        steps::slot(node, heard, |node, sender, heard| self.steps(node, sender, heard))
    }
}

/// With yes heard a no does nothing; without request e there is no such mark.
fn own_mark_off(node: &mut Node, sender: u32, heard: Option<Said>) -> Result<(), Leaving> {
    if sender == node.own {
        node.marks = node.marks.without(sender);
        return Ok(());
    }
    node.yes_heard = true;
    let stays = node.step_1(sender, heard);
    node.yes_heard = false;
    stays
}

fn silence_is_no(node: &mut Node, sender: u32, heard: Option<Said>) -> Result<(), Leaving> {
    let sponsors = ring::sponsored(node.chosen, node.set, sender).any(|met| met.member == node.own);
    if heard.is_none() && sponsors && !node.yes_heard {
        node.marks = node.marks.without(node.own);
    }
    node.step_1(sender, heard)
}

/// Where fewer are left, nobody stands so far back.
fn ks_kept(node: &mut Node, sender: u32) -> Result<(), Leaving> {
    let ks = ring::ks(node.chosen, node.set.count());
    let place = if ks == 0 { 0 } else { ks + node.chosen.lag };
    depart_at(node, sender, |_| place)
}

/// The repeat of request f, with the member so many back decided; 0 for nobody.
fn depart_at(node: &mut Node, sender: u32, place: impl Fn(&Node) -> u32) -> Result<(), Leaving> {
    let decided = |node: &Node| {
        let nearer = place(node).checked_sub(1)?;
        ring::members_before(node.chosen, node.set, sender).nth(nearer as usize)
    };
    while let Some(met) = decided(node).filter(|met| !node.marks.has(met.member)) {
        node.depart(met.member)?;
    }
    Ok(())
}

fn bits_again(node: &mut Node, sender: u32, heard: Option<Said>) -> Result<(), Leaving> {
    while let Some(member) = node.departing(sender) {
        node.depart(member)?;
        node.step_1(sender, heard)?;
    }
    Ok(())
}

/// The rules without request f, but a slot ends with step 3: what it leaves is the table "between a departure and a
/// joining in the same slot".
pub struct Between;

impl Rules for Between {
    fn says(&self, node: &Node, jobs: u8) -> Option<Said> {
        node.says(jobs)
    }

    fn step(&self, node: &Node, heard: Option<Said>) -> Node {
        steps::slot(node, heard, |node, sender, heard| WithoutF.up_to_departure(node, sender, heard))
    }
}
