//! Rules with one change each. Under the premises each of them must break demand 3. Some changes are none of them,
//! since the demand holds with them; the vectors of single nodes rule them out. A no that erases an earlier yes is
//! one. With request f one clean window, or two with unequal nodes, are others: a node that follows then lacks only
//! members that were lost at the window's end, and where its shorter set decides another, the repeat takes the
//! members to that set too. With lag 1 bits that begin with the nearest member are one more, if only the decision waits,
//! and so is a listening rule that asks for shorter runs.

use super::steps::{self, next_sender, Steps};
use comparison::model::bench::Rules;
use comparison::model::message::Said;
use comparison::model::node::{Leaving, Node, State};
use comparison::model::ring::{self, Set};

#[derive(Clone, Copy, PartialEq, Eq, Debug)]
pub enum Mutant {
    /// A no for the own message is ignored: the own mark never goes off.
    NoIgnored,
    /// Yes heard is not cleared in the own slot.
    YesStays,
    /// A yes for anybody counts as one for the own message.
    AnyYes,
    /// So does a sponsor that is not heard.
    SilenceIsYes,
    /// A return bit of 1 heard while returning is 0 is ignored.
    NoCause3,
    /// The return bit is always sent as 0.
    NoReturnBit,
    /// A knocking node joins without a return bit heard.
    JoinsUnheard,
    /// Sponsors are counted back by node number, gaps included.
    SponsorsByNumber,
    /// The decision falls out where the sender is not heard.
    NoDecisionUnheard,
    /// A departure goes on to the nearer members, past a marked one too: each sponsored one whose mark is off
    /// leaves.
    AllSponsored,
    /// After a departure the next nearer member is decided, however many are left.
    NextNearer,
}

use Mutant::*;

/// All of them, with the names that the report shows.
pub const ALL: [(Mutant, &str); 11] = [
    (NoIgnored, "claim fails: a no for the own message is ignored"),
    (YesStays, "claim fails: yes heard is not cleared in the own slot"),
    (AnyYes, "claim fails: a yes for anybody counts for the own message"),
    (SilenceIsYes, "claim fails: an unheard sponsor counts as a yes for the own message"),
    (NoCause3, "claim fails: no leaving with cause 3"),
    (NoReturnBit, "claim fails: the return bit is never sent"),
    (JoinsUnheard, "claim fails: a knocking node joins unheard"),
    (SponsorsByNumber, "claim fails: sponsors counted by number across gaps"),
    (NoDecisionUnheard, "claim fails: no decision where the sender is not heard"),
    (AllSponsored, "claim fails: each sponsored member whose mark is off leaves"),
    (NextNearer, "claim fails: after a departure the next nearer member is decided"),
];

impl Rules for Mutant {
    fn says(&self, node: &Node, jobs: u8) -> Option<Said> {
        let said = node.says(jobs)?;
        Some(match self {
            NoReturnBit => Said { return_bit: false, ..said },
            SponsorsByNumber if node.state == State::Member => Said { acks: acks_by_number(node), ..said },
            _ => said,
        })
    }

    fn step(&self, node: &Node, heard: Option<Said>) -> Node {
        let mut node = *node;
        match (self, node.state) {
            (NoIgnored, State::Member) => {
                node.yes_heard = true;
                node.step(heard)
            }
            (YesStays, State::Member) => yes_stays(&node, heard),
            (AnyYes | SilenceIsYes, State::Member) => {
                if self.takes_for_yes(&node, heard) {
                    node.yes_heard = true;
                    node.marks = node.marks.with(node.own);
                }
                node.step(heard)
            }
            (JoinsUnheard, State::Knocking) => {
                node.return_heard = true;
                node.step(heard)
            }
            (NoCause3, State::Member | State::Following) => {
                let returning = node.returning != 0;
                node.step(heard.map(|said| Said { return_bit: said.return_bit && returning, ..said }))
            }
            (SponsorsByNumber | NoDecisionUnheard | AllSponsored | NextNearer, _) => {
                steps::slot(&node, heard, |node, sender, heard| self.steps(node, sender, heard))
            }
            _ => node.step(heard),
        }
    }
}

fn yes_stays(node: &Node, heard: Option<Said>) -> Node {
    let mut next = node.step(heard);
    next.yes_heard |= node.yes_heard && next.state == State::Member;
    next
}

/// The nodes before x by number: as many as a member sponsors, members or not.
fn by_number(node: &Node, x: u32) -> impl Iterator<Item = u32> {
    let (sponsored, lag) = (ring::ks(node.chosen, node.set.count()), node.chosen.lag);
    let nodes = ring::members_before(node.chosen, Set::full(node.chosen.n), x);
    nodes.skip(lag as usize).take(sponsored as usize).map(|met| met.member)
}

fn acks_by_number(node: &Node) -> u32 {
    by_number(node, node.own).enumerate().fold(0, |acks, (bit, x)| acks | u32::from(node.marks.has(x)) << bit)
}

/// The same acknowledgements in the places that the rules give them; 0 for whom none is sent.
fn acks_by_member(node: &Node, sender: u32, acks: u32) -> u32 {
    let said_yes = |x| by_number(node, sender).position(|y| y == x).is_some_and(|bit| acks >> bit & 1 == 1);
    let sponsored = ring::sponsored(node.chosen, node.set, sender);
    sponsored.enumerate().fold(0, |acks, (bit, met)| acks | u32::from(said_yes(met.member)) << bit)
}

/// No bit was sent for the own message: its mark is as before.
fn unanswered(node: &mut Node, before: &Node) {
    node.yes_heard = before.yes_heard;
    if before.marks.has(node.own) {
        node.marks = node.marks.with(node.own);
    }
}

impl Mutant {
    /// What is heard in the next slot, or not, counts as a yes for this member's own message.
    fn takes_for_yes(self, node: &Node, heard: Option<Said>) -> bool {
        let sender = next_sender(node);
        let sponsors = |x| ring::sponsored(node.chosen, node.set, sender).any(|met| met.member == x);
        node.set.has(sender)
            && match heard {
                None => self == SilenceIsYes && sponsors(node.own),
                Some(said) => self == AnyYes && said.acks != 0,
            }
    }
}

impl Steps for Mutant {
    fn step_1(&self, node: &mut Node, sender: u32, heard: Option<Said>) -> Result<(), Leaving> {
        match heard {
            Some(said) if *self == SponsorsByNumber => {
                let before = *node;
                let heard = Some(Said { acks: acks_by_member(node, sender, said.acks), ..said });
                node.step_1(sender, heard)?;
                if by_number(node, sender).all(|x| x != node.own) {
                    unanswered(node, &before);
                }
                Ok(())
            }
            _ => node.step_1(sender, heard),
        }
    }

    fn step_3(&self, node: &mut Node, sender: u32, heard: Option<Said>) -> Result<(), Leaving> {
        let unheard = heard.is_none() && sender != node.own;
        match self {
            SponsorsByNumber => depart_by_number(node, sender),
            NoDecisionUnheard if unheard => Ok(()),
            AllSponsored => depart_sponsored(node, sender, |_| true),
            NextNearer => depart_sponsored(node, sender, |marked| !marked),
            _ => node.step_3(sender),
        }
    }
}

/// The repeat of request f; it ends, too, where the decided number is no member's.
fn depart_by_number(node: &mut Node, sender: u32) -> Result<(), Leaving> {
    let decided = |node: &Node| by_number(node, sender).last();
    while let Some(x) = decided(node).filter(|&x| node.set.has(x) && !node.marks.has(x)) {
        node.depart(x)?;
    }
    Ok(())
}

/// The sponsored members one after the other, the furthest first, as long as `goes_on` says so of one that is marked
/// or not; those whose mark is off leave.
fn depart_sponsored(node: &mut Node, sender: u32, goes_on: fn(bool) -> bool) -> Result<(), Leaving> {
    let sponsored: Vec<u32> = ring::sponsored(node.chosen, node.set, sender).map(|met| met.member).collect();
    for &x in sponsored.iter().rev() {
        let marked = node.marks.has(x);
        if !marked {
            node.depart(x)?;
        }
        if !goes_on(marked) {
            break;
        }
    }
    Ok(())
}
