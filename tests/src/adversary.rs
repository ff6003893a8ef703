//! Calls of a bench that go wrong where it matters: messages missed by their sponsors, knocks lost or
//! answered to nobody, nodes switched off and restarted at every phase. It sees the table before each
//! call, and in between it leaves the nodes alone for long enough to return.

use crate::model::bench::{self, Call};
use crate::model::node::{Node, State};
use crate::model::ring::{self, Set};
use crate::random::Random;

/// What goes wrong for a while.
#[derive(Clone, Copy)]
enum Mood {
    Calm,
    /// One message in four is lost.
    Losses,
    /// Three messages in four are lost.
    Storm,
    /// Some of the nodes that sponsor the sender miss its message, often all or all but one.
    Sponsors,
    /// Knocks are lost or missed, and so are the messages that answer them.
    Knocks,
    /// Nodes that are not members miss every other message.
    Returning,
    /// Following and knocking nodes hear nothing.
    Cut,
    /// These nodes hear nothing.
    Deaf(Set),
    /// Nodes that are not members hear only these two, for long enough to follow them.
    Narrow(Set),
    /// Members are switched off until this many remain.
    FewMembers(u32),
    /// Nodes are switched off and on at random.
    Switching,
}

pub struct Adversary {
    pub random: Random,
    mood: Mood,
    /// Calls until the mood changes.
    lasts: u64,
}

impl Adversary {
    pub fn new(seed: u64) -> Adversary {
        Adversary { random: Random::new(seed), mood: Mood::Calm, lasts: 0 }
    }

    /// Starts in a calm mood, for about so many calls.
    pub fn calm_down(&mut self, calls: u32) {
        self.mood = Mood::Calm;
        self.lasts = self.random.below(2 * u64::from(calls) + 1);
    }

    /// The next call on this table; it is never refused.
    pub fn next(&mut self, nodes: &[Node]) -> Call {
        if self.lasts == 0 {
            self.change_mood(nodes);
        }
        self.meet_knock(nodes);
        self.lasts -= 1;
        self.switch(nodes).unwrap_or_else(|| self.slot(nodes))
    }

    /// A calm time follows each trouble, sometimes one in which a node can return.
    fn change_mood(&mut self, nodes: &[Node]) {
        let n = u64::from(nodes[0].chosen.n);
        if let Mood::Calm = self.mood {
            self.mood = self.trouble(nodes);
            let longest = if let Mood::Narrow(_) = self.mood { 5 * n } else { n + 2 };
            self.lasts = self.random.within(1, longest);
        } else {
            self.mood = Mood::Calm;
            let longest = if self.random.bit() { n } else { 5 * n };
            self.lasts = self.random.within(1, longest);
        }
    }

    /// A knock seldom comes, so that many of them are to meet trouble.
    fn meet_knock(&mut self, nodes: &[Node]) {
        let sender = &nodes[bench::next_sender(nodes) as usize - 1];
        if sender.state == State::Following && self.random.below(3) == 0 {
            self.mood = Mood::Knocks;
            self.lasts = self.random.within(1, u64::from(sender.chosen.n));
        }
    }

    fn trouble(&mut self, nodes: &[Node]) -> Mood {
        match self.random.below(13) {
            0 => Mood::Losses,
            1 => Mood::Storm,
            2 | 3 => Mood::Sponsors,
            4..=6 => Mood::Knocks,
            7 => Mood::Returning,
            8 => Mood::Cut,
            9 => {
                let deaf = self.random.some_of(Set::full(nodes[0].chosen.n));
                Mood::Deaf(self.random.some_of(deaf))
            }
            10 => Mood::Narrow(self.pair(bench::list(nodes).unwrap_or(Set::EMPTY))),
            11 => Mood::FewMembers(self.random.within(1, 3) as u32),
            _ => Mood::Switching,
        }
    }

    /// Two of the nodes; fewer if there are not so many.
    fn pair(&mut self, set: Set) -> Set {
        let one = self.random.one_of(set).map_or(Set::EMPTY, |x| Set::EMPTY.with(x));
        self.random.one_of(Set(set.0 & !one.0)).map_or(one, |x| one.with(x))
    }

    /// A call that switches a node off or on, if this is the moment for one.
    fn switch(&mut self, nodes: &[Node]) -> Option<Call> {
        // Where a node follows two members, one of them is a good choice.
        let follows_two = nodes.iter().find(|node| returns(node) && node.set.count() == 2);
        if follows_two.is_some() && self.random.below(6) == 0 {
            return follows_two.and_then(|node| self.random.one_of(node.set)).map(Call::Off);
        }
        let out = those(nodes, |node| matches!(node.state, State::Out(_)));
        if self.random.below(6) == 0 {
            return self.random.one_of(out).map(Call::Restart);
        }
        let members = those(nodes, |node| node.state == State::Member);
        let one_in = match self.mood {
            Mood::FewMembers(least) if members.count() > least => 2,
            Mood::Switching => 4,
            Mood::Knocks => 12,
            _ => 64,
        };
        if self.random.below(one_in) != 0 {
            return None;
        }
        let victims = match self.mood {
            Mood::FewMembers(_) => members,
            Mood::Knocks => those(nodes, returns),
            _ => self.victims(nodes),
        };
        self.random.one_of(victims).map(Call::Off)
    }

    /// Those whose silence may matter most: the next sender, a node on the way back, or anybody.
    fn victims(&mut self, nodes: &[Node]) -> Set {
        match self.random.below(4) {
            0 => Set::EMPTY.with(bench::next_sender(nodes)),
            1 => those(nodes, |node| !matches!(node.state, State::Out(_) | State::Member)),
            _ => Set::full(nodes[0].chosen.n),
        }
    }

    fn slot(&mut self, nodes: &[Node]) -> Call {
        match self.mood {
            Mood::Calm | Mood::FewMembers(_) | Mood::Switching => missed_by(Set::EMPTY),
            Mood::Losses => self.lost_once_in(4),
            Mood::Storm if self.random.below(4) == 0 => missed_by(Set::EMPTY),
            Mood::Storm => LOST,
            Mood::Sponsors => missed_by(self.deaf_sponsors(nodes)),
            Mood::Knocks => self.knock_trouble(nodes),
            Mood::Returning => {
                let others = those(nodes, |node| node.state != State::Member);
                missed_by(self.random.some_of(others))
            }
            Mood::Cut => missed_by(those(nodes, returns)),
            Mood::Narrow(pair) if pair.has(bench::next_sender(nodes)) => missed_by(Set::EMPTY),
            Mood::Narrow(_) => missed_by(those(nodes, |node| node.state != State::Member)),
            Mood::Deaf(nodes) => missed_by(nodes),
        }
    }

    fn lost_once_in(&mut self, times: u64) -> Call {
        if self.random.below(times) == 0 {
            LOST
        } else {
            missed_by(Set::EMPTY)
        }
    }

    /// All sponsors of the next sender, all but one, any of them, or none.
    fn deaf_sponsors(&mut self, nodes: &[Node]) -> Set {
        let sponsors = sponsors(nodes, bench::next_sender(nodes));
        match self.random.below(6) {
            0 => sponsors,
            1 => self.random.one_of(sponsors).map_or(sponsors, |x| sponsors.without(x)),
            2 => self.random.one_of(sponsors).map_or(sponsors, |x| Set::EMPTY.with(x)),
            3 => self.random.some_of(sponsors),
            _ => Set::EMPTY,
        }
    }

    /// A knock is lost, or missed by one node, by some, or by the others that follow; while a node
    /// knocks, it or others miss the answers, or these are lost.
    fn knock_trouble(&mut self, nodes: &[Node]) -> Call {
        let all = Set::full(nodes[0].chosen.n);
        let sender = &nodes[bench::next_sender(nodes) as usize - 1];
        let knocking = those(nodes, |node| node.state == State::Knocking);
        if sender.state == State::Following {
            return match self.random.below(5) {
                0 => LOST,
                1 => missed_by(self.random.one_of(all).map_or(all, |x| Set::EMPTY.with(x))),
                2 => missed_by(self.random.some_of(all)),
                3 => missed_by(those(nodes, |node| node.state == State::Following)),
                _ => missed_by(Set::EMPTY),
            };
        }
        if knocking == Set::EMPTY {
            return missed_by(Set::EMPTY);
        }
        match self.random.below(6) {
            0 => LOST,
            1 | 2 => missed_by(knocking),
            3 => missed_by(self.random.some_of(all)),
            _ => missed_by(Set::EMPTY),
        }
    }
}

const LOST: Call = Call::Slot { lost: true, missed: Set::EMPTY };

fn missed_by(missed: Set) -> Call {
    Call::Slot { lost: false, missed }
}

/// The nodes of which this is true.
pub fn those(nodes: &[Node], wanted: impl Fn(&Node) -> bool) -> Set {
    nodes.iter().filter(|node| wanted(node)).fold(Set::EMPTY, |set, node| set.with(node.own))
}

fn returns(node: &Node) -> bool {
    matches!(node.state, State::Following | State::Knocking)
}

/// The members that sponsor a node, on the list.
pub fn sponsors(nodes: &[Node], x: u32) -> Set {
    let list = bench::list(nodes).unwrap_or(Set::EMPTY);
    let sponsor = |&y: &u32| ring::sponsored(nodes[0].chosen, list, y).any(|met| met.member == x);
    list.nodes().filter(sponsor).fold(Set::EMPTY, Set::with)
}
