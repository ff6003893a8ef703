//! A whole cable by the model: it makes what each node of a run hears. Each node has a script of its
//! own, so that the program carries its record through the run by itself.

use super::protocol::{Command, Script};
use super::{events, heard};
use comparison::messages::{job_byte, spare_job_byte};
use comparison::model::choices::Choices;
use comparison::model::message;
use comparison::model::node::{Node, State};
use comparison::model::ring::Set;
use comparison::random::Random;
use comparison::report::Count;

/// What happens to the message of a slot.
#[derive(Clone, Copy, Default)]
pub struct Fate {
    pub lost: bool,
    pub missed_by: Set,
    /// One receiver in four gets other bytes, and the sender is handed some too.
    pub tampered: bool,
}

pub struct Cable {
    pub chosen: Choices,
    pub nodes: Vec<Node>,
    scripts: Vec<Script>,
    /// Each node's counts are asked for after each of its calls, not only at the end.
    watched: bool,
}

impl Cable {
    pub fn new(chosen: Choices) -> Cable {
        let scripts = (0..chosen.n).map(|_| Script::default()).collect();
        let mut cable = Cable { chosen, nodes: Vec::new(), scripts, watched: false };
        cable.set_up();
        cable
    }

    pub fn watched(chosen: Choices) -> Cable {
        Cable { watched: true, ..Cable::new(chosen) }
    }

    /// All nodes start anew.
    pub fn set_up(&mut self) {
        let chosen = self.chosen;
        let node = |own| Node::set_up(chosen, own).expect("the choices are in range");
        self.nodes = (1..=chosen.n).map(node).collect();
        for own in 1..=chosen.n {
            self.tell(own, &Command::SetUp(chosen.into(), own));
        }
    }

    fn tell(&mut self, x: u32, command: &Command) {
        let script = &mut self.scripts[x as usize - 1];
        script.push(command);
        if self.watched && !matches!(command, Command::Send { .. }) {
            script.push(&Command::Counts);
        }
    }

    pub fn node(&self, x: u32) -> &Node {
        &self.nodes[x as usize - 1]
    }

    /// The sender of the next slot.
    pub fn sender(&self) -> u32 {
        self.nodes[0].next_sender()
    }

    /// The nodes in a state.
    pub fn those(&self, wanted: impl Fn(&Node) -> bool) -> Set {
        self.nodes.iter().filter(|node| wanted(node)).fold(Set::EMPTY, |set, node| set.with(node.own))
    }

    pub fn members(&self) -> Set {
        self.those(|node| node.state == State::Member)
    }

    pub fn off(&mut self, count: &mut Count, x: u32) {
        events::off(count, self.node(x));
        self.tell(x, &Command::Off);
        self.nodes[x as usize - 1] = self.node(x).off().expect("the record is sound");
    }

    /// Restarts a node; one that is not out is asked too, and refuses.
    pub fn on(&mut self, count: &mut Count, x: u32) {
        events::restart(count, self.node(x));
        self.tell(x, &Command::Restart);
        if let Ok(next) = self.node(x).restart() {
            self.nodes[x as usize - 1] = next;
        }
    }

    /// Calls that do not send: sometimes the buffer is too short, sometimes another node is asked, sometimes a job
    /// past m is given.
    fn ask(&mut self, random: &mut Random, sender: u32) {
        let length = message::length(self.chosen.k) as u64;
        if random.below(8) == 0 {
            let (room, jobs) = (random.below(length) as u8, job_byte(random, self.chosen.m));
            self.tell(sender, &Command::Send { room, jobs });
        }
        if random.below(4) == 0 {
            let other = random.within(1, u64::from(self.chosen.n)) as u32;
            let (room, jobs) = (random.below(12) as u8, job_byte(random, self.chosen.m));
            self.tell(other, &Command::Send { room, jobs });
        }
        if random.below(8) == 0 {
            let room = random.within(length, length + 3) as u8;
            let spare = spare_job_byte(random, self.chosen.m);
            spare.into_iter().for_each(|jobs| self.tell(sender, &Command::Send { room, jobs }));
        }
    }

    /// What is sent in the next slot, nothing if the sender is silent.
    fn sent(&mut self, count: &mut Count, random: &mut Random) -> Vec<u8> {
        let sender = self.sender();
        self.ask(random, sender);
        let length = message::length(self.chosen.k);
        let room = length + random.below(4) as usize;
        let jobs = job_byte(random, self.chosen.m);
        events::sends(count, self.node(sender), jobs);
        self.tell(sender, &Command::Send { room: room as u8, jobs });
        let mut out = vec![0; length];
        match self.node(sender).send(jobs, &mut out) {
            Ok(_) => out,
            Err(_) => Vec::new(),
        }
    }

    pub fn slot(&mut self, count: &mut Count, random: &mut Random, fate: Fate) {
        let sender = self.sender();
        let sent = self.sent(count, random);
        for x in 1..=self.chosen.n {
            let silent = fate.lost || fate.missed_by.has(x) || x == sender;
            let mut bytes = if silent { Vec::new() } else { sent.clone() };
            if fate.tampered && random.below(4) == 0 {
                bytes = heard::changed(random, self.node(x), &bytes);
            }
            self.tell(x, &Command::Slot(&bytes));
            let next = self.node(x).slot(&bytes).expect("a sound record below the limit");
            events::slot(count, self.node(x), &next, &bytes);
            self.nodes[x as usize - 1] = next;
        }
    }

    /// The scripts of all nodes, one after the other, each with its counts at the end.
    pub fn into_script(self, whole: &mut Script) {
        for script in &self.scripts {
            whole.append(script);
            whole.push(&Command::Counts);
        }
    }
}
