//! What the program `node_runs` takes and gives: commands on one current record and the counts beside it, all numbers
//! lowest byte first.

use comparison::model::choices::{Asked, Choices};
use comparison::model::counts::{Counts, NONE};
use comparison::model::held::Record;
use comparison::model::node::Node;
use comparison::model::slot_table::Slots;
use comparison::record_bytes::{push_counts, record_bytes, rules_bytes, Reader, RECORD, RULES};

/// Each byte of a lent buffer before the node sends into it.
pub const FILL: u8 = 0xA5;

/// The record and the counts that the program holds. Several bytes are read as one state, or as no; those of a refused
/// call stay, and any other call writes the record anew.
pub struct Held {
    bytes: [u8; RECORD],
    pub record: Record,
    pub counts: Counts,
}

impl Held {
    /// Before the first command: all bytes 0 but the state, 7; all counts 0.
    pub fn first() -> Held {
        let mut bytes = [0; RECORD];
        bytes[20] = 7;
        Held { bytes, record: Reader(&bytes).record(), counts: NONE }
    }

    fn load(&mut self, bytes: [u8; RECORD]) {
        (self.bytes, self.record) = (bytes, Reader(&bytes).record());
    }

    fn write(&mut self, record: Record) {
        (self.bytes, self.record) = (record_bytes(&record), record);
    }

    /// There are 32 rows and 8 jobs, both from 0 on.
    fn count(&mut self, row: u8, job: u8, count: u64) {
        let row = self.counts.get_mut(usize::from(row));
        row.and_then(|row| row.get_mut(usize::from(job))).into_iter().for_each(|held| *held = count);
    }

    /// "only set-up clears them"
    fn set_up(&mut self, asked: Asked, own: u32) -> Result<Record, u32> {
        let node = Node::set_up(asked, own)?;
        self.counts = NONE;
        Ok(node.into())
    }

    /// The answer to sending into so many bytes.
    fn send(&self, room: u8, jobs: u8, out: &mut Vec<u8>) -> u32 {
        let mut buffer = [FILL; 255];
        let lent = &mut buffer[..usize::from(room)];
        let answer = self.record.send(jobs, lent);
        let number = answer.err().unwrap_or(0);
        out.extend([number as u8, answer.unwrap_or(0) as u8]);
        out.extend_from_slice(lent);
        number
    }

    /// The answer to the conversion to a set; with a refusal comes the record of no node.
    fn as_set(&self, out: &mut Vec<u8>) -> u32 {
        let answer = self.record.as_set();
        let number = answer.err().unwrap_or(0);
        out.push(number as u8);
        out.extend(answer.map_or(NO_NODE, |node| rules_bytes(&node)));
        number
    }
}

/// The record of no node: all bytes 0 but the state, 7.
const NO_NODE: [u8; RULES] = {
    let mut bytes = [0; RULES];
    bytes[20] = 7;
    bytes
};

pub enum Command<'a> {
    /// What set-up is given, and the own number.
    SetUp(Asked, u32),
    Slot(&'a [u8]),
    Send {
        room: u8,
        jobs: u8,
    },
    Off,
    Restart,
    Load([u8; RECORD]),
    /// The record becomes what holds this record of the rules.
    Hold(Node),
    /// Asks for the record of the rules that the record stands for.
    AsSet,
    /// One count becomes this.
    Count {
        row: u8,
        job: u8,
        count: u64,
    },
    /// Asks for all counts.
    Counts,
}

/// Commands in a row, as they are sent.
#[derive(Default)]
pub struct Script {
    bytes: Vec<u8>,
    /// A count may be above 0.
    counted: bool,
}

impl Script {
    pub fn bytes(&self) -> &[u8] {
        &self.bytes
    }

    /// Loads a record beside counts of 0.
    pub fn load(&mut self, record: impl Into<Record>) {
        self.load_bytes(record_bytes(&record.into()));
    }

    pub fn load_bytes(&mut self, bytes: [u8; RECORD]) {
        if self.counted {
            self.push(&Command::SetUp(Choices::plain(3, 2).into(), 1));
        }
        self.push(&Command::Load(bytes));
    }

    /// Follows whether a count may be above 0: a job that is reported stands in the last byte heard.
    fn note(&mut self, command: &Command) {
        match *command {
            Command::SetUp(asked, own) if Node::set_up(asked, own).is_ok() => self.counted = false,
            Command::Slot(heard) => self.counted |= heard.last().is_some_and(|&jobs| jobs != 0),
            Command::Count { count, .. } => self.counted |= count != 0,
            _ => {}
        }
    }

    pub fn push(&mut self, command: &Command) {
        self.note(command);
        let out = &mut self.bytes;
        match *command {
            Command::SetUp(Asked { n, k, m, lag, slots }, own) => {
                out.extend([b'U', slots.bytes().len() as u8]);
                for number in [n, k, m, lag, own] {
                    out.extend(number.to_le_bytes());
                }
                out.extend(slots.bytes());
            }
            Command::Slot(heard) => {
                out.push(b'S');
                out.push(u8::try_from(heard.len()).expect("a slot's bytes are at most 255"));
                out.extend(heard);
            }
            Command::Send { room, jobs } => out.extend([b'T', room, jobs]),
            Command::Off => out.push(b'F'),
            Command::Restart => out.push(b'R'),
            Command::Load(bytes) => {
                out.push(b'L');
                out.extend(bytes);
            }
            Command::Hold(ref node) => {
                out.push(b'H');
                out.extend(rules_bytes(node));
            }
            Command::AsSet => out.push(b'A'),
            Command::Count { row, job, count } => {
                out.extend([b'C', row, job]);
                out.extend(count.to_le_bytes());
            }
            Command::Counts => out.push(b'K'),
        }
    }

    /// The commands of another script after these.
    pub fn append(&mut self, other: &Script) {
        self.bytes.extend(&other.bytes);
        self.counted |= other.counted;
    }
}

/// The next command of a script, which is whole; none at its end.
pub fn next_command<'a>(script: &mut Reader<'a>) -> Option<Command<'a>> {
    if script.0.is_empty() {
        return None;
    }
    Some(match script.u8() {
        b'U' => {
            let places = usize::from(script.u8());
            let [n, k, m, lag, own] = [(); 5].map(|()| script.u32());
            Command::SetUp(Asked { n, k, m, lag, slots: Slots::new(script.take(places)) }, own)
        }
        b'S' => {
            let length = script.u8();
            Command::Slot(script.take(usize::from(length)))
        }
        b'T' => Command::Send { room: script.u8(), jobs: script.u8() },
        b'F' => Command::Off,
        b'R' => Command::Restart,
        b'L' => Command::Load(script.take(RECORD).try_into().expect("124 bytes")),
        b'H' => Command::Hold(script.rules()),
        b'A' => Command::AsSet,
        b'C' => Command::Count { row: script.u8(), job: script.u8(), count: script.u64() },
        b'K' => Command::Counts,
        other => panic!("{other:#04X} is no command"),
    })
}

/// Carries out a command by the model: the answer's bytes go into `out`, which is emptied first. Gives
/// 0 or the refusal's number; none for a command that has no answer.
pub fn run_by_model(held: &mut Held, command: &Command, out: &mut Vec<u8>) -> Option<u32> {
    out.clear();
    let next = match *command {
        Command::Load(bytes) => {
            held.load(bytes);
            return None;
        }
        Command::Count { row, job, count } => {
            held.count(row, job, count);
            return None;
        }
        Command::Counts => {
            push_counts(&held.counts, out);
            return Some(0);
        }
        Command::Send { room, jobs } => return Some(held.send(room, jobs, out)),
        Command::AsSet => return Some(held.as_set(out)),
        Command::SetUp(asked, own) => held.set_up(asked, own),
        Command::Slot(heard) => held.record.counted_slot(&mut held.counts, heard),
        Command::Off => held.record.off(),
        Command::Restart => held.record.restart(),
        Command::Hold(node) => Ok(node.into()),
    };
    let number = next.err().unwrap_or(0);
    if let Ok(next) = next {
        held.write(next);
    }
    out.push(number as u8);
    out.extend(held.bytes);
    Some(number)
}
