//! What the program `bench_runs` takes and gives: commands on 32 rows, the first of which are the table, on 33 entries,
//! the first of which are the ledger, on 33 arrays, the first of which are the counts, and on a slot table. All numbers
//! are lowest byte first.

use comparison::model::bench::{self, Beside, Fate, Message};
use comparison::model::choices::Asked;
use comparison::model::counts::{Counts, NONE};
use comparison::model::held::{self, Record};
use comparison::model::ledger::Figures;
use comparison::model::node::Node;
use comparison::model::ring::Set;
use comparison::record_bytes::{push_counts, record_bytes, Reader, RECORD};

/// The rows that there are; a table of more is not to be had.
pub const ROWS: usize = 32;

/// The entries that there are; a ledger of more is not to be had.
pub const ENTRIES: usize = 33;

/// The arrays of counts that there are; more are not to be had.
pub const ARRAYS: usize = 33;

/// The bytes of an entry.
pub const FIGURES: usize = 24;

/// Each byte of a lent buffer before the call.
pub const FILL: u8 = 0xA5;

/// The bytes of an answer after the buffer.
pub const TAIL: usize = ROWS * RECORD + ENTRIES * FIGURES;

/// The bytes of an answer before the buffer, the rows and the entries.
pub const HEAD: usize = 27;

#[derive(Clone, Copy)]
pub enum Call {
    SetUp(Asked),
    Off(u32),
    Restart(u32),
    Slot { lost: bool, missed: u32, jobs: u8 },
    Look { lost: bool },
}

#[derive(Clone, Copy)]
pub enum Command {
    Size(u8),
    Load(u8, Record),
    /// The number of entries that are lent with every call.
    Lend(u8),
    Enter(u8, Figures),
    /// The number of arrays of counts that are lent.
    Arrays(u8),
    /// One count of an array becomes this.
    Count {
        array: u8,
        row: u8,
        job: u8,
        count: u64,
    },
    /// Asks for the counts of an array.
    Counts(u8),
    /// A call, and the length of the buffer that is lent to it.
    Call(Call, u8),
}

impl Command {
    pub fn push(&self, out: &mut Vec<u8>) {
        match *self {
            Command::Size(size) => out.extend([b'N', size]),
            Command::Load(row, ref record) => {
                out.extend([b'L', row]);
                out.extend(record_bytes(record));
            }
            Command::Lend(entries) => out.extend([b'M', entries]),
            Command::Enter(entry, ref figures) => {
                out.extend([b'G', entry]);
                push_figures(figures, out);
            }
            Command::Arrays(arrays) => out.extend([b'A', arrays]),
            Command::Count { array, row, job, count } => {
                out.extend([b'C', array, row, job]);
                out.extend(count.to_le_bytes());
            }
            Command::Counts(array) => out.extend([b'K', array]),
            Command::Call(call, room) => call.push(out, room),
        }
    }
}

fn push_figures(figures: &Figures, out: &mut Vec<u8>) {
    for figure in [figures.left, figures.joined, figures.last] {
        out.extend(figure.to_le_bytes());
    }
}

/// The lent buffer in a whole answer.
pub fn buffer_of(answer: &[u8]) -> &[u8] {
    &answer[HEAD..answer.len() - TAIL]
}

/// The rows of a whole answer.
pub fn rows_of(answer: &[u8]) -> impl Iterator<Item = Record> + '_ {
    let rows = &answer[answer.len() - TAIL..][..ROWS * RECORD];
    rows.chunks_exact(RECORD).map(|row| Reader(row).record())
}

/// The entries of a whole answer.
pub fn entries_of(answer: &[u8]) -> impl Iterator<Item = Figures> + '_ {
    let entries = &answer[answer.len() - ENTRIES * FIGURES..];
    entries.chunks_exact(FIGURES).map(|entry| {
        let mut bytes = Reader(entry);
        Figures { left: bytes.u64(), joined: bytes.u64(), last: bytes.u64() }
    })
}

impl Call {
    fn push(self, out: &mut Vec<u8>, room: u8) {
        match self {
            // The slot table is lent to the calls that follow, too.
            Call::SetUp(Asked { n, k, m, lag, slots }) => {
                out.extend([b'O', slots.bytes().len() as u8]);
                out.extend(slots.bytes());
                out.extend([b'U', room]);
                [n, k, m, lag].iter().for_each(|number| out.extend(number.to_le_bytes()));
            }
            Call::Off(x) => {
                out.extend([b'F', room]);
                out.extend(x.to_le_bytes());
            }
            Call::Restart(x) => {
                out.extend([b'R', room]);
                out.extend(x.to_le_bytes());
            }
            Call::Slot { lost, missed, jobs } => {
                out.extend([b'S', room, u8::from(lost)]);
                out.extend(missed.to_le_bytes());
                out.push(jobs);
            }
            Call::Look { lost } => out.extend([b'Q', room, u8::from(lost)]),
        }
    }
}

/// What a call tells beside the table: of a slot its number, sender, message, list and distance.
#[derive(Clone, Copy, PartialEq, Eq, Debug, Default)]
pub struct Told {
    pub number: u8,
    pub slot: u64,
    pub sender: u32,
    /// 0 where no slot is told.
    pub fate: u8,
    pub list: Option<u32>,
    pub distance: u32,
    pub pairs: u32,
}

impl Told {
    fn refused(number: u32) -> Told {
        Told { number: number as u8, ..Told::default() }
    }

    fn push(&self, out: &mut Vec<u8>) {
        out.push(self.number);
        out.extend(self.slot.to_le_bytes());
        out.extend(self.sender.to_le_bytes());
        out.extend([self.fate, u8::from(self.list.is_some())]);
        for number in [self.list.unwrap_or(0), self.distance, self.pairs] {
            out.extend(number.to_le_bytes());
        }
    }

    /// Takes the head of an answer apart.
    pub fn of(answer: &[u8]) -> Told {
        let mut bytes = Reader(answer);
        let (number, slot, sender, fate) = (bytes.u8(), bytes.u64(), bytes.u32(), bytes.u8());
        let (listed, set) = (bytes.u8() != 0, bytes.u32());
        let list = listed.then_some(set);
        Told { number, slot, sender, fate, list, distance: bytes.u32(), pairs: bytes.u32() }
    }
}

fn fate_number(fate: Fate) -> u8 {
    match fate {
        Fate::Silent => 1,
        Fate::Lost => 2,
        Fate::Knock => 3,
        Fate::Sent => 4,
    }
}

/// The rows, the entries and the arrays by the model.
pub struct Held {
    pub rows: Vec<Record>,
    pub size: usize,
    pub entries: Vec<Figures>,
    pub lent: usize,
    pub arrays: Vec<Counts>,
    /// The arrays that are lent.
    pub counted: usize,
}

impl Held {
    /// Before the first command: no table, and all bytes of each row 0 but the state, 7; no ledger, and all
    /// figures 0; no counts, and all of them 0.
    pub fn first() -> Held {
        let mut bytes = [0; RECORD];
        bytes[20] = 7;
        Held {
            rows: vec![Reader(&bytes).record(); ROWS],
            size: 0,
            entries: vec![Figures::default(); ENTRIES],
            lent: 0,
            arrays: vec![NONE; ARRAYS],
            counted: 0,
        }
    }

    /// The records of the rules, sound or not.
    pub fn table(&self) -> Vec<Node> {
        self.rows[..self.size].iter().map(|record| record.node).collect()
    }

    /// The place of one count: there are 33 arrays of 32 rows of 8, all from 0 on.
    fn place(&mut self, array: u8, row: u8, job: u8) -> Option<&mut u64> {
        let counts = self.arrays.get_mut(usize::from(array))?;
        counts.get_mut(usize::from(row))?.get_mut(usize::from(job))
    }

    /// Carries a command out; what is told if it is a call. The answer's bytes go into `out`, which is emptied first;
    /// none for a command that has no answer.
    pub fn run(&mut self, command: &Command, out: &mut Vec<u8>) -> Option<Told> {
        out.clear();
        match *command {
            Command::Size(size) => self.size = usize::from(size).min(ROWS),
            Command::Load(row, record) => self.rows[usize::from(row)] = record,
            Command::Lend(entries) => self.lent = usize::from(entries).min(ENTRIES),
            Command::Enter(entry, figures) => {
                if let Some(held) = self.entries.get_mut(usize::from(entry)) {
                    *held = figures;
                }
            }
            Command::Arrays(arrays) => self.counted = usize::from(arrays).min(ARRAYS),
            Command::Count { array, row, job, count } => {
                self.place(array, row, job).into_iter().for_each(|held| *held = count);
            }
            Command::Counts(array) => {
                // Any other number asks for array 0.
                push_counts(self.arrays.get(usize::from(array)).unwrap_or(&self.arrays[0]), out);
            }
            Command::Call(call, room) => return Some(self.answer(call, room, out)),
        }
        None
    }

    fn answer(&mut self, call: Call, room: u8, out: &mut Vec<u8>) -> Told {
        let mut buffer = vec![FILL; usize::from(room)];
        let told = self.call(call, &mut buffer).unwrap_or_else(Told::refused);
        told.push(out);
        out.extend(buffer);
        self.rows.iter().for_each(|row| out.extend(record_bytes(row)));
        self.entries.iter().for_each(|figures| push_figures(figures, out));
        told
    }

    fn call(&mut self, call: Call, buffer: &mut [u8]) -> Result<Told, u32> {
        let table = &mut self.rows[..self.size];
        let ledger = &mut self.entries[..self.lent];
        let counts = &mut self.arrays[..self.counted];
        match call {
            Call::SetUp(asked) => held::hold(table, &bench::counted_set_up(asked, self.size, counts)?),
            Call::Off(x) => held::call(table, |nodes| bench::off(nodes, ledger, x))?,
            Call::Restart(x) => held::call(table, |nodes| bench::restart(nodes, x))?,
            Call::Slot { lost, missed, jobs } => {
                let message = Message { lost, missed: Set(missed), jobs };
                return held::call(table, |nodes| slot(nodes, Beside { ledger, counts }, message, buffer));
            }
            Call::Look { lost } => return look(&held::rules(table)?, lost),
        }
        Ok(Told::default())
    }
}

fn look(table: &[Node], lost: bool) -> Result<Told, u32> {
    let look = bench::look(table, lost)?;
    Ok(Told {
        slot: look.slots,
        sender: look.sender,
        fate: fate_number(look.fate),
        list: look.list.map(|set| set.0),
        distance: look.distance,
        ..Told::default()
    })
}

fn slot(table: &mut [Node], beside: Beside, message: Message, buffer: &mut [u8]) -> Result<Told, u32> {
    let slot = bench::slot(table, beside, message, buffer.len())?;
    for (pair, &(node, kind)) in buffer.chunks_exact_mut(2).zip(&slot.changes) {
        pair.copy_from_slice(&[node as u8, kind as u8]);
    }
    Ok(Told {
        number: 0,
        slot: table[0].slots,
        sender: slot.sender,
        fate: fate_number(slot.fate),
        list: bench::list(table).map(|set| set.0),
        distance: bench::greatest_distance(table),
        pairs: slot.changes.len() as u32,
    })
}
