//! One run of the program, call by call beside the model.

use super::protocol::{entries_of, rows_of, Call, Command, Held, Told, FIGURES, HEAD, ROWS, TAIL};
use super::reports::{self, Reports};
use super::tally::History;
use comparison::child;
use comparison::events::{several, KINDS};
use comparison::messages::hex;
use comparison::model::choices::Asked;
use comparison::model::node::{Node, State};
use comparison::model::slot_table::Order;
use comparison::record_bytes::{shown_counts, shown_held, Reader, RECORD};
use comparison::report::Count;
use comparison::slot_tables;
use std::io::Read;

/// An off that is carried out, by the node's state before it.
pub const OFFS: [&str; 5] = [
    "off: of a member",
    "off: of a listening node",
    "off: of a following node",
    "off: of a knocking node",
    "off: of an out node",
];

/// A slot in which a node leaves and another one changes otherwise.
pub const BOTH: &str = "both groups: in one slot";

/// Such a slot, where the other has a lower number than one that left; a kind's number is its place, from 2. By
/// rising number alone the pairs would stand in another order.
pub const LOWER: [&str; 5] = [
    "both groups: a lower node from listening to following",
    "both groups: a lower node knocked",
    "both groups: a lower node joined",
    "both groups: a lower node from knocking to following",
    "both groups: a lower node to listening",
];

/// A member after a slot: its own mark, and whether it has heard a yes since its own slot.
pub const OWN_MARKS: [&str; 3] =
    ["members: own mark on, no yes heard", "members: own mark on, yes heard", "members: own mark off"];

/// Runs the program on the commands and compares every answer: what the call tells, each byte of the buffer,
/// each of the rows, those after the table too, and each of the entries, those after the ledger too; the counts where
/// they are asked for. Notes what is expected.
pub fn compare(count: &mut Count, commands: &[Command]) -> Result<(), String> {
    let mut script = Vec::new();
    commands.iter().for_each(|command| command.push(&mut script));
    child::run(count, "bench_runs", &script, |count, output| answers(count, commands, output))
}

fn answers(count: &mut Count, commands: &[Command], output: &mut dyn Read) -> Result<(), String> {
    let mut held = Held::first();
    let mut expected = Vec::new();
    let mut got = Vec::new();
    let mut history = History::default();
    let mut reports = Reports::default();
    for (i, command) in commands.iter().enumerate() {
        let before = held.table();
        let told = held.run(command, &mut expected);
        let at = || format!("command {}: {}", i + 1, shown_command(command));
        if let Some(told) = told {
            note(count, command, &told, &expected);
            note_tables(count, command, &told, (&before, &held.table()));
        }
        child::read_answer(output, expected.len(), &mut got)
            .map_err(|why| format!("{}: the answer cannot be read: {why}", at()))?;
        if !expected.is_empty() {
            count.check(got == expected, || {
                format!("{}, {}", at(), shown_answers(command, &held, &got, &expected))
            })?;
        }
        history
            .follow(count, command, (held.size, held.lent), &got)
            .and_then(|()| reports.follow(count, command, (held.size, held.counted), &got))
            .map_err(|why| format!("{}: {why}", at()))?;
    }
    Ok(())
}

/// A call that is carried out, by the tables before and after it.
fn note_tables(count: &mut Count, command: &Command, told: &Told, (before, after): (&[Node], &[Node])) {
    if told.number != 0 {
        return;
    }
    off_of(command, before).into_iter().for_each(|name| count.event(name));
    if let Command::Call(call @ Call::Slot { .. }, _) = *command {
        note_own_marks(count, after);
        let departures = before.iter().zip(after).filter_map(|(row, after)| several(row, after));
        departures.for_each(|name| count.event(name));
        reports::note(count, call, told, (before, after));
    }
}

fn note(count: &mut Count, command: &Command, told: &Told, answer: &[u8]) {
    count.expected(u32::from(told.number));
    if let (Command::Call(Call::SetUp(asked), _), 0) = (command, told.number) {
        slot_tables::note(count, asked.n, Order::kept(asked.slots.bytes()));
    }
    if let Command::Call(Call::Slot { .. }, _) = command {
        note_pairs(count, &answer[HEAD..HEAD + 2 * told.pairs as usize]);
    }
    count.event(match (command, told.number) {
        (Command::Call(Call::SetUp(_), _), 0) => "call: set-up",
        (Command::Call(Call::Off(_), _), 0) => "call: off",
        (Command::Call(Call::Restart(_), _), 0) => "call: restart",
        (Command::Call(Call::Slot { .. }, _), 0) => "call: slot",
        (Command::Call(Call::Look { .. }, _), 0) => "call: look",
        _ => "call: refused",
    });
    if told.fate != 0 {
        count.event(["told: silent", "told: lost", "told: knock", "told: sent"][usize::from(told.fate) - 1]);
        count.event(if told.list.is_some() { "told: a list" } else { "told: no list" });
        count.event(if told.distance > 0 { "told: sets that differ" } else { "told: sets alike" });
    }
}

/// The pairs of one slot.
fn note_pairs(count: &mut Count, bytes: &[u8]) {
    let pairs = || bytes.chunks_exact(2).map(|pair| (pair[0], usize::from(pair[1])));
    pairs().for_each(|(_, kind)| count.event(KINDS[kind - 1]));
    let Some(highest) = pairs().filter(|pair| pair.1 == 1).map(|pair| pair.0).max() else { return };
    if pairs().any(|pair| pair.1 != 1) {
        count.event(BOTH);
    }
    for (kind, name) in (2..).zip(LOWER) {
        if pairs().any(|pair| pair.1 == kind && pair.0 < highest) {
            count.event(name);
        }
    }
}

fn note_own_marks(count: &mut Count, table: &[Node]) {
    for node in table.iter().filter(|node| node.state == State::Member) {
        count.event(match (node.marks.has(node.own), node.yes_heard) {
            (true, false) => OWN_MARKS[0],
            (true, true) => OWN_MARKS[1],
            (false, _) => OWN_MARKS[2],
        });
    }
}

/// The event of an off of a node of this table.
fn off_of(command: &Command, table: &[Node]) -> Option<&'static str> {
    let Command::Call(Call::Off(x), _) = *command else { return None };
    let node = table.iter().find(|node| node.own == x)?;
    Some(match node.state {
        State::Member => OFFS[0],
        State::Listening => OFFS[1],
        State::Following => OFFS[2],
        State::Knocking => OFFS[3],
        State::Out(_) => OFFS[4],
    })
}

fn shown_command(command: &Command) -> String {
    match *command {
        Command::Size(size) => format!("size {size}"),
        Command::Load(row, ref record) => format!("load row {row}: {}", shown_held(record)),
        Command::Lend(entries) => format!("lend {entries} entries"),
        Command::Enter(entry, ref figures) => format!("entry {entry}: {figures:?}"),
        Command::Arrays(arrays) => format!("lend {arrays} arrays of counts"),
        Command::Count { array, row, job, count } => {
            format!("count of array {array}, row {row}, job {job}: {count}")
        }
        Command::Counts(array) => format!("counts of array {array}"),
        Command::Call(call, room) => format!("{}, buffer of {room} bytes", shown_call(call)),
    }
}

fn shown_call(call: Call) -> String {
    match call {
        Call::SetUp(Asked { n, k, m, lag, slots }) => {
            format!("set-up n = {n}, k = {k}, m = {m}, lag {lag}, table {:?}", slots.bytes())
        }
        Call::Off(x) => format!("off {x}"),
        Call::Restart(x) => format!("restart {x}"),
        Call::Slot { lost, missed, jobs } => {
            format!("slot, lost {lost}, missed {missed:08x}, jobs {jobs:02X}")
        }
        Call::Look { lost } => format!("look, lost {lost}"),
    }
}

/// Both answers, where they differ.
fn shown_answers(command: &Command, held: &Held, got: &[u8], expected: &[u8]) -> String {
    if let (Command::Counts(_), true) = (command, got.len() == expected.len()) {
        let shown = |answer: &[u8]| shown_counts(&Reader(answer).counts());
        return format!("\n        program: {}\n        model:   {}", shown(got), shown(expected));
    }
    if let Command::Counts(_) = command {
        return format!("only {} of {} bytes", got.len(), expected.len());
    }
    let (table, difference) = (shown_rows(expected, held.size), shown_difference(got, expected));
    let (rows, entries, arrays) = (held.size, held.lent, held.counted);
    format!("{rows} rows, {entries} entries, {arrays} arrays\n        {difference}{table}")
}

/// Where the answers differ first, and both there.
fn shown_difference(got: &[u8], expected: &[u8]) -> String {
    if got.len() != expected.len() {
        return format!("only {} of {} bytes: [{}]", got.len(), expected.len(), hex(got));
    }
    let place = got.iter().zip(expected).take_while(|(a, b)| a == b).count();
    let rows = expected.len() - TAIL;
    let entries = rows + ROWS * RECORD;
    let both =
        |what: &str, a: String, b: String| format!("{what}\n        program: {a}\n        model:   {b}");
    if place < HEAD {
        both("told", format!("{:?}", Told::of(got)), format!("{:?}", Told::of(expected)))
    } else if place < rows {
        both(
            &format!("byte {} of the buffer", place - HEAD),
            hex(&got[HEAD..rows]),
            hex(&expected[HEAD..rows]),
        )
    } else if place < entries {
        let row = (place - rows) / RECORD;
        let shown = |answer: &[u8]| shown_held(&rows_of(answer).nth(row).expect("a row"));
        both(&format!("row {row}"), shown(got), shown(expected))
    } else {
        let entry = (place - entries) / FIGURES;
        let shown = |answer: &[u8]| format!("{:?}", entries_of(answer).nth(entry).expect("an entry"));
        both(&format!("entry {entry}"), shown(got), shown(expected))
    }
}

/// The table as the model leaves it.
fn shown_rows(answer: &[u8], size: usize) -> String {
    let mut text = "\n        table after it:".to_string();
    for row in rows_of(answer).take(size) {
        text += &format!("\n        {}", shown_held(&row));
    }
    text
}
