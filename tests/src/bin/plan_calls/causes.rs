//! Several causes of refusal at once: of a line, with tables at the slot limit, too, and of a piece that is fed.

use super::compare::compare;
use super::protocol::{Command, Held};
use comparison::lent::{short, Call, LINES};
use comparison::line_causes::{all_met, later_lines, lines_one, Refused, FEED};
use comparison::model::held::Record;
use comparison::model::pieces::{Outcome, LINE};
use comparison::plan_bytes::{table_at, Load};
use comparison::random::Random;
use comparison::records::spoil;
use comparison::report::Count;

/// A plan before line one, or after it where it has a table.
fn load(table: &[Record]) -> Vec<Command> {
    let mut loads = vec![Command::New];
    loads.extend((0..).zip(table).map(|(row, record)| Command::Load(Load::Row(row, *record))));
    let (lines, n) = (u64::from(!table.is_empty()), table.len() as u32);
    loads.push(Command::Load(Load::Numbers { over: false, lines, n, outcome: Outcome::Quiet }));
    loads
}

/// Feeds a line to a plan that is loaded so. The model refuses it by its number.
fn line(
    count: &mut Count,
    commands: &mut Vec<Command>,
    loads: &[Command],
    (line, first): Refused,
) -> Result<(), String> {
    let mut held = Held::first();
    let feed = Command::Call(Call::Feed(line, LINES.most));
    for command in loads.iter().chain([&feed]) {
        held.run(command, &mut Vec::new());
        commands.push(command.clone());
    }
    count.expected(first);
    count.check(held.plan.outcome == Outcome::Refused(first), || {
        format!("command {}: not refused by {first} by the model", commands.len())
    })
}

/// Of the causes that apply to a line the first is told: line one and the line after it, of every n.
pub fn lines(count: &mut Count) -> Result<(), String> {
    let mut random = Random::new(81);
    let mut commands = Vec::new();
    for one in lines_one(count, &mut random) {
        line(count, &mut commands, &load(&[]), one)?;
    }
    for (n, at_limit) in (3..=32).flat_map(|n| [(n, false), (n, true)]) {
        let loads = load(&table_at(&mut random, n, at_limit));
        for later in later_lines(count, &mut random, n, at_limit) {
            line(count, &mut commands, &loads, later)?;
        }
    }
    all_met(count)?;
    compare(count, &commands)
}

/// A plan whose table is not sound, a buffer that is too short, both and neither.
pub fn feeds(count: &mut Count) -> Result<(), String> {
    let mut random = Random::new(82);
    let mut commands = Vec::new();
    for (n, choice) in (3..=32).flat_map(|n| (0..4 * 6).map(move |choice| (n, choice))) {
        let [unsound, is_short] = [1, 2].map(|bit| choice & bit == bit);
        let mut table = table_at(&mut random, n, false);
        if unsound {
            let row = random.below(n.into()) as usize;
            spoil(&mut random, &mut table[row]);
        }
        let piece = [&b"ok\n"[..], b"off 1\n", b"o"][random.below(3) as usize];
        let least = LINE * piece.len();
        let room = if is_short { short(&mut random, least) } else { LINES.enough(&mut random, least) };
        let mut held = Held::first();
        let mut number = 0;
        let feed = Command::Call(Call::Feed(piece.to_vec(), room));
        for command in load(&table).into_iter().chain([feed]) {
            number = held.run(&command, &mut Vec::new());
            commands.push(command);
        }
        let first = FEED.first(count, &[unsound, is_short]);
        count.check(number == first, || format!("{number} by the model, not {first}"))?;
    }
    FEED.met(count)?;
    compare(count, &commands)
}
