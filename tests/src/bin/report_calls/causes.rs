//! Several causes of refusal at once: of a line, with tables at the slot limit, too, of a piece that is fed, and of a
//! plan where the text ends.

use super::protocol::{compare, load, start, written, Command, Numbers, ROOMS};
use comparison::causes::Causes;
use comparison::lent::{short, Call};
use comparison::line_causes::{all_met, later_lines, lines_one, Refused, FEED};
use comparison::model::held::Record;
use comparison::model::part::Part;
use comparison::model::pieces::Outcome;
use comparison::model::plan_report::Figures;
use comparison::plan_bytes::{table_at, Load};
use comparison::random::Random;
use comparison::records::spoil;
use comparison::report::Count;

/// A report of a plan before line one, or after it where it has a table.
fn loads(table: &[Record]) -> Vec<Command> {
    let mut loads = vec![Command::New];
    loads.extend((0..).zip(table).map(|(row, record)| Command::Load(Load::Row(row, *record))));
    let (lines, n) = (u64::from(!table.is_empty()), table.len() as u32);
    loads.push(Command::Load(Load::Numbers { over: false, lines, n, outcome: Outcome::Quiet }));
    loads
}

/// Makes a call on a report that is loaded so: what the model writes.
fn answer(commands: &mut Vec<Command>, loads: Vec<Command>, call: Call) -> Result<String, u32> {
    let mut report = start();
    loads.iter().for_each(|command| load(&mut report, command));
    let answer = written(&mut report, &call);
    commands.extend(loads);
    commands.push(Command::Call(call));
    answer.map(|text| text.escape_ascii().to_string())
}

/// A line as the last of a plan: the plan is refused at it by its number.
fn line(
    count: &mut Count,
    commands: &mut Vec<Command>,
    table: &[Record],
    (mut line, first): Refused,
) -> Result<(), String> {
    line.extend(b"next\n");
    let expected = format!("plan 1 line {} refusal {first}\\n", if table.is_empty() { 1 } else { 2 });
    let room = ROOMS.byte * line.len();
    let told = answer(commands, loads(table), Call::Feed(line, room));
    count.check(told.as_ref() == Ok(&expected), || format!("{told:?} by the model, not {expected}"))
}

/// Of the causes that apply to a line the first is told: line one and the line after it, of every n.
pub fn lines(count: &mut Count) -> Result<(), String> {
    let mut random = Random::new(103);
    let mut commands = Vec::new();
    for one in lines_one(count, &mut random) {
        line(count, &mut commands, &[], one)?;
    }
    for (n, at_limit) in (3..=32).flat_map(|n| [(n, false), (n, true)]) {
        let table = table_at(&mut random, n, at_limit);
        for later in later_lines(count, &mut random, n, at_limit) {
            line(count, &mut commands, &table, later)?;
        }
    }
    all_met(count)?;
    compare(count, &commands)
}

/// A plan whose table is not sound, a buffer that is too short, both and neither.
pub fn feeds(count: &mut Count) -> Result<(), String> {
    let mut random = Random::new(104);
    let mut commands = Vec::new();
    for (n, choice) in (3..=32).flat_map(|n| (0..4 * 6).map(move |choice| (n, choice))) {
        let [unsound, is_short] = [1, 2].map(|bit| choice & bit == bit);
        let mut table = table_at(&mut random, n, false);
        if unsound {
            let row = random.below(n.into()) as usize;
            spoil(&mut random, &mut table[row]);
        }
        let piece = [&b"ok\n"[..], b"next\n", b"o"][random.below(3) as usize];
        let least = ROOMS.byte * piece.len();
        let room = if is_short { short(&mut random, least) } else { ROOMS.enough(&mut random, least) };
        let told = answer(&mut commands, loads(&table), Call::Feed(piece.to_vec(), room));
        let first = FEED.first(count, &[unsound, is_short]);
        count.check(told.as_ref().err().unwrap_or(&0) == &first, || {
            format!("{told:?} by the model, not {first}")
        })?;
    }
    FEED.met(count)?;
    compare(count, &commands)
}

const END: Causes = Causes { numbers: &[12, 19], pairs: &["end of a plan: 12 and 19"] };

/// A last plan that ends within a line or has none, a sum that passes 64 bits, both and neither.
pub fn ends(count: &mut Count) -> Result<(), String> {
    let mut random = Random::new(105);
    let mut commands = Vec::new();
    for (n, choice) in (3..=32).flat_map(|n| (0..4 * 6).map(move |choice| (n, choice))) {
        let [unended, passing] = [1, 2].map(|bit| choice & bit == bit);
        let without_lines = unended && random.bit();
        let table = if without_lines { Vec::new() } else { table_at(&mut random, n, false) };
        let figures: Figures = std::array::from_fn(|_| random.within(1, 9));
        let mut totals: Figures = std::array::from_fn(|_| random.below(9));
        if passing {
            totals[random.below(4) as usize] = u64::MAX;
        }
        let begun: &[u8] = if unended && !without_lines { b"ok" } else { b"" };
        let mut loads = loads(&table);
        loads.push(Command::Numbers(Numbers { plans: 0, fault: 0, figures, totals }));
        loads.push(Command::Load(Load::Part(Part::of(begun))));
        let told = answer(&mut commands, loads, Call::Finish(ROOMS.end)).unwrap_or_default();
        let first = END.first(count, &[unended, passing]);
        let refused = END.numbers.iter().find(|&number| told.contains(&format!(" refusal {number}\\n")));
        count.check(*refused.unwrap_or(&0) == first, || format!("'{told}' by the model, not {first}"))?;
    }
    END.met(count)?;
    compare(count, &commands)
}
