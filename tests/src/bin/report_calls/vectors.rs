//! Reports that no text leads to, or hardly any: what their calls answer, typed from request m and the contracts.

use super::protocol::{compare, load, start, written, Command, Numbers, ROOMS};
use super::sums::MOST;
use comparison::lent::Call;
use comparison::model::bench;
use comparison::model::choices::Choices;
use comparison::model::part::Part;
use comparison::model::pieces::Outcome;
use comparison::model::plan_report::Figures;
use comparison::plan_bytes::Load;
use comparison::report::Count;

/// The rows of a plan: those of no node; a table of three as set-up leaves it; the same but for a record.
#[derive(Clone, Copy, PartialEq)]
enum Table {
    None,
    Three,
    Damaged,
}

#[derive(Clone, Copy)]
struct State {
    plans: u64,
    lines: u64,
    over: bool,
    fault: u32,
    figures: Figures,
    totals: Figures,
    table: Table,
    begun: &'static str,
}

const NEW: State = State {
    plans: 0,
    lines: 0,
    over: false,
    fault: 0,
    figures: [0; 4],
    totals: [0; 4],
    table: Table::None,
    begun: "",
};

/// A plan of three lines that goes on.
const RUNS: State = State { lines: 3, table: Table::Three, ..NEW };

#[derive(Clone, Copy)]
enum Do {
    /// Feeds a piece with just enough room.
    Feed(&'static str),
    FeedInto(&'static str, usize),
    Finish(usize),
}
use Do::*;

/// A report, and one call after the other with what it writes, or the number of its refusal.
type Vector = (State, &'static [(Do, Result<&'static str, u32>)]);

#[rustfmt::skip]
const VECTORS: &[Vector] = &[
    (NEW, &[(Feed(""), Ok("")), (Finish(200), Ok("plan 1 line 1 refusal 12\ntotal 0 0 0 0\n"))]),
    (NEW, &[(Feed("3 2\nok\nnext"), Ok("")), (Feed("\n"), Ok("plan 1 1 3 3 0\n")), (Finish(200), Ok("plan 2 line 1 refusal 12\ntotal 1 3 3 0\n"))]),
    // "A sum passing 64 bits ..: 19", for each figure; "that plan is refused so, at its last line", and the totals keep what they had.
    (State { figures: [1, 2, 3, 4], totals: [MOST, 7, 8, 9], ..RUNS }, &[
        (Feed("next\n"), Ok("plan 1 line 3 refusal 19\n")),
        (Finish(200), Ok("plan 2 line 1 refusal 12\ntotal 18446744073709551615 7 8 9\n")),
    ]),
    (State { figures: [1, 2, 3, 4], totals: [6, MOST - 1, 8, 9], ..RUNS }, &[(Finish(200), Ok("plan 1 line 3 refusal 19\ntotal 6 18446744073709551614 8 9\n"))]),
    (State { figures: [1, 2, 3, 4], totals: [6, 7, MOST - 2, 9], ..RUNS }, &[(Finish(200), Ok("plan 1 line 3 refusal 19\ntotal 6 7 18446744073709551613 9\n"))]),
    (State { figures: [1, 2, 3, 4], totals: [6, 7, 8, MOST - 3], ..RUNS }, &[(Finish(200), Ok("plan 1 line 3 refusal 19\ntotal 6 7 8 18446744073709551612\n"))]),
    // The plans after it count.
    (State { totals: [MOST - 1, 7, 8, 9], ..RUNS }, &[
        (Feed("ok\nok\nnext\n3 2\nok\nnext\n3 2\nok\nnext\n3 2\n"), Ok("plan 1 line 5 refusal 19\nplan 2 1 3 3 0\nplan 3 line 2 refusal 19\n")),
        (Finish(200), Ok("plan 4 0 0 0 0\ntotal 18446744073709551615 10 11 9\n")),
    ]),
    // A plan that is refused is not added: its own number is told, and 12 before 19.
    (State { over: true, fault: 3, figures: [MOST; 4], totals: [MOST; 4], ..RUNS }, &[
        (Feed("ok\n\nnext \nnext\n"), Ok("plan 1 line 3 refusal 3\n")),
    ]),
    (State { figures: [MOST; 4], totals: [1; 4], begun: "o", ..RUNS }, &[(Finish(200), Ok("plan 1 line 4 refusal 12\ntotal 1 1 1 1\n"))]),
    (State { figures: [MOST; 4], totals: [1; 4], begun: "next", ..RUNS }, &[(Finish(200), Ok("plan 1 line 4 refusal 12\ntotal 1 1 1 1\n"))]),
    (State { figures: [MOST; 4], totals: [1; 4], ..NEW }, &[(Finish(200), Ok("plan 1 line 1 refusal 12\ntotal 1 1 1 1\n"))]),
    // Figures within a plan stop at the last number of 64 bits: three members, three listed, no distance.
    (State { figures: [MOST, MOST - 2, MOST - 3, MOST - 1], ..RUNS }, &[
        (Feed("ok\nnext\n"), Ok("plan 1 18446744073709551615 18446744073709551615 18446744073709551615 18446744073709551614\n")),
    ]),
    // So do the counts of plans and of lines.
    (State { plans: MOST - 1, ..RUNS }, &[(Feed("next\nnext\n"), Ok("plan 18446744073709551615 0 0 0 0\nplan 18446744073709551615 line 1 refusal 12\n"))]),
    (State { lines: MOST, ..RUNS }, &[(Feed("ok\nx\nok\nnext\n"), Ok("plan 1 line 18446744073709551615 refusal 12\n"))]),
    (State { lines: MOST, begun: "o", ..RUNS }, &[(Finish(200), Ok("plan 1 line 18446744073709551615 refusal 12\ntotal 0 0 0 0\n"))]),
    (State { lines: MOST, figures: [1; 4], totals: [MOST; 4], ..RUNS }, &[(Feed("next\n"), Ok("plan 1 line 18446744073709551615 refusal 19\n"))]),
    // What an over plan was refused by is told as it stands; a line that is run says whether it is refused.
    (State { over: true, fault: 4294967295, ..NEW }, &[(Feed("3 2\nnext\n"), Ok("plan 1 line 0 refusal 4294967295\n"))]),
    (State { fault: 77, ..RUNS }, &[(Feed("ok\nx\nnext\n"), Ok("plan 1 line 5 refusal 12\n"))]),
    // The widest lines fill the room to its last byte.
    (State { plans: MOST, figures: [MOST; 4], begun: "next", ..RUNS }, &[
        (FeedInto("\n", 109), Err(9)),
        (FeedInto("\n", 110), Ok("plan 18446744073709551615 18446744073709551615 18446744073709551615 18446744073709551615 18446744073709551615\n")),
    ]),
    (State { plans: MOST, figures: [MOST; 4], ..RUNS }, &[
        (Finish(199), Err(9)),
        (Finish(200), Ok("plan 18446744073709551615 18446744073709551615 18446744073709551615 18446744073709551615 18446744073709551615\n\
            total 18446744073709551615 18446744073709551615 18446744073709551615 18446744073709551615\n")),
    ]),
    // 4 comes before 9, and only where a plan goes on; where the text ends nothing is run.
    (State { table: Table::Damaged, ..RUNS }, &[
        (FeedInto("ok\n", 0), Err(4)), (FeedInto("ok\n", 329), Err(4)), (Feed("ok\n"), Err(4)), (Feed("next\n"), Err(4)), (Feed(""), Err(4)),
        (Finish(0), Err(9)), (Finish(200), Ok("plan 1 0 0 0 0\ntotal 0 0 0 0\n")),
    ]),
    (State { table: Table::None, ..RUNS }, &[(Feed("next\n"), Err(4))]),
    (RUNS, &[(FeedInto("ok\n", 0), Err(9)), (FeedInto("ok\n", 329), Err(9)), (FeedInto("ok\n", 330), Ok("")), (FeedInto("", 0), Ok(""))]),
    (State { table: Table::Damaged, over: true, fault: 11, ..RUNS }, &[(Feed("ok\nnext\n"), Ok("plan 1 line 3 refusal 11\n"))]),
    (State { table: Table::Damaged, ..NEW }, &[(Feed("3 2\nok\nnext\n"), Ok("plan 1 1 3 3 0\n"))]),
];

/// The commands that load a report.
fn commands(state: &State) -> Vec<Command> {
    let State { plans, lines, over, fault, figures, totals, table, begun } = *state;
    let mut commands = vec![Command::New, Command::Numbers(Numbers { plans, fault, figures, totals })];
    let mut nodes = bench::set_up(Choices::plain(3, 2), 3).expect("3 and 2 are in range");
    if table == Table::Damaged {
        nodes[1].own = 3;
    }
    if table != Table::None {
        let rows = (0..).zip(nodes).map(|(row, node)| Load::Row(row, node.into()));
        commands.extend(rows.map(Command::Load));
    }
    let n = if table == Table::None { 0 } else { 3 };
    commands.push(Command::Load(Load::Numbers { over, lines, n, outcome: Outcome::Quiet }));
    commands.push(Command::Load(Load::Part(Part::of(begun.as_bytes()))));
    commands
}

fn call(what: Do) -> Call {
    match what {
        Feed(piece) => Call::Feed(piece.into(), ROOMS.byte * piece.len()),
        FeedInto(piece, room) => Call::Feed(piece.into(), room),
        Finish(room) => Call::Finish(room),
    }
}

pub fn typed(count: &mut Count) -> Result<(), String> {
    let mut all = Vec::new();
    for (i, (state, calls)) in VECTORS.iter().enumerate() {
        let loads = commands(state);
        let mut report = start();
        loads.iter().for_each(|command| load(&mut report, command));
        all.extend(loads);
        for &(what, expected) in *calls {
            let call = call(what);
            let got = written(&mut report, &call);
            count.check(got == expected.map(|text| text.as_bytes().to_vec()), || {
                let got = got.map(|text| text.escape_ascii().to_string());
                format!("report {}: {got:?} by the model, not {expected:?}", i + 1)
            })?;
            all.push(Command::Call(call));
        }
    }
    compare(count, &all)
}
