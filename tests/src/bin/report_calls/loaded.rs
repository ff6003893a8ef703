//! Reports as no call leaves them: rows that are no table, any numbers, any bytes.

use super::protocol::{compare, Command, Numbers, ROOMS};
use comparison::adversary::Adversary;
use comparison::drawn_plans::{any_k, plan};
use comparison::lent::PIECE;
use comparison::model::bench;
use comparison::model::node::Node;
use comparison::model::plan_report::Figures;
use comparison::model::ring::LIMIT;
use comparison::plan_bytes::{outcome, part, Load, ROWS};
use comparison::random::Random;
use comparison::records::{choices_of, disturb};
use comparison::report::Count;
use comparison::slot_tables;

/// A count or a sum: small, any, or about the last number of 64 bits.
fn number(random: &mut Random) -> u64 {
    match random.below(4) {
        0 => random.below(4),
        1 => u64::MAX,
        2 => u64::MAX - random.within(1, 100),
        _ => random.number() >> random.below(64),
    }
}

/// Figures that can be added to totals more often than not.
fn figures(random: &mut Random) -> Figures {
    let small = random.below(3) > 0;
    std::array::from_fn(|_| if small { random.number() >> random.within(2, 63) } else { number(random) })
}

/// No fault is a refusal's number: each of these that is printed then comes of a line.
fn numbers(random: &mut Random) -> Command {
    let fault = if random.below(4) == 0 { 0 } else { random.number() as u32 | 32 };
    let (figures, totals) = (figures(random), figures(random));
    Command::Numbers(Numbers { plans: number(random), fault, figures, totals })
}

const ALL_ROWS: &str = "table: all 32 rows, n above 32";

fn plan_numbers(count: &mut Count, random: &mut Random, n: u32) -> Command {
    let lines = if random.below(3) > 0 { random.within(1, 300) } else { number(random) };
    let n = match random.below(6) {
        0 => [0, 1, n + 1][random.below(3) as usize],
        1 | 2 if n == 32 => {
            count.event(ALL_ROWS);
            [33, 40, u32::MAX][random.below(3) as usize]
        }
        _ => n,
    };
    Command::Load(Load::Numbers { over: random.below(5) == 0, lines, n, outcome: outcome(random) })
}

/// A table after some lines of a plan, or one that set-up leaves with any choices; now and then at the slot limit.
fn table(count: &mut Count, adversary: &mut Adversary, n: u32) -> Vec<Node> {
    let mut nodes = if adversary.random.bit() {
        let k = any_k(&mut adversary.random, n);
        let lines = adversary.random.below(6 * u64::from(n));
        plan(count, adversary, n, k, lines).nodes
    } else {
        let chosen = choices_of(&mut adversary.random, n);
        slot_tables::note(count, n, chosen.order);
        bench::set_up(chosen, n as usize).expect("the choices are in range")
    };
    if adversary.random.below(8) == 0 {
        let slots = LIMIT - adversary.random.below(3);
        nodes.iter_mut().for_each(|node| node.slots = slots);
    }
    nodes
}

/// Loads a table; one time in four a row, perhaps one after the table, is then disturbed.
fn load_table(random: &mut Random, table: &[Node], commands: &mut Vec<Command>) {
    let rows = (0..).zip(table).map(|(row, &node)| Load::Row(row, node.into()));
    commands.extend(rows.map(Command::Load));
    if random.below(4) == 0 {
        let row = random.below(ROWS as u64) as usize;
        let mut record = table[row % table.len()].into();
        disturb(random, &mut record);
        commands.push(Command::Load(Load::Row(row as u8, record)));
    }
}

const BEGUN: &[&[u8]] = &[b"", b"", b"o", b"ok", b"miss 1 ", b"4 2\nok", b"off ", b"ne", b"next", b"next\n"];

const PIECES: &[&[u8]] = &[
    b"",
    b"\n",
    b"next\n",
    b"\nnext\n",
    b"xt\nnext\n4 2\nlost\n",
    b"k\nok\nnext\n",
    b"ok\nlost\nmiss 1 2\nok\nok\nnext\n3 2\nok\n",
    b"1\nok\n",
    b"on 1\nok\nnext\n",
    b"\noff 1\nok\n\nok\nnext",
    b"\nok\noff 99\nok\nnext\n\n",
];

fn piece(random: &mut Random) -> Vec<u8> {
    let mut piece = PIECES[random.below(PIECES.len() as u64) as usize].to_vec();
    if random.below(6) == 0 {
        piece.resize(random.below(PIECE as u64 + 1) as usize, b'1');
    }
    piece
}

/// Reports of every n. Some go on where they are, others with what the calls before have left of them.
pub fn reports(count: &mut Count) -> Result<(), String> {
    let mut adversary = Adversary::new(99);
    let mut commands = Vec::new();
    for i in 0..3_000 {
        let n = 3 + i % 30;
        let nodes = table(count, &mut adversary, n);
        let random = &mut adversary.random;
        load_table(random, &nodes, &mut commands);
        commands.push(numbers(random));
        commands.push(plan_numbers(count, random, n));
        commands.push(Command::Load(Load::Part(part(random, BEGUN))));
        let mut calls = Vec::new();
        for _ in 0..random.within(0, 3) {
            let piece = piece(random);
            ROOMS.feed(random, &piece, &mut calls);
        }
        ROOMS.finish(random, &mut calls);
        commands.extend(calls.into_iter().map(Command::Call));
    }
    compare(count, &commands)?;
    count.needs(&slot_tables::KINDS)?;
    count.needs(&["plan: refused by another number", "figures: distances above 0", ALL_ROWS])
}
