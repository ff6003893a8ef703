//! Runs whose pairs are typed from document 01 and requests c, f and j, whose figures are typed from requests a and f
//! and whose lists are typed from requests e, f and j; neither side makes an expected answer.

use super::compare::{compare, BOTH, LOWER, OFFS};
use super::protocol::{buffer_of, Call, Command, Held, FILL};
use super::script::Script;
use comparison::events::{KINDS, SEVERAL};
use comparison::model::choices::Choices;
use comparison::model::ledger::Figures;
use comparison::random::Random;
use comparison::report::Count;

const OK: Call = Call::Slot { lost: false, missed: 0, jobs: 0 };
const LOST: Call = Call::Slot { lost: true, missed: 0, jobs: 0 };

/// Node 2 misses the message.
const MISS: Call = Call::Slot { lost: false, missed: 2, jobs: 0 };

/// Calls in a row, each with its pairs.
type Run = &'static [(Call, &'static [(u8, u8)])];

/// n = 4, k = 2, and the message of slot 2 is lost: node 2 leaves in slot 4. Restarted, it follows after two
/// windows of four slots.
const RETURN: Run = &[
    (OK, &[]),
    (LOST, &[]),
    (OK, &[]),
    (OK, &[(2, 1)]),
    (Call::Restart(2), &[]),
    (OK, &[]),
    (OK, &[]),
    (OK, &[]),
    (OK, &[]),
    (OK, &[]),
    (OK, &[]),
    (OK, &[]),
    (OK, &[(2, 2)]),
];

/// Its knock of slot 14 is lost, so node 1 has no return bit in slot 17. The knock of slot 18 is heard.
const KNOCKS: Run = &[
    (OK, &[]),
    (LOST, &[(2, 3)]),
    (OK, &[]),
    (OK, &[]),
    (OK, &[(2, 5)]),
    (OK, &[(2, 3)]),
    (OK, &[]),
    (OK, &[]),
    (OK, &[(2, 4)]),
];

/// It hears nothing more: in slot 16 node 4 decides node 1 and then node 3, whose marks are off, and one member is
/// left.
const DEAF: Run = &[(MISS, &[]), (OK, &[(2, 3)]), (MISS, &[]), (MISS, &[(2, 6)])];

/// No message is heard. In slot 15 node 3 decides node 4, whose own mark is on since slot 12, as it has heard no no;
/// but now node 4 has neither 1 nor 3 marked, and leaves. In slot 16, which is silent, no mark of another is left to
/// nodes 1, 2 and 3.
const SILENCE: Run = &[(LOST, &[]), (LOST, &[(2, 3)]), (LOST, &[(4, 1)]), (LOST, &[(1, 1), (3, 1), (2, 6)])];

/// n = 5, k = 2: node 2 leaves in slot 4 and is restarted.
const TWO_BACK: Run = &[(OK, &[]), (LOST, &[]), (OK, &[]), (OK, &[(2, 1)]), (Call::Restart(2), &[])];

/// The last slot of the two windows, at whose end node 2 follows, and two slots more.
const TWO_FOLLOWS: Run = &[(OK, &[(2, 2)]), (OK, &[]), (OK, &[])];

/// The slots of two windows of five but the last.
const NINE: Run = &[(OK, &[] as &[(u8, u8)]); 9];

/// The message of slot 19 is lost. Node 1 decides its sender, node 4, in slot 21, and then node 2 joins.
const JOINS_AS_ONE_LEAVES: Run =
    &[(OK, &[(2, 3)]), (OK, &[]), (LOST, &[]), (OK, &[]), (OK, &[(4, 1), (2, 4)])];

/// The knock of slot 17 is lost, too.
const UNHEARD_AS_ONE_LEAVES: Run =
    &[(LOST, &[(2, 3)]), (OK, &[]), (LOST, &[]), (OK, &[]), (OK, &[(4, 1), (2, 5)])];

/// Node 2 listens from slot 6 on and hears nodes 1 and 5 in both windows, the last time one yes from node 5,
/// which then decides node 3: the message of slot 13 is lost.
const FOLLOWS_AS_ONE_LEAVES: Run = &[
    (OK, &[]),
    (LOST, &[]),
    (OK, &[]),
    (OK, &[(2, 1)]),
    (OK, &[]),
    (Call::Restart(2), &[]),
    (OK, &[]),
    (OK, &[]),
    (MISS, &[]),
    (MISS, &[]),
    (OK, &[]),
    (OK, &[]),
    (OK, &[]),
    (LOST, &[]),
    (MISS, &[]),
    (OK, &[(3, 1), (2, 2)]),
];

/// The model against the pairs; the commands are for the program.
fn follow(
    count: &mut Count,
    (n, k, lag): (u8, u32, u32),
    runs: &[Run],
) -> Result<(Vec<Command>, Held), String> {
    let set_up = Call::SetUp(Choices::of(u32::from(n), k, 0, lag).into());
    let mut commands = vec![Command::Size(n), Command::Lend(n), Command::Arrays(n), Command::Call(set_up, 0)];
    let mut held = Held::first();
    let mut answer = Vec::new();
    for command in &commands {
        held.run(command, &mut answer);
    }
    for (i, &(call, pairs)) in runs.iter().flat_map(|run| run.iter()).enumerate() {
        let command = Command::Call(call, 64);
        let told = held.run(&command, &mut answer).expect("a call is answered");
        let mut bytes: Vec<u8> = pairs.iter().flat_map(|&(node, kind)| [node, kind]).collect();
        bytes.resize(64, FILL);
        let same = told.number == 0 && told.pairs as usize == pairs.len() && buffer_of(&answer) == bytes;
        count.check(same, || format!("call {}: pairs {pairs:?}, and by the model {told:?}", i + 1))?;
        commands.push(command);
    }
    Ok((commands, held))
}

pub fn pairs(count: &mut Count) -> Result<(), String> {
    for runs in [[RETURN, KNOCKS], [RETURN, DEAF]] {
        let (commands, _) = follow(count, (4, 2, 0), &runs)?;
        compare(count, &commands)?;
    }
    count.needs(&KINDS)
}

/// A node leaves, and one with a lower number changes otherwise.
pub fn groups(count: &mut Count) -> Result<(), String> {
    let runs: [(u8, &[Run]); 4] = [
        (4, &[RETURN, SILENCE]),
        (5, &[TWO_BACK, NINE, TWO_FOLLOWS, JOINS_AS_ONE_LEAVES]),
        (5, &[TWO_BACK, NINE, TWO_FOLLOWS, UNHEARD_AS_ONE_LEAVES]),
        (5, &[FOLLOWS_AS_ONE_LEAVES]),
    ];
    for (n, runs) in runs {
        let (commands, _) = follow(count, (n, 2, 0), runs)?;
        compare(count, &commands)?;
    }
    count.needs(&[BOTH, LOWER[0], LOWER[2], LOWER[3], LOWER[4]])
}

/// n = 4, k = 3: the messages of 1 and 2 are lost. In slot 4 node 4 decides 1 of four and 2 of three.
const TWO_LEAVE: Run = &[(LOST, &[]), (LOST, &[]), (OK, &[]), (OK, &[(1, 1), (2, 1)])];

/// n = 5, k = 4: in slot 5 node 5 decides 1 of five, 2 of four and 3 of three.
const THREE_LEAVE: Run = &[(LOST, &[]), (LOST, &[]), (LOST, &[]), (OK, &[]), (OK, &[(1, 1), (2, 1), (3, 1)])];

/// n = 5, k = 3: node 1 leaves in slot 4 and is restarted; it follows after two windows of five slots.
const ONE_BACK: Run = &[(LOST, &[]), (OK, &[]), (OK, &[]), (OK, &[(1, 1)]), (Call::Restart(1), &[])];

/// The messages of 5 and 2 in slots 15 and 17 are lost, and in slot 16 node 1 knocks. In slot 19 node 4 decides 5 of
/// four and 2 of three, and is then the nearest before 1.
const TWO_LEAVE_ONE_JOINS: Run =
    &[(OK, &[(1, 2)]), (LOST, &[]), (OK, &[(1, 3)]), (LOST, &[]), (OK, &[]), (OK, &[(2, 1), (5, 1), (1, 4)])];

/// Document 01's last example: who is switched off before slot 1 leaves no more in slot 4, and no state changes.
const TWO_OFF: Run =
    &[(Call::Off(1), &[]), (Call::Off(2), &[]), (OK, &[]), (OK, &[]), (OK, &[]), (OK, &[]), (OK, &[])];

/// n, k and the lag, runs one after the other, and the figures of nodes 1 to n after them: left, joined, slot of the last
/// leaving.
type Several = ((u8, u32, u32), &'static [Run], &'static [[u64; 3]]);

const SEVERAL_LEAVE: &[Several] = &[
    ((4, 3, 0), &[TWO_LEAVE], &[[1, 0, 4], [1, 0, 4], [0, 0, 0], [0, 0, 0]]),
    ((5, 4, 0), &[THREE_LEAVE], &[[1, 0, 5], [1, 0, 5], [1, 0, 5], [0, 0, 0], [0, 0, 0]]),
    (
        (5, 3, 0),
        &[ONE_BACK, NINE, TWO_LEAVE_ONE_JOINS],
        &[[1, 1, 4], [1, 0, 19], [0, 0, 0], [0, 0, 0], [1, 0, 19]],
    ),
    ((4, 3, 0), &[TWO_OFF], &[[1, 0, 0], [1, 0, 0], [0, 0, 0], [0, 0, 0]]),
];

/// Follows the runs, and sees the figures after them.
fn figures_after(count: &mut Count, all: &[Several]) -> Result<(), String> {
    for &(ring, runs, figures) in all {
        let (commands, held) = follow(count, ring, runs)?;
        let expected: Vec<Figures> =
            figures.iter().map(|&[left, joined, last]| Figures { left, joined, last }).collect();
        let ledger = &held.entries[..held.lent];
        count.check(ledger == expected, || format!("{ledger:?}, not {expected:?}"))?;
        compare(count, &commands)?;
    }
    Ok(())
}

/// Request f: several leave in one slot, in one of them before a node joins.
pub fn several_leave(count: &mut Count) -> Result<(), String> {
    figures_after(count, SEVERAL_LEAVE)?;
    count.needs(&[BOTH, LOWER[2]])?;
    count.needs(&SEVERAL)
}

/// n, k and the lag, the nodes that are off before slot 1, and the list after each slot.
type Lists = ((u32, u32, u32), &'static [u32], &'static [u32]);

/// Request e's example: 2 leaves at slot 4, 3 at 5, 5 at 7 and 6 at 10; nodes 1 and 4 stay. And document 01's last
/// example by request f: 1 and 2 leave at slot 4.
#[rustfmt::skip]
const LISTS: &[Lists] = &[
    ((6, 2, 0), &[2, 3, 5, 6], &[
        0x3f, 0x3f, 0x3f, 0x3d, 0x39, 0x39,
        0x29, 0x29, 0x29, 0x09, 0x09, 0x09,
        0x09, 0x09, 0x09, 0x09, 0x09, 0x09,
    ]),
    ((4, 3, 0), &[1, 2], &[0x0f, 0x0f, 0x0f, 0x0c, 0x0c, 0x0c, 0x0c, 0x0c]),
    // The first with lag 1: 2 leaves at slot 5, 3 at 6, and 5 and 6 at 10, where node 4 decides 5 of four and 6 of three.
    ((6, 2, 1), &[2, 3, 5, 6], &[
        0x3f, 0x3f, 0x3f, 0x3f, 0x3d, 0x39,
        0x39, 0x39, 0x39, 0x09, 0x09, 0x09,
        0x09, 0x09, 0x09, 0x09, 0x09, 0x09,
    ]),
    // With lag 1 node 4 decides 1 of four, 2 of three, and of two nobody.
    ((4, 2, 1), &[1, 2], &[0x0f, 0x0f, 0x0f, 0x0c, 0x0c, 0x0c, 0x0c, 0x0c]),
];

/// No node's state changes in a slot, and the lists agree.
pub fn lists(count: &mut Count) -> Result<(), String> {
    let mut random = Random::new(100);
    for &((n, k, lag), off, lists) in LISTS {
        let mut script = Script::new();
        script.push(Command::Size(n as u8));
        script.push(Command::Arrays(n as u8));
        script.lend(&mut random, &vec![Figures::default(); n as usize]);
        script.call(&mut random, Call::SetUp(Choices::of(n, k, 0, lag).into()));
        for &x in off {
            script.call(&mut random, Call::Off(x));
        }
        for &list in lists {
            let told = script.push(Command::Call(OK, 64)).expect("a call is answered");
            let same = (told.number, told.pairs) == (0, 0) && (told.list, told.distance) == (Some(list), 0);
            count
                .check(same, || format!("slot {}: list {list:08x}, and by the model {told:?}", told.slot))?;
        }
        compare(count, &script.commands)?;
    }
    Ok(())
}

/// n = 5, k = 2, lag 1, and the message of slot 2 is lost: node 2 leaves in slot 5, where node 5 speaks, the third member
/// after it. Restarted, it follows after two windows of five slots.
const LAG_RETURN: Run = &[
    (OK, &[]),
    (LOST, &[]),
    (OK, &[]),
    (OK, &[]),
    (OK, &[(2, 1)]),
    (Call::Restart(2), &[]),
    (OK, &[]),
    (OK, &[]),
    (OK, &[]),
    (OK, &[]),
    (OK, &[]),
    (OK, &[]),
    (OK, &[]),
    (OK, &[]),
    (OK, &[]),
    (OK, &[(2, 2)]),
];

/// Its knock of slot 17 is lost, so node 1 has no return bit in slot 21. The knock of slot 22 is heard.
const LAG_KNOCKS: Run = &[
    (OK, &[]),
    (LOST, &[(2, 3)]),
    (OK, &[]),
    (OK, &[]),
    (OK, &[]),
    (OK, &[(2, 5)]),
    (OK, &[(2, 3)]),
    (OK, &[]),
    (OK, &[]),
    (OK, &[]),
    (OK, &[(2, 4)]),
];

/// It hears nothing more. In slot 20 node 5 decides 1 of four and 3 of three, whose marks are off, and of {4,5} nobody;
/// but no mark is left.
const LAG_DEAF: Run = &[(MISS, &[]), (OK, &[(2, 3)]), (MISS, &[]), (MISS, &[]), (MISS, &[(2, 6)])];

/// n = 5, k = 3, lag 1: the messages of 1 and 2 are lost. In slot 5 node 5 decides 1 of five and 2 of four.
const LAG_TWO_LEAVE: Run = &[(LOST, &[]), (LOST, &[]), (OK, &[]), (OK, &[]), (OK, &[(1, 1), (2, 1)])];

/// Runs with lag 1 and the figures of nodes 1 to 5 after them.
const WITH_LAG: &[Several] = &[
    ((5, 2, 1), &[LAG_RETURN, LAG_KNOCKS], &[[0, 0, 0], [1, 1, 5], [0, 0, 0], [0, 0, 0], [0, 0, 0]]),
    ((5, 2, 1), &[LAG_RETURN, LAG_DEAF], &[[0, 0, 0], [1, 0, 5], [0, 0, 0], [0, 0, 0], [0, 0, 0]]),
    ((5, 3, 1), &[LAG_TWO_LEAVE], &[[1, 0, 5], [1, 0, 5], [0, 0, 0], [0, 0, 0], [0, 0, 0]]),
];

/// Pairs of all six kinds, and several that leave in one slot.
pub fn with_lag(count: &mut Count) -> Result<(), String> {
    figures_after(count, WITH_LAG)?;
    count.needs(&KINDS)?;
    count.needs(&SEVERAL[..1])
}

/// A call that is made so many times, and node 2's figures after each: left, joined, slot of the last leaving.
type Kept = &'static [(Call, u32, [u64; 3])];

/// The calls of `RETURN`.
const LEAVES_AND_FOLLOWS: Kept = &[
    (OK, 1, [0, 0, 0]),
    (LOST, 1, [0, 0, 0]),
    (OK, 1, [0, 0, 0]),
    (OK, 1, [1, 0, 4]),
    (Call::Off(2), 1, [1, 0, 4]),
    (Call::Restart(2), 1, [1, 0, 4]),
    (OK, 8, [1, 0, 4]),
];

/// Those of `DEAF`, with which it stops following.
const STOPS_FOLLOWING: Kept = &[(MISS, 1, [1, 0, 4]), (OK, 1, [1, 0, 4]), (MISS, 2, [1, 0, 4])];

/// Switched off as it follows, then as it listens.
const OFF_FOLLOWING: Kept = &[
    (OK, 1, [1, 0, 4]),
    (Call::Off(2), 1, [1, 0, 4]),
    (Call::Restart(2), 1, [1, 0, 4]),
    (Call::Off(2), 1, [1, 0, 4]),
];

/// Its knock is slot 14.
const OFF_KNOCKING: Kept = &[(OK, 2, [1, 0, 4]), (Call::Off(2), 1, [1, 0, 4]), (OK, 4, [1, 0, 4])];

/// The knock is answered and it joins in slot 17.
const JOINS: Kept = &[(OK, 4, [1, 0, 4]), (OK, 1, [1, 1, 4])];

/// Its message of slot 18 is lost, and it leaves in slot 20.
const LEAVES_AGAIN: Kept =
    &[(LOST, 1, [1, 1, 4]), (OK, 1, [1, 1, 4]), (OK, 1, [2, 1, 20]), (OK, 3, [2, 1, 20])];

/// "dated with the slots done so far": 17, and off again counts nothing.
const OFF_MEMBER: Kept = &[
    (Call::Off(2), 2, [2, 1, 17]),
    (OK, 2, [2, 1, 17]),
    (Call::Restart(2), 1, [2, 1, 17]),
    (OK, 1, [2, 1, 17]),
];

/// Before slot 1 no slot is done.
const OFF_FIRST: Kept = &[(Call::Off(2), 2, [1, 0, 0]), (OK, 5, [1, 0, 0])];

const KEPT: &[&[Kept]] = &[
    &[LEAVES_AND_FOLLOWS, STOPS_FOLLOWING],
    &[LEAVES_AND_FOLLOWS, OFF_FOLLOWING],
    &[LEAVES_AND_FOLLOWS, OFF_KNOCKING],
    &[LEAVES_AND_FOLLOWS, JOINS, LEAVES_AGAIN],
    &[LEAVES_AND_FOLLOWS, JOINS, OFF_MEMBER],
    &[OFF_FIRST],
];

/// A run by the model, n = 4 and k = 2: the figures of all other nodes stay 0.
fn keep(count: &mut Count, script: &mut Script, runs: &[Kept]) -> Result<(), String> {
    let mut random = Random::new(99);
    script.push(Command::Size(4));
    script.push(Command::Arrays(4));
    script.lend(&mut random, &[Figures::default(); 4]);
    script.call(&mut random, Call::SetUp(Choices::plain(4, 2).into()));
    for &(call, times, [left, joined, last]) in runs.iter().flat_map(|run| run.iter()) {
        let mut expected = [Figures::default(); 4];
        expected[1] = Figures { left, joined, last };
        for _ in 0..times {
            let number = script.call(&mut random, call);
            let (ledger, slots) = (&script.entries()[..4], script.table()[0].slots);
            let same = number == 0 && ledger == expected;
            count.check(same, || {
                format!("{slots} slots done: {ledger:?}, not {expected:?}, refusal {number}")
            })?;
        }
    }
    Ok(())
}

/// Node 2 leaves, stops following, joins, and is switched off in every state.
pub fn figures(count: &mut Count) -> Result<(), String> {
    let mut script = Script::new();
    for runs in KEPT {
        keep(count, &mut script, runs)?;
    }
    compare(count, &script.commands)?;
    count.needs(&OFFS)?;
    count.needs(&[KINDS[0], KINDS[3], KINDS[5]])
}
