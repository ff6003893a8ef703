//! Runs of a bench whose counts are typed from request h; neither side makes an expected answer.

use super::compare::compare;
use super::protocol::{Call, Command};
use super::reports::{GIVEN, TALLIES};
use super::script::Script;
use comparison::events::{COUNTED, UNCOUNTED};
use comparison::model::choices::Choices;
use comparison::model::counts::{Counts, NONE};
use comparison::model::ledger::Figures;
use comparison::random::Random;
use comparison::report::Count;

/// A slot in which all goes well, and its job byte.
const fn ok(jobs: u8) -> Call {
    Call::Slot { lost: false, missed: 0, jobs }
}

const fn lost(jobs: u8) -> Call {
    Call::Slot { lost: true, missed: 0, jobs }
}

/// This node misses the message.
const fn miss(node: u32, jobs: u8) -> Call {
    Call::Slot { lost: false, missed: 1 << (node - 1), jobs }
}

/// A call, the sender if it is a slot, and the nodes that have one more for each of its jobs.
type Step = (Call, u32, &'static [usize]);

/// n = 4, k = 2, m = 3. The message of slot 2 is lost, and node 2 leaves in slot 4 by node 4's message, which it counts.
/// It is silent in slot 6.
const LEAVES: &[Step] = &[
    (ok(0b101), 1, &[2, 3, 4]),
    (lost(0b111), 2, &[]),
    (miss(1, 0b010), 3, &[2, 4]),
    (ok(0b011), 4, &[1, 2, 3]),
    (ok(0b001), 1, &[3, 4]),
    (ok(0b111), 2, &[]),
    (Call::Off(2), 0, &[]),
    (Call::Restart(2), 0, &[]),
    (Call::Look { lost: false }, 0, &[]),
];

/// It listens for two windows of four slots and follows at the end of slot 14.
const LISTENS: &[Step] = &[
    (ok(0b100), 3, &[1, 4]),
    (ok(0), 4, &[]),
    (ok(0b010), 1, &[3, 4]),
    (ok(0b111), 2, &[]),
    (ok(0), 3, &[]),
    (ok(0b001), 4, &[1, 3]),
    (ok(0b110), 1, &[3, 4]),
    (ok(0b101), 2, &[]),
    (ok(0b010), 3, &[1, 2, 4]),
    (ok(0b100), 4, &[1, 2, 3]),
    (ok(0b001), 1, &[2, 3, 4]),
];

/// It knocks in slot 18, and joins in slot 21 by node 1's message. Its report of slot 22 is a member's.
const JOINS: &[Step] = &[
    (ok(0b111), 2, &[]),
    (ok(0b001), 3, &[1, 2, 4]),
    (ok(0), 4, &[]),
    (ok(0b110), 1, &[2, 3, 4]),
    (ok(0b111), 2, &[1, 3, 4]),
    (Call::Off(2), 0, &[]),
    (ok(0b111), 3, &[1, 4]),
    (Call::Restart(2), 0, &[]),
    (ok(0b111), 4, &[1, 3]),
];

/// Node 3 misses the knock, and leaves with cause 3 by node 4's message, which it counts. Node 2 joins in slot 21.
const MISSES: &[Step] = &[
    (miss(3, 0b111), 2, &[]),
    (ok(0b001), 3, &[1, 2, 4]),
    (ok(0b010), 4, &[1, 2, 3]),
    (ok(0b100), 1, &[2, 4]),
    (ok(0b100), 2, &[1, 4]),
    (ok(0b111), 3, &[]),
];

/// n = 5, k = 2: after 25 slots node 1 holds {1,3,4,5}, and the others {2,3,4,5}. The knock of node 1 in slot 21 was
/// lost, and node 2 knocked in slot 22.
const APART: &[(Call, u32)] = &[
    (lost(0), 1),
    (ok(0), 3),
    (Call::Restart(1), 1),
    (ok(0), 2),
    (lost(0), 1),
    (ok(0), 2),
    (Call::Restart(2), 1),
    (ok(0), 11),
    (lost(0), 1),
    (ok(0), 4),
];

/// "from senders in its set": node 1 is in no other set, and node 2 not in that of node 1.
const OUTSIDE: &[Step] = &[(ok(0b111), 1, &[]), (ok(0b011), 2, &[3, 4, 5]), (ok(0b001), 3, &[1, 2, 4, 5])];

/// The counts by the document.
struct Expected(Vec<Counts>);

impl Expected {
    fn add(&mut self, jobs: u8, sender: u32, nodes: &[usize]) {
        for &node in nodes {
            for (job, count) in self.0[node - 1][sender as usize - 1].iter_mut().enumerate() {
                *count += u64::from(jobs >> job & 1);
            }
        }
    }

    fn see(&self, count: &mut Count, script: &mut Script) -> Result<(), String> {
        let n = self.0.len();
        let slots = script.table()[0].slots;
        let same = script.arrays()[..n] == self.0[..];
        count.check(same, || format!("{slots} slots done: the model counts otherwise"))?;
        script.ask_counts(n as u32);
        Ok(())
    }
}

fn start(script: &mut Script, random: &mut Random, (n, k, m): (u32, u32, u32)) -> Expected {
    script.push(Command::Size(n as u8));
    script.push(Command::Arrays(n as u8));
    script.lend(random, &vec![Figures::default(); n as usize]);
    script.call(random, Call::SetUp(Choices::of(n, k, m, 0).into()));
    Expected(vec![NONE; n as usize])
}

/// Carries the steps out by the model, and sees the counts after each.
fn follow(
    count: &mut Count,
    (script, random): (&mut Script, &mut Random),
    expected: &mut Expected,
    steps: &[Step],
) -> Result<(), String> {
    for &(call, sender, nodes) in steps {
        let told = script.push(Command::Call(call, 64)).expect("a call is answered");
        let spoke = if let Call::Slot { .. } = call { told.sender } else { 0 };
        count.check((told.number, spoke) == (0, sender), || {
            format!("by the model {told:?}, sender {sender}")
        })?;
        if let Call::Slot { jobs, .. } = call {
            expected.add(jobs, sender, nodes);
        }
        expected.see(count, script)?;
    }
    refused(count, (script, random), expected)
}

/// Refused calls change no count: a job past m; an array too few, too many; a count too large; set-up. Then set-up.
fn refused(
    count: &mut Count,
    (script, random): (&mut Script, &mut Random),
    expected: &mut Expected,
) -> Result<(), String> {
    let (n, slots) = (expected.0.len() as u8, script.table()[0].slots);
    let set_up = |m, lag| Call::SetUp(Choices::of(u32::from(n), 2, m, lag).into());
    for (arrays, call, number) in [
        (n, ok(0b1000), 8),
        (n - 1, ok(0b1000), 4),
        (n + 1, ok(0), 4),
        (n, set_up(9, 0), 14),
        (n, set_up(9, 2), 16),
        (n - 1, set_up(3, 2), 16),
        (n - 1, set_up(3, 0), 4),
        (n + 1, set_up(3, 1), 4),
    ] {
        script.push(Command::Arrays(arrays));
        let got = script.call(random, call);
        count.check(got == number, || format!("{got} by the model, not {number}"))?;
        expected.see(count, script)?;
    }
    script.push(Command::Arrays(n));
    script.push(Command::Count { array: n - 1, row: 31, job: 7, count: slots + 1 });
    let got = script.call(random, ok(0));
    count.check(got == 4, || format!("{got} by the model, not 4"))?;
    script.push(Command::Count { array: n - 1, row: 31, job: 7, count: slots });
    let got = [script.call(random, ok(0)), script.call(random, set_up(3, 0))];
    count.check(got == [0, 0], || format!("{got:?} by the model"))?;
    Expected(vec![NONE; usize::from(n)]).see(count, script)
}

pub fn benches(count: &mut Count) -> Result<(), String> {
    let mut random = Random::new(121);
    let mut script = Script::new();
    for runs in [[LEAVES, LISTENS, JOINS].concat(), [LEAVES, LISTENS, MISSES].concat()] {
        let mut expected = start(&mut script, &mut random, (4, 2, 3));
        follow(count, (&mut script, &mut random), &mut expected, &runs)?;
    }
    let mut expected = start(&mut script, &mut random, (5, 2, 3));
    for &(call, times) in APART {
        for _ in 0..times {
            script.call(&mut random, call);
        }
    }
    follow(count, (&mut script, &mut random), &mut expected, OUTSIDE)?;
    compare(count, &script.commands)?;
    count.needs(&GIVEN)?;
    count.needs(&TALLIES)?;
    count.needs(&[COUNTED[0], COUNTED[1], COUNTED[2], COUNTED[3], COUNTED[5], COUNTED[6]])?;
    count.needs(&UNCOUNTED)
}
