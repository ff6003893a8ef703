//! Adding four figures to four totals: sums typed from request m, and any numbers.

use super::protocol::push_figures;
use comparison::child;
use comparison::model::plan_report::{add, Figures};
use comparison::model::refusal;
use comparison::random::Random;
use comparison::report::Count;

pub const MOST: u64 = 18_446_744_073_709_551_615;
const HALF: u64 = 9_223_372_036_854_775_808;

/// Totals, the figures that are added, and the sums; none where one of them passes 64 bits.
type Sum = (Figures, Figures, Option<Figures>);

#[rustfmt::skip]
const SUMS: &[Sum] = &[
    ([0, 0, 0, 0], [0, 0, 0, 0], Some([0, 0, 0, 0])),
    ([0, 0, 0, 0], [1, 2, 3, 4], Some([1, 2, 3, 4])),
    ([1, 20, 300, 4000], [5, 60, 700, 8000], Some([6, 80, 1000, 12000])),
    ([MOST, MOST, MOST, MOST], [0, 0, 0, 0], Some([MOST, MOST, MOST, MOST])),
    ([0, 0, 0, 0], [MOST, MOST, MOST, MOST], Some([MOST, MOST, MOST, MOST])),
    ([MOST - 1, HALF, 1, HALF - 1], [1, HALF - 1, MOST - 1, HALF], Some([MOST, MOST, MOST, MOST])),
    ([MOST, 5, 6, 7], [1, 1, 1, 1], None),
    ([5, MOST, 6, 7], [1, 1, 1, 1], None),
    ([5, 6, MOST, 7], [1, 1, 1, 1], None),
    ([5, 6, 7, MOST], [1, 1, 1, 1], None),
    ([5, 6, 7, 1], [0, 0, 0, MOST], None),
    ([HALF, 0, 0, 0], [HALF, 0, 0, 0], None),
    ([MOST, MOST, MOST, MOST], [MOST, MOST, MOST, MOST], None),
];

/// "A sum passing 64 bits in that call: 19, its only refusal; the totals keep what they had."
pub fn typed(count: &mut Count) -> Result<(), String> {
    for (before, figures, sums) in SUMS {
        let mut totals = *before;
        let got = add(&mut totals, figures);
        let expected = (sums.ok_or(refusal::SUM).map(|_| ()), sums.unwrap_or(*before));
        count.check((got, totals) == expected, || {
            format!("{before:?} and {figures:?}: {got:?}, totals {totals:?} by the model, not {expected:?}")
        })?;
    }
    let pairs: Vec<_> = SUMS.iter().map(|&(totals, figures, _)| (totals, figures)).collect();
    compare(count, &pairs)
}

/// Any number, or one that makes about 2^64 with the other.
fn beside(random: &mut Random, other: u64) -> u64 {
    match random.below(4) {
        0 => random.number(),
        1 => (MOST - other).saturating_add(random.below(3)),
        2 => (MOST - other).saturating_sub(random.below(3)),
        _ => random.below(MOST - other),
    }
}

/// Any totals, and figures of which none, one or several pass 64 bits, often just so.
pub fn drawn(count: &mut Count) -> Result<(), String> {
    let mut random = Random::new(97);
    let mut pairs = Vec::new();
    for _ in 0..20_000 {
        let totals: Figures = std::array::from_fn(|_| random.number() >> random.below(64));
        let figures = totals.map(|total| beside(&mut random, total));
        let passing = totals.iter().zip(&figures).filter(|(a, b)| a.checked_add(**b).is_none()).count();
        count.event(["sums: none passes", "sums: one passes", "sums: several pass"][passing.min(2)]);
        pairs.push((totals, figures));
    }
    count.needs(&["sums: none passes", "sums: one passes", "sums: several pass"])?;
    compare(count, &pairs)
}

/// Runs the program on totals and figures and compares every answer: a byte, 0 or the refusal's number, and the totals.
fn compare(count: &mut Count, pairs: &[(Figures, Figures)]) -> Result<(), String> {
    let mut script = Vec::new();
    for (totals, figures) in pairs {
        script.extend([b'A', 0]);
        push_figures(totals, &mut script);
        push_figures(figures, &mut script);
    }
    child::run(count, "report_runs", &script, |count, output| {
        for (before, figures) in pairs {
            let mut totals = *before;
            let number = add(&mut totals, figures).err().unwrap_or(0);
            count.expected(number);
            let mut expected = vec![number as u8];
            push_figures(&totals, &mut expected);
            let mut got = Vec::new();
            child::read_answer(output, expected.len(), &mut got)
                .map_err(|why| format!("the answer cannot be read: {why}"))?;
            count.check(got == expected, || {
                format!("{before:?} and {figures:?}: {got:?} by the program, not {expected:?}")
            })?;
        }
        Ok(())
    })
}
