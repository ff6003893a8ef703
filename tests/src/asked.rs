//! What set-up is given, with several causes of a refusal at once.

use crate::model::choices::{Asked, Choices};
use crate::model::slot_table::Slots;
use crate::random::Random;
use crate::records::{choices_of, size};
use crate::report::Count;
use crate::slot_tables::{make_wrong, of_length, table};

/// The causes in their order, before those of a node's own number (3) or of the bench's table (4).
pub const NUMBERS: [u32; 6] = [1, 16, 2, 14, 17, 18];

/// Which of the causes apply.
pub fn causes(Asked { n, k, m, lag, slots }: Asked) -> [bool; 6] {
    let wide = i64::from;
    let mut times = [0; 256];
    slots.bytes().iter().for_each(|&x| times[usize::from(x)] += 1);
    [
        !(3..=32).contains(&n),
        lag > 1,
        k < 2 || wide(k) > wide(n) - 1 - wide(lag),
        m > 8,
        slots.bytes().len() != n as usize,
        (1..=n.min(255)).any(|x| times[x as usize] != 1),
    ]
}

/// Two causes at once, by their places in that order, and none before the first; after all stands 3 or 4.
#[rustfmt::skip]
const PAIRS: [(usize, usize, &str); 14] = [
    (0, 1, "causes: 1 and 16"), (1, 2, "causes: 16 and 2"), (2, 3, "causes: 2 and 14"),
    (0, 4, "causes: 1 and 17"), (1, 4, "causes: 16 and 17"), (2, 4, "causes: 2 and 17"), (3, 4, "causes: 14 and 17"),
    (0, 5, "causes: 1 and 18"), (1, 5, "causes: 16 and 18"), (2, 5, "causes: 2 and 18"), (3, 5, "causes: 14 and 18"),
    (4, 5, "causes: 17 and 18"), (4, 6, "causes: 17 and 3 or 4"), (5, 6, "causes: 18 and 3 or 4"),
];

/// 17 and 18 alone.
const ALONE: [(usize, &str); 2] = [(4, "causes: 17 alone"), (5, "causes: 18 alone")];

/// Notes the causes that apply and gives the number of the first, or 0. `last` is the one after these, if it applies.
pub fn first(count: &mut Count, asked: Asked, last: Option<u32>) -> u32 {
    let mut all = [false; 7];
    all[..6].copy_from_slice(&causes(asked));
    all[6] = last.is_some();
    for (a, b, name) in PAIRS {
        if all[a] && all[b] && !all[..a].contains(&true) {
            count.event(name);
        }
    }
    for (a, name) in ALONE {
        if all == std::array::from_fn(|i| i == a) {
            count.event(name);
        }
    }
    let number = |i: usize| NUMBERS.get(i).copied().or(last).unwrap_or(0);
    all.iter().position(|&yes| yes).map_or(0, number)
}

/// Fails if two causes were never met together, or 17 and 18 never alone.
pub fn all_met(count: &Count) -> Result<(), String> {
    count.needs(&PAIRS.map(|pair| pair.2))?;
    alone_met(count)
}

/// Fails if 17 or 18 was never met alone.
pub fn alone_met(count: &Count) -> Result<(), String> {
    count.needs(&ALONE.map(|alone| alone.1))
}

/// A table that is right, too short, too long or wrong at a place.
fn any_table(random: &mut Random, n: u32) -> Slots {
    let mut slots = match random.below(4) {
        0 => table(random, n),
        _ => {
            let places = if random.bit() { n as usize } else { random.below(41) as usize };
            of_length(random, n, places)
        }
    };
    if slots.len() > 1 && random.below(3) == 0 {
        let way = random.below(4) as usize;
        make_wrong(random, &mut slots, way);
    }
    Slots::new(&slots)
}

/// One of the others in one of four.
fn or_wrong(random: &mut Random, right: u32, others: [u32; 3]) -> u32 {
    match random.below(4) {
        0 => others[random.below(3) as usize],
        _ => right,
    }
}

/// Each number and the table right or wrong; n is meant to be the number that comes with it.
pub fn any(random: &mut Random) -> (Asked, u32) {
    let meant = size(random);
    let Choices { k, m, lag, .. } = choices_of(random, meant);
    let slots = any_table(random, meant);
    let asked = Asked {
        n: or_wrong(random, meant, [2, 33, meant + 1]),
        k: or_wrong(random, k, [1, meant, u32::MAX]),
        m: or_wrong(random, m, [9, 256, u32::MAX]),
        lag: or_wrong(random, lag, [2, 256, u32::MAX]),
        slots,
    };
    (asked, meant)
}
