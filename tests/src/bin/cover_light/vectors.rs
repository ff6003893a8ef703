//! Literal records, bases and levels, typed from request n; neither side makes an expected answer.

use comparison::library;
use comparison::model::cover_light;
use comparison::model::held::Record;
use comparison::model::node::{Cause, ListeningData, Node, State};
use comparison::model::ring::Set;
use comparison::record_bytes::record_bytes;
use comparison::report::Count;
use comparison::typed_rows::record_of;

/// The slot table, the list, the bases, and the level of each lamp; the list's lowest node is the member.
type Levels = (&'static [u8], &'static [u32], &'static [u8], &'static [u8]);

#[rustfmt::skip]
const LEVELS: &[Levels] = &[
    // All listed: the bases.
    (&[1, 2, 3, 4], &[1, 2, 3, 4], &[10, 20, 30, 40], &[10, 20, 30, 40]),
    (&[1, 2, 3], &[1, 2, 3], &[0, 254, 0], &[0, 254, 0]),
    // "plus half the base of each neighbour i - 1 and i + 1 that is not listed"
    (&[1, 2, 3, 4], &[1, 3, 4], &[10, 20, 30, 40], &[20, 20, 40, 40]),
    (&[1, 2, 3, 4], &[1, 2, 4], &[10, 20, 30, 40], &[10, 35, 30, 55]),
    // Both neighbours; a lamp whose own node is not listed has its base, too.
    (&[1, 2, 3, 4, 5], &[3, 5], &[10, 20, 30, 40, 50], &[20, 25, 60, 40, 70]),
    (&[1, 2, 3], &[2], &[100, 50, 60], &[100, 130, 60]),
    // "halves rounded down one by one": 1 / 2 + 3 / 2 is 1, and 4 / 2 would be 2.
    (&[1, 2, 3], &[2], &[1, 10, 3], &[1, 11, 3]),
    (&[1, 2, 3], &[2], &[101, 10, 101], &[101, 110, 101]),
    // "Lamps 1 and n have one neighbour": none stands across the ends.
    (&[1, 2, 3], &[1], &[8, 100, 60], &[58, 130, 110]),
    (&[1, 2, 3], &[3], &[8, 100, 60], &[58, 104, 110]),
    (&[1, 2, 3, 4], &[2, 3], &[200, 10, 10, 200], &[200, 110, 110, 200]),
    // "and at most 254"
    (&[1, 2, 3], &[2], &[254, 1, 253], &[254, 254, 253]),
    (&[1, 2, 3], &[2], &[254, 0, 253], &[254, 253, 253]),
    (&[1, 2, 3], &[2], &[254, 0, 254], &[254, 254, 254]),
    (&[1, 2, 3], &[2], &[254, 254, 254], &[254, 254, 254]),
    // Neighbours are by number, whatever the slot table.
    (&[3, 1, 5, 2, 4], &[3, 5], &[10, 20, 30, 40, 50], &[20, 25, 60, 40, 70]),
    (&[4, 3, 2, 1], &[1, 3, 4], &[10, 20, 30, 40], &[20, 20, 40, 40]),
];

/// A record, bases, a lamp, and the number of the refusal.
type Refused = (fn() -> Record, &'static [u8], u32, u32);

fn member() -> Record {
    record_of(&[1, 2, 3, 4], &[1, 3]).into()
}

fn not_sound() -> Record {
    Node { yes_heard: true, ..record_of(&[1, 2, 3, 4], &[]) }.into()
}

#[rustfmt::skip]
const REFUSED: &[Refused] = &[
    (member, &[1, 2, 3, 4], 0, 3),
    (member, &[1, 2, 3, 4], 5, 3),
    (member, &[1, 2, 3, 4], 257, 3),
    (member, &[1, 2, 3, 4], u32::MAX, 3),
    (member, &[1, 2, 3], 1, 20),
    (member, &[1, 2, 3, 4, 5], 1, 20),
    (member, &[], 4, 20),
    (member, &[1, 2, 3, 255], 1, 20),
    (member, &[255, 2, 3, 4], 4, 20),
    // "20, after 4 and 3"
    (member, &[1, 2, 255], 0, 3),
    (member, &[], 5, 3),
    (not_sound, &[1, 2, 3, 4], 1, 4),
    (not_sound, &[1, 2, 3, 4], 0, 4),
    (not_sound, &[255], 9, 4),
];

/// "A node in any other state gives 254 for each lamp."
fn others() -> [Node; 4] {
    let following =
        Node { own: 2, state: State::Following, marks: Set::EMPTY, ..record_of(&[1, 2, 3, 4], &[1, 3]) };
    let knocking = Node { state: State::Knocking, returning: 2, ..following };
    let out = Node { state: State::Out(Cause::SwitchedOff), ..record_of(&[1, 2, 3, 4], &[]) };
    let data = ListeningData { shortest: 2, ..ListeningData::default() };
    let listening = Node { state: State::Listening, listening: data, ..out };
    [following, knocking, out, listening]
}

fn both(
    count: &mut Count,
    record: &Record,
    bases: &[u8],
    lamp: u32,
    expected: Result<u8, u32>,
) -> Result<(), String> {
    count.expected(expected.err().unwrap_or(0));
    let expected = expected.map(u64::from).map_err(u64::from);
    let by_model = cover_light::level(record, bases, lamp).map(u64::from).map_err(u64::from);
    let sides = [("model", by_model), ("library", library::level(&record_bytes(record), bases, lamp))];
    for (who, got) in sides {
        count.check(got == expected, || {
            format!("lamp {lamp} of bases {bases:?}: {who} {got:?}, expected {expected:?}")
        })?;
    }
    Ok(())
}

fn both_write(count: &mut Count, record: &Record, bases: &[u8], expected: &[u8]) -> Result<(), String> {
    let mut lent = [vec![7; expected.len() + 3], vec![7; expected.len() + 3]];
    let by_model = cover_light::levels(record, bases, &mut lent[0]).map(|n| n as u64).map_err(u64::from);
    let by_library = library::levels(&record_bytes(record), bases, &mut lent[1]);
    for (who, got, lent) in [("model", by_model, &lent[0]), ("library", by_library, &lent[1])] {
        let right = got == Ok(expected.len() as u64) && lent[..] == [expected, &[7, 7, 7]].concat();
        count.check(right, || {
            format!("levels of bases {bases:?}: {who} {got:?} {lent:?}, expected {expected:?}")
        })?;
    }
    Ok(())
}

pub fn levels(count: &mut Count) -> Result<(), String> {
    for &(slots, list, bases, levels) in LEVELS {
        let record = record_of(slots, list).into();
        for (lamp, &level) in (1..).zip(levels) {
            both(count, &record, bases, lamp, Ok(level))?;
        }
        both_write(count, &record, bases, levels)?;
    }
    for node in others() {
        count.check(node.is_sound(), || format!("not sound: {:?}", node.state))?;
        for lamp in 1..=4 {
            both(count, &node.into(), &[1, 0, 254, 9], lamp, Ok(254))?;
        }
        both_write(count, &node.into(), &[1, 0, 254, 9], &[254; 4])?;
    }
    for &(record, bases, lamp, number) in REFUSED {
        both(count, &record(), bases, lamp, Err(number))?;
    }
    Ok(())
}
