//! Both calls on a record, and every answer and lent byte beside the model's.

use comparison::library;
use comparison::model::cover_light;
use comparison::model::held::Record;
use comparison::random::Random;
use comparison::record_bytes::{record_bytes, shown_held};
use comparison::report::Count;

/// Each byte of a lent buffer before the call.
const FILL: u8 = 0xA5;

/// The level of one lamp by the library, if it is not refused.
pub fn level(count: &mut Count, record: &Record, bases: &[u8], lamp: u32) -> Result<Option<u64>, String> {
    let expected = cover_light::level(record, bases, lamp);
    count.expected(expected.err().unwrap_or(0));
    let got = library::level(&record_bytes(record), bases, lamp);
    count.check(got == expected.map(u64::from).map_err(u64::from), || {
        format!("lamp {lamp} of bases {bases:?}: {got:?}, expected {expected:?}: {}", shown_held(record))
    })?;
    Ok(got.ok())
}

/// All levels into so many lent bytes by the library: the bytes as they then are, if it is not refused.
pub fn levels(
    count: &mut Count,
    record: &Record,
    bases: &[u8],
    room: usize,
) -> Result<Option<Vec<u8>>, String> {
    let mut lent = vec![FILL; room];
    let expected = cover_light::levels(record, bases, &mut lent);
    count.expected(expected.err().unwrap_or(0));
    let mut got_lent = vec![FILL; room];
    let got = library::levels(&record_bytes(record), bases, &mut got_lent);
    let same = got == expected.map(|n| n as u64).map_err(u64::from) && got_lent == lent;
    count.check(same, || {
        format!(
            "levels of bases {bases:?} into {room} bytes: {got:?} {got_lent:?}, expected {expected:?} {lent:?}: {}",
            shown_held(record)
        )
    })?;
    Ok(got.ok().map(|_| got_lent))
}

/// Every lamp from 0 to the one after n, and all levels, into lent bytes that are too few, just enough and more.
pub fn every_lamp(count: &mut Count, record: &Record, bases: &[u8]) -> Result<(), String> {
    let n = record.node.chosen.n.min(40);
    for lamp in 0..=n + 1 {
        level(count, record, bases, lamp)?;
    }
    for room in [n.saturating_sub(1), n, n + 1, 40] {
        levels(count, record, bases, room as usize)?;
    }
    Ok(())
}

/// A table of so many bases, of any kind: any levels, dark, bright, odd, or all the same.
pub fn bases(random: &mut Random, entries: u32) -> Vec<u8> {
    let kind = random.below(6);
    let same = random.below(255) as u8;
    let base = |random: &mut Random| match kind {
        0 => random.below(8) as u8,
        1 => 250 + random.below(5) as u8,
        2 => random.below(127) as u8 * 2 + 1,
        3 => same,
        _ => random.below(255) as u8,
    };
    (0..entries).map(|_| base(random)).collect()
}

/// The same with one base of 255.
pub fn too_bright(random: &mut Random, bases: &mut [u8]) {
    let at = random.below(bases.len() as u64) as usize;
    bases[at] = 255;
}
