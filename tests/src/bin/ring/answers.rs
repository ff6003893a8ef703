//! What the library must answer on the walk back.

use comparison::library::Found;
use comparison::model::ring::Met;

/// A member that the walk meets or nobody, or the number of the refusal.
pub type Expected = Result<Option<Met>, u32>;

/// The member and the number of slots; "none, and no distance"; or the refusal from both functions.
pub fn found(expected: Expected) -> Found {
    let each =
        |number: fn(Met) -> u32| expected.map(|met| met.map(|met| u64::from(number(met)))).map_err(u64::from);
    Found { member: each(|met| met.member), back: each(|met| met.back) }
}
