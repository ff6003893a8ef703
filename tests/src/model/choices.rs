//! What set-up chooses for the whole cable: document 01, "The ring", and document 02, requests h, j and k.

use super::message;
use super::refusal;
use super::ring;
use super::slot_table::{Order, Slots};

/// "One m is set for the whole cable"; "At set-up a lag of 0 or 1 is chosen for the whole cable."; "the record keeps
/// [the slot table] with spare places 0".
#[derive(Clone, Copy, PartialEq, Eq, Hash, Debug)]
pub struct Choices {
    pub n: u32,
    pub k: u32,
    pub m: u32,
    pub lag: u32,
    pub order: Order,
}

impl Choices {
    /// A cable without jobs and lag, as document 01 has it.
    pub fn plain(n: u32, k: u32) -> Choices {
        Choices::of(n, k, 0, 0)
    }

    /// With "the plain table 1 to n".
    pub fn of(n: u32, k: u32, m: u32, lag: u32) -> Choices {
        Choices { n, k, m, lag, order: Order::plain(n) }
    }

    /// "Lag above 1: 16, after 1. The limit on k is refused by 2."
    pub fn check_ring(self) -> Result<(), u32> {
        ring::check_size(self.n)?;
        if !ring::is_lag(self.lag) {
            return Err(refusal::LAG);
        }
        if !ring::is_sponsor_count(self.n, self.k, self.lag) {
            return Err(refusal::K);
        }
        Ok(())
    }
}

/// What set-up is given.
#[derive(Clone, Copy)]
pub struct Asked {
    pub n: u32,
    pub k: u32,
    pub m: u32,
    pub lag: u32,
    pub slots: Slots,
}

/// With the table that is kept in the choices.
impl From<Choices> for Asked {
    fn from(chosen: Choices) -> Asked {
        let Choices { n, k, m, lag, order } = chosen;
        Asked { n, k, m, lag, slots: order.slots(n) }
    }
}

impl Asked {
    /// The choices that the record keeps. 1, 16, 2; "14, after 2"; "17, after 14"; "18, next".
    pub fn check(self) -> Result<Choices, u32> {
        let Asked { n, k, m, lag, slots } = self;
        let chosen = Choices { n, k, m, lag, order: Order::kept(slots.bytes()) };
        chosen.check_ring()?;
        message::check_m(m)?;
        slots.check(n)?;
        Ok(chosen)
    }
}
