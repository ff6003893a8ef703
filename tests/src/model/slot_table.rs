//! Document 02, request k: the slot table.

use super::refusal;

/// "A slot table says which node speaks at each place": the bytes that set-up is given, place 1 first.
#[derive(Clone, Copy)]
pub struct Slots {
    bytes: [u8; Slots::MOST],
    places: usize,
}

impl Slots {
    /// The most places that are tried.
    pub const MOST: usize = 64;

    pub fn new(slots: &[u8]) -> Slots {
        let mut bytes = [0; Slots::MOST];
        bytes[..slots.len()].copy_from_slice(slots);
        Slots { bytes, places: slots.len() }
    }

    pub fn bytes(&self) -> &[u8] {
        &self.bytes[..self.places]
    }

    /// "Table of the wrong length: 17, after 14. A node missing or doubled: 18, next"
    pub fn check(&self, n: u32) -> Result<(), u32> {
        if self.places != n as usize {
            Err(refusal::TABLE_LENGTH)
        } else if !each_once(n, self.bytes()) {
            Err(refusal::TABLE_NODES)
        } else {
            Ok(())
        }
    }
}

/// "each node exactly once"
fn each_once(n: u32, slots: &[u8]) -> bool {
    (1..=n).all(|x| slots.iter().filter(|&&speaker| u32::from(speaker) == x).count() == 1)
}

/// "the record keeps it with spare places 0"
#[derive(Clone, Copy, PartialEq, Eq, Hash, Debug)]
pub struct Order(pub [u8; 32]);

impl Order {
    /// A table as it is kept; there is no room for more than 32 places.
    pub fn kept(slots: &[u8]) -> Order {
        let mut places = [0; 32];
        places.iter_mut().zip(slots).for_each(|(place, &speaker)| *place = speaker);
        Order(places)
    }

    /// "the plain table 1 to n"
    pub fn plain(n: u32) -> Order {
        Order::kept(&(1..=n.min(32) as u8).collect::<Vec<u8>>())
    }

    /// The first n places, all if there are not so many; and the spare ones.
    fn parts(&self, n: u32) -> (&[u8], &[u8]) {
        self.0.split_at(n.min(32) as usize)
    }

    /// The table that it is kept of.
    pub fn slots(&self, n: u32) -> Slots {
        Slots::new(self.parts(n).0)
    }

    pub fn has_each_once(&self, n: u32) -> bool {
        n <= 32 && each_once(n, self.parts(n).0)
    }

    pub fn spare_places_are_0(&self, n: u32) -> bool {
        self.parts(n).1.iter().all(|&speaker| speaker == 0)
    }

    /// The node that speaks at a place, from place 1 on; 0 where there is no such place.
    pub fn speaker(&self, place: u32) -> u32 {
        self.0.get(place as usize - 1).map_or(0, |&speaker| u32::from(speaker))
    }

    /// The place at which a node of n speaks.
    pub fn place(&self, n: u32, x: u32) -> Option<u32> {
        (1..=n.min(32)).find(|&place| self.speaker(place) == x)
    }
}
