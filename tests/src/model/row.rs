//! Document 02, request l: the set as a row.

use super::ring::{is_node, Set};
use super::slot_table::Order;

/// "a row of node numbers in slot order from place 1, with its length, unused places 0"
#[derive(Clone, Copy, PartialEq, Eq, Hash, Debug)]
pub struct Row {
    pub length: u32,
    pub nodes: [u8; Row::PLACES],
}

/// What a sound row keeps on a cable of n nodes with this slot table.
pub struct Clause {
    pub says: &'static str,
    pub kept: fn(&Row, u32, Order) -> bool,
}

/// "A row out of order, doubled, longer than n or with a used spare place: 4"; it is one "of node numbers". What slot
/// order is, only a table of each node tells.
#[rustfmt::skip]
pub const CLAUSES: &[Clause] = &[
    Clause { says: "row not longer than n", kept: |row, n, _| row.length <= n },
    Clause { says: "row holds only 1 to n", kept: |row, n, _| row.numbers().all(|x| is_node(n, x)) },
    Clause { says: "no node twice in the row", kept: |row, n, _| (1..=n.min(32)).all(|x| row.times(x) <= 1) },
    Clause { says: "row in slot order", kept: |row, n, order| !order.has_each_once(n) || row.rises(n, order) },
    Clause { says: "unused places of the row are 0", kept: |row, _, _| row.parts().1.iter().all(|&x| x == 0) },
];

impl Row {
    pub const PLACES: usize = 32;

    /// The row of a set: its nodes as the slot table has them from place 1 on.
    pub fn of(order: Order, set: Set) -> Row {
        let members: Vec<u8> = order.0.into_iter().filter(|&x| set.has(u32::from(x))).collect();
        Row::new(members.len() as u32, &members)
    }

    /// A row of this length, whatever stands in its first places; the others are 0.
    pub fn new(length: u32, numbers: &[u8]) -> Row {
        let mut nodes = [0; Row::PLACES];
        nodes[..numbers.len()].copy_from_slice(numbers);
        Row { length, nodes }
    }

    /// The used places, which are all where the length is larger; and the unused ones.
    fn parts(&self) -> (&[u8], &[u8]) {
        self.nodes.split_at((self.length as usize).min(Row::PLACES))
    }

    /// What stands in the used places.
    pub fn numbers(&self) -> impl Iterator<Item = u32> + '_ {
        self.parts().0.iter().map(|&x| u32::from(x))
    }

    fn times(&self, x: u32) -> usize {
        self.numbers().filter(|&other| other == x).count()
    }

    /// No node stands after one that speaks later.
    fn rises(&self, n: u32, order: Order) -> bool {
        self.numbers().filter_map(|x| order.place(n, x)).is_sorted()
    }

    /// The set that a row stands for, if it is sound: the nodes in it.
    pub fn set(&self) -> Set {
        self.numbers().fold(Set::EMPTY, Set::with)
    }

    pub fn is_sound(&self, n: u32, order: Order) -> bool {
        CLAUSES.iter().all(|clause| (clause.kept)(self, n, order))
    }
}
