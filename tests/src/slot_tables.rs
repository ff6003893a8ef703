//! Slot tables for generated inputs: of every kind, and damaged ones.

use crate::model::slot_table::Order;
use crate::random::Random;
use crate::report::Count;

/// A table that holds each of n nodes once; the plain one in one of four.
pub fn order(random: &mut Random, n: u32) -> Order {
    Order::kept(&table(random, n))
}

/// The same as set-up is given it.
pub fn table(random: &mut Random, n: u32) -> Vec<u8> {
    let mut nodes: Vec<u8> = (1..=n as u8).collect();
    let (a, b) = (random.below(u64::from(n)) as usize, random.below(u64::from(n)) as usize);
    match random.below(8) {
        0 | 1 => {}
        2 => nodes.reverse(),
        3 => nodes.rotate_left(a),
        4 => nodes.swap(a, b),
        _ => shuffle(random, &mut nodes),
    }
    nodes
}

/// One that is not the plain table.
pub fn other_table(random: &mut Random, n: u32) -> Vec<u8> {
    loop {
        let nodes = table(random, n);
        if !nodes.is_sorted() {
            return nodes;
        }
    }
}

fn shuffle(random: &mut Random, nodes: &mut [u8]) {
    for last in (1..nodes.len()).rev() {
        nodes.swap(last, random.below(last as u64 + 1) as usize);
    }
}

/// What runs must meet.
pub const KINDS: [&str; 2] = ["slot table: plain", "slot table: another"];

pub fn note(count: &mut Count, n: u32, order: Order) {
    count.event(KINDS[usize::from(order != Order::plain(n))]);
}

/// The ways in which one of the places 1 to n is wrong.
pub const WRONG: [&str; 4] = [
    "table: a node doubled",
    "table: 0 at a place",
    "table: the number after n",
    "table: any number above n",
];

/// Makes one of the places wrong in this way: the node that stood there is missing then.
pub fn make_wrong(random: &mut Random, places: &mut [u8], way: usize) {
    let n = places.len() as u64;
    let (at, other) = (random.below(n), random.below(n - 1));
    places[at as usize] = match way {
        0 => places[((at + 1 + other) % n) as usize],
        1 => 0,
        2 => n as u8 + 1,
        _ => random.within(n + 1, 255) as u8,
    };
}

/// A table for n nodes with so many places: cut off, or with further places of 0, of its nodes again or of any number.
pub fn of_length(random: &mut Random, n: u32, places: usize) -> Vec<u8> {
    let mut slots = table(random, n);
    let way = random.below(3);
    while slots.len() < places {
        slots.push(match way {
            0 => 0,
            1 => slots[slots.len() - n as usize],
            _ => random.byte(),
        });
    }
    slots.truncate(places);
    slots
}
