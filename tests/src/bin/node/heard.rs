//! Bytes that a node might hear in a slot.

use comparison::messages::{all_yes, damage, job_byte, message_of};
use comparison::model::message::{self, Said};
use comparison::model::node::Node;
use comparison::model::ring;
use comparison::random::Random;

/// Acknowledgements of k: all yes, all but one, random, or none.
fn acknowledgements(random: &mut Random, k: u32) -> u32 {
    match random.below(5) {
        0 | 1 => all_yes(k),
        2 => all_yes(k) ^ (1 << random.below(u64::from(k))),
        3 => random.number() as u32 & all_yes(k),
        _ => 0,
    }
}

/// A readable message of k and m.
pub fn readable(random: &mut Random, (k, m): (u32, u32)) -> Vec<u8> {
    let return_bit = random.below(4) == 0;
    let (acks, jobs) = (acknowledgements(random, k), job_byte(random, m));
    message_of(k, m, Said { acks, return_bit, jobs })
}

/// Another number of jobs.
fn other_m(random: &mut Random, m: u32) -> u32 {
    match random.below(8) as u32 {
        other if other < m => other,
        other => other + 1,
    }
}

/// A readable message but for its third section: that of another m, or none, as the form of document 01 has it.
fn other_third(random: &mut Random, (k, m): (u32, u32)) -> Vec<u8> {
    let other = other_m(random, m);
    let mut bytes = readable(random, (k, other));
    if random.below(4) == 0 {
        bytes.truncate(bytes.len() - 2);
    }
    bytes
}

/// What a cable might hand to a node of these k and m: nothing, a message, one of another k or m, or rubbish.
pub fn anything(random: &mut Random, (k, m): (u32, u32)) -> Vec<u8> {
    match random.below(17) {
        0..=2 => Vec::new(),
        3 => {
            let other = random.within(2, 31) as u32;
            readable(random, (other, m))
        }
        4 | 5 => {
            let mut bytes = readable(random, (k, m));
            damage(random, &mut bytes);
            bytes
        }
        6 => (0..random.below(12)).map(|_| random.byte()).collect(),
        7 => {
            let mut bytes = readable(random, (k, m));
            bytes.resize(random.within(bytes.len() as u64, 255) as usize, random.byte());
            bytes
        }
        8 => other_third(random, (k, m)),
        _ => readable(random, (k, m)),
    }
}

/// A message on its way to `node`, changed: every bit past ks set, return bit turned, other
/// acknowledgements or jobs, damaged, or another thing altogether. Nothing may become a message too.
pub fn changed(random: &mut Random, node: &Node, bytes: &[u8]) -> Vec<u8> {
    let (k, m) = (node.chosen.k, node.chosen.m);
    let Ok(said) = message::read(k, m, bytes) else { return anything(random, (k, m)) };
    let past = all_yes(k) & !0 << ring::ks(node.chosen, node.set.count());
    let other = match random.below(7) {
        0 => Said { acks: said.acks | past, ..said },
        1 => Said { return_bit: !said.return_bit, ..said },
        2 => Said { acks: said.acks ^ (1 << random.below(u64::from(k))), ..said },
        3 => Said { acks: acknowledgements(random, k), ..said },
        4 => Said { jobs: job_byte(random, m), ..said },
        5 => {
            let mut bytes = bytes.to_vec();
            damage(random, &mut bytes);
            return bytes;
        }
        _ => return anything(random, (k, m)),
    };
    message_of(k, m, other)
}
