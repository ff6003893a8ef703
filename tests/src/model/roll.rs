//! Sets of nodes once more, in another way than `ring::Set` and the library, neither of which it uses.

use std::array;

/// A yes or no for each of the nodes 1 to 32.
#[derive(Clone, Copy)]
pub struct Roll([bool; 32]);

impl Roll {
    /// "node 1 is the lowest bit": the number is halved from node to node.
    pub fn of(number: u32) -> Roll {
        let mut rest = number;
        Roll(array::from_fn(|_| {
            let yes = rest % 2 == 1;
            rest /= 2;
            yes
        }))
    }

    /// The same way back: doubled from node to node, the highest first.
    pub fn number(self) -> u32 {
        self.0.iter().rev().fold(0, |number, &yes| number * 2 + u32::from(yes))
    }

    /// The nodes 1 to n.
    pub fn first(n: u32) -> Roll {
        Roll([true; 32]).up_to(n)
    }

    /// Those of the nodes 1 to n.
    pub fn up_to(self, n: u32) -> Roll {
        Roll(array::from_fn(|i| i < n as usize && self.0[i]))
    }

    /// Node x as told; a number that is not 1 to 32 names no node.
    pub fn told(mut self, x: u32, yes: bool) -> Roll {
        for (node, place) in (1..).zip(&mut self.0) {
            if node == x {
                *place = yes;
            }
        }
        self
    }

    pub fn has(self, x: u32) -> bool {
        (1..).zip(self.0).any(|(node, yes)| node == x && yes)
    }

    pub fn count(self) -> u32 {
        self.0.iter().map(|&yes| u32::from(yes)).sum()
    }

    /// The nodes in one of the two or in both.
    pub fn union(self, other: Roll) -> Roll {
        Roll(array::from_fn(|i| if self.0[i] { true } else { other.0[i] }))
    }

    /// The nodes in just one of the two.
    pub fn difference(self, other: Roll) -> Roll {
        Roll(array::from_fn(|i| self.0[i] != other.0[i]))
    }

    /// Each of these nodes is one of the others.
    pub fn is_within(self, others: Roll) -> bool {
        self.0.iter().zip(others.0).all(|(&yes, other)| !yes || other)
    }

    /// "the run of ones from bit 1"
    pub fn run(self) -> u32 {
        self.0.iter().take_while(|&&yes| yes).count() as u32
    }
}
