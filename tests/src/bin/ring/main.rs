//! Sets of nodes and the ring: the library beside the model.

mod answers;
mod inputs;
mod sets;
mod slots;
mod table_vectors;
mod vectors;
mod walks;

use comparison::report::{self, Case};
use std::process::ExitCode;

const CASES: &[Case] = &[
    Case {
        name: "vectors: senders of document 01, model and library",
        meets: &[0, 1],
        run: vectors::senders,
    },
    Case {
        name: "vectors: members sponsored and decided, slots back, by document 01 and requests b and j, model and library",
        meets: &[0, 1, 2, 3, 16],
        run: vectors::walks,
    },
    Case {
        name: "vectors: senders by slot tables of request k, model and library",
        meets: &[0, 1],
        run: table_vectors::senders,
    },
    Case {
        name: "vectors: members sponsored and decided, slots back, by slot tables of request k, model and library",
        meets: &[0, 1, 2, 3, 16],
        run: table_vectors::walks,
    },
    Case {
        name: "sets: one set and any number, as a node and as n; all sets of 1 to 9 and chosen ones",
        meets: &[],
        run: sets::one_set,
    },
    Case { name: "sets: each of these and a chosen one, with any n", meets: &[], run: sets::two_sets },
    Case { name: "sets: random ones", meets: &[], run: sets::random },
    Case {
        name: "ranges and ks: numbers 0 to 40 and large ones, each with each, lags that are one and that are not",
        meets: &[],
        run: slots::ranges,
    },
    Case {
        name: "senders: n from 0 to 40, the first slots and those around ends of numbers",
        meets: &[0, 1],
        run: slots::senders,
    },
    Case {
        name: "senders: slot tables of n from 3 to 32, such slots",
        meets: &[0],
        run: slots::senders_by_table,
    },
    Case {
        name: "senders: slot tables with a wrong place, and of lengths 0 to 40",
        meets: &[],
        run: slots::senders_by_damaged_table,
    },
    Case {
        name: "walks: n from 0 to 8, all sets of 1 to 9; nodes, k and j from 0 to n + 1, both lags and none",
        meets: &[0, 1, 2, 3, 16],
        run: walks::small_rings,
    },
    Case {
        name: "walks: n from 31 to 33, chosen sets; nodes, k and j from 0 to n + 1, both lags and none",
        meets: &[0, 1, 2, 3, 16],
        run: walks::large_rings,
    },
    Case {
        name: "walks: n from 3 to 32, random sets and slot tables; nodes, k and j from 0 to n + 1, both lags and none",
        meets: &[0, 2, 3, 16],
        run: walks::all_rings,
    },
    Case {
        name: "walks: every slot table and every set of n from 3 to 5",
        meets: &[0, 2, 3, 16],
        run: walks::every_table,
    },
    Case {
        name: "walks: slot tables with a wrong place, members before a node that stands in them once",
        meets: &[0],
        run: walks::damaged_tables,
    },
    Case { name: "walks: random calls and slot tables, some with large numbers", meets: &[0, 1, 2, 3, 16], run: walks::random },
];

fn main() -> ExitCode {
    report::run(CASES)
}
