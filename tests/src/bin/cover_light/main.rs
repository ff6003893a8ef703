//! Cover light: the library beside the model.

mod compare;
mod lists;
mod records;
mod runs;
mod tables;
mod vectors;

use comparison::report::{self, Case};
use std::process::ExitCode;

const CASES: &[Case] = &[
    Case {
        name: "vectors: levels by request n, model and library",
        meets: &[0, 3, 4, 20],
        run: vectors::levels,
    },
    Case {
        name: "lists: every list of a member of 3 to 8 nodes, every lamp",
        meets: &[0, 3, 9],
        run: lists::every_list,
    },
    Case { name: "lists: a node taken off, no lamp darker", meets: &[0], run: lists::no_darker },
    Case { name: "lists: two members with equal lists, equal levels", meets: &[0], run: lists::equal },
    Case {
        name: "bases: every base of every lamp, of its neighbours and of no lamp",
        meets: &[0, 20],
        run: tables::every_base,
    },
    Case {
        name: "bases: tables of 0 to 40 entries and of 256 more, rooms of 0 to 40 bytes",
        meets: &[0, 3, 9, 20],
        run: tables::every_length,
    },
    Case {
        name: "records: sound ones in every state, with random bases",
        meets: &[0, 3, 9, 20],
        run: records::sound_in_every_state,
    },
    Case {
        name: "records: not sound in one clause, other causes beside it",
        meets: &[4],
        run: records::unsound_in_one_clause,
    },
    Case { name: "records: damaged rows", meets: &[4], run: records::damaged_rows },
    Case { name: "records: of small and wild values", meets: &[0, 3, 4, 9, 20], run: records::wild },
    Case {
        name: "records: every choice of causes at once, in every state",
        meets: &[0, 3, 4, 9, 20],
        run: records::several_causes,
    },
    Case { name: "records: bytes that are none", meets: &[0, 4], run: records::no_record },
    Case {
        name: "runs: after each call that keeps the premises all members give the same levels, without lag",
        meets: &[0],
        run: runs::without_lag,
    },
    Case {
        name: "runs: after each call that keeps the premises all members give the same levels, with lag 1",
        meets: &[0],
        run: runs::with_lag,
    },
];

fn main() -> ExitCode {
    report::run(CASES)
}
