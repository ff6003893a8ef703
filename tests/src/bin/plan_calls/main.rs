//! Plan texts in pieces: the library, behind the program `plan_runs`, beside the model.

mod causes;
mod compare;
mod damaged;
mod pieces;
mod protocol;
mod rows;
mod texts;

use comparison::report::{self, Case};
use std::process::ExitCode;

const CASES: &[Case] = &[
    Case {
        name: "pieces: plans of every n, cut anywhere, with buffers just long enough and too short",
        meets: &[0, 9],
        run: pieces::drawn,
    },
    Case { name: "pieces: short texts cut in two at every place", meets: &[0], run: pieces::every_cut },
    Case {
        name: "whole texts: with buffers just long enough and too short",
        meets: &[0, 9],
        run: pieces::whole,
    },
    Case {
        name: "causes: lines with every choice of causes at once, every n, at the slot limit too",
        meets: &[0, 1, 2, 3, 5, 12],
        run: causes::lines,
    },
    Case {
        name: "causes: pieces of plans that are not sound, with buffers too short",
        meets: &[0, 4, 9],
        run: causes::feeds,
    },
    Case { name: "damaged: any rows, numbers and parts", meets: &[0, 4, 9], run: damaged::plans },
    Case {
        name: "vectors: plans with a damaged row of members by request l, model and program",
        meets: &[0, 4],
        run: rows::typed,
    },
    Case {
        name: "damaged: a row of members, in every way, any slot tables",
        meets: &[4],
        run: rows::damaged,
    },
];

fn main() -> ExitCode {
    report::run(CASES)
}
