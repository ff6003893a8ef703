//! The program that converts recorded messages beside the model: the whole output for each text.

mod compare;
mod damaged;
mod edges;
mod generated;
mod vectors;

use comparison::report::{self, Case};
use std::process::ExitCode;

const CASES: &[Case] = &[
    Case {
        name: "vectors: the messages of document 01, there and back, model and program",
        meets: &[0],
        run: vectors::examples,
    },
    Case {
        name: "vectors: refused lines, model and program",
        meets: &[0, 2, 6, 7, 8, 12, 15],
        run: vectors::refused,
    },
    Case {
        name: "there and back: every k, the text that went in comes out",
        meets: &[0],
        run: generated::there_and_back,
    },
    Case {
        name: "texts: every k, both forms, messages valid and damaged",
        meets: &[0, 2, 6, 7, 8, 12, 15],
        run: generated::every_k,
    },
    Case {
        name: "texts: lines with every choice of causes at once, every k, model and program",
        meets: &[2, 6, 7, 8, 12, 15],
        run: generated::several_causes,
    },
    Case { name: "texts: 100,000 lines", meets: &[0, 2, 6, 7, 8, 15], run: generated::long },
    Case { name: "damaged texts", meets: &[0, 2, 6, 7, 8, 12, 15], run: damaged::damaged },
    Case { name: "lines of every length", meets: &[0, 2, 6, 12], run: edges::lengths },
    Case { name: "every byte in every place of a line", meets: &[0, 2, 6, 7, 8, 12], run: edges::places },
    Case { name: "lines across the end of a buffer", meets: &[0, 2, 6, 12], run: edges::buffer },
    Case { name: "texts that end at the end of a buffer, and none", meets: &[0, 12], run: edges::ends },
    Case { name: "texts that come in pieces", meets: &[0, 12], run: edges::pieces },
];

fn main() -> ExitCode {
    report::run(CASES)
}
