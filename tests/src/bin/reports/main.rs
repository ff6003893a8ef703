//! The program that reports over many plans beside the model: the whole output for each file of plans.

mod compare;
mod damaged;
mod edges;
mod generated;
mod memory;
mod parted;
mod vectors;

use comparison::report::{self, Case};
use std::process::ExitCode;

const CASES: &[Case] = &[
    Case {
        name: "vectors: figures by hand from request m and the listings of document 01, model and program",
        meets: &[0],
        run: vectors::examples,
    },
    Case {
        name: "vectors: refused plans and `next` in every place, model and program",
        meets: &[0, 1, 2, 3, 11, 12],
        run: vectors::refused,
    },
    Case { name: "vectors: lines too long, model and program", meets: &[0, 3, 12], run: vectors::lengths },
    Case {
        name: "samples: every file of plans in plans/ with the output beside it, model and program",
        meets: &[0, 3],
        run: vectors::samples,
    },
    Case {
        name: "files: every n and k, valid, refused and damaged plans",
        meets: &[0, 1, 2, 3, 11, 12],
        run: generated::every_n_and_k,
    },
    Case {
        name: "files: small rings that nodes leave and come back to",
        meets: &[0, 1, 2, 3, 11, 12],
        run: generated::small_rings,
    },
    Case {
        name: "files: 10,000 and 70,000 plans in one",
        meets: &[0, 1, 2, 3, 11, 12],
        run: generated::many_plans,
    },
    Case { name: "files: plans of 70,000 lines", meets: &[0, 3], run: generated::long },
    Case { name: "damaged files", meets: &[0, 1, 2, 3, 11, 12], run: damaged::damaged },
    Case { name: "partings: all files of up to five short lines", meets: &[0, 12], run: parted::short_files },
    Case {
        name: "partings: words that are nearly `next`, in every place",
        meets: &[0, 2, 3, 12],
        run: parted::words,
    },
    Case { name: "partings: every byte in every place of `next`", meets: &[0, 3, 12], run: parted::bytes },
    Case { name: "lines of every length", meets: &[0, 2, 3, 12], run: edges::lengths },
    Case {
        name: "lines with every choice of causes at once, every n, model and program",
        meets: &[1, 2, 3, 12],
        run: edges::several_causes,
    },
    Case { name: "lines across the end of a buffer", meets: &[0, 1, 3, 12], run: edges::buffer },
    Case { name: "lines too long that end in `next`", meets: &[0, 3, 12], run: edges::tails },
    Case { name: "files that end at the end of a buffer", meets: &[0, 1, 12], run: edges::ends },
    Case { name: "files that come in pieces", meets: &[0, 1, 3, 11, 12], run: edges::pieces },
    Case { name: "memory: it does not grow with the input", meets: &[], run: memory::peaks },
];

fn main() -> ExitCode {
    report::run(CASES)
}
