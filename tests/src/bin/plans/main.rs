//! The bench program beside the model: the whole output for each plan.

mod compare;
mod damaged;
mod edges;
mod generated;
mod vectors;

use comparison::report::{self, Case};
use std::process::ExitCode;

const CASES: &[Case] = &[
    Case {
        name: "vectors: the examples of document 01 and of requests e, f and g, model and program",
        meets: &[0],
        run: vectors::examples,
    },
    Case {
        name: "vectors: refused lines, model and program",
        meets: &[1, 2, 3, 11, 12],
        run: vectors::refused,
    },
    Case {
        name: "samples: every plan of plans/ with the output beside it, model and program",
        meets: &[0, 3],
        run: vectors::samples,
    },
    Case {
        name: "plans: every n and k, troubles at every phase",
        meets: &[0, 3, 11, 12],
        run: generated::every_n_and_k,
    },
    Case {
        name: "plans: small rings that nodes leave and come back to",
        meets: &[0, 3, 11, 12],
        run: generated::small_rings,
    },
    Case {
        name: "plans: 50,000 lines, nodes going and coming back all the time",
        meets: &[3],
        run: generated::long,
    },
    Case {
        name: "plans: every n and k, nodes that fall silent for good and nothing else",
        meets: &[0],
        run: generated::power_cuts,
    },
    Case { name: "damaged plans", meets: &[0, 1, 2, 3, 11, 12], run: damaged::damaged },
    Case { name: "lines of every length", meets: &[1, 2, 3, 12], run: edges::lengths },
    Case {
        name: "lines with every choice of causes at once, every n, model and program",
        meets: &[1, 2, 3, 12],
        run: edges::several_causes,
    },
    Case { name: "lines across the end of a buffer", meets: &[0, 3, 12], run: edges::buffer },
    Case { name: "plans that end at the end of a buffer", meets: &[0, 12], run: edges::ends },
    Case { name: "plans that come in pieces", meets: &[0], run: edges::pieces },
];

fn main() -> ExitCode {
    report::run(CASES)
}
