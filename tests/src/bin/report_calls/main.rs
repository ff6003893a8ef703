//! The report over many plans, call by call: the library, behind the program `report_runs`, beside the model.

mod causes;
mod loaded;
mod pieces;
mod protocol;
mod sums;
mod vectors;

use comparison::report::{self, Case};
use std::process::ExitCode;

const CASES: &[Case] = &[
    Case {
        name: "vectors: sums typed from request m, model and program",
        meets: &[0, 19],
        run: sums::typed,
    },
    Case { name: "sums: any totals and figures, about 2^64 too", meets: &[0, 19], run: sums::drawn },
    Case {
        name: "vectors: reports that no text leads to, typed from request m and the contracts, model and program",
        meets: &[0, 3, 4, 9, 11, 12, 19],
        run: vectors::typed,
    },
    Case {
        name: "pieces: files of many plans cut anywhere, with buffers just long enough and too short",
        meets: &[0, 1, 2, 3, 9, 11, 12],
        run: pieces::drawn,
    },
    Case { name: "pieces: short files cut in two at every place", meets: &[0, 3, 12], run: pieces::every_cut },
    Case {
        name: "rooms: pieces of every length, with just enough and a byte too few",
        meets: &[0, 9, 12],
        run: pieces::rooms,
    },
    Case {
        name: "causes: lines with every choice of causes at once, every n, at the slot limit too",
        meets: &[0, 1, 2, 3, 5, 12],
        run: causes::lines,
    },
    Case {
        name: "causes: pieces where the plan is not sound, with buffers too short",
        meets: &[0, 4, 9],
        run: causes::feeds,
    },
    Case {
        name: "causes: ends within a line, without lines, and with a sum that passes 64 bits",
        meets: &[0, 12, 19],
        run: causes::ends,
    },
    Case {
        name: "loaded: any figures, totals, rows, numbers and parts",
        meets: &[0, 3, 4, 5, 9, 11, 12, 19],
        run: loaded::reports,
    },
];

fn main() -> ExitCode {
    report::run(CASES)
}
