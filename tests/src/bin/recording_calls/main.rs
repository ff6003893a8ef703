//! Texts of recorded messages in pieces: the library, behind the program `recording_runs`, beside the model.

mod loaded;
mod pieces;
mod protocol;

use comparison::report::{self, Case};
use std::process::ExitCode;

const CASES: &[Case] = &[
    Case {
        name: "pieces: texts of every k, valid and damaged, cut anywhere, with buffers just long enough and too short",
        meets: &[0, 2, 6, 7, 8, 9, 12, 15],
        run: pieces::drawn,
    },
    Case {
        name: "pieces: short texts cut in two at every place",
        meets: &[0, 6, 7, 8, 12, 15],
        run: pieces::every_cut,
    },
    Case {
        name: "pieces: lines with every choice of causes at once, every k, model and program",
        meets: &[2, 6, 7, 8, 12, 15],
        run: pieces::several_causes,
    },
    Case {
        name: "rooms: pieces of every length, with just enough and a byte too few",
        meets: &[0, 9],
        run: pieces::rooms,
    },
    Case {
        name: "loaded: every length to 130 and large ones, in a valid line and in others",
        meets: &[0, 6, 12],
        run: loaded::lengths,
    },
    Case {
        name: "loaded: any lines, lengths and bytes, the lines about 2^64 too",
        meets: &[0, 2, 6, 7, 8, 9, 12, 15],
        run: loaded::drawn,
    },
];

fn main() -> ExitCode {
    report::run(CASES)
}
