//! The bench: the library, behind the program `bench_runs`, beside the model.

mod compare;
mod count_vectors;
mod counts;
mod figures;
mod groups;
mod ledgers;
mod protocol;
mod refusals;
mod reports;
mod row_vectors;
mod runs;
mod script;
mod set_ups;
mod tables;
mod tally;
mod vectors;

use comparison::report::{self, Case};
use std::process::ExitCode;

const CASES: &[Case] = &[
    Case {
        name: "vectors: pairs of all six kinds by document 01, model and program",
        meets: &[0],
        run: vectors::pairs,
    },
    Case {
        name: "vectors: pairs of a slot in which a node left and another did not, by request c, model and program",
        meets: &[0],
        run: vectors::groups,
    },
    Case {
        name: "vectors: pairs and figures of a slot in which several leave, by request f, model and program",
        meets: &[0],
        run: vectors::several_leave,
    },
    Case {
        name: "vectors: pairs and figures of runs with lag 1, by request j, model and program",
        meets: &[0],
        run: vectors::with_lag,
    },
    Case {
        name: "vectors: lists of the examples of requests e and f, also with lag 1, model and program",
        meets: &[0],
        run: vectors::lists,
    },
    Case {
        name: "vectors: figures of leavings, joinings and offs by request a, model and program",
        meets: &[0],
        run: vectors::figures,
    },
    Case {
        name: "vectors: senders, lists and pairs of runs with a slot table, by request k, model and program",
        meets: &[0],
        run: set_ups::runs,
    },
    Case {
        name: "vectors: set-up with slot tables by request k, model and program",
        meets: &[0, 4, 14, 17, 18],
        run: set_ups::typed,
    },
    Case {
        name: "vectors: rows of a table after each call by request l, model and program",
        meets: &[0],
        run: row_vectors::after_calls,
    },
    Case {
        name: "vectors: tables with a damaged row by request l, every call, model and program",
        meets: &[0, 4, 11],
        run: row_vectors::damaged,
    },
    Case {
        name: "set-up: slot tables of every length from 0 to 40 and with a wrong place, for every n",
        meets: &[0, 17, 18],
        run: set_ups::every_length,
    },
    Case {
        name: "set-up: slot tables right and wrong among several causes at once",
        meets: &[0, 1, 2, 4, 14, 16, 17, 18],
        run: set_ups::order,
    },
    Case {
        name: "slot tables: any that are lent to slot, off, restart and look",
        meets: &[0, 17, 18],
        run: set_ups::lent_to_others,
    },
    Case {
        name: "set-up: any rows, every number of them, n, k, m and lag in range and out of it",
        meets: &[0, 1, 2, 4, 14, 16],
        run: refusals::set_up,
    },
    Case {
        name: "runs: every n, k and lag, with losses, misses, offs, restarts, looks and refused calls; tally",
        meets: &[0, 2, 3, 4, 8, 9, 11, 13, 14, 16, 17, 18],
        run: runs::every_n_and_k,
    },
    Case {
        name: "runs: long ones of n from 3 to 9; tally",
        meets: &[0, 2, 3, 4, 8, 9, 11, 13, 14, 16, 17, 18],
        run: runs::small_rings_without_lag,
    },
    Case {
        name: "runs: long ones of n from 4 to 10 with lag 1; tally",
        meets: &[0, 2, 3, 4, 8, 9, 11, 13, 14, 16, 17, 18],
        run: runs::small_rings_with_lag,
    },
    Case {
        name: "runs: 6,000 calls in which the nodes go and come back all the time; tally",
        meets: &[0, 2, 3, 4, 8, 9, 11, 13, 14, 16, 17, 18],
        run: runs::lasting,
    },
    Case { name: "tables: any sound records, every call", meets: &[0, 11], run: tables::sound },
    Case {
        name: "tables: a record not sound in one clause, for every clause",
        meets: &[0, 4],
        run: tables::unsound_record,
    },
    Case {
        name: "tables: a record whose row is damaged, in every way, any slot tables",
        meets: &[0, 4],
        run: tables::damaged_row,
    },
    Case {
        name: "tables: sound records that are no table: numbers, n, k, m, lag, slot table, slot count, size",
        meets: &[0, 4],
        run: tables::no_tables,
    },
    Case {
        name: "slot limit: tables at the limit and up to two slots below it",
        meets: &[0, 5, 11, 13],
        run: tables::limit,
    },
    Case { name: "buffers: every length from 0 to 255, every call", meets: &[0, 9], run: tables::rooms },
    Case {
        name: "pairs: all nodes leave in one slot, for every n",
        meets: &[0],
        run: tables::most_pairs,
    },
    Case {
        name: "pairs: nodes that leave and nodes that change otherwise in one slot, for every n",
        meets: &[0],
        run: groups::pairs,
    },
    Case {
        name: "order: every choice of causes at once",
        meets: &[0, 3, 4, 5, 9, 11, 13],
        run: refusals::order,
    },
    Case {
        name: "ledgers: lengths from 0 to 33 for every n, every call",
        meets: &[0, 13],
        run: ledgers::lengths,
    },
    Case {
        name: "ledgers: each figure at the slot count plus one and past it",
        meets: &[0, 5, 13],
        run: ledgers::edges,
    },
    Case {
        name: "ledgers: a count that does not fit, in every entry for every n",
        meets: &[0, 13],
        run: ledgers::every_entry,
    },
    Case { name: "ledgers: off in every state, any figures before it", meets: &[0], run: ledgers::offs },
    Case {
        name: "ledgers: an off that takes a count past what fits",
        meets: &[0, 13],
        run: ledgers::off_past,
    },
    Case {
        name: "ledgers: all nodes leave in one slot, any figures before it",
        meets: &[0],
        run: ledgers::all_leave,
    },
    Case {
        name: "ledgers: any small ones, sound tables of few slots, every call",
        meets: &[0, 11, 13],
        run: ledgers::small,
    },
    Case {
        name: "vectors: counts of reports by request h, after each call, model and program",
        meets: &[0, 4, 8, 14, 16],
        run: count_vectors::benches,
    },
    Case {
        name: "counts: runs of every n, every m, after each call; tally, and membership as without jobs",
        meets: &[0, 2, 3, 4, 8, 9, 11, 13, 14, 16, 17, 18],
        run: counts::every_n_and_m,
    },
    Case {
        name: "counts: long runs of n from 3 to 7, after each call; tally, and membership as without jobs",
        meets: &[0, 2, 3, 4, 8, 9, 11, 13, 14, 16, 17, 18],
        run: counts::small_rings,
    },
    Case { name: "counts: any that fit beside any sound table", meets: &[0], run: counts::sound },
    Case {
        name: "counts: numbers of arrays from 0 to 33 for every n, every call",
        meets: &[0, 4],
        run: counts::numbers,
    },
    Case {
        name: "counts: at the slot count and past it, in arrays lent and not",
        meets: &[0, 4, 5],
        run: counts::edges,
    },
    Case {
        name: "counts: each count of every node one above the slot count",
        meets: &[0, 4],
        run: counts::every_count,
    },
    Case {
        name: "counts: every choice of causes of a slot's refusal",
        meets: &[0, 3, 4, 5, 8, 9, 13],
        run: counts::order,
    },
    Case {
        name: "counts: set-up clears them, every choice of causes of its refusal",
        meets: &[0, 1, 2, 4, 14, 16, 17, 18],
        run: counts::set_ups,
    },
];

fn main() -> ExitCode {
    report::run(CASES)
}
