//! The node: the library, behind the program `node_runs`, beside the model.

mod bytes;
mod cable;
mod calls;
mod compare;
mod count_vectors;
mod counts;
mod events;
mod heard;
mod job_vectors;
mod lag_vectors;
mod plans;
mod protocol;
mod records;
mod row_vectors;
mod rows;
mod runs;
mod table_vectors;
mod tables;
mod tally;
mod vectors;

use comparison::report::{self, Case};
use std::process::ExitCode;

const CASES: &[Case] = &[
    Case {
        name: "vectors: runs of single nodes by document 01 and requests e and f, model and program",
        meets: &[0, 10, 11],
        run: vectors::single_nodes,
    },
    Case {
        name: "vectors: runs of single nodes with jobs by request h, model and program",
        meets: &[0, 4, 5, 8, 10],
        run: job_vectors::single_nodes,
    },
    Case {
        name: "vectors: counts of single nodes by request h, model and program",
        meets: &[0, 4, 5, 11],
        run: count_vectors::single_nodes,
    },
    Case {
        name: "vectors: runs of single nodes with lag 1 by request j, model and program",
        meets: &[0, 4],
        run: lag_vectors::single_nodes,
    },
    Case {
        name: "vectors: runs of single nodes with a slot table by request k, model and program",
        meets: &[0, 4, 10],
        run: table_vectors::single_nodes,
    },
    Case {
        name: "vectors: set-up with slot tables by request k, model and program",
        meets: &[0, 1, 2, 3, 14, 16, 17, 18],
        run: tables::typed,
    },
    Case {
        name: "vectors: rows of sets and sets of rows by request l, model and program",
        meets: &[0],
        run: row_vectors::sets,
    },
    Case {
        name: "vectors: rows after the calls of single nodes by request l, model and program",
        meets: &[0],
        run: row_vectors::runs,
    },
    Case {
        name: "vectors: damaged rows by request l, every call, model and program",
        meets: &[0, 4, 10, 11],
        run: row_vectors::damaged,
    },
    Case {
        name: "vectors: plans of whole cables, without jobs and with some, model and program",
        meets: &[0, 8, 10],
        run: plans::whole_cables,
    },
    Case {
        name: "set-up: n, k and own number from 0 to 40 and large ones, m and lag in range and out of it",
        meets: &[0, 1, 2, 3, 4, 14, 16],
        run: calls::set_up,
    },
    Case {
        name: "set-up: m from 0 to 40 and large ones, other numbers in range and just out of it",
        meets: &[0, 1, 2, 3, 14],
        run: calls::job_counts,
    },
    Case {
        name: "set-up: lags that are one and that are not, k around the largest of each lag",
        meets: &[0, 1, 2, 3, 14, 16],
        run: calls::lags,
    },
    Case {
        name: "set-up: slot tables of every n that it takes, kept as they are given",
        meets: &[0, 10],
        run: tables::taken,
    },
    Case {
        name: "set-up: slot tables of every length from 0 to 40 and with a wrong place, for every n",
        meets: &[0, 3, 17, 18],
        run: tables::every_length,
    },
    Case {
        name: "set-up: every byte at every place of a slot table",
        meets: &[0, 18],
        run: tables::every_byte,
    },
    Case {
        name: "set-up: slot tables right and wrong among several causes at once",
        meets: &[0, 1, 2, 3, 14, 16, 17, 18],
        run: tables::order,
    },
    Case {
        name: "cables: every n, k and lag, with losses, misses, offs and restarts; counts at the end",
        meets: &[0, 8, 9, 10, 11],
        run: runs::every_n_and_k,
    },
    Case {
        name: "cables: long runs, troubles aimed at sponsors, knocks and returning nodes now and then",
        meets: &[0, 8, 9, 10, 11],
        run: runs::calm_without_lag,
    },
    Case {
        name: "cables: long runs, such troubles most of the time",
        meets: &[0, 8, 9, 10, 11],
        run: runs::rough_without_lag,
    },
    Case {
        name: "cables: long runs, bytes damaged or changed on their way, and handed over in the own slot",
        meets: &[0, 8, 9, 10, 11],
        run: runs::tampered_without_lag,
    },
    Case {
        name: "cables: with lag 1, troubles now and then",
        meets: &[0, 8, 9, 10, 11],
        run: runs::calm_with_lag,
    },
    Case {
        name: "cables: with lag 1, troubles most of the time",
        meets: &[0, 8, 9, 10, 11],
        run: runs::rough_with_lag,
    },
    Case {
        name: "cables: with lag 1, bytes damaged or changed",
        meets: &[0, 8, 9, 10, 11],
        run: runs::tampered_with_lag,
    },
    Case {
        name: "records: any sound record in every state, slots with any bytes",
        meets: &[0, 9, 10, 11],
        run: records::sound_in_every_state,
    },
    Case {
        name: "records: not sound in one clause, for every clause",
        meets: &[4],
        run: records::unsound_in_one_clause,
    },
    Case {
        name: "records: up to three fields of any value",
        meets: &[0, 4, 8, 9, 10, 11],
        run: records::wild,
    },
    Case { name: "rows: damaged in every way, any slot tables, every call", meets: &[4], run: rows::damaged },
    Case {
        name: "rows: every one of three nodes with every slot table, numbers 0 to 4 and lengths 0 to 5",
        meets: &[0, 4],
        run: rows::every_row,
    },
    Case {
        name: "rows: to a set and back, and from a set and back, any sound record",
        meets: &[0],
        run: rows::conversions,
    },
    Case {
        name: "rows: to a set and from one, records up to two fields of which have any value",
        meets: &[0, 4],
        run: rows::wild_conversions,
    },
    Case {
        name: "records: of bytes that no call writes, each of which a refused call leaves",
        meets: &[0, 1, 2, 3, 4, 5, 9, 10, 11, 14, 16, 17, 18],
        run: bytes::left_by_refusals,
    },
    Case {
        name: "counts: cables of every n, every m, after each call; tally",
        meets: &[0, 8, 9, 10, 11],
        run: counts::cables,
    },
    Case {
        name: "counts: each of the 256 at the slot count and past it, in every state",
        meets: &[0, 4, 5],
        run: counts::edges,
    },
    Case {
        name: "counts: several causes of refusal at once, after each call",
        meets: &[0, 4, 5, 10, 11, 14, 16],
        run: counts::order,
    },
    Case {
        name: "counts: any that fit beside any sound record, slots with any bytes",
        meets: &[0],
        run: counts::records,
    },
    Case {
        name: "sending: sound records, rooms 0 to 12 and 255, any job bytes",
        meets: &[0, 8, 9, 10, 11],
        run: calls::sending,
    },
    Case {
        name: "off and restart: sound records, each after the other",
        meets: &[0, 11],
        run: calls::switching,
    },
    Case {
        name: "slot limit: sound records at the limit and up to two slots below it",
        meets: &[0, 5, 9, 10, 11],
        run: calls::limit,
    },
    Case {
        name: "order: several causes of refusal at once",
        meets: &[0, 4, 5, 8, 9, 10, 11],
        run: calls::order,
    },
];

fn main() -> ExitCode {
    report::run(CASES)
}
