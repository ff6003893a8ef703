//! The model's bench by document 01, and demand 3 on it: it holds for the rules and not for changed ones. And what
//! requests f and g claim.

mod calls;
mod differs;
mod many;
mod mutants;
mod premises;
mod renaming;
mod runs;
mod steps;
mod typed;
mod without;

use comparison::report::{self, Case};
use std::process::ExitCode;

const CASES: &[Case] = &[
    Case { name: "bench: set-up, its refusals", meets: &[0, 1, 2, 4, 14, 16], run: calls::set_up },
    Case {
        name: "bench: set-up with slot tables, its refusals",
        meets: &[0, 4, 14, 17, 18],
        run: calls::slot_tables,
    },
    Case {
        name: "bench: refusals in order, table and ledger as they were",
        meets: &[3, 4, 5, 9, 11, 13],
        run: calls::refusals,
    },
    Case {
        name: "bench: counts that fit and that do not, refusals of a slot in order",
        meets: &[0, 3, 4, 5, 8, 9, 13],
        run: calls::counts,
    },
    Case { name: "bench: set-up clears the counts", meets: &[0, 4, 14], run: calls::cleared },
    Case { name: "bench: the changes of each slot", meets: &[], run: calls::changes },
    Case {
        name: "premises: each is found broken, and without it a claim fails",
        meets: &[],
        run: premises::each_is_needed,
    },
    Case { name: "premises: plans that keep them", meets: &[], run: premises::kept },
    Case {
        name: "premises: with one member fewer on the list a claim fails",
        meets: &[],
        run: premises::one_member_fewer,
    },
    Case {
        name: "request j: decided one member early, a claim fails",
        meets: &[],
        run: premises::decides_early,
    },
    Case {
        name: "the rules: no claim fails in runs that keep the premises",
        meets: &[],
        run: runs::true_rules_without_lag,
    },
    Case {
        name: "the rules with lag 1: no claim fails in such runs",
        meets: &[],
        run: runs::true_rules_with_lag,
    },
    Case {
        name: "changed rules: a claim fails for each, in such runs",
        meets: &[],
        run: runs::mutants_without_lag,
    },
    Case {
        name: "changed rules with lag 1: a claim fails for each, in such runs",
        meets: &[],
        run: runs::mutants_with_lag,
    },
    Case {
        name: "request k: by number where the slot table is to be followed, a claim fails",
        meets: &[],
        run: runs::by_number,
    },
    Case {
        name: "request k: runs with another slot table are plain runs with the nodes renamed",
        meets: &[0, 3, 8, 11],
        run: renaming::generated,
    },
    Case {
        name: "request f: nothing differs in runs that keep k + 1 also between departure and joining",
        meets: &[],
        run: differs::generated_without_lag,
    },
    Case {
        name: "request f with lag 1: nothing differs in runs that keep k + 2 so",
        meets: &[],
        run: differs::generated_with_lag,
    },
    Case {
        name: "request f: with k in between the tables differ, all other premises kept",
        meets: &[],
        run: differs::typed,
    },
    Case { name: "request g: the judge finds claims and premises broken", meets: &[], run: many::judge },
    Case {
        name: "request g: plans that keep it, and break it without request e or f",
        meets: &[],
        run: many::typed,
    },
    Case {
        name: "request g: every table of n from 3 to 7, every k",
        meets: &[],
        run: many::few_nodes_without_lag,
    },
    Case {
        name: "request g with lag 1: every table of n from 4 to 7, every k",
        meets: &[],
        run: many::few_nodes_with_lag,
    },
    Case {
        name: "request g: runs of every n and k in which nodes fall silent",
        meets: &[],
        run: many::any_number_without_lag,
    },
    Case {
        name: "request g with lag 1: runs of every n and k in which nodes fall silent",
        meets: &[],
        run: many::any_number_with_lag,
    },
    Case {
        name: "request g: other rules, a claim fails for each",
        meets: &[],
        run: many::others_without_lag,
    },
    Case {
        name: "request g with lag 1: other rules, a claim fails for each",
        meets: &[],
        run: many::others_with_lag,
    },
];

fn main() -> ExitCode {
    report::run(CASES)
}
