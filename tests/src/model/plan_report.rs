//! Document 02, request m: "Report over many plans."

use super::bench;
use super::node::Node;
use super::program::{lines, print_refusal, run_lines};
use super::refusal;
use std::io::Write;

/// "the number of slots, the sum over slots of nodes in the member state after the slot, the sum of listed nodes
/// after it (by the lowest-numbered member, 0 if there is none), and the slots with a distance above 0"
pub type Figures = [u64; 4];

/// All that the program prints for this input. "the last line is `total` and four sums"
pub fn run(input: &[u8]) -> Vec<u8> {
    let lines: Vec<&[u8]> = lines(input).collect();
    let mut totals = [0; 4];
    let mut out = Vec::new();
    for (plan, lines) in (1..).zip(plans(&lines)) {
        print_plan(plan, run_plan(&mut totals, lines), &mut out);
    }
    print_total(&totals, &mut out);
    out
}

/// The plans' lines: "several plans .., parted by a line `next`". That line belongs to no plan, so there is always one
/// plan more than there are such lines. Without its line feed it is none of them.
fn plans<'a>(lines: &'a [&'a [u8]]) -> impl Iterator<Item = &'a [&'a [u8]]> {
    lines.split(|line| *line == b"next\n")
}

/// A plan's figures, which are added to the totals. "L counted from the plan's first line"; a refused plan "is left out of
/// the total"; where a sum passes 64 bits "that plan is refused so, at its last line".
fn run_plan(totals: &mut Figures, lines: &[&[u8]]) -> Result<Figures, (u64, u32)> {
    let figures = figures(lines)?;
    add(totals, &figures).map_err(|number| (lines.len() as u64, number))?;
    Ok(figures)
}

/// "A plan without lines, also after a last `next`, is refused with 12 in line 1": as empty input is by document 01.
fn figures(lines: &[&[u8]]) -> Result<Figures, (u64, u32)> {
    let mut figures = [0; 4];
    run_lines(lines.iter().copied(), |nodes, _| {
        figures.iter_mut().zip(after_slot(nodes)).for_each(|(sum, more)| *sum += more);
    })?;
    Ok(figures)
}

/// What a slot gives to its plan's figures, by the table after it.
pub fn after_slot(nodes: &[Node]) -> Figures {
    let members = bench::member_sets(nodes).count() as u64;
    let listed = bench::list(nodes).map_or(0, |set| u64::from(set.count()));
    let apart = bench::greatest_distance(nodes) > 0;
    [1, members, listed, u64::from(apart)]
}

/// "Adding four figures to four totals is a call of its own that takes any 64-bit figures." "A sum passing 64 bits in
/// that call: 19, its only refusal; the totals keep what they had."
pub fn add(totals: &mut Figures, figures: &Figures) -> Result<(), u32> {
    let mut sums = *totals;
    for (sum, &figure) in sums.iter_mut().zip(figures) {
        *sum = sum.checked_add(figure).ok_or(refusal::SUM)?;
    }
    *totals = sums;
    Ok(())
}

/// "Each plan gives one line: `plan`, its number from 1, and the four figures"; "A refused plan prints `plan P line L
/// refusal N`"
pub fn print_plan(plan: u64, came: Result<Figures, (u64, u32)>, out: &mut Vec<u8>) {
    out.extend(format!("plan {plan} ").bytes());
    match came {
        Ok(figures) => print(&figures, out),
        Err((line, number)) => print_refusal(line, number, out),
    }
}

pub fn print_total(totals: &Figures, out: &mut Vec<u8>) {
    out.extend(b"total ");
    print(totals, out);
}

/// "with single spaces"
fn print([slots, members, listed, apart]: &Figures, out: &mut Vec<u8>) {
    writeln!(out, "{slots} {members} {listed} {apart}").expect("a vector takes every byte");
}
