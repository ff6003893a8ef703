//! Files of many plans: drawn, and what becomes of their plans.

use crate::adversary::Adversary;
use crate::damaged_plans::damage;
use crate::drawn_plans::{end, plan};
use crate::report::Count;

/// Plans in one text.
pub fn parted(plans: &[Vec<u8>]) -> Vec<u8> {
    plans.join(&b"next\n"[..])
}

/// A plan of up to so many lines for each node. Two in five have a line that is refused, one in six is damaged.
pub fn any_plan(count: &mut Count, adversary: &mut Adversary, n: u32, k: u32, lines: u32) -> Vec<u8> {
    let lines = adversary.random.below(u64::from(lines * n) + 1);
    let mut plan = plan(count, adversary, n, k, lines);
    end(&mut adversary.random, &mut plan);
    if adversary.random.below(6) == 0 {
        damage(count, &mut adversary.random, &mut plan.text);
    }
    plan.text
}

fn text(printed: &[u8]) -> &str {
    std::str::from_utf8(printed).expect("what is printed is text")
}

/// Notes what becomes of each plan whose end is printed.
pub fn note(count: &mut Count, printed: &[u8]) {
    for line in text(printed).lines() {
        let words: Vec<&str> = line.split(' ').collect();
        match words[..] {
            ["plan", _, "line", line, "refusal", cause] => {
                note_cause(count, number(cause));
                count.event(if line == "1" { "plan: refused in line 1" } else { "plan: refused later" });
            }
            ["plan", _, slots, members, listed, apart] => {
                count.expected(0);
                note_figures(count, [slots, members, listed, apart].map(number));
            }
            _ => {}
        }
    }
}

/// A report can be loaded with a number that is no refusal's.
fn note_cause(count: &mut Count, cause: u64) {
    match cause {
        1..=19 => count.expected(cause as u32),
        _ => count.event("plan: refused by another number"),
    }
}

/// The same of a whole file.
pub fn note_file(count: &mut Count, printed: &[u8]) {
    note(count, printed);
    let output = text(printed);
    let plans = output.lines().filter(|line| line.starts_with("plan ")).count();
    let refused = output.lines().filter(|line| line.contains("refusal")).count();
    count.event(match refused {
        0 => "file: no plan refused",
        _ if refused == plans => "file: every plan refused",
        _ => "file: some plans refused",
    });
}

fn note_figures(count: &mut Count, [slots, members, listed, apart]: [u64; 4]) {
    count.event(match slots {
        0 => "plan: no slots",
        _ if members < listed => "figures: fewer members than listed",
        _ if members > listed => "figures: more members than listed",
        _ => "figures: as many members as listed",
    });
    if apart > 0 {
        count.event("figures: distances above 0");
    }
}

fn number(digits: &str) -> u64 {
    digits.parse().expect("a number")
}

/// What the plans of many files must meet.
pub const PLANS: &[&str] = &[
    "plan: refused in line 1",
    "plan: refused later",
    "plan: no slots",
    "figures: fewer members than listed",
    "figures: more members than listed",
    "figures: as many members as listed",
    "figures: distances above 0",
    "file: every plan refused",
    "file: no plan refused",
    "file: some plans refused",
];
