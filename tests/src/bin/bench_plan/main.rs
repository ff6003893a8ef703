//! The bench program beside the model's on long plans: instructions, processor time and peak memory; so the
//! report program on many plans. It measures and asserts no time; it only checks first that both print the same.

mod child;

use comparison::lasting::Lasting;
use comparison::plan::Plan;
use std::env;
use std::fs;
use std::path::{Path, PathBuf};

/// Runs of each side on each plan.
const RUNS: usize = 9;

/// n, k and slots.
const TIMED: &[(u32, u32, u64)] =
    &[(4, 2, 100_000), (4, 2, 1_000_000), (16, 3, 1_000_000), (32, 3, 100_000), (32, 3, 1_000_000)];
const WEIGHED: &[(u32, u32, u64)] =
    &[(4, 2, 100_000), (4, 2, 1_000_000), (4, 2, 4_000_000), (32, 3, 1_000_000)];

/// n and k of the plans whose instructions are counted, and the lines after line one.
const COUNTED: &[(u32, u32)] = &[(4, 2), (16, 3), (32, 3)];
const LINES: usize = 20_000;

/// The plans of a report, and the slots of each; n and k are those above in turn.
const REPORTED: &[usize] = &[1_000, 10_000];
const REPORTED_SLOTS: u64 = 20;

struct Programs {
    tested: PathBuf,
    model: PathBuf,
}

/// The program under test is the argument with this number, or the one that `rt run` builds; the model's lies
/// beside this one.
fn programs(number: usize, name: &str, model: &str) -> Programs {
    let built = Path::new(env!("CARGO_MANIFEST_DIR")).join("../crates").join(name).join("out").join(name);
    let here = env::current_exe().expect("the path of this program");
    Programs {
        tested: env::args_os().nth(number).map_or(built, PathBuf::from),
        model: here.with_file_name(model),
    }
}

/// Writes a text that is the same in every run, and gives its path.
fn saved(name: &str, text: &[u8]) -> PathBuf {
    let folder = Path::new(concat!(env!("CARGO_MANIFEST_DIR"), "/../target/plans"));
    fs::create_dir_all(folder).expect("target/plans can be made");
    let path = folder.join(name);
    fs::write(&path, text).expect("target/plans can be written");
    path
}

/// The text of a plan. Mostly `ok`; the nodes go and come back all the time.
fn plan_of((n, k, slots): (u32, u32, u64), seed: u64) -> Vec<u8> {
    let mut lasting = Lasting::new(seed);
    let mut plan = Plan::new(n, k);
    while plan.nodes[0].slots < slots {
        let call = lasting.next(&plan.nodes);
        plan.push(call);
    }
    plan.text
}

fn written((n, k, slots): (u32, u32, u64)) -> PathBuf {
    saved(&format!("{n}-{k}-{slots}.plan"), &plan_of((n, k, slots), u64::from(n)))
}

/// The first lines of the same plan.
fn shortened((n, k): (u32, u32)) -> PathBuf {
    // A slot is a line; other lines only make the plan longer.
    let text = plan_of((n, k, LINES as u64), u64::from(n));
    let lines: Vec<&[u8]> = text.split_inclusive(|&byte| byte == b'\n').take(LINES + 1).collect();
    saved(&format!("{n}-{k}-{LINES}-lines.plan"), &lines.concat())
}

/// A file of so many plans.
fn many(count: usize) -> PathBuf {
    let sizes = COUNTED.iter().cycle().map(|&(n, k)| (n, k, REPORTED_SLOTS));
    let plans: Vec<Vec<u8>> = sizes.zip(1..=count as u64).map(|(size, seed)| plan_of(size, seed)).collect();
    saved(&format!("{count}.plans"), &plans.join(&b"next\n"[..]))
}

fn median(mut values: Vec<f64>) -> f64 {
    values.sort_by(f64::total_cmp);
    values[values.len() / 2]
}

fn check(programs: &Programs, plan: &Path) {
    let same = child::printed(&programs.tested, plan) == child::printed(&programs.model, plan);
    assert!(same, "{} and the model print different things", programs.tested.display());
}

/// Million instructions of the program, of the model, and model / program, as columns.
fn counted(programs: &Programs, plan: &Path) -> String {
    check(programs, plan);
    let count = |program| child::instructions(program, plan).map(|number| number as f64 / 1e6);
    match (count(&programs.tested), count(&programs.model)) {
        (Some(tested), Some(model)) => format!("{tested:.1} | {model:.1} | {:.2}", model / tested),
        _ => "no valgrind | - | -".to_string(),
    }
}

/// Runs the two in turn, each first in every other turn, and prints a row of the table.
fn time(programs: &Programs, size: (u32, u32, u64)) {
    let plan = written(size);
    check(programs, &plan);
    let (mut tested, mut model) = (Vec::new(), Vec::new());
    for run in 0..RUNS {
        if run % 2 == 0 {
            tested.push(child::seconds(&programs.tested, &plan));
            model.push(child::seconds(&programs.model, &plan));
        } else {
            model.push(child::seconds(&programs.model, &plan));
            tested.push(child::seconds(&programs.tested, &plan));
        }
    }
    let ratios: Vec<f64> = model.iter().zip(&tested).map(|(model, tested)| model / tested).collect();
    let shown: Vec<String> = ratios.iter().map(|ratio| format!("{ratio:.2}")).collect();
    let (n, k, slots) = size;
    let (tested, model) = (median(tested), median(model));
    println!(
        "| {n} | {k} | {slots} | {tested:.3} | {model:.3} | {:.0} | {:.0} | {} | {:.2} |",
        slots as f64 / tested,
        slots as f64 / model,
        shown.join(" "),
        median(ratios)
    );
}

fn weigh(programs: &Programs, size: (u32, u32, u64)) {
    let plan = written(size);
    let length = fs::metadata(&plan).expect("the plan was written").len() / 1024;
    let (n, k, slots) = size;
    let peak = child::peak_memory(&programs.tested, &plan);
    println!("| {n} | {k} | {slots} | {length} | {peak} |");
}

fn count(programs: &Programs) {
    println!("Instructions in millions, {LINES} lines after line one.\n");
    println!("| n | k | program | model | model / program |");
    println!("|---|---|---|---|---|");
    for &(n, k) in COUNTED {
        println!("| {n} | {k} | {} |", counted(programs, &shortened((n, k))));
    }
}

fn report(programs: &Programs) {
    println!("\nThe report: instructions in millions, and peak memory.\n");
    println!("| plans | bytes | program | model | model / program | peak of the program, KiB |");
    println!("|---|---|---|---|---|---|");
    for &plans in REPORTED {
        let file = many(plans);
        let length = fs::metadata(&file).expect("the plans were written").len();
        let peak = child::peak_memory(&programs.tested, &file);
        println!("| {plans} | {length} | {} | {peak} |", counted(programs, &file));
    }
}

fn main() {
    let bench = programs(1, "bench_main", "model_main");
    count(&bench);
    report(&programs(2, "report_main", "model_report"));
    println!(
        "\nProcessor time, the median of {RUNS} runs, and its slots per second; each ratio is model time / program time.\n"
    );
    println!(
        "| n | k | slots | program, s | model, s | program, slots/s | model, slots/s | ratios | median |"
    );
    println!("|---|---|---|---|---|---|---|---|---|");
    for &size in TIMED {
        time(&bench, size);
    }
    println!("\nPeak memory of the program.\n");
    println!("| n | k | slots | plan, KiB | peak, KiB |");
    println!("|---|---|---|---|---|");
    for &size in WEIGHED {
        weigh(&bench, size);
    }
}
