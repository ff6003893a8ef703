//! A run of a program on a plan: what it prints, how long it works, how many instructions and how much memory it
//! takes.

use comparison::memory;
use std::fs::{self, File};
use std::io::{Read, Write};
use std::path::Path;
use std::process::{Child, Command, Stdio};
use std::thread;
use std::time::Duration;

fn start(program: &Path, input: Stdio, output: Stdio) -> Child {
    let child = Command::new(program).stdin(input).stdout(output).stderr(Stdio::piped()).spawn();
    child.unwrap_or_else(|why| panic!("{} does not start: {why}", program.display()))
}

fn open(plan: &Path) -> Stdio {
    File::open(plan).expect("the plan was written").into()
}

/// All that it prints.
pub fn printed(program: &Path, plan: &Path) -> Vec<u8> {
    start(program, open(plan), Stdio::piped()).wait_with_output().expect("the program ends").stdout
}

/// The seconds of processor time, its start included; the output goes to /dev/null. Time in which other
/// programs had the processor is not counted.
pub fn seconds(program: &Path, plan: &Path) -> f64 {
    let mut child = start(program, open(plan), Stdio::null());
    // This ends when the program does; until it is waited for, the kernel keeps its figures.
    child.stderr.take().expect("piped").read_to_end(&mut Vec::new()).expect("a pipe can be read");
    let figures = fs::read_to_string(format!("/proc/{}/schedstat", child.id())).expect("Linux keeps figures");
    child.wait().expect("the program ends");
    let nanoseconds: f64 = figures.split(' ').next().and_then(|word| word.parse().ok()).expect("a number");
    nanoseconds / 1e9
}

/// The instructions that valgrind counts, its start included; nothing where there is no valgrind.
pub fn instructions(program: &Path, plan: &Path) -> Option<u64> {
    let mut counted = Command::new("valgrind");
    counted.args(["--tool=callgrind", "--callgrind-out-file=/dev/null"]).arg(program);
    let told = counted.stdin(open(plan)).stdout(Stdio::null()).stderr(Stdio::piped()).output().ok()?.stderr;
    let told = String::from_utf8_lossy(&told);
    let line = told.lines().find_map(|line| line.split_once("Collected : "));
    Some(line.and_then(|(_, number)| number.trim().parse().ok()).expect("valgrind tells a number"))
}

/// The most memory that it has held, in KiB, when it has read the whole plan and waits for more.
pub fn peak_memory(program: &Path, plan: &Path) -> u64 {
    let mut child = start(program, Stdio::piped(), Stdio::null());
    let mut input = child.stdin.take().expect("piped");
    input.write_all(&fs::read(plan).expect("the plan was written")).expect("the program reads");
    thread::sleep(Duration::from_millis(500));
    let peak = memory::peak(child.id()).expect("the program waits");
    drop(input);
    child.wait().expect("the program ends");
    peak
}
