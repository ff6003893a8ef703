//! A program under test: a script goes into it, and its answers are read meanwhile.

use crate::messages::hex;
use crate::report::Count;
use std::io::{self, BufReader, ErrorKind, Read, Write};
use std::path::PathBuf;
use std::process::{Child, ChildStdin, Command, Stdio};
use std::thread;

/// The first argument, or the program that `rt run` and `rt ci` build in the folder of the crate of that name.
fn path(name: &str) -> PathBuf {
    match std::env::args_os().nth(1) {
        Some(path) => path.into(),
        None => [env!("CARGO_MANIFEST_DIR"), "../crates", name, "out", name].iter().collect(),
    }
}

fn start(name: &str) -> Result<Child, String> {
    let path = path(name);
    Command::new(&path)
        .stdin(Stdio::piped())
        .stdout(Stdio::piped())
        .spawn()
        .map_err(|why| format!("{} does not start: {why}", path.display()))
}

/// Runs the program on the script. `judge` reads the answers; nothing may follow them.
pub fn run(
    count: &mut Count,
    name: &str,
    script: &[u8],
    judge: impl FnOnce(&mut Count, &mut dyn Read) -> Result<(), String>,
) -> Result<(), String> {
    let mut child = start(name)?;
    let input = child.stdin.take().expect("the input is piped");
    let mut output = BufReader::with_capacity(1 << 16, child.stdout.take().expect("the output is piped"));
    let compared = thread::scope(|scope| {
        let writer = scope.spawn(|| feed(input, script));
        let compared = judge(count, &mut output).and_then(|()| ends(count, &mut output));
        if compared.is_err() {
            // Ends the writer too: nobody reads what it sends.
            child.kill().map_err(|why| format!("the program cannot be ended: {why}"))?;
        }
        let fed = writer.join().expect("the writer does not panic");
        compared.and(fed)
    });
    let status = child.wait().map_err(|why| format!("no exit status: {why}"))?;
    compared?;
    count.check(status.success(), || format!("the program ended with {status}"))
}

/// Sends the whole script. A program that stops listening is found by its answers.
fn feed(mut input: ChildStdin, script: &[u8]) -> Result<(), String> {
    match input.write_all(script) {
        Err(why) if why.kind() != ErrorKind::BrokenPipe => Err(format!("the script cannot be sent: {why}")),
        _ => Ok(()),
    }
}

/// Reads `length` bytes, fewer only where the output ends.
pub fn read_answer(output: &mut dyn Read, length: usize, answer: &mut Vec<u8>) -> io::Result<()> {
    answer.resize(length, 0);
    let mut filled = 0;
    while filled < length {
        match output.read(&mut answer[filled..])? {
            0 => break,
            more => filled += more,
        }
    }
    answer.truncate(filled);
    Ok(())
}

fn ends(count: &mut Count, output: &mut dyn Read) -> Result<(), String> {
    let mut rest = Vec::new();
    output.read_to_end(&mut rest).map_err(|why| format!("the end cannot be read: {why}"))?;
    count.check(rest.is_empty(), || {
        format!("after the last answer {} bytes more: [{}]", rest.len(), hex(&rest))
    })
}
