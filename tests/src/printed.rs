//! A program that reads a text and prints another: one run for each text, its whole output beside the expected one.

use crate::memory;
use crate::report::Count;
use std::fs;
use std::io::{self, ErrorKind, Read, Write};
use std::os::fd::OwnedFd;
use std::os::unix::net::UnixDatagram;
use std::path::{Path, PathBuf};
use std::process::{Child, Command, Stdio};
use std::thread;

/// A path from the repository's top.
fn repository(path: &str) -> PathBuf {
    PathBuf::from(concat!(env!("CARGO_MANIFEST_DIR"), "/..")).join(path)
}

/// A file of plans/ and the expected output beside it.
pub struct Sample {
    pub path: PathBuf,
    pub text: Vec<u8>,
    pub expected: Vec<u8>,
}

/// All files of plans/ whose names end so.
pub fn samples(extension: &str) -> Result<Vec<Sample>, String> {
    let read = |path: &Path| fs::read(path).map_err(|why| format!("{}: {why}", path.display()));
    let folder = repository("plans");
    let entries = fs::read_dir(&folder).map_err(|why| format!("{}: {why}", folder.display()))?;
    let mut found = Vec::new();
    for entry in entries {
        let path = entry.map_err(|why| format!("{}: {why}", folder.display()))?.path();
        if path.extension().is_some_and(|its| its == extension) {
            let (text, expected) = (read(&path)?, read(&path.with_extension("expected"))?);
            found.push(Sample { path, text, expected });
        }
    }
    Ok(found)
}

/// A program that `rt run` and `rt ci` build, and the arguments that it is given. The first argument of the comparison
/// names another one to be tested in its place.
#[derive(Clone, Copy)]
pub struct Program {
    pub name: &'static str,
    pub arguments: &'static [&'static str],
}

impl Program {
    fn path(&self) -> PathBuf {
        match std::env::args_os().nth(1) {
            Some(path) => path.into(),
            None => repository("crates").join(self.name).join("out").join(self.name),
        }
    }

    fn start(&self, input: Stdio, output: Stdio) -> Result<Child, String> {
        let path = self.path();
        Command::new(&path)
            .args(self.arguments)
            .stdin(input)
            .stdout(output)
            .spawn()
            .map_err(|why| format!("{} does not start: {why}", path.display()))
    }

    /// The program prints this.
    pub fn prints(&self, count: &mut Count, text: &[u8], expected: &[u8]) -> Result<(), String> {
        let mut child = self.start(Stdio::piped(), Stdio::piped())?;
        let mut input = child.stdin.take().expect("the input is piped");
        sees(count, child, (text, expected), move || sent(input.write_all(text)))
    }

    /// It does so, too, where each read gives it a piece of so many bytes, 4,096 at the most. A socket keeps them apart, as
    /// a pipe does not; an empty one is the end of the input.
    pub fn prints_in_pieces(
        &self,
        count: &mut Count,
        text: &[u8],
        expected: &[u8],
        piece: usize,
    ) -> Result<(), String> {
        let (ours, theirs) = UnixDatagram::pair().map_err(|why| format!("no socket: {why}"))?;
        let child = self.start(OwnedFd::from(theirs).into(), Stdio::piped())?;
        let mut pieces = text.chunks(piece).chain([&b""[..]]);
        sees(count, child, (text, expected), move || {
            pieces.try_for_each(|piece| sent(ours.send(piece).map(drop)))
        })
    }

    /// The most memory that it has held, in KiB, when the text is sent and the input not ended. What it has not read
    /// yet lies in the pipe, 64 KiB at the most.
    pub fn peak(&self, text: &[u8]) -> Result<u64, String> {
        let mut child = self.start(Stdio::piped(), Stdio::null())?;
        let mut input = child.stdin.take().expect("the input is piped");
        let sent = input.write_all(text).map_err(|why| format!("the text cannot be sent: {why}"));
        let peak = sent.and_then(|()| memory::peak(child.id()));
        drop(input);
        child.wait().map_err(|why| format!("no exit status: {why}"))?;
        peak
    }
}

/// What the program prints is the expected text. The other goes in from a thread of its own: neither side waits for the
/// other. The documents say nothing of the exit status; a program that breaks off has none.
fn sees(
    count: &mut Count,
    mut child: Child,
    (text, expected): (&[u8], &[u8]),
    send: impl FnOnce() -> Result<(), String> + Send,
) -> Result<(), String> {
    let mut output = child.stdout.take().expect("the output is piped");
    let mut got = Vec::new();
    thread::scope(|scope| {
        let writer = scope.spawn(send);
        output.read_to_end(&mut got).map_err(|why| format!("the output cannot be read: {why}"))?;
        writer.join().expect("the writer does not panic")
    })?;
    let status = child.wait().map_err(|why| format!("no exit status: {why}"))?;
    see(count, "the program", text, &got, expected)?;
    count.check(status.code().is_some(), || format!("the program ended with {status}\n{}", shown_text(text)))
}

/// A program that stops reading has refused a line, or is found by what it printed.
fn sent(sent: io::Result<()>) -> Result<(), String> {
    match sent {
        Err(why) if !ENDED.contains(&why.kind()) => Err(format!("the text cannot be sent: {why}")),
        _ => Ok(()),
    }
}

const ENDED: [ErrorKind; 3] =
    [ErrorKind::BrokenPipe, ErrorKind::ConnectionRefused, ErrorKind::ConnectionReset];

/// Compares two outputs; the first line that differs is told.
pub fn see(count: &mut Count, who: &str, text: &[u8], got: &[u8], expected: &[u8]) -> Result<(), String> {
    count.check(got == expected, || {
        let place = lines(got).zip(lines(expected)).take_while(|(a, b)| a == b).count();
        format!(
            "line {} of the output: {who} prints {}, expected {}\n{}",
            place + 1,
            shown_line(lines(got).nth(place)),
            shown_line(lines(expected).nth(place)),
            shown_text(text),
        )
    })
}

fn lines(output: &[u8]) -> impl Iterator<Item = &[u8]> {
    output.split_inclusive(|&byte| byte == b'\n')
}

fn shown_line(line: Option<&[u8]>) -> String {
    line.map_or("nothing".to_string(), |line| format!("'{}'", line[..line.len().min(200)].escape_ascii()))
}

/// The text's lines in one; of a long text its start and its length.
fn shown_text(text: &[u8]) -> String {
    let shown = text.len().min(3000);
    let more = if shown < text.len() { format!(" .. {} bytes", text.len()) } else { String::new() };
    format!("        text: {}{more}", text[..shown].escape_ascii())
}
