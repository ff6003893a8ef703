//! Messages read and written per second, the library beside the model. It measures and asserts no
//! time; it only checks first that both do the same work. `bench_message K M` goes over the messages of K and M
//! once, with each side, and prints nothing: so that a tool can count the instructions of the four functions.

use comparison::library;
use comparison::messages::all_jobs;
use comparison::model::message::{self, Said};
use comparison::random::Random;
use std::env;
use std::hint::black_box;
use std::time::Instant;

/// Messages of the input, times that a run goes over them, runs of each side.
const MESSAGES: usize = 4096;
const PASSES: usize = 256;
const RUNS: usize = 21;

/// All messages that are timed have eight jobs; m changes no length.
const M: u32 = 8;

/// The model behind a call of its own, as the library is.
#[inline(never)]
fn model_read(k: u32, m: u32, bytes: &[u8]) -> Result<Said, u32> {
    message::read(k, m, bytes)
}

#[inline(never)]
fn model_write(k: u32, m: u32, said: Said, out: &mut [u8]) -> Result<usize, u32> {
    message::write(k, m, said, out)
}

/// What both sides are given: valid messages of one k and m, and what they say.
struct Input {
    k: u32,
    m: u32,
    said: Vec<Said>,
    bytes: Vec<u8>,
}

impl Input {
    fn new(k: u32, m: u32) -> Input {
        let mut random = Random::new(u64::from(k));
        let mut any = || Said {
            acks: random.number() as u32 >> (32 - k),
            return_bit: random.bit(),
            jobs: random.byte() & all_jobs(m),
        };
        let said: Vec<Said> = (0..MESSAGES).map(|_| any()).collect();
        let mut bytes = vec![0; MESSAGES * message::length(k)];
        for (&said, out) in said.iter().zip(bytes.chunks_exact_mut(message::length(k))) {
            message::write(k, m, said, out).expect("k and acknowledgements are in range");
        }
        Input { k, m, said, bytes }
    }

    fn messages(&self) -> impl Iterator<Item = &[u8]> {
        self.bytes.chunks_exact(message::length(self.k))
    }

    /// Both sides read each message as said, and write it.
    fn check(&self) {
        for (&said, bytes) in self.said.iter().zip(self.messages()) {
            let mut out = vec![0; bytes.len()];
            assert_eq!(model_read(self.k, self.m, bytes), Ok(said));
            assert_eq!(library::read(self.k, self.m, bytes), Ok(said));
            assert_eq!(library::write(self.k, self.m, said, &mut out), Ok(bytes.len() as u64));
            assert_eq!(out, bytes);
        }
    }

    fn reads<A>(&self, read: impl Fn(u32, u32, &[u8]) -> A) {
        for bytes in self.messages() {
            black_box(read(black_box(self.k), black_box(self.m), black_box(bytes)));
        }
    }

    fn writes<A>(&self, write: impl Fn(u32, u32, Said, &mut [u8]) -> A) {
        let mut out = [0; 10];
        for &said in &self.said {
            black_box(write(black_box(self.k), black_box(self.m), black_box(said), black_box(&mut out[..])));
        }
    }
}

/// Messages per second of one run.
fn rate(pass: &impl Fn()) -> f64 {
    let start = Instant::now();
    for _ in 0..PASSES {
        pass();
    }
    (PASSES * MESSAGES) as f64 / start.elapsed().as_secs_f64()
}

fn median(mut rates: Vec<f64>) -> f64 {
    rates.sort_by(f64::total_cmp);
    rates[rates.len() / 2]
}

/// Runs the two sides in turn, each first in every other turn, and prints a row of the table.
fn compare(what: &str, k: u32, library: impl Fn(), model: impl Fn()) {
    // One run of each to warm up.
    rate(&library);
    rate(&model);
    let (mut by_library, mut by_model) = (Vec::new(), Vec::new());
    for run in 0..RUNS {
        if run % 2 == 0 {
            by_library.push(rate(&library));
            by_model.push(rate(&model));
        } else {
            by_model.push(rate(&model));
            by_library.push(rate(&library));
        }
    }
    let (library, model) = (median(by_library), median(by_model));
    println!("| {what} | {k} | {:.1} | {:.1} | {:.2} |", library / 1e6, model / 1e6, library / model);
}

fn times() {
    println!("| | k | library, million/s | model, million/s | library/model |");
    println!("|---|---|---|---|---|");
    for k in [2, 9, 31] {
        let input = Input::new(k, M);
        input.check();
        // The number that the library gives, and what the wrapper of the tests makes of it.
        compare("read", k, || input.reads(library::read_answer), || input.reads(model_read));
        compare("read, wrapped", k, || input.reads(library::read), || input.reads(model_read));
        compare("write", k, || input.writes(library::write), || input.writes(model_write));
    }
}

fn once(k: u32, m: u32) {
    let input = Input::new(k, m);
    input.reads(library::read_answer);
    input.reads(model_read);
    input.writes(library::write);
    input.writes(model_write);
}

fn main() {
    let numbers: Vec<u32> = env::args().skip(1).map(|word| word.parse().expect("a number")).collect();
    match numbers[..] {
        [k, m] => once(k, m),
        _ => times(),
    }
}
