//! The model's bench program: a plan on standard input, what document 01 says it prints on standard
//! output.

use comparison::model::program;
use std::io::{self, Read, Write};

fn main() -> io::Result<()> {
    let mut plan = Vec::new();
    io::stdin().lock().read_to_end(&mut plan)?;
    io::stdout().lock().write_all(&program::run(&plan))
}
