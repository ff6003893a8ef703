//! The model's report program: plans on standard input, what document 02 says it prints on standard output.

use comparison::model::plan_report;
use std::io::{self, Read, Write};

fn main() -> io::Result<()> {
    let mut plans = Vec::new();
    io::stdin().lock().read_to_end(&mut plans)?;
    io::stdout().lock().write_all(&plan_report::run(&plans))
}
