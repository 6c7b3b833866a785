//! Reads parameter sets from standard input, a line each, and prints for each the bound and the
//! headroom or the refusal number.

use std::io::{self, BufWriter};
use std::process::ExitCode;

fn main() -> ExitCode {
    let output = BufWriter::new(io::stdout().lock());
    match reference::roomsheet::run(io::stdin().lock(), output) {
        Ok(()) => ExitCode::SUCCESS,
        Err(error) => {
            eprintln!("roomsheet: {error}");
            ExitCode::FAILURE
        }
    }
}
