//! `check`: a network file on standard input, its verdict and environments on standard output.
//! Exit status 0: accepted; 1: refused; 2: unreadable input or a failed write.

use std::io::{self, Read, Write};
use std::process::ExitCode;

/// Was the file accepted?
fn run() -> io::Result<bool> {
    // One byte more than the longest file is enough to see that it is too long.
    let mut file = Vec::new();
    io::stdin().take(second::tables::LONGEST as u64 + 1).read_to_end(&mut file)?;
    let verdict = second::check(&file);
    io::stdout().write_all(second::report(&verdict).as_bytes())?;
    io::stdout().flush()?;
    Ok(verdict.is_ok())
}

fn main() -> ExitCode {
    match run() {
        Ok(true) => ExitCode::SUCCESS,
        Ok(false) => ExitCode::from(1),
        Err(error) => {
            eprintln!("check: {error}");
            ExitCode::from(2)
        }
    }
}
