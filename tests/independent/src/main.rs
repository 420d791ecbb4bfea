//! Reads a trace from standard input and writes its output to standard output.

use std::io::{self, Read, Write};
use std::process::ExitCode;

fn main() -> ExitCode {
    if std::env::args().len() > 1 {
        eprintln!("usage: independent < TRACE");
        return ExitCode::from(2);
    }
    let mut trace = Vec::new();
    let read = io::stdin().read_to_end(&mut trace);
    match read.and_then(|_| io::stdout().write_all(&independent::trace::run(&trace))) {
        Ok(()) => ExitCode::SUCCESS,
        Err(error) => {
            eprintln!("independent: {error}");
            ExitCode::FAILURE
        }
    }
}
