//! Holds the program that reads GridConnect lines from standard input and prints the answers of
//! the demonstration board.

use std::io::{self, Write};
use std::process::ExitCode;

/// How many bytes one read asks for at most. It is over the standard input's own buffer, so that
/// a read goes straight to the system; and answers end with a newline, so that a write does too.
const BLOCK_SIZE: usize = 65_536;

fn main() -> ExitCode {
    match model::run(io::stdin().lock(), io::stdout().lock(), BLOCK_SIZE) {
        Ok(()) => ExitCode::SUCCESS,
        Err(error) => {
            // Nothing is left to be done where even this cannot be written.
            let _ = writeln!(io::stderr(), "model-gridconnect: {error}");
            ExitCode::FAILURE
        }
    }
}
