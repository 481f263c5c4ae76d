//! Prints the row sheet of a Scream Tracker 3 tune of any accepted size, and draws the book.

mod cli;

use std::process::ExitCode;

fn main() -> ExitCode {
    cli::run(std::env::args_os().skip(1))
}
