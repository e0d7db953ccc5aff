//! Times the proved core against the same jobs in ordinary Rust; `tools/bench` builds and calls it.
//!
//!     driver ROUNDS   prints the figures
//!     driver --hold   fails unless both give the same answers
#![deny(unsafe_code)]

mod clock;
mod engines;
mod figures;
mod hold;
mod measure;
mod texts;

use std::env;
use std::process::ExitCode;

fn main() -> ExitCode {
    let argument = env::args().nth(1).unwrap_or_default();
    if argument == "--hold" {
        return if hold::all_agree() { ExitCode::SUCCESS } else { ExitCode::FAILURE };
    }
    match argument.parse() {
        Ok(rounds) if rounds > 0 => {
            figures::print(rounds);
            ExitCode::SUCCESS
        }
        _ => {
            eprintln!("usage: driver ROUNDS | driver --hold");
            ExitCode::from(2)
        }
    }
}
