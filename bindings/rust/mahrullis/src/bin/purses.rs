//! Purses in a file. Each byte of the journal is written and synced before the next is made, so that a cut at any time leaves the purses as before or as after the call.
//!
//!     purses create FILE RECORDS            a journal with room for so many records; FILE must not exist
//!     purses credit FILE PURSE AMOUNT
//!     purses run FILE PURSE [FUEL] < SCRIPT  prints the numbers and the end
//!     purses show FILE                      each purse that holds something
//!
//! One process at a time may use a journal. It exits with 1 where a call is refused or a text ends with a stop, and with 2 where it could not be made.
use std::env;
use std::error::Error;
use std::fs::{File, OpenOptions};
use std::io::{self, Read, Write};
use std::os::unix::fs::FileExt;
use std::process::ExitCode;

use mahrullis::{Limits, PurseRefusal, Purses, Step, RECORD_BYTES};

type Done = Result<bool, Box<dyn Error>>;

/// Opens a journal for writing, and reads it.
fn open(name: &str) -> io::Result<(File, Purses)> {
    let mut file = OpenOptions::new().read(true).write(true).open(name)?;
    let mut journal = Vec::new();
    file.read_to_end(&mut journal)?;
    Ok((file, Purses::new(journal)))
}

/// Makes the steps of a call: a byte is in the file for good before the next step, and a number is printed once it is the bank's.
fn make(file: &File, steps: impl Iterator<Item = Step>) -> io::Result<()> {
    let mut out = io::stdout().lock();
    for step in steps {
        match step {
            Step::Store { at, byte } => {
                file.write_all_at(&[byte], at as u64)?;
                file.sync_data()?;
            }
            Step::Hand(number) => writeln!(out, "{number}")?,
        }
    }
    out.flush()
}

fn refuse(refusal: PurseRefusal) -> Done {
    println!("{refusal}");
    Ok(false)
}

fn create(name: &str, records: &str) -> Done {
    let records: usize = records.parse()?;
    let file = OpenOptions::new().write(true).create_new(true).open(name)?;
    file.set_len((records * RECORD_BYTES) as u64)?;
    file.sync_all()?;
    Ok(true)
}

fn credit(name: &str, purse: &str, amount: &str) -> Done {
    let (file, mut purses) = open(name)?;
    match purses.credit(purse.parse()?, amount.parse()?) {
        Ok(steps) => make(&file, steps)?,
        Err(refusal) => return refuse(refusal),
    }
    Ok(true)
}

fn run(name: &str, purse: &str, fuel: u64) -> Done {
    let (file, mut purses) = open(name)?;
    let mut text = Vec::new();
    io::stdin().read_to_end(&mut text)?;
    match purses.run(purse.parse()?, &text, Limits { fuel, ..Limits::GREATEST }) {
        Ok(run) => {
            make(&file, run.steps)?;
            println!("{} after {} units", run.end, run.units);
            Ok(run.end == mahrullis::End::Done)
        }
        Err(refusal) => refuse(refusal),
    }
}

fn show(name: &str) -> Done {
    let mut journal = Vec::new();
    File::open(name)?.read_to_end(&mut journal)?;
    match Purses::new(journal).show() {
        Ok(purses) => {
            for (purse, holds) in purses.iter().enumerate().filter(|(_, holds)| **holds > 0) {
                println!("{purse}: {holds}");
            }
            Ok(true)
        }
        Err(refusal) => refuse(refusal),
    }
}

fn main() -> ExitCode {
    let words: Vec<String> = env::args().skip(1).collect();
    let words: Vec<&str> = words.iter().map(String::as_str).collect();
    let done = match words[..] {
        ["create", name, records] => create(name, records),
        ["credit", name, purse, amount] => credit(name, purse, amount),
        ["run", name, purse] => run(name, purse, Limits::GREATEST.fuel),
        ["run", name, purse, fuel] => fuel.parse().map_err(Into::into).and_then(|fuel| run(name, purse, fuel)),
        ["show", name] => show(name),
        _ => Err("usage: purses create FILE RECORDS | credit FILE PURSE AMOUNT | run FILE PURSE [FUEL] < SCRIPT | show FILE".into()),
    };
    match done {
        Ok(true) => ExitCode::SUCCESS,
        Ok(false) => ExitCode::from(1),
        Err(error) => {
            eprintln!("purses: {error}");
            ExitCode::from(2)
        }
    }
}
