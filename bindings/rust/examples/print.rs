//! Prints the documents of a store, each with its number. Damaged ones are reported on standard error.
//!
//! usage: print FILE

use std::error::Error;
use std::io::{self, BufWriter, Write};
use std::process::ExitCode;
use zevkhadun::{Refusal, Store};

/// Prints a store, and returns whether it had all its documents.
fn print() -> Result<bool, Box<dyn Error>> {
    let path = std::env::args_os().nth(1).ok_or("usage: print FILE")?;
    let store = Store::open(std::fs::read(path)?)?;
    let mut output = BufWriter::new(io::stdout().lock());
    let mut is_whole = true;
    for (id, document) in store.iter().enumerate() {
        match document {
            Ok(document) => {
                write!(output, "{id}: ")?;
                output.write_all(document)?;
                writeln!(output)?;
            }
            Err(Refusal::DamagedDocument) => {
                eprintln!("print: document {id} is damaged");
                is_whole = false;
            }
            Err(refusal) => return Err(refusal.into()),
        }
    }
    output.flush()?;
    Ok(is_whole)
}

fn main() -> ExitCode {
    match print() {
        Ok(true) => ExitCode::SUCCESS,
        Ok(false) => ExitCode::FAILURE,
        Err(error) => {
            eprintln!("print: {error}");
            ExitCode::FAILURE
        }
    }
}
