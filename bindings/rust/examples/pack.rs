//! Packs the lines of standard input into a store, as documents without their line ends.
//!
//! usage: pack [--replace] FILE
//!
//! The file takes its name only once it is whole. If anything fails before that, the file that was there stays. It is
//! replaced only by `--replace`.

use std::error::Error;
use std::io::{self, BufRead};
use std::process::ExitCode;
use zevkhadun::FileWriter;

fn pack() -> Result<(), Box<dyn Error>> {
    let mut words = std::env::args_os().skip(1);
    let mut writer = match (words.next(), words.next()) {
        (Some(path), None) => FileWriter::create(path)?,
        (Some(word), Some(path)) if word == "--replace" => FileWriter::replace(path)?,
        _ => return Err("usage: pack [--replace] FILE".into()),
    };
    for line in io::stdin().lock().split(b'\n') {
        writer.put(&line?)?;
    }
    writer.publish()?;
    Ok(())
}

fn main() -> ExitCode {
    match pack() {
        Ok(()) => ExitCode::SUCCESS,
        Err(error) => {
            eprintln!("pack: {error}");
            ExitCode::FAILURE
        }
    }
}
