//! Opens a store as users of the package for Rust do, again and again, and prints what it took as one line of JSON.
//!
//! usage: rust_side PATH q=NUMBER
//!
//! An open reads the whole file into memory, checks its index, and gets document 0.

use std::env;
use std::error::Error;
use std::fs;
use std::time::{Duration, Instant};
use zevkhadun::Store;

/// The check over one document, as `bench/peers/check.h` has it.
fn check_of(document: &[u8]) -> u64 {
    let end = |byte: Option<&u8>| byte.map_or(0, |&byte| u64::from(byte));
    document.len() as u64 + 256 * end(document.first()) + 65536 * end(document.last())
}

/// Opens the store of a path, gets its first document, and returns the time and the document's check.
fn opened(path: &str) -> Result<(Duration, u64), Box<dyn Error>> {
    let start = Instant::now();
    let store = Store::open(fs::read(path)?)?;
    let check = check_of(store.get(0)?);
    Ok((start.elapsed(), check))
}

/// The number of a word `q=NUMBER`.
fn questions(word: &str) -> Result<u32, Box<dyn Error>> {
    Ok(word
        .strip_prefix("q=")
        .ok_or("usage: rust_side PATH q=NUMBER")?
        .parse()?)
}

fn main() -> Result<(), Box<dyn Error>> {
    let mut words = env::args().skip(1);
    let path = words.next().ok_or("usage: rust_side PATH q=NUMBER")?;
    let count = questions(&words.next().unwrap_or_default())?;
    opened(&path)?; // the first one brings the file into memory
    let mut time = Duration::ZERO;
    let mut check: u64 = 0;
    for _ in 0..count {
        let (taken, of_document) = opened(&path)?;
        time += taken;
        check = check.wrapping_mul(1_000_003).wrapping_add(of_document);
    }
    println!(
        "{{\"count\": {count}, \"ns\": {}, \"check\": \"{check}\"}}",
        time.as_nanos()
    );
    Ok(())
}
