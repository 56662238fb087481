//! Prints what a store's file is answered: for each file the number of the refusal of its opening, or how many
//! documents there are and some of them in hexadecimal digits, as tests/answers gets them.
//!
//! usage: answers FILE..

use std::fmt::Write;
use zevkhadun::{RangedStore, ReadError, Refusal, Store};

/// How many of the first documents are printed.
const FIRST: u32 = 200;

fn text_of(answer: Result<&[u8], Refusal>) -> String {
    let mut text = String::new();
    match answer {
        Err(refusal) => return format!("error {}", refusal.number()),
        Ok([]) => text.push('-'),
        Ok(document) => {
            for byte in document {
                // A String takes all that is written.
                let _ = write!(text, "{byte:02x}");
            }
        }
    }
    text
}

/// The answer of a store that is read by ranges.
fn by_ranges(answer: Result<Vec<u8>, ReadError>) -> Result<Vec<u8>, Refusal> {
    answer.map_err(|error| match error {
        ReadError::Refused(refusal) => refusal,
        error => panic!("{error}"),
    })
}

fn main() -> std::io::Result<()> {
    for path in std::env::args_os().skip(1) {
        let file = std::fs::read(path)?;
        match Store::open(&file) {
            Err(refusal) => println!("error {}", refusal.number()),
            Ok(store) => {
                println!("docs {}", store.len());
                let read = |start: u64, len: usize| Ok(file[start as usize..][..len].to_vec());
                let ranged = RangedStore::open(read, file.len() as u64).expect("a store by ranges");
                let unchecked =
                    Store::open_without_check(&file).expect("a store without the check");
                assert_eq!((ranged.len(), unchecked.len()), (store.len(), store.len()));
                let count = store.facts().documents;
                let first = 0..count.min(FIRST);
                for doc_id in first.chain([count.wrapping_sub(1), count]) {
                    let answer = store.get(doc_id);
                    assert_eq!(zevkhadun::get(&file, doc_id), answer, "without opening");
                    assert_eq!(unchecked.get(doc_id), answer, "without the check");
                    let same = answer.map(<[u8]>::to_vec);
                    assert_eq!(by_ranges(ranged.get(doc_id)), same, "by ranges");
                    println!("{}", text_of(answer));
                }
            }
        }
    }
    Ok(())
}
