//! What is timed.

use crate::documents::{hash, Check, Documents};
use crate::numbers::{numbers, Order};
use crate::stores::{opened, store_of, written};
use crate::words::Words;
use common::OwnedBytes;
use std::error::Error;
use std::time::{Duration, Instant};
use tantivy::store::StoreReader;
use tantivy::TantivyError;

/// What a workload took and did.
#[derive(Debug)]
pub struct Told {
    /// Documents, opens or stores.
    pub count: u64,
    /// From the first to the last of them.
    pub time: Duration,
    /// What has to be the same on both sides.
    pub check: u64,
}

/// A workload's outcome.
type Outcome = Result<Told, Box<dyn Error>>;

/// Does the workload of a name.
pub fn run(name: &str, words: &Words) -> Outcome {
    match name {
        "write" => write(words),
        "open" => open(words),
        "get_uniform" => get(words, Order::Uniform),
        "get_hot" => get(words, Order::Hot),
        "get_zipf" => get(words, Order::Zipf),
        "get_seq" => get(words, Order::Sequence),
        "iter_raw" => iterate(words),
        "stack" => stack(words),
        _ => Err(format!("no such workload: {name}").into()),
    }
}

/// An error of tantivy as a text.
fn text(error: TantivyError) -> String {
    format!("{error:?}")
}

fn file_of(words: &Words) -> Result<OwnedBytes, Box<dyn Error>> {
    let documents = Documents::new(words.length);
    Ok(OwnedBytes::new(store_of(
        &documents,
        words.documents,
        words.block_size,
    )?))
}

fn write(words: &Words) -> Outcome {
    let documents = Documents::new(words.length);
    let start = Instant::now();
    let file = store_of(&documents, words.documents, words.block_size)?;
    let time = start.elapsed();
    Ok(Told {
        count: words.documents as u64,
        time,
        check: hash(&file),
    })
}

/// Opens a store, which checks nothing, and drops it again.
fn open(words: &Words) -> Outcome {
    let file = file_of(words)?;
    let start = Instant::now();
    for _ in 0..words.questions {
        drop(opened(&file, words.cache)?);
    }
    let time = start.elapsed();
    Ok(Told {
        count: words.questions as u64,
        time,
        check: 0,
    })
}

fn get(words: &Words, order: Order) -> Outcome {
    let reader = opened(&file_of(words)?, words.cache)?;
    let asked = numbers(order, words.questions, words.documents, words.hot);
    let mut check = Check::default();
    let start = Instant::now();
    for number in asked {
        check.add(&reader.get_document_bytes(number).map_err(text)?);
    }
    Ok(Told {
        count: check.count,
        time: start.elapsed(),
        check: check.value,
    })
}

fn iterate(words: &Words) -> Outcome {
    let reader = opened(&file_of(words)?, words.cache)?;
    let mut check = Check::default();
    let start = Instant::now();
    for document in reader.iter_raw(None) {
        check.add(&document.map_err(text)?);
    }
    Ok(Told {
        count: check.count,
        time: start.elapsed(),
        check: check.value,
    })
}

/// Stacks stores that were opened before, without a cache.
fn stack(words: &Words) -> Outcome {
    let file = file_of(words)?;
    let readers = (0..words.stores)
        .map(|_| opened(&file, 0))
        .collect::<Result<Vec<StoreReader>, _>>()?;
    let start = Instant::now();
    let stacked = written(words.block_size, |writer| {
        readers
            .into_iter()
            .try_for_each(|reader| writer.stack(reader))
    })?;
    let time = start.elapsed();
    Ok(Told {
        count: words.stores as u64,
        time,
        check: hash(&stacked),
    })
}
