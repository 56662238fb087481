//! The words after a workload's name.

use std::error::Error;

/// How much of everything.
#[derive(Debug, Clone, Copy)]
pub struct Words {
    /// Documents of a store.
    pub documents: usize,
    /// Bytes of each.
    pub length: usize,
    /// Bytes of a block.
    pub block_size: usize,
    /// Blocks that a reader keeps.
    pub cache: usize,
    /// Gets, or how often a store is opened.
    pub questions: usize,
    /// Documents that are asked for most.
    pub hot: usize,
    /// Stores that are stacked.
    pub stores: usize,
}

impl Words {
    /// Reads words `key=number`; those that are not given have the values of `crates/bench_store`.
    pub fn read(given: impl Iterator<Item = String>) -> Result<Words, Box<dyn Error>> {
        let mut words = Words {
            documents: 1_000_000,
            length: 100,
            block_size: 16384,
            cache: 100,
            questions: 200_000,
            hot: 5000,
            stores: 100,
        };
        for word in given {
            words.take(&word)?;
        }
        Ok(words)
    }

    fn take(&mut self, word: &str) -> Result<(), Box<dyn Error>> {
        let (key, number) = word
            .split_once('=')
            .ok_or_else(|| format!("not key=number: {word}"))?;
        let number = number.parse()?;
        match key {
            "n" => self.documents = number,
            "l" => self.length = number,
            "bs" => self.block_size = number,
            "cap" => self.cache = number,
            "q" => self.questions = number,
            "hot" => self.hot = number,
            "k" => self.stores = number,
            "reps" if number == 1 => {}
            _ => return Err(format!("no such word: {word}").into()),
        }
        Ok(())
    }
}
