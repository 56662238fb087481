//! The documents, and the checks over what was got and written, as `crates/bench_store` makes them.

use crate::numbers::Generator;

const SEED: u64 = 88_172_645_463_325_252;
const POOL: usize = 1 << 20;
const STEP: usize = 4099;

/// Parts of a pool of bytes, one length for all of them.
#[derive(Debug)]
pub struct Documents {
    pool: Vec<u8>,
    length: usize,
}

impl Documents {
    /// Documents of this length, which is below 1 MiB.
    pub fn new(length: usize) -> Documents {
        let mut generator = Generator::new(SEED);
        let pool = (0..POOL / 8)
            .flat_map(|_| generator.step().to_le_bytes())
            .collect();
        Documents { pool, length }
    }

    /// The document of a number.
    pub fn get(&self, number: usize) -> &[u8] {
        let start = number * STEP % (POOL - self.length);
        &self.pool[start..start + self.length]
    }
}

/// A sum over documents: the length of each, its first byte and its last.
#[derive(Debug, Default, Clone, Copy)]
pub struct Check {
    /// How many documents.
    pub count: u64,
    /// The sum.
    pub value: u64,
}

impl Check {
    /// Adds a document.
    pub fn add(&mut self, document: &[u8]) {
        let end = |byte: Option<&u8>| byte.map_or(0, |&byte| u64::from(byte));
        let own =
            document.len() as u64 + 256 * end(document.first()) + 65536 * end(document.last());
        self.value = self.value.wrapping_mul(1_000_003).wrapping_add(own);
        self.count += 1;
    }
}

/// The hash FNV-1a of 64 bits of a file.
pub fn hash(file: &[u8]) -> u64 {
    let step = |hash: u64, &byte: &u8| (hash ^ u64::from(byte)).wrapping_mul(0x100_0000_01b3);
    file.iter().fold(0xcbf2_9ce4_8422_2325, step)
}
