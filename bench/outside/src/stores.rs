//! Stores of tantivy in memory: how one is written and opened.

use crate::documents::Documents;
use common::{AntiCallToken, OwnedBytes, TerminatingWrite};
use std::io::{self, BufWriter, Write};
use std::sync::{Arc, Mutex};
use tantivy::directory::FileSlice;
use tantivy::store::{Compressor, StoreReader, StoreWriter};

/// The bytes of an output that has ended.
type Ended = Arc<Mutex<Vec<u8>>>;

/// An output in memory, which hands over its bytes without a copy when it ends.
struct Memory {
    bytes: Vec<u8>,
    ended: Ended,
}

impl Write for Memory {
    fn write(&mut self, bytes: &[u8]) -> io::Result<usize> {
        self.bytes.extend_from_slice(bytes);
        Ok(bytes.len())
    }

    fn flush(&mut self) -> io::Result<()> {
        Ok(())
    }
}

impl TerminatingWrite for Memory {
    fn terminate_ref(&mut self, _: AntiCallToken) -> io::Result<()> {
        *self.ended.lock().expect("no other thread") = std::mem::take(&mut self.bytes);
        Ok(())
    }
}

/// Writes a store by what `fill` does to its writer, and returns its file.
pub fn written(
    block_size: usize,
    fill: impl FnOnce(&mut StoreWriter) -> io::Result<()>,
) -> io::Result<Vec<u8>> {
    let ended = Ended::default();
    let memory = Memory {
        bytes: Vec::new(),
        ended: ended.clone(),
    };
    let output = BufWriter::new(Box::new(memory) as Box<dyn TerminatingWrite>);
    let mut writer = StoreWriter::new(output, Compressor::None, block_size, false)?;
    fill(&mut writer)?;
    writer.close()?;
    let file = std::mem::take(&mut *ended.lock().expect("no other thread"));
    Ok(file)
}

/// The file of a store of the first `count` documents.
pub fn store_of(documents: &Documents, count: usize, block_size: usize) -> io::Result<Vec<u8>> {
    written(block_size, |writer| {
        (0..count).try_for_each(|number| writer.store_bytes(documents.get(number)))
    })
}

/// Opens a file, whose reader keeps `cache` blocks at most.
pub fn opened(file: &OwnedBytes, cache: usize) -> io::Result<StoreReader> {
    StoreReader::open(FileSlice::new(Arc::new(file.clone())), cache)
}
