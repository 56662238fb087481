//! Blocks that were read, those that were used last, up to a number of bytes.

use std::collections::{BTreeMap, HashMap};
use std::sync::{Arc, Mutex, MutexGuard, PoisonError};

/// Where a block lies in its file: its offset, and its length in bytes.
pub(crate) type Span = (usize, usize);

/// A cache of blocks, which threads share.
pub(crate) struct BlockCache {
    most: usize,
    kept: Mutex<Kept>,
}

#[derive(Default)]
struct Kept {
    bytes: usize,
    /// How many uses there were: the lower of two numbers is the older use.
    uses: u64,
    /// Each block, with its last use.
    blocks: HashMap<Span, (u64, Arc<[u8]>)>,
    /// The same blocks by their last use.
    by_use: BTreeMap<u64, Span>,
}

impl BlockCache {
    /// An empty cache, which keeps at most this many bytes.
    pub(crate) fn new(most: usize) -> BlockCache {
        BlockCache {
            most,
            kept: Mutex::default(),
        }
    }

    /// How many bytes it has.
    pub(crate) fn bytes(&self) -> usize {
        self.kept().bytes
    }

    /// A block, if it is here. It is now the one that was used last.
    pub(crate) fn get(&self, span: Span) -> Option<Arc<[u8]>> {
        self.kept().used(span)
    }

    /// Keeps a block, unless it alone is too long, and drops those that were not used for longest.
    pub(crate) fn put(&self, span: Span, block: &Arc<[u8]>) {
        if block.len() > self.most {
            return;
        }
        let mut kept = self.kept();
        if kept.used(span).is_none() {
            kept.add(span, Arc::clone(block));
        }
        while kept.bytes > self.most {
            kept.drop_oldest();
        }
    }

    /// A thread that panicked here would have left no change half done.
    fn kept(&self) -> MutexGuard<'_, Kept> {
        self.kept.lock().unwrap_or_else(PoisonError::into_inner)
    }
}

impl Kept {
    fn used(&mut self, span: Span) -> Option<Arc<[u8]>> {
        let (use_number, block) = self.blocks.get_mut(&span)?;
        self.by_use.remove(use_number);
        self.uses += 1;
        *use_number = self.uses;
        self.by_use.insert(self.uses, span);
        Some(Arc::clone(block))
    }

    fn add(&mut self, span: Span, block: Arc<[u8]>) {
        self.uses += 1;
        self.bytes += block.len();
        self.by_use.insert(self.uses, span);
        self.blocks.insert(span, (self.uses, block));
    }

    fn drop_oldest(&mut self) {
        let oldest = self.by_use.pop_first();
        let dropped = oldest.and_then(|(_, span)| self.blocks.remove(&span));
        self.bytes -= dropped.map_or(0, |(_, block)| block.len());
    }
}
