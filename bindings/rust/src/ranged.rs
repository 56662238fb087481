//! Reading a store whose file lies elsewhere, by ranges of it.

use crate::block_cache::BlockCache;
use crate::error::Refusal;
use crate::ranged_blocks::{self as blocks, BlockPlace, Found, ReadBlock};
use crate::ranged_documents::RangedDocuments;
use crate::raw;
use crate::read_error::ReadError;
use crate::store::numbers_in;
use std::fmt;
use std::io;
use std::ops::RangeBounds;
use std::sync::Arc;

/// How much a [`RangedStore`] reads and keeps. All are in bytes.
///
/// ```
/// use zevkhadun::RangedOptions;
///
/// let options = RangedOptions { cache: 1 << 28, ..RangedOptions::default() };
/// assert_eq!((options.tail, options.request), (1 << 16, 1 << 22));
/// ```
#[derive(Clone, Copy, Debug, PartialEq, Eq, Hash)]
pub struct RangedOptions {
    /// How much of the end of the file the first read takes. If the index is longer, a second read takes it whole.
    pub tail: usize,
    /// The greatest size of the blocks that are kept.
    pub cache: usize,
    /// The greatest size of one read, unless a block is longer.
    pub request: usize,
}

impl Default for RangedOptions {
    /// 64 KiB, 16 MiB and 4 MiB.
    fn default() -> RangedOptions {
        RangedOptions {
            tail: 1 << 16,
            cache: 1 << 24,
            request: 1 << 22,
        }
    }
}

/// A store that is read by ranges of its file: in object storage, on a web server, in an archive.
///
/// `F` is a function of yours, `Fn(u64, usize) -> io::Result<Vec<u8>>`, that gets an offset and a length, and returns
/// that many bytes of the file from that offset on. Opening calls it once, or twice if the index is longer than
/// [`RangedOptions::tail`]. A get calls it once, for a block, or not at all if the block is in the cache. Blocks that
/// follow one another in the file are read by one call.
///
/// Threads may share the store if they may share `F`. The index is not checked whole: damage is found in what is read.
///
/// ```
/// # let mut writer = zevkhadun::Writer::new(Vec::new());
/// # for fruit in ["apple", "banana", "cherry"] {
/// #     writer.put(fruit.as_bytes())?;
/// # }
/// # let folder = std::env::temp_dir().join(format!("zevkhadun-ranged-{}", std::process::id()));
/// # std::fs::create_dir_all(&folder)?;
/// # let path = folder.join("fruits.store");
/// # std::fs::write(&path, writer.close()?)?;
/// use std::{fs::File, os::unix::fs::FileExt};
/// use zevkhadun::RangedStore;
///
/// let file = File::open(&path)?;
/// let size = file.metadata()?.len();
/// let store = RangedStore::open(
///     |start, len| {
///         let mut bytes = vec![0; len];
///         file.read_exact_at(&mut bytes, start)?;
///         Ok(bytes)
///     },
///     size,
/// )?;
/// assert_eq!(store.len(), 3);
/// assert_eq!(store.get(1)?, b"banana");
/// assert_eq!(store.get_many(&[2, 0])?, [b"cherry".as_slice(), b"apple"]);
/// # std::fs::remove_dir_all(&folder)?;
/// # Ok::<(), Box<dyn std::error::Error>>(())
/// ```
pub struct RangedStore<F> {
    read: F,
    size: usize,
    request: usize,
    /// The last bytes of the file: the index and the footer, and perhaps more.
    tail: Vec<u8>,
    count: u32,
    cache: BlockCache,
}

impl<F: Fn(u64, usize) -> io::Result<Vec<u8>>> RangedStore<F> {
    /// Reads the index of a store whose file has this size in bytes.
    ///
    /// # Errors
    ///
    /// [`Io`](ReadError::Io); [`Refused`](ReadError::Refused) with an error of a file, as for [`get`](crate::get()).
    pub fn open(read: F, size: u64) -> Result<RangedStore<F>, ReadError> {
        RangedStore::open_with(read, size, RangedOptions::default())
    }

    /// As [`RangedStore::open`], with other lengths.
    ///
    /// # Errors
    ///
    /// Those of [`RangedStore::open`].
    pub fn open_with(
        read: F,
        size: u64,
        options: RangedOptions,
    ) -> Result<RangedStore<F>, ReadError> {
        // A usize has 64 bits on every target of this crate.
        let size = size as usize;
        let mut store = RangedStore {
            read,
            size,
            request: options.request,
            tail: Vec::new(),
            count: 0,
            cache: BlockCache::new(options.cache),
        };
        store.tail = store.read_tail(options.tail)?;
        store.count = blocks::count(&store.tail, size)?;
        Ok(store)
    }

    /// The bytes of a document.
    ///
    /// # Errors
    ///
    /// [`Io`](ReadError::Io); [`Refused`](ReadError::Refused) with [`NoDocument`](Refusal::NoDocument),
    /// [`DamagedDocument`](Refusal::DamagedDocument) or [`BadIndex`](Refusal::BadIndex).
    pub fn get(&self, doc_id: u32) -> Result<Vec<u8>, ReadError> {
        let block = self.block(doc_id)?;
        let content = self.contents(&[block])?.remove(0);
        Ok(blocks::document(&content, &block, doc_id)?.to_vec())
    }

    /// The documents of many numbers, in the order of the numbers. Each block is read once, and blocks that follow one
    /// another are read by one call.
    ///
    /// # Errors
    ///
    /// Those of [`RangedStore::get`].
    pub fn get_many(&self, doc_ids: &[u32]) -> Result<Vec<Vec<u8>>, ReadError> {
        if doc_ids.iter().any(|&doc_id| doc_id >= self.count) {
            return Err(Refusal::NoDocument.into());
        }
        let mut order: Vec<usize> = (0..doc_ids.len()).collect();
        order.sort_by_key(|&at| doc_ids[at]);
        let mut documents = vec![Vec::new(); doc_ids.len()];
        let mut left = order.as_slice();
        while !left.is_empty() {
            let after = |done| left.partition_point(|&at| doc_ids[at] < done);
            let found = self.gathered(|done| left.get(after(done)).map(|&at| doc_ids[at]))?;
            for (block, content) in found {
                let (here, rest) =
                    left.split_at(left.partition_point(|&at| doc_ids[at] < block.end_doc));
                for &at in here {
                    documents[at] = blocks::document(&content, &block, doc_ids[at])?.to_vec();
                }
                left = rest;
            }
        }
        Ok(documents)
    }

    /// All documents in order, each damaged one as its error. A read takes the blocks of many documents.
    pub fn iter(&self) -> RangedDocuments<'_, F> {
        self.range(..)
    }

    /// The documents whose numbers lie in a range, in order. Numbers past its end are ignored.
    pub fn range(&self, doc_ids: impl RangeBounds<u32>) -> RangedDocuments<'_, F> {
        RangedDocuments::new(self, numbers_in(doc_ids, self.count))
    }

    /// Blocks with their bytes, as many as a read takes: those of the documents that `next` returns, of which it gets
    /// the number after the last one of the block before.
    pub(crate) fn gathered(
        &self,
        mut next: impl FnMut(u32) -> Option<u32>,
    ) -> Result<Vec<ReadBlock>, ReadError> {
        let mut found: Vec<raw::BlockPlace> = Vec::new();
        let (mut bytes, mut done) = (0_usize, 0);
        while let Some(doc_id) = next(done) {
            let block = match self.block(doc_id) {
                Ok(block) => block,
                // The blocks before the fault are read first.
                Err(_) if !found.is_empty() => break,
                Err(refusal) => return Err(refusal.into()),
            };
            bytes = bytes.saturating_add(block.len);
            if !found.is_empty() && bytes > self.request {
                break;
            }
            done = block.end_doc;
            found.push(block);
        }
        let contents = self.contents(&found)?;
        Ok(found.into_iter().zip(contents).collect())
    }

    /// The bytes of blocks in order, from the cache or by reads.
    fn contents(&self, found: &[raw::BlockPlace]) -> Result<Vec<Arc<[u8]>>, ReadError> {
        let kept: Vec<_> = found
            .iter()
            .map(|block| self.cache.get(block.span()))
            .collect();
        let mut contents = Vec::with_capacity(found.len());
        while let Some(kept_one) = kept.get(contents.len()) {
            if let Some(content) = kept_one {
                contents.push(Arc::clone(content));
                continue;
            }
            let missing = kept[contents.len()..]
                .iter()
                .take_while(|one| one.is_none())
                .count();
            let run = blocks::run(&found[contents.len()..][..missing]);
            contents.extend(self.read_run(run)?);
        }
        Ok(contents)
    }

    /// Reads blocks that follow one another, each into memory of its own, so that one that is dropped frees it.
    fn read_run(&self, run: &[raw::BlockPlace]) -> Result<Vec<Arc<[u8]>>, ReadError> {
        let start = run[0].start;
        let len = run.iter().map(|block| block.len).sum();
        let bytes = self.read(start, len)?;
        let contents = run.iter().map(|block| {
            let content = Arc::from(&bytes[block.start - start..][..block.len]);
            self.cache.put(block.span(), &content);
            content
        });
        Ok(contents.collect())
    }

    /// Reads the last bytes of the file, and once more if they lack a part of the index.
    fn read_tail(&self, len: usize) -> Result<Vec<u8>, ReadError> {
        let mut len = len.max(blocks::FOOTER_LEN).min(self.size);
        loop {
            let tail = self.read(self.size - len, len)?;
            let wanted = blocks::wanted(&tail, self.size)?;
            if wanted <= len {
                return Ok(tail);
            }
            len = wanted;
        }
    }

    fn read(&self, start: usize, len: usize) -> Result<Vec<u8>, ReadError> {
        let bytes = (self.read)(start as u64, len)?;
        if bytes.len() != len {
            let text = format!("{} bytes were read at {start}, and not {len}", bytes.len());
            return Err(io::Error::new(io::ErrorKind::UnexpectedEof, text).into());
        }
        Ok(bytes)
    }
}

impl<F> RangedStore<F> {
    /// The number of documents.
    pub fn len(&self) -> usize {
        self.count as usize
    }

    /// Whether there are no documents.
    pub fn is_empty(&self) -> bool {
        self.count == 0
    }

    /// The size of the file in bytes.
    pub fn size(&self) -> u64 {
        self.size as u64
    }

    /// How many bytes of blocks are in the cache.
    pub fn cached(&self) -> usize {
        self.cache.bytes()
    }

    /// Where the block of a document lies. Nothing is read.
    ///
    /// # Errors
    ///
    /// [`NoDocument`](Refusal::NoDocument), [`BadIndex`](Refusal::BadIndex).
    ///
    /// ```
    /// # let mut writer = zevkhadun::Writer::new(Vec::new());
    /// # writer.put(b"apple")?;
    /// # let file = writer.close()?;
    /// # let size = file.len() as u64;
    /// # let store =
    /// #     zevkhadun::RangedStore::open(|start, len| Ok(file[start as usize..][..len].to_vec()), size)?;
    /// let block = store.block_of(0)?;
    /// assert_eq!((block.doc_ids, block.bytes), (0..1, 0..13));
    /// # Ok::<(), Box<dyn std::error::Error>>(())
    /// ```
    pub fn block_of(&self, doc_id: u32) -> Result<BlockPlace, Refusal> {
        Ok(BlockPlace::of(self.block(doc_id)?))
    }

    /// The function that reads ranges.
    pub fn get_ref(&self) -> &F {
        &self.read
    }

    /// The function that reads ranges, without the store.
    pub fn into_inner(self) -> F {
        self.read
    }

    fn block(&self, doc_id: u32) -> Result<raw::BlockPlace, Refusal> {
        if doc_id >= self.count {
            return Err(Refusal::NoDocument);
        }
        match blocks::block_of(&self.tail, self.size, doc_id)? {
            Found::Block(block) => Ok(block),
            // Not after the whole index was read.
            Found::Longer(_) => Err(Refusal::TailTooShort),
        }
    }
}

impl<F> fmt::Debug for RangedStore<F> {
    fn fmt(&self, f: &mut fmt::Formatter<'_>) -> fmt::Result {
        f.debug_struct("RangedStore")
            .field("documents", &self.count)
            .field("size", &self.size)
            .field("cached", &self.cached())
            .finish_non_exhaustive()
    }
}

impl<'s, F: Fn(u64, usize) -> io::Result<Vec<u8>>> IntoIterator for &'s RangedStore<F> {
    type Item = Result<Vec<u8>, ReadError>;
    type IntoIter = RangedDocuments<'s, F>;

    fn into_iter(self) -> RangedDocuments<'s, F> {
        self.iter()
    }
}
