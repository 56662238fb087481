//! The iterator of a store that is read by ranges.

use crate::error::Refusal;
use crate::ranged::RangedStore;
use crate::ranged_blocks::{self as blocks, ReadBlock};
use crate::read_error::ReadError;
use std::collections::VecDeque;
use std::fmt;
use std::io;
use std::iter::FusedIterator;
use std::ops::Range;

/// The documents of a [`RangedStore`] in order, each damaged one as its error: made by [`RangedStore::iter`] and
/// [`RangedStore::range`].
///
/// After a damaged document it goes on. It ends after an error of a read or of the index.
///
/// ```
/// # let mut writer = zevkhadun::Writer::new(Vec::new());
/// # for fruit in ["apple", "banana", "cherry"] {
/// #     writer.put(fruit.as_bytes())?;
/// # }
/// # let file = writer.close()?;
/// # let size = file.len() as u64;
/// # let store =
/// #     zevkhadun::RangedStore::open(|start, len| Ok(file[start as usize..][..len].to_vec()), size)?;
/// for document in store.range(1..) {
///     println!("{:?}", document?);
/// }
/// # Ok::<(), Box<dyn std::error::Error>>(())
/// ```
#[must_use = "iterators are lazy"]
pub struct RangedDocuments<'s, F> {
    store: &'s RangedStore<F>,
    left: Range<u32>,
    /// Blocks that were read, of which the first one has the next document.
    read: VecDeque<ReadBlock>,
}

impl<'s, F> RangedDocuments<'s, F> {
    pub(crate) fn new(store: &'s RangedStore<F>, left: Range<u32>) -> RangedDocuments<'s, F> {
        RangedDocuments {
            store,
            left,
            read: VecDeque::new(),
        }
    }
}

impl<F: Fn(u64, usize) -> io::Result<Vec<u8>>> RangedDocuments<'_, F> {
    /// Reads the blocks from the next document on, unless its block is here.
    fn refill(&mut self) -> Result<(), ReadError> {
        let left = self.left.clone();
        if self
            .read
            .front()
            .is_some_and(|(block, _)| block.end_doc <= left.start)
        {
            self.read.pop_front();
        }
        if self.read.is_empty() {
            let next = |done| Some(left.start.max(done)).filter(|doc_id| left.contains(doc_id));
            self.read = self.store.gathered(next)?.into();
        }
        Ok(())
    }

    /// The document of a number, whose block is the first one.
    fn document(&mut self, doc_id: u32) -> Result<Vec<u8>, ReadError> {
        self.refill()?;
        let (block, content) = &self.read[0];
        Ok(blocks::document(content, block, doc_id)?.to_vec())
    }
}

impl<F: Fn(u64, usize) -> io::Result<Vec<u8>>> Iterator for RangedDocuments<'_, F> {
    type Item = Result<Vec<u8>, ReadError>;

    fn next(&mut self) -> Option<Self::Item> {
        if self.left.is_empty() {
            return None;
        }
        let document = self.document(self.left.start);
        self.left.start += 1;
        let goes_on = matches!(
            &document,
            Ok(_) | Err(ReadError::Refused(Refusal::DamagedDocument))
        );
        if !goes_on {
            self.left.start = self.left.end;
        }
        Some(document)
    }

    fn size_hint(&self) -> (usize, Option<usize>) {
        (0, Some(self.left.len()))
    }
}

impl<F: Fn(u64, usize) -> io::Result<Vec<u8>>> FusedIterator for RangedDocuments<'_, F> {}

impl<F> fmt::Debug for RangedDocuments<'_, F> {
    fn fmt(&self, f: &mut fmt::Formatter<'_>) -> fmt::Result {
        f.debug_tuple("RangedDocuments").field(&self.left).finish()
    }
}
