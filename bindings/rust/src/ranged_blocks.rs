//! Blocks of a file that is read by ranges: which there are, by the end of the file, and what is in one.

use crate::error::{check, Refusal, TAIL_TOO_SHORT};
use crate::raw::{self, Place};
use std::ops::Range;
use std::sync::Arc;

/// The footer's length in bytes.
pub(crate) const FOOTER_LEN: usize = 28;

/// Where a block of documents lies in its file.
#[derive(Clone, Debug, PartialEq, Eq, Hash)]
#[non_exhaustive]
pub struct BlockPlace {
    /// The numbers of its documents.
    pub doc_ids: Range<u32>,
    /// Its bytes in the file.
    pub bytes: Range<u64>,
}

impl BlockPlace {
    pub(crate) fn of(block: raw::BlockPlace) -> BlockPlace {
        BlockPlace {
            doc_ids: block.first_doc..block.end_doc,
            bytes: block.start as u64..(block.start + block.len) as u64,
        }
    }
}

/// A block, with its bytes.
pub(crate) type ReadBlock = (raw::BlockPlace, Arc<[u8]>);

/// What the end of a file says of the block of a document.
pub(crate) enum Found {
    /// The block.
    Block(raw::BlockPlace),
    /// Only that it needs this many of the last bytes.
    Longer(usize),
}

/// The block of a document, by the last bytes of a file of this size.
pub(crate) fn block_of(tail: &[u8], size: usize, doc_id: u32) -> Result<Found, Refusal> {
    let (mut block, mut wanted) = (raw::BlockPlace::default(), 0);
    // SAFETY: the pointer and the length are those of a slice, and the block and the number are ours.
    let answer = unsafe {
        raw::zevk_block_of(
            tail.as_ptr(),
            tail.len(),
            size,
            doc_id,
            &mut block,
            &mut wanted,
        )
    };
    if answer == TAIL_TOO_SHORT {
        return Ok(Found::Longer(wanted));
    }
    check(answer).map(|()| Found::Block(block))
}

/// How many of the last bytes the index and the footer are, by the last bytes of a file of this size; or 0 if these are
/// enough.
pub(crate) fn wanted(tail: &[u8], size: usize) -> Result<usize, Refusal> {
    match block_of(tail, size, 0) {
        Ok(Found::Longer(wanted)) => Ok(wanted),
        // The whole index may be longer than the part that this document needs: the footer says where it begins.
        Ok(Found::Block(_)) => {
            let footer = &tail[tail.len() - FOOTER_LEN..];
            let start = footer[4..12].iter().rev();
            let start = start.fold(0, |number, &byte| number << 8 | usize::from(byte));
            Ok(size.saturating_sub(start))
        }
        Err(Refusal::NoDocument) => Ok(0),
        Err(refusal) => Err(refusal),
    }
}

/// The number of documents: the least number that no document has.
pub(crate) fn count(tail: &[u8], size: usize) -> Result<u32, Refusal> {
    let (mut low, mut high) = (0, u32::MAX);
    while low < high {
        let middle = low + (high - low) / 2;
        match block_of(tail, size, middle) {
            Ok(Found::Block(block)) => low = block.end_doc,
            Ok(Found::Longer(_)) => return Err(Refusal::TailTooShort),
            Err(Refusal::NoDocument) => high = middle,
            Err(refusal) => return Err(refusal),
        }
    }
    Ok(low)
}

/// The first of these blocks that follow one another in the file.
pub(crate) fn run(found: &[raw::BlockPlace]) -> &[raw::BlockPlace] {
    let pairs = found.iter().zip(&found[1..]);
    let following = pairs.take_while(|(before, block)| before.start + before.len == block.start);
    &found[..1 + following.count()]
}

/// The bytes of a document, by those of its block.
pub(crate) fn document<'b>(
    content: &'b [u8],
    block: &raw::BlockPlace,
    doc_id: u32,
) -> Result<&'b [u8], Refusal> {
    let mut place = Place::default();
    // SAFETY: the pointer and the length are those of a slice, the block is borrowed, and the place is ours.
    check(unsafe { raw::zevk_get_in(content.as_ptr(), content.len(), block, doc_id, &mut place) })?;
    Ok(&content[place.start - block.start..][..place.len])
}
