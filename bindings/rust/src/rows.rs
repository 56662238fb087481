//! The rows of an open store, by which its documents are found.

use crate::error::{check, Refusal};
use crate::facts::Footer;
use crate::raw::{self, Block, Head, Place};
use crate::unopened;

/// How many rows an outline has at most. They take 16 KiB.
const OUTLINE: usize = 1024;

/// Rows of one layer of a store's index, and its number of documents.
#[derive(Clone, Default)]
pub(crate) struct Rows {
    rows: Vec<Block>,
    /// The numbers of an outline. Its height is 0 where there is a row for each block.
    head: Head,
    documents: u32,
}

impl Rows {
    /// A row for each block. The whole index is checked.
    pub(crate) fn table(file: &[u8]) -> Result<Rows, Refusal> {
        let mut table = Rows::default();
        // A block takes at least two bytes of the index, so with this room the index is decoded once.
        let mut blocks = Footer::of(file)?.index_bytes / 2;
        let mut filled = table.fill(file, &mut blocks);
        if let Err(Refusal::NoMemory | Refusal::NoRoom) = filled {
            // Without the memory for it a call without rows counts the blocks.
            blocks = 0;
            filled = table.fill(file, &mut blocks);
            if filled == Err(Refusal::NoRoom) {
                filled = table.fill(file, &mut blocks);
            }
        }
        filled.map(|()| table)
    }

    /// Fills a row for each block, in room for `blocks` of them. Sets that number to how many there are, also if the
    /// room is too short.
    fn fill(&mut self, file: &[u8], blocks: &mut usize) -> Result<(), Refusal> {
        self.rows = room_for(*blocks)?;
        // SAFETY: the pointer and the length of the file are those of a slice, the rows have this room, and the numbers
        // are ours.
        check(unsafe {
            raw::zevk_open(
                file.as_ptr(),
                file.len(),
                self.rows.as_mut_ptr(),
                self.rows.capacity(),
                blocks,
                &mut self.documents,
            )
        })?;
        // SAFETY: the call filled this many rows.
        unsafe { self.rows.set_len(*blocks) };
        self.rows.shrink_to_fit();
        Ok(())
    }

    /// The rows of the lowest layer that has few of them. Only the footer and what is read of the index are checked.
    pub(crate) fn outline(file: &[u8]) -> Result<Rows, Refusal> {
        let (mut rows, mut head) = (room_for(OUTLINE)?, Head::default());
        // SAFETY: the pointer and the length of the file are those of a slice, the rows have this room, and the head is
        // ours.
        check(unsafe {
            raw::zevk_outline(
                file.as_ptr(),
                file.len(),
                rows.as_mut_ptr(),
                rows.capacity(),
                &mut head,
            )
        })?;
        // SAFETY: the call filled this many rows.
        unsafe { rows.set_len(head.rows) };
        rows.shrink_to_fit();
        Ok(Rows {
            rows,
            head,
            documents: unopened::num_docs(file)?,
        })
    }

    /// The number of documents.
    pub(crate) fn documents(&self) -> u32 {
        self.documents
    }

    /// How many rows there are.
    pub(crate) fn len(&self) -> usize {
        self.rows.len()
    }

    /// Where a document lies in a file, which may be another one than that of the rows. It lies within the file.
    pub(crate) fn place(&self, file: &[u8], doc_id: u32) -> Result<Place, Refusal> {
        if doc_id >= self.documents {
            return Err(Refusal::NoDocument);
        }
        let mut place = Place::default();
        // SAFETY: pointers and lengths are those of slices, and the place is ours.
        check_counted(unsafe {
            match self.head.height {
                0 => raw::zevk_locate(
                    file.as_ptr(),
                    file.len(),
                    self.rows.as_ptr(),
                    self.rows.len(),
                    doc_id,
                    &mut place,
                ),
                _ => raw::zevk_get_by(
                    file.as_ptr(),
                    file.len(),
                    self.rows.as_ptr(),
                    self.rows.len(),
                    &self.head,
                    doc_id,
                    &mut place,
                ),
            }
        })?;
        Ok(place)
    }

    /// Finds where documents of the store lie from `first` on, as [`Rows::place`] does, up to the first one that has an
    /// error. Returns how many it found, and that error.
    pub(crate) fn places(
        &self,
        file: &[u8],
        first: u32,
        places: &mut [Place],
    ) -> (usize, Result<(), Refusal>) {
        let mut found = 0;
        // SAFETY: pointers and lengths are those of slices, of which the places are exclusive, and the number is ours.
        let answer = unsafe {
            match self.head.height {
                0 => raw::zevk_locate_run(
                    file.as_ptr(),
                    file.len(),
                    self.rows.as_ptr(),
                    self.rows.len(),
                    first,
                    places.as_mut_ptr(),
                    places.len(),
                    &mut found,
                ),
                _ => raw::zevk_get_run(
                    file.as_ptr(),
                    file.len(),
                    first,
                    places.as_mut_ptr(),
                    places.len(),
                    &mut found,
                ),
            }
        };
        (found, check_counted(answer))
    }
}

/// Memory for this many rows.
fn room_for(count: usize) -> Result<Vec<Block>, Refusal> {
    let mut rows = Vec::new();
    match rows.try_reserve_exact(count) {
        Ok(()) => Ok(rows),
        Err(_) => Err(Refusal::NoMemory),
    }
}

/// The error of a document that the store counts: an index that lacks it is a bad one.
fn check_counted(answer: u32) -> Result<(), Refusal> {
    check(answer).map_err(|refusal| match refusal {
        Refusal::NoDocument | Refusal::OtherTable => Refusal::BadIndex,
        refusal => refusal,
    })
}
