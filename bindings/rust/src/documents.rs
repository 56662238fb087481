//! Iterators.

use crate::error::Refusal;
use crate::raw::Place;
use crate::rows::Rows;
use std::fmt;
use std::iter::FusedIterator;

/// How many places an iterator asks the library for at once.
const RUN: usize = 64;

/// The documents of a store in order, each damaged one as its error: made by [`Store::iter`](crate::Store::iter) and
/// [`Store::range`](crate::Store::range).
///
/// The iterator goes on after an error. [`Documents::sound`] leaves damaged documents out. Steps from the back, as
/// `rev` takes them, look each document up by itself, and are slower than those from the front.
///
/// ```
/// # let mut writer = zevkhadun::Writer::new(Vec::new());
/// # for fruit in ["apple", "banana", "cherry"] {
/// #     writer.put(fruit.as_bytes())?;
/// # }
/// # let store = zevkhadun::Store::open(writer.close()?)?;
/// assert_eq!(store.iter().len(), 3);
/// for (id, document) in store.iter().enumerate().rev() {
///     println!("{id}: {:?}", document?);
/// }
/// # Ok::<(), Box<dyn std::error::Error>>(())
/// ```
#[derive(Clone)]
#[must_use = "iterators are lazy"]
pub struct Documents<'s> {
    file: &'s [u8],
    rows: &'s Rows,
    next: u32,
    end: u32,
    places: [Place; RUN],
    /// The places from `at` up to `found` are those of the documents from `next` on.
    at: usize,
    found: usize,
}

impl<'s> Documents<'s> {
    pub(crate) fn new(file: &'s [u8], rows: &'s Rows, next: u32, end: u32) -> Documents<'s> {
        Documents {
            file,
            rows,
            next,
            end,
            places: [Place::default(); RUN],
            at: 0,
            found: 0,
        }
    }

    /// The documents that aren't damaged, each with its number. Each one that is an error is left out: of a store that
    /// was opened without the check also those that a damaged index doesn't lead to.
    ///
    /// ```
    /// # let mut writer = zevkhadun::Writer::new(Vec::new());
    /// # for fruit in ["apple", "banana", "cherry"] {
    /// #     writer.put(fruit.as_bytes())?;
    /// # }
    /// # let mut file = writer.close()?;
    /// file[21..25].fill(0xff); // where the second document begins
    /// let store = zevkhadun::Store::open(&file)?;
    /// let sound: Vec<(u32, &[u8])> = store.iter().sound().collect();
    /// assert_eq!(sound, [(2, b"cherry".as_slice())]);
    /// # Ok::<(), Box<dyn std::error::Error>>(())
    /// ```
    pub fn sound(self) -> SoundDocuments<'s> {
        SoundDocuments { documents: self }
    }

    /// Asks for the next places. An error is that of the next document.
    fn refill(&mut self) -> Result<(), Refusal> {
        let wanted = RUN.min(self.len());
        let places = &mut self.places[..wanted];
        let (found, end) = self.rows.places(self.file, self.next, places);
        (self.at, self.found) = (0, found);
        match found {
            0 => end,
            _ => Ok(()),
        }
    }
}

impl<'s> Iterator for Documents<'s> {
    type Item = Result<&'s [u8], Refusal>;

    fn next(&mut self) -> Option<Self::Item> {
        if self.next == self.end {
            return None;
        }
        let refilled = if self.at == self.found {
            self.refill()
        } else {
            Ok(())
        };
        self.next += 1;
        if let Err(refusal) = refilled {
            return Some(Err(refusal));
        }
        self.at += 1;
        Some(Ok(self.places[self.at - 1].of(self.file)))
    }

    fn size_hint(&self) -> (usize, Option<usize>) {
        let left = (self.end - self.next) as usize;
        (left, Some(left))
    }

    fn count(self) -> usize {
        self.len()
    }

    fn last(mut self) -> Option<Self::Item> {
        self.next_back()
    }

    fn nth(&mut self, n: usize) -> Option<Self::Item> {
        let skipped = n.min(self.len());
        self.next += skipped as u32;
        self.at = self.at.saturating_add(skipped).min(self.found);
        self.next()
    }
}

impl DoubleEndedIterator for Documents<'_> {
    fn next_back(&mut self) -> Option<Self::Item> {
        if self.next == self.end {
            return None;
        }
        self.end -= 1;
        let place = self.rows.place(self.file, self.end);
        Some(place.map(|place| place.of(self.file)))
    }

    fn nth_back(&mut self, n: usize) -> Option<Self::Item> {
        self.end -= n.min(self.len()) as u32;
        self.next_back()
    }
}

impl ExactSizeIterator for Documents<'_> {}

impl FusedIterator for Documents<'_> {}

impl fmt::Debug for Documents<'_> {
    fn fmt(&self, f: &mut fmt::Formatter<'_>) -> fmt::Result {
        f.debug_tuple("Documents")
            .field(&(self.next..self.end))
            .finish()
    }
}

/// The documents of a store that aren't damaged, in order, each with its number: made by [`Documents::sound`].
///
/// ```
/// # let mut writer = zevkhadun::Writer::new(Vec::new());
/// # for fruit in ["apple", "banana", "cherry"] {
/// #     writer.put(fruit.as_bytes())?;
/// # }
/// # let store = zevkhadun::Store::open(writer.close()?)?;
/// assert_eq!(store.iter().sound().last(), Some((2, b"cherry".as_slice())));
/// # Ok::<(), Box<dyn std::error::Error>>(())
/// ```
#[derive(Clone, Debug)]
#[must_use = "iterators are lazy"]
pub struct SoundDocuments<'s> {
    documents: Documents<'s>,
}

impl<'s> Iterator for SoundDocuments<'s> {
    type Item = (u32, &'s [u8]);

    fn next(&mut self) -> Option<Self::Item> {
        loop {
            let doc_id = self.documents.next;
            if let Ok(document) = self.documents.next()? {
                return Some((doc_id, document));
            }
        }
    }

    fn size_hint(&self) -> (usize, Option<usize>) {
        (0, Some(self.documents.len()))
    }
}

impl DoubleEndedIterator for SoundDocuments<'_> {
    fn next_back(&mut self) -> Option<Self::Item> {
        loop {
            let item = self.documents.next_back()?;
            if let Ok(document) = item {
                return Some((self.documents.end, document));
            }
        }
    }
}

impl FusedIterator for SoundDocuments<'_> {}
