//! Reading.

use crate::documents::Documents;
use crate::error::Refusal;
use crate::facts::Facts;
use crate::rows::Rows;
use crate::unopened::{self, Fault};
use std::fmt;
use std::ops::{Bound, Range, RangeBounds};

/// An open store: the bytes of its file, and a table of 16 bytes for each block, or an outline of at most 16 KiB.
///
/// The bytes are borrowed (`Store<&[u8]>`), owned (`Store<Vec<u8>>`), shared (`Store<Arc<[u8]>>`) or mapped: `D` is any
/// type that gives them. No call changes a store, so threads may share it.
///
/// `D` should give the same bytes at every call. If it gives others, the calls stay safe, and return an error or some
/// of these bytes.
///
/// ```
/// # let mut writer = zevkhadun::Writer::new(Vec::new());
/// # for fruit in ["apple", "banana", "cherry"] {
/// #     writer.put(fruit.as_bytes())?;
/// # }
/// # let file = writer.close()?;
/// use zevkhadun::{Refusal, Store};
///
/// struct Segment {
///     path: String,
///     store: Store<Vec<u8>>,
/// }
///
/// let segment = Segment { path: "fruits.store".to_owned(), store: Store::open(file)? };
/// assert_eq!(segment.store.len(), 3);
/// assert_eq!(segment.store.get(2)?, b"cherry");
/// assert_eq!(segment.store.get(3), Err(Refusal::NoDocument));
/// # Ok::<(), Box<dyn std::error::Error>>(())
/// ```
#[derive(Clone)]
pub struct Store<D> {
    file: D,
    rows: Rows,
    facts: Facts,
}

impl<D: AsRef<[u8]>> Store<D> {
    /// Opens the store whose file these bytes are. It checks the footer and the whole index, in time proportional to
    /// the size of the index.
    ///
    /// # Errors
    ///
    /// Those of a file, as for [`get`](crate::get()); [`NoMemory`](Refusal::NoMemory).
    pub fn open(file: D) -> Result<Store<D>, Refusal> {
        let bytes = file.as_ref();
        let rows = Rows::table(bytes)?;
        let facts = Facts::of(bytes, rows.documents(), Some(rows.len()))?;
        Ok(Store { file, rows, facts })
    }

    /// Opens the store whose file these bytes are without the check of [`Store::open`]. It takes the same short time
    /// for each size of file: it checks the footer, and the few parts of the index that it reads.
    ///
    /// A get takes longer than after `open`, since it reads a part of the index, and checks that part. So a damaged
    /// file may be opened, and then have another number of documents, and a get may return other bytes of the file or
    /// [`BadIndex`](Refusal::BadIndex). [`Store::verify`] checks the whole file at any time. For a single get
    /// [`zevkhadun::get`](crate::get()) is quicker.
    ///
    /// # Errors
    ///
    /// Those of a file, as for [`get`](crate::get()); [`NoMemory`](Refusal::NoMemory).
    ///
    /// ```
    /// # let mut writer = zevkhadun::Writer::new(Vec::new());
    /// # writer.put(b"apple")?;
    /// # let file = writer.close()?;
    /// let store = zevkhadun::Store::open_without_check(&file)?;
    /// assert_eq!(store.get(0)?, b"apple");
    /// assert_eq!(store.facts().blocks, None);
    /// # Ok::<(), Box<dyn std::error::Error>>(())
    /// ```
    pub fn open_without_check(file: D) -> Result<Store<D>, Refusal> {
        let bytes = file.as_ref();
        let rows = Rows::outline(bytes)?;
        let facts = Facts::of(bytes, rows.documents(), None)?;
        Ok(Store { file, rows, facts })
    }

    /// The number of documents.
    pub fn len(&self) -> usize {
        self.facts.documents as usize
    }

    /// Whether there are no documents.
    pub fn is_empty(&self) -> bool {
        self.facts.documents == 0
    }

    /// The bytes of a document. Nothing is copied.
    ///
    /// # Errors
    ///
    /// [`NoDocument`](Refusal::NoDocument), if the store has no document of this number;
    /// [`DamagedDocument`](Refusal::DamagedDocument); if it was opened without the check, also
    /// [`BadIndex`](Refusal::BadIndex).
    pub fn get(&self, doc_id: u32) -> Result<&[u8], Refusal> {
        let file = self.file();
        Ok(self.rows.place(file, doc_id)?.of(file))
    }

    /// Where a document lies in the file, in bytes: it is that range of [`Store::file`]. With it a document can be
    /// borrowed longer than its store.
    ///
    /// # Errors
    ///
    /// Those of [`Store::get`].
    ///
    /// ```
    /// # let mut writer = zevkhadun::Writer::new(Vec::new());
    /// # writer.put(b"apple")?;
    /// # let file = writer.close()?;
    /// let place = zevkhadun::Store::open(&file)?.locate(0)?;
    /// assert_eq!(&file[place], b"apple");
    /// # Ok::<(), Box<dyn std::error::Error>>(())
    /// ```
    pub fn locate(&self, doc_id: u32) -> Result<Range<usize>, Refusal> {
        let place = self.rows.place(self.file(), doc_id)?;
        Ok(place.start..place.start + place.len)
    }

    /// All documents in order, each damaged one as its error.
    pub fn iter(&self) -> Documents<'_> {
        self.range(..)
    }

    /// The documents whose numbers lie in a range, in order. Numbers past its end are ignored.
    ///
    /// ```
    /// # let mut writer = zevkhadun::Writer::new(Vec::new());
    /// # for fruit in ["apple", "banana", "cherry"] {
    /// #     writer.put(fruit.as_bytes())?;
    /// # }
    /// # let store = zevkhadun::Store::open(writer.close()?)?;
    /// let page: Vec<&[u8]> = store.range(1..11).collect::<Result<_, _>>()?;
    /// assert_eq!(page, [b"banana", b"cherry"]);
    /// # Ok::<(), Box<dyn std::error::Error>>(())
    /// ```
    pub fn range(&self, doc_ids: impl RangeBounds<u32>) -> Documents<'_> {
        let Range { start, end } = numbers_in(doc_ids, self.facts.documents);
        Documents::new(self.file(), &self.rows, start, end)
    }

    /// Checks the whole file, each block too, as [`verify`](crate::verify) does.
    ///
    /// # Errors
    ///
    /// The first [`Fault`] of the file.
    pub fn verify(&self) -> Result<(), Fault> {
        unopened::verify(self.file())
    }

    /// The bytes of the file.
    pub fn file(&self) -> &[u8] {
        self.file.as_ref()
    }
}

impl<D> Store<D> {
    /// Counts and sizes of the store, as it was opened.
    pub fn facts(&self) -> Facts {
        self.facts
    }

    /// The value that the store was opened with.
    pub fn get_ref(&self) -> &D {
        &self.file
    }

    /// The value that the store was opened with, without the store.
    pub fn into_inner(self) -> D {
        self.file
    }
}

impl<D> fmt::Debug for Store<D> {
    fn fmt(&self, f: &mut fmt::Formatter<'_>) -> fmt::Result {
        f.debug_struct("Store")
            .field("facts", &self.facts)
            .finish_non_exhaustive()
    }
}

impl<'s, D: AsRef<[u8]>> IntoIterator for &'s Store<D> {
    type Item = Result<&'s [u8], Refusal>;
    type IntoIter = Documents<'s>;

    fn into_iter(self) -> Documents<'s> {
        self.iter()
    }
}

/// Which of this many documents have numbers in a range.
pub(crate) fn numbers_in(doc_ids: impl RangeBounds<u32>, count: u32) -> Range<u32> {
    let count = u64::from(count);
    let start = match doc_ids.start_bound() {
        Bound::Included(&first) => u64::from(first),
        Bound::Excluded(&before) => u64::from(before) + 1,
        Bound::Unbounded => 0,
    };
    let end = match doc_ids.end_bound() {
        Bound::Included(&last) => u64::from(last) + 1,
        Bound::Excluded(&end) => u64::from(end),
        Bound::Unbounded => count,
    };
    let end = end.min(count);
    // Both are at most the count, which is a u32.
    start.min(end) as u32..end as u32
}
