//! Writing.

use crate::close_error::CloseError;
use crate::error::{check, Error, Refusal, NO_ROOM, OPEN_BLOCK};
use crate::raw::{self, Block};
use crate::store::Store;
use std::fmt;
use std::io::Write;

/// How a store is laid out.
///
/// ```
/// use zevkhadun::{Options, Writer};
///
/// let options = Options { block_size: 4096, ..Options::default() };
/// let writer = Writer::with_options(Vec::new(), options)?;
/// # Ok::<(), zevkhadun::Refusal>(())
/// ```
#[derive(Clone, Copy, Debug, PartialEq, Eq, Hash)]
pub struct Options {
    /// A block ends when the bytes of its documents, and eight more for each, exceed this.
    pub block_size: usize,
    /// The period of the index, from 2 to 64: how many entries a run of it has.
    pub period: u8,
}

impl Default for Options {
    /// Those of tantivy: a block size of 16384, and a period of 8.
    fn default() -> Options {
        Options {
            block_size: 16384,
            period: 8,
        }
    }
}

/// A store that is written document by document to an output. A document is a write or two, so give a file in a
/// `BufWriter`; [`FileWriter`](crate::FileWriter) writes a file that takes its name only once it is whole.
///
/// Only [`Writer::close`] makes the output a store's file; a writer that is dropped before leaves a part of one. After
/// the output failed every call returns [`Error::Failed`]. After an error of the library the writer goes on with the
/// documents that it had.
///
/// ```
/// # fn main() -> Result<(), zevkhadun::Error> {
/// use zevkhadun::{Store, Writer};
///
/// let mut writer = Writer::new(Vec::new());
/// writer.put(b"apple")?;
/// let file = writer.close()?;
///
/// let mut writer = Writer::new(Vec::new());
/// writer.stack(&Store::open(&file)?)?;
/// assert_eq!(writer.put(b"banana")?, 1);
/// assert_eq!(Store::open(writer.close()?)?.len(), 2);
/// # Ok(())
/// # }
/// ```
#[must_use = "only close makes the output a store's file"]
pub struct Writer<W: Write> {
    output: W,
    numbers: raw::Writer,
    starts: Vec<u32>,
    table: Vec<Block>,
    period: u8,
    has_failed: bool,
}

impl<W: Write> Writer<W> {
    /// A store of no documents yet, laid out as tantivy's are.
    pub fn new(output: W) -> Writer<W> {
        Writer::begun(output, Options::default())
    }

    /// A store of no documents yet.
    ///
    /// # Errors
    ///
    /// [`BadPeriod`](Refusal::BadPeriod), of a period below 2 or above 64.
    pub fn with_options(output: W, options: Options) -> Result<Writer<W>, Refusal> {
        check_options(options)?;
        Ok(Writer::begun(output, options))
    }

    /// The number of documents that were put and stacked.
    pub fn len(&self) -> usize {
        self.num_docs() as usize
    }

    /// Whether there are no documents yet.
    pub fn is_empty(&self) -> bool {
        self.num_docs() == 0
    }

    /// The output. It lacks the end of the file.
    pub fn get_ref(&self) -> &W {
        &self.output
    }

    /// The output, unfinished: nothing more is written to it.
    pub fn into_inner(self) -> W {
        self.output
    }

    /// Adds a document, and returns its number.
    ///
    /// # Errors
    ///
    /// [`Refused`](Error::Refused) with [`TooManyDocs`](Refusal::TooManyDocs) after 2^32 - 1 documents,
    /// [`BlockTooLarge`](Refusal::BlockTooLarge) if the block would have 2^32 bytes or more, or
    /// [`NoMemory`](Refusal::NoMemory); [`Io`](Error::Io), [`Failed`](Error::Failed).
    pub fn put(&mut self, document: &[u8]) -> Result<u32, Error> {
        self.check_whole()?;
        let doc_id = self.num_docs();
        let mut count = 0;
        let mut answer = self.ask_put(document.len(), &mut count);
        if answer == NO_ROOM {
            grow(&mut self.starts, self.numbers.docs + 2)?;
            grow(&mut self.table, self.numbers.blocks + 1)?;
            answer = self.ask_put(document.len(), &mut count);
        }
        check(answer)?;
        self.write(document, count)?;
        Ok(doc_id)
    }

    /// Adds all documents of a store. Its blocks are copied as they are, damaged ones too.
    ///
    /// # Errors
    ///
    /// [`Refused`](Error::Refused) with [`OldVersion`](Refusal::OldVersion), [`TooManyDocs`](Refusal::TooManyDocs) or
    /// [`NoMemory`](Refusal::NoMemory); [`Io`](Error::Io), [`Failed`](Error::Failed).
    pub fn stack<D: AsRef<[u8]>>(&mut self, store: &Store<D>) -> Result<(), Error> {
        self.check_whole()?;
        let file = store.file();
        let (mut count, mut len) = (0, 0);
        loop {
            match self.ask_stack(file, &mut count, &mut len) {
                OPEN_BLOCK => self.end_block()?,
                NO_ROOM => grow(&mut self.table, self.numbers.blocks + count)?,
                answer => {
                    check(answer)?;
                    return self.write(&file[..len], 0);
                }
            }
        }
    }

    /// Ends the store, flushes the output and returns it, now a store's file.
    ///
    /// # Errors
    ///
    /// [`Refused`](Error::Refused) with [`NoMemory`](Refusal::NoMemory); [`Io`](Error::Io), [`Failed`](Error::Failed).
    /// Each comes with the writer and its output; after `NoMemory` it may be closed again.
    pub fn close(mut self) -> Result<W, CloseError<W>> {
        match self.finish() {
            Ok(()) => Ok(self.output),
            Err(error) => Err(CloseError::new(error, self)),
        }
    }

    fn begun(output: W, options: Options) -> Writer<W> {
        let mut numbers = raw::Writer::default();
        // SAFETY: the numbers are ours.
        unsafe { raw::zevk_writer_begin(&mut numbers, options.block_size) };
        Writer {
            output,
            numbers,
            starts: Vec::new(),
            table: Vec::new(),
            period: options.period,
            has_failed: false,
        }
    }

    fn num_docs(&self) -> u32 {
        let ended = match self.numbers.blocks {
            0 => 0,
            blocks => self.table[blocks - 1].end_doc,
        };
        // The library puts 2^32 - 1 documents at most.
        ended + self.numbers.docs as u32
    }

    /// Writes what comes after the documents.
    fn finish(&mut self) -> Result<(), Error> {
        self.check_whole()?;
        self.end_block()?;
        let mut len = 0;
        let answer = self.ask_close(&mut [], &mut len);
        if answer != NO_ROOM {
            check(answer)?;
        }
        let mut end = Vec::new();
        grow(&mut end, len)?;
        check(self.ask_close(&mut end, &mut len))?;
        self.write(&end[..len], 0)?;
        self.has_failed = true;
        self.output.flush()?;
        Ok(())
    }

    fn check_whole(&self) -> Result<(), Error> {
        if self.has_failed {
            return Err(Error::Failed);
        }
        Ok(())
    }

    /// Writes bytes, and after them the first starts. An output that fails or panics has failed for good.
    fn write(&mut self, bytes: &[u8], count: usize) -> Result<(), Error> {
        self.has_failed = true;
        self.output.write_all(bytes)?;
        if count > 0 {
            let starts = self.starts[..count].iter();
            let starts: Vec<u8> = starts.flat_map(|start| start.to_le_bytes()).collect();
            self.output.write_all(&starts)?;
        }
        self.has_failed = false;
        Ok(())
    }

    fn end_block(&mut self) -> Result<(), Error> {
        let mut count = 0;
        // SAFETY: pointers and lengths are those of vectors of ours, and the numbers are ours.
        check(unsafe {
            raw::zevk_writer_end_block(
                &mut self.numbers,
                self.starts.as_mut_ptr(),
                self.starts.len(),
                self.table.as_mut_ptr(),
                self.table.len(),
                &mut count,
            )
        })?;
        self.write(&[], count)
    }

    fn ask_put(&mut self, len: usize, count: &mut usize) -> u32 {
        // SAFETY: pointers and lengths are those of vectors of ours, and the numbers are ours.
        unsafe {
            raw::zevk_writer_put(
                &mut self.numbers,
                self.starts.as_mut_ptr(),
                self.starts.len(),
                self.table.as_mut_ptr(),
                self.table.len(),
                len,
                count,
            )
        }
    }

    fn ask_stack(&mut self, file: &[u8], count: &mut usize, len: &mut usize) -> u32 {
        // SAFETY: pointers and lengths are those of a slice and of a vector of ours, and the numbers are ours.
        unsafe {
            raw::zevk_writer_stack(
                &mut self.numbers,
                self.table.as_mut_ptr(),
                self.table.len(),
                file.as_ptr(),
                file.len(),
                count,
                len,
            )
        }
    }

    fn ask_close(&self, end: &mut [u8], len: &mut usize) -> u32 {
        // SAFETY: pointers and lengths are those of a slice and of a vector of ours, and the numbers are ours.
        unsafe {
            raw::zevk_writer_close(
                &self.numbers,
                self.table.as_ptr(),
                self.table.len(),
                self.period,
                end.as_mut_ptr(),
                end.len(),
                len,
            )
        }
    }
}

impl<W: Write> fmt::Debug for Writer<W> {
    fn fmt(&self, f: &mut fmt::Formatter<'_>) -> fmt::Result {
        f.debug_struct("Writer")
            .field("documents", &self.num_docs())
            .field("has_failed", &self.has_failed)
            .finish_non_exhaustive()
    }
}

/// Whether a store may be laid out so.
pub(crate) fn check_options(options: Options) -> Result<(), Refusal> {
    if (2..=64).contains(&options.period) {
        return Ok(());
    }
    Err(Refusal::BadPeriod)
}

/// Makes room for as many items, and for twice as many as there were.
fn grow<T: Clone + Default>(items: &mut Vec<T>, needed: usize) -> Result<(), Refusal> {
    if needed > items.len() {
        let wanted = needed.max(2 * items.len());
        items
            .try_reserve_exact(wanted - items.len())
            .map_err(|_| Refusal::NoMemory)?;
        items.resize(wanted, T::default());
    }
    Ok(())
}
