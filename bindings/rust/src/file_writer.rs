//! Writing a file that takes its name only once it is whole.

use crate::error::Error;
use crate::part::Part;
use crate::store::Store;
use crate::writer::{check_options, Options, Writer};
use std::fmt;
use std::path::Path;

/// A store that is written to a file on disk, which takes its name only once it is whole.
///
/// The bytes go to a second file beside, whose name ends in `.part`. [`FileWriter::publish`] asks the system to keep
/// them, and then renames that file: so the name always has what it had, a file or none, or the whole new file, also
/// after a crash. A writer that is dropped or [discarded](FileWriter::discard) removes the second file.
///
/// [`FileWriter::create`] replaces no file, and [`FileWriter::replace`] does. Links are followed, and only a plain file
/// is replaced; its mode is kept, and its owner where the system allows it. The second file is private until then. Two
/// writers of one name exclude each other, those in Python and the program `zevkhadun` too. What a crash left beside is
/// taken over.
///
/// After a call of the system failed every call returns [`Error::Failed`].
///
/// ```
/// # let folder = std::env::temp_dir().join(format!("zevkhadun-doc-{}", std::process::id()));
/// # std::fs::create_dir_all(&folder)?;
/// # let path = folder.join("fruits.store");
/// use zevkhadun::{FileWriter, Store};
///
/// let mut writer = FileWriter::create(&path)?;
/// writer.put(b"apple")?;
/// writer.put(b"banana")?;
/// writer.publish()?;
///
/// let store = Store::open(std::fs::read(&path)?)?;
/// assert_eq!(store.get(1)?, b"banana");
/// # std::fs::remove_dir_all(&folder)?;
/// # Ok::<(), Box<dyn std::error::Error>>(())
/// ```
#[must_use = "only publish gives the file its name"]
pub struct FileWriter {
    writer: Writer<Part>,
}

impl FileWriter {
    /// Begins a store of no documents, laid out as tantivy's are, for a new file of this name.
    ///
    /// # Errors
    ///
    /// [`File`](Error::File), whose source is of the kind [`AlreadyExists`](std::io::ErrorKind::AlreadyExists) if a
    /// file has the name; [`Busy`](Error::Busy), [`NotPlainFile`](Error::NotPlainFile). Nothing was changed then.
    pub fn create(path: impl AsRef<Path>) -> Result<FileWriter, Error> {
        FileWriter::create_with(path, Options::default())
    }

    /// Begins a store of no documents for a new file of this name.
    ///
    /// # Errors
    ///
    /// Those of [`FileWriter::create`]; [`Refused`](Error::Refused) with [`BadPeriod`](crate::Refusal::BadPeriod).
    pub fn create_with(path: impl AsRef<Path>, options: Options) -> Result<FileWriter, Error> {
        FileWriter::begin(path.as_ref(), options, false)
    }

    /// Begins a store of no documents, laid out as tantivy's are, which will replace the file of this name if there is
    /// one.
    ///
    /// ```
    /// # let folder = std::env::temp_dir().join(format!("zevkhadun-replace-{}", std::process::id()));
    /// # std::fs::create_dir_all(&folder)?;
    /// # let path = folder.join("fruits.store");
    /// use std::io::ErrorKind;
    /// use zevkhadun::{Error, FileWriter};
    ///
    /// FileWriter::create(&path)?.publish()?;
    /// match FileWriter::create(&path) {
    ///     Err(Error::File { source, .. }) => assert_eq!(source.kind(), ErrorKind::AlreadyExists),
    ///     other => panic!("{other:?}"),
    /// }
    /// FileWriter::replace(&path)?.publish()?;
    /// # std::fs::remove_dir_all(&folder)?;
    /// # Ok::<(), Box<dyn std::error::Error>>(())
    /// ```
    ///
    /// # Errors
    ///
    /// [`Busy`](Error::Busy), [`NotPlainFile`](Error::NotPlainFile), [`File`](Error::File). Nothing was changed then.
    pub fn replace(path: impl AsRef<Path>) -> Result<FileWriter, Error> {
        FileWriter::replace_with(path, Options::default())
    }

    /// Begins a store of no documents which will replace the file of this name if there is one.
    ///
    /// # Errors
    ///
    /// Those of [`FileWriter::replace`]; [`Refused`](Error::Refused) with [`BadPeriod`](crate::Refusal::BadPeriod).
    pub fn replace_with(path: impl AsRef<Path>, options: Options) -> Result<FileWriter, Error> {
        FileWriter::begin(path.as_ref(), options, true)
    }

    fn begin(path: &Path, options: Options, replaces: bool) -> Result<FileWriter, Error> {
        check_options(options)?;
        let part = Part::create(path, replaces)?;
        let writer = Writer::with_options(part, options)?;
        Ok(FileWriter { writer })
    }

    /// The number of documents that were put and stacked.
    pub fn len(&self) -> usize {
        self.writer.len()
    }

    /// Whether there are no documents yet.
    pub fn is_empty(&self) -> bool {
        self.writer.is_empty()
    }

    /// The whole path of the file that is written: where links lead.
    pub fn path(&self) -> &Path {
        self.writer.get_ref().path()
    }

    /// Adds a document, and returns its number.
    ///
    /// # Errors
    ///
    /// Those of [`Writer::put`], with [`File`](Error::File) in place of `Io`.
    pub fn put(&mut self, document: &[u8]) -> Result<u32, Error> {
        self.writer
            .put(document)
            .map_err(|error| self.with_path(error))
    }

    /// Adds all documents of a store. Its blocks are copied as they are, damaged ones too.
    ///
    /// # Errors
    ///
    /// Those of [`Writer::stack`], with [`File`](Error::File) in place of `Io`.
    pub fn stack<D: AsRef<[u8]>>(&mut self, store: &Store<D>) -> Result<(), Error> {
        self.writer
            .stack(store)
            .map_err(|error| self.with_path(error))
    }

    /// Ends the store, asks the system to keep its bytes, gives the file its name, and asks the system to keep that.
    ///
    /// # Errors
    ///
    /// [`File`](Error::File), [`Failed`](Error::Failed), and [`Refused`](Error::Refused) with
    /// [`NoMemory`](crate::Refusal::NoMemory). The old file is still there and the second one is removed. A writer that
    /// replaces no file fails here too if a file got the name meanwhile; a file system that can't rename without
    /// replacing may replace one that comes just before the rename. If the last step alone fails, the sync of the
    /// folder, the new file is there, and a crash may bring the old one back.
    pub fn publish(self) -> Result<(), Error> {
        match self.writer.close() {
            Ok(part) => part.publish(),
            Err(refused) => {
                let (error, writer) = refused.into_parts();
                Err(FileWriter { writer }.with_path(error))
            }
        }
    }

    /// Removes the second file. The file of the name stays as it was. Dropping the writer does the same.
    pub fn discard(self) {}

    /// Gives an error of the output its path.
    fn with_path(&self, error: Error) -> Error {
        match error {
            Error::Io(source) => self.writer.get_ref().failed(source),
            other => other,
        }
    }
}

impl fmt::Debug for FileWriter {
    fn fmt(&self, f: &mut fmt::Formatter<'_>) -> fmt::Result {
        f.debug_struct("FileWriter")
            .field("path", &self.path())
            .field("writer", &self.writer)
            .finish()
    }
}
