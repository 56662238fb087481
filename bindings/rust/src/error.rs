//! Errors.

use std::path::PathBuf;
use std::{error, fmt, io};

// `tools/refusals.py` writes the lists of this type from `bindings/refusals.txt`.
/// An error of the library. The numbers up to 16 are the store's own in every language.
///
/// ```
/// let refusal = zevkhadun::Store::open(b"too short").unwrap_err();
/// assert_eq!(refusal, zevkhadun::Refusal::ShortFile);
/// assert_eq!(refusal.number(), 1);
/// assert_eq!(refusal.to_string(), "the file is shorter than a footer");
/// ```
#[derive(Clone, Copy, Debug, PartialEq, Eq, Hash)]
#[non_exhaustive]
pub enum Refusal {
    /// The file is shorter than a footer.
    ShortFile,
    /// The footer has an unknown version.
    BadVersion,
    /// The blocks are compressed.
    BadBlockKind,
    /// The index would begin after the footer's first byte.
    BadOffset,
    /// The index is not one of blocks that cover the data.
    BadIndex,
    /// The store has no document of this number.
    NoDocument,
    /// The block's table doesn't say where the document is.
    DamagedDocument,
    /// Out of memory.
    NoMemory,
    /// A store of version 1 can't be stacked.
    OldVersion,
    /// A block would have 2^32 bytes or more.
    BlockTooLarge,
    /// There would be 2^32 documents or more.
    TooManyDocs,
    /// The period is below 2 or above 64.
    BadPeriod,
    /// An array of the caller is too short.
    NoRoom,
    /// The table is not the one of the file.
    OtherTable,
    /// The open block has documents; end it first.
    OpenBlock,
    /// The writer or its table is not as these calls left it.
    OtherWriter,
    /// The end of the file lacks the footer or a part of the index.
    TailTooShort,
    /// The block doesn't have the document, or has another length.
    OtherBlock,
    /// A number that this crate doesn't know.
    Other(u32),
}

impl Refusal {
    fn of(number: u32) -> Refusal {
        match number {
            1 => Refusal::ShortFile,
            2 => Refusal::BadVersion,
            3 => Refusal::BadBlockKind,
            4 => Refusal::BadOffset,
            5 => Refusal::BadIndex,
            6 => Refusal::NoDocument,
            7 => Refusal::DamagedDocument,
            10 => Refusal::NoMemory,
            11 => Refusal::OldVersion,
            13 => Refusal::BlockTooLarge,
            14 => Refusal::TooManyDocs,
            16 => Refusal::BadPeriod,
            32 => Refusal::NoRoom,
            33 => Refusal::OtherTable,
            34 => Refusal::OpenBlock,
            35 => Refusal::OtherWriter,
            36 => Refusal::TailTooShort,
            37 => Refusal::OtherBlock,
            other => Refusal::Other(other),
        }
    }

    /// The number of the error, the same in every language.
    pub const fn number(self) -> u32 {
        match self {
            Refusal::ShortFile => 1,
            Refusal::BadVersion => 2,
            Refusal::BadBlockKind => 3,
            Refusal::BadOffset => 4,
            Refusal::BadIndex => 5,
            Refusal::NoDocument => 6,
            Refusal::DamagedDocument => 7,
            Refusal::NoMemory => 10,
            Refusal::OldVersion => 11,
            Refusal::BlockTooLarge => 13,
            Refusal::TooManyDocs => 14,
            Refusal::BadPeriod => 16,
            Refusal::NoRoom => 32,
            Refusal::OtherTable => 33,
            Refusal::OpenBlock => 34,
            Refusal::OtherWriter => 35,
            Refusal::TailTooShort => 36,
            Refusal::OtherBlock => 37,
            Refusal::Other(number) => number,
        }
    }

    fn text(self) -> &'static str {
        match self {
            Refusal::ShortFile => "the file is shorter than a footer",
            Refusal::BadVersion => "the footer has an unknown version",
            Refusal::BadBlockKind => "the blocks are compressed",
            Refusal::BadOffset => "the index would begin after the footer's first byte",
            Refusal::BadIndex => "the index is not one of blocks that cover the data",
            Refusal::NoDocument => "the store has no document of this number",
            Refusal::DamagedDocument => "the block's table doesn't say where the document is",
            Refusal::NoMemory => "out of memory",
            Refusal::OldVersion => "a store of version 1 can't be stacked",
            Refusal::BlockTooLarge => "a block would have 2^32 bytes or more",
            Refusal::TooManyDocs => "there would be 2^32 documents or more",
            Refusal::BadPeriod => "the period is below 2 or above 64",
            Refusal::NoRoom => "an array of the caller is too short",
            Refusal::OtherTable => "the table is not the one of the file",
            Refusal::OpenBlock => "the open block has documents; end it first",
            Refusal::OtherWriter => "the writer or its table is not as these calls left it",
            Refusal::TailTooShort => "the end of the file lacks the footer or a part of the index",
            Refusal::OtherBlock => "the block doesn't have the document, or has another length",
            Refusal::Other(_) => "refused",
        }
    }
}

impl fmt::Display for Refusal {
    fn fmt(&self, f: &mut fmt::Formatter<'_>) -> fmt::Result {
        f.write_str(self.text())
    }
}

impl error::Error for Refusal {}

/// An error of a writer.
///
/// ```no_run
/// # fn main() -> Result<(), zevkhadun::Error> {
/// use zevkhadun::{Error, FileWriter};
///
/// let mut writer = match FileWriter::create("fruits.store") {
///     Err(Error::Busy { path }) => return Ok(println!("{} is being written", path.display())),
///     begun => begun?,
/// };
/// writer.put(b"apple")?;
/// writer.publish()
/// # }
/// ```
#[derive(Debug)]
#[non_exhaustive]
pub enum Error {
    /// An error of the library. The writer has the documents that it had, and goes on.
    Refused(Refusal),
    /// The output of a [`Writer`](crate::Writer) failed. The writer takes no more.
    Io(io::Error),
    /// A call of the system failed for this file or folder. The writer takes no more.
    File {
        /// The path of the file or folder.
        path: PathBuf,
        /// What the system said.
        source: io::Error,
    },
    /// The output failed before, so its content is unknown.
    Failed,
    /// Another writer writes to the file of this name.
    Busy {
        /// The path of the file beside.
        path: PathBuf,
    },
    /// The name is that of a folder, a device or another thing that is no plain file.
    NotPlainFile {
        /// Its path.
        path: PathBuf,
    },
}

impl fmt::Display for Error {
    fn fmt(&self, f: &mut fmt::Formatter<'_>) -> fmt::Result {
        match self {
            Error::Refused(refusal) => refusal.fmt(f),
            Error::Io(error) => error.fmt(f),
            Error::File { path, source } => write!(f, "{}: {source}", path.display()),
            Error::Failed => f.write_str("the writer's output failed before"),
            Error::Busy { path } => write!(f, "{} is being written by another", path.display()),
            Error::NotPlainFile { path } => write!(f, "{} is not a plain file", path.display()),
        }
    }
}

impl error::Error for Error {
    fn source(&self) -> Option<&(dyn error::Error + 'static)> {
        match self {
            Error::Refused(refusal) => Some(refusal),
            Error::Io(source) | Error::File { source, .. } => Some(source),
            _ => None,
        }
    }
}

impl From<Refusal> for Error {
    fn from(refusal: Refusal) -> Error {
        Error::Refused(refusal)
    }
}

impl From<io::Error> for Error {
    fn from(error: io::Error) -> Error {
        Error::Io(error)
    }
}

/// What the library returns for an array that is too short.
pub(crate) const NO_ROOM: u32 = Refusal::NoRoom.number();

/// What it returns if the open block has to be ended first.
pub(crate) const OPEN_BLOCK: u32 = Refusal::OpenBlock.number();

/// What it returns if the end of a file lacks a part of the index.
pub(crate) const TAIL_TOO_SHORT: u32 = Refusal::TailTooShort.number();

/// The error of a number that the library returned, if it is one.
pub(crate) fn check(answer: u32) -> Result<(), Refusal> {
    match answer {
        0 => Ok(()),
        number => Err(Refusal::of(number)),
    }
}
