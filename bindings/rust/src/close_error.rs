//! The error of a writer that could not be closed.

use crate::error::Error;
use crate::writer::Writer;
use std::io::Write;
use std::{error, fmt};

/// The error of [`Writer::close`], with the writer. By `?` it becomes an [`Error`], and the writer is dropped.
///
/// ```
/// use std::fs::OpenOptions;
/// use zevkhadun::{Error, Writer};
///
/// let output = OpenOptions::new().write(true).open("/dev/full")?;
/// let refused = Writer::new(output).close().unwrap_err();
/// assert!(matches!(refused.error(), Error::Io(_)));
/// let output = refused.into_output();
/// # drop(output);
/// # Ok::<(), std::io::Error>(())
/// ```
pub struct CloseError<W: Write> {
    error: Error,
    writer: Writer<W>,
}

impl<W: Write> CloseError<W> {
    pub(crate) fn new(error: Error, writer: Writer<W>) -> CloseError<W> {
        CloseError { error, writer }
    }

    /// Why the writer could not be closed.
    pub fn error(&self) -> &Error {
        &self.error
    }

    /// The error alone.
    pub fn into_error(self) -> Error {
        self.error
    }

    /// The output, unfinished.
    pub fn into_output(self) -> W {
        self.writer.into_inner()
    }

    /// The error and the writer.
    pub fn into_parts(self) -> (Error, Writer<W>) {
        (self.error, self.writer)
    }
}

impl<W: Write> fmt::Debug for CloseError<W> {
    fn fmt(&self, f: &mut fmt::Formatter<'_>) -> fmt::Result {
        f.debug_tuple("CloseError").field(&self.error).finish()
    }
}

impl<W: Write> fmt::Display for CloseError<W> {
    fn fmt(&self, f: &mut fmt::Formatter<'_>) -> fmt::Result {
        self.error.fmt(f)
    }
}

impl<W: Write> error::Error for CloseError<W> {
    fn source(&self) -> Option<&(dyn error::Error + 'static)> {
        self.error.source()
    }
}

impl<W: Write> From<CloseError<W>> for Error {
    fn from(refused: CloseError<W>) -> Error {
        refused.error
    }
}
