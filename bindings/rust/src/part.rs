//! The file beside, to which a store is written until it is whole.

use crate::error::Error;
use crate::renaming::{rename_new, taken};
use std::fs::{self, File, Metadata, OpenOptions, Permissions, TryLockError};
use std::io::{self, Write};
use std::os::fd::AsRawFd;
use std::os::unix::fs::{fchown, MetadataExt, OpenOptionsExt, PermissionsExt};
use std::path::{Path, PathBuf};

/// How many bytes are gathered before they go to the system.
const BUFFER_SIZE: usize = 1 << 16;

/// The flags `O_NOFOLLOW`, `O_NONBLOCK` and `O_NOCTTY` of Linux on x86-64, the target that `build.rs` asks for: a link
/// is not opened, and a pipe not waited for.
const FLAGS: i32 = 0o400_000 | 0o4000 | 0o400;

/// The error `ENXIO` of Linux, of a pipe that nobody reads and of a socket.
const ENXIO: i32 = 6;

/// The file beside: locked, and removed when it is dropped, unless it was published. It does what `DiskSink` of the
/// crate `store_files` does, by the same names and locks, so that writers of both kinds exclude one another.
pub(crate) struct Part {
    /// The file that is replaced, where links lead.
    path: PathBuf,
    beside: PathBuf,
    folder: File,
    file: File,
    buffer: Vec<u8>,
    is_beside: bool,
    /// Whether it may take the name from another file.
    replaces: bool,
}

impl Part {
    /// Begins the file beside: locked, empty, and with the access that the replaced file has. What a crash left there
    /// is taken over. After an error nothing is changed. If it replaces no file, one that has the name is an error.
    pub(crate) fn create(path: &Path, replaces: bool) -> Result<Part, Error> {
        let (path, replaced) = replaced_file(path)?;
        if replaced.is_some() && !replaces {
            return Err(failed(&path, taken()));
        }
        let folder_path = path.parent().unwrap_or(Path::new("/"));
        let folder = File::open(folder_path).and_then(above_standard);
        let folder = folder.map_err(|error| failed(folder_path, error))?;
        let mut beside = path.clone().into_os_string();
        beside.push(".part");
        let beside = PathBuf::from(beside);
        let file = open_beside(&beside, replaced.is_some())?;
        let owner = lock(&file, &beside);
        match owner {
            Ok(Owner::Another) => return Err(Error::Busy { path: beside }),
            Ok(Owner::Nobody) => return Err(Error::NotPlainFile { path: beside }),
            Ok(Owner::Us) | Err(_) => {}
        }
        let part = Part {
            path,
            beside,
            folder,
            file,
            buffer: Vec::with_capacity(BUFFER_SIZE),
            is_beside: true,
            replaces,
        };
        let begun = owner.and_then(|_| begin(&part.file, replaced.as_ref()));
        begun.map_err(|error| part.failed(error))?;
        Ok(part)
    }

    /// The file that is replaced.
    pub(crate) fn path(&self) -> &Path {
        &self.path
    }

    /// Asks the system to keep the bytes, and then to give them their name.
    pub(crate) fn publish(mut self) -> Result<(), Error> {
        self.keep().map_err(|error| self.failed(error))
    }

    /// A call of the system for the file that failed.
    pub(crate) fn failed(&self, error: io::Error) -> Error {
        failed(&self.path, error)
    }

    fn keep(&mut self) -> io::Result<()> {
        self.hand_over()?;
        self.file.sync_all()?;
        match self.replaces {
            true => fs::rename(&self.beside, &self.path)?,
            false => rename_new(&self.beside, &self.path)?,
        }
        self.is_beside = false;
        self.folder.sync_all()
    }

    /// Passes what is gathered to the system.
    fn hand_over(&mut self) -> io::Result<()> {
        self.file.write_all(&self.buffer)?;
        self.buffer.clear();
        Ok(())
    }
}

impl Write for Part {
    fn write(&mut self, bytes: &[u8]) -> io::Result<usize> {
        if self.buffer.len() + bytes.len() > BUFFER_SIZE {
            self.hand_over()?;
        }
        if bytes.len() < BUFFER_SIZE {
            self.buffer.extend_from_slice(bytes);
        } else {
            self.file.write_all(bytes)?;
        }
        Ok(bytes.len())
    }

    fn flush(&mut self) -> io::Result<()> {
        self.hand_over()
    }
}

impl Drop for Part {
    /// Removes the file before its lock goes.
    fn drop(&mut self) {
        if self.is_beside {
            let _ = fs::remove_file(&self.beside);
        }
    }
}

/// Opens the file beside, and leaves what it holds: another may have locked it. Only a plain file is opened. If it is
/// private nobody else may open it before it has the mode of the file that it will replace.
fn open_beside(path: &Path, is_private: bool) -> Result<File, Error> {
    let other = || Error::NotPlainFile {
        path: path.to_path_buf(),
    };
    let found = found_at(path).map_err(|error| failed(path, error))?;
    if found.is_some_and(|found| !found.is_file() && !found.is_symlink()) {
        return Err(other());
    }
    let opened = OpenOptions::new()
        .write(true)
        .create(true)
        .truncate(false)
        .mode(if is_private { 0o600 } else { 0o666 })
        .custom_flags(FLAGS)
        .open(path);
    match opened.and_then(above_standard) {
        Ok(file) => Ok(file),
        Err(error) if error.raw_os_error() == Some(ENXIO) => Err(other()),
        Err(error) => Err(failed(path, error)),
    }
}

/// The same open file with a descriptor that is none of those of the standard input and outputs. A process that was
/// started without these may give one of them to a file, and then write messages into it.
fn above_standard(file: File) -> io::Result<File> {
    // A clone never has one of them.
    match file.as_raw_fd() {
        0..=2 => file.try_clone(),
        _ => Ok(file),
    }
}

/// A call of the system that failed for a file or folder.
fn failed(path: &Path, source: io::Error) -> Error {
    Error::File {
        path: path.to_path_buf(),
        source,
    }
}

/// What the file of this name is, if there is one.
fn found_at(path: &Path) -> io::Result<Option<Metadata>> {
    match fs::symlink_metadata(path) {
        Ok(found) => Ok(Some(found)),
        Err(error) if error.kind() == io::ErrorKind::NotFound => Ok(None),
        Err(error) => Err(error),
    }
}

/// The whole name of the file that is to be replaced, where links lead, and what it is, if it is there. Only a plain
/// file is replaced.
fn replaced_file(path: &Path) -> Result<(PathBuf, Option<Metadata>), Error> {
    let found = followed(path).map_err(|error| failed(path, error))?;
    match found {
        (path, Some(found)) if !found.is_file() => Err(Error::NotPlainFile { path }),
        found => Ok(found),
    }
}

fn followed(path: &Path) -> io::Result<(PathBuf, Option<Metadata>)> {
    // A name from the root stays the same where the program changes its folder.
    let name = std::path::absolute(path)?;
    let found = found_at(&name)?;
    if !found.as_ref().is_some_and(Metadata::is_symlink) {
        return Ok((name, found));
    }
    let name = fs::canonicalize(name)?;
    let found = found_at(&name)?;
    Ok((name, found))
}

/// Whose the file beside is.
enum Owner {
    /// It is locked, and has its name.
    Us,
    /// Another holds it, or it took its name meanwhile.
    Another,
    /// It is no plain file, but got the name before it was opened.
    Nobody,
}

/// Locks the file of this name.
fn lock(file: &File, path: &Path) -> io::Result<Owner> {
    match file.try_lock() {
        Ok(()) => owner_of(file, path),
        Err(TryLockError::WouldBlock) => Ok(Owner::Another),
        Err(TryLockError::Error(error)) => Err(error),
    }
}

/// Whose a locked file is: whether it is still the one of this name.
fn owner_of(file: &File, path: &Path) -> io::Result<Owner> {
    let opened = file.metadata()?;
    if !opened.is_file() {
        return Ok(Owner::Nobody);
    }
    let named = found_at(path)?;
    match named.is_some_and(|named| (named.dev(), named.ino()) == (opened.dev(), opened.ino())) {
        true => Ok(Owner::Us),
        false => Ok(Owner::Another),
    }
}

/// Gives the file the mode of the one that it will replace, and its group and owner where the system lets us, and
/// empties it.
fn begin(file: &File, replaced: Option<&Metadata>) -> io::Result<()> {
    if let Some(replaced) = replaced {
        let _ = fchown(file, None, Some(replaced.gid()));
        let _ = fchown(file, Some(replaced.uid()), None);
        file.set_permissions(Permissions::from_mode(replaced.mode() & 0o777))?;
    }
    file.set_len(0)
}
