//! Renaming a file.

use std::ffi::{c_char, c_int, c_uint, CString};
use std::fs;
use std::io;
use std::os::unix::ffi::OsStrExt;
use std::path::Path;

/// A name is looked up in the working folder, unless it begins at the root.
const AT_FDCWD: c_int = -100;

/// No file is replaced.
const RENAME_NOREPLACE: c_uint = 1;

/// The errors of Linux where the file system or the system has no such rename, and where a file has the name.
const EINVAL: i32 = 22;
const ENOSYS: i32 = 38;
const EEXIST: i32 = 17;

extern "C" {
    fn renameat2(
        old_folder: c_int,
        old: *const c_char,
        new_folder: c_int,
        new: *const c_char,
        flags: c_uint,
    ) -> c_int;
}

/// The system's error that a file has the name.
pub(crate) fn taken() -> io::Error {
    io::Error::from_raw_os_error(EEXIST)
}

/// Gives a file a name that no file has. Where the file system has no such call, the name is looked up before it is
/// given.
pub(crate) fn rename_new(old: &Path, new: &Path) -> io::Result<()> {
    let (from, to) = (c_string(old)?, c_string(new)?);
    // SAFETY: both are strings that end with a zero byte.
    let renamed = unsafe {
        renameat2(
            AT_FDCWD,
            from.as_ptr(),
            AT_FDCWD,
            to.as_ptr(),
            RENAME_NOREPLACE,
        )
    };
    let error = match renamed {
        0 => return Ok(()),
        _ => io::Error::last_os_error(),
    };
    match error.raw_os_error() {
        Some(EINVAL | ENOSYS) => rename_after_look(old, new),
        _ => Err(error),
    }
}

/// Looks the name up, and renames the file if no other has it.
fn rename_after_look(old: &Path, new: &Path) -> io::Result<()> {
    match fs::symlink_metadata(new) {
        Ok(_) => Err(taken()),
        Err(error) if error.kind() == io::ErrorKind::NotFound => fs::rename(old, new),
        Err(error) => Err(error),
    }
}

fn c_string(path: &Path) -> io::Result<CString> {
    Ok(CString::new(path.as_os_str().as_bytes())?)
}

#[cfg(test)]
mod tests {
    use super::*;

    #[test]
    fn a_file_is_renamed_to_a_free_name_alone() {
        let folder =
            std::env::temp_dir().join(format!("zevkhadun-renaming-{}", std::process::id()));
        fs::create_dir_all(&folder).unwrap();
        let (old, new) = (folder.join("old"), folder.join("new"));
        for rename in [rename_new, rename_after_look] {
            fs::write(&old, b"old").unwrap();
            rename(&old, &new).unwrap();
            assert_eq!(fs::read(&new).unwrap(), b"old");
            fs::write(&old, b"another").unwrap();
            let error = rename(&old, &new).unwrap_err();
            assert_eq!(error.kind(), io::ErrorKind::AlreadyExists);
            assert_eq!(fs::read(&new).unwrap(), b"old");
            fs::remove_file(&new).unwrap();
        }
        fs::remove_dir_all(&folder).unwrap();
    }
}
