//! Files that the crate writes.

mod support;

use std::error::Error as _;
use std::fs::{self, File, OpenOptions, Permissions};
use std::io::ErrorKind;
use std::os::fd::{FromRawFd, OwnedFd};
use std::os::unix::fs::{symlink, MetadataExt, PermissionsExt};
use std::path::Path;
use std::process::{exit, Command};
use support::{documents, read, written, Folder};
use zevkhadun::{Error, FileWriter, Options, Refusal, Store};

/// The error of Linux where a link is not followed.
const ELOOP: i32 = 40;

/// Publishes a store of these documents.
fn publish(path: &Path, documents: &[Vec<u8>]) {
    let mut writer = FileWriter::replace(path).unwrap();
    for document in documents {
        writer.put(document).unwrap();
    }
    writer.publish().unwrap();
}

fn assert_busy(path: &Path) {
    let error = FileWriter::replace(path).unwrap_err();
    let mut beside = path.as_os_str().to_owned();
    beside.push(".part");
    assert!(
        matches!(&error, Error::Busy { path } if path.as_os_str() == beside),
        "{error:?}"
    );
}

#[test]
fn a_file_is_that_of_a_writer() {
    let folder = Folder::new();
    let path = folder.path("a.store");
    for count in [0, 1, 3, 60] {
        publish(&path, &documents(count, 1));
        assert_eq!(
            fs::read(&path).unwrap(),
            written(&documents(count, 1), 16384, 8)
        );
        assert_eq!(folder.names(), ["a.store"]);
    }
}

#[test]
fn the_name_has_the_old_file_until_the_new_one_is_published() {
    let folder = Folder::new();
    let path = folder.path("a.store");
    publish(&path, &documents(3, 1));
    let old = fs::read(&path).unwrap();
    let mut writer = FileWriter::replace(&path).unwrap();
    for document in documents(60, 2) {
        writer.put(&document).unwrap();
        assert_eq!(fs::read(&path).unwrap(), old);
    }
    assert_eq!(folder.names(), ["a.store", "a.store.part"]);
    writer.publish().unwrap();
    assert_eq!(read(&fs::read(&path).unwrap()), documents(60, 2));
    assert_eq!(folder.names(), ["a.store"]);
}

#[test]
fn a_writer_that_is_dropped_or_discarded_leaves_the_old_file() {
    let folder = Folder::new();
    let path = folder.path("a.store");
    publish(&path, &documents(3, 1));
    for is_dropped in [false, true] {
        let mut writer = FileWriter::replace(&path).unwrap();
        writer.put(b"new").unwrap();
        match is_dropped {
            true => drop(writer),
            false => writer.discard(),
        }
        assert_eq!(read(&fs::read(&path).unwrap()), documents(3, 1));
        assert_eq!(folder.names(), ["a.store"]);
    }
}

#[test]
fn options_lay_the_store_out_and_bad_ones_change_nothing() {
    let folder = Folder::new();
    let path = folder.path("a.store");
    let options = |period| Options {
        block_size: 50,
        period,
    };
    let mut writer = FileWriter::create_with(&path, options(3)).unwrap();
    for document in documents(20, 1) {
        writer.put(&document).unwrap();
    }
    assert_eq!((writer.len(), writer.is_empty()), (20, false));
    writer.publish().unwrap();
    assert_eq!(fs::read(&path).unwrap(), written(&documents(20, 1), 50, 3));
    let refused = FileWriter::create_with(folder.path("b.store"), options(1)).unwrap_err();
    assert!(matches!(refused, Error::Refused(Refusal::BadPeriod)));
    assert_eq!(folder.names(), ["a.store"]);
}

#[test]
fn a_store_is_stacked_between_documents() {
    let folder = Folder::new();
    let path = folder.path("a.store");
    let inner = documents(20, 7);
    let store = Store::open(written(&inner, 1, 8)).unwrap();
    let mut writer = FileWriter::create(&path).unwrap();
    assert!(writer.is_empty());
    writer.put(b"first").unwrap();
    writer.stack(&store).unwrap();
    assert_eq!(writer.put(b"last").unwrap(), 21);
    writer.publish().unwrap();
    let wanted = [vec![b"first".to_vec()], inner, vec![b"last".to_vec()]].concat();
    assert_eq!(read(&fs::read(&path).unwrap()), wanted);
}

/// The kind of a system's error for a path.
fn kind_of(error: Error, wanted: &Path) -> ErrorKind {
    match error {
        Error::File { path, source } if path == wanted => source.kind(),
        other => panic!("{other:?}"),
    }
}

#[test]
fn a_file_is_replaced_only_if_that_is_asked() {
    let folder = Folder::new();
    let path = folder.path("a.store");
    publish(&path, &documents(3, 1));
    symlink("a.store", folder.path("link.store")).unwrap();
    for name in ["a.store", "link.store"] {
        let error = FileWriter::create(folder.path(name)).unwrap_err();
        let real = fs::canonicalize(&path).unwrap();
        assert_eq!(kind_of(error, &real), ErrorKind::AlreadyExists);
        let error = FileWriter::create_with(folder.path(name), Options::default()).unwrap_err();
        assert_eq!(kind_of(error, &real), ErrorKind::AlreadyExists);
    }
    assert_eq!(read(&fs::read(&path).unwrap()), documents(3, 1));
    assert_eq!(folder.names(), ["a.store", "link.store"]);
    let options = Options {
        block_size: 50,
        period: 3,
    };
    let mut writer = FileWriter::replace_with(&path, options).unwrap();
    writer.put(b"new").unwrap();
    writer.publish().unwrap();
    assert_eq!(fs::read(&path).unwrap(), written(&[b"new".to_vec()], 50, 3));
}

#[test]
fn a_file_that_gets_the_name_meanwhile_is_kept_or_replaced() {
    let folder = Folder::new();
    let path = folder.path("a.store");
    let mut writer = FileWriter::create(&path).unwrap();
    writer.put(b"new").unwrap();
    fs::write(&path, b"another's").unwrap();
    let error = writer.publish().unwrap_err();
    assert_eq!(kind_of(error, &path), ErrorKind::AlreadyExists);
    assert_eq!(fs::read(&path).unwrap(), b"another's");
    assert_eq!(folder.names(), ["a.store"]);
    fs::remove_file(&path).unwrap();
    let writer = FileWriter::replace(&path).unwrap();
    fs::write(&path, b"another's").unwrap();
    writer.publish().unwrap();
    assert_eq!(read(&fs::read(&path).unwrap()), [b""; 0]);
}

#[test]
fn a_second_writer_of_a_name_is_busy_and_harms_nothing() {
    let folder = Folder::new();
    let path = folder.path("a.store");
    let mut writer = FileWriter::create(&path).unwrap();
    writer.put(&[7; 100_000]).unwrap();
    assert_busy(&path);
    symlink("a.store", folder.path("link.store")).unwrap();
    writer.put(b"last").unwrap();
    writer.publish().unwrap();
    assert_eq!(
        read(&fs::read(&path).unwrap()),
        [vec![7; 100_000], b"last".to_vec()]
    );
    let writer = FileWriter::replace(folder.path("link.store")).unwrap();
    assert_busy(&path);
    writer.discard();
    publish(&path, &documents(3, 1));
}

#[test]
fn a_lock_of_another_program_is_busy() {
    let folder = Folder::new();
    let path = folder.path("a.store");
    let beside = File::create(folder.path("a.store.part")).unwrap();
    fs::write(folder.path("a.store.part"), b"another's").unwrap();
    beside.lock().unwrap();
    assert_busy(&path);
    assert_eq!(fs::read(folder.path("a.store.part")).unwrap(), b"another's");
    drop(beside);
    publish(&path, &documents(3, 1));
}

#[test]
fn what_a_crash_left_beside_is_taken_over() {
    let folder = Folder::new();
    let path = folder.path("a.store");
    fs::write(folder.path("a.store.part"), vec![1; 200_000]).unwrap();
    publish(&path, &documents(3, 1));
    assert_eq!(
        fs::read(&path).unwrap(),
        written(&documents(3, 1), 16384, 8)
    );
    assert_eq!(folder.names(), ["a.store"]);
}

#[test]
fn a_file_beside_that_is_a_link_is_not_opened() {
    let folder = Folder::new();
    fs::write(folder.path("other"), b"another's").unwrap();
    let beside = folder.path("a.store.part");
    for target in ["other", "nowhere"] {
        symlink(target, &beside).unwrap();
        let error = FileWriter::create(folder.path("a.store")).unwrap_err();
        let Error::File { path, source } = &error else {
            panic!("{error:?}");
        };
        assert_eq!((path, source.raw_os_error()), (&beside, Some(ELOOP)));
        assert_eq!(folder.names(), ["a.store.part", "other"]);
        fs::remove_file(&beside).unwrap();
    }
    assert_eq!(fs::read(folder.path("other")).unwrap(), b"another's");
}

/// Makes a pipe.
fn make_pipe(path: &Path) {
    let made = Command::new("mkfifo").arg(path).status().unwrap();
    assert!(made.success());
}

#[test]
fn a_file_beside_that_is_a_pipe_or_a_folder_is_refused_at_once() {
    let folder = Folder::new();
    let beside = folder.path("a.store.part");
    let refused = || match FileWriter::create(folder.path("a.store")).unwrap_err() {
        Error::NotPlainFile { path } => assert_eq!(path, beside),
        other => panic!("{other:?}"),
    };
    make_pipe(&beside);
    refused();
    // Somebody reads it.
    let reader = OpenOptions::new().read(true).write(true).open(&beside);
    refused();
    drop(reader.unwrap());
    assert_eq!(folder.names(), ["a.store.part"]);
    fs::remove_file(&beside).unwrap();
    fs::create_dir(&beside).unwrap();
    refused();
    fs::remove_dir(&beside).unwrap();
    publish(&folder.path("a.store"), &documents(3, 1));
}

/// Writes a store while the standard input and outputs are closed, and returns whether their descriptors stayed free.
fn stays_free(path: &Path) -> bool {
    for number in 0..3 {
        // SAFETY: this process uses none of these while it has one thread, and opens them for nobody.
        drop(unsafe { OwnedFd::from_raw_fd(number) });
    }
    let is_free = || (0..3).all(|number| !Path::new(&format!("/proc/self/fd/{number}")).exists());
    let mut writer = FileWriter::create(path).unwrap();
    let was_free = is_free();
    writer.put(&vec![7; 1 << 20]).unwrap();
    writer.publish().unwrap();
    was_free && is_free()
}

#[test]
fn no_file_has_the_descriptor_of_a_standard_input_or_output() {
    const PATH: &str = "ZEVKHADUN_TEST_FREE";
    if let Some(path) = std::env::var_os(PATH) {
        exit(if stays_free(Path::new(&path)) { 0 } else { 9 });
    }
    let folder = Folder::new();
    let path = folder.path("a.store");
    let mut child = Command::new(std::env::current_exe().unwrap());
    child.args([
        "--exact",
        "--nocapture",
        "no_file_has_the_descriptor_of_a_standard_input_or_output",
    ]);
    let status = child.env(PATH, &path).status().unwrap();
    assert_eq!(status.code(), Some(0));
    assert_eq!(read(&fs::read(&path).unwrap()), [vec![7; 1 << 20]]);
}

#[test]
fn a_link_and_the_mode_of_its_file_are_kept() {
    let folder = Folder::new();
    fs::create_dir(folder.path("inner")).unwrap();
    let path = folder.path("inner/a.store");
    publish(&path, &documents(3, 1));
    fs::set_permissions(&path, Permissions::from_mode(0o640)).unwrap();
    let before = fs::metadata(&path).unwrap();
    let link = folder.path("link.store");
    symlink("inner/a.store", &link).unwrap();
    let writer = FileWriter::replace(&link).unwrap();
    assert_eq!(writer.path(), fs::canonicalize(&path).unwrap());
    writer.publish().unwrap();
    assert!(fs::symlink_metadata(&link).unwrap().is_symlink());
    let after = fs::metadata(&path).unwrap();
    assert_eq!(after.mode(), before.mode());
    assert_eq!((after.uid(), after.gid()), (before.uid(), before.gid()));
    assert_ne!(after.ino(), before.ino());
    assert_eq!(read(&fs::read(&path).unwrap()), [b""; 0]);
}

#[test]
fn what_is_no_plain_file_is_refused() {
    let folder = Folder::new();
    symlink(folder.as_ref(), folder.path("link")).unwrap();
    for path in [
        folder.as_ref(),
        &folder.path("link"),
        Path::new("/dev/full"),
        Path::new("/"),
    ] {
        let error = FileWriter::create(path).unwrap_err();
        assert!(matches!(error, Error::NotPlainFile { .. }), "{error:?}");
    }
    assert_eq!(folder.names(), ["link"]);
}

#[test]
fn an_error_of_the_system_names_its_path() {
    let folder = Folder::new();
    symlink("none.store", folder.path("link.store")).unwrap();
    for name in ["none/a.store", "link.store", "new/", "nul\0"] {
        let error = FileWriter::create(folder.path(name)).unwrap_err();
        let Error::File { path, source } = &error else {
            panic!("{error:?}");
        };
        assert!(path.starts_with(&folder), "{path:?}");
        assert_eq!(error.source().unwrap().to_string(), source.to_string());
        assert!(error
            .to_string()
            .starts_with(folder.as_ref().to_str().unwrap()));
    }
    assert!(FileWriter::create("").is_err());
    assert_eq!(folder.names(), ["link.store"]);
}

#[test]
fn a_folder_that_is_removed_meanwhile_is_an_error() {
    let folder = Folder::new();
    fs::create_dir(folder.path("inner")).unwrap();
    let mut writer = FileWriter::create(folder.path("inner/a.store")).unwrap();
    writer.put(b"apple").unwrap();
    fs::remove_dir_all(folder.path("inner")).unwrap();
    assert!(matches!(writer.publish(), Err(Error::File { .. })));
}

#[test]
fn writers_are_printed_and_go_to_threads() {
    fn goes<T: Send + Sync + 'static>(writer: T) -> T {
        writer
    }

    let folder = Folder::new();
    let writer = goes(FileWriter::create(folder.path("a.store")).unwrap());
    assert!(format!("{writer:?}").contains("a.store"));
}
