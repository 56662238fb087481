//! Stores that are written by the crate.

mod support;

use std::error::Error as _;
use std::fs::OpenOptions;
use std::io::{self, BufWriter, Write};
use support::{begun, documents, read, words, written};
use zevkhadun::{CloseError, Error, Options, Refusal, Store, Writer};

fn stacked(files: [&[u8]; 2], block_size: usize, period: u8) -> Vec<u8> {
    let mut writer = begun(block_size, period);
    for file in files {
        writer.stack(&Store::open(file).unwrap()).unwrap();
    }
    writer.close().unwrap()
}

#[test]
fn documents_come_back_for_any_block_size_and_period() {
    let documents = documents(60, 1);
    for block_size in [0, 1, 50, 16384, usize::MAX] {
        for period in [2, 8, 64] {
            assert_eq!(read(&written(&documents, block_size, period)), documents);
        }
    }
}

#[test]
fn a_known_file_is_written_byte_for_byte() {
    let file = words();
    assert_eq!(written(&read(&file), 120, 3), file);
}

#[test]
fn a_store_of_no_documents_is_written() {
    let writer = Writer::new(Vec::new());
    assert!(writer.is_empty());
    let file = writer.close().unwrap();
    assert!(Store::open(&file).unwrap().is_empty());
}

#[test]
fn the_arrays_grow() {
    let documents: Vec<Vec<u8>> = (0..100_000)
        .map(|id| format!("{id}").into_bytes())
        .collect();
    // A block each, so the table grows; and one block of all, so the starts do.
    for block_size in [0, usize::MAX] {
        assert_eq!(read(&written(&documents, block_size, 8)), documents);
    }
}

#[test]
fn stacking_in_two_shapes_gives_one_file() {
    let a = written(&documents(30, 1), 50, 8);
    let b = written(&documents(3, 40), 1, 3);
    let c = written(&documents(200, 50), 16384, 64);
    let left = stacked([&stacked([&a, &b], 7, 2), &c], 100, 8);
    let right = stacked([&a, &stacked([&b, &c], 9, 5)], 100, 8);
    assert_eq!(left, right);
    assert_eq!(read(&left), [read(&a), read(&b), read(&c)].concat());
}

#[test]
fn documents_are_put_before_and_after_a_store() {
    let inner = documents(20, 7);
    let file = written(&inner, 1, 8);
    let mut writer = Writer::new(Vec::new());
    writer.put(b"first").unwrap();
    writer.stack(&Store::open(&file).unwrap()).unwrap();
    assert_eq!(writer.put(b"last").unwrap(), 21);
    let wanted = [vec![b"first".to_vec()], inner, vec![b"last".to_vec()]].concat();
    assert_eq!(read(&writer.close().unwrap()), wanted);
}

#[test]
fn a_store_of_the_older_version_is_refused_and_changes_nothing() {
    // Version 1 has no place for a period, which is 8 there.
    let mut old = written(&documents(20, 3), 50, 8);
    let version = old.len() - 28;
    old[version] = 1;
    old[version + 13] = 0;
    let old = Store::open(&old).unwrap();
    let documents = documents(20, 9);
    let mut writer = begun(16384, 8);
    for document in &documents {
        let refused = writer.stack(&old).unwrap_err();
        assert!(matches!(refused, Error::Refused(Refusal::OldVersion)));
        writer.put(document).unwrap();
    }
    assert_eq!(writer.close().unwrap(), written(&documents, 16384, 8));
}

#[test]
fn bad_periods_are_refused() {
    for period in [0, 1, 65, 255] {
        let options = Options {
            period,
            ..Options::default()
        };
        assert_eq!(
            Writer::with_options(Vec::new(), options).err(),
            Some(Refusal::BadPeriod)
        );
    }
}

/// An output with room for some bytes: one write of more fails, and all after it succeed.
#[derive(Debug)]
struct Full {
    room: usize,
    failures: u32,
}

impl Write for Full {
    fn write(&mut self, bytes: &[u8]) -> io::Result<usize> {
        if bytes.len() > self.room && self.failures == 0 {
            self.failures += 1;
            return Err(io::Error::other("full"));
        }
        self.room = self.room.saturating_sub(bytes.len());
        Ok(bytes.len())
    }

    fn flush(&mut self) -> io::Result<()> {
        Ok(())
    }
}

/// The first error of a store of ten documents, and what the calls after it returned.
fn errors_with(room: usize) -> Vec<Error> {
    let options = Options {
        block_size: 30,
        period: 8,
    };
    let mut writer = Writer::with_options(Full { room, failures: 0 }, options).unwrap();
    let mut errors: Vec<Error> = (0..10)
        .filter_map(|_| writer.put(b"document").err())
        .collect();
    errors.extend(writer.close().err().map(CloseError::into_error));
    errors
}

#[test]
fn an_output_that_fails_anywhere_is_reported_once_and_then_refused() {
    let whole = written(&vec![b"document".to_vec(); 10], 30, 8).len();
    for room in 0..whole {
        let errors = errors_with(room);
        let Error::Io(error) = &errors[0] else {
            panic!("{room}: {:?}", errors[0]);
        };
        assert_eq!(error.to_string(), "full");
        assert!(errors[0].source().is_some());
        assert!(errors[1..]
            .iter()
            .all(|error| matches!(error, Error::Failed)));
    }
    assert_eq!(errors_with(0).len(), 11);
    assert!(errors_with(whole).is_empty());
}

#[test]
fn a_failed_writer_stacks_nothing() {
    let file = written(&documents(3, 1), 1, 8);
    let store = Store::open(&file).unwrap();
    let mut writer = Writer::new(Full {
        room: 0,
        failures: 0,
    });
    assert!(matches!(writer.stack(&store), Err(Error::Io(_))));
    assert!(matches!(writer.stack(&store), Err(Error::Failed)));
    assert!(matches!(writer.close().unwrap_err().error(), Error::Failed));
}

#[test]
fn writers_go_to_threads() {
    let mut writer = Writer::new(Vec::new());
    let file = std::thread::scope(|scope| {
        let written = scope.spawn(move || {
            writer.put(b"a").unwrap();
            writer.close().unwrap()
        });
        written.join().unwrap()
    });
    assert_eq!(read(&file), [b"a"]);
}

#[test]
fn a_full_disk_gives_the_output_back() {
    let full = OpenOptions::new().write(true).open("/dev/full").unwrap();
    let mut writer = Writer::new(BufWriter::new(full));
    writer.put(b"document").unwrap();
    let refused = writer.close().unwrap_err();
    assert!(matches!(refused.error(), Error::Io(error) if error.raw_os_error() == Some(28)));
    assert_eq!(refused.to_string(), refused.error().to_string());
    assert!(refused.source().is_some());
    let (error, writer) = refused.into_parts();
    assert!(matches!(error, Error::Io(_)));
    let (_, unwritten) = writer.into_inner().into_parts();
    assert!(unwritten.unwrap().starts_with(b"document"));
}

#[test]
fn an_error_of_close_becomes_one_of_the_crate() {
    fn closed(room: usize) -> Result<(), Error> {
        let mut writer = Writer::new(Full { room, failures: 0 });
        writer.put(b"document")?;
        assert_eq!(writer.close()?.failures, 0);
        Ok(())
    }

    assert!(closed(1000).is_ok());
    assert!(matches!(closed(10), Err(Error::Io(_))));
    assert!(matches!(closed(0), Err(Error::Io(_))));
}

/// An output whose flush fails.
#[derive(Debug)]
struct Unflushed(Vec<u8>);

impl Write for Unflushed {
    fn write(&mut self, bytes: &[u8]) -> io::Result<usize> {
        self.0.write(bytes)
    }

    fn flush(&mut self) -> io::Result<()> {
        Err(io::Error::other("not flushed"))
    }
}

#[test]
fn a_flush_that_fails_is_the_error_of_close() {
    let refused = Writer::new(Unflushed(Vec::new())).close().unwrap_err();
    assert_eq!(refused.to_string(), "not flushed");
    let (_, writer) = refused.into_parts();
    let refused = writer.close().unwrap_err();
    assert!(matches!(refused.error(), Error::Failed));
    assert_eq!(read(&refused.into_output().0), [b""; 0]);
}

#[test]
fn the_unfinished_output_is_given_back() {
    let mut writer = Writer::new(Vec::new());
    writer.put(b"apple").unwrap();
    assert_eq!(writer.get_ref(), b"apple");
    assert!(format!("{writer:?}").contains("documents: 1"));
    assert_eq!(writer.into_inner(), b"apple");
}
