//! Stores that are opened without the check of the index, beside those that are opened with it.

mod support;

use support::{damaged_words, many_blocks, read, words, written};
use zevkhadun::{Refusal, Store, Writer};

/// Numbers in no order, the same at each run.
fn random() -> impl Iterator<Item = u32> {
    std::iter::successors(Some(1u32), |number| {
        Some(number.wrapping_mul(1664525).wrapping_add(1013904223))
    })
    .map(|number| number >> 8)
}

/// Stores of many sizes: without documents, of one block, and of more blocks than an outline has rows.
fn files() -> Vec<Vec<u8>> {
    let documents: Vec<Vec<u8>> = (0..5000usize)
        .map(|id| format!("{id}").repeat(id % 4).into_bytes())
        .collect();
    let mut files = vec![words(), damaged_words()];
    for count in [0, 1, 2, 7, 100, 1023, 1024, 1025, 5000] {
        for (block_size, period) in [(1, 2), (1, 8), (30, 3), (16384, 64)] {
            files.push(written(&documents[..count], block_size, period));
        }
    }
    files
}

#[test]
fn every_document_is_that_of_a_checked_store() {
    for file in files() {
        let checked = Store::open(&file).unwrap();
        let store = Store::open_without_check(&file).unwrap();
        let count = checked.len() as u32;
        assert_eq!((store.len(), store.is_empty()), (checked.len(), count == 0));
        for doc_id in 0..count {
            assert_eq!(store.get(doc_id), checked.get(doc_id));
        }
        for doc_id in random().take(1000).map(|number| number % count.max(1)) {
            assert_eq!(store.get(doc_id), checked.get(doc_id));
            assert_eq!(store.locate(doc_id), checked.locate(doc_id));
        }
        for doc_id in [count, count + 1, u32::MAX] {
            assert_eq!(store.get(doc_id), Err(Refusal::NoDocument));
            assert_eq!(store.locate(doc_id), Err(Refusal::NoDocument));
        }
    }
}

#[test]
fn iterations_and_ranges_are_those_of_a_checked_store() {
    for file in files() {
        let checked = Store::open(&file).unwrap();
        let store = Store::open_without_check(&file).unwrap();
        assert_eq!(store.iter().len(), checked.len());
        assert!(store.iter().eq(&checked));
        assert!(store.iter().rev().eq(checked.iter().rev()));
        assert!(store.iter().sound().eq(checked.iter().sound()));
        assert!(store.iter().step_by(7).eq(checked.iter().step_by(7)));
        for start in random().take(20).map(|number| number % 5500) {
            for end in [start, start + 1, start + 200, u32::MAX] {
                assert!(store.range(start..end).eq(checked.range(start..end)));
            }
        }
    }
}

#[test]
fn facts_are_those_of_a_checked_store_without_the_blocks() {
    for file in files() {
        let checked = Store::open(&file).unwrap();
        let store = Store::open_without_check(&file).unwrap();
        let mut facts = checked.facts();
        assert!(facts.blocks.take().is_some());
        assert_eq!(store.facts(), facts);
        assert_eq!(store.verify(), checked.verify());
    }
}

/// Opens bytes without the check and reads some documents, which lie in the bytes. Returns whether it was opened.
fn is_opened_and_read(file: &[u8]) -> bool {
    let Ok(store) = Store::open_without_check(file) else {
        return false;
    };
    let count = store.len() as u32;
    for doc_id in random().take(5).map(|number| number % count.max(1)) {
        match store.locate(doc_id) {
            Ok(place) => assert_eq!(store.get(doc_id), Ok(&file[place])),
            Err(Refusal::NoDocument) => assert_eq!(count, 0),
            Err(Refusal::DamagedDocument | Refusal::BadIndex) => {}
            Err(refusal) => panic!("{refusal}"),
        }
        let read = store.range(doc_id..).take(9).filter_map(Result::ok);
        assert!(read.map(<[u8]>::len).max().unwrap_or(0) <= file.len());
    }
    assert_eq!(store.get(count), Err(Refusal::NoDocument));
    true
}

#[test]
fn any_changed_byte_is_safe() {
    let file = many_blocks();
    let index = Store::open(&file).unwrap().facts().data_bytes;
    for (file, first) in [(words(), 0), (file, index)] {
        let mut opened = 0;
        for byte in first..file.len() {
            for changed in [0x00, 0x80, 0xff, file[byte] ^ 1] {
                let mut file = file.clone();
                file[byte] = changed;
                opened += usize::from(is_opened_and_read(&file));
            }
        }
        assert!(opened > 0);
    }
}

#[test]
fn a_damaged_index_is_met_where_it_is_read() {
    let mut file = many_blocks();
    let last = file.len() - 29; // in the last run of the lowest layer
    file[last] = 0x00;
    assert_eq!(Store::open(&file).unwrap_err(), Refusal::BadIndex);
    let store = Store::open_without_check(&file).unwrap();
    assert_eq!(store.get(0), Ok(b"0".as_slice()));
    assert_eq!(store.get(1499), Err(Refusal::BadIndex));
    assert_eq!(store.iter().last(), Some(Err(Refusal::BadIndex)));
    assert_eq!(store.verify().unwrap_err().refusal, Refusal::BadIndex);
}

#[test]
fn cut_files_are_refused() {
    for file in [words(), many_blocks()] {
        for cut in 0..file.len() {
            let refusal = Store::open_without_check(&file[..cut]).unwrap_err();
            assert_eq!(refusal == Refusal::ShortFile, cut < 28);
        }
    }
}

#[test]
fn a_writer_takes_its_documents() {
    let file = many_blocks();
    let mut writer = Writer::new(Vec::new());
    let store = Store::open_without_check(&file).unwrap();
    writer.stack(&store).unwrap();
    assert_eq!(read(&writer.close().unwrap()), read(&file));
}

#[test]
fn threads_share_it() {
    let store = Store::open_without_check(many_blocks()).unwrap();
    std::thread::scope(|scope| {
        for _ in 0..8 {
            scope.spawn(|| {
                for doc_id in random().take(2000).map(|number| number % 1500) {
                    let wanted = format!("{doc_id}");
                    assert_eq!(store.get(doc_id), Ok(wanted.as_bytes()));
                }
            });
        }
    });
}
