//! What the tests share: known files, documents, and a folder for each test.

// Each test program uses a part of it.
#![allow(dead_code)]

use std::fs;
use std::path::{Path, PathBuf};
use std::sync::atomic::{AtomicUsize, Ordering};
use zevkhadun::{Options, Store, Writer};

/// A store of no documents: an index of no layers, and the footer.
pub const EMPTY: &str = "8003000000000000000000000000080000000000000000000000000000";

pub fn bytes_of(text: &str) -> Vec<u8> {
    let digits: Vec<u8> = text
        .chars()
        .filter_map(|c| c.to_digit(16))
        .map(|digit| digit as u8)
        .collect();
    digits.chunks(2).map(|two| two[0] << 4 | two[1]).collect()
}

/// A store of 64 documents in 13 blocks of about 120 bytes, at the period 3.
pub fn words() -> Vec<u8> {
    bytes_of(include_str!("../../../c/tests/words.hex"))
}

/// The documents of that store.
pub fn documents_of_words() -> Vec<Vec<u8>> {
    (0..64usize)
        .map(|id| {
            let text = format!("{id} is a document's number");
            let len = if id % 5 == 0 { 0 } else { text.len() - id % 3 };
            text.as_bytes()[..len].to_vec()
        })
        .collect()
}

/// That store with its documents 3 and 4 damaged.
pub fn damaged_words() -> Vec<u8> {
    let mut file = words();
    // The first block has five documents of 92 bytes, where each starts, and their count.
    assert_eq!(file[112..116], [5, 0, 0, 0]);
    file[108..112].fill(0xff);
    file
}

/// A store of 1500 documents, each in a block of its own: more blocks than an outline has rows.
pub fn many_blocks() -> Vec<u8> {
    let documents: Vec<Vec<u8>> = (0..1500).map(|id| format!("{id}").into_bytes()).collect();
    written(&documents, 1, 8)
}

/// Documents of 0, 8, 100 and 20000 bytes in turn, each of its own bytes.
pub fn documents(count: usize, seed: usize) -> Vec<Vec<u8>> {
    let lengths = [0, 8, 100, 0, 20000, 8];
    (0..count)
        .map(|id| vec![(seed + id) as u8; lengths[id % lengths.len()]])
        .collect()
}

pub fn begun(block_size: usize, period: u8) -> Writer<Vec<u8>> {
    Writer::with_options(Vec::new(), Options { block_size, period }).unwrap()
}

pub fn written(documents: &[Vec<u8>], block_size: usize, period: u8) -> Vec<u8> {
    let mut writer = begun(block_size, period);
    for (id, document) in documents.iter().enumerate() {
        assert_eq!(writer.put(document).unwrap(), id as u32);
        assert_eq!(writer.len(), id + 1);
    }
    writer.close().unwrap()
}

pub fn read(file: &[u8]) -> Vec<Vec<u8>> {
    let store = Store::open(file).unwrap();
    store.iter().map(|item| item.unwrap().to_vec()).collect()
}

/// A folder that is removed at the end.
pub struct Folder(PathBuf);

impl Folder {
    pub fn new() -> Folder {
        static COUNT: AtomicUsize = AtomicUsize::new(0);
        let name = format!(
            "zevkhadun-test-{}-{}",
            std::process::id(),
            COUNT.fetch_add(1, Ordering::Relaxed)
        );
        let path = std::env::temp_dir().join(name);
        fs::create_dir(&path).unwrap();
        Folder(path)
    }

    pub fn path(&self, name: &str) -> PathBuf {
        self.0.join(name)
    }

    /// The files of the folder.
    pub fn names(&self) -> Vec<String> {
        let entries = fs::read_dir(&self.0).unwrap();
        let mut names: Vec<String> = entries
            .map(|entry| entry.unwrap().file_name().into_string().unwrap())
            .collect();
        names.sort();
        names
    }
}

impl AsRef<Path> for Folder {
    fn as_ref(&self) -> &Path {
        &self.0
    }
}

impl Drop for Folder {
    fn drop(&mut self) {
        let _ = fs::remove_dir_all(&self.0);
    }
}
