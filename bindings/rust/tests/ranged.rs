//! Stores that are read by ranges of their file, with the reads counted.

mod support;

use std::error::Error;
use std::io;
use std::sync::{Arc, Mutex};
use std::thread;
use support::{
    bytes_of, damaged_words, documents, documents_of_words, read, words, written, EMPTY,
};
use zevkhadun::{BlockPlace, RangedOptions, RangedStore, ReadError, Refusal, Store};

type Reading = Box<dyn Fn(u64, usize) -> io::Result<Vec<u8>> + Send + Sync>;

/// A file that is read by ranges, and keeps a list of the reads: the offset and the length of each.
#[derive(Clone)]
struct Elsewhere {
    content: Arc<[u8]>,
    reads: Arc<Mutex<Vec<(u64, usize)>>>,
}

impl Elsewhere {
    fn new(content: &[u8]) -> Elsewhere {
        Elsewhere {
            content: content.into(),
            reads: Arc::default(),
        }
    }

    fn size(&self) -> u64 {
        self.content.len() as u64
    }

    /// The reads since the last call.
    fn taken(&self) -> Vec<(u64, usize)> {
        std::mem::take(&mut self.reads.lock().unwrap())
    }

    fn read(&self, start: u64, len: usize) -> io::Result<Vec<u8>> {
        self.reads.lock().unwrap().push((start, len));
        Ok(self.content[start as usize..][..len].to_vec())
    }

    fn open(&self, options: RangedOptions) -> Result<RangedStore<Reading>, ReadError> {
        let file = self.clone();
        let reading: Reading = Box::new(move |start, len| file.read(start, len));
        RangedStore::open_with(reading, self.size(), options)
    }
}

fn options(tail: usize, cache: usize, request: usize) -> RangedOptions {
    RangedOptions {
        tail,
        cache,
        request,
    }
}

/// A file of 3000 documents of 100 bytes, ten in a block, and its documents.
fn many() -> (Elsewhere, Vec<Vec<u8>>) {
    let documents: Vec<Vec<u8>> = (0..3000u32).map(|id| id.to_le_bytes().repeat(25)).collect();
    (Elsewhere::new(&written(&documents, 1000, 8)), documents)
}

fn refusal(error: ReadError) -> Refusal {
    match error {
        ReadError::Refused(refusal) => refusal,
        other => panic!("{other}"),
    }
}

#[test]
fn it_gives_what_a_store_gives() {
    let files = [
        words(),
        bytes_of(EMPTY),
        written(&documents(40, 7), 300, 64),
    ];
    for file in &files {
        let wanted = read(file);
        let wanted_some: Vec<&[u8]> = wanted.iter().rev().step_by(3).map(Vec::as_slice).collect();
        for tail in [0, 28, 40, file.len(), 1 << 20] {
            let store = Elsewhere::new(file).open(options(tail, 200, 300)).unwrap();
            assert_eq!(
                (store.len(), store.is_empty()),
                (wanted.len(), wanted.is_empty())
            );
            assert_eq!(store.size(), file.len() as u64);
            let documents: Vec<Vec<u8>> = store.iter().map(Result::unwrap).collect();
            assert_eq!(documents, wanted);
            let ids: Vec<u32> = (0..wanted.len() as u32).rev().step_by(3).collect();
            assert_eq!(store.get_many(&ids).unwrap(), wanted_some);
            for (id, document) in wanted.iter().enumerate() {
                assert_eq!(&store.get(id as u32).unwrap(), document);
            }
        }
    }
}

#[test]
fn one_read_opens_a_short_index_and_two_a_long_one() {
    let (file, documents) = many();
    let index = 28 + Store::open(&*file.content).unwrap().facts().index_bytes;
    for tail in [28, index - 1] {
        let store = file.open(options(tail, 0, 1)).unwrap();
        assert_eq!(store.len(), documents.len());
        let wanted = [tail, index].map(|len| (file.size() - len as u64, len));
        assert_eq!(file.taken(), wanted);
    }
    for tail in [index, 1 << 20] {
        assert_eq!(
            file.open(options(tail, 0, 1)).unwrap().len(),
            documents.len()
        );
        assert_eq!(file.taken().len(), 1);
    }
}

#[test]
fn a_get_takes_one_read_and_none_for_a_block_that_is_kept() {
    let (file, documents) = many();
    let store = file.open(RangedOptions::default()).unwrap();
    file.taken();
    assert_eq!(store.get(1000).unwrap(), documents[1000]);
    let BlockPlace { doc_ids, bytes, .. } = store.block_of(1000).unwrap();
    let len = (bytes.end - bytes.start) as usize;
    assert_eq!(file.taken(), [(bytes.start, len)]);
    assert_eq!(store.cached(), len);
    for id in doc_ids {
        assert_eq!(store.get(id).unwrap(), documents[id as usize]);
    }
    assert_eq!(file.taken(), []);
}

#[test]
fn neighbouring_blocks_take_one_read() {
    let (file, documents) = many();
    let store = file.open(RangedOptions::default()).unwrap();
    file.taken();
    let page: Vec<u32> = (100..200).collect();
    assert_eq!(store.get_many(&page).unwrap(), documents[100..200]);
    assert_eq!(file.taken().len(), 1);
    let ids = [2000, 500, 2008, 501, 2000];
    let wanted = ids.map(|id| documents[id as usize].clone());
    assert_eq!(store.get_many(&ids).unwrap(), wanted);
    assert_eq!(file.taken().len(), 2);
    assert_eq!(store.get_many(&page).unwrap(), documents[100..200]);
    assert_eq!(file.taken(), []);
    // Blocks that are here part those that aren't.
    let wide: Vec<u32> = (50..250).collect();
    assert_eq!(store.get_many(&wide).unwrap(), documents[50..250]);
    assert_eq!(file.taken().len(), 2);
}

#[test]
fn an_iteration_reads_many_blocks_at_once_and_no_more_than_asked() {
    let (file, documents) = many();
    let data = Store::open(&*file.content).unwrap().facts().data_bytes;
    let longest = 1300;
    for request in [1, 2500, 50_000] {
        let store = file.open(options(1 << 16, 0, request)).unwrap();
        file.taken();
        let found: Vec<Vec<u8>> = store.into_iter().map(Result::unwrap).collect();
        assert_eq!(found, documents);
        let lengths: Vec<usize> = file.taken().iter().map(|read| read.1).collect();
        assert_eq!(lengths.iter().sum::<usize>(), data);
        assert!(
            lengths.iter().all(|&len| len <= request.max(longest)),
            "{lengths:?}"
        );
        assert!(
            lengths.len() <= 2 * data / request.max(longest / 2) + 1,
            "{request}: {}",
            lengths.len()
        );
    }
}

#[test]
fn an_iteration_of_a_range_reads_the_blocks_of_the_range() {
    let (file, documents) = many();
    let store = file.open(options(1 << 16, 0, 1 << 20)).unwrap();
    file.taken();
    let found: Vec<Vec<u8>> = store.range(1005..1015).map(Result::unwrap).collect();
    assert_eq!(found, documents[1005..1015]);
    let first = store.block_of(1005).unwrap().bytes;
    let last = store.block_of(1014).unwrap().bytes;
    assert_eq!(
        file.taken(),
        [(first.start, (last.end - first.start) as usize)]
    );
    assert_eq!(store.range(3000..).count(), 0);
    assert_eq!(store.range(2999..5000).size_hint(), (0, Some(1)));
    assert_eq!(file.taken(), []);
}

#[test]
fn the_cache_has_a_limit_and_keeps_what_was_used_last() {
    let (file, _) = many();
    let store = file.open(options(1 << 16, 3000, 1 << 20)).unwrap();
    for id in (0..3000).step_by(10) {
        store.get(id).unwrap();
        assert!(store.cached() <= 3000);
    }
    assert!(store.cached() > 1500);
    for id in [0, 1000, 0, 2000] {
        store.get(id).unwrap();
    }
    file.taken();
    store.get(0).unwrap();
    assert_eq!(file.taken(), []);
    store.get(1000).unwrap();
    assert_eq!(file.taken().len(), 1);
}

#[test]
fn a_block_that_is_longer_than_the_cache_is_not_kept() {
    let store = Elsewhere::new(&words())
        .open(options(1 << 16, 10, 1 << 20))
        .unwrap();
    for id in [0, 1, 0] {
        assert_eq!(store.get(id).unwrap(), documents_of_words()[id as usize]);
    }
    assert_eq!(store.cached(), 0);
}

#[test]
fn damage_is_found_in_what_is_read() {
    let wanted = documents_of_words();
    let store = Elsewhere::new(&damaged_words())
        .open(RangedOptions::default())
        .unwrap();
    for (id, item) in store.iter().enumerate() {
        match item {
            Ok(document) => assert_eq!(document, wanted[id]),
            Err(error) => assert_eq!(
                (refusal(error), [3, 4].contains(&id)),
                (Refusal::DamagedDocument, true)
            ),
        }
    }
    assert_eq!(store.iter().filter(Result::is_ok).count(), 62);
    assert_eq!(refusal(store.get(3).unwrap_err()), Refusal::DamagedDocument);
    assert_eq!(
        refusal(store.get_many(&[9, 3]).unwrap_err()),
        Refusal::DamagedDocument
    );
    assert_eq!(store.get(5).unwrap(), wanted[5]);
}

#[test]
fn files_that_are_no_store_are_errors() {
    let wrong: [(&[u8], Refusal); 4] = [
        (b"", Refusal::ShortFile),
        (&[0; 27], Refusal::ShortFile),
        (&[0; 100], Refusal::BadVersion),
        (&[0xff; 100], Refusal::BadVersion),
    ];
    for (content, wanted) in wrong {
        let opened = Elsewhere::new(content).open(RangedOptions::default());
        assert_eq!(refusal(opened.unwrap_err()), wanted);
    }
    let mut file = words();
    let index = 28 + Store::open(&file).unwrap().facts().index_bytes;
    let start = file.len() - index;
    let end = file.len() - 28;
    file[start..end].fill(0);
    assert_eq!(
        refusal(
            Elsewhere::new(&file)
                .open(RangedOptions::default())
                .unwrap_err()
        ),
        Refusal::BadIndex
    );
}

#[test]
fn any_bytes_at_the_end_of_a_file_are_read_without_a_panic() {
    let file = words();
    for at in file.len() - 200..file.len() {
        for byte in [0, 1, 0x7f, 0x80, 0xff] {
            let mut changed = file.clone();
            changed[at] = byte;
            let Ok(store) = Elsewhere::new(&changed).open(options(0, 300, 500)) else {
                continue;
            };
            store.iter().take(200).for_each(drop);
            // An index that is damaged further on is an error, and no end of the store.
            let past = store.len() as u32;
            assert_eq!(zevkhadun::get(&changed, past), Err(Refusal::NoDocument));
            let ids: Vec<u32> = (0..store.len().min(70) as u32).collect();
            let _ = store.get_many(&ids);
        }
    }
}

#[test]
fn what_a_read_returns_comes_through() {
    let file = words();
    let size = file.len() as u64;
    let tail = |start, len: usize| match start {
        1.. if len < 1000 => Ok(file[start as usize..][..len].to_vec()),
        _ => Err(io::Error::other("no route")),
    };
    let store = RangedStore::open_with(tail, size, options(700, 0, 1 << 20)).unwrap();
    let error = store.get(0).unwrap_err();
    assert_eq!(error.to_string(), "no route");
    assert_eq!(error.source().unwrap().to_string(), "no route");
    // The iteration ends after it.
    let mut documents = store.iter();
    assert!(matches!(documents.next(), Some(Err(ReadError::Io(_)))));
    assert!(documents.next().is_none());
    let short = RangedStore::open(|_, len| Ok(vec![0; len - 1]), 100).unwrap_err();
    assert!(matches!(&short, ReadError::Io(error) if error.kind() == io::ErrorKind::UnexpectedEof));
    assert_eq!(short.to_string(), "99 bytes were read at 0, and not 100");
}

#[test]
fn numbers_that_no_document_has_are_errors_before_any_read() {
    let file = Elsewhere::new(&words());
    let store = file.open(RangedOptions::default()).unwrap();
    file.taken();
    for id in [64, u32::MAX] {
        assert_eq!(refusal(store.get(id).unwrap_err()), Refusal::NoDocument);
        assert_eq!(
            refusal(store.get_many(&[0, id]).unwrap_err()),
            Refusal::NoDocument
        );
        assert_eq!(store.block_of(id), Err(Refusal::NoDocument));
    }
    assert_eq!(file.taken(), []);
    assert_eq!(store.get_many(&[]).unwrap(), Vec::<Vec<u8>>::new());
    let shown = "RangedStore { documents: 64, size: 1585, cached: 0, .. }";
    assert_eq!(
        format!("{store:?}"),
        shown.replace("1585", &file.size().to_string())
    );
}

#[test]
fn threads_share_a_store() {
    let (file, documents) = many();
    let store = file.open(options(1 << 16, 5000, 1 << 20)).unwrap();
    thread::scope(|scope| {
        for first in 0..8 {
            let (store, documents) = (&store, &documents);
            scope.spawn(move || {
                for id in (first..3000).step_by(37) {
                    assert_eq!(store.get(id).unwrap(), documents[id as usize]);
                }
            });
        }
    });
    assert!(store.cached() <= 5000);
}
