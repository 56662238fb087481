//! Stores that are read by the crate.

mod support;

use std::borrow::Cow;
use std::cell::Cell;
use std::collections::HashMap;
use std::error::Error;
use std::sync::Arc;
use support::{bytes_of, damaged_words, documents_of_words, many_blocks, words, written, EMPTY};
use zevkhadun::{FaultPlace, Refusal, Store};

#[test]
fn documents_come_back_by_number() {
    let file = words();
    let store = Store::open(&file).unwrap();
    assert_eq!(store.len(), 64);
    for (id, document) in documents_of_words().iter().enumerate() {
        let id = id as u32;
        assert_eq!(store.get(id), Ok(document.as_slice()));
        assert_eq!(&file[store.locate(id).unwrap()], document);
        assert_eq!(zevkhadun::get(&file, id), Ok(document.as_slice()));
    }
    for id in [64, u32::MAX] {
        assert_eq!(store.get(id), Err(Refusal::NoDocument));
        assert_eq!(store.locate(id), Err(Refusal::NoDocument));
        assert_eq!(zevkhadun::get(&file, id), Err(Refusal::NoDocument));
    }
    assert_eq!(zevkhadun::num_docs(&file), Ok(64));
}

#[test]
fn a_store_takes_its_bytes_from_any_type_that_has_them() {
    fn is_read<D: AsRef<[u8]>>(file: D) -> D {
        let store = Store::open(file).unwrap();
        assert_eq!(store.get(1), Ok(documents_of_words()[1].as_slice()));
        assert_eq!(store.get_ref().as_ref(), store.file());
        store.into_inner()
    }

    let file = words();
    let array: &[u8; 29] = &bytes_of(EMPTY).try_into().unwrap();
    assert!(Store::open(array).unwrap().is_empty());
    is_read(file.as_slice());
    is_read(&file);
    is_read(Cow::Borrowed(file.as_slice()));
    is_read(Arc::<[u8]>::from(file.as_slice()));
    is_read(file.clone().into_boxed_slice());
    assert_eq!(is_read(file.clone()), file);
}

#[test]
fn stores_that_own_their_bytes_are_kept() {
    let mut stores: HashMap<&str, Store<Vec<u8>>> = HashMap::new();
    stores.insert("words", Store::open(words()).unwrap());
    stores.insert("empty", Store::open(bytes_of(EMPTY)).unwrap());
    assert_eq!(stores["words"].clone().get(6), stores["words"].get(6));
    assert!(stores["empty"].is_empty());
}

/// Bytes that are others at each call.
struct Changing<'f> {
    files: Vec<&'f [u8]>,
    next: Cell<usize>,
}

impl AsRef<[u8]> for Changing<'_> {
    fn as_ref(&self) -> &[u8] {
        self.next.set(self.next.get() + 1);
        self.files[(self.next.get() - 1) % self.files.len()]
    }
}

/// A store that is opened, by one call or the other.
type Opening<D> = fn(D) -> Result<Store<D>, Refusal>;

#[test]
fn bytes_that_change_between_calls_are_safe() {
    let openings: [Opening<Changing>; 2] = [Store::open, Store::open_without_check];
    let other = vec![0xff; 2000];
    for (file, open) in [words(), many_blocks()].iter().zip(openings) {
        let cut = &file[..300];
        for files in [[file, cut, &other, &[]], [file, &[], file, cut]] {
            let next = Cell::new(0);
            let files = files.to_vec();
            let store = open(Changing { files, next }).unwrap();
            for id in 0..70 {
                let _ = store.get(id);
                let _ = store.locate(id);
                assert_eq!(
                    store.range(id..).count(),
                    store.len().saturating_sub(id as usize)
                );
                assert!(store.iter().rev().filter_map(Result::ok).count() <= store.len());
            }
        }
    }
}

#[test]
fn a_store_of_no_documents_is_a_store() {
    let file = bytes_of(EMPTY);
    let store = Store::open(&file).unwrap();
    assert!(store.is_empty());
    assert_eq!(store.iter().count(), 0);
    assert_eq!(store.get(0), Err(Refusal::NoDocument));
    assert_eq!(store.verify(), Ok(()));
}

#[test]
fn documents_outlive_the_store() {
    let file = words();
    let place = Store::open(&file).unwrap().locate(1).unwrap();
    assert_eq!(&file[place], documents_of_words()[1]);
}

#[test]
fn cut_files_are_refused() {
    let file = words();
    for cut in 0..file.len() {
        let refusal = Store::open(&file[..cut]).unwrap_err();
        assert_eq!(refusal == Refusal::ShortFile, cut < 28);
        assert_eq!(
            zevkhadun::verify(&file[..cut]).unwrap_err().refusal,
            refusal
        );
    }
    assert!(Store::open(&file).is_ok());
}

#[test]
fn facts_are_those_of_the_file() {
    let file = words();
    let facts = Store::open(&file).unwrap().facts();
    assert_eq!((facts.version, facts.period), (3, 3));
    assert_eq!((facts.documents, facts.blocks), (64, Some(13)));
    assert_eq!(facts.file_bytes, file.len());
    assert_eq!(facts.data_bytes + facts.index_bytes + 28, file.len());
    let data_bytes = u64::from_le_bytes(file[file.len() - 24..][..8].try_into().unwrap());
    assert_eq!(facts.data_bytes as u64, data_bytes);
}

#[test]
fn the_period_of_the_older_versions_is_8() {
    let mut file = written(&[b"apple".to_vec()], 50, 8);
    let footer = file.len() - 28;
    for version in [1, 2] {
        (file[footer], file[footer + 13]) = (version, 0);
        let facts = Store::open(&file).unwrap().facts();
        assert_eq!((facts.version, facts.period), (u32::from(version), 8));
    }
}

#[test]
fn the_first_fault_has_its_place() {
    let file = words();
    let index = Store::open(&file).unwrap().facts().data_bytes;
    assert_eq!(zevkhadun::verify(&file), Ok(()));
    let faults = [
        (
            111,
            Refusal::DamagedDocument,
            FaultPlace::Document { doc_id: 3 },
        ),
        (
            index,
            Refusal::BadIndex,
            FaultPlace::LayerList { byte: index },
        ),
        (file.len() - 28, Refusal::BadVersion, FaultPlace::File),
    ];
    for (byte, refusal, place) in faults {
        let mut file = file.clone();
        file[byte] ^= 0x7f;
        let fault = zevkhadun::verify(&file).unwrap_err();
        assert_eq!((fault.refusal, fault.place), (refusal, place), "at {byte}");
        assert_eq!(fault.source().unwrap().to_string(), refusal.to_string());
        assert!(fault.to_string().ends_with(&refusal.to_string()));
    }
}

#[test]
fn a_fault_of_the_index_has_the_layer_of_its_run() {
    let file = words();
    let facts = Store::open(&file).unwrap().facts();
    let index = facts.data_bytes..facts.data_bytes + facts.index_bytes;
    let mut runs = Vec::new();
    for byte in index.clone() {
        let mut file = file.clone();
        file[byte] ^= 1;
        let place = zevkhadun::verify(&file).unwrap_err().place;
        if let FaultPlace::Run { byte, layer } = place {
            assert!(index.contains(&byte));
            runs.push((byte, layer));
        }
    }
    // Layers are written from the top down.
    runs.sort();
    let mut layers: Vec<u32> = runs.iter().map(|&(_, layer)| layer).collect();
    layers.dedup();
    assert_eq!(layers, [2, 1, 0]);
}

#[test]
fn an_index_that_does_not_cover_the_data_is_a_fault() {
    let mut file = words();
    let index = Store::open(&file).unwrap().facts().data_bytes;
    // A byte more of data, which no block has; the footer says where the index begins.
    file.insert(index, 0);
    let footer = file.len() - 28;
    file[footer + 4..][..8].copy_from_slice(&(index as u64 + 1).to_le_bytes());
    assert_eq!(Store::open(&file).unwrap_err(), Refusal::BadIndex);
    let fault = zevkhadun::verify(&file).unwrap_err();
    assert_eq!(fault.place, FaultPlace::Cover { byte: index + 1 });
}

#[test]
fn threads_share_a_store() {
    let store = Store::open(damaged_words()).unwrap();
    let documents = documents_of_words();
    std::thread::scope(|scope| {
        for _ in 0..8 {
            scope.spawn(|| {
                for (id, document) in documents.iter().enumerate().skip(5) {
                    assert_eq!(store.get(id as u32), Ok(document.as_slice()));
                }
            });
        }
    });
}

#[test]
fn stores_go_to_threads() {
    fn is_shared<T: Send + Sync + 'static>(_: T) {}

    is_shared(Store::open(words()).unwrap());
}

#[test]
fn a_store_is_printed_without_its_bytes() {
    let text = format!("{:?}", Store::open(words()).unwrap());
    assert!(text.contains("documents: 64") && text.len() < 300, "{text}");
}
