//! The iterators, beside those of the standard library over the same documents.

mod support;

use std::iter::FusedIterator;
use support::{damaged_words, documents_of_words, words, written};
use zevkhadun::{Documents, Refusal, Store};

type Item<'f> = Result<&'f [u8], Refusal>;

/// A store of 300 documents, more than an iterator looks up at once, of which 150 and 151 are damaged.
fn damaged() -> Vec<u8> {
    let documents: Vec<Vec<u8>> = (0..300).map(|id| format!("{id}").into_bytes()).collect();
    let mut file = written(&documents, 1000, 3);
    // The second block has the documents from 101 up to 191, and after them where each begins.
    let store = Store::open(&file).unwrap();
    let starts = store.locate(191).unwrap().end;
    assert_eq!(store.locate(192).unwrap().start, starts + 4 * 91 + 4);
    file[starts + 4 * 50..][..4].fill(0xff);
    file
}

/// What a store answers by number, in order.
fn answers<D: AsRef<[u8]>>(store: &Store<D>) -> Vec<Item<'_>> {
    (0..store.len() as u32).map(|id| store.get(id)).collect()
}

#[test]
fn an_iteration_gives_all_in_order() {
    let store = Store::open(words()).unwrap();
    let documents = documents_of_words();
    assert!(store
        .iter()
        .map(Result::unwrap)
        .eq(documents.iter().map(Vec::as_slice)));
    assert_eq!((&store).into_iter().len(), 64);
}

#[test]
fn a_damaged_document_is_an_item_and_the_iteration_goes_on() {
    for file in [damaged_words(), damaged()] {
        let store = Store::open(&file).unwrap();
        let wanted = answers(&store);
        let damaged = wanted
            .iter()
            .filter(|item| **item == Err(Refusal::DamagedDocument));
        assert_eq!(damaged.count(), 2);
        assert_eq!(store.iter().collect::<Vec<_>>(), wanted);
        let backward: Vec<_> = store.iter().rev().collect();
        assert!(backward.iter().eq(wanted.iter().rev()));
    }
}

#[test]
fn sound_documents_come_with_their_numbers() {
    for file in [words(), damaged_words(), damaged()] {
        let store = Store::open(&file).unwrap();
        let wanted: Vec<(u32, &[u8])> = (0..)
            .zip(answers(&store))
            .filter_map(|(id, item)| Some((id, item.ok()?)))
            .collect();
        let sound = store.iter().sound();
        assert_eq!(sound.size_hint(), (0, Some(store.len())));
        assert!(sound.clone().eq(wanted.iter().copied()));
        assert!(sound.rev().eq(wanted.iter().rev().copied()));
    }
}

#[test]
fn a_range_is_that_part_of_the_documents() {
    let store = Store::open(words()).unwrap();
    let all = answers(&store);
    for start in [0, 1, 5, 63, 64, 65, u32::MAX] {
        for end in [0, 1, 63, 64, 65, u32::MAX] {
            let (from, to) = (start.min(64) as usize, end.min(64) as usize);
            let wanted = &all[from.min(to)..to];
            assert_eq!(store.range(start..end).collect::<Vec<_>>(), wanted);
        }
        let from = start.min(64) as usize;
        assert_eq!(store.range(start..).collect::<Vec<_>>(), all[from..]);
        assert_eq!(store.range(..start).collect::<Vec<_>>(), all[..from]);
        let to = (u64::from(start) + 1).min(64) as usize;
        assert_eq!(store.range(..=start).collect::<Vec<_>>(), all[..to]);
    }
    assert_eq!(store.range(0..=u32::MAX).len(), 64);
}

/// One step of two iterators, which is the same.
fn assert_same_step<'f>(
    step: u32,
    ours: &mut Documents<'f>,
    wanted: &mut impl DoubleEndedIterator<Item = Item<'f>>,
) {
    let n = (step / 4 % 7 * step / 28 % 90) as usize;
    match step % 4 {
        0 => assert_eq!(ours.next(), wanted.next()),
        1 => assert_eq!(ours.next_back(), wanted.next_back()),
        2 => assert_eq!(ours.nth(n), wanted.nth(n)),
        _ => assert_eq!(ours.nth_back(n), wanted.nth_back(n)),
    }
}

#[test]
fn any_steps_from_both_ends_are_those_of_a_vector() {
    let file = damaged();
    let store = Store::open(&file).unwrap();
    let all = answers(&store);
    let mut random = 1u32;
    for _ in 0..500 {
        let mut ours = store.iter();
        let mut wanted = all.iter().copied();
        while wanted.len() > 0 {
            random = random.wrapping_mul(1664525).wrapping_add(1013904223);
            assert_same_step(random >> 8, &mut ours, &mut wanted);
            assert_eq!(ours.len(), wanted.len());
            assert_eq!(ours.size_hint(), wanted.size_hint());
        }
        assert_eq!((ours.next(), ours.next_back()), (None, None));
        assert_eq!((ours.nth(1), ours.nth_back(usize::MAX)), (None, None));
    }
}

#[test]
fn the_end_comes_by_every_way() {
    fn is_fused<T: FusedIterator + ExactSizeIterator + DoubleEndedIterator + Clone>(_: &T) {}

    let store = Store::open(words()).unwrap();
    is_fused(&store.iter());
    let last = documents_of_words()[63].clone();
    assert_eq!(store.iter().last(), Some(Ok(last.as_slice())));
    assert_eq!(store.range(0..0).last(), None);
    assert_eq!(store.iter().skip(60).count(), 4);
    assert_eq!(store.iter().nth(usize::MAX), None);
    assert_eq!(store.iter().step_by(10).count(), 7);
    assert_eq!(format!("{:?}", store.range(3..9)), "Documents(3..9)");
}
