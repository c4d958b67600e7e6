//! Many keys in one lookup, beside the lookup of each.
use kotuseraw::entry::{ENTRIES, KEYS, PLACES};
use kotuseraw::plain::{self, MOST_ASKED, REPLY_WIDTH};
use kotuseraw::{BlockPlace, Compaction, Entry, Found, Index, IndexRecord, LogIndex, Upto, View};

/// What no call writes: the word of no place, and of no key that is removed or unknown.
const MARK: u64 = PLACES + 7;

/// A log and a snapshot that are full: of every third key the snapshot says that it is removed, of every fourth the log says something
/// else, and its last entry is not decided.
fn full() -> Index {
    let entry = |i: u64| if i % 3 == 2 { Entry::removed(i) } else { Entry::put(i, BlockPlace(i)) };
    let held: Vec<Entry> = (0..KEYS as u64).map(entry).collect();
    let over: Vec<Entry> = (0..ENTRIES as u64).map(|i| entry(4 * i + i % 2)).collect();
    let mut index = Index::fresh(0).unwrap();
    index.append_entries_with_batching(&held).unwrap();
    index.set_decided_idx(LogIndex(KEYS as u64)).unwrap();
    index.compact(Compaction::Snapshot, Upto::All).unwrap();
    index.append_entries_with_batching(&over).unwrap();
    index.set_decided_idx(LogIndex((KEYS + ENTRIES - 1) as u64)).unwrap();
    assert_eq!((index.record().keys, index.record().retained), (KEYS, ENTRIES));
    index
}

/// The number that the call on lent words is answered with, and the reply words after it, of so many that are lent.
fn asked(record: &IndexRecord, index: &Index, keys: &[u64], words: usize) -> (u64, Vec<u64>) {
    let mut replies = vec![MARK; words];
    let said = plain::lookup_many(*record, index.log(), index.snapshot_words(), keys, &mut replies);
    (said.number, replies)
}

/// Some keys are asked, of an owned index and of a lent one: each reply is the single lookup's, and the words after them stay.
fn hold(index: &Index, keys: &[u64]) {
    let due: Vec<Found> = keys.iter().map(|key| index.lookup(*key).unwrap()).collect();
    assert_eq!(index.lookup_many(keys).unwrap().collect::<Vec<_>>(), due);
    let (mut record, mut log, mut snapshot) = (*index.record(), index.log().to_vec(), index.snapshot_words().to_vec());
    let view = View { record: &mut record, log: &mut log, snapshot: &mut snapshot };
    assert_eq!(view.lookup_many(keys).unwrap().collect::<Vec<_>>(), due);
    let mut replies = asked(index.record(), index, keys, keys.len() * REPLY_WIDTH).1;
    for _ in 0..3 {
        replies.push(MARK);
        assert_eq!(asked(index.record(), index, keys, replies.len()), (0, replies.clone()));
    }
}

#[test]
fn each_reply_is_the_single_lookups() {
    let most = MOST_ASKED as u64;
    for index in [Index::fresh(0).unwrap(), full()] {
        hold(&index, &[]);
        for from in (0..4 * ENTRIES as u64 + most).step_by(most as usize) {
            hold(&index, &(from..from + most).collect::<Vec<_>>());
        }
        hold(&index, &[u64::MAX, 0, u64::MAX - 1]);
    }
}

#[test]
fn keys_may_be_repeated() {
    let index = full();
    hold(&index, &[5; MOST_ASKED]);
    let keys: Vec<u64> = (0..MOST_ASKED as u64).map(|i| i % 7 * 100).collect();
    hold(&index, &keys);
    let found: Vec<Found> = index.lookup_many(&keys).unwrap().collect();
    assert_eq!(found[..7], found[7..14]);
}

#[test]
fn too_many_keys_or_too_few_places_are_11_and_12_comes_first() {
    let index = full();
    let mut ill_formed = *index.record();
    ill_formed.keys -= 1;
    for (n, words) in [
        (MOST_ASKED + 1, REPLY_WIDTH * (MOST_ASKED + 1)),
        (MOST_ASKED + 1, 0),
        (MOST_ASKED, REPLY_WIDTH * MOST_ASKED - 1),
        (1, 0),
        (10 * MOST_ASKED, REPLY_WIDTH * 10 * MOST_ASKED),
    ] {
        let keys: Vec<u64> = (0..n as u64).collect();
        assert_eq!(asked(index.record(), &index, &keys, words), (11, vec![MARK; words]), "{n} keys, {words} words");
        assert_eq!(asked(&ill_formed, &index, &keys, words), (12, vec![MARK; words]), "{n} keys, {words} words");
    }
    assert_eq!(asked(&ill_formed, &index, &[], 0), (12, vec![]));
    assert_eq!(index.lookup_many(&[1; MOST_ASKED + 1]).err().map(|refused| refused.number()), Some(11));
}

#[test]
fn a_place_of_0_is_no_unknown_key() {
    let mut index = Index::fresh(0).unwrap();
    index.append_entries_with_batching(&[Entry::put(1, BlockPlace(0)), Entry::removed(2), Entry::put(3, BlockPlace(PLACES - 1))]).unwrap();
    index.set_decided_idx(LogIndex(3)).unwrap();
    let due = [Found::Place(BlockPlace(0)), Found::Removed, Found::Place(BlockPlace(PLACES - 1)), Found::Unknown];
    assert_eq!(index.lookup_many(&[1, 2, 3, 4]).unwrap().collect::<Vec<_>>(), due);
    hold(&index, &[1, 2, 3, 4]);
}
