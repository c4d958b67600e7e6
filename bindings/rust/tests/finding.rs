//! Keys wherever a search of a snapshot may end, beside a walk over its entries.
use kotuseraw::entry::KEYS;
use kotuseraw::{BlockPlace, Compaction, Entry, Found, Index, LogIndex, Snapshot, Upto};

/// So many entries with ascending keys and room between them; the first key is 0, or the last the largest number, where that is asked.
fn ascending(n: usize, zero: bool, largest: bool) -> Vec<Entry> {
    let mut keys: Vec<u64> = (1..=n as u64).map(|i| 1000 * i).collect();
    if let Some(first) = keys.first_mut().filter(|_| zero) {
        *first = 0;
    }
    if let Some(last) = keys.last_mut().filter(|_| largest) {
        *last = u64::MAX;
    }
    let entry = |(i, key)| if i % 3 == 2 { Entry::removed(key) } else { Entry::put(key, BlockPlace(i as u64)) };
    keys.into_iter().enumerate().map(entry).collect()
}

/// A log whose snapshot has these entries, the last folded first.
fn compacted(entries: &[Entry]) -> Index {
    let mut index = Index::fresh(0).unwrap();
    for entry in entries.iter().rev() {
        index.append(*entry).unwrap();
    }
    index.set_decided_idx(LogIndex(entries.len() as u64)).unwrap();
    index.compact(Compaction::Snapshot, Upto::All).unwrap();
    index
}

fn walked(entries: &[Entry], key: u64) -> Found {
    let told = |entry: &Entry| entry.place().map_or(Found::Removed, Found::Place);
    entries.iter().find(|entry| entry.key() == key).map_or(Found::Unknown, told)
}

#[test]
fn a_key_is_found_where_it_stands() {
    for n in [0, 1, 2, 3, KEYS - 1, KEYS] {
        for (zero, largest) in [(false, false), (true, false), (false, true), (true, true)] {
            let entries = ascending(n, zero, largest);
            let (snapshot, index) = (Snapshot::fold(&entries).unwrap(), compacted(&entries));
            assert_eq!((snapshot.entries(), index.snapshot().unwrap_or(&[])), (&entries[..], &entries[..]));
            let near = entries.iter().map(Entry::key).flat_map(|key| [key.wrapping_sub(1), key, key.wrapping_add(1)]);
            for key in near.chain([0, u64::MAX]) {
                let due = walked(&entries, key);
                assert_eq!((snapshot.find(key), index.lookup(key).unwrap()), (due, due), "{key} among {n}");
            }
        }
    }
}
