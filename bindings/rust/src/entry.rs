//! Entries: a key with the place of its block, or removed; how they lie in the library's words, and how many there may be.
use crate::plain::BlockPlace;
use std::{fmt, mem};

/// The word of a removed key in place of a place.
pub const REMOVED: u64 = u64::MAX;
/// Every block place is below this.
pub const PLACES: u64 = 1 << 48;
/// Entries that a log has room for.
pub const ENTRIES: usize = 1024;
/// Keys that a snapshot has room for.
pub const KEYS: usize = 512;
/// Words an entry.
pub const WIDTH: usize = mem::size_of::<Entry>() / WORD;
/// Words of a log's slice.
pub const LOG_WORDS: usize = ENTRIES * WIDTH;
/// Words of a snapshot's slice.
pub const SNAPSHOT_WORDS: usize = KEYS * WIDTH;
/// Bytes of a word.
const WORD: usize = mem::size_of::<u64>();

/// A key put at a block place, or removed. Its words are those of the library's slices.
#[repr(C)]
#[derive(Clone, Copy, PartialEq, Eq, Hash)]
pub struct Entry {
    key: u64,
    word: u64,
}

impl Entry {
    /// A key at a block place. A place of [`PLACES`] or more is in no form: every call refuses it with 11.
    pub const fn put(key: u64, place: BlockPlace) -> Entry {
        // No place is taken for the word of a removed key.
        let word = if place.0 < PLACES { place.0 } else { PLACES };
        Entry { key, word }
    }

    pub const fn removed(key: u64) -> Entry {
        Entry { key, word: REMOVED }
    }

    pub const fn key(&self) -> u64 {
        self.key
    }

    /// None where the key is removed.
    pub const fn place(&self) -> Option<BlockPlace> {
        if self.word == REMOVED {
            None
        } else {
            Some(BlockPlace(self.word))
        }
    }
}

impl fmt::Debug for Entry {
    fn fmt(&self, f: &mut fmt::Formatter<'_>) -> fmt::Result {
        match self.place() {
            Some(place) => write!(f, "{} at {}", self.key, place.0),
            None => write!(f, "{} removed", self.key),
        }
    }
}

/// Where among words an entry has the one that says its place, or that its key is removed.
pub const fn place_at(entry: usize) -> usize {
    entry * WIDTH + mem::offset_of!(Entry, word) / WORD
}

/// Entries as the library's words.
pub fn words(entries: &[Entry]) -> &[u64] {
    // SAFETY: an entry is WIDTH words and nothing else, in this order.
    unsafe { std::slice::from_raw_parts(entries.as_ptr().cast(), entries.len() * WIDTH) }
}

/// Words as entries; a last one that is not whole is left out.
pub fn entries(words: &[u64]) -> &[Entry] {
    // SAFETY: any WIDTH words are an entry, which is aligned as a word is.
    unsafe { std::slice::from_raw_parts(words.as_ptr().cast(), words.len() / WIDTH) }
}
