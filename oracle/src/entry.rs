//! How entries and replies lie in words: no other file knows how many words each has, and which of them says what.
use crate::backend::Change;
use crate::limits::{ENTRIES, KEYS, PLACES};

/// Words an entry: its key, then its place.
const WIDTH: usize = 2;
/// The word of a removed key in place of a place.
pub const REMOVED: u64 = u64::MAX;
/// Words a reply.
const REPLY_WIDTH: usize = 1;
/// The word of an unknown key in a reply.
const UNKNOWN: u64 = u64::MAX - 1;
/// Words of a log's slice, and of a snapshot's.
pub const LOG_WORDS: usize = at(ENTRIES);
pub const SNAPSHOT_WORDS: usize = at(KEYS);

/// Where an entry begins: after the words of so many entries.
pub const fn at(entry: u64) -> usize {
    entry as usize * WIDTH
}

/// Where an entry has its place, or that its key is removed.
pub const fn place_at(entry: u64) -> usize {
    at(entry) + 1
}

/// How many entries words are.
pub fn count(words: &[u64]) -> u64 {
    (words.len() / WIDTH) as u64
}

/// Whether words are whole entries.
pub fn whole(words: &[u64]) -> bool {
    words.len() % WIDTH == 0
}

/// Words as so many entries; those that are not there are zero.
pub fn first_changes(words: &[u64], n: u64) -> Vec<Change> {
    let word = |at: usize| words.get(at).copied().unwrap_or(0);
    (0..n)
        .map(|i| {
            let place = word(place_at(i));
            Change {
                key: word(at(i)),
                place: (place != REMOVED).then_some(place),
            }
        })
        .collect()
}

/// Words as entries.
pub fn changes(words: &[u64]) -> Vec<Change> {
    first_changes(words, count(words))
}

pub fn words(entries: &[Change]) -> Vec<u64> {
    entries
        .iter()
        .flat_map(|e| [e.key, e.place.unwrap_or(REMOVED)])
        .collect()
}

/// The words of so many entries from one on, where all of them are there.
pub fn part(words: &[u64], first: u64, n: u64) -> Option<&[u64]> {
    let end = first.checked_add(n).filter(|end| *end <= count(words))?;
    Some(&words[at(first)..at(end)])
}

/// The word for a place, or for removed.
pub fn place_formed(word: u64) -> bool {
    word < PLACES || word == REMOVED
}

pub fn formed(entry: &Change) -> bool {
    entry.place.is_none_or(|place| place < PLACES)
}

/// An entry slice in form.
pub fn entries_formed(words: &[u64]) -> bool {
    whole(words) && changes(words).iter().all(formed)
}

/// How many words so many replies have.
pub const fn replies_at(n: usize) -> usize {
    n * REPLY_WIDTH
}

/// The words of a reply: what is said of a key, or nothing.
pub fn reply(said: Option<Option<u64>>) -> [u64; REPLY_WIDTH] {
    [said.map_or(UNKNOWN, |place| place.unwrap_or(REMOVED))]
}

/// The i-th reply of some words.
pub fn reply_at(words: &[u64], i: u64) -> Option<Option<u64>> {
    let word = *words.get(usize::try_from(i).ok()?)?;
    (word != UNKNOWN).then_some((word != REMOVED).then_some(word))
}
