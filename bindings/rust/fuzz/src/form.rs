//! Document 01's forms, and those of document 02's elections, read once more: from their texts, not from the library. The limits, and how entries lie in words, are the crate's.
//! Sums are made of wide numbers, so none wraps.
use crate::states::State;
use kotuseraw::entry::{entries, words, PLACES, REMOVED, WIDTH};
use kotuseraw::plain::{BallotLeaderElection, IndexRecord, StopSign, LARGEST_BATCH, LARGEST_INDEX};
use kotuseraw::{Entry, LOG_WORDS, SNAPSHOT_WORDS};

/// The word of an unknown key in a reply.
pub const UNKNOWN: u64 = REMOVED - 1;

fn zero(words: &[u64]) -> bool {
    words.iter().all(|word| *word == 0)
}

pub fn place_formed(word: u64) -> bool {
    word < PLACES || word == REMOVED
}

fn formed(entry: &Entry) -> bool {
    entry.place().map_or(true, |place| place.0 < PLACES)
}

pub fn entries_formed(slice: &[u64]) -> bool {
    slice.len() % WIDTH == 0 && entries(slice).iter().all(formed)
}

/// So many entries in form, and zeros after them.
fn held_formed(slice: &[u64], n: u128) -> bool {
    let held = usize::try_from(n).ok().and_then(|n| entries(slice).get(..n));
    held.is_some_and(|held| held.iter().all(formed) && zero(&slice[words(held).len()..]))
}

pub fn snapshot_formed(slice: &[u64], keys: usize) -> bool {
    slice.len() == SNAPSHOT_WORDS
        && held_formed(slice, keys as u128)
        && entries(slice)[..keys].windows(2).all(|pair| pair[0].key() < pair[1].key())
}

pub fn sign_formed(sign: &StopSign) -> bool {
    let nodes = sign.nodes.get(sign.node_count..).is_some_and(zero);
    let metadata = sign.metadata.get(sign.metadata_len..).is_some_and(|unused| unused.iter().all(|byte| *byte == 0));
    sign.node_count > 0 && nodes && metadata && (sign.metadata_held || sign.metadata_len == 0)
}

fn numbers_formed(record: &IndexRecord) -> bool {
    let (compacted, decided) = (record.compacted.0 as u128, record.decided.0 as u128);
    let batched = record.batched as u128;
    let end = compacted + record.retained as u128;
    let accepted = end + record.stop_held as u128;
    let log_decided = if record.stop_held && decided == accepted { decided - 1 } else { decided };
    let batch = batched == 0 || (batched < record.batch_size as u128 && !record.stop_held);
    record.batch_size <= LARGEST_BATCH
        && compacted <= log_decided
        && log_decided <= end
        && decided <= accepted
        && accepted + batched <= LARGEST_INDEX.0 as u128
        && batch
}

pub fn well_formed(state: &State) -> bool {
    let record = &state.record;
    let snapshot = match record.snapshot_held {
        true => snapshot_formed(&state.snapshot, record.keys),
        false => state.snapshot.len() == SNAPSHOT_WORDS && record.keys == 0 && zero(&state.snapshot),
    };
    let stop = match record.stop_held {
        true => sign_formed(&record.stop),
        false => record.stop == StopSign::default(),
    };
    let entries = record.retained as u128 + record.batched as u128;
    numbers_formed(record) && stop && snapshot && state.log.len() == LOG_WORDS && held_formed(&state.log, entries)
}

/// What is held, and zeros after it.
fn list_formed<T: Default + PartialEq>(held: &[T], count: usize) -> bool {
    held.get(count..).is_some_and(|unused| unused.iter().all(|one| *one == T::default()))
}

pub fn election_formed(e: &BallotLeaderElection) -> bool {
    e.pid != 0
        && e.current_ballot.n <= e.leader.n
        && list_formed(&e.peers.held, e.peers.count)
        && list_formed(&e.heartbeat_replies.held, e.heartbeat_replies.count)
        && list_formed(&e.prev_replies.held, e.prev_replies.count)
        && list_formed(&e.outgoing.held, e.outgoing.count)
}
