//! The calls that do not judge the form of the state again: for an [`Index`](crate::Index), which is well formed since it was made and
//! after each call, and whose words nobody else writes. Each is otherwise the call of the same name in [`plain`](crate::plain).
//!
//! # Safety
//! Of each: the state must be well formed, as [`plain::well_formed`](crate::plain::well_formed) judges it.
use crate::plain::{export, Ballot, BlockPlace, Bound, IndexRecord, LogIndex, Reply, Said, ShownSaid, StopSign};

macro_rules! exports {
    ($($name:ident($($args:tt)*) -> $out:ty = $symbol:literal;)*) => {
        $(export! { ready $name($($args)*,) -> $out = $symbol })*
    };
}

exports! {
    lookup(index: IndexRecord, log: &[u64], snapshot: &[u64], key: u64) -> Said = "kotuseraw_inner_lookup";
    lookup_many(index: IndexRecord, log: &[u64], snapshot: &[u64], keys: &[u64], replies: &mut [u64]) -> Said = "kotuseraw_inner_lookup_many";
    read(index: IndexRecord, log: &[u64], snapshot: &[u64], from: Bound, to: Bound) -> ShownSaid = "kotuseraw_inner_read";
    read_decided_suffix(index: IndexRecord, log: &[u64], snapshot: &[u64], from: LogIndex) -> ShownSaid = "kotuseraw_inner_read_decided_suffix";
    get_entries(index: IndexRecord, log: &[u64], snapshot: &[u64], from: LogIndex, to: LogIndex) -> Said = "kotuseraw_inner_get_entries";
    get_suffix(index: IndexRecord, log: &[u64], snapshot: &[u64], from: LogIndex) -> Said = "kotuseraw_inner_get_suffix";
    get_accepted_idx(index: IndexRecord, log: &[u64], snapshot: &[u64]) -> Said = "kotuseraw_inner_get_accepted_idx";
    get_decided_idx_without_stopsign(index: IndexRecord, log: &[u64], snapshot: &[u64]) -> Said = "kotuseraw_inner_get_decided_idx_without_stopsign";
    stopsign_is_decided(index: IndexRecord, log: &[u64], snapshot: &[u64]) -> Said = "kotuseraw_inner_stopsign_is_decided";
    append_entry_with_batching(index: IndexRecord, log: &mut [u64], snapshot: &[u64], key: u64, removed: bool, place: BlockPlace) -> Reply = "kotuseraw_inner_append_entry_with_batching";
    append_entries_with_batching(index: IndexRecord, log: &mut [u64], snapshot: &[u64], entries: &[u64]) -> Reply = "kotuseraw_inner_append_entries_with_batching";
    append_entries_and_get_accepted_idx(index: IndexRecord, log: &mut [u64], snapshot: &[u64], entries: &[u64]) -> Reply = "kotuseraw_inner_append_entries_and_get_accepted_idx";
    append_entries_without_batching(index: IndexRecord, log: &mut [u64], snapshot: &[u64], entries: &[u64]) -> Reply = "kotuseraw_inner_append_entries_without_batching";
    flush_batch(index: IndexRecord, log: &[u64], snapshot: &[u64]) -> Reply = "kotuseraw_inner_flush_batch";
    flush_batch_and_get_entries(index: IndexRecord, log: &[u64], snapshot: &[u64]) -> Reply = "kotuseraw_inner_flush_batch_and_get_entries";
    append_stopsign(index: IndexRecord, log: &[u64], snapshot: &[u64], ss: StopSign) -> Reply = "kotuseraw_inner_append_stopsign";
    set_stopsign(index: IndexRecord, log: &[u64], snapshot: &[u64], held: bool, ss: StopSign) -> Reply = "kotuseraw_inner_set_stopsign";
    set_promise(index: IndexRecord, log: &[u64], snapshot: &[u64], n_prom: Ballot) -> Reply = "kotuseraw_inner_set_promise";
    set_decided_idx(index: IndexRecord, log: &[u64], snapshot: &[u64], idx: LogIndex) -> Reply = "kotuseraw_inner_set_decided_idx";
    compact(index: IndexRecord, log: &mut [u64], snapshot: &mut [u64], folds: bool, given: bool, idx: LogIndex) -> Reply = "kotuseraw_inner_compact";
}
