//! What each call costs, beside the Rust original on the same states: instructions, which oracle/count.c counts below an emulator, or
//! nanoseconds, the least of many rounds.
use crate::backend::{Backend, Change, Keys, Shared, Sight};
use crate::ballot_leader_election::{opened, Ballot as RustBallot};
use crate::limits::{ENTRIES, KEYS, OUTGOING, PEERS, REPLIES};
use crate::sequence_paxos::{Phase, Role};
use crate::shown::{self, ABOVE, ADDED, FRESH, LARGEST, STATES};
use crate::storage::internal_storage::{InternalStorage, InternalStorageConfig};
use crate::storage::{
    Snapshot as _, SnapshotType as RustType, StopSign as RustStop, Storage, StorageOp,
};
use crate::store::change as changed;
use crate::util::LogSync as RustSync;
use crate::ClusterConfig;
use kotuseraw::image::ROOM;
use kotuseraw::plain::{METADATA, MOST_ASKED, NODES};
use kotuseraw::{
    plain, Ballot, BlockPlace, Compaction, Entry, Found, Index, Lent, LogIndex, LogSync, Op,
    Snapshot, SnapshotType, StopSign, Upto, View,
};
use std::collections::BTreeMap;
use std::hint::black_box;
use std::time::Instant;

/// A system call that there is not: a mark for oracle/count.c.
fn mark(n: usize) {
    // SAFETY: the kernel, and the emulator, refuse the number and change nothing.
    unsafe {
        std::arch::asm!("syscall", inlateout("rax") n => _, out("rcx") _, out("r11") _, options(nostack))
    }
}
const BEGIN: usize = 40000;
const END: usize = 40001;
const EMPTY: usize = 40002;

/// What is measured: a table, a row of it and a column.
type Cell = (String, String, String);

/// Counts, or times.
enum Meter {
    /// The counter prints the number, and the name of the cell comes after it.
    Counting,
    Timing(BTreeMap<Cell, u128>),
}

impl Meter {
    #[inline(always)]
    fn of<R>(&mut self, table: &str, row: &str, column: &str, call: impl FnOnce() -> R) -> R {
        let cell = (table.to_string(), row.to_string(), column.to_string());
        match self {
            Meter::Counting => {
                mark(BEGIN);
                let made = black_box(call());
                mark(END);
                eprintln!("{table}\t{row}\t{column}");
                made
            }
            Meter::Timing(least) => {
                let began = Instant::now();
                let made = black_box(call());
                let took = began.elapsed().as_nanos();
                least
                    .entry(cell)
                    .and_modify(|held| *held = took.min(*held))
                    .or_insert(took);
                made
            }
        }
    }
}

type Original = InternalStorage<Shared, Change>;

/// With room for entries: a `Vec` that grows moves all it has, which is not what an append costs as a rule.
fn original(held: &Backend) -> Original {
    let mut held = held.clone();
    held.log.reserve(ENTRIES as usize);
    let shared = Shared::of(held);
    InternalStorage::with(shared, InternalStorageConfig { batch_size: 0 })
}

/// The same state for both.
struct Both {
    index: Index,
    held: Backend,
    end: u64,
}

/// Keys far apart and in no order.
fn key(i: u64) -> u64 {
    (i * 7919 % KEYS) * 1_000_003 + 17
}

impl Both {
    /// So many keys in the snapshot, then so many entries over half of them, all decided but the last.
    fn with(keys: u64, entries: u64) -> Both {
        let run =
            |n: u64, over: u64, from: u64| (0..n).map(move |i| (key(i % over.max(1)), from + i));
        let over = if keys > 0 { keys / 2 } else { KEYS };
        let end = keys + entries;
        let mut index = Index::fresh(0).unwrap();
        let shared = Shared::default();
        let mut rust =
            InternalStorage::with(shared.clone(), InternalStorageConfig { batch_size: 0 });
        for (part, n, over) in [("keys", keys, keys), ("entries", entries, over)] {
            for (key, place) in run(n, over, 0) {
                index.append(Entry::put(key, BlockPlace(place))).unwrap();
                let place = Some(place);
                rust.append_entry_with_batching(Change { key, place })
                    .unwrap();
            }
            if part == "keys" {
                index.set_decided_idx(LogIndex(keys)).unwrap();
                rust.set_decided_idx(keys as usize).unwrap();
                index.compact(Compaction::Snapshot, Upto::All).unwrap();
                rust.try_snapshot(None).unwrap();
            }
        }
        index
            .set_decided_idx(LogIndex(end.saturating_sub(1).max(keys)))
            .unwrap();
        rust.set_decided_idx(end.saturating_sub(1).max(keys) as usize)
            .unwrap();
        let held = shared.0.borrow().clone();
        let both = Both { index, held, end };
        both.same();
        both
    }

    /// A copy of its record and words, to lend.
    fn lent(&self) -> (plain::IndexRecord, Vec<u64>, Vec<u64>) {
        let index = &self.index;
        (
            *index.record(),
            index.log().to_vec(),
            index.snapshot_words().to_vec(),
        )
    }

    /// The entries that are decided.
    fn decided(&self) -> &[Change] {
        &self.held.log[..self.held.decided - self.held.start]
    }

    /// The keys that the snapshot alone has, ascending.
    fn alone(&self) -> Vec<u64> {
        let keys = self.index.snapshot().unwrap_or(&[]).iter().map(Entry::key);
        keys.filter(|key| self.held.log.iter().all(|e| e.key != *key))
            .collect()
    }

    fn same(&self) {
        let record = self.index.record();
        let numbers = (
            self.held.log.len(),
            self.held.compacted as u64,
            self.held.decided as u64,
        );
        assert_eq!(
            (record.retained, record.compacted.0, record.decided.0),
            numbers
        );
        let pairs = |run: &[Entry]| -> Vec<(u64, Option<u64>)> {
            run.iter()
                .map(|e| (e.key(), e.place().map(|p| p.0)))
                .collect()
        };
        let entries: Vec<_> = self.held.log.iter().map(|e| (e.key, e.place)).collect();
        assert_eq!(
            pairs(self.index.get_suffix(record.compacted).unwrap()),
            entries
        );
        let keys = self.held.snapshot.clone().unwrap_or_default();
        assert_eq!(
            pairs(self.index.snapshot().unwrap_or(&[])),
            keys.0.into_iter().collect::<Vec<_>>()
        );
    }
}

/// Calls, each on the same state three ways: lent, owned, and the original's.
macro_rules! cases {
    ($meter:ident, $state:ident; $($row:literal on $both:ident: |$i:ident| $ours:expr, |$r:ident| $rust:expr;)*) => {$({
        let (mut record, mut log, mut snapshot) = $both.lent();
        let mut view = View { record: &mut record, log: &mut log, snapshot: &mut snapshot };
        let $i = &mut view;
        let lent = $meter.of("call", $row, &format!("lent, {}", $state), || $ours).is_ok();
        let mut index = $both.index.clone();
        let $i = &mut index;
        let owned = $meter.of("call", $row, &format!("owned, {}", $state), || $ours).is_ok();
        let mut rust = original(&$both.held);
        let $r = &mut rust;
        let rusts = $meter.of("call", $row, &format!("Rust, {}", $state), || $rust).is_ok();
        assert!(lent && owned && rusts, "{} on {}", $row, $state);
    })*};
}

fn put(i: u64) -> Entry {
    Entry::put(i, BlockPlace(i))
}

fn change(i: u64) -> Change {
    Change {
        key: i,
        place: Some(i),
    }
}

/// Every call on an empty, a half and a full state.
fn calls(meter: &mut Meter) {
    for (state, keys, entries) in STATES {
        let both = &Both::with(keys, entries);
        // Where the call adds entries the full state has room for them.
        let room = &Both::with(keys, entries.min(ENTRIES - ADDED));
        let (low, end) = (LogIndex(keys), LogIndex(both.end));
        let mid = LogIndex(keys + entries / 2);
        let (mid_at, end_at) = (mid.0 as usize, end.0 as usize);
        let sixteen: Vec<Entry> = (0..ADDED).map(put).collect();
        let changes: Vec<Change> = (0..ADDED).map(change).collect();
        let (snapshot, made) = (Snapshot::fold(&sixteen).unwrap(), Keys::create(&changes));
        let ballot = Ballot {
            n: 1,
            ..Ballot::default()
        };
        let rust_ballot = RustBallot::with(0, 1, 0, 0);
        let sign = StopSign::new(1, &[1, 2, 3], None).unwrap();
        let rust_sign = RustStop::with(
            ClusterConfig {
                configuration_id: 1,
                nodes: vec![1, 2, 3],
                flexible_quorum: None,
            },
            None,
        );
        let sync = LogSync {
            sync_idx: end,
            decided_snapshot: SnapshotType::Complete(&snapshot),
            suffix: &sixteen,
            stopsign: None,
        };
        let rust_sync = || RustSync {
            sync_idx: end_at,
            decided_snapshot: Some(RustType::Complete(made.clone())),
            suffix: changes.clone(),
            stopsign: None,
        };
        let (record, log, snapshot) = both.lent();
        meter.of("call", "well_formed", &format!("lent, {state}"), || {
            plain::well_formed(record, &log, &snapshot)
        });
        cases! { meter, state;
            "append (one entry)" on room: |i| i.append(put(5)), |r| r.append_entry_with_batching(change(5));
            "append_entries_with_batching (16)" on room:
                |i| i.append_entries_with_batching(&sixteen), |r| r.append_entries_with_batching(changes.clone());
            "append_entries_and_get_accepted_idx (16)" on room:
                |i| i.append_entries_and_get_accepted_idx(&sixteen), |r| r.append_entries_and_get_accepted_idx(changes.clone());
            "append_entries_without_batching (16)" on room:
                |i| i.append_entries_without_batching(&sixteen), |r| r.append_entries_without_batching(changes.clone());
            "flush_batch (nothing waits)" on both: |i| i.flush_batch(), |r| r.flush_batch();
            "flush_batch_and_get_entries (nothing waits)" on both: |i| i.flush_batch_and_get_entries(), |r| r.flush_batch_and_get_entries();
            "append_stopsign" on both: |i| i.append_stopsign(sign), |r| r.append_stopsign(rust_sign.clone());
            "set_stopsign" on both: |i| i.set_stopsign(Some(sign)), |r| r.set_stopsign(Some(rust_sign.clone()));
            "set_promise" on both: |i| i.set_promise(ballot), |r| r.set_promise(rust_ballot);
            "set_decided_idx" on both: |i| i.set_decided_idx(end), |r| r.set_decided_idx(end_at);
            "compact, trim (half of the entries)" on both:
                |i| i.compact(Compaction::Trim, Upto::Index(mid)), |r| r.try_trim(mid_at);
            "compact, snapshot (all that is decided)" on both:
                |i| i.compact(Compaction::Snapshot, Upto::All), |r| r.try_snapshot(None);
            "create_snapshot (half of the entries)" on both: |i| i.create_snapshot(mid), |r| r.create_snapshot(mid_at);
            "create_diff_snapshot (from the compacted index)" on both:
                |i| i.create_diff_snapshot(low), |r| r.create_diff_snapshot(keys as usize);
            "create_diff_snapshot (from half of the entries)" on both:
                |i| i.create_diff_snapshot(mid), |r| r.create_diff_snapshot(mid_at);
            "sync_log (a complete snapshot of 16 keys, 16 entries)" on both:
                |i| i.sync_log(ballot, end, Some(sync)), |r| r.sync_log(rust_ballot, end_at, Some(rust_sync()));
            "sync_log (no log part)" on both: |i| i.sync_log(ballot, end, None), |r| r.sync_log(rust_ballot, end_at, None);
            "read (everything)" on both: |i| i.read(..), |r| r.read::<std::ops::RangeFull>(..);
            "read_decided_suffix (from half of the entries)" on both: |i| i.read_decided_suffix(mid), |r| r.read_decided_suffix(mid_at);
            "get_entries (half of the entries)" on both: |i| i.get_entries(mid, end), |r| r.get_entries(mid_at, end_at);
            "get_suffix (half of the entries)" on both: |i| i.get_suffix(mid), |r| r.get_suffix(mid_at);
            "get_accepted_idx" on both: |i| i.get_accepted_idx(), |r| Ok::<_, ()>(r.get_accepted_idx());
            "stopsign_is_decided" on both: |i| i.stopsign_is_decided(), |r| Ok::<_, ()>(r.stopsign_is_decided());
        }
        lists(meter, state, both, &sixteen, &changes);
    }
}

/// Operation lists, beside the test backend, which keeps a copy of all to go back to.
fn lists(meter: &mut Meter, state: &str, both: &Both, sixteen: &[Entry], changes: &[Change]) {
    // On a full log the sixteen take the place of the last sixteen.
    let cut = (both.held.log.len() + sixteen.len()).saturating_sub(ENTRIES as usize) as u64;
    let (end, at) = (both.end, both.end - cut);
    let lent = Lent {
        entries: sixteen,
        ..Lent::default()
    };
    let decide = StorageOp::SetDecidedIndex(end as usize);
    let on_prefix = StorageOp::AppendOnPrefix(at as usize, changes.to_vec());
    for (row, lent, op, rust) in [
        (
            "write_atomically (one decide)",
            Lent::default(),
            Op::SetDecidedIndex(LogIndex(end)),
            decide,
        ),
        (
            "write_atomically (16 entries on a prefix)",
            lent,
            Op::AppendOnPrefix(LogIndex(at)),
            on_prefix,
        ),
    ] {
        let (mut record, mut log, mut snapshot) = both.lent();
        let mut view = View {
            record: &mut record,
            log: &mut log,
            snapshot: &mut snapshot,
        };
        let said = meter.of("call", row, &format!("lent, {state}"), || {
            view.write_atomically(lent, &[op])
        });
        said.unwrap();
        let mut shared = Shared::of(both.held.clone());
        let said = meter.of("call", row, &format!("Rust, {state}"), || {
            shared.write_atomically(vec![rust])
        });
        said.unwrap();
    }
}

/// A fresh log, and one reloaded after a restart.
fn starts(meter: &mut Meter) {
    for (state, keys, entries) in STATES {
        let both = Both::with(keys, entries);
        let row = "load_cache";
        let (record, mut log, snapshot) = both.lent();
        let said = meter.of("call", row, &format!("lent, {state}"), || {
            plain::load_cache(record, &mut log, &snapshot)
        });
        assert_eq!(said.said.number, 0);
        let shared = Shared::of(both.held.clone());
        meter.of("call", row, &format!("Rust, {state}"), || {
            InternalStorage::with(shared, InternalStorageConfig { batch_size: 0 })
        });
        let row = "fresh (over such words)";
        let (_, mut log, mut snapshot) = both.lent();
        let said = meter.of("call", row, &format!("lent, {state}"), || {
            plain::fresh(0, &mut log, &mut snapshot)
        });
        assert_eq!(said.said.number, 0);
    }
}

fn changes_of(run: &[Entry]) -> Vec<Change> {
    run.iter().map(changed).collect()
}

/// A snapshot that a Rust program would keep in a sorted `Vec`: each entry over its key's, or where it belongs.
fn put_sorted(held: &mut Vec<Entry>, run: &[Entry]) {
    for entry in run {
        match held.binary_search_by_key(&entry.key(), Entry::key) {
            Ok(at) => held[at] = *entry,
            Err(at) => held.insert(at, *entry),
        }
    }
}

/// A fold onto ascending keys by sorted runs: all merged in order of their keys, then the last of each key.
fn by_runs(held: &[Entry], run: &[Entry]) -> Vec<Entry> {
    let mut all = [held, run].concat();
    all.sort_by_key(Entry::key);
    let mut kept: Vec<Entry> = Vec::with_capacity(all.len());
    for entry in all {
        match kept.last_mut().filter(|last| last.key() == entry.key()) {
            Some(last) => *last = entry,
            None => kept.push(entry),
        }
    }
    kept
}

/// Folds, merges and finds, beside the Rust's snapshot, which is a BTreeMap, and beside a sorted `Vec`.
fn snapshots(meter: &mut Meter) {
    for (state, n, _) in STATES {
        let row = |what: &str| format!("{state}: {what}");
        let (ours, rusts, halves) = ("ours", "Rust: one BTreeMap", "Rust: by halves in a Vec");
        let run: Vec<Entry> = (0..n).map(|i| Entry::put(key(i), BlockPlace(i))).collect();
        let (changes, half) = (changes_of(&run), run.len() / 2);
        let mut sorted = Vec::with_capacity(KEYS as usize);
        let mut fold = |what: &str, run: &[Entry], changes: &[Change]| {
            let what = row(what);
            sorted.clear();
            let folded = meter.of("snapshot", &what, ours, || Snapshot::fold(run));
            let made = meter.of("snapshot", &what, rusts, || Keys::create(changes));
            meter.of("snapshot", &what, halves, || put_sorted(&mut sorted, run));
            let runs = meter.of("snapshot", &what, "Rust: by sorted runs", || {
                by_runs(&[], run)
            });
            let folded = folded.unwrap();
            assert_eq!((folded.entries(), &runs), (&sorted[..], &sorted));
            (folded, made)
        };
        let (folded, made) = fold("fold of its keys, scattered", &run, &changes);
        let ascending = folded.entries();
        fold(
            "fold of its keys, ascending",
            ascending,
            &changes_of(ascending),
        );
        let later = Snapshot::fold(&run[..half]).unwrap();
        let (mut both, delta) = (made.clone(), Keys::create(&changes[..half]));
        let what = row("merge of half the keys onto all");
        let merged = meter.of("snapshot", &what, ours, || folded.merge(&later));
        meter.of("snapshot", &what, rusts, || both.merge(delta));
        meter.of("snapshot", &what, halves, || {
            put_sorted(&mut sorted, later.entries())
        });
        let merged = merged.unwrap();
        assert_eq!(merged.entries(), sorted);
        assert_eq!(changes_of(&sorted), both.entries());
        let keys: Vec<u64> = sorted.iter().map(Entry::key).collect();
        for (at, k) in standing(&keys) {
            let (what, k) = (row(&format!("find, {at}")), black_box(k));
            let found = meter.of("snapshot", &what, ours, || folded.find(k));
            let place = meter.of("snapshot", &what, rusts, || {
                made.0.get(&k).copied().flatten()
            });
            let spot = meter.of("snapshot", &what, halves, || {
                sorted.binary_search_by_key(&k, Entry::key)
            });
            let there = spot.ok().and_then(|at| sorted[at].place());
            assert_eq!((found.place(), place), (there, there.map(|p| p.0)));
        }
    }
}

/// Keys that stand where a search may end, of so many ascending ones.
fn standing(keys: &[u64]) -> Vec<(&'static str, u64)> {
    match keys {
        [first, .., last] => vec![
            ("the first", *first),
            ("half way", keys[keys.len() / 2]),
            ("the last", *last),
            ("nowhere, below all", 0),
            ("nowhere, between", keys[keys.len() / 2] + 1),
            ("nowhere, above all", u64::MAX),
        ],
        _ => vec![("nowhere", 3)],
    }
}

/// What a Rust program would write for lookup: the newest decided entry, else the snapshot.
fn scan(both: &Both, key: u64) -> Option<u64> {
    match both.decided().iter().rev().find(|e| e.key == key) {
        Some(e) => e.place,
        None => both
            .held
            .snapshot
            .as_ref()
            .and_then(|s| s.0.get(&key).copied().flatten()),
    }
}

fn lookups(meter: &mut Meter) {
    for (state, keys, entries) in STATES {
        let both = Both::with(keys, entries);
        let mut all: BTreeMap<u64, Option<u64>> = both.held.snapshot.clone().unwrap_or_default().0;
        all.extend(both.decided().iter().map(|e| (e.key, e.place)));
        let sorted = both.index.snapshot().unwrap_or(&[]);
        let (mut record, mut log, mut snapshot) = both.lent();
        let view = View {
            record: &mut record,
            log: &mut log,
            snapshot: &mut snapshot,
        };
        let wanted = match both.alone()[..] {
            [first, .., last] => vec![
                ("the newest entry", key((entries - 2) % (keys / 2))),
                ("the entry furthest back", key((entries - 1) % (keys / 2))),
                ("the snapshot's first alone", first),
                ("the snapshot's last alone", last),
                ("nowhere, below all", 3),
                ("nowhere, above all", u64::MAX),
            ],
            _ => vec![("nowhere", 3)],
        };
        for (at, k) in wanted {
            let row = format!("{state}: {at}");
            let k = black_box(k);
            let lent = meter.of("lookup", &row, "lent", || view.lookup(k)).unwrap();
            let owned = meter
                .of("lookup", &row, "owned", || both.index.lookup(k))
                .unwrap();
            let scanned = meter.of(
                "lookup",
                &row,
                "Rust: entries backwards, then the map",
                || scan(&both, k),
            );
            let map = meter.of("lookup", &row, "one BTreeMap", || {
                all.get(&k).copied().flatten()
            });
            meter.of("lookup", &row, "by halves, in the snapshot alone", || {
                sorted.binary_search_by_key(&k, Entry::key).ok()
            });
            let found = lent.place().map(|p| p.0);
            assert_eq!((lent, found, found), (owned, scanned, map));
        }
    }
}

/// As many keys as a lookup may ask for: those of the last decided entries, the snapshot's first alone, and some that are nowhere.
fn asked(both: &Both) -> Vec<(&'static str, [u64; MOST_ASKED])> {
    let mut newest = both.decided().iter().rev().map(|e| e.key);
    let mut alone = both.alone().into_iter();
    let first = |keys: &mut dyn Iterator<Item = u64>| {
        let keys: Vec<u64> = keys.take(MOST_ASKED).collect();
        keys.try_into().ok()
    };
    let nowhere = std::array::from_fn(|i| u64::MAX - i as u64);
    [
        ("of the newest entries", first(&mut newest)),
        ("the snapshot's alone", first(&mut alone)),
        ("nowhere", Some(nowhere)),
    ]
    .into_iter()
    .filter_map(|(at, keys)| Some((at, keys?)))
    .collect()
}

/// The replies to as many keys, of one call.
fn at_once(found: impl Iterator<Item = Found>) -> [Found; MOST_ASKED] {
    let mut all = [Found::Unknown; MOST_ASKED];
    for (to, one) in all.iter_mut().zip(found) {
        *to = one;
    }
    all
}

/// Many keys in one call, beside as many calls.
fn many(meter: &mut Meter) {
    for (state, keys, entries) in STATES {
        let both = Both::with(keys, entries);
        let (mut record, mut log, mut snapshot) = both.lent();
        let view = View {
            record: &mut record,
            log: &mut log,
            snapshot: &mut snapshot,
        };
        for (at, keys) in asked(&both) {
            let row = format!("{state}: {at}");
            let keys = black_box(keys);
            let mut of = |column: &str, call: &mut dyn FnMut() -> [Found; MOST_ASKED]| {
                meter.of("many", &row, column, call)
            };
            let all = [
                of("lent, a call a key", &mut || {
                    keys.map(|key| view.lookup(key).unwrap())
                }),
                of("lent, one call", &mut || {
                    at_once(view.lookup_many(&keys).unwrap())
                }),
                of("owned, a call a key", &mut || {
                    keys.map(|key| both.index.lookup(key).unwrap())
                }),
                of("owned, one call", &mut || {
                    at_once(both.index.lookup_many(&keys).unwrap())
                }),
            ];
            let scanned = meter.of(
                "many",
                &row,
                "Rust: entries backwards, then the map, a key after the other",
                || keys.map(|key| scan(&both, key)),
            );
            assert!(all.iter().all(|found| *found == all[0]));
            assert_eq!(all[0].map(|found| found.place().map(|p| p.0)), scanned);
        }
    }
}

/// The smallest image and the largest, beside a copy of as many bytes.
fn images(meter: &mut Meter) {
    let sign = StopSign::new(1, &[1; NODES], Some(&[1; METADATA])).unwrap();
    let mut full = Both::with(KEYS, ENTRIES).index;
    full.append_stopsign(sign).unwrap();
    for (column, index) in [(FRESH, Index::fresh(0).unwrap()), (LARGEST, full)] {
        let mut of = |row: &str, call: &mut dyn FnMut() -> bool| {
            assert!(meter.of("image", row, column, call))
        };
        let image = index.to_image();
        let (mut out, mut wrote, mut read) = (vec![0; ROOM], vec![], None);
        let (record, log, snapshot) = (*index.record(), index.log(), index.snapshot_words());
        let (mut words, mut keys) = (log.to_vec(), snapshot.to_vec());
        of("write_image", &mut || {
            plain::write_image(record, log, snapshot, &mut out).number == 0
        });
        of("read_image", &mut || {
            plain::read_image(0, &image, &mut words, &mut keys)
                .said
                .number
                == 0
        });
        of("Index::to_image", &mut || {
            wrote = index.to_image();
            true
        });
        of("Index::from_image", &mut || {
            read = Index::from_image(&image, 0).ok();
            true
        });
        of("a copy of as many bytes", &mut || {
            black_box(&mut out)[..image.len()].copy_from_slice(black_box(&image));
            true
        });
        assert_eq!((&out[..image.len()], &wrote), (&image[..], &image));
        assert_eq!(
            (&words[..], &keys[..], read),
            (log, snapshot, Some(index.clone()))
        );
    }
}

/// A node that follows the last of its peers, with so many peers, a reply of each held (the last again, up to so many), as many of the
/// round before, and so many messages that wait.
fn follower(peers: usize, replies: usize, waiting: usize) -> plain::BallotLeaderElection {
    let pids: Vec<u64> = (2..).take(peers).collect();
    let ballot = |pid| Ballot {
        config_id: 1,
        n: 1,
        priority: 0,
        pid,
    };
    let reply = |at: usize| plain::HeartbeatReply {
        round: 1,
        ballot: ballot(pids[at.min(peers - 1)]),
        leader: ballot(pids[peers - 1]),
        happy: true,
    };
    let config = plain::BLEConfig {
        configuration_id: 1,
        pid: 1,
        priority: 0,
    };
    let mut e = plain::election_with(config, &pids, true, ballot(pids[peers - 1])).election;
    e.outgoing = plain::Outgoing::default();
    for list in [&mut e.heartbeat_replies, &mut e.prev_replies] {
        list.count = replies;
        for (at, held) in list.held[..replies].iter_mut().enumerate() {
            *held = reply(at);
        }
    }
    for _ in 0..waiting {
        e = plain::election_handle(e, plain::BLEMessage::default()).election;
    }
    e
}

/// Calls of the election, each on the same state as the Rust's.
fn elections(meter: &mut Meter) {
    let all = follower(PEERS, REPLIES - 1, OUTGOING - PEERS);
    for (state, e) in [
        ("of three nodes", follower(2, 2, 0)),
        ("at its bounds", all),
    ] {
        let (ours, rusts) = (format!("ours, {state}"), format!("Rust, {state}"));
        let formed = meter.of("election", "well_formed", &ours, || {
            plain::election_well_formed(e)
        });
        assert!(formed);
        let reply = plain::BLEMessage {
            is_reply: true,
            reply: e.heartbeat_replies.held[0],
            ..plain::BLEMessage::default()
        };
        for (row, m) in [
            ("handle (a request)", plain::BLEMessage::default()),
            ("handle (a reply)", reply),
        ] {
            let handled = meter.of("election", row, &ours, || plain::election_handle(e, m));
            let (mut node, m) = (opened::brought(&e), opened::message(&m));
            meter.of("election", row, &rusts, || node.handle(m));
            assert_eq!(opened::seen(&node), Some(handled.election));
        }
        let promise = Ballot::default();
        let timed = meter.of("election", "hb_timeout", &ours, || {
            plain::election_hb_timeout(e, promise)
        });
        let (mut node, promise) = (opened::brought(&e), opened::ballot(promise));
        let paxos = (Role::Follower, Phase::Other);
        let led = meter.of("election", "hb_timeout", &rusts, || {
            node.hb_timeout(&paxos, promise)
        });
        assert_eq!(led.is_some(), timed.said.told == 1);
        assert_eq!(opened::seen(&node), Some(timed.election));
        let taken = meter.of("election", "outgoing_mut", &ours, || {
            plain::election_outgoing_mut(e)
        });
        let mut node = opened::brought(&e);
        let list = meter.of("election", "outgoing_mut", &rusts, || {
            std::mem::take(node.outgoing_mut())
        });
        assert_eq!(opened::outgoing_back(&list), Some(taken.outgoing));
    }
}

/// How cost grows.
fn growth(meter: &mut Meter) {
    for (keys, entries) in [
        (0, 0),
        (0, ENTRIES / 4),
        (0, ENTRIES / 2),
        (0, ENTRIES),
        (KEYS / 4, 0),
        (KEYS / 2, 0),
        (KEYS, 0),
        (KEYS, ENTRIES),
    ] {
        let both = Both::with(keys, entries);
        let row = format!("{keys} keys, {entries} entries");
        let index = &both.index;
        let (record, log, snapshot) = (*index.record(), index.log(), index.snapshot_words());
        meter.of("growth", &row, "well_formed", || {
            plain::well_formed(record, log, snapshot)
        });
        let mut i = index.clone();
        meter
            .of("growth", &row, "set_decided_idx, owned", || {
                i.set_decided_idx(LogIndex(both.end))
            })
            .unwrap();
        meter
            .of("growth", &row, ABOVE, || index.lookup(u64::MAX))
            .unwrap();
        let mut i = index.clone();
        meter
            .of("growth", &row, "a snapshot", || {
                i.compact(Compaction::Snapshot, Upto::All)
            })
            .unwrap();
        let mut rust = original(&both.held);
        meter
            .of("growth", &row, "a snapshot, the Rust", || {
                rust.try_snapshot(None)
            })
            .unwrap();
        let (held, decided) = (index.snapshot().unwrap_or(&[]), record.decided);
        let run = index.get_entries(record.compacted, decided).unwrap();
        let runs = meter.of("growth", &row, "its fold by sorted runs, in Rust", || {
            by_runs(held, run)
        });
        assert_eq!(i.snapshot().unwrap_or(&[]), runs);
    }
}

fn measure(meter: &mut Meter) {
    calls(meter);
    starts(meter);
    snapshots(meter);
    lookups(meter);
    many(meter);
    images(meter);
    elections(meter);
    growth(meter);
}

/// `count`: a number and a cell on each line of the standard error; `time`: the same on the standard output; `show`: both as tables.
pub fn run(words: &[String]) -> Result<bool, String> {
    match words.first().map(String::as_str) {
        Some("count") => {
            mark(BEGIN);
            mark(EMPTY);
            measure(&mut Meter::Counting);
        }
        Some("time") => {
            let mut meter = Meter::Timing(BTreeMap::new());
            for _ in 0..200 {
                measure(&mut meter);
            }
            if let Meter::Timing(least) = meter {
                for ((table, row, column), took) in least {
                    println!("{took} {table}\t{row}\t{column}");
                }
            }
        }
        Some("show") if words.len() > 3 => {
            shown::run(&words[1], &words[2], &words[3], words.get(4))
        }
        _ => {
            return Err(
                "usage: oracle figures count | time | show BEFORE WALKED COUNTS [TIMES]"
                    .to_string(),
            )
        }
    }
    Ok(true)
}
