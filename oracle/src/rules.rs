//! The refusals of document 01, and of document 02 where it has landed: which number a call is answered on a state, and what it carries. All numbers are judged as numbers.
use crate::backend::{Change, Keys};
use crate::call::{Call, Kind, List, OpKind, Part};
use crate::entry::{
    self, changes, count, entries_formed, replies_at, whole, LOG_WORDS, SNAPSHOT_WORDS,
};
use crate::limits::{ENTRIES, KEYS, LARGEST, LARGEST_BATCH, MOST_ASKED, MOST_OPS};
use crate::state::{trimmed, LentSnapshot, Sign, State};
use crate::storage::Snapshot;
use std::ops::Bound;

type Refusal = Option<(u64, u64)>;

/// The first that applies.
fn first(rules: &[(bool, u64, u128)]) -> Refusal {
    rules
        .iter()
        .find(|(applies, ..)| *applies)
        .map(|(_, number, carried)| (*number, *carried as u64))
}

/// Whether its arguments are in form.
fn formed(call: &Call, s: &State) -> bool {
    let output = |n: &usize| *n == SNAPSHOT_WORDS;
    match call {
        Call::Fresh(n) => *n <= LARGEST_BATCH && s.lent == [LOG_WORDS, SNAPSHOT_WORDS],
        Call::AppendEntry(key, place) => entry::formed(&Change {
            key: *key,
            place: *place,
        }),
        Call::Append(es) | Call::AppendIdx(es) | Call::AppendNow(es) => entries_formed(es),
        Call::AppendStop(sign) | Call::SetStop(Some(sign)) => sign.formed(),
        Call::Read(_, a, b) => *a != Bound::Excluded(u64::MAX) && *b != Bound::Included(u64::MAX),
        Call::LookupMany(keys, n) => keys.len() <= MOST_ASKED && replies_at(keys.len()) <= *n,
        Call::Create(_, n) | Call::Diff(_, n) => output(n),
        Call::Sync(_, _, p) => {
            whole(&p.suffix)
                && p.snapshot.words.len() == SNAPSHOT_WORDS
                && (!p.held
                    || (entries_formed(&p.suffix)
                        && (p.kind == Kind::Plain || p.snapshot.formed())
                        && p.stop.is_none_or(|sign| sign.formed())))
        }
        Call::Write(_, list) => list_formed(list),
        Call::Fold(es, n) => entries_formed(es) && output(n),
        Call::Merge(n, snapshot, out) => {
            held_with(s, *n).formed() && snapshot.formed() && output(out)
        }
        Call::Find(snapshot, _) => snapshot.formed(),
        _ => true,
    }
}

fn list_formed(list: &List) -> bool {
    let missing = list.ops.iter().any(|op| match op.kind {
        OpKind::SetStopsign => op.given && list.stop.is_none(),
        OpKind::SetSnapshot => op.given && !list.snapshot_lent,
        _ => false,
    });
    (1..=MOST_OPS).contains(&list.ops.len())
        && entries_formed(&list.entries)
        && list.snapshot.words.len() == SNAPSHOT_WORDS
        && (!list.snapshot_lent || list.snapshot.formed())
        && list.stop.is_none_or(|sign| sign.formed())
        && !missing
}

/// The held snapshot's words with another number of keys.
pub fn held_with(s: &State, keys: u64) -> LentSnapshot {
    LentSnapshot {
        keys,
        ..s.held_snapshot()
    }
}

/// The held snapshot with the entries below an index folded onto it.
pub fn folded(s: &State, upto: u64) -> Keys {
    let mut keys = s.snapshot().unwrap_or_default();
    keys.merge(Keys::create(&s.entries()[..(upto - s.compacted) as usize]));
    keys
}

/// The index that a trim or snapshot moves to; none is all that is log-decided.
pub fn target(s: &State, upto: Option<u64>) -> u64 {
    upto.filter(|i| *i < s.decided).unwrap_or(s.log_decided())
}

pub fn merged(first: &Keys, second: &Keys) -> Keys {
    let mut keys = first.clone();
    keys.merge(second.clone());
    keys
}

/// Whether entries were dropped that no held snapshot has: nothing may be folded onto such a log.
pub fn hole(s: &State) -> bool {
    s.compacted > 0 && !s.snapshot_held
}

fn over(keys: &Keys) -> bool {
    keys.0.len() as u64 > KEYS
}

/// Whether a log has no room for so many entries.
fn too_many(entries: u128) -> bool {
    entries > ENTRIES as u128
}

fn past_largest(index: u128) -> bool {
    index > LARGEST as u128
}

fn append(s: &State, n: u64) -> Refusal {
    let n = n as u128;
    let (retained, batched) = (s.retained as u128, s.batched as u128);
    first(&[
        (s.stop_held, 4, s.accepted()),
        (past_largest(s.accepted() + batched + n), 9, s.accepted()),
        (too_many(retained + batched + n), 1, 0),
    ])
}

/// 2, 16, 8, the last two for snapshots only.
fn compact(s: &State, snapshot: bool, upto: Option<u64>) -> Refusal {
    let to = target(s, upto);
    let folds = snapshot && to > s.compacted;
    first(&[
        (upto.is_some_and(|i| i > s.decided), 2, s.decided as u128),
        (folds && hole(s), 16, 0),
    ])
    .or_else(|| first(&[(folds && over(&folded(s, to)), 8, 0)]))
}

fn create(s: &State, i: u64) -> Refusal {
    first(&[
        (i < s.compacted, 3, s.compacted as u128),
        (i > s.decided, 2, s.decided as u128),
        (hole(s), 16, 0),
    ])
    .or_else(|| first(&[(over(&folded(s, target(s, Some(i)))), 8, 0)]))
}

/// The entries of a delta from an index past compacted.
pub fn delta_entries(s: &State, from: u64) -> Vec<Change> {
    let to = s.log_decided();
    if from >= to {
        return vec![];
    }
    s.entries()[(from - s.compacted) as usize..(to - s.compacted) as usize].to_vec()
}

fn diff(s: &State, from: u64) -> Refusal {
    let made = if from <= s.compacted {
        folded(s, s.log_decided())
    } else {
        Keys::create(&delta_entries(s, from))
    };
    let folds = from <= s.compacted && s.compacted < s.log_decided();
    first(&[(folds && hole(s), 16, 0), (over(&made), 8, 0)])
}

fn sync(s: &State, d: u64, p: &Part) -> Refusal {
    let idx = p.idx as u128;
    let suffix = count(&p.suffix) as u128;
    let batched = s.batched as u128;
    let decided = s.decided.max(d) as u128;
    let accepted = idx + suffix + p.stop.is_some() as u128;
    let plain = p.kind == Kind::Plain;
    let kept = if plain {
        idx.saturating_sub(s.compacted as u128)
    } else {
        0
    };
    first(&[
        (s.stop_decided(), 4, s.accepted()),
        (idx < s.decided as u128, 5, s.decided as u128),
        (
            plain && (idx < s.compacted as u128 || idx > s.end()),
            7,
            s.end(),
        ),
        (p.stop.is_some() && s.batched > 0, 10, batched),
        (past_largest(accepted + batched), 9, s.accepted()),
        (too_many(kept + suffix + batched), 1, 0),
        (decided > accepted, 6, accepted),
        (!plain && idx > decided, 2, decided),
        (p.kind == Kind::Delta && hole(s), 16, 0),
    ])
    .or_else(|| {
        let delta =
            p.kind == Kind::Delta && over(&merged(&folded(s, s.log_decided()), &p.snapshot.held()));
        first(&[(delta, 8, 0)])
    })
}

/// An operation list runs on a state whose run has a start of its own.
fn write(s: &State, list: &List) -> Refusal {
    let mut t = s.clone();
    let mut start = s.compacted as u128;
    let mut entries = s.entries();
    let lent = changes(&list.entries);
    for op in &list.ops {
        let index = op.index as u128;
        match op.kind {
            OpKind::AppendEntries => entries.extend(&lent),
            OpKind::AppendOnPrefix => {
                if index < start || index > start + entries.len() as u128 {
                    return first(&[(true, 7, s.end())]);
                }
                entries.truncate((index - start) as usize);
                entries.extend(&lent);
            }
            OpKind::SetPromise => t.promise = op.ballot,
            OpKind::SetDecidedIndex => t.decided = op.index,
            OpKind::SetAcceptedRound => t.round = op.ballot,
            OpKind::SetCompactedIdx => t.compacted = op.index,
            OpKind::Trim => {
                if index > start {
                    let gone = (index - start).min(entries.len() as u128);
                    entries.drain(..gone as usize);
                    start = index;
                }
            }
            OpKind::SetStopsign => {
                t.stop_held = op.given;
                t.stop = if op.given {
                    list.stop.unwrap()
                } else {
                    Sign::default()
                };
            }
            OpKind::SetSnapshot => {
                let snapshot = if op.given {
                    list.snapshot.clone()
                } else {
                    LentSnapshot::of(&[])
                };
                t.snapshot_held = op.given;
                t.keys = snapshot.keys;
                t.snapshot = trimmed(snapshot.words);
            }
        }
        if too_many(entries.len() as u128 + s.batched as u128) {
            return first(&[(true, 1, 0)]);
        }
    }
    let all = [entries.clone(), s.batch()].concat();
    t = t.with_entries(&all, entries.len());
    first(&[
        (
            past_largest(t.accepted() + t.batched as u128),
            9,
            s.accepted(),
        ),
        (start != t.compacted as u128 || !t.well_formed(), 12, 0),
    ])
}

/// Whether it is a call on the state, which must be well formed.
fn on_state(call: &Call) -> bool {
    !matches!(
        call,
        Call::Fresh(_)
            | Call::WellFormed
            | Call::Fold(..)
            | Call::Merge(..)
            | Call::Find(..)
            | Call::SnapshotFormed(_)
            | Call::EntriesFormed(_)
            | Call::PlaceFormed(_)
            | Call::SignFormed(_)
            | Call::Compare(..)
            | Call::ReplyAt(..)
            | Call::EntriesOf(..)
            | Call::EntriesShown(..)
    )
}

pub fn refusal(s: &State, call: &Call) -> Refusal {
    if on_state(call) && !s.well_formed() {
        return Some((12, 0));
    }
    if !formed(call, s) {
        return Some((11, 0));
    }
    match call {
        Call::AppendEntry(..) => append(s, 1),
        Call::Append(es) | Call::AppendIdx(es) | Call::AppendNow(es) => append(s, count(es)),
        Call::AppendStop(_) => first(&[
            (s.stop_held, 4, s.accepted()),
            (
                past_largest(s.accepted() + s.batched as u128 + 1),
                9,
                s.accepted(),
            ),
        ]),
        Call::SetStop(sign) => first(&[
            (s.stop_decided(), 4, s.accepted()),
            (sign.is_some() && s.batched > 0, 10, s.batched as u128),
            (sign.is_some() && past_largest(s.end() + 1), 9, s.accepted()),
        ]),
        Call::Decide(_, i) => first(&[
            (*i < s.decided, 5, s.decided as u128),
            (*i as u128 > s.accepted(), 6, s.accepted()),
        ]),
        Call::Trim(_, upto) => compact(s, false, *upto),
        Call::Snapshot(upto) => compact(s, true, *upto),
        Call::Create(i, _) => create(s, *i),
        Call::Diff(i, _) => diff(s, *i),
        Call::Sync(_, d, part) if !part.held => {
            first(&[(*d as u128 > s.accepted(), 6, s.accepted())])
        }
        Call::Sync(_, d, part) => sync(s, *d, part),
        Call::Write(_, list) => write(s, list),
        Call::Fold(es, _) => first(&[(over(&Keys::create(&changes(es))), 8, 0)]),
        Call::Merge(n, snapshot, _) => first(&[(
            over(&merged(&held_with(s, *n).held(), &snapshot.held())),
            8,
            0,
        )]),
        _ => None,
    }
}
