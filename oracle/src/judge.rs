//! An accepted call, asked of the Rust: its reply and its state after it beside the port's.
use crate::backend::{Backend, Change, Keys, Sight};
use crate::ballot_leader_election::Ballot;
use crate::call::{Call, Form, Kind, List, Op, OpKind, Part};
use crate::entry::{self, changes, entries_formed, place_formed, reply, reply_at, words};
use crate::rules::{folded, held_with, merged, target};
use crate::state::{used, State};
use crate::storage::internal_storage::{InternalStorage, InternalStorageConfig};
use crate::storage::{Snapshot, SnapshotType, StorageOp};
use crate::util::{AcceptedMetaData, LogEntry, LogSync};
use std::cmp::Ordering;
use std::fmt::Debug;
use std::ops::Bound;
use std::panic::{catch_unwind, AssertUnwindSafe};

/// What the port shows after a call: its answer, the output area, beside what that held before, and the state.
pub struct Told<'a> {
    pub answer: &'a [u64],
    pub out: &'a [u64],
    pub out_before: &'a [u64],
    pub after: &'a State,
}

pub enum Verdict {
    /// The Rust says the same.
    Same,
    /// docs/DIFFERENCES.md lists it: the port's answer is the one that document 01 asks for, and not the Rust's.
    Listed(&'static str),
    /// There is nothing of the Rust's to ask: the port's answer is the one that document 01 asks for.
    Ours,
    Differs(String),
}

/// The Rust's storage over a backend.
pub struct Judge<S: Sight> {
    shared: S,
    storage: InternalStorage<S, Change>,
}

fn storage_of<S: Sight>(shared: &S, size: u64) -> InternalStorage<S, Change> {
    InternalStorage::with(
        shared.clone(),
        InternalStorageConfig {
            batch_size: size as usize,
        },
    )
}

fn differ<T: PartialEq + Debug + ?Sized>(what: &str, rust: &T, port: &T) -> Result<(), String> {
    if rust == port {
        return Ok(());
    }
    Err(format!("{what}: the Rust has {rust:?}, the port {port:?}"))
}

/// The words of entries as an area shows them.
fn area(words: &[u64]) -> Vec<u64> {
    let used = used(words);
    [&[used.len() as u64], used].concat()
}

/// A snapshot against the answer's first numbers and the words of the output area.
fn written(kind: u64, rest: &[u64], made: &Keys, told: &Told) -> Result<(), String> {
    let mut answer = vec![kind, made.0.len() as u64];
    answer.extend(rest);
    differ("the answer", &answer[..], told.answer)?;
    differ(
        "the output",
        &area(&words(&made.entries())),
        &area(told.out),
    )
}

/// A run as both sides can show it: the marker (0 none, 1 trimmed, 2 snapshot) with its index and keys, the entries, how many are
/// decided, and the stop-sign's state.
#[derive(Debug, Default, PartialEq)]
struct Shown {
    marker: (u64, u64, u64),
    entries: Vec<Change>,
    decided: u64,
    stop: bool,
    stop_decided: bool,
}

/// What the port answers to a read: of its own form also the entries, which must be those that the reply counts.
fn port_shows(form: Form, answer: &[u64], before: &State) -> Result<Option<Shown>, String> {
    let wrong = || Err(format!("the port answers {answer:?}"));
    if answer == [1] {
        return Ok(None);
    }
    let Some((&[2, marker, index, keys, first, count, decided, stop, stop_decided], beside)) =
        answer.split_first_chunk::<9>()
    else {
        return wrong();
    };
    let Some(entries) = before
        .entries()
        .get(first as usize..(first + count) as usize)
        .map(<[_]>::to_vec)
    else {
        return wrong();
    };
    let beside_due = match form {
        Form::Covered => vec![],
        Form::ByHand => area(&words(&entries)),
    };
    if beside != beside_due {
        return wrong();
    }
    Ok(Some(Shown {
        marker: (marker, index, keys),
        entries,
        decided,
        stop: stop == 1,
        stop_decided: stop_decided == 1,
    }))
}

fn rust_shows(list: Option<Vec<LogEntry<Change>>>, before: &State) -> Option<Shown> {
    let mut shown = Shown::default();
    for entry in list? {
        match entry {
            LogEntry::Trimmed(i) => shown.marker = (1, i as u64, 0),
            LogEntry::Snapshotted(s) => {
                assert_eq!(Some(&s.snapshot), before.snapshot().as_ref());
                shown.marker = (2, s.trimmed_idx as u64, s.snapshot.0.len() as u64);
            }
            LogEntry::Decided(e) => {
                assert_eq!(shown.decided, shown.entries.len() as u64);
                shown.entries.push(e);
                shown.decided += 1;
            }
            LogEntry::Undecided(e) => shown.entries.push(e),
            LogEntry::StopSign(g, decided) => {
                assert_eq!(Some(&g), before.stop_sign().as_ref());
                shown.stop = true;
                shown.stop_decided = decided;
            }
        }
    }
    Some(shown)
}

/// A read that docs/DIFFERENCES.md lists, and what the port is to show of it.
fn read_listed(
    a: &Bound<u64>,
    b: &Bound<u64>,
    before: &State,
) -> Option<(&'static str, Option<Shown>)> {
    let from = match a {
        Bound::Included(i) => *i as u128,
        Bound::Excluded(i) => *i as u128 + 1,
        Bound::Unbounded => 0,
    };
    let to = match b {
        Bound::Included(i) => *i as u128 + 1,
        Bound::Excluded(i) => *i as u128,
        Bound::Unbounded => before.accepted(),
    };
    let past_compacted = to > before.compacted as u128 && to <= before.accepted();
    if past_compacted && from == u64::MAX as u128 {
        return Some(("a read from 2^64-1", None));
    }
    let at_stop = before.stop_held && from == before.end();
    (past_compacted && at_stop && to <= from).then(|| {
        (
            "a read at the stop-sign with to at or below from",
            Some(Shown::default()),
        )
    })
}

fn log_sync(p: &Part) -> LogSync<Change> {
    LogSync {
        decided_snapshot: match p.kind {
            Kind::Plain => None,
            Kind::Complete => Some(SnapshotType::Complete(p.snapshot.held())),
            Kind::Delta => Some(SnapshotType::Delta(p.snapshot.held())),
        },
        suffix: changes(&p.suffix),
        sync_idx: p.idx as usize,
        stopsign: p.stop.map(|sign| sign.held()),
    }
}

/// The state that a delta sync is to leave.
fn after_delta(before: &State, round: &Ballot, decided: u64, p: &Part) -> State {
    let base = folded(before, before.log_decided());
    let keys = merged(&base, &p.snapshot.held()).entries();
    let suffix = changes(&p.suffix);
    let all = [suffix.clone(), before.batch()].concat();
    let mut after = State {
        compacted: p.idx,
        decided: before.decided.max(decided),
        round: *round,
        stop_held: p.stop.is_some(),
        stop: p.stop.unwrap_or_default(),
        ..before.clone()
    };
    after = after.with_entries(&all, suffix.len());
    after.with_snapshot(&keys)
}

/// The index that the Rust's trim is told, which has no "all": the decided index stands for log-decided there too.
fn trimmed_at(before: &State, upto: Option<u64>) -> usize {
    upto.unwrap_or(before.decided) as usize
}

/// The state that a trim past compacted is to leave: the snapshot is dropped with the entries that it lacks.
fn after_trim(before: &State, upto: Option<u64>) -> State {
    let to = target(before, upto);
    let kept = before.entries()[(to - before.compacted) as usize..].to_vec();
    let all = [kept.clone(), before.batch()].concat();
    let after = State {
        compacted: to,
        snapshot_held: false,
        keys: 0,
        snapshot: vec![],
        ..before.clone()
    };
    after.with_entries(&all, kept.len())
}

fn operation(op: &Op, list: &List) -> StorageOp<Change> {
    let entries = || changes(&list.entries);
    let index = op.index as usize;
    match op.kind {
        OpKind::AppendEntries => StorageOp::AppendEntries(entries()),
        OpKind::AppendOnPrefix => StorageOp::AppendOnPrefix(index, entries()),
        OpKind::SetPromise => StorageOp::SetPromise(op.ballot),
        OpKind::SetDecidedIndex => StorageOp::SetDecidedIndex(index),
        OpKind::SetAcceptedRound => StorageOp::SetAcceptedRound(op.ballot),
        OpKind::SetCompactedIdx => StorageOp::SetCompactedIdx(index),
        OpKind::Trim => StorageOp::Trim(index),
        OpKind::SetStopsign => {
            StorageOp::SetStopsign(list.stop.filter(|_| op.given).map(|sign| sign.held()))
        }
        OpKind::SetSnapshot => StorageOp::SetSnapshot(op.given.then(|| list.snapshot.held())),
    }
}

impl<S: Sight> Judge<S> {
    /// The Rust in a state that the port is in.
    pub fn of(state: &State) -> Self {
        let shared = S::of(Backend {
            start: state.compacted as usize,
            log: state.entries(),
            promise: Some(state.promise),
            round: Some(state.round),
            decided: state.decided as usize,
            compacted: state.compacted as usize,
            snapshot: state.snapshot(),
            stop: state.stop_sign(),
        });
        let mut storage = storage_of(&shared, state.size);
        let batch = state.batch();
        if !batch.is_empty() {
            let flushed = storage.append_entries_with_batching(batch).unwrap();
            assert!(flushed.is_none(), "a batch at its size is not well formed");
        }
        Judge { shared, storage }
    }

    /// Where the Rust's state is another than the port's. The batch's entries are not in sight: their number is, and they are compared
    /// when they are flushed.
    fn apart(&self, port: &State) -> Result<(), String> {
        self.shared.seen(|held| self.apart_from(held, port))
    }

    fn apart_from(&self, held: &Backend, port: &State) -> Result<(), String> {
        let s = &self.storage;
        let accepted = port.accepted() as usize;
        differ(
            "compacted",
            &s.get_compacted_idx(),
            &(port.compacted as usize),
        )?;
        differ("the run's start", &held.start, &(port.compacted as usize))?;
        differ("decided", &s.get_decided_idx(), &(port.decided as usize))?;
        differ("decided, stored", &held.decided, &(port.decided as usize))?;
        differ("accepted", &s.get_accepted_idx(), &accepted)?;
        differ("promise", &s.get_promise(), &port.promise)?;
        differ("accepted round", &s.get_accepted_round(), &port.round)?;
        differ("batched", &s.get_batched_len(), &(port.batched as usize))?;
        differ("the entries", &held.log, &port.entries())?;
        differ("the snapshot", &held.snapshot, &port.snapshot())?;
        differ("the stop-sign", &s.get_stopsign(), &port.stop_sign())?;
        differ("the stop-sign, stored", &held.stop, &port.stop_sign())?;
        differ(
            "whether it is decided",
            &s.stopsign_is_decided(),
            &port.stop_decided(),
        )
    }

    /// An accepted call: the Rust's reply and state against the port's.
    pub fn judge(&mut self, call: &Call, before: &State, told: &Told) -> Verdict {
        let due = catch_unwind(AssertUnwindSafe(|| self.replies(call, before, told)));
        let verdict = match due {
            Err(_) => return Verdict::Differs("the Rust panics".to_string()),
            Ok(Err(what)) => return Verdict::Differs(what),
            Ok(Ok(verdict)) => verdict,
        };
        // Of a state that is not well formed there is none in the Rust; what is accepted on it leaves it as it is.
        let state = match told.after.well_formed() {
            true => self.apart(told.after),
            false => differ("the state", before, told.after),
        };
        match state {
            Err(what) => Verdict::Differs(what),
            Ok(()) => verdict,
        }
    }

    /// The replies side by side.
    fn replies(&mut self, call: &Call, before: &State, told: &Told) -> Result<Verdict, String> {
        match call {
            Call::Read(form, a, b) => {
                let ours = port_shows(*form, told.answer, before)?;
                if let Some((name, due)) = read_listed(a, b, before) {
                    differ("a listed read", &due, &ours)?;
                    return Ok(Verdict::Listed(name));
                }
                let wide = |x: &Bound<u64>| x.map(|i| i as usize);
                let rust = self.storage.read((wide(a), wide(b))).unwrap();
                differ("the run", &rust_shows(rust, before), &ours)?;
            }
            Call::Create(i, _) if before.stop_decided() && *i == before.decided => {
                let made = folded(before, before.log_decided());
                written(1, &[], &made, told)?;
                if self.storage.create_snapshot(*i as usize).unwrap() != made {
                    return Ok(Verdict::Listed("a creation at a decided stop-sign"));
                }
            }
            Call::Sync(round, decided, p) if p.held && p.kind == Kind::Delta => {
                let due = after_delta(before, round, *decided, p);
                differ("the state", &due, told.after)?;
                let accepted = due.accepted() as u64;
                differ("the answer", &[1, accepted][..], told.answer)?;
                let rust = self
                    .storage
                    .sync_log(*round, *decided as usize, Some(log_sync(p)));
                // Its base goes past the old decided index: over the library that may be refused for room.
                let same = rust.is_ok_and(|idx| idx as u64 == accepted);
                return Ok(self.listed_unless(same, &due, "a delta sync"));
            }
            Call::Trim(_, upto)
                if before.snapshot_held && target(before, *upto) > before.compacted =>
            {
                let due = after_trim(before, *upto);
                differ("the state", &due, told.after)?;
                differ("the answer", &[1][..], told.answer)?;
                let same = self.storage.try_trim(trimmed_at(before, *upto)).is_ok();
                return Ok(self.listed_unless(same, &due, "a trim past a held snapshot"));
            }
            Call::Write(_, list) => self.written_atomically(list, told)?,
            Call::Fresh(n) => {
                differ("the answer", &[1][..], told.answer)?;
                *self = Judge::of(&State::fresh(*n));
            }
            Call::Reload => {
                self.storage = storage_of(&self.shared, before.size);
                let accepted = self.storage.get_accepted_idx() as u64;
                differ("the answer", &[1, accepted][..], told.answer)?;
            }
            _ if self.asked_of_storage(call, before, told)? => (),
            _ => {
                ours(call, before, told)?;
                return Ok(Verdict::Ours);
            }
        }
        Ok(Verdict::Same)
    }

    /// The verdict on a call whose state after it may be another than the Rust's, which is then brought there.
    fn listed_unless(&mut self, same: bool, due: &State, name: &'static str) -> Verdict {
        if same && self.apart(due).is_ok() {
            return Verdict::Same;
        }
        *self = Judge::of(due);
        Verdict::Listed(name)
    }

    /// The list as the backend performs it, and the storage above it begun anew, with its batch.
    fn written_atomically(&mut self, list: &List, told: &Told) -> Result<(), String> {
        let ops = list.ops.iter().map(|op| operation(op, list)).collect();
        self.shared
            .write_atomically(ops)
            .map_err(|e| e.to_string())?;
        differ("the answer", &[1][..], told.answer)?;
        self.storage = storage_of(&self.shared, told.after.size);
        let batch = told.after.batch();
        if !batch.is_empty() {
            self.storage.append_entries_with_batching(batch).unwrap();
        }
        Ok(())
    }

    /// A call that the Rust's storage has: whether it is one.
    fn asked_of_storage(
        &mut self,
        call: &Call,
        before: &State,
        told: &Told,
    ) -> Result<bool, String> {
        let port = told.answer;
        let same = |rust: &[u64]| differ("the answer", rust, port);
        let flushed = |meta: Option<AcceptedMetaData<Change>>| match meta {
            None => same(&[1]),
            Some(m) => {
                same(&[2, m.accepted_idx as u64, m.entries.len() as u64])?;
                let all = told.after.entries();
                let shown = all[all.len() - m.entries.len()..].to_vec();
                differ("what is flushed", &m.entries, &shown)
            }
        };
        let part = |rust: Vec<Change>| {
            let [1, first, count] = port[..] else {
                return Err(format!("the port answers {port:?}"));
            };
            let shown = before.entries()[first as usize..(first + count) as usize].to_vec();
            differ("the entries", &rust, &shown)
        };
        let s = &mut self.storage;
        match call {
            Call::GetAccepted => same(&[1, s.get_accepted_idx() as u64])?,
            Call::StopIsDecided => same(&[1, s.stopsign_is_decided() as u64])?,
            Call::AppendEntry(key, place) => flushed(
                s.append_entry_with_batching(Change {
                    key: *key,
                    place: *place,
                })
                .unwrap(),
            )?,
            Call::Append(es) => flushed(s.append_entries_with_batching(changes(es)).unwrap())?,
            Call::AppendIdx(es) => {
                match s.append_entries_and_get_accepted_idx(changes(es)).unwrap() {
                    None => same(&[1])?,
                    Some(i) => same(&[2, i as u64])?,
                }
            }
            Call::AppendNow(es) => same(&[
                1,
                s.append_entries_without_batching(changes(es)).unwrap() as u64,
            ])?,
            Call::Flush => same(&[1, s.flush_batch().unwrap() as u64])?,
            Call::FlushEntries => flushed(s.flush_batch_and_get_entries().unwrap())?,
            Call::AppendStop(sign) => flushed(s.append_stopsign(sign.held()).unwrap())?,
            Call::SetStop(sign) => {
                let sign = sign.map(|sign| sign.held());
                same(&[1, s.set_stopsign(sign).unwrap() as u64])?
            }
            Call::Promise(b) => {
                s.set_promise(*b).unwrap();
                same(&[1])?
            }
            Call::Decide(_, i) => {
                s.set_decided_idx(*i as usize).unwrap();
                same(&[1])?
            }
            Call::ReadDecided(i) => {
                let rust = s.read_decided_suffix(*i as usize).unwrap();
                let ours = port_shows(Form::Covered, port, before)?;
                differ("the run", &rust_shows(rust, before), &ours)?
            }
            Call::Entries(a, b) => part(s.get_entries(*a as usize, *b as usize).unwrap())?,
            Call::Suffix(a) => part(s.get_suffix(*a as usize).unwrap())?,
            Call::Trim(_, upto) => {
                s.try_trim(trimmed_at(before, *upto)).unwrap();
                same(&[1])?
            }
            Call::Snapshot(i) => {
                s.try_snapshot(i.map(|i| i as usize)).unwrap();
                same(&[1])?
            }
            Call::Create(i, _) => {
                let made = s.create_snapshot(*i as usize).unwrap();
                written(1, &[], &made, told)?
            }
            Call::Diff(i, _) => {
                let (made, upto) = s.create_diff_snapshot(*i as usize).unwrap();
                match made {
                    None => same(&[1, upto as u64])?,
                    Some(SnapshotType::Complete(c)) => written(2, &[upto as u64], &c, told)?,
                    Some(SnapshotType::Delta(d)) => written(3, &[upto as u64], &d, told)?,
                }
            }
            Call::Sync(b, d, p) => {
                let sync = p.held.then(|| log_sync(p));
                same(&[1, s.sync_log(*b, *d as usize, sync).unwrap() as u64])?
            }
            Call::Compare(a, b) => {
                let order = match a.cmp(b) {
                    Ordering::Less => 0,
                    Ordering::Equal => 1,
                    Ordering::Greater => 2,
                };
                same(&[1, order, (a == b) as u64])?
            }
            _ => return Ok(false),
        }
        Ok(true)
    }
}

/// What is said of a key, or nothing, as the port answers it.
pub fn known(said: Option<Option<u64>>) -> Vec<u64> {
    match said {
        None => vec![1],
        Some(Some(place)) => vec![2, place],
        Some(None) => vec![3],
    }
}

/// What is found of a key.
pub fn word(keys: &Keys, key: u64) -> Vec<u64> {
    known(keys.0.get(&key).copied())
}

/// The replies to some keys over the front of the output; what was after them stays.
fn replied(keys: &Keys, asked: &[u64], told: &Told) -> Result<(), String> {
    let mut due: Vec<u64> = asked
        .iter()
        .flat_map(|key| reply(keys.0.get(key).copied()))
        .collect();
    due.extend(told.out_before.iter().skip(due.len()));
    differ("the replies", &area(&due), &area(told.out))
}

/// A call of which the Rust has none: what document 01 says of it.
fn ours(call: &Call, before: &State, told: &Told) -> Result<(), String> {
    let same = |due: &[u64]| differ("the answer", due, told.answer);
    let found = |keys: &Keys, key: &u64| same(&word(keys, *key));
    let part = |first: u64, count: u64| {
        let mut log = before.log.clone();
        log.resize(before.lent[0], 0);
        let held = entry::part(&log, first, count).unwrap_or_default();
        same(&[vec![1], area(held)].concat())
    };
    match call {
        Call::WellFormed => same(&[1, before.well_formed() as u64]),
        Call::GetLogDecided => same(&[1, before.log_decided()]),
        Call::Lookup(key) => found(&folded(before, before.log_decided()), key),
        Call::LookupMany(asked, _) => {
            same(&[1])?;
            replied(&folded(before, before.log_decided()), asked, told)
        }
        Call::Fold(es, _) => written(1, &[], &Keys::create(&changes(es)), told),
        Call::Merge(n, snapshot, _) => {
            let made = merged(&held_with(before, *n).held(), &snapshot.held());
            written(1, &[], &made, told)
        }
        Call::Find(snapshot, key) => found(&snapshot.held(), key),
        Call::SnapshotFormed(snapshot) => same(&[1, snapshot.formed() as u64]),
        Call::EntriesFormed(es) => same(&[1, entries_formed(es) as u64]),
        Call::PlaceFormed(word) => same(&[1, place_formed(*word) as u64]),
        Call::SignFormed(sign) => same(&[1, sign.formed() as u64]),
        Call::ReplyAt(out, i) => {
            let mut lent = told.out.to_vec();
            lent.resize(*out, 0);
            same(&known(reply_at(&lent, *i)))
        }
        Call::EntriesOf(first, count) => part(*first, *count),
        Call::EntriesShown(2, first, count) => part(*first, *count),
        Call::EntriesShown(..) => same(&[1, 0]),
        other => Err(format!("{other:?} is judged nowhere")),
    }
}
