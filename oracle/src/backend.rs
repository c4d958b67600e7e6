//! A backend that does what the comments on `Storage` say, over a `Vec`; and the key-value entries and snapshots of document 01.
use crate::ballot_leader_election::Ballot;
use crate::storage::{Entry, Snapshot, StopSign, Storage, StorageOp, StorageResult};
use std::{cell::RefCell, collections::BTreeMap, rc::Rc};

/// A key with a block place, or removed.
#[derive(Clone, Copy, Debug, PartialEq)]
pub struct Change {
    pub key: u64,
    pub place: Option<u64>,
}

impl Entry for Change {
    type Snapshot = Keys;
}

/// The last word for each key; a removal is kept.
#[derive(Clone, Debug, Default, PartialEq)]
pub struct Keys(pub BTreeMap<u64, Option<u64>>);

impl Keys {
    /// Its keys' entries, ascending.
    pub fn entries(&self) -> Vec<Change> {
        let entry = |(key, place): (&u64, &Option<u64>)| Change {
            key: *key,
            place: *place,
        };
        self.0.iter().map(entry).collect()
    }
}

impl Snapshot<Change> for Keys {
    fn create(entries: &[Change]) -> Self {
        Keys(entries.iter().map(|e| (e.key, e.place)).collect())
    }

    fn merge(&mut self, delta: Self) {
        self.0.extend(delta.0);
    }

    fn use_snapshots() -> bool {
        true
    }
}

#[derive(Clone, Debug, Default, PartialEq)]
pub struct Backend {
    /// The entries from index `start` on.
    pub start: usize,
    pub log: Vec<Change>,
    pub promise: Option<Ballot>,
    pub round: Option<Ballot>,
    pub decided: usize,
    pub compacted: usize,
    pub snapshot: Option<Keys>,
    pub stop: Option<StopSign>,
}

impl Backend {
    pub fn entries(&self, from: usize, to: usize) -> Vec<Change> {
        if from < self.start || to > self.end() || from > to {
            return vec![];
        }
        self.log[from - self.start..to - self.start].to_vec()
    }

    pub fn end(&self) -> usize {
        self.start + self.log.len()
    }

    pub fn perform(&mut self, op: StorageOp<Change>) -> StorageResult<()> {
        match op {
            StorageOp::AppendEntry(e) => self.log.push(e),
            StorageOp::AppendEntries(es) => self.log.extend(es),
            StorageOp::AppendOnPrefix(from, es) => {
                if from < self.start || from > self.end() {
                    Err(format!("no prefix up to {from}"))?
                }
                self.log.truncate(from - self.start);
                self.log.extend(es);
            }
            StorageOp::SetPromise(b) => self.promise = Some(b),
            StorageOp::SetDecidedIndex(i) => self.decided = i,
            StorageOp::SetAcceptedRound(b) => self.round = Some(b),
            StorageOp::SetCompactedIdx(i) => self.compacted = i,
            StorageOp::Trim(i) => {
                if i > self.start {
                    self.log.drain(..(i - self.start).min(self.log.len()));
                    self.start = i;
                }
            }
            StorageOp::SetStopsign(s) => self.stop = s,
            StorageOp::SetSnapshot(s) => self.snapshot = s,
        }
        Ok(())
    }
}

/// A backend that is kept in sight when a storage is given it.
pub trait Sight: Storage<Change> + Clone {
    /// One that holds this.
    fn of(held: Backend) -> Self;

    /// A look at what it holds.
    fn seen<R>(&self, look: impl FnOnce(&Backend) -> R) -> R;
}

#[derive(Clone, Default)]
pub struct Shared(pub Rc<RefCell<Backend>>);

impl Sight for Shared {
    fn of(held: Backend) -> Self {
        Shared(Rc::new(RefCell::new(held)))
    }

    fn seen<R>(&self, look: impl FnOnce(&Backend) -> R) -> R {
        look(&self.0.borrow())
    }
}

impl Shared {
    fn perform(&self, op: StorageOp<Change>) -> StorageResult<()> {
        self.0.borrow_mut().perform(op)
    }
}

impl Storage<Change> for Shared {
    fn write_atomically(&mut self, ops: Vec<StorageOp<Change>>) -> StorageResult<()> {
        let before = self.0.borrow().clone();
        for op in ops {
            if let Err(e) = self.perform(op) {
                *self.0.borrow_mut() = before;
                return Err(e);
            }
        }
        Ok(())
    }

    fn append_entry(&mut self, entry: Change) -> StorageResult<()> {
        self.perform(StorageOp::AppendEntry(entry))
    }

    fn append_entries(&mut self, entries: Vec<Change>) -> StorageResult<()> {
        self.perform(StorageOp::AppendEntries(entries))
    }

    fn append_on_prefix(&mut self, from_idx: usize, entries: Vec<Change>) -> StorageResult<()> {
        self.perform(StorageOp::AppendOnPrefix(from_idx, entries))
    }

    fn set_promise(&mut self, n_prom: Ballot) -> StorageResult<()> {
        self.perform(StorageOp::SetPromise(n_prom))
    }

    fn set_decided_idx(&mut self, ld: usize) -> StorageResult<()> {
        self.perform(StorageOp::SetDecidedIndex(ld))
    }

    fn get_decided_idx(&self) -> StorageResult<usize> {
        Ok(self.0.borrow().decided)
    }

    fn set_accepted_round(&mut self, na: Ballot) -> StorageResult<()> {
        self.perform(StorageOp::SetAcceptedRound(na))
    }

    fn get_accepted_round(&self) -> StorageResult<Option<Ballot>> {
        Ok(self.0.borrow().round)
    }

    fn get_entries(&self, from: usize, to: usize) -> StorageResult<Vec<Change>> {
        Ok(self.0.borrow().entries(from, to))
    }

    fn get_log_len(&self) -> StorageResult<usize> {
        Ok(self.0.borrow().log.len())
    }

    fn get_suffix(&self, from: usize) -> StorageResult<Vec<Change>> {
        let held = self.0.borrow();
        Ok(held.entries(from, held.end()))
    }

    fn get_promise(&self) -> StorageResult<Option<Ballot>> {
        Ok(self.0.borrow().promise)
    }

    fn set_stopsign(&mut self, s: Option<StopSign>) -> StorageResult<()> {
        self.perform(StorageOp::SetStopsign(s))
    }

    fn get_stopsign(&self) -> StorageResult<Option<StopSign>> {
        Ok(self.0.borrow().stop.clone())
    }

    fn trim(&mut self, idx: usize) -> StorageResult<()> {
        self.perform(StorageOp::Trim(idx))
    }

    fn set_compacted_idx(&mut self, idx: usize) -> StorageResult<()> {
        self.perform(StorageOp::SetCompactedIdx(idx))
    }

    fn get_compacted_idx(&self) -> StorageResult<usize> {
        Ok(self.0.borrow().compacted)
    }

    fn set_snapshot(&mut self, snapshot: Option<Keys>) -> StorageResult<()> {
        self.perform(StorageOp::SetSnapshot(snapshot))
    }

    fn get_snapshot(&self) -> StorageResult<Option<Keys>> {
        Ok(self.0.borrow().snapshot.clone())
    }
}
