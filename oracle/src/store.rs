//! omnipaxos's `Storage` over the proved library: with it a consensus over that trait, version three's among them, keeps its log in an
//! [`Index`] untouched. Every write is one operation list, done whole or not at all; what the library refuses comes back as the error.
use crate::backend::{Backend, Change, Keys, Sight};
use crate::ballot_leader_election::Ballot;
use crate::storage::{Snapshot as _, StopSign, Storage, StorageOp, StorageResult};
use crate::ClusterConfig;
use kotuseraw::{BlockPlace, Entry, Index, Lent, LogIndex, Op, Snapshot};
use std::{cell::RefCell, rc::Rc};

/// An index that is kept in sight when a storage is given it.
#[derive(Clone)]
pub struct Stored(pub Rc<RefCell<Index>>);

/// What operations bring along: the library is lent each once, beside the list.
#[derive(Default)]
struct Brought {
    entries: Option<Vec<Entry>>,
    snapshot: Option<Snapshot>,
    stopsign: Option<kotuseraw::StopSign>,
}

/// Keeps it: a second one of its kind must be the same.
fn bring<T: PartialEq>(at: &mut Option<T>, value: T) -> StorageResult<()> {
    if at.as_ref().is_some_and(|held| *held != value) {
        Err("an operation list brings two different things of a kind")?
    }
    *at = Some(value);
    Ok(())
}

fn entry(change: &Change) -> Entry {
    match change.place {
        Some(place) => Entry::put(change.key, BlockPlace(place)),
        None => Entry::removed(change.key),
    }
}

pub fn change(entry: &Entry) -> Change {
    Change {
        key: entry.key(),
        place: entry.place().map(|place| place.0),
    }
}

fn ballot(b: Ballot) -> kotuseraw::Ballot {
    kotuseraw::Ballot {
        config_id: b.config_id,
        n: b.n,
        priority: b.priority,
        pid: b.pid,
    }
}

fn rust_ballot(b: kotuseraw::Ballot) -> Ballot {
    Ballot::with(b.config_id, b.n, b.priority, b.pid)
}

fn at(index: usize) -> LogIndex {
    LogIndex(index as u64)
}

impl Brought {
    fn entries(&mut self, run: &[Change]) -> StorageResult<()> {
        bring(&mut self.entries, run.iter().map(entry).collect())
    }

    fn snapshot(&mut self, keys: &Keys) -> StorageResult<()> {
        let run: Vec<Entry> = keys.entries().iter().map(entry).collect();
        bring(&mut self.snapshot, Snapshot::fold(&run)?)
    }

    fn stopsign(&mut self, sign: &StopSign) -> StorageResult<()> {
        let config = &sign.next_config;
        let made = kotuseraw::StopSign::new(
            config.configuration_id,
            &config.nodes,
            sign.metadata.as_deref(),
        );
        bring(
            &mut self.stopsign,
            made.ok_or("a stop-sign that is too large")?,
        )
    }

    fn op(&mut self, op: StorageOp<Change>) -> StorageResult<Op> {
        Ok(match op {
            StorageOp::AppendEntry(e) => {
                self.entries(&[e])?;
                Op::AppendEntries
            }
            StorageOp::AppendEntries(es) => {
                self.entries(&es)?;
                Op::AppendEntries
            }
            StorageOp::AppendOnPrefix(from, es) => {
                self.entries(&es)?;
                Op::AppendOnPrefix(at(from))
            }
            StorageOp::SetPromise(b) => Op::SetPromise(ballot(b)),
            StorageOp::SetDecidedIndex(i) => Op::SetDecidedIndex(at(i)),
            StorageOp::SetAcceptedRound(b) => Op::SetAcceptedRound(ballot(b)),
            StorageOp::SetCompactedIdx(i) => Op::SetCompactedIdx(at(i)),
            StorageOp::Trim(i) => Op::Trim(at(i)),
            StorageOp::SetStopsign(None) => Op::RemoveStopsign,
            StorageOp::SetStopsign(Some(sign)) => {
                self.stopsign(&sign)?;
                Op::SetStopsign
            }
            StorageOp::SetSnapshot(None) => Op::RemoveSnapshot,
            StorageOp::SetSnapshot(Some(keys)) => {
                self.snapshot(&keys)?;
                Op::SetSnapshot
            }
        })
    }
}

impl Stored {
    fn changes(
        &self,
        run: impl FnOnce(&Index) -> Result<&[Entry], kotuseraw::Refusal>,
    ) -> StorageResult<Vec<Change>> {
        Ok(run(&self.0.borrow())?.iter().map(change).collect())
    }
}

impl Sight for Stored {
    fn of(held: Backend) -> Self {
        let mut stored = Stored(Rc::new(RefCell::new(Index::fresh(0).unwrap())));
        let list = vec![
            StorageOp::Trim(held.start),
            StorageOp::SetCompactedIdx(held.compacted),
            StorageOp::AppendEntries(held.log),
            StorageOp::SetSnapshot(held.snapshot),
            StorageOp::SetStopsign(held.stop),
            StorageOp::SetDecidedIndex(held.decided),
            StorageOp::SetPromise(held.promise.unwrap_or_default()),
            StorageOp::SetAcceptedRound(held.round.unwrap_or_default()),
        ];
        stored.write_atomically(list).expect("a well-formed state");
        stored
    }

    fn seen<R>(&self, look: impl FnOnce(&Backend) -> R) -> R {
        let known = "a getter of the library";
        let compacted = self.get_compacted_idx().expect(known);
        look(&Backend {
            start: compacted,
            log: self.get_suffix(compacted).expect(known),
            promise: self.get_promise().expect(known),
            round: self.get_accepted_round().expect(known),
            decided: self.get_decided_idx().expect(known),
            compacted,
            snapshot: self.get_snapshot().expect(known),
            stop: self.get_stopsign().expect(known),
        })
    }
}

impl Storage<Change> for Stored {
    fn write_atomically(&mut self, ops: Vec<StorageOp<Change>>) -> StorageResult<()> {
        let mut brought = Brought::default();
        let list = ops
            .into_iter()
            .map(|op| brought.op(op))
            .collect::<StorageResult<Vec<Op>>>()?;
        let lent = Lent {
            entries: brought.entries.as_deref().unwrap_or(&[]),
            snapshot: brought.snapshot.as_ref(),
            stopsign: brought.stopsign,
        };
        Ok(self.0.borrow_mut().write_atomically(lent, &list)?)
    }

    fn append_entry(&mut self, entry: Change) -> StorageResult<()> {
        self.write_atomically(vec![StorageOp::AppendEntry(entry)])
    }

    fn append_entries(&mut self, entries: Vec<Change>) -> StorageResult<()> {
        self.write_atomically(vec![StorageOp::AppendEntries(entries)])
    }

    fn append_on_prefix(&mut self, from_idx: usize, entries: Vec<Change>) -> StorageResult<()> {
        self.write_atomically(vec![StorageOp::AppendOnPrefix(from_idx, entries)])
    }

    fn set_promise(&mut self, n_prom: Ballot) -> StorageResult<()> {
        self.write_atomically(vec![StorageOp::SetPromise(n_prom)])
    }

    fn set_decided_idx(&mut self, ld: usize) -> StorageResult<()> {
        self.write_atomically(vec![StorageOp::SetDecidedIndex(ld)])
    }

    fn get_decided_idx(&self) -> StorageResult<usize> {
        Ok(self.0.borrow().record().decided.0 as usize)
    }

    fn set_accepted_round(&mut self, na: Ballot) -> StorageResult<()> {
        self.write_atomically(vec![StorageOp::SetAcceptedRound(na)])
    }

    fn get_accepted_round(&self) -> StorageResult<Option<Ballot>> {
        Ok(Some(rust_ballot(self.0.borrow().record().accepted_round)))
    }

    fn get_entries(&self, from: usize, to: usize) -> StorageResult<Vec<Change>> {
        self.changes(|index| index.get_entries(at(from), at(to)))
    }

    fn get_log_len(&self) -> StorageResult<usize> {
        Ok(self.0.borrow().record().retained)
    }

    fn get_suffix(&self, from: usize) -> StorageResult<Vec<Change>> {
        self.changes(|index| index.get_suffix(at(from)))
    }

    fn get_promise(&self) -> StorageResult<Option<Ballot>> {
        Ok(Some(rust_ballot(self.0.borrow().record().promise)))
    }

    fn set_stopsign(&mut self, s: Option<StopSign>) -> StorageResult<()> {
        self.write_atomically(vec![StorageOp::SetStopsign(s)])
    }

    fn get_stopsign(&self) -> StorageResult<Option<StopSign>> {
        let held = self.0.borrow();
        let sign = held.record().stop;
        Ok(held.record().stop_held.then(|| {
            let config = ClusterConfig {
                configuration_id: sign.config_id,
                nodes: sign.nodes().to_vec(),
                flexible_quorum: None,
            };
            StopSign::with(config, sign.metadata().map(<[u8]>::to_vec))
        }))
    }

    fn trim(&mut self, idx: usize) -> StorageResult<()> {
        self.write_atomically(vec![StorageOp::Trim(idx)])
    }

    fn set_compacted_idx(&mut self, idx: usize) -> StorageResult<()> {
        self.write_atomically(vec![StorageOp::SetCompactedIdx(idx)])
    }

    fn get_compacted_idx(&self) -> StorageResult<usize> {
        Ok(self.0.borrow().record().compacted.0 as usize)
    }

    fn set_snapshot(&mut self, snapshot: Option<Keys>) -> StorageResult<()> {
        self.write_atomically(vec![StorageOp::SetSnapshot(snapshot)])
    }

    fn get_snapshot(&self) -> StorageResult<Option<Keys>> {
        let held = self.0.borrow();
        let changes = |run: &[Entry]| run.iter().map(change).collect::<Vec<_>>();
        Ok(held.snapshot().map(|run| Keys::create(&changes(run))))
    }
}
