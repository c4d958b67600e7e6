//! Requests and replies with types.
use crate::entry::Entry;
use crate::plain::{self, Ballot, BlockPlace, LogIndex, Said, StopSign};
use crate::Snapshot;
use std::cmp::Ordering;
use std::ops;

impl Ballot {
    /// The library's order: n, then priority, then pid. It does not look at the configuration.
    ///
    /// ```
    /// use kotuseraw::Ballot;
    /// use std::cmp::Ordering;
    /// let low = Ballot { n: 1, pid: 9, ..Ballot::default() };
    /// let high = Ballot { n: 1, priority: 1, ..Ballot::default() };
    /// assert_eq!(low.order(high), Ordering::Less);
    /// ```
    pub fn order(self, other: Ballot) -> Ordering {
        plain::ballot_cmp(self, other).cmp(&1)
    }
}

impl StopSign {
    /// A stop-sign for up to [`NODES`](plain::NODES) nodes with up to [`METADATA`](plain::METADATA) bytes of metadata; None where there
    /// are more. One without a node is in no form, and refused by every call.
    pub fn new(config_id: u32, nodes: &[u64], metadata: Option<&[u8]>) -> Option<StopSign> {
        let mut sign = StopSign { config_id, node_count: nodes.len(), metadata_held: metadata.is_some(), ..StopSign::default() };
        let bytes = metadata.unwrap_or(&[]);
        sign.metadata_len = bytes.len();
        sign.nodes.get_mut(..nodes.len())?.copy_from_slice(nodes);
        sign.metadata.get_mut(..bytes.len())?.copy_from_slice(bytes);
        Some(sign)
    }

    pub fn nodes(&self) -> &[u64] {
        &self.nodes[..self.node_count.min(self.nodes.len())]
    }

    pub fn metadata(&self) -> Option<&[u8]> {
        let bytes = &self.metadata[..self.metadata_len.min(self.metadata.len())];
        self.metadata_held.then_some(bytes)
    }
}

/// What a compaction does with the entries that leave the log.
#[derive(Clone, Copy, Debug, PartialEq, Eq)]
pub enum Compaction {
    /// Drops them, and the held snapshot, which lacks them.
    Trim,
    /// Folds them into the held snapshot.
    Snapshot,
}

/// How far a compaction goes.
#[derive(Clone, Copy, Debug, PartialEq, Eq)]
pub enum Upto {
    /// Over all that is decided but a stop-sign.
    All,
    Index(LogIndex),
}

impl Upto {
    /// Whether an index is given, and which.
    pub(crate) fn plain(self) -> (bool, LogIndex) {
        match self {
            Upto::All => (false, LogIndex::default()),
            Upto::Index(idx) => (true, idx),
        }
    }
}

/// What is known of a key: what its newest word says, or that there is none.
#[derive(Clone, Copy, Debug, PartialEq, Eq)]
pub enum Found {
    Place(BlockPlace),
    Removed,
    /// On a log with a hole it says only that the log no longer holds the key.
    Unknown,
}

impl Found {
    pub(crate) fn told(said: Said) -> Found {
        match said.told {
            1 => Found::Place(BlockPlace(said.first)),
            2 => Found::Removed,
            _ => Found::Unknown,
        }
    }

    /// The key's place; None where it is removed or unknown.
    pub const fn place(self) -> Option<BlockPlace> {
        match self {
            Found::Place(place) => Some(place),
            Found::Removed | Found::Unknown => None,
        }
    }
}

/// What became of an append.
#[derive(Clone, Copy, Debug, PartialEq, Eq)]
pub enum Appended {
    /// It waits in the batch.
    Held,
    /// The batch was flushed: the accepted index after it, and how many entries were flushed.
    Flushed { accepted: LogIndex, entries: usize },
}

/// What stands for the entries below the compacted index in a run that is read.
#[derive(Clone, Copy, Debug, PartialEq, Eq)]
pub enum Marker<'a> {
    None,
    Trimmed(LogIndex),
    /// The snapshot up to an index, and its keys.
    Snapshot {
        index: LogIndex,
        keys: &'a [Entry],
    },
}

/// A run that is read, borrowed from the state.
#[derive(Clone, Copy, Debug, PartialEq, Eq)]
pub struct Run<'a> {
    pub marker: Marker<'a>,
    pub entries: &'a [Entry],
    /// How many of the entries, from the first on, are decided.
    pub decided: usize,
    /// The stop-sign, where the run reaches it, and whether it is decided.
    pub stop: Option<(&'a StopSign, bool)>,
}

/// What brings a follower up to log-decided.
#[derive(Clone, Debug, PartialEq, Eq)]
pub enum Diff {
    /// Nothing but the log.
    Plain,
    Complete(Snapshot),
    /// To be merged over what the follower has.
    Delta(Snapshot),
}

/// The snapshot of a sync's log part.
#[derive(Clone, Copy, Debug)]
pub enum SnapshotType<'a> {
    None,
    Complete(&'a Snapshot),
    Delta(&'a Snapshot),
}

/// A sync's log part.
#[derive(Clone, Copy, Debug)]
pub struct LogSync<'a> {
    /// Where the suffix starts.
    pub sync_idx: LogIndex,
    pub decided_snapshot: SnapshotType<'a>,
    pub suffix: &'a [Entry],
    pub stopsign: Option<StopSign>,
}

impl<'a> LogSync<'a> {
    /// The part, and the snapshot's words: those of an empty one where there is none.
    pub(crate) fn plain(&self, none: &'a Snapshot) -> (plain::LogSync, &'a [u64]) {
        let (kind, snapshot) = match self.decided_snapshot {
            SnapshotType::None => (0, none),
            SnapshotType::Complete(snapshot) => (1, snapshot),
            SnapshotType::Delta(snapshot) => (2, snapshot),
        };
        let part = plain::LogSync {
            sync_idx: self.sync_idx,
            kind,
            keys: snapshot.keys(),
            stop_held: self.stopsign.is_some(),
            stopsign: self.stopsign.unwrap_or_default(),
        };
        (part, snapshot.words())
    }
}

/// An operation of a list. The entries, the snapshot and the stop-sign are lent beside the list.
#[derive(Clone, Copy, Debug, PartialEq, Eq)]
pub enum Op {
    AppendEntries,
    AppendOnPrefix(LogIndex),
    SetPromise(Ballot),
    SetDecidedIndex(LogIndex),
    SetAcceptedRound(Ballot),
    SetCompactedIdx(LogIndex),
    Trim(LogIndex),
    /// The stop-sign that is lent.
    SetStopsign,
    RemoveStopsign,
    /// The snapshot that is lent.
    SetSnapshot,
    RemoveSnapshot,
}

impl Op {
    fn plain(self) -> plain::Op {
        let at = |kind, index| plain::Op { kind, index, ..plain::Op::default() };
        let by = |kind, ballot| plain::Op { kind, ballot, ..plain::Op::default() };
        let given = |kind, given| plain::Op { kind, given, ..plain::Op::default() };
        match self {
            Op::AppendEntries => given(0, false),
            Op::AppendOnPrefix(i) => at(1, i),
            Op::SetPromise(b) => by(2, b),
            Op::SetDecidedIndex(i) => at(3, i),
            Op::SetAcceptedRound(b) => by(4, b),
            Op::SetCompactedIdx(i) => at(5, i),
            Op::Trim(i) => at(6, i),
            Op::SetStopsign => given(7, true),
            Op::RemoveStopsign => given(7, false),
            Op::SetSnapshot => given(8, true),
            Op::RemoveSnapshot => given(8, false),
        }
    }

    /// A list that is too long keeps its count, with which it is refused.
    pub(crate) fn list(ops: &[Op]) -> plain::Ops {
        let mut list = plain::Ops { count: ops.len(), ..plain::Ops::default() };
        for (to, op) in list.ops.iter_mut().zip(ops) {
            *to = op.plain();
        }
        list
    }
}

/// What is lent beside an operation list.
#[derive(Clone, Copy, Debug, Default)]
pub struct Lent<'a> {
    pub entries: &'a [Entry],
    pub snapshot: Option<&'a Snapshot>,
    pub stopsign: Option<StopSign>,
}

impl Lent<'_> {
    pub(crate) fn plain(&self) -> plain::Lent {
        plain::Lent {
            snapshot_lent: self.snapshot.is_some(),
            keys: self.snapshot.map_or(0, Snapshot::keys),
            stop_lent: self.stopsign.is_some(),
            stop: self.stopsign.unwrap_or_default(),
        }
    }
}

/// One end of a range as the library has it.
pub(crate) fn bound(end: ops::Bound<&LogIndex>) -> plain::Bound {
    let (kind, index) = match end {
        ops::Bound::Included(i) => (0, *i),
        ops::Bound::Excluded(i) => (1, *i),
        ops::Bound::Unbounded => (2, LogIndex(0)),
    };
    plain::Bound { kind, index }
}
