//! A call with its arguments, in form or not, and the lines that ask it.
use crate::ballot_leader_election::Ballot;
use crate::lines::lend;
use crate::state::{LentSnapshot, Sign};
use std::ops::Bound;

#[derive(Clone, Copy, Debug, PartialEq)]
pub enum Kind {
    Plain,
    Complete,
    Delta,
}

/// A sync's log part, if it is `held`. The slices are lent either way.
#[derive(Clone, Debug)]
pub struct Part {
    pub held: bool,
    pub idx: u64,
    pub kind: Kind,
    pub snapshot: LentSnapshot,
    pub suffix: Vec<u64>,
    pub stop: Option<Sign>,
}

/// The operations, as line 7 numbers them.
#[derive(Clone, Copy, Debug, PartialEq)]
pub enum OpKind {
    AppendEntries,
    AppendOnPrefix,
    SetPromise,
    SetDecidedIndex,
    SetAcceptedRound,
    SetCompactedIdx,
    Trim,
    SetStopsign,
    SetSnapshot,
}

pub const OP_KINDS: [OpKind; 9] = [
    OpKind::AppendEntries,
    OpKind::AppendOnPrefix,
    OpKind::SetPromise,
    OpKind::SetDecidedIndex,
    OpKind::SetAcceptedRound,
    OpKind::SetCompactedIdx,
    OpKind::Trim,
    OpKind::SetStopsign,
    OpKind::SetSnapshot,
];

#[derive(Clone, Copy, Debug)]
pub struct Op {
    pub kind: OpKind,
    pub index: u64,
    pub given: bool,
    pub ballot: Ballot,
}

/// An operation list with what is lent beside it. `snapshot_lent` and `stop` say whether a snapshot and a stop-sign are.
#[derive(Clone, Debug)]
pub struct List {
    pub ops: Vec<Op>,
    pub entries: Vec<u64>,
    pub snapshot_lent: bool,
    pub snapshot: LentSnapshot,
    pub stop: Option<Sign>,
}

/// Where a call comes in two forms: the covered one, and the one that is proved by hand above it (a record where it stands, a slice of
/// operations, a reply with the entries beside it).
#[derive(Clone, Copy, Debug, PartialEq)]
pub enum Form {
    Covered,
    ByHand,
}

/// `usize` is how many words of the output area are lent.
#[derive(Clone, Debug)]
pub enum Call {
    Fresh(u64),
    Reload,
    WellFormed,
    GetAccepted,
    GetLogDecided,
    StopIsDecided,
    AppendEntry(u64, Option<u64>),
    Append(Vec<u64>),
    AppendIdx(Vec<u64>),
    AppendNow(Vec<u64>),
    Flush,
    FlushEntries,
    AppendStop(Sign),
    SetStop(Option<Sign>),
    Promise(Ballot),
    Decide(Form, u64),
    Read(Form, Bound<u64>, Bound<u64>),
    ReadDecided(u64),
    Entries(u64, u64),
    Suffix(u64),
    Lookup(u64),
    /// Of keys, into so many words of the output.
    LookupMany(Vec<u64>, usize),
    /// To an index or, as the next, over all that is log-decided.
    Trim(Form, Option<u64>),
    Snapshot(Option<u64>),
    Create(u64, usize),
    Diff(u64, usize),
    Sync(Ballot, u64, Part),
    Write(Form, List),
    Fold(Vec<u64>, usize),
    /// Of the held snapshot, with so many keys, and another.
    Merge(u64, LentSnapshot, usize),
    Find(LentSnapshot, u64),
    SnapshotFormed(LentSnapshot),
    EntriesFormed(Vec<u64>),
    PlaceFormed(u64),
    SignFormed(Sign),
    Compare(Ballot, Ballot),
    /// Of so many words of the output.
    ReplyAt(usize, u64),
    EntriesOf(u64, u64),
    /// Of a reply: 0 nothing, 1 a refusal, 2 a run.
    EntriesShown(u64, u64, u64),
}

fn ballot_line(b: &Ballot) -> Vec<u64> {
    vec![6, b.config_id as u64, b.n as u64, b.priority as u64, b.pid]
}

fn bound_numbers(b: &Bound<u64>) -> [u64; 2] {
    match b {
        Bound::Included(i) => [0, *i],
        Bound::Excluded(i) => [1, *i],
        Bound::Unbounded => [2, 0],
    }
}

/// Of a snapshot that is not looked at only the length is lent.
fn lend_snapshot(snapshot: &LentSnapshot, looked_at: bool) -> Vec<Vec<u64>> {
    if looked_at {
        return lend(3, &snapshot.words);
    }
    vec![vec![3, 3, snapshot.words.len() as u64]]
}

impl List {
    fn lines(&self) -> Vec<Vec<u64>> {
        let mut lines = lend(2, &self.entries);
        lines.extend(lend_snapshot(&self.snapshot, self.snapshot_lent));
        lines.extend(self.stop.iter().flat_map(Sign::lines));
        lines.push(vec![8]);
        for op in &self.ops {
            lines.push(ballot_line(&op.ballot));
            lines.push(vec![7, op.kind as u64, op.index, op.given as u64]);
        }
        lines
    }
}

impl Call {
    /// The exported function that it calls.
    pub fn name(&self) -> &'static str {
        use Form::*;
        match self {
            Call::Fresh(_) => "state_cache::fresh",
            Call::Reload => "state_cache::load_cache",
            Call::WellFormed => "state_cache::well_formed",
            Call::GetAccepted => "state_cache::get_accepted_idx",
            Call::GetLogDecided => "state_cache::get_decided_idx_without_stopsign",
            Call::StopIsDecided => "state_cache::stopsign_is_decided",
            Call::AppendEntry(..) => "append_entry_with_batching",
            Call::Append(_) => "append_entries_with_batching",
            Call::AppendIdx(_) => "append_entries_and_get_accepted_idx",
            Call::AppendNow(_) => "append_entries_without_batching",
            Call::Flush => "flush_batch",
            Call::FlushEntries => "flush_batch_and_get_entries",
            Call::AppendStop(_) => "append_stopsign",
            Call::SetStop(_) => "set_stopsign",
            Call::Promise(_) => "set_promise",
            Call::Decide(Covered, _) => "set_decided_idx",
            Call::Decide(ByHand, _) => "in_place::set_decided_idx",
            Call::Read(Covered, ..) => "read_reply",
            Call::Read(ByHand, ..) => "reading::read",
            Call::ReadDecided(_) => "read_decided_suffix_reply",
            Call::Entries(..) => "get_entries_reply",
            Call::Suffix(_) => "get_suffix_reply",
            Call::Lookup(_) => "lookup",
            Call::LookupMany(..) => "lookup_many",
            Call::Trim(Covered, _) => "compact, trim",
            Call::Trim(ByHand, _) => "in_place::trim",
            Call::Snapshot(_) => "compact, snapshot",
            Call::Create(..) => "create_snapshot",
            Call::Diff(..) => "create_diff_snapshot",
            Call::Sync(_, _, part) => match part.kind {
                _ if !part.held => "sync_log without a log part",
                Kind::Plain => "sync_log, plain",
                Kind::Complete => "sync_log, complete",
                Kind::Delta => "sync_log, delta",
            },
            Call::Write(Covered, _) => "write_list",
            Call::Write(ByHand, _) => "write_atomically",
            Call::Fold(..) => "snapshot::fold",
            Call::Merge(..) => "snapshot::merge",
            Call::Find(..) => "snapshot::find",
            Call::SnapshotFormed(_) => "snapshot::snapshot_formed",
            Call::EntriesFormed(_) => "entry::entries_formed",
            Call::PlaceFormed(_) => "entry::place_formed",
            Call::SignFormed(_) => "entry::sign_formed",
            Call::Compare(..) => "Ballot::cmp and eq",
            Call::ReplyAt(..) => "entry::reply_at",
            Call::EntriesOf(..) => "reading::entries_of",
            Call::EntriesShown(..) => "reading::entries_shown",
        }
    }

    /// The names of all that it may be, with the refusals that the documents give each in its order: a run is to meet them all.
    pub fn all() -> Vec<(&'static str, Vec<u64>)> {
        let on_state: &[(&str, &[u64])] = &[
            ("state_cache::load_cache", &[]),
            ("state_cache::get_accepted_idx", &[]),
            ("state_cache::get_decided_idx_without_stopsign", &[]),
            ("state_cache::stopsign_is_decided", &[]),
            ("append_entry_with_batching", &[11, 4, 9, 1]),
            ("append_entries_with_batching", &[11, 4, 9, 1]),
            ("append_entries_and_get_accepted_idx", &[11, 4, 9, 1]),
            ("append_entries_without_batching", &[11, 4, 9, 1]),
            ("flush_batch", &[]),
            ("flush_batch_and_get_entries", &[]),
            ("append_stopsign", &[11, 4, 9]),
            ("set_stopsign", &[11, 4, 10, 9]),
            ("set_promise", &[]),
            ("set_decided_idx", &[5, 6]),
            ("in_place::set_decided_idx", &[5, 6]),
            ("read_reply", &[11]),
            ("reading::read", &[11]),
            ("read_decided_suffix_reply", &[]),
            ("get_entries_reply", &[]),
            ("get_suffix_reply", &[]),
            ("lookup", &[]),
            ("lookup_many", &[11]),
            ("compact, trim", &[2]),
            ("in_place::trim", &[2]),
            ("compact, snapshot", &[2, 16, 8]),
            ("create_snapshot", &[11, 3, 2, 16, 8]),
            ("create_diff_snapshot", &[11, 16, 8]),
            ("sync_log without a log part", &[11, 6]),
            ("sync_log, plain", &[11, 4, 5, 7, 10, 9, 1, 6]),
            ("sync_log, complete", &[11, 4, 5, 10, 9, 1, 6, 2]),
            ("sync_log, delta", &[11, 4, 5, 10, 9, 1, 6, 2, 16, 8]),
            ("write_list", &[11, 7, 1, 9]),
            ("write_atomically", &[11, 7, 1, 9]),
        ];
        let plain: &[(&str, &[u64])] = &[
            ("state_cache::fresh", &[11]),
            ("state_cache::well_formed", &[]),
            ("snapshot::fold", &[11, 8]),
            ("snapshot::merge", &[11, 8]),
            ("snapshot::find", &[11]),
            ("snapshot::snapshot_formed", &[]),
            ("entry::entries_formed", &[]),
            ("entry::place_formed", &[]),
            ("entry::sign_formed", &[]),
            ("Ballot::cmp and eq", &[]),
            ("entry::reply_at", &[]),
            ("reading::entries_of", &[]),
            ("reading::entries_shown", &[]),
        ];
        let of_state = on_state.iter().map(|(n, r)| (*n, [&[12], *r].concat()));
        let of_words = plain.iter().map(|(n, r)| (*n, r.to_vec()));
        of_state.chain(of_words).collect()
    }

    /// Whether it is lent the output area.
    pub fn writes(&self) -> bool {
        matches!(
            self,
            Call::LookupMany(..)
                | Call::Create(..)
                | Call::Diff(..)
                | Call::Fold(..)
                | Call::Merge(..)
        )
    }

    /// The lines that ask it; the last is the call.
    pub fn lines(&self) -> Vec<Vec<u64>> {
        let mut lines = vec![];
        let call = match self {
            Call::Fresh(n) => vec![10, *n],
            Call::Reload => vec![11],
            Call::WellFormed => vec![12],
            Call::GetAccepted => vec![13],
            Call::GetLogDecided => vec![14],
            Call::StopIsDecided => vec![15],
            Call::AppendEntry(key, place) => {
                vec![20, *key, place.is_none() as u64, place.unwrap_or(0)]
            }
            Call::Append(es) | Call::AppendIdx(es) | Call::AppendNow(es) => {
                lines = lend(2, es);
                vec![match self {
                    Call::Append(_) => 21,
                    Call::AppendIdx(_) => 22,
                    _ => 23,
                }]
            }
            Call::Flush => vec![24],
            Call::FlushEntries => vec![25],
            Call::AppendStop(s) => {
                lines = s.lines();
                vec![26]
            }
            Call::SetStop(s) => {
                lines = s.as_ref().map(Sign::lines).unwrap_or_default();
                vec![27, s.is_some() as u64]
            }
            Call::Promise(b) => {
                lines.push(ballot_line(b));
                vec![28]
            }
            Call::Decide(form, i) => vec![[29, 48][*form as usize], *i],
            Call::Read(form, a, b) => [
                &[[30, 35][*form as usize]],
                &bound_numbers(a)[..],
                &bound_numbers(b)[..],
            ]
            .concat(),
            Call::ReadDecided(i) => vec![31, *i],
            Call::Entries(a, b) => vec![32, *a, *b],
            Call::Suffix(a) => vec![33, *a],
            Call::Lookup(k) => vec![34, *k],
            Call::LookupMany(keys, out) => {
                lines = lend(2, keys);
                lines.push(vec![3, 4, *out as u64]);
                vec![36]
            }
            Call::ReplyAt(out, i) => {
                lines.push(vec![3, 4, *out as u64]);
                vec![37, *i]
            }
            Call::Trim(Form::Covered, i) => [40, 0].into_iter().chain(*i).collect(),
            Call::Trim(Form::ByHand, i) => [49].into_iter().chain(*i).collect(),
            Call::Snapshot(i) => [40, 1].into_iter().chain(*i).collect(),
            Call::Create(i, out) => {
                lines.push(vec![3, 4, *out as u64]);
                vec![43, *i]
            }
            Call::Diff(i, out) => {
                lines.push(vec![3, 4, *out as u64]);
                vec![44, *i]
            }
            Call::Sync(b, d, p) => {
                lines.push(ballot_line(b));
                lines.extend(lend(2, &p.suffix));
                lines.extend(lend_snapshot(&p.snapshot, p.held && p.kind != Kind::Plain));
                lines.extend(p.stop.iter().flat_map(Sign::lines));
                let (kind, keys, stop) = (p.kind as u64, p.snapshot.keys, p.stop.is_some() as u64);
                vec![45, p.held as u64, *d, p.idx, kind, keys, stop]
            }
            Call::Write(form, list) => {
                lines = list.lines();
                let (snapshot, stop) = (list.snapshot_lent as u64, list.stop.is_some() as u64);
                vec![[46, 47][*form as usize], snapshot, list.snapshot.keys, stop]
            }
            Call::Fold(es, out) => {
                lines = lend(2, es);
                lines.push(vec![3, 4, *out as u64]);
                vec![50]
            }
            Call::Merge(n, snapshot, out) => {
                lines = lend(3, &snapshot.words);
                lines.push(vec![3, 4, *out as u64]);
                vec![51, *n, snapshot.keys]
            }
            Call::Find(snapshot, key) => {
                lines = lend(3, &snapshot.words);
                vec![52, snapshot.keys, *key]
            }
            Call::SnapshotFormed(snapshot) => {
                lines = lend(3, &snapshot.words);
                vec![53, snapshot.keys]
            }
            Call::EntriesFormed(es) => {
                lines = lend(2, es);
                vec![54]
            }
            Call::PlaceFormed(w) => vec![55, *w],
            Call::SignFormed(s) => {
                lines = s.lines();
                vec![56]
            }
            Call::Compare(a, b) => {
                lines.push(ballot_line(a));
                let mut line = ballot_line(b);
                line[0] = 57;
                line
            }
            Call::EntriesOf(first, count) => vec![60, *first, *count],
            Call::EntriesShown(kind, first, count) => vec![61, *kind, *first, *count],
        };
        lines.push(call);
        lines
    }
}
