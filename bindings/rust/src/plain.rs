//! The boundary number for number: every call of the proved library on a record and words that the caller lends, whatever they hold.
//!
//! Nothing here needs a well-formed state or a request that makes sense: what is neither is refused, with its number, and a refusal
//! changes nothing. Kinds are numbers, and one that there is not is refused with 11. `docs/HOST.md` in the repository says of each
//! call what its answer tells. [`Index`](crate::Index) and [`View`](crate::View) are the same calls with types.

/// The largest index that is held.
pub const LARGEST_INDEX: LogIndex = LogIndex(4_294_967_295);
pub const LARGEST_BATCH: u64 = 64;
/// Nodes of a stop-sign.
pub const NODES: usize = 7;
/// Bytes of a stop-sign's metadata.
pub const METADATA: usize = 32;
/// Operations of a list.
pub const MOST_OPS: usize = 8;
/// Keys that one lookup may ask for.
pub const MOST_ASKED: usize = 64;
/// Words of each of its replies.
pub const REPLY_WIDTH: usize = 1;
/// Peers of a node in an election.
pub const PEERS: usize = 6;
/// Replies of a round.
pub const REPLIES: usize = 16;
/// Outgoing messages.
pub const OUTGOING: usize = 32;
/// The largest round, and the largest number of a ballot.
pub const LAST_ROUND: u32 = u32::MAX;

#[repr(C)]
#[derive(Clone, Copy, Debug, Default, PartialEq, Eq, PartialOrd, Ord, Hash)]
/// The number of a change in the log.
pub struct LogIndex(pub u64);

#[repr(C)]
#[derive(Clone, Copy, Debug, Default, PartialEq, Eq, PartialOrd, Ord, Hash)]
/// The number of a block on disk, below [`PLACES`](crate::entry::PLACES).
pub struct BlockPlace(pub u64);

#[repr(C)]
#[derive(Clone, Copy, Debug, Default, PartialEq, Eq, Hash)]
/// Its order is [`ballot_cmp`]'s, which does not look at the configuration.
pub struct Ballot {
    pub config_id: u32,
    pub n: u32,
    pub priority: u32,
    pub pid: u64,
}

#[repr(C)]
#[derive(Clone, Copy, Debug, Default, PartialEq, Eq, Hash)]
/// The next configuration: its nodes, and metadata or none. What is past the counts is zero.
pub struct StopSign {
    pub config_id: u32,
    pub node_count: usize,
    pub nodes: [u64; NODES],
    pub metadata_held: bool,
    pub metadata_len: usize,
    pub metadata: [u8; METADATA],
}

#[repr(C)]
#[derive(Clone, Copy, Debug, Default, PartialEq, Eq, Hash)]
/// A log's numbers, beside its words.
pub struct IndexRecord {
    pub batch_size: u64,
    pub retained: usize,
    pub batched: usize,
    pub compacted: LogIndex,
    pub decided: LogIndex,
    pub promise: Ballot,
    pub accepted_round: Ballot,
    pub snapshot_held: bool,
    pub keys: usize,
    pub stop_held: bool,
    pub stop: StopSign,
}

#[repr(C)]
#[derive(Clone, Copy, Debug, Default, PartialEq, Eq)]
/// Number 0: the call stands, and where `told` is not 0 `first` and `second` are what it tells. Any other: the refusal, and what it
/// carries.
pub struct Said {
    pub number: u64,
    pub carried: u64,
    pub told: u64,
    pub first: u64,
    pub second: u64,
}

#[repr(C)]
#[derive(Clone, Copy, Debug, Default, PartialEq, Eq)]
/// What a call says, and the record after it.
pub struct Reply {
    pub said: Said,
    pub index: IndexRecord,
}

#[repr(C)]
#[derive(Clone, Copy, Debug, Default, PartialEq, Eq)]
/// What a read says: where `told` is 1, the marker (0: none; 1: trimmed; 2: a snapshot), the part of the lent log in entries, and the
/// stop-sign.
pub struct ShownSaid {
    pub number: u64,
    pub carried: u64,
    pub told: u64,
    pub marker: u64,
    pub index: u64,
    pub keys: usize,
    pub first: usize,
    pub count: usize,
    pub decided: usize,
    pub stop: bool,
    pub stop_decided: bool,
}

#[repr(C)]
#[derive(Clone, Copy, Debug, Default, PartialEq, Eq)]
/// One end of a range, kind 0: included; 1: excluded; 2: none.
pub struct Bound {
    pub kind: u64,
    pub index: LogIndex,
}

#[repr(C)]
#[derive(Clone, Copy, Debug, Default, PartialEq, Eq)]
/// An operation, kind 0 AppendEntries, 1 AppendOnPrefix, 2 SetPromise, 3 SetDecidedIndex, 4 SetAcceptedRound, 5 SetCompactedIdx,
/// 6 Trim, 7 SetStopsign, 8 SetSnapshot. Fields that its kind does not use are not looked at.
pub struct Op {
    pub kind: u64,
    pub index: LogIndex,
    pub ballot: Ballot,
    pub given: bool,
}

#[repr(C)]
#[derive(Clone, Copy, Debug, Default, PartialEq, Eq)]
/// The first `count` of the operations.
pub struct Ops {
    pub count: usize,
    pub ops: [Op; MOST_OPS],
}

#[repr(C)]
#[derive(Clone, Copy, Debug, Default, PartialEq, Eq)]
/// What is lent beside an operation list and its entries: a snapshot's number of keys, and a stop-sign, or none.
pub struct Lent {
    pub snapshot_lent: bool,
    pub keys: usize,
    pub stop_lent: bool,
    pub stop: StopSign,
}

#[repr(C)]
#[derive(Clone, Copy, Debug, Default, PartialEq, Eq)]
/// A sync's log part, kind 0: without a snapshot; 1: with a complete one; 2: with a delta.
pub struct LogSync {
    pub sync_idx: LogIndex,
    pub kind: u64,
    pub keys: usize,
    pub stop_held: bool,
    pub stopsign: StopSign,
}

#[repr(C)]
#[derive(Clone, Copy, Debug, Default, PartialEq, Eq, Hash)]
/// A reply to a heartbeat: of which round, and where its sender stood.
pub struct HeartbeatReply {
    pub round: u32,
    pub ballot: Ballot,
    pub leader: Ballot,
    pub happy: bool,
}

#[repr(C)]
#[derive(Clone, Copy, Debug, Default, PartialEq, Eq, Hash)]
/// A message from one node to another: a reply, or a request, of which nothing but the round is looked at.
pub struct BLEMessage {
    pub from: u64,
    pub to: u64,
    pub is_reply: bool,
    pub reply: HeartbeatReply,
}

#[repr(C)]
#[derive(Clone, Copy, Debug, Default, PartialEq, Eq, Hash)]
/// The first `count` are held, and the others are zero.
pub struct Peers {
    pub count: usize,
    pub held: [u64; PEERS],
}

#[repr(C)]
#[derive(Clone, Copy, Debug, Default, PartialEq, Eq, Hash)]
/// The first `count` are held, and the others are zero.
pub struct Replies {
    pub count: usize,
    pub held: [HeartbeatReply; REPLIES],
}

#[repr(C)]
#[derive(Clone, Copy, Debug, Default, PartialEq, Eq, Hash)]
/// The first `count` are held, and the others are zero.
pub struct Outgoing {
    pub count: usize,
    pub held: [BLEMessage; OUTGOING],
}

#[repr(C)]
#[derive(Clone, Copy, Debug, Default, PartialEq, Eq, Hash)]
/// The state of a node's election.
pub struct BallotLeaderElection {
    pub configuration_id: u32,
    pub pid: u64,
    pub peers: Peers,
    pub hb_round: u32,
    pub heartbeat_replies: Replies,
    pub prev_replies: Replies,
    pub current_ballot: Ballot,
    pub leader: Ballot,
    pub happy: bool,
    pub outgoing: Outgoing,
}

#[repr(C)]
#[derive(Clone, Copy, Debug, Default, PartialEq, Eq, Hash)]
/// What a node starts from, beside its peers.
pub struct BLEConfig {
    pub configuration_id: u32,
    pub pid: u64,
    pub priority: u32,
}

#[repr(C)]
#[derive(Clone, Copy, Debug, Default, PartialEq, Eq)]
/// What a call of the election says, and the state after it.
pub struct ElectionReply {
    pub said: Said,
    pub election: BallotLeaderElection,
}

#[repr(C)]
#[derive(Clone, Copy, Debug, Default, PartialEq, Eq)]
/// The same with the messages that it hands out; none where it is refused.
pub struct ElectionTaken {
    pub said: Said,
    pub outgoing: Outgoing,
    pub election: BallotLeaderElection,
}

#[repr(C)]
#[derive(Clone, Copy, Debug, Default, PartialEq, Eq)]
/// What a call says that hands out a ballot, zeros where it is refused.
pub struct ElectionBallot {
    pub said: Said,
    pub ballot: Ballot,
}

#[repr(C)]
#[derive(Clone, Copy, Debug, Default, PartialEq, Eq)]
/// What a call says that hands out replies, none where it is refused.
pub struct ElectionBallots {
    pub said: Said,
    pub replies: Replies,
}

/// An export of the archive as a Rust function. A slice goes as its pointer and its length.
macro_rules! export {
    ($kind:ident $(#[$note:meta])* $name:ident($($args:tt)*) -> $out:ty = $symbol:literal) => {
        export! { @ [$kind $(#[$note])*] $name $out, $symbol, [] [] [] $($args)* }
    };
    (@ $head:tt $name:ident $out:ty, $symbol:literal, [$($c:tt)*] [$($sig:tt)*] [$($pass:tt)*] $a:ident: &[$unit:ident], $($rest:tt)*) => {
        export! { @ $head $name $out, $symbol, [$($c)* _: *const $unit, _: usize,] [$($sig)* $a: &[$unit],] [$($pass)* $a.as_ptr(), $a.len(),] $($rest)* }
    };
    (@ $head:tt $name:ident $out:ty, $symbol:literal, [$($c:tt)*] [$($sig:tt)*] [$($pass:tt)*] $a:ident: &mut [$unit:ident], $($rest:tt)*) => {
        export! { @ $head $name $out, $symbol, [$($c)* _: *mut $unit, _: usize,] [$($sig)* $a: &mut [$unit],] [$($pass)* $a.as_mut_ptr(), $a.len(),] $($rest)* }
    };
    (@ $head:tt $name:ident $out:ty, $symbol:literal, [$($c:tt)*] [$($sig:tt)*] [$($pass:tt)*] $a:ident: &mut IndexRecord, $($rest:tt)*) => {
        export! { @ $head $name $out, $symbol, [$($c)* _: *mut IndexRecord,] [$($sig)* $a: &mut IndexRecord,] [$($pass)* $a,] $($rest)* }
    };
    (@ $head:tt $name:ident $out:ty, $symbol:literal, [$($c:tt)*] [$($sig:tt)*] [$($pass:tt)*] $a:ident: $t:ty, $($rest:tt)*) => {
        export! { @ $head $name $out, $symbol, [$($c)* _: $t,] [$($sig)* $a: $t,] [$($pass)* $a,] $($rest)* }
    };
    (@ [total $(#[$note:meta])*] $name:ident $out:ty, $symbol:literal, [$($c:tt)*] [$($sig:tt)*] [$($pass:tt)*]) => {
        $(#[$note])*
        #[inline]
        pub fn $name($($sig)*) -> $out {
            extern "C" {
                #[link_name = $symbol]
                fn export($($c)*) -> $out;
            }
            // SAFETY: the export is proved for every record, request and slice that Rust's types admit, and writes to nothing else
            // than the slices that are lent to it to write.
            unsafe { export($($pass)*) }
        }
    };
    (@ [ready $(#[$note:meta])*] $name:ident $out:ty, $symbol:literal, [$($c:tt)*] [$($sig:tt)*] [$($pass:tt)*]) => {
        $(#[$note])*
        #[inline]
        pub(crate) unsafe fn $name($($sig)*) -> $out {
            extern "C" {
                #[link_name = $symbol]
                fn export($($c)*) -> $out;
            }
            // SAFETY: as the caller says.
            unsafe { export($($pass)*) }
        }
    };
}
pub(crate) use export;

macro_rules! exports {
    ($($(#[$note:meta])* $name:ident($($args:tt)*) -> $out:ty = $symbol:literal;)*) => {
        $(export! { total $(#[$note])* $name($($args)*,) -> $out = $symbol })*
    };
}

exports! {
    /// 0: the first is less; 1: they are equal; 2: it is greater.
    ballot_cmp(a: Ballot, b: Ballot) -> u64 = "kotuseraw_ballot_cmp";
    /// Compares the configuration too.
    ballot_eq(a: Ballot, b: Ballot) -> bool = "kotuseraw_ballot_eq";
    place_formed(w: u64) -> bool = "kotuseraw_place_formed";
    entries_formed(s: &[u64]) -> bool = "kotuseraw_entries_formed";
    sign_formed(s: StopSign) -> bool = "kotuseraw_sign_formed";
    snapshot_formed(s: &[u64], keys: usize) -> bool = "kotuseraw_snapshot_formed";

    fold(entries: &[u64], out: &mut [u64]) -> Said = "kotuseraw_fold";
    merge(a: &[u64], n: usize, b: &[u64], m: usize, out: &mut [u64]) -> Said = "kotuseraw_merge";
    /// Told 0: the key is unknown; 1: its place, first; 2: it is removed.
    find(s: &[u64], keys: usize, key: u64) -> Said = "kotuseraw_find";
    create_snapshot(index: IndexRecord, log: &[u64], snapshot: &[u64], idx: LogIndex, out: &mut [u64]) -> Said = "kotuseraw_create_snapshot";
    /// Told 1: nothing; 2: a complete snapshot; 3: a delta. First its keys, second log-decided.
    create_diff_snapshot(index: IndexRecord, log: &[u64], snapshot: &[u64], from: LogIndex, out: &mut [u64]) -> Said = "kotuseraw_create_diff_snapshot";

    well_formed(index: IndexRecord, log: &[u64], snapshot: &[u64]) -> bool = "kotuseraw_well_formed";
    fresh(batch_size: u64, log: &mut [u64], snapshot: &mut [u64]) -> Reply = "kotuseraw_fresh";
    load_cache(index: IndexRecord, log: &mut [u64], snapshot: &[u64]) -> Reply = "kotuseraw_load_cache";
    get_accepted_idx(index: IndexRecord, log: &[u64], snapshot: &[u64]) -> Said = "kotuseraw_get_accepted_idx";
    get_decided_idx_without_stopsign(index: IndexRecord, log: &[u64], snapshot: &[u64]) -> Said = "kotuseraw_get_decided_idx_without_stopsign";
    stopsign_is_decided(index: IndexRecord, log: &[u64], snapshot: &[u64]) -> Said = "kotuseraw_stopsign_is_decided";

    /// Writes the image of a log, its batch left out, to the front of `out`, of which [`ROOM`](crate::image::ROOM) bytes are always
    /// enough. First how many bytes it has; those after them stay.
    write_image(index: IndexRecord, log: &[u64], snapshot: &[u64], out: &mut [u8]) -> Said = "kotuseraw_write_image";
    /// Reads an image into a log of this batch size, over whatever its words held. First the accepted index. Where it is refused no
    /// word has changed, and the record is that of a fresh log of batch size 0.
    read_image(batch_size: u64, bytes: &[u8], log: &mut [u64], snapshot: &mut [u64]) -> Reply = "kotuseraw_read_image";

    /// Where `removed` is set the place is not looked at.
    append_entry_with_batching(index: IndexRecord, log: &mut [u64], snapshot: &[u64], key: u64, removed: bool, place: BlockPlace) -> Reply = "kotuseraw_append_entry_with_batching";
    append_entries_with_batching(index: IndexRecord, log: &mut [u64], snapshot: &[u64], entries: &[u64]) -> Reply = "kotuseraw_append_entries_with_batching";
    append_entries_and_get_accepted_idx(index: IndexRecord, log: &mut [u64], snapshot: &[u64], entries: &[u64]) -> Reply = "kotuseraw_append_entries_and_get_accepted_idx";
    append_entries_without_batching(index: IndexRecord, log: &mut [u64], snapshot: &[u64], entries: &[u64]) -> Reply = "kotuseraw_append_entries_without_batching";
    flush_batch(index: IndexRecord, log: &[u64], snapshot: &[u64]) -> Reply = "kotuseraw_flush_batch";
    flush_batch_and_get_entries(index: IndexRecord, log: &[u64], snapshot: &[u64]) -> Reply = "kotuseraw_flush_batch_and_get_entries";
    append_stopsign(index: IndexRecord, log: &[u64], snapshot: &[u64], ss: StopSign) -> Reply = "kotuseraw_append_stopsign";
    /// Where `held` is not set the stop-sign is taken away, and `ss` is not looked at.
    set_stopsign(index: IndexRecord, log: &[u64], snapshot: &[u64], held: bool, ss: StopSign) -> Reply = "kotuseraw_set_stopsign";
    set_promise(index: IndexRecord, log: &[u64], snapshot: &[u64], n_prom: Ballot) -> Reply = "kotuseraw_set_promise";
    set_decided_idx(index: IndexRecord, log: &[u64], snapshot: &[u64], idx: LogIndex) -> Reply = "kotuseraw_set_decided_idx";
    /// A snapshot where `folds` is set, else a trim, which drops the held snapshot too where it passes the compacted index. Where `given`
    /// is not set it goes over all that is decided but a stop-sign, and `idx` is not looked at.
    compact(index: IndexRecord, log: &mut [u64], snapshot: &mut [u64], folds: bool, given: bool, idx: LogIndex) -> Reply = "kotuseraw_compact";
    /// Where `held` is not set there is no log part, and of what is lent only the slices' lengths are looked at.
    sync_log(index: IndexRecord, log: &mut [u64], snapshot: &mut [u64], accepted_round: Ballot, decided_idx: LogIndex, held: bool, log_sync: LogSync, incoming: &[u64], suffix: &[u64]) -> Reply = "kotuseraw_sync_log";
    write_list(index: IndexRecord, log: &mut [u64], snapshot: &mut [u64], entries: &[u64], incoming: &[u64], lent: Lent, ops: Ops) -> Reply = "kotuseraw_write_list";
    /// The same list as a slice of operations.
    write_atomically(index: IndexRecord, log: &mut [u64], snapshot: &mut [u64], entries: &[u64], incoming: &[u64], lent: Lent, ops: Ops) -> Reply = "kotuseraw_write_atomically";
    /// [`set_decided_idx`] on a record where it stands.
    in_place_set_decided_idx(held: &mut IndexRecord, log: &[u64], snapshot: &[u64], idx: LogIndex) -> Said = "kotuseraw_in_place_set_decided_idx";
    /// [`compact`] on a record where it stands, told to trim.
    in_place_trim(held: &mut IndexRecord, log: &mut [u64], snapshot: &mut [u64], given: bool, idx: LogIndex) -> Said = "kotuseraw_in_place_trim";

    /// Told 0: the key is unknown; 1: its place, first; 2: it is removed.
    lookup(index: IndexRecord, log: &[u64], snapshot: &[u64], key: u64) -> Said = "kotuseraw_lookup";
    /// What [`lookup`] says of each of at most [`MOST_ASKED`] keys, [`REPLY_WIDTH`] words a key, to the front of `replies`; the words after
    /// them stay. [`reply_at`] reads them.
    lookup_many(index: IndexRecord, log: &[u64], snapshot: &[u64], keys: &[u64], replies: &mut [u64]) -> Said = "kotuseraw_lookup_many";
    /// The i-th of the replies that some words are, told as [`lookup`] tells it; unknown where there are not so many.
    reply_at(replies: &[u64], i: usize) -> Said = "kotuseraw_reply_at";
    read(index: IndexRecord, log: &[u64], snapshot: &[u64], from: Bound, to: Bound) -> ShownSaid = "kotuseraw_read";
    read_decided_suffix(index: IndexRecord, log: &[u64], snapshot: &[u64], from: LogIndex) -> ShownSaid = "kotuseraw_read_decided_suffix";
    get_entries(index: IndexRecord, log: &[u64], snapshot: &[u64], from: LogIndex, to: LogIndex) -> Said = "kotuseraw_get_entries";
    get_suffix(index: IndexRecord, log: &[u64], snapshot: &[u64], from: LogIndex) -> Said = "kotuseraw_get_suffix";
    /// Copies so many entries of the log to the front of `out`, where they fit, and says how many words they are.
    entries_of(log: &[u64], first: usize, count: usize, out: &mut [u64]) -> usize = "kotuseraw_entries_of";
    /// Copies the entries that a read shows to the front of `out`, where they fit, and says how many words they are.
    entries_shown(log: &[u64], shown: ShownSaid, out: &mut [u64]) -> usize = "kotuseraw_entries_shown";
    /// The same of a read that gives reply and entries in one value.
    read_entries(index: IndexRecord, log: &[u64], snapshot: &[u64], from: Bound, to: Bound, out: &mut [u64]) -> usize = "kotuseraw_read_entries";

    election_well_formed(e: BallotLeaderElection) -> bool = "kotuseraw_election_well_formed";
    /// Where `given` is not set no leader is recovered, and `leader` is not looked at. Where it is refused the state is all zeros.
    election_with(config: BLEConfig, peers: &[u64], given: bool, leader: Ballot) -> ElectionReply = "kotuseraw_election_with";
    election_set_priority(e: BallotLeaderElection, p: u32) -> ElectionReply = "kotuseraw_election_set_priority";
    /// Takes the messages: the state after it has none.
    election_outgoing_mut(e: BallotLeaderElection) -> ElectionTaken = "kotuseraw_election_outgoing_mut";
    election_handle(e: BallotLeaderElection, m: BLEMessage) -> ElectionReply = "kotuseraw_election_handle";
    election_new_hb_round(e: BallotLeaderElection) -> ElectionReply = "kotuseraw_election_new_hb_round";
    /// Told 1: the node leads, by the ballot that the state then has.
    election_hb_timeout(e: BallotLeaderElection, promise: Ballot) -> ElectionReply = "kotuseraw_election_hb_timeout";
    election_get_current_ballot(e: BallotLeaderElection) -> ElectionBallot = "kotuseraw_election_get_current_ballot";
    election_get_ballots(e: BallotLeaderElection) -> ElectionBallots = "kotuseraw_election_get_ballots";
}
