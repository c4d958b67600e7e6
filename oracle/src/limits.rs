//! The numbers of documents 01 and 02, from their text: the port's own are not looked at.

/// Entries that a log has room for, retained and batched.
pub const ENTRIES: u64 = 1024;
/// Keys that a snapshot has room for.
pub const KEYS: u64 = 512;
/// Every block place is below this.
pub const PLACES: u64 = 1 << 48;
/// The largest index that is held.
pub const LARGEST: u64 = 4_294_967_295;
pub const LARGEST_BATCH: u64 = 64;
/// Nodes of a stop-sign, and bytes of its metadata.
pub const NODES: usize = 7;
pub const METADATA: usize = 32;
/// Operations of a list.
pub const MOST_OPS: usize = 8;
/// Keys that one lookup may ask for.
pub const MOST_ASKED: usize = 64;
/// Peers of a node in an election, replies of a round, and outgoing messages.
pub const PEERS: usize = 6;
pub const REPLIES: usize = 16;
pub const OUTGOING: usize = 32;
