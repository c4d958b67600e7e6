//! An index of container chunks: a log of changes (a key put at a block place, or removed), snapshots folded from it, and the calls on
//! both. The calls are those of a library in which every function is proved to meet its contract; this crate links its archive.
//!
//! ```
//! use kotuseraw::{BlockPlace, Compaction, Entry, Found, Index, LogIndex, Upto};
//!
//! let mut index = Index::fresh(0)?;
//! index.append(Entry::put(7, BlockPlace(70)))?;
//! index.append(Entry::put(8, BlockPlace(80)))?;
//! index.set_decided_idx(LogIndex(2))?;
//! index.compact(Compaction::Snapshot, Upto::All)?;
//! assert_eq!(index.lookup(7)?, Found::Place(BlockPlace(70)));
//! let refused = index.set_decided_idx(LogIndex(9)).unwrap_err();
//! assert_eq!((refused.number(), refused.carried()), (6, 2));
//! assert_eq!(refused.to_string(), "refused 6: the decided index would be above the accepted index (accepted index: 2)");
//! # Ok::<(), kotuseraw::Refusal>(())
//! ```
//!
//! - [`Index`] owns its state. [`View`] has the same calls on a record and words that the caller lends. [`plain`] is the boundary
//!   itself, number for number. [`entry`] says how entries lie in words, and how many there may be.
//! - [`Index::save`] puts an index into a file, and [`Index::load`] gets it back; [`Index::to_image`] and [`Index::from_image`] are the
//!   same with bytes ([`image`]).
//! - [`Election`] is a node of a leader election, apart from any log.
//! - A call that is refused says so by a [`Refusal`], and has changed nothing.
pub mod election;
pub mod entry;
pub mod image;
mod index;
pub mod plain;
mod ready;
mod refusal;
mod requests;
mod snapshot;

pub use election::Election;
pub use entry::{Entry, LOG_WORDS, SNAPSHOT_WORDS};
pub use image::LoadError;
pub use index::{Index, View};
pub use plain::{Ballot, BlockPlace, IndexRecord, LogIndex, StopSign};
pub use refusal::Refusal;
pub use requests::{Appended, Compaction, Diff, Found, Lent, LogSync, Marker, Op, Run, SnapshotType, Upto};
pub use snapshot::Snapshot;
