//! The log with its snapshot: one that a program owns, and one that it lends.
use crate::entry::{entries, words, Entry, LOG_WORDS, SNAPSHOT_WORDS};
use crate::image::ROOM;
use crate::plain::{self, Ballot, IndexRecord, LogIndex, Reply, Said, ShownSaid, StopSign};
use crate::requests::{bound, Appended, Compaction, Diff, Found, Lent, LogSync, Marker, Op, Run, Upto};
use crate::snapshot::Snapshot;
use crate::{ready, Refusal};
use std::fmt;
use std::ops::RangeBounds;

/// A log with its snapshot that the program owns. It comes from [`fresh`](Index::fresh), from a state that was judged
/// ([`judged`](Index::judged)), from an image ([`from_image`](Index::from_image)) or from a call on another, and only calls change it: so it
/// is always well formed, and its calls need not judge that again.
///
/// Its numbers and words can be seen, and not written:
///
/// ```compile_fail
/// let mut index = kotuseraw::Index::fresh(0).unwrap();
/// index.record().decided = kotuseraw::LogIndex(1);
/// ```
/// ```compile_fail
/// let index = kotuseraw::Index::fresh(0).unwrap();
/// index.log()[0] = 1;
/// ```
/// ```compile_fail
/// let index = kotuseraw::Index::fresh(0).unwrap();
/// index.snapshot_words()[0] = 1;
/// ```
/// ```compile_fail
/// let index = kotuseraw::Index { ..kotuseraw::Index::fresh(0).unwrap() };
/// ```
#[derive(Clone, PartialEq, Eq)]
pub struct Index {
    record: IndexRecord,
    log: Box<[u64; LOG_WORDS]>,
    snapshot: Box<[u64; SNAPSHOT_WORDS]>,
}

/// A record and words that the caller lends, of any length and whatever they hold: each call judges them first, and is refused with 12
/// where they are not well formed.
///
/// ```
/// use kotuseraw::{entry, plain, BlockPlace, Entry, View, LOG_WORDS, SNAPSHOT_WORDS};
/// let (mut log, mut snapshot) = (vec![0; LOG_WORDS], vec![0; SNAPSHOT_WORDS]);
/// let mut record = plain::fresh(0, &mut log, &mut snapshot).index;
/// View { record: &mut record, log: &mut log, snapshot: &mut snapshot }.append(Entry::put(7, BlockPlace(70)))?;
/// assert_eq!(entry::entries(&log)[0], Entry::put(7, BlockPlace(70)));
/// record.decided.0 = 2;
/// let refused = View { record: &mut record, log: &mut log, snapshot: &mut snapshot }.lookup(7);
/// assert_eq!(refused.unwrap_err().number(), 12);
/// # Ok::<(), kotuseraw::Refusal>(())
/// ```
#[derive(Debug)]
pub struct View<'a> {
    pub record: &'a mut IndexRecord,
    pub log: &'a mut [u64],
    pub snapshot: &'a mut [u64],
}

/// The record that a call hands back is kept; it is the one before where the call is refused.
fn kept(record: &mut IndexRecord, reply: Reply) -> Result<Said, Refusal> {
    *record = reply.index;
    reply.said.accepted()
}

fn appended(said: Said) -> Appended {
    match said.told {
        0 => Appended::Held,
        _ => Appended::Flushed { accepted: LogIndex(said.first), entries: said.second as usize },
    }
}

fn part(log: &[u64], first: usize, count: usize) -> &[Entry] {
    &entries(log)[first..first + count]
}

fn run<'a>(record: &'a IndexRecord, log: &'a [u64], snapshot: &'a [u64], shown: ShownSaid) -> Option<Run<'a>> {
    let index = LogIndex(shown.index);
    let marker = match shown.marker {
        0 => Marker::None,
        1 => Marker::Trimmed(index),
        _ => Marker::Snapshot { index, keys: part(snapshot, 0, shown.keys) },
    };
    (shown.told == 1).then(|| Run {
        marker,
        entries: part(log, shown.first, shown.count),
        decided: shown.decided,
        stop: shown.stop.then_some((&record.stop, shown.stop_decided)),
    })
}

fn image(record: &IndexRecord, log: &[u64], snapshot: &[u64]) -> Result<Vec<u8>, Refusal> {
    let mut bytes = vec![0; ROOM];
    let said = plain::write_image(*record, log, snapshot, &mut bytes).accepted()?;
    bytes.truncate(said.first as usize);
    Ok(bytes)
}

/// A call on a lent state.
macro_rules! judging {
    ($name:ident($($a:expr),* $(,)?)) => {
        plain::$name($($a),*)
    };
}

/// A call on an owned one.
macro_rules! owning {
    ($name:ident($($a:expr),* $(,)?)) => {
        // SAFETY: an index is well formed when it is made, each call leaves it so, and nobody else writes it.
        unsafe { ready::$name($($a),*) }
    };
}

/// The calls, by one of the two ways.
macro_rules! calls {
    ($call:ident) => {
        /// Appends one entry.
        ///
        /// ```
        /// # use kotuseraw::{Appended, BlockPlace, Entry, Index, LogIndex};
        /// let mut index = Index::fresh(2)?;
        /// assert_eq!(index.append(Entry::put(7, BlockPlace(70)))?, Appended::Held);
        /// let flushed = Appended::Flushed { accepted: LogIndex(2), entries: 2 };
        /// assert_eq!(index.append(Entry::removed(7))?, flushed);
        /// # Ok::<(), kotuseraw::Refusal>(())
        /// ```
        pub fn append(&mut self, entry: Entry) -> Result<Appended, Refusal> {
            let (record, log, snapshot) = self.parts_mut();
            let place = entry.place();
            let reply = $call!(append_entry_with_batching(*record, log, snapshot, entry.key(), place.is_none(), place.unwrap_or_default()));
            kept(record, reply).map(appended)
        }

        /// Appends entries, through the batch.
        pub fn append_entries_with_batching(&mut self, run: &[Entry]) -> Result<Appended, Refusal> {
            let (record, log, snapshot) = self.parts_mut();
            let reply = $call!(append_entries_with_batching(*record, log, snapshot, words(run)));
            kept(record, reply).map(appended)
        }

        /// The same, telling the accepted index alone where the batch was flushed.
        pub fn append_entries_and_get_accepted_idx(&mut self, run: &[Entry]) -> Result<Option<LogIndex>, Refusal> {
            let (record, log, snapshot) = self.parts_mut();
            let reply = $call!(append_entries_and_get_accepted_idx(*record, log, snapshot, words(run)));
            kept(record, reply).map(|said| (said.told == 1).then_some(LogIndex(said.first)))
        }

        /// Appends entries at once, before those that wait. Tells the accepted index.
        pub fn append_entries_without_batching(&mut self, run: &[Entry]) -> Result<LogIndex, Refusal> {
            let (record, log, snapshot) = self.parts_mut();
            let reply = $call!(append_entries_without_batching(*record, log, snapshot, words(run)));
            kept(record, reply).map(|said| LogIndex(said.first))
        }

        /// Flushes the batch. Tells the accepted index.
        pub fn flush_batch(&mut self) -> Result<LogIndex, Refusal> {
            let (record, log, snapshot) = self.parts_mut();
            let reply = $call!(flush_batch(*record, log, snapshot));
            kept(record, reply).map(|said| LogIndex(said.first))
        }

        /// Flushes the batch. Tells how many entries were flushed too.
        pub fn flush_batch_and_get_entries(&mut self) -> Result<Appended, Refusal> {
            let (record, log, snapshot) = self.parts_mut();
            let reply = $call!(flush_batch_and_get_entries(*record, log, snapshot));
            kept(record, reply).map(appended)
        }

        /// Appends a stop-sign, after the batch.
        pub fn append_stopsign(&mut self, ss: StopSign) -> Result<Appended, Refusal> {
            let (record, log, snapshot) = self.parts_mut();
            let reply = $call!(append_stopsign(*record, log, snapshot, ss));
            kept(record, reply).map(appended)
        }

        /// Sets the stop-sign, or takes it away. Tells the accepted index.
        pub fn set_stopsign(&mut self, ss: Option<StopSign>) -> Result<LogIndex, Refusal> {
            let (record, log, snapshot) = self.parts_mut();
            let reply = $call!(set_stopsign(*record, log, snapshot, ss.is_some(), ss.unwrap_or_default()));
            kept(record, reply).map(|said| LogIndex(said.first))
        }

        /// Sets the promise.
        pub fn set_promise(&mut self, n_prom: Ballot) -> Result<(), Refusal> {
            let (record, log, snapshot) = self.parts_mut();
            let reply = $call!(set_promise(*record, log, snapshot, n_prom));
            kept(record, reply).map(drop)
        }

        /// Moves the decided index.
        pub fn set_decided_idx(&mut self, idx: LogIndex) -> Result<(), Refusal> {
            let (record, log, snapshot) = self.parts_mut();
            let reply = $call!(set_decided_idx(*record, log, snapshot, idx));
            kept(record, reply).map(drop)
        }

        /// Compacts the decided entries below an index, or all of them: a trim drops them, and the held snapshot, which lacks them, so
        /// that nothing can be folded onto the log until a complete sync; a snapshot folds them into the held one. A compaction that
        /// does not pass the compacted index changes nothing.
        ///
        /// ```
        /// # use kotuseraw::{BlockPlace, Compaction, Entry, Index, LogIndex, Marker, Upto};
        /// let mut index = Index::fresh(0)?;
        /// for key in 1..4 {
        ///     index.append(Entry::put(key, BlockPlace(10 * key)))?;
        /// }
        /// index.set_decided_idx(LogIndex(3))?;
        /// index.compact(Compaction::Snapshot, Upto::Index(LogIndex(1)))?;
        /// index.compact(Compaction::Trim, Upto::Index(LogIndex(2)))?;
        /// assert_eq!(index.read(LogIndex(0)..)?.unwrap().marker, Marker::Trimmed(LogIndex(2)));
        /// assert_eq!(index.compact(Compaction::Snapshot, Upto::All).unwrap_err().number(), 16);
        /// index.compact(Compaction::Trim, Upto::All)?;
        /// assert_eq!(index.read(LogIndex(0)..)?.unwrap().marker, Marker::Trimmed(LogIndex(3)));
        /// # Ok::<(), kotuseraw::Refusal>(())
        /// ```
        pub fn compact(&mut self, what: Compaction, upto: Upto) -> Result<(), Refusal> {
            let (record, log, snapshot) = self.parts_mut();
            let (given, idx) = upto.plain();
            let reply = $call!(compact(*record, log, snapshot, what == Compaction::Snapshot, given, idx));
            kept(record, reply).map(drop)
        }

        /// Drops the batch, as after a restart. Tells the accepted index.
        pub fn load_cache(&mut self) -> Result<LogIndex, Refusal> {
            let (record, log, snapshot) = self.parts_mut();
            let reply = plain::load_cache(*record, log, snapshot);
            kept(record, reply).map(|said| LogIndex(said.first))
        }

        /// Takes over what another log has. Tells the accepted index.
        pub fn sync_log(
            &mut self,
            accepted_round: Ballot,
            decided_idx: LogIndex,
            log_sync: Option<LogSync<'_>>,
        ) -> Result<LogIndex, Refusal> {
            let (record, log, snapshot) = self.parts_mut();
            let none = Snapshot::default();
            let (part, incoming) = log_sync.map_or((Default::default(), none.words()), |sync| sync.plain(&none));
            let suffix = words(log_sync.map_or(&[], |sync| sync.suffix));
            let reply = plain::sync_log(*record, log, snapshot, accepted_round, decided_idx, log_sync.is_some(), part, incoming, suffix);
            kept(record, reply).map(|said| LogIndex(said.first))
        }

        /// All of one to [`MOST_OPS`](plain::MOST_OPS) operations, in their order, or none.
        ///
        /// ```
        /// # use kotuseraw::{BlockPlace, Entry, Found, Index, Lent, LogIndex, Op};
        /// let mut index = Index::fresh(0)?;
        /// let lent = Lent { entries: &[Entry::put(7, BlockPlace(70))], ..Lent::default() };
        /// index.write_atomically(lent, &[Op::AppendEntries, Op::SetDecidedIndex(LogIndex(1))])?;
        /// assert_eq!(index.lookup(7)?, Found::Place(BlockPlace(70)));
        /// # Ok::<(), kotuseraw::Refusal>(())
        /// ```
        pub fn write_atomically(&mut self, lent: Lent<'_>, ops: &[Op]) -> Result<(), Refusal> {
            let (record, log, snapshot) = self.parts_mut();
            let none = Snapshot::default();
            let incoming = lent.snapshot.unwrap_or(&none).words();
            let reply = plain::write_list(*record, log, snapshot, words(lent.entries), incoming, lent.plain(), Op::list(ops));
            kept(record, reply).map(drop)
        }

        /// What is known of a key: its newest word among the decided entries that are retained, else the snapshot's.
        ///
        /// ```
        /// # use kotuseraw::{BlockPlace, Compaction, Entry, Found, Index, LogIndex, Upto};
        /// let mut index = Index::fresh(0)?;
        /// index.append(Entry::put(7, BlockPlace(70)))?;
        /// assert_eq!(index.lookup(7)?, Found::Unknown);    // not decided yet
        /// index.set_decided_idx(LogIndex(1))?;
        /// assert_eq!(index.lookup(7)?, Found::Place(BlockPlace(70)));
        /// index.append(Entry::removed(7))?;
        /// index.set_decided_idx(LogIndex(2))?;
        /// assert_eq!(index.lookup(7)?, Found::Removed);
        /// index.compact(Compaction::Trim, Upto::All)?;
        /// assert_eq!(index.lookup(7)?, Found::Unknown);    // no longer held
        /// # Ok::<(), kotuseraw::Refusal>(())
        /// ```
        pub fn lookup(&self, key: u64) -> Result<Found, Refusal> {
            let (record, log, snapshot) = self.parts();
            $call!(lookup(*record, log, snapshot, key)).accepted().map(Found::told)
        }

        /// What is known of each of at most [`MOST_ASKED`](plain::MOST_ASKED) keys, in their order: of each what [`lookup`](Self::lookup)
        /// says. More keys are refused with 11. A state that is lent is judged once for all of them. Nothing is allocated.
        ///
        /// ```
        /// # use kotuseraw::{BlockPlace, Entry, Found, Index, LogIndex};
        /// let mut index = Index::fresh(0)?;
        /// index.append_entries_with_batching(&[Entry::put(7, BlockPlace(70)), Entry::removed(8)])?;
        /// index.set_decided_idx(LogIndex(2))?;
        /// let found: Vec<Found> = index.lookup_many(&[9, 8, 7, 7])?.collect();
        /// assert_eq!(found, [Found::Unknown, Found::Removed, Found::Place(BlockPlace(70)), Found::Place(BlockPlace(70))]);
        /// assert_eq!(index.lookup_many(&[7; 65]).err().map(|refused| refused.number()), Some(11));
        /// # Ok::<(), kotuseraw::Refusal>(())
        /// ```
        pub fn lookup_many(&self, keys: &[u64]) -> Result<impl ExactSizeIterator<Item = Found>, Refusal> {
            let (record, log, snapshot) = self.parts();
            let mut replies = [0; plain::MOST_ASKED * plain::REPLY_WIDTH];
            $call!(lookup_many(*record, log, snapshot, keys, &mut replies)).accepted()?;
            Ok((0..keys.len()).map(move |i| Found::told(plain::reply_at(&replies, i))))
        }

        /// Reads a range of the log. None where it is not wholly there.
        ///
        /// ```
        /// # use kotuseraw::{BlockPlace, Entry, Index, LogIndex, Marker};
        /// let mut index = Index::fresh(0)?;
        /// index.append(Entry::put(7, BlockPlace(70)))?;
        /// index.append(Entry::removed(7))?;
        /// index.set_decided_idx(LogIndex(1))?;
        /// let run = index.read(LogIndex(0)..)?.unwrap();
        /// assert_eq!(run.marker, Marker::None);
        /// assert_eq!(run.entries, [Entry::put(7, BlockPlace(70)), Entry::removed(7)]);
        /// assert_eq!(run.decided, 1);
        /// # Ok::<(), kotuseraw::Refusal>(())
        /// ```
        pub fn read(&self, range: impl RangeBounds<LogIndex>) -> Result<Option<Run<'_>>, Refusal> {
            let (record, log, snapshot) = self.parts();
            let (from, to) = (bound(range.start_bound()), bound(range.end_bound()));
            let shown = $call!(read(*record, log, snapshot, from, to)).accepted()?;
            Ok(run(record, log, snapshot, shown))
        }

        /// Reads from an index up to the decided index.
        pub fn read_decided_suffix(&self, from: LogIndex) -> Result<Option<Run<'_>>, Refusal> {
            let (record, log, snapshot) = self.parts();
            let shown = $call!(read_decided_suffix(*record, log, snapshot, from)).accepted()?;
            Ok(run(record, log, snapshot, shown))
        }

        /// The entries from one index up to another; none where they are not all held.
        pub fn get_entries(&self, from: LogIndex, to: LogIndex) -> Result<&[Entry], Refusal> {
            let (record, log, snapshot) = self.parts();
            let said = $call!(get_entries(*record, log, snapshot, from, to)).accepted()?;
            Ok(part(log, said.first as usize, said.second as usize))
        }

        /// The entries from an index to the end; none where they are not all held.
        pub fn get_suffix(&self, from: LogIndex) -> Result<&[Entry], Refusal> {
            let (record, log, snapshot) = self.parts();
            let said = $call!(get_suffix(*record, log, snapshot, from)).accepted()?;
            Ok(part(log, said.first as usize, said.second as usize))
        }

        /// The accepted index: that after the last retained entry, and one more where a stop-sign is held.
        pub fn get_accepted_idx(&self) -> Result<LogIndex, Refusal> {
            let (record, log, snapshot) = self.parts();
            let said = $call!(get_accepted_idx(*record, log, snapshot)).accepted()?;
            Ok(LogIndex(said.first))
        }

        /// The decided index without the stop-sign.
        pub fn get_decided_idx_without_stopsign(&self) -> Result<LogIndex, Refusal> {
            let (record, log, snapshot) = self.parts();
            let said = $call!(get_decided_idx_without_stopsign(*record, log, snapshot)).accepted()?;
            Ok(LogIndex(said.first))
        }

        /// Whether the stop-sign is held and decided.
        pub fn stopsign_is_decided(&self) -> Result<bool, Refusal> {
            let (record, log, snapshot) = self.parts();
            let said = $call!(stopsign_is_decided(*record, log, snapshot)).accepted()?;
            Ok(said.first == 1)
        }

        /// The snapshot that a snapshot up to this index would hold.
        pub fn create_snapshot(&self, idx: LogIndex) -> Result<Snapshot, Refusal> {
            let (record, log, snapshot) = self.parts();
            Snapshot::written(|out| plain::create_snapshot(*record, log, snapshot, idx, out)).map(|(made, _)| made)
        }

        /// What brings a follower that has decided up to an index to log-decided, which it tells.
        pub fn create_diff_snapshot(&self, from: LogIndex) -> Result<(Diff, LogIndex), Refusal> {
            let (record, log, snapshot) = self.parts();
            let (made, said) = Snapshot::written(|out| plain::create_diff_snapshot(*record, log, snapshot, from, out))?;
            let diff = match said.told {
                1 => Diff::Plain,
                2 => Diff::Complete(made),
                _ => Diff::Delta(made),
            };
            Ok((diff, LogIndex(said.second)))
        }
    };
}

impl Index {
    /// What a call writes into words of a log's and a snapshot's length.
    fn written(call: impl FnOnce(&mut [u64], &mut [u64]) -> Reply) -> Result<Index, Refusal> {
        let (mut log, mut snapshot) = (Box::new([0; LOG_WORDS]), Box::new([0; SNAPSHOT_WORDS]));
        let reply = call(&mut log[..], &mut snapshot[..]);
        reply.said.accepted()?;
        Ok(Index { record: reply.index, log, snapshot })
    }

    /// An empty log whose batch is flushed when it has so many entries, [`LARGEST_BATCH`](plain::LARGEST_BATCH) at most; at 0 no entry
    /// waits.
    pub fn fresh(batch_size: u64) -> Result<Index, Refusal> {
        Index::written(|log, snapshot| plain::fresh(batch_size, log, snapshot))
    }

    /// The log whose image some bytes are, with this batch size and nothing in its batch.
    ///
    /// ```
    /// use kotuseraw::{BlockPlace, Entry, Index};
    /// let mut index = Index::fresh(2)?;
    /// for key in [7, 8, 9] {
    ///     index.append(Entry::put(key, BlockPlace(10 * key)))?;
    /// }
    /// let mut image = index.to_image();
    /// let restored = Index::from_image(&image, 2)?;
    /// index.load_cache()?; // 9 waited in the batch, which is not written
    /// assert_eq!(restored, index);
    /// image.pop();
    /// let refused = Index::from_image(&image, 2).unwrap_err();
    /// assert_eq!((refused.number(), refused.carried()), (15, 83)); // the second entry's record stands there
    /// # Ok::<(), kotuseraw::Refusal>(())
    /// ```
    pub fn from_image(bytes: &[u8], batch_size: u64) -> Result<Index, Refusal> {
        Index::written(|log, snapshot| plain::read_image(batch_size, bytes, log, snapshot))
    }

    /// Its image: the bytes that stand for it, without its batch. Two logs have the same bytes only if they are the same but for batch and
    /// batch size.
    pub fn to_image(&self) -> Vec<u8> {
        let (record, log, snapshot) = self.parts();
        image(record, log, snapshot).expect("an index is well formed, and no image is longer than the room")
    }

    /// A copy of a state from elsewhere, where it is well formed.
    ///
    /// ```
    /// use kotuseraw::Index;
    /// let index = Index::fresh(0)?;
    /// let mut record = *index.record();
    /// assert_eq!(Index::judged(record, index.log(), index.snapshot_words()), Some(index.clone()));
    /// record.retained = 1;
    /// record.decided.0 = 2;
    /// assert_eq!(Index::judged(record, index.log(), index.snapshot_words()), None);
    /// # Ok::<(), kotuseraw::Refusal>(())
    /// ```
    pub fn judged(record: IndexRecord, log: &[u64], snapshot: &[u64]) -> Option<Index> {
        let fine = plain::well_formed(record, log, snapshot);
        let log = Box::new(log.try_into().ok()?);
        let snapshot = Box::new(snapshot.try_into().ok()?);
        fine.then_some(Index { record, log, snapshot })
    }

    /// Its numbers.
    pub fn record(&self) -> &IndexRecord {
        &self.record
    }

    /// Its log's words: those retained, those that wait in the batch, zeros.
    pub fn log(&self) -> &[u64] {
        &self.log[..]
    }

    /// Its snapshot's words.
    pub fn snapshot_words(&self) -> &[u64] {
        &self.snapshot[..]
    }

    /// Its snapshot's keys, ascending; None where it holds none.
    pub fn snapshot(&self) -> Option<&[Entry]> {
        self.record.snapshot_held.then(|| part(&self.snapshot[..], 0, self.record.keys))
    }

    fn parts(&self) -> (&IndexRecord, &[u64], &[u64]) {
        (&self.record, &self.log[..], &self.snapshot[..])
    }

    fn parts_mut(&mut self) -> (&mut IndexRecord, &mut [u64], &mut [u64]) {
        (&mut self.record, &mut self.log[..], &mut self.snapshot[..])
    }

    calls!(owning);
}

impl fmt::Debug for Index {
    fn fmt(&self, f: &mut fmt::Formatter<'_>) -> fmt::Result {
        let held = self.record.retained + self.record.batched;
        f.debug_struct("Index")
            .field("record", &self.record)
            .field("entries", &part(&self.log[..], 0, held))
            .field("snapshot", &self.snapshot())
            .finish()
    }
}

impl View<'_> {
    /// Whether the state is well formed.
    pub fn well_formed(&self) -> bool {
        plain::well_formed(*self.record, self.log, self.snapshot)
    }

    /// Its image, as [`Index::to_image`] gives it.
    pub fn to_image(&self) -> Result<Vec<u8>, Refusal> {
        let (record, log, snapshot) = self.parts();
        image(record, log, snapshot)
    }

    /// Reads an image, as a log of this batch size, over whatever is lent. Tells the accepted index.
    pub fn read_image(&mut self, bytes: &[u8], batch_size: u64) -> Result<LogIndex, Refusal> {
        let reply = plain::read_image(batch_size, bytes, self.log, self.snapshot);
        let said = reply.said.accepted()?;
        // A refused one hands back a record that is not the one that is lent.
        *self.record = reply.index;
        Ok(LogIndex(said.first))
    }

    fn parts(&self) -> (&IndexRecord, &[u64], &[u64]) {
        (self.record, self.log, self.snapshot)
    }

    fn parts_mut(&mut self) -> (&mut IndexRecord, &mut [u64], &mut [u64]) {
        (self.record, self.log, self.snapshot)
    }

    calls!(judging);
}
