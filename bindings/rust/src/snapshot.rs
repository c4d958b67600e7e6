//! Snapshots that a program owns: the last word of each key, removals kept.
use crate::entry::{entries, words, Entry, SNAPSHOT_WORDS};
use crate::plain::{self, Said};
use crate::{Found, Refusal};
use std::fmt;

/// A snapshot in form: up to [`KEYS`](crate::entry::KEYS) keys, ascending. It comes from the library's own calls and nobody else writes it.
#[derive(Clone, PartialEq, Eq)]
pub struct Snapshot {
    keys: usize,
    words: Box<[u64; SNAPSHOT_WORDS]>,
}

impl Default for Snapshot {
    /// The empty one.
    fn default() -> Snapshot {
        Snapshot { keys: 0, words: Box::new([0; SNAPSHOT_WORDS]) }
    }
}

impl Snapshot {
    /// What a call writes into a slice of a snapshot's length, whose keys it tells first, and what it says.
    pub(crate) fn written(call: impl FnOnce(&mut [u64]) -> Said) -> Result<(Snapshot, Said), Refusal> {
        let mut made = Snapshot::default();
        let said = call(&mut made.words[..]).accepted()?;
        made.keys = said.first as usize;
        Ok((made, said))
    }

    /// The entries folded, the first first.
    ///
    /// ```
    /// use kotuseraw::{BlockPlace, Entry, Found, Snapshot};
    /// let folded = Snapshot::fold(&[Entry::put(7, BlockPlace(70)), Entry::put(3, BlockPlace(30)), Entry::removed(7)])?;
    /// assert_eq!(folded.entries(), [Entry::put(3, BlockPlace(30)), Entry::removed(7)]);
    /// assert_eq!(folded.find(3), Found::Place(BlockPlace(30)));
    /// assert_eq!(folded.find(7), Found::Removed);
    /// assert_eq!(folded.find(9), Found::Unknown);
    /// # Ok::<(), kotuseraw::Refusal>(())
    /// ```
    pub fn fold(run: &[Entry]) -> Result<Snapshot, Refusal> {
        Snapshot::written(|out| plain::fold(words(run), out)).map(|(made, _)| made)
    }

    /// This one with a later one over it.
    ///
    /// ```
    /// use kotuseraw::{BlockPlace, Entry, Snapshot};
    /// let run = [Entry::put(7, BlockPlace(70)), Entry::put(3, BlockPlace(30)), Entry::removed(7)];
    /// let apart = Snapshot::fold(&run[..1])?.merge(&Snapshot::fold(&run[1..])?)?;
    /// assert_eq!(apart, Snapshot::fold(&run)?);
    /// # Ok::<(), kotuseraw::Refusal>(())
    /// ```
    pub fn merge(&self, delta: &Snapshot) -> Result<Snapshot, Refusal> {
        Snapshot::written(|out| plain::merge(self.words(), self.keys, delta.words(), delta.keys, out)).map(|(made, _)| made)
    }

    /// What it says of a key.
    pub fn find(&self, key: u64) -> Found {
        Found::told(plain::find(self.words(), self.keys, key))
    }

    /// How many keys it has, those of removals among them.
    pub fn keys(&self) -> usize {
        self.keys
    }

    /// Its keys, ascending.
    pub fn entries(&self) -> &[Entry] {
        &entries(&self.words[..])[..self.keys]
    }

    /// Its words, zeros after those of its keys.
    pub fn words(&self) -> &[u64] {
        &self.words[..]
    }
}

impl fmt::Debug for Snapshot {
    fn fmt(&self, f: &mut fmt::Formatter<'_>) -> fmt::Result {
        f.debug_list().entries(self.entries()).finish()
    }
}
