//! Refusals, as the scope document numbers them.
use crate::plain::{Said, ShownSaid};
use std::{error, fmt};

/// A call that was refused: nothing has changed.
#[derive(Clone, Copy, Debug, PartialEq, Eq, Hash)]
pub struct Refusal {
    number: u64,
    carried: u64,
}

/// What each number means, and what it carries.
const MEANINGS: [(u64, &str, &str); 19] = [
    (1, "the log has no room", ""),
    (2, "the index is above the decided index", "decided index"),
    (3, "the index is below the compacted index", "compacted index"),
    (4, "the log is stopped", "accepted index"),
    (5, "the index is below the decided index", "decided index"),
    (6, "the decided index would be above the accepted index", "accepted index"),
    (7, "the index is outside the run that is held", "end of the run"),
    (8, "the snapshot would have too many keys", ""),
    (9, "the log would pass the last index", "accepted index"),
    (10, "entries wait in the batch", "entries waiting"),
    (11, "an argument is malformed", ""),
    (12, "the state is not well formed", ""),
    (13, "the room for the image is too short", ""),
    (14, "the image is of an unknown format", ""),
    (15, "the image is damaged, ill-formed or has bytes left over", "offset"),
    (16, "the log has a hole: entries were trimmed, and no snapshot has them", ""),
    (18, "the outgoing messages have no room", ""),
    (19, "the round, or the leader's number before a takeover, is the largest", ""),
    (20, "the round has as many replies as it may", ""),
];

impl Refusal {
    /// The number in the scope document's table.
    pub fn number(&self) -> u64 {
        self.number
    }

    /// The index, the count or the offset that the table says it carries, else 0.
    pub fn carried(&self) -> u64 {
        self.carried
    }

    fn told(&self) -> (&'static str, &'static str) {
        let known = MEANINGS.iter().find(|(number, ..)| *number == self.number);
        known.map_or(("refused", ""), |(_, meaning, carried)| (meaning, carried))
    }

    /// What the number means.
    pub fn meaning(&self) -> &'static str {
        self.told().0
    }
}

impl fmt::Display for Refusal {
    fn fmt(&self, f: &mut fmt::Formatter<'_>) -> fmt::Result {
        let (meaning, carried) = self.told();
        write!(f, "refused {}: {meaning}", self.number)?;
        match carried {
            "" => Ok(()),
            what => write!(f, " ({what}: {})", self.carried),
        }
    }
}

impl error::Error for Refusal {}

fn unless(number: u64, carried: u64) -> Result<(), Refusal> {
    match number {
        0 => Ok(()),
        _ => Err(Refusal { number, carried }),
    }
}

impl Said {
    /// What is said, or the refusal.
    pub fn accepted(self) -> Result<Said, Refusal> {
        unless(self.number, self.carried).map(|()| self)
    }
}

impl ShownSaid {
    /// What is shown, or the refusal.
    pub fn accepted(self) -> Result<ShownSaid, Refusal> {
        unless(self.number, self.carried).map(|()| self)
    }
}
