//! The history of a log as document 01 defines it, beside the port: what was appended and flushed, in order, whatever compactions have
//! dropped of it since.
use crate::backend::{Change, Keys};
use crate::call::{Call, Kind, Part};
use crate::entry::changes;
use crate::judge::word;
use crate::rules::{hole, merged};
use crate::state::State;
use crate::storage::Snapshot;

/// Its first entries are kept as what they fold to: of those that a sync's snapshot stands for no more is known.
pub struct History {
    first: Keys,
    first_count: u64,
    rest: Vec<Change>,
}

impl History {
    /// One that a state may have. Of entries that a hole has lost nothing is known.
    pub fn of(state: &State) -> Self {
        History {
            first: state.snapshot().unwrap_or_default(),
            first_count: state.compacted,
            rest: state.entries(),
        }
    }

    /// The entries from one index up to another, of those that are kept one by one.
    fn entries(&self, from: u64, to: u64) -> &[Change] {
        let at = |index| (index - self.first_count) as usize;
        &self.rest[at(from)..at(to)]
    }

    /// What the entries below an index fold to.
    fn folded(&self, upto: u64) -> Keys {
        let rest = self.entries(self.first_count, upto);
        merged(&self.first, &Keys::create(rest))
    }

    fn synced(&mut self, part: &Part, before: &State) {
        match part.kind {
            Kind::Plain => {
                let kept = (part.idx - self.first_count) as usize;
                self.rest.truncate(kept);
                self.rest.extend(changes(&part.suffix));
                return;
            }
            Kind::Complete => self.first = part.snapshot.held(),
            Kind::Delta => {
                self.first = merged(&self.folded(before.log_decided()), &part.snapshot.held());
            }
        }
        self.first_count = part.idx;
        self.rest = changes(&part.suffix);
    }

    /// After a call that was accepted. What a flush has added is the end of the entries that are now held.
    pub fn go_on(&mut self, call: &Call, before: &State, after: &State) {
        match call {
            Call::Sync(_, _, part) if part.held => self.synced(part, before),
            Call::Fresh(_) | Call::Reload | Call::Write(..) => *self = History::of(after),
            _ => {
                let known = self.first_count as u128 + self.rest.len() as u128;
                let held = after.entries();
                let joined = (after.end() - known) as usize;
                self.rest.extend(&held[held.len() - joined..]);
            }
        }
    }

    /// Holds a lookup's answer to what the decided part says. At a hole it may be unknown too, of a key that no entry from compacted on
    /// has; whether it is so.
    pub fn judge(&self, key: u64, state: &State, answer: &[u64]) -> Result<bool, String> {
        let decided = state.log_decided();
        let due = word(&self.folded(decided), key);
        if answer == due {
            return Ok(false);
        }
        let still = self.entries(state.compacted, decided);
        if hole(state) && answer == [1] && still.iter().all(|e| e.key != key) {
            return Ok(true);
        }
        Err(format!(
            "the history says {due:?} of {key}, the port {answer:?}"
        ))
    }
}
