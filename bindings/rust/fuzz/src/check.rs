//! One call, and what is held after it.
use crate::calls::{Call, Changes};
use crate::dice::Dice;
use crate::form;
use crate::guarded::Guarded;
use crate::states::{Case, State};
use kotuseraw::plain::{self, IndexRecord};
use std::fmt::Display;

/// What is lent, as the call finds and leaves it.
#[derive(Default)]
pub struct Turn {
    pub record: IndexRecord,
    pub log: Guarded,
    pub snapshot: Guarded,
    pub entries: Guarded,
    pub second: Guarded,
    pub out: Guarded,
}

/// A call's answer: a refusal's number or 0, and the number of keys of a snapshot that it wrote into the output.
pub struct Answer {
    pub number: u64,
    pub wrote: Option<usize>,
}

/// What is wrong with an answer, where something is.
pub fn hold(is: bool, what: impl Display) -> Result<(), String> {
    is.then_some(()).ok_or_else(|| what.to_string())
}

/// What of the lent things is as it was.
struct Same {
    record: bool,
    log: bool,
    snapshot: bool,
    out: bool,
}

impl Same {
    fn all(&self) -> bool {
        self.state() && self.out
    }

    fn state(&self) -> bool {
        self.record && self.log && self.snapshot
    }

    /// Whether an accepted call changed no more than it may.
    fn within(&self, changes: Changes) -> bool {
        match changes {
            Changes::Nothing => self.all(),
            Changes::Output => self.state(),
            Changes::Record => self.log && self.snapshot && self.out,
            Changes::Log => self.snapshot && self.out,
            Changes::Words => self.out,
        }
    }
}

impl Turn {
    fn load(&mut self, case: &Case) {
        self.record = case.state.record;
        self.log.load(&case.state.log);
        self.snapshot.load(&case.state.snapshot);
        self.entries.load(&case.entries);
        self.second.load(&case.second);
        self.out.load(&case.out);
    }

    /// Gives the state that it left to another.
    pub fn leave(&self, to: &mut State) {
        to.record = self.record;
        to.log.copy_from_slice(self.log.words());
        to.snapshot.copy_from_slice(self.snapshot.words());
    }

    fn same(&self, case: &Case) -> Same {
        Same {
            record: self.record == case.state.record,
            log: self.log.words() == case.state.log,
            snapshot: self.snapshot.words() == case.state.snapshot,
            out: self.out.words() == case.out,
        }
    }

    /// Makes a call. The refusal's number or 0, or what is wrong.
    pub fn take(&mut self, call: &Call, case: &Case, dice: &mut Dice) -> Result<u64, String> {
        self.load(case);
        let answer = (call.make)(self, case, dice)?;
        let number = answer.number;
        hold(call.answers.contains(&number), format_args!("{number} is no answer of this call"))?;
        self.untouched(case)?;
        let same = self.same(case);
        hold(number == 0 || same.all(), format_args!("refused with {number}, it changed something"))?;
        hold(same.within(call.changes), "it changed what it may not")?;
        if call.on_state() {
            self.judged(call, case, number, &same)?;
        }
        answer.wrote.filter(|_| number == 0).map_or(Ok(()), |keys| self.written(keys))?;
        Ok(number)
    }

    fn untouched(&self, case: &Case) -> Result<(), String> {
        let guards = [&self.log, &self.snapshot, &self.entries, &self.second, &self.out];
        hold(guards.into_iter().all(Guarded::stands), "a word beside a slice changed")?;
        let read = self.entries.words() == case.entries && self.second.words() == case.second;
        hold(read, "a slice that is lent to be read changed")
    }

    /// A state that is not well formed is refused with 12, no other is, and what an accepted call leaves is well formed.
    fn judged(&self, call: &Call, case: &Case, number: u64, same: &Same) -> Result<(), String> {
        let before = form::well_formed(&case.state);
        hold(before || number == 12, format_args!("a state that is not well formed was answered {number}"))?;
        hold(!before || number != 12 || call.lists, "a well-formed state was refused with 12")?;
        if number != 0 || same.state() {
            return Ok(());
        }
        let after = State { record: self.record, log: self.log.words().to_vec(), snapshot: self.snapshot.words().to_vec() };
        hold(form::well_formed(&after), "it left a state that is not well formed")?;
        hold(plain::well_formed(after.record, &after.log, &after.snapshot), "it left a state that the library calls ill formed")
    }

    fn written(&self, keys: usize) -> Result<(), String> {
        hold(form::snapshot_formed(self.out.words(), keys), "it wrote a snapshot that is not in form")?;
        hold(plain::snapshot_formed(self.out.words(), keys), "it wrote a snapshot that the library calls malformed")
    }
}
