//! The calls of a run that are kept for the recorded list.
use crate::call::Call;
use crate::entry::at;
use crate::state::State;
use std::collections::BTreeMap;

/// Some calls for each kind of answer that each call may give: from states with few words if there are such.
#[derive(Default)]
pub struct Sample {
    pub kept: BTreeMap<(&'static str, Vec<u64>), Vec<(State, Call)>>,
}

/// Words of log and snapshot that are few: of so many entries.
const FEW: usize = at(20);
/// How many calls of a sort are kept from states with few, refused and accepted ones. From states with more it is one.
const REFUSED: usize = 3;
const ACCEPTED: usize = 20;

impl Sample {
    pub fn offer(&mut self, before: &State, call: &Call, answer: &[u64]) {
        // A refusal's number, or what sort of reply it is; of a run the marker tells too.
        let told = match answer {
            [0, ..] | [2, _, _, _, _, _, _, _, _, ..] => 2,
            _ => 1,
        };
        let sort = answer[..told].to_vec();
        let kept = self.kept.entry((call.name(), sort)).or_default();
        let words = |s: &State| s.log.len() + s.snapshot.len();
        kept.retain(|(held, _)| words(held) <= FEW || words(held) <= words(before));
        let most = if answer[0] == 0 { REFUSED } else { ACCEPTED };
        if kept.is_empty() || (words(before) <= FEW && kept.len() < most) {
            kept.push((before.clone(), call.clone()));
        }
    }
}
