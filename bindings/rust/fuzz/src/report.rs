//! How often each call was answered what.
use crate::{calls, elections};
use std::collections::BTreeMap;
use std::fmt;

#[derive(Default)]
pub struct Report {
    /// call, then refusal number (0: accepted)
    counts: BTreeMap<&'static str, BTreeMap<u64, u64>>,
    calls: u64,
}

fn cell(number: u64) -> String {
    match number {
        0 => "-".to_string(),
        n => n.to_string(),
    }
}

impl Report {
    pub(crate) fn count(&mut self, name: &'static str, number: u64) {
        *self.counts.entry(name).or_default().entry(number).or_default() += 1;
        self.calls += 1;
    }

    pub fn calls(&self) -> u64 {
        self.calls
    }

    /// What a call may be answered and was not.
    pub fn missing(&self) -> Vec<String> {
        let met = |name: &str, n: &u64| self.counts.get(name).is_some_and(|row| row.contains_key(n));
        let index = calls::ALL.iter().map(|call| (call.name, call.answers));
        let rows = index.chain(elections::ALL.iter().map(|call| (call.name, call.answers)));
        let cells = rows.flat_map(|(name, answers)| answers.iter().map(move |n| (name, *n)));
        cells.filter(|(name, n)| !met(name, n)).map(|(name, n)| format!("{name} {}", cell(n))).collect()
    }
}

impl fmt::Display for Report {
    fn fmt(&self, f: &mut fmt::Formatter<'_>) -> fmt::Result {
        writeln!(f, "call × refusal × how often (`-` is accepted)")?;
        for (name, row) in &self.counts {
            let cells: Vec<String> = row.iter().map(|(n, times)| format!("{}:{times}", cell(*n))).collect();
            writeln!(f, "  {name:36} {}", cells.join("  "))?;
        }
        let accepted: u64 = self.counts.values().filter_map(|row| row.get(&0)).sum();
        writeln!(f, "{} calls: {accepted} accepted, {} refused", self.calls, self.calls - accepted)
    }
}
