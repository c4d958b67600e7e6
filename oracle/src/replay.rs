//! The Rust as the judge of a replay: what the proved program answered to a script, beside what the Rust answers to it.
//!
//! Lines that the program refuses, or finds bad, are outside the domain in which document 01 compares the two: the Rust is not asked.

use crate::backend::{Change, Keys, Shared};
use crate::storage::internal_storage::{InternalStorage, InternalStorageConfig};
use crate::storage::{Snapshot, StopSign, Storage, StorageOp};
use crate::util::LogEntry;
use crate::ClusterConfig;
use std::collections::BTreeMap;
use std::fs;

#[derive(Default)]
struct Report {
    compared: BTreeMap<String, u64>,
    refused: BTreeMap<String, u64>,
    listed: BTreeMap<&'static str, u64>,
}

/// The Rust's storage, and the backend below it; and what was appended to it: the history, and the entries that wait in the batch.
struct Rust {
    shared: Shared,
    storage: InternalStorage<Shared, Change>,
    history: Vec<Change>,
    waiting: Vec<Change>,
}

impl Rust {
    fn append(&mut self, key: u64, place: Option<u64>) -> Vec<String> {
        let change = Change { key, place };
        self.waiting.push(change);
        let flushed = self.storage.append_entry_with_batching(change).unwrap();
        if flushed.is_some() {
            self.flushed();
        }
        vec![flushed.map_or("held".to_string(), |m| {
            format!("accepted {}", m.accepted_idx)
        })]
    }

    fn flushed(&mut self) {
        self.history.append(&mut self.waiting);
    }

    /// What a map of the history's decided part says of a key; at a hole, of what is left of it.
    fn find(&self, key: u64) -> String {
        let start = self.storage.get_compacted_idx();
        let hole = start > 0 && self.storage.get_snapshot().unwrap().is_none();
        let decided = self.storage.get_decided_idx().min(self.history.len());
        let from = if hole { start } else { 0 };
        match Keys::create(&self.history[from..decided]).0.get(&key) {
            None => "unknown".to_string(),
            Some(None) => "removed".to_string(),
            Some(Some(place)) => format!("place {place}"),
        }
    }
}

fn rust_of(size: usize) -> Rust {
    let shared = Shared::default();
    let config = InternalStorageConfig { batch_size: size };
    let storage = InternalStorage::with(shared.clone(), config);
    Rust {
        shared,
        storage,
        history: vec![],
        waiting: vec![],
    }
}

/// After a trim from `start` on that docs/DIFFERENCES.md lists the snapshot is dropped here too. Whether it was one.
fn drop_lacking(rust: &mut Rust, start: usize) -> bool {
    let passes = rust.storage.get_compacted_idx() > start;
    let lacks = passes && rust.storage.get_snapshot().unwrap().is_some();
    if lacks {
        let none = vec![StorageOp::SetSnapshot(None)];
        rust.shared.write_atomically(none).unwrap();
    }
    lacks
}

/// Reads that docs/DIFFERENCES.md lists: there the Rust panics.
fn listed(rust: &InternalStorage<Shared, Change>, from: usize, to: usize) -> Option<&'static str> {
    let stop_at = rust.get_accepted_idx().wrapping_sub(1);
    if from == usize::MAX && to > rust.get_compacted_idx() {
        return Some("a read from 2^64-1");
    }
    (rust.get_stopsign().is_some()
        && from == stop_at
        && to <= from
        && to > rust.get_compacted_idx())
    .then_some("a read at the stop-sign with to at or below from")
}

fn entry(state: &str, e: &Change) -> String {
    format!(
        "{state} {} {}",
        e.key,
        e.place.map_or("-".to_string(), |p| p.to_string())
    )
}

fn shown(entry_of_log: &LogEntry<Change>) -> String {
    match entry_of_log {
        LogEntry::Decided(e) => entry("decided", e),
        LogEntry::Undecided(e) => entry("undecided", e),
        LogEntry::Trimmed(i) => format!("trimmed {i}"),
        LogEntry::Snapshotted(s) => format!("snapshot {} {}", s.trimmed_idx, s.snapshot.0.len()),
        LogEntry::StopSign(g, decided) => format!(
            "stop {} {}",
            g.next_config.configuration_id,
            if *decided { "yes" } else { "no" }
        ),
    }
}

/// What the Rust answers to a line that the program does not refuse.
fn answer(judge: &mut Rust, line: &str) -> Vec<String> {
    let words: Vec<&str> = line.split(' ').collect();
    let number = |at: usize| words[at].parse::<u64>().unwrap();
    let index = |at: usize| number(at) as usize;
    let done = vec!["ok".to_string()];
    let rust = &mut judge.storage;
    match words[0] {
        "batch" => {
            *judge = rust_of(index(1));
            done
        }
        "put" => judge.append(number(1), Some(number(2))),
        "del" => judge.append(number(1), None),
        "find" => vec![judge.find(number(1))],
        "flush" => {
            let accepted = rust.flush_batch().unwrap();
            judge.flushed();
            vec![format!("accepted {accepted}")]
        }
        "decide" => {
            rust.set_decided_idx(index(1)).unwrap();
            done
        }
        "snap" => {
            rust.try_snapshot((words[1] != "all").then(|| index(1)))
                .unwrap();
            done
        }
        "trim" => {
            let all = rust.get_decided_idx();
            rust.try_trim(if words[1] == "all" { all } else { index(1) })
                .unwrap();
            done
        }
        "stop" => {
            let config = ClusterConfig {
                configuration_id: number(1) as u32,
                nodes: vec![1],
                flexible_quorum: None,
            };
            rust.append_stopsign(StopSign::with(config, None)).unwrap();
            let accepted = rust.get_accepted_idx();
            judge.flushed();
            vec![format!("accepted {accepted}")]
        }
        "read" => match rust.read(index(1)..index(2)).unwrap() {
            None => vec!["none".to_string()],
            Some(run) => std::iter::once(format!("run {}", run.len()))
                .chain(run.iter().map(shown))
                .collect(),
        },
        _ => unreachable!("{line} is no command"),
    }
}

/// The answers to one script; the first line that differs.
fn judge(script: &[u8], answers: &str, report: &mut Report) -> Result<(), String> {
    let mut rust = rust_of(0);
    let mut given = answers.lines();
    let script = script.strip_suffix(b"\n").unwrap_or(script);
    for (at, line) in script.split(|b| *b == b'\n').enumerate() {
        let Some(first) = given.next() else {
            return if script.is_empty() {
                Ok(())
            } else {
                Err(format!("line {}: no answer", at + 1))
            };
        };
        let more = first.strip_prefix("run ").map_or(0, |n| n.parse().unwrap());
        let port: Vec<&str> = std::iter::once(first)
            .chain(given.by_ref().take(more))
            .collect();
        if first == "bad line" || first.starts_with("refused ") {
            *report.refused.entry(first.to_string()).or_default() += 1;
            continue;
        }
        let line = std::str::from_utf8(line)
            .map_err(|_| format!("line {}: not a command, yet answered {first:?}", at + 1))?;
        let words: Vec<&str> = line.split(' ').collect();
        if words[0] == "read" {
            if let Some(name) = listed(
                &rust.storage,
                words[1].parse().unwrap(),
                words[2].parse().unwrap(),
            ) {
                *report.listed.entry(name).or_default() += 1;
                continue;
            }
        }
        let start = rust.storage.get_compacted_idx();
        let theirs = answer(&mut rust, line);
        if words[0] == "trim" && drop_lacking(&mut rust, start) {
            let name = "a trim past a held snapshot";
            *report.listed.entry(name).or_default() += 1;
        }
        if theirs != port {
            return Err(format!(
                "line {}, `{line}`: the Rust answers {theirs:?}, the port {port:?}",
                at + 1
            ));
        }
        *report.compared.entry(words[0].to_string()).or_default() += 1;
    }
    given
        .next()
        .map_or(Ok(()), |more| Err(format!("an answer too many: {more}")))
}

/// Pairs of a script and the answers that the program gave to it.
pub fn run(files: &[String]) -> bool {
    let mut report = Report::default();
    let (mut passed, mut failed) = (0, 0);
    for pair in files.chunks(2) {
        let script = fs::read(&pair[0]).unwrap_or_else(|e| panic!("{}: {e}", pair[0]));
        let answers = fs::read_to_string(&pair[1]).unwrap_or_else(|e| panic!("{}: {e}", pair[1]));
        match judge(&script, &answers, &mut report) {
            Ok(()) => passed += 1,
            Err(what) => {
                failed += 1;
                println!("{}: {what}", pair[0]);
            }
        }
    }
    for (rows, title) in [
        (&report.compared, "compared"),
        (&report.refused, "not asked of the Rust"),
    ] {
        for (name, count) in rows {
            println!("{title}: {name}: {count}");
        }
    }
    for (name, count) in &report.listed {
        println!("listed in docs/DIFFERENCES.md: {name}: {count}");
    }
    println!("{passed} passed, {failed} failed");
    failed == 0
}
