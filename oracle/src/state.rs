//! A state as the port shows it, well formed or not, and what document 01 says of it.
use crate::backend::{Change, Keys};
use crate::ballot_leader_election::Ballot;
use crate::entry::{at, first_changes, formed, words, LOG_WORDS, SNAPSHOT_WORDS};
use crate::limits::{ENTRIES, KEYS, LARGEST, LARGEST_BATCH, METADATA, NODES};
use crate::lines::put;
use crate::storage::{Snapshot, StopSign};
use crate::ClusterConfig;
use kotuseraw::plain::{self, IndexRecord};

/// A lent snapshot: its words, as many as are lent, and the number of keys said of it.
#[derive(Clone, Debug, PartialEq)]
pub struct LentSnapshot {
    pub keys: u64,
    pub words: Vec<u64>,
}

impl LentSnapshot {
    pub fn of(entries: &[Change]) -> Self {
        let mut words = words(entries);
        words.resize(SNAPSHOT_WORDS, 0);
        LentSnapshot {
            keys: entries.len() as u64,
            words,
        }
    }

    pub fn formed(&self) -> bool {
        if self.words.len() != SNAPSHOT_WORDS || self.keys > KEYS {
            return false;
        }
        let held = first_changes(&self.words, self.keys);
        held.iter().all(formed)
            && held.windows(2).all(|e| e[0].key < e[1].key)
            && self.words[at(self.keys)..].iter().all(|w| *w == 0)
    }

    pub fn held(&self) -> Keys {
        Keys::create(&first_changes(&self.words, self.keys))
    }
}

/// A stop-sign as its fields.
#[derive(Clone, Copy, Debug, Default, PartialEq)]
pub struct Sign {
    pub config: u32,
    pub node_count: u64,
    pub nodes: [u64; NODES],
    pub metadata_held: bool,
    pub metadata_len: u64,
    pub metadata: [u8; METADATA],
}

impl Sign {
    pub fn of(config: u32, nodes: &[u64], metadata: Option<&[u8]>) -> Self {
        let mut sign = Sign {
            config,
            node_count: nodes.len() as u64,
            metadata_held: metadata.is_some(),
            ..Sign::default()
        };
        sign.nodes[..nodes.len()].copy_from_slice(nodes);
        if let Some(bytes) = metadata {
            sign.metadata_len = bytes.len() as u64;
            sign.metadata[..bytes.len()].copy_from_slice(bytes);
        }
        sign
    }

    pub fn of_plain(sign: &plain::StopSign) -> Self {
        Sign {
            config: sign.config_id,
            node_count: sign.node_count as u64,
            nodes: sign.nodes,
            metadata_held: sign.metadata_held,
            metadata_len: sign.metadata_len as u64,
            metadata: sign.metadata,
        }
    }

    pub fn formed(&self) -> bool {
        (1..=NODES as u64).contains(&self.node_count)
            && self.metadata_len <= METADATA as u64
            && (self.metadata_held || self.metadata_len == 0)
            && self.nodes[self.node_count as usize..]
                .iter()
                .all(|w| *w == 0)
            && self.metadata[self.metadata_len as usize..]
                .iter()
                .all(|b| *b == 0)
    }

    pub fn held(&self) -> StopSign {
        StopSign::with(
            ClusterConfig {
                configuration_id: self.config,
                nodes: self.nodes[..self.node_count as usize].to_vec(),
                flexible_quorum: None,
            },
            self.metadata_held
                .then(|| self.metadata[..self.metadata_len as usize].to_vec()),
        )
    }

    /// Its fields in docs/CALLS.md's order.
    pub fn fields(&self) -> Vec<u64> {
        let mut fields = vec![self.config as u64, self.node_count];
        fields.extend(self.nodes);
        fields.extend([self.metadata_held as u64, self.metadata_len]);
        fields.extend(self.metadata.map(|b| b as u64));
        fields
    }

    /// The lines that lend it as an argument.
    pub fn lines(&self) -> Vec<Vec<u64>> {
        (0..)
            .zip(self.fields())
            .map(|(i, v)| vec![5, i, v])
            .collect()
    }
}

/// The record and the words of log and snapshot, without the zeros at their end. `lent` says how many words of each
/// are lent.
#[derive(Clone, Debug, PartialEq)]
pub struct State {
    pub size: u64,
    pub retained: u64,
    pub batched: u64,
    pub compacted: u64,
    pub decided: u64,
    pub promise: Ballot,
    pub round: Ballot,
    pub snapshot_held: bool,
    pub keys: u64,
    pub stop_held: bool,
    pub stop: Sign,
    pub log: Vec<u64>,
    pub snapshot: Vec<u64>,
    pub lent: [usize; 2],
}

/// Words without the zeros at their end.
pub fn used(words: &[u64]) -> &[u64] {
    let last = words.iter().rposition(|w| *w != 0);
    &words[..last.map_or(0, |last| last + 1)]
}

pub fn trimmed(mut words: Vec<u64>) -> Vec<u64> {
    words.truncate(used(&words).len());
    words
}

fn ballot_of(b: &plain::Ballot) -> Ballot {
    Ballot::with(b.config_id, b.n, b.priority, b.pid)
}

/// The lines that make an area's words these, from others.
fn words_from(area: u64, due: &[u64], held: &[u64]) -> Vec<Vec<u64>> {
    let word = |words: &[u64], i: usize| words.get(i).copied().unwrap_or(0);
    let apart = |i: &usize| word(due, *i) != word(held, *i);
    let all = 0..due.len().max(held.len());
    let (Some(first), Some(last)) = (all.clone().find(apart), all.rev().find(apart)) else {
        return vec![];
    };
    let words: Vec<u64> = (first..=last).map(|i| word(due, i)).collect();
    put(area, first, &words)
}

/// The largest number that a field of the record holds, by docs/CALLS.md's number of it.
pub fn largest(field: u64) -> u64 {
    const METADATA_HELD: u64 = 18 + NODES as u64;
    const METADATA_LEN: u64 = METADATA_HELD + 1;
    match field {
        13 | 15 | METADATA_HELD => 1,
        5..=7 | 9..=11 | 16 => u32::MAX as u64,
        _ if field > METADATA_LEN => u8::MAX as u64,
        _ => u64::MAX,
    }
}

impl State {
    pub fn fresh(size: u64) -> Self {
        State {
            size,
            retained: 0,
            batched: 0,
            compacted: 0,
            decided: 0,
            promise: Ballot::default(),
            round: Ballot::default(),
            snapshot_held: false,
            keys: 0,
            stop_held: false,
            stop: Sign::default(),
            log: vec![],
            snapshot: vec![],
            lent: [LOG_WORDS, SNAPSHOT_WORDS],
        }
    }

    /// The same with other entries: so many of them retained, the rest batched.
    pub fn with_entries(mut self, entries: &[Change], retained: usize) -> Self {
        self.log = trimmed(words(entries));
        self.retained = retained as u64;
        self.batched = (entries.len() - retained) as u64;
        self
    }

    pub fn with_snapshot(mut self, keys: &[Change]) -> Self {
        self.snapshot_held = true;
        self.keys = keys.len() as u64;
        self.snapshot = trimmed(words(keys));
        self
    }

    pub fn with_stop(mut self, sign: Sign) -> Self {
        self.stop_held = true;
        self.stop = sign;
        self
    }

    /// A record with the areas of log and snapshot, and how many words of each area are lent.
    pub fn of(record: &IndexRecord, log: &[u64], snapshot: &[u64], lent: [usize; 5]) -> Self {
        State {
            size: record.batch_size,
            retained: record.retained as u64,
            batched: record.batched as u64,
            compacted: record.compacted.0,
            decided: record.decided.0,
            promise: ballot_of(&record.promise),
            round: ballot_of(&record.accepted_round),
            snapshot_held: record.snapshot_held,
            keys: record.keys as u64,
            stop_held: record.stop_held,
            stop: Sign::of_plain(&record.stop),
            log: used(log).to_vec(),
            snapshot: used(snapshot).to_vec(),
            lent: [lent[0], lent[1]],
        }
    }

    /// The record's fields in docs/CALLS.md's order.
    pub fn fields(&self) -> Vec<u64> {
        let ballot = |b: &Ballot| [b.config_id as u64, b.n as u64, b.priority as u64, b.pid];
        let mut fields = vec![
            self.size,
            self.retained,
            self.batched,
            self.compacted,
            self.decided,
        ];
        fields.extend(ballot(&self.promise));
        fields.extend(ballot(&self.round));
        fields.extend([self.snapshot_held as u64, self.keys, self.stop_held as u64]);
        fields.extend(self.stop.fields());
        fields
    }

    /// The lines that bring the port into this state from another.
    pub fn lines_from(&self, now: &State) -> Vec<Vec<u64>> {
        let mut lines: Vec<Vec<u64>> = (0..)
            .zip(self.fields().into_iter().zip(now.fields()))
            .filter(|(_, (due, held))| due != held)
            .map(|(f, (due, _))| vec![4, f, due])
            .collect();
        lines.extend(words_from(0, &self.log, &now.log));
        lines.extend(words_from(1, &self.snapshot, &now.snapshot));
        for area in [0, 1] {
            if self.lent[area] != now.lent[area] {
                lines.push(vec![3, area as u64, self.lent[area] as u64]);
            }
        }
        lines
    }

    pub fn end(&self) -> u128 {
        self.compacted as u128 + self.retained as u128
    }

    pub fn accepted(&self) -> u128 {
        self.end() + self.stop_held as u128
    }

    pub fn stop_decided(&self) -> bool {
        self.stop_held && self.decided as u128 == self.accepted()
    }

    pub fn log_decided(&self) -> u64 {
        self.decided - self.stop_decided() as u64
    }

    pub fn entries(&self) -> Vec<Change> {
        first_changes(&self.log, self.retained)
    }

    pub fn batch(&self) -> Vec<Change> {
        let all = first_changes(&self.log, self.retained + self.batched);
        all[self.retained as usize..].to_vec()
    }

    pub fn held_snapshot(&self) -> LentSnapshot {
        let mut words = self.snapshot.clone();
        words.resize(self.lent[1], 0);
        LentSnapshot {
            keys: self.keys,
            words,
        }
    }

    pub fn snapshot(&self) -> Option<Keys> {
        self.snapshot_held.then(|| self.held_snapshot().held())
    }

    pub fn stop_sign(&self) -> Option<StopSign> {
        self.stop_held.then(|| self.stop.held())
    }

    fn log_formed(&self) -> bool {
        let n = self.retained as u128 + self.batched as u128;
        self.lent[0] == LOG_WORDS
            && n <= ENTRIES as u128
            && self.log.len() <= at(n as u64)
            && first_changes(&self.log, n as u64).iter().all(formed)
    }

    fn numbers_formed(&self) -> bool {
        let log_decided = self.decided as u128 - self.stop_decided() as u128;
        self.size <= LARGEST_BATCH
            && self.compacted as u128 <= log_decided
            && log_decided <= self.end()
            && self.decided as u128 <= self.accepted()
            && self.accepted() + self.batched as u128 <= LARGEST as u128
            && (self.batched == 0 || (self.batched < self.size && !self.stop_held))
    }

    pub fn well_formed(&self) -> bool {
        let snapshot = match self.snapshot_held {
            true => self.held_snapshot().formed(),
            false => self.lent[1] == SNAPSHOT_WORDS && self.keys == 0 && self.snapshot.is_empty(),
        };
        let stop = match self.stop_held {
            true => self.stop.formed(),
            false => self.stop == Sign::default(),
        };
        self.log_formed() && self.numbers_formed() && snapshot && stop
    }
}
