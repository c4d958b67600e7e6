//! What is lent to a call: a state, and the slices beside it.
use crate::dice::Dice;
use kotuseraw::entry::{ENTRIES, KEYS, PLACES, REMOVED, WIDTH};
use kotuseraw::plain::{Ballot, IndexRecord, LogIndex, StopSign, LARGEST_BATCH, LARGEST_INDEX, METADATA, NODES};
use kotuseraw::{LOG_WORDS, SNAPSHOT_WORDS};
use std::fmt;

/// A record and the words of a log and a snapshot, as many as are lent.
#[derive(Clone, Default, PartialEq)]
pub struct State {
    pub record: IndexRecord,
    pub log: Vec<u64>,
    pub snapshot: Vec<u64>,
}

/// A state, entries, a second snapshot with the keys said of it, and an output slice.
#[derive(Default)]
pub struct Case {
    pub state: State,
    pub entries: Vec<u64>,
    pub second: Vec<u64>,
    pub keys: usize,
    pub out: Vec<u64>,
}

impl State {
    pub fn fresh(batch_size: u64) -> Self {
        let record = IndexRecord { batch_size, ..IndexRecord::default() };
        State { record, log: vec![0; LOG_WORDS], snapshot: vec![0; SNAPSHOT_WORDS] }
    }

    pub fn copy(&mut self, other: &State) {
        self.record = other.record;
        self.log.clone_from(&other.log);
        self.snapshot.clone_from(&other.snapshot);
    }

    /// Breaks a few things: fields, words, lengths.
    fn break_some(&mut self, dice: &mut Dice) {
        for _ in 0..1 + dice.below(3) {
            match dice.below(6) {
                0 => break_words(&mut self.log, WIDTH * self.record.retained.saturating_add(self.record.batched).min(LOG_WORDS), dice),
                1 => break_words(&mut self.snapshot, WIDTH * self.record.keys.min(SNAPSHOT_WORDS), dice),
                2 if dice.one_in(3) => break_length(&mut self.log, dice),
                2 if dice.one_in(2) => break_length(&mut self.snapshot, dice),
                _ => break_record(&mut self.record, dice),
            }
        }
    }

    fn noise(&mut self, dice: &mut Dice) {
        let few = dice.one_in(2);
        let mut number = || if few { dice.below(5) } else { dice.word() };
        let ballot = Ballot { pid: number(), ..Ballot::default() };
        self.record = IndexRecord {
            batch_size: number(),
            retained: number() as usize,
            batched: number() as usize,
            compacted: LogIndex(number()),
            decided: LogIndex(number()),
            promise: ballot,
            accepted_round: ballot,
            keys: number() as usize,
            ..IndexRecord::default()
        };
        self.record.snapshot_held = dice.one_in(2);
        self.record.stop_held = dice.one_in(2);
        self.record.stop = dice.sign();
        dice.noise(&mut self.log, LOG_WORDS);
        dice.noise(&mut self.snapshot, SNAPSHOT_WORDS);
    }
}

/// Another number in place of one.
fn other(n: u64, dice: &mut Dice) -> u64 {
    const EDGES: [u64; 11] = [
        0,
        1,
        LARGEST_BATCH,
        LARGEST_BATCH + 1,
        KEYS as u64,
        KEYS as u64 + 1,
        ENTRIES as u64,
        ENTRIES as u64 + 1,
        LARGEST_INDEX.0,
        LARGEST_INDEX.0 + 1,
        u64::MAX,
    ];
    match dice.below(4) {
        0 => n ^ 1 << dice.below(64),
        1 => n.wrapping_add(1),
        2 => n.wrapping_sub(1),
        _ => dice.pick(&EDGES),
    }
}

/// One word, anywhere or about where those in use end.
fn break_words(words: &mut [u64], used: usize, dice: &mut Dice) {
    if words.is_empty() {
        return;
    }
    let near = dice.pick(&[0, 1, WIDTH, used.saturating_sub(WIDTH), used.saturating_sub(1), used, used + 1, words.len() - 1]);
    let at = if dice.one_in(2) { near.min(words.len() - 1) } else { dice.below(words.len() as u64) as usize };
    words[at] = match dice.below(3) {
        0 => words[at] ^ 1 << dice.below(64),
        _ => dice.pick(&[0, 1, PLACES - 1, PLACES, REMOVED - 1, REMOVED]),
    };
}

fn break_length(words: &mut Vec<u64>, dice: &mut Dice) {
    let len = words.len();
    words.resize(dice.pick(&[0, 1, WIDTH, len - len.min(WIDTH), len - len.min(1), len + 1, len + WIDTH, 2 * len]), 0);
}

fn break_sign(sign: &mut StopSign, dice: &mut Dice) {
    match dice.below(6) {
        0 => sign.config_id ^= 1 << dice.below(32),
        1 => sign.node_count = other(sign.node_count as u64, dice) as usize,
        2 => sign.nodes[dice.below(NODES as u64) as usize] ^= 1 << dice.below(64),
        3 => sign.metadata_held = !sign.metadata_held,
        4 => sign.metadata_len = other(sign.metadata_len as u64, dice) as usize,
        _ => sign.metadata[dice.below(METADATA as u64) as usize] ^= 1 << dice.below(8),
    }
}

fn break_record(record: &mut IndexRecord, dice: &mut Dice) {
    match dice.below(10) {
        0 => record.batch_size = other(record.batch_size, dice),
        1 => record.retained = other(record.retained as u64, dice) as usize,
        2 => record.batched = other(record.batched as u64, dice) as usize,
        3 => record.compacted.0 = other(record.compacted.0, dice),
        4 => record.decided.0 = other(record.decided.0, dice),
        5 => record.promise = dice.ballot(),
        6 => record.snapshot_held = !record.snapshot_held,
        7 => record.keys = other(record.keys as u64, dice) as usize,
        8 => record.stop_held = !record.stop_held,
        _ => break_sign(&mut record.stop, dice),
    }
}

impl Case {
    /// Fills it for one call: with the state that was reached, or in one of four with that broken, or with noise. Whether it is the one
    /// that was reached.
    pub fn fill(&mut self, reached: &State, dice: &mut Dice) -> bool {
        self.state.copy(reached);
        let sound = !dice.one_in(4);
        if !sound && dice.one_in(3) {
            self.state.noise(dice);
        } else if !sound {
            self.state.break_some(dice);
        }
        dice.entries(&mut self.entries);
        self.keys = dice.second(&mut self.second);
        dice.output(&mut self.out);
        sound
    }
}

impl fmt::Debug for Case {
    fn fmt(&self, f: &mut fmt::Formatter<'_>) -> fmt::Result {
        let used = |words: &[u64]| words.iter().rposition(|word| *word != 0).map_or(0, |last| last + 1);
        writeln!(f, "{:?}", self.state.record)?;
        let slices = [&self.state.log, &self.state.snapshot, &self.entries, &self.second, &self.out];
        for (name, words) in ["log", "snapshot", "entries", "second", "out"].into_iter().zip(slices) {
            writeln!(f, "{name}: {} words, then zeros up to {}: {:?}", used(words), words.len(), &words[..used(words).min(40)])?;
        }
        write!(f, "keys said of the second: {}", self.keys)
    }
}
