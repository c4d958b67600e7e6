//! Numbers, slices and requests at random.
use kotuseraw::entry::{place_at, words, ENTRIES, KEYS, PLACES, REMOVED, WIDTH};
use kotuseraw::plain::{Ballot, BlockPlace, Bound, IndexRecord, LogIndex, Op, Ops, StopSign};
use kotuseraw::plain::{LARGEST_BATCH, LARGEST_INDEX, METADATA, MOST_OPS, NODES};
use kotuseraw::{Entry, LOG_WORDS, SNAPSHOT_WORDS};
use std::collections::BTreeMap;

/// xorshift64*
pub struct Dice {
    at: u64,
    /// Whether keys and entries are many.
    pub wide: bool,
}

/// Where keys are many they are below this.
const MANY_KEYS: u64 = 2000;
const _: () = assert!(MANY_KEYS > KEYS as u64, "a snapshot is filled with them");

/// Words more than any slice of the library has.
const LONG: usize = 3000;
const _: () = assert!(LONG > LOG_WORDS && LONG > SNAPSHOT_WORDS);

/// Somewhat more than the largest batch.
const SOME: u64 = LARGEST_BATCH + 6;

/// A kind that there is not.
const UNKNOWN: [u64; 5] = [3, 9, 255, 1 << 32, u64::MAX];

impl Dice {
    pub fn of(seed: u64) -> Self {
        // The generator stands still at 0.
        Dice { at: (0x9E37_79B9_7F4A_7C15 ^ seed).max(1), wide: false }
    }

    fn roll(&mut self) -> u64 {
        self.at ^= self.at >> 12;
        self.at ^= self.at << 25;
        self.at ^= self.at >> 27;
        self.at.wrapping_mul(0x2545_F491_4F6C_DD1D)
    }

    pub fn below(&mut self, n: u64) -> u64 {
        (self.roll() >> 11) % n
    }

    pub fn one_in(&mut self, n: u64) -> bool {
        self.below(n) == 0
    }

    pub fn pick<T: Copy>(&mut self, from: &[T]) -> T {
        from[self.below(from.len() as u64) as usize]
    }

    /// One of a list, each as often as its weight says.
    pub fn among<'a, T>(&mut self, from: &'a [T], weight: fn(&T) -> u64) -> &'a T {
        let mut at = self.below(from.iter().map(weight).sum());
        from.iter()
            .find(|one| {
                let here = at < weight(one);
                at = at.saturating_sub(weight(one));
                here
            })
            .unwrap()
    }

    /// Any word, one at an end of what there is more often than others.
    pub fn word(&mut self) -> u64 {
        match self.below(3) {
            0 => self.pick(&[0, 1, 2, PLACES - 1, PLACES, LARGEST_INDEX.0, LARGEST_INDEX.0 + 1, 1 << 63, REMOVED - 1, REMOVED]),
            1 => self.roll() >> self.below(64),
            _ => self.roll(),
        }
    }

    /// A batch size in form.
    pub fn size(&mut self) -> u64 {
        self.pick(&[0, 0, 1, 2, 2, 3, 5, LARGEST_BATCH - 1, LARGEST_BATCH])
    }

    pub fn key(&mut self) -> u64 {
        match self.wide {
            true => self.below(MANY_KEYS),
            false => self.pick(&[0, 1, 2, 3, 5, 9, 1 << 63, u64::MAX]),
        }
    }

    /// An index near one that matters to a record, or at an end of what an index may be.
    pub fn index(&mut self, record: &IndexRecord) -> LogIndex {
        let end = record.compacted.0.wrapping_add(record.retained as u64);
        let accepted = end.wrapping_add(record.stop_held as u64);
        let near = [0, record.compacted.0, record.decided.0, end, accepted, accepted.wrapping_add(record.batched as u64)];
        LogIndex(match self.below(20) {
            0 => self.word(),
            1 => LARGEST_INDEX.0 - self.below(SOME),
            2..=6 => record.compacted.0.wrapping_add(self.below((record.retained as u64).saturating_add(4))),
            _ => self.pick(&near).wrapping_add(self.pick(&[0, 0, 1, u64::MAX, 2])),
        })
    }

    pub fn ballot(&mut self) -> Ballot {
        let mut field = || self.pick(&[0, 1, 2, u32::MAX]);
        let (config_id, n, priority) = (field(), field(), field());
        Ballot { config_id, n, priority, pid: self.pick(&[0, 1, 2, u64::MAX]) }
    }

    /// A stop-sign; one in eight is out of form.
    pub fn sign(&mut self) -> StopSign {
        let mut sign = StopSign { config_id: self.word() as u32, node_count: 1 + self.below(NODES as u64) as usize, ..StopSign::default() };
        for node in &mut sign.nodes[..sign.node_count] {
            *node = self.word();
        }
        if self.one_in(2) {
            sign.metadata_held = true;
            sign.metadata_len = self.below(METADATA as u64 + 1) as usize;
            for byte in &mut sign.metadata[..sign.metadata_len] {
                *byte = self.roll() as u8;
            }
        }
        if self.one_in(8) {
            match self.below(5) {
                0 => sign.node_count = self.pick(&[0, NODES + 1, usize::MAX]),
                1 => sign.metadata_len = self.pick(&[METADATA + 1, usize::MAX]),
                2 => sign.metadata[METADATA - 1] ^= 1,
                3 => sign.nodes[NODES - 1] ^= 1,
                _ => sign.metadata_held = !sign.metadata_held,
            }
        }
        sign
    }

    fn entry(&mut self) -> Entry {
        let key = self.key();
        match self.below(8) {
            0 => Entry::put(key, BlockPlace(self.pick(&[0, PLACES - 1]))),
            1 | 2 => Entry::removed(key),
            _ => Entry::put(key, BlockPlace(self.below(1000))),
        }
    }

    /// An entry slice; one in 30 is out of form, one in 200 longer than a log.
    pub fn entries(&mut self, to: &mut Vec<u64>) {
        let n = match self.below(12) {
            0 => 0,
            1..=7 => 1 + self.below(4),
            8..=10 => self.below(SOME),
            _ if self.wide => self.below(ENTRIES as u64 + 2),
            _ => self.below(20),
        };
        to.clear();
        for _ in 0..if self.one_in(200) { ENTRIES as u64 + n } else { n } {
            to.extend(words(&[self.entry()]));
        }
        if self.one_in(30) {
            match to.len() {
                0 => to.push(0),
                len if self.one_in(2) => to.truncate(len - 1),
                len => to[place_at(self.below((len / WIDTH) as u64) as usize)] = self.pick(&[PLACES, REMOVED - 1]),
            }
        }
    }

    /// The words of a snapshot, and the number of keys said of it; one in 20 is out of form.
    pub fn second(&mut self, to: &mut Vec<u64>) -> usize {
        let n = match self.wide && self.one_in(6) {
            true => self.pick(&[KEYS - 12, KEYS - 1, KEYS]),
            false => self.below(6) as usize,
        };
        let mut keys = BTreeMap::new();
        while keys.len() < n {
            let entry = self.entry();
            keys.insert(entry.key(), entry);
        }
        to.clear();
        to.extend(words(&keys.into_values().collect::<Vec<_>>()));
        to.resize(SNAPSHOT_WORDS, 0);
        if !self.one_in(20) {
            return n;
        }
        let whole = SNAPSHOT_WORDS;
        match self.below(7) {
            0 => to.resize(self.pick(&[0, 1, whole - WIDTH, whole - 1, whole + 1, LOG_WORDS, LOG_WORDS + WIDTH]), 0),
            1 if n > 0 => return n - 1,
            2 => return self.pick(&[n + 1, KEYS, KEYS + 1, 1 << 63, usize::MAX]),
            3 if n > 1 => to.swap(0, WIDTH),
            4 => to[place_at(0)] = PLACES,
            5 => self.noise(to, whole),
            _ => *to.last_mut().unwrap() = 1,
        }
        n
    }

    /// An output slice with words in it; one in 20 of another length than a snapshot's.
    pub fn output(&mut self, to: &mut Vec<u64>) {
        let whole = SNAPSHOT_WORDS;
        to.resize(whole, 7);
        if self.one_in(20) {
            to.resize(self.pick(&[0, 1, WIDTH, whole - 1, whole + 1, LOG_WORDS - 1, LOG_WORDS, LOG_WORDS + WIDTH]), 5);
        }
        if let Some(word) = to.first_mut() {
            *word = self.roll();
        }
    }

    /// Words of any kind, one slice in two of another length.
    pub fn noise(&mut self, to: &mut Vec<u64>, len: usize) {
        let len = if self.one_in(2) { len } else { self.pick(&[0, 1, WIDTH, len - 1, len + 1, len + WIDTH, LONG]) };
        let used = if self.one_in(2) { len } else { len.min(self.below(12) as usize) };
        let few = self.one_in(2);
        to.clear();
        for _ in 0..used {
            to.push(if few { self.below(4) } else { self.word() });
        }
        to.resize(len, 0);
    }

    pub fn bound(&mut self, record: &IndexRecord) -> Bound {
        let kind = if self.one_in(60) { self.pick(&UNKNOWN) } else { self.pick(&[0, 0, 1, 1, 2]) };
        Bound { kind, index: self.index(record) }
    }

    /// The kind of a sync's log part that there is not.
    pub fn unknown(&mut self) -> u64 {
        self.pick(&UNKNOWN)
    }

    fn op(&mut self, record: &IndexRecord) -> Op {
        let kind = if self.one_in(60) { self.pick(&UNKNOWN[1..]) } else { self.below(9) };
        Op { kind, index: self.index(record), ballot: self.ballot(), given: self.one_in(2) }
    }

    /// An operation list. A trim and the compacted index mostly come together, as a list that stands needs them.
    pub fn ops(&mut self, record: &IndexRecord) -> Ops {
        let mut list = Ops { count: self.pick(&[1, 1, 1, 2, 2, 3, 4, MOST_OPS]), ..Ops::default() };
        for at in 0..list.ops.len() {
            list.ops[at] = self.op(record);
            let before = list.ops[at.saturating_sub(1)];
            let pair = match before.kind {
                5 => 6,
                6 => 5,
                _ => continue,
            };
            if at > 0 && at % 2 == 1 && !self.one_in(5) {
                list.ops[at] = Op { kind: pair, ..before };
            }
        }
        if self.one_in(20) {
            list.count = self.pick(&[0, MOST_OPS + 1, MOST_OPS + 2, 1 << 63, usize::MAX]);
        }
        list
    }
}
