//! Numbers, states and calls at random, the same at every run.
use crate::backend::{Change, Keys};
use crate::ballot_leader_election::Ballot;
use crate::call::{Call, Form, Kind, List, Op, OpKind, Part, OP_KINDS};
use crate::entry::{at, count, place_at, replies_at, words, LOG_WORDS, REMOVED, SNAPSHOT_WORDS};
use crate::limits::{
    ENTRIES, KEYS, LARGEST, LARGEST_BATCH, METADATA, MOST_ASKED, MOST_OPS, NODES, PLACES,
};
use crate::state::{largest, LentSnapshot, Sign, State};
use std::ops::Bound;

/// Where keys are many they are below this.
const MANY_KEYS: u64 = 2000;
const _: () = assert!(MANY_KEYS > KEYS, "a snapshot is filled with them");

/// xorshift64*
pub struct Dice(u64);

impl Dice {
    pub fn of(seed: u64) -> Self {
        Dice(0x9E37_79B9_7F4A_7C15 ^ seed)
    }

    fn roll(&mut self) -> u64 {
        self.0 ^= self.0 >> 12;
        self.0 ^= self.0 << 25;
        self.0 ^= self.0 >> 27;
        self.0.wrapping_mul(0x2545_F491_4F6C_DD1D)
    }

    pub fn below(&mut self, n: u64) -> u64 {
        (self.roll() >> 11) % n
    }

    pub fn one_in(&mut self, n: u64) -> bool {
        self.below(n) == 0
    }

    pub fn pick<T: Clone>(&mut self, from: &[T]) -> T {
        from[self.below(from.len() as u64) as usize].clone()
    }

    /// An index near one that matters, or at an end of what an index may be.
    fn index(&mut self, s: &State) -> u64 {
        let accepted = s.accepted() as u64;
        let near = [
            0,
            s.compacted,
            s.decided,
            s.end() as u64,
            accepted,
            accepted + s.batched,
        ];
        match self.below(20) {
            0 => self.pick(&[LARGEST, LARGEST + 1, u64::MAX - 1, u64::MAX, 1 << 63]),
            1..=5 => s.compacted + self.below(accepted - s.compacted + 4),
            _ => {
                let at = self.pick(&near);
                self.pick(&[at, at, at + 1, at.saturating_sub(1), at + 2])
            }
        }
    }

    fn key(&mut self, wide: bool) -> u64 {
        if wide {
            return self.below(MANY_KEYS);
        }
        self.pick(&[0, 1, 2, 3, 5, 9, u64::MAX, 1 << 63])
    }

    fn change(&mut self, wide: bool) -> Change {
        let place = self.pick(&[Some(0), Some(1), Some(PLACES - 1), None]);
        let place = if self.one_in(2) {
            Some(self.below(1000))
        } else {
            place
        };
        Change {
            key: self.key(wide),
            place,
        }
    }

    fn changes(&mut self, n: u64, wide: bool) -> Vec<Change> {
        (0..n).map(|_| self.change(wide)).collect()
    }

    /// The words of some entries; one list in 60 is out of form.
    fn entries(&mut self, wide: bool) -> Vec<u64> {
        let n = match self.below(12) {
            0 => 0,
            1..=7 => 1 + self.below(4),
            8..=10 => self.below(LARGEST_BATCH + 6),
            _ if wide => self.below(ENTRIES + 1),
            _ => self.below(20),
        };
        let mut words = words(&self.changes(n, wide));
        if n > 0 && self.one_in(60) {
            self.bend(&mut words);
        }
        words
    }

    /// Makes entries of another form: the last not whole, or a place that is none.
    fn bend(&mut self, words: &mut Vec<u64>) {
        if self.one_in(2) {
            words.pop();
            return;
        }
        let at = place_at(self.below(count(words)));
        words[at] = self.pick(&[PLACES, REMOVED - 1]);
    }

    /// So many different keys, ascending.
    fn keys(&mut self, n: u64, wide: bool) -> Vec<Change> {
        let mut keys = Keys::default();
        while (keys.0.len() as u64) < n {
            let c = self.change(wide);
            keys.0.insert(c.key, c.place);
        }
        keys.entries()
    }

    /// A snapshot; one in 30 is out of form.
    fn snapshot(&mut self, wide: bool) -> LentSnapshot {
        let n = if wide && self.one_in(3) {
            KEYS - 7 + self.below(8)
        } else {
            self.below(6)
        };
        let mut snapshot = LentSnapshot::of(&self.keys(n, wide));
        if self.one_in(30) {
            match self.below(5) {
                0 => snapshot.words.truncate(at(KEYS - 1)),
                1 => snapshot.keys = self.pick(&[n + 1, KEYS + 1, u64::MAX]),
                2 if n > 0 => snapshot.keys -= 1,
                3 if n > 1 => snapshot.words.swap(at(0), at(1)),
                _ => snapshot.words[SNAPSHOT_WORDS - 1] = 1,
            }
        }
        snapshot
    }

    /// A stop-sign; one in 12 is out of form.
    fn sign(&mut self) -> Sign {
        let (most_nodes, most_bytes) = (NODES as u64, METADATA as u64);
        let nodes: Vec<u64> = (0..1 + self.below(most_nodes))
            .map(|_| self.below(9))
            .collect();
        let metadata: Option<Vec<u8>> = if self.one_in(2) {
            None
        } else {
            Some(
                (0..self.below(most_bytes + 1))
                    .map(|_| self.below(256) as u8)
                    .collect(),
            )
        };
        let config = self.pick(&[0, 1, 7, u32::MAX]);
        let mut sign = Sign::of(config, &nodes, metadata.as_deref());
        if self.one_in(12) {
            match self.below(4) {
                0 => sign.node_count = self.pick(&[0, most_nodes + 1, u64::MAX]),
                1 => sign.metadata_len = self.pick(&[most_bytes + 1, u64::MAX]),
                2 => sign.metadata[METADATA - 1] = 1,
                _ => sign.nodes[NODES - 1] = 1,
            }
        }
        sign
    }

    fn ballot(&mut self) -> Ballot {
        Ballot::with(
            self.below(3) as u32,
            self.below(4) as u32,
            self.below(3) as u32,
            self.below(4),
        )
    }

    /// How many words of the output area are lent.
    fn output(&mut self) -> usize {
        if self.one_in(40) {
            self.pick(&[0, SNAPSHOT_WORDS - 1])
        } else {
            SNAPSHOT_WORDS
        }
    }

    /// How far a compaction goes.
    fn upto(&mut self, s: &State) -> Option<u64> {
        (!self.one_in(3)).then(|| self.index(s))
    }

    fn form(&mut self) -> Form {
        self.pick(&[Form::Covered, Form::Covered, Form::ByHand])
    }

    fn bound(&mut self, s: &State) -> Bound<u64> {
        let i = self.index(s);
        self.pick(&[
            Bound::Included(i),
            Bound::Excluded(i),
            Bound::Included(i),
            Bound::Excluded(i),
            Bound::Unbounded,
        ])
    }

    fn read(&mut self, s: &State) -> Call {
        let (from, to) = (self.bound(s), self.bound(s));
        Call::Read(self.form(), from, to)
    }

    fn sync(&mut self, s: &State, wide: bool) -> Call {
        let part = Part {
            held: !self.one_in(4),
            idx: self.index(s),
            kind: self.pick(&[Kind::Plain, Kind::Plain, Kind::Complete, Kind::Delta]),
            snapshot: self.snapshot(wide),
            suffix: self.entries(wide),
            stop: self.one_in(6).then(|| self.sign()),
        };
        Call::Sync(self.ballot(), self.index(s), part)
    }

    fn op(&mut self, s: &State) -> Op {
        Op {
            kind: self.pick(&OP_KINDS),
            index: self.index(s),
            given: self.one_in(2),
            ballot: self.ballot(),
        }
    }

    /// An operation list. A trim and the compacted index mostly come together, as a list that stands needs them.
    fn list(&mut self, s: &State, wide: bool) -> List {
        let mut ops = vec![];
        for _ in 0..self.pick(&[0, 1, 1, 1, 2, 2, 3, 4, MOST_OPS, MOST_OPS + 1]) {
            let op = self.op(s);
            let pair = match op.kind {
                OpKind::Trim => Some(OpKind::SetCompactedIdx),
                OpKind::SetCompactedIdx => Some(OpKind::Trim),
                _ => None,
            };
            ops.push(op);
            if let Some(kind) = pair.filter(|_| ops.len() < MOST_OPS && !self.one_in(5)) {
                ops.push(Op { kind, ..op });
            }
        }
        // One more would be a bad line.
        ops.truncate(MOST_OPS + 1);
        List {
            ops,
            entries: self.entries(wide),
            snapshot_lent: self.one_in(2),
            snapshot: self.snapshot(wide),
            stop: self.one_in(2).then(|| self.sign()),
        }
    }

    /// Keys of one lookup, and the words that are lent for the replies: now and then too many, or too few.
    fn many(&mut self, wide: bool) -> Call {
        let n = self.pick(&[
            0,
            1,
            2,
            5,
            MOST_ASKED - 1,
            MOST_ASKED,
            MOST_ASKED,
            MOST_ASKED + 1,
        ]);
        let keys = (0..n).map(|_| self.key(wide)).collect();
        let need = replies_at(n);
        Call::LookupMany(
            keys,
            self.pick(&[need, SNAPSHOT_WORDS, SNAPSHOT_WORDS, need.saturating_sub(1)]),
        )
    }

    fn plain(&mut self, s: &State, wide: bool) -> Call {
        let count = self.pick(&[0, 1, 2, s.retained, ENTRIES - 1, ENTRIES, u64::MAX]);
        let first = self.pick(&[0, 1, s.retained, ENTRIES - 1, ENTRIES, 1 << 63, u64::MAX]);
        match self.below(15) {
            0..=2 => Call::Fold(self.entries(wide), self.output()),
            3..=5 => {
                let keys = self.pick(&[s.keys, s.keys, s.keys, s.keys + 1]);
                Call::Merge(keys, self.snapshot(wide), self.output())
            }
            6 => Call::Find(self.snapshot(wide), self.key(wide)),
            7 => Call::SnapshotFormed(self.snapshot(wide)),
            8 => Call::EntriesFormed(self.entries(wide)),
            9 => Call::PlaceFormed(self.pick(&[0, PLACES - 1, PLACES, REMOVED - 1, REMOVED])),
            10 => Call::SignFormed(self.sign()),
            11 => Call::Compare(self.ballot(), self.ballot()),
            12 => Call::EntriesOf(first, count),
            13 => {
                let out = self.pick(&[0, 1, replies_at(MOST_ASKED), SNAPSHOT_WORDS]);
                let i = self.pick(&[0, 1, MOST_ASKED as u64 - 1, MOST_ASKED as u64, u64::MAX]);
                Call::ReplyAt(out, i)
            }
            _ => Call::EntriesShown(self.below(3), first, count),
        }
    }

    pub fn call(&mut self, s: &State, wide: bool) -> Call {
        match self.below(113) {
            0..=15 => {
                let c = self.change(wide);
                let place = if self.one_in(50) {
                    self.pick(&[Some(PLACES), Some(REMOVED)])
                } else {
                    c.place
                };
                Call::AppendEntry(c.key, place)
            }
            16..=23 => Call::Append(self.entries(wide)),
            24..=27 => Call::AppendIdx(self.entries(wide)),
            28..=33 => Call::AppendNow(self.entries(wide)),
            34..=36 => Call::Flush,
            37..=39 => Call::FlushEntries,
            40 => Call::AppendStop(self.sign()),
            41..=42 => Call::SetStop(self.one_in(2).then(|| self.sign())),
            43 => Call::Promise(self.ballot()),
            44..=56 => Call::Decide(self.form(), self.index(s)),
            57..=64 => self.read(s),
            65..=66 => Call::ReadDecided(self.index(s)),
            67..=68 => Call::Entries(self.index(s), self.index(s)),
            69 => Call::Suffix(self.index(s)),
            70..=72 => Call::Lookup(self.key(wide)),
            73..=76 => Call::Trim(self.form(), self.upto(s)),
            77..=81 => Call::Snapshot(self.upto(s)),
            82..=84 => Call::Create(self.index(s), self.output()),
            85..=87 => Call::Diff(self.index(s), self.output()),
            88..=94 => self.sync(s, wide),
            95..=98 => Call::Write(self.form(), self.list(s, wide)),
            99 => self.pick(&[
                Call::Reload,
                Call::GetAccepted,
                Call::GetLogDecided,
                Call::StopIsDecided,
                Call::WellFormed,
            ]),
            100..=104 => self.plain(s, wide),
            105..=107 => self.many(wide),
            108 if self.one_in(20) => Call::Fresh(self.pick(&[
                0,
                1,
                2,
                LARGEST_BATCH - 1,
                LARGEST_BATCH,
                LARGEST_BATCH + 1,
                u64::MAX,
            ])),
            _ => Call::Decide(Form::Covered, s.accepted() as u64),
        }
    }

    /// A well-formed state: mostly a fresh one.
    pub fn state(&mut self, wide: bool) -> State {
        let size = self.pick(&[0, 0, 1, 2, 2, 3, 5, LARGEST_BATCH - 1, LARGEST_BATCH]);
        if !self.one_in(3) {
            return State::fresh(size);
        }
        loop {
            let retained = match wide {
                true => self.pick(&[
                    0,
                    1,
                    KEYS - 1,
                    KEYS,
                    KEYS + 1,
                    ENTRIES - 24,
                    ENTRIES - 1,
                    ENTRIES,
                ]),
                false => self.below(6),
            };
            let batched = self.below(size.max(1));
            let entries = self.changes(retained + batched, wide);
            let mut s = State::fresh(size).with_entries(&entries, retained as usize);
            s.compacted = self.pick(&[0, 1, 2, 1 << 31, LARGEST - retained - batched]);
            s.compacted = s.compacted.saturating_sub(self.below(3));
            s.promise = self.ballot();
            s.round = self.ballot();
            if self.one_in(2) {
                let n = if wide {
                    self.pick(&[0, 1, KEYS - 1, KEYS])
                } else {
                    self.below(6)
                };
                s = s.with_snapshot(&self.keys(n, wide));
            }
            if self.one_in(3) {
                s = s.with_stop(self.sign());
            }
            s.decided = s.compacted + self.below(s.accepted() as u64 - s.compacted + 1);
            if s.well_formed() {
                return s;
            }
        }
    }

    /// A line that sets something of the state to something else.
    pub fn spoil(&mut self, s: &State) -> Vec<u64> {
        match self.below(4) {
            0 => {
                let (used, last) = (at(s.retained + s.batched), LOG_WORDS - 1);
                let at = self.pick(&[at(0), place_at(0), used, at(ENTRIES - 1), last]);
                let word = self.pick(&[0, 1, PLACES, REMOVED]);
                vec![2, 0, at.min(last) as u64, word]
            }
            1 => {
                let (used, last) = (at(s.keys), SNAPSHOT_WORDS - 1);
                let at = self.pick(&[at(0), place_at(0), at(1), place_at(1), used, last]);
                let word = self.pick(&[0, 1, PLACES, REMOVED]);
                vec![2, 1, at.min(last) as u64, word]
            }
            2 if self.one_in(4) => self.pick(&[
                vec![3, 0, LOG_WORDS as u64 - 1],
                vec![3, 0, 0],
                vec![3, 1, SNAPSHOT_WORDS as u64 - 1],
                vec![3, 1, at(1) as u64],
            ]),
            _ => {
                let fields = s.fields();
                let f = self.below(fields.len() as u64);
                let old = fields[f as usize];
                let v = match largest(f) {
                    1 => 1 - old,
                    u64::MAX => self.pick(&[
                        0,
                        1,
                        old.wrapping_add(1),
                        old.wrapping_sub(1),
                        LARGEST_BATCH + 1,
                        ENTRIES + 1,
                        LARGEST + 1,
                        u64::MAX,
                    ]),
                    most => self.pick(&[0, 1, most]),
                };
                vec![4, f, v]
            }
        }
    }
}
