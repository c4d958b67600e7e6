//! The calls of an owned index, which do not judge its form, beside the same calls on lent words, which do.
use kotuseraw::entry::{ENTRIES, KEYS, PLACES, WIDTH};
use kotuseraw::plain::{LARGEST_BATCH, LARGEST_INDEX, METADATA, NODES};
use kotuseraw::{
    plain, Ballot, BlockPlace, Compaction, Entry, Found, Index, IndexRecord, Lent, LogIndex, LogSync, Op, Refusal, Snapshot, SnapshotType,
    StopSign, Upto, View, SNAPSHOT_WORDS,
};
use std::collections::BTreeMap;

/// Keys are below this: refusal 8 is met.
const SOME_KEYS: u64 = 900;
const _: () = assert!(SOME_KEYS > KEYS as u64);

/// Numbers that look random and are the same in every run.
struct Dice(u64);

impl Dice {
    fn next(&mut self, below: u64) -> u64 {
        self.0 ^= self.0 << 13;
        self.0 ^= self.0 >> 7;
        self.0 ^= self.0 << 17;
        (self.0 >> 11) % below
    }

    fn entry(&mut self) -> Entry {
        let key = self.next(SOME_KEYS);
        match self.next(4) {
            0 => Entry::removed(key),
            _ => Entry::put(key, BlockPlace(self.next(1 << 20))),
        }
    }

    fn entries(&mut self) -> Vec<Entry> {
        let n = [0, 1, 3, 40, 300][self.next(5) as usize];
        (0..n).map(|_| self.entry()).collect()
    }

    /// An index near one of the numbers of a state, or anywhere.
    fn index(&mut self, of: &Index) -> LogIndex {
        let record = of.record();
        let end = record.compacted.0 + record.retained as u64;
        let near = [record.compacted.0, record.decided.0, end, self.next(end + 2), u64::MAX, LARGEST_INDEX.0 - 5];
        let at = near[[0, 1, 1, 2, 2, 3, 3, 3, 3, 4, 5][self.next(11) as usize]];
        LogIndex(at.wrapping_add(self.next(3)).wrapping_sub(1))
    }

    fn ballot(&mut self) -> Ballot {
        Ballot { config_id: self.next(2) as u32, n: self.next(3) as u32, priority: self.next(2) as u32, pid: self.next(3) }
    }

    fn stopsign(&mut self) -> StopSign {
        let nodes: Vec<u64> = (0..self.next(NODES as u64 + 1)).collect();
        let bytes = vec![7; self.next(METADATA as u64 + 1) as usize];
        StopSign::new(self.next(9) as u32, &nodes, Some(&bytes).filter(|_| nodes.len() > 2).map(|b| &b[..])).unwrap()
    }
}

/// How often each call was accepted, or refused with which number.
type Met = BTreeMap<(&'static str, u64), u64>;

fn number<T>(said: &Result<T, Refusal>) -> u64 {
    said.as_ref().map_or_else(Refusal::number, |_| 0)
}

/// One call both ways: the same reply and the same state.
macro_rules! both {
    ($index:ident, $met:ident, $name:ident($($a:expr),*)) => {{
        let before = $index.clone();
        let mut record = *before.record();
        let (mut log, mut snapshot) = (before.log().to_vec(), before.snapshot_words().to_vec());
        let number = {
            #[allow(unused_mut)]
            let mut view = View { record: &mut record, log: &mut log, snapshot: &mut snapshot };
            let lent = view.$name($($a),*);
            let owned = $index.$name($($a),*);
            assert_eq!(format!("{owned:?}"), format!("{lent:?}"), "{} on {before:?}", stringify!($name));
            number(&owned)
        };
        assert_eq!(($index.record(), $index.log(), $index.snapshot_words()), (&record, &log[..], &snapshot[..]));
        assert!(plain::well_formed(record, &log, &snapshot));
        assert!(number == 0 || *$index == before, "a refusal changed something");
        *$met.entry((stringify!($name), number)).or_default() += 1;
    }};
}

fn turn(index: &mut Index, dice: &mut Dice, met: &mut Met) {
    let (i, j) = (dice.index(index), dice.index(index));
    match dice.next(26) {
        0 | 1 => {
            let entry = dice.entry_of(i);
            both!(index, met, append(entry))
        }
        2 => {
            let run = dice.entries();
            both!(index, met, append_entries_with_batching(&run))
        }
        3 => {
            let run = dice.entries();
            both!(index, met, append_entries_and_get_accepted_idx(&run))
        }
        4 => {
            let run = dice.entries();
            both!(index, met, append_entries_without_batching(&run))
        }
        5 => both!(index, met, flush_batch()),
        6 => both!(index, met, flush_batch_and_get_entries()),
        7 if dice.next(8) == 0 => {
            let sign = dice.stopsign();
            both!(index, met, append_stopsign(sign))
        }
        8 => {
            let sign = Some(dice.stopsign()).filter(|_| i.0 % 4 == 0);
            both!(index, met, set_stopsign(sign))
        }
        9 => {
            let ballot = dice.ballot();
            both!(index, met, set_promise(ballot))
        }
        10 | 11 => both!(index, met, set_decided_idx(i)),
        12 | 13 => {
            let what = [Compaction::Trim, Compaction::Snapshot][dice.next(2) as usize];
            let upto = [Upto::All, Upto::Index(i)][dice.next(2) as usize];
            both!(index, met, compact(what, upto))
        }
        14 => both!(index, met, load_cache()),
        15 => {
            let (run, ballot) = (dice.entries(), dice.ballot());
            let snapshot = Snapshot::fold(&dice.entries()).unwrap();
            let kinds = [SnapshotType::None, SnapshotType::Complete(&snapshot), SnapshotType::Delta(&snapshot)];
            let part = LogSync { sync_idx: i, decided_snapshot: kinds[(j.0 % 3) as usize], suffix: &run, stopsign: None };
            both!(index, met, sync_log(ballot, j, Some(part).filter(|_| j.0 % 5 > 0)))
        }
        16 => {
            let run = dice.entries();
            let lent = Lent { entries: &run, ..Lent::default() };
            let ops = [Op::AppendOnPrefix(i), Op::SetDecidedIndex(j), Op::SetPromise(dice.ballot())];
            both!(index, met, write_atomically(lent, &ops[..(i.0 % 4) as usize]))
        }
        17 => both!(index, met, lookup(i.0 % SOME_KEYS)),
        18 => both!(index, met, read(i..j)),
        19 => both!(index, met, read(..=j)),
        20 => both!(index, met, read_decided_suffix(i)),
        21 => both!(index, met, get_entries(i, j)),
        22 => both!(index, met, get_suffix(i)),
        23 => {
            both!(index, met, get_accepted_idx());
            both!(index, met, get_decided_idx_without_stopsign());
            both!(index, met, stopsign_is_decided())
        }
        24 => both!(index, met, create_snapshot(i)),
        _ => both!(index, met, create_diff_snapshot(i)),
    }
}

impl Dice {
    /// An entry, now and then with a place that there is not.
    fn entry_of(&mut self, i: LogIndex) -> Entry {
        match self.next(20) {
            0 => Entry::put(i.0, BlockPlace(i.0.wrapping_neg())),
            _ => self.entry(),
        }
    }
}

/// An image read back is the log after a reload, whatever was in the words, and at another batch size too.
fn restored(index: &Index, dice: &mut Dice) {
    let image = index.to_image();
    let mut reloaded = index.clone();
    let accepted = reloaded.load_cache().unwrap();
    assert_eq!(Index::from_image(&image, index.record().batch_size).as_ref(), Ok(&reloaded));
    let (mut record, mut log, mut snapshot) = (*index.record(), index.log().to_vec(), index.snapshot_words().to_vec());
    let mut view = View { record: &mut record, log: &mut log, snapshot: &mut snapshot };
    assert_eq!(view.to_image().as_ref(), Ok(&image));
    let batch_size = dice.next(LARGEST_BATCH + 1);
    assert_eq!(view.read_image(&image, batch_size), Ok(accepted));
    assert_eq!(record, IndexRecord { batch_size, ..*reloaded.record() });
    assert_eq!((&log[..], &snapshot[..]), (reloaded.log(), reloaded.snapshot_words()));
}

#[test]
fn an_owned_index_answers_as_a_lent_one() {
    let mut dice = Dice(0x9e37_79b9_7f4a_7c15);
    let mut met = Met::new();
    for _ in 0..150 {
        let mut index = Index::fresh(dice.next(9)).unwrap();
        for made in 0..200 {
            turn(&mut index, &mut dice, &mut met);
            if made % 8 == 0 {
                restored(&index, &mut dice);
            }
        }
    }
    for number in 1..=11 {
        assert!(met.keys().any(|(_, met)| *met == number), "refusal {number} was not met");
    }
    let names = met.keys().map(|(name, _)| name).collect::<std::collections::BTreeSet<_>>();
    for name in &names {
        assert!(met.contains_key(&(**name, 0)), "{name} was never accepted");
    }
    assert_eq!(names.len(), 24);
}

#[test]
fn a_place_that_there_is_not_is_malformed() {
    let mut index = Index::fresh(0).unwrap();
    for place in [PLACES, u64::MAX - 1, u64::MAX] {
        assert_eq!(index.append(Entry::put(1, BlockPlace(place))).unwrap_err().number(), 11);
    }
}

#[test]
fn a_state_that_is_not_well_formed_becomes_no_index() {
    let index = Index::fresh(4).unwrap();
    let (log, snapshot) = (index.log().to_vec(), index.snapshot_words().to_vec());
    let spoilt: [fn(&mut IndexRecord); 4] = [
        |record| record.retained = ENTRIES + 1,
        |record| record.decided.0 = 1,
        |record| record.batch_size = LARGEST_BATCH + 1,
        |record| record.keys = 1,
    ];
    for spoil in spoilt {
        let mut record = *index.record();
        spoil(&mut record);
        assert_eq!(Index::judged(record, &log, &snapshot), None);
    }
    assert_eq!(Index::judged(*index.record(), &log[1..], &snapshot), None);
    assert_eq!(Index::judged(*index.record(), &log, &snapshot[..SNAPSHOT_WORDS - WIDTH]), None);
}

/// A log of two entries, the first of them trimmed.
fn holed() -> Index {
    let mut index = Index::fresh(0).unwrap();
    for key in [1, 2] {
        index.append(Entry::removed(key)).unwrap();
    }
    index.set_decided_idx(LogIndex(2)).unwrap();
    index.compact(Compaction::Trim, Upto::Index(LogIndex(1))).unwrap();
    index
}

#[test]
fn a_complete_sync_mends_a_hole() {
    let mut index = holed();
    let (empty, snapshot) = (Snapshot::default(), Snapshot::fold(&[Entry::removed(1), Entry::removed(2)]).unwrap());
    let sync = |decided_snapshot| LogSync { sync_idx: LogIndex(2), decided_snapshot, suffix: &[], stopsign: None };
    let delta = index.sync_log(Ballot::default(), LogIndex(2), Some(sync(SnapshotType::Delta(&empty))));
    assert_eq!(delta.unwrap_err().number(), 16);
    index.sync_log(Ballot::default(), LogIndex(2), Some(sync(SnapshotType::Complete(&snapshot)))).unwrap();
    index.append(Entry::put(1, BlockPlace(10))).unwrap();
    index.set_decided_idx(LogIndex(3)).unwrap();
    index.compact(Compaction::Snapshot, Upto::All).unwrap();
    assert_eq!(index.lookup(1).unwrap(), Found::Place(BlockPlace(10)));
}

#[test]
fn a_refusal_says_what_it_means() {
    let mut index = Index::fresh(0).unwrap();
    index.append(Entry::removed(1)).unwrap();
    let said: Vec<String> = [
        index.set_decided_idx(LogIndex(2)).unwrap_err(),
        index.compact(Compaction::Trim, Upto::Index(LogIndex(1))).unwrap_err(),
        index.append_stopsign(StopSign::default()).unwrap_err(),
        Index::fresh(LARGEST_BATCH + 1).unwrap_err(),
        holed().compact(Compaction::Snapshot, Upto::All).unwrap_err(),
    ]
    .map(|refusal| refusal.to_string())
    .to_vec();
    let due = [
        "refused 6: the decided index would be above the accepted index (accepted index: 1)",
        "refused 2: the index is above the decided index (decided index: 0)",
        "refused 11: an argument is malformed",
        "refused 11: an argument is malformed",
        "refused 16: the log has a hole: entries were trimmed, and no snapshot has them",
    ];
    assert_eq!(said, due);
}
