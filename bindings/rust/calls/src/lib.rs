//! Every call of the library made from a line of numbers, on any record and any words: docs/CALLS.md says what each line does.
use kotuseraw::plain::{self, Ballot, BlockPlace, Bound, IndexRecord, Lent, LogIndex, LogSync, Op, Ops, ShownSaid, StopSign, MOST_OPS};
use kotuseraw::{LOG_WORDS, SNAPSHOT_WORDS};

mod fields;
mod replies;
pub mod text;

/// How many words each area has.
pub const AREAS: [usize; 5] = [LOG_WORDS, SNAPSHOT_WORDS, LOG_WORDS, SNAPSHOT_WORDS, SNAPSHOT_WORDS];

/// How many numbers a line has at most.
const MOST: usize = 64;

/// What the program holds.
pub struct Calls {
    record: IndexRecord,
    areas: [Vec<u64>; 5],
    /// How many words of each area are lent.
    lent: [usize; 5],
    sign: StopSign,
    ballot: Ballot,
    ops: Ops,
}

/// The words that a call is lent.
struct Words<'a> {
    log: &'a mut [u64],
    snapshot: &'a mut [u64],
    entries: &'a [u64],
    second: &'a [u64],
    output: &'a mut [u64],
}

fn flag(n: u64) -> Option<bool> {
    (n < 2).then_some(n == 1)
}

/// A number that is stated as a kind, of which there are so many.
fn kind(n: u64, kinds: u64) -> Option<u64> {
    (n < kinds).then_some(n)
}

fn ballot(config_id: u64, n: u64, priority: u64, pid: u64) -> Option<Ballot> {
    Some(Ballot { config_id: u32::try_from(config_id).ok()?, n: u32::try_from(n).ok()?, priority: u32::try_from(priority).ok()?, pid })
}

fn bound(n: u64, index: u64) -> Option<Bound> {
    Some(Bound { kind: kind(n, 3)?, index: LogIndex(index) })
}

/// A read's answer, made up: nothing, a refusal, or a run of so many entries from one on.
fn made_up(answer: u64, first: u64, count: u64) -> Option<ShownSaid> {
    Some(ShownSaid {
        number: if kind(answer, 3)? == 1 { 12 } else { 0 },
        told: (answer == 2) as u64,
        first: first as usize,
        count: count as usize,
        ..ShownSaid::default()
    })
}

impl Default for Calls {
    fn default() -> Self {
        Calls {
            record: IndexRecord::default(),
            areas: AREAS.map(|words| vec![0; words]),
            lent: AREAS,
            sign: StopSign::default(),
            ballot: Ballot::default(),
            ops: Ops::default(),
        }
    }
}

impl Calls {
    pub fn record(&self) -> &IndexRecord {
        &self.record
    }

    /// All words of an area, lent or not.
    pub fn area(&self, area: usize) -> &[u64] {
        &self.areas[area]
    }

    pub fn lent(&self) -> [usize; 5] {
        self.lent
    }

    /// The stop-sign that is lent as an argument.
    pub fn sign(&self) -> &StopSign {
        &self.sign
    }

    /// Does what a line says. None where it is a bad line, which changes nothing.
    pub fn answer(&mut self, line: &[u64]) -> Option<Vec<u64>> {
        if line.len() > MOST {
            return None;
        }
        match line.first()? {
            0 | 1 => self.show(line),
            2..=9 => self.set(line).map(|()| vec![0]),
            10..=15 => self.cache(line),
            20..=23 => self.append(line),
            24..=29 => self.settle(line),
            30..=37 => self.read(line),
            40..=44 => self.compact(line),
            45..=49 => self.write(line),
            50..=57 => self.plain(line),
            60 | 61 => self.part(line),
            _ => None,
        }
    }

    fn lend(&mut self) -> (&mut IndexRecord, Words<'_>) {
        let [log, snapshot, entries, second, output] = &mut self.areas;
        let words = Words {
            log: &mut log[..self.lent[0]],
            snapshot: &mut snapshot[..self.lent[1]],
            entries: &entries[..self.lent[2]],
            second: &second[..self.lent[3]],
            output: &mut output[..self.lent[4]],
        };
        (&mut self.record, words)
    }

    fn show(&self, line: &[u64]) -> Option<Vec<u64>> {
        match *line {
            [0] => {
                let mut shown = fields::shown(&self.record);
                shown.extend(replies::area(&self.areas[0]));
                shown.extend(replies::area(&self.areas[1]));
                Some(shown)
            }
            [1, area] => Some(replies::area(self.areas.get(usize::try_from(area).ok()?)?)),
            _ => None,
        }
    }

    fn set(&mut self, line: &[u64]) -> Option<()> {
        match *line {
            [2, area, at, ref words @ ..] if !words.is_empty() => self.put(area, at, words)?,
            [3, area, n] => {
                let area = kind(area, 5)? as usize;
                self.lent[area] = Some(n as usize).filter(|n| *n <= AREAS[area])?;
            }
            [4, field, v] => fields::set(&mut self.record, field, v)?,
            [5, field, v] => fields::set_sign(&mut self.sign, field, v)?,
            [6, config_id, n, priority, pid] => self.ballot = ballot(config_id, n, priority, pid)?,
            [7, n, index, given] => self.add(kind(n, 9)?, index, flag(given)?)?,
            [8] => self.ops = Ops::default(),
            [9] => *self = Calls::default(),
            _ => return None,
        }
        Some(())
    }

    fn put(&mut self, area: u64, at: u64, words: &[u64]) -> Option<()> {
        let area = &mut self.areas[kind(area, 5)? as usize];
        let at = at as usize;
        area.get_mut(at..at.checked_add(words.len())?)?.copy_from_slice(words);
        Some(())
    }

    /// The list keeps as many operations as it has room for, and counts one more.
    fn add(&mut self, kind: u64, index: u64, given: bool) -> Option<()> {
        let at = Some(self.ops.count).filter(|count| *count <= MOST_OPS)?;
        if let Some(op) = self.ops.ops.get_mut(at) {
            *op = Op { kind, index: LogIndex(index), ballot: self.ballot, given };
        }
        self.ops.count += 1;
        Some(())
    }

    fn cache(&mut self, line: &[u64]) -> Option<Vec<u64>> {
        let (record, words) = self.lend();
        let (log, snapshot) = (words.log, words.snapshot);
        match *line {
            [10, size] => {
                let reply = plain::fresh(size, log, snapshot);
                if reply.said.number == 0 {
                    *record = reply.index;
                }
                Some(replies::settled(reply.said))
            }
            [11] => Some(replies::number(replies::kept(record, plain::load_cache(*record, log, snapshot)))),
            [12] => Some(replies::flag(plain::well_formed(*record, log, snapshot))),
            [13] => Some(replies::number(plain::get_accepted_idx(*record, log, snapshot))),
            [14] => Some(replies::number(plain::get_decided_idx_without_stopsign(*record, log, snapshot))),
            [15] => Some(replies::number(plain::stopsign_is_decided(*record, log, snapshot))),
            _ => None,
        }
    }

    fn append(&mut self, line: &[u64]) -> Option<Vec<u64>> {
        let (record, Words { log, snapshot, entries, .. }) = self.lend();
        let reply = match *line {
            [20, key, removed, place] => plain::append_entry_with_batching(*record, log, snapshot, key, flag(removed)?, BlockPlace(place)),
            [21] => plain::append_entries_with_batching(*record, log, snapshot, entries),
            [22] => plain::append_entries_and_get_accepted_idx(*record, log, snapshot, entries),
            [23] => plain::append_entries_without_batching(*record, log, snapshot, entries),
            _ => return None,
        };
        let said = replies::kept(record, reply);
        Some(match line[0] {
            22 => replies::maybe_number(said),
            23 => replies::number(said),
            _ => replies::maybe_flushed(said),
        })
    }

    fn settle(&mut self, line: &[u64]) -> Option<Vec<u64>> {
        let (sign, ballot) = (self.sign, self.ballot);
        let (record, Words { log, snapshot, .. }) = self.lend();
        let reply = match *line {
            [24] => plain::flush_batch(*record, log, snapshot),
            [25] => plain::flush_batch_and_get_entries(*record, log, snapshot),
            [26] => plain::append_stopsign(*record, log, snapshot, sign),
            [27, held] => plain::set_stopsign(*record, log, snapshot, flag(held)?, sign),
            [28] => plain::set_promise(*record, log, snapshot, ballot),
            [29, index] => plain::set_decided_idx(*record, log, snapshot, LogIndex(index)),
            _ => return None,
        };
        let said = replies::kept(record, reply);
        Some(match line[0] {
            24 | 27 => replies::number(said),
            25 | 26 => replies::maybe_flushed(said),
            _ => replies::settled(said),
        })
    }

    fn read(&mut self, line: &[u64]) -> Option<Vec<u64>> {
        let (record, Words { log, snapshot, entries, output, .. }) = self.lend();
        match *line {
            [30, a, from, b, to] => Some(replies::shown(plain::read(*record, log, snapshot, bound(a, from)?, bound(b, to)?))),
            [31, from] => Some(replies::shown(plain::read_decided_suffix(*record, log, snapshot, LogIndex(from)))),
            [32, from, to] => Some(replies::span(plain::get_entries(*record, log, snapshot, LogIndex(from), LogIndex(to)))),
            [33, from] => Some(replies::span(plain::get_suffix(*record, log, snapshot, LogIndex(from)))),
            [34, key] => Some(replies::word(plain::lookup(*record, log, snapshot, key))),
            [35, a, from, b, to] => {
                let (from, to) = (bound(a, from)?, bound(b, to)?);
                let shown = plain::read(*record, log, snapshot, from, to);
                let mut answer = replies::shown(shown);
                if shown.told == 1 {
                    let mut out = [0; AREAS[0]];
                    let used = plain::read_entries(*record, log, snapshot, from, to, &mut out);
                    answer.extend(replies::area(&out[..used]));
                }
                Some(answer)
            }
            [36] => Some(replies::settled(plain::lookup_many(*record, log, snapshot, entries, output))),
            [37, i] => Some(replies::word(plain::reply_at(output, i as usize))),
            _ => None,
        }
    }

    fn compact(&mut self, line: &[u64]) -> Option<Vec<u64>> {
        let (record, Words { log, snapshot, output, .. }) = self.lend();
        let reply = match *line {
            [40, folds, index] => plain::compact(*record, log, snapshot, flag(folds)?, true, LogIndex(index)),
            [40, folds] => plain::compact(*record, log, snapshot, flag(folds)?, false, LogIndex(0)),
            [43, index] => return Some(replies::number(plain::create_snapshot(*record, log, snapshot, LogIndex(index), output))),
            [44, from] => return Some(replies::diff(plain::create_diff_snapshot(*record, log, snapshot, LogIndex(from), output))),
            _ => return None,
        };
        Some(replies::settled(replies::kept(record, reply)))
    }

    fn write(&mut self, line: &[u64]) -> Option<Vec<u64>> {
        let (sign, round, ops) = (self.sign, self.ballot, self.ops);
        let (record, Words { log, snapshot, entries, second, .. }) = self.lend();
        let lent = |snapshot_lent, keys, stop_lent| {
            Some(Lent { snapshot_lent: flag(snapshot_lent)?, keys: keys as usize, stop_lent: flag(stop_lent)?, stop: sign })
        };
        match *line {
            [45, held, decided, index, n, keys, stop] => {
                let part =
                    LogSync { sync_idx: LogIndex(index), kind: kind(n, 3)?, keys: keys as usize, stop_held: flag(stop)?, stopsign: sign };
                let reply = plain::sync_log(*record, log, snapshot, round, LogIndex(decided), flag(held)?, part, second, entries);
                Some(replies::number(replies::kept(record, reply)))
            }
            [46, held, keys, stop] => {
                let reply = plain::write_list(*record, log, snapshot, entries, second, lent(held, keys, stop)?, ops);
                Some(replies::settled(replies::kept(record, reply)))
            }
            [47, held, keys, stop] => {
                let reply = plain::write_atomically(*record, log, snapshot, entries, second, lent(held, keys, stop)?, ops);
                Some(replies::settled(replies::kept(record, reply)))
            }
            [48, index] => Some(replies::settled(plain::in_place_set_decided_idx(record, log, snapshot, LogIndex(index)))),
            [49, index] => Some(replies::settled(plain::in_place_trim(record, log, snapshot, true, LogIndex(index)))),
            [49] => Some(replies::settled(plain::in_place_trim(record, log, snapshot, false, LogIndex(0)))),
            _ => None,
        }
    }

    fn plain(&mut self, line: &[u64]) -> Option<Vec<u64>> {
        let (sign, held) = (self.sign, self.ballot);
        let (_, Words { snapshot, entries, second, output, .. }) = self.lend();
        Some(match *line {
            [50] => replies::number(plain::fold(entries, output)),
            [51, n, m] => replies::number(plain::merge(snapshot, n as usize, second, m as usize, output)),
            [52, n, key] => replies::word(plain::find(second, n as usize, key)),
            [53, n] => replies::flag(plain::snapshot_formed(second, n as usize)),
            [54] => replies::flag(plain::entries_formed(entries)),
            [55, word] => replies::flag(plain::place_formed(word)),
            [56] => replies::flag(plain::sign_formed(sign)),
            [57, config_id, n, priority, pid] => {
                let other = ballot(config_id, n, priority, pid)?;
                vec![1, plain::ballot_cmp(held, other), plain::ballot_eq(held, other) as u64]
            }
            _ => return None,
        })
    }

    fn part(&mut self, line: &[u64]) -> Option<Vec<u64>> {
        let (_, Words { log, .. }) = self.lend();
        let mut out = [0; AREAS[0]];
        let used = match *line {
            [60, first, count] => plain::entries_of(log, first as usize, count as usize, &mut out),
            [61, answer, first, count] => plain::entries_shown(log, made_up(answer, first, count)?, &mut out),
            _ => return None,
        };
        let mut answer = vec![1];
        answer.extend(replies::area(&out[..used]));
        Some(answer)
    }
}
