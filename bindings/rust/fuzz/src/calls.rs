//! Every function of `kotuseraw::plain`: what it may be answered, what it may change, and how it is made.
use crate::check::{hold, Answer, Turn};
use crate::dice::Dice;
use crate::form::{self, UNKNOWN};
use crate::images;
use crate::states::Case;
use kotuseraw::entry::{entries, words, ENTRIES, KEYS, REMOVED};
use kotuseraw::plain::{self, BlockPlace, Bound, IndexRecord, Lent, LogSync, Ops, Reply, Said, ShownSaid};
use kotuseraw::plain::{LARGEST_BATCH, MOST_ASKED, REPLY_WIDTH};
use kotuseraw::Entry;

/// What an accepted call may change.
#[derive(Clone, Copy)]
pub enum Changes {
    Nothing,
    Output,
    Record,
    /// The record and the log.
    Log,
    /// The record, the log and the snapshot.
    Words,
}

type Make = fn(&mut Turn, &Case, &mut Dice) -> Result<Answer, String>;

pub struct Call {
    pub name: &'static str,
    /// How often it is made.
    pub weight: u64,
    /// The refusals that documents 01 and 02 give it, and 0: a long run is to meet them all.
    pub answers: &'static [u64],
    pub changes: Changes,
    /// Whether it refuses with 12 for what it would leave too.
    pub lists: bool,
    pub make: Make,
}

impl Call {
    const fn of(name: &'static str, weight: u64, answers: &'static [u64], changes: Changes, make: Make) -> Self {
        Call { name, weight, answers, changes, lists: false, make }
    }

    /// Whether it is a call on a state, which must be well formed.
    pub fn on_state(&self) -> bool {
        self.answers.contains(&12)
    }
}

/// A refusal says its number and what it carries, and nothing else.
fn plainly(said: Said) -> Result<u64, String> {
    let more = (said.told, said.first, said.second);
    hold(said.number == 0 || more == (0, 0, 0), format_args!("a refusal tells {more:?}"))?;
    Ok(said.number)
}

pub fn said(said: Said) -> Result<Answer, String> {
    Ok(Answer { number: plainly(said)?, wrote: None })
}

pub fn reply(turn: &mut Turn, reply: Reply) -> Result<Answer, String> {
    turn.record = reply.index;
    said(reply.said)
}

/// A snapshot of so many keys in the output.
fn wrote(said: Said, keys: u64) -> Result<Answer, String> {
    Ok(Answer { number: plainly(said)?, wrote: Some(keys as usize) })
}

/// An answer of a test of form, beside that of another reading.
fn tested(is: bool, due: bool) -> Result<Answer, String> {
    hold(is == due, format_args!("the library says {is}"))?;
    Ok(Answer { number: 0, wrote: None })
}

/// A request with a kind that there is not is refused.
fn known(all: bool, answer: Result<Answer, String>) -> Result<Answer, String> {
    let answer = answer?;
    hold(all || answer.number == 11 || answer.number == 12, "a kind that there is not was accepted")?;
    Ok(answer)
}

/// Entries that are shown are entries of the log.
fn part(record: &IndexRecord, first: usize, count: usize) -> Result<(), String> {
    let inside = first.checked_add(count).is_some_and(|end| end <= record.retained);
    hold(inside, format_args!("{count} entries from {first} on are shown"))
}

fn span(record: IndexRecord, of: Said) -> Result<Answer, String> {
    if of.number == 0 {
        part(&record, of.first as usize, of.second as usize)?;
    }
    said(of)
}

fn shown(record: IndexRecord, of: ShownSaid) -> Result<Answer, String> {
    if of.told == 1 {
        part(&record, of.first, of.count)?;
        hold(of.marker < 3 && of.decided <= of.count && (of.stop || !of.stop_decided), format_args!("it says {of:?}"))?;
    }
    Ok(Answer { number: of.number, wrote: None })
}

/// What is told of a key is what the last of its entries says.
fn found<'a>(of: Said, key: u64, held: impl DoubleEndedIterator<Item = &'a Entry>) -> Result<Answer, String> {
    let last = held.rev().find(|entry| entry.key() == key);
    let due = match last.map(Entry::place) {
        None => (0, 0),
        Some(Some(place)) => (1, place.0),
        Some(None) => (2, 0),
    };
    hold(of.number != 0 || (of.told, of.first) == due, format_args!("of {key} {due:?} is due: it says {of:?}"))?;
    said(of)
}

fn find(turn: &mut Turn, case: &Case, dice: &mut Dice) -> Result<Answer, String> {
    let key = dice.key();
    let held = entries(&case.second).get(..case.keys).unwrap_or_default();
    found(plain::find(turn.second.words(), case.keys, key), key, held.iter())
}

/// What a lookup goes by: the snapshot's entries, and then those that are decided.
fn known_entries(case: &Case) -> impl DoubleEndedIterator<Item = &Entry> {
    let record = &case.state.record;
    let held = entries(&case.state.snapshot).get(..record.keys).unwrap_or_default();
    // A stop-sign that is decided is no entry.
    let decided = record.decided.0.wrapping_sub(record.compacted.0).min(record.retained as u64);
    let log = entries(&case.state.log).get(..decided as usize).unwrap_or_default();
    held.iter().chain(log)
}

fn lookup(turn: &mut Turn, case: &Case, dice: &mut Dice) -> Result<Answer, String> {
    let key = dice.key();
    found(plain::lookup(turn.record, turn.log.words(), turn.snapshot.words(), key), key, known_entries(case))
}

/// Up to some keys more than may be asked for, into all of the output or about as much as they need. What is past the replies stays.
fn lookup_many(turn: &mut Turn, case: &Case, dice: &mut Dice) -> Result<Answer, String> {
    let some = dice.below(MOST_ASKED as u64 + 3) as usize;
    let asked = dice.pick(&[0, 1, some, some, MOST_ASKED, MOST_ASKED + 1]);
    let keys: Vec<u64> = (0..asked).map(|_| dice.key()).collect();
    let need = asked * REPLY_WIDTH;
    let lent = dice.pick(&[turn.out.words().len(), need, need.saturating_sub(1)]).min(turn.out.words().len());
    let out = &mut turn.out.words_mut()[..lent];
    let made = plain::lookup_many(turn.record, turn.log.words(), turn.snapshot.words(), &keys, out);
    if made.number == 0 {
        for (i, key) in keys.iter().enumerate() {
            found(plain::reply_at(&turn.out.words()[..lent], i), *key, known_entries(case))?;
        }
        hold(turn.out.words()[need..] == case.out[need..], "a word past the replies changed")?;
    }
    let fits = asked <= MOST_ASKED && need <= lent;
    hold(fits || made.number != 0, format_args!("{asked} keys were answered in {lent} words"))?;
    hold(!fits || made.number != 11, format_args!("{asked} keys were refused with {lent} words"))?;
    said(made)
}

/// A reply of any words.
fn reply_at(turn: &mut Turn, _: &Case, dice: &mut Dice) -> Result<Answer, String> {
    let words = turn.second.words();
    let i = if dice.one_in(4) { dice.word() } else { dice.below(words.len() as u64 + 2) } as usize;
    let due = match words.get(i) {
        None | Some(&UNKNOWN) => (0, 0),
        Some(&REMOVED) => (2, 0),
        Some(place) => (1, *place),
    };
    let of = plain::reply_at(words, i);
    hold((of.number, of.told, of.first) == (0, due.0, due.1), format_args!("reply {i} is {of:?}"))?;
    said(of)
}

/// So many words said to be copied: those due, at the front of the output where they fit, which is else as it was.
fn copied(turn: &Turn, case: &Case, words: usize, due: &[u64]) -> Result<Answer, String> {
    let out = turn.out.words();
    let fits = if due.len() <= out.len() { due.len() } else { 0 };
    let same = out[..fits] == due[..fits] && out[fits..] == case.out[fits..];
    hold(words == due.len() && same, format_args!("{words} words were copied, {} are due", due.len()))?;
    Ok(Answer { number: 0, wrote: None })
}

/// The words of a part of the log, none where it is not wholly in it.
fn log_part(case: &Case, first: usize, count: usize) -> &[u64] {
    let end = first.checked_add(count);
    words(end.and_then(|end| entries(&case.state.log).get(first..end)).unwrap_or_default())
}

fn sync(turn: &mut Turn, case: &Case, dice: &mut Dice, held: bool, kind: u64) -> Result<Answer, String> {
    let record = turn.record;
    let sync_idx = dice.index(&record);
    let decided = if dice.one_in(2) { sync_idx } else { dice.index(&record) };
    let log_sync = LogSync { sync_idx, kind, keys: case.keys, stop_held: dice.one_in(6), stopsign: dice.sign() };
    let round = dice.ballot();
    let (log, snapshot) = (turn.log.words_mut(), turn.snapshot.words_mut());
    let made = plain::sync_log(record, log, snapshot, round, decided, held, log_sync, turn.second.words(), turn.entries.words());
    known(!held || kind < 3, reply(turn, made))
}

type Write = fn(IndexRecord, &mut [u64], &mut [u64], &[u64], &[u64], Lent, Ops) -> Reply;

fn list(write: Write, turn: &mut Turn, case: &Case, dice: &mut Dice) -> Result<Answer, String> {
    let record = turn.record;
    let ops = dice.ops(&record);
    let lent = Lent { snapshot_lent: dice.one_in(2), keys: case.keys, stop_lent: dice.one_in(2), stop: dice.sign() };
    let (log, snapshot) = (turn.log.words_mut(), turn.snapshot.words_mut());
    let made = write(record, log, snapshot, turn.entries.words(), turn.second.words(), lent, ops);
    known(ops.ops.iter().take(ops.count).all(|op| op.kind < 9), reply(turn, made))
}

fn bounds(record: &IndexRecord, dice: &mut Dice) -> (Bound, Bound) {
    (dice.bound(record), dice.bound(record))
}

fn fresh(turn: &mut Turn, _: &Case, dice: &mut Dice) -> Result<Answer, String> {
    let size = if dice.one_in(4) { dice.word() } else { dice.below(LARGEST_BATCH + 2) };
    let made = plain::fresh(size, turn.log.words_mut(), turn.snapshot.words_mut());
    let batch_size = if made.said.number == 0 { size } else { 0 };
    hold(made.index == IndexRecord { batch_size, ..IndexRecord::default() }, format_args!("the record is {:?}", made.index))?;
    if made.said.number != 0 {
        return said(made.said);
    }
    let zero = |words: &[u64]| words.iter().all(|word| *word == 0);
    let clean = size <= LARGEST_BATCH && zero(turn.log.words()) && zero(turn.snapshot.words());
    hold(clean, format_args!("it left a word, or a batch size above {LARGEST_BATCH}"))?;
    hold(plain::well_formed(made.index, turn.log.words(), turn.snapshot.words()), "it is not well formed")?;
    reply(turn, made)
}

fn ballots(_: &mut Turn, _: &Case, dice: &mut Dice) -> Result<Answer, String> {
    let (a, b) = (dice.ballot(), dice.ballot());
    let order = (a.n, a.priority, a.pid).cmp(&(b.n, b.priority, b.pid));
    hold(plain::ballot_cmp(a, b) == (order as i64 + 1) as u64, "the order is another")?;
    tested(plain::ballot_eq(a, b), a == b)
}

fn entry(turn: &mut Turn, _: &Case, dice: &mut Dice) -> Result<Answer, String> {
    let place = if dice.one_in(20) { dice.word() } else { dice.below(1000) };
    let (key, removed) = (dice.key(), dice.one_in(4));
    let made = plain::append_entry_with_batching(turn.record, turn.log.words_mut(), turn.snapshot.words(), key, removed, BlockPlace(place));
    reply(turn, made)
}

fn stop(turn: &mut Turn, _: &Case, dice: &mut Dice) -> Result<Answer, String> {
    let (held, sign) = (dice.one_in(2), dice.sign());
    let made = plain::set_stopsign(turn.record, turn.log.words(), turn.snapshot.words(), held, sign);
    reply(turn, made)
}

fn decide(turn: &mut Turn, _: &Case, dice: &mut Dice) -> Result<Answer, String> {
    let idx = dice.index(&turn.record);
    let made = plain::set_decided_idx(turn.record, turn.log.words(), turn.snapshot.words(), idx);
    reply(turn, made)
}

fn decide_in_place(turn: &mut Turn, _: &Case, dice: &mut Dice) -> Result<Answer, String> {
    let idx = dice.index(&turn.record);
    said(plain::in_place_set_decided_idx(&mut turn.record, turn.log.words(), turn.snapshot.words(), idx))
}

fn compact(turn: &mut Turn, dice: &mut Dice, folds: bool) -> Result<Answer, String> {
    let (given, idx) = (!dice.one_in(3), dice.index(&turn.record));
    let made = plain::compact(turn.record, turn.log.words_mut(), turn.snapshot.words_mut(), folds, given, idx);
    reply(turn, made)
}

fn trim_in_place(turn: &mut Turn, _: &Case, dice: &mut Dice) -> Result<Answer, String> {
    let (given, idx) = (!dice.one_in(3), dice.index(&turn.record));
    said(plain::in_place_trim(&mut turn.record, turn.log.words_mut(), turn.snapshot.words_mut(), given, idx))
}

fn create(turn: &mut Turn, _: &Case, dice: &mut Dice) -> Result<Answer, String> {
    let idx = dice.index(&turn.record);
    let made = plain::create_snapshot(turn.record, turn.log.words(), turn.snapshot.words(), idx, turn.out.words_mut());
    wrote(made, made.first)
}

/// One that gives nothing leaves the output as it was.
fn diff(turn: &mut Turn, case: &Case, dice: &mut Dice) -> Result<Answer, String> {
    let from = dice.index(&turn.record);
    let made = plain::create_diff_snapshot(turn.record, turn.log.words(), turn.snapshot.words(), from, turn.out.words_mut());
    match made.told {
        2 | 3 => wrote(made, made.first),
        _ => {
            hold(turn.out.words() == case.out, "a diff that gives nothing changed the output")?;
            said(made)
        }
    }
}

fn entries_of(turn: &mut Turn, case: &Case, dice: &mut Dice) -> Result<Answer, String> {
    let (first, count) = shown_part(&turn.record, dice);
    let words = plain::entries_of(turn.log.words(), first, count, turn.out.words_mut());
    copied(turn, case, words, log_part(case, first, count))
}

fn entries_shown(turn: &mut Turn, case: &Case, dice: &mut Dice) -> Result<Answer, String> {
    let (first, count) = shown_part(&turn.record, dice);
    let of = ShownSaid { number: dice.below(13), told: dice.below(3), first, count, ..ShownSaid::default() };
    let words = plain::entries_shown(turn.log.words(), of, turn.out.words_mut());
    copied(turn, case, words, if of.told == 1 { log_part(case, first, count) } else { &[] })
}

/// A part of the log, mostly in it.
fn shown_part(record: &IndexRecord, dice: &mut Dice) -> (usize, usize) {
    let mut number = || match dice.below(3) {
        0 => dice.below((record.retained as u64).saturating_add(2).max(1)),
        1 => dice.pick(&[0, 1, KEYS - 1, KEYS, ENTRIES - 1, ENTRIES, ENTRIES + 1]) as u64,
        _ => dice.word(),
    };
    (number() as usize, number() as usize)
}

fn read_entries(turn: &mut Turn, case: &Case, dice: &mut Dice) -> Result<Answer, String> {
    let (from, to) = bounds(&turn.record, dice);
    let of = plain::read(turn.record, turn.log.words(), turn.snapshot.words(), from, to);
    let words = plain::read_entries(turn.record, turn.log.words(), turn.snapshot.words(), from, to, turn.out.words_mut());
    copied(turn, case, words, if of.told == 1 { log_part(case, of.first, of.count) } else { &[] })
}

pub const ALL: &[Call] = &[
    Call::of("ballot_cmp and ballot_eq", 1, &[0], Changes::Nothing, ballots),
    Call::of("place_formed", 1, &[0], Changes::Nothing, |_, _, d| {
        let word = d.word();
        tested(plain::place_formed(word), form::place_formed(word))
    }),
    Call::of("entries_formed", 1, &[0], Changes::Nothing, |t, c, _| {
        tested(plain::entries_formed(t.entries.words()), form::entries_formed(&c.entries))
    }),
    Call::of("sign_formed", 1, &[0], Changes::Nothing, |_, _, d| {
        let sign = d.sign();
        tested(plain::sign_formed(sign), form::sign_formed(&sign))
    }),
    Call::of("snapshot_formed", 1, &[0], Changes::Nothing, |t, c, _| {
        tested(plain::snapshot_formed(t.second.words(), c.keys), form::snapshot_formed(&c.second, c.keys))
    }),
    Call::of("fold", 2, &[0, 11, 8], Changes::Output, |t, _, _| {
        let made = plain::fold(t.entries.words(), t.out.words_mut());
        wrote(made, made.first)
    }),
    Call::of("merge", 2, &[0, 11, 8], Changes::Output, |t, c, _| {
        let (a, n) = (t.snapshot.words(), t.record.keys);
        let made = plain::merge(a, n, t.second.words(), c.keys, t.out.words_mut());
        wrote(made, made.first)
    }),
    Call::of("find", 1, &[0, 11], Changes::Nothing, find),
    Call::of("create_snapshot", 3, &[0, 12, 11, 3, 2, 16, 8], Changes::Output, create),
    Call::of("create_diff_snapshot", 3, &[0, 12, 11, 16, 8], Changes::Output, diff),
    Call::of("well_formed", 2, &[0], Changes::Nothing, |t, c, _| {
        tested(plain::well_formed(t.record, t.log.words(), t.snapshot.words()), form::well_formed(&c.state))
    }),
    Call::of("fresh", 1, &[0, 11], Changes::Words, fresh),
    Call::of("load_cache", 1, &[0, 12], Changes::Log, |t, _, _| {
        let made = plain::load_cache(t.record, t.log.words_mut(), t.snapshot.words());
        reply(t, made)
    }),
    Call::of("get_accepted_idx", 1, &[0, 12], Changes::Nothing, |t, _, _| {
        said(plain::get_accepted_idx(t.record, t.log.words(), t.snapshot.words()))
    }),
    Call::of("get_decided_idx_without_stopsign", 1, &[0, 12], Changes::Nothing, |t, _, _| {
        said(plain::get_decided_idx_without_stopsign(t.record, t.log.words(), t.snapshot.words()))
    }),
    Call::of("stopsign_is_decided", 1, &[0, 12], Changes::Nothing, |t, _, _| {
        said(plain::stopsign_is_decided(t.record, t.log.words(), t.snapshot.words()))
    }),
    Call::of("write_image", 3, &[0, 12, 13], Changes::Nothing, images::write),
    Call::of("read_image", 3, &[0, 11, 14, 15], Changes::Words, images::read),
    Call::of("append_entry_with_batching", 12, &[0, 12, 11, 4, 9, 1], Changes::Log, entry),
    Call::of("append_entries_with_batching", 8, &[0, 12, 11, 4, 9, 1], Changes::Log, |t, _, _| {
        let made = plain::append_entries_with_batching(t.record, t.log.words_mut(), t.snapshot.words(), t.entries.words());
        reply(t, made)
    }),
    Call::of("append_entries_and_get_accepted_idx", 4, &[0, 12, 11, 4, 9, 1], Changes::Log, |t, _, _| {
        let made = plain::append_entries_and_get_accepted_idx(t.record, t.log.words_mut(), t.snapshot.words(), t.entries.words());
        reply(t, made)
    }),
    Call::of("append_entries_without_batching", 6, &[0, 12, 11, 4, 9, 1], Changes::Log, |t, _, _| {
        let made = plain::append_entries_without_batching(t.record, t.log.words_mut(), t.snapshot.words(), t.entries.words());
        reply(t, made)
    }),
    Call::of("flush_batch", 2, &[0, 12], Changes::Record, |t, _, _| {
        let made = plain::flush_batch(t.record, t.log.words(), t.snapshot.words());
        reply(t, made)
    }),
    Call::of("flush_batch_and_get_entries", 2, &[0, 12], Changes::Record, |t, _, _| {
        let made = plain::flush_batch_and_get_entries(t.record, t.log.words(), t.snapshot.words());
        reply(t, made)
    }),
    Call::of("append_stopsign", 1, &[0, 12, 11, 4, 9], Changes::Record, |t, _, d| {
        let made = plain::append_stopsign(t.record, t.log.words(), t.snapshot.words(), d.sign());
        reply(t, made)
    }),
    Call::of("set_stopsign", 2, &[0, 12, 11, 4, 10, 9], Changes::Record, stop),
    Call::of("set_promise", 1, &[0, 12], Changes::Record, |t, _, d| {
        let made = plain::set_promise(t.record, t.log.words(), t.snapshot.words(), d.ballot());
        reply(t, made)
    }),
    Call::of("set_decided_idx", 10, &[0, 12, 5, 6], Changes::Record, decide),
    Call::of("in_place_set_decided_idx", 5, &[0, 12, 5, 6], Changes::Record, decide_in_place),
    Call::of("compact, trim", 2, &[0, 12, 2], Changes::Words, |t, _, d| compact(t, d, false)),
    Call::of("in_place_trim", 2, &[0, 12, 2], Changes::Words, trim_in_place),
    Call::of("compact, snapshot", 4, &[0, 12, 2, 16, 8], Changes::Words, |t, _, d| compact(t, d, true)),
    Call::of("sync_log without a log part", 1, &[0, 12, 11, 6], Changes::Words, |t, c, d| {
        let kind = d.word();
        sync(t, c, d, false, kind)
    }),
    Call::of("sync_log, plain", 2, &[0, 12, 11, 4, 5, 7, 10, 9, 1, 6], Changes::Words, |t, c, d| sync(t, c, d, true, 0)),
    Call::of("sync_log, complete", 2, &[0, 12, 11, 4, 5, 10, 9, 1, 6, 2], Changes::Words, |t, c, d| sync(t, c, d, true, 1)),
    Call::of("sync_log, delta", 2, &[0, 12, 11, 4, 5, 10, 9, 1, 6, 2, 16, 8], Changes::Words, |t, c, d| sync(t, c, d, true, 2)),
    Call::of("sync_log, of no known kind", 1, &[12, 11], Changes::Words, |t, c, d| {
        let kind = d.unknown();
        sync(t, c, d, true, kind)
    }),
    Call { lists: true, ..Call::of("write_list", 3, &[0, 12, 11, 7, 1, 9], Changes::Words, |t, c, d| list(plain::write_list, t, c, d)) },
    Call {
        lists: true,
        ..Call::of("write_atomically", 3, &[0, 12, 11, 7, 1, 9], Changes::Words, |t, c, d| list(plain::write_atomically, t, c, d))
    },
    Call::of("lookup", 2, &[0, 12], Changes::Nothing, lookup),
    Call::of("lookup_many", 3, &[0, 12, 11], Changes::Output, lookup_many),
    Call::of("reply_at", 1, &[0], Changes::Nothing, reply_at),
    Call::of("read", 5, &[0, 12, 11], Changes::Nothing, |t, _, d| {
        let (from, to) = bounds(&t.record, d);
        let answer = shown(t.record, plain::read(t.record, t.log.words(), t.snapshot.words(), from, to));
        known(from.kind < 3 && to.kind < 3, answer)
    }),
    Call::of("read_decided_suffix", 2, &[0, 12], Changes::Nothing, |t, _, d| {
        let from = d.index(&t.record);
        shown(t.record, plain::read_decided_suffix(t.record, t.log.words(), t.snapshot.words(), from))
    }),
    Call::of("get_entries", 2, &[0, 12], Changes::Nothing, |t, _, d| {
        let (from, to) = (d.index(&t.record), d.index(&t.record));
        span(t.record, plain::get_entries(t.record, t.log.words(), t.snapshot.words(), from, to))
    }),
    Call::of("get_suffix", 1, &[0, 12], Changes::Nothing, |t, _, d| {
        let from = d.index(&t.record);
        span(t.record, plain::get_suffix(t.record, t.log.words(), t.snapshot.words(), from))
    }),
    Call::of("entries_of", 2, &[0], Changes::Output, entries_of),
    Call::of("entries_shown", 2, &[0], Changes::Output, entries_shown),
    Call::of("read_entries", 2, &[0], Changes::Output, read_entries),
];
