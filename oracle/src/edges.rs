//! Boundaries on purpose: batch sizes, full logs and snapshots, indexes around those held and near 2^32 and 2^64, stop-signs held
//! and decided, every relation of compacted to decided; and states that are not well formed.
use crate::backend::Change;
use crate::ballot_leader_election::Ballot;
use crate::call::{Call, Form, Kind, List, Op, OpKind, Part};
use crate::entry::{at, place_at, replies_at, words, LOG_WORDS, REMOVED, SNAPSHOT_WORDS};
use crate::limits::{
    ENTRIES, KEYS, LARGEST, LARGEST_BATCH, METADATA, MOST_ASKED, MOST_OPS, NODES, PLACES,
};
use crate::runner::Runner;
use crate::state::{largest, LentSnapshot, Sign, State};
use std::collections::BTreeSet;
use std::ops::Bound;

const SIZES: [u64; 5] = [0, 1, 2, LARGEST_BATCH - 1, LARGEST_BATCH];

/// The most entries that may wait in a batch.
const MOST_BATCHED: u64 = LARGEST_BATCH - 1;

/// More keys than a snapshot has room for.
const TOO_MANY_KEYS: u64 = KEYS + 88;

fn put(key: u64, place: u64) -> Change {
    let place = Some(place);
    Change { key, place }
}

/// So many entries with so many different keys; every third is a removal.
fn entries(n: u64, keys: u64) -> Vec<Change> {
    (0..n)
        .map(|i| Change {
            key: i % keys.max(1),
            place: (i % 3 != 2).then_some(i),
        })
        .collect()
}

/// A snapshot of so many keys from one on.
fn snapshot(from: u64, n: u64) -> Vec<Change> {
    (from..from + n)
        .map(|key| Change {
            key,
            place: (key % 2 == 0).then_some(key),
        })
        .collect()
}

fn sign() -> Sign {
    Sign::of(u32::MAX, &[3; NODES], Some(&[255; METADATA]))
}

fn round() -> Ballot {
    Ballot::with(u32::MAX, u32::MAX, u32::MAX, u64::MAX)
}

/// Well-formed states with few entries.
fn few() -> Vec<State> {
    let mut states = vec![];
    for size in SIZES {
        for batched in BTreeSet::from([0, 1, size.saturating_sub(1)]) {
            for retained in [0, 1, 3] {
                for compacted in [
                    0,
                    1,
                    LARGEST - retained - batched,
                    LARGEST - 2 - retained - batched,
                ] {
                    for (held, stop) in [(0, false), (1, false), (2, false), (0, true), (1, true)] {
                        let all = entries(retained + batched, 2);
                        let mut s = State::fresh(size).with_entries(&all, retained as usize);
                        s.compacted = compacted;
                        if held > 0 {
                            s = s.with_snapshot(&snapshot(0, held - 1));
                        }
                        if stop {
                            s = s.with_stop(sign());
                        }
                        for decided in compacted..=s.accepted() as u64 {
                            states.push(State {
                                decided,
                                ..s.clone()
                            });
                        }
                    }
                }
            }
        }
    }
    states.retain(State::well_formed);
    states
}

/// Well-formed states that are full, or nearly: of entries, of keys.
fn full() -> Vec<State> {
    let mut states = vec![];
    for (size, batched) in [(0, 0), (LARGEST_BATCH, 0), (LARGEST_BATCH, MOST_BATCHED)] {
        for (retained, keys) in [
            (ENTRIES - 2, 1),
            (ENTRIES - 1, TOO_MANY_KEYS),
            (ENTRIES, KEYS),
            (KEYS + 1, KEYS + 1),
            (KEYS, KEYS),
            (KEYS - 1, KEYS - 1),
        ] {
            if retained + batched > ENTRIES {
                continue;
            }
            let all = entries(retained + batched, keys);
            let s = State::fresh(size).with_entries(&all, retained as usize);
            for decided in [0, 1, KEYS - 1, KEYS, KEYS + 1, retained] {
                if decided > retained {
                    continue;
                }
                let mut held = State {
                    decided,
                    ..s.clone()
                };
                states.push(held.clone());
                if decided == retained || decided == 1 {
                    for (from, n) in [(0, KEYS - 1), (0, KEYS), (1000, KEYS - 1), (1000, KEYS)] {
                        held = held.with_snapshot(&snapshot(from, n));
                        states.push(held.clone());
                    }
                }
            }
        }
    }
    assert!(states.iter().all(State::well_formed));
    states
}

fn lists(s: &State, near: &[u64]) -> Vec<Call> {
    let list = |ops: &[(OpKind, u64)]| List {
        ops: ops
            .iter()
            .map(|(kind, index)| Op {
                kind: *kind,
                index: *index,
                given: true,
                ballot: round(),
            })
            .collect(),
        entries: words(&entries(2, 2)),
        snapshot_lent: true,
        snapshot: LentSnapshot::of(&snapshot(0, 1)),
        stop: Some(sign()),
    };
    let mut lists = vec![
        list(&[]),
        list(&[(OpKind::SetPromise, 0); MOST_OPS]),
        list(&[(OpKind::SetPromise, 0); MOST_OPS + 1]),
        list(&[(OpKind::AppendEntries, 0); 2]),
        // the run's end may pass 64 bits on the way
        list(&[
            (OpKind::Trim, u64::MAX),
            (OpKind::AppendEntries, 0),
            (OpKind::AppendOnPrefix, u64::MAX),
            (OpKind::SetCompactedIdx, u64::MAX),
        ]),
    ];
    for i in near {
        lists.extend([
            list(&[(OpKind::AppendOnPrefix, *i)]),
            list(&[(OpKind::Trim, *i), (OpKind::SetCompactedIdx, *i)]),
            list(&[(OpKind::SetCompactedIdx, *i)]),
            list(&[(OpKind::SetDecidedIndex, *i)]),
            list(&[
                (OpKind::Trim, *i),
                (OpKind::SetCompactedIdx, *i),
                (OpKind::SetDecidedIndex, *i),
                (OpKind::SetSnapshot, 0),
            ]),
        ]);
    }
    let end = s.end() as u64;
    lists.push(list(&[
        (OpKind::AppendOnPrefix, end),
        (OpKind::SetStopsign, 0),
    ]));
    lists
        .into_iter()
        .flat_map(|l| {
            [
                Call::Write(Form::Covered, l.clone()),
                Call::Write(Form::ByHand, l),
            ]
        })
        .collect()
}

fn syncs(s: &State, near: &[u64]) -> Vec<Call> {
    let mut calls = vec![];
    for idx in near {
        for kind in [Kind::Plain, Kind::Complete, Kind::Delta] {
            for (suffix, stop) in [(0, None), (1, None), (0, Some(sign()))] {
                let part = Part {
                    held: true,
                    idx: *idx,
                    kind,
                    snapshot: LentSnapshot::of(&snapshot(0, 1)),
                    suffix: words(&entries(suffix, 1)),
                    stop,
                };
                for decided in [s.decided, *idx, idx.saturating_add(suffix + 1)] {
                    calls.push(Call::Sync(round(), decided, part.clone()));
                }
            }
        }
    }
    calls
}

/// The calls that take an index, at each of those near.
fn indexed(near: &[u64]) -> Vec<Call> {
    let mut calls = vec![];
    for (k, i) in near.iter().enumerate() {
        calls.extend([
            Call::Decide(Form::Covered, *i),
            Call::Decide(Form::ByHand, *i),
            Call::Trim(Form::Covered, Some(*i)),
            Call::Trim(Form::ByHand, Some(*i)),
            Call::Snapshot(Some(*i)),
            Call::Create(*i, SNAPSHOT_WORDS),
            Call::Diff(*i, SNAPSHOT_WORDS),
            Call::ReadDecided(*i),
            Call::Suffix(*i),
        ]);
        // every pair, in one of the forms each
        for (l, j) in near.iter().enumerate() {
            calls.push(match (k + l) % 4 {
                0 => Call::Read(Form::Covered, Bound::Included(*i), Bound::Excluded(*j)),
                1 => Call::Read(Form::Covered, Bound::Excluded(*i), Bound::Included(*j)),
                2 => Call::Read(Form::ByHand, Bound::Included(*i), Bound::Included(*j)),
                _ => Call::Entries(*i, *j),
            });
        }
    }
    calls
}

/// One call of each kind, in form.
fn one_of_each(s: &State) -> Vec<Call> {
    let part = |held, kind| Part {
        held,
        idx: s.decided,
        kind,
        snapshot: LentSnapshot::of(&snapshot(0, 2)),
        suffix: vec![],
        stop: None,
    };
    let list = List {
        ops: vec![Op {
            kind: OpKind::SetPromise,
            index: 0,
            given: false,
            ballot: round(),
        }],
        entries: vec![],
        snapshot_lent: false,
        snapshot: LentSnapshot::of(&[]),
        stop: None,
    };
    vec![
        Call::WellFormed,
        Call::GetAccepted,
        Call::GetLogDecided,
        Call::StopIsDecided,
        Call::AppendEntry(1, Some(1)),
        Call::Append(words(&[put(1, 1)])),
        Call::AppendIdx(words(&[put(1, 1)])),
        Call::AppendNow(words(&[put(1, 1)])),
        Call::Flush,
        Call::FlushEntries,
        Call::AppendStop(sign()),
        Call::SetStop(Some(sign())),
        Call::SetStop(None),
        Call::Promise(round()),
        Call::Decide(Form::Covered, s.decided),
        Call::Decide(Form::ByHand, s.decided),
        Call::Read(Form::Covered, Bound::Unbounded, Bound::Unbounded),
        Call::Read(Form::ByHand, Bound::Unbounded, Bound::Unbounded),
        Call::ReadDecided(0),
        Call::Entries(0, 1),
        Call::Suffix(0),
        Call::Lookup(1),
        Call::LookupMany(vec![], 0),
        Call::LookupMany(vec![1; MOST_ASKED + 1], 0),
        Call::Trim(Form::Covered, None),
        Call::Trim(Form::ByHand, None),
        Call::Snapshot(None),
        Call::Create(s.decided, SNAPSHOT_WORDS),
        Call::Diff(0, SNAPSHOT_WORDS),
        Call::Sync(round(), s.decided, part(false, Kind::Plain)),
        Call::Sync(round(), s.decided, part(true, Kind::Plain)),
        Call::Sync(round(), s.decided, part(true, Kind::Complete)),
        Call::Sync(round(), s.decided, part(true, Kind::Delta)),
        Call::Write(Form::Covered, list.clone()),
        Call::Write(Form::ByHand, list),
        Call::Reload,
    ]
}

/// The same with an argument out of form, where the call takes one that can be.
fn out_of_form(s: &State) -> Vec<Call> {
    let mut calls = vec![
        Call::Fresh(LARGEST_BATCH + 1),
        Call::Fresh(u64::MAX),
        Call::AppendEntry(1, Some(PLACES)),
        Call::AppendEntry(1, Some(REMOVED)),
        Call::AppendStop(Sign::default()),
        Call::SetStop(Some(Sign::default())),
        Call::Read(Form::Covered, Bound::Excluded(u64::MAX), Bound::Unbounded),
        Call::Read(Form::ByHand, Bound::Unbounded, Bound::Included(u64::MAX)),
        Call::Create(s.decided, SNAPSHOT_WORDS - 1),
        Call::Diff(0, 0),
    ];
    for es in [
        vec![1],
        words(&[put(1, PLACES)]),
        words(&[put(1, 1), put(2, REMOVED - 1)]),
    ] {
        calls.extend([
            Call::Append(es.clone()),
            Call::AppendIdx(es.clone()),
            Call::AppendNow(es.clone()),
            Call::Fold(es.clone(), SNAPSHOT_WORDS),
            Call::EntriesFormed(es),
        ]);
    }
    let full = LentSnapshot::of(&snapshot(0, 3));
    let with_first = |entry: Change| LentSnapshot {
        words: [&words(&[entry]), &full.words[at(1)..]].concat(),
        ..full.clone()
    };
    let bent = [
        LentSnapshot {
            keys: 2,
            ..full.clone()
        },
        LentSnapshot {
            keys: KEYS + 1,
            ..full.clone()
        },
        LentSnapshot {
            keys: u64::MAX,
            ..full.clone()
        },
        LentSnapshot {
            words: full.words[..at(KEYS - 1)].to_vec(),
            ..full.clone()
        },
        with_first(put(7, 7)),
        with_first(put(1, 7)),
        with_first(put(0, PLACES)),
    ];
    for snapshot in bent {
        calls.extend([
            Call::Merge(s.keys, snapshot.clone(), SNAPSHOT_WORDS),
            Call::Find(snapshot.clone(), 1),
            Call::SnapshotFormed(snapshot.clone()),
        ]);
        for (held, kind) in [
            (false, Kind::Plain),
            (true, Kind::Plain),
            (true, Kind::Complete),
            (true, Kind::Delta),
        ] {
            let part = Part {
                held,
                idx: s.decided,
                kind,
                snapshot: snapshot.clone(),
                suffix: vec![],
                stop: None,
            };
            calls.push(Call::Sync(round(), 0, part));
        }
        let op = Op {
            kind: OpKind::SetSnapshot,
            index: 0,
            given: true,
            ballot: round(),
        };
        let list = List {
            ops: vec![op],
            entries: vec![],
            snapshot_lent: true,
            snapshot,
            stop: None,
        };
        calls.push(Call::Write(Form::Covered, list.clone()));
        calls.push(Call::Write(Form::ByHand, list));
    }
    calls
}

/// Appends of so many entries, and folds of as many keys.
fn sized(s: &State) -> Vec<Call> {
    let mut calls = vec![];
    let most = LARGEST_BATCH;
    for n in [0, 1, 2, most - 2, most - 1, most, most + 1] {
        let es = words(&entries(n, n));
        calls.extend([
            Call::Append(es.clone()),
            Call::AppendIdx(es.clone()),
            Call::AppendNow(es),
        ]);
    }
    let most = MOST_ASKED;
    for n in [0, 1, most - 1, most, most + 1] {
        // Half as many keys, each asked for twice.
        let keys: Vec<u64> = (0..n as u64).map(|i| i / 2).collect();
        for out in [
            replies_at(n),
            replies_at(n) + 1,
            replies_at(n).saturating_sub(1),
        ] {
            calls.push(Call::LookupMany(keys.clone(), out));
        }
        calls.push(Call::ReplyAt(replies_at(n), n as u64));
        calls.push(Call::ReplyAt(replies_at(most), n as u64));
    }
    let beside = ENTRIES - MOST_BATCHED;
    for n in [beside, beside + 1, ENTRIES - 1, ENTRIES] {
        for kind in [Kind::Plain, Kind::Complete, Kind::Delta] {
            let part = Part {
                held: true,
                idx: s.decided,
                kind,
                snapshot: LentSnapshot::of(&[]),
                suffix: words(&entries(n, 1)),
                stop: None,
            };
            calls.push(Call::Sync(round(), s.decided, part));
        }
    }
    let most = KEYS;
    for n in [0, 1, most - 1, most, most + 1] {
        calls.push(Call::Fold(
            words(&entries(TOO_MANY_KEYS, n)),
            SNAPSHOT_WORDS,
        ));
        if n <= most {
            let other = LentSnapshot::of(&snapshot(most, n));
            calls.push(Call::Merge(s.keys, other.clone(), SNAPSHOT_WORDS));
            calls.push(Call::Find(other.clone(), most + n / 2));
            let part = Part {
                held: true,
                idx: s.decided,
                kind: Kind::Delta,
                snapshot: other,
                suffix: vec![],
                stop: None,
            };
            calls.push(Call::Sync(round(), s.decided, part));
        }
    }
    calls
}

/// Every index that matters to a state, one less and one more, and the ends of what an index may be.
fn near(s: &State) -> Vec<u64> {
    let accepted = s.accepted() as u64;
    let mut near = BTreeSet::from([0, LARGEST, LARGEST + 1, u64::MAX - 1, u64::MAX]);
    for i in [
        s.compacted,
        s.decided,
        s.end() as u64,
        accepted,
        accepted + s.batched,
    ] {
        near.extend([i.saturating_sub(1), i, i + 1]);
    }
    near.into_iter().collect()
}

/// Each call from the same state.
fn each(runner: &mut Runner, state: &State, calls: Vec<Call>) -> Result<(), String> {
    runner.set(state);
    for call in calls {
        if runner.state != *state {
            runner.set(state);
        }
        runner.turn(&call)?;
    }
    Ok(())
}

/// What a field may be set to, so that a record is likely not well formed any more.
fn values(field: u64, old: u64) -> Vec<u64> {
    match (field, largest(field)) {
        (5..=12, _) => vec![],
        (16, _) => vec![old ^ 1],
        (_, u64::MAX) => vec![
            0,
            old.wrapping_add(1),
            old.wrapping_sub(1),
            LARGEST_BATCH + 1,
            LARGEST + 1,
            u64::MAX,
        ],
        (_, most) => vec![most - old],
    }
}

/// One thing set, and every call asked: of a state that is not well formed each is refused.
fn ill_formed(runner: &mut Runner, state: &State) -> Result<(), String> {
    let mut lines = vec![
        vec![3, 0, at(ENTRIES - 1) as u64],
        vec![3, 0, 0],
        vec![3, 1, at(KEYS - 1) as u64],
        vec![3, 1, 0],
    ];
    for (field, old) in (0..).zip(state.fields()) {
        lines.extend(values(field, old).into_iter().map(|v| vec![4, field, v]));
    }
    let entries = state.retained + state.batched;
    for (area, used, whole) in [
        (0, at(entries), LOG_WORDS),
        (1, at(state.keys), SNAPSHOT_WORDS),
    ] {
        let last = used.saturating_sub(1);
        for at in [
            at(0),
            place_at(0),
            place_at(1),
            last,
            used,
            used + 1,
            whole - 1,
        ] {
            lines.extend([PLACES, REMOVED, 0].map(|v| vec![2, area, at as u64, v]));
        }
    }
    for line in lines {
        runner.set(state);
        runner.poke(line);
        let spoilt = runner.state.clone();
        each(
            runner,
            &spoilt,
            [one_of_each(&spoilt), vec![Call::Fresh(1)]].concat(),
        )?;
    }
    Ok(())
}

pub fn run(runner: &mut Runner, every: usize) -> Result<(), String> {
    let (few, full) = (few(), full());
    let about_full = [KEYS - 2, KEYS - 1, KEYS, KEYS + 1];
    for state in few.iter().step_by(every) {
        let near = near(state);
        each(runner, state, indexed(&near))?;
        each(runner, state, syncs(state, &near))?;
        each(runner, state, lists(state, &near))?;
        each(runner, state, one_of_each(state))?;
    }
    for state in full.iter().step_by(every) {
        each(runner, state, sized(state))?;
        each(runner, state, one_of_each(state))?;
        each(runner, state, lists(state, &[]))?;
        each(
            runner,
            state,
            about_full.map(|i| Call::Snapshot(Some(i))).to_vec(),
        )?;
        each(
            runner,
            state,
            about_full.map(|i| Call::Create(i, SNAPSHOT_WORDS)).to_vec(),
        )?;
        each(
            runner,
            state,
            [0, 1, 2, KEYS - 1]
                .map(|i| Call::Diff(i, SNAPSHOT_WORDS))
                .to_vec(),
        )?;
    }
    for state in few.iter().step_by(211 * every) {
        each(runner, state, out_of_form(state))?;
        ill_formed(runner, state)?;
    }
    println!(
        "boundaries: one in {every} of {} states with few entries and of {} that are full",
        few.len(),
        full.len()
    );
    Ok(())
}
