//! Small scopes, whole: from fresh logs every call of an alphabet, from every state that comes of it again, up to a number of steps.
use crate::backend::Change;
use crate::ballot_leader_election::Ballot;
use crate::call::{Call, Form, Kind, List, Op, OpKind, Part};
use crate::entry::{words, SNAPSHOT_WORDS};
use crate::runner::Runner;
use crate::state::{LentSnapshot, Sign, State};
use std::collections::BTreeSet;
use std::ops::Bound;

/// Indexes go up to this, and no state with more entries is gone on from.
const TOP: u64 = 4;
const MOST: u64 = 3;

const A: Change = Change {
    key: 1,
    place: Some(5),
};
const B: Change = Change {
    key: 1,
    place: None,
};
const C: Change = Change {
    key: 2,
    place: Some(6),
};

fn round() -> Ballot {
    Ballot::with(1, 2, 3, 4)
}

fn sign() -> Sign {
    Sign::of(7, &[1], None)
}

fn appends() -> Vec<Call> {
    let mut calls: Vec<Call> = [A, B, C]
        .iter()
        .map(|e| Call::AppendEntry(e.key, e.place))
        .collect();
    calls.extend([
        Call::Append(vec![]),
        Call::Append(words(&[A, C])),
        Call::AppendIdx(words(&[B])),
        Call::AppendNow(vec![]),
        Call::AppendNow(words(&[C])),
        Call::Flush,
        Call::FlushEntries,
        Call::AppendStop(sign()),
        Call::SetStop(None),
        Call::SetStop(Some(sign())),
        Call::Promise(round()),
        Call::Reload,
    ]);
    calls
}

fn moves() -> Vec<Call> {
    let each = |i: u64| {
        [
            Call::Decide(Form::Covered, i),
            Call::Decide(Form::ByHand, i),
            Call::Trim(Form::Covered, Some(i)),
            Call::Trim(Form::ByHand, Some(i)),
            Call::Snapshot(Some(i)),
        ]
    };
    let mut calls: Vec<Call> = (0..=TOP).flat_map(each).collect();
    calls.extend([
        Call::Trim(Form::Covered, None),
        Call::Trim(Form::ByHand, None),
        Call::Snapshot(None),
    ]);
    calls
}

fn syncs() -> Vec<Call> {
    let mut calls = vec![];
    let mut sync = |held, idx, kind, keys: &[Change], suffix: &[Change], stop, decided| {
        let part = Part {
            held,
            idx,
            kind,
            snapshot: LentSnapshot::of(keys),
            suffix: words(suffix),
            stop,
        };
        calls.push(Call::Sync(round(), decided, part));
    };
    for decided in 0..=TOP {
        sync(false, 0, Kind::Plain, &[], &[], None, decided);
    }
    for idx in 0..TOP {
        for suffix in [&[][..], &[A]] {
            for decided in [0, 2, TOP] {
                for stop in [None, Some(sign())] {
                    sync(true, idx, Kind::Plain, &[], suffix, stop, decided);
                    sync(true, idx, Kind::Complete, &[B, C], suffix, stop, decided);
                }
                sync(true, idx, Kind::Complete, &[], suffix, None, decided);
                sync(true, idx, Kind::Delta, &[], suffix, None, decided);
                sync(true, idx, Kind::Delta, &[B], suffix, None, decided);
            }
        }
    }
    calls
}

fn lists() -> Vec<Call> {
    let op = |kind, index| Op {
        kind,
        index,
        given: true,
        ballot: round(),
    };
    let none = |kind| Op {
        given: false,
        ..op(kind, 0)
    };
    let mut lists = vec![
        vec![op(OpKind::AppendEntries, 0)],
        vec![op(OpKind::SetStopsign, 0)],
        vec![none(OpKind::SetStopsign)],
        vec![op(OpKind::SetSnapshot, 0)],
        vec![none(OpKind::SetSnapshot)],
        vec![op(OpKind::SetPromise, 0), op(OpKind::SetAcceptedRound, 0)],
    ];
    for i in 0..=TOP {
        lists.extend([
            vec![op(OpKind::AppendOnPrefix, i)],
            vec![op(OpKind::SetDecidedIndex, i)],
            vec![op(OpKind::Trim, i)],
            vec![op(OpKind::SetCompactedIdx, i)],
            vec![op(OpKind::Trim, i), op(OpKind::SetCompactedIdx, i)],
            vec![
                op(OpKind::AppendOnPrefix, i),
                op(OpKind::SetDecidedIndex, i),
                op(OpKind::SetSnapshot, 0),
                op(OpKind::SetCompactedIdx, i),
                op(OpKind::Trim, i),
            ],
        ]);
    }
    lists
        .into_iter()
        .flat_map(|ops| {
            let list = List {
                ops,
                entries: words(&[C]),
                snapshot_lent: true,
                snapshot: LentSnapshot::of(&[B]),
                stop: Some(sign()),
            };
            [
                Call::Write(Form::Covered, list.clone()),
                Call::Write(Form::ByHand, list),
            ]
        })
        .collect()
}

/// The calls that leave the state as it is.
fn queries() -> Vec<Call> {
    let mut calls = vec![
        Call::WellFormed,
        Call::GetAccepted,
        Call::GetLogDecided,
        Call::StopIsDecided,
        Call::Read(Form::Covered, Bound::Unbounded, Bound::Unbounded),
        Call::LookupMany(vec![], 0),
        Call::LookupMany(vec![2, 1, 0, 1], SNAPSHOT_WORDS),
    ];
    for i in 0..=TOP + 1 {
        calls.extend([
            Call::ReadDecided(i),
            Call::Suffix(i),
            Call::Lookup(i),
            Call::Create(i, SNAPSHOT_WORDS),
            Call::Diff(i, SNAPSHOT_WORDS),
            Call::Read(Form::Covered, Bound::Included(i), Bound::Unbounded),
            Call::Read(Form::Covered, Bound::Excluded(i), Bound::Unbounded),
            Call::Read(Form::Covered, Bound::Unbounded, Bound::Included(i)),
            Call::Read(Form::Covered, Bound::Unbounded, Bound::Excluded(i)),
        ]);
        for j in 0..=TOP + 1 {
            calls.extend([
                Call::Entries(i, j),
                Call::Read(Form::Covered, Bound::Included(i), Bound::Excluded(j)),
                Call::Read(Form::ByHand, Bound::Excluded(i), Bound::Included(j)),
            ]);
        }
    }
    calls
}

/// Whether a state is one of the scope.
fn small(s: &State) -> bool {
    s.retained + s.batched <= MOST && s.accepted() <= TOP as u128
}

pub fn run(runner: &mut Runner, steps: u64) -> Result<(), String> {
    let queries = queries();
    let changing = [appends(), moves(), syncs(), lists()].concat();
    let mut seen = BTreeSet::new();
    let mut now: Vec<State> = [0, 1, 2].map(State::fresh).to_vec();
    let mut states = 0;
    for _ in 0..steps {
        let mut next = vec![];
        states += now.len();
        for state in now {
            runner.set(&state);
            for call in &queries {
                runner.turn(call)?;
            }
            for call in &changing {
                if runner.state != state {
                    runner.set(&state);
                }
                runner.turn(call)?;
                let after = runner.state.clone();
                if small(&after) && seen.insert(format!("{after:?}")) {
                    next.push(after);
                }
            }
        }
        now = next;
    }
    println!(
        "small scopes: each of {} calls from each of the {states} states fewer than {steps} calls from a fresh log",
        queries.len() + changing.len()
    );
    Ok(())
}
