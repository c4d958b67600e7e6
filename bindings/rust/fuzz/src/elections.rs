//! Elections: calls on a node that calls reached, and on such a node with something broken, much or little.
use crate::check::hold;
use crate::dice::Dice;
use crate::form;
use crate::guarded::Guarded;
use kotuseraw::plain::{self, BLEConfig, BLEMessage, Ballot, BallotLeaderElection, HeartbeatReply, Outgoing, Replies, Said};
use kotuseraw::plain::{LAST_ROUND, OUTGOING, PEERS, REPLIES};

/// What a call said, and the state that it handed back: zeros where it hands none back.
type Answer = (Said, BallotLeaderElection);

type Make = fn(&BallotLeaderElection, &mut Dice) -> Result<Answer, String>;

pub struct Call {
    pub name: &'static str,
    weight: u64,
    /// The refusals that document 02 gives it, and 0: a long run is to meet them all.
    pub answers: &'static [u64],
    /// Takes over from the state after it what it may change.
    changes: fn(&mut BallotLeaderElection, &BallotLeaderElection),
    make: Make,
}

/// Up to some peers more than a node may have, lent with words beside them. A node that is refused is handed back as zeros.
fn with(_: &BallotLeaderElection, dice: &mut Dice) -> Result<Answer, String> {
    let config =
        BLEConfig { configuration_id: dice.pick(&[0, 1, 1, 2]), pid: dice.pick(&[0, 1, 2, 3, u64::MAX]), priority: dice.word() as u32 };
    let peers: Vec<u64> = (0..dice.below(PEERS as u64 + 3)).map(|_| dice.word()).collect();
    let mut lent = Guarded::default();
    lent.load(&peers);
    let reply = plain::election_with(config, lent.words(), dice.one_in(2), dice.ballot());
    hold(lent.stands() && lent.words() == peers, "the peers that are lent changed")?;
    hold((reply.said.number == 11) == (config.pid == 0 || peers.len() > PEERS), format_args!("{config:?} of {peers:?}: {:?}", reply.said))?;
    Ok((reply.said, reply.election))
}

/// What is handed out is due, and nothing where it is refused.
fn handed<T: Default + PartialEq>(said: Said, handed: T, due: T) -> Result<(), String> {
    hold(handed == if said.number == 0 { due } else { T::default() }, "what it hands out is not what is held")
}

fn outgoing_mut(e: &BallotLeaderElection, _: &mut Dice) -> Result<Answer, String> {
    let taken = plain::election_outgoing_mut(*e);
    handed::<Outgoing>(taken.said, taken.outgoing, e.outgoing)?;
    Ok((taken.said, taken.election))
}

fn get_current_ballot(e: &BallotLeaderElection, _: &mut Dice) -> Result<Answer, String> {
    let got = plain::election_get_current_ballot(*e);
    handed::<Ballot>(got.said, got.ballot, e.current_ballot)?;
    Ok((got.said, *e))
}

fn get_ballots(e: &BallotLeaderElection, _: &mut Dice) -> Result<Answer, String> {
    let got = plain::election_get_ballots(*e);
    handed::<Replies>(got.said, got.replies, e.prev_replies)?;
    Ok((got.said, *e))
}

fn well_formed(e: &BallotLeaderElection, _: &mut Dice) -> Result<Answer, String> {
    let is = plain::election_well_formed(*e);
    hold(is == form::election_formed(e), format_args!("the library says {is}"))?;
    Ok(Answer::default())
}

pub const ALL: &[Call] = &[
    Call { name: "election_well_formed", weight: 2, answers: &[0], changes: |_, _| (), make: well_formed },
    Call { name: "election_with", weight: 2, answers: &[0, 11], changes: |e, after| *e = *after, make: with },
    Call {
        name: "election_set_priority",
        weight: 1,
        answers: &[0, 12],
        changes: |e, after| e.current_ballot.priority = after.current_ballot.priority,
        make: |e, dice| {
            let reply = plain::election_set_priority(*e, dice.word() as u32);
            Ok((reply.said, reply.election))
        },
    },
    Call {
        name: "election_outgoing_mut",
        weight: 3,
        answers: &[0, 12],
        changes: |e, after| e.outgoing = after.outgoing,
        make: outgoing_mut,
    },
    Call {
        name: "election_handle, a request",
        weight: 8,
        answers: &[0, 12, 18],
        changes: |e, after| e.outgoing = after.outgoing,
        make: |e, dice| handle(e, dice, false),
    },
    Call {
        name: "election_handle, a reply",
        weight: 16,
        answers: &[0, 12, 20],
        changes: |e, after| e.heartbeat_replies = after.heartbeat_replies,
        make: |e, dice| handle(e, dice, true),
    },
    Call {
        name: "election_new_hb_round",
        weight: 2,
        answers: &[0, 12, 18, 19],
        changes: round,
        make: |e, _| {
            let reply = plain::election_new_hb_round(*e);
            Ok((reply.said, reply.election))
        },
    },
    Call {
        name: "election_hb_timeout",
        weight: 6,
        answers: &[0, 12, 18, 19],
        changes: |e, after| {
            round(e, after);
            (e.current_ballot, e.leader, e.happy) = (after.current_ballot, after.leader, after.happy);
        },
        make: |e, dice| {
            let reply = plain::election_hb_timeout(*e, dice.ballot());
            Ok((reply.said, reply.election))
        },
    },
    Call { name: "election_get_current_ballot", weight: 1, answers: &[0, 12], changes: |_, _| (), make: get_current_ballot },
    Call { name: "election_get_ballots", weight: 1, answers: &[0, 12], changes: |_, _| (), make: get_ballots },
];

fn round(e: &mut BallotLeaderElection, after: &BallotLeaderElection) {
    e.hb_round = after.hb_round;
    (e.heartbeat_replies, e.prev_replies, e.outgoing) = (after.heartbeat_replies, after.prev_replies, after.outgoing);
}

fn handle(e: &BallotLeaderElection, dice: &mut Dice, is_reply: bool) -> Result<Answer, String> {
    let reply = plain::election_handle(*e, BLEMessage { is_reply, ..dice.message(e) });
    Ok((reply.said, reply.election))
}

impl Dice {
    /// A reply, mostly of the round and the configuration.
    fn heartbeat(&mut self, e: &BallotLeaderElection) -> HeartbeatReply {
        let round = if self.one_in(6) { self.word() as u32 } else { e.hb_round };
        let (mut ballot, leader) = (self.ballot(), self.ballot());
        if !self.one_in(4) {
            ballot.config_id = e.configuration_id;
        }
        HeartbeatReply { round, ballot, leader: self.pick(&[leader, ballot, e.leader, e.current_ballot]), happy: self.one_in(2) }
    }

    fn message(&mut self, e: &BallotLeaderElection) -> BLEMessage {
        BLEMessage { from: self.word(), to: self.word(), is_reply: self.one_in(2), reply: self.heartbeat(e) }
    }

    /// How much of a list is said to be held.
    fn held(&mut self, most: usize) -> usize {
        self.pick(&[0, 1, most - 1, most, most, most + 1, usize::MAX])
    }

    fn among_held(&mut self, held: usize) -> usize {
        self.below(held as u64) as usize
    }
}

/// Sets a field, a count or one of a list to something else.
fn break_one(e: &mut BallotLeaderElection, dice: &mut Dice) {
    match dice.below(13) {
        0 => e.configuration_id = dice.word() as u32,
        1 => e.pid = dice.word(),
        2 => e.hb_round = dice.pick(&[0, 1, LAST_ROUND - 1, LAST_ROUND]),
        3 => e.current_ballot = dice.ballot(),
        4 => e.leader = dice.ballot(),
        5 => e.peers.count = dice.held(PEERS),
        6 => e.heartbeat_replies.count = dice.held(REPLIES),
        7 => e.prev_replies.count = dice.held(REPLIES),
        8 => e.outgoing.count = dice.held(OUTGOING),
        9 => e.peers.held[dice.among_held(PEERS)] = dice.word(),
        10 => e.heartbeat_replies.held[dice.among_held(REPLIES)] = dice.heartbeat(e),
        11 => e.prev_replies.held[dice.among_held(REPLIES)].happy ^= true,
        _ => e.outgoing.held[dice.among_held(OUTGOING)] = dice.message(e),
    }
}

/// The state that calls reached.
#[derive(Default)]
pub struct Walk(BallotLeaderElection);

impl Walk {
    /// One call, on the state that was reached, or in one of four on that with something broken, much or little. What call it was, and the
    /// refusal's number or 0, or what is wrong.
    pub fn turn(&mut self, dice: &mut Dice) -> Result<(&'static str, u64), String> {
        let mut before = self.0;
        let broken = match dice.below(12) {
            0 => 60,
            1 | 2 => 1 + dice.below(2),
            _ => 0,
        };
        (0..broken).for_each(|_| break_one(&mut before, dice));
        let call = dice.among(ALL, |call| call.weight);
        let (number, after) = call.taken(&before, dice).map_err(|what| format!("{}: {what}\n{before:?}", call.name))?;
        if number == 0 && form::election_formed(&after) {
            self.0 = after;
        }
        Ok((call.name, number))
    }
}

impl Call {
    fn taken(&self, before: &BallotLeaderElection, dice: &mut Dice) -> Result<(u64, BallotLeaderElection), String> {
        let (said, after) = (self.make)(before, dice)?;
        let number = said.number;
        hold(self.answers.contains(&number), format_args!("{number} is no answer of this call"))?;
        hold(number == 0 || said == Said { number, ..Said::default() }, format_args!("a refusal tells {said:?}"))?;
        let on_state = self.answers.contains(&12);
        hold(!on_state || form::election_formed(before) == (number != 12), format_args!("it was answered {number}"))?;
        let mut due = if on_state { *before } else { BallotLeaderElection::default() };
        if after == due {
            return Ok((number, after));
        }
        hold(number == 0, format_args!("refused with {number}, it changed something"))?;
        (self.changes)(&mut due, &after);
        hold(after == due, "it changed what it may not")?;
        hold(form::election_formed(&after), "it left a state that is not well formed")?;
        hold(plain::election_well_formed(after), "it left a state that the library calls ill formed")?;
        Ok((number, after))
    }
}
