//! The election beside the Rust: each call is asked of the port on a whole state, and of the Rust brought into the same state. The Rust has
//! no refusals, and its own end says where they are due: a list that passes document 02's bounds, or a panic of a number that is the largest.
use crate::ballot_leader_election::{opened, BallotLeaderElection as Rust};
use crate::dice::Dice;
use crate::limits::{OUTGOING, PEERS, REPLIES};
use crate::sequence_paxos::{Phase, Role};
use kotuseraw::plain::{
    self, BLEConfig, BLEMessage, Ballot, BallotLeaderElection as State, ElectionReply,
    HeartbeatReply, Outgoing, Replies, Said,
};
use std::collections::BTreeMap;
use std::panic::{catch_unwind, AssertUnwindSafe};

#[derive(Clone, Debug)]
pub enum Call {
    /// Whether a leader is recovered, and its ballot, which is not looked at where none is.
    With(BLEConfig, Vec<u64>, bool, Ballot),
    SetPriority(u32),
    OutgoingMut,
    Handle(BLEMessage),
    NewRound,
    /// The promise, and Sequence Paxos's state: whether it leads, whether it is in its accept phase.
    Timeout(Ballot, bool, bool),
    GetCurrentBallot,
    GetBallots,
}

/// Every call, by its name, with its refusals in their order.
const ALL: [(&str, &[u64]); 10] = [
    ("well_formed", &[]),
    ("with", &[11]),
    ("set_priority", &[12]),
    ("outgoing_mut", &[12]),
    ("handle, a request", &[12, 18]),
    ("handle, a reply", &[12, 20]),
    ("new_hb_round", &[12, 18, 19]),
    ("hb_timeout", &[12, 18, 19]),
    ("get_current_ballot", &[12]),
    ("get_ballots", &[12]),
];

impl Call {
    fn name(&self) -> &'static str {
        match self {
            Call::With(..) => "with",
            Call::SetPriority(_) => "set_priority",
            Call::OutgoingMut => "outgoing_mut",
            Call::Handle(m) if m.is_reply => "handle, a reply",
            Call::Handle(_) => "handle, a request",
            Call::NewRound => "new_hb_round",
            Call::Timeout(..) => "hb_timeout",
            Call::GetCurrentBallot => "get_current_ballot",
            Call::GetBallots => "get_ballots",
        }
    }

    /// Messages that a round is to send.
    fn needs(&self, e: &State) -> usize {
        match self {
            Call::NewRound | Call::Timeout(..) => e.peers.count,
            _ => 0,
        }
    }
}

/// What a call ends in: what it says, the state after it, and what it hands out.
#[derive(Clone, Debug, PartialEq)]
pub struct Ended {
    pub leads: bool,
    pub state: State,
    pub ballot: Ballot,
    pub outgoing: Outgoing,
    pub replies: Replies,
}

impl Ended {
    fn at(state: State) -> Ended {
        Ended {
            leads: false,
            state,
            ballot: Ballot::default(),
            outgoing: Outgoing::default(),
            replies: Replies::default(),
        }
    }
}

/// In what two ends differ: the first by name, as the Rust has it and as the port does.
fn apart(rust: &Ended, port: &Ended) -> String {
    let parts = |end: &Ended| {
        let e = &end.state;
        [
            ("whether it leads", format!("{:?}", end.leads)),
            ("hb_round", format!("{:?}", e.hb_round)),
            ("happy", format!("{:?}", e.happy)),
            ("leader", format!("{:?}", e.leader)),
            ("current_ballot", format!("{:?}", e.current_ballot)),
            ("peers", format!("{:?}", e.peers)),
            ("heartbeat_replies", format!("{:?}", e.heartbeat_replies)),
            ("prev_replies", format!("{:?}", e.prev_replies)),
            ("outgoing", format!("{:?}", e.outgoing)),
            ("what it hands out", format!("{end:?}")),
        ]
    };
    let pairs = parts(rust).into_iter().zip(parts(port));
    let mut differing = pairs.filter(|(r, p)| r != p);
    differing
        .next()
        .map_or(String::new(), |((what, r), (_, p))| {
            format!("{what} differs\nthe Rust: {r}\nthe port: {p}")
        })
}

/// A request is its round: what else stands in its struct, which no call looks at, is left out.
fn requests_alone(mut list: Outgoing) -> Outgoing {
    for m in list.held.iter_mut().filter(|m| !m.is_reply) {
        let round = m.reply.round;
        m.reply = HeartbeatReply {
            round,
            ..HeartbeatReply::default()
        };
    }
    list
}

/// What the port says.
fn port(e: &State, call: &Call) -> (Said, Ended) {
    let left = |r: ElectionReply| (r.said, Ended::at(r.election));
    match call {
        Call::With(config, peers, given, leader) => {
            left(plain::election_with(*config, peers, *given, *leader))
        }
        Call::SetPriority(p) => left(plain::election_set_priority(*e, *p)),
        Call::OutgoingMut => {
            let r = plain::election_outgoing_mut(*e);
            let outgoing = r.outgoing;
            let at = Ended::at(r.election);
            (r.said, Ended { outgoing, ..at })
        }
        Call::Handle(m) => left(plain::election_handle(*e, *m)),
        Call::NewRound => left(plain::election_new_hb_round(*e)),
        Call::Timeout(promise, ..) => {
            let r = plain::election_hb_timeout(*e, *promise);
            let leads = r.said.told == 1;
            let ballot = match leads {
                true => r.election.current_ballot,
                false => Ballot::default(),
            };
            let at = Ended::at(r.election);
            (
                r.said,
                Ended {
                    leads,
                    ballot,
                    ..at
                },
            )
        }
        Call::GetCurrentBallot => {
            let r = plain::election_get_current_ballot(*e);
            let ballot = r.ballot;
            (
                r.said,
                Ended {
                    ballot,
                    ..Ended::at(*e)
                },
            )
        }
        Call::GetBallots => {
            let r = plain::election_get_ballots(*e);
            let replies = r.replies;
            (
                r.said,
                Ended {
                    replies,
                    ..Ended::at(*e)
                },
            )
        }
    }
}

/// What the Rust ends in: its lists' lengths, and the rest where they fit. None where it panics.
pub struct RustEnd {
    pub sent: usize,
    pub kept: usize,
    pub ended: Option<Ended>,
}

pub fn rust(e: &State, call: &Call) -> Option<RustEnd> {
    let asked = catch_unwind(AssertUnwindSafe(|| {
        let mut node: Rust = match call {
            Call::With(config, peers, given, leader) => {
                let recovered = given.then(|| opened::ballot(*leader));
                Rust::with(opened::config(*config, peers), recovered)
            }
            _ => opened::brought(e),
        };
        let (mut led, mut ballot) = (None, Ballot::default());
        let (mut outgoing, mut replies) = (Outgoing::default(), Replies::default());
        match call {
            Call::With(..) => (),
            Call::SetPriority(p) => node.set_priority(*p),
            Call::OutgoingMut => {
                let taken = std::mem::take(node.outgoing_mut());
                outgoing = opened::outgoing_back(&taken).expect("a well-formed state's list");
            }
            Call::Handle(m) => node.handle(opened::message(m)),
            Call::NewRound => node.new_hb_round(),
            Call::Timeout(promise, leads, accepts) => {
                let role = if *leads { Role::Leader } else { Role::Follower };
                let phase = if *accepts {
                    Phase::Accept
                } else {
                    Phase::Other
                };
                led = node.hb_timeout(&(role, phase), opened::ballot(*promise));
                ballot = led.map(opened::ballot_back).unwrap_or_default();
            }
            Call::GetCurrentBallot => ballot = opened::ballot_back(node.get_current_ballot()),
            Call::GetBallots => {
                let list = node.get_ballots();
                replies = opened::replies_back(&list).expect("a well-formed state's list");
            }
        }
        let (sent, kept) = opened::lengths(&node);
        let leads = led.is_some();
        let ended = opened::seen(&node).map(|state| Ended {
            leads,
            state,
            ballot,
            outgoing,
            replies,
        });
        RustEnd { sent, kept, ended }
    }));
    asked.ok()
}

/// Document 02: "A state whose own n is above the leader's isn't well formed", "At most 6 peers, 16 replies a round, 32 outgoing
/// messages", what is unused is zero; and 003: a pid "Must not be 0".
pub fn well_formed(e: &State) -> bool {
    fn list<T: Default + PartialEq>(count: usize, held: &[T]) -> bool {
        count <= held.len() && held[count..].iter().all(|x| *x == T::default())
    }
    e.current_ballot.n <= e.leader.n
        && e.pid != 0
        && list(e.peers.count, &e.peers.held)
        && list(e.heartbeat_replies.count, &e.heartbeat_replies.held)
        && list(e.prev_replies.count, &e.prev_replies.held)
        && list(e.outgoing.count, &e.outgoing.held)
}

/// The refusal that is due, by what the Rust ends in.
fn due(e: &State, call: &Call, end: &Option<RustEnd>) -> u64 {
    if let Call::With(config, peers, ..) = call {
        return if config.pid == 0 || peers.len() > PEERS {
            11
        } else {
            0
        };
    }
    if !well_formed(e) {
        return 12;
    }
    match end {
        Some(end) if end.sent > OUTGOING => 18,
        None if e.outgoing.count + call.needs(e) > OUTGOING => 18,
        None => 19,
        Some(end) if end.kept > REPLIES => 20,
        Some(_) => 0,
    }
}

#[derive(Default)]
pub struct Report {
    counts: BTreeMap<(&'static str, u64), u64>,
    /// Calls that the Rust ended in the same way.
    same: u64,
    /// Refused with 18 or 20, where the Rust's list is too long; with 19, where it panics.
    beyond: [u64; 3],
}

impl Report {
    /// Calls, but for those that only judge a state.
    fn asked(&self) -> u64 {
        let all = self.counts.iter();
        all.filter(|((name, _), _)| *name != "well_formed")
            .map(|(_, times)| times)
            .sum()
    }

    /// Prints the table. Whether every call was accepted, and refused with each of its refusals.
    pub fn print(&self) -> bool {
        println!("call of the election × refusal × how often (`-` is accepted)");
        for (name, refusals) in ALL {
            let cells: Vec<String> = [&[0], refusals]
                .concat()
                .iter()
                .map(|n| {
                    let times = self.counts.get(&(name, *n)).copied().unwrap_or(0);
                    match n {
                        0 => format!("-:{times}"),
                        n => format!("{n}:{times}"),
                    }
                })
                .collect();
            println!("  {name:46} {}", cells.join("  "));
        }
        let [long, spent, full] = self.beyond;
        println!("{} calls of the election: {} as the Rust; where refused with 18, the Rust's list passes {OUTGOING} messages, {long} times; with 19, it panics, {spent} times; with 20, its list passes {REPLIES} replies, {full} times", self.asked(), self.same);
        let missing: Vec<String> = ALL
            .iter()
            .flat_map(|(name, refusals)| {
                [&[0], *refusals]
                    .concat()
                    .into_iter()
                    .map(move |n| (*name, n))
            })
            .filter(|cell| !self.counts.contains_key(cell))
            .map(|(name, n)| format!("{name} {n}"))
            .collect();
        for cell in &missing {
            println!("NOT MET: {cell}");
        }
        missing.is_empty()
    }

    /// One call on a state: the state after it, or the difference.
    pub fn turn(&mut self, e: &State, call: &Call) -> Result<State, String> {
        let (said, ended) = port(e, call);
        let fine = matches!(call, Call::With(..)) || well_formed(e);
        let end = fine.then(|| rust(e, call)).flatten();
        let due = due(e, call, &end);
        *self.counts.entry((call.name(), due)).or_default() += 1;
        let asked = self.asked();
        let differs = |what: String| {
            let told = [what, format!("{call:?}"), format!("on {e:?}")];
            let short = told.map(|line| line.chars().take(2000).collect());
            let last = format!("after {asked} calls of this run");
            Err([&short[..], &[last]].concat().join("\n"))
        };
        if (said.number, said.carried) != (due, 0) {
            return differs(format!("refusal {due} is due, the port says {said:?}"));
        }
        if due != 0 {
            let nothing = match call {
                Call::With(..) => State::default(),
                _ => *e,
            };
            if ended != Ended::at(nothing) {
                return differs(format!("a refused call changed something: {ended:?}"));
            }
            match due {
                18 => self.beyond[0] += 1,
                19 => self.beyond[1] += 1,
                20 => self.beyond[2] += 1,
                _ => (),
            }
            return Ok(*e);
        }
        let Some(RustEnd {
            ended: Some(judged),
            ..
        }) = end
        else {
            return differs("the Rust panics, or its lists pass the bounds".to_string());
        };
        let mut alike = ended.clone();
        alike.outgoing = requests_alone(ended.outgoing);
        alike.state.outgoing = requests_alone(ended.state.outgoing);
        if judged != alike {
            return differs(apart(&judged, &alike));
        }
        self.same += 1;
        if !well_formed(&ended.state) {
            return differs(format!("no longer well formed: {:?}", ended.state));
        }
        Ok(ended.state)
    }

    /// Whether a state is well formed, as the port says.
    fn judge(&mut self, e: &State) -> Result<(), String> {
        *self.counts.entry(("well_formed", 0)).or_default() += 1;
        match plain::election_well_formed(*e) == well_formed(e) {
            true => Ok(()),
            false => Err(format!(
                "well formed is judged otherwise\n{e:?}\nafter {} calls of this run",
                self.asked()
            )),
        }
    }
}

const TOP: u32 = u32::MAX;

impl Dice {
    /// A ballot that is often one of those of a state, or one that differs in its configuration alone.
    fn ballot_near(&mut self, e: &State) -> Ballot {
        let replies = &e.heartbeat_replies;
        let mut near = vec![e.current_ballot, e.leader, Ballot::default()];
        near.extend(
            replies.held[..replies.count.min(3)]
                .iter()
                .flat_map(|r| [r.ballot, r.leader]),
        );
        let mut b = self.pick(&near);
        match self.below(8) {
            0 => b.config_id = self.pick(&[0, 1, 2, TOP]),
            1 => {
                b.n = self.pick(&[
                    0,
                    1,
                    b.n.saturating_add(1),
                    b.n.saturating_sub(1),
                    TOP - 1,
                    TOP,
                ])
            }
            2 => b.priority = self.pick(&[0, 1, TOP]),
            3 => b.pid = self.pick(&[0, 1, e.pid, b.pid.wrapping_add(1), u64::MAX]),
            _ => (),
        }
        b
    }

    fn reply_near(&mut self, e: &State) -> HeartbeatReply {
        HeartbeatReply {
            round: self.pick(&[
                e.hb_round,
                e.hb_round,
                e.hb_round,
                e.hb_round.wrapping_sub(1),
                e.hb_round.wrapping_add(1),
                0,
                TOP,
            ]),
            ballot: self.ballot_near(e),
            leader: self.ballot_near(e),
            happy: self.one_in(2),
        }
    }

    fn message_near(&mut self, e: &State) -> BLEMessage {
        let reply = match e.heartbeat_replies.count {
            // The same reply again.
            n @ 1.. if self.one_in(4) => e.heartbeat_replies.held[n.min(REPLIES) - 1],
            _ => self.reply_near(e),
        };
        BLEMessage {
            from: self.pick(&[1, 2, 3, 7, u64::MAX]),
            to: e.pid,
            is_reply: !self.one_in(3),
            reply,
        }
    }

    /// A well-formed state, near the ends of what one may be now and then.
    fn election(&mut self) -> State {
        let mut e = State {
            configuration_id: self.pick(&[0, 1, 1, 2]),
            pid: self.pick(&[1, 2, 3, u64::MAX]),
            hb_round: self.pick(&[0, 1, 2, 7, TOP - 1, TOP]),
            happy: self.one_in(2),
            ..State::default()
        };
        let n = self.pick(&[0, 1, 1, 2, 5, TOP - 1, TOP]);
        let priority = self.pick(&[0, 0, 1]);
        e.current_ballot = Ballot {
            config_id: e.configuration_id,
            n,
            priority,
            pid: e.pid,
        };
        e.leader = e.current_ballot;
        if !self.one_in(3) {
            e.leader = self.ballot_near(&e);
        }
        if e.leader.n < e.current_ballot.n {
            std::mem::swap(&mut e.leader, &mut e.current_ballot);
        }
        e.peers.count = self.pick(&[0, 1, 2, 2, 3, 4, 5, 6]);
        for i in 0..e.peers.count {
            e.peers.held[i] = self.pick(&[1, 2, 3, 4, 5, 6, 7]);
        }
        let kept = self.pick(&[0, 0, 1, 2, 3, 4, 15, 16]);
        for _ in 0..kept {
            let again = e.heartbeat_replies.count > 0 && self.one_in(4);
            let reply = match again {
                true => e.heartbeat_replies.held[e.heartbeat_replies.count - 1],
                false => HeartbeatReply {
                    round: e.hb_round,
                    ..self.reply_near(&e)
                },
            };
            e.heartbeat_replies.held[e.heartbeat_replies.count] = reply;
            e.heartbeat_replies.count += 1;
        }
        // Replies of which none is happy are what a takeover wants.
        if self.one_in(2) {
            for reply in &mut e.heartbeat_replies.held[..kept] {
                reply.happy = false;
            }
        }
        e.prev_replies.count = self.pick(&[0, 1, 16]);
        for i in 0..e.prev_replies.count {
            e.prev_replies.held[i] = self.reply_near(&e);
        }
        let room = OUTGOING - e.peers.count;
        e.outgoing.count = self.pick(&[0, 0, 1, room, room.min(31) + 1, 31, 32]);
        for i in 0..e.outgoing.count {
            e.outgoing.held[i] = self.message_near(&e);
            if !e.outgoing.held[i].is_reply {
                let round = e.outgoing.held[i].reply.round;
                e.outgoing.held[i].reply = HeartbeatReply {
                    round,
                    ..HeartbeatReply::default()
                };
            }
        }
        e
    }

    /// A state that is not well formed, mostly.
    fn spoilt(&mut self, e: &State) -> State {
        let mut s = *e;
        match self.below(9) {
            0 => s.pid = 0,
            1 => s.current_ballot.n = s.leader.n.wrapping_add(1),
            2 => s.peers.count = self.pick(&[PEERS + 1, usize::MAX]),
            3 => s.heartbeat_replies.count = self.pick(&[REPLIES + 1, usize::MAX]),
            4 => s.prev_replies.count = self.pick(&[REPLIES + 1, usize::MAX]),
            5 => s.outgoing.count = self.pick(&[OUTGOING + 1, usize::MAX]),
            6 => s.peers.held[PEERS - 1] ^= 1,
            7 => match self.below(3) {
                0 => s.heartbeat_replies.held[REPLIES - 1].leader.config_id ^= 1,
                1 => s.prev_replies.held[REPLIES - 1].happy ^= true,
                _ => s.heartbeat_replies.held[REPLIES - 1].ballot.pid ^= 1 << 63,
            },
            _ => match self.below(3) {
                0 => s.outgoing.held[OUTGOING - 1].is_reply ^= true,
                1 => s.outgoing.held[OUTGOING - 1].to ^= 1,
                _ => s.outgoing.held[OUTGOING - 1].reply.leader.n ^= 1 << 31,
            },
        }
        s
    }

    fn election_call(&mut self, e: &State) -> Call {
        match self.below(20) {
            0 => {
                let config = BLEConfig {
                    configuration_id: self.pick(&[0, 1, TOP]),
                    pid: self.pick(&[0, 1, 2, u64::MAX]),
                    priority: self.pick(&[0, 1, TOP]),
                };
                let n = self.pick(&[0, 1, 2, 5, 6, 7, 8]);
                let peers = (0..n).map(|_| self.pick(&[0, 1, 2, 3, u64::MAX])).collect();
                let near = self.ballot_near(e);
                let leader = self.pick(&[Ballot::default(), near]);
                Call::With(config, peers, self.one_in(2), leader)
            }
            1 => Call::SetPriority(self.pick(&[0, 1, TOP])),
            2 => Call::OutgoingMut,
            3 => Call::GetCurrentBallot,
            4 => Call::GetBallots,
            5 | 6 => Call::NewRound,
            7..=12 => Call::Timeout(self.ballot_near(e), self.one_in(2), self.one_in(2)),
            _ => Call::Handle(self.message_near(e)),
        }
    }
}

/// Every timeout of a small scope: a node and its leader, up to two replies, the promise.
fn small(report: &mut Report) -> Result<(), String> {
    let ballot = |config_id, n, pid| Ballot {
        config_id,
        n,
        priority: 0,
        pid,
    };
    let mine = ballot(1, 1, 2);
    let leaders = [mine, ballot(2, 1, 2), ballot(1, 1, 3), ballot(1, TOP, 3)];
    let ballots = [
        mine,
        ballot(2, 1, 2),
        ballot(1, 1, 3),
        ballot(2, 1, 3),
        ballot(1, 2, 1),
    ];
    let promises = [
        Ballot::default(),
        ballot(1, 2, 2),
        ballot(2, 2, 3),
        ballot(1, TOP, 2),
    ];
    let mut replies = vec![];
    for ballot in ballots {
        for leader in [mine, ballots[2], ballots[4]] {
            for happy in [false, true] {
                replies.push(HeartbeatReply {
                    round: 1,
                    ballot,
                    leader,
                    happy,
                });
            }
        }
    }
    let mut rounds: Vec<Vec<HeartbeatReply>> = vec![vec![]];
    rounds.extend(replies.iter().map(|r| vec![*r]));
    rounds.extend(
        replies
            .iter()
            .flat_map(|r| replies.iter().map(|s| vec![*r, *s])),
    );
    for kept in &rounds {
        for (leader, happy, peers) in leaders
            .iter()
            .flat_map(|l| [false, true].map(|h| (l, h)))
            .flat_map(|(l, h)| [0, 1, 2, 4].map(|p| (l, h, p)))
        {
            let mut e = State {
                configuration_id: 1,
                pid: 2,
                hb_round: 1,
                current_ballot: mine,
                leader: *leader,
                happy,
                ..State::default()
            };
            e.peers.count = peers;
            e.peers.held[..peers].copy_from_slice(&[1, 3, 4, 5][..peers]);
            e.heartbeat_replies.count = kept.len();
            e.heartbeat_replies.held[..kept.len()].copy_from_slice(kept);
            for promise in promises {
                report.turn(&e, &Call::Timeout(promise, false, false))?;
            }
        }
    }
    Ok(())
}

/// The smallest inputs on which the Rust goes past what document 02 bounds: what it does, beside what the port does. In a build without
/// overflow checks it does not panic, and where it ends is shown.
pub fn differences() -> Result<(), String> {
    let alone = BLEConfig {
        configuration_id: 1,
        pid: 1,
        priority: 0,
    };
    let last = Ballot {
        n: TOP,
        pid: 2,
        ..Ballot::default()
    };
    let started = |recovered| plain::election_with(alone, &[], recovered, last).election;
    let message = |is_reply, ballot| BLEMessage {
        from: 2,
        to: 1,
        is_reply,
        reply: HeartbeatReply {
            round: 1,
            ballot,
            ..HeartbeatReply::default()
        },
    };
    let request = Call::Handle(message(false, Ballot::default()));
    let reply = Call::Handle(message(
        true,
        Ballot {
            config_id: 1,
            ..Ballot::default()
        },
    ));
    let mut spent = started(false);
    spent.hb_round = TOP;
    let timeout = Call::Timeout(Ballot::default(), false, false);
    let cases = [
        (
            "a 33rd message that waits",
            started(false),
            request,
            OUTGOING,
            18,
        ),
        (
            "a takeover past the largest number",
            started(true),
            timeout,
            0,
            19,
        ),
        ("a round after the largest", spent, Call::NewRound, 0, 19),
        (
            "a 17th reply of a round",
            started(false),
            reply,
            REPLIES,
            20,
        ),
    ];
    let mut report = Report::default();
    for (name, mut e, call, before, due) in cases {
        for _ in 0..before {
            e = report.turn(&e, &call)?;
        }
        println!("the election: {name}\n  {call:?}");
        match rust(&e, &call) {
            None => println!("  the Rust panics"),
            Some(RustEnd { sent, kept, ended }) => {
                println!("  the Rust has {sent} messages and {kept} replies");
                if let Some(Ended { state, .. }) = ended {
                    println!(
                        "  its round is {}, and its ballot {:?}",
                        state.hb_round, state.current_ballot
                    );
                }
            }
        }
        let said = port(&e, &call).0;
        println!("  the port refuses with {}", said.number);
        if said.number != due {
            return Err(format!("{name}: {due} is due, the port says {said:?}"));
        }
    }
    Ok(())
}

/// A small scope whole, or not, and so many calls at random, each walk from a state of its own.
pub fn run(whole: bool, calls: u64, seed: u64) -> Result<bool, String> {
    let mut report = Report::default();
    if whole {
        small(&mut report)?;
    }
    let mut dice = Dice::of(seed);
    let before = report.asked();
    while report.asked() < before + calls {
        let mut e = dice.election();
        for _ in 0..1 + dice.below(60) {
            report.judge(&e)?;
            if dice.one_in(10) {
                let spoilt = dice.spoilt(&e);
                report.judge(&spoilt)?;
                let call = dice.election_call(&e);
                report.turn(&spoilt, &call)?;
            }
            let call = dice.election_call(&e);
            e = report.turn(&e, &call)?;
        }
    }
    Ok(report.print())
}
