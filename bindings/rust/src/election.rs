//! The leader election of one node: heartbeats in rounds, by which it learns who leads, and takes over where nobody does. It sends nothing
//! and keeps no time: its caller delivers messages, and says when a round is over.
//!
//! ```
//! use kotuseraw::election::{Config, Election};
//! use kotuseraw::Ballot;
//!
//! let mut nodes: Vec<Election> = (1..=3)
//!     .map(|pid| {
//!         let peers: Vec<u64> = (1..=3).filter(|&peer| peer != pid).collect();
//!         Election::with(Config { configuration_id: 1, pid, peers: &peers, priority: 0 }, None)
//!     })
//!     .collect::<Result<_, _>>()?;
//! // Every request, and then every reply.
//! for _ in 0..2 {
//!     let sent: Vec<_> = nodes.iter_mut().flat_map(|node| node.take_outgoing()).collect();
//!     for message in sent {
//!         nodes[message.to as usize - 1].handle(message)?;
//!     }
//! }
//! // The end of the round: with equal numbers and priorities the highest pid leads.
//! let led: Vec<Option<Ballot>> = nodes.iter_mut().map(|node| node.hb_timeout(Ballot::default())).collect::<Result<_, _>>()?;
//! assert_eq!(led[..2], [None, None]);
//! assert_eq!(led[2], Some(nodes[2].get_current_ballot()));
//! assert!(nodes.iter().all(|node| node.leader().pid == 3 && node.is_happy()));
//! # Ok::<(), kotuseraw::Refusal>(())
//! ```
use crate::plain::{self, BLEConfig, BLEMessage, Ballot, BallotLeaderElection, ElectionReply, Said};
use crate::Refusal;

pub use plain::{HeartbeatReply, OUTGOING, PEERS, REPLIES};

/// What a node starts from.
#[derive(Clone, Copy, Debug)]
pub struct Config<'a> {
    pub configuration_id: u32,
    /// Its own pid, which is not 0.
    pub pid: u64,
    /// The other nodes of the configuration, [`PEERS`] at most.
    pub peers: &'a [u64],
    pub priority: u32,
}

/// What one node says to another.
#[derive(Clone, Copy, Debug, PartialEq, Eq, Hash)]
pub enum HeartbeatMsg {
    Request { round: u32 },
    Reply(HeartbeatReply),
}

#[derive(Clone, Copy, Debug, PartialEq, Eq, Hash)]
pub struct Message {
    pub from: u64,
    pub to: u64,
    pub msg: HeartbeatMsg,
}

impl From<Message> for BLEMessage {
    fn from(m: Message) -> BLEMessage {
        let reply = match m.msg {
            HeartbeatMsg::Request { round } => HeartbeatReply { round, ..HeartbeatReply::default() },
            HeartbeatMsg::Reply(reply) => reply,
        };
        BLEMessage { from: m.from, to: m.to, is_reply: matches!(m.msg, HeartbeatMsg::Reply(_)), reply }
    }
}

impl From<BLEMessage> for Message {
    fn from(m: BLEMessage) -> Message {
        let msg = match m.is_reply {
            true => HeartbeatMsg::Reply(m.reply),
            false => HeartbeatMsg::Request { round: m.reply.round },
        };
        Message { from: m.from, to: m.to, msg }
    }
}

/// A node that owns its state, which is well formed: 12 never comes.
#[derive(Clone, Debug, PartialEq, Eq, Hash)]
pub struct Election {
    state: BallotLeaderElection,
}

impl Election {
    /// A node that starts or, with the leader that it had promised to, starts again: round 1 has begun, and its requests wait. A recovered
    /// leader that is the default ballot is none. 11 for pid 0, or for more than [`PEERS`] peers.
    pub fn with(config: Config, recovered_leader: Option<Ballot>) -> Result<Election, Refusal> {
        let Config { configuration_id, pid, peers, priority } = config;
        let config = BLEConfig { configuration_id, pid, priority };
        let reply = plain::election_with(config, peers, recovered_leader.is_some(), recovered_leader.unwrap_or_default());
        reply.said.accepted().map(|_| Election { state: reply.election })
    }

    /// A copy of a state from elsewhere, where it is well formed.
    pub fn judged(state: BallotLeaderElection) -> Option<Election> {
        plain::election_well_formed(state).then_some(Election { state })
    }

    /// The state that a call hands back is kept; it is the one before where the call is refused.
    fn kept(&mut self, reply: ElectionReply) -> Result<Said, Refusal> {
        self.state = reply.election;
        reply.said.accepted()
    }

    /// Sets the priority that its ballot has from now on.
    pub fn set_priority(&mut self, p: u32) {
        let reply = plain::election_set_priority(self.state, p);
        self.kept(reply).expect("a node's state is well formed");
    }

    /// Takes the messages that wait to be sent.
    pub fn take_outgoing(&mut self) -> impl Iterator<Item = Message> {
        let taken = plain::election_outgoing_mut(self.state);
        taken.said.accepted().expect("a node's state is well formed");
        self.state = taken.election;
        taken.outgoing.held.into_iter().take(taken.outgoing.count).map(Message::from)
    }

    /// Handles a message. A request is replied to: 18 where [`OUTGOING`] messages wait. A reply is kept if it is of this round and this
    /// configuration: 20 where [`REPLIES`] are; any other changes nothing.
    pub fn handle(&mut self, m: Message) -> Result<(), Refusal> {
        let reply = plain::election_handle(self.state, m.into());
        self.kept(reply).map(drop)
    }

    /// Begins a round: a request to each peer waits to be sent. 18 where they have no room, 19 where the round is the largest.
    pub fn new_hb_round(&mut self) -> Result<(), Refusal> {
        let reply = plain::election_new_hb_round(self.state);
        self.kept(reply).map(drop)
    }

    /// The end of a round, and of the next the beginning: the leader, happiness, a takeover, the new round, the promise of Sequence Paxos.
    /// Tells the node's ballot where it leads. 18 and 19 as [`new_hb_round`](Election::new_hb_round); 19 where a takeover is due and the
    /// leader's number is the largest, too.
    pub fn hb_timeout(&mut self, promise: Ballot) -> Result<Option<Ballot>, Refusal> {
        let reply = plain::election_hb_timeout(self.state, promise);
        let said = self.kept(reply)?;
        Ok((said.told == 1).then_some(self.state.current_ballot))
    }

    /// Its own ballot.
    pub fn get_current_ballot(&self) -> Ballot {
        self.state.current_ballot
    }

    /// The replies of the round before.
    pub fn get_ballots(&self) -> &[HeartbeatReply] {
        &self.state.prev_replies.held[..self.state.prev_replies.count]
    }

    /// The ballot of the node that it takes for the leader.
    pub fn leader(&self) -> Ballot {
        self.state.leader
    }

    /// Whether it is, or sees, a leader.
    pub fn is_happy(&self) -> bool {
        self.state.happy
    }

    /// Its state, all of it.
    pub fn state(&self) -> &BallotLeaderElection {
        &self.state
    }
}
