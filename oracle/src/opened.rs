//! The Rust's election opened: its whole state read and set, as the boundary's structs have it. This module stands below the judged file,
//! so that it may see its fields. A list that has more than the boundary's has room for is told as None.
use super::{BLEConfig, Ballot, BallotLeaderElection, HeartbeatMsg, HeartbeatReply, HeartbeatRequest};
use crate::messages::ballot_leader_election::BLEMessage;
use crate::util::Quorum;
use kotuseraw::plain;

pub fn ballot(b: plain::Ballot) -> Ballot {
    Ballot::with(b.config_id, b.n, b.priority, b.pid)
}

pub fn ballot_back(b: Ballot) -> plain::Ballot {
    plain::Ballot {
        config_id: b.config_id,
        n: b.n,
        priority: b.priority,
        pid: b.pid,
    }
}

fn reply(r: &plain::HeartbeatReply) -> HeartbeatReply {
    HeartbeatReply {
        round: r.round,
        ballot: ballot(r.ballot),
        leader: ballot(r.leader),
        happy: r.happy,
    }
}

fn reply_back(r: &HeartbeatReply) -> plain::HeartbeatReply {
    plain::HeartbeatReply {
        round: r.round,
        ballot: ballot_back(r.ballot),
        leader: ballot_back(r.leader),
        happy: r.happy,
    }
}

pub(crate) fn message(m: &plain::BLEMessage) -> BLEMessage {
    let msg = match m.is_reply {
        true => HeartbeatMsg::Reply(reply(&m.reply)),
        false => HeartbeatMsg::Request(HeartbeatRequest {
            round: m.reply.round,
        }),
    };
    BLEMessage {
        from: m.from,
        to: m.to,
        msg,
    }
}

fn message_back(m: &BLEMessage) -> plain::BLEMessage {
    let (is_reply, reply) = match &m.msg {
        HeartbeatMsg::Reply(r) => (true, reply_back(r)),
        HeartbeatMsg::Request(r) => {
            let none = plain::HeartbeatReply::default();
            (false, plain::HeartbeatReply { round: r.round, ..none })
        }
    };
    plain::BLEMessage {
        from: m.from,
        to: m.to,
        is_reply,
        reply,
    }
}

/// A list as the boundary has it: its count, and its elements with zeros after them.
fn laid<T: Copy + Default, const N: usize>(list: Vec<T>) -> Option<(usize, [T; N])> {
    let mut held = [T::default(); N];
    held.get_mut(..list.len())?.copy_from_slice(&list);
    Some((list.len(), held))
}

pub(crate) fn replies_back(list: &[HeartbeatReply]) -> Option<plain::Replies> {
    let (count, held) = laid(list.iter().map(reply_back).collect())?;
    Some(plain::Replies { count, held })
}

pub(crate) fn outgoing_back(list: &[BLEMessage]) -> Option<plain::Outgoing> {
    let (count, held) = laid(list.iter().map(message_back).collect())?;
    Some(plain::Outgoing { count, held })
}

/// The Rust in a state.
pub(crate) fn brought(e: &plain::BallotLeaderElection) -> BallotLeaderElection {
    let replies = |l: &plain::Replies| l.held[..l.count].iter().map(reply).collect();
    BallotLeaderElection {
        configuration_id: e.configuration_id,
        pid: e.pid,
        peers: e.peers.held[..e.peers.count].to_vec(),
        hb_round: e.hb_round,
        heartbeat_replies: replies(&e.heartbeat_replies),
        prev_replies: replies(&e.prev_replies),
        current_ballot: ballot(e.current_ballot),
        leader: ballot(e.leader),
        happy: e.happy,
        quorum: Quorum::with(None, e.peers.count + 1),
        outgoing: e.outgoing.held[..e.outgoing.count].iter().map(message).collect(),
    }
}

/// The state that the Rust is in.
pub(crate) fn seen(e: &BallotLeaderElection) -> Option<plain::BallotLeaderElection> {
    let (count, held) = laid(e.peers.clone())?;
    Some(plain::BallotLeaderElection {
        configuration_id: e.configuration_id,
        pid: e.pid,
        peers: plain::Peers { count, held },
        hb_round: e.hb_round,
        heartbeat_replies: replies_back(&e.heartbeat_replies)?,
        prev_replies: replies_back(&e.prev_replies)?,
        current_ballot: ballot_back(e.current_ballot),
        leader: ballot_back(e.leader),
        happy: e.happy,
        outgoing: outgoing_back(&e.outgoing)?,
    })
}

/// How many messages wait, and how many replies this round has.
pub(crate) fn lengths(e: &BallotLeaderElection) -> (usize, usize) {
    (e.outgoing.len(), e.heartbeat_replies.len())
}

/// A node's configuration, with any peers.
pub(crate) fn config(c: plain::BLEConfig, peers: &[u64]) -> BLEConfig {
    BLEConfig {
        configuration_id: c.configuration_id,
        pid: c.pid,
        peers: peers.to_vec(),
        priority: c.priority,
        flexible_quorum: None,
        buffer_size: 0,
    }
}
