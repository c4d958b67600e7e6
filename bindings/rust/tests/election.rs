//! An owned election: its refusals at their bounds, and a cluster of which the leader falls silent.
use kotuseraw::election::{Config, Election, HeartbeatMsg, HeartbeatReply, Message, OUTGOING, PEERS, REPLIES};
use kotuseraw::plain::{self, BallotLeaderElection, LAST_ROUND};
use kotuseraw::Ballot;

fn node(pid: u64, peers: &[u64], recovered: Option<Ballot>) -> Election {
    Election::with(Config { configuration_id: 1, pid, peers, priority: 0 }, recovered).unwrap()
}

/// A call is refused with a number, and the node stays as it was.
fn refused<T: std::fmt::Debug>(node: &mut Election, number: u64, call: impl Fn(&mut Election) -> Result<T, kotuseraw::Refusal>) {
    let before = node.clone();
    assert_eq!(call(node).unwrap_err().number(), number);
    assert_eq!(*node, before);
}

fn request(from: u64, to: u64) -> Message {
    Message { from, to, msg: HeartbeatMsg::Request { round: 1 } }
}

fn reply(node: &Election) -> Message {
    let ballot = Ballot { pid: 2, ..node.get_current_ballot() };
    let msg = HeartbeatMsg::Reply(HeartbeatReply { round: node.state().hb_round, ballot, leader: ballot, happy: true });
    Message { from: 2, to: node.state().pid, msg }
}

#[test]
fn a_pid_is_not_zero_and_peers_are_bounded() {
    let with = |pid, n: usize| {
        let peers: Vec<u64> = (0..n as u64).collect();
        Election::with(Config { configuration_id: 1, pid, peers: &peers, priority: 0 }, None)
    };
    assert_eq!(with(0, 2).unwrap_err().number(), 11);
    assert_eq!(with(9, PEERS + 1).unwrap_err().number(), 11);
    for n in 0..=PEERS {
        let mut node = with(9, n).unwrap();
        let sent: Vec<Message> = node.take_outgoing().collect();
        assert_eq!(sent, (0..n as u64).map(|to| request(9, to)).collect::<Vec<_>>());
        assert_eq!(node.take_outgoing().count(), 0);
    }
}

#[test]
fn a_recovered_leader_that_is_the_default_ballot_is_none() {
    assert_eq!(node(1, &[2], Some(Ballot::default())), node(1, &[2], None));
    let leader = Ballot { config_id: 1, n: 7, priority: 3, pid: 2 };
    let again = node(1, &[2], Some(leader));
    assert_eq!((again.leader(), again.get_current_ballot().n), (leader, 0));
    // In order it is the default, and not in equality.
    let other = Ballot { config_id: 1, ..Ballot::default() };
    assert_ne!(node(1, &[2], Some(other)), node(1, &[2], None));
}

#[test]
fn messages_that_wait_are_bounded() {
    let mut node = node(1, &[2, 3], None);
    for _ in 2..OUTGOING {
        node.handle(request(2, 1)).unwrap();
    }
    refused(&mut node, 18, |node| node.handle(request(2, 1)));
    refused(&mut node, 18, Election::new_hb_round);
    refused(&mut node, 18, |node| node.hb_timeout(Ballot::default()));
    node.handle(reply(&node)).unwrap();
    assert_eq!(node.take_outgoing().count(), OUTGOING);
    node.hb_timeout(Ballot::default()).unwrap();
}

#[test]
fn replies_of_a_round_are_bounded_and_those_of_another_change_nothing() {
    let mut node = node(1, &[2, 3], None);
    let kept = reply(&node);
    for _ in 0..REPLIES {
        node.handle(kept).unwrap();
    }
    refused(&mut node, 20, |node| node.handle(kept));
    let before = node.clone();
    let HeartbeatMsg::Reply(held) = kept.msg else { unreachable!() };
    let others = [HeartbeatReply { round: 2, ..held }, HeartbeatReply { ballot: Ballot { config_id: 2, ..held.ballot }, ..held }];
    for other in others {
        node.handle(Message { msg: HeartbeatMsg::Reply(other), ..kept }).unwrap();
        assert_eq!(node, before);
    }
    node.new_hb_round().unwrap();
    assert_eq!(node.get_ballots(), [held; REPLIES]);
    assert_eq!(node.state().heartbeat_replies.count, 0);
}

#[test]
fn numbers_have_an_end() {
    let round = BallotLeaderElection { hb_round: LAST_ROUND, ..*node(1, &[2], None).state() };
    let mut node = Election::judged(round).unwrap();
    refused(&mut node, 19, Election::new_hb_round);
    refused(&mut node, 19, |node| node.hb_timeout(Ballot::default()));
    // A takeover would number itself past the leader.
    let last = Ballot { config_id: 1, n: LAST_ROUND, priority: 0, pid: 2 };
    let mut alone = self::node(1, &[], Some(last));
    refused(&mut alone, 19, |node| node.hb_timeout(Ballot::default()));
    alone.new_hb_round().unwrap();
}

#[test]
fn a_state_is_judged() {
    let state = *node(1, &[2], None).state();
    assert_eq!(Election::judged(state).unwrap().state(), &state);
    let mut long = state;
    long.outgoing.count = OUTGOING + 1;
    let mut unused = state;
    unused.prev_replies.held[3].round = 1;
    let above = BallotLeaderElection { current_ballot: Ballot { n: state.leader.n + 1, ..state.current_ballot }, ..state };
    for broken in [BallotLeaderElection { pid: 0, ..state }, long, unused, above] {
        assert_eq!(Election::judged(broken), None);
        assert_eq!(plain::election_hb_timeout(broken, Ballot::default()).said.number, 12);
    }
}

/// A round of a cluster in which a node may be silent: it neither hears nor is heard.
fn round(nodes: &mut [Election], silent: Option<u64>) -> Vec<Option<Ballot>> {
    for _ in 0..2 {
        let sent: Vec<Message> = nodes.iter_mut().flat_map(Election::take_outgoing).collect();
        for message in sent.into_iter().filter(|m| Some(m.from) != silent && Some(m.to) != silent) {
            nodes[message.to as usize - 1].handle(message).unwrap();
        }
    }
    nodes.iter_mut().map(|node| node.hb_timeout(Ballot::default()).unwrap()).collect()
}

/// Who a node takes for the leader.
fn leaders(nodes: &[Election]) -> Vec<u64> {
    nodes.iter().map(|node| node.leader().pid).collect()
}

#[test]
fn a_leader_that_falls_silent_is_replaced() {
    let mut nodes: Vec<Election> =
        (1..=3).map(|pid| node(pid, &[1, 2, 3].into_iter().filter(|p| *p != pid).collect::<Vec<u64>>(), None)).collect();
    round(&mut nodes, None);
    assert_eq!(leaders(&nodes), [3, 3, 3]);
    let mut led = vec![];
    for _ in 0..4 {
        led = round(&mut nodes, Some(3));
    }
    assert_eq!(leaders(&nodes), [2, 2, 3]);
    assert_eq!(led[..2], [None, Some(nodes[1].get_current_ballot())]);
    assert!(nodes[1].get_current_ballot().n > nodes[2].get_current_ballot().n);
    // Heard again, the old leader follows.
    round(&mut nodes, None);
    round(&mut nodes, None);
    assert_eq!(leaders(&nodes), [2, 2, 2]);
    assert!(nodes.iter().all(Election::is_happy));
}
