//! What the judged files name and their text does not hold: the shapes are ours. Only what the files need of each is here.
#![allow(dead_code)]

pub mod util {
    use crate::storage::{Entry, SnapshotType, StopSign};

    pub type NodeId = u64;
    pub type ConfigurationId = u32;

    #[derive(Clone, Debug)]
    pub struct AcceptedMetaData<T: Entry> {
        pub accepted_idx: usize,
        pub entries: Vec<T>,
    }

    #[derive(Clone, Debug)]
    pub enum IndexEntry {
        Entry,
        Compacted,
        StopSign(StopSign),
    }

    #[derive(Clone, Debug)]
    pub struct SnapshottedEntry<T: Entry> {
        pub trimmed_idx: usize,
        pub snapshot: T::Snapshot,
    }

    impl<T: Entry> SnapshottedEntry<T> {
        pub fn with(trimmed_idx: usize, snapshot: T::Snapshot) -> Self {
            SnapshottedEntry {
                trimmed_idx,
                snapshot,
            }
        }
    }

    #[derive(Clone, Debug)]
    pub enum LogEntry<T: Entry> {
        Decided(T),
        Undecided(T),
        Trimmed(usize),
        Snapshotted(SnapshottedEntry<T>),
        StopSign(StopSign, bool),
    }

    #[derive(Clone, Debug)]
    pub struct LogSync<T: Entry> {
        pub decided_snapshot: Option<SnapshotType<T>>,
        pub suffix: Vec<T>,
        pub sync_idx: usize,
        pub stopsign: Option<StopSign>,
    }

    #[derive(Clone, Copy, Debug, PartialEq)]
    pub struct FlexibleQuorum {
        pub read_quorum_size: usize,
        pub write_quorum_size: usize,
    }

    #[derive(Clone, Copy, Debug)]
    pub struct Quorum(usize);

    impl Quorum {
        pub fn with(_flexible: Option<FlexibleQuorum>, nodes: usize) -> Self {
            Quorum(nodes / 2 + 1)
        }

        pub fn is_prepare_quorum(&self, nodes: usize) -> bool {
            nodes >= self.0
        }

        pub fn is_accept_quorum(&self, nodes: usize) -> bool {
            nodes >= self.0
        }
    }

    pub mod defaults {
        pub const BLE_BUFFER_SIZE: usize = 100;
    }
}

pub mod sequence_paxos {
    pub enum Role {
        Leader,
        Follower,
    }

    pub enum Phase {
        Accept,
        Other,
    }
}

pub mod messages {
    pub mod ballot_leader_election {
        use crate::{ballot_leader_election::Ballot, util::NodeId};

        pub struct HeartbeatRequest {
            pub round: u32,
        }

        #[derive(Clone, Debug)]
        pub struct HeartbeatReply {
            pub round: u32,
            pub ballot: Ballot,
            pub leader: Ballot,
            pub happy: bool,
        }

        pub enum HeartbeatMsg {
            Request(HeartbeatRequest),
            Reply(HeartbeatReply),
        }

        pub struct BLEMessage {
            pub from: NodeId,
            pub to: NodeId,
            pub msg: HeartbeatMsg,
        }
    }
}

#[derive(Clone, Debug, PartialEq)]
pub struct ClusterConfig {
    pub configuration_id: util::ConfigurationId,
    pub nodes: Vec<util::NodeId>,
    pub flexible_quorum: Option<util::FlexibleQuorum>,
}

pub struct ServerConfig {
    pub pid: util::NodeId,
    pub leader_priority: u32,
}

pub struct OmniPaxosConfig {
    pub cluster_config: ClusterConfig,
    pub server_config: ServerConfig,
}

#[derive(Debug)]
pub enum CompactionErr {
    UndecidedIndex(usize),
    TrimmedIndex(usize),
}

impl std::fmt::Display for CompactionErr {
    fn fmt(&self, f: &mut std::fmt::Formatter<'_>) -> std::fmt::Result {
        write!(f, "{self:?}")
    }
}

impl std::error::Error for CompactionErr {}
