//! The fields of a record and of a stop-sign by docs/CALLS.md's numbers. What sets one is None where there is no such field, or where
//! the number is too large for it.
use crate::{flag, replies};
use kotuseraw::plain::{Ballot, IndexRecord, StopSign, NODES};

fn set_ballot(ballot: &mut Ballot, field: u64, v: u64) -> Option<()> {
    match field {
        0 => ballot.config_id = u32::try_from(v).ok()?,
        1 => ballot.n = u32::try_from(v).ok()?,
        2 => ballot.priority = u32::try_from(v).ok()?,
        _ => ballot.pid = v,
    }
    Some(())
}

/// A stop-sign's fields after its nodes: two, then the metadata.
const METADATA_HELD: u64 = 2 + NODES as u64;
const METADATA_LEN: u64 = METADATA_HELD + 1;
const METADATA: u64 = METADATA_LEN + 1;

pub fn set_sign(sign: &mut StopSign, field: u64, v: u64) -> Option<()> {
    match field {
        0 => sign.config_id = u32::try_from(v).ok()?,
        1 => sign.node_count = v as usize,
        METADATA_HELD => sign.metadata_held = flag(v)?,
        METADATA_LEN => sign.metadata_len = v as usize,
        _ if field < METADATA_HELD => sign.nodes[field as usize - 2] = v,
        _ => *sign.metadata.get_mut((field - METADATA) as usize)? = u8::try_from(v).ok()?,
    }
    Some(())
}

pub fn set(record: &mut IndexRecord, field: u64, v: u64) -> Option<()> {
    match field {
        0 => record.batch_size = v,
        1 => record.retained = v as usize,
        2 => record.batched = v as usize,
        3 => record.compacted.0 = v,
        4 => record.decided.0 = v,
        5..=8 => set_ballot(&mut record.promise, field - 5, v)?,
        9..=12 => set_ballot(&mut record.accepted_round, field - 9, v)?,
        13 => record.snapshot_held = flag(v)?,
        14 => record.keys = v as usize,
        15 => record.stop_held = flag(v)?,
        _ => set_sign(&mut record.stop, field - 16, v)?,
    }
    Some(())
}

fn ballot(ballot: &Ballot) -> [u64; 4] {
    [ballot.config_id as u64, ballot.n as u64, ballot.priority as u64, ballot.pid]
}

/// A record as line 0 shows it.
pub fn shown(record: &IndexRecord) -> Vec<u64> {
    let stop = &record.stop;
    let mut shown = vec![record.batch_size, record.retained as u64, record.batched as u64, record.compacted.0, record.decided.0];
    shown.extend(ballot(&record.promise));
    shown.extend(ballot(&record.accepted_round));
    shown.extend([record.snapshot_held as u64, record.keys as u64, record.stop_held as u64]);
    shown.extend([stop.config_id as u64, stop.node_count as u64]);
    shown.extend(replies::area(&stop.nodes));
    shown.extend([stop.metadata_held as u64, stop.metadata_len as u64]);
    shown.extend(replies::area(&stop.metadata.map(u64::from)));
    shown
}
