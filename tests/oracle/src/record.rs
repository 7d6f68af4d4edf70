//! The record as it lies in memory: `Base` and `Link` of include/roster.rs, field by field.
//! Any bytes may stand in it; which records are sound is for soundness.rs to say.

use crate::limits::{LIST_ROOM, MOST_BASES, MOST_LINKS};

pub use crate::roster::{Base as RawBase, Link as RawLink};

impl RawLink {
    pub const BLANK: RawLink = RawLink { announce: 0, verifies: [0; LIST_ROOM], list: [0; MOST_BASES], verify_count: 0, held: 0 };
}

impl RawBase {
    pub const BLANK: RawBase =
        RawBase { n: 0, t: 0, state: 0, sent: 0, own: 0, final_list: [0; MOST_BASES], links: [RawLink::BLANK; MOST_LINKS] };

    /// The links in use, as far as n is a number of bases that the record has room for.
    pub fn links_in_use(&self) -> &[RawLink] {
        &self.links[..(self.n as usize).saturating_sub(1).min(MOST_LINKS)]
    }
}

/// The first field in which two records differ, with both values.
pub fn difference(left: &RawBase, right: &RawBase) -> Option<String> {
    let fields = |r: &RawBase| [("n", r.n as u32), ("t", r.t as u32), ("state", r.state as u32), ("sent", r.sent as u32), ("own", r.own)];
    for ((name, a), (_, b)) in fields(left).into_iter().zip(fields(right)) {
        if a != b {
            return Some(format!("{name} {a} / {b}"));
        }
    }
    if left.final_list != right.final_list {
        return Some(format!("final_list {:?} / {:?}", left.final_list, right.final_list));
    }
    (0..MOST_LINKS)
        .find(|&i| left.links[i] != right.links[i])
        .map(|i| format!("link {}: {:?} / {:?}", i + 1, left.links[i], right.links[i]))
}
