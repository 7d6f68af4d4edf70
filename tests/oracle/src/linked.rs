//! The proved engine, linked in as a C static library and called as any Rust program calls it: by include/roster.rs.

use crate::engine::{Answer, Engine, Leader, Reading, Written, NO_ANSWER};
use crate::faulty::RawSet;
use crate::limits::MOST_BASES;
use crate::reader::Number;
use crate::record::RawBase;
use crate::refusal;
use crate::roster;

pub struct Linked;

/// The identifiers of a body, high byte first, zeros behind.
fn identifiers(burst: &[u8], start: usize, count: usize) -> [u32; MOST_BASES] {
    let mut ids = [0; MOST_BASES];
    for (id, bytes) in ids.iter_mut().zip(burst[start..].chunks_exact(4).take(count)) {
        *id = u32::from_be_bytes([bytes[0], bytes[1], bytes[2], bytes[3]]);
    }
    ids
}

impl Engine for Linked {
    fn name(&self) -> String {
        "the linked engine".to_string()
    }

    fn idle(&mut self, n: usize, t: usize, own: u32, record: &mut RawBase) -> Number {
        let made = roster::idle(n, t, own);
        match made.refusal {
            0 => *record = made.base,
            refusal::BASES..=refusal::OWN_IDENTIFIER if made.base == RawBase::BLANK => (),
            _ => return NO_ANSWER,
        }
        made.refusal
    }

    fn start(&mut self, record: &mut RawBase, out: &mut [u8]) -> Answer {
        Answer::of(roster::start(record, out))
    }

    fn arrive(&mut self, record: &mut RawBase, link: usize, burst: &[u8], out: &mut [u8]) -> Answer {
        Answer::of(roster::arrive(record, link, burst, out))
    }

    fn leader(&mut self, record: &RawBase) -> Leader {
        let mut lent = *record;
        let answer = roster::leader(&mut lent);
        if lent != *record {
            return Leader::Refused(NO_ANSWER);
        }
        match (answer.outcome, answer.refusal, answer.leader) {
            (roster::LEADER_NAMED, 0, leader) => Leader::Is(leader),
            (roster::NOT_STOPPED, 0, 0) => Leader::NotStopped,
            (roster::LEADER_REFUSED, number @ refusal::BASES..=refusal::RECORD, 0) => Leader::Refused(number),
            _ => Leader::Refused(NO_ANSWER),
        }
    }

    fn read(&mut self, n: usize, burst: &[u8]) -> Reading {
        let taken = roster::read(n, burst);
        match (taken.refusal, taken.kind, taken.count, taken.start) {
            (0, kind @ 1..=4, count, start) if taken.ids == identifiers(burst, start, count) => Reading::Frame { kind, count, start },
            (number @ refusal::BASES..=refusal::NOT_ASCENDING, 0, 0, 0) if taken.ids == [0; MOST_BASES] => Reading::Refused(number),
            _ => Reading::Refused(NO_ANSWER),
        }
    }

    fn write(&mut self, n: usize, kind: u8, ids: &[u32], out: &mut [u8]) -> Result<Written, Number> {
        Written::of(roster::write(n, kind, ids, out))
    }

    fn replay(&mut self, schedule: &[u8], out: &mut [u8]) -> usize {
        roster::replay(schedule, out)
    }

    fn faulty_count(&mut self, n: usize, t: usize) -> Result<usize, Number> {
        let answer = roster::faulty_count(n, t);
        match (answer.refusal, answer.count) {
            (0, count) => Ok(count),
            (number @ (refusal::BASES | refusal::FAULTY_LIMIT | refusal::LARGE_NET), 0) => Err(number),
            _ => Err(NO_ANSWER),
        }
    }

    fn faulty_set(&mut self, n: usize, t: usize, number: usize) -> RawSet {
        roster::faulty_set(n, t, number)
    }

    fn faulty_text(&mut self, schedule: &[u8], out: &mut [u8]) -> usize {
        roster::faulty_text(schedule, out)
    }
}
