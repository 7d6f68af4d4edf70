//! What a base holds, in this model's own shape, and the way from and to the raw record.

use crate::faults::Fault;
use crate::limits::{most_faulty, LIST_ROOM, MOST_BASES};
use crate::reader::{net_size, Number};
use crate::record::{RawBase, RawLink};
use crate::refusal;
use crate::soundness::broken_rules;

#[derive(Clone, Debug, PartialEq, Eq)]
pub enum State {
    Idle,
    Running,
    Prime(Vec<u32>),
    Secondary(Vec<u32>),
}

#[derive(Clone, Copy, Debug, PartialEq, Eq)]
pub enum Vote {
    CorrectFinal,
    VerifyFinal,
}

#[derive(Clone, Debug, Default, PartialEq, Eq)]
pub struct Link {
    pub announce: Option<u32>,
    pub verifies: Vec<u32>,
    pub vector: Option<(Vote, Vec<u32>)>,
}

#[derive(Clone, Debug, PartialEq, Eq)]
pub struct Base {
    pub n: usize,
    pub t: usize,
    pub own: u32,
    pub state: State,
    pub sent_verify_final: bool,
    /// Link k of document 01 is `links[k - 1]`.
    pub links: Vec<Link>,
    /// Which one thing this model does wrong.
    pub fault: Fault,
}

impl Base {
    /// An idle record, made from n, t and an identifier: refusals 1 to 3.
    pub fn idle(n: usize, t: usize, own: u32, fault: Fault) -> Result<Base, Number> {
        judge_net(n, t, own, fault)?;
        Ok(Base { n, t, own, state: State::Idle, sent_verify_final: false, links: vec![Link::default(); n - 1], fault })
    }

    /// The base that a raw record stands for: refusals 1 to 4.
    pub fn admit(raw: &RawBase, fault: Fault) -> Result<Base, Number> {
        judge_net(raw.n as usize, raw.t as usize, raw.own, fault)?;
        let mut broken = broken_rules(raw);
        if let Fault::RuleSkipped(rule) = fault {
            broken.remove(&rule);
        }
        if !broken.is_empty() {
            return Err(refusal::RECORD);
        }
        Ok(Base::of(raw, fault))
    }

    fn of(raw: &RawBase, fault: Fault) -> Base {
        let n = raw.n as usize;
        let list = raw.final_list[..n].to_vec();
        let state = match raw.state {
            0 => State::Idle,
            2 => State::Prime(list),
            3 => State::Secondary(list),
            _ => State::Running,
        };
        let links = raw.links[..n - 1].iter().map(|link| Link::of(n, link)).collect();
        Base { n, t: raw.t as usize, own: raw.own, state, sent_verify_final: raw.sent == 1, links, fault }
    }

    pub fn raw(&self) -> RawBase {
        let mut raw = RawBase { n: self.n as u8, t: self.t as u8, own: self.own, sent: self.sent_verify_final as u8, ..RawBase::BLANK };
        raw.state = match self.state {
            State::Idle => 0,
            State::Running => 1,
            State::Prime(_) => 2,
            State::Secondary(_) => 3,
        };
        for (place, id) in raw.final_list.iter_mut().zip(self.final_list()) {
            *place = *id;
        }
        for (place, link) in raw.links.iter_mut().zip(&self.links) {
            *place = link.raw();
        }
        raw
    }

    /// The final list of a stopped base, else an empty one.
    pub fn final_list(&self) -> &[u32] {
        match &self.state {
            State::Prime(list) | State::Secondary(list) => list,
            State::Idle | State::Running => &[],
        }
    }

    pub fn stopped(&self) -> bool {
        matches!(self.state, State::Prime(_) | State::Secondary(_))
    }
}

/// Refusals 1 to 3.
fn judge_net(n: usize, t: usize, own: u32, fault: Fault) -> Result<(), Number> {
    net_size(n)?;
    if fault == Fault::ThreeBeforeTwo && own == 0 {
        return Err(refusal::OWN_IDENTIFIER);
    }
    judge_limit(n, t, fault)?;
    if own == 0 {
        return Err(refusal::OWN_IDENTIFIER);
    }
    Ok(())
}

/// "2. t is above its limit.", where n has passed number 1.
pub fn judge_limit(n: usize, t: usize, fault: Fault) -> Result<(), Number> {
    if t > most_faulty(n) + usize::from(fault == Fault::HigherLimitOfT) {
        return Err(refusal::FAULTY_LIMIT);
    }
    Ok(())
}

impl Link {
    fn of(n: usize, raw: &RawLink) -> Link {
        let count = (raw.verify_count as usize).min(LIST_ROOM);
        let list = raw.list[..n].to_vec();
        Link {
            announce: Some(raw.announce).filter(|&id| id != 0),
            verifies: raw.verifies[..count].to_vec(),
            vector: match raw.held {
                3 => Some((Vote::CorrectFinal, list)),
                4 => Some((Vote::VerifyFinal, list)),
                _ => None,
            },
        }
    }

    fn raw(&self) -> RawLink {
        let mut raw = RawLink { announce: self.announce.unwrap_or(0), verify_count: self.verifies.len() as u16, ..RawLink::BLANK };
        for (place, id) in raw.verifies.iter_mut().zip(&self.verifies) {
            *place = *id;
        }
        if let Some((vote, list)) = &self.vector {
            raw.held = match vote {
                Vote::CorrectFinal => 3,
                Vote::VerifyFinal => 4,
            };
            raw.list[..list.len().min(MOST_BASES)].copy_from_slice(list);
        }
        raw
    }

    /// "Announce and Verify together".
    pub fn identifiers_held(&self) -> usize {
        self.verifies.len() + usize::from(self.announce.is_some())
    }
}
