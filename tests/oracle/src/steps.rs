//! "The steps": what a start and an arrival do to a sound base. The comments quote document 01.

use crate::base::{Base, State, Vote};
use crate::faults::Fault;
use crate::message::Message;

/// What a call on a sound base does besides changing it.
#[derive(Clone, Debug, PartialEq, Eq)]
pub struct Turn {
    pub discarded: Option<Discard>,
    pub broadcast: Vec<Message>,
}

/// Why a start or a message is discarded: the first reason of document 01's sentence that holds.
#[derive(Clone, Copy, Debug, PartialEq, Eq, PartialOrd, Ord)]
pub enum Discard {
    HasStarted,
    HasStopped,
    AnnounceHeld,
    Certified,
    ListFull,
    VerifyHeld,
    CorrectFinalHeld,
    VectorMessageHeld,
}

/// What is broadcast where a message is accepted.
type Taken = Result<Vec<Message>, Discard>;

impl Base {
    /// "An idle base broadcasts Announce and Verify of its own identifier, in that order, and runs. At any other state a start is
    /// discarded."
    pub fn start(&mut self) -> Turn {
        if self.state != State::Idle {
            return Turn { discarded: Some(Discard::HasStarted), broadcast: Vec::new() };
        }
        self.state = State::Running;
        let mut broadcast = vec![Message::Announce(self.own), Message::Verify(self.own)];
        if self.fault == Fault::StartOrderSwapped {
            broadcast.swap(0, 1);
        }
        Turn { discarded: None, broadcast }
    }

    /// "An idle base starts first. A stopped base discards. Then by kind".
    pub fn arrive(&mut self, link: usize, message: Message) -> Turn {
        let mut broadcast = self.start().broadcast;
        if self.stopped() && self.fault != Fault::StoppedBaseListens {
            return Turn { discarded: Some(Discard::HasStopped), broadcast };
        }
        let taken = match message {
            Message::Announce(id) => self.take_announce(link, id),
            Message::Verify(id) => self.take_verify(link, id),
            Message::CorrectFinal(list) => self.take_correct_final(link, list),
            Message::VerifyFinal(list) => self.take_verify_final(link, list),
        };
        if taken.is_err() && self.fault == Fault::DiscardAtIdleBaseIsSilent {
            broadcast.clear();
        }
        let discarded = taken.as_ref().err().copied();
        broadcast.extend(taken.unwrap_or_default());
        Turn { discarded, broadcast }
    }

    fn list_full(&self, link: usize) -> bool {
        let room = match self.fault {
            Fault::ListFullAtN => self.n,
            Fault::ListFullAtNPlusTwo => self.n + 2,
            _ => self.n + 1,
        };
        self.links[link].identifiers_held() >= room
    }

    /// "Announce g: discarded if that link has an Announce, if g is certified, or if the link's list is full.
    /// Else accepted; Verify g is broadcast; then the prime check."
    fn take_announce(&mut self, link: usize, id: u32) -> Taken {
        let second = self.links[link].announce.is_some() && self.fault != Fault::SecondAnnounceAccepted;
        let certified = match self.fault {
            Fault::OwnAnnounceAccepted => self.certified()[1..].contains(&id),
            Fault::AnnounceAtTwoLinksAccepted => id == self.own,
            _ => self.certified().contains(&id),
        };
        if second {
            return Err(Discard::AnnounceHeld);
        }
        if certified {
            return Err(Discard::Certified);
        }
        if self.list_full(link) {
            return Err(Discard::ListFull);
        }
        self.links[link].announce = Some(id);
        let mut broadcast = vec![Message::Verify(id)];
        if self.fault == Fault::AnnounceNotPassedOn {
            broadcast.clear();
        }
        broadcast.extend(self.become_prime());
        Ok(broadcast)
    }

    /// "Verify g: discarded if that link holds Verify g or is full. Else accepted, then the prime check."
    fn take_verify(&mut self, link: usize, id: u32) -> Taken {
        let repeated = self.links[link].verifies.contains(&id) && self.fault != Fault::VerifyCountedTwice;
        if repeated {
            return Err(Discard::VerifyHeld);
        }
        if self.list_full(link) {
            return Err(Discard::ListFull);
        }
        match self.fault {
            Fault::VerifyPutInFront => self.links[link].verifies.insert(0, id),
            _ => self.links[link].verifies.push(id),
        }
        if self.fault == Fault::NoPrimeCheckAfterVerify {
            return Ok(Vec::new());
        }
        Ok(self.become_prime())
    }

    /// "Correct-Final V: discarded if the link holds any Correct-Final. Else it replaces what the link holds. If no Verify-Final was ever
    /// sent and two or more links now hold Correct-Final V, Verify-Final V is broadcast. Then the secondary check on V."
    fn take_correct_final(&mut self, link: usize, list: Vec<u32>) -> Taken {
        let mut counted_twice = 0;
        match &self.links[link].vector {
            Some((Vote::CorrectFinal, _)) if self.fault != Fault::SecondCorrectFinalAccepted => return Err(Discard::CorrectFinalHeld),
            Some((Vote::VerifyFinal, held)) if self.fault == Fault::ReadingCOff && *held != list => return Err(Discard::VectorMessageHeld),
            Some((Vote::VerifyFinal, held)) if self.fault == Fault::BothVectorMessagesCounted && *held == list => counted_twice = 1,
            _ => {}
        }
        self.links[link].vector = Some((Vote::CorrectFinal, list.clone()));
        let mut broadcast = Vec::new();
        let corrects = if self.fault == Fault::VerifyFinalAtOne { 1 } else { 2 };
        let may_send = !self.sent_verify_final || self.fault == Fault::SecondVerifyFinalSent;
        if may_send && self.correct_finals(&list) >= corrects {
            self.sent_verify_final = self.fault != Fault::SentNotNoted;
            broadcast.push(Message::VerifyFinal(list.clone()));
        }
        broadcast.extend(self.become_secondary(&list, counted_twice));
        Ok(broadcast)
    }

    /// "Verify-Final V: discarded if the link holds any vector message. Else held, then the secondary check on V."
    fn take_verify_final(&mut self, link: usize, list: Vec<u32>) -> Taken {
        if self.links[link].vector.is_some() {
            return Err(Discard::VectorMessageHeld);
        }
        self.links[link].vector = Some((Vote::VerifyFinal, list.clone()));
        Ok(self.become_secondary(&list, 0))
    }

    /// "Then the final list is the certified ones sorted, Correct-Final is broadcast, state 2."
    fn become_prime(&mut self) -> Vec<Message> {
        if !self.prime_check() {
            return Vec::new();
        }
        let mut list = self.certified();
        if self.fault != Fault::FinalListUnsorted {
            list.sort_unstable();
        }
        self.state = State::Prime(list.clone());
        vec![Message::CorrectFinal(list)]
    }

    /// "Then V is final, Correct-Final V is broadcast, state 3."
    fn become_secondary(&mut self, list: &[u32], counted_twice: usize) -> Vec<Message> {
        if self.fault == Fault::PrimeCheckAfterVectorToo && self.prime_check() {
            return self.become_prime();
        }
        let mut last = list.to_vec();
        if self.fault == Fault::SecondaryCheckOnAnyList && !self.secondary_check(list, 0) {
            let held = self.links.iter().filter_map(|link| link.vector.as_ref().map(|(_, held)| held.clone()));
            last = held.into_iter().find(|held| self.secondary_check(held, 0)).unwrap_or(last);
        }
        if !self.secondary_check(&last, counted_twice) {
            return Vec::new();
        }
        self.state = State::Secondary(last.clone());
        vec![Message::CorrectFinal(last)]
    }
}
