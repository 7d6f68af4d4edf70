//! Certified identifiers, the two tallies, and the prime and the secondary check.

use crate::base::{Base, Vote};
use crate::faults::Fault;

/// What the prime check looks at.
#[derive(Clone, Copy, Debug, PartialEq, Eq)]
pub struct PrimeFigures {
    pub certified: usize,
    pub sum: usize,
    pub suspects: usize,
}

impl Base {
    /// "Certified: the own identifier and every accepted Announce identifier."
    pub fn certified(&self) -> Vec<u32> {
        let announced = self.links.iter().filter_map(|link| link.announce);
        std::iter::once(self.own).chain(announced).collect()
    }

    pub fn is_certified(&self, id: u32) -> bool {
        id == self.own || self.links.iter().any(|link| link.announce == Some(id))
    }

    /// "The tally of an identifier is the number of links holding it as Verify, plus one if certified."
    pub fn tally(&self, id: u32) -> usize {
        let holding = |verifies: &[u32]| match self.fault {
            Fault::VerifyCountedTwice => verifies.iter().filter(|&&held| held == id).count(),
            _ => usize::from(verifies.contains(&id)),
        };
        let verified: usize = self.links.iter().map(|link| holding(&link.verifies)).sum();
        let announced_counts =
            self.fault == Fault::AnnounceCountedAsVerify && self.links.iter().any(|l| l.announce == Some(id) && !l.verifies.contains(&id));
        verified + usize::from(self.is_certified(id)) + usize::from(announced_counts)
    }

    /// "The tally of a list is the number of links holding a vector message with it."
    pub fn list_tally(&self, list: &[u32]) -> usize {
        self.links.iter().filter(|link| link.vector.as_ref().is_some_and(|(_, held)| held == list)).count()
    }

    /// The number of links that hold Correct-Final of the list.
    pub fn correct_finals(&self, list: &[u32]) -> usize {
        self.links
            .iter()
            .filter(|link| link.vector.as_ref().is_some_and(|(vote, held)| *vote == Vote::CorrectFinal && held == list))
            .count()
    }

    /// "A pair of certified identifiers is suspect if the link that announced either lacks a Verify of the other.
    /// For a pair with the own identifier, only the other's link is looked at."
    pub fn suspects(&self) -> usize {
        let announced: Vec<(u32, &[u32])> = self.links.iter().filter_map(|link| Some((link.announce?, link.verifies.as_slice()))).collect();
        let own_pairs = match self.fault {
            Fault::OwnPairsSkipped => 0,
            _ => announced.iter().filter(|(_, verifies)| !verifies.contains(&self.own)).count(),
        };
        let mut others = 0;
        for (i, (one, held_from_one)) in announced.iter().enumerate() {
            for (other, held_from_other) in &announced[i + 1..] {
                let (lacks, lacks_too) = (!held_from_one.contains(other), !held_from_other.contains(one));
                others += match self.fault {
                    Fault::SuspectNeedsBothMissing => usize::from(lacks && lacks_too),
                    Fault::SuspectCountedPerVerify => usize::from(lacks) + usize::from(lacks_too),
                    _ => usize::from(lacks || lacks_too),
                };
            }
        }
        own_pairs + others
    }

    /// The tallies of the certified identifiers, summed.
    pub fn tally_sum(&self) -> usize {
        let sum: usize = self.certified().into_iter().map(|id| self.tally(id)).sum();
        match self.fault {
            Fault::TalliesAdded => sum + self.links.iter().filter(|link| link.vector.is_some()).count(),
            _ => sum,
        }
    }

    pub fn prime_figures(&self) -> PrimeFigures {
        PrimeFigures { certified: self.certified().len(), sum: self.tally_sum(), suspects: self.suspects() }
    }

    /// "n identifiers are certified; their tallies sum to at least n² − 2t; at most t pairs are suspect."
    pub fn prime_check(&self) -> bool {
        let needed = match self.fault {
            Fault::NoSumTest => 0,
            Fault::SumOneLess => self.n * self.n - 2 * self.t - 1,
            Fault::SumOneMore => self.n * self.n - 2 * self.t + 1,
            _ => self.n * self.n - 2 * self.t,
        };
        let allowed = match self.fault {
            Fault::SuspectsUpToTPlusOne => self.t + 1,
            Fault::NoSuspectTest => usize::MAX,
            _ => self.t,
        };
        self.certified().len() == self.n && self.tally_sum() >= needed && self.suspects() <= allowed
    }

    /// "The tally of V is at least t + 1 and two links hold Correct-Final V."
    pub fn secondary_check(&self, list: &[u32], counted_twice: usize) -> bool {
        let needed = if self.fault == Fault::TForTPlusOne { self.t } else { self.t + 1 };
        let corrects = if self.fault == Fault::OneCorrectFinalIsEnough { 1 } else { 2 };
        self.list_tally(list) + counted_twice >= needed && self.correct_finals(list) >= corrects
    }
}
