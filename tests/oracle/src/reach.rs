//! How often a history came to the states that matter: ends, and figures next to a threshold; and the most slots of a base's life.

use crate::airtime::{reachable, Airtime};
use crate::base::{Base, State, Vote};
use crate::engine::Answer;
use crate::faults::Fault;
use crate::limits::{FEWEST_BASES, MOST_BASES};
use crate::record::RawBase;
use std::collections::BTreeMap;

#[derive(Clone, Debug, Default)]
pub struct Reach {
    counts: BTreeMap<&'static str, u64>,
    /// Of each n, the most slots that a base took in its life, and how many lives took so many.
    slots: BTreeMap<usize, (usize, u64)>,
}

/// Every state that is counted, so that one never reached shows as 0.
pub const STATES: [&str; 18] = [
    "ends prime",
    "ends secondary",
    "prime at t suspects, t > 0",
    "prime at a sum of n² − 2t, t > 0",
    "n certified, sum n² − 2t − 1",
    "n certified, t + 1 suspects",
    "n certified, sum enough, too many suspects",
    "n certified, few suspects, sum too small",
    "secondary at a tally of t + 1, t > 1",
    "two Correct-Final, tally t, runs on",
    "tally t + 1, one Correct-Final, runs on",
    "a link's list comes to n + 1",
    "Correct-Final over Verify-Final of another list",
    "Correct-Final over Verify-Final of that list",
    "false identifier certified",
    "false Verify-Final sent",
    "false list held",
    "all stopped, nothing waits",
];

/// A run of this many seconds comes to each state at least so often: some nine times as often on a busy processor.
pub const SECONDS: u64 = 60;
pub const LEAST: u64 = 10;

impl Reach {
    pub fn count(&self, state: &'static str) -> u64 {
        self.counts.get(state).copied().unwrap_or(0)
    }

    /// The most slots seen, and in how many lives.
    pub fn most_seen(&self, n: usize) -> (usize, u64) {
        self.slots.get(&n).copied().unwrap_or_default()
    }

    /// The states that a run of `SECONDS` should have come to more often, and the lives that take as many slots as can be.
    pub fn missed(&self) -> Vec<String> {
        let states = STATES.into_iter().filter(|state| self.count(state) < LEAST).map(str::to_string);
        let seldom = |&n: &usize| {
            let (seen, lives) = self.most_seen(n);
            seen < reachable(n) || lives < LEAST
        };
        let slots = (FEWEST_BASES..=MOST_BASES).filter(seldom).map(|n| format!("a life of {} slots, n = {n}", reachable(n)));
        states.chain(slots).collect()
    }

    /// What a base of n has taken in its life.
    pub fn observe_life(&mut self, n: usize, spent: Airtime) {
        let (seen, lives) = self.slots.entry(n).or_default();
        if spent.together() > *seen {
            (*seen, *lives) = (spent.together(), 0);
        }
        *lives += u64::from(spent.together() == *seen);
    }

    pub fn add(&mut self, state: &'static str) {
        debug_assert!(STATES.contains(&state));
        *self.counts.entry(state).or_default() += 1;
    }

    fn add_if(&mut self, holds: bool, state: &'static str) {
        if holds {
            self.add(state);
        }
    }

    /// What an accepted call came to. `truth` has the true identifiers, sorted.
    pub fn observe(&mut self, before: &RawBase, after: &RawBase, answer: Answer, truth: &[u32]) {
        if !matches!(answer, Answer::Accepted(_)) {
            return;
        }
        let (Ok(was), Ok(base)) = (Base::admit(before, Fault::None), Base::admit(after, Fault::None)) else { return };
        self.observe_prime(&base);
        self.observe_secondary(&was, &base);
        self.observe_links(&was, &base, truth);
    }

    fn observe_prime(&mut self, base: &Base) {
        let figures = base.prime_figures();
        let enough = base.n * base.n - 2 * base.t;
        if figures.certified != base.n {
            return;
        }
        if matches!(base.state, State::Prime(_)) {
            self.add("ends prime");
            self.add_if(base.t > 0 && figures.suspects == base.t, "prime at t suspects, t > 0");
            self.add_if(base.t > 0 && figures.sum == enough, "prime at a sum of n² − 2t, t > 0");
        }
        if base.state == State::Running {
            self.add_if(figures.sum + 1 == enough, "n certified, sum n² − 2t − 1");
            self.add_if(figures.suspects == base.t + 1, "n certified, t + 1 suspects");
            self.add_if(figures.sum >= enough && figures.suspects > base.t, "n certified, sum enough, too many suspects");
            self.add_if(figures.sum < enough && figures.suspects <= base.t, "n certified, few suspects, sum too small");
        }
    }

    fn observe_secondary(&mut self, was: &Base, base: &Base) {
        if let State::Secondary(list) = &base.state {
            self.add("ends secondary");
            self.add_if(base.t > 1 && base.list_tally(list) == base.t + 1, "secondary at a tally of t + 1, t > 1");
        }
        let changed = was.links.iter().zip(&base.links).find(|(old, new)| old.vector != new.vector);
        let Some((old, new)) = changed else { return };
        let Some((vote, list)) = &new.vector else { return };
        if base.state == State::Running {
            self.add_if(base.correct_finals(list) >= 2 && base.list_tally(list) == base.t, "two Correct-Final, tally t, runs on");
            self.add_if(base.correct_finals(list) == 1 && base.list_tally(list) == base.t + 1, "tally t + 1, one Correct-Final, runs on");
        }
        if let (Vote::CorrectFinal, Some((Vote::VerifyFinal, held))) = (vote, &old.vector) {
            self.add_if(held != list, "Correct-Final over Verify-Final of another list");
            self.add_if(held == list, "Correct-Final over Verify-Final of that list");
        }
    }

    fn observe_links(&mut self, was: &Base, base: &Base, truth: &[u32]) {
        for (old, new) in was.links.iter().zip(&base.links) {
            let full = new.identifiers_held() == base.n + 1;
            self.add_if(full && old.identifiers_held() == base.n, "a link's list comes to n + 1");
            let false_announce = new.announce.is_some_and(|id| !truth.contains(&id));
            self.add_if(false_announce && old.announce.is_none(), "false identifier certified");
            let false_list = new.vector.as_ref().is_some_and(|(_, list)| list != truth);
            self.add_if(false_list && new.vector != old.vector, "false list held");
        }
        if base.sent_verify_final && !was.sent_verify_final {
            let true_list = base.correct_finals(truth) >= 2;
            self.add_if(!true_list, "false Verify-Final sent");
        }
    }
}

#[cfg(test)]
mod tests {
    use super::*;
    use crate::airtime::bound;

    #[test]
    fn lives_of_the_most_slots_are_asked_for() {
        let mut reach = Reach::default();
        let asked = |reach: &Reach| reach.missed().iter().filter(|what| what.contains("slots")).count();
        let sizes = (FEWEST_BASES..=MOST_BASES).count();
        assert_eq!(asked(&reach), sizes);
        (0..LEAST).for_each(|_| reach.observe_life(MOST_BASES - 1, Airtime { own: 2, relayed: 0 }));
        (1..LEAST).for_each(|_| reach.observe_life(MOST_BASES, bound(MOST_BASES)));
        assert_eq!((asked(&reach), reach.most_seen(MOST_BASES)), (sizes, (35, LEAST - 1)));
        reach.observe_life(MOST_BASES, bound(MOST_BASES));
        assert_eq!(asked(&reach), sizes - 1);
    }
}
