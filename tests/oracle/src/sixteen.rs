//! The history in which bases take as many slots as a base of sixteen can: 35.
//!
//! Every base hears every Announce, and so relays fifteen Verifies. Bases 2 and 3 alone hear Verifies and become prime. Their two
//! Correct-Finals make each of the others broadcast a Verify-Final and stop as secondary in one call: with t = 0 a tally of one is enough.

use crate::course::Course;
use crate::faults::Fault;
use crate::limits::MOST_BASES;
use crate::net::{Event, History, Net, Setting};
use std::ops::RangeInclusive;

const IDS: [u32; MOST_BASES] = [340, 120, 560, 210, 780, 450, 670, 130, 890, 290, 610, 150, 930, 520, 740, 380];
/// The bases that become prime.
pub const PRIMES: [usize; 2] = [2, 3];

/// The history, and the net that it leaves.
pub fn history() -> (History, Net) {
    let mut course = Course::new(Setting { t: 0, ids: IDS.to_vec(), faulty: [].into() }, Fault::None);
    let verifies = announces_carried(&mut course);
    verifies_carried_to_the_primes(&mut course, &verifies);
    others(MOST_BASES).for_each(|to| PRIMES.into_iter().for_each(|from| course.carry(from, to, verifies.end() + 1)));
    course.end()
}

/// The bases of n that do not become prime.
fn others(n: usize) -> impl Iterator<Item = usize> {
    (1..=n).filter(|b| !PRIMES.contains(b))
}

/// Every base starts, and every Announce is carried. Answers the numbers of a base's broadcasts behind its Announce: Verifies alone, at
/// every base as many.
fn announces_carried(course: &mut Course) -> RangeInclusive<usize> {
    let bases = 1..=course.net.setting.n();
    bases.clone().for_each(|at| course.happen(Event::Start { at }));
    for from in bases.clone() {
        bases.clone().filter(|&to| to != from).for_each(|to| course.carry(from, to, 1));
    }
    2..=course.net.logs[0].len()
}

fn verifies_carried_to_the_primes(course: &mut Course, verifies: &RangeInclusive<usize>) {
    for to in PRIMES {
        for from in (1..=course.net.setting.n()).filter(|&from| from != to) {
            verifies.clone().for_each(|k| course.carry(from, to, k));
        }
    }
}

#[cfg(test)]
mod tests {
    use super::*;
    use crate::airtime;
    use crate::demand;
    use crate::limits::LONGEST_SCHEDULE;
    use crate::message::Message;
    use crate::schedule::render;

    #[test]
    fn all_but_the_primes_take_35_slots() {
        let (history, net) = history();
        for b in 1..=MOST_BASES {
            let expected = if PRIMES.contains(&b) { (2, 26) } else { (3, 35) };
            assert_eq!((net.records[b - 1].state, net.spent[b - 1].together()), expected, "base {b}");
        }
        assert_eq!((demand::broken(&net), demand::overspent(&net)), (None, None));
        assert!(render(&history).len() < LONGEST_SCHEDULE);
    }

    /// Three faulty links join 2, 3 and 4. Two of them bring each of 2 and 3 a Correct-Final, and so its vote, before it becomes prime. The
    /// others vote at the Correct-Finals of these, and with two votes more their tally is t + 1. Answers the net that this leaves.
    fn with_lying_links(n: usize) -> Net {
        let setting = Setting { t: 3, ids: IDS[..n].to_vec(), faulty: [(2, 3), (2, 4), (3, 4)].into() };
        let truth = setting.truth();
        let mut course = Course::new(setting, Fault::None);
        let verifies = announces_carried(&mut course);
        let vote = verifies.end() + 1;
        for (from, to) in [(3, 2), (4, 2), (2, 3), (4, 3)] {
            course.forge(from, to, Message::CorrectFinal(truth.clone()));
        }
        verifies_carried_to_the_primes(&mut course, &verifies);
        others(n).for_each(|to| PRIMES.into_iter().for_each(|from| course.carry(from, to, vote + 1)));
        for to in others(n) {
            others(n).filter(|&from| from != to).take(2).for_each(|from| course.carry(from, to, vote));
        }
        course.end().1
    }

    /// t is 3 from eight bases on.
    #[test]
    fn where_links_lie_all_bases_come_to_the_bound() {
        for n in 8..=MOST_BASES {
            let net = with_lying_links(n);
            assert_eq!(net.spent, vec![airtime::bound(n); n], "n = {n}");
            assert_eq!((demand::broken(&net), demand::overspent(&net)), (None, None));
        }
    }
}
