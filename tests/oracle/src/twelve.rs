//! The history that reading (c) is about: "twelve bases with t = 5 and faulty links BC, BD, WE, FG, HI can wait for ever: B once sent a
//! false Verify-Final, became prime, and its Correct-Final is thrown away."
//!
//! Why the others wait, where a Correct-Final does not replace a Verify-Final of another list:
//! - C and D invent a Correct-Final of a false list to B, which sends Verify-Final of it. C, D, W, P, Q and R hear that first.
//! - E has not passed five Announces on when B becomes prime with five suspect pairs, and it never will, for it stops as secondary: B, an
//!   invented Correct-Final of W, and the Verify-Finals of F, G, H and I, whose second Correct-Final is invented too, make six.
//! - C and D never hear B's Announce. So everybody but B sees seven suspect pairs, and nobody else becomes prime.
//! - P, Q and R hold the true list from E, F, G, H and I alone, and F, G, H and I from B, E and three of each other: five, where six are
//!   needed.

use crate::course::Course;
use crate::faults::Fault;
use crate::message::Message;
use crate::net::{Event, History, Net, Setting};

const B: usize = 1;
const C: usize = 2;
const D: usize = 3;
const W: usize = 4;
const E: usize = 5;
const F: usize = 6;
const G: usize = 7;
const H: usize = 8;
const I: usize = 9;
const P: usize = 10;
const Q: usize = 11;
const R: usize = 12;
const ALL: [usize; 12] = [B, C, D, W, E, F, G, H, I, P, Q, R];

/// The history as it runs on an engine with that fault: its last part carries whatever waits.
pub fn history(fault: Fault) -> (History, Net) {
    let faulty = [(B, C), (B, D), (W, E), (F, G), (H, I)].into();
    let setting = Setting { t: 5, ids: (101..=112).collect(), faulty };
    let truth = setting.truth();
    let mut course = Course::new(setting, fault);
    b_sends_a_false_verify_final(&mut course, &truth);
    b_becomes_prime(&mut course);
    e_becomes_secondary(&mut course, &truth);
    loop {
        let waiting = course.net.outstanding();
        if waiting.is_empty() {
            break;
        }
        waiting.into_iter().for_each(|(from, to, k)| course.carry(from, to, k));
    }
    course.end()
}

fn b_sends_a_false_verify_final(course: &mut Course, truth: &[u32]) {
    ALL.into_iter().for_each(|at| course.happen(Event::Start { at }));
    let mut false_list = truth.to_vec();
    false_list[11] = 113;
    course.forge(C, B, Message::CorrectFinal(false_list.clone()));
    course.forge(D, B, Message::CorrectFinal(false_list));
    [W, P, Q, R].into_iter().for_each(|to| course.carry(B, to, 3));
}

/// E does not hear C, D, P, Q and R yet; C and D never hear B, but B hears them, and an invented Verify of its own identifier.
fn b_becomes_prime(course: &mut Course) {
    for from in ALL {
        for to in ALL {
            let kept_back = to == E && [C, D, P, Q, R].contains(&from);
            let lost = from == B && [C, D].contains(&to);
            if from != to && !kept_back && !lost {
                course.carry(from, to, 1);
            }
        }
    }
    for from in [C, D] {
        course.forge(from, B, Message::Verify(101));
    }
    ALL.into_iter().filter(|&from| from != B).for_each(|from| course.carry_all(from, B));
}

fn e_becomes_secondary(course: &mut Course, truth: &[u32]) {
    let last = course.net.logs[B - 1].len();
    [E, F, G, H, I].into_iter().for_each(|to| course.carry(B, to, last));
    for (from, to) in [(W, E), (F, G), (G, F), (H, I), (I, H)] {
        course.forge(from, to, Message::CorrectFinal(truth.to_vec()));
    }
    for from in [F, G, H, I] {
        let last = course.net.logs[from - 1].len();
        course.carry(from, E, last);
    }
}

#[cfg(test)]
mod tests {
    use super::*;
    use crate::demand;

    #[test]
    fn with_reading_c_all_stop() {
        let (_, net) = history(Fault::None);
        assert_eq!(net.waiting(), 0);
        assert_eq!(net.records[B - 1].state, 2);
        assert_eq!(net.records[E - 1].state, 3);
        assert!(ALL.into_iter().all(|b| net.stopped(b)));
        assert_eq!(demand::broken(&net), None);
    }

    #[test]
    fn without_it_ten_bases_wait_for_ever() {
        let (_, net) = history(Fault::ReadingCOff);
        assert_eq!(net.waiting(), 0);
        let stopped: Vec<usize> = ALL.into_iter().filter(|&b| net.stopped(b)).collect();
        assert_eq!(stopped, [B, E]);
        assert!(demand::broken(&net).is_some_and(|what| what.contains("runs on")));
    }
}
