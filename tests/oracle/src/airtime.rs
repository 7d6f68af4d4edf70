//! Document 02, request 2, "Airtime of each frame": slots, counted from the bytes of frames as they stand in an output.

use crate::base::Base;
use crate::faults::Fault;
use crate::message::Kind;
use std::fmt;
use std::ops::AddAssign;

const SLOT_BYTES: usize = 8;

/// "its slots, one for each 8 bytes begun"
pub fn slots(frame: &[u8], fault: Fault) -> usize {
    match fault {
        Fault::SlotsRoundedDown => frame.chunks_exact(SLOT_BYTES).count(),
        _ => frame.chunks(SLOT_BYTES).count(),
    }
}

/// "two sums over that call's frames", or over those of more calls.
#[derive(Clone, Copy, Debug, Default, PartialEq, Eq)]
pub struct Airtime {
    pub own: usize,
    pub relayed: usize,
}

impl Airtime {
    /// A frame that the base broadcasts, "counted once though every link gets it".
    pub fn of(frame: &[u8], base: &Base) -> Airtime {
        let times = if base.fault == Fault::SlotsForEachLink { base.links.len() } else { 1 };
        let slots = times * slots(frame, base.fault);
        match is_own(frame, base) {
            true => Airtime { own: slots, relayed: 0 },
            false => Airtime { own: 0, relayed: slots },
        }
    }

    pub fn together(self) -> usize {
        self.own + self.relayed
    }

    /// What a call answers, accepted or discarded: "Start and arrival also answer with two sums".
    pub fn answered(self, discarded: bool, fault: Fault) -> Airtime {
        match fault {
            Fault::DiscardedStartWithoutSlots if discarded => Airtime::default(),
            Fault::OwnSumTwice => Airtime { relayed: self.own, ..self },
            Fault::RelayedSumTwice => Airtime { own: self.relayed, ..self },
            _ => self,
        }
    }
}

impl fmt::Display for Airtime {
    fn fmt(&self, f: &mut fmt::Formatter) -> fmt::Result {
        write!(f, "own {}, relayed {}", self.own, self.relayed)
    }
}

impl AddAssign for Airtime {
    fn add_assign(&mut self, more: Airtime) {
        self.own += more.own;
        self.relayed += more.relayed;
    }
}

/// "own (Announce, Verify of the own identifier, Correct-Final) and relayed (the rest)", by the frame's kind and identifier.
fn is_own(frame: &[u8], base: &Base) -> bool {
    match Kind::of_frame(frame) {
        Some(Kind::Announce) => true,
        Some(Kind::Verify) => frame.starts_with(&base.own.to_be_bytes()) && base.fault != Fault::OwnVerifyRelayed,
        Some(Kind::CorrectFinal) => base.fault != Fault::CorrectFinalRelayed,
        Some(Kind::VerifyFinal) => base.fault == Fault::VerifyFinalOwn,
        None => false,
    }
}

/// Of a frame of n identifiers, "(n + 1) / 2 rounded up".
const fn list_slots(n: usize) -> usize {
    (n + 1).div_ceil(2)
}

/// The bound of a base's life: own the two frames of its start and one list, relayed a Verify for each other base and one list. Together
/// they are "n + 1 plus twice (n + 1) / 2 rounded up".
pub const fn bound(n: usize) -> Airtime {
    Airtime { own: 2 + list_slots(n), relayed: n - 1 + list_slots(n) }
}

/// What a life of n can come to: the bound, but that a base of two, with one link, never holds the two Correct-Finals of a Verify-Final.
pub fn reachable(n: usize) -> usize {
    let unsent = if n == 2 { list_slots(n) } else { 0 };
    bound(n).together() - unsent
}

/// What of the slots of a base's life does not hold, if anything: "Added up over a base's life, from idle, both together equal the slots of
/// its broadcasts, at most n + 1 plus twice (n + 1) / 2 rounded up".
pub fn broken(n: usize, broadcasts: &[Vec<u8>], spent: Airtime) -> Option<String> {
    let counted: usize = broadcasts.iter().map(|frame| slots(frame, Fault::None)).sum();
    let bound = bound(n);
    if spent.together() != counted {
        return Some(format!("{spent}, but the broadcasts have {counted} slots"));
    }
    let above = spent.own > bound.own || spent.relayed > bound.relayed;
    above.then(|| format!("{spent}, of at most {bound}"))
}

#[cfg(test)]
mod tests {
    use super::*;
    use crate::limits::{FEWEST_BASES, MOST_BASES};
    use crate::message::Message;
    use crate::roster;

    #[test]
    fn slots_of_frames_by_hand() {
        let lists = [(2, 2), (3, 2), (4, 3), (5, 3), (6, 4), (15, 8), (16, 9)];
        assert_eq!(slots(&Message::Verify(7).frame(), Fault::None), 1);
        for (n, expected) in lists {
            assert_eq!(slots(&Message::VerifyFinal((1..=n).collect()).frame(), Fault::None), expected, "a list of {n}");
        }
        assert_eq!([0, 1, 8, 9, 16, 17].map(|length| slots(&vec![0; length], Fault::None)), [0, 1, 1, 2, 2, 3]);
    }

    #[test]
    fn bounds_are_those_of_the_request_and_of_the_header() {
        assert_eq!((bound(16), bound(16).together()), (Airtime { own: 11, relayed: 24 }, 35));
        assert_eq!([2, 3, 4, 5, 6].map(|n| bound(n).together()), [7, 8, 11, 12, 15]);
        assert_eq!([2, 3, 16].map(reachable), [5, 8, 35]);
        for n in FEWEST_BASES..=MOST_BASES {
            assert_eq!((bound(n).own, bound(n).relayed), (roster::most_own_slots(n), roster::most_relayed_slots(n)));
            assert_eq!(bound(n).together(), n + 1 + 2 * (n + 1).div_ceil(2));
        }
        assert_eq!(SLOT_BYTES, roster::SLOT_BYTES);
    }

    #[test]
    fn own_and_relayed_by_kind_and_identifier() {
        let base = Base::idle(4, 1, 0x0102_0304, Fault::None).expect("a base of a net");
        let of = |message: Message| (Airtime::of(&message.frame(), &base).own, Airtime::of(&message.frame(), &base).relayed);
        assert_eq!([of(Message::Announce(0x0102_0304)), of(Message::Verify(0x0102_0304))], [(1, 0); 2]);
        assert_eq!([of(Message::Verify(0x0102_0305)), of(Message::Verify(4))], [(0, 1); 2]);
        assert_eq!(of(Message::CorrectFinal(vec![1, 2, 3, 4])), (3, 0));
        assert_eq!(of(Message::VerifyFinal(vec![0x0102_0304, 0x0102_0305, 0x0102_0306, 0x0102_0307])), (0, 3));
    }

    #[test]
    fn a_life_is_held_to_its_broadcasts_and_to_the_bound() {
        let verify = Message::Verify(9).frame();
        let of = |own, relayed, count| broken(3, &vec![verify.clone(); count], Airtime { own, relayed });
        assert_eq!([of(0, 0, 0), of(4, 4, 8), of(2, 1, 3)], [None, None, None]);
        assert!(of(2, 1, 4).is_some_and(|what| what.contains("4 slots")));
        assert!(of(2, 1, 2).is_some());
        assert!(of(5, 0, 5).is_some_and(|what| what == "own 5, relayed 0, of at most own 4, relayed 4"));
        assert!(of(0, 5, 5).is_some_and(|what| what == "own 0, relayed 5, of at most own 4, relayed 4"));
    }
}
