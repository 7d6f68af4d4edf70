//! The calls that are compared, over raw records and byte buffers: once by the model, once by the proved engine.

use crate::airtime::Airtime;
use crate::faulty::RawSet;
use crate::reader::Number;
use crate::record::RawBase;
use crate::refusal;
use crate::roster;
use std::fmt;

/// Stands for an answer that the interface does not have, so that it shows as a difference.
pub const NO_ANSWER: Number = Number::MAX;

/// "Its answer is accepted or discarded, with each frame's length", and the slots of these frames; or the number by which it was turned
/// down.
#[derive(Clone, Copy, Debug, PartialEq, Eq)]
pub enum Answer {
    Accepted(Sent),
    Discarded(Sent),
    Refused(Number),
}

/// What a call has broadcast: the length of each frame, zero for none, and their slots.
#[derive(Clone, Copy, PartialEq, Eq)]
pub struct Sent {
    pub lengths: [usize; 3],
    pub airtime: Airtime,
}

impl Sent {
    pub const NOTHING: Sent = Sent::new([0; 3], 0, 0);

    pub const fn new(lengths: [usize; 3], own: usize, relayed: usize) -> Sent {
        Sent { lengths, airtime: Airtime { own, relayed } }
    }

    /// The frames, "one after another in the output".
    pub fn frames(self, out: &[u8]) -> Vec<Vec<u8>> {
        let mut rest = out;
        let lengths = self.lengths.into_iter().filter(|&length| length > 0);
        let frame = |length: usize| {
            let (frame, behind) = rest.split_at(length.min(rest.len()));
            rest = behind;
            frame.to_vec()
        };
        lengths.map(frame).collect()
    }
}

impl fmt::Debug for Sent {
    fn fmt(&self, f: &mut fmt::Formatter) -> fmt::Result {
        write!(f, "{:?}, {}", self.lengths, self.airtime)
    }
}

impl Answer {
    /// The library's answer. One that is turned down has neither frames nor slots.
    pub fn of(raw: roster::Answer) -> Answer {
        let sent = Sent::new([raw.first, raw.second, raw.third], raw.own, raw.relayed);
        match (raw.outcome, raw.refusal) {
            (roster::ACCEPTED, 0) => Answer::Accepted(sent),
            (roster::DISCARDED, 0) => Answer::Discarded(sent),
            (roster::REFUSED, number @ refusal::BASES..=refusal::NOT_ASCENDING) if sent == Sent::NOTHING => Answer::Refused(number),
            _ => Answer::Refused(NO_ANSWER),
        }
    }

    pub fn sent(self) -> Sent {
        match self {
            Answer::Accepted(sent) | Answer::Discarded(sent) => sent,
            Answer::Refused(_) => Sent::NOTHING,
        }
    }
}

/// "Whoever writes a frame now also reports its slots".
#[derive(Clone, Copy, Debug, PartialEq, Eq)]
pub struct Written {
    pub length: usize,
    pub slots: usize,
}

impl Written {
    /// The library's answer. One that is turned down has neither length nor slots.
    pub fn of(put: roster::Put) -> Result<Written, Number> {
        match (put.refusal, put.length, put.slots) {
            (0, length, slots) => Ok(Written { length, slots }),
            (number @ refusal::BASES..=refusal::NOT_ASCENDING, 0, 0) => Err(number),
            _ => Err(NO_ANSWER),
        }
    }
}

/// The answer of the leader call.
#[derive(Clone, Copy, Debug, PartialEq, Eq)]
pub enum Leader {
    Is(u32),
    NotStopped,
    Refused(Number),
}

/// A burst's reading: the kind, the count of identifiers and the body's place in the burst, or the number.
#[derive(Clone, Copy, Debug, PartialEq, Eq)]
pub enum Reading {
    Frame { kind: u8, count: usize, start: usize },
    Refused(Number),
}

pub trait Engine {
    fn name(&self) -> String;

    /// An idle record made from n, t and an identifier. Answers 0, or 1 to 3 and leaves `record` alone.
    fn idle(&mut self, n: usize, t: usize, own: u32, record: &mut RawBase) -> Number;

    fn start(&mut self, record: &mut RawBase, out: &mut [u8]) -> Answer;

    fn arrive(&mut self, record: &mut RawBase, link: usize, burst: &[u8], out: &mut [u8]) -> Answer;

    fn leader(&mut self, record: &RawBase) -> Leader;

    fn read(&mut self, n: usize, burst: &[u8]) -> Reading;

    /// One frame at the output's front. Answers its length and its slots, or the number.
    fn write(&mut self, n: usize, kind: u8, ids: &[u32], out: &mut [u8]) -> Result<Written, Number>;

    /// The report of a schedule, at the output's front. Answers its length; 0, and nothing is written, where the output has not the room of
    /// every report.
    fn replay(&mut self, schedule: &[u8], out: &mut [u8]) -> usize;

    /// How many sets of at most t links a small net has, or the number.
    fn faulty_count(&mut self, n: usize, t: usize) -> Result<usize, Number>;

    /// The set of a number, as it lies in memory: zeros behind its links, and all zero but the refusal where it is turned down.
    fn faulty_set(&mut self, n: usize, t: usize, number: usize) -> RawSet;

    /// Every set of the net that the first line names, at the output's front. Answers the lines' length; 0, and nothing is written, where
    /// the output has not the room of all lists.
    fn faulty_text(&mut self, schedule: &[u8], out: &mut [u8]) -> usize;
}

#[cfg(test)]
mod tests {
    use super::*;

    #[test]
    fn an_answer_that_is_turned_down_has_nothing_else() {
        let refused = roster::Answer { outcome: roster::REFUSED, refusal: 7, first: 0, second: 0, third: 0, own: 0, relayed: 0 };
        assert_eq!(Answer::of(refused), Answer::Refused(7));
        let more = [roster::Answer { third: 8, ..refused }, roster::Answer { own: 1, ..refused }, roster::Answer { relayed: 1, ..refused }];
        assert_eq!(more.map(Answer::of), [Answer::Refused(NO_ANSWER); 3]);
        let accepted = roster::Answer { outcome: roster::ACCEPTED, refusal: 0, first: 8, own: 1, relayed: 2, ..refused };
        assert_eq!(Answer::of(accepted), Answer::Accepted(Sent::new([8, 0, 0], 1, 2)));
        let discarded = roster::Answer { outcome: roster::DISCARDED, ..accepted };
        assert_eq!(Answer::of(discarded), Answer::Discarded(Sent::new([8, 0, 0], 1, 2)));
        assert_eq!(Answer::of(roster::Answer { refusal: 7, ..accepted }), Answer::Refused(NO_ANSWER));
    }

    #[test]
    fn a_write_that_is_turned_down_has_nothing_else() {
        let put = |refusal, length, slots| Written::of(roster::Put { refusal, length, slots });
        assert_eq!([put(0, 12, 2), put(6, 0, 0)], [Ok(Written { length: 12, slots: 2 }), Err(6)]);
        assert_eq!([put(6, 12, 0), put(6, 0, 2), put(13, 0, 0)], [Err(NO_ANSWER); 3]);
    }

    #[test]
    fn frames_stand_one_after_another() {
        let sent = Sent::new([2, 0, 1], 2, 0);
        assert_eq!(sent.frames(&[1, 2, 3, 4]), [vec![1, 2], vec![3]]);
        assert!(Sent::NOTHING.frames(&[1, 2]).is_empty());
    }
}
