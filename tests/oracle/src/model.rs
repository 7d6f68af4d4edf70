//! The second implementation behind the calls that are compared: admits the raw record, takes the step, and stores what came of it.

use crate::airtime::Airtime;
use crate::base::Base;
use crate::engine::{Answer, Engine, Leader, Reading, Sent, Written};
use crate::faults::Fault;
use crate::faulty::{self, RawSet};
use crate::limits::{FAULTY_TEXT_ROOM, OUTPUT_ROOM, REPORT_ROOM};
use crate::message::Message;
use crate::reader::{read, Number};
use crate::record::RawBase;
use crate::refusal;
use crate::replay;
use crate::roster;
use crate::steps::Turn;
use crate::writer;

#[derive(Clone, Copy, Debug)]
pub struct Model {
    pub fault: Fault,
}

impl Model {
    pub const TRUE: Model = Model { fault: Fault::None };

    fn room(&self, out: &[u8]) -> Result<(), Number> {
        let needed = if self.fault == Fault::OutputOf135 { OUTPUT_ROOM - 1 } else { OUTPUT_ROOM };
        if out.len() < needed {
            return Err(refusal::OUTPUT);
        }
        Ok(())
    }

    /// Refusals 1 to 4 and 6.
    fn try_start(&self, record: &mut RawBase, out: &mut [u8]) -> Result<Answer, Number> {
        let mut base = Base::admit(record, self.fault)?;
        self.room(out)?;
        let turn = base.start();
        *record = base.raw();
        Ok(self.answer(&base, turn, out))
    }

    /// Refusals 1 to 12.
    fn try_arrive(&self, record: &mut RawBase, link: usize, burst: &[u8], out: &mut [u8]) -> Result<Answer, Number> {
        let mut base = Base::admit(record, self.fault)?;
        if self.fault == Fault::SixBeforeFive {
            self.room(out)?;
        }
        let link = self.judge_link(base.n, link)?;
        if self.fault == Fault::SevenBeforeSix {
            read(base.n, burst, self.fault)?;
        }
        self.room(out)?;
        let frame = match read(base.n, burst, self.fault) {
            Ok(frame) => frame,
            Err(number) => {
                if self.fault == Fault::RefusedArrivalStarts {
                    base.start();
                    *record = base.raw();
                }
                return Err(number);
            }
        };
        let turn = base.arrive(link - 1, frame.message);
        *record = base.raw();
        Ok(self.answer(&base, turn, out))
    }

    /// "5. The link number is not 1 to n − 1."
    fn judge_link(&self, n: usize, link: usize) -> Result<usize, Number> {
        if self.fault == Fault::LinkNAccepted && link == n {
            return Ok(n - 1);
        }
        if (1..n).contains(&link) {
            Ok(link)
        } else {
            Err(refusal::LINK)
        }
    }

    /// "A call broadcasts at most three frames, one after another in the output". Their slots are those of the bytes that stand there.
    fn answer(&self, base: &Base, turn: Turn, out: &mut [u8]) -> Answer {
        let (mut lengths, mut airtime) = ([0; 3], Airtime::default());
        let mut at = 0;
        for (length, message) in lengths.iter_mut().zip(&turn.broadcast) {
            let frame = Message::frame_with(message, self.fault);
            let end = (at + frame.len()).min(out.len());
            out[at..end].copy_from_slice(&frame[..end - at]);
            *length = frame.len();
            airtime += Airtime::of(&out[at..end], base);
            at = end + usize::from(self.fault == Fault::FramesLeaveAGap && end < out.len());
        }
        if self.fault == Fault::OutputPastFramesTouched && at < out.len() {
            out[at] ^= 0xff;
        }
        let sent = Sent { lengths, airtime: airtime.answered(turn.discarded.is_some(), self.fault) };
        if turn.discarded.is_none() || self.fault == Fault::DiscardedAnsweredAccepted {
            Answer::Accepted(sent)
        } else {
            Answer::Discarded(sent)
        }
    }

    /// A call that is turned down has no slots. Taken apart as the library's answer is, so that slots beside a number show.
    fn refused(&self, number: Number) -> Answer {
        let own = usize::from(self.fault == Fault::RefusedCallHasSlots);
        Answer::of(roster::Answer { outcome: roster::REFUSED, refusal: number, first: 0, second: 0, third: 0, own, relayed: 0 })
    }

    fn refused_write(&self, number: Number) -> Result<Written, Number> {
        let slots = usize::from(self.fault == Fault::RefusedWriteHasSlots);
        Written::of(roster::Put { refusal: number, length: 0, slots })
    }

    /// "The leader is the largest identifier of the final list." Refusals 1 to 4.
    fn try_leader(&self, record: &RawBase) -> Result<Leader, Number> {
        let base = Base::admit(record, self.fault)?;
        if self.fault == Fault::LeaderOfRunningBase && !base.stopped() {
            return Ok(Leader::Is(base.own));
        }
        Ok(leader_of(base.final_list(), self.fault).map_or(Leader::NotStopped, Leader::Is))
    }
}

pub fn leader_of(list: &[u32], fault: Fault) -> Option<u32> {
    match fault {
        Fault::LeaderIsSmallest => list.iter().copied().min(),
        _ => list.iter().copied().max(),
    }
}

impl Engine for Model {
    fn name(&self) -> String {
        match self.fault {
            Fault::None => "the model".to_string(),
            fault => format!("the model with {}", fault.name()),
        }
    }

    fn idle(&mut self, n: usize, t: usize, own: u32, record: &mut RawBase) -> Number {
        match Base::idle(n, t, own, self.fault) {
            Ok(base) => {
                *record = base.raw();
                if self.fault == Fault::IdleRecordRuns {
                    record.state = 1;
                }
                0
            }
            Err(number) => number,
        }
    }

    fn start(&mut self, record: &mut RawBase, out: &mut [u8]) -> Answer {
        self.try_start(record, out).unwrap_or_else(|number| self.refused(number))
    }

    fn arrive(&mut self, record: &mut RawBase, link: usize, burst: &[u8], out: &mut [u8]) -> Answer {
        self.try_arrive(record, link, burst, out).unwrap_or_else(|number| {
            if self.fault == Fault::RefusedCallWrites {
                out.iter_mut().take(8).for_each(|byte| *byte = number);
            }
            self.refused(number)
        })
    }

    fn leader(&mut self, record: &RawBase) -> Leader {
        self.try_leader(record).unwrap_or_else(Leader::Refused)
    }

    fn read(&mut self, n: usize, burst: &[u8]) -> Reading {
        match read(n, burst, self.fault) {
            Ok(frame) => Reading::Frame { kind: frame.message.kind() as u8, count: frame.message.identifiers().len(), start: frame.start },
            Err(number) => Reading::Refused(number),
        }
    }

    fn write(&mut self, n: usize, kind: u8, ids: &[u32], out: &mut [u8]) -> Result<Written, Number> {
        writer::write(n, kind, ids, out, self.fault).or_else(|number| self.refused_write(number))
    }

    fn replay(&mut self, schedule: &[u8], out: &mut [u8]) -> usize {
        if out.len() < REPORT_ROOM {
            return 0;
        }
        let report = replay::report(schedule, self.fault);
        out[..report.len()].copy_from_slice(report.as_bytes());
        report.len()
    }

    fn faulty_count(&mut self, n: usize, t: usize) -> Result<usize, Number> {
        faulty::count(n, t, self.fault)
    }

    fn faulty_set(&mut self, n: usize, t: usize, number: usize) -> RawSet {
        match faulty::set(n, t, number, self.fault) {
            Ok(links) => faulty::raw(&links),
            Err(number) => faulty::refused(number, self.fault),
        }
    }

    fn faulty_text(&mut self, schedule: &[u8], out: &mut [u8]) -> usize {
        if out.len() < FAULTY_TEXT_ROOM && self.fault != Fault::ShortOutputWritten {
            return 0;
        }
        let lines = faulty::lines(schedule, self.fault);
        let end = lines.len().min(out.len());
        out[..end].copy_from_slice(&lines.as_bytes()[..end]);
        if self.fault == Fault::OutputPastLinesTouched && end < out.len() {
            out[end] ^= 0xff;
        }
        end
    }
}
