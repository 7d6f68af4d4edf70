//! "The net over a whole history": one record a base, each base's broadcasts, the carries made, and what an event does to them.
//! The calls are an engine's, so that the same net runs on the model and on the proved engine.

use crate::airtime::Airtime;
use crate::engine::{Answer, Engine};
use crate::faults::Fault;
use crate::limits::{link_to, OUTPUT_ROOM};
use crate::message::Kind;
use crate::reader::Number;
use crate::record::RawBase;
use crate::refusal;
use std::collections::BTreeSet;

/// Bases are numbered from 1.
#[derive(Clone, Debug, PartialEq, Eq)]
pub enum Event {
    /// A start at `at`.
    Start { at: usize },
    /// "a's k-th broadcast, byte for byte as written, arrives at b on b's link to a"
    Carry { from: usize, to: usize, k: usize },
    /// "any bytes, of any length, arrive at b on b's link to a"
    Forge { from: usize, to: usize, bytes: Vec<u8> },
}

impl Event {
    /// The base whose record the event's call is on.
    pub fn receiver(&self) -> usize {
        match *self {
            Event::Start { at } => at,
            Event::Carry { to, .. } | Event::Forge { to, .. } => to,
        }
    }

    /// The base at the other end of the link that the event's message comes on.
    pub fn sender(&self) -> Option<usize> {
        match *self {
            Event::Start { .. } => None,
            Event::Carry { from, .. } | Event::Forge { from, .. } => Some(from),
        }
    }
}

/// What a net begins with.
#[derive(Clone, Debug, PartialEq, Eq)]
pub struct Setting {
    pub t: usize,
    /// The true identifiers, of base 1 first.
    pub ids: Vec<u32>,
    /// Pairs of bases, the lower first.
    pub faulty: BTreeSet<(usize, usize)>,
}

impl Setting {
    pub fn n(&self) -> usize {
        self.ids.len()
    }

    pub fn good(&self, a: usize, b: usize) -> bool {
        !self.faulty.contains(&(a.min(b), a.max(b)))
    }

    /// All true identifiers, sorted.
    pub fn truth(&self) -> Vec<u32> {
        let mut list = self.ids.clone();
        list.sort_unstable();
        list
    }
}

#[derive(Clone, Debug)]
pub struct Net {
    pub setting: Setting,
    pub records: Vec<RawBase>,
    /// Each base's broadcasts in the order written.
    pub logs: Vec<Vec<Vec<u8>>>,
    /// The slots that the answers of each base's calls have, added up.
    pub spent: Vec<Airtime>,
    /// Carries made: sender, receiver, number of the broadcast.
    pub carried: BTreeSet<(usize, usize, usize)>,
    /// "A base is started by its first start or arrival that is not turned down."
    pub started: Vec<bool>,
    fault: Fault,
}

impl Net {
    /// The net before any event. The identifiers are above zero and n and t are of a net.
    pub fn new(setting: Setting, engine: &mut dyn Engine, fault: Fault) -> Net {
        let n = setting.n();
        let mut records = vec![RawBase::BLANK; n];
        for (record, &own) in records.iter_mut().zip(&setting.ids) {
            engine.idle(n, setting.t, own, record);
        }
        let (logs, spent, started) = (vec![Vec::new(); n], vec![Airtime::default(); n], vec![false; n]);
        Net { setting, records, logs, spent, carried: BTreeSet::new(), started, fault }
    }

    /// The number by which 16 to 18 turn the event down, if they do.
    pub fn turned_down(&self, event: &Event) -> Option<Number> {
        match *event {
            Event::Start { .. } => None,
            Event::Carry { from, to, k } => {
                let repeated = self.carried.contains(&(from, to, k)) && self.setting.good(from, to);
                if k == 0 || k > self.logs[from - 1].len() {
                    Some(refusal::NOT_BROADCAST)
                } else if repeated && self.fault != Fault::RepeatAllowedOnGoodLink {
                    Some(refusal::CARRIED_BEFORE)
                } else {
                    None
                }
            }
            Event::Forge { from, to, .. } => {
                let good = self.setting.good(from, to) && self.fault != Fault::ForgeryOnGoodLink;
                good.then_some(refusal::FORGED_ON_GOOD)
            }
        }
    }

    /// The event, unless 16 to 18 turn it down, with an output of `room` bytes.
    pub fn happen(&mut self, event: &Event, room: usize, engine: &mut dyn Engine) -> Answer {
        if let Some(number) = self.turned_down(event) {
            return Answer::Refused(number);
        }
        let mut out = vec![0xa5; room];
        let place = event.receiver() - 1;
        let mut record = self.records[place];
        let answer = self.call(event, &mut record, &mut out, engine);
        self.records[place] = record;
        if matches!(answer, Answer::Refused(_)) {
            return answer;
        }
        self.started[place] = true;
        if let Event::Carry { from, to, k } = *event {
            if self.fault != Fault::WaitingForgetsDiscards || matches!(answer, Answer::Accepted(_)) {
                self.carried.insert((from, to, k));
            }
        }
        // "Frames written join b's broadcasts in their order".
        self.logs[place].extend(answer.sent().frames(&out));
        self.spent[place] += answer.sent().airtime;
        answer
    }

    /// The call of an event that 16 to 18 do not turn down, on a record of its base.
    pub fn call(&self, event: &Event, record: &mut RawBase, out: &mut [u8], engine: &mut dyn Engine) -> Answer {
        match event {
            Event::Start { .. } => engine.start(record, out),
            Event::Carry { from, to, k } => engine.arrive(record, self.link(*from, *to), &self.logs[from - 1][k - 1], out),
            Event::Forge { from, to, bytes } => engine.arrive(record, self.link(*from, *to), bytes, out),
        }
    }

    fn link(&self, from: usize, to: usize) -> usize {
        match self.fault {
            Fault::LinkNumberOfOther => from.min(self.setting.n() - 1),
            _ => link_to(to, from),
        }
    }

    /// "It has stopped once it has broadcast a Correct-Final".
    pub fn stopped(&self, b: usize) -> bool {
        self.logs[b - 1].iter().any(|frame| Kind::of_frame(frame) == Some(Kind::CorrectFinal))
    }

    /// Every broadcast and receiver on a good link with no carry yet: sender, receiver, number.
    pub fn outstanding(&self) -> Vec<(usize, usize, usize)> {
        let n = self.setting.n();
        let mut pairs = Vec::new();
        for from in 1..=n {
            for to in (1..=n).filter(|&to| to != from && (self.setting.good(from, to) || self.fault == Fault::WaitingCountsFaulty)) {
                if self.fault == Fault::WaitingOneDirection && from > to {
                    continue;
                }
                let waiting = (1..=self.logs[from - 1].len()).filter(|&k| !self.carried.contains(&(from, to, k)));
                pairs.extend(waiting.map(|k| (from, to, k)));
            }
        }
        pairs
    }

    /// "Waiting is the number of pairs of a broadcast and a base at the other end of a good link from its sender, with no carry of that
    /// broadcast to that base yet but refused ones."
    pub fn waiting(&self) -> usize {
        self.outstanding().len()
    }
}

/// A net's beginning and its events, each with the bytes of output lent to its call.
#[derive(Clone, Debug, PartialEq, Eq)]
pub struct History {
    pub setting: Setting,
    pub events: Vec<(Event, usize)>,
}

impl History {
    /// The events as a schedule has them: with an output that is long enough.
    pub fn of(setting: Setting, events: Vec<Event>) -> History {
        History { setting, events: events.into_iter().map(|event| (event, OUTPUT_ROOM)).collect() }
    }

    /// Without the events that 16 to 18 turn down, which a schedule cannot have; and the net that it leaves.
    pub fn as_scheduled(mut self, engine: &mut dyn Engine) -> (History, Net) {
        let mut net = Net::new(self.setting.clone(), engine, Fault::None);
        self.events.retain(|(event, room)| {
            let turned_down = net.turned_down(event).is_some();
            net.happen(event, *room, engine);
            !turned_down
        });
        (self, net)
    }
}
