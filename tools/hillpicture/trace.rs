//! What a trace says: the net, its events in order, and how the schedule ended. Bases are numbered from 1.

pub struct Trace {
    /// The schedule's `net` line; nothing where that line was refused.
    pub net: Option<Net>,
    /// Of base 1 first; fewer than n where an `id` line was refused.
    pub ids: Vec<u32>,
    /// The lower base first.
    pub faulty: Vec<(usize, usize)>,
    pub events: Vec<Event>,
    /// The schedule's last line that was read, which may be the refused one.
    pub last_line: usize,
    pub end: End,
}

#[derive(Clone, Copy)]
pub struct Net {
    pub n: usize,
    pub t: usize,
}

/// Airtime, as the trace counts it.
#[derive(Clone, Copy, Default, PartialEq, Eq)]
pub struct Slots {
    pub own: u64,
    pub relayed: u64,
}

pub enum End {
    Report {
        bases: Vec<State>,
        /// Of all bases; each base's are those of its events.
        slots: Slots,
        waiting: usize,
        /// "from base 1 to base 3: 1 2"
        pairs: Vec<String>,
    },
    /// With what the trace tells about the line, if anything.
    Refused { number: usize, line: usize, told: Vec<String> },
}

#[derive(Clone, PartialEq, Eq)]
pub enum State {
    Idle,
    Running,
    Stopped(Stop),
}

#[derive(Clone, PartialEq, Eq)]
pub struct Stop {
    pub prime: bool,
    pub list: Vec<u32>,
    pub leader: u32,
}

/// One line of the schedule that is a start, a carry or a forgery.
pub struct Event {
    pub line: usize,
    pub cause: Cause,
    /// The base whose record the event is about.
    pub at: usize,
    pub starts: bool,
    pub hearing: Option<Hearing>,
    pub broadcasts: Vec<Broadcast>,
    /// Why the base sends no Verify-Final, where the trace says so.
    pub withheld: Option<String>,
    pub check: Option<Check>,
    pub stop: Option<Stop>,
    /// Of what the base broadcasts, if anything.
    pub slots: Option<Slots>,
    /// The trace's own lines.
    pub told: Vec<String>,
}

#[derive(Clone, Copy, PartialEq, Eq)]
pub enum Cause {
    Start,
    Carry { from: usize, number: usize },
    Forge { from: usize },
}

pub struct Hearing {
    pub message: Message,
    pub outcome: Outcome,
}

pub enum Message {
    Announce(u32),
    Verify(u32),
    CorrectFinal(Vec<u32>),
    VerifyFinal(Vec<u32>),
    /// A refused burst has only a length.
    Bytes(usize),
}

pub enum Outcome {
    /// What the trace says besides, if anything, and the vote whose place the message takes.
    Accepted {
        besides: String,
        replaced: Option<Message>,
    },
    Discarded(String),
    Refused(String),
}

pub struct Broadcast {
    pub number: usize,
    pub message: Message,
}

/// The figures of a check. Document 01 fixes their thresholds by n and t.
pub enum Check {
    Prime { certified: usize, sum: usize, suspects: usize },
    Secondary { tally: usize, correct_finals: usize },
}

impl Net {
    /// "their tallies sum to at least n² − 2t"
    pub fn least_sum(self) -> usize {
        (self.n * self.n).saturating_sub(2 * self.t)
    }

    /// "The tally of V is at least t + 1"
    pub fn least_tally(self) -> usize {
        self.t + 1
    }
}

impl Slots {
    pub fn together(self) -> u64 {
        self.own + self.relayed
    }
}

impl std::iter::Sum for Slots {
    fn sum<I: Iterator<Item = Slots>>(all: I) -> Slots {
        all.fold(Slots::default(), |sum, slots| Slots { own: sum.own + slots.own, relayed: sum.relayed + slots.relayed })
    }
}

/// What each of n bases spends in these events.
pub fn spent(events: &[Event], n: usize) -> Vec<Slots> {
    let by = |b: usize| events.iter().filter(|event| event.at == b).filter_map(|event| event.slots).sum();
    (1..=n).map(by).collect()
}

/// "two links hold Correct-Final V"
pub const LEAST_CORRECT_FINALS: usize = 2;

/// A start's Announce and Verify.
const BROADCASTS_OF_A_START: usize = 2;

impl Event {
    pub fn from(&self) -> Option<usize> {
        match self.cause {
            Cause::Start => None,
            Cause::Carry { from, .. } | Cause::Forge { from } => Some(from),
        }
    }

    pub fn discarded(&self) -> bool {
        match &self.hearing {
            Some(hearing) => matches!(hearing.outcome, Outcome::Discarded(_)),
            None => !self.starts,
        }
    }

    /// What is broadcast because the base starts, because of what it hears, and because it stops.
    pub fn broadcasts_by_cause(&self) -> [&[Broadcast]; 3] {
        let first = if self.starts { BROADCASTS_OF_A_START.min(self.broadcasts.len()) } else { 0 };
        let (start, rest) = self.broadcasts.split_at(first);
        let last = rest.len() - usize::from(self.stop.is_some()).min(rest.len());
        let (arrival, stop) = rest.split_at(last);
        [start, arrival, stop]
    }

    /// The base's state behind the event, where the event changes it.
    fn change(&self) -> Option<State> {
        match &self.stop {
            Some(stop) => Some(State::Stopped(stop.clone())),
            None => self.starts.then_some(State::Running),
        }
    }
}

impl Trace {
    pub fn n(&self) -> usize {
        self.net.map_or(0, |net| net.n)
    }

    pub fn is_faulty(&self, a: usize, b: usize) -> bool {
        self.faulty.contains(&(a.min(b), a.max(b)))
    }

    /// The true identifiers, sorted; nothing where not all are known.
    pub fn true_list(&self) -> Option<Vec<u32>> {
        let mut list = self.ids.clone();
        list.sort_unstable();
        (self.net.is_some() && list.len() == self.n()).then_some(list)
    }

    /// Each base's state after the first `count` events.
    pub fn states_after(&self, count: usize) -> Vec<State> {
        let mut states = vec![State::Idle; self.n()];
        for event in &self.events[..count] {
            if let Some(state) = event.change() {
                states[event.at - 1] = state;
            }
        }
        states
    }
}
