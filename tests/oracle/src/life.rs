//! The life of one base: any list of starts and arrivals, from an idle record.

use crate::airtime::{self, Airtime};
use crate::engine::{Answer, Engine};
use crate::record::RawBase;

#[derive(Clone, Debug, PartialEq, Eq)]
pub struct Life {
    pub n: usize,
    pub t: usize,
    pub own: u32,
    pub calls: Vec<Call>,
}

/// A start, or a burst on a link, with the bytes of output lent to it. It may be one that is turned down.
#[derive(Clone, Debug, PartialEq, Eq)]
pub enum Call {
    Start { room: usize },
    Arrive { link: usize, burst: Vec<u8>, room: usize },
}

impl Call {
    fn room(&self) -> usize {
        match self {
            Call::Start { room } | Call::Arrive { room, .. } => *room,
        }
    }

    fn make(&self, record: &mut RawBase, out: &mut [u8], engine: &mut dyn Engine) -> Answer {
        match self {
            Call::Start { .. } => engine.start(record, out),
            Call::Arrive { link, burst, .. } => engine.arrive(record, *link, burst, out),
        }
    }
}

impl Life {
    /// The calls on an engine: the slots that they take, and what of them does not hold behind one of the calls, if anything.
    pub fn live(&self, engine: &mut dyn Engine) -> (Airtime, Option<String>) {
        let mut record = RawBase::BLANK;
        engine.idle(self.n, self.t, self.own, &mut record);
        let (mut broadcasts, mut spent, mut broken) = (Vec::new(), Airtime::default(), None);
        for call in &self.calls {
            let mut out = vec![0x3c; call.room()];
            let sent = call.make(&mut record, &mut out, engine).sent();
            broadcasts.extend(sent.frames(&out));
            spent += sent.airtime;
            broken = broken.or_else(|| airtime::broken(self.n, &broadcasts, spent));
        }
        (spent, broken)
    }
}
