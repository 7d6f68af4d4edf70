//! "The replay program": a schedule's bytes in, the report's text out.

use crate::base::judge_limit;
use crate::engine::{Answer, Engine, Leader};
use crate::faults::Fault;
use crate::limits::{LONGEST_SCHEDULE, OUTPUT_ROOM};
use crate::model::Model;
use crate::net::{Event, Net, Setting};
use crate::reader::{net_size, Number};
use crate::refusal;
use crate::schedule::{lines, parse, Line};
use std::collections::BTreeSet;
use std::fmt::Write;

/// The first refused line.
#[derive(Clone, Copy, Debug, PartialEq, Eq)]
pub struct Refused {
    pub number: Number,
    pub line: usize,
}

impl Refused {
    /// "The first refused line prints only `refused N line L`."
    pub fn report(self, fault: Fault) -> String {
        let line = if fault == Fault::LineOffByOne { self.line + 1 } else { self.line };
        format!("refused {} line {line}\n", self.number)
    }
}

pub fn report(schedule: &[u8], fault: Fault) -> String {
    match replay(schedule, fault) {
        Ok(net) => report_of(&net, fault),
        Err(refused) => refused.report(fault),
    }
}

/// The net after the schedule's last line, or its first refused line.
pub fn replay(schedule: &[u8], fault: Fault) -> Result<Net, Refused> {
    watched(schedule, fault, &mut |_, _, _| ())
}

/// Is shown each event that 16 to 18 do not turn down, with its line and the net before it.
type Watch<'w> = &'w mut dyn FnMut(usize, &Net, &Event);

/// The same, with somebody who looks on.
pub fn watched(schedule: &[u8], fault: Fault, watch: Watch) -> Result<Net, Refused> {
    let longest = if fault == Fault::LongScheduleRead { LONGEST_SCHEDULE + 1 } else { LONGEST_SCHEDULE };
    let too_long = schedule.len() > longest;
    if too_long && fault != Fault::LongScheduleLast {
        return Err(Refused { number: refusal::FORM, line: 1 });
    }
    let mut player = Player { stage: Stage::Net, model: Model { fault }, fault, line: 0, watch };
    for (line, text) in lines(schedule) {
        player.line = line;
        let text = match text {
            Ok(text) => text,
            Err(unended) if fault == Fault::LastLineUnended => unended,
            Err(_) => return Err(Refused { number: refusal::FORM, line }),
        };
        if text.is_empty() && fault == Fault::EmptyLinesSkipped {
            continue;
        }
        player.take(text).map_err(|number| Refused { number, line })?;
    }
    if too_long {
        return Err(Refused { number: refusal::FORM, line: 1 });
    }
    let missing = if fault == Fault::MissingLineNamedByLast { player.line.max(1) } else { player.line + 1 };
    player.end().ok_or(Refused { number: refusal::FORM, line: missing })
}

/// Which lines may come next.
enum Stage {
    /// `net n t`
    Net,
    /// `id b v` for b = 1 to n
    Ids { n: usize, t: usize, ids: Vec<u32> },
    /// `faulty a b`, or an event
    Faulty(Setting),
    /// "then, in any order, start, carry, forge"
    Events(Box<Net>),
}

struct Player<'w> {
    stage: Stage,
    model: Model,
    fault: Fault,
    /// The line being read, from 1.
    line: usize,
    watch: Watch<'w>,
}

impl Player<'_> {
    /// One line: "A line's form comes before its other checks".
    fn take(&mut self, text: &[u8]) -> Result<(), Number> {
        let line = parse(text, self.fault).ok_or(refusal::FORM)?;
        match (&mut self.stage, line) {
            (Stage::Net, Line::Net { n, t }) => self.stage = begin(n as usize, t as usize, self.fault)?,
            (Stage::Ids { n, ids, .. }, Line::Id { b, v }) => {
                take_id(*n, ids, b as usize, v, self.fault)?;
                self.leave_ids();
            }
            (Stage::Faulty(setting), Line::Faulty { a, b }) => take_faulty(setting, a as usize, b as usize, self.fault)?,
            (Stage::Faulty(setting), line @ (Line::Start { .. } | Line::Carry { .. } | Line::Forge { .. })) => {
                let event = event_of(setting.n(), line).ok_or(refusal::FORM)?;
                let net = Net::new(setting.clone(), &mut self.model, self.fault);
                self.stage = Stage::Events(Box::new(net));
                return self.play(&event);
            }
            (Stage::Events(net), Line::Faulty { a, b }) if self.fault == Fault::FaultyAfterEvents => {
                take_faulty(&mut net.setting, a as usize, b as usize, self.fault)?;
            }
            (Stage::Events(net), line) => {
                let event = event_of(net.setting.n(), line).ok_or(refusal::FORM)?;
                return self.play(&event);
            }
            _ => return Err(refusal::FORM),
        }
        Ok(())
    }

    fn leave_ids(&mut self) {
        if let Stage::Ids { n, t, ids } = &self.stage {
            if ids.len() == *n {
                self.stage = Stage::Faulty(Setting { t: *t, ids: ids.clone(), faulty: BTreeSet::new() });
            }
        }
    }

    /// "refusals of its burst leave the schedule running"
    fn play(&mut self, event: &Event) -> Result<(), Number> {
        let Stage::Events(net) = &mut self.stage else { return Err(refusal::FORM) };
        if net.turned_down(event).is_none() {
            (self.watch)(self.line, net, event);
        }
        match net.happen(event, OUTPUT_ROOM, &mut self.model) {
            Answer::Refused(refusal::NOT_BROADCAST) if self.fault == Fault::CarryBeforeBroadcast => Ok(()),
            Answer::Refused(number @ refusal::NOT_BROADCAST..=refusal::FORGED_ON_GOOD) => Err(number),
            Answer::Refused(number) if self.fault == Fault::ForgeryRefusalStops => Err(number),
            _ => Ok(()),
        }
    }

    /// The net at the end, or nothing where a header line is missing.
    fn end(self) -> Option<Net> {
        let Player { stage, mut model, fault, .. } = self;
        match stage {
            Stage::Net | Stage::Ids { .. } => None,
            Stage::Faulty(setting) => Some(Net::new(setting, &mut model, fault)),
            Stage::Events(net) => Some(*net),
        }
    }
}

/// `net n t`: refusals 1 and 2.
fn begin(n: usize, t: usize, fault: Fault) -> Result<Stage, Number> {
    net_size(n)?;
    judge_limit(n, t, fault)?;
    Ok(Stage::Ids { n, t, ids: Vec::new() })
}

/// `id b v` for b = 1 to n: refusals 3 and 14.
fn take_id(n: usize, ids: &mut Vec<u32>, b: usize, v: u32, fault: Fault) -> Result<(), Number> {
    if b != ids.len() + 1 || b > n {
        return Err(refusal::FORM);
    }
    if v == 0 {
        return Err(refusal::OWN_IDENTIFIER);
    }
    if ids.contains(&v) && fault != Fault::EqualIdentifiersAllowed {
        return Err(refusal::SAME_IDENTIFIER);
    }
    ids.push(v);
    Ok(())
}

/// `faulty a b` "(a < b, none twice)": refusal 15.
fn take_faulty(setting: &mut Setting, a: usize, b: usize, fault: Fault) -> Result<(), Number> {
    let most = setting.t + usize::from(fault == Fault::FaultyOneMore);
    let too_many = setting.faulty.len() >= most;
    if fault == Fault::FormAfterChecks && too_many {
        return Err(refusal::FAULTY_LINKS);
    }
    let ordered = a < b || (fault == Fault::FaultyEitherOrder && a != b);
    let in_net = (1..=setting.n()).contains(&a) && (1..=setting.n()).contains(&b);
    let twice = setting.faulty.contains(&(a.min(b), a.max(b)));
    if !ordered || !in_net || (twice && fault != Fault::FaultyTwice) {
        return Err(refusal::FORM);
    }
    if too_many {
        return Err(refusal::FAULTY_LINKS);
    }
    setting.faulty.insert((a.min(b), a.max(b)));
    Ok(())
}

/// "a and b are two different bases of the net, k is above zero"
fn event_of(n: usize, line: Line) -> Option<Event> {
    let base = |b: u32| Some(b as usize).filter(|b| (1..=n).contains(b));
    match line {
        Line::Start { b } => Some(Event::Start { at: base(b)? }),
        Line::Carry { a, b, k } if a != b && k > 0 => Some(Event::Carry { from: base(a)?, to: base(b)?, k: k as usize }),
        Line::Forge { a, b, bytes } if a != b => Some(Event::Forge { from: base(a)?, to: base(b)?, bytes }),
        _ => None,
    }
}

/// "one line a base in order of number (state, final list, leader), then `waiting`"
fn report_of(net: &Net, fault: Fault) -> String {
    let mut model = Model { fault };
    let mut text = String::new();
    for (i, record) in net.records.iter().enumerate() {
        let state = match record.state {
            0 => "idle",
            1 => "running",
            3 if fault != Fault::SecondaryPrintedPrime => "secondary",
            _ => "prime",
        };
        let _ = write!(text, "base {} {state}", i + 1);
        if record.state >= 2 {
            let list = &record.final_list[..net.setting.n()];
            for id in list {
                let _ = write!(text, " {id}");
            }
            if let Leader::Is(leader) = model.leader(record) {
                let _ = write!(text, " leader {leader}");
            }
        }
        text.push('\n');
    }
    let _ = writeln!(text, "waiting {}", net.waiting());
    text
}
