//! Which part of a trace is drawn: some lines of the schedule, some bases, with or without what stopped bases throw away.

use crate::trace::{spent, End, Event, Slots, State, Trace};

#[derive(Clone, Default)]
pub struct Cut {
    /// The first and the last line of the schedule.
    pub lines: Option<(usize, usize)>,
    /// In ascending order.
    pub bases: Option<Vec<usize>>,
    pub without_stopped: bool,
}

/// The part that is drawn.
pub struct Shown {
    /// Places among the trace's events, in ascending order.
    pub events: Vec<usize>,
    /// In ascending order.
    pub bases: Vec<usize>,
    /// What is drawn, where it is not all.
    pub told: Option<String>,
    /// The same of a page, which names its own lines.
    pub told_on_a_page: Option<String>,
    /// The states behind the last line of the cut.
    pub states: Vec<State>,
    /// What each base has spent by then, from the beginning of the schedule.
    pub slots: Vec<Slots>,
    /// Whether the schedule's end is drawn.
    pub whole_end: bool,
}

impl Cut {
    pub fn of(&self, trace: &Trace) -> Result<Shown, String> {
        let all: Vec<usize> = (1..=trace.n()).collect();
        let bases = self.bases.clone().unwrap_or(all);
        if let (Some(b), Some(_)) = (bases.iter().find(|&&b| b < 1 || b > trace.n()), trace.net) {
            return Err(format!("the net has no base {b}"));
        }
        let bases = if trace.net.is_some() { bases } else { Vec::new() };
        let last = self.lines.map_or(usize::MAX, |(_, last)| last);
        let until = trace.events.iter().take_while(|event| event.line <= last).count();
        let events: Vec<usize> = (0..until).filter(|&i| self.shows(trace, &bases, i)).collect();
        if events.is_empty() && !trace.events.is_empty() && !self.has_refused_line(trace) {
            return Err(self.nothing_there(trace));
        }
        let whole_end = until == trace.events.len();
        let states = match &trace.end {
            End::Report { bases, .. } if whole_end => bases.clone(),
            _ => trace.states_after(until),
        };
        let slots = spent(&trace.events[..until], trace.n());
        let told = Cut { lines: self.lines.map(|(first, last)| (first, last.min(trace.last_line).max(first))), ..self.clone() }.told();
        let told_on_a_page = Cut { lines: None, ..self.clone() }.told();
        Ok(Shown { events, bases, told, told_on_a_page, states, slots, whole_end })
    }

    /// Why nothing is left to draw: the lines are no events, or the other options leave out what happens there.
    fn nothing_there(&self, trace: &Trace) -> String {
        let (first, last) = self.lines.unwrap_or((0, usize::MAX));
        let lines: Vec<usize> = trace.events.iter().map(|event| event.line).collect();
        let refused = match trace.end {
            End::Refused { number, line, .. } => format!("; refused {number} line {line}"),
            End::Report { .. } => String::new(),
        };
        match (lines.iter().any(|line| (first..=last).contains(line)), &lines[..]) {
            (false, [from, .., to]) => format!("nothing happens there: events stand in lines {from} to {to}{refused}"),
            (false, _) => format!("nothing happens there{refused}"),
            (true, _) => format!("what happens there is left out by the other options{refused}"),
        }
    }

    fn has_refused_line(&self, trace: &Trace) -> bool {
        let (first, last) = self.lines.unwrap_or((0, usize::MAX));
        matches!(trace.end, End::Refused { line, .. } if (first..=last).contains(&line))
    }

    fn shows(&self, trace: &Trace, bases: &[usize], i: usize) -> bool {
        let event = &trace.events[i];
        let first = self.lines.map_or(0, |(first, _)| first);
        let concerned = self.bases.is_none() || bases.contains(&event.at);
        event.line >= first && concerned && !(self.without_stopped && thrown_away(trace, event, i))
    }

    /// "lines 40 to 90, without what stopped bases discard"
    fn told(&self) -> Option<String> {
        let lines = self.lines.map(|(first, last)| match first == last {
            true => format!("line {first}"),
            false => format!("lines {first} to {last}"),
        });
        let heard = |bases: &Vec<usize>| format!("what is heard at {} (a number in a box is another base)", bases_in_words(bases));
        let bases = self.bases.as_ref().map(heard);
        let stopped = self.without_stopped.then(|| "without what stopped bases discard".to_string());
        let told: Vec<String> = [lines, bases, stopped].into_iter().flatten().collect();
        (!told.is_empty()).then(|| told.join(", "))
    }
}

/// Whether the event is discarded by a base that has stopped before.
fn thrown_away(trace: &Trace, event: &Event, i: usize) -> bool {
    event.discarded() && trace.events[..i].iter().any(|before| before.at == event.at && before.stop.is_some())
}

/// "base 3" or "bases 1, 3 and 4"
pub fn bases_in_words(bases: &[usize]) -> String {
    let numbers: Vec<String> = bases.iter().map(usize::to_string).collect();
    match numbers.split_last() {
        None => String::new(),
        Some((last, [])) => format!("base {last}"),
        Some((last, others)) => format!("bases {} and {last}", others.join(", ")),
    }
}
