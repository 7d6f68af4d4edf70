//! Where everything stands: time runs down, a column for each base, and to the right the checks' figures with what happens under them. Each
//! event has rows of its own, so that no two labels meet; a label stands in the gap next to its receiver, so that no base's line runs
//! through it.

use crate::cut::Shown;
use crate::names::Names;
use crate::svg::width_of;
use crate::trace::{Cause, Event, Outcome, Trace};

pub const MARGIN: i32 = 14;
pub const FIXED: i32 = 12;
pub const PLAIN: i32 = 11;
pub const NOTE_LINE: i32 = 13;
/// From the figures down to the first note.
const UNDER_FIGURES: i32 = NOTE_LINE + 2;
/// certified, sum, suspects; tally, Correct-Finals
pub const FIGURES: [i32; 5] = [62, 50, 60, 48, 58];
pub const HEAD: i32 = 46;
/// Under a head, before the first row.
pub const BELOW_HEAD: i32 = 10;
const ROW: i32 = 23;
/// The words "secondary" and "relayed 24" fit the box under a base's line. No base of 16 relays more.
const NARROWEST_GAP: i32 = 84;
/// Together the bases take at least this much, so that few bases do not stand too close.
const BASES: i32 = 360;
/// How far from a base's line a label has to stay.
pub const BESIDE_LINE: i32 = 8;
/// Room beside a label for the arrow's two ends.
const BESIDE_LABEL: i32 = BESIDE_LINE + 16;
/// Room for the number of a base that is not drawn, and between it and the next base's line.
pub const STUB: i32 = 22;
pub const BESIDE_STUB: i32 = 8;

pub struct Columns {
    /// Right edge of the schedule's line numbers.
    pub numbers: i32,
    pub lines: i32,
    bases: Vec<usize>,
    first_base: i32,
    pub gap: i32,
    pub figures: i32,
    pub width: i32,
}

#[derive(Clone, Copy, PartialEq, Eq)]
pub enum Part {
    Start,
    Arrival,
    Stop,
}

/// A row before it has its place.
pub struct Row {
    pub event: usize,
    pub part: Part,
    /// The line's number and words stand in an event's first row.
    pub first: bool,
    /// A check's figures stand over the notes.
    pub figures: bool,
    pub notes: Vec<String>,
}

impl Columns {
    pub fn of(trace: &Trace, shown: &Shown, names: &Names) -> Columns {
        let events = || shown.events.iter().map(|&i| &trace.events[i]);
        let digits = events().last().map_or(1, |event| event.line.to_string().len()) as i32;
        let numbers = MARGIN + digits.max(3) * FIXED * 62 / 100;
        let lines = numbers + 10;
        let words = events().map(|event| width_of(&schedule_words(event), FIXED)).max().unwrap_or(0);
        let gap = gap(trace, shown, names);
        // An arrow from a base that is not drawn begins a gap before its receiver.
        let side = if shown.bases.len() < trace.n() { gap } else { gap / 2 };
        let first_base = lines + words.max(60) + 8 + side;
        let figures = first_base + (shown.bases.len() as i32 - 1).max(0) * gap + side + 6;
        let width = figures + FIGURES.iter().sum::<i32>() + MARGIN;
        Columns { numbers, lines, bases: shown.bases.clone(), first_base, gap, figures, width }
    }

    /// Nothing for a base that is not drawn.
    pub fn base(&self, b: usize) -> Option<i32> {
        self.bases.iter().position(|&known| known == b).map(|place| self.first_base + place as i32 * self.gap)
    }

    /// The right edge of a figure's column.
    pub fn figure(&self, i: usize) -> i32 {
        self.figures + FIGURES[..=i].iter().sum::<i32>()
    }
}

/// Between two bases' lines: room for the widest label and for a base's head, and more where there are few bases.
fn gap(trace: &Trace, shown: &Shown, names: &Names) -> i32 {
    let heard = shown.events.iter().filter_map(|&i| trace.events[i].hearing.as_ref());
    let label = heard.map(|hearing| width_of(&names.message(&hearing.message), FIXED)).max().unwrap_or(0);
    let id = trace.ids.iter().map(|id| width_of(&id.to_string(), FIXED)).max().unwrap_or(0);
    let spread = (BASES / shown.bases.len().max(1) as i32).min(150);
    let stub = if shown.bases.len() < trace.n() { STUB + 2 * BESIDE_STUB } else { 0 };
    (label + BESIDE_LABEL + stub).max(id + 18).max(spread).max(NARROWEST_GAP)
}

/// The schedule's line; a forgery without its bytes.
pub fn schedule_words(event: &Event) -> String {
    let at = event.at;
    match event.cause {
        Cause::Start => format!("start {at}"),
        Cause::Carry { from, number } => format!("carry {from} {at} {number}"),
        Cause::Forge { from } => format!("forge {from} {at}"),
    }
}

pub fn rows(trace: &Trace, shown: &Shown, names: &Names) -> Vec<Row> {
    let of_event = |&i: &usize| {
        let event = &trace.events[i];
        parts(event).into_iter().enumerate().map(move |(place, part)| {
            let notes = note(event, part, names).iter().flat_map(|line| wrapped(line, part)).collect();
            Row { event: i, part, first: place == 0, figures: part == Part::Arrival && event.check.is_some(), notes }
        })
    };
    shown.events.iter().flat_map(of_event).collect()
}

impl Row {
    pub fn height(&self) -> i32 {
        let lines = NOTE_LINE * (self.notes.len() as i32 - 1).max(0);
        let under = if self.figures && !self.notes.is_empty() { UNDER_FIGURES } else { 0 };
        ROW + under + lines
    }

    /// Where the arrow or the mark is.
    pub fn y(&self, top: i32) -> i32 {
        match self.part {
            Part::Arrival => top + 17,
            Part::Start | Part::Stop => top + ROW / 2,
        }
    }

    pub fn baseline(top: i32) -> i32 {
        top + 16
    }

    /// The first note stands beside the arrow, or under the figures where there are some.
    pub fn note_baseline(&self, top: i32) -> i32 {
        Row::baseline(top) + if self.figures { UNDER_FIGURES } else { 0 }
    }
}

fn parts(event: &Event) -> Vec<Part> {
    let start = event.starts || event.cause == Cause::Start;
    let each = [(start, Part::Start), (event.hearing.is_some(), Part::Arrival), (event.stop.is_some(), Part::Stop)];
    each.into_iter().filter(|&(there, _)| there).map(|(_, part)| part).collect()
}

/// What is said to the right of a row.
fn note(event: &Event, part: Part, names: &Names) -> Vec<String> {
    let at = event.at;
    let [by_start, by_arrival, by_stop] = event.broadcasts_by_cause().map(|broadcasts| names.broadcasts(broadcasts));
    match (part, &event.hearing, &event.stop) {
        (Part::Start, ..) if event.starts => vec![format!("base {at} starts, sends {by_start}")],
        (Part::Start, ..) => vec![format!("discarded: base {at} has started")],
        (Part::Stop, _, Some(stop)) => {
            let state = if stop.prime { "prime" } else { "secondary" };
            vec![format!("base {at} stops: {state}"), format!("list {}, leader {}, sends {by_stop}", names.list(&stop.list), stop.leader)]
        }
        (_, Some(hearing), _) => match &hearing.outcome {
            Outcome::Accepted { besides, replaced } => {
                let sends = (!by_arrival.is_empty()).then(|| format!("base {at} sends {by_arrival}"));
                let withheld = event.withheld.as_ref().map(|why| format!("base {at} sends no F: {why}"));
                let besides = match replaced {
                    Some(vote) => Some(format!("{besides} {}", names.message(vote))),
                    None => (!besides.is_empty()).then(|| besides.clone()),
                };
                besides.into_iter().chain(sends).chain(withheld).collect()
            }
            Outcome::Discarded(why) => vec![format!("discarded: {why}")],
            Outcome::Refused(why) => vec![format!("refused by {why}")],
        },
        _ => Vec::new(),
    }
}

/// The note in lines that fit under the figures; a stop's is in a bold face, which is wider.
fn wrapped(note: &str, part: Part) -> Vec<String> {
    let size = if part == Part::Stop { PLAIN + 2 } else { PLAIN };
    wrapped_to(note, size, FIGURES.iter().sum())
}

pub fn wrapped_to(text: &str, size: i32, width: i32) -> Vec<String> {
    let mut lines: Vec<String> = Vec::new();
    for word in text.split(' ') {
        match lines.last_mut() {
            Some(line) if width_of(line, size) + width_of(word, size) + size < width => {
                line.push(' ');
                line.push_str(word);
            }
            _ => lines.push(word.to_string()),
        }
    }
    lines
}

/// By its places, whatever stands there: a line of a schedule can be one long word, and its spaces count. Neither an escape nor the count
/// of bytes is broken.
pub fn broken_to(text: &str, size: i32, width: i32) -> Vec<String> {
    let mut lines = vec![String::new()];
    let mut rest = text;
    while !rest.is_empty() {
        let (unit, behind) = rest.split_at(unit(rest));
        match lines.last_mut() {
            Some(line) if line.is_empty() || width_of(&format!("{line}{unit}"), size) <= width => line.push_str(unit),
            _ => lines.push(unit.to_string()),
        }
        rest = behind;
    }
    lines
}

/// The length of what stays together at the front: `\xNN`, `\r`, ` (302 bytes)` at the end, or else one sign.
fn unit(text: &str) -> usize {
    let signs = match text.as_bytes() {
        [b'\\', b'x', ..] => 4,
        [b'\\', ..] => 2,
        _ if text.starts_with(" (") && text.ends_with(" bytes)") => text.chars().count(),
        _ => 1,
    };
    text.chars().take(signs).map(char::len_utf8).sum()
}
