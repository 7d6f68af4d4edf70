//! The end of the picture: each base's state and slots under its line, then the lists in full with who holds them, what slots are, and the
//! line that was refused.

use crate::chart::Chart;
use crate::cut::{bases_in_words, Shown};
use crate::layout::{wrapped_to, MARGIN, PLAIN};
use crate::names::{Names, NO_BREAK};
use crate::refusal_box;
use crate::svg::{Anchor, Svg};
use crate::trace::{End, Slots, State, Stop, Trace};

pub const LINE: i32 = 18;
/// In a box, the state with a list and its leader, or without, and the slots below.
const STOPPED: i32 = 64;
const NOT_STOPPED: i32 = 24;
const SLOTS: i32 = 48;
/// The boxes, and the sentences under them, on a page of their own at the worst.
pub const BOXES: i32 = STOPPED + SLOTS;

impl Chart<'_> {
    /// A box under each base's line. Answers how far down they reach.
    pub fn draw_end_boxes(&self, svg: &mut Svg, top: i32) -> i32 {
        let stopped = self.shown.states.iter().any(|state| matches!(state, State::Stopped(_)));
        let middle = top + if stopped { STOPPED } else { NOT_STOPPED };
        for &b in &self.shown.bases {
            let Some(x) = self.columns.base(b) else { continue };
            self.draw_end_box(svg, &self.shown.states[b - 1], x, top, middle);
            draw_slots(svg, self.shown.slots[b - 1], x, middle);
        }
        middle + SLOTS
    }

    fn draw_end_box(&self, svg: &mut Svg, state: &State, x: i32, top: i32, middle: i32) {
        let (left, width) = (x - self.columns.gap / 2 + 5, self.columns.gap - 10);
        let (class, word) = match state {
            State::Idle => ("unfinished", "idle"),
            State::Running => ("unfinished", "running"),
            State::Stopped(Stop { prime: true, .. }) => ("head", "prime"),
            State::Stopped(_) => ("head", "secondary"),
        };
        svg.rect(class, left, top, width, middle + SLOTS - top);
        svg.line("rule", (left + 6, middle), (left + width - 6, middle));
        svg.text("bold", Anchor::Middle, x, top + 15, word);
        if let State::Stopped(stop) = state {
            svg.text("", Anchor::Middle, x, top + 30, &format!("list {}", self.names.list(&stop.list)));
            svg.text("", Anchor::Middle, x, top + 44, "leader");
            svg.text("fixed", Anchor::Middle, x, top + 57, &stop.leader.to_string());
        }
    }
}

fn draw_slots(svg: &mut Svg, slots: Slots, x: i32, top: i32) {
    svg.text("bold", Anchor::Middle, x, top + 15, &format!("slots {}", slots.together()));
    svg.text("", Anchor::Middle, x, top + 29, &format!("own {}", slots.own));
    svg.text("", Anchor::Middle, x, top + 42, &format!("relayed {}", slots.relayed));
}

/// Of those that something waits between; more are left to the trace.
const MOST_PAIRS: usize = 12;

/// Between the sentences on the states and the box of a refused schedule.
const OVER_BOX: i32 = 10;

/// Answers how far down it reaches.
pub fn draw(svg: &mut Svg, trace: &Trace, shown: &Shown, names: &Names, width: i32, top: i32) -> i32 {
    let lines = lines(trace, shown, names, width);
    let mut y = top;
    for line in &lines {
        svg.text("", Anchor::Start, MARGIN, y, line);
        y += LINE;
    }
    match trace.end {
        End::Refused { .. } if lines.is_empty() => refusal_box::draw(svg, trace, shown, width, y),
        End::Refused { .. } => refusal_box::draw(svg, trace, shown, width, y + OVER_BOX),
        End::Report { .. } => y - LINE + 4,
    }
}

/// How much room `draw` takes below its top.
pub fn height(trace: &Trace, shown: &Shown, names: &Names, width: i32) -> i32 {
    draw(&mut Svg::default(), trace, shown, names, width, 0) + LINE
}

/// The same for a screen reader, with the slots of each base, which it does not see in the boxes.
pub fn description(trace: &Trace, shown: &Shown, names: &Names) -> String {
    let ended = |sentence: String| if sentence.ends_with(['.', ':']) { sentence } else { format!("{sentence}.") };
    let of_bases = shown.bases.iter().map(|b| slots_in_words(&format!("base {b}"), shown.slots[b - 1]));
    let end = states(trace, shown, names).into_iter().chain(of_bases).chain(airtime(trace, shown));
    end.chain(refusal_box::sentences(trace, shown)).map(ended).collect::<Vec<_>>().join(" ")
}

fn lines(trace: &Trace, shown: &Shown, names: &Names, width: i32) -> Vec<String> {
    let room = width - 2 * MARGIN - 24;
    let sentences = states(trace, shown, names).into_iter().chain(airtime(trace, shown));
    sentences.flat_map(|sentence| wrapped_to(&sentence, PLAIN, room)).collect()
}

/// "Stopped with L = 300 400 500, leader 500: bases 1, 2 and 3." Nothing before a refused line, where the boxes under the bases say it.
fn states(trace: &Trace, shown: &Shown, names: &Names) -> Vec<String> {
    let mut out = match (&trace.end, shown.whole_end) {
        (End::Refused { .. }, true) => return Vec::new(),
        (End::Refused { line, .. }, false) => vec![format!("The schedule goes on, up to line {line}. At the end of this part:")],
        (End::Report { .. }, true) => Vec::new(),
        (End::Report { .. }, false) => vec!["The schedule goes on. At the end of this part:".to_string()],
    };
    for (list, _) in names.lists() {
        let holders = which(shown, |state| matches!(state, State::Stopped(stop) if stop.list == list));
        let leader = shown.states.iter().find_map(|state| match state {
            State::Stopped(stop) if stop.list == list => Some(stop.leader),
            _ => None,
        });
        if let (Some(leader), false) = (leader, holders.is_empty()) {
            out.push(format!("Stopped with {} = {}, leader {leader}: {holders}.", names.list(list), names.spaced(list)));
        }
    }
    for (word, wanted) in [("Running", State::Running), ("Idle", State::Idle)] {
        let bases = which(shown, |state| *state == wanted);
        if !bases.is_empty() {
            out.push(format!("{word}: {bases}."));
        }
    }
    if let (End::Report { waiting, pairs, .. }, true) = (&trace.end, shown.whole_end) {
        let each = "each a broadcast and a base at the other end of a good link that it has not been carried to";
        out.push(format!("Waiting: {waiting} ({each})."));
        match pairs.len() {
            0 => {}
            1..=MOST_PAIRS => out.push(format!("The broadcasts' numbers, {}.", unbroken(pairs).join("; "))),
            _ => out.push("The trace lists them.".to_string()),
        }
    }
    out
}

/// The slots of all bases where the trace has them, and what slots are. Nothing where there is no net, and so no box.
fn airtime(trace: &Trace, shown: &Shown) -> Vec<String> {
    let all = match (&trace.end, shown.whole_end) {
        _ if trace.net.is_none() => return Vec::new(),
        (End::Report { slots, .. }, true) => Some(slots_in_words("all bases of the net", *slots)),
        _ => None,
    };
    let slots = "A frame takes one slot of airtime for each 8 bytes begun, and counts once though every link gets it.";
    let boxes = "The boxes have the slots of what each base has broadcast from the beginning of the schedule up to here.";
    let own = "Own: Announce, Verify of the base's own identifier, Correct-Final. Relayed: the rest.";
    all.into_iter().chain([slots.to_string(), format!("{boxes} {own}")]).collect()
}

/// "Slots of base 1: own 4, relayed 1, together 5."
fn slots_in_words(whose: &str, slots: Slots) -> String {
    format!("Slots of {whose}: own {}, relayed {}, together {}.", slots.own, slots.relayed, slots.together())
}

fn unbroken(phrases: &[String]) -> Vec<String> {
    phrases.iter().map(|phrase| phrase.replace(' ', NO_BREAK)).collect()
}

/// "bases 1, 3 and 4", of those drawn
fn which(shown: &Shown, wanted: impl Fn(&State) -> bool) -> String {
    let bases: Vec<usize> = shown.bases.iter().copied().filter(|b| wanted(&shown.states[b - 1])).collect();
    match bases.len() {
        2 if shown.states.len() == 2 => "both bases".to_string(),
        all if all == shown.states.len() => format!("all {all} bases"),
        _ => bases_in_words(&bases),
    }
}
