//! The box of a refused schedule: its line and number, and why. It ends every picture of that schedule, whatever part of it is drawn.

use crate::cut::Shown;
use crate::ending::LINE;
use crate::layout::{broken_to, wrapped_to, FIXED, MARGIN, PLAIN};
use crate::refusals::meaning;
use crate::svg::{Anchor, Svg};
use crate::trace::{End, Trace};

/// A line of text in the box.
enum Line {
    Plain(String),
    /// Of the schedule, as it stands.
    Verbatim(String),
}

/// Answers how far down it reaches; as far as `top` where nothing is refused.
pub fn draw(svg: &mut Svg, trace: &Trace, shown: &Shown, width: i32, top: i32) -> i32 {
    let lines = lines(trace, shown, width);
    if lines.is_empty() {
        return top;
    }
    svg.rect("refusal", MARGIN, top - 14, width - 2 * MARGIN, (lines.len() as i32 + 1) * LINE);
    let mut y = top;
    for (i, line) in lines.iter().enumerate() {
        match line {
            Line::Plain(text) => svg.text(if i == 0 { "refusal" } else { "" }, Anchor::Start, MARGIN + 12, y + 6, text),
            Line::Verbatim(text) => svg.verbatim(MARGIN + 12, y + 6, text),
        }
        y += LINE;
    }
    y + 6
}

fn lines(trace: &Trace, shown: &Shown, width: i32) -> Vec<Line> {
    let room = width - 2 * MARGIN - 24;
    let schedule_line = told_line(trace);
    let of = |sentence: &String| -> Vec<Line> {
        match Some(sentence) == schedule_line {
            true => broken_to(sentence, FIXED, room).into_iter().map(Line::Verbatim).collect(),
            false => wrapped_to(sentence, PLAIN, room).into_iter().map(Line::Plain).collect(),
        }
    };
    sentences(trace, shown).iter().flat_map(of).collect()
}

/// The refused line, which the trace tells first.
fn told_line(trace: &Trace) -> Option<&String> {
    match &trace.end {
        End::Refused { told, .. } => told.first(),
        End::Report { .. } => None,
    }
}

/// The number, then the line with what the trace tells of it, or else what the number means. Nothing where nothing is refused.
pub fn sentences(trace: &Trace, shown: &Shown) -> Vec<String> {
    let End::Refused { number, line, told } = &trace.end else { return Vec::new() };
    let mut sentences = vec![format!("refused {number} line {line}")];
    match told.is_empty() {
        true => sentences.push(format!("Line {line} of the schedule: {}.", meaning(*number).unwrap_or("see docs/RULES.md"))),
        false => sentences.extend(told.iter().map(|line| line.trim_start().to_string())),
    }
    sentences.push(what_is_shown(trace, shown).to_string());
    sentences
}

fn what_is_shown(trace: &Trace, shown: &Shown) -> &'static str {
    match (trace.events.is_empty(), shown.events.is_empty(), shown.told.is_some()) {
        (true, ..) => "Nothing happened before it.",
        (false, true, _) => "Nothing of what the lines before it did is in this part.",
        (false, false, true) => "What the lines before it did is drawn as far as the options ask for it.",
        (false, false, false) => "The picture shows what the lines before it did.",
    }
}
