//! Arrows and marks. The shaft tells the link (solid, dashed, zigzag), the end tells what became of the message (head, cross, wall):
//! colour only repeats it.

use crate::layout::{BESIDE_LINE, BESIDE_STUB, STUB};
use crate::svg::{Anchor, Svg};
use crate::trace::Outcome;

#[derive(Clone, Copy, PartialEq, Eq)]
pub enum Shaft {
    Good,
    Faulty,
    Forged,
}

#[derive(Clone, Copy, PartialEq, Eq)]
pub enum Tip {
    Accepted,
    Discarded,
    Refused,
}

impl Tip {
    pub fn of(outcome: &Outcome) -> Tip {
        match outcome {
            Outcome::Accepted { .. } => Tip::Accepted,
            Outcome::Discarded(_) => Tip::Discarded,
            Outcome::Refused(_) => Tip::Refused,
        }
    }
}

pub fn classes(shaft: Shaft, tip: Tip) -> String {
    let link = match shaft {
        Shaft::Good => "good",
        Shaft::Faulty => "faulty",
        Shaft::Forged => "forged",
    };
    let outcome = match tip {
        Tip::Accepted => "accepted",
        Tip::Discarded => "discarded",
        Tip::Refused => "refused",
    };
    format!("{link} {outcome}")
}

/// An arrow between two bases' lines at height `y`, in a group with its classes.
pub fn arrow(svg: &mut Svg, shaft: Shaft, tip: Tip, from: i32, to: i32, y: i32) {
    let ahead = (to - from).signum();
    draw_shaft(svg, shaft, tip, from, to, y);
    if shaft != Shaft::Forged {
        svg.circle("tail", from, y, 4);
    }
    draw_tip(svg, tip, to, ahead, y);
}

/// An arrow from a base that is not drawn: its number stands where the arrow begins.
pub fn stub(svg: &mut Svg, shaft: Shaft, tip: Tip, sender: usize, from: i32, to: i32, y: i32) {
    let ahead = (to - from).signum();
    let number = from + ahead * (STUB / 2 + BESIDE_STUB);
    svg.rect("stub", number - STUB / 2, y - 7, STUB, 14);
    svg.text("", Anchor::Middle, number, y + 4, &sender.to_string());
    draw_shaft(svg, shaft, tip, number + ahead * STUB / 2, to, y);
    draw_tip(svg, tip, to, ahead, y);
}

fn draw_shaft(svg: &mut Svg, shaft: Shaft, tip: Tip, from: i32, to: i32, y: i32) {
    let ahead = (to - from).signum();
    let end = to - ahead * short(tip);
    match shaft {
        Shaft::Good | Shaft::Faulty => svg.path("shaft", &format!("M{from} {y}H{end}")),
        // A forged message comes from no base: the shaft has no tail and wavers.
        Shaft::Forged => svg.path("shaft", &zigzag(from + ahead * 7, end, y)),
    }
}

/// How far before the receiver's line the shaft ends.
fn short(tip: Tip) -> i32 {
    match tip {
        Tip::Accepted => 9,
        Tip::Discarded => 10,
        Tip::Refused => 11,
    }
}

/// How far from the receiver's line a label has to stay, so that the end of its arrow does not touch it.
pub fn beside_tip(tip: Tip) -> i32 {
    match tip {
        Tip::Accepted => BESIDE_LINE,
        Tip::Discarded => 16,
        Tip::Refused => 14,
    }
}

fn draw_tip(svg: &mut Svg, tip: Tip, to: i32, ahead: i32, y: i32) {
    let end = to - ahead * short(tip);
    match tip {
        Tip::Accepted => svg.path("head", &head(to - ahead * 2, y, ahead)),
        Tip::Discarded => cross(svg, end, y),
        Tip::Refused => svg.path("wall", &format!("M{end} {}V{}", y - 7, y + 7)),
    }
}

fn head(tip: i32, y: i32, ahead: i32) -> String {
    let back = tip - ahead * 10;
    format!("M{tip} {y}L{back} {}L{back} {}Z", y - 4, y + 4)
}

fn zigzag(from: i32, to: i32, y: i32) -> String {
    let (step, ahead) = (4, (to - from).signum());
    let mut path = format!("M{from} {y}");
    let (mut x, mut side) = (from, -1);
    while (to - x) * ahead > 2 * step {
        x += ahead * step;
        path.push_str(&format!("L{x} {}", y + 2 * side));
        side = -side;
    }
    format!("{path}L{to} {y}")
}

pub fn cross(svg: &mut Svg, x: i32, y: i32) {
    let (left, right, top, bottom) = (x - 5, x + 5, y - 5, y + 5);
    svg.path("cross", &format!("M{left} {top}L{right} {bottom}M{left} {bottom}L{right} {top}"));
}

pub fn tick(svg: &mut Svg, x: i32, baseline: i32) {
    svg.path("tick", &format!("M{x} {}L{} {baseline}L{} {}", baseline - 4, x + 3, x + 9, baseline - 8));
}

pub fn start_mark(svg: &mut Svg, x: i32, y: i32, accepted: bool) {
    svg.circle("start", x, y, 6);
    if !accepted {
        cross(svg, x, y);
    }
}

pub fn stop_mark(svg: &mut Svg, x: i32, y: i32, prime: bool) {
    let (class, text, letter) = if prime { ("prime", "on-dark", "P") } else { ("secondary", "bold", "S") };
    svg.rect(class, x - 8, y - 8, 16, 16);
    svg.text(text, Anchor::Middle, x, y + 4, letter);
}
