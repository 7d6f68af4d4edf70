//! The top of the picture: the title, what the signs mean, and the lists by name.

use crate::arrows::{arrow, classes, start_mark, stop_mark, tick, Shaft, Tip};
use crate::cut::Shown;
use crate::layout::{wrapped_to, FIXED, MARGIN, PLAIN};
use crate::names::{Names, NO_BREAK};
use crate::svg::{width_of, Anchor, Svg};
use crate::trace::{End, Trace};

const LINE: i32 = 19;
/// Left edges of the legend's blocks, and how far the second row of them stands below the first.
const BLOCKS: [i32; 3] = [0, 260, 520];
const SECOND_ROW: i32 = 5 * LINE + 10;
pub const WIDTH: i32 = 780;
/// Where the text behind a sample of an arrow begins.
const BEHIND_ARROW: i32 = 72;

/// "Net of 4 bases, t = 1, faulty link 1–2: refused at line 13"
pub fn title(trace: &Trace) -> String {
    let Some(net) = trace.net else { return "No net: the schedule is refused".to_string() };
    let refused = match trace.end {
        End::Refused { line, .. } => format!(": refused at line {line}"),
        End::Report { .. } => String::new(),
    };
    format!("Net of {} bases, t = {}{}{refused}", net.n, net.t, faulty(trace))
}

/// Nothing where none is named in a header that may not have been read to its end.
fn faulty(trace: &Trace) -> String {
    let links: Vec<String> = trace.faulty.iter().map(|(a, b)| format!("{a}–{b}")).collect();
    let header_ends = !trace.events.is_empty() || matches!(trace.end, End::Report { .. });
    match links.len() {
        0 if header_ends => ", no faulty link".to_string(),
        0 => String::new(),
        1 => format!(", faulty link {}", links[0]),
        _ => format!(", faulty links {}", links.join(", ")),
    }
}

/// Nothing where no event stands before the refused line.
fn up_to_refused(trace: &Trace) -> String {
    match trace.end {
        End::Refused { line, .. } if !trace.events.is_empty() => {
            format!("Line {line} is refused, and the box at the end says why. ")
        }
        _ => String::new(),
    }
}

/// The top of a later page: the title, quiet lines under it, and the lists by name. Answers how far down they reach.
pub fn draw_short(svg: &mut Svg, trace: &Trace, names: &Names, under: &[String]) -> i32 {
    svg.text("title", Anchor::Start, MARGIN, 30, &title(trace));
    let mut y = 48;
    for line in under {
        svg.text("quiet", Anchor::Start, MARGIN, y, line);
        y += 15;
    }
    draw_lists(svg, names, y + 3)
}

/// Draws the title, the legend and the lists; answers how far down they reach.
pub fn draw(svg: &mut Svg, trace: &Trace, shown: &Shown, names: &Names) -> i32 {
    if trace.net.is_none() {
        svg.text("title", Anchor::Start, MARGIN, 30, &title(trace));
        return 30;
    }
    let part = shown.told.as_ref().map_or(String::new(), |told| format!("Only {told}. ")) + &up_to_refused(trace);
    let arrows = "Time runs down. An arrow is a message arriving, its short name next to the base that hears it;";
    let figures = "the figures are that base's checks after it.";
    svg.text("title", Anchor::Start, MARGIN, 30, &title(trace));
    let mut top = 48;
    for line in wrapped_to(&format!("{part}{arrows} {figures}"), PLAIN, WIDTH) {
        svg.text("quiet", Anchor::Start, MARGIN, top, &line);
        top += 15;
    }
    top += 12;
    messages(svg, trace, names, MARGIN + BLOCKS[0], top);
    shafts(svg, MARGIN + BLOCKS[1], top);
    tips(svg, MARGIN + BLOCKS[2], top);
    bases(svg, MARGIN + BLOCKS[0], top + SECOND_ROW);
    starts(svg, MARGIN + BLOCKS[1], top + SECOND_ROW);
    stops(svg, MARGIN + BLOCKS[2], top + SECOND_ROW);
    let bottom = explained(svg, top + SECOND_ROW + 5 * LINE - 8);
    draw_lists(svg, names, bottom + 8)
}

/// The words of the schedule's lines and of the checks that no sign stands for.
fn explained(svg: &mut Svg, mut y: i32) -> i32 {
    let carried = "carry a b k: the k-th broadcast of base a reaches base b. A base numbers its broadcasts from 1; a base that starts";
    let numbers = "broadcasts its Announce (no. 1) and the Verify of its own identifier (no. 2).";
    let forged = "forge a b: bytes arrive at base b as if from base a.";
    let certified = "certified: the own identifier and those announced on a link.";
    let sum = "sum: for each of them one, and one for each link that holds a Verify of it.";
    let suspects = "suspects: pairs of certified identifiers where the link that announced one holds no Verify of the other.";
    let tally = "tally: links that hold a Correct-Final or a Verify-Final of the list that has just arrived.";
    let correct_finals = "C-Finals: those of them that hold a Correct-Final.";
    let mouse = "In a browser, resting the mouse on a row shows its lines of the trace, where the suspect pairs are named.";
    let events = [format!("{carried} {numbers}"), forged.to_string()];
    let checks = [format!("{certified} {sum}"), suspects.to_string(), format!("{tally} {correct_finals}"), mouse.to_string()];
    for sentence in events.iter().chain(&checks) {
        for line in wrapped_to(sentence, PLAIN, WIDTH) {
            svg.text("quiet", Anchor::Start, MARGIN, y, &line);
            y += 15;
        }
    }
    y
}

fn block(svg: &mut Svg, x: i32, top: i32, heading: &str, indent: i32, lines: &[&str]) {
    svg.text("bold", Anchor::Start, x, top, heading);
    for (i, line) in lines.iter().enumerate() {
        svg.text("", Anchor::Start, x + indent, top + (i as i32 + 1) * LINE, line);
    }
}

fn messages(svg: &mut Svg, trace: &Trace, names: &Names, x: i32, top: i32) {
    let id = trace.ids.first().copied().unwrap_or(500);
    // Without a list that is drawn, L stands for any.
    let (of, list) = names.lists().first().map_or(("a list", "L".to_string()), |(list, _)| ("list", names.list(list)));
    let short = [format!("A {id}"), format!("V {id}"), format!("C {list}"), format!("F {list}")];
    let of_list = |kind: &str| format!("{kind} of {of} {list}");
    let indent = short.iter().map(|name| width_of(name, FIXED)).max().unwrap_or(0) + 8;
    block(svg, x, top, "Messages", indent, &["Announce", "Verify", &of_list("Correct-Final"), &of_list("Verify-Final")]);
    for (i, name) in short.iter().enumerate() {
        svg.text("fixed", Anchor::Start, x, top + (i as i32 + 1) * LINE, name);
    }
}

fn shafts(svg: &mut Svg, x: i32, top: i32) {
    block(svg, x, top, "The link", BEHIND_ARROW, &["good link", "faulty link, carried", "faulty link, forged"]);
    for (i, shaft) in [Shaft::Good, Shaft::Faulty, Shaft::Forged].into_iter().enumerate() {
        sample(svg, shaft, Tip::Accepted, x, top + (i as i32 + 1) * LINE - 4);
    }
}

fn tips(svg: &mut Svg, x: i32, top: i32) {
    block(svg, x, top, "What became of it", BEHIND_ARROW, &["accepted", "discarded", "burst refused"]);
    let samples = [(Shaft::Good, Tip::Accepted), (Shaft::Good, Tip::Discarded), (Shaft::Forged, Tip::Refused)];
    for (i, (shaft, tip)) in samples.into_iter().enumerate() {
        sample(svg, shaft, tip, x, top + (i as i32 + 1) * LINE - 4);
    }
}

fn sample(svg: &mut Svg, shaft: Shaft, tip: Tip, x: i32, y: i32) {
    svg.open(&classes(shaft, tip));
    arrow(svg, shaft, tip, x + 4, x + 62, y);
    svg.close();
}

fn bases(svg: &mut Svg, x: i32, top: i32) {
    block(svg, x, top, "A base's line", 44, &["idle", "running", "stopped"]);
    for (i, state) in ["idle", "running", "stopped"].into_iter().enumerate() {
        let y = top + (i as i32 + 1) * LINE - 4;
        svg.line(state, (x, y), (x + 34, y));
    }
}

fn starts(svg: &mut Svg, x: i32, top: i32) {
    block(svg, x, top, "Marks", 28, &["the base starts", "start discarded", "figure met"]);
    start_mark(svg, x + 10, top + LINE - 4, true);
    start_mark(svg, x + 10, top + 2 * LINE - 4, false);
    tick(svg, x + 5, top + 3 * LINE);
}

fn stops(svg: &mut Svg, x: i32, top: i32) {
    block(svg, x, top, "A base stops", 28, &["prime (all three figures met)", "secondary (both figures met)"]);
    stop_mark(svg, x + 10, top + LINE - 4, true);
    stop_mark(svg, x + 10, top + 2 * LINE - 4, false);
}

/// The lists that have short names, each in full.
fn draw_lists(svg: &mut Svg, names: &Names, mut y: i32) -> i32 {
    for (list, is_true) in names.lists() {
        let name = names.list(list);
        let what = if is_true { "(the true identifiers)" } else { "(not the true identifiers)" };
        for line in wrapped_to(&format!("{name} = {} {}", names.spaced(list), what.replace(' ', NO_BREAK)), FIXED, WIDTH) {
            svg.text("fixed", Anchor::Start, MARGIN, y, &line);
            y += LINE - 2;
        }
    }
    if names.has_strangers() {
        svg.text("", Anchor::Start, MARGIN, y, "! marks an identifier of no base.");
        y += LINE - 2;
    }
    y
}
