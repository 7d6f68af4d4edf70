//! A long picture as pages that print: one HTML file, each page a picture of the shape of a sheet of A4.

use crate::chart::Chart;
use crate::cut::Shown;
use crate::ending;
use crate::layout::MARGIN;
use crate::legend;
use crate::names::Names;
use crate::sheet::{self, Page, Sheet};
use crate::svg::{escaped, Anchor, Svg, STYLE};
use crate::trace::Trace;

/// A sheet's sides within margins of 8 mm, and what a page stays below them, so that a rounded length does not begin another.
const LONG: i32 = 281;
const SHORT: i32 = 194;
const SPARE: i32 = 2;
/// A wider picture lies on its side.
const WIDEST_UPRIGHT: i32 = 1000;
/// Below the last row.
const FOOT: i32 = 26;

struct Paper {
    width: i32,
    height: i32,
    upright: bool,
}

impl Paper {
    fn of(width: i32) -> Paper {
        let upright = width <= WIDEST_UPRIGHT;
        let height = if upright { width * (LONG - SPARE) / SHORT } else { width * (SHORT - SPARE) / LONG };
        Paper { width, height, upright }
    }
}

pub fn pages(trace: &Trace, shown: &Shown) -> String {
    let names = Names::of(trace, shown);
    let title = legend::title(trace);
    let Some(chart) = Chart::of(trace, shown, &names) else {
        let mut svg = Svg::default();
        let bottom = legend::draw(&mut svg, trace, shown, &names);
        let paper = Paper::of(legend::WIDTH);
        ending::draw(&mut svg, trace, shown, &names, paper.width, bottom + 26);
        return html(&title, &paper, &[svg.inline(paper.width, paper.height, &title)]);
    };
    let paper = Paper::of(legend::WIDTH.max(chart.columns.width));
    let end = 10 + ending::BOXES + 26 + ending::height(trace, shown, &names, paper.width);
    let above = |page: &Page| draw_above(&mut Svg::default(), &chart, page);
    let sheets = sheet::pages(&chart.rows, above, paper.height - FOOT, end);
    let drawn: Vec<String> = (0..sheets.len()).map(|i| page(&chart, &sheets, i, &paper)).collect();
    html(&title, &paper, &drawn)
}

fn page(chart: &Chart, sheets: &[Sheet], i: usize, paper: &Paper) -> String {
    let (trace, shown, names) = (chart.trace, chart.shown, chart.names);
    let mut svg = Svg::default();
    let last = i + 1 == sheets.len();
    let places: Vec<usize> = sheets[i].rows.iter().map(|&(place, _)| place).collect();
    draw_above(&mut svg, chart, &Page { number: i, places: &places, end: last });
    let bottom = chart.draw(&mut svg, &sheets[i], last);
    if last {
        ending::draw(&mut svg, trace, shown, names, paper.width, bottom + 26);
    }
    let number = format!("page {} of {}", i + 1, sheets.len());
    svg.text("quiet", Anchor::End, paper.width - MARGIN, paper.height - 8, &number);
    svg.inline(paper.width, paper.height, &format!("{}, {number}", legend::title(trace)))
}

/// The whole legend on the first page, less on the others, and on each the lists that have short names there.
fn draw_above(svg: &mut Svg, chart: &Chart, page: &Page) -> i32 {
    let trace = chart.trace;
    let events: Vec<usize> = page.places.iter().map(|&place| chart.rows[place].event).collect();
    let names = chart.names.of_part(trace, &events, page.end.then_some(chart.shown));
    match page.number {
        0 => legend::draw(svg, trace, chart.shown, &names),
        _ => legend::draw_short(svg, trace, &names, &under_title(chart, &events)),
    }
}

/// "Lines 40 to 90, what is heard at base 3.", the messages' letters, and the signs.
fn under_title(chart: &Chart, events: &[usize]) -> Vec<String> {
    let (Some(&first), Some(&last)) = (events.first(), events.last()) else { return vec!["The end.".to_string()] };
    let line = |event: usize| chart.trace.events[event].line;
    let told = chart.shown.told_on_a_page.as_ref().map_or(String::new(), |told| format!(", {told}"));
    let letters = "A: Announce. V: Verify. C: Correct-Final. F: Verify-Final.";
    let signs = "Dashed: faulty link. Zigzag: forged. ×: discarded. ✓: figure met. P: prime. S: secondary.";
    vec![format!("Lines {} to {}{told}.", line(first), line(last)), letters.to_string(), signs.to_string()]
}

fn html(title: &str, paper: &Paper, pages: &[String]) -> String {
    let side = if paper.upright { "portrait" } else { "landscape" };
    let sheet = format!("@page {{ size: A4 {side}; margin: 8mm; }}\nbody {{ margin: 0; }}\nsvg {{ display: block; width: 100%; }}\n");
    let breaks = "svg + svg { break-before: page; }\n";
    let head = format!("<!DOCTYPE html>\n<html lang=\"en\">\n<meta charset=\"utf-8\">\n<title>{}</title>\n", escaped(title));
    format!("{head}<style>\n{sheet}{breaks}{STYLE}</style>\n{}</html>\n", pages.concat())
}
