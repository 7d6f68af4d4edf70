//! The picture put together: the legend, a line for each base, the events in their rows, and the end.

use crate::cut::Shown;
use crate::ending;
use crate::layout::{rows, Columns, Part, Row, HEAD, MARGIN};
use crate::legend;
use crate::names::Names;
use crate::sheet::{self, Sheet};
use crate::svg::Svg;
use crate::trace::{Net, State, Trace};

/// What every part of the picture looks things up in.
pub struct Chart<'t> {
    pub trace: &'t Trace,
    pub net: Net,
    pub shown: &'t Shown,
    pub names: &'t Names,
    pub columns: Columns,
    pub rows: Vec<Row>,
}

/// Everything on one sheet, as a file of its own.
pub fn picture(trace: &Trace, shown: &Shown) -> String {
    let names = Names::of(trace, shown);
    let mut svg = Svg::default();
    let (mut width, mut bottom) = (legend::WIDTH, legend::draw(&mut svg, trace, shown, &names));
    if let Some(chart) = Chart::of(trace, shown, &names) {
        width = width.max(chart.columns.width);
        let sheet = sheet::one(&chart.rows, bottom);
        bottom = chart.draw(&mut svg, &sheet, true);
    }
    bottom = ending::draw(&mut svg, trace, shown, &names, width, bottom + 26);
    svg.file(width, bottom + MARGIN, &legend::title(trace), &ending::description(trace, shown, &names))
}

impl<'t> Chart<'t> {
    pub fn of(trace: &'t Trace, shown: &'t Shown, names: &'t Names) -> Option<Chart<'t>> {
        let columns = Columns::of(trace, shown, names);
        trace.net.map(|net| Chart { trace, net, shown, names, columns, rows: rows(trace, shown, names) })
    }

    /// One sheet's heads, lines and events, and the boxes at the end under the last one. Answers how far down it reaches.
    pub fn draw(&self, svg: &mut Svg, sheet: &Sheet, last: bool) -> i32 {
        let foot = sheet.bottom + 10;
        self.stripes(svg, sheet);
        let before = self.states_before(sheet);
        for &b in &self.shown.bases {
            self.base_line(svg, b, &before[b - 1], sheet, foot);
        }
        for &head in &sheet.heads {
            self.draw_heads(svg, head);
        }
        let same_event = |one: &(usize, i32), next: &(usize, i32)| self.rows[one.0].event == self.rows[next.0].event;
        for of_event in sheet.rows.chunk_by(same_event) {
            self.draw_event(svg, of_event);
        }
        match last {
            true => self.draw_end_boxes(svg, foot),
            false => foot,
        }
    }

    /// Every other event on grey, to lead the eye across.
    fn stripes(&self, svg: &mut Svg, sheet: &Sheet) {
        for &(place, top) in &sheet.rows {
            let row = &self.rows[place];
            let odd = self.shown.events.binary_search(&row.event).is_ok_and(|i| i % 2 == 1);
            if odd {
                svg.rect("stripe", MARGIN - 6, top, self.columns.width - 2 * MARGIN + 12, row.height());
            }
        }
    }

    fn states_before(&self, sheet: &Sheet) -> Vec<State> {
        match sheet.rows.first() {
            Some(&(place, _)) => self.trace.states_after(self.rows[place].event),
            None => self.shown.states.clone(),
        }
    }

    /// The line looks otherwise while the base is idle, while it runs, and once it has stopped.
    fn base_line(&self, svg: &mut Svg, b: usize, before: &State, sheet: &Sheet, foot: i32) {
        let Some(x) = self.columns.base(b) else { return };
        let mut class = class_of(before);
        let mut from = sheet.heads[0] + HEAD;
        for &(place, top) in &sheet.rows {
            let row = &self.rows[place];
            let event = &self.trace.events[row.event];
            let next = match row.part {
                Part::Start if event.at == b && event.starts => "running",
                Part::Stop if event.at == b => "stopped",
                _ => continue,
            };
            svg.line(class, (x, from), (x, row.y(top)));
            (class, from) = (next, row.y(top));
        }
        svg.line(class, (x, from), (x, foot));
    }
}

fn class_of(state: &State) -> &'static str {
    match state {
        State::Idle => "idle",
        State::Running => "running",
        State::Stopped(_) => "stopped",
    }
}
