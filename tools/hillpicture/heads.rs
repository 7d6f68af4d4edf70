//! The heads of the columns: each base with its identifier, the checks' figures with their thresholds.

use crate::chart::Chart;
use crate::layout::{FIGURES, HEAD};
use crate::svg::{Anchor, Svg};
use crate::trace::LEAST_CORRECT_FINALS;

impl Chart<'_> {
    pub fn draw_heads(&self, svg: &mut Svg, top: i32) {
        let columns = &self.columns;
        svg.text("bold", Anchor::Start, columns.lines, top + 38, "line");
        for &b in &self.shown.bases {
            let Some(x) = columns.base(b) else { continue };
            svg.rect("head", x - columns.gap / 2 + 5, top, columns.gap - 10, HEAD - 4);
            svg.text("bold", Anchor::Middle, x, top + 17, &format!("base {b}"));
            let id = self.trace.ids.get(b - 1).map_or("?".to_string(), u32::to_string);
            svg.text("fixed", Anchor::Middle, x, top + 33, &id);
        }
        self.draw_figure_heads(svg, top);
    }

    fn draw_figure_heads(&self, svg: &mut Svg, top: i32) {
        let net = self.net;
        let middle = |first: usize, last: usize| (self.columns.figure(first) - FIGURES[first] + self.columns.figure(last)) / 2;
        svg.text("bold", Anchor::Middle, middle(0, 2), top + 8, "prime check");
        svg.text("bold", Anchor::Middle, middle(3, 4), top + 8, "secondary check");
        let figures = [
            ("certified", format!("all {}", net.n)),
            ("sum", format!("≥ {}", net.least_sum())),
            ("suspects", format!("≤ {}", net.t)),
            ("tally", format!("≥ {}", net.least_tally())),
            ("C-Finals", format!("≥ {LEAST_CORRECT_FINALS}")),
        ];
        for (i, (name, threshold)) in figures.iter().enumerate() {
            svg.text("", Anchor::Middle, middle(i, i), top + 23, name);
            svg.text("", Anchor::Middle, middle(i, i), top + 38, threshold);
        }
    }
}
