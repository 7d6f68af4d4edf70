//! An event's rows: the base starts, a message arrives, the base stops.

use crate::arrows::{arrow, beside_tip, classes, start_mark, stop_mark, stub, tick, Shaft, Tip};
use crate::chart::Chart;
use crate::layout::{schedule_words, Part, Row, BESIDE_LINE, BESIDE_STUB, NOTE_LINE, STUB};
use crate::svg::{Anchor, Svg};
use crate::trace::{Cause, Check, Event, Hearing, Outcome, LEAST_CORRECT_FINALS};

impl Chart<'_> {
    /// The rows of one event, by their places and tops.
    pub fn draw_event(&self, svg: &mut Svg, rows: &[(usize, i32)]) {
        let event = &self.trace.events[self.rows[rows[0].0].event];
        svg.open("event");
        svg.tip(&event.told.join("\n"));
        for &(place, top) in rows {
            self.draw_row(svg, event, &self.rows[place], top);
        }
        svg.close();
    }

    fn draw_row(&self, svg: &mut Svg, event: &Event, row: &Row, top: i32) {
        let Some(x) = self.columns.base(event.at) else { return };
        let (y, baseline) = (row.y(top), Row::baseline(top));
        if row.first {
            svg.text("fixed quiet", Anchor::End, self.columns.numbers, baseline, &event.line.to_string());
            svg.text("fixed", Anchor::Start, self.columns.lines, baseline, &schedule_words(event));
        }
        match row.part {
            Part::Start => start_mark(svg, x, y, event.starts),
            Part::Arrival => {
                self.draw_arrival(svg, event, x, y);
                self.draw_figures(svg, event, baseline);
            }
            Part::Stop => stop_mark(svg, x, y, event.stop.as_ref().is_some_and(|stop| stop.prime)),
        }
        let class = match (row.part, &event.hearing) {
            (Part::Stop, _) => "bold",
            (Part::Arrival, Some(Hearing { outcome: Outcome::Discarded(_), .. })) => "quiet",
            _ => "",
        };
        for (i, line) in row.notes.iter().enumerate() {
            svg.text(class, Anchor::Start, self.columns.figures + 14, row.note_baseline(top) + i as i32 * NOTE_LINE, line);
        }
    }

    /// The arrow, and the message's short name in the middle of what is free of the gap next to the receiver. A sender that is not drawn is
    /// named by its number.
    fn draw_arrival(&self, svg: &mut Svg, event: &Event, receiver: i32, y: i32) {
        let (Some(from), Some(hearing)) = (event.from(), &event.hearing) else { return };
        let shaft = match event.cause {
            Cause::Forge { .. } => Shaft::Forged,
            _ if self.trace.is_faulty(from, event.at) => Shaft::Faulty,
            _ => Shaft::Good,
        };
        let tip = Tip::of(&hearing.outcome);
        let ahead = if from < event.at { 1 } else { -1 };
        svg.open(&classes(shaft, tip));
        let (gap, near) = (self.columns.gap, beside_tip(tip));
        let far = match self.columns.base(from) {
            Some(sender) => {
                arrow(svg, shaft, tip, sender, receiver, y);
                BESIDE_LINE
            }
            None => {
                stub(svg, shaft, tip, from, receiver - ahead * gap, receiver, y);
                BESIDE_STUB + STUB
            }
        };
        let middle = receiver - ahead * (near + gap - far) / 2;
        svg.text("fixed", Anchor::Middle, middle, y - 6, &self.names.message(&hearing.message));
        svg.close();
    }

    /// A check's figures, those that meet their threshold with a tick.
    fn draw_figures(&self, svg: &mut Svg, event: &Event, baseline: i32) {
        let net = self.net;
        let figures = match &event.check {
            None => return,
            Some(Check::Prime { certified, sum, suspects }) => {
                vec![(0, certified, *certified == net.n), (1, sum, *sum >= net.least_sum()), (2, suspects, *suspects <= net.t)]
            }
            Some(Check::Secondary { tally, correct_finals }) => {
                vec![(3, tally, *tally >= net.least_tally()), (4, correct_finals, *correct_finals >= LEAST_CORRECT_FINALS)]
            }
        };
        for (column, figure, met) in figures {
            let right = self.columns.figure(column) - 20;
            svg.text("fixed", Anchor::End, right, baseline, &figure.to_string());
            if met {
                tick(svg, right + 4, baseline);
            }
        }
    }
}
