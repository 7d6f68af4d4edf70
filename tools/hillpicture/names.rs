//! Short names: "A 500", "V 500", "C L", "F X1". L is the list of the true identifiers; X1, X2, ... are other lists in the order of their
//! first appearance in the whole trace, whatever part of it is drawn.

use crate::cut::Shown;
use crate::trace::{Broadcast, Event, Message, Outcome, State, Stop, Trace};
use std::collections::BTreeSet;

pub const NO_BREAK: &str = "\u{a0}";

#[derive(Clone)]
pub struct Names {
    true_list: Option<Vec<u32>>,
    /// Lists that are not the true one.
    false_lists: Vec<Vec<u32>>,
    /// Lists and identifiers of no base that are drawn.
    drawn: Vec<Vec<u32>>,
    strangers_drawn: bool,
    ids: BTreeSet<u32>,
}

impl Names {
    /// The names of what is drawn.
    pub fn of(trace: &Trace, shown: &Shown) -> Names {
        let ids = trace.ids.iter().copied().collect();
        let true_list = trace.true_list();
        let mut names = Names { true_list, false_lists: Vec::new(), drawn: Vec::new(), strangers_drawn: false, ids };
        trace.events.iter().flat_map(messages).for_each(|message| names.meet(message));
        stops(shown).for_each(|stop| names.meet_list(&stop.list));
        names.of_part(trace, &shown.events, Some(shown))
    }

    /// The same names, of these events alone, and of the states at the end where it is drawn.
    pub fn of_part(&self, trace: &Trace, events: &[usize], end: Option<&Shown>) -> Names {
        let mut names = Names { drawn: Vec::new(), strangers_drawn: false, ..self.clone() };
        events.iter().flat_map(|&i| messages(&trace.events[i])).for_each(|message| names.draw(message));
        end.into_iter().flat_map(stops).for_each(|stop| names.draw_list(&stop.list));
        names
    }

    fn meet(&mut self, message: &Message) {
        if let Message::CorrectFinal(list) | Message::VerifyFinal(list) = message {
            self.meet_list(list);
        }
    }

    fn meet_list(&mut self, list: &[u32]) {
        if self.true_list.as_deref() != Some(list) && !self.false_lists.iter().any(|known| known == list) {
            self.false_lists.push(list.to_vec());
        }
    }

    fn draw(&mut self, message: &Message) {
        match message {
            Message::Announce(id) | Message::Verify(id) => self.strangers_drawn |= self.is_stranger(*id),
            Message::CorrectFinal(list) | Message::VerifyFinal(list) => self.draw_list(list),
            Message::Bytes(_) => {}
        }
    }

    fn draw_list(&mut self, list: &[u32]) {
        self.strangers_drawn |= list.iter().any(|&id| self.is_stranger(id));
        if !self.drawn.iter().any(|known| known == list) {
            self.drawn.push(list.to_vec());
        }
    }

    /// An identifier of no base.
    fn is_stranger(&self, id: u32) -> bool {
        !self.ids.contains(&id)
    }

    pub fn has_strangers(&self) -> bool {
        self.strangers_drawn
    }

    pub fn list(&self, list: &[u32]) -> String {
        match self.false_lists.iter().position(|known| known == list) {
            Some(i) => format!("X{}", i + 1),
            None => "L".to_string(),
        }
    }

    pub fn message(&self, message: &Message) -> String {
        match message {
            Message::Announce(id) => format!("A {}", self.identifier(*id)),
            Message::Verify(id) => format!("V {}", self.identifier(*id)),
            Message::CorrectFinal(list) => format!("C {}", self.list(list)),
            Message::VerifyFinal(list) => format!("F {}", self.list(list)),
            Message::Bytes(1) => "1 byte".to_string(),
            Message::Bytes(length) => format!("{length} bytes"),
        }
    }

    /// "no. 1: A 500, no. 2: V 500", to be broken behind a comma only.
    pub fn broadcasts(&self, broadcasts: &[Broadcast]) -> String {
        let each = |broadcast: &Broadcast| format!("no. {}: {}", broadcast.number, self.message(&broadcast.message)).replace(' ', NO_BREAK);
        broadcasts.iter().map(each).collect::<Vec<_>>().join(", ")
    }

    /// The lists that are drawn, the true one first, each with whether it is that.
    pub fn lists(&self) -> Vec<(&[u32], bool)> {
        let is_drawn = |list: &&Vec<u32>| self.drawn.contains(list);
        let true_list = self.true_list.iter().filter(is_drawn).map(|list| (list.as_slice(), true));
        true_list.chain(self.false_lists.iter().filter(is_drawn).map(|list| (list.as_slice(), false))).collect()
    }

    fn identifier(&self, id: u32) -> String {
        format!("{id}{}", if self.is_stranger(id) { "!" } else { "" })
    }

    /// "300 400 999!"
    pub fn spaced(&self, list: &[u32]) -> String {
        list.iter().map(|&id| self.identifier(id)).collect::<Vec<_>>().join(" ")
    }
}

/// What is heard, what it takes the place of, and what is broadcast.
fn messages(event: &Event) -> impl Iterator<Item = &Message> {
    let heard = event.hearing.iter().map(|hearing| &hearing.message);
    let replaced = event.hearing.iter().filter_map(|hearing| match &hearing.outcome {
        Outcome::Accepted { replaced, .. } => replaced.as_ref(),
        _ => None,
    });
    heard.chain(replaced).chain(event.broadcasts.iter().map(|broadcast| &broadcast.message))
}

/// Of the bases that are drawn.
fn stops(shown: &Shown) -> impl Iterator<Item = &Stop> {
    shown.bases.iter().filter_map(|b| match &shown.states[b - 1] {
        State::Stopped(stop) => Some(stop),
        _ => None,
    })
}
