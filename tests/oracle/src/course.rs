//! A history that is written down event by event, on a net that goes along.

use crate::faults::Fault;
use crate::limits::OUTPUT_ROOM;
use crate::message::Message;
use crate::model::Model;
use crate::net::{Event, History, Net, Setting};

pub struct Course {
    pub net: Net,
    engine: Model,
    events: Vec<Event>,
}

impl Course {
    /// Before any event, on an engine with that fault.
    pub fn new(setting: Setting, fault: Fault) -> Course {
        let mut engine = Model { fault };
        let net = Net::new(setting, &mut engine, Fault::None);
        Course { net, engine, events: Vec::new() }
    }

    pub fn happen(&mut self, event: Event) {
        self.net.happen(&event, OUTPUT_ROOM, &mut self.engine);
        self.events.push(event);
    }

    pub fn carry(&mut self, from: usize, to: usize, k: usize) {
        if !self.net.carried.contains(&(from, to, k)) {
            self.happen(Event::Carry { from, to, k });
        }
    }

    /// All that `from` has broadcast so far, to `to`.
    pub fn carry_all(&mut self, from: usize, to: usize) {
        (1..=self.net.logs[from - 1].len()).for_each(|k| self.carry(from, to, k));
    }

    pub fn forge(&mut self, from: usize, to: usize, message: Message) {
        self.happen(Event::Forge { from, to, bytes: message.frame() });
    }

    /// The history, and the net that it leaves.
    pub fn end(self) -> (History, Net) {
        (History::of(self.net.setting.clone(), self.events), self.net)
    }
}
