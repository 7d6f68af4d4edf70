//! An engine held against the model: every call is made on both, the engine under test on guarded copies, and record, output, answer and
//! guards are compared. What goes on is the model's.

use crate::engine::{Answer, Engine, Leader, Reading, Written};
use crate::faulty::RawSet;
use crate::guard::{Fenced, FencedRecord};
use crate::model::Model;
use crate::reader::Number;
use crate::record::{difference, RawBase};
use std::fmt::Debug;

type Printing = fn(&mut dyn Engine, &[u8], &mut [u8]) -> usize;

pub struct Compared<'e> {
    truth: Model,
    other: &'e mut dyn Engine,
    /// The first difference that was seen.
    pub difference: Option<String>,
    pub calls: u64,
}

impl<'e> Compared<'e> {
    pub fn new(other: &'e mut dyn Engine) -> Compared<'e> {
        Compared { truth: Model::TRUE, other, difference: None, calls: 0 }
    }

    pub fn note(&mut self, what: String) {
        self.difference.get_or_insert(what);
    }

    fn same<T: PartialEq + Debug>(&mut self, call: &str, what: &str, ours: T, theirs: T) {
        if ours != theirs {
            self.note(format!("{call}: {what} {ours:?} by the model, {theirs:?} by the engine"));
        }
    }

    fn same_record(&mut self, call: &str, ours: &RawBase, theirs: &FencedRecord) {
        if let Some(field) = difference(ours, &theirs.record) {
            self.note(format!("{call}: the record differs, model / engine: {field}"));
        }
        if !theirs.intact() {
            self.note(format!("{call}: memory beside the record was changed"));
        }
    }

    fn same_output(&mut self, call: &str, ours: &[u8], theirs: &Fenced) {
        if let Some(at) = (0..ours.len()).find(|&at| ours[at] != theirs.bytes()[at]) {
            self.note(format!("{call}: output byte {at} is {} by the model, {} by the engine", ours[at], theirs.bytes()[at]));
        }
        if !theirs.intact() {
            self.note(format!("{call}: memory beside the output was changed"));
        }
    }

    /// A call that prints what a schedule gives: its text at the front of the output, and the rest of the output.
    fn printed(&mut self, call: &str, schedule: &[u8], out: &mut [u8], print: Printing) -> usize {
        self.calls += 1;
        let (mut their_out, lent) = (Fenced::new(out), Fenced::new(schedule));
        let their_length = print(self.other, lent.bytes(), their_out.bytes_mut());
        let length = print(&mut self.truth, schedule, out);
        let text = |bytes: &[u8], length: usize| String::from_utf8_lossy(&bytes[..length.min(bytes.len())]).into_owned();
        self.same(call, "report", text(out, length), text(their_out.bytes(), their_length));
        self.same(call, "length", length, their_length);
        self.same_output(call, out, &their_out);
        self.same_input(call, schedule, &lent);
        length
    }

    fn same_input(&mut self, call: &str, ours: &[u8], theirs: &Fenced) {
        if ours != theirs.bytes() || !theirs.intact() {
            self.note(format!("{call}: the input was changed"));
        }
    }
}

impl Engine for Compared<'_> {
    fn name(&self) -> String {
        format!("{} beside the model", self.other.name())
    }

    fn idle(&mut self, n: usize, t: usize, own: u32, record: &mut RawBase) -> Number {
        self.calls += 1;
        let mut theirs = FencedRecord::new(record);
        let their_number = self.other.idle(n, t, own, &mut theirs.record);
        let number = self.truth.idle(n, t, own, record);
        self.same("idle", "number", number, their_number);
        self.same_record("idle", record, &theirs);
        number
    }

    fn start(&mut self, record: &mut RawBase, out: &mut [u8]) -> Answer {
        self.calls += 1;
        let (mut theirs, mut their_out) = (FencedRecord::new(record), Fenced::new(out));
        let their_answer = self.other.start(&mut theirs.record, their_out.bytes_mut());
        let answer = self.truth.start(record, out);
        self.same("start", "answer", answer, their_answer);
        self.same_record("start", record, &theirs);
        self.same_output("start", out, &their_out);
        answer
    }

    fn arrive(&mut self, record: &mut RawBase, link: usize, burst: &[u8], out: &mut [u8]) -> Answer {
        self.calls += 1;
        let (mut theirs, mut their_out, lent) = (FencedRecord::new(record), Fenced::new(out), Fenced::new(burst));
        let their_answer = self.other.arrive(&mut theirs.record, link, lent.bytes(), their_out.bytes_mut());
        let answer = self.truth.arrive(record, link, burst, out);
        self.same("arrive", "answer", answer, their_answer);
        self.same_record("arrive", record, &theirs);
        self.same_output("arrive", out, &their_out);
        self.same_input("arrive", burst, &lent);
        answer
    }

    fn leader(&mut self, record: &RawBase) -> Leader {
        self.calls += 1;
        let theirs = FencedRecord::new(record);
        let their_leader = self.other.leader(&theirs.record);
        let leader = self.truth.leader(record);
        self.same("leader", "answer", leader, their_leader);
        self.same_record("leader", record, &theirs);
        leader
    }

    fn read(&mut self, n: usize, burst: &[u8]) -> Reading {
        self.calls += 1;
        let lent = Fenced::new(burst);
        let their_reading = self.other.read(n, lent.bytes());
        let reading = self.truth.read(n, burst);
        self.same("read", "answer", reading, their_reading);
        self.same_input("read", burst, &lent);
        reading
    }

    fn write(&mut self, n: usize, kind: u8, ids: &[u32], out: &mut [u8]) -> Result<Written, Number> {
        self.calls += 1;
        let (mut their_out, lent) = (Fenced::new(out), ids.to_vec());
        let their_answer = self.other.write(n, kind, &lent, their_out.bytes_mut());
        let answer = self.truth.write(n, kind, ids, out);
        self.same("write", "list", ids, &lent);
        self.same("write", "answer", answer, their_answer);
        self.same_output("write", out, &their_out);
        answer
    }

    fn replay(&mut self, schedule: &[u8], out: &mut [u8]) -> usize {
        self.printed("replay", schedule, out, |engine, schedule, out| engine.replay(schedule, out))
    }

    fn faulty_count(&mut self, n: usize, t: usize) -> Result<usize, Number> {
        self.calls += 1;
        let their_count = self.other.faulty_count(n, t);
        let count = self.truth.faulty_count(n, t);
        self.same("faulty_count", "answer", count, their_count);
        count
    }

    fn faulty_set(&mut self, n: usize, t: usize, number: usize) -> RawSet {
        self.calls += 1;
        let their_set = self.other.faulty_set(n, t, number);
        let set = self.truth.faulty_set(n, t, number);
        self.same("faulty_set", "answer", set, their_set);
        set
    }

    fn faulty_text(&mut self, schedule: &[u8], out: &mut [u8]) -> usize {
        self.printed("faulty_text", schedule, out, |engine, schedule, out| engine.faulty_text(schedule, out))
    }
}
