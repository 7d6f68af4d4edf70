//! One thing to try: a call with all that it takes, a schedule, the life of one base, or a whole history. Running it compares an engine
//! with the model.

use crate::compared::Compared;
use crate::demand;
use crate::engine::{Answer, Engine, Reading};
use crate::faults::Fault;
use crate::life::Life;
use crate::limits::{LONGEST_SCHEDULE, REPORT_ROOM};
use crate::net::{History, Net};
use crate::reach::Reach;
use crate::reader::Number;
use crate::record::RawBase;
use crate::schedule::render;

/// `expect` is the number that the case was made for, known without the model.
#[derive(Clone, Debug)]
pub enum Case {
    Idle { n: usize, t: usize, own: u32, record: RawBase, expect: Option<Number> },
    Start { record: RawBase, out: Vec<u8>, expect: Option<Number> },
    Arrive { record: RawBase, link: usize, burst: Vec<u8>, out: Vec<u8>, expect: Option<Number> },
    Leader { record: RawBase, expect: Option<Number> },
    Read { n: usize, burst: Vec<u8>, expect: Option<Number> },
    Write { n: usize, kind: u8, ids: Vec<u32>, out: Vec<u8> },
    Replay { schedule: Vec<u8>, out: Vec<u8>, expect: Option<String> },
    FaultyCount { n: usize, t: usize, expect: Option<Number> },
    FaultySet { n: usize, t: usize, number: usize, expect: Option<Number> },
    FaultyText { schedule: Vec<u8>, out: Vec<u8>, expect: Option<String> },
    Life(Life),
    History(History),
}

impl Case {
    pub fn kind(&self) -> &'static str {
        match self {
            Case::Idle { .. } => "idle records made",
            Case::Start { .. } => "starts",
            Case::Arrive { .. } => "arrivals",
            Case::Leader { .. } => "leaders",
            Case::Read { .. } => "bursts read",
            Case::Write { .. } => "frames written",
            Case::Replay { .. } => "schedules",
            Case::FaultyCount { .. } => "faulty sets counted",
            Case::FaultySet { .. } => "faulty sets by number",
            Case::FaultyText { .. } => "faulty sets printed",
            Case::Life(_) => "lives of one base",
            Case::History(_) => "histories",
        }
    }

    /// The first difference between the engine and the model, if there is one.
    pub fn run(&self, engine: &mut dyn Engine, reach: &mut Reach) -> Option<String> {
        let mut both = Compared::new(engine);
        match self {
            Case::Idle { n, t, own, record, expect } => {
                let number = both.idle(*n, *t, *own, &mut record.clone());
                expected(&mut both, *expect, number);
            }
            Case::Start { record, out, expect } => {
                let answer = both.start(&mut record.clone(), &mut out.clone());
                expected(&mut both, *expect, number_of(answer));
            }
            Case::Arrive { record, link, burst, out, expect } => {
                let answer = both.arrive(&mut record.clone(), *link, burst, &mut out.clone());
                expected(&mut both, *expect, number_of(answer));
            }
            Case::Leader { record, expect } => {
                let number = if let crate::engine::Leader::Refused(number) = both.leader(record) { number } else { 0 };
                expected(&mut both, *expect, number);
            }
            Case::Read { n, burst, expect } => {
                let number = if let Reading::Refused(number) = both.read(*n, burst) { number } else { 0 };
                expected(&mut both, *expect, number);
            }
            Case::Write { n, kind, ids, out } => {
                let _ = both.write(*n, *kind, ids, &mut out.clone());
            }
            Case::Replay { schedule, out, expect } => run_schedule(&mut both, schedule, out, expect.as_deref()),
            Case::FaultyCount { n, t, expect } => run_faulty_count(&mut both, *n, *t, *expect),
            Case::FaultySet { n, t, number, expect } => run_faulty_set(&mut both, (*n, *t, *number), *expect),
            Case::FaultyText { schedule, out, expect } => run_faulty_text(&mut both, schedule, out, expect.as_deref()),
            Case::Life(life) => run_life(&mut both, life, reach),
            Case::History(history) => run_history(&mut both, history, reach),
        }
        both.difference
    }
}

fn number_of(answer: Answer) -> Number {
    if let Answer::Refused(number) = answer {
        number
    } else {
        0
    }
}

fn expected(both: &mut Compared, expect: Option<Number>, number: Number) {
    if let Some(expect) = expect.filter(|&expect| expect != number) {
        both.note(format!("the case was made for number {expect}, the model answers {number}"));
    }
}

fn run_schedule(both: &mut Compared, schedule: &[u8], out: &[u8], expect: Option<&str>) {
    let mut out = out.to_vec();
    let length = both.replay(schedule, &mut out);
    expected_text(both, expect, &out[..length]);
}

fn expected_text(both: &mut Compared, expect: Option<&str>, printed: &[u8]) {
    let printed = String::from_utf8_lossy(printed);
    if let Some(expect) = expect.filter(|&expect| expect != printed) {
        both.note(format!("the schedule was made for the report {expect:?}, the model prints {printed:?}"));
    }
}

fn run_faulty_count(both: &mut Compared, n: usize, t: usize, expect: Option<Number>) {
    let number = both.faulty_count(n, t).err().unwrap_or(0);
    expected(both, expect, number);
}

fn run_faulty_set(both: &mut Compared, (n, t, number): (usize, usize, usize), expect: Option<Number>) {
    let set = both.faulty_set(n, t, number);
    expected(both, expect, set.refusal);
}

fn run_faulty_text(both: &mut Compared, schedule: &[u8], out: &[u8], expect: Option<&str>) {
    let mut out = out.to_vec();
    let length = both.faulty_text(schedule, &mut out);
    expected_text(both, expect, &out[..length]);
}

/// Every call on both, and the slots of the life after each.
fn run_life(both: &mut Compared, life: &Life, reach: &mut Reach) {
    let (spent, broken) = life.live(both);
    reach.observe_life(life.n, spent);
    hold(both, "the slots of a life are broken", broken);
}

/// Every event on both, demand 3 and the slots of each base's life where a base stops and at the end, then the same history as a schedule.
fn run_history(both: &mut Compared, history: &History, reach: &mut Reach) {
    let truth = history.setting.truth();
    let mut net = Net::new(history.setting.clone(), both, Fault::None);
    let mut happened = Vec::new();
    for (event, room) in &history.events {
        let at = event.receiver();
        let before = net.records[at - 1];
        if net.turned_down(event).is_some() {
            continue;
        }
        let answer = net.happen(event, *room, both);
        happened.push((event.clone(), *room));
        reach.observe(&before, &net.records[at - 1], answer, &truth);
        if both.difference.is_some() {
            return;
        }
        if net.records[at - 1].state >= 2 && before.state < 2 {
            both.leader(&net.records[at - 1]);
            hold_net(both, &net);
        }
    }
    hold_net(both, &net);
    hold(both, "demand 3 is broken", demand::unreadable(&net));
    net.spent.iter().for_each(|&spent| reach.observe_life(net.setting.n(), spent));
    if net.waiting() == 0 && (1..=net.setting.n()).all(|b| net.stopped(b)) {
        reach.add("all stopped, nothing waits");
    }
    let schedule = render(&History { setting: history.setting.clone(), events: happened });
    if schedule.len() <= LONGEST_SCHEDULE {
        both.replay(schedule.as_bytes(), &mut [0x5a; REPORT_ROOM + 40]);
    }
}

fn hold_net(both: &mut Compared, net: &Net) {
    hold(both, "demand 3 is broken", demand::broken(net));
    hold(both, "the slots of a life are broken", demand::overspent(net));
}

fn hold(both: &mut Compared, demand: &str, broken: Option<String>) {
    if let Some(what) = broken {
        both.note(format!("{demand}: {what}"));
    }
}
