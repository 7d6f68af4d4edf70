//! Calls a second, of the model and of an engine in the same run. Not a test: nothing here can fail.

use crate::base::{Base, State, Vote};
use crate::engine::Engine;
use crate::faults::Fault;
use crate::limits::{most_faulty, LONGEST_BURST, LONGEST_FRAME, LONGEST_SCHEDULE, MOST_BASES, OUTPUT_ROOM, REPORT_ROOM};
use crate::limits::{SMALL_BASES, SMALL_FAULTY, SMALL_SETS};
use crate::message::Message;
use crate::model::Model;
use crate::net::{Event, History, Net, Setting};
use crate::record::RawBase;
use crate::schedule::render;
use std::collections::BTreeSet;
use std::hint::black_box;

/// One row: what is done once.
enum Work {
    Start(RawBase),
    Arrive(RawBase, usize, Vec<u8>),
    Read(usize, Vec<u8>),
    Write(usize, Vec<u32>),
    Replay(Vec<u8>),
    /// The model has the set in a table.
    FaultySet(usize),
}

impl Work {
    fn once(&self, engine: &mut dyn Engine) {
        let mut out = [0; OUTPUT_ROOM];
        match self {
            Work::Start(record) => {
                let mut record = black_box(*record);
                black_box(engine.start(&mut record, &mut out));
            }
            Work::Arrive(record, link, burst) => {
                let mut record = black_box(*record);
                black_box(engine.arrive(&mut record, *link, burst, &mut out));
            }
            Work::Read(n, burst) => drop(black_box(engine.read(*n, burst))),
            Work::Write(n, ids) => drop(black_box(engine.write(*n, 3, ids, &mut out))),
            Work::Replay(schedule) => drop(black_box(engine.replay(schedule, &mut [0; REPORT_ROOM]))),
            Work::FaultySet(number) => drop(black_box(engine.faulty_set(SMALL_BASES, SMALL_FAULTY, black_box(*number)))),
        }
        black_box(&out);
    }

    /// How often it is done in a second of processor time, over some 20 ms.
    fn rate(&self, engine: &mut dyn Engine) -> f64 {
        let begin = processor_time();
        let mut count = 0u32;
        loop {
            (0..8).for_each(|_| self.once(engine));
            count += 8;
            let spent = processor_time() - begin;
            if spent > 0.02 {
                return f64::from(count) / spent;
            }
        }
    }
}

/// Seconds that this thread has been on the processor, so that other work on the machine does not count (Linux).
fn processor_time() -> f64 {
    #[repr(C)]
    struct Timespec {
        seconds: i64,
        nanoseconds: i64,
    }
    extern "C" {
        fn clock_gettime(clock: i32, time: *mut Timespec) -> i32;
    }
    const THREAD_CPUTIME: i32 = 3;
    let mut time = Timespec { seconds: 0, nanoseconds: 0 };
    let failed = unsafe { clock_gettime(THREAD_CPUTIME, &mut time) };
    assert_eq!(failed, 0, "the thread's clock can be read");
    time.seconds as f64 + time.nanoseconds as f64 / 1e9
}

fn list(n: usize) -> Vec<u32> {
    (1..=n as u32).map(|i| 1000 * i).collect()
}

/// A running base of n that holds everything but one Verify: the prime check goes through to its end, and succeeds.
fn all_but_one(n: usize) -> Base {
    let mut base = Base::idle(n, most_faulty(n), 1000, Fault::None).expect("a base of a net");
    base.state = State::Running;
    for (link, id) in base.links.iter_mut().zip(list(n).into_iter().skip(1)) {
        link.announce = Some(id);
        link.verifies = list(n);
    }
    base.links[n - 2].verifies.pop();
    base
}

/// The same, where every link but one holds Verify-Final of the list, and one Correct-Final.
fn all_votes(n: usize) -> Base {
    let mut base = all_but_one(n);
    for (i, link) in base.links.iter_mut().enumerate() {
        link.vector = Some((if i == 0 { Vote::CorrectFinal } else { Vote::VerifyFinal }, list(n)));
    }
    base
}

fn stopped(n: usize) -> Base {
    let mut base = all_votes(n);
    base.state = State::Secondary(list(n));
    base
}

/// Sixteen bases without a faulty link, every broadcast carried, and starts behind it up to the limit.
fn full_schedule() -> Vec<u8> {
    let setting = Setting { t: most_faulty(MOST_BASES), ids: list(MOST_BASES), faulty: BTreeSet::new() };
    let mut model = Model::TRUE;
    let mut net = Net::new(setting.clone(), &mut model, Fault::None);
    let mut events: Vec<Event> = (1..=MOST_BASES).map(|at| Event::Start { at }).collect();
    for event in &events {
        net.happen(event, OUTPUT_ROOM, &mut model);
    }
    loop {
        let next: Vec<Event> = net.outstanding().into_iter().map(|(from, to, k)| Event::Carry { from, to, k }).collect();
        if next.is_empty() {
            break;
        }
        for event in next {
            net.happen(&event, OUTPUT_ROOM, &mut model);
            events.push(event);
        }
    }
    let mut text = render(&History::of(setting, events)).into_bytes();
    let end = text[..LONGEST_SCHEDULE.min(text.len()) - 64].iter().rposition(|&byte| byte == b'\n');
    text.truncate(end.map_or(0, |end| end + 1));
    while !(LONGEST_SCHEDULE - text.len()).is_multiple_of(8) {
        text.extend_from_slice(b"start 10\n");
    }
    text.extend_from_slice(&b"start 1\n".repeat((LONGEST_SCHEDULE - text.len()) / 8));
    text
}

fn rows() -> Vec<(String, Work)> {
    let mut rows = Vec::new();
    for n in [4, 8, MOST_BASES] {
        let idle = Base::idle(n, most_faulty(n), 1000, Fault::None).expect("a base of a net").raw();
        let last = Message::Verify(1000 * n as u32).frame();
        let vote = Message::CorrectFinal(list(n)).frame();
        rows.push((format!("start, n = {n}"), Work::Start(idle)));
        rows.push((format!("arrival, first at an idle base, n = {n}"), Work::Arrive(idle, 1, Message::Announce(2000).frame())));
        rows.push((format!("arrival, Verify that ends prime, n = {n}"), Work::Arrive(all_but_one(n).raw(), n - 1, last.clone())));
        rows.push((format!("arrival, Correct-Final that ends secondary, n = {n}"), Work::Arrive(all_votes(n).raw(), n - 1, vote)));
        rows.push((format!("arrival, at a stopped base, n = {n}"), Work::Arrive(stopped(n).raw(), 1, last)));
    }
    let mut burst = vec![0x55; LONGEST_BURST - LONGEST_FRAME];
    burst.extend(Message::CorrectFinal(list(MOST_BASES)).frame());
    rows.push((format!("frame of {MOST_BASES} read behind preamble"), Work::Read(MOST_BASES, burst)));
    rows.push((format!("frame of {MOST_BASES} written"), Work::Write(MOST_BASES, list(MOST_BASES))));
    let schedule = full_schedule();
    rows.push((format!("schedule of {} bytes, {MOST_BASES} bases", schedule.len()), Work::Replay(schedule)));
    rows.push((format!("faulty set of a number, n = {SMALL_BASES}"), Work::FaultySet(SMALL_SETS - 1)));
    rows
}

/// The table: each row of the model, and of the engine with the ratio where there is one, by turns, the best of fifteen tries each.
/// A ratio above 1 says that the engine is faster.
pub fn run(mut engine: Option<&mut dyn Engine>) -> bool {
    println!("record: {} bytes; calls in a second of processor time, best of fifteen", std::mem::size_of::<RawBase>());
    println!("{:<52} {:>12} {:>12} {:>7}", "", "model", "engine", "ratio");
    for (name, work) in rows() {
        let (mut model, mut other) = (0.0f64, 0.0f64);
        for _ in 0..15 {
            model = model.max(work.rate(&mut Model::TRUE.clone()));
            if let Some(engine) = &mut engine {
                other = other.max(work.rate(*engine));
            }
        }
        match engine {
            None => println!("{name:<52} {model:>12.0}"),
            Some(_) => println!("{name:<52} {model:>12.0} {other:>12.0} {:>7.2}", other / model),
        }
    }
    true
}
