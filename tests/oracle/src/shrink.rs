//! The shortest case that still differs, as far as leaving things out gets.

use crate::case::Case;
use crate::engine::Engine;
use crate::life::Life;
use crate::limits::{LIST_ROOM, MOST_BASES};
use crate::net::{Event, History};
use crate::reach::Reach;
use crate::record::{RawBase, RawLink};
use std::time::{Duration, Instant};

const PATIENCE: Duration = Duration::from_secs(20);

/// The items that have to stay for `differs` to hold: larger and then smaller stretches are left out, until none can go.
fn shortest<T: Clone>(mut items: Vec<T>, until: Instant, mut differs: impl FnMut(&[T]) -> bool) -> Vec<T> {
    let mut size = items.len().div_ceil(2);
    while size > 0 {
        let mut at = 0;
        let before = items.len();
        while at < items.len() && Instant::now() < until {
            let mut fewer = items.clone();
            fewer.drain(at..(at + size).min(items.len()));
            if differs(&fewer) {
                items = fewer;
            } else {
                at += size;
            }
        }
        let again = size == 1 && items.len() < before && Instant::now() < until;
        size = if again { 1 } else { size / 2 };
    }
    items
}

/// The same of a text: whole lines first, then bytes where few are left.
fn shortest_text(text: &[u8], until: Instant, mut differs: impl FnMut(Vec<u8>) -> bool) -> Vec<u8> {
    let lines = text.split_inclusive(|&byte| byte == b'\n').map(<[u8]>::to_vec).collect();
    let left = shortest(lines, until, |lines: &[Vec<u8>]| differs(lines.concat())).concat();
    if left.len() > 400 {
        return left;
    }
    shortest(left, until, |bytes| differs(bytes.to_vec()))
}

pub fn shrink(case: &Case, engine: &mut dyn Engine) -> Case {
    let until = Instant::now() + PATIENCE;
    let mut differs = |case: &Case| case.run(engine, &mut Reach::default()).is_some();
    match case {
        Case::History(history) => {
            let make = |events: &[_]| Case::History(History { setting: history.setting.clone(), events: events.to_vec() });
            let events = without_whole_links(history, |events| differs(&make(events)));
            make(&shortest(events, until, |events| differs(&make(events))))
        }
        Case::Life(life) => {
            let make = |calls: &[_]| Case::Life(Life { calls: calls.to_vec(), ..life.clone() });
            make(&shortest(life.calls.clone(), until, |calls| differs(&make(calls))))
        }
        Case::Replay { schedule, out, .. } => {
            let make = |schedule: Vec<u8>| Case::Replay { schedule, out: out.clone(), expect: None };
            make(shortest_text(schedule, until, |text| differs(&make(text))))
        }
        Case::FaultyText { schedule, out, .. } => {
            let make = |schedule: Vec<u8>| Case::FaultyText { schedule, out: out.clone(), expect: None };
            make(shortest_text(schedule, until, |text| differs(&make(text))))
        }
        Case::Start { record, out, .. } => {
            let make = |record: RawBase| Case::Start { record, out: out.clone(), expect: None };
            make(barest(*record, |record| differs(&make(*record))))
        }
        Case::Arrive { record, link, burst, out, .. } => {
            let make = |record: RawBase, burst: Vec<u8>| Case::Arrive { record, link: *link, burst, out: out.clone(), expect: None };
            let record = barest(*record, |record| differs(&make(*record, burst.clone())));
            let kept = (0..burst.len()).rev().find(|&start| differs(&make(record, burst[start..].to_vec()))).unwrap_or(0);
            make(record, burst[kept..].to_vec())
        }
        other => other.clone(),
    }
}

/// The events up to the first difference, without all that is carried to some base, or over some link in one direction, where that can go.
fn without_whole_links(history: &History, mut differs: impl FnMut(&[(Event, usize)]) -> bool) -> Vec<(Event, usize)> {
    let n = history.setting.n();
    let mut events = history.events.clone();
    let mut size = events.len().div_ceil(2);
    while size > 0 {
        while events.len() > size && differs(&events[..events.len() - size]) {
            events.truncate(events.len() - size);
        }
        size /= 2;
    }
    let mut leave_out = |gone: &dyn Fn(&Event) -> bool| {
        let fewer: Vec<_> = events.iter().filter(|(event, _)| !gone(event)).cloned().collect();
        if fewer.len() < events.len() && differs(&fewer) {
            events = fewer;
        }
    };
    for to in 1..=n {
        leave_out(&|event| event.receiver() == to);
    }
    for from in 1..=n {
        leave_out(&|event| event.sender() == Some(from));
        for to in 1..=n {
            leave_out(&|event| event.receiver() == to && event.sender() == Some(from));
        }
    }
    events
}

/// The record with as much of it blank as can be.
fn barest(record: RawBase, mut differs: impl FnMut(&RawBase) -> bool) -> RawBase {
    let mut best = record;
    let mut attempt = |best: &mut RawBase, change: &dyn Fn(&mut RawBase)| {
        let mut next = *best;
        change(&mut next);
        if next != *best && differs(&next) {
            *best = next;
        }
    };
    for i in 0..best.links.len() {
        attempt(&mut best, &|base| base.links[i] = RawLink::BLANK);
        attempt(&mut best, &|base| base.links[i].announce = 0);
        attempt(&mut best, &|base| (base.links[i].held, base.links[i].list) = (0, [0; MOST_BASES]));
        for _ in 0..best.links[i].verify_count.min(LIST_ROOM as u16) {
            attempt(&mut best, &|base| {
                let last = base.links[i].verify_count.clamp(1, LIST_ROOM as u16) - 1;
                base.links[i].verifies[last as usize] = 0;
                base.links[i].verify_count = last;
            });
        }
    }
    attempt(&mut best, &|base| base.sent = 0);
    best
}
