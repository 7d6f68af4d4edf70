//! Demand 3 itself, held against a net after a history; and the slots of each base's life.

use crate::airtime;
use crate::engine::{Engine, Leader};
use crate::faults::Fault;
use crate::message::Message;
use crate::model::{leader_of, Model};
use crate::net::Net;
use crate::reader::read;

/// What of demand 3 the net breaks, if anything: every base that has stopped has state 2 or 3 and holds all true identifiers, sorted; it
/// names the leader that the rule takes from them; and if every base has been started and nothing waits, every base has stopped. Besides, a
/// base broadcasts at most n + 3 frames in its life.
pub fn broken(net: &Net) -> Option<String> {
    let truth = net.setting.truth();
    let n = net.setting.n();
    let leader = leader_of(&truth, Fault::None).expect("a net has bases");
    for b in 1..=n {
        let record = &net.records[b - 1];
        if net.logs[b - 1].len() > n + 3 {
            return Some(format!("base {b} has broadcast {} frames", net.logs[b - 1].len()));
        }
        if net.stopped(b) != (2..=3).contains(&record.state) {
            return Some(format!("base {b} has state {}, stopped: {}", record.state, net.stopped(b)));
        }
        if !net.stopped(b) {
            continue;
        }
        if record.final_list[..n] != truth[..] {
            return Some(format!("base {b} has stopped with {:?}, the truth is {truth:?}", &record.final_list[..n]));
        }
        if Model::TRUE.clone().leader(record) != Leader::Is(leader) {
            return Some(format!("base {b} names another leader than {leader}"));
        }
    }
    let quiet = net.waiting() == 0 && net.started.iter().all(|&started| started);
    let running = (1..=n).find(|&b| !net.stopped(b));
    match running {
        Some(b) if quiet => Some(format!("every base has been started and nothing waits, but base {b} runs on")),
        _ => None,
    }
}

/// What of the slots of a base's life does not hold, if anything.
pub fn overspent(net: &Net) -> Option<String> {
    let of_base = |b: usize| airtime::broken(net.setting.n(), &net.logs[b - 1], net.spent[b - 1]).map(|what| format!("base {b}: {what}"));
    (1..=net.setting.n()).find_map(of_base)
}

/// Every frame that was broadcast is read back as the message that was sent: it is the frame of what is read.
pub fn unreadable(net: &Net) -> Option<String> {
    let frames = net.logs.iter().flatten();
    let wrong = |frame: &&Vec<u8>| read(net.setting.n(), frame, Fault::None).map_or(true, |read| Message::frame(&read.message) != **frame);
    frames.into_iter().find(wrong).map(|frame| format!("broadcast {frame:02x?} is not read back"))
}
