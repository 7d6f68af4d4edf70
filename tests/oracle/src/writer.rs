//! One frame into the front of an output: refusals 1, 6, 8, 9, 11, 12, in that order.
//! Number 6 of a lone frame means that the output is shorter than that frame; a kind that there is not has no length and is 8.

use crate::airtime;
use crate::engine::Written;
use crate::faults::Fault;
use crate::message::{Kind, Message};
use crate::reader::{judge_identifiers, net_size, Number};
use crate::refusal;

pub fn write(n: usize, kind: u8, ids: &[u32], out: &mut [u8], fault: Fault) -> Result<Written, Number> {
    net_size(n)?;
    let kind = Kind::of(kind);
    if kind.is_some_and(|kind| out.len() < kind.frame_length(n)) {
        return Err(refusal::OUTPUT);
    }
    let kind = kind.ok_or(refusal::KIND)?;
    if ids.len() != kind.count(n) {
        return Err(refusal::COUNT);
    }
    judge_identifiers(ids, fault)?;
    let frame = Message::new(kind, ids.to_vec()).frame_with(fault);
    out[..frame.len()].copy_from_slice(&frame);
    if fault == Fault::OutputPastFramesTouched && out.len() > frame.len() {
        out[frame.len()] ^= 0xff;
    }
    let slots = if fault == Fault::WrittenSlotsLost { 0 } else { airtime::slots(&out[..frame.len()], fault) };
    Ok(Written { length: frame.len(), slots })
}
