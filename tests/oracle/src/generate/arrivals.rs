//! Calls on sound records: a start, an arrival that may be accepted or discarded, a leader call.

use crate::base::Vote;
use crate::case::Case;
use crate::generate::bursts;
use crate::generate::records::{list_of, sound, Made};
use crate::limits::OUTPUT_ROOM;
use crate::message::Message;
use crate::rng::Rng;

pub fn call(rng: &mut Rng) -> Case {
    let made = sound(rng);
    let record = made.base.raw();
    let out = output(rng);
    match rng.below(12) {
        0 => Case::Start { record, out, expect: Some(0) },
        1 => Case::Leader { record, expect: Some(0) },
        _ => {
            let (link, message) = arrival(rng, &made);
            Case::Arrive { record, link, burst: bursts::with_preamble(rng, &message.frame()), out, expect: Some(0) }
        }
    }
}

/// An output that is long enough, mostly just.
pub fn output(rng: &mut Rng) -> Vec<u8> {
    let spare = if rng.chance(1, 2) { 0 } else { rng.below(80) };
    rng.bytes(OUTPUT_ROOM + spare)
}

/// A link, and a message that means something to it.
pub fn arrival(rng: &mut Rng, made: &Made) -> (usize, Message) {
    let base = &made.base;
    let link = rng.within(1, base.n - 1);
    let held = &base.links[link - 1];
    let missing: Vec<u32> = made.ids[..base.n].iter().copied().filter(|id| !held.verifies.contains(id)).collect();
    let message = match rng.below(10) {
        0 => Message::Announce(base.own),
        1 => Message::Announce(*rng.pick(&made.ids)),
        2 => return missing_announce(rng, made),
        3 => Message::Verify(*rng.pick(&made.ids)),
        4 | 5 if !missing.is_empty() => Message::Verify(*rng.pick(&missing)),
        6 => Message::VerifyFinal(list_of(rng, made)),
        7 => Message::CorrectFinal(list_of(rng, made)),
        _ => return a_vote_for_a_held_list(rng, made),
    };
    (link, message)
}

/// The Announce of a link that has none.
fn missing_announce(rng: &mut Rng, made: &Made) -> (usize, Message) {
    let link = made.base.links.iter().position(|link| link.announce.is_none()).map_or(1, |i| i + 1);
    let id = if rng.chance(3, 4) { made.ids[link] } else { *rng.pick(&made.ids) };
    (link, Message::Announce(id))
}

/// A vector message of a list that some link holds, at a link that holds none or a Verify-Final.
fn a_vote_for_a_held_list(rng: &mut Rng, made: &Made) -> (usize, Message) {
    let lists: Vec<&Vec<u32>> = made.base.links.iter().filter_map(|link| link.vector.as_ref().map(|(_, list)| list)).collect();
    let list = if lists.is_empty() { list_of(rng, made) } else { rng.pick(&lists).to_vec() };
    let open: Vec<usize> =
        (1..made.base.n).filter(|&link| !matches!(made.base.links[link - 1].vector, Some((Vote::CorrectFinal, _)))).collect();
    let link = if open.is_empty() { rng.within(1, made.base.n - 1) } else { *rng.pick(&open) };
    let message = if rng.chance(2, 3) { Message::CorrectFinal(list) } else { Message::VerifyFinal(list) };
    (link, message)
}
