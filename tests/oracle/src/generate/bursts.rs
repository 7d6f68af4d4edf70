//! Bursts of every length, whole and damaged, and frames to write.

use crate::case::Case;
use crate::generate::settings::{identifiers, net_size};
use crate::limits::{frame_bytes, FEWEST_BASES, LONGEST_BURST, MOST_BASES, SHORTEST_BURST};
use crate::message::{Kind, Message};
use crate::refusal::{BACK_DISTANCE, BURST, KIND};
use crate::rng::Rng;

/// The frame behind some preamble, often none, at times as much as a burst takes.
pub fn with_preamble(rng: &mut Rng, frame: &[u8]) -> Vec<u8> {
    let most = LONGEST_BURST - frame.len();
    let length = match rng.below(4) {
        0 => most,
        1 => rng.within(0, most),
        _ => 0,
    };
    let mut burst = rng.bytes(length);
    burst.extend_from_slice(frame);
    burst
}

pub fn message(rng: &mut Rng, n: usize) -> Message {
    let kind = *rng.pick(&[Kind::Announce, Kind::Verify, Kind::CorrectFinal, Kind::VerifyFinal]);
    let mut ids = identifiers(rng, kind.count(n));
    ids.sort_unstable();
    Message::new(kind, ids)
}

/// A burst, mostly damaged at one place or two.
pub fn damaged(rng: &mut Rng, n: usize) -> Vec<u8> {
    let frame = message(rng, n).frame();
    let mut burst = with_preamble(rng, &frame);
    for _ in 0..rng.below(3) {
        damage(rng, &mut burst, frame.len());
    }
    burst
}

fn damage(rng: &mut Rng, burst: &mut Vec<u8>, frame: usize) {
    let length = burst.len();
    match rng.below(8) {
        0 if length > 0 => burst[rng.below(length)] ^= 1 << rng.below(8),
        1 if length >= 4 => burst[length - 1 - rng.below(4)] = rng.byte(),
        2 if length >= 4 => burst[length - 4] = rng.below(7) as u8,
        3 if length >= 3 => burst[length - 3] = rng.below(MOST_BASES + 3) as u8,
        4 => drop(burst.drain(..rng.within(0, length.min(frame)))),
        5 => burst.truncate(rng.within(0, length)),
        6 if length >= frame && frame >= SHORTEST_BURST => {
            let at = length - frame + 4 * rng.below(frame / 4 - 1);
            let copy = length - frame + 4 * rng.below(frame / 4 - 1);
            let four: [u8; 4] = if rng.chance(1, 2) { [0; 4] } else { burst[copy..copy + 4].try_into().expect("four bytes") };
            burst[at..at + 4].copy_from_slice(&four);
        }
        _ => *burst = [rng.bytes(rng.clone().below(20)), std::mem::take(burst)].concat(),
    }
}

pub fn read(rng: &mut Rng) -> Case {
    let n = if rng.chance(1, 20) { *rng.pick(&[0, 1, MOST_BASES + 1, MOST_BASES + 2, 258, usize::MAX]) } else { net_size(rng) };
    let frame_size = n.clamp(FEWEST_BASES, MOST_BASES);
    let burst = if rng.chance(1, 10) { rng.bytes(rng.clone().within(0, LONGEST_BURST + 8)) } else { damaged(rng, frame_size) };
    Case::Read { n, burst, expect: None }
}

/// A burst of every length up to some that are too long, for every n and kind, with the trailer that its kind asks for.
pub fn every_length(rng: &mut Rng) -> Vec<Case> {
    let mut cases = Vec::new();
    for n in FEWEST_BASES..=MOST_BASES {
        for length in 0..=LONGEST_BURST + 8 {
            for kind in 0..=5u8 {
                let count = Kind::of(kind).map_or(1, |kind| kind.count(n));
                let mut ids = identifiers(rng, count);
                ids.sort_unstable();
                let mut frame: Vec<u8> = ids.iter().flat_map(|id| id.to_be_bytes()).collect();
                frame.extend([kind, count as u8, 0, frame_bytes(count) as u8]);
                let short = length < frame.len();
                let burst = if short { frame[frame.len() - length..].to_vec() } else { [rng.bytes(length - frame.len()), frame].concat() };
                let expect = match () {
                    _ if !(SHORTEST_BURST..=LONGEST_BURST).contains(&length) => BURST,
                    _ if Kind::of(kind).is_none() => KIND,
                    _ if short => BACK_DISTANCE,
                    _ => 0,
                };
                cases.push(Case::Read { n, burst, expect: Some(expect) });
            }
        }
    }
    cases
}

/// A frame to write, mostly fit, into an output that may be too short.
pub fn write(rng: &mut Rng) -> Case {
    let n = if rng.chance(1, 20) { *rng.pick(&[0, 1, MOST_BASES + 1, 258, usize::MAX]) } else { net_size(rng) };
    let kind = if rng.chance(1, 8) { rng.byte() } else { rng.within(1, 4) as u8 };
    let mut count = Kind::of(kind).map_or(1, |kind| kind.count(n.clamp(FEWEST_BASES, MOST_BASES)));
    if rng.chance(1, 8) {
        count = rng.within(0, MOST_BASES + 4);
    }
    let mut ids = identifiers(rng, count);
    ids.sort_unstable();
    for _ in 0..rng.below(3).min(count) {
        let at = rng.below(count);
        match rng.below(6) {
            0 => ids[at] = 0,
            1 => ids[at] = ids[rng.below(count)],
            2 => ids.swap(at, rng.clone().below(count)),
            _ => {}
        }
    }
    let fit = frame_bytes(count);
    let length = if rng.chance(1, 4) { rng.within(fit.saturating_sub(2), fit + 2) } else { rng.within(0, LONGEST_BURST + 8) };
    Case::Write { n, kind, ids, out: rng.bytes(length) }
}
