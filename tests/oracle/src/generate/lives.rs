//! Lives of one base from idle: starts and arrivals on any links, with calls among them that are turned down.

use crate::generate::bursts;
use crate::generate::settings::{fault_bound, identifiers};
use crate::life::{Call, Life};
use crate::limits::{FEWEST_BASES, MOST_BASES, OUTPUT_ROOM};
use crate::message::Message;
use crate::rng::Rng;

/// A link and what arrives on it.
type Arrival = (usize, Message);

pub fn life(rng: &mut Rng) -> Life {
    let n = rng.within(FEWEST_BASES, MOST_BASES);
    let t = if rng.chance(1, 2) { 0 } else { fault_bound(rng, n) };
    // the own one, the others' by their links, and one that no base has
    let ids = identifiers(rng, n + 1);
    let arrivals = if rng.chance(1, 2) { fullest(rng, t, &ids) } else { anything(rng, &ids) };
    let mut calls = Vec::new();
    for (link, message) in arrivals {
        while rng.chance(1, 8) {
            calls.push(beside(rng, n));
        }
        calls.push(Call::Arrive { link, burst: bursts::with_preamble(rng, &message.frame()), room: OUTPUT_ROOM + rng.below(9) });
    }
    Life { n, t, own: ids[0], calls }
}

fn list(ids: &[u32]) -> Vec<u32> {
    let mut list = ids.to_vec();
    list.sort_unstable();
    list
}

/// An Announce on each link, and Correct-Finals of one list, by which the base votes and stops: it spends as much as a base can. At times,
/// and where there is one link, every Verify behind them.
fn fullest(rng: &mut Rng, t: usize, ids: &[u32]) -> Vec<Arrival> {
    let n = ids.len() - 1;
    let mut links: Vec<usize> = (1..n).collect();
    rng.shuffle(&mut links);
    let verified = n == 2 || rng.chance(1, 8);
    let corrects = if verified { 2 } else { (t + 1).max(2) };
    let mut arrivals: Vec<Arrival> = links.iter().map(|&link| (link, Message::Announce(ids[link]))).collect();
    arrivals.extend(links.iter().take(corrects).map(|&link| (link, Message::CorrectFinal(list(&ids[..n])))));
    if verified {
        arrivals.extend(links.iter().flat_map(|&link| ids[..n].iter().map(move |&id| (link, Message::Verify(id)))));
    }
    arrivals
}

/// Messages of any kind, of few identifiers and two lists, so that many are discarded.
fn anything(rng: &mut Rng, ids: &[u32]) -> Vec<Arrival> {
    let n = ids.len() - 1;
    let lists = [list(&ids[..n]), list(&ids[1..])];
    let message = |rng: &mut Rng| match rng.below(6) {
        0 | 1 => Message::Announce(*rng.pick(ids)),
        2 | 3 => Message::Verify(*rng.pick(ids)),
        4 => Message::CorrectFinal(rng.pick(&lists).clone()),
        _ => Message::VerifyFinal(rng.pick(&lists).clone()),
    };
    (0..rng.within(1, 4 * n)).map(|_| (rng.within(1, n - 1), message(rng))).collect()
}

/// A start or a burst, mostly one that is turned down, at times on a link that there is not or with too short an output.
fn beside(rng: &mut Rng, n: usize) -> Call {
    let room = if rng.chance(1, 3) { rng.below(OUTPUT_ROOM) } else { OUTPUT_ROOM };
    if rng.chance(1, 4) {
        return Call::Start { room };
    }
    let link = if rng.chance(1, 6) { *rng.pick(&[0, n, usize::MAX]) } else { rng.within(1, n - 1) };
    Call::Arrive { link, burst: bursts::damaged(rng, n), room }
}
