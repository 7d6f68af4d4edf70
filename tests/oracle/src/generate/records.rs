//! Sound records, most of them close to a threshold: nearly prime, nearly secondary, with full lists, or anything.

use crate::base::{Base, Link, State, Vote};
use crate::faults::Fault;
use crate::generate::settings::{fault_bound, identifiers, net_size};
use crate::rng::Rng;

/// A sound base, with the identifiers that it was made from: the own one first, then n − 1 others, then two that no base has.
pub struct Made {
    pub base: Base,
    pub ids: Vec<u32>,
}

pub fn sound(rng: &mut Rng) -> Made {
    let n = net_size(rng);
    let t = fault_bound(rng, n);
    let ids = identifiers(rng, n + 2);
    let base = Base::idle(n, t, ids[0], Fault::None).expect("n, t and the identifier are of a net");
    let mut made = Made { base, ids };
    if rng.chance(1, 12) {
        return made;
    }
    made.base.state = State::Running;
    match rng.below(4) {
        0 => anything(rng, &mut made),
        1 => full_lists(rng, &mut made),
        _ => nearly_prime(rng, &mut made),
    }
    votes(rng, &mut made);
    if rng.chance(1, 8) {
        let list = list_of(rng, &made);
        made.base.state = if rng.chance(1, 2) { State::Prime(list) } else { State::Secondary(list) };
    }
    made
}

/// A list as kinds 3 and 4 demand: the true one, one that holds a stranger, or any other.
pub fn list_of(rng: &mut Rng, made: &Made) -> Vec<u32> {
    let n = made.base.n;
    let mut list = made.ids[..n].to_vec();
    match rng.below(4) {
        0 => list = identifiers(rng, n),
        1 => list[n - 1] = made.ids[n],
        2 => list[n - 1] = made.ids[n + 1],
        _ => {}
    }
    list.sort_unstable();
    list
}

fn anything(rng: &mut Rng, made: &mut Made) {
    let n = made.base.n;
    let mut announced = made.ids[1..].to_vec();
    rng.shuffle(&mut announced);
    for link in &mut made.base.links {
        if rng.chance(1, 2) {
            link.announce = announced.pop();
        }
        let mut verified = made.ids.clone();
        rng.shuffle(&mut verified);
        verified.truncate(rng.within(0, n));
        link.verifies = verified;
    }
}

/// Lists at n − 1 to n + 1 identifiers.
fn full_lists(rng: &mut Rng, made: &mut Made) {
    let n = made.base.n;
    for (link, &id) in made.base.links.iter_mut().zip(&made.ids[1..n]) {
        if rng.chance(2, 3) {
            link.announce = Some(id);
        }
        let mut verified = made.ids.clone();
        rng.shuffle(&mut verified);
        let held = rng.within(n - 1, n + 1);
        verified.truncate(held - usize::from(link.announce.is_some()));
        link.verifies = verified;
    }
}

/// All announced and verified, but for Verifies of about t pairs, some of the own announced identifiers, and perhaps one Announce.
fn nearly_prime(rng: &mut Rng, made: &mut Made) {
    let n = made.base.n;
    for (link, &id) in made.base.links.iter_mut().zip(&made.ids[1..n]) {
        link.announce = Some(id);
        link.verifies = made.ids[..n].to_vec();
        rng.shuffle(&mut link.verifies);
    }
    let pairs = rng.within(made.base.t.saturating_sub(1), made.base.t + 1);
    let both = rng.below(3);
    for _ in 0..pairs {
        let (a, b) = (rng.below(n - 1), rng.below(n));
        drop_verify(&mut made.base.links[a], made.ids[b]);
        if b > 0 && both > 0 {
            drop_verify(&mut made.base.links[b - 1], made.ids[a + 1]);
        }
    }
    if rng.chance(1, 3) {
        for _ in 0..rng.within(1, 2 * made.base.t + 2) {
            let a = rng.below(n - 1);
            drop_verify(&mut made.base.links[a], made.ids[a + 1]);
        }
    }
    if rng.chance(1, 3) {
        let a = rng.below(n - 1);
        made.base.links[a].announce = None;
    } else if rng.chance(1, 2) {
        let (a, b) = (rng.below(n - 1), rng.below(n));
        drop_verify(&mut made.base.links[a], made.ids[b]);
    }
}

fn drop_verify(link: &mut Link, id: u32) {
    link.verifies.retain(|&held| held != id);
}

/// Vector messages of two or three lists, so that tallies come near t + 1.
fn votes(rng: &mut Rng, made: &mut Made) {
    made.base.sent_verify_final = rng.chance(1, 2);
    if rng.chance(1, 3) {
        return;
    }
    let lists: Vec<Vec<u32>> = (0..rng.within(1, 3)).map(|_| list_of(rng, made)).collect();
    let wanted = rng.within(made.base.t.saturating_sub(1), made.base.t + 2).min(made.base.n - 1);
    let mut order: Vec<usize> = (0..made.base.n - 1).collect();
    rng.shuffle(&mut order);
    for (place, link) in order.into_iter().enumerate() {
        let vote = if rng.chance(1, 2) { Vote::CorrectFinal } else { Vote::VerifyFinal };
        if place < wanted {
            made.base.links[link].vector = Some((vote, lists[0].clone()));
        } else if rng.chance(1, 3) {
            made.base.links[link].vector = Some((vote, rng.pick(&lists).clone()));
        }
    }
}
