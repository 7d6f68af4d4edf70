//! Nets to begin with: n, t, identifiers and faulty links.

use crate::limits::{most_faulty, FEWEST_BASES, MOST_BASES};
use crate::net::Setting;
use crate::rng::Rng;
use std::collections::BTreeSet;

/// Half of them small, where all thresholds lie close together.
pub fn net_size(rng: &mut Rng) -> usize {
    if rng.chance(1, 2) {
        rng.within(FEWEST_BASES, 7)
    } else {
        rng.within(FEWEST_BASES, MOST_BASES)
    }
}

/// Mostly the limit.
pub fn fault_bound(rng: &mut Rng, n: usize) -> usize {
    if rng.chance(2, 3) {
        most_faulty(n)
    } else {
        rng.within(0, most_faulty(n))
    }
}

/// `count` different identifiers above zero, in any order: small ones, any, or the highest.
pub fn identifiers(rng: &mut Rng, count: usize) -> Vec<u32> {
    let style = rng.below(4);
    let mut set = BTreeSet::new();
    while set.len() < count {
        let id = match style {
            0 => rng.within(1, 2 * count) as u32,
            1 => u32::MAX - rng.below(2 * count) as u32,
            2 => [1, 0x100, 0x1_0000, 0x100_0000][rng.below(4)] * rng.within(1, 255) as u32,
            _ => (rng.word() as u32).max(1),
        };
        set.insert(id);
    }
    let mut ids: Vec<u32> = set.into_iter().collect();
    rng.shuffle(&mut ids);
    ids
}

pub fn setting(rng: &mut Rng) -> Setting {
    let n = net_size(rng);
    let t = fault_bound(rng, n);
    let count = if rng.chance(4, 5) { t } else { rng.within(0, t) };
    Setting { t, ids: identifiers(rng, n), faulty: faulty_links(rng, n, count) }
}

/// Faulty links in a star at one base, around a few bases, in pairs that share no base, or anywhere.
pub fn faulty_links(rng: &mut Rng, n: usize, count: usize) -> BTreeSet<(usize, usize)> {
    let mut order: Vec<usize> = (1..=n).collect();
    rng.shuffle(&mut order);
    let style = rng.below(4);
    let mut links = BTreeSet::new();
    for i in 0.. {
        if links.len() == count {
            break;
        }
        let (a, b) = match style {
            0 => (order[0], order[1 + i % (n - 1)]),
            1 => (*rng.pick(&order[..n.min(4)]), *rng.pick(&order)),
            2 if 2 * i + 1 < n => (order[2 * i], order[2 * i + 1]),
            _ => (*rng.pick(&order), *rng.pick(&order)),
        };
        if a != b {
            links.insert((a.min(b), a.max(b)));
        }
    }
    links
}
