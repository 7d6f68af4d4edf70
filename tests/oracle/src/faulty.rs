//! Document 02, request 1, "Every faulty table of a small net": the sets by their numbers, and the lines of them that `hillfaults` prints.
//! Refusals 1, 2, 19 and 20, in that order; of a text 13 comes before them.

use crate::base::judge_limit;
use crate::faults::Fault;
use crate::limits::{most_faulty, FEWEST_BASES, LONGEST_SCHEDULE, SMALL_BASES, SMALL_FAULTY, SMALL_SETS};
use crate::reader::{net_size, Number};
use crate::refusal;
use crate::replay::Refused;
use crate::schedule::{self, parse, Line};
use std::borrow::Cow;
use std::cmp::Reverse;
use std::collections::BTreeMap;
use std::fmt::Write;
use std::sync::LazyLock;

pub use crate::roster::{Pair as RawPair, Set as RawSet};

/// A link by its two bases, the lower first.
pub type Pair = (usize, usize);

/// A set of links, in the order of their pairs.
pub type Links = Vec<Pair>;

impl RawSet {
    pub const BLANK: RawSet = RawSet { refusal: 0, count: 0, pairs: [RawPair { lower: 0, higher: 0 }; SMALL_FAULTY] };
}

/// The sets of each small net, by its n and t: a run asks for one some thousand times.
static SMALL_NETS: LazyLock<BTreeMap<(usize, usize), Vec<Links>>> = LazyLock::new(|| {
    let nets = (FEWEST_BASES..=SMALL_BASES).flat_map(|n| (0..=most_faulty(n)).map(move |t| (n, t)));
    nets.map(|(n, t)| ((n, t), every_set(n, t))).collect()
});

/// "pairs go by first base, then second"
fn pairs(n: usize) -> Vec<Pair> {
    (1..=n).flat_map(|a| (a + 1..=n).map(move |b| (a, b))).collect()
}

/// "List every set of at most t links": a bit of a mask stands for a link, so each set of links is one mask, and those with too many bits
/// are left out. "Sets go by size, then by their first differing pair".
fn every_set(n: usize, t: usize) -> Vec<Links> {
    let pairs = pairs(n);
    let masks = (0u32..1 << pairs.len()).filter(|mask| mask.count_ones() as usize <= t);
    let links = |mask: u32| (0..pairs.len()).filter(|bit| mask >> bit & 1 == 1).map(|bit| pairs[bit]).collect();
    let mut sets: Vec<Links> = masks.map(links).collect();
    sets.sort_by(|left, right| left.len().cmp(&right.len()).then_with(|| left.cmp(right)));
    sets
}

/// The sets of a net that 1, 2 and 19 let pass, each at the place of its number. A net that only a fault lets pass has no table.
fn sets(n: usize, t: usize, fault: Fault) -> Cow<'static, [Links]> {
    let mut sets = SMALL_NETS.get(&(n, t)).map_or_else(|| every_set(n, t).into(), Cow::from);
    let count = sets.len();
    match fault {
        Fault::LastSetLeftOut => drop(sets.to_mut().pop()),
        Fault::EmptySetLeftOut => drop(sets.to_mut().remove(0)),
        Fault::SetListedTwice => sets.to_mut().extend_from_within(count - 1..),
        Fault::SetInPlaceOfNext if count > 2 => sets.to_mut()[2] = sets[1].clone(),
        Fault::SizesDownwards => sets.to_mut().sort_by_key(|links| Reverse(links.len())),
        Fault::PairsBySecondBase => by_second_base(sets.to_mut()),
        Fault::PairsDescend => sets.to_mut().iter_mut().for_each(|links| links.reverse()),
        Fault::HigherBaseFirst => sets.to_mut().iter_mut().flatten().for_each(|(a, b)| std::mem::swap(a, b)),
        _ => {}
    }
    sets
}

fn by_second_base(sets: &mut [Links]) {
    let turned = |links: &Links| links.iter().map(|&(a, b)| (b, a)).collect::<Links>();
    sets.iter_mut().for_each(|links| links.sort_by_key(|&(a, b)| (b, a)));
    sets.sort_by_key(|links| (links.len(), turned(links)));
}

/// Refusals 1, 2 and 19: "19 when the net has more than 6 bases", which comes "after 2".
fn judge_small(n: usize, t: usize, fault: Fault) -> Result<(), Number> {
    net_size(n)?;
    let large = n > SMALL_BASES + usize::from(fault == Fault::SevenBasesListed);
    if large && fault == Fault::NineteenBeforeTwo {
        return Err(refusal::LARGE_NET);
    }
    judge_limit(n, t, fault)?;
    if large {
        return Err(refusal::LARGE_NET);
    }
    Ok(())
}

pub fn count(n: usize, t: usize, fault: Fault) -> Result<usize, Number> {
    judge_small(n, t, fault)?;
    Ok(sets(n, t, fault).len() - usize::from(fault == Fault::CountWithoutEmptySet))
}

/// "20 when the number is past the last set": the count is the first number that is refused.
pub fn set(n: usize, t: usize, number: usize, fault: Fault) -> Result<Links, Number> {
    let judged = judge_small(n, t, fault);
    if fault == Fault::TwentyBeforeNineteen && judged == Err(refusal::LARGE_NET) && number >= SMALL_SETS {
        return Err(refusal::SET_NUMBER);
    }
    judged?;
    let sets = sets(n, t, fault);
    let place = match fault {
        Fault::SetsFromOne => number.wrapping_sub(1),
        Fault::SetNumberCut => number as u32 as usize,
        Fault::LastSetRefused if number == sets.len() - 1 => sets.len(),
        Fault::SetPastLast if number == sets.len() => number - 1,
        _ => number,
    };
    sets.get(place).cloned().ok_or(refusal::SET_NUMBER)
}

pub fn raw(links: &[Pair]) -> RawSet {
    let mut raw = RawSet { count: links.len() as u8, ..RawSet::BLANK };
    for (place, &(lower, higher)) in raw.pairs.iter_mut().zip(links) {
        *place = RawPair { lower: lower as u8, higher: higher as u8 };
    }
    raw
}

pub fn refused(number: Number, fault: Fault) -> RawSet {
    let kept = if fault == Fault::RefusedSetKeepsAPair { raw(&[(1, 2)]) } else { RawSet::BLANK };
    RawSet { refusal: number, count: 0, ..kept }
}

/// What `hillfaults` prints of the net that the text's first line names.
pub fn lines(schedule: &[u8], fault: Fault) -> String {
    match named_net(schedule, fault) {
        Ok(_) if fault == Fault::LineBehindNetRefused && schedule::lines(schedule).count() > 1 => {
            Refused { number: refusal::FORM, line: 2 }.report(fault)
        }
        Ok((n, t)) => lines_of(&sets(n, t, fault), fault),
        Err(number) => Refused { number, line: 1 }.report(fault),
    }
}

/// The net of the first line. What stands behind that line is not looked at.
fn named_net(schedule: &[u8], fault: Fault) -> Result<(usize, usize), Number> {
    let line = match schedule::lines(schedule).next() {
        Some(_) if fault == Fault::LongTextRefused && schedule.len() > LONGEST_SCHEDULE => return Err(refusal::FORM),
        Some((_, Ok(line))) => line,
        Some((_, Err(unended))) if fault == Fault::NetLineUnended => unended,
        _ => return Err(refusal::FORM),
    };
    let Some(Line::Net { n, t }) = parse(line, fault) else { return Err(refusal::FORM) };
    let (n, t) = (n as usize, t as usize);
    judge_small(n, t, fault)?;
    Ok((n, t))
}

fn lines_of(sets: &[Links], fault: Fault) -> String {
    let mut text = String::new();
    for (number, links) in sets.iter().enumerate() {
        let _ = writeln!(text, "set {}", number + usize::from(fault == Fault::LinesFromOne));
        for (a, b) in links {
            let _ = writeln!(text, "faulty {a} {b}");
        }
    }
    text
}
