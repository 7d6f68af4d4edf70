//! Records that break one rule of soundness and no other.

use crate::base::{State, Vote};
use crate::case::Case;
use crate::generate::arrivals::{arrival, output};
use crate::generate::records::{list_of, sound, Made};
use crate::generate::settings::identifiers;
use crate::limits::{LIST_ROOM, MOST_BASES, MOST_LINKS};
use crate::record::RawBase;
use crate::refusal::RECORD;
use crate::rng::Rng;
use crate::soundness::{broken_rules, Rule};

/// A call on a record that breaks the rule alone: start, arrival or leader.
pub fn call(rng: &mut Rng, rule: Rule) -> Case {
    let (made, record) = breaking(rng, rule);
    let expect = Some(RECORD);
    match rng.below(4) {
        0 => Case::Start { record, out: output(rng), expect },
        1 => Case::Leader { record, expect },
        _ => {
            let (link, message) = arrival(rng, &made);
            Case::Arrive { record, link, burst: message.frame(), out: output(rng), expect }
        }
    }
}

/// A record that breaks the rule and no other.
pub fn breaking(rng: &mut Rng, rule: Rule) -> (Made, RawBase) {
    loop {
        let mut made = sound(rng);
        suit(rng, rule, &mut made);
        let mut record = made.base.raw();
        spoil(rng, rule, &mut record);
        if broken_rules(&record).into_iter().eq([rule]) {
            return (made, record);
        }
    }
}

/// The base in the state that the rule is about.
fn suit(rng: &mut Rng, rule: Rule, made: &mut Made) {
    match rule {
        Rule::IdleHoldsNothing | Rule::IdleSentNothing => {
            made.base.state = State::Idle;
            made.base.sent_verify_final = false;
            if rule == Rule::IdleSentNothing || rng.chance(3, 4) {
                made.base.links.iter_mut().for_each(|link| *link = Default::default());
            }
        }
        Rule::FinalListAscends => made.base.state = State::Prime(list_of(rng, made)),
        Rule::HeldListAscends | Rule::HeldKindKnown => {
            made.base.state = State::Running;
            let link = rng.below(made.base.n - 1);
            made.base.links[link].vector = Some((Vote::VerifyFinal, list_of(rng, made)));
        }
        _ => {}
    }
}

fn spoil(rng: &mut Rng, rule: Rule, record: &mut RawBase) {
    let n = record.n as usize;
    let at = rng.below(n - 1);
    match rule {
        Rule::StateKnown => record.state = rng.within(4, 255) as u8,
        Rule::SentIsYesOrNo => record.sent = rng.within(2, 255) as u8,
        Rule::NoAnnounceTwice => record.links[at].announce = record.links[rng.below(n - 1)].announce,
        Rule::NoOwnAnnounce => record.links[at].announce = record.own,
        Rule::FinalListAscends => spoil_list(rng, &mut record.final_list[..n]),
        Rule::FinalListZero => record.final_list[rng.below(MOST_BASES)] = rng.within(1, 1000) as u32,
        Rule::IdleSentNothing => record.sent = 1,
        Rule::IdleHoldsNothing => hold_something(rng, &mut record.links[at], n),
        Rule::LinksPastZero if n < MOST_BASES => {
            let past = rng.within(n - 1, MOST_LINKS - 1);
            hold_something(rng, &mut record.links[past], n);
        }
        _ => spoil_link(rng, rule, &mut record.links[at], n),
    }
}

fn spoil_link(rng: &mut Rng, rule: Rule, link: &mut crate::record::RawLink, n: usize) {
    let count = link.verify_count as usize;
    match rule {
        Rule::ListFits => {
            let wanted = n + 2 - usize::from(link.announce != 0);
            let wanted = if rng.chance(1, 4) { rng.within(wanted, 255) } else { wanted };
            link.verifies = [0; LIST_ROOM];
            let used = wanted.min(LIST_ROOM);
            link.verifies[..used].copy_from_slice(&identifiers(rng, used));
            link.verify_count = wanted as u16;
        }
        Rule::VerifiesAboveZero if count > 0 => link.verifies[rng.below(count)] = 0,
        Rule::VerifiesZeroBehind if count < LIST_ROOM => link.verifies[rng.within(count, LIST_ROOM - 1)] = rng.word() as u32,
        Rule::NoVerifyTwice if count > 1 => link.verifies[rng.below(count)] = link.verifies[rng.below(count)],
        Rule::HeldKindKnown => link.held = *rng.pick(&[1, 2, 5, 6, 67, 131, 255, 256, 259, 260, 65535]),
        Rule::HeldListAscends if link.held != 0 => spoil_list(rng, &mut link.list[..n]),
        Rule::HeldListZeroBehind => link.list[rng.below(MOST_BASES)] = rng.word() as u32,
        _ => {}
    }
}

/// A list that does not ascend, or has a zero.
fn spoil_list(rng: &mut Rng, list: &mut [u32]) {
    let (a, b) = (rng.below(list.len()), rng.below(list.len()));
    match rng.below(3) {
        0 => list[a] = 0,
        1 => list[a] = list[b],
        _ => list.swap(a, b),
    }
}

fn hold_something(rng: &mut Rng, link: &mut crate::record::RawLink, n: usize) {
    match rng.below(4) {
        0 => link.announce = rng.word() as u32,
        1 => {
            link.verifies[0] = rng.within(1, 99) as u32;
            link.verify_count = 1;
        }
        2 => {
            link.held = rng.within(3, 4) as u16;
            (0..n).for_each(|i| link.list[i] = i as u32 + 1);
        }
        _ => link.list[rng.below(MOST_BASES)] = rng.within(1, 9) as u32,
    }
}
