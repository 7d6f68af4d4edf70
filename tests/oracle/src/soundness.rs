//! "Rules of a sound record", each by its name, over a raw record whose n, t and own identifier have passed numbers 1 to 3.

use crate::limits::{LIST_ROOM, MOST_BASES};
use crate::message::strictly_ascending;
use crate::record::{RawBase, RawLink};
use std::collections::BTreeSet;

#[derive(Clone, Copy, Debug, PartialEq, Eq, PartialOrd, Ord)]
pub enum Rule {
    /// "A base is idle (0), running (1), prime (2) or secondary (3)."
    StateKnown,
    /// "whether it has sent a Verify-Final": 0 or 1.
    SentIsYesOrNo,
    /// "Announce and Verify together are at most n + 1"
    ListFits,
    /// "used identifiers above zero", of the Verify identifiers.
    VerifiesAboveZero,
    /// "unused places zero", of the Verify identifiers.
    VerifiesZeroBehind,
    /// "the Verify identifiers accepted there, none twice"
    NoVerifyTwice,
    /// "the vector message held there: none, kind 3 or kind 4"
    HeldKindKnown,
    /// "held lists as kinds 3 and 4 demand": n identifiers above zero, strictly ascending.
    HeldListAscends,
    /// "unused places zero", of a held list, the whole of it where none is held.
    HeldListZeroBehind,
    /// "unused places zero", of the links that a base of n has not.
    LinksPastZero,
    /// "no Announce identifier at two links"
    NoAnnounceTwice,
    /// "or equal to the own one"
    NoOwnAnnounce,
    /// "the final list ascending and above zero when stopped"
    FinalListAscends,
    /// "all zero otherwise", and its unused places.
    FinalListZero,
    /// "an idle base holds nothing from any link"
    IdleHoldsNothing,
    /// "and has sent nothing"
    IdleSentNothing,
}

impl Rule {
    pub const ALL: [Rule; 16] = [
        Rule::StateKnown,
        Rule::SentIsYesOrNo,
        Rule::ListFits,
        Rule::VerifiesAboveZero,
        Rule::VerifiesZeroBehind,
        Rule::NoVerifyTwice,
        Rule::HeldKindKnown,
        Rule::HeldListAscends,
        Rule::HeldListZeroBehind,
        Rule::LinksPastZero,
        Rule::NoAnnounceTwice,
        Rule::NoOwnAnnounce,
        Rule::FinalListAscends,
        Rule::FinalListZero,
        Rule::IdleHoldsNothing,
        Rule::IdleSentNothing,
    ];
}

/// Every rule that the record breaks. A sound record breaks none.
pub fn broken_rules(base: &RawBase) -> BTreeSet<Rule> {
    let n = base.n as usize;
    let mut broken = BTreeSet::new();
    let mut demand = |rule, holds: bool| {
        if !holds {
            broken.insert(rule);
        }
    };
    let stopped = matches!(base.state, 2 | 3);
    let (list, behind) = base.final_list.split_at(n);
    demand(Rule::StateKnown, base.state <= 3);
    demand(Rule::SentIsYesOrNo, base.sent <= 1);
    demand(Rule::FinalListAscends, !stopped || (!list.contains(&0) && strictly_ascending(list)));
    demand(Rule::FinalListZero, all_zero(behind) && (stopped || all_zero(list)));
    demand(Rule::LinksPastZero, base.links[n - 1..].iter().all(|link| *link == RawLink::BLANK));
    let used = &base.links[..n - 1];
    if base.state == 0 {
        demand(Rule::IdleHoldsNothing, used.iter().all(|link| link.announce == 0 && link.verify_count == 0 && link.held == 0));
        demand(Rule::IdleSentNothing, base.sent != 1);
    }
    let announced: Vec<u32> = used.iter().map(|link| link.announce).filter(|&id| id != 0).collect();
    demand(Rule::NoAnnounceTwice, none_twice(&announced));
    demand(Rule::NoOwnAnnounce, !announced.contains(&base.own));
    for link in used {
        broken.extend(broken_at_link(n, link));
    }
    broken
}

fn broken_at_link(n: usize, link: &RawLink) -> Vec<Rule> {
    let count = link.verify_count as usize;
    let (used, unused) = link.verifies.split_at(count.min(LIST_ROOM));
    let (list, behind) = link.list.split_at(n.min(MOST_BASES));
    let rules = [
        (Rule::ListFits, count + usize::from(link.announce != 0) <= n + 1),
        (Rule::VerifiesAboveZero, !used.contains(&0)),
        (Rule::VerifiesZeroBehind, all_zero(unused)),
        (Rule::NoVerifyTwice, none_twice(used)),
        (Rule::HeldKindKnown, matches!(link.held, 0 | 3 | 4)),
        (Rule::HeldListAscends, !matches!(link.held, 3 | 4) || (!list.contains(&0) && strictly_ascending(list))),
        (Rule::HeldListZeroBehind, all_zero(behind) && (link.held != 0 || all_zero(list))),
    ];
    rules.into_iter().filter(|&(_, holds)| !holds).map(|(rule, _)| rule).collect()
}

fn all_zero(places: &[u32]) -> bool {
    places.iter().all(|&place| place == 0)
}

/// No identifier stands twice; zero is none.
fn none_twice(ids: &[u32]) -> bool {
    ids.iter().enumerate().all(|(i, id)| *id == 0 || !ids[..i].contains(id))
}
