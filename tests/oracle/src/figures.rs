//! The figures of the checks in the trace's words, from what the model's base holds behind an accepted message.

use crate::base::{Base, State};
use crate::limits::MOST_BASES;
use crate::message::Message;

/// What is said behind a base's number where it has no second vote.
pub const SILENT: &str = " sends no Verify-Final: it has sent one before, of another list";
/// Suspect pairs that the trace names, or links that lack a Verify.
const NAMED: usize = MOST_BASES / 2;

/// The lines about the check at base `at`, which may have sent a Verify-Final before the message.
pub fn told(at: usize, had_sent: bool, base: &Base, message: &Message) -> Vec<String> {
    let verdict = match base.state {
        State::Prime(_) => "prime",
        State::Secondary(_) => "secondary",
        _ => "runs on",
    };
    match message {
        Message::CorrectFinal(list) | Message::VerifyFinal(list) => {
            let (tally, corrects) = (base.list_tally(list), base.correct_finals(list));
            let figures = format!("tally {tally}, {} needed; Correct-Finals {corrects}, 2 needed", base.t + 1);
            // the second of one list: a base that had sent its Verify-Final sent it for another
            let asks = matches!(message, Message::CorrectFinal(_)) && corrects == 2;
            let silent = (asks && had_sent).then(|| format!("  base {at}{SILENT}"));
            silent.into_iter().chain([format!("  base {at}, secondary check of {}: {figures}; {verdict}", listed(list))]).collect()
        }
        Message::Announce(_) | Message::Verify(_) => {
            let (found, n, t) = (base.prime_figures(), base.n, base.t);
            let sum = format!("sum {}, {} needed", found.sum, n * n - 2 * t);
            let line = format!("certified {}, {n} needed; {sum}; suspects {}, at most {t}; {verdict}", found.certified, found.suspects);
            let short = found.certified == n && found.sum < n * n - 2 * t;
            let tallies = short.then(|| tallies(base));
            let behind = suspects(at, base).or_else(|| short.then(|| missing(at, base)));
            std::iter::once(format!("  base {at}, prime check: {line}")).chain(tallies).chain(behind).collect()
        }
    }
}

pub fn listed(list: &[u32]) -> String {
    let ids: Vec<String> = list.iter().map(u32::to_string).collect();
    ids.join(" ")
}

/// `  tallies: 310 has 3, 120 has 2, ..`
fn tallies(base: &Base) -> String {
    let verified = |id| base.links.iter().filter(|link| link.verifies.contains(id)).count();
    let each: Vec<String> = base.certified().iter().map(|id| format!("{id} has {}", verified(id) + 1)).collect();
    format!("  tallies: {}", each.join(", "))
}

/// `  suspect: 310 and 120 (link 1 from base 1 lacks Verify 120); ..`
fn suspects(at: usize, base: &Base) -> Option<String> {
    let mut pairs = Vec::new();
    for (i, link) in base.links.iter().enumerate() {
        let Some(id) = link.announce else { continue };
        if let Some(lacking) = lacks(at, base, i, base.own) {
            pairs.push(format!("{} and {id} ({lacking})", base.own));
        }
        for (j, other) in base.links[..i].iter().enumerate().filter_map(|(j, before)| Some((j, before.announce?))) {
            let lacking: Vec<String> = lacks(at, base, j, id).into_iter().chain(lacks(at, base, i, other)).collect();
            if !lacking.is_empty() {
                pairs.push(format!("{other} and {id} ({})", lacking.join(", ")));
            }
        }
    }
    (!pairs.is_empty()).then(|| format!("  suspect: {}", first_named(pairs)))
}

/// `  missing: link 1 from base 1 lacks Verify 310; ..`, of any identifier
fn missing(at: usize, base: &Base) -> String {
    let ids = base.certified();
    let of_link = |place| ids.iter().filter_map(move |&id| lacks(at, base, place, id));
    format!("  missing: {}", first_named((0..base.links.len()).flat_map(of_link).collect()))
}

fn first_named(mut all: Vec<String>) -> String {
    let more = all.len().saturating_sub(NAMED);
    all.truncate(NAMED);
    if more > 0 {
        all.push(format!("and {more} more"));
    }
    all.join("; ")
}

fn lacks(at: usize, base: &Base, place: usize, id: u32) -> Option<String> {
    let link = place + 1;
    let from = if link < at { link } else { link + 1 };
    (!base.links[place].verifies.contains(&id)).then(|| format!("link {link} from base {from} lacks Verify {id}"))
}
