//! What the trace program says became of each line, held against the model: accepted; discarded, and why; or turned down, by which number;
//! and the slots of what it broadcast, by line and at the end.
//! The reasons are the model's own, put into the trace's words here; `causes` works out why a line is refused, `figures` what a check
//! counts.

use crate::airtime::Airtime;
use crate::base::{Base, Vote};
use crate::causes;
use crate::engine::Sent;
use crate::faults::Fault;
use crate::figures;
use crate::generate::{histories, schedules};
use crate::limits::{frame_bytes, link_to, LONGEST_SCHEDULE, OUTPUT_ROOM};
use crate::message::Message;
use crate::model::Model;
use crate::net::{Event, History, Net};
use crate::reader::{read, Number};
use crate::replay;
use crate::rng::Rng;
use crate::schedule::render;
use crate::steps::Discard;
use crate::stored;
use std::collections::BTreeMap;
use std::io::Write;
use std::path::Path;
use std::process::{Command, Stdio};

/// What became of a line's event.
#[derive(Clone, Copy, Debug, PartialEq, Eq, PartialOrd, Ord)]
enum Outcome {
    Accepted,
    /// A Correct-Final, in place of the link's Verify-Final.
    Replaced,
    Discarded(Discard),
    /// An Announce of the base's own identifier, which is certified.
    Own,
    Refused(Number),
}

/// How the trace says each reason.
const REASONS: [(Discard, &str); 7] = [
    (Discard::HasStopped, "the base has stopped"),
    (Discard::AnnounceHeld, "the link has an Announce"),
    (Discard::Certified, "the identifier is certified"),
    (Discard::ListFull, "the link's list is full"),
    (Discard::VerifyHeld, "the link holds that Verify"),
    (Discard::CorrectFinalHeld, "the link holds a Correct-Final"),
    (Discard::VectorMessageHeld, "the link holds a vector message"),
];

const OWN: &str = "the identifier is its own";
/// Behind `accepted`, and before the list of the message that gave way.
const REPLACED: &str = "accepted, in place of the link's Verify-Final of ";
/// Behind a base's number.
const SLOTS: &str = ", slots of this line: ";
/// Before each line of the totals.
const TOTAL: &str = "slots of ";

/// A line with an event: what became of it; the list that gave way, or what a refused burst's trailer says; what the trace says of the
/// check behind it; and the slots, with whatever stands behind them.
#[derive(Debug, PartialEq, Eq)]
struct Told {
    line: usize,
    outcome: Outcome,
    detail: String,
    check: Vec<String>,
    slots: Vec<String>,
}

/// The lines with an event, in order.
type Outcomes = Vec<Told>;

/// The stored schedules and as many made ones through the program. True where it says of every line what the model says, and every outcome
/// came up.
pub fn run(program: &str, folder: &str, made: usize, seed: u64) -> bool {
    let mut compared = Compared::default();
    let mut rng = Rng::new(seed);
    let stored = stored::schedules(Path::new(folder));
    for path in &stored {
        let schedule = std::fs::read(path).unwrap_or_default();
        compared.take(program, &schedule, &path.display().to_string());
    }
    for place in 0..made {
        compared.take(program, &schedule(&mut rng), &format!("schedule {place} of seed {seed}"));
    }
    println!("{} stored and {made} made schedules through {program}:", stored.len());
    compared.print()
}

/// A whole history, or a small schedule, which may be refused.
fn schedule(rng: &mut Rng) -> Vec<u8> {
    match rng.below(2) {
        0 => schedules::text(rng),
        _ => whole(histories::history(rng)),
    }
}

/// The history as a schedule, as far as its length goes.
fn whole(history: History) -> Vec<u8> {
    let mut text = render(&history.as_scheduled(&mut Model::TRUE.clone()).0).into_bytes();
    let end = text.iter().take(LONGEST_SCHEDULE).rposition(|&byte| byte == b'\n');
    text.truncate(end.map_or(0, |end| end + 1));
    text
}

#[derive(Default)]
struct Compared {
    counts: BTreeMap<Outcome, usize>,
    wrong: Vec<String>,
}

impl Compared {
    fn take(&mut self, program: &str, schedule: &[u8], name: &str) {
        let ours = by_the_model(schedule);
        let ending = ending(schedule);
        match written(program, schedule).and_then(|trace| Ok((by_the_trace(&trace)?, ends_with(&trace, &ending)))) {
            Ok((theirs, true)) if theirs == ours => {
                for told in ours {
                    *self.counts.entry(told.outcome).or_default() += 1;
                }
            }
            Ok((_, false)) => self.wrong.push(format!("{name}: the trace does not end with the model's {ending:?}")),
            Ok((theirs, true)) => {
                let at = ours.iter().zip(&theirs).position(|(one, other)| one != other).unwrap_or(ours.len().min(theirs.len()));
                self.wrong.push(format!("{name}: {:?} by the model, {:?} by the trace", ours.get(at), theirs.get(at)));
            }
            Err(error) => self.wrong.push(format!("{name}: {error}")),
        }
    }

    fn print(&self) -> bool {
        let every = REASONS.iter().map(|&(reason, _)| Outcome::Discarded(reason)).chain((7..=12).map(Outcome::Refused));
        let every: Vec<Outcome> =
            every.chain([Outcome::Accepted, Outcome::Replaced, Outcome::Own, Outcome::Discarded(Discard::HasStarted)]).collect();
        for outcome in &every {
            println!("  {:>10}  {outcome:?}", self.counts.get(outcome).unwrap_or(&0));
        }
        self.wrong.iter().for_each(|what| println!("{what}"));
        let missed = every.iter().filter(|outcome| !self.counts.contains_key(outcome)).count();
        println!("{} schedules told otherwise, {missed} outcomes that did not come up", self.wrong.len());
        self.wrong.is_empty() && missed == 0
    }
}

/// The report's lines; before them what waits, by its numbers, and the slots; before a refusal's the refused line, its number, and why it
/// is refused.
fn ending(schedule: &[u8]) -> Vec<String> {
    let report = replay::report(schedule, Fault::None);
    let report = report.lines().map(str::to_string);
    let refused = match replay::replay(schedule, Fault::None) {
        Ok(net) => return waits(&net).into_iter().chain(totals(&net)).chain(report).collect(),
        Err(refused) => refused,
    };
    let (line, causes) = causes::told(schedule, refused);
    let number = format!("{REFUSED_BY}{}, ", refused.number);
    [line, number].into_iter().chain(causes.iter().map(|cause| format!("  {cause}"))).chain(report).collect()
}

/// `waiting from base 1 to base 2, by number: 3 4`
fn waits(net: &Net) -> Vec<String> {
    let mut pairs: BTreeMap<(usize, usize), Vec<String>> = BTreeMap::new();
    for (from, to, k) in net.outstanding() {
        pairs.entry((from, to)).or_default().push(k.to_string());
    }
    pairs.iter().map(|((from, to), numbers)| format!("waiting from base {from} to base {to}, by number: {}", numbers.join(" "))).collect()
}

/// `slots of base 1: own 4, relayed 1, together 5`, of each base and then of all.
fn totals(net: &Net) -> Vec<String> {
    let line = |of: String, spent: Airtime| format!("{TOTAL}{of}: {spent}, together {}", spent.together());
    let mut all = Airtime::default();
    net.spent.iter().for_each(|&spent| all += spent);
    let bases = net.spent.iter().enumerate().map(|(i, &spent)| line(format!("base {}", i + 1), spent));
    bases.chain([line("all bases".to_string(), all)]).collect()
}

const REFUSED_BY: &str = "  refused by ";

/// Line by line; of a number's line its beginning. tests/repository compares the words behind it. Totals of slots stand nowhere else.
fn ends_with(trace: &str, ending: &[String]) -> bool {
    let lines: Vec<&str> = trace.lines().collect();
    let is = |line: &str, wanted: &String| line == wanted || (wanted.starts_with(REFUSED_BY) && line.starts_with(wanted.as_str()));
    let Some(begin) = lines.len().checked_sub(ending.len()) else { return false };
    let total_before = lines[..begin].iter().any(|line| line.starts_with(TOTAL));
    !total_before && lines[begin..].iter().zip(ending).all(|(line, wanted)| is(line, wanted))
}

fn by_the_model(schedule: &[u8]) -> Outcomes {
    let mut outcomes = Vec::new();
    // A refused schedule has been watched up to its refused line.
    let _ = replay::watched(schedule, Fault::None, &mut |line, net, event| {
        outcomes.push(Told { slots: slots(net, event), ..told(line, net, event) });
    });
    outcomes
}

/// `  base 2, slots of this line: own 2, relayed 1`, where the event's call broadcasts something.
fn slots(net: &Net, event: &Event) -> Vec<String> {
    let at = event.receiver();
    let mut record = net.records[at - 1];
    let sent = net.call(event, &mut record, &mut [0; OUTPUT_ROOM], &mut Model::TRUE.clone()).sent();
    let line = format!("  base {at}{SLOTS}{}", sent.airtime);
    (sent.lengths != Sent::NOTHING.lengths).then_some(line).into_iter().collect()
}

/// What became of the event, without its slots.
fn told(line: usize, net: &Net, event: &Event) -> Told {
    let at = event.receiver();
    let of = |outcome, detail| Told { line, outcome, detail, check: Vec::new(), slots: Vec::new() };
    let refused = |number| of(Outcome::Refused(number), String::new());
    let mut base = match Base::admit(&net.records[at - 1], Fault::None) {
        Ok(base) => base,
        Err(number) => return refused(number),
    };
    let (from, burst) = match event {
        Event::Start { .. } => return of(base.start().discarded.map_or(Outcome::Accepted, Outcome::Discarded), String::new()),
        Event::Carry { from, k, .. } => (*from, &net.logs[from - 1][k - 1]),
        Event::Forge { from, bytes, .. } => (*from, bytes),
    };
    let frame = match read(base.n, burst, Fault::None) {
        Ok(frame) => frame,
        Err(number) => return of(Outcome::Refused(number), trailer(number, burst)),
    };
    let link = link_to(at, from) - 1;
    let held = base.links[link].vector.clone();
    let had_sent = base.sent_verify_final;
    let own = matches!(frame.message, Message::Announce(id) if id == base.own);
    let accepted = match (&frame.message, held) {
        (Message::CorrectFinal(_), Some((Vote::VerifyFinal, list))) => of(Outcome::Replaced, figures::listed(&list)),
        _ => of(Outcome::Accepted, String::new()),
    };
    match base.arrive(link, frame.message.clone()).discarded {
        Some(Discard::Certified) if own => of(Outcome::Own, String::new()),
        Some(reason) => of(Outcome::Discarded(reason), String::new()),
        None => Told { check: figures::told(at, had_sent, &base, &frame.message), ..accepted },
    }
}

/// Of a burst that is refused for what its trailer says.
fn trailer(number: Number, burst: &[u8]) -> String {
    let &[.., kind, count, high, low] = burst else { return String::new() };
    let (back, right) = (usize::from(u16::from_be_bytes([high, low])), frame_bytes(usize::from(count)));
    match number {
        8 => format!("kind {kind}"),
        9 => format!("kind {kind}, count {count}"),
        10 if back == right => format!("back distance {back}, and the burst has {} bytes", burst.len()),
        10 => format!("back distance {back}, where {right} belongs"),
        _ => String::new(),
    }
}

/// What a program writes of a schedule.
pub fn written(program: &str, schedule: &[u8]) -> Result<String, String> {
    let told = |error: std::io::Error| format!("{program}: {error}");
    let mut child = Command::new(program).stdin(Stdio::piped()).stdout(Stdio::piped()).spawn().map_err(told)?;
    let mut input = child.stdin.take().ok_or("no standard input")?;
    input.write_all(schedule).map_err(told)?;
    drop(input);
    let output = child.wait_with_output().map_err(told)?;
    Ok(String::from_utf8_lossy(&output.stdout).into_owned())
}

/// `line 9: carry 1 2 1`, and under it what the line did.
fn by_the_trace(trace: &str) -> Result<Outcomes, String> {
    let mut outcomes: Outcomes = Vec::new();
    let mut line = 0;
    for text in trace.lines() {
        if let Some((number, _)) = text.strip_prefix("line ").and_then(|rest| rest.split_once(": ")) {
            line = number.parse().map_err(|_| format!("no line of a schedule: {text}"))?;
        }
        let behind_the_check = ["  tallies: ", "  suspect: ", "  missing: "].iter().any(|begin| text.starts_with(begin));
        let is_check = text.contains(" check: ") || text.contains(" check of ") || text.ends_with(figures::SILENT) || behind_the_check;
        if let (true, Some(told)) = (is_check, outcomes.last_mut()) {
            told.check.push(text.to_string());
        }
        take_slots(text, outcomes.last_mut().filter(|told| told.line == line))?;
        let Some(outcome) = text.strip_prefix("  base ").and_then(told_outcome) else { continue };
        // An idle base starts before it hears.
        outcomes.retain(|told| told.line != line);
        let (outcome, detail) = outcome.map_err(|reason| format!("the model knows no reason {reason:?}"))?;
        outcomes.push(Told { line, outcome, detail, check: Vec::new(), slots: Vec::new() });
    }
    Ok(outcomes)
}

/// A line about slots, and any line that stands behind it under the same event, where none belongs.
fn take_slots(text: &str, event: Option<&mut Told>) -> Result<(), String> {
    if !text.starts_with("  ") {
        return Ok(());
    }
    match event {
        Some(told) if text.contains(SLOTS) || !told.slots.is_empty() => told.slots.push(text.to_string()),
        None if text.contains(SLOTS) => return Err(format!("slots of no event: {text}")),
        _ => {}
    }
    Ok(())
}

/// Of a line that says what became of an event; or the words of a reason that there is not.
fn told_outcome(text: &str) -> Option<Result<(Outcome, String), String>> {
    let plain = |outcome| Some(Ok((outcome, String::new())));
    let said = text.split_once(" on link ").and_then(|(_, rest)| rest.split_once(": ")).map(|(_, said)| said);
    match said {
        None if text.ends_with(" starts") => plain(Outcome::Accepted),
        None if text.ends_with(" has started: discarded") => plain(Outcome::Discarded(Discard::HasStarted)),
        None => None,
        Some("accepted") => plain(Outcome::Accepted),
        Some(said) => Some(told_reason(said)),
    }
}

/// `discarded, the link has an Announce`, `refused by 7, ..`, `refused by 9, .. (kind 1, count 2)` or what a message takes the place of
fn told_reason(said: &str) -> Result<(Outcome, String), String> {
    if let Some(list) = said.strip_prefix(REPLACED) {
        return Ok((Outcome::Replaced, list.to_string()));
    }
    if let Some(number) = said.strip_prefix("refused by ").and_then(|rest| rest.split(',').next()?.parse().ok()) {
        let trailer = said.split_once(" (").map_or("", |(_, trailer)| trailer.trim_end_matches(')'));
        return Ok((Outcome::Refused(number), trailer.to_string()));
    }
    let words = said.strip_prefix("discarded, ").ok_or(said)?;
    let reason = REASONS.iter().find(|(_, known)| *known == words).map(|&(reason, _)| Outcome::Discarded(reason));
    reason.or((words == OWN).then_some(Outcome::Own)).map(|outcome| (outcome, String::new())).ok_or(said.to_string())
}

#[cfg(test)]
mod tests;
