//! A trace's text, read line by line. What the picture needs has to be there and in its place, else the line is named by its number; what
//! the trace says besides is kept and shown as it stands.

use crate::trace::{spent, Broadcast, Cause, Check, End, Event, Hearing, Message, Net, Outcome, Slots, State, Stop, Trace};
use std::cmp::Ordering;

pub struct Wrong {
    /// Of the trace, from 1; one past the last where something is missing.
    pub line: usize,
    pub what: String,
}

pub fn read(text: &str) -> Result<Trace, Wrong> {
    let lines: Vec<&str> = text.lines().collect();
    let end = end_of(&lines);
    let mut reader = Reader::default();
    for (i, line) in lines[..end].iter().enumerate() {
        reader.take(line).map_err(|what| Wrong { line: i + 1, what: format!("{what}: {}", quoted(line)) })?;
    }
    let last = lines.len();
    let refused = (end < last).then(|| refusal_of(&lines[end..])).flatten();
    reader.finish(refused).map_err(|what| Wrong { line: last + 1, what })
}

/// Where the trace's account of a refused line begins, at the end of the trace; its length where no line is refused.
fn end_of(lines: &[&str]) -> usize {
    let Some(End::Refused { line, .. }) = lines.last().and_then(|last| refusal_of(&[last])) else { return lines.len() };
    let begin = format!("line {line}: ");
    lines.iter().rposition(|text| text.starts_with(&begin)).unwrap_or(lines.len() - 1)
}

/// Lines about the refused line, the last of them `refused N line L`.
fn refusal_of(lines: &[&str]) -> Option<End> {
    let (last, told) = lines.split_last()?;
    let words: Vec<&str> = last.split(' ').collect();
    let ["refused", number, "line", line] = words[..] else { return None };
    let told = told.iter().map(|line| line.to_string()).collect();
    Some(End::Refused { number: number.parse().ok()?, line: line.parse().ok()?, told })
}

/// The line in one line of plain text, not too long.
fn quoted(line: &str) -> String {
    const MOST: usize = 60;
    let start: String = line.chars().take(MOST).collect();
    format!("{start:?}{}", if line.chars().count() > MOST { " ..." } else { "" })
}

const NO_TRACE_LINE: &str = "not a line of a trace";

#[derive(Default)]
struct Reader {
    /// Lines of the schedule read so far.
    lines: usize,
    net: Option<Net>,
    ids: Vec<u32>,
    faulty: Vec<(usize, usize)>,
    events: Vec<Event>,
    /// Each base's slots, then those of all; they stand before the report.
    totals: Vec<Slots>,
    report: Vec<State>,
    pairs: Vec<String>,
    end: Option<End>,
}

type Taken = Result<(), String>;

impl Reader {
    fn take(&mut self, line: &str) -> Taken {
        if self.end.is_some() {
            return Err("nothing follows the trace's last line".to_string());
        }
        if line.starts_with("  ") {
            return self.take_told(line);
        }
        self.event_is_whole()?;
        if let Some(rest) = line.strip_prefix("line ") {
            return self.take_schedule_line(rest, line);
        }
        if let Some(rest) = line.strip_prefix("slots of ") {
            return self.take_total(rest);
        }
        match self.next_total() {
            Some(next) if line.starts_with("base ") => Err(slots_expected(&next)),
            _ => self.take_end(line).ok_or_else(|| NO_TRACE_LINE.to_string()),
        }
    }

    fn take_schedule_line(&mut self, rest: &str, whole: &str) -> Taken {
        let (number, schedule) = rest.split_once(": ").ok_or(NO_TRACE_LINE)?;
        self.lines += 1;
        if number.parse() != Ok(self.lines) || !self.totals.is_empty() {
            return Err(format!("the schedule's line {} is expected", self.lines));
        }
        let words: Vec<&str> = schedule.split(' ').collect();
        self.take_header(&words).or_else(|| self.take_event(&words, whole)).ok_or_else(|| NO_TRACE_LINE.to_string())
    }

    fn take_header(&mut self, words: &[&str]) -> Option<()> {
        match (words, self.net) {
            (["net", n, t], None) => {
                let net = Net { n: n.parse().ok()?, t: t.parse().ok()? };
                self.net = (2 * net.t + 2 <= net.n).then_some(net);
                self.net.map(|_| ())
            }
            (["id", b, v], Some(net)) => {
                let in_turn = self.ids.len() < net.n && b.parse() == Ok(self.ids.len() + 1);
                self.ids.push(v.parse().ok()?);
                in_turn.then_some(())
            }
            (["faulty", a, b], Some(_)) if self.has_ids() && self.events.is_empty() => {
                self.faulty.push((self.base(a)?, self.base(b)?));
                Some(())
            }
            _ => None,
        }
    }

    fn take_event(&mut self, words: &[&str], whole: &str) -> Option<()> {
        if !self.has_ids() {
            return None;
        }
        let (cause, at) = match *words {
            ["start", b] => (Cause::Start, self.base(b)?),
            ["carry", a, b, k] => (Cause::Carry { from: self.base(a)?, number: k.parse().ok()? }, self.base(b)?),
            ["forge", a, b, _] => (Cause::Forge { from: self.base(a)? }, self.base(b)?),
            _ => return None,
        };
        let told = vec![whole.to_string()];
        let line = self.lines;
        let (broadcasts, withheld, slots) = (Vec::new(), None, None);
        let event = Event { line, cause, at, starts: false, hearing: None, broadcasts, withheld, check: None, stop: None, slots, told };
        let between_two = event.from() != Some(at);
        self.events.push(event);
        between_two.then_some(())
    }

    /// An indented line: what an event did. What is said besides is kept as it is.
    fn take_told(&mut self, line: &str) -> Taken {
        let (Some(net), Some(event)) = (self.net, self.events.last_mut()) else {
            return Err("no start, carry or forgery stands before it".to_string());
        };
        if !self.totals.is_empty() {
            return Err(NO_TRACE_LINE.to_string());
        }
        event.told.push(line.trim_start().to_string());
        let about = format!("  base {}", event.at);
        match line.strip_prefix(&about).filter(|rest| rest.starts_with([' ', ','])) {
            Some(rest) => take_outcome(event, net, rest.trim_start_matches([',', ' '])).ok_or_else(|| NO_TRACE_LINE.to_string()),
            None if line.starts_with("  base ") => Err(format!("a line about {} is expected", about.trim_start())),
            None => Ok(()),
        }
    }

    /// `base 1: own 4, relayed 1, together 5`: what the slots of the events add up to.
    fn take_total(&mut self, rest: &str) -> Taken {
        let next = self.next_total().ok_or(NO_TRACE_LINE)?;
        let figures = rest.strip_prefix(&format!("{next}: ")).ok_or_else(|| slots_expected(&next))?;
        let (slots, together) = total_of(figures).ok_or(NO_TRACE_LINE)?;
        let spent = spent(&self.events, self.ids.len());
        let sum = spent.get(self.totals.len()).copied().unwrap_or_else(|| spent.iter().copied().sum());
        if slots != sum || together != sum.together() {
            return Err("the slots of the lines before add up to another number".to_string());
        }
        self.totals.push(slots);
        Ok(())
    }

    /// Whose slots are the next: those of the bases in turn, then those of all.
    fn next_total(&self) -> Option<String> {
        match self.totals.len().cmp(&self.ids.len()) {
            _ if !self.has_ids() => None,
            Ordering::Less => Some(format!("base {}", self.totals.len() + 1)),
            Ordering::Equal => Some("all bases".to_string()),
            Ordering::Greater => None,
        }
    }

    /// The report's lines.
    fn take_end(&mut self, line: &str) -> Option<()> {
        let words: Vec<&str> = line.split(' ').collect();
        match words[..] {
            ["base", b, ref state @ ..] if self.has_ids() => {
                let in_turn = self.report.len() < self.ids.len() && b.parse() == Ok(self.report.len() + 1);
                self.report.push(state_of(state, self.ids.len())?);
                return in_turn.then_some(());
            }
            // The messages that wait between two bases; the report has their number.
            ["waiting", ref pair @ ..] if pair.first() == Some(&"from") && self.has_ids() && self.totals.is_empty() => {
                self.pairs.push(pair.join(" ").replace(", by number:", ":"));
            }
            ["waiting", waiting] if self.has_ids() && self.report.len() == self.ids.len() => {
                let (bases, pairs) = (std::mem::take(&mut self.report), std::mem::take(&mut self.pairs));
                self.end = Some(End::Report { bases, slots: *self.totals.last()?, waiting: waiting.parse().ok()?, pairs });
            }
            _ => return None,
        }
        Some(())
    }

    fn event_is_whole(&self) -> Taken {
        let Some(event) = self.events.last() else { return Ok(()) };
        let whole = if event.cause == Cause::Start { event.told.len() > 1 } else { event.hearing.is_some() };
        whole.then_some(()).ok_or_else(|| format!("what line {} of the schedule did is missing before", event.line))?;
        // Before a refused line no total would tell.
        let counted = event.slots.is_some() || event.broadcasts.is_empty();
        counted.then_some(()).ok_or_else(|| format!("the slots of line {} of the schedule are missing before", event.line))
    }

    fn has_ids(&self) -> bool {
        self.net.is_some_and(|net| net.n == self.ids.len())
    }

    fn base(&self, word: &str) -> Option<usize> {
        word.parse().ok().filter(|b| (1..=self.ids.len()).contains(b))
    }

    fn finish(self, refused: Option<End>) -> Result<Trace, String> {
        if refused.is_some() {
            self.event_is_whole()?;
        }
        let end = refused.filter(|_| self.totals.is_empty()).or(self.end).ok_or("the trace ends without a report or a refusal")?;
        let last_line = if let End::Refused { line, .. } = end { line } else { self.lines };
        Ok(Trace { last_line, net: self.net, ids: self.ids, faulty: self.faulty, events: self.events, end })
    }
}

/// What follows `base B`. A line that is none of these is told besides.
fn take_outcome(event: &mut Event, net: Net, rest: &str) -> Option<()> {
    if let Some(heard) = rest.strip_prefix("hears ") {
        let hearing = hearing_of(heard, event.from()?, net.n)?;
        return event.hearing.replace(hearing).is_none().then_some(());
    }
    if let Some(slots) = rest.strip_prefix("slots of this line: ") {
        return event.slots.replace(slots_of(slots)?).is_none().then_some(());
    }
    if rest.contains(" check") {
        event.check = Some(check_of(rest)?);
        return Some(());
    }
    let words: Vec<&str> = rest.split(' ').collect();
    match words[..] {
        ["starts"] => event.starts = true,
        ["broadcasts", number, ref message @ ..] => {
            let number = number.strip_suffix(':')?.parse().ok()?;
            event.broadcasts.push(Broadcast { number, message: message_of(message, net.n)? });
        }
        // Up to the comma: a row has little room, and the trace's own words are shown besides.
        ["sends", "no", "Verify-Final:", ref why @ ..] => event.withheld = why.join(" ").split(',').next().map(str::to_string),
        ["stops:", ref state @ ..] => match state_of(state, net.n)? {
            State::Stopped(stop) => event.stop = Some(stop),
            _ => return None,
        },
        _ => {}
    }
    Some(())
}

/// `Announce 500 from base 1 on link 1: accepted`; a forgery may be heard `as if from base 1`.
fn hearing_of(heard: &str, from: usize, n: usize) -> Option<Hearing> {
    let (message, rest) = heard.split_once(" from base ")?;
    let (sender, rest) = rest.split_once(" on link ")?;
    let (link, outcome) = rest.split_once(": ")?;
    let words: Vec<&str> = message.trim_end_matches(" as if").split(' ').collect();
    let message = message_of(&words, n)?;
    let burst = matches!(message, Message::Bytes(_));
    let outcome = match outcome.split_once(", ").unwrap_or((outcome, "")) {
        ("accepted", besides) if !burst => accepted(besides, n),
        ("discarded", why) if !burst => Outcome::Discarded(why.to_string()),
        (refused, why) if burst => {
            let number: usize = refused.strip_prefix("refused by ")?.parse().ok()?;
            Outcome::Refused(format!("{number}, {why}"))
        }
        _ => return None,
    };
    let placed = sender.parse() == Ok(from) && link.parse::<usize>().is_ok();
    placed.then_some(Hearing { message, outcome })
}

/// `in place of the link's Verify-Final of 300 500`: the vote apart, as its list has a short name.
fn accepted(besides: &str, n: usize) -> Outcome {
    let vote = |list: &str| list_of(&list.split(' ').collect::<Vec<_>>(), n).map(Message::VerifyFinal);
    match besides.split_once(" Verify-Final of ").and_then(|(before, list)| Some((before, vote(list)?))) {
        Some((before, vote)) => Outcome::Accepted { besides: before.to_string(), replaced: Some(vote) },
        None => Outcome::Accepted { besides: besides.to_string(), replaced: None },
    }
}

fn message_of(words: &[&str], n: usize) -> Option<Message> {
    match *words {
        ["Announce", id] => Some(Message::Announce(id.parse().ok()?)),
        ["Verify", id] => Some(Message::Verify(id.parse().ok()?)),
        ["Correct-Final", ref list @ ..] => Some(Message::CorrectFinal(list_of(list, n)?)),
        ["Verify-Final", ref list @ ..] => Some(Message::VerifyFinal(list_of(list, n)?)),
        [length, "bytes" | "byte"] => Some(Message::Bytes(length.parse().ok()?)),
        _ => None,
    }
}

fn list_of(words: &[&str], n: usize) -> Option<Vec<u32>> {
    let list: Vec<u32> = words.iter().map(|word| word.parse().ok()).collect::<Option<_>>()?;
    (list.len() == n).then_some(list)
}

/// `idle`, `running`, `prime LIST leader ID` or `secondary LIST leader ID`
fn state_of(words: &[&str], n: usize) -> Option<State> {
    match *words {
        ["idle"] => Some(State::Idle),
        ["running"] => Some(State::Running),
        [kind @ ("prime" | "secondary"), ref list @ .., "leader", leader] => {
            Some(State::Stopped(Stop { prime: kind == "prime", list: list_of(list, n)?, leader: leader.parse().ok()? }))
        }
        _ => None,
    }
}

/// `own 2, relayed 1`, each small enough that no sum of them overflows
fn slots_of(text: &str) -> Option<Slots> {
    let (own, relayed) = text.strip_prefix("own ")?.split_once(", relayed ")?;
    let [own, relayed] = [own, relayed].map(|word| word.parse::<u32>().ok().map(u64::from));
    Some(Slots { own: own?, relayed: relayed? })
}

/// `own 4, relayed 1, together 5`
fn total_of(text: &str) -> Option<(Slots, u64)> {
    let (slots, together) = text.split_once(", together ")?;
    Some((slots_of(slots)?, together.parse().ok()?))
}

fn slots_expected(whose: &str) -> String {
    format!("the slots of {whose} are expected")
}

/// The figures of a check, each behind its word; the thresholds are the net's, and the picture shows them once, over the figures.
fn check_of(text: &str) -> Option<Check> {
    let plain = text.replace([',', ':', ';'], "");
    let words: Vec<&str> = plain.split(' ').collect();
    let figure = |name: &str| words.windows(2).find(|two| two[0] == name).and_then(|two| two[1].parse().ok());
    match words[0] {
        "prime" => Some(Check::Prime { certified: figure("certified")?, sum: figure("sum")?, suspects: figure("suspects")? }),
        "secondary" => Some(Check::Secondary { tally: figure("tally")?, correct_finals: figure("Correct-Finals")? }),
        _ => None,
    }
}
