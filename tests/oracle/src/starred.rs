//! Document 01's starred cases, its slips and its worked example, each as calls from an idle record with a stored expectation; and the two
//! stored histories of twelve and of sixteen bases.

use crate::airtime::Airtime;
use crate::base::Base;
use crate::checks::PrimeFigures;
use crate::engine::{Answer, Engine, Sent};
use crate::faults::Fault;
use crate::limits::{most_faulty, OUTPUT_ROOM, REPORT_ROOM};
use crate::message::Message;
use crate::record::RawBase;
use crate::schedule::render;
use crate::sixteen;
use crate::twelve;
use Message::{Announce, CorrectFinal, Verify, VerifyFinal};

/// Arrivals at a base of identifier 10 whose links announce 20, 30, 40, ...; the last one's answer, and what the record is before and
/// after it.
pub struct Starred {
    pub name: &'static str,
    pub n: usize,
    pub t: usize,
    pub arrivals: Vec<(usize, Message)>,
    pub answer: Answer,
    pub state: u8,
    pub before: Vec<Figure>,
    pub figures: Vec<Figure>,
}

/// A figure of the record.
pub enum Figure {
    Prime(PrimeFigures),
    ListTally(Vec<u32>, usize),
    Held { link: usize, count: usize },
}

pub const WORKED_EXAMPLE: &str =
    "net 2 0\nid 1 500\nid 2 300\nstart 1\nstart 2\ncarry 1 2 1\ncarry 1 2 2\ncarry 2 1 1\ncarry 2 1 2\ncarry 2 1 3\ncarry 1 2 3\n";
pub const WORKED_REPORT: &str = "base 1 prime 300 500 leader 500\nbase 2 prime 300 500 leader 500\nwaiting 2\n";

const RUNS_ON: Answer = Answer::Accepted(Sent::NOTHING);
const DISCARDED: Answer = Answer::Discarded(Sent::NOTHING);

/// The true list at n bases.
fn v(n: usize) -> Vec<u32> {
    (1..=n as u32).map(|i| 10 * i).collect()
}

/// Another list at n bases.
fn u(n: usize) -> Vec<u32> {
    (1..=n as u32).map(|i| 10 * i + 1).collect()
}

/// Four bases: every Announce, then every Verify but those missing (link, identifier).
fn four_certified(missing: &[(usize, u32)]) -> Vec<(usize, Message)> {
    let announces = (1..=3).map(|link| (link, Announce(10 * link as u32 + 10)));
    let verifies = (1..=3).flat_map(|link| v(4).into_iter().map(move |id| (link, id)));
    let verifies = verifies.filter(|pair| !missing.contains(pair)).map(|(link, id)| (link, Verify(id)));
    announces.chain(verifies).collect()
}

fn prime_case(name: &'static str, missing: &[(usize, u32)], answer: Answer, sum: usize, suspects: usize) -> Starred {
    let state = if answer == RUNS_ON { 1 } else { 2 };
    let figures = vec![Figure::Prime(PrimeFigures { certified: 4, sum, suspects })];
    Starred { name, n: 4, t: 1, arrivals: four_certified(missing), answer, state, before: Vec::new(), figures }
}

/// Vector messages at a base of n; the state and the tally of the true list that they end with.
fn vote_case(name: &'static str, n: usize, arrivals: Vec<(usize, Message)>, answer: Answer, (state, tally): (u8, usize)) -> Starred {
    let figures = vec![Figure::ListTally(v(n), tally)];
    Starred { name, n, t: most_faulty(n), arrivals, answer, state, before: Vec::new(), figures }
}

/// A link of one of four bases that holds `count` identifiers, one of them announced, when the last of them or one more comes.
fn list_case(name: &'static str, verifies: u32, answer: Answer, count: usize) -> Starred {
    let mut arrivals = vec![(1, Announce(20))];
    arrivals.extend((1..=verifies).map(|i| (1, Verify(100 + i))));
    Starred { name, n: 4, t: 1, arrivals, answer, state: 1, before: Vec::new(), figures: vec![Figure::Held { link: 1, count }] }
}

pub fn cases() -> Vec<Starred> {
    let mut cases = prime_cases();
    cases.extend(vote_cases());
    cases.extend(other_cases());
    cases
}

fn prime_cases() -> Vec<Starred> {
    let prime = Answer::Accepted(Sent::new([20, 0, 0], 3, 0));
    vec![
        prime_case("both Verifies of one pair missing: prime", &[(1, 30), (2, 20)], prime, 14, 1),
        prime_case("one Verify missing in each of two pairs: runs on", &[(1, 30), (2, 40)], RUNS_ON, 14, 2),
        prime_case("the same, an own pair among them: runs on", &[(1, 10), (2, 40)], RUNS_ON, 14, 2),
        prime_case("the same, two own pairs: runs on", &[(1, 10), (2, 10)], RUNS_ON, 14, 2),
        prime_case("three links lack the Verify of their own announced identifier: runs on", &[(1, 20), (2, 30), (3, 40)], RUNS_ON, 13, 0),
        prime_case("two links lack it: prime", &[(1, 20), (2, 30)], prime, 14, 0),
        prime_case("a Verify less than one pair and one of an announcer: runs on", &[(1, 30), (2, 20), (3, 40)], RUNS_ON, 13, 1),
    ]
}

fn vote_cases() -> Vec<Starred> {
    let correct = |link, n| (link, CorrectFinal(v(n)));
    let verify = |link, n| (link, VerifyFinal(v(n)));
    let other = |link, n| (link, VerifyFinal(u(n)));
    let (votes, stops) = (Answer::Accepted(Sent::new([28, 0, 0], 0, 4)), Answer::Accepted(Sent::new([28, 0, 0], 4, 0)));
    let both = Answer::Accepted(Sent::new([20, 20, 0], 3, 3));
    let mut falls = vote_case("Correct-Final V over Verify-Final U: U's tally falls", 4, vec![other(1, 4), other(2, 4)], RUNS_ON, (1, 1));
    falls.arrivals.push(correct(1, 4));
    falls.before.push(Figure::ListTally(u(4), 2));
    falls.figures.push(Figure::ListTally(u(4), 1));
    vec![
        vote_case("two Correct-Final V: secondary", 4, vec![correct(1, 4), correct(2, 4)], both, (3, 2)),
        vote_case("one and a Verify-Final V: runs on", 4, vec![correct(1, 4), verify(2, 4)], RUNS_ON, (1, 2)),
        vote_case("a Verify-Final V and one: runs on", 4, vec![verify(2, 4), correct(1, 4)], RUNS_ON, (1, 2)),
        vote_case("n = 6, t = 2: two Correct-Final V run on", 6, vec![correct(1, 6), correct(2, 6)], votes, (1, 2)),
        vote_case("the same and a Verify-Final V: secondary", 6, vec![correct(1, 6), correct(2, 6), verify(3, 6)], stops, (3, 3)),
        vote_case("both vector messages of a link count once", 6, vec![verify(1, 6), correct(1, 6), correct(2, 6)], votes, (1, 2)),
        vote_case("the same, its own last: count once", 6, vec![correct(2, 6), verify(1, 6), correct(1, 6)], votes, (1, 2)),
        vote_case("Correct-Final V over Verify-Final U: held", 4, vec![other(1, 4), correct(1, 4)], RUNS_ON, (1, 1)),
        falls,
    ]
}

fn other_cases() -> Vec<Starred> {
    let started = |answer, arrivals| Starred { name: "", n: 4, t: 1, arrivals, answer, state: 1, before: Vec::new(), figures: Vec::new() };
    vec![
        Starred { name: "own Announce arriving: discarded", ..started(DISCARDED, vec![(1, Verify(7)), (1, Announce(10))]) },
        Starred {
            name: "own Announce at an idle base: discarded, with the frames of its start",
            ..started(Answer::Discarded(Sent::new([8, 8, 0], 2, 0)), vec![(1, Announce(10))])
        },
        Starred {
            name: "a second Verify of one identifier from one link: discarded",
            ..started(DISCARDED, vec![(1, Verify(7)), (1, Verify(7))])
        },
        list_case("list at n: accepted", 4, RUNS_ON, 5),
        list_case("list at n + 1: discarded", 5, DISCARDED, 5),
    ]
}

/// The case on an engine: what comes out otherwise than it should, if anything.
pub fn wrong(case: &Starred, engine: &mut dyn Engine) -> Option<String> {
    let mut record = RawBase::BLANK;
    engine.idle(case.n, case.t, 10, &mut record);
    let (mut answer, mut before) = (Answer::Refused(0), None);
    for (link, message) in &case.arrivals {
        before = wrong_figures(&case.before, &record);
        answer = engine.arrive(&mut record, *link, &message.frame(), &mut [0; OUTPUT_ROOM]);
    }
    if answer != case.answer || record.state != case.state {
        return Some(format!("{answer:?} and state {}, expected {:?} and state {}", record.state, case.answer, case.state));
    }
    before.map(|what| format!("before the last arrival: {what}")).or_else(|| wrong_figures(&case.figures, &record))
}

fn wrong_figures(figures: &[Figure], record: &RawBase) -> Option<String> {
    match Base::admit(record, Fault::None) {
        Ok(base) => figures.iter().find_map(|figure| wrong_figure(figure, &base)),
        Err(number) => Some(format!("the record is refused by {number}")),
    }
}

fn wrong_figure(figure: &Figure, base: &Base) -> Option<String> {
    let (name, expected, found) = match figure {
        Figure::Prime(figures) => ("figures", format!("{figures:?}"), format!("{:?}", base.prime_figures())),
        Figure::ListTally(list, tally) => ("tally", tally.to_string(), base.list_tally(list).to_string()),
        Figure::Held { link, count } => ("identifiers held", count.to_string(), base.links[link - 1].identifiers_held().to_string()),
    };
    (expected != found).then(|| format!("{name} {found}, expected {expected}"))
}

/// Every case, the worked example, the history of reading (c), and that of the most slots, on an engine. True where all come out right.
pub fn run(engine: &mut dyn Engine) -> bool {
    let mut passed = true;
    let mut tell = |name: &str, wrong: Option<String>| {
        passed &= wrong.is_none();
        println!("{} {name}{}", if wrong.is_none() { "ok   " } else { "WRONG" }, wrong.map_or(String::new(), |what| format!(": {what}")));
    };
    for case in cases() {
        tell(case.name, wrong(&case, engine));
    }
    tell("the worked example", wrong_report(engine, WORKED_EXAMPLE, WORKED_REPORT));
    let list = (101..=112).map(|id| format!("{id} ")).collect::<String>();
    let line = |b: usize| format!("base {b} {} {list}leader 112\n", if b == 1 { "prime" } else { "secondary" });
    let report = (1..=12).map(line).collect::<String>() + "waiting 0\n";
    let schedule = render(&twelve::history(Fault::None).0);
    tell("the twelve bases of reading (c): all stop", wrong_report(engine, &schedule, &report));
    tell("sixteen bases, all but two of which take 35 slots", wrong_airtime(engine));
    passed
}

/// The first base that takes other slots than it should: own 2 and a list of 9; relayed 15 Verifies, and a list where it was not prime.
fn wrong_airtime(engine: &mut dyn Engine) -> Option<String> {
    let net = sixteen::history().0.as_scheduled(engine).1;
    let expected = |b: usize| Airtime { own: 11, relayed: if sixteen::PRIMES.contains(&b) { 15 } else { 24 } };
    let wrong = (1..=net.setting.n()).find(|&b| net.spent[b - 1] != expected(b));
    wrong.map(|b| format!("base {b} takes {}, expected {}", net.spent[b - 1], expected(b)))
}

fn wrong_report(engine: &mut dyn Engine, schedule: &str, expected: &str) -> Option<String> {
    let mut out = [0; REPORT_ROOM];
    let length = engine.replay(schedule.as_bytes(), &mut out);
    let report = String::from_utf8_lossy(&out[..length]);
    (report != expected).then(|| format!("printed {report:?}"))
}

#[cfg(test)]
mod tests {
    use super::*;
    use crate::model::Model;

    #[test]
    fn starred_cases_hold_of_the_model() {
        assert!(run(&mut Model::TRUE.clone()));
    }

    /// Each slip that document 01 names is shut out by the table alone.
    #[test]
    fn slips_fail_the_table() {
        let slips = [
            Fault::VerifyCountedTwice,
            Fault::OwnPairsSkipped,
            Fault::BothVectorMessagesCounted,
            Fault::TForTPlusOne,
            Fault::NoSumTest,
            Fault::ReadingCOff,
            Fault::ListFullAtN,
            Fault::ListFullAtNPlusTwo,
            Fault::OwnAnnounceAccepted,
            Fault::SuspectsUpToTPlusOne,
        ];
        for fault in slips {
            assert!(cases().iter().any(|case| wrong(case, &mut Model { fault }).is_some()), "{fault:?}");
        }
    }
}
