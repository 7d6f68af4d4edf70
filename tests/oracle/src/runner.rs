//! Runs cases against an engine, counts what was tried, and tells a difference as short as it can be told.

use crate::airtime;
use crate::case::Case;
use crate::engine::Engine;
use crate::faults::Fault;
use crate::limits::{FEWEST_BASES, MOST_BASES};
use crate::model::Model;
use crate::plan;
use crate::reach::{Reach, LEAST, SECONDS, STATES};
use crate::rng::Rng;
use crate::schedule::render;
use crate::shrink::shrink;
use std::collections::BTreeMap;
use std::fs;
use std::path::PathBuf;
use std::time::{Duration, Instant};

/// What a run has tried so far.
#[derive(Default)]
pub struct Tried {
    kinds: BTreeMap<&'static str, u64>,
    events: u64,
    reach: Reach,
}

impl Tried {
    fn count(&mut self, case: &Case) {
        *self.kinds.entry(case.kind()).or_default() += 1;
        if let Case::History(history) = case {
            self.events += history.events.len() as u64;
        }
    }

    fn total(&self) -> u64 {
        self.kinds.values().sum()
    }

    fn print(&self) {
        println!("tried:");
        for (kind, count) in &self.kinds {
            println!("  {count:>10}  {kind}");
        }
        println!("  {:>10}  events in histories", self.events);
        println!("states reached in histories:");
        for state in STATES {
            println!("  {:>10}  {state}", self.reach.count(state));
        }
        println!("most slots of a base's life:");
        for n in FEWEST_BASES..=MOST_BASES {
            let (seen, lives) = self.reach.most_seen(n);
            println!("  {seen:>10}  of at most {}, n = {n}, in {lives} lives", airtime::bound(n).together());
        }
    }
}

/// The endless row from a place on.
fn row(seed: u64, from: u64) -> impl Iterator<Item = Case> {
    (from..).map(move |place| plan::at(seed, place))
}

/// The first case in which the engine differs, with what differs.
fn search(
    engine: &mut dyn Engine,
    cases: impl Iterator<Item = Case>,
    time: Duration,
    tried: &mut Tried,
    progress: bool,
) -> Option<(Case, String)> {
    let begin = Instant::now();
    let mut told = begin;
    for case in cases {
        tried.count(&case);
        if let Some(what) = case.run(engine, &mut tried.reach) {
            return Some((case, what));
        }
        if progress && told.elapsed() > Duration::from_secs(2) {
            told = Instant::now();
            let histories = tried.kinds.get("histories").unwrap_or(&0);
            eprintln!(
                "{:>4} s: {} cases, {histories} histories of {} events, no difference",
                begin.elapsed().as_secs(),
                tried.total(),
                tried.events
            );
        }
        if begin.elapsed() > time {
            return None;
        }
    }
    None
}

/// The run of the command line. True where no difference was found, and a run that is long enough came to every state often enough.
pub fn run(engine: &mut dyn Engine, seconds: u64, seed: u64) -> bool {
    println!("{} against the model, {seconds} s, seed {seed}", engine.name());
    let mut tried = Tried::default();
    let cases = plan::sweep(&mut Rng::new(seed)).into_iter().chain(row(seed, 0));
    let found = search(engine, cases, Duration::from_secs(seconds), &mut tried, true);
    tried.print();
    match found {
        None => {
            let missed = if seconds < SECONDS { Vec::new() } else { tried.reach.missed() };
            missed.iter().for_each(|state| println!("REACHED LESS THAN {LEAST} TIMES: {state}"));
            println!("no difference in {} cases", tried.total());
            missed.is_empty()
        }
        Some((case, what)) => {
            println!("DIFFERENCE after {} cases, of {}: {what}", tried.total(), case.kind());
            tell_shortened(&case, engine, seed);
            false
        }
    }
}

/// Prints the shortened case, and stores it: a history or a schedule as a schedule file, any other call in words.
fn tell(case: &Case, engine: &mut dyn Engine, seed: u64) {
    let what = case.run(engine, &mut Reach::default()).unwrap_or_default();
    let (ending, bytes) = match case {
        Case::History(history) => ("schedule", render(history).into_bytes()),
        Case::Replay { schedule, .. } | Case::FaultyText { schedule, .. } => ("schedule", schedule.clone()),
        call => ("call", format!("{call:#?}\n").into_bytes()),
    };
    println!("shortened: {what}");
    let path = PathBuf::from(format!("target/difference-{seed}.{ending}"));
    let stored = fs::create_dir_all("target").and_then(|()| fs::write(&path, &bytes));
    match stored {
        Ok(()) => println!("stored as {}", path.display()),
        Err(error) => println!("not stored as {}: {error}", path.display()),
    }
    if bytes.len() < 4000 {
        println!("{}", String::from_utf8_lossy(&bytes));
    }
}

/// The case, shortened. A difference in a lone call on a base, or in a life, is looked for in histories too, since a schedule can be
/// replayed.
fn tell_shortened(case: &Case, engine: &mut dyn Engine, seed: u64) {
    tell(&shrink(case, engine), engine, seed);
    let of_sets = matches!(case, Case::FaultyCount { .. } | Case::FaultySet { .. } | Case::FaultyText { .. });
    if of_sets || matches!(case, Case::History(_) | Case::Replay { .. }) {
        return;
    }
    let cases = row(seed, 0).filter(|case| matches!(case, Case::History(_)));
    match search(engine, cases, Duration::from_secs(10), &mut Tried::default(), false) {
        Some((case, _)) => tell(&shrink(&case, engine), engine, seed),
        None => println!("no history with a difference was found in ten seconds"),
    }
}

/// Every seeded fault against the true model. True where each was caught.
pub fn faults(seed: u64, only: Option<&str>) -> bool {
    let begin = Instant::now();
    let mut missed = 0;
    let common = 1000;
    let made: Vec<Case> = plan::sweep(&mut Rng::new(seed)).into_iter().chain(row(seed, 0).take(common)).collect();
    let all: Vec<Fault> = Fault::all().into_iter().filter(|fault| only.is_none_or(|name| fault.name() == name)).collect();
    for &fault in &all {
        let mut tried = Tried::default();
        let mut engine = Model { fault };
        let at = Instant::now();
        let cases = made.iter().cloned().chain(row(seed, common as u64));
        match search(&mut engine, cases, Duration::from_secs(20), &mut tried, false) {
            Some((case, what)) => {
                let what: String = what.chars().take(110).collect();
                println!(
                    "caught {:<34} {:>6} cases {:>5} ms  {}: {what}",
                    fault.name(),
                    tried.total(),
                    at.elapsed().as_millis(),
                    case.kind()
                );
                if only.is_some() {
                    tell_shortened(&case, &mut engine, seed);
                }
            }
            None => {
                missed += 1;
                println!("MISSED {}: {}", fault.name(), fault.says());
            }
        }
    }
    println!("{} faults, {missed} missed, {:.1} s", all.len(), begin.elapsed().as_secs_f64());
    missed == 0 && !all.is_empty()
}
