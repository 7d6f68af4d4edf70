//! The harness's command line; see README.md beside Cargo.toml.

use oracle::engine::Engine;
use oracle::faults::Fault;
use oracle::model::Model;
use oracle::net::History;
use oracle::schedule::render;
use oracle::{bench, listed, replay, runner, sixteen, starred, stored, trace, twelve};
use std::io::Read;
use std::process::ExitCode;

const USAGE: &str =
    "usage: oracle [seconds] [seed] | faults [name] | starred | stored folder | trace program folder | listed program | bench
       oracle replay < schedule | twelve | airtime";

/// Schedules that are made for the trace program, beside the stored ones.
const MADE_FOR_THE_TRACE: usize = 300;

/// The engine under test: the linked one, or the model itself where none is linked.
#[cfg(feature = "linked")]
fn engine() -> Box<dyn Engine> {
    Box::new(oracle::linked::Linked)
}

#[cfg(not(feature = "linked"))]
fn engine() -> Box<dyn Engine> {
    Box::new(Model::TRUE)
}

fn main() -> ExitCode {
    let words: Vec<String> = std::env::args().skip(1).collect();
    let words: Vec<&str> = words.iter().map(String::as_str).collect();
    let passed = match words[..] {
        ["faults"] => runner::faults(1, None),
        ["faults", name] => runner::faults(1, Some(name)),
        ["starred"] => check_starred(),
        ["stored", folder] => stored::run(folder),
        ["trace", program, folder] => trace::run(program, folder, MADE_FOR_THE_TRACE, 1),
        ["listed", program] => listed::run(program),
        ["bench"] => bench::run(cfg!(feature = "linked").then_some(engine().as_mut())),
        ["replay"] => replay_input(),
        ["twelve"] => print_schedule(&twelve::history(Fault::None).0),
        ["airtime"] => print_schedule(&sixteen::history().0),
        [] => run("20", "1"),
        [seconds] => run(seconds, "1"),
        [seconds, seed] => run(seconds, seed),
        _ => usage(),
    };
    ExitCode::from(u8::from(!passed))
}

fn usage() -> bool {
    eprintln!("{USAGE}");
    false
}

fn run(seconds: &str, seed: &str) -> bool {
    let (Ok(seconds), Ok(seed)) = (seconds.parse(), seed.parse()) else { return usage() };
    runner::run(engine().as_mut(), seconds, seed)
}

/// The stored cases on the model, and on the linked engine.
fn check_starred() -> bool {
    let model = starred::run(&mut Model::TRUE.clone());
    let linked = !cfg!(feature = "linked") || starred::run(engine().as_mut());
    model && linked
}

/// The model's report of the schedule on standard input.
fn replay_input() -> bool {
    let mut schedule = Vec::new();
    if let Err(error) = std::io::stdin().read_to_end(&mut schedule) {
        eprintln!("{error}");
        return false;
    }
    print!("{}", replay::report(&schedule, Fault::None));
    true
}

fn print_schedule(history: &History) -> bool {
    print!("{}", render(history));
    true
}
