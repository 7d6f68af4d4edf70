//! The program `hillfaults`: what it writes of each first line that a run sweeps over is what the model lists.

use crate::case::Case;
use crate::faults::Fault;
use crate::faulty;
use crate::generate;
use crate::trace::written;
use std::collections::BTreeSet;

/// True where the program writes what the model lists.
pub fn run(program: &str) -> bool {
    let texts: BTreeSet<Vec<u8>> = generate::faulty::sweep().into_iter().filter_map(text_of).collect();
    let wrong: Vec<String> = texts.iter().filter_map(|text| difference(program, text)).collect();
    wrong.iter().for_each(|what| println!("{what}"));
    println!("{} first lines through {program}, {} listed otherwise than by the model", texts.len(), wrong.len());
    wrong.is_empty() && !texts.is_empty()
}

fn text_of(case: Case) -> Option<Vec<u8>> {
    match case {
        Case::FaultyText { schedule, .. } => Some(schedule),
        _ => None,
    }
}

fn difference(program: &str, text: &[u8]) -> Option<String> {
    let ours = faulty::lines(text, Fault::None);
    match written(program, text) {
        Ok(theirs) if theirs == ours => None,
        Ok(theirs) => Some(format!("{:?}: {ours:?} by the model, {theirs:?} by {program}", String::from_utf8_lossy(text))),
        Err(error) => Some(error),
    }
}
