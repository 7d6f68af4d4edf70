//! The stored schedules: the model's report of each is the report stored beside it, and the schedule of the most airtime is the history of
//! `sixteen`.

use crate::faults::Fault;
use crate::replay;
use crate::schedule::render;
use crate::sixteen;
use std::fs;
use std::path::{Path, PathBuf};

/// So many schedules are stored. Where fewer are found, some are lost.
const FEWEST: usize = 124;

/// Every schedule below a folder, in order of its path.
pub fn schedules(folder: &Path) -> Vec<PathBuf> {
    let mut found = Vec::new();
    for path in fs::read_dir(folder).into_iter().flatten().flatten().map(|entry| entry.path()) {
        if path.is_dir() {
            found.extend(schedules(&path));
        } else if path.extension().is_some_and(|ending| ending == "txt") {
            found.push(path);
        }
    }
    found.sort();
    found
}

const MOST_AIRTIME: &str = "nets/sixteen_bases_most_airtime.txt";

/// True where every report and that history are as stored, and no schedule is missing.
pub fn run(folder: &str) -> bool {
    let paths = schedules(Path::new(folder));
    let wrong: Vec<String> = paths.iter().filter_map(|path| difference(path)).chain(other_history(Path::new(folder))).collect();
    wrong.iter().for_each(|what| println!("{what}"));
    println!("{} stored schedules, {FEWEST} at least, {} other than the model has them", paths.len(), wrong.len());
    wrong.is_empty() && paths.len() >= FEWEST
}

fn read(path: &Path) -> Result<Vec<u8>, String> {
    fs::read(path).map_err(|error| format!("{}: {error}", path.display()))
}

fn other_history(folder: &Path) -> Option<String> {
    match read(&folder.join(MOST_AIRTIME)) {
        Ok(stored) if stored == render(&sixteen::history().0).as_bytes() => None,
        Ok(_) => Some(format!("{MOST_AIRTIME}: the model has another history")),
        Err(error) => Some(error),
    }
}

fn difference(path: &Path) -> Option<String> {
    let reports = read(path).and_then(|schedule| Ok((replay::report(&schedule, Fault::None), read(&path.with_extension("report"))?)));
    match reports {
        Ok((ours, stored)) if ours.as_bytes() == stored => None,
        Ok((ours, _)) => Some(format!("{}: the model reports {ours:?}", path.display())),
        Err(error) => Some(error),
    }
}
