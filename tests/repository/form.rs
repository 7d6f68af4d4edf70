//! The form of the files: lines that fit a page, functions that fit a screen, no path of one machine; and README's map of the crates.

use crate::files::{below, crates, text_of, File};
use crate::tables::{backticked, tables};
use std::collections::BTreeSet;

const WIDEST_LINE: usize = 140;
const LONGEST_FUNCTION: usize = 39;

/// Written by people, line by line. A script has no ending, and begins with `#!/`. crates.txt is none of them: it has a line a crate.
const LANGUAGES: [&str; 8] = [".rt", ".antt", ".rs", ".c", ".h", ".edit", ".about", ".md"];
const FOLDERS: [&str; 8] = [".ci", "crates", "docs", "examples", "include", "schedules", "tests", "tools"];

pub fn check() -> Result<String, Vec<String>> {
    let mut wrong = map().unwrap_or_else(|error| vec![error]);
    let (mut lines, mut functions) = (0, 0);
    let files = every_file();
    for file in files.iter().filter(|file| is_written(file)) {
        lines += file.text.lines().count();
        wrong.extend(wide_lines(file));
        let code = file.path.ends_with(".rt") || file.path.ends_with(".rs");
        for (line, length) in functions_of(&file.text).into_iter().filter(|_| code) {
            functions += 1;
            if length > LONGEST_FUNCTION {
                wrong.push(format!("{}:{line}: a function of {length} lines", file.path));
            }
        }
    }
    wrong.extend(machine_paths(&files));
    match wrong.is_empty() {
        true => {
            Ok(format!("{lines} lines to {WIDEST_LINE} characters, {functions} functions to {LONGEST_FUNCTION} lines, a map of all crates"))
        }
        false => Err(wrong),
    }
}

/// The repository's files: those of its folders, and the two at its top.
fn every_file() -> Vec<File> {
    let top = ["README.md", "crates.txt"].map(|path| File { path: path.to_string(), text: text_of(path).unwrap_or_default() });
    FOLDERS.iter().flat_map(|folder| below(folder, "")).chain(top).collect()
}

fn is_written(file: &File) -> bool {
    LANGUAGES.iter().any(|ending| file.path.ends_with(ending)) || file.text.starts_with("#!/")
}

/// A row of a table in a page, and what a program prints, between fences there, cannot be broken.
fn wide_lines(file: &File) -> Vec<String> {
    let page = file.path.ends_with(".md");
    let (mut fenced, mut found) = (false, Vec::new());
    for (i, line) in file.text.lines().enumerate() {
        fenced ^= page && line.starts_with("```");
        let width = line.chars().count();
        if width > WIDEST_LINE && !fenced && !(page && line.starts_with('|')) {
            found.push(format!("{}:{}: {width} characters", file.path, i + 1));
        }
    }
    found
}

/// Where each function begins, and its lines: from its name to the bracket that closes it, with its contract.
fn functions_of(text: &str) -> Vec<(usize, usize)> {
    let mut found = Vec::new();
    let mut open: Option<(usize, String)> = None;
    for (i, line) in text.lines().enumerate() {
        let code = line.trim_start();
        let indent = &line[..line.len() - code.len()];
        let named = code
            .split_once("fn ")
            .is_some_and(|(before, _)| before.is_empty() || before.starts_with("pub") || before.starts_with("extern"));
        match &open {
            None if named && !code.ends_with(';') => open = Some((i, format!("{indent}}}"))),
            Some((begin, close)) if line == close => {
                found.push((begin + 1, i - begin + 1));
                open = None;
            }
            _ => {}
        }
    }
    found
}

/// The first cells of README's map name the crates that crates.txt lists, each once, and none before a crate that it stands on.
fn map() -> Result<Vec<String>, String> {
    let readme = text_of("README.md")?;
    let map = readme.split_once("## The map").and_then(|(_, rest)| rest.split("\n## ").next()).ok_or("README.md has no map")?;
    let rows: Vec<Vec<&str>> = tables(map).iter().flat_map(|table| &table.rows).map(|cells| backticked(cells[0]).collect()).collect();
    let place = |name: &str| rows.iter().position(|row| row.contains(&name));
    let crates = crates()?;
    let mut wrong = Vec::new();
    for (name, stands_on) in &crates {
        let Some(here) = place(name) else {
            wrong.push(format!("README's map has no crate {name}"));
            continue;
        };
        let below = stands_on.iter().filter(|other| place(other).is_some_and(|there| there > here));
        wrong.extend(below.map(|other| format!("README's map has {name} before {other}, on which it stands")));
    }
    let named: Vec<&str> = rows.into_iter().flatten().collect();
    let lost = named.iter().filter(|&&name| crates.iter().all(|(listed, _)| listed != name));
    wrong.extend(lost.map(|name| format!("README's map has a crate {name}, and crates.txt has not")));
    let once: BTreeSet<&str> = named.iter().copied().collect();
    wrong.extend((named.len() > once.len()).then(|| "README's map has a crate twice".to_string()));
    Ok(wrong)
}

/// The parts are put together here, so that this file has none.
fn machine_paths(files: &[File]) -> Vec<String> {
    let paths = ["work", "root", "home", "tmp", "opt"].map(|folder| format!("/{folder}/"));
    let named = |file: &File| paths.iter().find(|path| file.text.contains(*path)).map(|path| format!("{} names {path}", file.path));
    files.iter().filter_map(named).collect()
}
