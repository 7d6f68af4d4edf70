//! The repository's files, by paths from its top.

use std::fs;
use std::path::Path;

pub struct File {
    pub path: String,
    pub text: String,
}

/// The file's text, or what is wrong.
pub fn text_of(path: &str) -> Result<String, String> {
    fs::read_to_string(path).map_err(|error| format!("{path}: {error}"))
}

/// Every file below a folder whose name has that ending, in order of its path, but for what rt made. A folder that is not there has none.
pub fn below(folder: &str, ending: &str) -> Vec<File> {
    let mut found = Vec::new();
    walk(Path::new(folder), ending, &mut found);
    found.sort_by(|one, other| one.path.cmp(&other.path));
    found
}

fn walk(folder: &Path, ending: &str, found: &mut Vec<File>) {
    let Ok(entries) = fs::read_dir(folder) else { return };
    for path in entries.flatten().map(|entry| entry.path()) {
        if path.is_dir() {
            if !is_made(&path) {
                walk(&path, ending, found);
            }
        } else if path.to_string_lossy().ends_with(ending) {
            if let Ok(text) = fs::read_to_string(&path) {
                found.push(File { path: path.to_string_lossy().into_owned(), text });
            }
        }
    }
}

/// `crates/NAME/out`
fn is_made(folder: &Path) -> bool {
    let parts: Vec<&str> = folder.iter().filter_map(|part| part.to_str()).collect();
    matches!(parts[..], ["crates", _, "out"])
}

/// The names that crates.txt lists, each with what it stands on: `NAME: ..`, or `NAME staticlib: ..`.
pub fn crates() -> Result<Vec<(String, Vec<String>)>, String> {
    let text = text_of("crates.txt")?;
    let lines = text.lines().filter(|line| !line.starts_with('#')).filter_map(|line| line.split_once(':'));
    let name = |head: &str| head.split_whitespace().next().unwrap_or_default().to_string();
    Ok(lines.map(|(head, others)| (name(head), others.split_whitespace().map(str::to_string).collect())).collect())
}

pub fn crate_names() -> Result<Vec<String>, String> {
    Ok(crates()?.into_iter().map(|(name, _)| name).collect())
}

/// `crates/NAME/specs/X.antt` without its first folder.
pub fn below_crates(path: &str) -> &str {
    path.strip_prefix("crates/").unwrap_or(path)
}
