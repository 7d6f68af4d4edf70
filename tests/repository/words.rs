//! The refusal numbers: docs/RULES.md has the words of each, which the header, the constants of the code, the trace and the picture say
//! too; and the definition and the function that give it, which are there.

use crate::antt::modules;
use crate::files::text_of;
use crate::tables::{backticked, tables};
use std::collections::BTreeMap;

const PAGE: &str = "docs/RULES.md";

/// A schedule's lines are refused by the numbers up to this one; the trace says no other.
const OF_A_SCHEDULE: usize = 18;

/// A number, and how some file names it and says it.
struct Said {
    number: Option<usize>,
    name: String,
    words: String,
}

/// The name and the words of each number.
type Table = BTreeMap<usize, (String, String)>;

pub fn check() -> Result<String, Vec<String>> {
    let table = table().map_err(|error| vec![error])?;
    let mut wrong = Vec::new();
    let sources = [
        ("include/roster.h", header(), table.len()),
        ("crates/limits/src/refusal.rt", constants(), table.len()),
        ("the trace", meanings(), OF_A_SCHEDULE),
        ("the picture", arms("tools/hillpicture/refusals.rs"), 9),
    ];
    for (source, said, fewest) in sources {
        let said = said.unwrap_or_else(|error| {
            wrong.push(error);
            Vec::new()
        });
        if said.len() < fewest {
            wrong.push(format!("{source} says {} numbers, expected {fewest}", said.len()));
        }
        wrong.extend(said.iter().filter_map(|one| differs(&table, one)).map(|what| format!("{source}: {what}")));
    }
    match wrong.is_empty() {
        true => Ok(format!("{} numbers, said alike in {PAGE}, the header, the code, the trace and the picture", table.len())),
        false => Err(wrong),
    }
}

/// Each definition and each function that the table names is there.
pub fn check_places() -> Result<String, Vec<String>> {
    let page = text_of(PAGE).map_err(|error| vec![error])?;
    let modules = modules();
    let (mut named, mut wrong) = (0, Vec::new());
    for cells in rows(&page) {
        let [.., definitions, code] = cells[..] else { continue };
        let names: Vec<&str> = backticked(definitions).collect();
        for pair in names.chunks(2) {
            let there = modules.get(&format!("{}.antt", pair[pair.len() - 1]));
            let defined = there.is_some_and(|module| module.items.iter().any(|item| item.defines && item.name == pair[0]));
            wrong.extend((!defined).then(|| format!("{}: {PAGE} names a definition that is not there: {}", cells[0], pair.join(" of "))));
        }
        let functions: Vec<&str> = backticked(code).collect();
        let lost = functions.iter().filter(|call| !is_function(call));
        wrong.extend(lost.map(|call| format!("{}: {PAGE} names a function that is not there: {call}", cells[0])));
        named += names.len() / 2 + functions.len();
    }
    match wrong.is_empty() && named > 0 {
        true => Ok(format!("{named} definitions and functions of {PAGE}'s numbers are there")),
        false => Err(wrong),
    }
}

/// `CRATE::FUNCTION` or `CRATE::MODULE::FUNCTION`
fn is_function(call: &str) -> bool {
    let path: Vec<&str> = call.split("::").collect();
    let [krate, modules @ .., name] = &path[..] else { return false };
    let file = if modules.is_empty() { "lib".to_string() } else { modules.join("/") };
    text_of(&format!("crates/{krate}/src/{file}.rt")).is_ok_and(|text| text.contains(&format!("fn {name}(")))
}

/// The rows of the tables whose first head is `Number`: number, name in the code, words, who gives it, definition, code.
fn rows(page: &str) -> Vec<Vec<&str>> {
    tables(page).into_iter().filter(|table| table.heads[0] == "Number").flat_map(|table| table.rows).collect()
}

fn table() -> Result<Table, String> {
    let page = text_of(PAGE)?;
    let numbered = rows(&page).into_iter();
    let said = |cells: &[&str]| (backticked(cells[1]).next().unwrap_or_default().to_string(), plain(cells[2]));
    let table: Table = numbered.filter_map(|cells| Some((cells[0].parse().ok()?, said(&cells)))).collect();
    match table.keys().copied().eq(1..=table.len()) && !table.is_empty() {
        true => Ok(table),
        false => Err(format!("{PAGE} has not each number once")),
    }
}

fn differs(table: &Table, said: &Said) -> Option<String> {
    let Some(number) = said.number else {
        let known = table.values().any(|(_, words)| *words == said.words);
        return (!known).then(|| format!("\"{}\" stands at no number of {PAGE}", said.words));
    };
    let Some((name, words)) = table.get(&number) else { return Some(format!("{PAGE} has no number {number}")) };
    let named = said.name.is_empty() || said.name == *name;
    (!named || said.words != *words).then(|| format!("{number} is {} \"{}\", and {PAGE} has {name} \"{words}\"", said.name, said.words))
}

/// `ROSTER_REFUSAL_NAME = 1, /* words */`
fn header() -> Result<Vec<Said>, String> {
    let text = text_of("include/roster.h")?;
    let mut found = Vec::new();
    for line in text.lines() {
        let Some((name, rest)) = line.trim_start().strip_prefix("ROSTER_REFUSAL_").and_then(|rest| rest.split_once(" = ")) else {
            continue;
        };
        let number = rest.split(',').next().and_then(|number| number.trim().parse().ok());
        let words = rest.split_once("/*").and_then(|(_, rest)| rest.split_once("*/")).map_or("", |(words, _)| words);
        found.push(Said { number, name: name.to_string(), words: plain(words) });
    }
    Ok(found)
}

/// `// Words.` over `pub const NAME: u8 = 1;`
fn constants() -> Result<Vec<Said>, String> {
    let text = text_of("crates/limits/src/refusal.rt")?;
    let mut found = Vec::new();
    let mut comment = String::new();
    for line in text.lines() {
        if let Some(words) = line.strip_prefix("// ") {
            comment = words.to_string();
        } else if let Some((name, rest)) = line.strip_prefix("pub const ").and_then(|rest| rest.split_once(": u8 = ")) {
            found.push(Said { number: rest.trim_end_matches(';').parse().ok(), name: name.to_string(), words: plain(&comment) });
        }
    }
    Ok(found)
}

/// The arms of the trace: each number in its order, and no words for any other.
fn meanings() -> Result<Vec<Said>, String> {
    let file = "crates/cause_text/src/meanings.rt";
    let mut found = arms(file)?;
    let all_said = text_of(file)?.matches(" => ").count() == found.len();
    let other = found.pop().filter(|last| last.number.is_none() && last.words.is_empty());
    let in_order = found.iter().map(|said| said.number).eq((1..=OF_A_SCHEDULE).map(Some));
    match all_said && other.is_some() && in_order {
        true => Ok(found),
        false => Err(format!("{file} has not each number in its order, and no words for others")),
    }
}

/// `7 => .. "words" ..`
fn arms(file: &str) -> Result<Vec<Said>, String> {
    let text = text_of(file)?;
    let mut found = Vec::new();
    for (key, rest) in text.lines().filter_map(|line| line.trim_start().split_once(" => ")) {
        let Some(words) = rest.split('"').nth(1) else { continue };
        found.push(Said { number: key.parse().ok(), name: String::new(), words: plain(words) });
    }
    Ok(found)
}

/// Without a capital at the beginning, a full stop at the end and signs that not every file has.
fn plain(words: &str) -> String {
    let words = words.trim().trim_end_matches('.').replace(['×', '*'], "x").replace('−', "-");
    let mut chars = words.chars();
    chars.next().map_or(String::new(), |first| first.to_lowercase().chain(chars).collect())
}
