//! Every must-fail edit stands in a table of the papers, and every edit named there exists. None is refused by a mere misfit.
//!
//! In docs/PROMISES.md a table whose last head speaks of wrong programs or definitions has a crate in each row's first cell (`CRATE::..`)
//! and its edits in the last; a part of that cell, between semicolons, names another crate in brackets at its end. In docs/AGREEMENT.md a
//! table of edits has one of `protocol` in each row.

use crate::files::{below, text_of};
use crate::tables::{backticked, tables};
use std::collections::{BTreeMap, BTreeSet};

/// A crate and the name of an edit of it.
type Edit = (String, String);

/// What `rt ci` printed when `tests/all` ran it last: of each edit one line, `rt: must-fail CRATE/NAME.edit: ..`. It has the first point at
/// which the edit is refused, and not what else is.
const LOG: &str = "target/tests/ci.log";

/// How that line goes on where the edit is refused.
const REFUSED: &str = "refused, as it must be";

/// What rt adds where nothing but the names in proof files is refused: the edit changed the code's shape, and shows nothing.
const NAMES_ALONE: &str = "only because a proof file names what the edit took away";

/// What the prover says of a proof that no longer fits the code, where the edit changed the code's shape, and of a name that is nowhere.
/// Such an edit shows nothing.
const MISFITS: [&str; 6] =
    ["has no field", "has no `", "is not in scope", "is applied to an argument", "give that argument by adding", "was not determined"];

/// What a step of a proof says that finds nothing to rewrite in the goal. Where every step that is refused says so, no goal was left open,
/// and the edit shows nothing either. The log has the first step alone, so one that says so has to be looked at.
const NO_PLACE: [&str; 2] = ["no occurrence of", "no equation of the list has an instance"];

/// Looked at: the steps behind the first leave goals open.
const GOALS_BEHIND: [(&str, &str); 1] = [("limits", "one_base")];

/// What stands on a declaration that is refused is refused with it.
const FOLLOWS: [&str; 2] = ["was not admitted", "which was rejected"];

pub fn check() -> Result<String, Vec<String>> {
    let there = there();
    let promises = text_of("docs/PROMISES.md").map_err(|error| vec![error])?;
    let agreement = text_of("docs/AGREEMENT.md").map_err(|error| vec![error])?;
    let named: BTreeSet<Edit> = promised(&promises).into_iter().chain(told(&agreement)).collect();
    let missing = there.difference(&named).map(|(krate, name)| format!("crates/{krate}/must-fail/{name}.edit stands in no table"));
    let lost = named.difference(&there).map(|(krate, name)| format!("{name} of {krate} stands in a table, and there is no such edit"));
    let wrong: Vec<String> = missing.chain(lost).collect();
    match wrong.is_empty() {
        true => Ok(format!("{} edits, each in a table", there.len())),
        false => Err(wrong),
    }
}

pub fn there() -> BTreeSet<Edit> {
    let edits = below("crates", ".edit");
    let parts = edits.iter().filter_map(|file| file.path.strip_prefix("crates/")?.strip_suffix(".edit")?.split_once("/must-fail/"));
    parts.map(|(krate, name)| (krate.to_string(), name.to_string())).collect()
}

fn promised(page: &str) -> Vec<Edit> {
    let of_edits = tables(page).into_iter().filter(|table| table.heads.last().is_some_and(|head| head.to_lowercase().contains("wrong")));
    of_edits.flat_map(|table| table.rows).flat_map(|cells| edits_of(cells[0], cells[cells.len() - 1])).collect()
}

fn edits_of(first: &str, last: &str) -> Vec<Edit> {
    let own = backticked(first).next().and_then(|call| call.split("::").next()).unwrap_or_default();
    let mut found = Vec::new();
    for part in last.split(';') {
        let (names, krate) = match part.split_once('(') {
            Some((names, other)) => (names, backticked(other).next().unwrap_or_default()),
            None => (part, own),
        };
        found.extend(backticked(names).map(|name| (krate.to_string(), name.to_string())));
    }
    found
}

fn told(page: &str) -> Vec<Edit> {
    let of_edits = tables(page).into_iter().filter(|table| table.heads[0] == "Edit");
    let names = of_edits.flat_map(|table| table.rows).flat_map(|cells| backticked(cells[0]));
    names.map(|name| ("protocol".to_string(), name.to_string())).collect()
}

/// Every edit has been tried and is refused, and none by a misfit.
pub fn check_tried() -> Result<String, Vec<String>> {
    let log = text_of(LOG).unwrap_or_default();
    let said: BTreeMap<Edit, &str> = log.lines().filter_map(tried).collect();
    let there = there();
    let untried = there.iter().filter(|edit| !said.contains_key(edit)).count();
    let said = there.iter().filter_map(|edit| Some((edit, said.get(edit)?)));
    let wrong_of = |edit, what| misfit(what).or_else(|| placeless(edit, what));
    let mut wrong: Vec<String> =
        said.filter_map(|(edit, what)| Some(format!("{} of {} {}", edit.1, edit.0, wrong_of(edit, what)?))).collect();
    if untried > 0 {
        wrong.push(format!("{untried} edits have not been tried here; tests/all lets rt ci try them"));
    }
    match wrong.is_empty() {
        true => Ok(format!("{} edits tried, none refused by a misfit", there.len())),
        false => Err(wrong),
    }
}

/// The edit of a line of the log, and what is said of it.
fn tried(line: &str) -> Option<(Edit, &str)> {
    let (edit, what) = line.strip_prefix("rt: must-fail ")?.split_once(".edit: ")?;
    let (krate, name) = edit.split_once('/')?;
    Some(((krate.to_string(), name.to_string()), what))
}

/// What is wrong, if something is. An error that begins with no declaration's name is that of a text which cannot be read, or of a proof
/// that finds nothing to prove. Where rt's line has no error it has a note of a goal that is not proved.
fn misfit(what: &str) -> Option<String> {
    let Some(point) = what.strip_prefix(REFUSED) else { return Some(format!("is not refused: {what}")) };
    let error = point.split_once(": error: ").map(|(_, error)| error);
    let says = |error: &str, phrases: &[&str]| phrases.iter().any(|words| error.contains(words));
    let fits = |error: &str| says(error, &FOLLOWS) || (error.starts_with('`') && !says(error, &MISFITS));
    let shows = !point.contains(NAMES_ALONE) && error.is_none_or(fits);
    (!shows).then(|| format!("is refused by a misfit{point}"))
}

/// The first step finds no place, and nobody has looked at those behind it.
fn placeless((krate, name): &Edit, what: &str) -> Option<String> {
    let found = !NO_PLACE.iter().any(|words| what.contains(words)) || GOALS_BEHIND.contains(&(krate, name));
    (!found).then(|| format!("is refused first by a step that finds no place: {what}"))
}

#[cfg(test)]
mod tests {
    use super::{misfit, placeless, tried};

    fn of(what: &str) -> Option<String> {
        let line = format!("rt: must-fail frame/kind_five.edit: {what}");
        let (edit, what) = tried(&line).expect("a line of an edit");
        assert_eq!(edit, ("frame".to_string(), "kind_five".to_string()));
        misfit(what)
    }

    #[test]
    fn misfits_are_told_from_facts() {
        let refused = "refused, as it must be";
        for fact in [
            "note: src/lib.rt:66:1: it is not proved that what the function ensures holds when it returns (`returns`)",
            "./proofs/one/Answers.antt:13:14: error: `returns`: expected type `a`, but this has type `b`",
            "./proofs/Laws.antt:30:5: error: 1 declaration that depends on `parts_whole`, which was rejected, was not checked: sums",
        ] {
            assert_eq!(of(&format!("{refused}: {fact}")), None);
        }
        for what in [
            "`returns`: record `After-put` has no field `write-refusal`",
            "module `proofs.happen` has no `Goals` that can be named from here",
            "`returns`: `minn` is not in scope; did you mean `min`?",
            "`base_whole`: give that argument by adding `{u = ..}` after the arguments that come before it in `ap`'s type",
            "this line starts at column 1, but the `(` opened at 49:36 is still open",
        ] {
            let point = format!(": ./specs/Lists.antt:49:36: error: {what}");
            assert_eq!(of(&format!("{refused}{point}")), Some(format!("is refused by a misfit{point}")));
        }
        let names = " (only because a proof file names what the edit took away, so this says little): ./proofs/f/Answers.antt:1:1";
        assert_eq!(of(&format!("{refused}{names}")), Some(format!("is refused by a misfit{names}")));
        assert_eq!(
            of("NOT REFUSED: the crate is still proved"),
            Some("is not refused: NOT REFUSED: the crate is still proved".to_string())
        );
        assert_eq!(tried("rt: frame proved"), None);
    }

    #[test]
    fn a_step_without_a_place_has_to_be_looked_at() {
        let of = |krate: &str, name: &str, what| placeless(&(krate.to_string(), name.to_string()), what).is_none();
        let step =
            "refused, as it must be: ./proofs/one/Answers.antt:9:5: error: `returns`: `rw`: no occurrence of the path's left endpoint";
        assert!(!of("frame", "kind_five", step) && of("limits", "one_base", step));
        assert!(of("frame", "kind_five", "refused, as it must be: ./proofs/one/Answers.antt:9:5: error: `returns`: expected type `a`"));
    }
}
