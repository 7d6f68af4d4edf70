//! What a reader has to believe: the definitions that the statement of agreement, the statements about the replay, about the sets of faulty
//! links and about airtime reach, by the names in their texts. The lists in docs/AGREEMENT.md have exactly these.

use crate::antt::{import_of, modules, names_in, Import, Module};
use crate::files::{below, below_crates, text_of};
use crate::tables::backticked;
use std::collections::{BTreeMap, BTreeSet};
use std::fmt;

const PAGE: &str = "docs/AGREEMENT.md";
const SECTION: &str = "## What you have to believe";

/// A definition or a type: its file, from crates/ on, and its name.
#[derive(Clone, Debug, PartialEq, Eq, PartialOrd, Ord)]
pub struct Place {
    file: String,
    name: String,
}

impl fmt::Display for Place {
    fn fmt(&self, out: &mut fmt::Formatter) -> fmt::Result {
        write!(out, "{} ({})", self.name, self.file)
    }
}

fn place(file: &str, name: &str) -> Place {
    Place { file: file.to_string(), name: name.to_string() }
}

/// Everything that is defined.
struct World {
    modules: BTreeMap<String, Module>,
    /// Structs and enums of the code, line by line.
    types: BTreeMap<Place, Vec<String>>,
}

pub fn check() -> Result<String, Vec<String>> {
    let world = World { modules: modules(), types: types() };
    let page = text_of(PAGE).map_err(|error| vec![error])?;
    let statements = world.statements().map_err(|error| vec![error])?;
    let compared = statements.iter().zip(listed(&page));
    let wrong: Vec<String> = compared.flat_map(|((of, reached), listed)| differences(of, reached, &listed)).collect();
    match wrong.is_empty() {
        true => Ok(statements.map(|(of, reached)| world.told(of, &reached)).join("; ")),
        false => Err(wrong),
    }
}

/// What the headings of the page's lists behind the first are about, in their order.
const BESIDES: [&str; 3] = ["replay", "faulty links", "airtime"];

fn differences(of: &str, reached: &BTreeSet<Place>, listed: &BTreeSet<Place>) -> Vec<String> {
    let missing = reached.difference(listed).map(|one| format!("{of} reaches {one}, which {PAGE} does not list"));
    let idle = listed.difference(reached).map(|one| format!("{PAGE} lists {one}, which {of} does not reach"));
    missing.chain(idle).collect()
}

/// The statements that crates/protocol/specs/Agreement.antt ends with.
fn agreement_roots() -> Vec<Place> {
    ["Agreement", "Order"].map(|name| place("protocol/specs/Agreement.antt", name)).to_vec()
}

impl World {
    /// Each statement, and what it reaches beyond those before it.
    fn statements(&self) -> Result<[(&'static str, BTreeSet<Place>); 4], String> {
        let mut before = BTreeSet::new();
        let mut besides = |roots: Vec<Place>| {
            let mut reached = self.reached(roots);
            reached.retain(|one| !before.contains(one));
            before.extend(reached.iter().cloned());
            reached
        };
        Ok([
            ("the agreement's statement", besides(agreement_roots())),
            ("the replay's besides", besides(self.replay_roots()?)),
            ("the faulty sets' besides", besides(self.set_roots()?)),
            ("airtime's besides", besides(self.airtime_roots()?)),
        ])
    }

    /// What schedule/specs/Theorem*.antt define, the statement about what each line does, and the definitions in the contract of
    /// `roster_replay`.
    fn replay_roots(&self) -> Result<Vec<Place>, String> {
        let theorems = self
            .modules
            .values()
            .filter(|module| module.path.starts_with("schedule/specs/Theorem") && module.path.matches('/').count() == 2);
        let mut roots: Vec<Place> = theorems
            .flat_map(|module| module.items.iter().filter(|item| item.defines).map(|item| place(&module.path, &item.name)))
            .collect();
        roots.push(place("schedule/specs/Meaning/Effects.antt", "Effects"));
        roots.extend(self.contract("roster_replay")?);
        Ok(roots)
    }

    /// The statements about the sets of faulty links and about their lines, and the definitions in the contracts of the calls on them.
    fn set_roots(&self) -> Result<Vec<Place>, String> {
        let mut roots = vec![place("link_sets/specs/Statement.antt", "EachOnce"), place("set_text/specs/Taken.antt", "SetTaken")];
        for call in ["roster_faulty_count", "roster_faulty_set", "roster_faulty_text"] {
            roots.extend(self.contract(call)?);
        }
        Ok(roots)
    }

    /// The statements about a base's life in slots, and the definitions in the contracts of the calls that answer with slots.
    fn airtime_roots(&self) -> Result<Vec<Place>, String> {
        let statement = "protocol/specs/Airtime/Statement.antt";
        let mut roots = vec![place(statement, "Airtime"), place(statement, "RecordTells")];
        for call in ["roster_start", "roster_arrive", "roster_write"] {
            roots.extend(self.contract(call)?);
        }
        Ok(roots)
    }

    /// The definitions that the contract of an exported call names.
    fn contract(&self, call: &str) -> Result<Vec<Place>, String> {
        let head = format!("pub extern \"C\" fn {call}(");
        let file = below("crates", "/src/lib.rt").into_iter().find(|file| file.text.contains(&head));
        let code = file.ok_or(format!("no crate exports {call}"))?.text;
        let imports: Vec<Import> = code.split(';').filter_map(|part| import_of(part.split_once("ghost ")?.1)).collect();
        let found = code.split_once(&head).and_then(|(_, rest)| rest.split_once("\n{"));
        let (contract, _) = found.ok_or(format!("{call} has no contract"))?;
        Ok(names_in(contract).filter_map(|name| self.imported(&imports, name)).collect())
    }

    fn reached(&self, roots: Vec<Place>) -> BTreeSet<Place> {
        let mut reached = BTreeSet::new();
        let mut open = roots;
        while let Some(next) = open.pop() {
            if !reached.contains(&next) {
                open.extend(self.uses(&next));
                reached.insert(next);
            }
        }
        reached
    }

    fn uses(&self, of: &Place) -> Vec<Place> {
        let lines = self.lines(of);
        let names = lines.iter().flat_map(|line| names_in(line));
        match self.modules.get(&of.file) {
            Some(module) => names.filter_map(|name| self.resolved(module, name)).collect(),
            None => names
                .filter_map(|name| self.types.keys().find(|known| known.name == name && same_crate(&known.file, &of.file)).cloned())
                .collect(),
        }
    }

    fn lines(&self, of: &Place) -> &[String] {
        let item = self.modules.get(&of.file).and_then(|module| module.items.iter().find(|item| item.name == of.name));
        item.map(|item| &item.lines).or(self.types.get(of)).map_or(&[], Vec::as_slice)
    }

    /// What a name means in a module: its own, or one brought in.
    fn resolved(&self, module: &Module, name: &str) -> Option<Place> {
        self.declared(module, of_field(name)).or_else(|| self.imported(&module.imports, name))
    }

    /// A constructor stands for its data.
    fn declared(&self, module: &Module, name: &str) -> Option<Place> {
        let item = module.items.iter().find(|item| item.name == name || item.constructors.iter().any(|constructor| constructor == name))?;
        Some(place(&module.path, &item.name))
    }

    fn imported(&self, imports: &[Import], name: &str) -> Option<Place> {
        imports.iter().find_map(|import| {
            let there = match (&import.alias, name.split_once('.')) {
                (Some(alias), Some((before, there))) if before == alias => of_field(there),
                _ => &import.names.iter().find(|(here, _)| here == of_field(name))?.1,
            };
            self.there(import, there)
        })
    }

    fn there(&self, import: &Import, name: &str) -> Option<Place> {
        match import.path.split_first() {
            Some((first, rest)) if first == "declared" => {
                let path: Vec<&str> = rest.iter().map(String::as_str).filter(|&segment| segment != "TheVariants").collect();
                let (last, folders) = path.split_last()?;
                let source = if folders.is_empty() { "lib".to_string() } else { folders.join("/") };
                Some(place(&format!("{}/src/{source}.rt", import.krate), last)).filter(|found| self.types.contains_key(found))
            }
            _ => {
                let file = format!("{}/{}/{}.antt", import.krate, import.part, import.path.join("/"));
                self.declared(self.modules.get(&file)?, name)
            }
        }
    }

    fn told(&self, what: &str, reached: &BTreeSet<Place>) -> String {
        let lines: usize = reached.iter().map(|one| self.lines(one).len()).sum();
        format!("{what} {} definitions of {lines} lines", reached.len())
    }
}

/// `a` of `a.field`
fn of_field(name: &str) -> &str {
    name.split('.').next().unwrap_or_default()
}

fn same_crate(one: &str, other: &str) -> bool {
    one.split('/').next() == other.split('/').next()
}

/// The structs and enums of the code, without comments.
fn types() -> BTreeMap<Place, Vec<String>> {
    let mut found: BTreeMap<Place, Vec<String>> = BTreeMap::new();
    for file in below("crates", ".rt") {
        let mut open: Option<Place> = None;
        for line in file.text.lines().filter(|line| !line.trim_start().starts_with("//") && !line.is_empty()) {
            if let Some(name) = type_name(line) {
                open = Some(place(below_crates(&file.path), name));
            }
            if let Some(of) = &open {
                found.entry(of.clone()).or_default().push(line.to_string());
            }
            if line.starts_with('}') || line.ends_with(");") {
                open = None;
            }
        }
    }
    found
}

/// `pub struct NAME {`
pub fn type_name(line: &str) -> Option<&str> {
    let rest = line.trim_start().strip_prefix("pub").map_or(line, |rest| rest.trim_start_matches("(crate)")).trim_start();
    let rest = rest.strip_prefix("struct ").or_else(|| rest.strip_prefix("enum "))?;
    rest.split(|c: char| !c.is_alphanumeric() && c != '_').next()
}

/// The page's lists: the numbered points under the section's heading, and those under each of the headings behind it. A path in backticks
/// says where the names in backticks behind it are; one without its crate stands in the specs/ of the path before.
fn listed(page: &str) -> [BTreeSet<Place>; 1 + BESIDES.len()] {
    let mut lists = std::array::from_fn(|_| BTreeSet::new());
    let (mut list, mut inside, mut item) = (0, false, false);
    let mut file = String::new();
    for line in page.lines() {
        if line.starts_with('#') {
            list = BESIDES.iter().position(|of| line.contains(of)).map_or(0, |place| place + 1);
            inside = line == SECTION || (inside && (list > 0 || line.starts_with("###")));
        }
        item = starts_item(line) || (item && line.starts_with("   "));
        if !inside || !item {
            continue;
        }
        for word in backticked(line) {
            if word.ends_with(".antt") || word.ends_with(".rt") {
                file = path_of(&file, word);
            } else {
                lists[list].insert(place(&file, word));
            }
        }
    }
    lists
}

fn path_of(before: &str, path: &str) -> String {
    let krate = before.split('/').next().unwrap_or_default();
    match path.contains("/specs/") || path.contains("/src/") {
        true => path.to_string(),
        false => format!("{krate}/specs/{path}"),
    }
}

/// `12. `
fn starts_item(line: &str) -> bool {
    line.split_once(". ").is_some_and(|(number, _)| number.parse::<usize>().is_ok())
}
