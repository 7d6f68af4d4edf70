//! What the papers cite is there: each path, each function, and each definition or lemma that stands between backticks. Functions, crates
//! and edits are written as definitions are, so a word between backticks may be the name of any of these.

use crate::antt::modules;
use crate::edits;
use crate::files::{below, crate_names, text_of, File};
use crate::names::function_name;
use crate::tables::backticked;
use std::collections::BTreeSet;

/// What a citation can be of.
struct Known {
    paths: Vec<String>,
    crates: Vec<String>,
    code: Vec<File>,
    /// Definitions, lemmas, constructors and fields.
    names: BTreeSet<String>,
    /// Crates, edits, functions of the code, and what include/ has for C and Rust.
    others: BTreeSet<String>,
}

pub fn check() -> Result<String, Vec<String>> {
    let known = known().map_err(|error| vec![error])?;
    let readme = File { path: "README.md".to_string(), text: text_of("README.md").map_err(|error| vec![error])? };
    // those tell of older names and files, and of what has not landed
    let told = ["docs/CHANGES.md", "docs/DESIGN-PASS.md", "docs/PORT.md"];
    let pages = below("docs", ".md").into_iter().chain([readme]).filter(|page| !told.contains(&page.path.as_str()));
    let (mut cited, mut wrong) = (0, BTreeSet::new());
    for page in pages {
        for word in backticked(&page.text) {
            let Some(there) = known.has(word) else { continue };
            cited += 1;
            if !there {
                wrong.insert(format!("{} cites {word}, which is not there", page.path));
            }
        }
    }
    match wrong.is_empty() {
        true => Ok(format!("{cited} paths, functions, definitions and lemmas that the papers cite are there")),
        false => Err(wrong.into_iter().collect()),
    }
}

fn known() -> Result<Known, String> {
    let folders = ["crates", "docs", "examples", "include", "schedules", "tests", "tools", ".ci"];
    let paths = folders.iter().flat_map(|folder| below(folder, "")).map(|file| format!("/{}", file.path)).collect();
    let mut names = BTreeSet::new();
    for module in modules().values() {
        for item in &module.items {
            names.insert(item.name.clone());
            names.extend(item.constructors.iter().cloned());
            names.extend(item.lines.iter().filter_map(|line| field(line)));
        }
        names.extend(module.library.iter().cloned());
    }
    let (crates, code) = (crate_names()?, below("crates", ".rt"));
    let functions = code.iter().flat_map(|file| file.text.lines()).filter_map(function_name);
    let mut others: BTreeSet<String> = functions.map(str::to_string).chain(crates.iter().cloned()).collect();
    others.extend(edits::there().into_iter().map(|(_, name)| name));
    others.extend(below("include", "").iter().flat_map(|file| words_of(&file.text)).map(str::to_string));
    Ok(Known { paths, crates, code, names, others })
}

fn words_of(text: &str) -> impl Iterator<Item = &str> {
    text.split(|c: char| !c.is_alphanumeric() && c != '_')
}

/// `  pub NAME : ..` of a record, or of a lemma within another
fn field(line: &str) -> Option<String> {
    let (name, _) = line.trim_start().trim_start_matches("pub ").split_once(" : ")?;
    (!name.contains(' ')).then(|| name.trim_matches(['«', '»']).to_string())
}

impl Known {
    /// Nothing for what is no citation.
    fn has(&self, word: &str) -> Option<bool> {
        let no_word = word.contains([' ', '\n', '*', '{', '<']) && !word.contains("::");
        if no_word || word == "/" || word.starts_with("X/") {
            return None;
        }
        if let Some((krate, rest)) = word.split_once("::") {
            let name = rest.split('(').next()?.rsplit("::").next()?;
            return self.crates.iter().any(|known| known == krate).then(|| self.has_function(krate, name));
        }
        if word.contains('/') {
            return Some(self.has_path(word));
        }
        let inside = |c: char| c.is_alphanumeric() || c == '-' || c == '_';
        let name = word.starts_with(|c: char| c.is_ascii_lowercase()) && word.chars().all(inside);
        let citation = name && (word.contains(['-', '_']) || word.contains(|c: char| c.is_ascii_uppercase()));
        citation.then(|| self.names.contains(word) || self.others.contains(word))
    }

    fn has_path(&self, word: &str) -> bool {
        let path = format!("/{}", word.trim_start_matches("./").trim_end_matches('/'));
        let ends = [path.clone(), format!("{path}.antt"), format!("{path}.rt"), format!("{path}.md")];
        let inside = format!("{path}/");
        self.paths.iter().any(|known| known.contains(&inside) || ends.iter().any(|end| known.ends_with(end)))
    }

    fn has_function(&self, krate: &str, name: &str) -> bool {
        let folder = format!("crates/{krate}/src/");
        let forms = ["fn NAME(", "fn NAME<", "const NAME:"].map(|form| form.replace("NAME", name));
        let module = format!("/{name}.rt");
        let mut code = self.code.iter().filter(|file| file.path.starts_with(&folder));
        code.any(|file| file.path.ends_with(&module) || forms.iter().any(|form| file.text.contains(form)))
    }
}
