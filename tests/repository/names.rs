//! One name a thing: no definition, lemma, struct, enum, trait or function of the crates has the name of another, public or not, and no
//! public constant that of another. Fields and constructors do not count, nor what is private in an anonymous module, nor a program's
//! `main`, nor the methods of an `impl TRAIT for TYPE`, whose names the trait gives. A public function that has a definition's name cites
//! that definition. An exported function that only hands on to a library's has its name.

use crate::antt::modules;
use crate::believed::type_name;
use crate::files::{below, below_crates};
use std::collections::{BTreeMap, BTreeSet};

/// Where each name is declared.
type Places = BTreeMap<String, Vec<String>>;

pub fn check() -> Result<String, Vec<String>> {
    let (mut things, mut functions, mut constants) = (Places::new(), Places::new(), Places::new());
    let mut definitions = BTreeSet::new();
    for module in modules().values() {
        for item in module.items.iter().filter(|item| item.public || !item.lines[0].starts_with(' ')) {
            things.entry(item.name.clone()).or_default().push(format!("{}:{}", module.path, item.line));
            definitions.extend((item.public && item.defines).then(|| item.name.clone()));
        }
    }
    let mut wrong = Vec::new();
    for file in below("crates", ".rt") {
        let (of_trait, in_trait) = (lines_within(&file.text, implements_trait), lines_within(&file.text, declares_trait));
        for (i, line) in file.text.lines().enumerate() {
            let place = || format!("{}:{}", below_crates(&file.path), i + 1);
            let put = |places: &mut Places, name: Option<&str>| {
                if let Some(name) = name {
                    places.entry(name.to_string()).or_default().push(place());
                }
            };
            put(&mut things, type_name(line).or_else(|| trait_name(line)));
            put(&mut constants, constant_name(line));
            put(&mut functions, function_name(line).filter(|name| !of_trait[i] && !hands_on(line, name, &file.text)));
            let public = function_name(line).filter(|_| in_trait[i] || is_public(line));
            let other = public.filter(|name| definitions.contains(in_antt(name)) && !cites(&file.text, name, in_antt(name)));
            wrong.extend(other.map(|name| format!("{name} at {} has the name of a definition that it does not cite", place())));
        }
    }
    let twice = things.iter().chain(&functions).chain(&constants).filter(|(_, places)| places.len() > 1);
    wrong.extend(twice.map(|(name, places)| format!("{name} is declared at {}", places.join(" and "))));
    match wrong.is_empty() {
        true => Ok(format!(
            "{} names of definitions, lemmas and types, {} of functions and {} of constants, none twice",
            things.len(),
            functions.len(),
            constants.len()
        )),
        false => Err(wrong),
    }
}

/// `pub fn`, also of a type, and `pub extern`
fn is_public(line: &str) -> bool {
    ["pub fn ", "pub extern "].iter().any(|begin| line.trim_start().starts_with(begin))
}

/// `pub trait NAME {`
fn trait_name(line: &str) -> Option<&str> {
    let (before, rest) = line.split_once("trait ")?;
    rest.split(|c: char| !c.is_alphanumeric() && c != '_').next().filter(|_| before.is_empty() || before.starts_with("pub"))
}

/// `impl TRAIT for TYPE {`
fn implements_trait(head: &str) -> bool {
    head.starts_with("impl") && head.contains(" for ")
}

/// `pub trait NAME {`
fn declares_trait(head: &str) -> bool {
    head.starts_with("pub trait ")
}

/// Which lines stand below such a head.
fn lines_within(text: &str, is_head: impl Fn(&str) -> bool) -> Vec<bool> {
    let mut inside = false;
    let each = text.lines().map(|line| {
        if !line.is_empty() && !line.starts_with(' ') {
            inside = is_head(line);
        }
        inside
    });
    each.collect()
}

/// `fn NAME(`, `pub(crate) fn NAME<`, `pub extern "C" fn NAME(`
pub fn function_name(line: &str) -> Option<&str> {
    let (before, rest) = line.trim_start().split_once("fn ")?;
    rest.split(['(', '<']).next().filter(|name| (before.is_empty() || before.starts_with("pub")) && *name != "main")
}

/// `pub extern "C" fn NAME(`, of which a line is `CRATE::NAME(..)`
fn hands_on(line: &str, name: &str, text: &str) -> bool {
    let call = format!("::{name}(");
    line.starts_with("pub extern ")
        && text.lines().any(|line| line.trim_start().split_once(&call).is_some_and(|(krate, _)| !krate.contains(' ')))
}

/// `pub const NAME: `
fn constant_name(line: &str) -> Option<&str> {
    line.trim_start().strip_prefix("pub const ")?.split(':').next()
}

/// Whatever stands in front of its words.
fn in_antt(name: &str) -> &str {
    name.trim_start_matches('_')
}

/// Whether the contract of a function of a file names a definition.
fn cites(text: &str, function: &str, definition: &str) -> bool {
    let found = text.split_once(&format!("fn {function}(")).or_else(|| text.split_once(&format!("fn {function}<")));
    let contract = found.and_then(|(_, rest)| rest.split_once("\n{")).map_or("", |(contract, _)| contract);
    contract.split(|c: char| !c.is_alphanumeric() && c != '_').any(|word| word == definition)
}

#[cfg(test)]
mod tests {
    use super::{cites, constant_name, function_name, in_antt};

    #[test]
    fn functions_and_not_the_words_of_comments() {
        let lines = ["pub fn one(", "    pub(crate) fn two<'a>(", "pub extern \"C\" fn three(n: u8)", "fn four("];
        assert_eq!(lines.map(function_name), [Some("one"), Some("two"), Some("three"), Some("four")]);
        assert_eq!(["// pub fn five(", "fn main()"].map(function_name), [None, None]);
    }

    #[test]
    fn a_functions_contract_cites_the_definition_of_its_name() {
        assert_eq!(["tally_sum", "leader", "_one_more"].map(in_antt), ["tally_sum", "leader", "one_more"]);
        assert_eq!(["pub const ONE: u8 = 1;", "const TWO: u8 = 2;"].map(constant_name), [Some("ONE"), None]);
        let code = "use other::tally;\npub fn tally_sum(b: Base) -> usize\n    ensures { result ≡ tally_sum b }\n{\n    tally\n}\n";
        assert!(cites(code, "tally_sum", "tally_sum"));
        assert!(!cites(code, "tally_sum", "tally"));
    }
}
