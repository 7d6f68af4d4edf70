//! Files of antt as far as the checks look into them: what each declares, and what it brings in from others.

use crate::files::{below, below_crates, File};
use std::collections::BTreeMap;

/// The kit's library, beside the crates.
const LIBRARY: [&str; 2] = ["core", "std"];

/// Something that a file declares, with its clauses.
pub struct Item {
    pub name: String,
    pub public: bool,
    /// A definition, a record or data; not a lemma.
    pub defines: bool,
    /// Where it begins, from 1.
    pub line: usize,
    /// Without comments and empty lines.
    pub lines: Vec<String>,
    /// Of data.
    pub constructors: Vec<String>,
}

/// `use Rattle.CRATE.specs.PATH.{NAME, NAME as OTHER}`, or `use Rattle.CRATE.specs.PATH as ALIAS`; `proofs` in place of `specs` likewise.
pub struct Import {
    pub krate: String,
    /// `specs` or `proofs`
    pub part: String,
    /// Behind that.
    pub path: Vec<String>,
    /// The name here, and the name there.
    pub names: Vec<(String, String)>,
    pub alias: Option<String>,
}

pub struct Module {
    /// From crates/ on.
    pub path: String,
    pub items: Vec<Item>,
    pub imports: Vec<Import>,
    /// Names of the kit's library.
    pub library: Vec<String>,
}

/// Every module of definitions and lemmas, by its path: those below the crates' specs/, and below proofs/ what is not of one function.
pub fn modules() -> BTreeMap<String, Module> {
    let files = below("crates", ".antt").into_iter().filter(|file| has_lemmas(&file.path));
    files.map(|file| (below_crates(&file.path).to_string(), module_of(&file))).collect()
}

/// `crates/NAME/proofs/function/Answers.antt` has none.
fn has_lemmas(path: &str) -> bool {
    let in_proofs = path.split_once("/proofs/").map(|(_, rest)| rest);
    path.contains("/specs/") || in_proofs.is_some_and(|rest| rest.split('/').all(|part| part.starts_with(char::is_uppercase)))
}

fn module_of(file: &File) -> Module {
    let mut module = Module { path: below_crates(&file.path).to_string(), items: Vec::new(), imports: Vec::new(), library: Vec::new() };
    let mut blocks = Blocks::default();
    let mut open_use = String::new();
    for (i, whole) in file.text.lines().enumerate() {
        let line = without_comment(whole);
        if line.trim().is_empty() {
            continue;
        }
        if line.starts_with("use ") || !open_use.is_empty() {
            open_use.push_str(line);
            if open_use.contains('{') == open_use.contains('}') {
                module.take_use(&std::mem::take(&mut open_use));
            }
            continue;
        }
        take_line(&mut module.items, line, i + 1, &mut blocks);
    }
    module
}

impl Module {
    fn take_use(&mut self, text: &str) {
        match import_of(text) {
            Some(import) => self.imports.push(import),
            None => self.library.extend(names_in(text).map(str::to_string)),
        }
    }
}

/// What an indented line stands in.
#[derive(Clone, Copy, PartialEq, Eq)]
enum Block {
    /// `module _ (..) where`: what is indented by two is declared too.
    Module,
    Record,
    Data,
}

/// The blocks that are open, each with its own indentation.
#[derive(Default)]
struct Blocks {
    open: Vec<(usize, Block)>,
}

impl Blocks {
    /// The block of a line, and whether the line can declare something.
    fn enter(&mut self, indent: usize) -> (Option<Block>, bool) {
        self.open.retain(|&(of_block, _)| of_block < indent);
        match self.open.last() {
            None => (None, indent == 0),
            Some(&(of_block, block)) => (Some(block), block == Block::Module && indent == of_block + 2),
        }
    }
}

fn take_line(items: &mut Vec<Item>, line: &str, number: usize, blocks: &mut Blocks) {
    let code = line.trim_start();
    let indent = line.len() - code.len();
    let (block, declares) = blocks.enter(indent);
    if declares && code.starts_with("module ") {
        blocks.open.push((indent, Block::Module));
        return;
    }
    if let Some(Declared { name, public, form }) = declared(code).filter(|_| declares) {
        match form {
            "record" => blocks.open.push((indent, Block::Record)),
            "data" => blocks.open.push((indent, Block::Data)),
            _ => {}
        }
        let (name, lines) = (name.to_string(), vec![line.to_string()]);
        items.push(Item { name, public, defines: !form.is_empty(), line: number, lines, constructors: Vec::new() });
        return;
    }
    let Some(item) = items.last_mut().filter(|_| !code.starts_with("pub mod ")) else { return };
    item.lines.push(line.to_string());
    if let (Some(Block::Data), Some((names, _))) = (block, line.split_once(" : ")) {
        item.constructors.extend(names.split_whitespace().map(str::to_string));
    }
}

struct Declared<'l> {
    name: &'l str,
    public: bool,
    /// `unfoldable`, `abbrev`, `record` or `data`; nothing for a lemma.
    form: &'l str,
}

/// `unfoldable pub NAME : ..`, `pub record NAME ..`, `pub NAME : ..`, `NAME : ..`
fn declared(line: &str) -> Option<Declared<'_>> {
    let mut words = line.split(' ').peekable();
    let (mut public, mut form) = (false, "");
    while let Some(&word) = words.peek() {
        match word {
            "pub" => public = true,
            "unfoldable" | "abbrev" | "record" | "data" => form = word,
            _ => break,
        }
        words.next();
    }
    let name = words.next()?;
    let typed = form == "record" || form == "data" || words.next() == Some(":");
    (typed && name != "mod").then_some(Declared { name, public, form })
}

fn without_comment(line: &str) -> &str {
    match line.trim_start().starts_with("--") {
        true => "",
        false => line.split_once(" -- ").map_or(line, |(code, _)| code),
    }
}

pub fn import_of(text: &str) -> Option<Import> {
    let text = text.strip_prefix("use ")?;
    let (path, names, alias) = match text.split_once(".{") {
        Some((path, names)) => (path, names.trim_end().trim_end_matches('}'), None),
        None => {
            let (path, alias) = text.split_once(" as ")?;
            (path, "", Some(alias.trim().to_string()))
        }
    };
    let mut segments = path.trim().split('.');
    let krate = segments.next().filter(|&first| first == "Rattle").and(segments.next())?.to_string();
    if LIBRARY.contains(&krate.as_str()) {
        return None;
    }
    let part = segments.next()?.to_string();
    let path = segments.map(str::to_string).collect();
    let pair = |name: &str| match name.split_once(" as ") {
        Some((there, here)) => (here.trim().to_string(), there.trim().to_string()),
        None => (name.trim().to_string(), name.trim().to_string()),
    };
    let names = names.split(',').map(pair).filter(|(here, _)| !here.is_empty()).collect();
    Some(Import { krate, part, path, names, alias })
}

/// The names in a line: `M.a`, which may be the field `a` of `M`, stays whole, `(f x).a` has f and x, `λ x.` has x.
pub fn names_in(line: &str) -> impl Iterator<Item = &str> {
    let words = line.split(|c: char| c.is_whitespace() || "()[]{};,".contains(c));
    words.filter(|word| !word.starts_with('.')).map(|word| word.trim_end_matches('.')).filter(|word| !word.is_empty())
}

#[cfg(test)]
mod tests {
    use super::*;

    const TEXT: &str = "-- a comment
use Rattle.std.specs.Prelude.{Bool, true}
use Rattle.counting.specs.Sums.{
  bit,
  sum as total,
}
use Rattle.protocol.specs.declared.Base as records
pub mod Laws

unfoldable pub twice : ℕ → ℕ
twice n = n + n -- said once

pub data Answer : Type 0 where
  yes no : Answer

module _ (n : ℕ) where
  pub law : twice n ≡ n + n
  law = refl

  module _ (m : ℕ)
      (e : m ≡ n) where
    inner : twice m ≡ n + n
    inner = law
";

    fn module() -> Module {
        module_of(&File { path: "crates/one/specs/One.antt".to_string(), text: TEXT.to_string() })
    }

    #[test]
    fn items_with_their_clauses() {
        let items = module().items;
        let told: Vec<(&str, bool, usize, usize)> =
            items.iter().map(|item| (item.name.as_str(), item.defines, item.line, item.lines.len())).collect();
        assert_eq!(told, [("twice", true, 10, 2), ("Answer", true, 13, 2), ("law", false, 17, 3), ("inner", false, 22, 2)]);
        assert_eq!(items[1].constructors, ["yes", "no"]);
    }

    #[test]
    fn imports_of_crates_alone() {
        assert_eq!(module().library, ["use", "Rattle.std.specs.Prelude", "Bool", "true"]);
        let imports = module().imports;
        assert_eq!(imports.len(), 2);
        assert_eq!(imports[0].names, [("bit", "bit"), ("total", "sum")].map(|(here, there)| (here.to_string(), there.to_string())));
        assert_eq!((imports[1].path.join("/").as_str(), imports[1].alias.as_deref()), ("declared/Base", Some("records")));
    }

    #[test]
    fn lemmas_stand_in_specs_and_beside_the_functions_of_proofs() {
        let paths =
            ["a/specs/Steps.antt", "a/proofs/Steps/Answers.antt", "a/proofs/text/of_base/Answers.antt", "a/proofs/Base/new/Answers.antt"];
        assert_eq!(paths.map(has_lemmas), [true, true, false, false]);
    }

    #[test]
    fn names_without_fields() {
        let names: Vec<&str> = names_in("sum n (λ b. bit (W.carried a (Nets.at e).first))").collect();
        assert_eq!(names, ["sum", "n", "λ", "b", "bit", "W.carried", "a", "Nets.at", "e"]);
    }
}
