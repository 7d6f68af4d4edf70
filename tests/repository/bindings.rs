//! include/roster.rs declares the calls of include/roster.h, each with the same arguments and the same answer. (Numbers and records are
//! compared by tests/layout, as the compilers see them.)

use crate::files::text_of;
use std::collections::BTreeMap;

/// The calls by name: their arguments and their answer, as Rust has them.
type Calls = BTreeMap<String, String>;

pub fn check() -> Result<String, Vec<String>> {
    let header = text_of("include/roster.h").map_err(|error| vec![error])?;
    let bindings = text_of("include/roster.rs").map_err(|error| vec![error])?;
    let (c, rust) = (c_calls(&header), rust_calls(&bindings));
    let names = c.keys().chain(rust.keys().filter(|name| !c.contains_key(*name)));
    let differ = names.filter(|name| c.get(*name) != rust.get(*name));
    let wrong: Vec<String> =
        differ.map(|name| format!("{name}: {:?} in roster.h, {:?} in roster.rs", c.get(name), rust.get(name))).collect();
    match wrong.is_empty() && !c.is_empty() {
        true => Ok(format!("{} calls alike in roster.h and roster.rs", c.len())),
        false => Err(wrong),
    }
}

/// `roster_put roster_write(size_t n, uint8_t *out);`
fn c_calls(text: &str) -> Calls {
    let lines = text.lines().filter(|line| line.ends_with(");") && !line.starts_with([' ', '/', '#']));
    let calls = lines.filter_map(|line| line.trim_end_matches(");").split_once('('));
    let split = calls.filter_map(|(head, arguments)| Some((head.rsplit_once(' ')?, arguments)));
    split.map(|((answer, name), arguments)| (name.to_string(), format!("({}) -> {}", c_arguments(arguments), of_c(answer)))).collect()
}

fn c_arguments(arguments: &str) -> String {
    let named = arguments.split(", ").filter(|&argument| argument != "void");
    let each = named.map(|argument| {
        let at = argument.rfind([' ', '*']).map_or(0, |at| at + 1);
        format!("{}: {}", &argument[at..], of_c(argument[..at].trim_end()))
    });
    each.collect::<Vec<_>>().join(", ")
}

fn of_c(name: &str) -> String {
    if let Some(target) = name.strip_suffix('*').map(str::trim_end) {
        return match target.strip_prefix("const ") {
            Some(target) => format!("*const {}", of_c(target)),
            None => format!("*mut {}", of_c(target)),
        };
    }
    match name {
        "size_t" => "usize".to_string(),
        "uint8_t" | "uint32_t" => name.replace("uint", "u").replace("_t", ""),
        record => {
            let name = record.trim_start_matches("roster_");
            name[..1].to_uppercase() + &name[1..]
        }
    }
}

/// `fn roster_write(n: usize, out: *mut u8) -> Put;`
fn rust_calls(text: &str) -> Calls {
    let calls = text.lines().filter_map(|line| line.trim_start().strip_prefix("fn ")?.strip_suffix(';')?.split_once('('));
    calls.map(|(name, rest)| (name.to_string(), format!("({rest}"))).collect()
}
