//! Checks that the repository makes of itself, each by its name: `repository` runs all, `repository NAME ..` some. They run at its top.

mod antt;
mod believed;
mod bindings;
mod cited;
mod edits;
mod files;
mod form;
mod names;
mod tables;
mod words;

use std::process::ExitCode;

/// What was found in order, or every point that is not.
type Check = fn() -> Result<String, Vec<String>>;

const CHECKS: [(&str, Check); 9] = [
    ("believed", believed::check),
    ("names", names::check),
    ("cited", cited::check),
    ("edits", edits::check),
    ("misfits", edits::check_tried),
    ("form", form::check),
    ("words", words::check),
    ("numbers", words::check_places),
    ("bindings", bindings::check),
];

fn main() -> ExitCode {
    let wanted: Vec<String> = std::env::args().skip(1).collect();
    if let Some(word) = wanted.iter().find(|word| CHECKS.iter().all(|(name, _)| name != word)) {
        eprintln!("repository: there is no check {word:?}; there are {}", CHECKS.map(|(name, _)| name).join(", "));
        return ExitCode::from(2);
    }
    let mut passed = true;
    for (name, check) in CHECKS.iter().filter(|(name, _)| wanted.is_empty() || wanted.iter().any(|word| word == name)) {
        match check() {
            Ok(found) => println!("{name}: {found}"),
            Err(wrong) => {
                passed = false;
                wrong.iter().for_each(|what| println!("{name}: {what}"));
                println!("{name}: {} points FAILED", wrong.len());
            }
        }
    }
    ExitCode::from(u8::from(!passed))
}
