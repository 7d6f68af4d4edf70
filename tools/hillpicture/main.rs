//! `hillpicture`: a trace, as `hilltrace` prints it, on standard input; its picture on standard output, as one self-contained SVG file or
//! as pages of HTML. tools/picture calls it, and its messages are in that name.
//!
//! Read: `options` is the command line, `trace` is what a trace says, `read` takes it from text, `cut` has the part that is drawn. Named
//! and placed: `names` has the short names, `layout` the columns and rows, `sheet` their places on sheets. Drawn: `chart` and `pages` put
//! together `legend`, `heads`, `events`, `ending` and `refusal_box`; `arrows` has the arrows and marks, `refusals` the numbers' meaning,
//! `svg` the shapes.

mod arrows;
mod chart;
mod cut;
mod ending;
mod events;
mod heads;
mod layout;
mod legend;
mod names;
mod options;
mod pages;
mod read;
mod refusal_box;
mod refusals;
mod sheet;
mod svg;
mod trace;

use cut::Cut;
use options::Wish;
use std::io::{Read, Write};
use std::process::ExitCode;

const FAILED: u8 = 1;
const WRONG_USE: u8 = 2;

fn main() -> ExitCode {
    let words: Vec<String> = std::env::args_os().skip(1).map(|word| word.to_string_lossy().into_owned()).collect();
    let done = match options::of(&words) {
        Ok(Wish { cut, pages }) => draw(&cut, pages),
        Err(what) => {
            eprintln!("tools/picture: {what}; tools/picture --help says more");
            return ExitCode::from(WRONG_USE);
        }
    };
    match done {
        Ok(()) => ExitCode::SUCCESS,
        Err(what) => {
            eprintln!("tools/picture: {what}");
            ExitCode::from(FAILED)
        }
    }
}

fn draw(cut: &Cut, pages: bool) -> Result<(), String> {
    let mut bytes = Vec::new();
    std::io::stdin().read_to_end(&mut bytes).map_err(|error| format!("cannot read standard input: {error}"))?;
    let text = String::from_utf8(bytes).map_err(|_| "standard input is not a trace: not text".to_string())?;
    let trace = read::read(&text).map_err(|wrong| format!("standard input is not a trace, line {}: {}", wrong.line, wrong.what))?;
    let shown = cut.of(&trace)?;
    write(&if pages { pages::pages(&trace, &shown) } else { chart::picture(&trace, &shown) })
}

fn write(text: &str) -> Result<(), String> {
    let mut out = std::io::stdout().lock();
    out.write_all(text.as_bytes()).and_then(|()| out.flush()).map_err(|error| format!("cannot write standard output: {error}"))
}
