//! The command line, as tools/picture hands it on; its --help explains it.

use crate::cut::Cut;

/// What is to be drawn, and whether on pages.
pub struct Wish {
    pub cut: Cut,
    pub pages: bool,
}

pub fn of(words: &[String]) -> Result<Wish, String> {
    let (mut cut, mut pages) = (Cut::default(), false);
    let mut words = words.iter();
    while let Some(word) = words.next() {
        match word.as_str() {
            "--pages" => pages = true,
            "--without-stopped" => cut.without_stopped = true,
            "--lines" => {
                cut.lines = Some(words.next().and_then(|word| lines_of(word)).ok_or("--lines takes A-B, as 40-90, or one line, as 42")?)
            }
            "--bases" => cut.bases = Some(words.next().and_then(|word| bases_of(word)).ok_or("--bases takes B,B.., as 1,3,4")?),
            other => return Err(format!("takes no argument {other:?}")),
        }
    }
    Ok(Wish { cut, pages })
}

fn lines_of(word: &str) -> Option<(usize, usize)> {
    let (first, last) = word.split_once('-').unwrap_or((word, word));
    let (first, last) = (first.parse().ok()?, last.parse().ok()?);
    (first <= last).then_some((first, last))
}

fn bases_of(word: &str) -> Option<Vec<usize>> {
    let mut bases: Vec<usize> = word.split(',').map(|word| word.parse().ok()).collect::<Option<_>>()?;
    bases.sort_unstable();
    bases.dedup();
    Some(bases)
}
