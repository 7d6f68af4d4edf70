//! Tables and names in the papers.

/// What stands between backticks.
pub fn backticked(text: &str) -> impl Iterator<Item = &str> {
    text.split('`').skip(1).step_by(2)
}

#[derive(Default)]
pub struct Table<'p> {
    pub heads: Vec<&'p str>,
    pub rows: Vec<Vec<&'p str>>,
}

pub fn tables(page: &str) -> Vec<Table<'_>> {
    let mut found: Vec<Table> = Vec::new();
    let mut inside = false;
    for line in page.lines() {
        let cells = || line.trim_matches('|').split('|').map(str::trim).collect();
        match (inside, line.starts_with('|')) {
            (false, true) => found.push(Table { heads: cells(), rows: Vec::new() }),
            (true, true) if !line.starts_with("|---") => found.last_mut().into_iter().for_each(|table| table.rows.push(cells())),
            _ => {}
        }
        inside = line.starts_with('|');
    }
    found
}
