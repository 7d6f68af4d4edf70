//! Rows on sheets: one sheet as long as it has to be, or as many pages as it takes. An event is never broken over two.

use crate::layout::{Row, BELOW_HEAD, HEAD};

/// A long sheet repeats its heads, so that one is always on the screen.
const ROWS_BETWEEN_HEADS: usize = 36;
const FEWEST_ROWS_UNDER_A_HEAD: usize = 14;
const AROUND_HEAD: i32 = 8;

#[derive(Default)]
pub struct Sheet {
    /// Each row's place among all rows, and its top.
    pub rows: Vec<(usize, i32)>,
    /// Tops of the heads.
    pub heads: Vec<i32>,
    pub bottom: i32,
}

impl Sheet {
    fn begin(top: i32) -> Sheet {
        Sheet { rows: Vec::new(), heads: vec![top], bottom: top + HEAD + BELOW_HEAD }
    }

    fn of(rows: &[Row], places: &[usize], top: i32) -> Sheet {
        let mut sheet = Sheet::begin(top);
        places.iter().for_each(|&place| sheet.put(place, rows[place].height()));
        sheet
    }

    fn put(&mut self, place: usize, height: i32) {
        self.rows.push((place, self.bottom));
        self.bottom += height;
    }
}

/// Everything on one sheet.
pub fn one(rows: &[Row], top: i32) -> Sheet {
    let mut sheet = Sheet::begin(top);
    let mut since_head = 0;
    for (place, row) in rows.iter().enumerate() {
        if since_head >= ROWS_BETWEEN_HEADS && row.first && rows.len() - place >= FEWEST_ROWS_UNDER_A_HEAD {
            sheet.heads.push(sheet.bottom + AROUND_HEAD);
            sheet.bottom += HEAD + AROUND_HEAD + BELOW_HEAD;
            since_head = 0;
        }
        sheet.put(place, row.height());
        since_head += 1;
    }
    sheet
}

/// A page before its rows have their tops.
pub struct Page<'r> {
    /// From 0.
    pub number: usize,
    /// Its rows' places among all rows.
    pub places: &'r [usize],
    /// Whether the picture's end stands on it.
    pub end: bool,
}

/// Pages down to `foot`. `above` answers how far down what stands above a page's heads reaches, which is not the same on every page;
/// behind the last row there is room for the end.
pub fn pages(rows: &[Row], above: impl Fn(&Page) -> i32, foot: i32, end: i32) -> Vec<Sheet> {
    let sheet = |number: usize, places: &[usize], end: bool| Sheet::of(rows, places, above(&Page { number, places, end }));
    let places: Vec<usize> = (0..rows.len()).collect();
    let mut pages: Vec<Vec<usize>> = vec![Vec::new()];
    for event in places.chunk_by(|_, &next| !rows[next].first) {
        let last = pages.len() - 1;
        let with_event = [&pages[last][..], event].concat();
        match pages[last].is_empty() || sheet(last, &with_event, false).bottom <= foot {
            true => pages[last] = with_event,
            false => pages.push(event.to_vec()),
        }
    }
    let last = pages.len() - 1;
    if !pages[last].is_empty() && sheet(last, &pages[last], true).bottom + end > foot {
        pages.push(Vec::new());
    }
    let last = pages.len() - 1;
    pages.iter().enumerate().map(|(i, places)| sheet(i, places, i == last)).collect()
}
