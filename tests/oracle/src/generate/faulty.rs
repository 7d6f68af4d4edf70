//! Document 02's first request: small nets with every number, calls that earn each set of refusals, and first lines of every form.

use crate::case::Case;
use crate::generate::forms::{net_lines, refused};
use crate::generate::schedules::{self, spoiled_byte, spoiled_line, spoiled_number};
use crate::limits::{most_faulty, FAULTY_TEXT_ROOM, FEWEST_BASES, LONGEST_SCHEDULE, MOST_BASES, SMALL_BASES, SMALL_SETS};
use crate::reader::Number;
use crate::refusal::{BASES, FAULTY_LIMIT, FORM, LARGE_NET, SET_NUMBER};
use crate::rng::Rng;

/// How many sets each small net has: n, t, and the count by hand, of 1, 3, 6, 10 and 15 links.
#[rustfmt::skip]
const SETS: [(usize, usize, usize); 9] =
    [(2, 0, 1), (3, 0, 1), (4, 0, 1), (4, 1, 7), (5, 0, 1), (5, 1, 11), (6, 0, 1), (6, 1, 16), (6, 2, 121)];

/// A byte and 32 bits would cut the first two to sizes of small nets.
const HUGE: [usize; 3] = [258, (1 << 32) + 4, usize::MAX];

/// Past the last set of every net that 1 and 2 let pass, 16 bases with t = 7 having fewer than 2^36, and of a small net for any t.
const PAST: [usize; 2] = [1 << 36, usize::MAX];

/// Texts whose first line breaks the form. Some name a net that would earn 1, 2 or 19.
const BROKEN: &[&[u8]] = &[
    b"",
    b"\n",
    b"net 4 1",
    b"net 6 2\r",
    b"\nnet 4 1\n",
    b"net 4 1\xff\n",
    b"\xef\xbb\xbfnet 4 1\n",
    b"net 017 0\n",
    b"net 17 0 \n",
    b"net 4 09\n",
    b"net 4 9\r\n",
    b"net 07 0\n",
    b"net 7 0",
];

/// What may stand behind the first line. A schedule could not go on with any of it but the third.
const BEHIND: &[&[u8]] = &[b"", b"\n", b"id 1 40\n", b"net 7 0\n", b"nonsense", b"\xff\0\r"];

pub fn sweep() -> Vec<Case> {
    let mut cases = Vec::new();
    for (n, t) in grid() {
        cases.push(Case::FaultyCount { n, t, expect: Some(net_number(n, t)) });
        cases.extend(by_number(n, t));
        cases.extend(printed(n, t));
    }
    cases.extend(refusals());
    cases.extend(first_lines());
    cases
}

/// n and t in their ranges, next to them, and huge.
fn grid() -> Vec<(usize, usize)> {
    let up_to = |most| (0..=most).chain(HUGE);
    up_to(MOST_BASES + 4).flat_map(|n| up_to(most_faulty(MOST_BASES) + 3).map(move |t| (n, t))).collect()
}

/// The first of 1, 2 and 19 that a net earns, or 0.
fn net_number(n: usize, t: usize) -> Number {
    match n {
        FEWEST_BASES..=MOST_BASES if t > most_faulty(n) => FAULTY_LIMIT,
        FEWEST_BASES..=SMALL_BASES => 0,
        FEWEST_BASES..=MOST_BASES => LARGE_NET,
        _ => BASES,
    }
}

fn sets_of(n: usize, t: usize) -> Option<usize> {
    SETS.iter().find(|&&(bases, links, _)| (bases, links) == (n, t)).map(|&(.., count)| count)
}

/// Every number of a small net's sets, the next ones, and some that would be cut; of another net a few.
fn by_number(n: usize, t: usize) -> impl Iterator<Item = Case> {
    let listed = sets_of(n, t);
    let numbers = (0..=listed.unwrap_or(0) + 2).chain([SMALL_SETS, 256, 1 << 32, usize::MAX]);
    numbers.map(move |number| {
        let past = listed.is_some_and(|count| number >= count);
        let expect = if past { SET_NUMBER } else { net_number(n, t) };
        Case::FaultySet { n, t, number, expect: Some(expect) }
    })
}

/// The net as a text, with what may stand behind it, into outputs around the room that is asked for.
fn printed(n: usize, t: usize) -> Vec<Case> {
    let number = if n.max(t) > u32::MAX as usize { FORM } else { net_number(n, t) };
    let report = match (number, t) {
        (0, 0) => Some("set 0\n".to_string()),
        (0, _) => None,
        _ => Some(refused(number, 1)),
    };
    let line = format!("net {n} {t}\n").into_bytes();
    let (behind, rooms) = if number == 0 { (BEHIND, &[0, 40][..]) } else { (&BEHIND[..1], &[0][..]) };
    let mut cases = [0, FAULTY_TEXT_ROOM - 1].map(|room| lines(line.clone(), room, Some(String::new()))).to_vec();
    for text in behind {
        cases.extend(rooms.iter().map(|more| lines([&line, *text].concat(), FAULTY_TEXT_ROOM + more, report.clone())));
    }
    cases
}

fn lines(schedule: Vec<u8>, room: usize, expect: Option<String>) -> Case {
    Case::FaultyText { schedule, out: vec![0x77; room], expect }
}

/// Calls that earn every number of a set of 1, 2, 19 and 20. The lowest is to be answered: "both come after 2".
fn refusals() -> Vec<Case> {
    let all = [BASES, FAULTY_LIMIT, LARGE_NET, SET_NUMBER];
    let mut cases = Vec::new();
    for mask in 1..1usize << all.len() {
        let numbers: Vec<Number> = (0..all.len()).filter(|bit| mask >> bit & 1 == 1).map(|bit| all[bit]).collect();
        for n in bases(&numbers) {
            cases.extend(bounds(&numbers, n).into_iter().flat_map(|t| earning(&numbers, n, t)));
        }
    }
    cases
}

/// Values of n that earn 1 and 19 where the set has them, and only there.
fn bases(numbers: &[Number]) -> Vec<usize> {
    match (numbers.contains(&BASES), numbers.contains(&LARGE_NET)) {
        (true, true) => [MOST_BASES + 1, MOST_BASES + 2, 255].into_iter().chain(HUGE).collect(),
        (true, false) => (0..FEWEST_BASES).collect(),
        (false, true) => (SMALL_BASES + 1..=MOST_BASES).collect(),
        (false, false) => (FEWEST_BASES..=SMALL_BASES).collect(),
    }
}

/// Values of t above the limit where the set has 2, else at most the limit.
fn bounds(numbers: &[Number], n: usize) -> Vec<usize> {
    let most = most_faulty(n.max(FEWEST_BASES));
    if numbers.contains(&FAULTY_LIMIT) {
        vec![most + 1, most + 2, most + 256, most + (1 << 32), usize::MAX]
    } else {
        vec![0, most]
    }
}

fn earning(numbers: &[Number], n: usize, t: usize) -> Vec<Case> {
    let expect = numbers.iter().min().copied();
    let set = |number: usize| Case::FaultySet { n, t, number, expect };
    if !numbers.contains(&SET_NUMBER) {
        return vec![Case::FaultyCount { n, t, expect }, set(0), set(1)];
    }
    match sets_of(n, t) {
        Some(count) => [count, count + 1, count + 256, count + (1 << 32), usize::MAX].map(set).to_vec(),
        None => PAST.map(set).to_vec(),
    }
}

/// First lines that are wrong, with text behind them; cut off before their end; and long texts, of which a schedule would be too long.
fn first_lines() -> Vec<Case> {
    let mut cases = Vec::new();
    for (line, number) in net_lines() {
        let texts = BEHIND.iter().map(|text| [line.as_bytes(), b"\n", *text].concat());
        cases.extend(texts.map(|text| lines(text, FAULTY_TEXT_ROOM, Some(refused(number, 1)))));
    }
    let whole = "net 6 2\n";
    let cut = (0..whole.len()).map(|end| whole.as_bytes()[..end].to_vec());
    let endless = [whole.trim_end().as_bytes(), &b"0".repeat(LONGEST_SCHEDULE), b"\n"].concat();
    for text in BROKEN.iter().map(|text| text.to_vec()).chain(cut).chain([endless]) {
        cases.push(lines(text.clone(), FAULTY_TEXT_ROOM - 1, Some(String::new())));
        cases.push(lines(text, FAULTY_TEXT_ROOM + 40, Some(refused(FORM, 1))));
    }
    for length in LONGEST_SCHEDULE - 1..=LONGEST_SCHEDULE + 1 {
        let mut text = b"net 4 0\n".to_vec();
        text.resize(length, b'x');
        cases.push(lines(text, FAULTY_TEXT_ROOM, Some("set 0\n".to_string())));
    }
    cases
}

/// A call on a net that is mostly small, with a number that is mostly a set's; or a text.
pub fn call(rng: &mut Rng) -> Case {
    let n = if rng.chance(1, 8) { any(rng) } else { rng.within(FEWEST_BASES, SMALL_BASES + 1) };
    let t = if rng.chance(1, 8) { any(rng) } else { rng.within(0, most_faulty(n.max(FEWEST_BASES))) };
    match rng.below(8) {
        0 => Case::FaultyCount { n, t, expect: None },
        1..=4 => {
            let number = if rng.chance(1, 8) { any(rng) } else { rng.below(SMALL_SETS + 3) };
            Case::FaultySet { n, t, number, expect: None }
        }
        _ => {
            let schedule = text(rng, n, t);
            let room = if rng.chance(1, 20) { rng.below(FAULTY_TEXT_ROOM) } else { FAULTY_TEXT_ROOM + rng.below(50) };
            Case::FaultyText { schedule, out: rng.bytes(room), expect: None }
        }
    }
}

/// A number of at most 40 bits, often of few.
fn any(rng: &mut Rng) -> usize {
    rng.word() as usize >> rng.within(24, 63)
}

/// The net's line, half the time damaged, with any bytes behind it; or a schedule.
fn text(rng: &mut Rng, n: usize, t: usize) -> Vec<u8> {
    let line = format!("net {n} {t}\n").into_bytes();
    let mut text = match rng.below(8) {
        0 | 1 => return schedules::text(rng),
        2 => spoiled_line(rng, &line),
        3 => spoiled_number(rng, &line),
        4 => spoiled_byte(rng, &line),
        _ => line,
    };
    let length = rng.below(20);
    text.extend(rng.bytes(length));
    text
}
