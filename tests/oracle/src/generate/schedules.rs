//! Schedules: those of whole histories, small ones made line by line, and both damaged.

use crate::case::Case;
use crate::generate::bursts;
use crate::generate::histories;
use crate::limits::{most_faulty, FEWEST_BASES, LONGEST_FORGERY, MOST_BASES, REPORT_ROOM};
use crate::rng::Rng;
use crate::schedule::render;

pub fn schedule(rng: &mut Rng) -> Case {
    let schedule = text(rng);
    let room = if rng.chance(1, 50) { rng.below(REPORT_ROOM) } else { REPORT_ROOM + rng.below(50) };
    Case::Replay { schedule, out: rng.bytes(room), expect: None }
}

pub fn text(rng: &mut Rng) -> Vec<u8> {
    let mut text = match rng.below(8) {
        0 => render(&histories::history(rng)).into_bytes(),
        _ => line_by_line(rng),
    };
    for _ in 0..[0, 0, 1, 1, 1, 2, 3][rng.below(7)] {
        damage(rng, &mut text);
    }
    text
}

/// A small schedule in which most lines are right.
fn line_by_line(rng: &mut Rng) -> Vec<u8> {
    let n = if rng.chance(1, 15) { rng.below(MOST_BASES + 4) } else { rng.within(FEWEST_BASES, 5) };
    let t = if rng.chance(1, 15) { rng.below(4) } else { most_faulty(n.max(FEWEST_BASES)) };
    let mut text = format!("net {n} {t}\n");
    let listed = if rng.chance(1, 15) { rng.within(0, n + 1) } else { n };
    for b in 1..=listed {
        let value = if rng.chance(1, 30) { rng.below(4) } else { 100 * b + rng.below(100) };
        text += &format!("id {b} {value}\n");
    }
    let named = if rng.chance(1, 4) { rng.below(t + 2) } else { t };
    for _ in 0..named {
        let (a, b) = (rng.within(1, n + 1), rng.within(1, n + 1));
        text += &format!("faulty {} {}\n", a.min(b), a.max(b + usize::from(a == b)));
    }
    let mut sent = vec![0; n + 2];
    for _ in 0..rng.below(40) {
        text += &event(rng, n, &mut sent);
    }
    text.into_bytes()
}

/// An event that is mostly in order: `sent` guesses how many broadcasts each base has.
fn event(rng: &mut Rng, n: usize, sent: &mut [usize]) -> String {
    let (a, b) = (rng.within(1, n.max(1)), rng.within(1, n.max(1)));
    match rng.below(8) {
        0 => {
            sent[b] = 2;
            format!("start {b}\n")
        }
        1 => {
            let bytes = if n >= FEWEST_BASES { bursts::damaged(rng, n.min(MOST_BASES)) } else { rng.bytes(8) };
            let hex: String = bytes.iter().take(LONGEST_FORGERY + 1).map(|byte| format!("{byte:02x}")).collect();
            format!("forge {a} {b} {hex}\n")
        }
        _ if a == b && rng.chance(9, 10) => String::new(),
        _ if sent[a] == 0 && rng.chance(9, 10) => String::new(),
        _ => {
            sent[b] = sent[b].max(2);
            format!("carry {a} {b} {}\n", rng.within(usize::from(rng.clone().chance(19, 20)), sent[a] + 1))
        }
    }
}

/// One fault in the text: a line dropped, doubled, moved or cut, a number or a space changed, any byte changed.
fn damage(rng: &mut Rng, text: &mut Vec<u8>) {
    let mut lines: Vec<Vec<u8>> = text.split_inclusive(|&byte| byte == b'\n').map(<[u8]>::to_vec).collect();
    if lines.is_empty() {
        text.push(rng.byte());
        return;
    }
    let reach = if rng.chance(1, 2) { lines.len() } else { lines.len().min(8) };
    let (i, j) = (rng.below(reach), rng.below(reach));
    match rng.below(9) {
        0 => drop(lines.remove(i)),
        1 => lines.insert(i, lines[j].clone()),
        2 => lines.swap(i, j),
        3 => lines.truncate(i),
        4 => lines[i] = spoiled_line(rng, &lines[i]),
        5 => lines[i] = spoiled_number(rng, &lines[i]),
        6 => lines.insert(i, odd_line(rng)),
        7 => {
            let last = lines.len() - 1;
            let end = rng.below(lines[last].len());
            lines[last].truncate(end);
        }
        _ => lines[i] = spoiled_byte(rng, &lines[i]),
    }
    *text = lines.concat();
}

pub fn spoiled_line(rng: &mut Rng, line: &[u8]) -> Vec<u8> {
    let text = String::from_utf8_lossy(line).into_owned();
    let changed = match rng.below(11) {
        0 => text.replacen(' ', "  ", 1),
        1 => text.replace('\n', " \n"),
        2 => text.replace('\n', "\r\n"),
        3 => format!(" {text}"),
        4 => text.replacen(' ', "\t", 1),
        5 => text.to_uppercase(),
        6 => text.trim_end().to_string(),
        7 => text.replace('\n', "\n\n"),
        8 => text.trim_end().rsplit_once(' ').map_or(String::new(), |(front, _)| format!("{front}\n")),
        9 => text.rsplit_once(' ').map_or(String::new(), |(front, last)| format!("{front} {}", last.to_uppercase())),
        _ => text.replace('\n', " 1\n"),
    };
    changed.into_bytes()
}

pub fn spoiled_number(rng: &mut Rng, line: &[u8]) -> Vec<u8> {
    let text = String::from_utf8_lossy(line).into_owned();
    let mut words: Vec<String> = text.trim_end().split(' ').map(str::to_string).collect();
    let at = rng.below(words.len());
    let word = words[at].clone();
    let value: u64 = word.parse().unwrap_or(0);
    words[at] = match rng.below(9) {
        0 => format!("0{word}"),
        1 => format!("+{word}"),
        2 => format!("{}", value + (1 << 32)),
        3 => "4294967295".to_string(),
        4 => "4294967296".to_string(),
        5 => "0".to_string(),
        6 => format!("{}", value + 1),
        7 => format!("{}", value.saturating_sub(1)),
        _ => format!("{}", rng.word()),
    };
    (words.join(" ") + "\n").into_bytes()
}

pub fn spoiled_byte(rng: &mut Rng, line: &[u8]) -> Vec<u8> {
    let mut bytes = line.to_vec();
    let at = rng.below(bytes.len());
    match rng.below(3) {
        0 => bytes[at] = rng.byte(),
        1 => drop(bytes.remove(at)),
        _ => bytes.insert(at, *rng.pick(b" 0123456789abcdefg\n\r\0-+")),
    }
    bytes
}

/// A line out of place, or none at all.
fn odd_line(rng: &mut Rng) -> Vec<u8> {
    let headers = ["\n", "net 2 0\n", "id 1 7\n", "faulty 1 2\n", "faulty 2 1\n", "faulty 1 1\n", "base 1\n", "# note\n", " \n"];
    let events = ["forge 1 2 \n", "forge 1 2\n", "forge 2 1 AB\n", "forge 2 1 0\n", "carry 1 1 1\n", "carry 1 2 0\n", "carry 1 2\n"];
    let starts = ["start 0\n", "start 1 \n", "starts 1\n", &format!("start {}\n", MOST_BASES + 1)];
    let long = format!("forge 1 2 {}\n", "00".repeat(rng.within(LONGEST_FORGERY - 1, LONGEST_FORGERY + 2)));
    match rng.below(6) {
        0 | 1 => headers[rng.below(headers.len())].into(),
        2 => events[rng.below(events.len())].into(),
        3 => starts[rng.below(starts.len())].into(),
        _ => long.into_bytes(),
    }
}
