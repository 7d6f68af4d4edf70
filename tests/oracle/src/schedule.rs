//! The form of a schedule's lines: "Lines end in a line feed; single spaces; decimal without leading zeros, at most 4,294,967,295".

use crate::faults::Fault;
use crate::limits::{LONGEST_FORGERY, OUTPUT_ROOM};
use crate::net::{Event, History};
use std::fmt::Write;

/// A line in its form, its numbers not yet held against the net.
#[derive(Clone, Debug, PartialEq, Eq)]
pub enum Line {
    Net { n: u32, t: u32 },
    Id { b: u32, v: u32 },
    Faulty { a: u32, b: u32 },
    Start { b: u32 },
    Carry { a: u32, b: u32, k: u32 },
    Forge { a: u32, b: u32, bytes: Vec<u8> },
}

/// The lines of a schedule with their numbers; `Err` for one that has no line feed.
pub fn lines(schedule: &[u8]) -> impl Iterator<Item = (usize, Result<&[u8], &[u8]>)> {
    schedule.split_inclusive(|&byte| byte == b'\n').enumerate().map(|(i, line)| (i + 1, line.strip_suffix(b"\n").ok_or(line)))
}

/// The line's form, or nothing where it breaks it.
pub fn parse(line: &[u8], fault: Fault) -> Option<Line> {
    let text = std::str::from_utf8(line).ok()?;
    let words: Vec<&str> = match fault {
        Fault::DoubleSpaces => text.split(' ').filter(|word| !word.is_empty()).collect(),
        _ => text.split(' ').collect(),
    };
    let number = |word: &str| decimal(word, fault);
    match words[..] {
        ["net", n, t] => Some(Line::Net { n: number(n)?, t: number(t)? }),
        ["id", b, v] => Some(Line::Id { b: number(b)?, v: number(v)? }),
        ["faulty", a, b] => Some(Line::Faulty { a: number(a)?, b: number(b)? }),
        ["start", b] => Some(Line::Start { b: number(b)? }),
        ["carry", a, b, k] => Some(Line::Carry { a: number(a)?, b: number(b)?, k: number(k)? }),
        ["forge", a, b, hex] => Some(Line::Forge { a: number(a)?, b: number(b)?, bytes: hex_bytes(hex, fault)? }),
        ["forge", a, b] if fault == Fault::ForgeWithoutSpace => Some(Line::Forge { a: number(a)?, b: number(b)?, bytes: Vec::new() }),
        _ => None,
    }
}

fn decimal(word: &str, fault: Fault) -> Option<u32> {
    let digits = !word.is_empty() && word.bytes().all(|byte| byte.is_ascii_digit());
    let leading = word.len() > 1 && word.starts_with('0') && fault != Fault::LeadingZeros;
    if !digits || leading {
        return None;
    }
    if fault == Fault::NumbersWrap {
        return Some(word.bytes().fold(0u32, |value, digit| value.wrapping_mul(10).wrapping_add((digit - b'0') as u32)));
    }
    word.parse().ok()
}

/// "0 to 132 bytes, two lower-case digits each, after one space"
fn hex_bytes(word: &str, fault: Fault) -> Option<Vec<u8>> {
    let most = LONGEST_FORGERY + usize::from(fault == Fault::ForgeOneByteLonger);
    let lower = |byte: u8| matches!(byte, b'0'..=b'9' | b'a'..=b'f') || (fault == Fault::UpperCaseHex && byte.is_ascii_hexdigit());
    if !word.len().is_multiple_of(2) || word.len() / 2 > most || !word.bytes().all(lower) {
        return None;
    }
    (0..word.len()).step_by(2).map(|i| u8::from_str_radix(&word[i..i + 2], 16).ok()).collect()
}

/// The history as a schedule. A burst too long for a line, and a call with too short an output, have no line: they change nothing.
pub fn render(history: &History) -> String {
    let setting = &history.setting;
    let mut text = format!("net {} {}\n", setting.n(), setting.t);
    for (i, id) in setting.ids.iter().enumerate() {
        let _ = writeln!(text, "id {} {id}", i + 1);
    }
    for (a, b) in &setting.faulty {
        let _ = writeln!(text, "faulty {a} {b}");
    }
    for (event, room) in &history.events {
        if *room >= OUTPUT_ROOM {
            text.push_str(&event_line(event));
        }
    }
    text
}

pub fn event_line(event: &Event) -> String {
    match event {
        Event::Start { at } => format!("start {at}\n"),
        Event::Carry { from, to, k } => format!("carry {from} {to} {k}\n"),
        Event::Forge { bytes, .. } if bytes.len() > LONGEST_FORGERY => String::new(),
        Event::Forge { from, to, bytes } => {
            let hex: String = bytes.iter().map(|byte| format!("{byte:02x}")).collect();
            format!("forge {from} {to} {hex}\n")
        }
    }
}
