//! One small schedule with each line written wrong in every way that document 01 rules out, and the refusal that it earns.

use crate::case::Case;
use crate::limits::{LONGEST_FORGERY, LONGEST_SCHEDULE, MOST_BASES, REPORT_ROOM};

const LINES: [&str; 8] = ["net 4 1", "id 1 40", "id 2 10", "id 3 30", "id 4 20", "faulty 2 3", "start 1", "carry 1 2 1"];

/// Base 1 has broadcast two frames to three good links, one of them carried; base 2 three frames to two good links.
const REPORT: &str = "base 1 running\nbase 2 running\nbase 3 idle\nbase 4 idle\nwaiting 11\n";

/// A line, what stands there instead, and the number. MOST stands for the most bases of a net, OVER for one more.
#[rustfmt::skip]
const WRONG: &[(usize, &[&str], u8)] = &[
    (1, &["", "net", "net 4", "net 4 1 ", " net 4 1", "net  4 1", "net 4  1", "net 04 1", "net 4 01", "net +4 1", "net 4 -1",
        "net 4 4294967296", "NET 4 1", "net 4 1 1", "nets 4 1", "net\t4 1", "net 4 1\r", "net 4 1\0", "net 4294967300 1", "net four 1",
        "id 1 40", "start 1", "net 4 "], 13),
    (1, &["net 0 0", "net 1 0", "net OVER 0", "net OVER 99", "net 258 0", "net 4294967295 4294967295", "net 1 9"], 1),
    (1, &["net 4 2", "net 2 1", "net MOST MOST", "net 4 4294967295", "net 3 1"], 2),
    (2, &["id 2 40", "id 0 40", "id 1", "id 1 40 ", "id 1 040", "id 01 40", "id 1 4294967296", "id 1  40", "id 1 4 0", "ID 1 40",
        "id 1 0x40", "faulty 1 2", "start 1", "", "id 1 00", "id 2 0", "net 4 1", "id 4294967297 40"], 13),
    (2, &["id 1 0"], 3),
    (3, &["id 1 10", "id 3 10", "id 1 40", "id 2 10\r", "carry 1 2 1"], 13),
    (3, &["id 2 40"], 14),
    (3, &["id 2 0"], 3),
    (5, &["id 5 20", "faulty 2 3", "start 1"], 13),
    (5, &["id 4 40", "id 4 10", "id 4 30"], 14),
    (6, &["faulty 3 2", "faulty 2 2", "faulty 0 2", "faulty 2 5", "faulty 2 3 ", "faulty 2", "faulty 2 3 4", "id 5 7", "id 4 20",
        "net 4 1", "", "fault 2 3", "faulty 02 3", "faulty 4294967298 3"], 13),
    (7, &["faulty 2 3", "faulty 3 2", "faulty 1 1", "faulty 1 5", "start 0", "start 5", "start", "start 1 ", "start 1 2", "start 01",
        "start +1", "Start 1", "start  1", "start 4294967297", "base 1"], 13),
    (7, &["faulty 1 2", "faulty 1 4"], 15),
    (7, &["carry 1 2 1", "carry 4 3 4294967295"], 16),
    (8, &["faulty 1 4", "faulty 2 3", "carry 1 1 1", "carry 1 5 1", "carry 5 1 1", "carry 0 1 1", "carry 1 0 1", "carry 1 2 0",
        "carry 1 2 01", "carry 1 2", "carry 1 2 1 ", "carry 1 2 1 1", "carry 1 2 4294967296", "carry 1 2 4294967297", "carry 1  2 1",
        "carry 1 2 a", "id 1 40", "net 4 1", ""], 13),
    (8, &["carry 1 2 3", "carry 3 1 1", "carry 2 3 1", "carry 1 2 4294967295"], 16),
    (8, &["forge 1 2", "forge 1 2 0", "forge 1 2 AB", "forge 2 3 aB", "forge 2 3 0g", "forge 2 3", "forge 2 3  ", "forge 2 3 00 ",
        "forge 2 3 00 00", "forge 2 2 00", "forge 2 5 00", "forge 0 2 00", "forge 1 1 ", "forge 2 3 0", "forge 2 3 000",
        "forge 02 3 00", "forge  2 3 00", "forge 2 3 \u{e9}"], 13),
    (8, &["forge 1 2 ", "forge 2 1 00", "forge 4 3 0000000a01010008"], 18),
];

/// Lines that change nothing where they follow: a start of a running base, and forged bursts that are refused.
const IDLE_TALK: &[&str] =
    &["start 1", "start 2", "forge 2 3 ", "forge 3 2 00", "forge 2 3 0000000001010008", "forge 3 2 0000000a05010008"];

pub fn schedules() -> Vec<Case> {
    let mut cases = vec![case(LINES.join("\n") + "\n", REPORT.to_string())];
    for &(line, texts, number) in WRONG {
        for text in texts {
            let text = filled(text);
            let mut lines = LINES;
            lines[line - 1] = &text;
            cases.push(case(lines.join("\n") + "\n", refused(number, line)));
        }
    }
    for text in IDLE_TALK {
        cases.push(case(format!("{}\n{text}\n", LINES.join("\n")), REPORT.to_string()));
    }
    cases.extend(ends());
    cases
}

/// Every first line that is wrong, without its line feed, and the number.
pub fn net_lines() -> Vec<(String, u8)> {
    let first = WRONG.iter().filter(|&&(line, ..)| line == 1);
    first.flat_map(|&(_, texts, number)| texts.iter().map(move |text| (filled(text), number))).collect()
}

fn filled(text: &str) -> String {
    text.replace("MOST", &MOST_BASES.to_string()).replace("OVER", &(MOST_BASES + 1).to_string())
}

/// Schedules that end too early, or without a line feed, or repeat a carry, or have the longest forged burst.
fn ends() -> Vec<Case> {
    let all = LINES.join("\n");
    let mut cases = Vec::new();
    for kept in 0..=8 {
        let text = LINES[..kept].iter().map(|line| format!("{line}\n")).collect::<String>();
        if kept < 5 {
            cases.push(case(text.clone(), refused(13, kept + 1)));
        }
        if kept > 0 {
            cases.push(case(text.trim_end().to_string(), refused(13, kept)));
        }
        cases.push(case(format!("{text}\n"), refused(13, kept + 1)));
    }
    let idle = "base 1 idle\nbase 2 idle\nbase 3 idle\nbase 4 idle\nwaiting 0\n";
    cases.push(case(LINES[..5].join("\n") + "\n", idle.to_string()));
    cases.push(case(LINES[..6].join("\n") + "\n", idle.to_string()));
    cases.push(case(format!("{all}\ncarry 1 2 1\n"), refused(17, 9)));
    cases.push(case(format!("{all}\ncarry 2 3 1\ncarry 2 3 1\n"), report_of_a_repeat()));
    cases.push(case(format!("{all}\nforge 2 3 {}\n", "00".repeat(LONGEST_FORGERY)), REPORT.to_string()));
    cases.push(case(format!("{all}\nforge 2 3 {}\n", "00".repeat(LONGEST_FORGERY + 1)), refused(13, 9)));
    cases.push(case(format!("{all}\nforge 1 2 {}\n", "00".repeat(LONGEST_FORGERY + 1)), refused(13, 9)));
    cases.push(case(all.replace('\n', "\r\n") + "\r\n", refused(13, 1)));
    cases.push(case(format!("{all}\n\nnonsense"), refused(13, 9)));
    cases.extend(lengths());
    cases
}

/// Two bases and starts of the first, up to lengths next to the limit; right, and with a wrong line.
fn lengths() -> Vec<Case> {
    let mut cases = Vec::new();
    for length in LONGEST_SCHEDULE - 2..=LONGEST_SCHEDULE + 3 {
        let digits = (length - 20) % 8 + 8;
        let (first, second) = ("1".repeat(digits / 2), "2".repeat(digits - digits / 2));
        let header = format!("net 2 0\nid 1 {first}\nid 2 {second}\n");
        let text = format!("{header}{}", "start 1\n".repeat((length - header.len()) / 8));
        assert_eq!(text.len(), length);
        let unless_long = |report: String| if length > LONGEST_SCHEDULE { refused(13, 1) } else { report };
        cases.push(case(text.clone(), unless_long("base 1 running\nbase 2 idle\nwaiting 2\n".to_string())));
        cases.push(case(text.replacen("net 2 0", "net 1 0", 1), unless_long(refused(1, 1))));
        cases.push(case(text.replacen("id 1", "id 2", 1), unless_long(refused(13, 2))));
        cases.push(case(text.replacen("start 1", "start 3", 1), unless_long(refused(13, 4))));
    }
    cases
}

/// Base 3 hears base 2's Announce on the faulty link, starts and passes it on: three frames more, to two good links.
fn report_of_a_repeat() -> String {
    "base 1 running\nbase 2 running\nbase 3 running\nbase 4 idle\nwaiting 17\n".to_string()
}

pub fn refused(number: u8, line: usize) -> String {
    format!("refused {number} line {line}\n")
}

fn case(text: String, expect: String) -> Case {
    Case::Replay { schedule: text.into_bytes(), out: vec![0x77; REPORT_ROOM], expect: Some(expect) }
}
