//! Why a line of a schedule is refused, in the trace's words, worked out from the text of the schedule.

use crate::faults::Fault;
use crate::limits::{most_faulty, LONGEST_FORGERY, LONGEST_SCHEDULE};
use crate::reader::Number;
use crate::refusal::{BASES, CARRIED_BEFORE, FAULTY_LIMIT, FAULTY_LINKS, FORM, NOT_BROADCAST, OWN_IDENTIFIER, SAME_IDENTIFIER};
use crate::replay::{self, Refused};

/// Bytes of a line or a field that the trace shows.
const SHOWN: usize = 80;
const LAST: usize = 20;
/// The words of lines, with the names of their fields.
const FORMS: [(&str, &[&str]); 6] = [
    ("net", &["n", "t"]),
    ("id", &["b", "v"]),
    ("faulty", &["a", "b"]),
    ("start", &["b"]),
    ("carry", &["a", "b", "k"]),
    ("forge", &["a", "b", "hex"]),
];

/// The refused line as the trace shows it, and the causes under the number.
pub fn told(schedule: &[u8], refused: Refused) -> (String, Vec<String>) {
    let all: Vec<&[u8]> = schedule.split_inclusive(|&byte| byte == b'\n').collect();
    let here = all.get(refused.line - 1).copied().unwrap_or_default();
    let text = here.strip_suffix(b"\n").unwrap_or(here);
    let before: Vec<String> = all.iter().take(refused.line - 1).map(|line| plain(line)).collect();
    let line = Line { number: refused.line, before, words: plain(text).split(' ').map(str::to_string).collect() };
    let causes = match refused.number {
        FORM if schedule.len() > LONGEST_SCHEDULE => vec!["the schedule has more than 65,536 bytes".to_string()],
        FORM if all.len() < refused.line => vec![format!("the schedule ends before line {}", refused.line), line.belongs()],
        FORM => {
            let at = all.iter().take(refused.line - 1).map(|line| line.len()).sum();
            let cause = encoding(&schedule[at..]).or_else(|| comment(here)).or_else(|| bytes(here));
            cause.map_or_else(|| line.form(here.ends_with(b"\n")), |cause| vec![cause])
        }
        number => vec![line.cause(number, schedule)],
    };
    let (seen, rest) = cut(text);
    (format!("line {}: {seen}{rest}", refused.line), causes)
}

/// A byte a char, without the line feed.
fn plain(line: &[u8]) -> String {
    line.iter().filter(|&&byte| byte != b'\n').map(|&byte| byte as char).collect()
}

/// What is seen of a line or a field, and what is said of the rest.
fn cut(text: &[u8]) -> (String, String) {
    let all = |bytes: &[u8]| bytes.iter().map(|&byte| visible(byte)).collect::<String>();
    let first = |bytes: &[u8]| all(&bytes[..SHOWN - LAST]);
    match text.len() {
        ..=SHOWN => (all(text), String::new()),
        length if length > LONGEST_SCHEDULE => {
            (format!("{} ...", first(text)), format!(" (more than {} bytes)", grouped(LONGEST_SCHEDULE)))
        }
        length => (format!("{} ... {}", first(text), all(&text[length - LAST..])), format!(" ({} bytes)", grouped(length))),
    }
}

/// `65,536`
fn grouped(count: usize) -> String {
    match count {
        ..1000 => count.to_string(),
        _ => format!("{},{:03}", count / 1000, count % 1000),
    }
}

/// The word in backquotes.
fn quoted(word: &str) -> String {
    // a char a byte
    let bytes: Vec<u8> = word.chars().map(|char| char as u8).collect();
    let (seen, rest) = cut(&bytes);
    format!("`{seen}`{rest}")
}

fn visible(byte: u8) -> String {
    match byte {
        b'\\' => "\\\\".to_string(),
        b' '..=b'~' => (byte as char).to_string(),
        b'\t' => "\\t".to_string(),
        b'\r' => "\\r".to_string(),
        _ => format!("\\x{byte:02x}"),
    }
}

/// `1 field`, `2 fields`
fn counted(count: usize, thing: &str) -> String {
    format!("{count} {thing}{}", if count == 1 { "" } else { "s" })
}

/// What an editor puts before a text, or makes of it; of an empty line in UTF-16 the next one tells it. From the line's beginning on.
fn encoding(text: &[u8]) -> Option<String> {
    if text.starts_with(b"\xef\xbb\xbf") {
        return Some("a byte-order mark (\\xef\\xbb\\xbf) stands at the beginning".to_string());
    }
    let zeros = |from| text.get(from..from + 4).map(|four| [0, 1, 2, 3].map(|i| four[i] == 0));
    let wide = |from| [[true, false, true, false], [false, true, false, true]].map(Some).contains(&zeros(from));
    // without a mark, or behind one
    (wide(0) || wide(2)).then(|| "the text is in UTF-16, and each sign of a line is one byte".to_string())
}

fn comment(line: &[u8]) -> Option<String> {
    let place = line.iter().position(|&byte| byte == b'#')?;
    Some(format!("byte {} is `#`, and a schedule has no comments", place + 1))
}

/// Of a line with its line feed: the first byte before it that does not print.
fn bytes(line: &[u8]) -> Option<String> {
    let place = line.iter().position(|byte| !(b' '..=b'~').contains(byte)).filter(|&place| line[place] != b'\n')?;
    Some(match &line[place..] {
        [b'\r', ..] => format!("byte {} is a carriage return (\\r), and only a line feed ends a line", place + 1),
        [b'\t', ..] => format!("byte {} is a tab (\\t), and one space separates two words", place + 1),
        [byte, ..] if byte.is_ascii() => format!("byte {} is `{}`, a control character, and a line has none", place + 1, visible(*byte)),
        _ => format!("byte {} is `{}`, and a line has signs of ASCII alone", place + 1, visible(line[place])),
    })
}

struct Line {
    number: usize,
    before: Vec<String>,
    words: Vec<String>,
}

impl Line {
    fn word(&self, i: usize) -> &str {
        self.words.get(i).map_or("", String::as_str)
    }

    /// The word of the line before the event lines, 0 in the net's own line.
    fn n(&self) -> usize {
        self.before.first().and_then(|net| net.split(' ').nth(1)?.parse().ok()).unwrap_or(0)
    }

    fn base(&self, i: usize) -> usize {
        self.word(i).parse().unwrap_or(0)
    }

    fn is(&self, names: &[&str], i: usize) -> String {
        format!("{} is {}", names[i - 1], quoted(self.word(i)))
    }

    fn cause(&self, number: Number, schedule: &[u8]) -> String {
        let (a, b) = (self.base(1), self.base(2));
        match number {
            BASES => format!("n is `{}`", self.word(1)),
            FAULTY_LIMIT => format!("t is `{b}`, and with so many bases t is at most {}", most_faulty(a)),
            OWN_IDENTIFIER => "an identifier is above zero".to_string(),
            SAME_IDENTIFIER => {
                let has_it = |line: &String| line.starts_with("id ") && line.split(' ').nth(2) == Some(self.word(2));
                format!("line {} has it for another base", self.first(has_it))
            }
            FAULTY_LINKS => match self.before[0].split(' ').nth(2).unwrap_or_default() {
                "0" => "t is 0, so no link may be named faulty".to_string(),
                "1" => "t is 1, and 1 is named already".to_string(),
                t => format!("t is {t}, and {t} are named already"),
            },
            NOT_BROADCAST => {
                format!("a is `{a}`, and up to here that base has broadcast {}", counted(self.broadcasts(schedule, a), "message"))
            }
            CARRIED_BEFORE => format!("line {} is that carry", self.first(|line| *line == self.words.join(" "))),
            _ => format!("the header has no line `faulty {} {}`", a.min(b), a.max(b)),
        }
    }

    fn first(&self, wanted: impl Fn(&String) -> bool) -> usize {
        self.before.iter().position(wanted).map_or(0, |place| place + 1)
    }

    fn broadcasts(&self, schedule: &[u8], a: usize) -> usize {
        let length: usize = self.before.iter().map(|line| line.chars().count() + 1).sum();
        replay::replay(&schedule[..length], Fault::None).map_or(0, |net| net.logs[a - 1].len())
    }

    fn belongs(&self) -> String {
        match self.number {
            1 => "the first line is `net n t`".to_string(),
            number => format!("here belongs the line of base {}, `id b v`", number - 1),
        }
    }

    /// The spaces, the word, the fields.
    fn form(&self, ended: bool) -> Vec<String> {
        if !ended {
            return vec!["no line feed stands at the end".to_string()];
        }
        let Some(&(word, names)) = FORMS.iter().find(|(word, _)| *word == self.word(0)) else {
            return vec![self.spaces().unwrap_or_else(|| self.unknown())];
        };
        if let Some(cause) = self.spaces().or_else(|| self.misplaced(word)) {
            return vec![cause];
        }
        let fields = self.words.len() - 1;
        if fields == names.len() {
            let of_another = (word == "id" && self.number <= self.n() + 1).then(|| self.line_of_base()).flatten();
            return std::iter::once(self.fields(word, names)).chain(of_another).collect();
        }
        let has = counted(fields, "field");
        let mut causes = vec![format!("the form is `{word} {}`, and the line has {has} behind its word", names.join(" "))];
        if (word, fields) == ("forge", 2) && self.is_base(2) {
            causes.push("the space before hex stands even where there are no bytes".to_string());
        }
        if word == "forge" && fields > 3 {
            let place = self.words[..4].join(" ").len() + 1;
            causes.push(format!("byte {place} is a space, and the digits of hex stand together"));
        }
        causes
    }

    /// In the header, of a base whose line stands before.
    fn line_of_base(&self) -> Option<String> {
        let b = self.base(1);
        let numbers = (1..=2).all(|i| self.number_fault(i).is_none());
        (numbers && 0 < b && b + 1 < self.number).then(|| format!("line {} is the line of base {b}", b + 1))
    }

    fn unknown(&self) -> String {
        let word = self.word(0);
        if self.words.join(" ").is_empty() {
            return "the line is empty".to_string();
        }
        format!("there is no word {}, only `net`, `id`, `faulty`, `start`, `carry` and `forge`, in small letters", quoted(word))
    }

    fn spaces(&self) -> Option<String> {
        let text = self.words.join(" ");
        let at_end = |number: usize| format!("byte {number} is a space at the end of the line, where none may stand");
        let too_many = |place: usize| match text[place..].trim_start_matches(' ') {
            "" => at_end(place + 1),
            _ => format!("byte {} is a space too many", place + 1),
        };
        if text.starts_with(' ') {
            return Some(too_many(0));
        }
        if let Some(place) = text.find("  ") {
            return Some(too_many(place + 1));
        }
        if !text.ends_with(' ') {
            return None;
        }
        let last = self.words.len() - 1;
        match FORMS.iter().find(|(word, _)| *word == self.word(0)) {
            Some(("forge", _)) if last == 3 => None,
            Some((word, names)) if last <= names.len() => {
                Some(format!("{} is missing, and the form is `{word} {}`", names[last - 1], names.join(" ")))
            }
            _ => Some(at_end(text.len())),
        }
    }

    fn misplaced(&self, word: &str) -> Option<String> {
        let n = self.n();
        if self.number <= n + 1 || self.number == 1 {
            let wanted = if self.number == 1 { "net" } else { "id" };
            return (word != wanted).then(|| self.belongs());
        }
        let events = self.before.iter().any(|line| ["start ", "carry ", "forge "].iter().any(|event| line.starts_with(event)));
        match word {
            "net" => Some("the net is named in line 1".to_string()),
            "faulty" if events => Some("faulty links are named before the first event".to_string()),
            _ => None,
        }
    }

    /// What keeps a field from being a decimal number.
    fn number_fault(&self, i: usize) -> Option<&'static str> {
        let value = self.word(i);
        if value.is_empty() || !value.bytes().all(|byte| byte.is_ascii_digit()) {
            return Some("not digits alone");
        }
        if value.len() > 1 && value.starts_with('0') {
            return Some("with a leading zero");
        }
        value.parse::<u32>().is_err().then_some("above 4,294,967,295")
    }

    fn is_base(&self, i: usize) -> bool {
        self.number_fault(i).is_none() && (1..=self.n()).contains(&self.base(i))
    }

    /// As many fields as the form asks, the first that is wrong.
    fn fields(&self, word: &str, names: &[&str]) -> String {
        for i in (1..=names.len()).filter(|&i| names[i - 1] != "hex") {
            if let Some(fault) = self.number_fault(i) {
                return format!("{}, {fault}", self.is(names, i));
            }
        }
        self.hex(word).unwrap_or_else(|| self.against_the_net(word, names))
    }

    fn hex(&self, word: &str) -> Option<String> {
        let digits = self.word(3);
        if word != "forge" {
            return None;
        }
        if let Some(place) = digits.bytes().position(|byte| !matches!(byte, b'0'..=b'9' | b'a'..=b'f')) {
            let sign = digits.as_bytes()[place];
            let fault = if matches!(sign, b'A'..=b'F') { "hex is in small letters" } else { "hex has 0 to 9 and a to f" };
            let number = self.words.join(" ").len() - digits.len() + place + 1;
            return Some(format!("byte {number} is `{}`, and {fault}", visible(sign)));
        }
        if digits.len() % 2 == 1 {
            return Some(format!("hex has {}, and a byte has two", counted(digits.len(), "digit")));
        }
        let bytes = digits.len() / 2;
        (bytes > LONGEST_FORGERY).then(|| format!("hex has {bytes} bytes, and at most {LONGEST_FORGERY} are allowed"))
    }

    fn against_the_net(&self, word: &str, names: &[&str]) -> String {
        let n = self.n();
        if word == "id" && self.number <= n + 1 {
            return format!("{}, and here belongs the line of base {}", self.is(names, 1), self.number - 1);
        }
        if word == "id" && self.is_base(1) {
            return format!("{}, and that base has its line already, line {}", self.is(names, 1), self.base(1) + 1);
        }
        for i in (1..=names.len()).filter(|&i| ["a", "b"].contains(&names[i - 1])) {
            if !self.is_base(i) {
                return format!("{}, and the net has bases 1 to {n}", self.is(names, i));
            }
        }
        match self.base(1).cmp(&self.base(2)) {
            std::cmp::Ordering::Equal => "a and b are the same base".to_string(),
            _ if word == "carry" => "k is 0, and broadcasts are numbered from 1".to_string(),
            std::cmp::Ordering::Greater => "a is above b, and the smaller base comes first".to_string(),
            _ => format!("line {} names that link", self.first(|line| *line == self.words.join(" "))),
        }
    }
}
