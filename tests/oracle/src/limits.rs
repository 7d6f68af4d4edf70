//! The sizes of document 01. Most follow from the most bases of a net.

pub const FEWEST_BASES: usize = 2;
pub const MOST_BASES: usize = 16;
pub const MOST_LINKS: usize = MOST_BASES - 1;

/// "Announce and Verify together are at most n + 1": the room of a link's list in the record.
pub const LIST_ROOM: usize = MOST_BASES + 1;

/// "always 4 × count + 4": the bytes of a frame of so many identifiers.
pub const fn frame_bytes(count: usize) -> usize {
    4 * count + 4
}

pub const LONGEST_FRAME: usize = frame_bytes(MOST_BASES);

/// "A call broadcasts at most three frames, one after another in the output, 136 bytes at most."
pub const OUTPUT_ROOM: usize = 2 * LONGEST_FRAME;

/// "The burst is shorter than 8 or longer than 132 bytes."
pub const SHORTEST_BURST: usize = frame_bytes(1);
pub const LONGEST_BURST: usize = LONGEST_FRAME + 64;

/// "a burst to b as if from a, 0 to 132 bytes": what a schedule's line takes.
pub const LONGEST_FORGERY: usize = 132;

pub const LONGEST_SCHEDULE: usize = 65_536;

/// What a replay asks to be lent (docs/DECISIONS.md): room for the line of each base and for the last line. No report takes as much.
pub const LINE_ROOM: usize = 37 + 11 * MOST_BASES;
pub const REPORT_ROOM: usize = (MOST_BASES + 1) * LINE_ROOM;

/// "t is at most (n − 2) / 2 rounded down"
pub const fn most_faulty(n: usize) -> usize {
    (n - 2) / 2
}

/// Document 02, request 1: "List every set of at most t links for up to 6 bases".
pub const SMALL_BASES: usize = 6;
pub const SMALL_FAULTY: usize = most_faulty(SMALL_BASES);
const SMALL_PAIRS: usize = SMALL_BASES * (SMALL_BASES - 1) / 2;

/// The sets of a net of so many bases: none, one or two of its links.
pub const SMALL_SETS: usize = 1 + SMALL_PAIRS + SMALL_PAIRS * (SMALL_PAIRS - 1) / 2;

/// What the printed sets ask to be lent (include/roster.h): room for a line of each set and of each of its links. No list takes as much.
pub const FAULTY_TEXT_ROOM: usize = SMALL_SETS * (25 + 15 * SMALL_FAULTY);

/// "Link k of base b goes to base k if k < b, else to base k + 1."
pub fn base_at(b: usize, link: usize) -> usize {
    if link < b {
        link
    } else {
        link + 1
    }
}

/// The link of base `b` that goes to base `other`.
pub fn link_to(b: usize, other: usize) -> usize {
    if other < b {
        other
    } else {
        other - 1
    }
}

#[cfg(test)]
mod tests {
    use super::*;

    #[test]
    fn links_and_bases_undo_each_other() {
        for n in FEWEST_BASES..=MOST_BASES {
            for b in 1..=n {
                let others: Vec<usize> = (1..n).map(|link| base_at(b, link)).collect();
                assert_eq!(others, (1..=n).filter(|&other| other != b).collect::<Vec<_>>());
                assert!((1..n).all(|link| link_to(b, base_at(b, link)) == link));
            }
        }
    }

    #[test]
    fn sizes_are_those_of_the_header() {
        use crate::roster;
        assert_eq!((FEWEST_BASES, MOST_BASES, LIST_ROOM), (roster::FEWEST_BASES, roster::MOST_BASES, roster::LIST_ROOM));
        assert_eq!((OUTPUT_ROOM, LONGEST_FRAME, REPORT_ROOM), (roster::OUTPUT_ROOM, roster::LONGEST_FRAME, roster::REPORT_ROOM));
        assert_eq!((SHORTEST_BURST, LONGEST_BURST), (roster::SHORTEST_BURST, roster::LONGEST_BURST));
        assert_eq!(LONGEST_SCHEDULE, roster::LONGEST_SCHEDULE);
        assert_eq!((SMALL_BASES, SMALL_FAULTY, SMALL_SETS), (roster::SMALL_BASES, roster::SMALL_FAULTY, roster::SMALL_SETS));
        assert_eq!(FAULTY_TEXT_ROOM, roster::FAULTY_TEXT_ROOM);
    }

    #[test]
    fn figures_of_document_01() {
        assert_eq!([2, 3, 4, 5, 6, 12, 15, 16].map(most_faulty), [0, 0, 1, 1, 2, 5, 6, 7]);
        assert_eq!((OUTPUT_ROOM, SHORTEST_BURST, LONGEST_BURST), (136, 8, 132));
        let line = |b: usize| format!("base {b} secondary{} leader 4294967295\n", " 4294967295".repeat(MOST_BASES)).len();
        let waiting = format!("waiting {}\n", MOST_BASES * MOST_LINKS * (MOST_BASES + 3)).len();
        assert!((1..=MOST_BASES).map(line).sum::<usize>() + waiting <= REPORT_ROOM);
    }
}
