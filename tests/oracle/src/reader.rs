//! "Frames, read from the end": refusals 1 and 7 to 12, in that order.

use crate::faults::Fault;
use crate::limits::{frame_bytes, FEWEST_BASES, LONGEST_BURST, MOST_BASES, SHORTEST_BURST};
use crate::message::{identifier_of, strictly_ascending, Kind, Message};
use crate::refusal;

/// A number of document 01's "Turning calls down", or of a request of document 02.
pub type Number = u8;

#[derive(Clone, Debug, PartialEq, Eq)]
pub struct Frame {
    pub message: Message,
    /// Where the body starts in the burst: "The reader hands back the body as that very stretch of the burst".
    pub start: usize,
}

pub fn net_size(n: usize) -> Result<(), Number> {
    if (FEWEST_BASES..=MOST_BASES).contains(&n) {
        Ok(())
    } else {
        Err(refusal::BASES)
    }
}

pub fn read(n: usize, burst: &[u8], fault: Fault) -> Result<Frame, Number> {
    net_size(n)?;
    let longest = if fault == Fault::BurstOneByteLonger { LONGEST_BURST + 1 } else { LONGEST_BURST };
    if burst.len() < SHORTEST_BURST || burst.len() > longest {
        return Err(refusal::BURST);
    }
    let (front, trailer) = burst.split_at(burst.len() - 4);
    let kind = Kind::of(trailer[0]);
    let count = trailer[1] as usize;
    let distance = u16::from_be_bytes([trailer[2], trailer[3]]) as usize;
    let distance_holds = distance == frame_bytes(count) && distance <= burst.len();
    if fault == Fault::TenBeforeNine && kind.is_some() && !distance_holds {
        return Err(refusal::BACK_DISTANCE);
    }
    let kind = kind.ok_or(refusal::KIND)?;
    if count != kind.count(n) {
        return Err(refusal::COUNT);
    }
    let let_pass = fault == Fault::DistanceNotRead && frame_bytes(count) <= burst.len();
    if !distance_holds && !let_pass {
        return Err(refusal::BACK_DISTANCE);
    }
    let start = if fault == Fault::BodyAtTheFront { 0 } else { burst.len() - frame_bytes(count) };
    let body = &front[start..start + 4 * count];
    let ids: Vec<u32> = body.chunks_exact(4).map(|four| identifier_of(four, fault)).collect();
    judge_identifiers(&ids, fault)?;
    Ok(Frame { message: Message::new(kind, ids), start })
}

/// Refusals 11 and 12.
pub fn judge_identifiers(ids: &[u32], fault: Fault) -> Result<(), Number> {
    let zero = ids.contains(&0) && fault != Fault::ZeroIdentifierRead;
    let unordered = match fault {
        Fault::EqualsAscend => ids.windows(2).any(|two| two[0] > two[1]),
        _ => !strictly_ascending(ids),
    };
    match (zero, unordered) {
        (true, true) if fault == Fault::TwelveBeforeEleven => Err(refusal::NOT_ASCENDING),
        (true, _) => Err(refusal::ZERO_IDENTIFIER),
        (false, true) => Err(refusal::NOT_ASCENDING),
        (false, false) => Ok(()),
    }
}

#[cfg(test)]
mod tests {
    use super::*;

    fn number(n: usize, burst: &[u8]) -> Number {
        read(n, burst, Fault::None).err().unwrap_or(0)
    }

    #[test]
    fn preamble_is_skipped() {
        let mut burst = vec![9; LONGEST_BURST - SHORTEST_BURST];
        burst.extend(Message::Verify(7).frame());
        assert_eq!(read(2, &burst, Fault::None), Ok(Frame { message: Message::Verify(7), start: LONGEST_BURST - SHORTEST_BURST }));
        burst.insert(0, 9);
        assert_eq!(number(2, &burst), 7);
    }

    #[test]
    fn each_refusal() {
        assert_eq!(number(1, &[]), 1);
        assert_eq!(number(MOST_BASES + 1, &[]), 1);
        assert_eq!(number(2, &[0; 7]), 7);
        assert_eq!(number(2, &[0, 0, 0, 1, 0, 1, 0, 8]), 8);
        assert_eq!(number(2, &[0, 0, 0, 1, 5, 1, 0, 8]), 8);
        assert_eq!(number(2, &[0, 0, 0, 1, 1, 2, 0, 12]), 9);
        assert_eq!(number(2, &[0, 0, 0, 1, 3, 1, 0, 8]), 9);
        assert_eq!(number(2, &[0, 0, 0, 1, 1, 1, 0, 9]), 10);
        assert_eq!(number(2, &[0, 0, 0, 1, 1, 1, 1, 8]), 10);
        assert_eq!(number(2, &[0, 0, 0, 1, 3, 2, 0, 12]), 10);
        assert_eq!(number(2, &[0, 0, 0, 0, 1, 1, 0, 8]), 11);
        assert_eq!(number(2, &[0, 0, 0, 9, 0, 0, 0, 0, 3, 2, 0, 12]), 11);
        assert_eq!(number(2, &[0, 0, 0, 9, 0, 0, 0, 9, 4, 2, 0, 12]), 12);
        assert_eq!(number(2, &[0, 0, 0, 8, 0, 0, 0, 9, 4, 2, 0, 12]), 0);
    }
}
