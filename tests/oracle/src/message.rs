//! A message, and its frame: "The body comes first, then a trailer of four bytes".

use crate::faults::Fault;
use crate::limits::frame_bytes;

#[derive(Clone, Debug, PartialEq, Eq)]
pub enum Message {
    Announce(u32),
    Verify(u32),
    CorrectFinal(Vec<u32>),
    VerifyFinal(Vec<u32>),
}

/// "Kinds: 1 Announce-ID, 2 Verify-ID, 3 Correct-Final, 4 Verify-Final."
#[derive(Clone, Copy, Debug, PartialEq, Eq)]
pub enum Kind {
    Announce = 1,
    Verify = 2,
    CorrectFinal = 3,
    VerifyFinal = 4,
}

impl Kind {
    pub fn of(byte: u8) -> Option<Kind> {
        [Kind::Announce, Kind::Verify, Kind::CorrectFinal, Kind::VerifyFinal].into_iter().find(|&kind| kind as u8 == byte)
    }

    /// By a frame's bytes: "then a trailer of four bytes: kind (1 byte)".
    pub fn of_frame(frame: &[u8]) -> Option<Kind> {
        let &[.., kind, _, _, _] = frame else { return None };
        Kind::of(kind)
    }

    /// "Kinds 1 and 2 hold one identifier; 3 and 4 hold n".
    pub fn count(self, n: usize) -> usize {
        match self {
            Kind::Announce | Kind::Verify => 1,
            Kind::CorrectFinal | Kind::VerifyFinal => n,
        }
    }

    pub fn frame_length(self, n: usize) -> usize {
        frame_bytes(self.count(n))
    }
}

impl Message {
    pub fn kind(&self) -> Kind {
        match self {
            Message::Announce(_) => Kind::Announce,
            Message::Verify(_) => Kind::Verify,
            Message::CorrectFinal(_) => Kind::CorrectFinal,
            Message::VerifyFinal(_) => Kind::VerifyFinal,
        }
    }

    pub fn identifiers(&self) -> Vec<u32> {
        match self {
            Message::Announce(g) | Message::Verify(g) => vec![*g],
            Message::CorrectFinal(list) | Message::VerifyFinal(list) => list.clone(),
        }
    }

    pub fn new(kind: Kind, ids: Vec<u32>) -> Message {
        match kind {
            Kind::Announce => Message::Announce(ids[0]),
            Kind::Verify => Message::Verify(ids[0]),
            Kind::CorrectFinal => Message::CorrectFinal(ids),
            Kind::VerifyFinal => Message::VerifyFinal(ids),
        }
    }

    /// The frame, without preamble. "Numbers go high byte first."
    pub fn frame(&self) -> Vec<u8> {
        self.frame_with(Fault::None)
    }

    pub fn frame_with(&self, fault: Fault) -> Vec<u8> {
        let ids = self.identifiers();
        let distance = frame_bytes(ids.len()) - if fault == Fault::DistanceCountsBodyOnly { 4 } else { 0 };
        let mut bytes: Vec<u8> = ids.iter().flat_map(|&id| identifier_bytes(id, fault)).collect();
        bytes.extend([self.kind() as u8, ids.len() as u8]);
        bytes.extend((distance as u16).to_be_bytes());
        bytes
    }
}

fn identifier_bytes(id: u32, fault: Fault) -> [u8; 4] {
    if fault == Fault::LowByteFirst {
        id.to_le_bytes()
    } else {
        id.to_be_bytes()
    }
}

pub fn identifier_of(bytes: &[u8], fault: Fault) -> u32 {
    let four = bytes.try_into().expect("four bytes");
    if fault == Fault::LowByteFirst {
        u32::from_le_bytes(four)
    } else {
        u32::from_be_bytes(four)
    }
}

pub fn strictly_ascending(list: &[u32]) -> bool {
    list.windows(2).all(|two| two[0] < two[1])
}

#[cfg(test)]
mod tests {
    use super::*;

    #[test]
    fn frames_laid_out_by_hand() {
        assert_eq!(Message::Announce(500).frame(), [0, 0, 1, 0xf4, 1, 1, 0, 8]);
        assert_eq!(Message::Verify(0x0102_0304).frame(), [1, 2, 3, 4, 2, 1, 0, 8]);
        assert_eq!(Message::CorrectFinal(vec![300, 500]).frame(), [0, 0, 1, 0x2c, 0, 0, 1, 0xf4, 3, 2, 0, 12]);
        assert_eq!(Message::VerifyFinal((1..=16).collect()).frame()[64..], [4, 16, 0, 68]);
    }
}
