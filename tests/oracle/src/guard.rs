//! Memory that is lent to the engine under test, with guard bytes on both sides.

use crate::record::RawBase;

const GUARD: usize = 64;
const CANARY: u8 = 0xc3;

/// A copy of some bytes between two guards.
pub struct Fenced {
    all: Vec<u8>,
}

impl Fenced {
    pub fn new(bytes: &[u8]) -> Fenced {
        let mut all = vec![CANARY; GUARD];
        all.extend_from_slice(bytes);
        all.resize(all.len() + GUARD, CANARY);
        Fenced { all }
    }

    pub fn bytes(&self) -> &[u8] {
        &self.all[GUARD..self.all.len() - GUARD]
    }

    pub fn bytes_mut(&mut self) -> &mut [u8] {
        let end = self.all.len() - GUARD;
        &mut self.all[GUARD..end]
    }

    pub fn intact(&self) -> bool {
        let end = self.all.len() - GUARD;
        self.all[..GUARD].iter().chain(&self.all[end..]).all(|&byte| byte == CANARY)
    }
}

/// A record between two guards.
#[repr(C)]
pub struct FencedRecord {
    before: [u8; GUARD],
    pub record: RawBase,
    after: [u8; GUARD],
}

impl FencedRecord {
    pub fn new(record: &RawBase) -> FencedRecord {
        FencedRecord { before: [CANARY; GUARD], record: *record, after: [CANARY; GUARD] }
    }

    pub fn intact(&self) -> bool {
        self.before.iter().chain(&self.after).all(|&byte| byte == CANARY)
    }
}

#[cfg(test)]
mod tests {
    use super::*;

    #[test]
    fn a_byte_past_the_end_is_seen() {
        let mut fenced = Fenced::new(&[1, 2, 3]);
        fenced.bytes_mut()[2] = 9;
        assert!(fenced.intact());
        assert_eq!(fenced.bytes(), [1, 2, 9]);
        fenced.all[GUARD + 3] = 0;
        assert!(!fenced.intact());
        let mut record = FencedRecord::new(&RawBase::BLANK);
        assert!(record.intact());
        record.before[GUARD - 1] = 0;
        assert!(!record.intact());
    }
}
