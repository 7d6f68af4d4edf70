//! The numbers of document 01's "Turning calls down" and of document 02's requests, by their names in docs/RULES.md.

use crate::reader::Number;

pub const BASES: Number = 1;
pub const FAULTY_LIMIT: Number = 2;
pub const OWN_IDENTIFIER: Number = 3;
pub const RECORD: Number = 4;
pub const LINK: Number = 5;
pub const OUTPUT: Number = 6;
pub const BURST: Number = 7;
pub const KIND: Number = 8;
pub const COUNT: Number = 9;
pub const BACK_DISTANCE: Number = 10;
pub const ZERO_IDENTIFIER: Number = 11;
pub const NOT_ASCENDING: Number = 12;
pub const FORM: Number = 13;
pub const SAME_IDENTIFIER: Number = 14;
pub const FAULTY_LINKS: Number = 15;
pub const NOT_BROADCAST: Number = 16;
pub const CARRIED_BEFORE: Number = 17;
pub const FORGED_ON_GOOD: Number = 18;
pub const LARGE_NET: Number = 19;
pub const SET_NUMBER: Number = 20;
