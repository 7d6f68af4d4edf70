//! What roster.rs says, line by line as header.c says it of roster.h.

#[path = "../../include/roster.rs"]
mod roster;

use roster::*;
use std::mem::{align_of, offset_of, size_of};

macro_rules! numbers {
    ($($name:ident)*) => { $(println!("{} {}", stringify!($name), $name);)* };
}

macro_rules! record {
    ($type:ident $name:ident: $($field:ident)*) => {
        println!("{} {} bytes, aligned to {}", stringify!($name), size_of::<$type>(), align_of::<$type>());
        $(println!("{}.{} at {}", stringify!($name), stringify!($field), offset_of!($type, $field));)*
    };
}

/// As header.c does, through the bytes and back from a place that is not aligned.
fn stored() {
    let link = Link { announce: 0, verifies: [0; LIST_ROOM], list: [0; MOST_BASES], verify_count: 0, held: 0 };
    let mut base = Base { n: 1, t: 2, state: 3, sent: 4, own: 0x05060708, final_list: [0; MOST_BASES], links: [link; MOST_LINKS] };
    base.final_list = std::array::from_fn(|k| 0x01000100 + k as u32);
    base.links = std::array::from_fn(|i| Link {
        announce: 0x02000200 + i as u32,
        verifies: std::array::from_fn(|k| 0x05000500 + (i * k) as u32),
        list: std::array::from_fn(|k| 0x06000600 + (i * k) as u32),
        verify_count: 0x300 + i as u16,
        held: 0x400 + i as u16,
    });
    let sum: u64 = base.as_bytes().iter().zip(1..).map(|(&byte, place)| place * u64::from(byte)).sum();
    println!("stored: {BASE_BYTES} bytes, by their places {sum}");
    for shift in 0..align_of::<Base>() {
        let mut room = [0u8; BASE_BYTES + align_of::<Base>()];
        room[shift..shift + BASE_BYTES].copy_from_slice(base.as_bytes());
        let bytes: &[u8; BASE_BYTES] = room[shift..shift + BASE_BYTES].try_into().unwrap();
        assert_eq!(Base::from_bytes(bytes), base, "read back from {shift} bytes further on");
    }
}

fn main() {
    numbers!(VERSION RECORD_VERSION FEWEST_BASES MOST_BASES MOST_LINKS LIST_ROOM LONGEST_FRAME);
    numbers!(OUTPUT_ROOM SLOT_BYTES SHORTEST_BURST LONGEST_BURST LONGEST_SCHEDULE LINE_ROOM REPORT_ROOM);
    numbers!(STACK_IDLE STACK_START STACK_ARRIVE STACK_LEADER STACK_READ STACK_WRITE STACK_REPLAY STACK_VERSION);
    numbers!(STACK_FAULTY_COUNT STACK_FAULTY_SET STACK_FAULTY_TEXT);
    numbers!(SMALL_BASES SMALL_FAULTY SMALL_PAIRS SMALL_SETS FAULTY_TEXT_ROOM);
    println!("MOST_FAULTY {}, MOST_BROADCASTS {}", most_faulty(MOST_BASES), most_broadcasts(MOST_BASES));
    for n in FEWEST_BASES..=MOST_BASES {
        println!("slots of {n} bases: own {}, relayed {}, together {}", most_own_slots(n), most_relayed_slots(n), most_slots(n));
    }
    numbers!(IDLE RUNNING PRIME SECONDARY);
    numbers!(ANNOUNCE VERIFY CORRECT_FINAL VERIFY_FINAL);
    numbers!(REFUSED ACCEPTED DISCARDED);
    numbers!(LEADER_REFUSED LEADER_NAMED NOT_STOPPED);
    numbers!(REFUSAL_BASES REFUSAL_FAULTY_LIMIT REFUSAL_OWN_IDENTIFIER REFUSAL_RECORD REFUSAL_LINK);
    numbers!(REFUSAL_OUTPUT REFUSAL_BURST REFUSAL_KIND REFUSAL_COUNT REFUSAL_BACK_DISTANCE);
    numbers!(REFUSAL_ZERO_IDENTIFIER REFUSAL_NOT_ASCENDING REFUSAL_FORM REFUSAL_SAME_IDENTIFIER);
    numbers!(REFUSAL_FAULTY_LINKS REFUSAL_NOT_BROADCAST REFUSAL_CARRIED_BEFORE REFUSAL_FORGED_ON_GOOD);
    numbers!(REFUSAL_LARGE_NET REFUSAL_SET_NUMBER);
    stored();
    record!(Link link: announce verifies list verify_count held);
    record!(Base base: n t state sent own final_list links);
    record!(Made made: refusal base);
    record!(Answer answer: outcome refusal first second third own relayed);
    record!(Named named: outcome refusal leader);
    record!(Taken taken: refusal kind count start ids);
    record!(Put put: refusal length slots);
    record!(Count count: refusal count);
    record!(Pair pair: lower higher);
    record!(Set set: refusal count pairs);
}
