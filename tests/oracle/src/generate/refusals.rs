//! Calls made for a set of refusals: each number of the set is earned on purpose, and the lowest is to be answered.

use crate::case::Case;
use crate::generate::arrivals::{arrival, output};
use crate::generate::records::{list_of, sound};
use crate::generate::settings::identifiers;
use crate::generate::unsound::breaking;
use crate::limits::{most_faulty, FEWEST_BASES, LONGEST_BURST, MOST_BASES, OUTPUT_ROOM, SHORTEST_BURST};
use crate::message::Message;
use crate::reader::Number;
use crate::record::RawBase;
use crate::refusal::{
    BACK_DISTANCE, BASES, BURST, COUNT, FAULTY_LIMIT, KIND, LINK, NOT_ASCENDING, OUTPUT, OWN_IDENTIFIER, RECORD, ZERO_IDENTIFIER,
};
use crate::rng::Rng;
use crate::soundness::Rule;

/// Every set of one or two of the numbers 1 to 12.
pub fn pairs() -> Vec<Vec<Number>> {
    let sets = |a| (a..=NOT_ASCENDING).map(move |b| if a == b { vec![a] } else { vec![a, b] });
    (BASES..=NOT_ASCENDING).flat_map(sets).collect()
}

/// An arrival that earns every number of the set. Numbers 9 to 12 are earned by a list, which needs n above 1.
pub fn arrive(rng: &mut Rng, numbers: &[Number]) -> Case {
    let made = sound(rng);
    let (mut link, mut message) = arrival(rng, &made);
    let mut record = made.base.raw();
    if numbers.contains(&NOT_ASCENDING) {
        message = Message::CorrectFinal(list_of(rng, &made));
    }
    if numbers.contains(&RECORD) {
        let rule = *rng.pick(&Rule::ALL);
        record = breaking(rng, rule).1;
        let n = record.n as usize;
        link = rng.within(1, n - 1);
        let mut list = identifiers(rng, n);
        list.sort_unstable();
        message = if numbers.contains(&NOT_ASCENDING) { Message::CorrectFinal(list) } else { Message::Verify(list[0]) };
    }
    let n = record.n as usize;
    let burst = spoiled_burst(rng, numbers, message);
    spoil_head(rng, numbers, &mut record);
    if numbers.contains(&LINK) {
        link = *rng.pick(&[0, n, n + 1, MOST_BASES, 255, 256 + link, usize::MAX]);
    }
    let out = output_for(rng, numbers);
    Case::Arrive { record, link, burst, out, expect: numbers.iter().min().copied() }
}

/// An output that is too short, often by one byte, if the set has number 6.
fn output_for(rng: &mut Rng, numbers: &[Number]) -> Vec<u8> {
    if !numbers.contains(&OUTPUT) {
        return output(rng);
    }
    let length = if rng.chance(1, 3) { OUTPUT_ROOM - 1 } else { rng.below(OUTPUT_ROOM) };
    rng.bytes(length)
}

/// A start, a leader call or a new record that earns the numbers that it takes the data for.
pub fn others(rng: &mut Rng, numbers: &[Number]) -> Case {
    let kind = rng.below(3);
    let all = [BASES, FAULTY_LIMIT, OWN_IDENTIFIER, RECORD, OUTPUT];
    let checked = [&all[..], &all[..4], &all[..3]][kind];
    let numbers: Vec<Number> = numbers.iter().copied().filter(|number| checked.contains(number)).collect();
    let mut record = sound(rng).base.raw();
    if numbers.contains(&RECORD) {
        let rule = *rng.pick(&Rule::ALL);
        record = breaking(rng, rule).1;
    }
    spoil_head(rng, &numbers, &mut record);
    let expect = Some(numbers.iter().min().copied().unwrap_or(0));
    let out = output_for(rng, &numbers);
    match kind {
        0 => Case::Start { record, out, expect },
        1 => Case::Leader { record, expect },
        _ => new_record(rng, &record, expect),
    }
}

fn new_record(rng: &mut Rng, like: &RawBase, expect: Option<Number>) -> Case {
    let (mut n, mut t) = (like.n as usize, like.t as usize);
    if expect == Some(BASES) && rng.chance(1, 2) {
        n = rng.within(FEWEST_BASES, MOST_BASES) + 256 * rng.within(1, 300);
    }
    if expect == Some(FAULTY_LIMIT) && rng.chance(1, 2) {
        t = 256 * rng.within(1, 300);
    }
    let mut before = sound(rng).base.raw();
    before.sent = rng.byte();
    before.state = rng.byte();
    Case::Idle { n, t, own: like.own, record: before, expect }
}

/// Numbers 1 to 3.
fn spoil_head(rng: &mut Rng, numbers: &[Number], record: &mut RawBase) {
    let n = record.n as usize;
    if numbers.contains(&FAULTY_LIMIT) {
        let above = most_faulty(n.clamp(FEWEST_BASES, MOST_BASES)) + 1;
        record.t = *rng.pick(&[above, above + 1, 255, 128]) as u8;
    }
    if numbers.contains(&OWN_IDENTIFIER) {
        record.own = 0;
    }
    if numbers.contains(&BASES) {
        record.n = *rng.pick(&[0, 1, MOST_BASES as u8 + 1, MOST_BASES as u8 + 2, 255]);
    }
}

/// Numbers 7 to 12, of a burst with or without preamble.
fn spoiled_burst(rng: &mut Rng, numbers: &[Number], message: Message) -> Vec<u8> {
    let kind = message.kind() as u8;
    let mut ids = message.identifiers();
    if numbers.contains(&NOT_ASCENDING) {
        let last = ids.len() - 1;
        let at = rng.below(last);
        ids[at + 1] = if rng.chance(1, 2) { ids[at] } else { (ids[at] - 1).max(1) };
    }
    if numbers.contains(&ZERO_IDENTIFIER) {
        let at = if numbers.contains(&NOT_ASCENDING) { ids.len() - 1 } else { rng.below(ids.len()) };
        ids[at] = 0;
    }
    let mut frame: Vec<u8> = ids.iter().flat_map(|id| id.to_be_bytes()).collect();
    let distance = (frame.len() + 4) as u16;
    frame.extend([kind, ids.len() as u8]);
    frame.extend(distance.to_be_bytes());
    let end = frame.len();
    if numbers.contains(&BACK_DISTANCE) {
        let wrong = *rng.pick(&[0, 1, distance - 4, distance - 1, distance + 1, distance + 4, distance + 256, 0xffff]);
        frame[end - 2..].copy_from_slice(&wrong.to_be_bytes());
    }
    if numbers.contains(&COUNT) {
        frame[end - 3] = *rng.pick(&[0, MOST_BASES as u8 + 1, 200, 255]);
    }
    if numbers.contains(&KIND) {
        frame[end - 4] = *rng.pick(&[0, 5, 6, 12, 129, 255]);
    }
    lengthened(rng, numbers.contains(&BURST), frame)
}

/// The frame with some preamble, or too short, or too long.
fn lengthened(rng: &mut Rng, refused: bool, frame: Vec<u8>) -> Vec<u8> {
    if refused && rng.chance(1, 2) {
        return frame[frame.len() - rng.below(SHORTEST_BURST)..].to_vec();
    }
    let room = LONGEST_BURST - frame.len();
    let length = match refused {
        true => room + rng.within(1, 9),
        false if rng.chance(1, 3) => rng.within(0, room),
        false => 0,
    };
    [rng.bytes(length), frame].concat()
}
