//! Three bases in one process agree over an in-memory link. Build: see examples/build.

#[path = "../include/roster.rs"]
mod roster;

use roster::{Answer, Base};

const BASES: usize = 3;

/// Every frame that was broadcast, with its sender, in the order written; and the airtime of each base so far, own and relayed, in slots.
#[derive(Default)]
struct Air {
    frames: Vec<(usize, Vec<u8>)>,
    own: [usize; BASES],
    relayed: [usize; BASES],
}

/// Accepted or discarded, the answer's frames go out on every link. A damaged burst is dropped; any other number is a mistake of ours.
fn broadcast(air: &mut Air, from: usize, answer: &Answer, out: &[u8]) {
    if answer.outcome == roster::REFUSED {
        eprintln!("base {from}: turned down by {}", answer.refusal);
        assert!(answer.refusal >= roster::REFUSAL_BURST);
    }
    air.frames.extend(roster::frames(answer, out).map(|frame| (from, frame.to_vec())));
    air.own[from - 1] += answer.own;
    air.relayed[from - 1] += answer.relayed;
}

fn main() {
    assert_eq!(roster::version(), roster::VERSION, "another library");
    println!("version {}", roster::version());
    let mut out = [0u8; roster::OUTPUT_ROOM];
    let mut bases: Vec<Base> = Vec::new();
    let mut air = Air::default();
    for (i, own) in [500, 300, 400].into_iter().enumerate() {
        let made = roster::idle(BASES, 0, own);
        assert_eq!(made.refusal, 0, "no such base");
        bases.push(made.base);
        let answer = roster::start(&mut bases[i], &mut out);
        broadcast(&mut air, i + 1, &answer, &out);
    }
    // a loss of power: of each base stands what was stored of it
    let stored: Vec<[u8; roster::BASE_BYTES]> = bases.iter().map(|base| *base.as_bytes()).collect();
    let mut bases: Vec<Base> = stored.iter().map(restored).collect();
    let mut k = 0;
    while k < air.frames.len() {
        let (from, frame) = air.frames[k].clone();
        for b in (1..=BASES).filter(|&b| b != from) {
            let link = if from < b { from } else { from - 1 };
            let answer = roster::arrive(&mut bases[b - 1], link, &frame, &mut out);
            broadcast(&mut air, b, &answer, &out);
        }
        k += 1;
    }
    // noise on a link: no base may stop over it
    let answer = roster::arrive(&mut bases[0], 1, b"noise", &mut out);
    broadcast(&mut air, 1, &answer, &out);
    for (i, base) in bases.iter_mut().enumerate() {
        show(i + 1, base, &air);
    }
}

/// A stored record that is damaged is turned down by 1 to 4, by the leader's call as by any other.
fn restored(bytes: &[u8; roster::BASE_BYTES]) -> Base {
    let mut base = Base::from_bytes(bytes);
    assert_eq!(roster::leader(&mut base).refusal, 0, "a damaged record");
    base
}

/// The slots, own and relayed, that a base has taken since `roster::idle` made its record, as the record tells them: nothing else has to be
/// stored for it.
fn taken(base: &Base) -> (usize, usize) {
    let n = usize::from(base.n);
    let list = roster::list_slots(n);
    let own = if base.state == roster::IDLE { 0 } else { 2 } + if base.state < roster::PRIME { 0 } else { list };
    let announced = base.links[..n - 1].iter().filter(|link| link.announce != 0).count();
    (own, announced + if base.sent == 0 { 0 } else { list })
}

/// The list and the leader stand once the base has stopped, and not before.
fn show(number: usize, base: &mut Base, air: &Air) {
    let named = roster::leader(base);
    if named.outcome != roster::LEADER_NAMED {
        return println!("base {number} has not stopped");
    }
    let list: Vec<String> = base.final_list[..BASES].iter().map(u32::to_string).collect();
    let (own, relayed) = (air.own[number - 1], air.relayed[number - 1]);
    assert_eq!(taken(base), (own, relayed), "the record tells other slots");
    println!("base {number} {} leader {}, slots: own {own}, relayed {relayed}", list.join(" "), named.leader);
}
