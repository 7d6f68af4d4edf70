//! What a run tries: first every small thing once, then cases of all kinds in turn, as long as it is let.

use crate::case::Case;
use crate::generate::{arrivals, bursts, faulty, forms, histories, lives, refusals, schedules, unsound};
use crate::rng::Rng;
use crate::soundness::Rule;

/// Each length of burst, each form of a schedule's lines, each pair of refusals and each rule of soundness, some times over; each set of
/// a small net.
pub fn sweep(rng: &mut Rng) -> Vec<Case> {
    let mut cases = forms::schedules();
    cases.extend(faulty::sweep());
    for numbers in refusals::pairs() {
        for _ in 0..8 {
            cases.push(refusals::arrive(rng, &numbers));
            cases.push(refusals::others(rng, &numbers));
        }
    }
    for rule in Rule::ALL {
        cases.extend((0..24).map(|_| unsound::call(rng, rule)));
    }
    cases.extend(bursts::every_length(rng));
    cases
}

/// The case at a place of the endless row: one history to two lives and 50 calls.
pub fn at(seed: u64, place: u64) -> Case {
    let mut rng = Rng::new(seed ^ place.wrapping_mul(0xd134_2543_de82_ef95));
    let rng = &mut rng;
    rng.word();
    match place % 64 {
        0 => Case::History(histories::history(rng)),
        1..=8 => schedules::schedule(rng),
        9..=14 => bursts::read(rng),
        15..=20 => bursts::write(rng),
        21..=25 => {
            let rule = *rng.pick(&Rule::ALL);
            unsound::call(rng, rule)
        }
        26..=30 => {
            let all = refusals::pairs();
            refusals::arrive(rng, &rng.clone().pick(&all).clone())
        }
        31 => {
            let all = refusals::pairs();
            refusals::others(rng, &rng.clone().pick(&all).clone())
        }
        32 => faulty::call(rng),
        33 | 34 => Case::Life(lives::life(rng)),
        _ => arrivals::call(rng),
    }
}
