//! What faulty links do: lose, repeat, alter, invent, and tell the truth before its time.

use crate::generate::bursts;
use crate::message::Message;
use crate::net::{Event, Net};
use crate::rng::Rng;

/// What the faulty links of one history lie about, all of them alike.
#[derive(Clone, Debug)]
pub struct Plot {
    /// An identifier that no base has.
    stranger: u32,
    /// The true list with the stranger in one identifier's place.
    false_list: Vec<u32>,
    /// The true list.
    truth: Vec<u32>,
    /// The base whose identifier is left out.
    victim: usize,
    /// The base that is lied to first.
    target: usize,
}

/// How a faulty link behaves, in either direction.
#[derive(Clone, Copy, Debug, PartialEq, Eq)]
pub enum Manner {
    /// Carries nothing at all.
    Silent,
    /// Carries everything, as a good one.
    Honest,
    /// Puts the stranger in the victim's place, and votes for the false list.
    Impostor,
    /// Sends true vector messages and Verifies before anybody has.
    EarlyTrue,
    /// Repeats what was carried, and alters some of it.
    Repeater,
    /// Sends anything.
    Noisy,
}

/// What is drawn from: impostors come up twice as often.
pub const MANNERS: [Manner; 7] =
    [Manner::Silent, Manner::Honest, Manner::Impostor, Manner::Impostor, Manner::EarlyTrue, Manner::Repeater, Manner::Noisy];

impl Plot {
    pub fn new(rng: &mut Rng, net: &Net) -> Plot {
        let truth = net.setting.truth();
        let n = truth.len();
        let stranger = loop {
            let near = truth[rng.below(n)].wrapping_add(rng.within(1, 3) as u32);
            let id = if rng.chance(1, 2) { near } else { rng.word() as u32 };
            if id != 0 && !truth.contains(&id) {
                break id;
            }
        };
        let victim = rng.within(1, n);
        let mut false_list: Vec<u32> = truth.iter().copied().filter(|&id| id != net.setting.ids[victim - 1]).collect();
        false_list.push(stranger);
        false_list.sort_unstable();
        let target = net.setting.faulty.iter().next().map_or(1, |&(a, b)| if rng.chance(1, 2) { a } else { b });
        Plot { stranger, false_list, truth, victim, target }
    }

    pub fn target(&self) -> usize {
        self.target
    }

    /// A Correct-Final of the false list.
    pub fn false_vote(&self, from: usize, to: usize) -> Event {
        Event::Forge { from, to, bytes: Message::CorrectFinal(self.false_list.clone()).frame() }
    }

    /// One act of a faulty link, from base `from` to base `to`.
    pub fn act(&self, rng: &mut Rng, net: &Net, manner: Manner, from: usize, to: usize) -> Option<Event> {
        let forge = |message: Message| Some(Event::Forge { from, to, bytes: message.frame() });
        match manner {
            Manner::Silent | Manner::Honest => None,
            Manner::Impostor => forge(self.lie(rng, net, from)),
            Manner::EarlyTrue => forge(self.early_truth(rng, net, from)),
            Manner::Repeater => self.repeat(rng, net, from, to),
            Manner::Noisy => Some(Event::Forge { from, to, bytes: bursts::damaged(rng, net.setting.n()) }),
        }
    }

    fn lie(&self, rng: &mut Rng, net: &Net, from: usize) -> Message {
        let n = net.setting.n();
        match rng.below(8) {
            0 | 1 if from == self.victim => Message::Announce(self.stranger),
            0 => Message::Announce(*rng.pick(&[self.stranger, net.setting.ids[from - 1]])),
            1 | 2 => Message::Verify(self.stranger),
            3 => Message::Verify(net.setting.ids[rng.below(n)]),
            4 | 5 => Message::CorrectFinal(self.false_list.clone()),
            6 => Message::VerifyFinal(self.false_list.clone()),
            _ => bursts::message(rng, n),
        }
    }

    fn early_truth(&self, rng: &mut Rng, net: &Net, from: usize) -> Message {
        match rng.below(5) {
            0 => Message::Announce(net.setting.ids[from - 1]),
            1 | 2 => Message::Verify(*rng.pick(&self.truth)),
            3 => Message::CorrectFinal(self.truth.clone()),
            _ => Message::VerifyFinal(self.truth.clone()),
        }
    }

    /// A broadcast of any base once more, as it was or with one bit turned.
    fn repeat(&self, rng: &mut Rng, net: &Net, from: usize, to: usize) -> Option<Event> {
        let own = &net.logs[from - 1];
        if !own.is_empty() && rng.chance(1, 2) {
            return Some(Event::Carry { from, to, k: rng.within(1, own.len()) });
        }
        let all: Vec<&Vec<u8>> = net.logs.iter().flatten().collect();
        if all.is_empty() {
            return None;
        }
        let mut bytes = rng.pick(&all).to_vec();
        if rng.chance(1, 2) {
            let at = rng.below(bytes.len());
            bytes[at] ^= 1 << rng.below(8);
        }
        Some(Event::Forge { from, to, bytes: bursts::with_preamble(rng, &bytes) })
    }
}
