//! Histories of whole nets: who starts when, in which order messages are carried, and what the faulty links do meanwhile.

use crate::engine::Answer;
use crate::faults::Fault;
use crate::generate::hostile::{Manner, Plot, MANNERS};
use crate::generate::settings::setting;
use crate::limits::OUTPUT_ROOM;
use crate::model::Model;
use crate::net::{Event, History, Net, Setting};
use crate::rng::Rng;
use std::collections::BTreeMap;

/// Which message is carried next, among those at hand.
#[derive(Clone, Copy, Debug, PartialEq, Eq)]
enum Order {
    Any,
    Oldest,
    Newest,
    /// One base gets Announces and Verifies last.
    Starved(usize),
    /// One link is used last.
    Delayed(usize, usize),
    /// Vector messages first.
    VotesFirst,
    /// What one base sends comes last.
    Unheard(usize),
}

pub struct Author<'r> {
    rng: &'r mut Rng,
    net: Net,
    model: Model,
    /// Broadcasts not yet carried on good links, and on faulty ones: sender, receiver, number.
    good: Vec<(usize, usize, usize)>,
    faulty: Vec<(usize, usize, usize)>,
    events: Vec<(Event, usize)>,
    order: Order,
    plot: Plot,
    manners: BTreeMap<(usize, usize), Manner>,
}

pub fn history(rng: &mut Rng) -> History {
    let setting = setting(rng);
    let n = setting.n();
    let whole = 2 * n * n * (n + 3);
    let budget = if rng.chance(1, 4) { rng.within(1, whole / 2) } else { whole };
    let mut author = Author::new(rng, setting);
    author.write(budget);
    History { setting: author.net.setting, events: author.events }
}

impl<'r> Author<'r> {
    fn new(rng: &'r mut Rng, setting: Setting) -> Author<'r> {
        let mut model = Model::TRUE;
        let n = setting.n();
        let faulty: Vec<(usize, usize)> = setting.faulty.iter().copied().collect();
        let one_manner = rng.chance(1, 2).then(|| *rng.pick(&MANNERS));
        let manners = faulty.into_iter().map(|link| (link, one_manner.unwrap_or_else(|| *rng.pick(&MANNERS)))).collect();
        let net = Net::new(setting, &mut model, Fault::None);
        let plot = Plot::new(rng, &net);
        let base = if rng.chance(1, 2) { plot.target() } else { rng.within(1, n) };
        let order = match rng.below(9) {
            0 => Order::Oldest,
            1 => Order::Newest,
            2 | 3 => Order::Starved(base),
            4 => Order::Delayed(base, rng.within(1, n)),
            5 => Order::VotesFirst,
            6 => Order::Unheard(base),
            _ => Order::Any,
        };
        Author { rng, net, model, good: Vec::new(), faulty: Vec::new(), events: Vec::new(), order, plot, manners }
    }

    /// Events until nothing waits and every base is started, or the budget is spent.
    fn write(&mut self, budget: usize) {
        let noise = [0, 0, 20, 200][self.rng.below(4)];
        let hostility = [5, 30, 100, 250][self.rng.below(4)];
        if self.rng.chance(1, 2) {
            (1..=self.net.setting.n()).for_each(|at| self.emit(Event::Start { at }, OUTPUT_ROOM));
        }
        if self.rng.chance(1, 2) {
            self.conspire();
        }
        while self.events.len() < budget {
            if self.rng.chance(noise, 1000) {
                self.make_noise();
            } else if !self.manners.is_empty() && self.rng.chance(hostility, 1000) {
                self.be_hostile();
            } else if !self.go_on() {
                break;
            }
        }
    }

    fn emit(&mut self, event: Event, room: usize) {
        let at = event.receiver();
        let before = self.net.logs[at - 1].len();
        let answer = self.net.happen(&event, room, &mut self.model);
        if let (Event::Carry { from, to, k }, false) = (&event, matches!(answer, Answer::Refused(_))) {
            self.good.retain(|waiting| *waiting != (*from, *to, *k));
        }
        self.events.push((event, room));
        for k in before + 1..=self.net.logs[at - 1].len() {
            for to in (1..=self.net.setting.n()).filter(|&to| to != at) {
                let list = if self.net.setting.good(at, to) { &mut self.good } else { &mut self.faulty };
                list.push((at, to, k));
            }
        }
    }

    /// A carry that waits, else a start, else what an honest or noisy faulty link has left. False where nothing is left to do.
    fn go_on(&mut self) -> bool {
        let idle: Vec<usize> = (1..=self.net.setting.n()).filter(|&b| !self.net.started[b - 1]).collect();
        if !idle.is_empty() && (self.good.is_empty() || self.rng.chance(1, 20)) {
            let at = *self.rng.pick(&idle);
            self.emit(Event::Start { at }, OUTPUT_ROOM);
            return true;
        }
        if !self.faulty.is_empty() && (self.good.is_empty() || self.rng.chance(self.faulty.len(), self.faulty.len() + self.good.len())) {
            let (from, to, k) = self.faulty.swap_remove(self.rng.below(self.faulty.len()));
            if self.lets_through(from, to) {
                self.emit(Event::Carry { from, to, k }, OUTPUT_ROOM);
            }
            return true;
        }
        if self.good.is_empty() {
            return false;
        }
        let (from, to, k) = self.next_carry();
        self.emit(Event::Carry { from, to, k }, OUTPUT_ROOM);
        true
    }

    fn lets_through(&mut self, from: usize, to: usize) -> bool {
        match self.manners[&(from.min(to), from.max(to))] {
            Manner::Silent => false,
            Manner::Honest => true,
            Manner::Impostor => self.rng.chance(1, 4),
            Manner::EarlyTrue | Manner::Repeater | Manner::Noisy => self.rng.chance(1, 2),
        }
    }

    fn next_carry(&mut self) -> (usize, usize, usize) {
        match self.order {
            Order::Any => self.good[self.rng.below(self.good.len())],
            Order::Oldest => self.good[0],
            Order::Newest => self.good[self.good.len() - 1],
            _ => {
                let sample: Vec<(usize, usize, usize)> = (0..12).map(|_| self.good[self.rng.below(self.good.len())]).collect();
                sample.into_iter().min_by_key(|&carry| self.put_off(carry)).expect("twelve were drawn")
            }
        }
    }

    fn put_off(&self, (from, to, k): (usize, usize, usize)) -> usize {
        let frame = &self.net.logs[from - 1][k - 1];
        let vote = frame[frame.len() - 4] >= 3;
        match self.order {
            Order::Starved(base) => usize::from(to == base && !vote),
            Order::Delayed(a, b) => usize::from((from, to) == (a, b) || (to, from) == (a, b)),
            Order::VotesFirst => usize::from(!vote),
            Order::Unheard(base) => usize::from(from == base),
            Order::Any | Order::Oldest | Order::Newest => 0,
        }
    }

    fn be_hostile(&mut self) {
        let links: Vec<((usize, usize), Manner)> = self.manners.iter().map(|(&link, &manner)| (link, manner)).collect();
        let ((a, b), manner) = *self.rng.pick(&links);
        let towards_target = a == self.plot.target() && self.rng.chance(3, 4);
        let (from, to) = if towards_target || self.rng.chance(1, 2) { (b, a) } else { (a, b) };
        if let Some(event) = self.plot.act(self.rng, &self.net, manner, from, to) {
            self.emit(event, OUTPUT_ROOM);
        }
    }

    /// All faulty links that lie do so at once, before much is carried.
    fn conspire(&mut self) {
        let links: Vec<((usize, usize), Manner)> = self.manners.iter().map(|(&link, &manner)| (link, manner)).collect();
        let vote = self.rng.chance(1, 2);
        for &((a, b), _) in links.iter().filter(|&&(_, manner)| vote && manner == Manner::Impostor) {
            self.emit(self.plot.false_vote(a, b), OUTPUT_ROOM);
            self.emit(self.plot.false_vote(b, a), OUTPUT_ROOM);
        }
        for _ in 0..self.rng.within(1, 6) {
            for &((a, b), manner) in &links {
                for (from, to) in [(a, b), (b, a)] {
                    if let Some(event) = self.plot.act(self.rng, &self.net, manner, from, to) {
                        self.emit(event, OUTPUT_ROOM);
                    }
                }
            }
        }
    }

    /// What is to be turned down, or changes nothing: 6, 7, 16, 17, 18, and starts of running bases.
    fn make_noise(&mut self) {
        let n = self.net.setting.n();
        let (from, to) = (self.rng.within(1, n), self.rng.within(1, n));
        let logged = self.net.logs[from - 1].len();
        let k = self.rng.within(1, logged + 2);
        let room = if self.rng.chance(1, 2) { self.rng.below(OUTPUT_ROOM) } else { OUTPUT_ROOM + self.rng.below(20) };
        let event = match self.rng.below(4) {
            _ if from == to => Event::Start { at: to },
            0 => Event::Forge { from, to, bytes: self.rng.clone().bytes(self.rng.below(200)) },
            _ => Event::Carry { from, to, k },
        };
        self.emit(event, room);
    }
}
