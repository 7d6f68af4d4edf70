//! The model against sentences of document 01 that are about more than one call, and against figures of document 02's first two requests.

use oracle::airtime::{self, Airtime};
use oracle::base::Base;
use oracle::case::Case;
use oracle::demand;
use oracle::engine::{Answer, Engine, Sent, Written};
use oracle::faults::Fault;
use oracle::faulty;
use oracle::generate::{arrivals, histories, lives, records, unsound};
use oracle::life::{Call, Life};
use oracle::limits::{FAULTY_TEXT_ROOM, FEWEST_BASES, LONGEST_SCHEDULE, MOST_BASES, OUTPUT_ROOM, SMALL_BASES};
use oracle::message::Message;
use oracle::model::Model;
use oracle::net::{Event, Net, Setting};
use oracle::record::RawBase;
use oracle::refusal::{BASES, CARRIED_BEFORE, FAULTY_LIMIT, FORGED_ON_GOOD, FORM, LARGE_NET, NOT_BROADCAST, OUTPUT, SET_NUMBER};
use oracle::replay;
use oracle::rng::Rng;
use oracle::schedule::render;
use oracle::shrink::shrink;
use oracle::soundness::{broken_rules, Rule};
use std::collections::BTreeSet;

fn two_bases() -> Net {
    let setting = Setting { t: 0, ids: vec![500, 300], faulty: [].into() };
    Net::new(setting, &mut Model::TRUE.clone(), Fault::None)
}

#[test]
fn a_refused_carry_is_not_carried_and_starts_nobody() {
    let (mut net, mut model) = (two_bases(), Model::TRUE);
    let carry = Event::Carry { from: 1, to: 2, k: 1 };
    assert_eq!(net.happen(&carry, OUTPUT_ROOM, &mut model), Answer::Refused(NOT_BROADCAST));
    net.happen(&Event::Start { at: 1 }, OUTPUT_ROOM, &mut model);
    assert_eq!(net.waiting(), 2);
    assert_eq!(net.happen(&carry, OUTPUT_ROOM - 1, &mut model), Answer::Refused(OUTPUT));
    assert_eq!((net.waiting(), net.started.clone()), (2, vec![true, false]));
    assert_eq!(net.happen(&carry, OUTPUT_ROOM, &mut model), Answer::Accepted(Sent::new([8, 8, 8], 2, 1)));
    assert_eq!((net.waiting(), net.started.clone()), (4, vec![true, true]));
    assert_eq!(net.happen(&carry, OUTPUT_ROOM, &mut model), Answer::Refused(CARRIED_BEFORE));
    assert_eq!(net.happen(&Event::Forge { from: 1, to: 2, bytes: vec![] }, 0, &mut model), Answer::Refused(FORGED_ON_GOOD));
}

#[test]
fn a_discarded_arrival_has_been_carried() {
    let mut model = Model::TRUE;
    let setting = Setting { t: 1, ids: vec![1, 2, 3, 4], faulty: [(1, 2)].into() };
    let mut net = Net::new(setting, &mut model, Fault::None);
    net.happen(&Event::Start { at: 3 }, OUTPUT_ROOM, &mut model);
    net.happen(&Event::Forge { from: 1, to: 2, bytes: Message::Announce(3).frame() }, OUTPUT_ROOM, &mut model);
    let before = net.waiting();
    assert_eq!(net.happen(&Event::Carry { from: 3, to: 2, k: 1 }, OUTPUT_ROOM, &mut model), Answer::Discarded(Sent::NOTHING));
    assert_eq!(net.waiting(), before - 1);
}

#[test]
fn a_carry_may_be_repeated_on_a_faulty_link() {
    let mut model = Model::TRUE;
    let setting = Setting { t: 1, ids: vec![1, 2, 3, 4], faulty: [(1, 2)].into() };
    let mut net = Net::new(setting, &mut model, Fault::None);
    net.happen(&Event::Start { at: 1 }, OUTPUT_ROOM, &mut model);
    assert_eq!(net.waiting(), 4);
    let carry = Event::Carry { from: 1, to: 2, k: 1 };
    assert_eq!(net.happen(&carry, OUTPUT_ROOM, &mut model), Answer::Accepted(Sent::new([8, 8, 8], 2, 1)));
    assert_eq!(net.happen(&carry, OUTPUT_ROOM, &mut model), Answer::Discarded(Sent::NOTHING));
}

#[test]
fn soundness_is_kept_by_every_call() {
    let mut rng = Rng::new(5);
    for _ in 0..20_000 {
        let made = records::sound(&mut rng);
        let mut record = made.base.raw();
        assert!(broken_rules(&record).is_empty());
        assert_eq!(Base::admit(&record, Fault::None).map(|base| base.raw()), Ok(record));
        let (link, message) = arrivals::arrival(&mut rng, &made);
        let answer = Model::TRUE.clone().arrive(&mut record, link, &message.frame(), &mut [0; OUTPUT_ROOM]);
        assert!(!matches!(answer, Answer::Refused(_)));
        assert!(broken_rules(&record).is_empty());
    }
}

#[test]
fn every_rule_can_be_broken_alone_and_is_number_4() {
    let mut rng = Rng::new(6);
    for rule in Rule::ALL {
        let (_, record) = unsound::breaking(&mut rng, rule);
        assert_eq!(Base::admit(&record, Fault::None), Err(4), "{rule:?}");
    }
}

#[test]
fn a_new_record_is_idle_and_sound() {
    for n in FEWEST_BASES..=MOST_BASES {
        let mut record = RawBase::BLANK;
        assert_eq!(Model::TRUE.clone().idle(n, (n - 2) / 2, 9, &mut record), 0);
        assert_eq!((record.state, broken_rules(&record).len()), (0, 0));
        assert_eq!(Model::TRUE.clone().idle(n, n / 2, 9, &mut record), 2);
    }
}

/// The replay of a history's schedule is the net that the history leaves, and demand 3 holds of both.
#[test]
fn a_schedule_tells_its_history() {
    let mut rng = Rng::new(7);
    for _ in 0..60 {
        let (history, net) = histories::history(&mut rng).as_scheduled(&mut Model::TRUE.clone());
        assert_eq!((demand::broken(&net), demand::overspent(&net)), (None, None));
        let text = render(&history);
        if text.len() <= LONGEST_SCHEDULE {
            let told = replay::replay(text.as_bytes(), Fault::None).expect("a history's schedule is not refused");
            assert_eq!(told.records, net.records);
            assert_eq!((told.logs, told.spent, told.carried), (net.logs, net.spent, net.carried));
        }
    }
}

#[test]
fn a_seed_gives_one_row_of_cases() {
    let text = |case: Case| format!("{case:?}");
    assert!((0..200).all(|place| text(oracle::plan::at(3, place)) == text(oracle::plan::at(3, place))));
    assert_ne!(text(oracle::plan::at(3, 9)), text(oracle::plan::at(4, 9)));
}

/// "Number 0 is the empty set; with n = 6 and t = 2 there are 121", and which pairs some of them have, by hand.
#[test]
fn faulty_sets_have_the_numbers_of_the_request() {
    let set = |number| faulty::set(6, 2, number, Fault::None);
    assert_eq!(faulty::count(6, 2, Fault::None), Ok(121));
    assert_eq!(set(0), Ok(vec![]));
    assert_eq!([1, 5, 6, 15].map(set), [(1, 2), (1, 6), (2, 3), (5, 6)].map(|pair| Ok(vec![pair])));
    assert_eq!([16, 29].map(set), [(1, 3), (5, 6)].map(|second| Ok(vec![(1, 2), second])));
    assert_eq!([30, 120].map(set), [Ok(vec![(1, 3), (1, 4)]), Ok(vec![(4, 6), (5, 6)])]);
    assert_eq!(set(121), Err(SET_NUMBER));
    let counts = [(2, 0, 1), (3, 0, 1), (4, 0, 1), (4, 1, 7), (5, 0, 1), (5, 1, 11), (6, 0, 1), (6, 1, 16)];
    assert!(counts.iter().all(|&(n, t, count)| faulty::count(n, t, Fault::None) == Ok(count)));
}

/// "Each set must come up just one time and none be left out": as many as there are ways to choose links, each of at most t, none twice.
#[test]
fn each_faulty_set_comes_up_just_one_time() {
    for n in FEWEST_BASES..=SMALL_BASES {
        let links = n * (n - 1) / 2;
        for t in 0..=(n - 2) / 2 {
            let ways = [1, links, links * (links - 1) / 2][..=t].iter().sum();
            assert_eq!(faulty::count(n, t, Fault::None), Ok(ways));
            let all: Vec<_> = (0..ways).map(|number| faulty::set(n, t, number, Fault::None).expect("a number of a set")).collect();
            assert!(all.iter().all(|set| set.len() <= t && set.iter().all(|&(a, b)| 1 <= a && a < b && b <= n)));
            assert!(all.iter().all(|set| set.windows(2).all(|two| two[0] < two[1])));
            assert_eq!(all.iter().collect::<BTreeSet<_>>().len(), ways);
        }
    }
}

#[test]
fn faulty_sets_are_refused_in_the_order_of_the_numbers() {
    let number = |n, t, number| faulty::set(n, t, number, Fault::None).err().unwrap_or(0);
    assert_eq!([number(1, 1, 9), number(MOST_BASES + 1, 99, usize::MAX)], [BASES; 2]);
    assert_eq!([number(4, 2, 99), number(7, 3, 0), number(2, 1, 0)], [FAULTY_LIMIT; 3]);
    assert_eq!([number(7, 2, usize::MAX), number(MOST_BASES, 0, 0)], [LARGE_NET; 2]);
    assert_eq!([number(4, 1, 7), number(2, 0, 1), number(6, 2, usize::MAX)], [SET_NUMBER; 3]);
    let raw = Model::TRUE.clone().faulty_set(6, 2, 121);
    assert_eq!(raw, faulty::RawSet { refusal: SET_NUMBER, ..faulty::RawSet::BLANK });
}

/// Four bases that bear one faulty link, by hand.
const SETS_OF_FOUR: &str = "set 0
set 1
faulty 1 2
set 2
faulty 1 3
set 3
faulty 1 4
set 4
faulty 2 3
set 5
faulty 2 4
set 6
faulty 3 4
";

fn faulty_text(schedule: &str, room: usize) -> String {
    let mut out = vec![0; room];
    let length = Model::TRUE.clone().faulty_text(schedule.as_bytes(), &mut out);
    assert!(out[length..].iter().all(|&byte| byte == 0));
    String::from_utf8(out[..length].to_vec()).expect("letters, digits and spaces")
}

#[test]
fn faulty_text_of_small_nets() {
    assert_eq!(faulty_text("net 4 1\n", FAULTY_TEXT_ROOM), SETS_OF_FOUR);
    assert_eq!(faulty_text("net 4 1\nnonsense", FAULTY_TEXT_ROOM + 9), SETS_OF_FOUR);
    assert_eq!(faulty_text("net 4 1\n", FAULTY_TEXT_ROOM - 1), "");
    assert_eq!(faulty_text("net 3 0\n", FAULTY_TEXT_ROOM), "set 0\n");
    let all = faulty_text("net 6 2\n", FAULTY_TEXT_ROOM);
    assert!(all.starts_with("set 0\nset 1\nfaulty 1 2\nset 2\n"));
    assert!(all.ends_with("set 119\nfaulty 4 5\nfaulty 5 6\nset 120\nfaulty 4 6\nfaulty 5 6\n"));
    let forms = [("", FORM), ("net 4 1", FORM), ("net 07 9\n", FORM)];
    let nets = [("net 17 9\n", BASES), ("net 7 3\n", FAULTY_LIMIT), ("net 7 2\n", LARGE_NET)];
    for (text, number) in forms.into_iter().chain(nets) {
        assert_eq!(faulty_text(text, FAULTY_TEXT_ROOM), format!("refused {number} line 1\n"));
    }
}

/// "its slots, one for each 8 bytes begun": 1 of a frame of one identifier, (n + 1) / 2 rounded up of a list.
#[test]
fn a_written_frame_has_the_slots_of_the_request() {
    let write = |n, kind, ids: &[u32]| Model::TRUE.clone().write(n, kind, ids, &mut [0; OUTPUT_ROOM]);
    assert_eq!([1, 2].map(|kind| write(16, kind, &[7])), [Ok(Written { length: 8, slots: 1 }); 2]);
    let list: Vec<u32> = (1..=16).collect();
    assert_eq!([3, 4].map(|kind| write(16, kind, &list)), [Ok(Written { length: 68, slots: 9 }); 2]);
    assert_eq!(write(3, 3, &[1, 2, 3]), Ok(Written { length: 16, slots: 2 }));
    assert_eq!(write(16, 3, &list[1..]), Err(9));
}

/// "a discarded arrival at an idle base still gives the two frames of its start", and these have slots; a call that is turned down has
/// none.
#[test]
fn a_discarded_first_arrival_has_the_slots_of_its_start() {
    let mut model = Model::TRUE;
    let mut record = RawBase::BLANK;
    assert_eq!(model.idle(4, 1, 10, &mut record), 0);
    assert_eq!(model.arrive(&mut record, 1, &[], &mut [0; OUTPUT_ROOM]).sent(), Sent::NOTHING);
    let answer = model.arrive(&mut record, 1, &Message::Announce(10).frame(), &mut [0; OUTPUT_ROOM]);
    assert_eq!(answer, Answer::Discarded(Sent::new([8, 8, 0], 2, 0)));
    assert_eq!(model.start(&mut record, &mut [0; OUTPUT_ROOM]), Answer::Discarded(Sent::NOTHING));
}

/// A start, an Announce on each link, every Verify of the first, and Correct-Finals of the first two links.
fn fullest_life(n: usize) -> Life {
    let list: Vec<u32> = (1..=n as u32).collect();
    let arrive = |link: usize, message: Message| Call::Arrive { link, burst: message.frame(), room: OUTPUT_ROOM };
    let mut calls = vec![Call::Start { room: OUTPUT_ROOM }];
    calls.extend((1..n).map(|link| arrive(link, Message::Announce(list[link]))));
    calls.extend(list.iter().map(|&id| arrive(1, Message::Verify(id))));
    calls.extend((1..n.min(3)).map(|link| arrive(link, Message::CorrectFinal(list.clone()))));
    Life { n, t: 0, own: 1, calls }
}

/// "at most n + 1 plus twice (n + 1) / 2 rounded up: 35 for 16 bases": reached, but for two bases, where no base can send a Verify-Final.
#[test]
fn a_life_comes_to_the_most_slots() {
    for n in FEWEST_BASES..=MOST_BASES {
        let (spent, broken) = fullest_life(n).live(&mut Model::TRUE.clone());
        assert_eq!((spent.together(), broken), (airtime::reachable(n), None), "n = {n}");
        assert!(n == 2 || spent == airtime::bound(n));
    }
    assert_eq!(fullest_life(16).live(&mut Model::TRUE.clone()).0.together(), 35);
    assert_eq!(fullest_life(2).live(&mut Model::TRUE.clone()).0.together(), 5);
}

#[test]
fn made_lives_keep_to_their_slots_and_come_to_the_most() {
    let mut rng = Rng::new(8);
    let mut full = BTreeSet::new();
    for _ in 0..3000 {
        let life = lives::life(&mut rng);
        let (spent, broken) = life.live(&mut Model::TRUE.clone());
        assert_eq!(broken, None);
        assert!(spent.together() <= airtime::reachable(life.n));
        full.extend((spent.together() == airtime::reachable(life.n)).then_some(life.n));
    }
    assert!(full.into_iter().eq(FEWEST_BASES..=MOST_BASES));
}

#[test]
fn a_life_is_shortened_to_the_calls_that_differ() {
    let mut engine = Model { fault: Fault::VerifyFinalOwn };
    let Case::Life(short) = shrink(&Case::Life(fullest_life(5)), &mut engine) else { panic!("a life stays one") };
    let two: Vec<Call> = fullest_life(5).calls.into_iter().rev().take(2).rev().collect();
    assert_eq!(short.calls, two);
}

/// Its first arrival, of the own identifier, is discarded.
fn life_begun_by_a_discarded_arrival() -> Life {
    Life { n: 4, t: 1, own: 10, calls: vec![Call::Arrive { link: 1, burst: Message::Announce(10).frame(), room: OUTPUT_ROOM }] }
}

/// Slots that a faulty model answers show in a life: they are other than those of the frames.
#[test]
fn wrong_sums_break_a_life() {
    let discarded = life_begun_by_a_discarded_arrival();
    assert_eq!(discarded.live(&mut Model::TRUE.clone()), (Airtime { own: 2, relayed: 0 }, None));
    assert!(discarded.live(&mut Model { fault: Fault::DiscardedStartWithoutSlots }).1.is_some_and(|what| what.contains("have 2 slots")));
    for fault in [Fault::SlotsRoundedDown, Fault::SlotsForEachLink, Fault::OwnSumTwice, Fault::RelayedSumTwice] {
        assert!(fullest_life(4).live(&mut Model { fault }).1.is_some(), "{fault:?}");
    }
    for fault in [Fault::OwnVerifyRelayed, Fault::CorrectFinalRelayed, Fault::VerifyFinalOwn] {
        let broken = fullest_life(4).live(&mut Model { fault }).1;
        assert!(broken.is_some_and(|what| what.contains("at most")), "{fault:?}");
    }
}
