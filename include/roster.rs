//! libroster_c.a, libreplay.a and libfaulty_c.a for Rust: the sizes, numbers, records and calls of roster.h, and each call with slices.
//! Bring it in as a module (`#[path = "include/roster.rs"] mod roster;`, from where that file lies) and link the archive
//! (`rustc --edition 2021 base.rs -L target/staticlib -l static=roster_c`; who calls [`replay`] adds `-l static=replay`, and who calls
//! [`faulty_set`] or its neighbours `-l static=faulty_c`). With cargo, build.rs prints `cargo:rustc-link-search=native=FOLDER` and
//! `cargo:rustc-link-lib=static=roster_c`, and a line for each other archive. A program that is linked with `-C link-dead-code` needs all.
//!
//! What a call does, touches and is turned down by stands in roster.h. tests/layout holds the two files against each other. It needs
//! `core` alone.

#![allow(dead_code)]

/// What [`version`] has to answer: call it first, and nothing else where it answers another.
pub const VERSION: u32 = 2;
/// Stored beside a record. Version 1 stored [`VERSION`], 1, in its place; the record is the same, so compare what was stored with this.
pub const RECORD_VERSION: u32 = 1;

pub const FEWEST_BASES: usize = 2;
pub const MOST_BASES: usize = 16;
pub const MOST_LINKS: usize = MOST_BASES - 1;
pub const LIST_ROOM: usize = MOST_BASES + 1;
pub const LONGEST_FRAME: usize = frame_bytes(MOST_BASES);
pub const OUTPUT_ROOM: usize = 2 * LONGEST_FRAME;
pub const SLOT_BYTES: usize = 8;
pub const SHORTEST_BURST: usize = frame_bytes(1);
pub const LONGEST_BURST: usize = LONGEST_FRAME + 64;
pub const LONGEST_SCHEDULE: usize = 65536;
pub const LINE_ROOM: usize = 37 + 11 * MOST_BASES;
pub const REPORT_ROOM: usize = (MOST_BASES + 1) * LINE_ROOM;

/// The largest net whose sets of faulty links are listed.
pub const SMALL_BASES: usize = 6;
pub const SMALL_FAULTY: usize = most_faulty(SMALL_BASES);
pub const SMALL_PAIRS: usize = SMALL_BASES * (SMALL_BASES - 1) / 2;
pub const SMALL_SETS: usize = 1 + SMALL_PAIRS + SMALL_PAIRS * (SMALL_PAIRS - 1) / 2;
pub const FAULTY_TEXT_ROOM: usize = SMALL_SETS * (25 + 15 * SMALL_FAULTY);

/// The most stack that a call takes, in bytes, with what its answer takes in the caller and without what memcpy and memset take, or
/// a dynamic linker at their first call.
pub const STACK_IDLE: usize = 5000;
pub const STACK_START: usize = 9000;
pub const STACK_ARRIVE: usize = 10000;
pub const STACK_LEADER: usize = 8000;
pub const STACK_READ: usize = 1000;
pub const STACK_WRITE: usize = 1000;
pub const STACK_REPLAY: usize = 190000;
pub const STACK_VERSION: usize = 200;
pub const STACK_FAULTY_COUNT: usize = 200;
pub const STACK_FAULTY_SET: usize = 500;
pub const STACK_FAULTY_TEXT: usize = 1000;

/// The most that t may be in a net of n, 2 or more.
pub const fn most_faulty(n: usize) -> usize {
    (n - 2) / 2
}

/// Frames that a base of a net of n broadcasts in its life.
pub const fn most_broadcasts(n: usize) -> usize {
    n + 3
}

/// Of a frame of so many identifiers.
pub const fn frame_bytes(count: usize) -> usize {
    4 * count + 4
}

/// Of a frame of so many bytes: one for each [`SLOT_BYTES`] begun.
pub const fn frame_slots(bytes: usize) -> usize {
    bytes.div_ceil(SLOT_BYTES)
}

/// Of a frame of n identifiers.
pub const fn list_slots(n: usize) -> usize {
    frame_slots(frame_bytes(n))
}

/// Slots of airtime that a base of a net of n takes at most, from its new record on: its own.
pub const fn most_own_slots(n: usize) -> usize {
    2 + list_slots(n)
}

/// Those that it relays.
pub const fn most_relayed_slots(n: usize) -> usize {
    n - 1 + list_slots(n)
}

/// Both together.
pub const fn most_slots(n: usize) -> usize {
    most_own_slots(n) + most_relayed_slots(n)
}

/// `Base::state`
pub const IDLE: u8 = 0;
pub const RUNNING: u8 = 1;
pub const PRIME: u8 = 2;
pub const SECONDARY: u8 = 3;

/// `Taken::kind`
pub const ANNOUNCE: u8 = 1;
pub const VERIFY: u8 = 2;
pub const CORRECT_FINAL: u8 = 3;
pub const VERIFY_FINAL: u8 = 4;

/// `Answer::outcome`
pub const REFUSED: u8 = 0;
pub const ACCEPTED: u8 = 1;
pub const DISCARDED: u8 = 2;

/// `Named::outcome`
pub const LEADER_REFUSED: u8 = 0;
pub const LEADER_NAMED: u8 = 1;
pub const NOT_STOPPED: u8 = 2;

/// Why a call is turned down: a number, or 0.
pub const REFUSAL_BASES: u8 = 1;
pub const REFUSAL_FAULTY_LIMIT: u8 = 2;
pub const REFUSAL_OWN_IDENTIFIER: u8 = 3;
pub const REFUSAL_RECORD: u8 = 4;
pub const REFUSAL_LINK: u8 = 5;
pub const REFUSAL_OUTPUT: u8 = 6;
pub const REFUSAL_BURST: u8 = 7;
pub const REFUSAL_KIND: u8 = 8;
pub const REFUSAL_COUNT: u8 = 9;
pub const REFUSAL_BACK_DISTANCE: u8 = 10;
pub const REFUSAL_ZERO_IDENTIFIER: u8 = 11;
pub const REFUSAL_NOT_ASCENDING: u8 = 12;
pub const REFUSAL_FORM: u8 = 13;
pub const REFUSAL_SAME_IDENTIFIER: u8 = 14;
pub const REFUSAL_FAULTY_LINKS: u8 = 15;
pub const REFUSAL_NOT_BROADCAST: u8 = 16;
pub const REFUSAL_CARRIED_BEFORE: u8 = 17;
pub const REFUSAL_FORGED_ON_GOOD: u8 = 18;
pub const REFUSAL_LARGE_NET: u8 = 19;
pub const REFUSAL_SET_NUMBER: u8 = 20;

/// What is held of one link. Places that are not in use are zero.
#[repr(C)]
#[derive(Clone, Copy, Debug, PartialEq, Eq)]
pub struct Link {
    pub announce: u32,
    pub verifies: [u32; LIST_ROOM],
    pub list: [u32; MOST_BASES],
    pub verify_count: u16,
    pub held: u16,
}

/// A base's record. Keep it as a call left it; read any field, write none.
#[repr(C)]
#[derive(Clone, Copy, Debug, PartialEq, Eq)]
pub struct Base {
    pub n: u8,
    pub t: u8,
    pub state: u8,
    pub sent: u8,
    pub own: u32,
    pub final_list: [u32; MOST_BASES],
    pub links: [Link; MOST_LINKS],
}

/// Bytes of a base's record.
pub const BASE_BYTES: usize = core::mem::size_of::<Base>();

impl Base {
    /// The record's bytes, to be stored: those of C's `roster_base` on the same machine.
    #[inline]
    #[must_use]
    pub fn as_bytes(&self) -> &[u8; BASE_BYTES] {
        // Safety: every byte of a record belongs to a field (tests/layout), so none is unset, and bytes need no alignment.
        unsafe { &*core::ptr::from_ref(self).cast() }
    }

    /// The record that was stored. Any bytes make one that the calls may be lent: where it is not sound it is turned down by 4, or by 1 to
    /// 3 for its n, t or own identifier, and [`leader`] tells so without changing it. A sound one is taken for the base's own: whether it
    /// is the one that the last call left is the storage's to say.
    #[inline]
    #[must_use]
    pub fn from_bytes(bytes: &[u8; BASE_BYTES]) -> Base {
        // Safety: each field takes any value of its bits, and what is read need not be aligned.
        unsafe { core::ptr::read_unaligned(bytes.as_ptr().cast()) }
    }
}

#[repr(C)]
#[derive(Clone, Copy, Debug, PartialEq, Eq)]
pub struct Made {
    pub refusal: u8,
    pub base: Base,
}

/// The lengths of the frames broadcast, in the order written; zero for none. Behind them the slots of airtime that these frames take, each
/// counted once though every link gets it: own are an Announce, a Verify of the own identifier and a Correct-Final, relayed is every other.
#[repr(C)]
#[derive(Clone, Copy, Debug, PartialEq, Eq)]
pub struct Answer {
    pub outcome: u8,
    pub refusal: u8,
    pub first: usize,
    pub second: usize,
    pub third: usize,
    pub own: usize,
    pub relayed: usize,
}

#[repr(C)]
#[derive(Clone, Copy, Debug, PartialEq, Eq)]
pub struct Named {
    pub outcome: u8,
    pub refusal: u8,
    pub leader: u32,
}

/// The body is the `4 * count` bytes of the burst from `start` on.
#[repr(C)]
#[derive(Clone, Copy, Debug, PartialEq, Eq)]
pub struct Taken {
    pub refusal: u8,
    pub kind: u8,
    pub count: usize,
    pub start: usize,
    pub ids: [u32; MOST_BASES],
}

#[repr(C)]
#[derive(Clone, Copy, Debug, PartialEq, Eq)]
pub struct Put {
    pub refusal: u8,
    pub length: usize,
    /// That the frame takes.
    pub slots: usize,
}

/// How many sets of faulty links there are; zero where the call was turned down.
#[repr(C)]
#[derive(Clone, Copy, Debug, PartialEq, Eq)]
pub struct Count {
    pub refusal: u8,
    pub count: usize,
}

/// A link by the numbers of its two bases, the lower first.
#[repr(C)]
#[derive(Clone, Copy, Debug, PartialEq, Eq)]
pub struct Pair {
    pub lower: u8,
    pub higher: u8,
}

/// A set of faulty links, in the order of their pairs; zeros behind the `count` links, and all zero where the call was turned down.
#[repr(C)]
#[derive(Clone, Copy, Debug, PartialEq, Eq)]
pub struct Set {
    pub refusal: u8,
    pub count: u8,
    pub pairs: [Pair; SMALL_FAULTY],
}

unsafe extern "C" {
    fn roster_idle(n: usize, t: usize, own: u32) -> Made;
    fn roster_start(base: *mut Base, out: *mut u8, out_length: usize) -> Answer;
    fn roster_arrive(base: *mut Base, link: usize, burst: *const u8, burst_length: usize, out: *mut u8, out_length: usize) -> Answer;
    fn roster_leader(base: *mut Base) -> Named;
    fn roster_read(n: usize, burst: *const u8, burst_length: usize) -> Taken;
    fn roster_write(n: usize, kind: u8, ids: *const u32, id_count: usize, out: *mut u8, out_length: usize) -> Put;
    fn roster_replay(schedule: *const u8, schedule_length: usize, out: *mut u8, out_length: usize) -> usize;
    fn roster_faulty_count(n: usize, t: usize) -> Count;
    fn roster_faulty_set(n: usize, t: usize, number: usize) -> Set;
    fn roster_faulty_text(schedule: *const u8, schedule_length: usize, out: *mut u8, out_length: usize) -> usize;
    fn roster_version() -> u32;
}

// Safety, of every call below: each pointer comes from a reference or a slice that outlives the call, with that slice's length, and the
// borrow checker keeps what is lent to one call apart.

/// An idle record of a base in a net of n bases that bears t faulty links.
#[inline]
#[must_use]
pub fn idle(n: usize, t: usize, own: u32) -> Made {
    unsafe { roster_idle(n, t, own) }
}

/// Starts an idle base. Send every frame of the answer ([`frames`]) on every link, discarded or not.
#[inline]
#[must_use]
pub fn start(base: &mut Base, out: &mut [u8]) -> Answer {
    unsafe { roster_start(base, out.as_mut_ptr(), out.len()) }
}

/// A burst arrives on a link, 1 to n - 1. Send every frame of the answer ([`frames`]) on every link, discarded or not: an idle base
/// starts on its first arrival.
#[inline]
#[must_use]
pub fn arrive(base: &mut Base, link: usize, burst: &[u8], out: &mut [u8]) -> Answer {
    unsafe { roster_arrive(base, link, burst.as_ptr(), burst.len(), out.as_mut_ptr(), out.len()) }
}

/// The leader that a stopped base names.
#[inline]
#[must_use]
pub fn leader(base: &mut Base) -> Named {
    unsafe { roster_leader(base) }
}

/// The message of a burst in a net of n.
#[inline]
#[must_use]
pub fn read(n: usize, burst: &[u8]) -> Taken {
    unsafe { roster_read(n, burst.as_ptr(), burst.len()) }
}

/// The frame of a message in a net of n, at the front of the output.
#[inline]
#[must_use]
pub fn write(n: usize, kind: u8, ids: &[u32], out: &mut [u8]) -> Put {
    unsafe { roster_write(n, kind, ids.as_ptr(), ids.len(), out.as_mut_ptr(), out.len()) }
}

/// The report of a schedule, as hillreplay prints it; its length. In libreplay.a.
#[inline]
#[must_use]
pub fn replay(schedule: &[u8], out: &mut [u8]) -> usize {
    unsafe { roster_replay(schedule.as_ptr(), schedule.len(), out.as_mut_ptr(), out.len()) }
}

/// How many sets of at most t faulty links a small net of n bases has. In libfaulty_c.a, with the next two.
#[inline]
#[must_use]
pub fn faulty_count(n: usize, t: usize) -> Count {
    unsafe { roster_faulty_count(n, t) }
}

/// The set of a number, from 0 on.
#[inline]
#[must_use]
pub fn faulty_set(n: usize, t: usize, number: usize) -> Set {
    unsafe { roster_faulty_set(n, t, number) }
}

/// All sets of the net that a schedule's first line names, as hillfaults prints them; the length of the lines.
#[inline]
#[must_use]
pub fn faulty_text(schedule: &[u8], out: &mut [u8]) -> usize {
    unsafe { roster_faulty_text(schedule.as_ptr(), schedule.len(), out.as_mut_ptr(), out.len()) }
}

/// The `VERSION` of libroster_c.a.
#[inline]
#[must_use]
pub fn version() -> u32 {
    unsafe { roster_version() }
}

/// The frames of an answer, in the order written, from the output that was lent to its call.
pub fn frames<'o>(answer: &Answer, out: &'o [u8]) -> impl Iterator<Item = &'o [u8]> {
    let mut rest = out;
    let lengths = [answer.first, answer.second, answer.third];
    IntoIterator::into_iter(lengths).filter(|&length| length > 0).map(move |length| {
        let (frame, behind) = rest.split_at(length);
        rest = behind;
        frame
    })
}
