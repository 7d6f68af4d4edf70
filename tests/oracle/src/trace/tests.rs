//! Traces altered in one place are told from those that the model gives.

use super::*;
use crate::starred::WORKED_EXAMPLE;

/// The worked example's trace, as stored.
const TRACE: &str = include_str!("../../../../schedules/nets/worked_example.trace");

/// Whether a trace of the schedule is as the model has it.
fn told_alike(schedule: &str, trace: &str) -> bool {
    by_the_trace(trace) == Ok(by_the_model(schedule.as_bytes())) && ends_with(trace, &ending(schedule.as_bytes()))
}

#[test]
fn the_worked_example_is_told() {
    assert!(told_alike(WORKED_EXAMPLE, TRACE));
}

#[test]
fn slots_told_otherwise_are_seen() {
    let announce = "  base 2, slots of this line: own 0, relayed 1\n";
    let moved = TRACE.replacen(announce, "", 1).replacen("  base 2 broadcasts 3", &format!("{announce}  base 2 broadcasts 3"), 1);
    let others = [
        TRACE.replacen(announce, "", 1),
        TRACE.replacen(announce, &announce.repeat(2), 1),
        TRACE.replacen(announce, "  base 1, slots of this line: own 0, relayed 1\n", 1),
        TRACE.replacen(announce, "  base 2, slots of this line: own 1, relayed 0\n", 1),
        TRACE.replacen("own 2, relayed 0", "own 2, relayed 1", 1),
        TRACE.replacen("line 8", "  base 2, slots of this line: own 0, relayed 0\nline 8", 1),
        format!("line 3: id 2 300\n{announce}{TRACE}"),
        moved,
    ];
    assert!(others.iter().all(|trace| trace != TRACE && !told_alike(WORKED_EXAMPLE, trace)));
}

#[test]
fn totals_told_otherwise_are_seen() {
    let (first, all) = ("slots of base 1: own 4, relayed 1, together 5\n", "slots of all bases: own 8, relayed 2, together 10\n");
    let others = [
        TRACE.replacen(first, "", 1),
        TRACE.replacen(all, "", 1),
        TRACE.replacen("together 10", "together 9", 1),
        TRACE.replacen("own 4, relayed 1", "own 1, relayed 4", 1),
        TRACE.replacen(all, "", 1).replacen(first, &format!("{all}{first}"), 1),
        format!("{all}{TRACE}"),
    ];
    assert!(others.iter().all(|trace| trace != TRACE && !told_alike(WORKED_EXAMPLE, trace)));
}

/// An idle base starts on its own Announce, which is discarded; what comes again broadcasts nothing; a burst is refused.
#[test]
fn slots_stand_where_something_was_broadcast() {
    let header = "net 4 1\nid 1 10\nid 2 20\nid 3 30\nid 4 40\nfaulty 1 2\n";
    let schedule = format!("{header}forge 1 2 0000001401010008\nforge 1 2 0000001401010008\nforge 1 2 00\n");
    let trace = "line 7: forge 1 2 0000001401010008
  base 2 starts
  base 2 broadcasts 1: Announce 20
  base 2 broadcasts 2: Verify 20
  base 2 hears Announce 20 from base 1 on link 1: discarded, the identifier is its own
  base 2, slots of this line: own 2, relayed 0
line 8: forge 1 2 0000001401010008
  base 2 hears Announce 20 from base 1 on link 1: discarded, the identifier is its own
line 9: forge 1 2 00
  base 2 hears a burst from base 1 on link 1: refused by 7, the burst is shorter than 8 or longer than 132 bytes
waiting from base 2 to base 3, by number: 1 2
waiting from base 2 to base 4, by number: 1 2
slots of base 1: own 0, relayed 0, together 0
slots of base 2: own 2, relayed 0, together 2
slots of base 3: own 0, relayed 0, together 0
slots of base 4: own 0, relayed 0, together 0
slots of all bases: own 2, relayed 0, together 2
base 1 idle
base 2 running
base 3 idle
base 4 idle
waiting 4
";
    assert!(told_alike(&schedule, trace));
    let early = "  base 2, slots of this line: own 2, relayed 0\n";
    let moved = trace.replacen(early, "", 1).replacen("  base 2 hears", &format!("{early}  base 2 hears"), 1);
    assert!(!told_alike(&schedule, &moved));
}

/// As what waits, totals stand behind the last line of a schedule that is not refused.
#[test]
fn a_refused_line_has_no_totals() {
    let schedule = "net 2 0\nid 1 500\nid 2 300\nstart 1\ncarry 2 1 1\n";
    let begin = "line 4: start 1\n  base 1 starts\n  base 1, slots of this line: own 2, relayed 0\n";
    let end = "line 5: carry 2 1 1
  refused by 16, a carry names a message not yet broadcast
  a is `2`, and up to here that base has broadcast 0 messages
refused 16 line 5
";
    let total = "slots of all bases: own 2, relayed 0, together 2\n";
    assert!(told_alike(schedule, &format!("{begin}{end}")));
    assert!(!told_alike(schedule, &format!("{begin}{total}{end}")));
    assert!(!told_alike(schedule, &format!("{begin}{}", end.replacen("refused 16", &format!("{total}refused 16"), 1))));
}
