//! 23, dead read.

use super::*;
use crate::rules::ROWS;
use crate::Kind::{A, P, R};

fn ok(events: &str) {
    expect_accepted(TRACE_HEAD, events);
}

fn no(events: &str, number: u32) {
    expect_refused_last(TRACE_HEAD, events, number);
}

#[test]
fn rows_with_23() {
    for (kind, numbers) in ROWS {
        let place = numbers.iter().position(|&number| number == 23);
        let expected = if matches!(kind, R | A | P) { Some(numbers.len() - 1) } else { None };
        assert_eq!(place, expected, "{kind:?}");
    }
}

/// "an R while T has an outstanding store on V".
#[test]
fn read_with_an_outstanding_store() {
    no("A 0 0 5; S 0 0 5; R 0 0 0", 23);
    ok("A 0 0 5; S 0 0 5; W 0 0 5; R 0 0 5; L 0 0 5; U 0 0 5");
    // Owed or not, the store must be written first.
    no("P 0 0 5; R 0 0 0", 23);
    no("A 0 0 5; P 0 0 6; R 0 0 0", 23);
    no("P 0 0 5; B 0 0 5; R 0 0 0", 23);
    ok("P 0 0 5; W 0 0 5; R 0 0 5; B 0 0 5; L 0 0 5; U 0 0 5");
    ok("P 0 0 5; B 0 0 5; W 0 0 5; R 0 0 5; L 0 0 5");
    // Every store, not only the first or the last.
    no("A 0 0 5; S 0 0 5; A 0 0 6; S 0 0 6; W 0 0 5; R 0 0 5", 23);
    no("A 0 0 5; S 0 0 5; P 0 0 6; W 0 0 5; R 0 0 5", 23);
    ok("A 0 0 5; S 0 0 5; P 0 0 6; W 0 0 5; W 0 0 6; R 0 0 6; B 0 0 6; L 0 0 6");
    // Another thread's store, and a store on another variable, do not matter.
    ok("A 0 0 5; S 0 0 5; R 1 0 0; R 0 1 0; L 1 0 0; L 0 1 0");
    ok("P 0 0 5; R 1 0 0; R 0 1 0; L 1 0 0; L 0 1 0");
}

/// "or a fresh assign with V not owed".
#[test]
fn read_with_a_fresh_assign() {
    no("A 0 0 5; R 0 0 0", 23);
    no("K 0 0; A 0 0 5; R 0 0 0", 23);
    no("A 0 0 5; K 0 0; R 0 0 0", 23);
    no("R 0 0 0; L 0 0 0; A 0 0 5; R 0 0 0", 23);
    // Owed and written: the coming B clears the fresh assign.
    ok("A 0 0 5; P 0 0 6; W 0 0 6; R 0 0 6; B 0 0 6; L 0 0 6; U 0 0 6");
    ok("P 0 0 6; W 0 0 6; A 0 0 7; R 0 0 6; B 0 0 6; L 0 0 6; U 0 0 6");
    // After the B there is none, until another A.
    ok("P 0 0 6; W 0 0 6; B 0 0 6; R 0 0 6; L 0 0 6");
    ok("P 0 0 6; W 0 0 6; A 0 0 7; B 0 0 6; R 0 0 6; L 0 0 6");
    no("P 0 0 6; W 0 0 6; B 0 0 6; A 0 0 7; R 0 0 6", 23);
    // What is owed on another variable, or by another thread, clears nothing.
    no("A 0 0 5; P 0 1 6; W 0 1 6; R 0 0 0", 23);
    no("A 0 0 5; P 1 0 6; W 1 0 6; R 0 0 6", 23);
    // Another thread's assign, and an assign of another variable, do not matter.
    ok("A 0 0 5; R 1 0 0; R 0 1 0; L 1 0 0; L 0 1 0");
}

/// "an A with V not owed ... while T has an outstanding read of V".
#[test]
fn assign_with_an_outstanding_read() {
    no("R 0 0 0; A 0 0 5", 23);
    no("R 0 0 0; A 0 0 0", 23);
    no("R 0 0 0; K 0 0; A 0 0 5", 23);
    ok("R 0 0 0; L 0 0 0; A 0 0 5; S 0 0 5");
    no("R 0 0 0; R 0 0 0; L 0 0 0; A 0 0 5", 23);
    ok("R 0 0 0; R 0 0 0; L 0 0 0; L 0 0 0; A 0 0 5");
    // Owed: the coming B clears the fresh assign.
    ok("P 0 0 6; W 0 0 6; R 0 0 6; A 0 0 7; B 0 0 6; L 0 0 6; U 0 0 6");
    ok("P 0 0 6; W 0 0 6; R 0 0 6; A 0 0 7; R 0 0 6; A 0 0 8; B 0 0 6; L 0 0 6; L 0 0 6");
    no("P 0 0 6; W 0 0 6; R 0 0 6; B 0 0 6; A 0 0 7", 23);
    no("P 0 0 6; W 0 0 6; R 0 0 6; A 0 0 7; B 0 0 6; A 0 0 7", 23);
    // What is owed on another variable, or by another thread, clears nothing.
    no("P 0 1 6; R 0 0 0; A 0 0 5", 23);
    no("P 1 0 6; R 0 0 0; A 0 0 5", 23);
    // Another thread's read, and a read of another variable, do not matter.
    ok("R 0 0 0; A 1 0 5; A 0 1 5; L 0 0 0");
}

/// "or a P, while T has an outstanding read of V".
#[test]
fn early_store_with_an_outstanding_read() {
    no("R 0 0 0; P 0 0 5", 23);
    no("R 0 0 0; K 0 0; P 0 0 5", 23);
    ok("R 0 0 0; L 0 0 0; P 0 0 5");
    no("R 0 0 0; R 0 0 0; L 0 0 0; P 0 0 5", 23);
    no("P 0 0 5; W 0 0 5; R 0 0 5; B 0 0 5; P 0 0 6", 23);
    ok("P 0 0 5; W 0 0 5; R 0 0 5; B 0 0 5; L 0 0 5; P 0 0 6");
    ok("R 0 0 0; P 1 0 5; P 0 1 5; L 0 0 0");
}

#[test]
fn checked_before_23() {
    no("A 0 0 5; R 0 0 1", 18);
    no("P 0 0 5; R 0 0 5", 18);
    no("P 0 0 5; W 0 0 5; R 0 0 5; P 0 0 6", 13);
    no("P 0 0 5; W 0 0 5; A 0 0 7; R 0 0 5; P 0 0 6", 13);
    no("R 0 0 0; A 2 0 5", 5);
    // Eight reads are no 19 at A or P, eight stores none at R.
    let (reads, stores) = (repeat("R 0 0 0", 8), repeat("A 0 0 5; S 0 0 5", 8));
    no(&format!("{reads}; A 0 0 5"), 23);
    no(&format!("{reads}; P 0 0 5"), 23);
    no(&format!("{stores}; R 0 0 0"), 23);
    // No paper holds these lists: 23 or 19 refuses an event before the last.
    assert_eq!(judged(&format!("{reads}; A 0 0 5; R 0 0 1")), 18);
    assert_eq!(judged(&format!("{reads}; A 0 0 5; R 0 0 0")), 19);
    assert_eq!(judged(&format!("{stores}; R 0 0 0; P 0 0 5")), 19);
    assert_eq!(judged(&(repeat("R 0 0 0", 2_000) + "; A 0 0 5")), 9);
}

/// A list that holds a dead read is answered by the same conditions.
#[test]
fn after_a_dead_read() {
    assert_eq!(judged("R 0 0 0; A 0 0 5; A 0 0 5"), 23);
    assert_eq!(judged("R 0 0 0; A 0 0 5; P 0 0 5"), 23);
    assert_eq!(judged("R 0 0 0; A 0 0 5; R 0 0 0"), 23);
    assert_eq!(judged("R 0 0 0; P 0 0 5; A 0 0 5"), 0);
    assert_eq!(judged("R 0 0 0; A 0 0 5; S 0 0 5; W 0 0 5; R 0 0 5"), 0);
    assert_eq!(judged("R 0 0 0; A 0 0 5; S 0 0 5"), 0);
}

/// Only 9 keeps this read from its load.
#[test]
fn read_at_event_2_000() {
    ok(&(repeat("A 0 0 5", 1_999) + "; R 0 1 0"));
}

#[test]
fn a_read_may_yet_be_loaded() {
    let events = "A 0 0 5; P 0 0 6; W 0 0 6; R 0 0 6; U 0 0 5; A 0 0 7; U 0 0 7; B 0 0 6; L 0 0 6; U 0 0 6";
    assert_eq!(print(&paper_of(TRACE_HEAD, events)), "accepted 10\nmain 0 6\nmain 1 0\ncopy 0 0 6\n");
    no("A 0 0 5; P 0 0 6; W 0 0 6; R 0 0 6; L 0 0 6", 13);
}

/// "In a paper L can then no longer meet 15 or 16, though a step from a state that no events
/// reach still can; N still can in both."
#[test]
fn fifteen_and_sixteen() {
    assert_eq!(judged("R 0 0 0; A 0 0 5; L 0 0 0"), 15);
    assert_eq!(judged("R 0 0 0; A 0 0 5; S 0 0 5; W 0 0 5; L 0 0 0"), 16);
    assert_eq!(judged("R 0 0 0; A 0 0 5; S 0 0 5; L 0 0 0"), 16);
    no("K 0 0; A 0 0 5; N 0 0", 15);
    no("K 0 0; A 0 0 5; S 0 0 5; N 0 0", 16);
}
