//! Corners W and S7: words and rows.

use super::*;
use crate::rules::{copy, fresh, owed, usable};

fn ok(events: &str) {
    expect_accepted(TRACE_HEAD, events);
}

fn no(events: &str, number: u32) {
    expect_refused_last(TRACE_HEAD, events, number);
}

#[test]
fn w1_pairing() {
    let both = paper_of(TRACE_HEAD, "A 0 0 1; S 0 0 1; P 0 0 2; W 0 0 1; W 0 0 2; B 0 0 2");
    assert_eq!(print(&both), "accepted 6\nmain 0 2\nmain 1 0\ncopy 0 0 2\n");
    no("A 0 0 1; S 0 0 1; P 0 0 2; W 0 0 2", 18);
    no("A 0 0 1; S 0 0 1; W 1 0 1", 10);
    no("A 0 0 1; S 0 0 1; W 0 1 1", 10);
    no("R 0 0 0; L 1 0 0", 10);
    no("R 0 0 0; L 0 1 0", 10);
    no("R 0 0 0; A 1 0 7; S 1 0 7; W 1 0 7; R 0 0 7; L 0 0 7", 18);
    ok("R 0 0 0; A 1 0 7; S 1 0 7; W 1 0 7; R 0 0 7; L 0 0 0; L 0 0 7; U 0 0 7");
}

#[test]
fn w2_fresh() {
    let both = events_of("A 0 0 5; P 0 0 6");
    assert!(fresh(&both, 0, 0) && owed(&both, 0, 0));
    let ended = events_of("P 0 0 6; A 0 0 7; B 0 0 6");
    assert!(!fresh(&ended, 0, 0) && !owed(&ended, 0, 0));
    assert!(fresh(&events_of("A 0 0 5; R 0 0 0; K 0 0; P 0 0 6; W 0 0 6"), 0, 0));
    no("A 0 0 5; P 0 0 6; S 0 0 5", 13);
    no("A 0 0 5; P 0 0 6; W 0 0 6; B 0 0 6; S 0 0 6", 14);
    ok("P 0 0 6; W 0 0 6; A 0 0 7; B 0 0 6; K 0 0; N 0 0");
    no("A 0 0 5; R 0 1 0; K 0 0; N 0 0", 15);
    assert_eq!(judged("A 0 0 5; R 0 0 0; K 0 0; N 0 0"), 15);
    no("K 0 0; A 0 0 5; P 0 0 6; W 0 0 6; N 0 0", 15);
}

#[test]
fn w3_copy() {
    ok("A 0 0 5; P 0 0 6; U 0 0 5");
    no("A 0 0 5; P 0 0 6; U 0 0 6", 18);
    ok("A 0 0 5; P 0 0 6; W 0 0 6; R 0 0 6; U 0 0 5");
    ok("A 0 0 5; P 0 0 6; B 0 0 6; U 0 0 6");
    no("P 0 0 6; U 0 0 6", 17);
}

#[test]
fn w4_usable() {
    // The load sets the copy and makes nothing usable.
    let stale = events_of("R 0 0 0; K 0 0; L 0 0 0");
    assert!(!usable(&stale, 0, 0) && copy(&stale, 0, 0) == Some(0));
    let printed = print(&paper_of(TRACE_HEAD, "R 0 0 0; K 0 0; L 0 0 0"));
    assert_eq!(printed, "accepted 3\nmain 0 0\nmain 1 0\n");
    // The load may come any time after a read that came after the K.
    ok("K 0 0; R 0 0 0; L 0 0 0; U 0 0 0");
    ok("R 0 0 0; K 0 0; R 0 0 0; L 0 0 0; L 0 0 0; U 0 0 0");
    no("R 0 0 0; K 0 0; R 0 0 0; L 0 0 0; U 0 0 0", 17);
    no("R 0 0 0; L 0 0 0; K 0 0; U 0 0 0", 17);
    no("P 0 0 5; B 0 0 5; K 0 0; U 0 0 5", 17);
    // Only the thread's own K, and not an N.
    ok("A 0 0 5; K 1 0; U 0 0 5");
    ok("K 0 0; R 0 0 0; L 0 0 0; N 0 0; U 0 0 0");
}

#[test]
fn w5_every_lock_of_the_thread() {
    no("K 0 0; A 0 0 5; K 0 0; U 0 0 5", 17);
    no("A 0 1 5; K 0 0; U 0 1 5", 17);
    no("A 0 1 5; K 0 1; U 0 1 5", 17);
    no("P 0 1 5; K 0 0", 13);
    no("K 0 0; P 0 1 5; K 0 0", 13);
    ok("P 1 1 5; K 0 0");
}

#[test]
fn w6_unlock_while_owing() {
    let events = "K 0 0; P 0 0 5; W 0 0 5; N 0 0; B 0 0 5";
    ok(events);
    expect_unordered("H 2 2 2\nG 0 1\n", events, 7, 20);
}

#[test]
fn w7_read_before_write() {
    ok("R 0 0 0; A 1 0 5; S 1 0 5; W 1 0 5; L 0 0 0");
    ok("A 0 0 5; S 0 0 5; W 0 0 5; R 0 0 5; L 0 0 5");
    ok("R 0 1 0; A 0 0 5; S 0 0 5; W 0 0 5; L 0 1 0");
    // No paper holds these lists: 23 refuses an event before the L.
    assert_eq!(judged("R 0 0 0; P 0 0 5; W 0 0 5; B 0 0 5; L 0 0 0"), 16);
    assert_eq!(judged("R 0 0 0; A 0 0 5; S 0 0 5; W 0 0 5; R 0 0 5; L 0 0 0"), 16);
    assert_eq!(judged("R 0 0 0; A 0 0 5; S 0 0 5; W 0 0 5; R 0 0 5; L 0 0 5"), 16);
    assert_eq!(judged("R 0 0 0; A 0 0 5; S 0 0 5; L 0 0 0"), 16);
    assert_eq!(judged("A 0 0 5; S 0 0 5; R 0 0 0; L 0 0 0"), 16);
    assert_eq!(judged("A 0 0 5; S 0 0 5; R 0 0 0; W 0 0 5; L 0 0 0"), 16);
}

#[test]
fn w8_some_variable() {
    no("A 0 1 5; K 0 0; N 0 0", 15);
    no("K 0 0; A 0 1 5; S 0 1 5; N 0 0", 16);
    no("K 0 0; P 0 1 5; B 0 1 5; N 0 0", 16);
    no("K 0 1; K 0 0; A 0 1 5; N 0 0", 15);
    ok("A 1 1 5; K 0 0; N 0 0");
    ok("A 1 1 5; S 1 1 5; K 0 0; N 0 0");
}

#[test]
fn w9_order_of_the_rows() {
    no(&(repeat("R 0 0 0", 8) + "; R 0 0 1"), 18);
    no("A 0 0 5; L 0 0 0", 10);
    no("P 0 0 5; L 0 0 0", 10);
    no("A 0 0 5; P 0 0 6; W 0 0 6; R 0 0 6; L 0 0 6", 13);
    // No paper holds these lists: 23 refuses an event before the L.
    assert_eq!(judged("R 0 0 0; A 0 0 5; P 0 0 6; L 0 0 0"), 13);
    assert_eq!(judged("R 0 0 0; A 0 0 5; S 0 0 5; A 0 0 5; L 0 0 0"), 15);
    assert_eq!(judged("R 0 0 0; A 0 0 5; S 0 0 5; L 0 0 9"), 16);
    no("R 0 0 0; L 0 0 9", 18);
    no("K 1 0; P 0 0 5; K 0 0", 11);
    no("A 0 0 5; N 0 0", 12);
    no("P 0 0 5; N 0 0", 12);
    no("K 1 0; N 0 0", 12);
    no("K 0 0; A 0 0 5; S 0 0 5; A 0 0 5; N 0 0", 15);
    no("P 0 0 5; S 0 0 5", 13);
    no("S 0 0 5", 14);
    no("A 0 0 5; S 0 0 5; K 0 0; S 0 0 6", 14);
    no("A 0 0 5; K 0 0; S 0 0 6", 17);
    no("A 0 0 5; S 0 0 6", 18);
    let eight = repeat("A 0 0 5; S 0 0 5", 8);
    no(&format!("{eight}; A 0 0 5; S 0 0 6"), 18);
    no(&format!("{}; P 0 0 5; P 0 0 5", repeat("A 0 0 5; S 0 0 5", 7)), 13);
    no("P 0 0 5; P 0 0 5", 13);
    no("W 0 0 5", 10);
    no("A 0 0 5; S 0 0 5; W 0 0 6", 18);
    no("B 0 0 5", 10);
    no("P 0 0 5; B 0 0 6", 18);
    no("P 0 0 5; B 0 0 5; B 0 0 5", 10);
    no("R 0 0 1", 18);
}

#[test]
fn w10_no_copy_is_17() {
    no("U 0 0 5", 17);
    no("A 0 0 5; U 1 0 5", 17);
    no("A 0 0 5; U 0 1 5", 17);
}

#[test]
fn w11_no_lock_needed() {
    ok("A 0 0 5; S 0 0 5; W 0 0 5; R 0 0 5; R 1 0 5");
    ok("K 1 0; A 0 0 5; S 0 0 5; W 0 0 5; R 0 0 5; L 0 0 5");
}

#[test]
fn locks() {
    ok("K 0 0; K 0 0; N 0 0; N 0 0; K 1 0; K 0 1");
    no("K 0 0; K 0 0; N 0 0; N 0 0; N 0 0", 12);
    no("K 0 0; N 0 1", 12);
    no("K 0 0; N 1 0", 12);
    no("N 0 0", 12);
}

#[test]
fn s7_nine_before_five() {
    let full = events_of(&repeat("A 0 0 5", 2_000));
    let e = events_of("A 9 0 5")[0];
    assert_eq!(judge(&full, TWO, &e), 9);
    assert_eq!(judge(&full[1..], TWO, &e), 5);
    assert_eq!(judge(&full[1..], TWO, &events_of("U 0 0 5")[0]), 0);
}
