//! 16 at N: "a store whose assign is owed counts no longer".

use super::*;
use crate::rules::{breaks, owed_store, ROWS};
use crate::{plain_run, sections, Given, Outcome};

fn ok(events: &str) {
    expect_accepted(TRACE_HEAD, events);
}

fn no(events: &str, number: u32) {
    expect_refused_last(TRACE_HEAD, events, number);
}

#[test]
fn row_of_n() {
    let row = ROWS.into_iter().find(|(kind, _)| *kind == N);
    assert_eq!(row, Some((N, &[29, 30, 26, 27, 28, 12, 15, 16][..])));
}

/// Whether an outstanding store of thread 0 on variable 0 counts. A W takes the oldest away.
#[test]
fn which_store_counts() {
    let unlock = Event { kind: N, thread: 0, target: 0, value: 0 };
    let counted = |events: &str| breaks(16, &events_of(events), Counts::plain(1, 1, 1), &unlock);
    assert!(!counted("P 0 0 5"));
    assert!(counted("P 0 0 5; B 0 0 5"));
    assert!(!counted("P 0 0 5; B 0 0 5; W 0 0 5"));
    assert!(counted("P 0 0 5; B 0 0 5; P 0 0 6"));
    assert!(!counted("P 0 0 5; B 0 0 5; P 0 0 6; W 0 0 5"));
    assert!(counted("P 0 0 5; B 0 0 5; P 0 0 6; B 0 0 6"));
    assert!(counted("P 0 0 5; B 0 0 5; P 0 0 6; B 0 0 6; W 0 0 5"));
    assert!(!counted("P 0 0 5; B 0 0 5; P 0 0 6; B 0 0 6; W 0 0 5; W 0 0 6"));
    assert!(counted("A 0 0 4; S 0 0 4; P 0 0 5"));
    assert!(!counted("A 0 0 4; S 0 0 4; P 0 0 5; W 0 0 4"));
    assert!(counted("A 0 0 4; S 0 0 4; P 0 0 5; B 0 0 5"));
    assert!(counted("A 0 0 4; S 0 0 4; P 0 0 5; B 0 0 5; W 0 0 4"));
    // Only a P and B of the same thread and variable matter.
    let other = events_of("P 0 0 5; P 1 0 5; B 1 0 5; P 0 1 5; B 0 1 5");
    assert_eq!([(0, 0), (1, 0), (0, 1)].map(|(t, v)| owed_store(&other, t, v)), [Some(0), None, None]);
}

#[test]
fn unwritten_with_its_assign_owed() {
    ok("K 0 0; P 0 0 5; N 0 0");
    // Whichever lock, and however deep.
    ok("K 0 0; K 0 1; P 0 0 5; N 0 1; N 0 0");
    ok("K 0 0; K 0 1; P 0 0 5; N 0 0; N 0 1");
    ok("K 0 0; K 0 0; P 0 0 5; N 0 0; N 0 0");
    ok("K 0 0; K 0 0; K 0 1; P 0 1 5; N 0 0; N 0 1; N 0 0");
    no("K 0 0; P 0 0 5; N 0 0; N 0 0", 12);
    no("K 0 0; P 0 0 5; N 0 1", 12);
    // Other events between the P and the N.
    ok("R 0 0 0; L 0 0 0; K 0 0; P 0 0 5; R 1 0 0; R 0 1 0; L 0 1 0; U 0 1 0; N 0 0");
    ok("K 0 0; A 0 0 4; S 0 0 4; W 0 0 4; P 0 0 5; U 0 0 4; N 0 0; U 0 0 4");
    // The guard makes no difference to the marking.
    for head in ["H 2 2 2\nG 0 0\n", "H 2 2 2\nG 1 1\n"] {
        expect_accepted(head, "K 0 0; P 0 0 5; N 0 0");
    }
}

#[test]
fn two_variables() {
    ok("K 0 0; P 0 0 5; P 0 1 6; N 0 0");
    ok("K 0 0; K 0 1; P 0 0 5; P 0 1 6; N 0 1; W 0 1 6; N 0 0; B 0 1 6; W 0 0 5; B 0 0 5");
    // A store whose assign is made counts beside one whose assign is owed.
    no("K 0 0; P 0 0 5; P 0 1 6; B 0 0 5; N 0 0", 16);
    no("K 0 0; P 0 0 5; P 0 1 6; B 0 1 6; N 0 0", 16);
    no("K 0 0; A 0 1 6; S 0 1 6; P 0 0 5; N 0 0", 16);
    no("K 0 0; P 0 0 5; A 0 1 6; S 0 1 6; N 0 0", 16);
    ok("K 0 0; P 0 0 5; A 0 1 6; S 0 1 6; W 0 1 6; N 0 0");
    ok("K 0 0; P 0 0 5; P 0 1 6; B 0 1 6; W 0 1 6; N 0 0");
}

#[test]
fn two_threads() {
    ok("K 0 0; K 1 1; P 0 0 5; P 1 0 6; N 0 0; N 1 1; W 1 0 6; W 0 0 5; B 0 0 5; B 1 0 6");
    // Another thread's stores do not count, and what it owes and assigns does not matter.
    ok("P 1 0 5; K 0 0; N 0 0");
    ok("P 1 0 5; B 1 0 5; K 0 0; N 0 0");
    ok("K 0 0; P 0 0 5; A 1 0 6; S 1 0 6; N 0 0");
    ok("K 0 0; P 0 0 5; P 1 0 6; B 1 0 6; N 0 0");
    no("K 0 0; A 0 0 5; S 0 0 5; P 1 0 6; N 0 0", 16);
    no("K 0 0; P 0 0 5; B 0 0 5; P 1 0 5; N 0 0", 16);
    no("K 0 0; P 0 0 5; P 1 0 6; W 1 0 6; B 0 0 5; N 0 0", 16);
}

#[test]
fn unwritten_after_its_assign() {
    no("K 0 0; P 0 0 5; B 0 0 5; N 0 0", 16);
    ok("K 0 0; P 0 0 5; B 0 0 5; W 0 0 5; N 0 0");
    no("K 0 0; K 0 1; P 0 0 5; N 0 1; B 0 0 5; N 0 0", 16);
    no("K 0 0; K 0 0; P 0 0 5; N 0 0; B 0 0 5; N 0 0", 16);
    ok("K 0 0; K 0 1; P 0 0 5; N 0 1; B 0 0 5; W 0 0 5; N 0 0");
    // An N is not needed between them.
    no("P 0 0 5; B 0 0 5; K 0 0; N 0 0", 16);
}

#[test]
fn earlier_plain_store() {
    no("K 0 0; A 0 0 4; S 0 0 4; P 0 0 5; N 0 0", 16);
    ok("K 0 0; A 0 0 4; S 0 0 4; W 0 0 4; P 0 0 5; N 0 0");
    ok("K 0 0; A 0 0 4; S 0 0 4; P 0 0 5; W 0 0 4; N 0 0");
    ok("K 0 0; A 0 0 4; S 0 0 4; P 0 0 5; W 0 0 4; W 0 0 5; N 0 0");
    no("K 0 0; A 0 0 3; S 0 0 3; A 0 0 4; S 0 0 4; P 0 0 5; W 0 0 3; N 0 0", 16);
    ok("K 0 0; A 0 0 3; S 0 0 3; A 0 0 4; S 0 0 4; P 0 0 5; W 0 0 3; W 0 0 4; N 0 0");
    // The same value makes no difference: the first write is the earlier store's.
    ok("K 0 0; A 0 0 5; S 0 0 5; P 0 0 5; W 0 0 5; N 0 0");
    no("K 0 0; A 0 0 5; S 0 0 5; P 0 0 5; N 0 0", 16);
    // Eight stores, the last one early.
    let seven = repeat("A 0 0 5; S 0 0 5", 7);
    no(&format!("K 0 0; {seven}; P 0 0 5; N 0 0"), 16);
    no(&format!("K 0 0; {seven}; P 0 0 5; {}; N 0 0", repeat("W 0 0 5", 6)), 16);
    ok(&format!("K 0 0; {seven}; P 0 0 5; {}; N 0 0", repeat("W 0 0 5", 7)));
}

#[test]
fn written_before_the_unlock() {
    ok("K 0 0; P 0 0 5; W 0 0 5; N 0 0");
    ok("K 0 0; P 0 0 5; W 0 0 5; N 0 0; B 0 0 5");
    ok("K 0 0; P 0 0 5; W 0 0 5; B 0 0 5; N 0 0");
}

/// "only an assign already made must reach main memory before the unlock": a fresh one is 15.
#[test]
fn fresh_assign_at_the_unlock() {
    no("K 0 0; P 0 0 5; A 0 0 6; N 0 0", 15);
    no("K 0 0; A 0 0 6; P 0 0 5; N 0 0", 15);
    no("K 0 0; P 0 0 5; W 0 0 5; A 0 0 6; N 0 0", 15);
    no("K 0 0; P 0 0 5; A 0 1 6; N 0 0", 15);
    no("K 0 0; A 0 0 4; S 0 0 4; P 0 0 5; A 0 0 6; N 0 0", 15);
    ok("K 0 0; P 0 0 5; A 0 0 6; B 0 0 5; W 0 0 5; N 0 0");
    no("K 0 0; P 0 0 5; A 0 0 6; B 0 0 5; N 0 0", 16);
}

#[test]
fn written_and_assigned_after_the_unlock() {
    let printed = "accepted 5\nmain 0 5\nmain 1 0\ncopy 0 0 5\n";
    for events in ["K 0 0; P 0 0 5; N 0 0; W 0 0 5; B 0 0 5", "K 0 0; P 0 0 5; N 0 0; B 0 0 5; W 0 0 5"] {
        assert_eq!(print(&paper_of(TRACE_HEAD, events)), printed, "{events}");
    }
    ok("K 0 0; P 0 0 5; N 0 0; B 0 0 5; U 0 0 5");
    no("K 0 0; P 0 0 5; N 0 0; B 0 0 6", 18);
    no("K 0 0; P 0 0 5; N 0 0; W 0 0 6", 18);
    no("K 0 0; P 0 0 5; N 0 0; W 0 0 5; W 0 0 5", 10);
    // In the next section the store counts.
    no("K 0 0; P 0 0 5; N 0 0; B 0 0 5; K 0 0; N 0 0", 16);
    ok("K 0 0; P 0 0 5; N 0 0; B 0 0 5; K 0 0; W 0 0 5; N 0 0");
}

/// The waiting store changes no other rule.
#[test]
fn other_rules_while_owed() {
    let waits = "K 0 0; K 1 1; P 0 0 5; N 0 0";
    let after = |event: &str, number| no(&format!("{waits}; {event}"), number);
    after("K 0 0", 13);
    after("K 0 1", 11);
    after("S 0 0 5", 13);
    after("P 0 0 5", 13);
    after("L 0 0 0", 10);
    after("U 0 0 0", 17);
    after("R 0 0 0", 23);
    after("N 0 0", 12);
    after("K 1 0; R 0 0 0", 23);
    after("W 0 0 5; K 0 0", 13);
    after("W 0 0 5; R 0 0 5; L 0 0 5", 13);
    after("W 0 0 5; R 0 0 5; B 0 0 5; A 0 0 6", 23);
    after("B 0 0 5; R 0 0 0", 23);
    ok(&format!("{waits}; R 0 1 0; L 0 1 0; A 0 1 6; S 0 1 6; P 0 1 7"));
    ok(&format!("{waits}; A 0 0 6; U 0 0 6"));
    ok(&format!("{waits}; W 0 0 5; R 0 0 5; B 0 0 5; L 0 0 5; U 0 0 5"));
    ok(&format!("{waits}; B 0 0 5; K 0 0; W 0 0 5; N 0 0"));
    // The other thread takes the lock, and reads main memory.
    ok(&format!("{waits}; K 1 0; R 1 0 0; L 1 0 0; U 1 0 0"));
    no(&format!("{waits}; K 1 0; R 1 0 5"), 18);
    // No paper holds these lists: 23 refuses the R.
    assert_eq!(judged(&format!("{waits}; R 0 0 0; L 0 0 0")), 13);
    assert_eq!(judged(&format!("{waits}; R 0 0 0; B 0 0 5; L 0 0 0")), 16);
    assert_eq!(judged(&format!("{waits}; R 0 0 0; B 0 0 5; W 0 0 5; L 0 0 0")), 16);
    // It is one of the eight.
    let seven = repeat("A 0 0 5; S 0 0 5", 7);
    no(&format!("{waits}; B 0 0 5; {seven}; A 0 0 5; S 0 0 5"), 19);
    no(&format!("{waits}; B 0 0 5; {seven}; P 0 0 5"), 19);
}

#[test]
fn several_early_stores_in_turn() {
    // The first one's assign is made.
    no("K 0 0; P 0 0 5; B 0 0 5; P 0 0 6; N 0 0", 16);
    ok("K 0 0; P 0 0 5; B 0 0 5; W 0 0 5; P 0 0 6; N 0 0");
    ok("K 0 0; P 0 0 5; B 0 0 5; P 0 0 6; W 0 0 5; N 0 0");
    ok("K 0 0; P 0 0 5; W 0 0 5; B 0 0 5; P 0 0 6; N 0 0");
    ok("K 0 0; P 0 0 5; B 0 0 5; P 0 0 6; W 0 0 5; W 0 0 6; N 0 0");
    no("K 0 0; P 0 0 5; B 0 0 5; P 0 0 6; W 0 0 5; B 0 0 6; N 0 0", 16);
    no("K 0 0; P 0 0 5; B 0 0 5; P 0 0 6; B 0 0 6; P 0 0 7; W 0 0 5; N 0 0", 16);
    ok("K 0 0; P 0 0 5; B 0 0 5; P 0 0 6; B 0 0 6; P 0 0 7; W 0 0 5; W 0 0 6; N 0 0");
    // One waits over each N.
    ok("K 0 0; K 0 1; P 0 0 5; N 0 1; B 0 0 5; W 0 0 5; P 0 0 6; N 0 0; W 0 0 6; B 0 0 6");
    no("K 0 0; K 0 1; P 0 0 5; N 0 1; B 0 0 5; P 0 0 6; N 0 0", 16);
}

/// No paper holds these lists: 13 refuses the second P, or the S.
#[test]
fn lists_that_13_refuses() {
    // Of two P in turn the assign of the latest is owed.
    assert_eq!(judged("K 0 0; P 0 0 5; P 0 0 6; N 0 0"), 16);
    assert_eq!(judged("K 0 0; P 0 0 5; P 0 0 6; W 0 0 5; N 0 0"), 0);
    assert_eq!(judged("K 0 0; P 0 0 5; P 0 0 6; B 0 0 6; W 0 0 5; N 0 0"), 16);
    // An S counts, also where V is owed.
    assert_eq!(judged("K 0 0; P 0 0 5; A 0 0 6; S 0 0 6; N 0 0"), 16);
    assert_eq!(judged("K 0 0; P 0 0 5; A 0 0 6; S 0 0 6; W 0 0 5; N 0 0"), 16);
    assert_eq!(judged("K 0 0; P 0 0 5; A 0 0 6; S 0 0 6; W 0 0 5; W 0 0 6; N 0 0"), 0);
}

/// Two threads; lock 0 guards variable 0, lock 1 variable 1.
const GUARDED: &str = "H 2 2 2\nG 0 1\n";

/// The early store of thread 0 on variable 0 waits over its N of lock 1, and its W and B come
/// after a section of thread 1.
const WAITS_OVER_A_SECTION: &str = "K 0 0; K 1 1; A 1 1 3; S 1 1 3; W 1 1 3; N 1 1; \
    K 0 1; R 0 1 3; L 0 1 3; U 0 1 3; P 0 0 5; N 0 1; \
    K 1 1; R 1 1 3; L 1 1 3; U 1 1 3; A 1 1 4; S 1 1 4; W 1 1 4; N 1 1; \
    W 0 0 5; B 0 0 5; U 0 0 5; N 0 0; \
    K 1 0; R 1 0 5; L 1 0 5; U 1 0 5; N 1 0";

/// "serial orders are promised for such papers too".
#[test]
fn serial_order_with_a_waiting_store() {
    let paper = paper_of(GUARDED, WAITS_OVER_A_SECTION);
    let printed = "accepted 29\nmain 0 5\nmain 1 4\ncopy 0 0 5\ncopy 0 1 3\ncopy 1 0 5\n\
                   section 1 4 8\nsection 0 3 26\nsection 1 15 22\nsection 1 27 31\n";
    assert_eq!(print(&paper), printed);
    let o = outcome(&paper);
    assert_eq!(demand3(&o), Ok(()));
    let list = sections(TWO, &o.events);
    let (uses, memory) = plain_run(TWO, &list, &o.events);
    let given = |line, value| Given { line, given: value, stated: value };
    assert_eq!(uses, [given(12, 3), given(25, 5), given(18, 3), given(30, 5)]);
    assert_eq!(memory[..2], [5, 4]);
    // Other sequences of the sections fail: by first lock, and by last unlock.
    let [a, b, c, d] = list[..] else { panic!("four sections") };
    for other in [[b, a, c, d], [a, c, b, d]] {
        assert!(demand3(&Outcome { order: Order::Sections(other.to_vec()), ..o.clone() }).is_err());
    }
}

#[test]
fn the_assign_must_be_written_in_its_section() {
    let (before, _) = WAITS_OVER_A_SECTION.split_once("W 0 0 5; B 0 0 5;").expect("both");
    expect_refused_last(GUARDED, &format!("{before} B 0 0 5; U 0 0 5; N 0 0"), 16);
    expect_accepted(GUARDED, &format!("{before} B 0 0 5; U 0 0 5; W 0 0 5; N 0 0"));
}

#[test]
fn serial_order_with_two_waiting_stores() {
    // One of each thread, over their N of lock 2.
    let threads = "K 0 0; K 0 2; A 0 2 7; S 0 2 7; W 0 2 7; P 0 0 5; N 0 2; \
                   K 1 1; K 1 2; R 1 2 7; L 1 2 7; U 1 2 7; P 1 1 6; N 1 2; \
                   B 0 0 5; W 1 1 6; U 0 0 5; B 1 1 6; W 0 0 5; N 0 0; N 1 1; \
                   K 0 1; R 0 1 6; L 0 1 6; U 0 1 6; N 0 1; K 1 0; R 1 0 5; L 1 0 5; U 1 0 5; N 1 0";
    let printed = ["section 0 3 22", "section 1 10 23", "section 0 24 28", "section 1 29 33"];
    assert_eq!(printed_sections("H 2 3 3\nG 0 1 2\n", threads), printed);
    // Two of one thread, over its N of locks 2 and 3; one of them over the other's guard too.
    let variables = "K 0 0; K 0 1; K 0 2; K 0 3; P 0 0 5; P 0 1 6; N 0 3; W 0 1 6; N 0 2; B 0 1 6; N 0 1; \
                     K 1 1; R 1 1 6; L 1 1 6; U 1 1 6; N 1 1; B 0 0 5; W 0 0 5; N 0 0; \
                     K 1 0; R 1 0 5; L 1 0 5; U 1 0 5; N 1 0";
    let printed = ["section 0 3 21", "section 1 14 18", "section 1 22 26"];
    assert_eq!(printed_sections("H 2 2 4\nG 0 1\n", variables), printed);
}

#[test]
fn waiting_over_an_unlock_of_the_guard() {
    // The guard is held once more, so the B is under it.
    let deep = "K 0 0; K 0 0; P 0 0 5; N 0 0; B 0 0 5; U 0 0 5; W 0 0 5; N 0 0";
    assert_eq!(printed_sections(GUARDED, deep), ["section 0 3 10"]);
    // The guard is given up: the B is not under it, or the assign is owed at the end.
    expect_unordered(GUARDED, "K 0 0; P 0 0 5; N 0 0; W 0 0 5; B 0 0 5", 7, 20);
    expect_unordered(GUARDED, "K 0 0; P 0 0 5; N 0 0; B 0 0 5", 6, 20);
    expect_unordered(GUARDED, "K 0 0; P 0 0 5; N 0 0", 6, 22);
    expect_unordered(GUARDED, "K 0 0; P 0 0 5; N 0 0; W 0 0 5", 7, 22);
    expect_unordered(GUARDED, "K 0 0; K 0 1; P 0 0 5; N 0 0; B 0 0 5; W 0 0 5; N 0 1", 7, 20);
    expect_unordered(GUARDED, "K 0 0; K 0 1; P 0 0 5; N 0 1; N 0 0", 8, 22);
}
