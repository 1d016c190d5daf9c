//! The listing, the short traces, the 1-2-3 run, and the limits on counts.

use super::*;
use crate::{demand3, outcome};

const LISTING: &str = "H 2 1 1\nG 0\nK 0 0\nA 0 0 5\nS 0 0 5\nW 0 0 5\nN 0 0\nK 1 0\nR 1 0 5\n\
                       L 1 0 5\nU 1 0 5\nN 1 0\nZ 84\n";

#[test]
fn listing_of_01() {
    let printed = "accepted 10\nmain 0 5\ncopy 0 0 5\ncopy 1 0 5\nsection 0 3 7\nsection 1 8 12\n";
    assert_eq!(print(LISTING.as_bytes()), printed);
    assert_eq!(demand3(&outcome(LISTING.as_bytes())), Ok(()));
}

#[test]
fn listing_is_what_the_helper_builds() {
    let events = "K 0 0; A 0 0 5; S 0 0 5; W 0 0 5; N 0 0; K 1 0; R 1 0 5; L 1 0 5; U 1 0 5; N 1 0";
    assert_eq!(paper_of("H 2 1 1\nG 0\n", events), LISTING.as_bytes());
}

#[test]
fn short_traces_accepted() {
    assert_eq!(print(&paper_of(TRACE_HEAD, "")), "accepted 0\nmain 0 0\nmain 1 0\n");
    assert_eq!(print(&paper_of(TRACE_HEAD, "R 0 0 0; L 0 0 0; U 0 0 0")), "accepted 3\nmain 0 0\nmain 1 0\ncopy 0 0 0\n");
    assert_eq!(print(&paper_of(TRACE_HEAD, "P 0 0 5; W 0 0 5; B 0 0 5")), "accepted 3\nmain 0 5\nmain 1 0\ncopy 0 0 5\n");
}

#[test]
fn short_traces_refused() {
    let rows: [(&str, u32); 8] = [
        ("U 0 0 0", 17),
        ("R 0 0 0; K 0 0; L 0 0 0; U 0 0 0", 17),
        ("A 0 0 5; S 0 0 5; S 0 0 5", 14),
        ("A 0 0 5; K 0 0; S 0 0 5", 17),
        ("K 0 0; A 0 0 5; S 0 0 5; N 0 0", 16),
        ("P 0 0 5; K 0 0", 13),
        ("K 0 0; K 0 0; N 0 0; K 1 0", 11),
        ("R 0 0 0; R 0 0 0; R 0 0 0; R 0 0 0; R 0 0 0; R 0 0 0; R 0 0 0; R 0 0 0; R 0 0 0", 19),
    ];
    for (events, number) in rows {
        expect_refused_last(TRACE_HEAD, events, number);
    }
    assert_eq!(print(&paper_of(TRACE_HEAD, "U 0 0 0")), "refused 3 17\n");
}

/// "The traces in 01 with those verdicts at L get the new one at the earlier event".
#[test]
fn short_traces_with_a_dead_read() {
    for events in ["R 0 0 0; A 0 0 5; L 0 0 0", "R 0 0 0; A 0 0 5; S 0 0 5; W 0 0 5; L 0 0 0"] {
        expect_refused(&paper_of(TRACE_HEAD, events), line_of(TWO, 1), 23);
    }
}

/// "The trace with `P` then `N` in 01 is accepted": the assign is owed, so its store does not
/// count at the N.
#[test]
fn short_trace_with_an_early_store() {
    assert_eq!(print(&paper_of(TRACE_HEAD, "K 0 0; P 0 0 5; N 0 0")), "accepted 3\nmain 0 0\nmain 1 0\n");
}

#[test]
fn eight_and_nine_reads() {
    expect_accepted(TRACE_HEAD, &repeat("R 0 0 0", 8));
    expect_refused(&paper_of(TRACE_HEAD, &repeat("R 0 0 0", 9)), 11, 19);
    // A load leaves room for one more; another variable and another thread have their own.
    expect_accepted(TRACE_HEAD, &(repeat("R 0 0 0", 8) + "; L 0 0 0; R 0 0 0; R 0 1 0; R 1 0 0"));
}

#[test]
fn eight_and_nine_stores() {
    let eight = repeat("A 0 0 5; S 0 0 5", 8);
    expect_refused_last(TRACE_HEAD, &format!("{eight}; A 0 0 5; S 0 0 5"), 19);
    expect_refused_last(TRACE_HEAD, &format!("{eight}; P 0 0 5"), 19);
    expect_accepted(TRACE_HEAD, &format!("{eight}; W 0 0 5; A 0 0 5; S 0 0 5; P 0 1 5; P 1 0 5"));
    // An early store is one of the eight.
    let seven = repeat("A 0 0 5; S 0 0 5", 7);
    expect_refused_last(TRACE_HEAD, &format!("{seven}; P 0 0 6; B 0 0 6; A 0 0 5; S 0 0 5"), 19);
}

#[test]
fn two_thousand_events_and_one_more() {
    expect_accepted(TRACE_HEAD, &repeat("A 0 0 5", 2_000));
    expect_refused(&paper_of(TRACE_HEAD, &repeat("A 0 0 5", 2_001)), 2_003, 9);
    // Event 2,000 is checked.
    let late = repeat("A 0 0 5", 1_999) + "; U 0 1 0";
    expect_refused(&paper_of(TRACE_HEAD, &late), 2_002, 17);
}

#[test]
fn run_1_2_3() {
    let events = "K 0 0; A 0 1 2; S 0 1 2; W 0 1 2; N 0 0; \
                  K 1 0; A 1 1 3; S 1 1 3; W 1 1 3; R 0 1 3; A 1 1 100; S 1 1 100; W 1 1 100; N 1 0; \
                  A 1 0 1; S 1 0 1; W 1 0 1; R 0 0 1; L 0 0 1; U 0 0 1; U 0 1 2; L 0 1 3; U 0 1 3";
    assert_eq!(
        print(&paper_of("H 2 2 1\nG -\n", events)),
        "accepted 23\nmain 0 1\nmain 1 100\ncopy 0 0 1\ncopy 0 1 3\ncopy 1 0 1\ncopy 1 1 100\n"
    );
}
