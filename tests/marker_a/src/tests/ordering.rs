//! Corners O: 20 to 22, sections, the plain memory.

use super::*;
use crate::{demand3, denial, outcome, plain_run, sections, Given, Order, Section};

/// Two threads, two variables, two locks; lock 0 guards variable 0, lock 1 variable 1.
const GUARDED: &str = "H 2 2 2\nG 0 1\n";

#[test]
fn ordering_by_first_lock_is_a_slip() {
    let events = "K 0 0; K 1 1; A 1 0 5; S 1 0 5; W 1 0 5; N 1 1; \
                  K 0 1; R 0 0 5; L 0 0 5; U 0 0 5; N 0 1; N 0 0";
    let head = "H 2 1 2\nG 1\n";
    assert_eq!(printed_sections(head, events), ["section 1 4 8", "section 0 3 14"]);
    // In order of the first lock the use would be given 0.
    let o = outcome(&paper_of(head, events));
    let mut list = sections(TWO, &o.events);
    list.sort_by_key(|s| s.first);
    let (uses, memory) = plain_run(TWO, &list, &o.events);
    assert_eq!(uses, [Given { line: 12, given: 0, stated: 5 }]);
    assert_eq!(memory[0], 5);
    assert!(demand3(&crate::Outcome { order: Order::Sections(list), ..o }).is_err());
}

#[test]
fn o1_only_accepted_papers_with_guards() {
    assert_eq!(print(&paper_of(GUARDED, "A 0 0 5; U 0 0 6")), "refused 4 18\n");
    assert_eq!(print(&paper_of("H 1 1 1\nG -\n", "A 0 0 5; K 0 0")), "accepted 2\nmain 0 0\n");
    let both = "K 0 0; K 0 1; N 0 1; K 0 1; A 1 0 5";
    expect_unordered(GUARDED, both, 6, 21);
    expect_unordered(GUARDED, "A 1 0 5; K 0 0; K 0 1; N 0 1; K 0 1", 3, 20);
}

#[test]
fn o2_only_use_and_assign_need_a_guard() {
    expect_unordered(GUARDED, "A 0 0 5", 3, 20);
    expect_unordered(GUARDED, "R 0 0 0; L 0 0 0; U 0 0 0", 5, 20);
    expect_unordered(GUARDED, "P 0 0 5; B 0 0 5", 4, 20);
    expect_unordered(GUARDED, "K 0 1; A 0 0 5", 4, 20);
    expect_unordered(GUARDED, "K 1 0; A 0 0 5", 4, 20);
    expect_unordered(GUARDED, "K 0 0; A 0 1 5", 4, 20);
    // P alone is no 20, though it is owed at the end.
    expect_unordered(GUARDED, "P 0 0 5", 4, 22);
    let free = events_of("S 0 0 5; W 0 0 5; R 0 0 5; L 0 0 5");
    assert_eq!(denial(TWO, &[0, 1], &free), None);
    // The guard may be held more than once.
    let deep = "K 0 0; K 0 0; N 0 0; A 0 0 5; S 0 0 5; W 0 0 5; N 0 0";
    assert_eq!(printed_sections(GUARDED, deep), ["section 0 3 9"]);
}

#[test]
fn o3_lock_after_unlock() {
    expect_unordered(GUARDED, "K 0 0; K 0 1; N 0 1; K 0 1; N 0 1; N 0 0", 6, 21);
    expect_unordered(GUARDED, "K 0 0; K 0 0; N 0 0; K 0 0; N 0 0; N 0 0", 6, 21);
    expect_unordered(GUARDED, "K 0 0; K 0 1; N 0 0; K 0 0; N 0 1; N 0 0", 6, 21);
    let new = "K 0 0; N 0 0; K 0 0; N 0 0";
    assert_eq!(printed_sections(GUARDED, new), ["section 0 3 4", "section 0 5 6"]);
    // Another thread's N does not matter.
    let other = "K 0 0; K 1 1; N 1 1; K 0 1; N 0 1; N 0 0";
    assert_eq!(printed_sections(GUARDED, other), ["section 1 4 5", "section 0 3 8"]);
    // An N of an earlier section does not matter.
    let earlier = "K 0 0; N 0 0; K 0 0; K 0 1; N 0 0; N 0 1";
    assert_eq!(printed_sections(GUARDED, earlier), ["section 0 3 4", "section 0 5 8"]);
}

#[test]
fn o4_open_at_the_end() {
    expect_unordered(GUARDED, "K 0 0", 4, 22);
    expect_unordered(GUARDED, "K 1 1", 4, 22);
    expect_unordered(GUARDED, "P 0 0 5; W 0 0 5", 5, 22);
    expect_unordered(GUARDED, "P 1 1 5", 4, 22);
    expect_unordered(GUARDED, "K 0 0; K 0 0; N 0 0", 6, 22);
    expect_unordered(GUARDED, "K 0 0; P 0 0 5; W 0 0 5; N 0 0", 7, 22);
    // Outstanding reads are not asked about.
    assert!(printed_sections(GUARDED, "R 0 0 0").is_empty());
}

#[test]
fn o5_no_sections() {
    assert_eq!(print(&paper_of("H 1 1 1\nG 0\n", "")), "accepted 0\nmain 0 0\n");
    let loads = print(&paper_of("H 1 1 1\nG 0\n", "R 0 0 0; L 0 0 0"));
    assert_eq!(loads, "accepted 2\nmain 0 0\ncopy 0 0 0\n");
    assert_eq!(outcome(&paper_of("H 1 1 1\nG 0\n", "")).order, Order::Sections(vec![]));
}

#[test]
fn o6_last_lock() {
    let events = "K 0 0; K 1 1; N 1 1; K 0 0; N 0 0; N 0 0";
    assert_eq!(printed_sections(GUARDED, events), ["section 1 4 5", "section 0 3 8"]);
    let list = sections(TWO, &events_of(events));
    assert_eq!(list[0], Section { thread: 1, first: 4, last: 5, last_lock: 4 });
    assert_eq!(list[1], Section { thread: 0, first: 3, last: 8, last_lock: 6 });
    let without = "K 0 0; K 1 1; N 1 1; N 0 0";
    assert_eq!(printed_sections(GUARDED, without), ["section 0 3 6", "section 1 4 5"]);
    // A section that is still running is no entry.
    assert!(sections(TWO, &events_of("K 0 0; K 0 1; N 0 0")).is_empty());
}

#[test]
fn o7_longest_order() {
    let printed = printed_sections(GUARDED, &repeat("K 0 0; N 0 0", 1_000));
    assert_eq!(printed.len(), 1_000);
    assert_eq!(printed[999], format!("section 0 {} {}", line_of(TWO, 1_998), line_of(TWO, 1_999)));
    let text = print(&paper_of(GUARDED, &repeat("K 0 0; N 0 0", 1_000)));
    assert!(text.len() < 23_200);
}

#[test]
fn plain_memory() {
    // An early store's value comes with its B; the value in a U is not looked at.
    let events = events_of("K 0 0; A 0 0 1; P 0 0 2; U 0 0 9; W 0 0 2; B 0 0 2; U 0 0 2; A 1 0 7; N 0 0");
    let (uses, memory) = plain_run(TWO, &sections(TWO, &events), &events);
    let given: Vec<(usize, Value, Value)> = uses.iter().map(|u| (u.line, u.given, u.stated)).collect();
    assert_eq!(given, [(6, 1, 9), (9, 2, 2)]);
    assert_eq!(memory[..2], [2, 0]);
}

#[test]
fn demand_3_tells_a_difference() {
    let events = "K 0 0; A 0 0 5; S 0 0 5; W 0 0 5; N 0 0; K 1 0; R 1 0 5; L 1 0 5; U 1 0 5; N 1 0";
    let good = outcome(&paper_of("H 2 1 1\nG 0\n", events));
    assert_eq!(demand3(&good), Ok(()));
    let list = sections(TWO, &good.events);
    let with = |list: Vec<Section>| crate::Outcome { order: Order::Sections(list), ..good.clone() };
    assert!(demand3(&with(vec![list[1], list[0]])).is_err());
    assert!(demand3(&with(vec![list[0]])).is_err());
    assert!(demand3(&with(vec![list[1]])).is_err());
    assert!(demand3(&with(vec![])).is_err());
    assert!(demand3(&crate::Outcome { main: vec![6], ..good.clone() }).is_err());
}
