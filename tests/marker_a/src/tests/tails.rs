//! (c), "A tail that finishes the paper": tails worked out by hand, their lines, the longest, and what is turned away.

use super::*;
use crate::tail::{finishes, is_finished, length, search, tail, TailEvent};
use crate::Refusal;

const TURNED_AWAY: Refusal = Refusal { line: 0, number: 24 };

/// The tail of an accepted paper, from exactly enough places; its events and its lines.
fn tail_of(paper: &[u8], places: usize) -> (Vec<Event>, Vec<usize>) {
    let given = tail(paper, places).expect("a tail");
    given.into_iter().map(|TailEvent { line, event }| (event, line)).unzip()
}

/// The paper has a shortest tail of as many events as `by_hand` has, and `by_hand` is one.
/// A tail of at most three events is searched for too.
fn expect_tail(events: &str, by_hand: &str) {
    expect_accepted(TRACE_HEAD, events);
    let (list, one) = (events_of(events), events_of(by_hand));
    assert!(finishes(&TWO, &list, &one), "{events}: {by_hand}");
    assert_eq!(length(&TWO, &list), one.len(), "{events}");
    assert_eq!(search(&TWO, &list, one.len().min(3)), (one.len() <= 3).then_some(one.len()), "{events}");
    assert_eq!(is_finished(&TWO, &list), one.is_empty(), "{events}");
    let paper = paper_of(TRACE_HEAD, events);
    let (given, lines) = tail_of(&paper, one.len());
    assert_eq!(given.len(), one.len(), "{events}: {given:?}");
    assert!(finishes(&TWO, &list, &given), "{events}: {given:?}");
    assert_eq!(lines, (list.len() + 3..list.len() + 3 + one.len()).collect::<Vec<_>>(), "{events}");
    if !one.is_empty() {
        assert_eq!(tail(&paper, one.len() - 1), Err(TURNED_AWAY), "{events}");
    }
}

// ---- by hand ----

#[test]
fn nothing_is_left() {
    for events in [
        "",
        "R 0 0 0; L 0 0 0; U 0 0 0",
        "A 0 0 5; S 0 0 5; W 0 0 5",
        "P 0 0 5; W 0 0 5; B 0 0 5",
        "P 0 0 5; A 0 0 6; B 0 0 5; W 0 0 5",
        "K 0 0; K 0 1; N 0 0; N 0 1",
        "R 0 0 0; L 0 0 0; K 0 0; N 0 0",
    ] {
        expect_tail(events, "");
    }
}

#[test]
fn reads_are_loaded() {
    expect_tail("R 0 0 0", "L 0 0 0");
    expect_tail("R 0 0 0; R 0 0 0; L 0 0 0; R 0 0 0", "L 0 0 0; L 0 0 0");
    expect_tail("R 0 0 0; R 1 1 0", "L 1 1 0; L 0 0 0");
    expect_tail(&repeat("R 0 0 0", 8), &repeat("L 0 0 0", 8));
    // A read before the K is loaded all the same; its copy is not usable, and need not be.
    expect_tail("R 0 0 0; K 0 0", "L 0 0 0; N 0 0");
}

#[test]
fn stores_are_written() {
    expect_tail("A 0 0 5; S 0 0 5", "W 0 0 5");
    expect_tail("A 0 0 5; S 0 0 5; A 0 0 6; S 0 0 6", "W 0 0 5; W 0 0 6");
    expect_tail("P 0 0 5; B 0 0 5", "W 0 0 5");
    expect_tail("K 0 0; A 0 0 5; S 0 0 5", "W 0 0 5; N 0 0");
}

#[test]
fn what_is_owed_is_assigned() {
    // Written, and not.
    expect_tail("P 0 0 5; W 0 0 5", "B 0 0 5");
    expect_tail("P 0 0 5", "W 0 0 5; B 0 0 5");
    expect_tail("P 0 0 5", "B 0 0 5; W 0 0 5");
    expect_tail("K 0 0; P 0 0 5", "N 0 0; W 0 0 5; B 0 0 5");
    expect_tail("K 0 0; P 0 0 5; N 0 0", "B 0 0 5; W 0 0 5");
    expect_tail("A 0 0 4; S 0 0 4; P 0 0 5", "W 0 0 4; W 0 0 5; B 0 0 5");
    // "the coming B clears a fresh assign", usable or spoiled.
    expect_tail("A 0 0 4; P 0 0 5", "B 0 0 5; W 0 0 5");
    expect_tail("P 0 0 5; W 0 0 5; A 0 0 4", "B 0 0 5");
    expect_tail("A 0 0 4; K 0 0; P 0 0 5", "B 0 0 5; W 0 0 5; N 0 0");
    // "so a read may yet be loaded": P, W, R, A.
    expect_tail("P 0 0 6; W 0 0 6; R 0 0 6; A 0 0 7", "B 0 0 6; L 0 0 6");
    expect_tail("P 0 0 6; W 0 0 6; R 0 0 6; A 0 0 7; R 0 0 6", "B 0 0 6; L 0 0 6; L 0 0 6");
    expect_tail("P 0 0 6; W 0 0 6; R 0 0 6; A 0 0 7; B 0 0 6", "L 0 0 6");
}

#[test]
fn fresh_and_usable_is_stored() {
    expect_tail("A 0 0 5", "S 0 0 5; W 0 0 5");
    expect_tail("A 0 0 5; A 0 0 6", "S 0 0 6; W 0 0 6");
    expect_tail("A 0 0 5; S 0 0 5; A 0 0 6", "S 0 0 6; W 0 0 5; W 0 0 6");
    expect_tail("P 0 0 5; W 0 0 5; B 0 0 5; A 0 0 6", "S 0 0 6; W 0 0 6");
    expect_tail("K 0 0; A 0 0 5", "S 0 0 5; W 0 0 5; N 0 0");
    // Another thread's K spoils nothing.
    expect_tail("A 0 0 5; K 1 0", "N 1 0; S 0 0 5; W 0 0 5");
    // Eight are outstanding: the S waits for a W.
    let eight = repeat("A 0 0 5; S 0 0 5", 8);
    expect_tail(&format!("{eight}; A 0 0 6"), &format!("W 0 0 5; S 0 0 6; {}; W 0 0 6", repeat("W 0 0 5", 7)));
}

#[test]
fn fresh_and_spoiled_is_assigned_again() {
    expect_tail("A 0 0 5; K 0 0", "A 0 0 5; S 0 0 5; W 0 0 5; N 0 0");
    expect_tail("A 0 0 5; K 0 0", "P 0 0 7; B 0 0 7; W 0 0 7; N 0 0");
    expect_tail("A 0 0 5; S 0 0 5; A 0 0 6; K 0 1", "W 0 0 5; A 0 0 6; S 0 0 6; W 0 0 6; N 0 1");
    // The K spoils both copies; that of variable 1 has been assigned again.
    expect_tail("A 0 0 5; A 0 1 5; K 0 0; A 0 1 5", "A 0 0 5; S 0 0 5; W 0 0 5; S 0 1 5; W 0 1 5; N 0 0");
}

#[test]
fn holds_are_given_up() {
    expect_tail("K 0 0", "N 0 0");
    expect_tail("K 0 0; K 0 0; K 0 0", "N 0 0; N 0 0; N 0 0");
    expect_tail("K 0 0; K 0 1; K 0 0; N 0 1", "N 0 0; N 0 0");
    expect_tail("K 0 0; K 1 1; K 0 0", "N 1 1; N 0 0; N 0 0");
}

#[test]
fn a_mix_of_two_threads() {
    let events = "K 0 0; A 0 0 5; S 0 0 5; K 1 1; R 1 0 0; P 1 1 3; A 0 1 4";
    expect_tail(events, "W 0 0 5; S 0 1 4; W 0 1 4; N 0 0; L 1 0 0; W 1 1 3; B 1 1 3; N 1 1");
    expect_tail("R 0 0 0; A 1 0 5; S 1 0 5", "W 1 0 5; L 0 0 0");
}

// ---- what a tail is ----

#[test]
fn what_does_not_finish() {
    let no = |events: &str, tail: &str| {
        assert!(!finishes(&TWO, &events_of(events), &events_of(tail)), "{events}: {tail}");
    };
    // Something is left: a read, a store, a fresh assign, an owed one, a hold.
    for events in ["R 0 0 0", "A 0 0 5; S 0 0 5", "A 0 0 5", "P 0 0 5; W 0 0 5", "K 1 1"] {
        no(events, "");
        no("", events);
    }
    // Not legal: value, partner, row, thread.
    no("A 0 0 5; S 0 0 5", "W 0 0 6");
    no("", "W 0 0 5");
    no("K 0 0; A 0 0 5", "N 0 0; S 0 0 5; W 0 0 5");
    no("", "K 2 0; N 2 0");
    // More than is needed is no fault here.
    assert!(finishes(&TWO, &events_of("R 0 0 0"), &events_of("L 0 0 0; U 0 0 0; K 1 0; N 1 0")));
}

/// A Y would give up three holds at once and is legal, but a tail has the ten kinds alone.
#[test]
fn a_tail_has_the_ten_kinds() {
    let three = "K 0 0; K 0 0; K 0 0";
    let list = events_of(&format!("{three}; Y 0 0"));
    assert_eq!(judged(&format!("{three}; Y 0 0")), 0);
    assert!(is_finished(&TWO, &list));
    assert!(!finishes(&TWO, &list[..3], &list[3..]));
    assert_eq!(search(&TWO, &list[..3], 2), None);
    expect_tail(three, "N 0 0; N 0 0; N 0 0");
}

/// "the 2,000 limit set aside for it."
#[test]
fn beyond_2_000_events() {
    let events = repeat("A 0 0 5", 2_000);
    let list = events_of(&events);
    assert_eq!(judged(&format!("{events}; S 0 0 5")), 9);
    assert!(finishes(&TWO, &list, &events_of("S 0 0 5; W 0 0 5")));
    assert_eq!(search(&Counts::plain(1, 1, 0), &list, 2), Some(2));
    let (given, lines) = tail_of(&paper_of(TRACE_HEAD, &events), 2);
    assert_eq!((given, lines), (events_of("S 0 0 5; W 0 0 5"), vec![2_003, 2_004]));
}

/// The longest tail: every copy is fresh and spoiled, and all other events are holds. For each R, K, S or P a tail has
/// at most one L, N or W. For a thread and variable it has besides one B, if owed, or at most three events if fresh,
/// which takes an A. So it has at most two events more than the paper for each of the 128.
#[test]
fn the_longest_tail() {
    let counts = Counts::plain(8, 16, 8);
    let mut lines: Vec<String> = (0..8).flat_map(|t| (0..16).map(move |v| format!("A {t} {v} 5"))).collect();
    lines.extend((0..1_872).map(|i| format!("K {0} {0}", i % 8)));
    let events = lines.join(";");
    let list = events_of(&events);
    assert_eq!((list.len(), length(&counts, &list)), (2_000, 2_256));
    let paper = paper_of("H 8 16 8\nG -\n", &events);
    assert_eq!(tail(&paper, 2_255), Err(TURNED_AWAY));
    let (given, lines) = tail_of(&paper, 2_256);
    assert_eq!((given.len(), lines.first(), lines.last()), (2_256, Some(&2_003), Some(&4_258)));
    assert!(finishes(&counts, &list, &given));
}

// ---- what is turned away ----

/// "a refused paper gives its own refusal", whatever is lent.
#[test]
fn refused_papers() {
    for (lines, line, number) in [
        ("H 1 1 0", 2, 6),
        ("H 9 1 0; G -", 1, 3),
        ("H 1 1 0; G 0", 2, 6),
        ("H 1 1 0; G -; V 1", 3, 6),
        ("H 1 1 0; G -; U 0 0 0", 3, 17),
        ("H 1 1 0; G -; A 0 0 5; X 0 0", 4, 4),
        ("H 1 1 0; G -; V 0; P 0 0 5", 4, 28),
        ("H 1 1 1; G -; K 0 0; Y 0 0; A 0 0 5", 5, 29),
        ("H 1 1 0; G -; R 0 0 0; A 0 0 5", 4, 23),
    ] {
        for places in [0, 2_000] {
            assert_eq!(tail(&paper_of_lines(lines), places), Err(Refusal { line, number }), "{lines}");
        }
    }
    assert_eq!(tail(b"", 0), Err(Refusal { line: 0, number: 2 }));
    assert_eq!(tail(&[b'A'; 65_537], 0), Err(Refusal { line: 0, number: 1 }));
    let over = paper_of(TRACE_HEAD, &repeat("A 0 0 5", 2_001));
    assert_eq!(tail(&over, 2_000), Err(Refusal { line: 2_003, number: 9 }));
}

/// "a tail for a paper with a `V` line is refused with 24"; Y, F, C: "A tail for papers with them is refused with 24."
#[test]
fn papers_without_a_tail() {
    for lines in [
        "H 2 2 1; G -; V 0",
        "H 2 2 1; G 0 0; V 0 1; A 0 1 5; S 0 1 5; W 0 1 5",
        "H 2 2 1; G -; V 1; A 0 0 5",
        "H 2 2 1; G -; K 0 0; Y 0 0",
        "H 2 2 1; G -; K 0 0; Y 0 0; K 1 0; F 1 0 0; N 1 0",
        "H 2 2 1; G -; K 0 0; Y 0 0; K 1 0; F 1 0 0; N 1 0; C 0 0; N 0 0",
        "H 2 2 1; G -; V 0; K 0 0; Y 0 0",
    ] {
        let paper = paper_of_lines(lines);
        assert!(first_line(&paper).starts_with("accepted"), "{lines}");
        for places in [0, 1, 5_000] {
            assert_eq!(tail(&paper, places), Err(TURNED_AWAY), "{lines}");
        }
    }
}

/// Why these are refused: "One always exists" is not so of them.
#[test]
fn papers_that_nothing_finishes() {
    // After L only U may come, and its read is before that of an earlier use.
    let both = with_volatiles(TWO, &[0, 1]);
    let events = "R 0 0 0; R 0 0 0; R 0 1 0; L 0 1 0; U 0 1 0; L 0 0 0";
    assert_eq!(verdict_with(both, events), (0, 6));
    assert_eq!(judged_in(both, &format!("{events}; L 0 0 0")), 26);
    assert_eq!(judged_in(both, &format!("{events}; U 0 0 0")), 27);
    assert_eq!(search(&both, &events_of(events), 3), None);
    expect_tail(events, "L 0 0 0");
    // A waiting thread has no B, and one that owes has no C.
    let events = "K 0 0; P 0 0 5; Y 0 0; K 1 0; F 1 0 0; N 1 0";
    assert_eq!(verdict(events), (0, 6));
    assert_eq!(judged(&format!("{events}; B 0 0 5")), 29);
    assert_eq!(judged(&format!("{events}; C 0 0")), 13);
    assert_eq!(search(&TWO, &events_of(events), 3), None);
    // No paper has this dead read; what is counted is too few.
    let dead = events_of("R 0 0 0; A 0 0 5");
    assert_eq!((length(&TWO, &dead), search(&TWO, &dead, 4)), (3, None));
}

/// "20 to 22 refuse no paper, only its order"; the tail itself may bring 20.
#[test]
fn papers_without_an_order() {
    let head = "H 1 1 1\nG 0\n";
    expect_unordered(head, "A 0 0 5", 3, 20);
    assert_eq!(tail_of(&paper_of(head, "A 0 0 5"), 2), (events_of("S 0 0 5; W 0 0 5"), vec![4, 5]));
    expect_unordered(head, "K 0 0", 4, 22);
    assert_eq!(tail_of(&paper_of(head, "K 0 0"), 1), (events_of("N 0 0"), vec![4]));
    expect_unordered(head, "K 0 0; P 0 0 5; W 0 0 5; N 0 0", 7, 22);
    assert_eq!(tail_of(&paper_of(head, "K 0 0; P 0 0 5; W 0 0 5; N 0 0"), 1), (events_of("B 0 0 5"), vec![7]));
    expect_unordered(head, "K 0 0; P 0 0 5; W 0 0 5; N 0 0; B 0 0 5", 7, 20);
}

/// More places than the tail has events change nothing; a finished paper needs none.
#[test]
fn enough_places() {
    let paper = paper_of(TRACE_HEAD, "K 0 0; A 0 0 5");
    assert_eq!(tail(&paper, 3), tail(&paper, usize::MAX));
    assert_eq!(tail(&paper, 2), Err(TURNED_AWAY));
    assert_eq!(tail(&paper_of(TRACE_HEAD, ""), 0), Ok(Vec::new()));
    assert_eq!(tail(&paper_of(TRACE_HEAD, "K 0 0; N 0 0"), 0), Ok(Vec::new()));
}
