//! 02 (i), waiting and notification: Y, F, C, 29 and 30. The papers are worked out by hand.

use super::*;
use crate::rules::{breaks, depth, held, notified, remembered, usable, waits, waits_on, ROWS};
use crate::{denial, judge_short, mark_short, sections, Outcome, Section, Verdict};

/// Two threads, variables and locks; lock 0 guards variable 0, lock 1 variable 1.
const GUARDED: &str = "H 2 2 2\nG 0 1\n";
/// Thread 0 waits on lock 0.
const WAIT: &str = "K 0 0; Y 0 0";
/// Thread 0 waits on lock 0 and is notified on it; the lock is free.
const NOTIFIED: &str = "K 0 0; Y 0 0; K 1 0; F 1 0 0; N 1 0";
/// Numbers that two do not declare; some would be 0 or 1 if their high bits were lost.
const TOO_LARGE: [&str; 8] =
    ["2", "8", "256", "65537", "4294967295", "4294967296", "18446744073709551616", "340282366920938463463374607431768211456"];

fn ok(events: &str) {
    expect_accepted(TRACE_HEAD, events);
}

fn no(events: &str, number: u32) {
    expect_refused_last(TRACE_HEAD, events, number);
}

/// One event line after a head of two threads, variables and locks.
fn one_line(line: &str) -> Vec<u8> {
    with_trailer(format!("{TRACE_HEAD}{line}\n").as_bytes())
}

/// The last event breaks these numbers of its row, the first of which is told.
fn first_of(counts: Counts, events: &str, numbers: &[u32]) {
    let list = events_of(events);
    let (e, es) = list.split_last().expect("an event");
    let (_, row) = ROWS.into_iter().find(|(kind, _)| *kind == e.kind).expect("a row");
    let broken: Vec<u32> = row.iter().copied().filter(|&number| breaks(number, es, counts, e)).collect();
    assert_eq!(broken, numbers, "{events}");
    let told = numbers.first().copied().unwrap_or(0);
    assert_eq!((judge(es, counts, e), judge_short(es, counts, e)), (told, told), "{events}");
}

/// The same with two threads, variables and locks, none of the variables volatile.
fn breaks_first(events: &str, numbers: &[u32]) {
    first_of(TWO, events, numbers);
}

// ---- form ----

#[test]
fn three_lines() {
    let event = |kind, thread, target, value| Some(Event { kind, thread, target, value });
    assert_eq!(paper::event(b"Y 1 2"), event(Y, 1, 2, 0));
    assert_eq!(paper::event(b"F 1 2 3"), event(F, 1, 2, 3));
    assert_eq!(paper::event(b"C 1 2"), event(C, 1, 2, 0));
    assert!(Y.on_lock() && F.on_lock() && C.on_lock() && K.on_lock() && N.on_lock());
    assert!(![U, A, L, S, R, W, P, B].into_iter().any(Kind::on_lock));
    ok("K 0 0; Y 0 0; K 1 0; F 1 0 0; N 1 0; C 0 0; N 0 0");
}

#[test]
fn wrong_forms_of_y_and_c() {
    for letter in ["Y", "C"] {
        for rest in [
            "", " ", " 0", " 0 ", "  0 0", " 0  0", " 0 0 ", " 0 0 0", " 0 0 1", " 0 0 -1", " 0 0 0 0", "0 0", " 00 0", " 0 00",
            " 01 0", " 0 01", " +1 0", " 0 +1", " -1 0", " 0 -1", " -0 0", " 0 -0", " x 0", " 0 x", "\t0 0", " 0\t0", " 0 0\r",
            " 0 0\0", " 0,0", " 1e0 0",
        ] {
            expect_refused(&one_line(&format!("{letter}{rest}")), 3, 4);
            assert_eq!(paper::event(format!("{letter}{rest}").as_bytes()), None, "{letter}{rest}");
        }
    }
    for line in ["y 0 0", "c 0 0", " Y 0 0", " C 0 0", "YY 0 0", "CC 0 0", "YC 0 0", "KY 0 0"] {
        expect_refused(&one_line(line), 3, 4);
    }
}

#[test]
fn wrong_forms_of_f() {
    for line in [
        "F",
        "F ",
        "F 0",
        "F 0 0",
        "F 0 0 ",
        "F 0 0 0 ",
        "F 0 0 0 0",
        "F  0 0 0",
        "F 0  0 0",
        "F 0 0  0",
        " F 0 0 0",
        "f 0 0 0",
        "FF 0 0 0",
        "F0 0 0",
        "F 00 0 0",
        "F 0 00 0",
        "F 0 0 00",
        "F 0 0 01",
        "F 0 0 +1",
        "F 0 0 -1",
        "F 0 0 -0",
        "F -1 0 0",
        "F 0 -1 0",
        "F 0 0 x",
        "F 0 x 0",
        "F x 0 0",
        "F 0 0 1x",
        "F 0 0\t0",
        "F 0 0 0\r",
        "F 0 0 1.0",
        "F 0 0 -",
    ] {
        expect_refused(&one_line(line), 3, 4);
        assert_eq!(paper::event(line.as_bytes()), None, "{line}");
    }
}

/// "In an event line a thread, variable or lock number too large, of any length, is 5".
#[test]
fn five_for_each_number() {
    let long = "9".repeat(1_000);
    for big in TOO_LARGE.into_iter().chain([long.as_str()]) {
        for line in [
            format!("Y {big} 0"),
            format!("Y 0 {big}"),
            format!("C {big} 0"),
            format!("C 0 {big}"),
            format!("F {big} 0 0"),
            format!("F 0 {big} 0"),
            format!("F 0 0 {big}"),
        ] {
            expect_refused(&one_line(&line), 3, 5);
        }
        // u is a thread and no value: 5 where a value of that size would be 4.
        no(&format!("{WAIT}; K 1 0; F 1 0 {big}"), 5);
    }
}

/// u is counted with the threads, l with the locks.
#[test]
fn five_by_the_head() {
    for line in ["Y 0 0", "C 0 0", "F 0 0 0"] {
        expect_refused(&paper_of("H 1 1 0\nG -\n", line), 3, 5);
    }
    expect_refused_last("H 1 2 2\nG -\n", "K 0 0; F 0 0 1", 5);
    expect_refused_last("H 2 2 1\nG -\n", "K 0 0; F 0 1 1", 5);
    expect_refused_last("H 2 1 2\nG -\n", "K 0 1; F 0 1 1", 30);
    let widest = "K 7 7; Y 7 7; K 0 7; F 0 7 7; N 0 7; C 7 7";
    expect_accepted("H 8 1 8\nG -\n", widest);
    expect_refused_last("H 8 1 8\nG -\n", "K 7 7; Y 7 7; K 0 7; F 0 7 8", 5);
}

/// "line by line 4, 9, 5 and the row".
#[test]
fn four_then_five_then_the_row() {
    expect_refused(&one_line("F 9 9 -1"), 3, 4);
    expect_refused(&one_line("F 9 9"), 3, 4);
    expect_refused(&one_line("Y 9 9 9"), 3, 4);
    expect_refused(&one_line("F 0 0 2"), 3, 5);
    no(&format!("{WAIT}; A 0 2 5"), 5);
    no(&format!("{WAIT}; Y 0 2"), 5);
    no(&format!("{WAIT}; C 0 2"), 5);
    expect_refused(&paper_of(TRACE_HEAD, &format!("{WAIT}; A 0 0 00")), 5, 4);
}

// ---- rows ----

/// "Y is checked as N is", "F needs the lock held, else 12", "C is checked as K is"; "both ahead of
/// 26".
#[test]
fn thirteen_rows() {
    let row = |kind| ROWS.into_iter().find(|(k, _)| *k == kind).expect("a row").1;
    assert_eq!(row(Y), row(N));
    assert_eq!(row(C), row(K));
    assert_eq!(row(F), [29, 30, 26, 27, 28, 12]);
    assert_eq!(ROWS.len(), 13);
    for (kind, row) in ROWS {
        assert_eq!(row[..5], [29, 30, 26, 27, 28], "{kind:?}");
        assert!(row[5..].iter().all(|number| *number < 26), "{kind:?}");
        assert_eq!(ROWS.into_iter().filter(|(k, _)| *k == kind).count(), 1);
    }
}

/// "29, event other than C, R or W of a waiting thread".
#[test]
fn twenty_nine_at_each_kind() {
    for event in ["U 0 0 0", "A 0 0 5", "L 0 0 0", "S 0 0 5", "K 0 0", "K 0 1", "N 0 0", "N 0 1", "P 0 0 5", "B 0 0 5"] {
        no(&format!("{WAIT}; {event}"), 29);
        no(&format!("{NOTIFIED}; {event}"), 29);
    }
    for event in ["Y 0 0", "Y 0 1", "F 0 0 0", "F 0 0 1", "F 0 1 0", "F 0 1 1"] {
        no(&format!("{WAIT}; {event}"), 29);
        no(&format!("{NOTIFIED}; {event}"), 29);
    }
    // Nothing but 29 is broken by these.
    for event in ["A 0 0 5", "A 0 1 5", "K 0 0", "K 0 1", "P 0 0 5"] {
        breaks_first(&format!("{WAIT}; {event}"), &[29]);
        breaks_first(&format!("{NOTIFIED}; {event}"), &[29]);
    }
    breaks_first("R 0 0 0; K 0 0; Y 0 0; L 0 0 0", &[29]);
    breaks_first("A 0 0 5; S 0 0 5; W 0 0 5; K 0 0; A 0 0 5; S 0 0 5; W 0 0 5; Y 0 0; U 0 0 5", &[29]);
    breaks_first("K 0 0; P 0 0 5; Y 0 0; B 0 0 5", &[29]);
}

/// It is the thread that waits: on whichever lock, and no other thread.
#[test]
fn twenty_nine_is_of_the_thread() {
    no("K 0 0; K 0 1; Y 0 0; N 0 1", 29);
    no("K 0 0; K 0 1; Y 0 1; N 0 0", 29);
    no("K 0 0; K 0 1; Y 0 1; Y 0 0", 29);
    no("K 0 0; K 0 1; Y 0 1; K 0 0", 29);
    ok(&format!("{WAIT}; A 1 0 5; S 1 0 5; W 1 0 5; R 1 0 5; L 1 0 5; U 1 0 5; P 1 1 5; B 1 1 5; W 1 1 5; K 1 0; K 1 1; N 1 1"));
    ok(&format!("{WAIT}; K 1 0; Y 1 0; R 1 0 0; R 0 0 0"));
    no(&format!("{WAIT}; K 1 0; Y 1 0; A 1 0 5"), 29);
    no(&format!("{WAIT}; K 1 0; Y 1 0; A 0 0 5"), 29);
}

/// "A thread waits from its Y to its C."
#[test]
fn waiting_ends_at_the_c() {
    ok(&format!("{NOTIFIED}; C 0 0; A 0 0 5; S 0 0 5; W 0 0 5; K 0 1; N 0 1; P 0 1 5; B 0 1 5; U 0 1 5; W 0 1 5; N 0 0"));
    ok(&format!("{NOTIFIED}; C 0 0; Y 0 0; K 1 0; F 1 0 0"));
    no(&format!("{NOTIFIED}; C 0 0; Y 0 0; A 0 0 5"), 29);
    no(&format!("{NOTIFIED}; A 0 0 5"), 29);
}

/// "30, F for a thread not waiting on that lock or already notified".
#[test]
fn thirty_at_f() {
    // It never waited, or waits on another lock.
    no("K 0 0; F 0 0 1", 30);
    no("K 0 0; Y 0 0; K 1 1; F 1 1 0", 30);
    no("K 0 0; K 0 1; Y 0 1; K 1 1; N 1 1; F 1 0 0", 30);
    // Itself: it holds the lock, and so does not wait on it.
    no("K 0 0; F 0 0 0", 30);
    no("F 0 0 0", 30);
    // Already notified, by whichever thread.
    no(&format!("{WAIT}; K 1 0; F 1 0 0; F 1 0 0"), 30);
    no(&format!("{NOTIFIED}; K 1 0; F 1 0 0"), 30);
    let three = "H 3 1 1\nG -\n";
    expect_refused_last(three, &format!("{NOTIFIED}; K 2 0; F 2 0 0"), 30);
    // It has come back.
    expect_refused_last(three, &format!("{NOTIFIED}; C 0 0; N 0 0; K 2 0; F 2 0 0"), 30);
    no(&format!("{NOTIFIED}; C 0 0; F 0 0 0"), 30);
    // Another thread waits on the lock, not this one.
    expect_refused_last(three, &format!("{WAIT}; K 1 0; F 1 0 2"), 30);
}

/// Each waiting thread is notified by an F of its own: 001's notifyAll is several F.
#[test]
fn every_waiter_by_its_own_f() {
    let three = "H 3 1 1\nG -\n";
    let both = "K 0 0; Y 0 0; K 1 0; Y 1 0; K 2 0";
    expect_accepted(three, &format!("{both}; F 2 0 1; F 2 0 0; N 2 0; C 1 0; N 1 0; C 0 0; N 0 0"));
    expect_refused_last(three, &format!("{both}; F 2 0 1; N 2 0; C 0 0"), 30);
    expect_refused_last(three, &format!("{both}; F 2 0 1; F 2 0 1"), 30);
    // A thread that has come back notifies the other.
    expect_accepted(three, &format!("{both}; F 2 0 1; N 2 0; C 1 0; F 1 0 0; N 1 0; C 0 0"));
    // One that is notified may not notify.
    expect_refused_last(three, &format!("{both}; F 2 0 1; N 2 0; F 1 0 0"), 29);
}

/// "C by one not notified on it".
#[test]
fn thirty_at_c() {
    no("C 0 0", 30);
    no("K 0 0; C 0 0", 30);
    no("K 0 0; N 0 0; C 0 0", 30);
    no(&format!("{WAIT}; C 0 0"), 30);
    // Another lock than it waits on, and another thread than is notified.
    no(&format!("{WAIT}; C 0 1"), 30);
    no(&format!("{NOTIFIED}; C 0 1"), 30);
    no(&format!("{NOTIFIED}; C 1 0"), 30);
    expect_refused_last("H 3 1 1\nG -\n", "K 0 0; Y 0 0; K 1 0; Y 1 0; K 2 0; F 2 0 0; N 2 0; C 1 0", 30);
    // It has come back already.
    no(&format!("{NOTIFIED}; C 0 0; C 0 0"), 30);
    no(&format!("{NOTIFIED}; C 0 0; N 0 0; C 0 0"), 30);
    // The notification of an earlier wait, on this lock or another.
    no(&format!("{NOTIFIED}; C 0 0; Y 0 0; C 0 0"), 30);
    no(&format!("{NOTIFIED}; C 0 0; K 0 1; Y 0 1; C 0 1"), 30);
    no(&format!("{NOTIFIED}; C 0 0; K 0 1; Y 0 1; C 0 0"), 30);
    ok(&format!("{NOTIFIED}; C 0 0"));
}

/// Two or more numbers at once: the first in the row is told.
#[test]
fn first_number_at_a_waiting_thread() {
    breaks_first(&format!("{WAIT}; U 0 0 0"), &[29, 17]);
    breaks_first("R 0 0 0; K 0 0; Y 0 0; A 0 0 5", &[29, 23]);
    breaks_first(&format!("{WAIT}; L 0 0 0"), &[29, 10]);
    breaks_first("K 0 0; P 0 0 5; W 0 0 5; Y 0 0; R 0 0 5; L 0 0 6", &[29, 13, 18]);
    breaks_first(&format!("{WAIT}; S 0 0 5"), &[29, 14, 17]);
    breaks_first("K 0 0; P 0 0 5; Y 0 0; S 0 0 5", &[29, 13, 14, 17]);
    breaks_first(&format!("{WAIT}; K 1 0; K 0 0"), &[29, 11]);
    breaks_first("K 0 0; P 0 0 5; Y 0 0; K 1 0; K 0 0", &[29, 11, 13]);
    breaks_first("K 0 0; P 0 0 5; Y 0 0; K 0 1", &[29, 13]);
    breaks_first(&format!("{WAIT}; N 0 0"), &[29, 12]);
    breaks_first(&format!("{WAIT}; N 0 1"), &[29, 12]);
    breaks_first("K 0 0; P 0 0 5; Y 0 0; P 0 0 6", &[29, 13]);
    breaks_first("R 0 0 0; K 0 0; Y 0 0; P 0 0 5", &[29, 23]);
    breaks_first(&format!("{WAIT}; B 0 0 5"), &[29, 10]);
    breaks_first("K 0 0; P 0 0 5; Y 0 0; B 0 0 6", &[29, 18]);
    breaks_first(&format!("{WAIT}; Y 0 0"), &[29, 12]);
    breaks_first("K 0 0; K 0 1; Y 0 0; Y 0 1", &[29]);
}

#[test]
fn first_number_at_y() {
    breaks_first("A 0 0 5; Y 0 0", &[12, 15]);
    breaks_first("A 0 0 5; S 0 0 5; Y 0 0", &[12, 16]);
    breaks_first("A 0 0 5; S 0 0 5; A 0 0 6; Y 0 0", &[12, 15, 16]);
    breaks_first("K 0 0; A 0 0 5; S 0 0 5; A 0 0 6; Y 0 0", &[15, 16]);
    breaks_first("K 0 0; A 0 0 5; S 0 0 5; A 0 1 6; Y 0 0", &[15, 16]);
}

#[test]
fn first_number_at_f() {
    breaks_first("F 0 0 1", &[30, 12]);
    breaks_first("K 0 0; F 0 0 1", &[30]);
    breaks_first(&format!("{WAIT}; F 1 0 0"), &[12]);
    breaks_first(&format!("{NOTIFIED}; F 1 0 0"), &[30, 12]);
    breaks_first(&format!("{WAIT}; F 0 0 1"), &[29, 30, 12]);
    // By a waiting thread, for itself.
    breaks_first(&format!("{WAIT}; F 0 0 0"), &[29, 12]);
    breaks_first("K 0 0; K 0 1; Y 0 1; F 0 0 1", &[29, 30]);
    breaks_first("K 0 1; Y 0 1; K 1 0; Y 1 0; F 0 0 1", &[29, 12]);
    breaks_first("K 1 0; Y 1 0; K 0 0; K 0 1; Y 0 1; F 0 0 1", &[29]);
    // A fresh assign, an outstanding store and an owed assign do not bar it.
    breaks_first(&format!("{WAIT}; K 1 0; A 1 0 5; S 1 0 5; A 1 0 6; P 1 1 5; F 1 0 0"), &[]);
}

#[test]
fn first_number_at_c() {
    breaks_first("K 1 0; C 0 0", &[30, 11]);
    breaks_first("P 0 0 5; C 0 0", &[30, 13]);
    breaks_first("P 0 0 5; K 1 0; C 0 0", &[30, 11, 13]);
    breaks_first(&format!("{WAIT}; K 1 0; F 1 0 0; C 0 0"), &[11]);
    breaks_first("K 0 0; P 0 0 5; Y 0 0; K 1 0; F 1 0 0; C 0 0", &[11, 13]);
    breaks_first("K 0 0; P 0 0 5; Y 0 0; K 1 0; F 1 0 0; N 1 0; C 0 0", &[13]);
    breaks_first("K 0 0; P 0 0 5; Y 0 0; K 1 0; C 0 0", &[30, 11, 13]);
}

#[test]
fn ahead_of_26_27_28() {
    let volatile = with_volatiles(TWO, &[0]);
    first_of(volatile, &format!("{WAIT}; U 0 0 0"), &[29, 26, 17]);
    first_of(volatile, &format!("{WAIT}; S 0 0 0"), &[29, 26, 14, 17]);
    first_of(volatile, "R 0 0 0; L 0 0 0; K 0 0; Y 0 0; A 0 0 5", &[29, 26]);
    first_of(volatile, &format!("{WAIT}; P 0 0 5"), &[29, 28]);
    first_of(volatile, &format!("{WAIT}; B 0 0 5"), &[29, 28, 10]);
    first_of(volatile, "R 0 0 0; L 0 0 0; K 0 0; Y 0 0; P 0 0 5", &[29, 26, 28]);
    // The read of variable 1 came before the read of an earlier use.
    let both = with_volatiles(TWO, &[0, 1]);
    let before = "K 0 0; R 0 1 0; R 0 0 0; L 0 0 0; U 0 0 0; L 0 1 0";
    first_of(both, &format!("{before}; U 0 1 0"), &[27]);
    first_of(both, &format!("{before}; Y 0 0; U 0 1 0"), &[29, 27]);
}

// ---- Y as N ----

#[test]
fn y_needs_the_lock_held() {
    no("Y 0 0", 12);
    no("K 0 1; Y 0 0", 12);
    no("K 1 0; Y 0 0", 12);
    no("K 0 0; N 0 0; Y 0 0", 12);
    ok("K 0 0; K 0 0; N 0 0; Y 0 0");
    ok("K 0 0; K 0 1; Y 0 1");
}

#[test]
fn y_with_a_fresh_assign() {
    no("K 0 0; A 0 0 5; Y 0 0", 15);
    no("K 0 0; A 0 1 5; Y 0 0", 15);
    no("A 0 1 5; K 0 0; Y 0 0", 15);
    no("K 0 0; K 0 0; A 0 0 5; Y 0 0", 15);
    // Another thread's does not matter, nor one that is stored and written or whose store was early.
    ok("K 0 0; A 1 0 5; Y 0 0");
    ok("K 0 0; A 0 0 5; S 0 0 5; W 0 0 5; Y 0 0");
    ok("K 0 0; P 0 0 5; W 0 0 5; B 0 0 5; Y 0 0");
}

#[test]
fn y_with_an_outstanding_store() {
    no("K 0 0; A 0 0 5; S 0 0 5; Y 0 0", 16);
    no("K 0 0; A 0 1 5; S 0 1 5; Y 0 0", 16);
    no("K 0 0; P 0 0 5; B 0 0 5; Y 0 0", 16);
    no("K 0 0; A 0 0 5; S 0 0 5; A 0 0 6; S 0 0 6; W 0 0 5; Y 0 0", 16);
    ok("K 0 0; A 1 0 5; S 1 0 5; Y 0 0");
}

/// "In 16 at N, a store whose assign is owed counts no longer", and "Y is checked as N is".
#[test]
fn y_with_an_owed_early_store() {
    ok("K 0 0; P 0 0 5; Y 0 0");
    ok("K 0 0; P 0 0 5; W 0 0 5; Y 0 0");
    ok("K 0 0; P 0 0 5; P 0 1 6; Y 0 0");
    no("K 0 0; A 0 0 4; S 0 0 4; P 0 0 5; Y 0 0", 16);
    ok("K 0 0; A 0 0 4; S 0 0 4; P 0 0 5; W 0 0 4; Y 0 0");
    no("K 0 0; P 0 0 5; A 0 0 6; Y 0 0", 15);
}

// ---- F ----

#[test]
fn f_needs_the_lock_held() {
    no(&format!("{WAIT}; F 1 0 0"), 12);
    no(&format!("{WAIT}; K 1 1; F 1 0 0"), 12);
    no(&format!("{WAIT}; K 1 0; N 1 0; F 1 0 0"), 12);
    expect_refused_last("H 3 1 1\nG -\n", &format!("{WAIT}; K 1 0; F 2 0 0"), 12);
    ok(&format!("{WAIT}; K 1 0; F 1 0 0"));
    ok(&format!("{WAIT}; K 1 0; K 1 0; N 1 0; F 1 0 0"));
}

/// 001: "Neither method releases any of t's claims on the lock": F changes no hold and no copy.
#[test]
fn f_keeps_holds_and_copies() {
    let before = format!("{WAIT}; K 1 0; K 1 0; R 1 0 0; L 1 0 0; F 1 0 0");
    ok(&format!("{before}; U 1 0 0; N 1 0; N 1 0; C 0 0"));
    no(&format!("{before}; C 0 0"), 11);
    no(&format!("{before}; N 1 0; C 0 0"), 11);
    no(&format!("{before}; N 1 0; N 1 0; N 1 0"), 12);
    assert_eq!(print(&paper_of(TRACE_HEAD, &before)), "accepted 7\nmain 0 0\nmain 1 0\ncopy 1 0 0\n");
}

// ---- C as K ----

#[test]
fn c_needs_the_lock_free() {
    no(&format!("{WAIT}; K 1 0; F 1 0 0; C 0 0"), 11);
    ok(&format!("{WAIT}; K 1 0; F 1 0 0; N 1 0; C 0 0"));
    // Another waiter came back first, or a third thread has the lock.
    let three = "H 3 1 1\nG -\n";
    let both = "K 0 0; Y 0 0; K 1 0; Y 1 0; K 2 0; F 2 0 0; F 2 0 1; N 2 0";
    expect_refused_last(three, &format!("{both}; C 1 0; C 0 0"), 11);
    expect_accepted(three, &format!("{both}; C 1 0; Y 1 0; C 0 0"));
    expect_refused_last(three, &format!("{both}; K 2 0; C 0 0"), 11);
}

/// While it waits a thread can make no B, so one that owes an assign can never come back.
#[test]
fn an_owed_assign_of_a_waiting_thread() {
    for early in ["P 0 0 5", "P 0 0 5; W 0 0 5", "P 0 1 5"] {
        let before = format!("K 0 0; {early}; Y 0 0; K 1 0; F 1 0 0; N 1 0");
        ok(&before);
        no(&format!("{before}; C 0 0"), 13);
        no(&format!("{before}; B 0 0 5"), 29);
    }
    // Another thread's does not matter.
    ok("K 0 0; P 1 0 5; Y 0 0; B 1 0 5; W 1 0 5; K 1 0; F 1 0 0; P 1 0 6; W 1 0 6; B 1 0 6; N 1 0; C 0 0");
    let other = "K 0 0; Y 0 0; K 1 0; F 1 0 0; P 1 1 5; N 1 0; C 0 0";
    ok(other);
    expect_unordered(GUARDED, "K 0 0; P 0 0 5; Y 0 0; W 0 0 5", 7, 22);
}

/// C "spoils copies as K does": all of the thread's. Y and F do not.
#[test]
fn copies_around_a_wait() {
    let before = "K 0 0; A 0 0 5; S 0 0 5; W 0 0 5; R 0 1 0; L 0 1 0; R 1 1 0; L 1 1 0; Y 0 0; R 0 0 5";
    let main = "main 0 5\nmain 1 0\n";
    let all = "copy 0 0 5\ncopy 0 1 0\ncopy 1 1 0\n";
    assert_eq!(print(&paper_of(TRACE_HEAD, before)), format!("accepted 10\n{main}{all}"));
    // The K of thread 1 spoils its own.
    let notified = format!("{before}; K 1 0; F 1 0 0; N 1 0");
    assert_eq!(print(&paper_of(TRACE_HEAD, &notified)), format!("accepted 13\n{main}copy 0 0 5\ncopy 0 1 0\n"));
    let back = format!("{notified}; R 1 0 5; L 1 0 5; C 0 0");
    assert_eq!(print(&paper_of(TRACE_HEAD, &back)), format!("accepted 16\n{main}copy 1 0 5\n"));
    no(&format!("{back}; U 0 0 5"), 17);
    no(&format!("{back}; U 0 1 0"), 17);
    // "Its read must" follow the C.
    no(&format!("{back}; L 0 0 5; U 0 0 5"), 17);
    ok(&format!("{back}; L 0 0 5; R 0 0 5; L 0 0 5; U 0 0 5"));
    ok(&format!("{back}; L 0 0 5; A 0 0 6; U 0 0 6"));
    ok(&format!("{back}; P 0 1 6; B 0 1 6; U 0 1 6"));
    no(&format!("{back}; A 0 0 6"), 23);
    assert!(usable(&events_of(&notified), 0, 1) && !usable(&events_of(&back), 0, 1));
}

// ---- holds ----

#[test]
fn holds_are_given_up_and_taken_again() {
    let deep = "K 0 0; K 0 0; K 0 0; Y 0 0";
    ok(&format!("{deep}; K 1 0; N 1 0"));
    let back = format!("{deep}; K 1 0; F 1 0 0; N 1 0; C 0 0");
    ok(&format!("{back}; N 0 0; N 0 0; N 0 0; K 1 0"));
    no(&format!("{back}; K 1 0"), 11);
    no(&format!("{back}; N 0 0; K 1 0"), 11);
    no(&format!("{back}; N 0 0; N 0 0; K 1 0"), 11);
    no(&format!("{back}; N 0 0; N 0 0; N 0 0; N 0 0"), 12);
    // A second wait gives up what is held then.
    let again = format!("{back}; N 0 0; Y 0 0; K 1 0; F 1 0 0; N 1 0; C 0 0");
    ok(&format!("{again}; N 0 0; N 0 0; K 1 0"));
    no(&format!("{again}; N 0 0; K 1 0"), 11);
    no(&format!("{again}; N 0 0; N 0 0; N 0 0"), 12);
    let more = format!("{back}; K 0 0; Y 0 0; K 1 0; F 1 0 0; N 1 0; C 0 0");
    ok(&format!("{more}; N 0 0; N 0 0; N 0 0; N 0 0; K 1 0"));
    no(&format!("{more}; N 0 0; N 0 0; N 0 0; K 1 0"), 11);
}

/// Only the lock that it waits on is given up.
#[test]
fn one_of_two_locks() {
    let waits = "K 0 0; K 0 0; K 0 1; K 0 1; K 0 1; Y 0 0";
    ok(&format!("{waits}; K 1 0"));
    no(&format!("{waits}; K 1 1"), 11);
    let back = format!("{waits}; K 1 0; F 1 0 0; N 1 0; C 0 0");
    ok(&format!("{back}; N 0 0; N 0 0; K 1 0; N 0 1; N 0 1; N 0 1; K 1 1"));
    no(&format!("{back}; N 0 0; K 1 0"), 11);
    no(&format!("{back}; N 0 0; N 0 0; N 0 0"), 12);
    no(&format!("{back}; N 0 1; N 0 1; N 0 1; N 0 1"), 12);
    no(&format!("{back}; N 0 1; N 0 1; K 1 1"), 11);
}

/// The words after each event: depth, remembered number, waits on, notified on, all of thread 0 and
/// lock 0, and whether thread 0 waits.
#[test]
fn words_event_by_event() {
    let rows = [
        ("K 0 0", 1, 0, false, false, false),
        ("K 0 1", 1, 0, false, false, false),
        ("K 0 0", 2, 0, false, false, false),
        ("Y 0 0", 0, 2, true, false, true),
        ("R 0 0 0", 0, 2, true, false, true),
        ("K 1 0", 0, 2, true, false, true),
        ("F 1 0 0", 0, 2, true, true, true),
        ("N 1 0", 0, 2, true, true, true),
        ("C 0 0", 2, 0, false, false, false),
        ("N 0 0", 1, 0, false, false, false),
        ("Y 0 1", 1, 0, false, false, true),
        ("K 1 1", 1, 0, false, false, true),
        ("F 1 1 0", 1, 0, false, false, true),
        ("N 1 1", 1, 0, false, false, true),
        ("C 0 1", 1, 0, false, false, false),
        ("Y 0 0", 0, 1, true, false, true),
    ];
    let mut es = Vec::new();
    for (event, holds, given_up, on, told, waiting) in rows {
        let e = events_of(event)[0];
        assert_eq!(judge(&es, TWO, &e), 0, "{es:?}, {event}");
        es.push(e);
        assert_eq!((depth(&es, 0, 0), remembered(&es, 0, 0), held(&es, 0, 0)), (holds, given_up, holds > 0), "{es:?}");
        assert_eq!((waits_on(&es, 0, 0), notified(&es, 0, 0), waits(&es, TWO, 0)), (on, told, waiting), "{es:?}");
        assert!(!waits(&es, TWO, 1) && !waits_on(&es, 1, 0) && remembered(&es, 1, 0) == 0, "{es:?}");
    }
}

/// Lists that the marker would refuse, by the words alone.
#[test]
fn words_of_refused_lists() {
    let words = |events: &str| {
        let es = events_of(events);
        (depth(&es, 0, 0), remembered(&es, 0, 0), waits_on(&es, 0, 0), notified(&es, 0, 0))
    };
    assert_eq!(words("Y 0 0"), (0, 0, true, false));
    assert_eq!(words("Y 0 0; F 1 0 0; C 0 0"), (0, 0, false, false));
    assert_eq!(words("F 1 0 0; Y 0 0"), (0, 0, true, false));
    assert_eq!(words("C 0 0"), (0, 0, false, false));
    assert_eq!(words("K 0 0; Y 0 0; C 0 1"), (0, 1, true, false));
    assert_eq!(words("K 0 0; Y 0 0; F 1 1 0; F 1 0 1"), (0, 1, true, false));
    // As many K as N, and then one more K.
    assert_eq!(words("N 0 0; K 0 0"), (0, 0, false, false));
    assert_eq!(words("N 0 0; K 0 0; K 0 0; Y 0 0"), (0, 1, true, false));
    assert_eq!(words("N 0 0; K 0 0; K 0 0; Y 0 0; C 0 0"), (1, 0, false, false));
    // A Y or C that gives up or takes nothing is no unlock and no lock.
    assert!(sections(TWO, &events_of("C 0 0; N 0 0")).is_empty());
    let idle = events_of("K 0 0; Y 0 1; K 0 0; N 0 0; N 0 0");
    assert_eq!(sections(TWO, &idle), [Section { thread: 0, first: 3, last: 7, last_lock: 5 }]);
    assert_eq!(denial(TWO, &[0, 1], &idle), Some((22, 8)));
}

// ---- R and W while waiting ----

#[test]
fn reads_while_waiting() {
    ok(&format!("{WAIT}; R 0 0 0; R 0 1 0; K 1 0; F 1 0 0; R 0 0 0; N 1 0; C 0 0; L 0 0 0; L 0 0 0; L 0 1 0"));
    no(&format!("{WAIT}; R 0 0 1"), 18);
    no(&format!("{WAIT}; {}", repeat("R 0 0 0", 9)), 19);
    ok(&format!("{WAIT}; {}", repeat("R 0 0 0", 8)));
    // 23 stays the events listed in (a).
    no("K 0 0; P 0 0 5; Y 0 0; R 0 0 0", 23);
    ok("K 0 0; P 0 0 5; Y 0 0; W 0 0 5; R 0 0 5");
    ok("R 0 0 0; K 0 0; P 0 1 5; Y 0 0");
    // The value of another thread's W.
    ok(&format!("{WAIT}; A 1 0 5; S 1 0 5; W 1 0 5; R 0 0 5"));
}

/// Only an early store whose assign is owed can be unwritten at the Y.
#[test]
fn writes_while_waiting() {
    ok("K 0 0; P 0 0 5; Y 0 0; W 0 0 5");
    ok("K 0 0; P 0 0 5; P 0 1 6; Y 0 0; W 0 1 6; K 1 0; F 1 0 0; N 1 0; W 0 0 5");
    no("K 0 0; P 0 0 5; Y 0 0; W 0 0 6", 18);
    no("K 0 0; P 0 0 5; Y 0 0; W 0 0 5; W 0 0 5", 10);
    no(&format!("{WAIT}; W 0 0 5"), 10);
}

// ---- orders ----

/// A section ends at a Y, and one begins at a C.
#[test]
fn listing_with_a_wait() {
    let events = "K 0 0; R 0 0 0; L 0 0 0; U 0 0 0; Y 0 0; K 1 0; A 1 0 5; S 1 0 5; W 1 0 5; F 1 0 0; N 1 0; \
                  C 0 0; R 0 0 5; L 0 0 5; U 0 0 5; N 0 0";
    let head = "H 2 1 1\nG 0\n";
    let printed = "accepted 16\nmain 0 5\ncopy 0 0 5\ncopy 1 0 5\nsection 0 3 7\nsection 1 8 13\nsection 0 14 18\n";
    assert_eq!(print(&paper_of(head, events)), printed);
    assert_eq!(String::from_utf8(mark_short(&paper_of(head, events))).expect("ASCII"), printed);
    assert_eq!(printed_sections(head, events).len(), 3);
    // With one section of thread 0 for both, the second use would be given 0.
    let o = outcome(&paper_of(head, events));
    let whole = |thread, first, last| Section { thread, first, last, last_lock: first };
    let wrong = Order::Sections(vec![whole(0, 3, 18), whole(1, 8, 13)]);
    assert!(demand3(&Outcome { order: wrong, ..o.clone() }).is_err());
    assert_eq!(print(&paper_of("H 2 1 1\nG -\n", events)), printed.split("section").next().expect("lines"));
    assert_eq!(o.events[9], Event { kind: F, thread: 1, target: 0, value: 0 });
}

/// Two threads hand a value to and fro; the sections in the middle begin at a C and end at a Y.
#[test]
fn sections_from_c_to_y() {
    let put = |t: u32, n: i32| format!("R {t} 0 {n}; L {t} 0 {n}; U {t} 0 {n}; A {t} 0 {m}; S {t} 0 {m}; W {t} 0 {m}", m = n + 1);
    let events = format!(
        "K 0 0; {}; Y 0 0; K 1 0; {}; F 1 0 0; Y 1 0; C 0 0; {}; F 0 0 1; Y 0 0; C 1 0; {}; F 1 0 0; N 1 0; C 0 0; {}; N 0 0",
        put(0, 0),
        put(1, 1),
        put(0, 2),
        put(1, 3),
        put(0, 4)
    );
    let expected = ["section 0 3 10", "section 1 11 19", "section 0 20 28", "section 1 29 37", "section 0 38 45"];
    assert_eq!(printed_sections("H 2 1 1\nG 0\n", &events), expected);
    assert!(print(&paper_of("H 2 1 1\nG 0\n", &events)).starts_with("accepted 43\nmain 0 5\ncopy 0 0 5\ncopy 1 0 4\n"));
}

/// A Y that gives up several holds is one line, and so is a C that takes them.
#[test]
fn sections_of_several_holds() {
    let events = "K 0 0; K 0 0; N 0 0; K 1 1; K 1 1; Y 0 0; K 1 0; F 1 0 0; N 1 0; N 1 1; N 1 1; C 0 0; N 0 0";
    assert_eq!(printed_sections(GUARDED, events), ["section 0 3 8", "section 1 6 13", "section 0 14 15"]);
    let events = "K 0 0; K 0 0; Y 0 0; K 1 0; F 1 0 0; N 1 0; C 0 0; N 0 0; A 0 0 5; S 0 0 5; W 0 0 5; N 0 0";
    assert_eq!(printed_sections(GUARDED, events), ["section 0 3 5", "section 1 6 8", "section 0 9 14"]);
    let list = sections(TWO, &events_of(events));
    assert_eq!(list[0], Section { thread: 0, first: 3, last: 5, last_lock: 4 });
    assert_eq!(list[2], Section { thread: 0, first: 9, last: 14, last_lock: 9 });
}

/// "The list is in order of each section's last K", and a C is one.
#[test]
fn order_by_the_last_k_or_c() {
    // Thread 0 comes back in line 8. Thread 1 takes lock 1, assigns and unlocks; thread 0 then takes
    // lock 1 and uses the new value.
    let events = "K 0 0; Y 0 0; K 1 0; F 1 0 0; N 1 0; C 0 0; K 1 1; A 1 1 5; S 1 1 5; W 1 1 5; N 1 1; \
                  K 0 1; R 0 1 5; L 0 1 5; U 0 1 5; N 0 1; N 0 0";
    let expected = ["section 0 3 4", "section 1 5 7", "section 1 9 13", "section 0 8 19"];
    assert_eq!(printed_sections(GUARDED, events), expected);
    assert_eq!(sections(TWO, &events_of(events))[3], Section { thread: 0, first: 8, last: 19, last_lock: 14 });
    // Without that K the C is the last lock, and thread 0 goes first.
    let events = "K 0 0; Y 0 0; K 1 0; F 1 0 0; N 1 0; C 0 0; K 1 1; N 1 1; N 0 0";
    assert_eq!(printed_sections(GUARDED, events), ["section 0 3 4", "section 1 5 7", "section 0 8 11", "section 1 9 10"]);
    // A section that runs while the other waits: its K comes before the C, whatever its N.
    let events = "K 0 0; Y 0 0; K 1 1; K 1 0; F 1 0 0; N 1 0; C 0 0; N 1 1; N 0 0";
    assert_eq!(printed_sections(GUARDED, events), ["section 0 3 4", "section 1 5 10", "section 0 9 11"]);
}

/// 21 at a C: a thread that waits on one lock and holds another is still in its section.
#[test]
fn twenty_one_at_a_c() {
    let wake = "K 1 1; F 1 1 0; N 1 1; C 0 1";
    expect_unordered(GUARDED, &format!("K 0 0; K 0 1; Y 0 1; {wake}; N 0 1; N 0 0"), 9, 21);
    expect_unordered(GUARDED, &format!("K 0 1; K 0 0; K 0 1; Y 0 1; {wake}; N 0 1; N 0 1; N 0 0"), 10, 21);
    // The line of the C, before 20 at a later line and 22 at the trailer.
    expect_unordered(GUARDED, &format!("K 0 0; K 0 1; Y 0 1; {wake}; A 1 0 5"), 9, 21);
    // A K after the C of such a section comes later.
    expect_unordered(GUARDED, &format!("K 0 0; K 0 1; Y 0 1; {wake}; K 0 0; N 0 0; N 0 1; N 0 0"), 9, 21);
    // 20 in an earlier line comes first.
    expect_unordered(GUARDED, &format!("A 1 0 5; S 1 0 5; W 1 0 5; K 0 0; K 0 1; Y 0 1; {wake}; N 0 1; N 0 0"), 3, 20);
}

/// An N, or a Y, of the section before the wait does not matter after it.
#[test]
fn no_21_in_a_section_that_begins_at_a_c() {
    let events = "K 0 0; K 0 1; N 0 1; Y 0 0; K 1 0; F 1 0 0; N 1 0; C 0 0; K 0 1; N 0 1; N 0 0";
    assert_eq!(printed_sections(GUARDED, events), ["section 0 3 6", "section 1 7 9", "section 0 10 13"]);
    expect_unordered(GUARDED, "K 0 0; Y 0 0; K 1 0; F 1 0 0; N 1 0; C 0 0; K 0 1; N 0 1; K 0 1; N 0 1; N 0 0", 11, 21);
    // A K after an N in one section, before its Y.
    expect_unordered(GUARDED, "K 0 0; K 0 0; N 0 0; K 0 0; Y 0 0; K 1 0; F 1 0 0; N 1 0; C 0 0; N 0 0; N 0 0", 6, 21);
}

/// "a thread still waiting makes 22".
#[test]
fn twenty_two_for_a_waiter() {
    expect_unordered(GUARDED, WAIT, 5, 22);
    expect_unordered(GUARDED, NOTIFIED, 8, 22);
    expect_unordered(GUARDED, "K 0 0; K 0 1; Y 0 0", 6, 22);
    expect_unordered(GUARDED, "K 1 1; Y 1 1", 5, 22);
    expect_unordered(GUARDED, &format!("{NOTIFIED}; C 0 0"), 9, 22);
    expect_unordered(GUARDED, &format!("{NOTIFIED}; C 0 0; Y 0 0"), 10, 22);
    expect_unordered("H 1 1 1\nG 0\n", "K 0 0; Y 0 0", 5, 22);
    assert_eq!(printed_sections(GUARDED, &format!("{NOTIFIED}; C 0 0; N 0 0")).len(), 3);
    // With `G -` there is nothing to deny.
    assert_eq!(print(&paper_of(TRACE_HEAD, WAIT)), "accepted 2\nmain 0 0\nmain 1 0\n");
}

/// 20: the guard is held again after the C.
#[test]
fn twenty_around_a_wait() {
    let put = "A 0 0 5; S 0 0 5; W 0 0 5";
    let events = format!("K 0 0; {put}; Y 0 0; K 1 0; F 1 0 0; N 1 0; C 0 0; {put}; N 0 0");
    assert_eq!(printed_sections(GUARDED, &events), ["section 0 3 7", "section 1 8 10", "section 0 11 15"]);
    expect_unordered(GUARDED, &format!("{NOTIFIED}; C 0 0; A 0 1 5; S 0 1 5; W 0 1 5; N 0 0"), 9, 20);
    expect_unordered(GUARDED, &format!("{NOTIFIED}; C 0 0; N 0 0; {put}"), 10, 20);
    // Thread 1 does not hold the lock while thread 0 waits on it.
    expect_unordered(GUARDED, &format!("{WAIT}; A 1 0 5"), 5, 20);
}

// ---- short course, `V` line, limits ----

/// The three kinds, 29 and 30 are the same in the short course; event 201 is 25.
#[test]
fn short_course() {
    let short = |events: &str| String::from_utf8(mark_short(&paper_of(TRACE_HEAD, events))).expect("ASCII");
    for events in
        [WAIT, NOTIFIED, "F 0 0 1", "C 0 0", "Y 0 0", "K 0 0; Y 0 0; A 0 0 5", "F 0 0 2", "Y 2 0", "F 0 0 -1", "C 0 0 0"]
    {
        assert_eq!(short(events), print(&paper_of(TRACE_HEAD, events)), "{events}");
    }
    let round = format!("{NOTIFIED}; C 0 0; N 0 0");
    let full = format!("{}; {NOTIFIED}", repeat(&round, 28));
    assert_eq!(events_of(&full).len(), 201);
    assert_eq!(short(&full), "refused 203 25\n");
    let list = events_of(&full);
    assert_eq!((judge_short(&list[..200], TWO, &list[200]), judge(&list[..200], TWO, &list[200])), (25, 0));
    let at = format!("{}; {WAIT}; K 1 0; F 1 0 0", repeat(&round, 28));
    assert_eq!(short(&at), "accepted 200\nmain 0 0\nmain 1 0\n");
    for (more, number) in [("C 0 0", 25), ("A 0 0 5", 25), ("F 1 0 9", 25), ("Y 9 9", 25), ("F 0 0", 4), ("Y 0 0 0", 4)] {
        assert_eq!(short(&format!("{at}; {more}")), format!("refused 203 {number}\n"), "{more}");
    }
    // Event 200 is checked.
    let before = format!("{}; {WAIT}; K 1 0", repeat(&round, 28));
    assert_eq!(short(&format!("{before}; F 1 0 1")), "refused 202 30\n");
}

/// "With it events start at line 4".
#[test]
fn with_a_v_line() {
    let head = "H 2 2 2\nG 0 1\nV 1\n";
    let events = format!("{NOTIFIED}; C 0 0; N 0 0");
    assert_eq!(printed_sections(head, &events), ["section 0 4 5", "section 1 6 8", "section 0 9 10"]);
    expect_refused_last(head, &format!("{WAIT}; A 0 1 5"), 29);
    expect_refused_last(head, "F 0 0 1", 30);
    expect_refused_last(head, "Y 0 0", 12);
    expect_unordered(head, WAIT, 6, 22);
    expect_unordered(head, "K 0 0; K 0 1; Y 0 1; K 1 1; F 1 1 0; N 1 1; C 0 1; N 0 1; N 0 0", 10, 21);
    // Y, F and C are on a lock and not on the variable, whatever its number.
    let between = "K 0 1; Y 0 1; K 1 1; R 1 1 0; L 1 1 0; F 1 1 0; U 1 1 0; A 1 1 5";
    expect_accepted(head, between);
    expect_refused_last(head, "K 0 1; A 0 1 5; Y 0 1", 15);
    expect_refused_last(head, "K 0 1; A 0 1 5; S 0 1 5; Y 0 1", 16);
    expect_accepted(head, "K 0 1; Y 0 1; K 1 1; A 1 1 5; F 1 1 0; S 1 1 5; W 1 1 5; N 1 1; C 0 1");
}

/// On a volatile variable a load before the Y is used after the C: its copy is spoiled.
#[test]
fn volatile_load_over_a_wait() {
    let head = "H 2 2 2\nG -\nV 0\n";
    let wake = "Y 0 0; K 1 0; F 1 0 0; N 1 0; C 0 0";
    expect_refused_last(head, &format!("K 0 0; R 0 0 0; L 0 0 0; {wake}; U 0 0 0"), 17);
    expect_refused_last(head, &format!("K 0 0; R 0 0 0; {wake}; L 0 0 0; U 0 0 0"), 17);
    expect_accepted(head, &format!("K 0 0; R 0 0 0; L 0 0 0; U 0 0 0; {wake}; R 0 0 0; L 0 0 0; U 0 0 0"));
    expect_refused_last(head, &format!("K 0 0; R 0 0 0; L 0 0 0; {wake}; L 0 0 0"), 26);
    expect_accepted(head, &format!("K 0 0; Y 0 0; R 0 0 0; {}", "K 1 0; F 1 0 0; N 1 0; C 0 0; L 0 0 0"));
}

#[test]
fn two_thousand_events_and_one_more() {
    let round = format!("{NOTIFIED}; C 0 0; N 0 0");
    let at = format!("{}; {NOTIFIED}", repeat(&round, 285));
    assert_eq!(events_of(&at).len(), 2_000);
    expect_unordered(GUARDED, &at, 2_003, 22);
    for (more, number) in [("C 0 0", 9), ("Y 0 0", 9), ("F 1 0 0", 9), ("F 9 9 9", 9), ("C 0 0 0", 4), ("F 0 0", 4)] {
        expect_refused(&paper_of(GUARDED, &format!("{at}; {more}")), 2_003, number);
    }
    // Event 2,000 is checked.
    let before = format!("{}; K 0 0; Y 0 0; K 1 0; F 1 0 0", repeat(&round, 285));
    expect_refused(&paper_of(GUARDED, &format!("{before}; C 0 0")), 2_002, 11);
    expect_refused(&paper_of(GUARDED, &format!("{before}; F 1 0 0")), 2_002, 30);
    expect_refused(&paper_of(GUARDED, &format!("{before}; A 0 0 5")), 2_002, 29);
    let sections = printed_sections(GUARDED, &repeat(&round, 285));
    assert_eq!(sections.len(), 855);
    assert_eq!(sections[854], "section 0 1996 1997");
}

/// A lock is held 997 times, given up at one Y and taken again at one C.
#[test]
fn many_holds() {
    let wake = "K 1 0; F 1 0 0; N 1 0; C 0 0";
    let events = format!("{}; Y 0 0; {wake}; {}; R 0 0 0", repeat("K 0 0", 997), repeat("N 0 0", 997));
    assert_eq!(events_of(&events).len(), 2_000);
    assert_eq!(printed_sections(GUARDED, &events), ["section 0 3 1000", "section 1 1001 1003", "section 0 1004 2001"]);
    let es = events_of(&events);
    assert_eq!((depth(&es[..997], 0, 0), depth(&es[..998], 0, 0), remembered(&es[..998], 0, 0)), (997, 0, 997));
    assert_eq!((depth(&es[..1_002], 0, 0), remembered(&es[..1_002], 0, 0), depth(&es, 0, 0)), (997, 0, 0));
    expect_refused_last(GUARDED, &format!("{}; N 0 0", events.replace("; R 0 0 0", "")), 12);
    expect_unordered(GUARDED, &format!("{}; Y 0 0; {wake}; {}", repeat("K 0 0", 997), repeat("N 0 0", 996)), 2_001, 22);
    let most = format!("{}; Y 0 0", repeat("K 0 0", 1_999));
    assert_eq!(outcome(&paper_of(GUARDED, &most)).verdict, Verdict::Accepted(2_000));
    assert_eq!(remembered(&events_of(&most), 0, 0), 1_999);
}

/// Every thread waits on a lock of its own, and on one lock.
#[test]
fn eight_waiters() {
    let head = "H 8 1 8\nG 0\n";
    let each = |events: &dyn Fn(u32) -> String| (0..8).map(events).collect::<Vec<_>>().join(";");
    let own = each(&|t| format!("K {t} {t}; Y {t} {t}"));
    expect_unordered(head, &own, 19, 22);
    let one = (0..7).map(|t| format!("K {t} 0; Y {t} 0")).collect::<Vec<_>>().join(";");
    let woken = (0..7).map(|t| format!("F 7 0 {t}")).collect::<Vec<_>>().join(";");
    let back = (0..7).rev().map(|t| format!("C {t} 0; N {t} 0")).collect::<Vec<_>>().join(";");
    let printed = printed_sections(head, &format!("{one}; K 7 0; {woken}; N 7 0; {back}"));
    assert_eq!(printed.len(), 15);
    assert_eq!(
        (printed[7].as_str(), printed[8].as_str(), printed[14].as_str()),
        ("section 7 17 25", "section 6 26 27", "section 0 38 39")
    );
}
