//! Each clause of the requests (a), (d) to (g) and (i).

use super::short_course::print_short;
use super::*;
use crate::rules::{depth, notified, remembered, waits, waits_on, ROWS};
use crate::{judge_short, mark_short};

/// What `mark_short` prints for a paper of these lines.
fn printed_short(lines: &str) -> String {
    print_short(&paper_of_lines(lines))
}

// ---- (a) ----

#[test]
fn a_dead_read() {
    assert_eq!(verdict("A 0 0 5;S 0 0 5;R 0 0 0"), (23, 3));
    assert_eq!(verdict("P 0 0 5;R 0 0 0"), (23, 2));
    assert_eq!(verdict("A 0 0 5;R 0 0 0"), (23, 2));
    assert_eq!(verdict("A 0 0 5;R 1 0 0"), (0, 2));
    assert_eq!(verdict("R 0 0 0;A 0 0 5"), (23, 2));
    assert_eq!(verdict("R 0 0 0;A 0 1 5"), (0, 2));
    assert_eq!(verdict("R 0 0 0;P 0 0 5"), (23, 2));
    assert_eq!(verdict("P 0 0 5;W 0 0 5;R 0 0 5;A 0 0 4;B 0 0 5;L 0 0 5"), (0, 6));
    assert_eq!(verdict("P 0 0 5;W 0 0 5;A 0 0 4;R 0 0 5;B 0 0 5;L 0 0 5"), (0, 6));
    assert_eq!(verdict("P 0 0 5;W 0 0 5;R 0 0 5;B 0 0 5;A 0 0 4"), (23, 5));
}

#[test]
fn a_comes_after_the_others() {
    assert_eq!(verdict("A 0 0 5;R 0 0 1"), (18, 2));
    assert_eq!(judged("R 0 0 0;P 0 0 5;P 0 0 5"), 13);
    for (kind, row) in ROWS {
        assert_eq!(row.contains(&23), matches!(kind, Kind::R | Kind::A | Kind::P));
        assert!(!row.contains(&23) || row.last() == Some(&23));
    }
}

// ---- (d) ----

#[test]
fn d_early_store_across_an_unlock() {
    assert_eq!(verdict("K 0 0;P 0 0 5;N 0 0;B 0 0 5;W 0 0 5"), (0, 5));
    assert_eq!(verdict("K 0 0;P 0 0 5;B 0 0 5;N 0 0"), (16, 4));
    assert_eq!(verdict("K 0 0;A 0 0 4;S 0 0 4;P 0 0 5;N 0 0"), (16, 5));
    assert_eq!(verdict("K 0 0;A 0 0 4;S 0 0 4;P 0 0 5;W 0 0 4;N 0 0"), (0, 6));
    assert_eq!(verdict("K 0 0;P 0 0 5;A 0 1 4;S 0 1 4;N 0 0"), (16, 5));
}

// ---- (e) ----

#[test]
fn e_short_course_head() {
    for head in ["H 3 1 1", "H 1 5 1", "H 1 1 3", "H 8 16 8"] {
        assert_eq!(printed_short(&format!("{head};G -")), "refused 1 25\n");
        assert_eq!(printed_short(&format!("{head};G wrong")), "refused 1 25\n");
        assert!(printed(&format!("{head};G -")).starts_with("accepted 0\n"));
    }
    assert_eq!(printed_short("H 9 1 1;G -"), "refused 1 3\n");
    assert_eq!(printed_short("H 2 4 2;G -"), printed("H 2 4 2;G -"));
}

#[test]
fn e_short_course_events() {
    let many = "A 0 0 1\n".repeat(200);
    let full = with_trailer(format!("H 1 1 0\nG -\n{many}").as_bytes());
    assert_eq!(mark_short(&full), mark(&full));
    let over = with_trailer(format!("H 1 1 0\nG -\n{many}U 9 0 7\n").as_bytes());
    assert_eq!(mark_short(&over), b"refused 203 25\n");
    assert_eq!(mark(&over), b"refused 203 5\n");
    let form = with_trailer(format!("H 1 1 0\nG -\n{many}U 9 0\n").as_bytes());
    assert_eq!(mark_short(&form), b"refused 203 4\n");
    let list = vec![Event { kind: Kind::A, thread: 0, target: 0, value: 1 }; 200];
    assert_eq!((judge(&list, TWO, &list[0]), judge_short(&list, TWO, &list[0])), (0, 25));
    assert_eq!(judge_short(&list[..199], TWO, &list[0]), 0);
}

// ---- (f) ----

fn volatile_verdict(trace: &str) -> (u32, usize) {
    verdict_with(with_volatiles(Counts::plain(2, 3, 2), &[0, 1]), trace)
}

#[test]
fn f_volatile_line() {
    let start = "H 2 3 1;G -;";
    for wrong in ["V", "V ", "V 3", "V 1 0", "V 0 0", "V 0  1", "V -", "V 00", "Vx", "V 99999999999999999999999", "V 0 ", "V0"] {
        let text = with_trailer(format!("H 2 3 1\nG -\n{wrong}\n").as_bytes());
        assert_eq!(mark(&text), b"refused 3 6\n", "{wrong}");
    }
    assert_eq!(printed(&format!("{start}V 0 2;A 0 0 1;A 0 0 1")), "refused 5 26\n");
    assert_eq!(printed(&format!("{start}V 0 2;")), "refused 4 4\n");
    assert_eq!(printed(&format!("{start}V 0 2;V 0 2")), "refused 4 4\n");
    assert_eq!(printed(&format!("{start}A 0 0 1;V 0 2")), "refused 4 4\n");
    assert_eq!(printed("H 2 3 1;V 0 2;G -"), "refused 2 6\n");
    let counts = outcome(&paper_of_lines(&format!("{start}V 0 2"))).counts.unwrap();
    assert_eq!(counts, with_volatiles(Counts::plain(2, 3, 1), &[0, 2]));
    assert_eq!((line_of(counts, 0), line_of(TWO, 0)), (4, 3));
}

#[test]
fn f_wrong_neighbour() {
    assert_eq!(volatile_verdict("A 0 0 1;U 0 0 1"), (26, 2));
    assert_eq!(volatile_verdict("U 0 0 0"), (26, 1));
    assert_eq!(volatile_verdict("S 0 0 0"), (26, 1));
    assert_eq!(volatile_verdict("R 0 0 0;L 0 0 0;U 0 0 0;U 0 0 0"), (26, 4));
    assert_eq!(volatile_verdict("R 0 0 0;R 0 0 0;L 0 0 0;L 0 0 0"), (26, 4));
    assert_eq!(volatile_verdict("R 0 0 0;L 0 0 0;A 0 0 0"), (26, 3));
    assert_eq!(volatile_verdict("A 0 0 1;A 0 0 2"), (26, 2));
    assert_eq!(volatile_verdict("A 0 0 1;L 0 0 0"), (26, 2));
    assert_eq!(volatile_verdict("R 0 0 0;L 0 0 0;R 0 0 0;U 0 0 0"), (0, 4));
    assert_eq!(volatile_verdict("A 0 0 1;A 0 1 2;U 0 2 0"), (17, 3));
    assert_eq!(volatile_verdict("A 0 0 1;A 1 0 2;K 0 0;S 1 0 2;S 0 0 1"), (17, 5));
    assert_eq!(volatile_verdict("A 0 2 1;A 0 2 2;U 0 2 2;U 0 2 2;S 0 2 2"), (0, 5));
}

#[test]
fn f_use_order() {
    assert_eq!(volatile_verdict("R 0 0 0;A 0 1 1;S 0 1 1;W 0 1 1;L 0 0 0;U 0 0 0"), (27, 6));
    assert_eq!(volatile_verdict("A 0 1 1;S 0 1 1;R 0 0 0;L 0 0 0;U 0 0 0"), (27, 5));
    assert_eq!(volatile_verdict("A 0 1 1;R 0 0 0;L 0 0 0;U 0 0 0"), (27, 4));
    assert_eq!(volatile_verdict("A 0 1 1;S 0 1 1;W 0 1 1;R 0 0 0;L 0 0 0;U 0 0 0"), (0, 6));
    assert_eq!(volatile_verdict("A 1 1 1;S 1 1 1;R 0 0 0;L 0 0 0;U 0 0 0"), (0, 5));
    assert_eq!(volatile_verdict("A 0 2 1;S 0 2 1;R 0 0 0;L 0 0 0;U 0 0 0"), (0, 5));
    assert_eq!(volatile_verdict("R 0 0 0;R 0 1 0;L 0 1 0;U 0 1 0;L 0 0 0;U 0 0 0"), (27, 6));
    assert_eq!(volatile_verdict("R 0 0 0;R 0 1 0;L 0 0 0;U 0 0 0;L 0 1 0;U 0 1 0"), (0, 6));
    assert_eq!(volatile_verdict("R 0 0 0;R 0 2 0;L 0 2 0;U 0 2 0;L 0 0 0;U 0 0 0"), (0, 6));
}

#[test]
fn f_write_order() {
    assert_eq!(volatile_verdict("A 0 0 1;S 0 0 1;A 0 1 2;S 0 1 2;W 0 1 2"), (27, 5));
    assert_eq!(volatile_verdict("A 0 0 1;A 0 1 2;S 0 1 2;W 0 1 2"), (27, 4));
    assert_eq!(volatile_verdict("A 0 0 1;S 0 0 1;A 0 1 2;S 0 1 2;W 0 0 1;W 0 1 2"), (0, 6));
    assert_eq!(volatile_verdict("A 0 0 1;A 0 1 2;S 0 1 2;S 0 0 1;W 0 0 1;W 0 1 2"), (0, 6));
    assert_eq!(volatile_verdict("A 1 0 1;S 1 0 1;A 0 1 2;S 0 1 2;W 0 1 2"), (0, 5));
    assert_eq!(volatile_verdict("A 0 0 1;W 0 1 2"), (10, 2));
    assert_eq!(volatile_verdict("A 0 0 1;A 0 2 2;S 0 2 2;W 0 2 2"), (0, 4));
}

#[test]
fn f_early_store_on_a_volatile() {
    assert_eq!(volatile_verdict("P 0 0 1"), (28, 1));
    assert_eq!(volatile_verdict("B 0 0 1"), (28, 1));
    assert_eq!(volatile_verdict("A 0 0 1;P 0 0 1"), (26, 2));
    assert_eq!(volatile_verdict("P 0 2 1;B 0 2 1"), (0, 2));
    assert_eq!(volatile_verdict("R 0 0 0;A 0 0 1"), (23, 2));
}

#[test]
fn f_these_lead_each_row() {
    for (_, row) in ROWS {
        assert_eq!(row[..5], [29, 30, 26, 27, 28]);
    }
}

// ---- (g) ----

#[test]
fn g_values_of_64_bits() {
    assert_eq!(printed("H 1 1 0;G -;A 0 0 2147483648"), "accepted 1\nmain 0 0\ncopy 0 0 2147483648\n");
    let low = "A 0 0 -9223372036854775808;S 0 0 -9223372036854775808;W 0 0 -9223372036854775808";
    let want = "accepted 3\nmain 0 -9223372036854775808\ncopy 0 0 -9223372036854775808\n";
    assert_eq!(printed(&format!("H 1 1 0;G -;{low}")), want);
    assert_eq!(printed("H 1 1 0;G -;A 0 0 9223372036854775807"), "accepted 1\nmain 0 0\ncopy 0 0 9223372036854775807\n");
    assert_eq!(printed("H 1 1 0;G -;A 0 0 9223372036854775808"), "refused 3 4\n");
    assert_eq!(printed("H 1 1 0;G -;A 0 0 -9223372036854775809"), "refused 3 4\n");
    assert_eq!(printed("H 1 1 0;G -;A 0 0 99999999999999999999999999999999999999999999"), "refused 3 4\n");
    assert_eq!(printed("H 1 1 0;G -;R 0 0 2147483648"), "refused 3 18\n");
}

// ---- (i) ----

const THREE: Counts = Counts::plain(3, 2, 2);

fn waiting_verdict(trace: &str) -> (u32, usize) {
    verdict_with(THREE, trace)
}

#[test]
fn i_wait_notify_come_back() {
    let run = "K 0 0;K 0 0;Y 0 0;K 1 0;F 1 0 0;N 1 0;C 0 0;N 0 0;N 0 0";
    assert_eq!(waiting_verdict(run), (0, 9));
    let list = events_of(run);
    let facts = |n: usize| {
        let es = &list[..n];
        (depth(es, 0, 0), remembered(es, 0, 0), waits_on(es, 0, 0), waits(es, THREE, 0), notified(es, 0, 0))
    };
    assert_eq!(facts(2), (2, 0, false, false, false));
    assert_eq!(facts(3), (0, 2, true, true, false));
    assert_eq!(facts(5), (0, 2, true, true, true));
    assert_eq!(facts(7), (2, 0, false, false, false));
    assert_eq!(facts(9), (0, 0, false, false, false));
    assert_eq!(waiting_verdict(&format!("{run};N 0 0")), (12, 10));
}

#[test]
fn i_y_is_checked_as_n() {
    assert_eq!(waiting_verdict("Y 0 0"), (12, 1));
    assert_eq!(waiting_verdict("K 0 0;A 0 0 1;Y 0 0"), (15, 3));
    assert_eq!(waiting_verdict("K 0 0;A 0 0 1;S 0 0 1;Y 0 0"), (16, 4));
    assert_eq!(waiting_verdict("K 0 0;P 0 0 1;Y 0 0"), (0, 3));
}

#[test]
fn i_c_is_checked_as_k() {
    assert_eq!(waiting_verdict("K 0 0;Y 0 0;K 1 0;F 1 0 0;C 0 0"), (11, 5));
    assert_eq!(waiting_verdict("K 0 0;P 0 0 1;Y 0 0;K 1 0;F 1 0 0;N 1 0;C 0 0"), (13, 7));
    let spoiled = "A 0 0 1;S 0 0 1;W 0 0 1;K 0 0;A 0 1 1;S 0 1 1;W 0 1 1;Y 0 0;K 1 0;F 1 0 0;N 1 0;C 0 0;U 0 1 1";
    assert_eq!(waiting_verdict(spoiled), (17, 13));
    let read_early = "K 0 0;Y 0 0;R 0 0 0;K 1 0;F 1 0 0;N 1 0;C 0 0;L 0 0 0;U 0 0 0";
    assert_eq!(waiting_verdict(read_early), (17, 9));
}

#[test]
fn i_29_of_a_waiting_thread() {
    for e in ["U 0 0 0", "A 0 0 1", "L 0 0 0", "S 0 0 0", "K 0 1", "N 0 0", "P 0 0 1", "B 0 0 0", "Y 0 0", "F 0 0 1"] {
        assert_eq!(waiting_verdict(&format!("K 0 0;Y 0 0;{e}")), (29, 3), "{e}");
    }
    assert_eq!(waiting_verdict("K 0 0;P 0 0 1;Y 0 0;W 0 0 1;R 0 0 1;U 1 0 0"), (17, 6));
    assert_eq!(waiting_verdict("K 0 0;Y 0 0;U 5 0 0"), (5, 3));
}

#[test]
fn i_30_notified() {
    assert_eq!(waiting_verdict("K 0 0;F 0 0 1"), (30, 2));
    assert_eq!(waiting_verdict("K 0 0;F 0 0 0"), (30, 2));
    assert_eq!(waiting_verdict("K 0 0;Y 0 0;C 0 0"), (30, 3));
    assert_eq!(waiting_verdict("C 0 0"), (30, 1));
    assert_eq!(waiting_verdict("K 0 0;Y 0 0;K 1 0;F 1 0 0;F 1 0 0"), (30, 5));
    assert_eq!(waiting_verdict("K 0 0;Y 0 0;K 1 1;F 1 1 0"), (30, 4));
    assert_eq!(waiting_verdict("K 0 0;Y 0 0;F 1 0 0"), (12, 3));
    assert_eq!(waiting_verdict("K 0 0;Y 0 0;K 1 0;F 1 0 0;N 1 0;C 0 1"), (30, 6));
    assert_eq!(waiting_verdict("K 0 0;Y 0 0;K 1 0;F 1 0 0;N 1 0;C 0 0;Y 0 0;C 0 0"), (30, 8));
}

#[test]
fn i_order_with_waiting() {
    let run = "H 2 1 1;G 0;K 0 0;K 0 0;Y 0 0;K 1 0;F 1 0 0;A 1 0 4;S 1 0 4;W 1 0 4;N 1 0;C 0 0;R 0 0 4;L 0 0 4;U 0 0 4;\
               N 0 0;N 0 0";
    let want = "accepted 15\nmain 0 4\ncopy 0 0 4\ncopy 1 0 4\nsection 0 3 5\nsection 1 6 11\nsection 0 12 17\n";
    assert_eq!(printed(run), want);
    assert_eq!(demand3(&outcome(&paper_of_lines(run))), Ok(()));
    assert_eq!(printed("H 2 1 1;G 0;K 0 0;Y 0 0"), "accepted 2\nmain 0 0\nunordered 5 22\n");
    let other_lock = "H 2 1 2;G 0;K 0 0;K 0 1;Y 0 1;K 1 1;F 1 1 0;N 1 1;C 0 1;N 0 1;N 0 0";
    assert_eq!(printed(other_lock), "accepted 9\nmain 0 0\nunordered 9 21\n");
    assert_eq!(printed("H 2 1 1;G 0;K 0 0;Y 0 0;U 0 0 0"), "refused 5 29\n");
}
