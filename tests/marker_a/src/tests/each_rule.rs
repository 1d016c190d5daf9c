//! The short traces of 01, its paper and the 1-2-3 run; each rule by itself.

use super::*;
use crate::mark_short;
use crate::rules::breaks;

// ---- traces of 01 ----

#[test]
fn short_traces_of_01() {
    let table = [
        ("", 0, 0),
        ("U 0 0 0", 17, 1),
        ("R 0 0 0;L 0 0 0;U 0 0 0", 0, 3),
        ("R 0 0 0;K 0 0;L 0 0 0;U 0 0 0", 17, 4),
        ("R 0 0 0;A 0 0 5;L 0 0 0", 23, 2),
        ("R 0 0 0;A 0 0 5;S 0 0 5;W 0 0 5;L 0 0 0", 23, 2),
        ("A 0 0 5;S 0 0 5;S 0 0 5", 14, 3),
        ("A 0 0 5;K 0 0;S 0 0 5", 17, 3),
        ("K 0 0;A 0 0 5;S 0 0 5;N 0 0", 16, 4),
        ("P 0 0 5;W 0 0 5;B 0 0 5", 0, 3),
        ("P 0 0 5;K 0 0", 13, 2),
        ("K 0 0;K 0 0;N 0 0;K 1 0", 11, 4),
        ("K 0 0;P 0 0 5;N 0 0", 0, 3),
    ];
    for (trace, number, place) in table {
        assert_eq!(verdict(trace), (number, place), "{trace}");
    }
    assert_eq!(main_memory(&events_of("P 0 0 5;W 0 0 5;B 0 0 5"), 0), 5);
}

#[test]
fn eight_reads_and_a_ninth() {
    assert_eq!(verdict(&"R 0 0 0;".repeat(8)), (0, 8));
    assert_eq!(verdict(&"R 0 0 0;".repeat(9)), (19, 9));
}

#[test]
fn two_thousand_events_and_one_more() {
    let many = "A 0 0 1\n".repeat(2000);
    let full = with_trailer(format!("H 1 1 0\nG -\n{many}").as_bytes());
    assert!(mark(&full).starts_with(b"accepted 2000\n"));
    let over = with_trailer(format!("H 1 1 0\nG -\n{many}U 0 0 7\n").as_bytes());
    assert_eq!(mark(&over), b"refused 2003 9\n");
    let checked = with_trailer(format!("H 1 1 0\nG -\n{}U 0 0 7\n", "A 0 0 1\n".repeat(1999)).as_bytes());
    assert_eq!(mark(&checked), b"refused 2002 18\n");
    let four_first = with_trailer(format!("H 1 1 0\nG -\n{many}U 0 0\n").as_bytes());
    assert_eq!(mark(&four_first), b"refused 2003 4\n");
    let nine_before_five = with_trailer(format!("H 1 1 0\nG -\n{many}U 9 0 0\n").as_bytes());
    assert_eq!(mark(&nine_before_five), b"refused 2003 9\n");
}

#[test]
fn one_paper_whole() {
    let text = "H 2 1 1\nG 0\nK 0 0\nA 0 0 5\nS 0 0 5\nW 0 0 5\nN 0 0\nK 1 0\nR 1 0 5\nL 1 0 5\nU 1 0 5\nN 1 0\nZ 84\n";
    let want = "accepted 10\nmain 0 5\ncopy 0 0 5\ncopy 1 0 5\nsection 0 3 7\nsection 1 8 12\n";
    assert_eq!(String::from_utf8(mark(text.as_bytes())).unwrap(), want);
    assert_eq!(String::from_utf8(mark_short(text.as_bytes())).unwrap(), want);
    assert_eq!(demand3(&outcome(text.as_bytes())), Ok(()));
    assert_eq!(printed("H 2 1 1;G 0;U 0 0 0"), "refused 3 17\n");
}

/// The 1-2-3 run of source 000, section 2.3: x is variable 0, y is variable 1.
#[test]
fn one_two_three_run() {
    let run = "K 0 0;A 0 1 2;S 0 1 2;W 0 1 2;N 0 0;K 1 0;A 1 1 3;S 1 1 3;W 1 1 3;R 0 1 3;A 1 1 100;S 1 1 100;\
               W 1 1 100;N 1 0;A 1 0 1;S 1 0 1;W 1 0 1;R 0 0 1;L 0 0 1;U 0 0 1;U 0 1 2;L 0 1 3;U 0 1 3";
    assert_eq!(verdict(run), (0, 23));
}

// ---- rules one by one ----

#[test]
fn rule_5_undeclared() {
    assert_eq!(verdict("U 2 0 0"), (5, 1));
    assert_eq!(verdict("U 0 2 0"), (5, 1));
    assert_eq!(verdict("K 0 2"), (5, 1));
    assert_eq!(verdict("F 0 0 2"), (5, 1));
    assert_eq!(judge(&[], TWO, &Event { kind: Kind::F, thread: 0, target: 0, value: -1 }), 5);
}

#[test]
fn rule_10_no_partner() {
    assert_eq!(verdict("L 0 0 0"), (10, 1));
    assert_eq!(verdict("R 0 1 0;L 0 0 0"), (10, 2));
    assert_eq!(verdict("R 1 0 0;L 0 0 0"), (10, 2));
    assert_eq!(verdict("R 0 0 0;L 0 0 0;L 0 0 0"), (10, 3));
    assert_eq!(verdict("W 0 0 0"), (10, 1));
    assert_eq!(verdict("B 0 0 0"), (10, 1));
    assert_eq!(verdict("P 0 0 5;B 0 0 5;B 0 0 5"), (10, 3));
}

#[test]
fn rule_11_held_by_another() {
    assert_eq!(verdict("K 0 0;K 1 0"), (11, 2));
    assert_eq!(verdict("K 0 0;K 1 1"), (0, 2));
    assert_eq!(verdict("K 0 0;N 0 0;K 1 0"), (0, 3));
}

#[test]
fn rule_12_unlock_not_held() {
    assert_eq!(verdict("N 0 0"), (12, 1));
    assert_eq!(verdict("K 0 0;N 0 0;N 0 0"), (12, 3));
    assert_eq!(verdict("K 0 0;N 1 0"), (12, 2));
}

#[test]
fn rule_13_owed() {
    assert_eq!(verdict("P 0 0 5;L 0 0 0"), (10, 2));
    assert_eq!(verdict("P 0 0 5;W 0 0 5;R 0 0 5;L 0 0 5"), (13, 4));
    assert_eq!(verdict("A 0 0 4;P 0 0 5;S 0 0 4"), (13, 3));
    assert_eq!(verdict("P 0 0 5;P 0 0 5"), (13, 2));
    assert_eq!(verdict("P 0 0 5;P 0 1 5;P 1 0 3"), (0, 3));
    assert_eq!(verdict("P 0 1 5;K 0 0"), (13, 2));
    assert_eq!(verdict("P 0 1 5;K 1 0"), (0, 2));
}

#[test]
fn rule_14_not_fresh() {
    assert_eq!(verdict("S 0 0 0"), (14, 1));
    assert_eq!(verdict("R 0 0 0;L 0 0 0;S 0 0 0"), (14, 3));
    assert_eq!(verdict("P 0 0 5;B 0 0 5;S 0 0 5"), (14, 3));
}

#[test]
fn rule_15_fresh() {
    assert_eq!(verdict("K 0 0;A 0 1 5;N 0 0"), (15, 3));
    assert_eq!(verdict("K 0 0;A 1 1 5;N 0 0"), (0, 3));
    assert_eq!(verdict("K 0 0;P 0 0 5;A 0 0 4;N 0 0"), (15, 4));
    assert!(breaks(15, &events_of("R 0 0 0;A 0 0 5"), TWO, &events_of("L 0 0 0")[0]));
    assert_eq!(judged("R 0 0 0;A 0 0 5;L 0 0 0"), 15);
}

#[test]
fn rule_16_not_written() {
    assert_eq!(judged("R 0 0 0;A 0 0 5;S 0 0 5;L 0 0 0"), 16);
    assert_eq!(judged("R 0 0 0;A 0 0 5;S 0 0 5;W 0 0 5;L 0 0 0"), 16);
    assert_eq!(judged("A 0 0 5;S 0 0 5;W 0 0 5;R 0 0 5;L 0 0 5"), 0);
    assert_eq!(verdict("K 0 0;A 0 1 5;S 0 1 5;N 0 0"), (16, 4));
    assert_eq!(verdict("K 0 0;A 0 1 5;S 0 1 5;W 0 1 5;N 0 0"), (0, 5));
}

#[test]
fn rule_17_usable() {
    assert_eq!(verdict("A 0 0 5;K 0 1;U 0 0 5"), (17, 3));
    assert_eq!(verdict("A 0 0 5;K 1 1;U 0 0 5"), (0, 3));
    assert_eq!(verdict("K 0 0;R 0 0 0;L 0 0 0;U 0 0 0"), (0, 4));
    assert_eq!(verdict("P 0 0 5;B 0 0 5;U 0 0 5"), (0, 3));
    assert_eq!(verdict("P 0 0 5;U 0 0 5"), (17, 2));
}

#[test]
fn rule_18_values() {
    assert_eq!(verdict("A 0 0 5;U 0 0 6"), (18, 2));
    assert_eq!(verdict("A 0 0 5;S 0 0 6"), (18, 2));
    assert_eq!(verdict("R 0 0 0;L 0 0 1"), (18, 2));
    assert_eq!(verdict("A 0 0 5;S 0 0 5;W 0 0 6"), (18, 3));
    assert_eq!(verdict("A 0 0 5;S 0 0 5;A 0 0 6;S 0 0 6;W 0 0 6"), (18, 5));
    assert_eq!(verdict("R 0 0 1"), (18, 1));
    assert_eq!(verdict("A 0 0 5;S 0 0 5;W 0 0 5;R 1 0 0"), (18, 4));
    assert_eq!(verdict("P 0 0 5;B 0 0 6"), (18, 2));
}

#[test]
fn rule_19_eight_stores() {
    let eight = "A 0 0 5;S 0 0 5;".repeat(8);
    assert_eq!(verdict(&eight), (0, 16));
    assert_eq!(verdict(&format!("{eight}A 0 0 5;S 0 0 5")), (19, 18));
    assert_eq!(verdict(&format!("{eight}P 0 0 5")), (19, 17));
    assert_eq!(verdict(&format!("{eight}W 0 0 5;P 0 0 5")), (0, 18));
    assert_eq!(verdict(&format!("{eight}R 0 0 0")), (23, 17));
}
