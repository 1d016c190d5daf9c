//! Corners F, N and H: bytes, lines, trailer, numbers, head, `G` line, event lines.

use super::*;
use crate::{outcome, Counts, Verdict, MAX_BYTES};

/// Twelve bytes: a head and a `G` line.
const SMALL: &str = "H 1 1 0\nG -\n";
/// Twelve bytes, with a lock.
const LOCKED: &str = "H 1 1 1\nG -\n";

/// The text, and a right trailer after it.
fn closed(text: &str) -> Vec<u8> {
    with_trailer(text.as_bytes())
}

/// One event line after a head of two threads, variables and locks.
fn one_line(line: &str) -> Vec<u8> {
    closed(&format!("{TRACE_HEAD}{line}\n"))
}

#[test]
fn f1_f2_every_line_is_ended() {
    for bytes in ["", "\n", "\n\n", "H 1 1 0\nG -\nZ 12x", "H 1 1 0\nG -\nZ 12\r", "H 1 1 0\nG -\nZ 12"] {
        expect_refused(bytes.as_bytes(), 0, 2);
    }
    assert_eq!(print(b"H 1 1 0\nG -\nZ 12\n"), "accepted 0\nmain 0 0\n");
}

#[test]
fn f3_trailer_is_the_last_line() {
    expect_refused(b"H 1 1 0\nG -\nZ 12\n\n", 0, 2);
    expect_refused(b"H 1 1 0\nG -\nZ 12\nA 0 0 5\n", 0, 2);
    expect_refused(b"H 1 1 0\nG -\nZ 12\nZ 12\n", 0, 2);
    expect_refused(b"H 1 1 0\nG -\nZ 12\nA", 0, 2);
    expect_refused(b"H 1 1 0\nG -\nZ 12\nZ 17\n", 3, 4);
}

#[test]
fn f4_form_of_the_trailer() {
    for trailer in [
        "Z 012",
        "Z +12",
        "Z  12",
        "Z 12 ",
        "Z12",
        "z 12",
        "Z",
        "Z ",
        " Z 12",
        "Z 11",
        "Z 13",
        "Z -12",
        "Z 12 0",
        "ZZ 12",
        "Z 4294967308",
        "Z 18446744073709551628",
        "Z 1e1",
        "Z\t12",
        "Z 12\0",
    ] {
        expect_refused(format!("{SMALL}{trailer}\n").as_bytes(), 0, 2);
    }
    expect_refused(format!("{SMALL}Z {}12\n", "1".repeat(1_000)).as_bytes(), 0, 2);
}

#[test]
fn f5_f6_missing_lines() {
    expect_refused(b"Z 0\n", 1, 3);
    expect_refused(b"H 1 1 0\nZ 8\n", 2, 6);
    expect_refused(b"G -\nZ 4\n", 1, 3);
}

/// A paper of exactly `size` bytes whose first event has a long thread number.
fn paper_of_size(size: usize) -> Vec<u8> {
    let around = SMALL.len() + "A  0 5\n".len() + "Z 65524\n".len();
    let thread = "1".repeat(size - around);
    let paper = closed(&format!("{SMALL}A {thread} 0 5\n"));
    assert_eq!(paper.len(), size);
    paper
}

#[test]
fn f7_size() {
    expect_refused(&paper_of_size(MAX_BYTES), 3, 5);
    expect_refused(&paper_of_size(MAX_BYTES + 1), 0, 1);
    expect_refused(&vec![0; MAX_BYTES], 0, 2);
    expect_refused(&vec![0; MAX_BYTES + 1], 0, 1);
    expect_refused(&vec![10; MAX_BYTES], 0, 2);
    expect_refused(&vec![10; MAX_BYTES + 1], 0, 1);
    expect_refused(&vec![b'9'; 10 * MAX_BYTES], 0, 1);
}

#[test]
fn f8_carriage_return() {
    expect_refused(b"H 1 1 0\r\nG -\r\nZ 14\r\n", 0, 2);
    expect_refused(&closed("H 1 1 0\r\nG -\n"), 1, 3);
    expect_refused(&closed("H 1 1 0\nG -\r\n"), 2, 6);
    expect_refused(&closed("H 1 1 0\nG -\nA 0 0 5\r\n"), 3, 4);
}

#[test]
fn f9_other_bytes() {
    for byte in [0u8, 9, 11, 127, 128, 200, 255] {
        let insert = |text: &str| [text.as_bytes(), &[byte], b"\n"].concat();
        expect_refused(&insert("H 1 1 0\nG -\nZ 12"), 0, 2);
        let head = [&insert("H 1 1 0")[..], b"G -\n"].concat();
        expect_refused(&with_trailer(&head), 1, 3);
        expect_refused(&with_trailer(&insert("H 1 1 0\nG -")), 2, 6);
        expect_refused(&with_trailer(&insert("H 1 1 0\nG -\nA 0 0 5")), 3, 4);
    }
    expect_refused(&one_line("A\t0\t0\t5"), 3, 4);
}

#[test]
fn f10_blank_lines() {
    expect_refused(&closed("\nG -\n"), 1, 3);
    expect_refused(&closed("H 1 1 0\n\n"), 2, 6);
    expect_refused(&closed("H 1 1 0\n\nG -\n"), 2, 6);
    expect_refused(&closed(&format!("{SMALL}\n")), 3, 4);
    expect_refused(&closed(&format!("{SMALL}A 0 0 5\n\nA 0 0 5\n")), 4, 4);
}

#[test]
fn f11_line_numbers() {
    expect_refused(&closed(&format!("{SMALL}A 0 0 5\nA 0 0 5\nU 0 0 6\n")), 5, 18);
    expect_unordered("H 1 1 1\nG 0\n", "K 0 0; A 0 0 5", 5, 22);
}

#[test]
fn f12_body() {
    let paper = closed(&format!("{SMALL}A 0 0 5\nA 0 0 6\n"));
    let parts = crate::paper::find(&paper).expect("parts");
    assert_eq!(parts.body, b"A 0 0 5\nA 0 0 6\n");
    assert_eq!(parts.counts, Counts::plain(1, 1, 0));
    assert_eq!(parts.guards, None);
    assert_eq!(crate::paper::find(&closed(SMALL)).expect("parts").body, b"");
}

#[test]
fn n1_numbers() {
    for bad in ["00", "01", "+1", "", "-0", "-00", "-01", "1x", "0x1", "1.0", "1e0", "--1", "-", "- 1"] {
        expect_refused(&one_line(&format!("A 0 0 {bad}")), 3, 4);
        expect_refused(&one_line(&format!("A 0 {bad} 0")), 3, 4);
        expect_refused(&one_line(&format!("A {bad} 0 0")), 3, 4);
        expect_refused(&one_line(&format!("K 0 {bad}")), 3, 4);
        expect_refused(&closed(&format!("H {bad} 1 0\nG -\n")), 1, 3);
        expect_refused(&closed(&format!("H 1 {bad} 0\nG -\n")), 1, 3);
        expect_refused(&closed(&format!("H 1 1 {bad}\nG -\n")), 1, 3);
        if bad != "-" {
            expect_refused(&closed(&format!("H 1 1 2\nG {bad}\n")), 2, 6);
        }
    }
    assert_eq!(first_line(&one_line("A 0 0 0")), "accepted 1");
}

#[test]
fn n2_minus_only_in_a_value() {
    for line in ["A -1 0 0", "A 0 -1 0", "K 0 -1", "K -1 0", "N 0 -1"] {
        expect_refused(&one_line(line), 3, 4);
    }
    for head in ["H -1 1 0", "H 1 -1 0", "H 1 1 -1"] {
        expect_refused(&closed(&format!("{head}\nG -\n")), 1, 3);
    }
    expect_refused(&closed("H 1 1 1\nG -1\n"), 2, 6);
    assert_eq!(first_line(&one_line("A 0 0 -1")), "accepted 1");
}

#[test]
fn n3_undeclared() {
    let long = "9".repeat(1_000);
    for big in [
        "2",
        "8",
        "9",
        "16",
        "128",
        "256",
        "65536",
        "4294967295",
        "4294967296",
        "9223372036854775807",
        "9223372036854775808",
        "18446744073709551615",
        "18446744073709551616",
        long.as_str(),
    ] {
        expect_refused(&one_line(&format!("A {big} 0 0")), 3, 5);
        expect_refused(&one_line(&format!("A 0 {big} 0")), 3, 5);
        expect_refused(&one_line(&format!("K {big} 0")), 3, 5);
        expect_refused(&one_line(&format!("K 0 {big}")), 3, 5);
        expect_refused(&one_line(&format!("N 0 {big}")), 3, 5);
    }
    expect_refused(&closed(&format!("{SMALL}K 0 0\n")), 3, 5);
    // 5 comes before the row.
    expect_refused(&one_line("U 2 0 0"), 3, 5);
    let widest = closed("H 8 16 8\nG -\nA 7 15 5\nK 7 7\n");
    assert_eq!(first_line(&widest), "accepted 2");
    expect_refused(&closed("H 8 16 8\nG -\nA 8 15 5\n"), 3, 5);
    expect_refused(&closed("H 8 16 8\nG -\nA 7 16 5\n"), 3, 5);
    expect_refused(&closed("H 8 16 8\nG -\nK 7 8\n"), 3, 5);
}

#[test]
fn n4_value_edges() {
    for value in ["-9223372036854775808", "9223372036854775807"] {
        let paper = paper_of(SMALL, &format!("A 0 0 {value}; S 0 0 {value}; W 0 0 {value}"));
        assert_eq!(print(&paper), format!("accepted 3\nmain 0 {value}\ncopy 0 0 {value}\n"));
    }
    let long = "1".repeat(1_000);
    let long_minus = format!("-{long}");
    let zeros = format!("1{}", "0".repeat(999));
    for value in [
        "9223372036854775808",
        "-9223372036854775809",
        "18446744073709551616",
        "-18446744073709551616",
        "18446744073709551621",
        "170141183460469231731687303715884105728",
        "-170141183460469231731687303715884105728",
        "340282366920938463463374607431768211456",
        "-340282366920938463463374607431768211455",
        long.as_str(),
        long_minus.as_str(),
        zeros.as_str(),
    ] {
        expect_refused(&one_line(&format!("A 0 0 {value}")), 3, 4);
    }
}

#[test]
fn n5_head_range() {
    let long = "1".repeat(1_000);
    for (t, v, l) in [
        ("0", "1", "0"),
        ("9", "1", "0"),
        ("1", "0", "0"),
        ("1", "17", "0"),
        ("1", "1", "9"),
        ("4294967297", "1", "0"),
        (long.as_str(), "1", "0"),
        ("1", long.as_str(), "0"),
        ("1", "1", long.as_str()),
    ] {
        expect_refused(&closed(&format!("H {t} {v} {l}\nG -\n")), 1, 3);
    }
    assert_eq!(first_line(&closed("H 8 16 8\nG -\n")), "accepted 0");
}

#[test]
fn n6_guard_range() {
    expect_refused(&closed("H 1 1 1\nG 1\n"), 2, 6);
    expect_refused(&closed("H 1 2 8\nG 0 8\n"), 2, 6);
    expect_refused(&closed("H 1 1 1\nG 4294967296\n"), 2, 6);
    expect_refused(&closed(&format!("H 1 1 1\nG {}\n", "1".repeat(1_000))), 2, 6);
    assert_eq!(first_line(&closed("H 1 2 8\nG 0 7\n")), "accepted 0");
}

#[test]
fn n7_two_faults_in_one_line() {
    expect_refused(&one_line("A 9 9 00"), 3, 4);
    expect_refused(&one_line("A 9 9 9223372036854775808"), 3, 4);
    expect_refused(&one_line("A 9 9 9223372036854775807"), 3, 5);
    expect_refused(&one_line(&format!("A {} 0 -0", "9".repeat(1_000))), 3, 4);
    let full = repeat("A 0 0 5", 2_000);
    expect_refused(&paper_of(TRACE_HEAD, &format!("{full}; A 0 0 00")), 2_003, 4);
    expect_refused(&paper_of(TRACE_HEAD, &format!("{full}; A 9 0 0")), 2_003, 9);
    expect_refused(&paper_of(TRACE_HEAD, &format!("{full}; U 0 1 0")), 2_003, 9);
}

#[test]
fn h1_head() {
    for head in ["H 1 1 0 ", "H  1 1 0", "h 1 1 0", "H 1 1", "H 1 1 0 0", " H 1 1 0", "H", "HH 1 1 0", "G 1 1 0", "H\t1 1 0"] {
        expect_refused(&closed(&format!("{head}\nG -\n")), 1, 3);
    }
    // 3 comes before 6.
    expect_refused(&closed("H 0 1 0\nG x\n"), 1, 3);
}

#[test]
fn h2_no_locks() {
    assert_eq!(first_line(&closed("H 1 1 0\nG -\n")), "accepted 0");
    expect_refused(&closed("H 1 1 0\nG 0\n"), 2, 6);
    expect_refused(&closed("H 1 2 0\nG 0 0\n"), 2, 6);
}

#[test]
fn h3_no_guards() {
    for line in ["G -1", "G - ", "G  -", "G - -", "G 0 -", "G-", "G", "G ", "g -", "G - 0", " G -", "H -"] {
        expect_refused(&closed(&format!("H 1 1 1\n{line}\n")), 2, 6);
        expect_refused(&closed(&format!("H 1 2 1\n{line}\n")), 2, 6);
    }
}

#[test]
fn h4_guard_count() {
    for line in ["G 0", "G 0 0 0", "G 0 0 ", "G  0 0", "G 0  0"] {
        expect_refused(&closed(&format!("H 1 2 1\n{line}\n")), 2, 6);
    }
    let parts = closed("H 1 3 2\nG 1 1 0\n");
    assert_eq!(crate::paper::find(&parts).expect("parts").guards, Some(vec![1, 1, 0]));
}

#[test]
fn h5_field_count() {
    for line in ["U 0 0", "U 0 0 0 0", "K 0", "K 0 0 0", "N 0 0 0", "U", "U ", "A 0 0 5 ", "A  0 0 5", " A 0 0 5", "K 0 0 "] {
        expect_refused(&one_line(line), 3, 4);
    }
}

#[test]
fn h6_other_letters() {
    for line in ["H 1 1 0", "G -", "Z 12", "u 0 0 0", "UU 0 0 0", "k 0 0", "X 0 0 0", "0 0 0 0", "C 0 0 0", "KK 0 0", "A0 0 5"] {
        expect_refused(&one_line(line), 3, 4);
    }
    for byte in 0..=255u8 {
        let letter = b"UALSRWKNPBYFC".contains(&byte);
        let four = [TRACE_HEAD.as_bytes(), &[byte], b" 0 0 0\n"].concat();
        let three = [TRACE_HEAD.as_bytes(), &[byte], b" 0 0\n"].concat();
        if byte == b'V' {
            // A line 3 of this byte is a `V` line, and these two name a variable twice.
            expect_refused(&with_trailer(&four), 3, 6);
            expect_refused(&with_trailer(&three), 3, 6);
            continue;
        }
        let malformed = |paper: &[u8]| first_line(paper) == "refused 3 4";
        // An F has the notified thread where other kinds have a value.
        let lock_letter = b"KNYC".contains(&byte);
        assert_eq!(malformed(&with_trailer(&four)), !letter || lock_letter);
        assert_eq!(malformed(&with_trailer(&three)), !lock_letter);
    }
}

#[test]
fn h7_first_bad_line() {
    expect_refused(&closed(&format!("{SMALL}U 0 0 0\nrubbish\n")), 3, 17);
    expect_refused(&closed(&format!("{SMALL}rubbish\nU 0 0 0\n")), 3, 4);
    // 6 comes before every event line.
    expect_refused(&closed("H 1 1 0\nG x\nrubbish\n"), 2, 6);
}

#[test]
fn h8_line_of_9() {
    expect_refused(&paper_of(LOCKED, &repeat("K 0 0", 2_001)), 2_003, 9);
}

#[test]
fn a_refusal_gives_nothing_else() {
    let o = outcome(&paper_of(TRACE_HEAD, "A 0 0 5; U 0 0 6"));
    assert!(matches!(o.verdict, Verdict::Refused(r) if r.line == 4 && r.number == 18));
    assert!(o.events.is_empty() && o.main.is_empty() && o.copies.is_empty() && o.counts.is_none());
}
