//! Values: "signed 64-bit whole numbers in lines, records, copies, queues and listings".

use super::*;
use crate::MAX_BYTES;

/// Around 0, 2^31, 2^32, 2^53, 10^18 and 2^63, within 64 bits.
const INSIDE: [&str; 36] = [
    "0",
    "1",
    "-1",
    "9",
    "10",
    "-10",
    "2147483646",
    "2147483647",
    "2147483648",
    "2147483649",
    "-2147483647",
    "-2147483648",
    "-2147483649",
    "-2147483650",
    "4294967294",
    "4294967295",
    "4294967296",
    "4294967297",
    "4294967301",
    "-4294967295",
    "-4294967296",
    "-4294967297",
    "9007199254740992",
    "9007199254740993",
    "-9007199254740993",
    "999999999999999999",
    "1000000000000000000",
    "-1000000000000000000",
    "9223372032559808512",
    "9223372036854775799",
    "9223372036854775800",
    "9223372036854775806",
    "9223372036854775807",
    "-9223372036854775800",
    "-9223372036854775807",
    "-9223372036854775808",
];

/// Around 2^63, 10^19, 2^64, 2^65, 2^127 and 2^128, outside 64 bits.
const OUTSIDE: [&str; 34] = [
    "9223372036854775808",
    "9223372036854775809",
    "9223372036854775810",
    "9223372041149743104",
    "-9223372036854775809",
    "-9223372036854775810",
    "-9223372041149743104",
    "9999999999999999999",
    "-9999999999999999999",
    "10000000000000000000",
    "-10000000000000000000",
    "18446744073709551611",
    "18446744073709551615",
    "18446744073709551616",
    "18446744073709551617",
    "18446744073709551621",
    "-18446744073709551615",
    "-18446744073709551616",
    "-18446744073709551617",
    "36893488147419103232",
    "36893488147419103237",
    "-36893488147419103237",
    "92233720368547758070",
    "-92233720368547758080",
    "170141183460469231731687303715884105727",
    "170141183460469231731687303715884105728",
    "-170141183460469231731687303715884105728",
    "-170141183460469231731687303715884105729",
    "340282366920938463463374607431768211455",
    "340282366920938463463374607431768211456",
    "340282366920938463463374607431768211457",
    "-340282366920938463463374607431768211455",
    "-340282366920938463463374607431768211456",
    "-340282366920938463463374607431768211457",
];

/// Values of 1,000 digits and of both signs. 10^999 is a multiple of 2^128.
fn long_values() -> Vec<String> {
    let digits = ["1".repeat(1_000), "9".repeat(1_000), format!("1{}", "0".repeat(999)), format!("1{}5", "0".repeat(998))];
    digits.iter().flat_map(|n| [n.clone(), format!("-{n}")]).collect()
}

/// `OUTSIDE` and the long values.
fn outside() -> Vec<String> {
    OUTSIDE.iter().map(|n| n.to_string()).chain(long_values()).collect()
}

/// Before an event of each kind that has a value: with x throughout, that event with x is accepted.
const BEFORE: [(Kind, &str); 8] = [
    (U, "A 0 0 x"),
    (A, ""),
    (L, "A 1 0 x; S 1 0 x; W 1 0 x; R 0 0 x"),
    (S, "A 0 0 x"),
    (R, "A 1 0 x; S 1 0 x; W 1 0 x"),
    (W, "A 0 0 x; S 0 0 x"),
    (P, ""),
    (B, "P 0 0 x"),
];

#[test]
fn inside_at_every_kind() {
    for value in INSIDE {
        assert!(read_as::<i64>(value).is_some(), "{value}");
        for (kind, before) in BEFORE {
            let events = followed(before, value, kind, value);
            expect_accepted(TRACE_HEAD, &events);
            let o = outcome(&paper_of(TRACE_HEAD, &events));
            assert!(o.events.iter().all(|e| e.value.to_string() == value), "{events}");
            assert_eq!(o.events.last().map(|e| e.kind), Some(kind));
        }
    }
}

/// "A value outside 64 bits is 4": also at the first event, where the row would refuse it.
#[test]
fn outside_at_every_kind() {
    for value in outside() {
        assert_eq!(read_as::<i64>(&value), None, "{value}");
        for (kind, before) in BEFORE {
            for x in ["0", "5", "-1", "9223372036854775807", "-9223372036854775808"] {
                expect_refused_last(TRACE_HEAD, &followed(before, x, kind, &value), 4);
            }
            expect_refused(&paper_of(TRACE_HEAD, &followed("", "", kind, &value)), 3, 4);
        }
    }
}

/// "no leading zeros, no plus sign, no `-0`".
#[test]
fn form_at_every_kind() {
    let zeros = "0".repeat(1_000);
    let (least, most) = ("9223372036854775808", "9223372036854775807");
    let mut bad: Vec<String> =
        ["-0", "00", "-00", "01", "-01", "+1", "+0", "-", "--1", "-+1", "1-", "0x1", "1.0", "1e3"].map(String::from).into();
    bad.extend([format!("0{most}"), format!("+{most}"), format!("-0{least}"), format!("--{least}"), format!("{most}.0")]);
    bad.extend([zeros.clone(), format!("-{zeros}"), format!("{zeros}1"), format!("-{zeros}1"), format!("{most}_")]);
    for value in bad {
        for (kind, before) in BEFORE {
            let paper = paper_of(TRACE_HEAD, &followed(before, "1", kind, &value));
            let events = before.split(';').filter(|e| !e.is_empty()).count();
            expect_refused(&paper, line_of(TWO, events), 4);
        }
    }
}

#[test]
fn reading_any_digits() {
    let mut dice = Dice(7);
    let (mut inside, mut over) = (0, 0);
    for round in 0..200_000 {
        let length = 1 + dice.roll(if round % 2 == 0 { 45 } else { 20 });
        let digits: String = (0..length).map(|_| char::from(b'0' + dice.roll(10) as u8)).collect();
        let field = if dice.roll(2) == 0 { format!("-{digits}") } else { digits };
        let read = paper::value(field.as_bytes());
        assert_eq!(read, read_as::<i64>(&field), "{field}");
        *(if read.is_some() { &mut inside } else { &mut over }) += 1;
    }
    assert!(inside > 10_000 && over > 10_000, "{inside}, {over}");
}

/// Every value near both ends, and near the numbers that agree with it in the low 64 bits.
#[test]
fn reading_near_the_ends() {
    let (least, most) = (-(1i128 << 63), (1i128 << 63) - 1);
    for turn in -3..=3i128 {
        for middle in [least, most, 0, 1 << 31, -(1 << 31), 1 << 32, -(1 << 32)] {
            for near in -1_000..=1_000i128 {
                let n = middle + near + (turn << 64);
                let expected = if least <= n && n <= most { Some(n.to_string()) } else { None };
                let read = paper::value(n.to_string().as_bytes());
                assert_eq!(read.map(|value| value.to_string()), expected, "{n}");
            }
        }
    }
    assert_eq!(paper::value(b"-9223372036854775808"), Some(Value::MIN));
    assert_eq!(paper::value(b"9223372036854775807"), Some(Value::MAX));
}

/// A value as long as a paper has room for.
#[test]
fn longest_value() {
    let around = TRACE_HEAD.len() + "A 0 0 \n".len() + "Z 65528\n".len();
    for (sign, length) in [("", MAX_BYTES - around), ("-", MAX_BYTES - around - 1)] {
        let value = format!("{sign}1{}5", "0".repeat(length - 2));
        let paper = paper_of(TRACE_HEAD, &format!("A 0 0 {value}"));
        assert_eq!(paper.len(), MAX_BYTES);
        expect_refused(&paper, 3, 4);
    }
}

/// Thread, variable and lock numbers, head, `G` line and trailer are no values.
#[test]
fn other_numbers() {
    for n in ["2147483648", "4294967296", "9223372036854775807", "9223372036854775808", "18446744073709551616"] {
        for event in [format!("A {n} 0 5"), format!("A 0 {n} 5"), format!("K {n} 0"), format!("N 0 {n}")] {
            expect_refused(&paper_of(TRACE_HEAD, &event), 3, 5);
            expect_refused(&paper_of(TRACE_HEAD, &event.replace(n, &format!("-{n}"))), 3, 4);
        }
        for head in [format!("H {n} 2 2"), format!("H 2 {n} 2"), format!("H 2 2 {n}")] {
            expect_refused(&paper_of(&format!("{head}\nG -\n"), ""), 1, 3);
        }
        expect_refused(&paper_of(&format!("H 2 2 2\nG 0 {n}\n"), ""), 2, 6);
        expect_refused(format!("{TRACE_HEAD}Z {n}\n").as_bytes(), 0, 2);
        // "a lock event has no value".
        expect_refused(&paper_of(TRACE_HEAD, &format!("K 0 0 {n}")), 3, 4);
    }
}

/// "0 before one".
#[test]
fn main_memory_starts_at_0() {
    for value in INSIDE.into_iter().filter(|&value| value != "0") {
        expect_refused_last(TRACE_HEAD, &format!("R 0 0 {value}"), 18);
    }
    expect_accepted(TRACE_HEAD, "R 0 0 0");
}

/// "Whole paper: 1, 2, 3, 6, then line by line 4, 9, 5 and the row", with a value outside 64 bits.
#[test]
fn order_of_refusals() {
    let full = repeat("A 0 0 5", 2_000);
    let nearest = ["9223372036854775808", "-9223372036854775809"].map(String::from);
    for value in nearest.into_iter().chain(long_values()) {
        let events = format!("A 0 0 {value}");
        expect_refused(&[paper_of(TRACE_HEAD, &events), vec![b'\n'; MAX_BYTES]].concat(), 0, 1);
        expect_refused(&[paper_of(TRACE_HEAD, &events), vec![b'\n']].concat(), 0, 2);
        expect_refused(&paper_of("H 2 2 9\nG -\n", &events), 1, 3);
        expect_refused(&paper_of("H 2 2 2\nG 0 2\n", &events), 2, 6);
        // 4 before 9, 5 and the row.
        expect_refused(&paper_of(TRACE_HEAD, &format!("{full}; {events}")), 2_003, 4);
        expect_refused(&paper_of(TRACE_HEAD, &format!("{full}; A 9 9 {value}")), 2_003, 4);
        expect_refused(&paper_of(TRACE_HEAD, &format!("A 9 0 {value}")), 3, 4);
        expect_refused(&paper_of(TRACE_HEAD, &format!("A 0 9 {value}")), 3, 4);
        expect_refused(&paper_of(TRACE_HEAD, &format!("U 0 0 {value}")), 3, 4);
        // Line by line.
        expect_refused(&paper_of(TRACE_HEAD, &format!("U 0 0 0; {events}")), 3, 17);
        expect_refused(&paper_of(TRACE_HEAD, &format!("A 2 0 0; {events}")), 3, 5);
        expect_refused(&paper_of(TRACE_HEAD, &format!("A 0 0 5; {events}; U 0 0 6; rubbish")), 4, 4);
        expect_refused(&paper_of(TRACE_HEAD, &format!("{full}; A 0 0 5; {events}")), 2_003, 9);
        // 4 before 20, which refuses no paper.
        expect_refused(&paper_of("H 2 2 2\nG 0 1\n", &format!("A 0 0 5; {events}")), 4, 4);
    }
}

/// The same lines with a value within 64 bits are not 4.
#[test]
fn order_of_refusals_within_64_bits() {
    let full = repeat("A 0 0 5", 2_000);
    for value in ["2147483648", "-2147483649", "4294967301", "9223372036854775807", "-9223372036854775808"] {
        expect_refused(&paper_of(TRACE_HEAD, &format!("{full}; A 0 0 {value}")), 2_003, 9);
        expect_refused(&paper_of(TRACE_HEAD, &format!("{full}; A 9 9 {value}")), 2_003, 9);
        expect_refused(&paper_of(TRACE_HEAD, &format!("A 9 0 {value}")), 3, 5);
        expect_refused(&paper_of(TRACE_HEAD, &format!("A 0 9 {value}")), 3, 5);
        expect_refused(&paper_of(TRACE_HEAD, &format!("U 0 0 {value}")), 3, 17);
        expect_refused(&paper_of(TRACE_HEAD, &format!("A 0 0 5; A 0 0 {value}; U 0 0 5")), 5, 18);
        expect_refused(&paper_of(TRACE_HEAD, &format!("S 0 0 {value}")), 3, 14);
        expect_refused(&paper_of(TRACE_HEAD, &format!("{}; R 0 0 {value}", repeat("R 0 0 0", 8))), 11, 18);
        expect_refused(&paper_of(TRACE_HEAD, &format!("{}; P 0 0 {value}", repeat("A 0 0 5; S 0 0 5", 8))), 19, 19);
        expect_refused(&paper_of(TRACE_HEAD, &format!("R 0 0 0; A 0 0 {value}")), 4, 23);
        expect_unordered("H 2 2 2\nG 0 1\n", &format!("A 0 0 {value}"), 3, 20);
    }
}
