//! Values are compared, queued and copied by all of their 64 bits.

use super::*;
use crate::{plain_run, sections, Given, Outcome};

/// Where 18 compares: before, and the kind of the event that is compared with x.
const COMPARED: [(&str, Kind); 12] = [
    // "U and S from the copy": of an A, a B or an L.
    ("A 0 0 x", U),
    ("P 0 0 x; B 0 0 x", U),
    ("A 1 0 x; S 1 0 x; W 1 0 x; R 0 0 x; L 0 0 x", U),
    ("P 0 0 x; A 0 0 x", U),
    ("A 0 0 x", S),
    ("A 0 0 x; U 0 0 x", S),
    // "L from its read".
    ("A 1 0 x; S 1 0 x; W 1 0 x; R 0 0 x", L),
    // "W from its store": an S or a P.
    ("A 0 0 x; S 0 0 x", W),
    ("P 0 0 x", W),
    // "R from main memory", "B from the announced value".
    ("A 1 0 x; S 1 0 x; W 1 0 x", R),
    ("P 0 0 x", B),
    ("P 0 0 x; W 0 0 x", B),
];

/// Pairs of values that agree in their low 32 bits.
const SAME_LOW: [(Value, Value); 10] = [
    (0, 1 << 32),
    (0, -(1 << 32)),
    (5, (1 << 32) + 5),
    (5, Value::MIN + 5),
    (-1, (1 << 32) - 1),
    (-1, Value::MAX),
    (0, Value::MIN),
    (1 << 31, -(1 << 31)),
    (Value::MIN, Value::MIN + (1 << 32)),
    (Value::MAX, Value::MAX - (1 << 32)),
];

/// Pairs that agree in their high 32 bits, in their digits, or nearly.
const OTHER_PAIRS: [(Value, Value); 10] = [
    (5, 6),
    (5, -5),
    ((1 << 40) + 1, 1 << 40),
    ((1 << 53) + 1, 1 << 53),
    (Value::MAX, Value::MAX - 1),
    (Value::MIN, Value::MIN + 1),
    (Value::MIN, Value::MAX),
    (Value::MIN + 1, Value::MAX),
    (1 << 62, -(1 << 62)),
    (1_000_000_000_000_000_000, 100_000_000_000_000_000),
];

/// Both lists of pairs, each pair both ways round.
fn pairs() -> impl Iterator<Item = (Value, Value)> {
    SAME_LOW.into_iter().chain(OTHER_PAIRS).flat_map(|(x, y)| [(x, y), (y, x)])
}

#[test]
fn the_pairs_are_what_they_say() {
    assert!(SAME_LOW.iter().all(|&(x, y)| x != y && (x as i32) == (y as i32)));
    assert!(OTHER_PAIRS.iter().all(|&(x, y)| x != y));
}

/// "Value differs": by whichever bit.
#[test]
fn compared_exactly() {
    for (x, y) in pairs() {
        for (before, kind) in COMPARED {
            let with = |value: Value| followed(before, &x.to_string(), kind, &value.to_string());
            expect_accepted(TRACE_HEAD, &with(x));
            expect_refused_last(TRACE_HEAD, &with(y), 18);
        }
    }
}

/// "The n-th load pairs with the n-th read", "the n-th store (S or P) with the n-th write".
#[test]
fn queues_keep_the_values() {
    let written = |value: Value| format!("A 1 0 {value}; S 1 0 {value}; W 1 0 {value}; R 0 0 {value}");
    for (x, y) in pairs() {
        let reads = format!("{}; {}", written(x), written(y));
        let list = events_of(&reads);
        let values: Vec<Value> = outstanding_reads(&list, 0, 0).into_iter().map(|i| list[i].value).collect();
        assert_eq!(values, [x, y]);
        expect_accepted(TRACE_HEAD, &format!("{reads}; L 0 0 {x}; L 0 0 {y}; U 0 0 {y}"));
        expect_refused_last(TRACE_HEAD, &format!("{reads}; L 0 0 {y}"), 18);
        expect_refused_last(TRACE_HEAD, &format!("{reads}; L 0 0 {x}; L 0 0 {x}"), 18);
        for second in [format!("A 0 0 {y}; S 0 0 {y}"), format!("P 0 0 {y}")] {
            let stores = format!("A 0 0 {x}; S 0 0 {x}; {second}");
            let list = events_of(&stores);
            let values: Vec<Value> = outstanding_stores(&list, 0, 0).into_iter().map(|i| list[i].value).collect();
            assert_eq!(values, [x, y]);
            expect_accepted(TRACE_HEAD, &format!("{stores}; W 0 0 {x}; W 0 0 {y}; R 1 0 {y}"));
            expect_refused_last(TRACE_HEAD, &format!("{stores}; W 0 0 {y}"), 18);
            expect_refused_last(TRACE_HEAD, &format!("{stores}; W 0 0 {x}; W 0 0 {x}"), 18);
        }
    }
}

/// An A and a P may have any value; B has that of its own P, and the copy is the latest one's.
#[test]
fn announced_and_copied() {
    for (x, y) in pairs() {
        expect_accepted(TRACE_HEAD, &format!("A 0 0 {x}; A 0 0 {y}; U 0 0 {y}; S 0 0 {y}; P 0 0 {x}; B 0 0 {x}; P 0 0 {y}"));
        expect_refused_last(TRACE_HEAD, &format!("P 0 0 {x}; B 0 0 {x}; P 0 0 {y}; B 0 0 {x}"), 18);
        expect_refused_last(TRACE_HEAD, &format!("A 0 0 {x}; P 0 0 {y}; U 0 0 {y}"), 18);
        expect_refused_last(TRACE_HEAD, &format!("P 0 0 {y}; A 0 0 {x}; B 0 0 {x}"), 18);
        expect_refused_last(TRACE_HEAD, &format!("A 0 0 {x}; A 0 0 {y}; S 0 0 {x}"), 18);
        // Another thread's copy and another variable's are their own.
        expect_accepted(TRACE_HEAD, &format!("A 0 0 {x}; A 1 0 {y}; A 0 1 {y}; U 0 0 {x}; U 1 0 {y}; U 0 1 {y}"));
    }
}

/// "A and B set their variable to the event's value. U changes nothing and is given its variable's
/// value; the value in the U itself is not looked at."
#[test]
fn plain_memory() {
    for (x, y) in pairs() {
        let events =
            events_of(&format!("K 0 0; A 0 0 {x}; U 0 0 {y}; P 0 0 {y}; U 0 0 {x}; B 0 0 {y}; U 0 0 {x}; A 0 1 {x}; N 0 0"));
        let (uses, memory) = plain_run(TWO, &sections(TWO, &events), &events);
        let given = |line, given, stated| Given { line, given, stated };
        assert_eq!(uses, [given(5, x, y), given(7, x, x), given(9, y, x)]);
        assert_eq!(memory[..2], [y, x]);
    }
}

/// "What each U is given equals the value in its line; what each variable has at the end equals its
/// main memory after the last event."
#[test]
fn demand_3_compares_exactly() {
    for (x, y) in pairs() {
        let written = format!("A 0 0 {x}; S 0 0 {x}; W 0 0 {x}; U 0 0 {x}");
        let o = outcome(&paper_of("H 1 1 1\nG 0\n", &format!("K 0 0; {written}; N 0 0")));
        assert_eq!(demand3(&o), Ok(()));
        assert!(demand3(&Outcome { main: vec![y], ..o.clone() }).is_err());
        let mut events = o.events.clone();
        events[4].value = y;
        assert!(demand3(&Outcome { events, ..o }).is_err());
    }
}
