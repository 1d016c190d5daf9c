//! Long listings: the longest values in main and copy lines.

use super::*;
use crate::listing::listing;
use crate::{Outcome, Section, UsableCopy, Verdict, FULL, MAX_BYTES, MAX_EVENTS, MAX_THREADS};

/// 7: "output under 32,768 bytes".
const OUTPUT: usize = 32_768;
/// A value of 20 bytes, and no value has more.
const LONGEST: &str = "-9223372036854775808";

/// Every thread and variable that can be declared, by thread then variable.
fn cells() -> impl Iterator<Item = (u32, u32)> {
    (0..MAX_THREADS).flat_map(|t| (0..MAX_VARIABLES).map(move |v| (t, v)))
}

#[test]
fn no_value_is_longer() {
    assert_eq!(Value::MIN.to_string(), LONGEST);
    assert_eq!((LONGEST.len(), Value::MAX.to_string().len()), (20, 19));
}

/// The values of main and copy lines are those of the events, digit by digit.
#[test]
fn values_of_every_length() {
    let mut powers: Vec<Value> = (0..19).map(|n| (10 as Value).pow(n)).collect();
    powers.extend([2, 7, 31, 32, 33, 53, 62].map(|n| 1 << n));
    let near = powers.into_iter().flat_map(|n| [n - 1, n, n + 1, 1 - n, -n, -n - 1]);
    for value in near.chain([Value::MIN, Value::MIN + 1, Value::MAX - 1, Value::MAX, 1_234_567_890_123_456_789]) {
        let events =
            format!("A 0 0 {value}; S 0 0 {value}; W 0 0 {value}; R 1 0 {value}; L 1 0 {value}; P 1 1 {value}; B 1 1 {value}");
        let copies = format!("copy 0 0 {value}\ncopy 1 0 {value}\ncopy 1 1 {value}\n");
        assert_eq!(print(&paper_of(TRACE_HEAD, &events)), format!("accepted 7\nmain 0 {value}\nmain 1 0\n{copies}"));
    }
}

/// Every copy is present, and each has a value of its own.
#[test]
fn a_value_for_each_copy() {
    let value = |t: u32, v: u32| Value::MIN + Value::from(16 * t + v);
    let events: Vec<String> = cells().map(|(t, v)| format!("A {t} {v} {}", value(t, v))).collect();
    let mut expected = String::from("accepted 128\n");
    (0..16).for_each(|v| expected += &format!("main {v} 0\n"));
    cells().for_each(|(t, v)| expected += &format!("copy {t} {v} {}\n", value(t, v)));
    assert_eq!(print(&paper_of("H 8 16 8\nG -\n", &events.join(";"))), expected);
}

/// In a section thread 0 puts the longest value into every variable, and threads 1 to 6 load it;
/// thread 7 has as many sections as there is room for, and then loads it.
fn longest_events() -> String {
    let each = |event: &dyn Fn(u32) -> String| (0..MAX_VARIABLES).map(event).collect::<Vec<_>>().join(";");
    let assigns = each(&|v| format!("A 0 {v} {LONGEST}; S 0 {v} {LONGEST}; W 0 {v} {LONGEST}"));
    let loads = |t: u32| each(&|v| format!("R {t} {v} {LONGEST}; L {t} {v} {LONGEST}"));
    let early: Vec<String> = (1..7).map(loads).collect();
    format!("K 0 0; {assigns}; {}; N 0 0; {}; {}", early.join(";"), repeat("K 7 0; N 7 0", 863), loads(7))
}

/// 2,000 events with 16 variables, 128 copies and 864 sections. Main memory of a variable and a
/// copy of it cost three events, another copy two, and a section two at least.
#[test]
fn longest_listing_of_a_paper() {
    let head = format!("H 8 16 8\nG{}\n", " 0".repeat(16));
    let mut expected = format!("accepted {MAX_EVENTS}\n");
    (0..16).for_each(|v| expected += &format!("main {v} {LONGEST}\n"));
    cells().for_each(|(t, v)| expected += &format!("copy {t} {v} {LONGEST}\n"));
    expected += &format!("section 0 3 {}\n", line_of(FULL.counts, 241));
    (0..863).for_each(|n| {
        expected += &format!("section 7 {} {}\n", line_of(FULL.counts, 242 + 2 * n), line_of(FULL.counts, 243 + 2 * n))
    });
    let events = longest_events();
    assert_eq!(events_of(&events).len(), MAX_EVENTS);
    let paper = paper_of(&head, &events);
    let text = print(&paper);
    assert_eq!(text, expected);
    assert_eq!(demand3(&outcome(&paper)), Ok(()));
    assert_eq!(text.len(), 14 + 454 + 3_888 + 16 + 16_505);
    assert!(text.len() <= OUTPUT);
}

/// No listing has more or longer lines than this one, whether or not a paper has it.
#[test]
fn longest_listing_of_all() {
    let section = Section { thread: 7, first: 2_001, last: 2_002, last_lock: 2_001 };
    let o = Outcome {
        verdict: Verdict::Accepted(MAX_EVENTS),
        counts: Some(Counts::plain(8, 16, 8)),
        guards: Some(vec![0; 16]),
        events: Vec::new(),
        main: vec![Value::MIN; 16],
        copies: cells().map(|(thread, variable)| UsableCopy { thread, variable, value: Value::MIN }).collect(),
        order: Order::Sections(vec![section; 1_000]),
    };
    let printed = listing(&o);
    assert_eq!(printed.len(), 14 + 454 + 3_888 + 20_000);
    assert!(printed.len() <= OUTPUT);
}

/// 2,000 lines of the longest events are no paper over 65,536 bytes.
#[test]
fn two_thousand_longest_events() {
    let event = format!("A 7 15 {LONGEST}");
    let paper = paper_of("H 8 16 8\nG -\n", &repeat(&event, MAX_EVENTS));
    assert!(paper.len() <= MAX_BYTES);
    let text = print(&paper);
    assert!(text.starts_with("accepted 2000\n") && text.ends_with(&format!("main 15 0\ncopy 7 15 {LONGEST}\n")));
    expect_refused(&paper_of("H 8 16 8\nG -\n", &repeat(&event, MAX_EVENTS + 1)), 2_003, 9);
}
