//! 02 (f): the `V` line, the lines of events, and 26, 27 and 28 clause by clause.

use super::short_course::{expect_each, expect_same, random_paper};
use super::walks::{demand_3_on, walk, Scope, KINDS};
use super::*;
use crate::rules::{breaks, ROWS};
use crate::{denial, judge_short, plain_run, sections, Given, Outcome, Section, Verdict, MAX_BYTES};

/// Variable 0 is volatile and variable 1 is not.
const ONE: &str = "H 2 2 2\nG -\nV 0\n";
/// Both variables are volatile.
const BOTH: &str = "H 2 2 2\nG -\nV 0 1\n";
/// Both variables are volatile and guarded.
const GUARDED: &str = "H 2 2 2\nG 0 1\nV 0 1\n";
/// Two sections; the second uses what the first has assigned.
const SERIAL: &str = "K 0 0; A 0 0 5; S 0 0 5; W 0 0 5; N 0 0; K 1 0; R 1 0 5; L 1 0 5; U 1 0 5; N 1 0";

/// The counts of `ONE`.
fn one() -> Counts {
    with_volatiles(TWO, &[0])
}

/// The counts of `BOTH` and `GUARDED`.
fn both() -> Counts {
    with_volatiles(TWO, &[0, 1])
}

/// The paper of two threads, `variables` variables, two locks and this line 3.
fn line_3(variables: u32, line: &str) -> Vec<u8> {
    with_trailer(format!("H 2 {variables} 2\nG -\n{line}\n").as_bytes())
}

// ---- the form of the line ----

/// "a wrong or empty one is 6 at line 3", in both courses.
#[test]
fn wrong_lines() {
    let form = "V|V |V  |V  0|V 0 |V 0  1|V0|V0 1|VV 0|Vx|V-|V -|V - 0|V 0 -|V 0,1|V 0.0|V 0x0|V x|V 0 x|\
                V\t0|V 0\t1|V\r|V 0\r|V 0\0|V 00|V 01|V 0 01|V +0|V -0|V -1|V 0 -1";
    let falling = "V 0 0|V 1 1|V 1 0|V 0 1 0|V 0 1 1";
    let undeclared = "V 2|V 0 2|V 1 2|V 0 1 2|V 3|V 16|V 256|V 65536|V 4294967295|V 4294967296|V 18446744073709551616";
    let long = format!("V {}|V {}", "1".repeat(1_000), "0".repeat(1_000));
    for line in [form, falling, undeclared, &long].into_iter().flat_map(|lines| lines.split('|')) {
        expect_same(&line_3(2, line), "refused 3 6\n");
    }
    for line in ["V 0", "V 1", "V 0 1"] {
        expect_same(&line_3(2, line), "accepted 0\nmain 0 0\nmain 1 0\n");
    }
}

/// Every line of at most three numbers, up to one that is not declared: "rising variable numbers".
#[test]
fn every_short_line() {
    let mut right = 0;
    for variables in 1..=4 {
        let mut lines: Vec<Vec<u32>> = vec![vec![]];
        for _ in 0..3 {
            let longer = lines.iter().flat_map(|line| (0..=variables).map(move |n| [&line[..], &[n]].concat()));
            lines = [vec![vec![]], longer.collect()].concat();
        }
        for line in lines {
            let rising = line.windows(2).all(|pair| pair[0] < pair[1]);
            let fits = !line.is_empty() && rising && line.iter().all(|&v| v < variables);
            let text: String = line.iter().map(|v| format!(" {v}")).collect();
            let printed = first_line(&line_3(variables, &format!("V{text}")));
            assert_eq!(printed, if fits { "accepted 0" } else { "refused 3 6" }, "{variables}: V{text}");
            right += usize::from(fits);
        }
    }
    assert!(right > 20);
}

/// Every set of variables, and the whole line.
#[test]
fn every_right_line() {
    let every = |variables: u32| (1..1u32 << variables).map(move |set| (0..variables).filter(|v| set >> v & 1 == 1).collect());
    for (variables, named) in (1..=8).flat_map(|n| every(n).map(move |named: Vec<u32>| (n, named))) {
        let counts = with_volatiles(Counts::plain(8, variables, 8), &named);
        let o = outcome(&paper_of(&head_of(counts, None), ""));
        assert_eq!((o.verdict, o.counts), (Verdict::Accepted(0), Some(counts)), "{named:?}");
    }
    let all: Vec<u32> = (0..16).collect();
    let counts = with_volatiles(Counts::plain(8, 16, 8), &all);
    let head = head_of(counts, None);
    assert!(head.ends_with("\nV 0 1 2 3 4 5 6 7 8 9 10 11 12 13 14 15\n"));
    assert_eq!(outcome(&paper_of(&head, "")).counts, Some(counts));
    expect_refused(&paper_of(&head.replace("15\n", "15 16\n"), ""), 3, 6);
    expect_refused(&paper_of(&head.replace("10 11", "11 10"), ""), 3, 6);
}

/// "a line 3 whose first byte is `V` is meant as one": no other line 3 is, and no other line.
#[test]
fn first_byte_of_line_3() {
    let with = |byte: u8, before: &str, after: &str| with_trailer(&[before.as_bytes(), &[byte], after.as_bytes()].concat());
    for byte in 0..=255u8 {
        let first = print(&with(byte, TRACE_HEAD, " 0\n"));
        assert_eq!(first.starts_with("accepted"), byte == b'V', "{byte}");
        assert_eq!(first == "refused 3 4\n", byte != b'V', "{byte}");
        // The byte after the letter.
        let second = print(&with(byte, &format!("{TRACE_HEAD}V"), "0\n"));
        assert_eq!(second.starts_with("accepted"), byte == b' ', "{byte}");
        assert_eq!(second == "refused 3 6\n", byte != b' ', "{byte}");
    }
    for line in [" V 0", "v 0", "", "U", "0 V"] {
        expect_refused(&line_3(2, line), 3, 4);
    }
    expect_refused(&line_3(2, "A 0 0 5\nV 0"), 4, 4);
    expect_refused(&line_3(2, "V 0\nV 1"), 4, 4);
    expect_refused(&line_3(2, "V 0\nV 0"), 4, 4);
    expect_refused(b"H 2 2 2\nV 0\nG -\nZ 16\n", 2, 6);
    expect_refused(b"V 0\nH 2 2 2\nG -\nZ 16\n", 1, 3);
}

/// 1, 2, 3, 25 and 6 at line 2 come before 6 at line 3, and every event line after it.
#[test]
fn six_at_line_3_in_its_place() {
    expect_same(b"H 2 2 2\nG -\nV\nZ 13\n", "refused 0 2\n");
    expect_same(b"H 2 2 2\nG -\nV 0\n", "refused 0 2\n");
    expect_same(&paper_of("H 0 2 2\nG -\nV\n", ""), "refused 1 3\n");
    expect_same(&paper_of("H 2 2 2\nG x\nV\n", ""), "refused 2 6\n");
    expect_same(&paper_of("H 2 2 2\nG -\nV\n", "rubbish"), "refused 3 6\n");
    expect_same(&paper_of("H 2 2 2\nG -\nV 2\n", "A 2 0 5"), "refused 3 6\n");
    for (head, full) in [("H 3 2 2\nG -\nV\n", "refused 3 6\n"), ("H 2 5 2\nG x\nV 4\n", "refused 2 6\n")] {
        expect_each(&paper_of(head, ""), "refused 1 25\n", full);
    }
    let main: String = (0..5).map(|v| format!("main {v} 0\n")).collect();
    expect_each(&paper_of("H 2 5 2\nG -\nV 4\n", ""), "refused 1 25\n", &format!("accepted 0\n{main}"));
    expect_same(&paper_of("H 2 4 2\nG 0 1 0 1\nV 4\n", ""), "refused 3 6\n");
    let over = |size: usize| line_3(2, &format!("V {}", "1".repeat(size - "H 2 2 2\nG -\nV \nZ 65527\n".len())));
    assert_eq!(over(MAX_BYTES).len(), MAX_BYTES);
    expect_same(&over(MAX_BYTES), "refused 3 6\n");
    expect_same(&over(MAX_BYTES + 1), "refused 0 1\n");
}

/// The line is no event, and a refusal gives nothing else.
#[test]
fn parts_and_outcomes() {
    let paper = paper_of(ONE, "A 0 0 5; S 0 0 5");
    let parts = paper::find(&paper).expect("parts");
    assert_eq!((parts.body, parts.counts), (&b"A 0 0 5\nS 0 0 5\n"[..], one()));
    assert_eq!(paper::find(&paper_of(TRACE_HEAD, "A 0 0 5")).expect("parts").counts, TWO);
    let o = outcome(&paper);
    assert_eq!((o.verdict, o.counts, o.events.len()), (Verdict::Accepted(2), Some(one()), 2));
    for refused in [line_3(2, "V"), paper_of(ONE, "U 0 0 0")] {
        let o = outcome(&refused);
        assert!(o.counts.is_none() && o.guards.is_none() && o.events.is_empty() && o.main.is_empty());
    }
}

// ---- lines ----

/// "With it events start at line 4, for a step too."
#[test]
fn lines_of_events() {
    for index in [0, 1, 199, 200, 1_999, 2_000] {
        assert_eq!(line_of(TWO, index), index + 3);
        assert_eq!(line_of(Counts::plain(8, 16, 8), index), index + 3);
        for v in 0..16 {
            assert_eq!(line_of(with_volatiles(TWO, &[v]), index), index + 4, "{v}");
        }
        assert_eq!(line_of(both(), index), index + 4);
    }
}

#[test]
fn lines_of_refusals() {
    for (events, number) in [("rubbish", 4), ("A 2 0 5", 5), ("W 0 0 0", 10), ("U 0 0 0", 26), ("P 0 0 5", 28)] {
        expect_same(&paper_of(ONE, events), &format!("refused 4 {number}\n"));
        expect_same(&paper_of(ONE, &format!("R 0 1 0; {events}; rubbish")), &format!("refused 5 {number}\n"));
    }
    expect_same(&paper_of(TRACE_HEAD, "U 0 0 0"), "refused 3 17\n");
    expect_refused(&paper_of(ONE, &repeat("A 0 1 5", 2_001)), 2_004, 9);
    expect_refused(&paper_of(ONE, &(repeat("A 0 1 5", 1_999) + "; U 0 0 0")), 2_003, 26);
    let short = |events: &str| paper_of(ONE, &format!("{}; {events}", repeat("A 0 1 5", 200)));
    expect_each(&short("A 0 1 5"), "refused 204 25\n", "accepted 201\nmain 0 0\nmain 1 0\ncopy 0 1 5\n");
    expect_each(&short("U 0 0 0"), "refused 204 25\n", "refused 204 26\n");
    expect_same(&short("rubbish"), "refused 204 4\n");
}

#[test]
fn lines_of_sections() {
    let main = "accepted 10\nmain 0 5\nmain 1 0\ncopy 0 0 5\ncopy 1 0 5\n";
    expect_same(&paper_of("H 2 2 2\nG 0 1\n", SERIAL), &format!("{main}section 0 3 7\nsection 1 8 12\n"));
    for line in ["V 0", "V 1", "V 0 1"] {
        let head = format!("H 2 2 2\nG 0 1\n{line}\n");
        expect_same(&paper_of(&head, SERIAL), &format!("{main}section 0 4 8\nsection 1 9 13\n"));
        assert_eq!(printed_sections(&head, SERIAL).len(), 2);
    }
    expect_same(&paper_of(BOTH, SERIAL), main);
    let events = events_of(SERIAL);
    let list = sections(both(), &events);
    assert_eq!(list[1], Section { thread: 1, first: 9, last: 13, last_lock: 9 });
    let (uses, memory) = plain_run(both(), &list, &events);
    assert_eq!((uses, memory[0]), (vec![Given { line: 12, given: 5, stated: 5 }], 5));
}

#[test]
fn lines_of_20_21_and_22() {
    for (events, line, number) in [
        ("A 0 0 5", 3, 20),
        ("K 0 1; N 0 1; A 0 0 5", 5, 20),
        ("R 0 0 0; L 0 0 0; U 0 0 0", 5, 20),
        ("K 0 0; K 0 1; N 0 1; K 0 1; N 0 1; N 0 0", 6, 21),
        ("K 0 0", 4, 22),
        ("K 0 0; A 0 0 5; S 0 0 5", 6, 22),
    ] {
        expect_unordered("H 2 2 2\nG 0 1\n", events, line, number);
        expect_unordered(GUARDED, events, line + 1, number);
        assert_eq!(denial(TWO, &[0, 1], &events_of(events)), Some((number, line)));
        assert_eq!(denial(both(), &[0, 1], &events_of(events)), Some((number, line + 1)));
    }
    expect_unordered("H 2 2 2\nG 0 1\nV 0\n", "P 0 1 5", 5, 22);
}

/// The listing with every line number one larger.
fn one_line_later(printed: &str) -> String {
    let later = |n: &str| (n.parse::<usize>().expect("a line") + 1).to_string();
    let moved = |line: &str| match line.split(' ').collect::<Vec<_>>()[..] {
        ["refused", n, number] => format!("refused {} {number}\n", later(n)),
        ["unordered", n, number] => format!("unordered {} {number}\n", later(n)),
        ["section", t, first, last] => format!("section {t} {} {}\n", later(first), later(last)),
        _ => format!("{line}\n"),
    };
    printed.lines().map(moved).collect()
}

/// A volatile variable that no event is on moves the lines and changes nothing else.
#[test]
fn an_unused_volatile_variable() {
    let (mut refused, mut ordered) = (0, 0);
    let mut check = |paper: &[u8]| {
        let text = String::from_utf8(paper.to_vec()).expect("ASCII");
        let (before, _) = text.rsplit_once("Z ").expect("a trailer");
        let place = before.match_indices('\n').nth(1).expect("a G line").0 + 1;
        let volatile = with_trailer(format!("{}V 3\n{}", &before[..place], &before[place..]).as_bytes());
        let printed = print(paper);
        assert_eq!(print(&volatile), one_line_later(&printed), "{text}");
        refused += usize::from(printed.starts_with("refused"));
        ordered += usize::from(printed.contains("section"));
    };
    for seed in 0..100 {
        let paper = random_paper(&mut Dice(seed), Counts::plain(2, 3, 2), 40, seed as usize % 60);
        check(&[&b"H 2 4 2"[..], &paper[7..]].concat());
        let guards = [0, 1, 0, 1];
        let (es, _) = walk(seed, &Scope { counts: Counts::plain(2, 3, 2), guards: &guards, kinds: KINDS, unit: 1 }, 400);
        check(&paper_of("H 2 4 2\nG 0 1 0 1\n", &text_of(&es)));
    }
    assert!(refused > 20 && ordered > 20, "{refused}, {ordered}");
}

// ---- rows ----

/// "these lead each row, in that order", after 29 and 30, and what follows them is the row without them.
#[test]
fn rows_with_26_27_28() {
    let behind: [(Kind, &[u32]); 13] = [
        (U, &[17, 18]),
        (A, &[23]),
        (L, &[10, 13, 15, 16, 18]),
        (S, &[13, 14, 17, 18, 19]),
        (R, &[18, 19, 23]),
        (W, &[10, 18]),
        (K, &[11, 13]),
        (N, &[12, 15, 16]),
        (P, &[13, 19, 23]),
        (B, &[10, 18]),
        (Y, &[12, 15, 16]),
        (F, &[12]),
        (C, &[11, 13]),
    ];
    for ((kind, row), (other, behind)) in ROWS.into_iter().zip(behind) {
        assert_eq!((kind, &row[..5], &row[5..]), (other, &[29, 30, 26, 27, 28][..], behind));
    }
}

/// The last event breaks these numbers of its row, the first of which is told.
fn first_of(counts: Counts, events: &str, numbers: &[u32]) {
    let list = events_of(events);
    let (e, es) = list.split_last().expect("an event");
    let (_, row) = ROWS.into_iter().find(|(kind, _)| *kind == e.kind).expect("a row");
    let broken: Vec<u32> = row.iter().copied().filter(|&number| breaks(number, es, counts, e)).collect();
    assert_eq!(broken, numbers, "{events}");
    assert_eq!(judge(es, counts, e), numbers[0], "{events}");
    assert_eq!(judge_short(es, counts, e), numbers[0], "{events}");
}

#[test]
fn twenty_six_before_the_others() {
    first_of(one(), "R 0 0 0; L 0 0 0; P 0 0 5", &[26, 28]);
    first_of(one(), "A 0 0 5; B 0 0 5", &[26, 28, 10]);
    first_of(one(), "U 0 0 0", &[26, 17]);
    first_of(one(), "A 0 0 5; U 0 0 6", &[26, 18]);
    first_of(one(), "S 0 0 5", &[26, 14, 17]);
    first_of(one(), "A 0 0 5; S 0 0 5; S 0 0 5", &[26, 14]);
    first_of(one(), &format!("{}; S 0 0 5", repeat("A 0 0 5; S 0 0 5", 8)), &[26, 14, 19]);
    first_of(one(), "P 0 0 5; S 0 0 5", &[26, 13, 14, 17]);
    first_of(one(), "R 0 0 0; R 0 0 0; L 0 0 0; A 0 0 5", &[26, 23]);
    first_of(one(), "A 0 0 5; L 0 0 0", &[26, 10, 15]);
    first_of(one(), "R 0 0 0; R 0 0 0; L 0 0 0; L 0 0 1", &[26, 18]);
    first_of(one(), "R 0 0 0; R 0 0 0; L 0 0 0; P 0 0 5", &[26, 28, 23]);
}

#[test]
fn twenty_seven_before_the_others() {
    let unwritten = "A 0 0 5; S 0 0 5; R 0 1 0; L 0 1 0";
    first_of(both(), &format!("{unwritten}; U 0 1 0"), &[27]);
    first_of(both(), &format!("{unwritten}; U 0 1 9"), &[27, 18]);
    first_of(both(), &format!("{unwritten}; K 0 0; U 0 1 0"), &[27, 17]);
    first_of(both(), &format!("{unwritten}; K 0 0; U 0 1 9"), &[27, 17, 18]);
    first_of(both(), "A 0 0 5; S 0 0 5; A 0 1 6; S 0 1 6; W 0 1 9", &[27, 18]);
}

#[test]
fn twenty_eight_before_the_others() {
    first_of(one(), "P 0 0 5; P 0 0 5", &[28, 13]);
    first_of(one(), "R 0 0 0; P 0 0 5", &[28, 23]);
    first_of(one(), &format!("{}; P 0 0 5", repeat("A 0 0 5; S 0 0 5", 8)), &[28, 19]);
    first_of(one(), "B 0 0 5", &[28, 10]);
    first_of(one(), "P 0 0 5; B 0 0 6", &[28, 18]);
}

/// "line by line 4, 9, 5 and the row", with 25 "in place of 9".
#[test]
fn four_nine_and_five_before_the_three() {
    for event in ["U 0 0 00", "P 0 0", "P 0 0 9223372036854775808"] {
        expect_same(&paper_of(ONE, event), "refused 4 4\n");
    }
    for event in ["U 2 0 0", "P 2 0 5", "P 0 2 5", "W 0 2 5"] {
        expect_same(&paper_of(ONE, event), "refused 4 5\n");
    }
    for event in ["U 0 0 0", "P 0 0 5", "B 0 0 5", "P 2 0 5"] {
        let e = events_of(event)[0];
        let list = events_of(&repeat("A 0 1 5", 2_000));
        let number = judge(&[], one(), &e);
        assert!(matches!(number, 5 | 26 | 28));
        for (earlier, full, short) in [(199, number, number), (200, number, 25), (1_999, number, 25), (2_000, 9, 25)] {
            let es = &list[..earlier];
            assert_eq!((judge(es, one(), &e), judge_short(es, one(), &e)), (full, short), "{earlier}: {event}");
        }
    }
}

// ---- 26 ----

fn ok(head: &str, events: &str) {
    expect_accepted(head, events);
}

fn no(head: &str, events: &str, number: u32) {
    expect_refused_last(head, events, number);
}

/// "U must directly follow L".
#[test]
fn use_after_load() {
    ok(ONE, "R 0 0 0; L 0 0 0; U 0 0 0");
    no(ONE, "U 0 0 0", 26);
    no(ONE, "R 0 0 0; U 0 0 0", 26);
    no(ONE, "R 0 0 0; L 0 0 0; U 0 0 0; U 0 0 0", 26);
    no(ONE, "A 0 0 5; U 0 0 5", 26);
    no(ONE, "A 0 0 5; S 0 0 5; U 0 0 5", 26);
    no(ONE, "A 0 0 5; S 0 0 5; W 0 0 5; U 0 0 5", 26);
    assert_eq!(judged_in(one(), "R 0 0 0; L 0 0 0; P 0 0 5; U 0 0 0"), 26);
    assert_eq!(judged_in(one(), "P 0 0 5; B 0 0 5; U 0 0 5"), 26);
}

/// "S directly follow A".
#[test]
fn store_after_assign() {
    ok(ONE, "A 0 0 5; S 0 0 5; A 0 0 6; S 0 0 6");
    no(ONE, "S 0 0 5", 26);
    no(ONE, "A 0 0 5; S 0 0 5; S 0 0 5", 26);
    no(ONE, "R 0 0 0; L 0 0 0; S 0 0 0", 26);
    no(ONE, "R 0 0 0; L 0 0 0; U 0 0 0; S 0 0 0", 26);
    assert_eq!(judged_in(one(), "A 0 0 5; U 0 0 5; S 0 0 5"), 26);
    assert_eq!(judged_in(one(), "A 0 0 5; P 0 0 6; S 0 0 5"), 26);
}

/// "after L or A nothing else may come".
#[test]
fn nothing_else_after_load_or_assign() {
    for event in ["L 0 0 0", "A 0 0 5", "S 0 0 0", "P 0 0 5", "B 0 0 5"] {
        no(ONE, &format!("R 0 0 0; R 0 0 0; L 0 0 0; {event}"), 26);
    }
    for event in ["L 0 0 0", "A 0 0 5", "U 0 0 5", "P 0 0 5", "B 0 0 5"] {
        no(ONE, &format!("A 0 0 5; {event}"), 26);
    }
    // At the start, and after U and S, either may come.
    ok(ONE, "R 0 0 0; L 0 0 0; U 0 0 0; R 0 0 0; L 0 0 0; U 0 0 0");
    ok(ONE, "R 0 0 0; L 0 0 0; U 0 0 0; A 0 0 5; S 0 0 5");
    ok(ONE, "A 0 0 5; S 0 0 5; W 0 0 5; R 0 0 5; L 0 0 5; U 0 0 5");
    ok(ONE, "A 0 0 5; S 0 0 5; A 0 0 5; S 0 0 5");
    // Nothing need come.
    ok(ONE, "R 0 0 0; L 0 0 0");
    ok(ONE, "A 0 0 5");
    assert_eq!(printed_sections(GUARDED, "K 0 0; R 0 0 0; L 0 0 0; N 0 0"), ["section 0 4 7"]);
}

/// "R and W left aside".
#[test]
fn reads_and_writes_left_aside() {
    ok(ONE, "R 0 0 0; L 0 0 0; R 0 0 0; U 0 0 0; L 0 0 0; U 0 0 0");
    ok(ONE, "A 0 0 5; S 0 0 5; A 0 0 6; W 0 0 5; S 0 0 6; W 0 0 6");
    // No paper holds these lists: 23 refuses the R, and 10 the W.
    assert_eq!(judged_in(one(), "A 0 0 5; R 0 0 0; S 0 0 5"), 0);
    assert_eq!(judged_in(one(), "R 0 0 0; L 0 0 0; W 0 0 0; U 0 0 0"), 0);
    // R and W have no neighbours of their own.
    no(ONE, "R 0 0 0; L 0 0 0; W 0 0 0", 10);
    no(ONE, "A 0 0 5; R 0 0 0", 23);
}

/// "among that thread's own events on it".
#[test]
fn other_threads_variables_and_locks() {
    ok(ONE, "R 0 0 0; L 0 0 0; A 1 0 5; S 1 0 5; A 0 1 5; U 0 1 5; P 0 1 6; B 0 1 6; K 1 0; U 0 0 0");
    ok(ONE, "A 0 0 5; R 1 0 0; L 1 0 0; U 1 0 0; R 0 1 0; L 0 1 0; S 0 0 5");
    ok(BOTH, "A 0 0 5; A 0 1 6; A 1 0 7; S 1 0 7; S 0 1 6; S 0 0 5");
    no(ONE, "R 0 0 0; L 0 0 0; U 1 0 0", 26);
    no(ONE, "A 0 0 5; S 1 0 5", 26);
    no(BOTH, "R 0 0 0; L 0 0 0; U 0 1 0", 26);
    no(BOTH, "A 0 0 5; S 0 1 5", 26);
    // A K or N is on no variable, and the copy is spoilt as ever.
    ok(ONE, "K 0 0; R 0 0 0; L 0 0 0; N 0 0; U 0 0 0");
    no(ONE, "R 0 0 0; L 0 0 0; K 0 0; U 0 0 0", 17);
    no(ONE, "A 0 0 5; K 0 0; S 0 0 5", 17);
    no(ONE, "A 0 0 5; K 0 0; A 0 0 5", 26);
    // Lock 0 has the number of the volatile variable.
    ok(ONE, "K 0 0; K 0 0; N 0 0; N 0 0");
    // A plain variable has no such neighbours.
    ok(ONE, "A 0 1 5; A 0 1 6; U 0 1 6; U 0 1 6; S 0 1 6; U 0 1 6; W 0 1 6; R 0 1 6; L 0 1 6; A 0 1 7");
}

// ---- 27 at U ----

/// "its read must follow the writes of all the thread's earlier volatile assigns".
#[test]
fn read_after_the_writes() {
    no(BOTH, "A 0 0 5; R 0 1 0; L 0 1 0; U 0 1 0", 27);
    no(BOTH, "A 0 0 5; S 0 0 5; R 0 1 0; L 0 1 0; U 0 1 0", 27);
    no(BOTH, "A 0 0 5; S 0 0 5; R 0 1 0; W 0 0 5; L 0 1 0; U 0 1 0", 27);
    no(BOTH, "A 0 0 5; S 0 0 5; R 0 1 0; L 0 1 0; W 0 0 5; U 0 1 0", 27);
    no(BOTH, "R 0 1 0; A 0 0 5; S 0 0 5; W 0 0 5; L 0 1 0; U 0 1 0", 27);
    no(BOTH, "R 0 1 0; L 0 1 0; A 0 0 5; U 0 1 0", 27);
    ok(BOTH, "A 0 0 5; S 0 0 5; W 0 0 5; R 0 1 0; L 0 1 0; U 0 1 0");
    ok(BOTH, "R 0 1 0; L 0 1 0; U 0 1 0; A 0 0 5; S 0 0 5; W 0 0 5");
    ok(BOTH, "A 0 0 5; S 0 0 5; W 0 0 5; R 0 0 5; L 0 0 5; U 0 0 5");
    // The read of the use is the one of its load, not the latest.
    no(BOTH, "R 0 1 0; A 0 0 5; S 0 0 5; W 0 0 5; R 0 1 0; L 0 1 0; U 0 1 0", 27);
    // All of them.
    let two = "A 0 0 5; S 0 0 5; A 0 0 6; S 0 0 6; W 0 0 5";
    no(BOTH, &format!("{two}; R 0 1 0; L 0 1 0; U 0 1 0"), 27);
    ok(BOTH, &format!("{two}; W 0 0 6; R 0 1 0; L 0 1 0; U 0 1 0"));
    no(BOTH, "A 0 0 5; S 0 0 5; W 0 0 5; A 0 0 6; R 0 1 0; L 0 1 0; U 0 1 0", 27);
}

/// "the reads of its earlier volatile uses".
#[test]
fn read_after_the_reads() {
    let reads = "R 0 0 0; R 0 1 0";
    ok(BOTH, &format!("{reads}; L 0 0 0; U 0 0 0; L 0 1 0; U 0 1 0"));
    no(BOTH, &format!("{reads}; L 0 1 0; U 0 1 0; L 0 0 0; U 0 0 0"), 27);
    // The uses decide, not the loads.
    ok(BOTH, &format!("{reads}; L 0 1 0; L 0 0 0; U 0 0 0; U 0 1 0"));
    no(BOTH, &format!("{reads}; L 0 0 0; L 0 1 0; U 0 1 0; U 0 0 0"), 27);
    // The n-th load pairs with the n-th read.
    no(BOTH, "R 0 0 0; R 0 0 0; L 0 0 0; U 0 0 0; R 0 1 0; L 0 1 0; U 0 1 0; L 0 0 0; U 0 0 0", 27);
    ok(BOTH, "R 0 0 0; L 0 0 0; U 0 0 0; R 0 1 0; R 0 0 0; L 0 1 0; U 0 1 0; L 0 0 0; U 0 0 0");
    // All of them: in this list, which no paper holds, the latest use has an early read.
    let three = with_volatiles(Counts::plain(1, 3, 0), &[0, 1, 2]);
    let list = "R 0 0 0; R 0 1 0; R 0 2 0; L 0 2 0; U 0 2 0; L 0 0 0; U 0 0 0; L 0 1 0; U 0 1 0";
    assert_eq!(judged_in(three, list), 27);
}

/// "the thread's", "volatile": others do not matter.
#[test]
fn use_beside_others() {
    ok(BOTH, "A 1 0 5; R 0 1 0; L 0 1 0; U 0 1 0");
    ok(BOTH, "R 0 1 0; A 1 0 5; S 1 0 5; W 1 0 5; L 0 1 0; U 0 1 0");
    ok(BOTH, "R 0 0 0; R 1 1 0; L 1 1 0; U 1 1 0; L 0 0 0; U 0 0 0");
    // An assign, a use and a use's neighbours on a plain variable.
    ok(ONE, "A 0 1 5; R 0 0 0; L 0 0 0; U 0 0 0");
    ok(ONE, "A 0 0 5; R 0 1 0; L 0 1 0; U 0 1 0");
    ok(ONE, "R 0 0 0; R 0 1 0; L 0 1 0; U 0 1 0; L 0 0 0; U 0 0 0");
    ok(ONE, "R 0 1 0; R 0 0 0; L 0 0 0; U 0 0 0; L 0 1 0; U 0 1 0");
    ok(ONE, "P 0 1 5; R 0 0 0; L 0 0 0; U 0 0 0; B 0 1 5");
}

// ---- 27 at W ----

/// "no volatile assign of the thread before the one being written may be unwritten".
#[test]
fn writes_in_order_of_the_assigns() {
    let two = "A 0 0 5; S 0 0 5; A 0 1 6; S 0 1 6";
    no(BOTH, &format!("{two}; W 0 1 6"), 27);
    ok(BOTH, &format!("{two}; W 0 0 5; W 0 1 6"));
    no(BOTH, "A 0 0 5; A 0 1 6; S 0 1 6; W 0 1 6", 27);
    // The assigns decide, not the stores.
    let crossed = "A 0 0 5; A 0 1 6; S 0 1 6; S 0 0 5";
    ok(BOTH, &format!("{crossed}; W 0 0 5; W 0 1 6"));
    no(BOTH, &format!("{crossed}; W 0 1 6"), 27);
    // A later assign may be unwritten, also one of the same variable.
    ok(BOTH, "A 0 0 5; S 0 0 5; A 0 1 6; W 0 0 5");
    ok(BOTH, "A 0 0 5; S 0 0 5; A 0 0 6; S 0 0 6; W 0 0 5; W 0 0 6");
    // The one being written is that of the first outstanding store.
    let three = "A 0 0 5; S 0 0 5; A 0 1 6; S 0 1 6; A 0 0 7; S 0 0 7; W 0 0 5";
    no(BOTH, &format!("{three}; W 0 0 7"), 27);
    ok(BOTH, &format!("{three}; W 0 1 6; W 0 0 7"));
}

/// "At W on a volatile variable", "of the thread", "volatile assign": others do not matter.
#[test]
fn write_beside_others() {
    ok(ONE, "A 0 1 5; S 0 1 5; A 0 0 6; S 0 0 6; W 0 0 6");
    ok(ONE, "A 0 0 5; S 0 0 5; A 0 1 6; S 0 1 6; W 0 1 6");
    ok(ONE, "A 0 0 5; P 0 1 6; W 0 1 6; B 0 1 6");
    ok(BOTH, "A 0 0 5; S 0 0 5; A 1 1 6; S 1 1 6; W 1 1 6");
    ok(BOTH, "A 0 0 5; S 0 0 5; A 1 0 6; S 1 0 6; W 1 0 6; W 0 0 5");
}

/// "with a store outstanding": without one it is 10.
#[test]
fn write_without_a_store() {
    no(BOTH, "W 0 0 5", 10);
    no(BOTH, "A 0 0 5; W 0 0 5", 10);
    no(BOTH, "A 0 0 5; W 0 1 0", 10);
    no(BOTH, "A 0 1 5; S 0 1 5; W 0 1 5; A 0 0 5; W 0 1 5", 10);
    no(BOTH, "A 0 0 5; S 0 0 5; W 1 0 5", 10);
}

// ---- 28, 23 and the plain rules ----

/// "28, early store or its assign on a volatile".
#[test]
fn early_stores() {
    for event in ["P 0 0 5", "B 0 0 5", "P 1 0 5", "B 1 0 0"] {
        no(ONE, event, 28);
        no(ONE, &format!("A 0 1 5; K 0 0; {event}"), 28);
    }
    no(ONE, "A 0 0 5; S 0 0 5; P 0 0 6", 28);
    no(ONE, "R 0 0 0; L 0 0 0; U 0 0 0; P 0 0 6", 28);
    no(ONE, "A 0 0 5; S 0 0 5; B 0 0 5", 28);
    no(BOTH, "P 0 1 5", 28);
    ok(ONE, "P 0 1 5; W 0 1 5; B 0 1 5; U 0 1 5");
    no(ONE, "B 0 1 5", 10);
    // No paper holds these lists.
    assert_eq!(judged_in(one(), "P 0 0 5; B 0 0 5"), 28);
    assert_eq!(judged_in(one(), "P 0 0 5; B 0 0 5; P 0 0 6"), 28);
    // A store that follows no assign has none being written.
    assert_eq!(judged_in(both(), "A 0 1 5; P 0 0 6; W 0 0 6"), 0);
}

/// "23 stays the events listed in (a)": a read that only 26 or 27 keeps from its use is none.
#[test]
fn dead_reads() {
    ok(BOTH, "A 0 0 5; R 0 1 0; L 0 1 0");
    ok(BOTH, "R 0 1 0; A 0 0 5; S 0 0 5; W 0 0 5; L 0 1 0");
    ok(BOTH, "R 0 0 0; R 0 1 0; L 0 1 0; U 0 1 0; L 0 0 0");
    no(ONE, "R 0 0 0; A 0 0 5", 23);
    no(ONE, "A 0 0 5; R 0 0 0", 23);
    no(ONE, "A 0 0 5; S 0 0 5; R 0 0 0", 23);
}

/// "All plain rules stay": a paper for each number on a volatile variable.
#[test]
fn plain_rules_stay() {
    let reads = repeat("R 1 0 0", 8);
    let stores = repeat("A 1 0 5; S 1 0 5", 8);
    no(ONE, "L 1 0 0", 10);
    no(ONE, "K 1 1; K 0 1", 11);
    no(ONE, "N 1 1", 12);
    no(ONE, "P 1 1 5; K 1 1", 13);
    no(ONE, "K 1 1; A 1 0 5; N 1 1", 15);
    no(ONE, "K 1 1; A 1 0 5; S 1 0 5; N 1 1", 16);
    no(ONE, "R 1 0 0; K 1 1; L 1 0 0; U 1 0 0", 17);
    no(ONE, "A 1 0 5; K 1 1; S 1 0 5", 17);
    no(ONE, "R 1 0 1", 18);
    no(ONE, "R 1 0 0; L 1 0 1", 18);
    no(ONE, "R 1 0 0; L 1 0 0; U 1 0 1", 18);
    no(ONE, "A 1 0 5; S 1 0 6", 18);
    no(ONE, "A 1 0 5; S 1 0 5; W 1 0 6", 18);
    no(ONE, &format!("{reads}; R 1 0 0"), 19);
    no(ONE, &format!("{stores}; A 1 0 5; S 1 0 5"), 19);
    // The copies are the plain ones, also after a use.
    let printed = "accepted 5\nmain 0 0\nmain 1 0\ncopy 0 0 0\ncopy 1 0 5\n";
    assert_eq!(print(&paper_of(BOTH, "R 0 0 0; L 0 0 0; U 0 0 0; A 1 0 5; S 1 0 5")), printed);
}

/// "guarded papers with volatiles keep their serial order": one variable is volatile.
#[test]
fn demand_3_with_a_volatile_variable() {
    for named in [0, 1] {
        let counts = with_volatiles(Counts::plain(3, 2, 2), &[named]);
        let seen = demand_3_on(40, &Scope { counts, guards: &[0, 1], kinds: KINDS, unit: 1 }, 2_000);
        assert!(seen.orders >= 20 && seen.uses >= 100, "{named}: {seen:?}");
    }
}

/// The kinds and targets of a section: it takes lock 0, lock 1, or lock 0 and then lock 1, and after
/// each of them uses or assigns the lock's variable.
fn plan(dice: &mut Dice) -> Vec<(Kind, u32)> {
    let locks = [&[0][..], &[1], &[0, 1]][dice.roll(3) as usize];
    let mut plan = Vec::new();
    for &lock in locks {
        plan.push((K, lock));
        for _ in 0..dice.roll(3) {
            let kinds = [[R, L, U], [A, S, W]][dice.roll(2) as usize];
            plan.extend(kinds.map(|kind| (kind, lock)));
        }
    }
    plan.extend(locks.iter().map(|&lock| (N, lock)));
    plan
}

/// Three threads with ten planned sections each; an event waits only for a lock.
fn planned_events(seed: u64) -> Vec<Event> {
    let mut dice = Dice(seed);
    let mut plans: Vec<Vec<(Kind, u32)>> = (0..3).map(|_| (0..10).flat_map(|_| plan(&mut dice)).collect()).collect();
    let mut es = Vec::new();
    while plans.iter().any(|plan| !plan.is_empty()) {
        let thread = dice.roll(3);
        let plan = &mut plans[thread as usize];
        let Some(&(kind, target)) = plan.first() else {
            continue;
        };
        let e = fitting(&es, kind, thread, target, Value::from(dice.roll(100)));
        match judge(&es, with_volatiles(Counts::plain(3, 2, 2), &[0, 1]), &e) {
            0 => {
                es.push(e);
                plan.remove(0);
            }
            number => assert_eq!(number, 11, "seed {seed}: {e:?}"),
        }
    }
    es
}

/// The same where both variables are volatile.
#[test]
fn demand_3_with_volatile_variables() {
    let (mut uses, mut slips) = (0, 0);
    for seed in 0..60 {
        let es = planned_events(seed);
        let o = outcome(&paper_of("H 3 2 2\nG 0 1\nV 0 1\n", &text_of(&es)));
        assert_eq!(o.verdict, Verdict::Accepted(es.len()), "seed {seed}");
        assert_eq!(demand3(&o), Ok(()), "seed {seed}");
        let Order::Sections(mut list) = o.order.clone() else { panic!("seed {seed}: {:?}", o.order) };
        assert_eq!(list.len(), 30, "seed {seed}");
        uses += es.iter().filter(|e| e.kind == U).count();
        list.sort_by_key(|s| s.first);
        slips += usize::from(demand3(&Outcome { order: Order::Sections(list), ..o }).is_err());
    }
    assert!(uses > 500 && slips > 10, "{uses}, {slips}");
}

/// The order is by the last K, and the sequence of the first K fails.
#[test]
fn ordering_by_first_lock_is_a_slip() {
    let events = "K 0 0; K 1 1; A 1 0 5; S 1 0 5; W 1 0 5; N 1 1; K 0 1; R 0 0 5; L 0 0 5; U 0 0 5; N 0 1; N 0 0";
    let head = "H 2 1 2\nG 1\nV 0\n";
    assert_eq!(printed_sections(head, events), ["section 1 5 9", "section 0 4 15"]);
    let o = outcome(&paper_of(head, events));
    let mut list = sections(o.counts.expect("counts"), &o.events);
    list.reverse();
    assert!(demand3(&Outcome { order: Order::Sections(list), ..o }).is_err());
}
