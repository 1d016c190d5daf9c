//! 02 (e): "at most 2 threads, 4 variables, 2 locks and 200 events". "Turned away: 25, over the short
//! course's limits, after 3 for the head (line 1) and in place of 9 for events."

use super::walks::{walk, Scope, KINDS};
use super::*;
use crate::listing::listing;
use crate::{judge_short, mark_short, outcome_short, outcome_within, Limits, Verdict, FULL, MAX_BYTES, SHORT};

/// The widest head of the short course, without guards.
const HEAD: &str = "H 2 4 2\nG -\n";
/// The same with guards.
const GUARDED: &str = "H 2 4 2\nG 0 1 0 1\n";
/// The main lines before a write.
const MAIN: &str = "main 0 0\nmain 1 0\nmain 2 0\nmain 3 0\n";

/// What `mark_short` prints, as text.
pub(super) fn print_short(paper: &[u8]) -> String {
    String::from_utf8(mark_short(paper)).expect("ASCII")
}

/// What a course with these limits prints, as text.
fn print_within(paper: &[u8], limits: Limits) -> String {
    String::from_utf8(listing(&outcome_within(paper, limits))).expect("ASCII")
}

/// The short course prints this for the bytes, and the full course that.
pub(super) fn expect_each(paper: &[u8], short: &str, full: &str) {
    let shown = String::from_utf8_lossy(&paper[..paper.len().min(120)]).into_owned();
    assert_eq!(print_short(paper), short, "{shown:?}");
    assert_eq!(print(paper), full, "{shown:?}");
}

/// Both courses print this for the bytes, and the outcomes are equal.
pub(super) fn expect_same(paper: &[u8], printed: &str) {
    expect_each(paper, printed, printed);
    assert_eq!(outcome_short(paper), outcome(paper));
}

/// The paper of a `H` line, a `G` line and nothing else.
fn head_only(threads: u32, variables: u32, locks: u32) -> Vec<u8> {
    paper_of(&format!("H {threads} {variables} {locks}\nG -\n"), "")
}

#[test]
fn every_head() {
    for threads in 0..=9 {
        for variables in 0..=17 {
            for locks in 0..=9 {
                let main: String = (0..variables).map(|v| format!("main {v} 0\n")).collect();
                let accepted = format!("accepted 0\n{main}");
                let right = (1..=8).contains(&threads) && (1..=16).contains(&variables) && locks <= 8;
                let (short, full) = match (right, threads <= 2 && variables <= 4 && locks <= 2) {
                    (false, _) => ("refused 1 3\n", "refused 1 3\n"),
                    (true, false) => ("refused 1 25\n", &*accepted),
                    (true, true) => (&*accepted, &*accepted),
                };
                expect_each(&head_only(threads, variables, locks), short, full);
            }
        }
    }
}

/// "after 3 for the head": 3 has the ranges of 01 and the form.
#[test]
fn three_before_25() {
    let long = "9".repeat(1_000);
    for head in ["H 3 17 0", "H 3 1 9", "H 9 5 3", "H 0 5 3", "H 3 0 3", "H 3 5", "H 3 5 3 ", "h 3 5 3", "H 03 1 0"] {
        expect_same(&paper_of(&format!("{head}\nG -\n"), ""), "refused 1 3\n");
    }
    for head in [format!("H {long} 5 3"), format!("H 3 {long} 3"), format!("H 3 5 {long}"), String::from("H 4294967298 1 0")] {
        expect_same(&paper_of(&format!("{head}\nG -\n"), ""), "refused 1 3\n");
    }
}

#[test]
fn one_and_two_before_25() {
    expect_same(&[paper_of("H 3 5 3\nG -\n", ""), vec![10; MAX_BYTES]].concat(), "refused 0 1\n");
    expect_same(b"H 3 5 3\nG -\nZ 11\n", "refused 0 2\n");
    expect_same(b"H 3 5 3\nG -\n", "refused 0 2\n");
    expect_same(b"H 3 5 3\nG -\nZ 12\n\n", "refused 0 2\n");
}

/// 25 for the head comes before 6 and before every event line.
#[test]
fn head_before_what_follows() {
    for (paper, full) in [
        (with_trailer(b"H 3 1 0\n"), "refused 2 6\n"),
        (paper_of("H 3 1 0\nG x\n", ""), "refused 2 6\n"),
        (paper_of("H 2 5 2\nG 0 1 0 1\n", ""), "refused 2 6\n"),
        (paper_of("H 2 4 3\nG 0 1 2 3\n", ""), "refused 2 6\n"),
        (paper_of("H 3 1 0\nG -\n", "rubbish"), "refused 3 4\n"),
        (paper_of("H 3 1 0\nG -\n", "A 3 0 5"), "refused 3 5\n"),
        (paper_of("H 2 5 0\nG -\n", "U 0 0 0"), "refused 3 17\n"),
        (paper_of("H 2 1 3\nG -\n", &repeat("K 0 0", 2_001)), "refused 2003 9\n"),
    ] {
        expect_each(&paper, "refused 1 25\n", full);
    }
}

/// 6, and 5 in an event line, ask what is declared.
#[test]
fn declared_within_the_limits() {
    expect_same(&paper_of(GUARDED, ""), &format!("accepted 0\n{MAIN}"));
    for line in ["G 0 1 0 2", "G 0 1 0", "G 0 1 0 1 0", "G", "G x"] {
        expect_same(&paper_of(&format!("H 2 4 2\n{line}\n"), ""), "refused 2 6\n");
    }
    expect_same(&paper_of("H 2 4 0\nG 0 0 0 0\n", ""), "refused 2 6\n");
    let long = "9".repeat(1_000);
    for big in ["2", "3", "8", "16", "201", "4294967296", &long] {
        for event in [format!("A {big} 0 5"), format!("K {big} 0"), format!("K 0 {big}"), format!("N 0 {big}")] {
            expect_same(&paper_of(HEAD, &event), "refused 3 5\n");
        }
    }
    expect_same(&paper_of(HEAD, "A 0 4 5"), "refused 3 5\n");
    expect_same(&paper_of("H 1 1 0\nG -\n", "A 1 0 5"), "refused 3 5\n");
    expect_same(&paper_of("H 1 1 0\nG -\n", "A 0 1 5"), "refused 3 5\n");
    expect_same(&paper_of("H 1 1 0\nG -\n", "K 0 0"), "refused 3 5\n");
}

#[test]
fn two_hundred_events_and_one_more() {
    let many = |events| paper_of(HEAD, &repeat("A 0 0 5", events));
    let accepted = |events| format!("accepted {events}\n{MAIN}copy 0 0 5\n");
    for events in [1, 199, 200] {
        expect_same(&many(events), &accepted(events));
    }
    for events in [201, 202, 2_000] {
        expect_each(&many(events), "refused 203 25\n", &accepted(events));
    }
    expect_each(&many(2_001), "refused 203 25\n", "refused 2003 9\n");
}

/// Event 200 is checked.
#[test]
fn event_200() {
    let before = repeat("A 0 0 5", 199);
    for (event, number) in [("A 0 0 00", 4), ("rubbish", 4), ("A 2 0 5", 5), ("U 0 1 0", 17), ("U 0 0 6", 18), ("R 0 0 0", 23)] {
        let printed = format!("refused 202 {number}\n");
        expect_same(&paper_of(HEAD, &format!("{before}; {event}")), &printed);
        expect_same(&paper_of(HEAD, &format!("{before}; {event}; A 0 0 5; A 0 0 5")), &printed);
    }
    expect_same(&paper_of(HEAD, &format!("{before}; R 0 1 0")), &format!("accepted 200\n{MAIN}copy 0 0 5\n"));
}

/// "line by line 4, 9, 5 and the row", with 25 "in place of 9".
#[test]
fn event_201() {
    let before = repeat("A 0 0 5", 200);
    for event in ["A 0 0 00", "rubbish", "A 0 0 9223372036854775808", "A 9 9 -0", "K 0 0 0"] {
        expect_same(&paper_of(HEAD, &format!("{before}; {event}")), "refused 203 4\n");
    }
    expect_same(&paper_of(HEAD, &format!("{before}; rubbish; A 0 0 5")), "refused 203 4\n");
    for (event, number) in [("A 2 0 5", 5), ("K 0 9", 5), ("U 0 1 0", 17), ("U 0 0 6", 18), ("R 0 0 0", 23), ("N 0 0", 12)] {
        expect_each(&paper_of(HEAD, &format!("{before}; {event}")), "refused 203 25\n", &format!("refused 203 {number}\n"));
    }
    // Line by line: what follows is not looked at.
    expect_each(&paper_of(HEAD, &format!("{before}; A 0 0 5; rubbish")), "refused 203 25\n", "refused 204 4\n");
    expect_each(&paper_of(HEAD, &format!("{before}; A 0 0 5; U 0 0 6")), "refused 203 25\n", "refused 204 18\n");
}

/// A paper over 200 events is refused at an earlier line where the full marker refuses it there.
#[test]
fn earlier_lines_decide() {
    for (event, number) in [("rubbish", 4), ("A 2 0 5", 5), ("U 0 1 0", 17)] {
        for before in [0, 1, 100, 198] {
            let after = 300 - before;
            let events = format!("{}; {event}; {}", repeat("A 0 0 5", before), repeat("A 0 0 5", after));
            expect_same(&paper_of(HEAD, &events), &format!("refused {} {number}\n", line_of(SHORT.counts, before)));
        }
    }
}

/// "A refusal gives number and line and nothing else."
#[test]
fn a_refusal_with_25_gives_nothing_else() {
    for (paper, line) in [(head_only(3, 1, 0), 1), (paper_of(HEAD, &repeat("A 0 0 5", 201)), 203)] {
        let o = outcome_short(&paper);
        assert!(matches!(o.verdict, Verdict::Refused(r) if r.line == line && r.number == 25));
        assert!(o.events.is_empty() && o.main.is_empty() && o.copies.is_empty());
        assert!(o.counts.is_none() && o.guards.is_none() && o.order == Order::None);
    }
}

/// "A short-course paper gets the full marker's verdict": a paper for each number, with the highest
/// thread, variable and lock of the short course.
#[test]
fn every_other_number() {
    let reads = repeat("R 1 3 0", 9);
    for (events, line, number) in [
        ("A 1 3 00", 3, 4),
        ("A 1 4 5", 3, 5),
        ("L 1 3 0", 3, 10),
        ("K 1 1; K 0 1", 4, 11),
        ("N 1 1", 3, 12),
        ("P 1 3 5; K 1 1", 4, 13),
        ("S 1 3 5", 3, 14),
        ("K 1 1; A 1 3 5; N 1 1", 5, 15),
        ("K 1 1; A 1 3 5; S 1 3 5; N 1 1", 6, 16),
        ("A 1 3 5; K 1 1; U 1 3 5", 5, 17),
        ("R 1 3 1", 3, 18),
        (&reads, 11, 19),
        ("R 1 3 0; A 1 3 5", 4, 23),
    ] {
        expect_same(&paper_of(HEAD, events), &format!("refused {line} {number}\n"));
    }
    let copy = format!("accepted 1\n{MAIN}copy 1 3 5\n");
    expect_same(&paper_of(HEAD, "A 1 3 5"), &copy);
    expect_same(&paper_of(GUARDED, "A 1 3 5"), &format!("{copy}unordered 3 20\n"));
    let again = "K 1 1; K 1 0; N 1 0; K 1 0";
    expect_same(&paper_of(GUARDED, again), &format!("accepted 4\n{MAIN}unordered 6 21\n"));
    expect_same(&paper_of(GUARDED, "K 1 1"), &format!("accepted 1\n{MAIN}unordered 4 22\n"));
}

#[test]
fn whole_listing() {
    let events = "K 1 1; A 1 3 7; S 1 3 7; W 1 3 7; N 1 1; K 0 1; R 0 3 7; L 0 3 7; U 0 3 7; N 0 1";
    let printed = "accepted 10\nmain 0 0\nmain 1 0\nmain 2 0\nmain 3 7\ncopy 0 3 7\ncopy 1 3 7\n\
                   section 1 3 7\nsection 0 8 12\n";
    let paper = paper_of(GUARDED, events);
    expect_same(&paper, printed);
    assert_eq!(demand3(&outcome_short(&paper)), Ok(()));
}

/// 200 events have 100 sections, and the trailer's line is 203.
#[test]
fn a_hundred_sections() {
    let sections: String = (0..100).map(|n| format!("section 1 {} {}\n", 3 + 2 * n, 4 + 2 * n)).collect();
    let full = repeat("K 1 1; N 1 1", 100);
    expect_same(&paper_of(GUARDED, &full), &format!("accepted 200\n{MAIN}{sections}"));
    let more = format!("accepted 201\n{MAIN}unordered 204 22\n");
    expect_each(&paper_of(GUARDED, &format!("{full}; K 0 0")), "refused 203 25\n", &more);
    let before = repeat("K 1 1; N 1 1", 99);
    expect_same(&paper_of(GUARDED, &format!("{before}; K 0 0; K 1 1")), &format!("accepted 200\n{MAIN}unordered 203 22\n"));
    let unguarded = format!("accepted 200\n{MAIN}copy 0 1 5\nunordered 202 20\n");
    expect_same(&paper_of(GUARDED, &format!("{before}; R 1 0 0; A 0 1 5")), &unguarded);
}

/// Bytes, values and outstanding reads and stores have 01's and (g)'s limits.
#[test]
fn no_other_limit() {
    let around = HEAD.len() + "A  0 5\n".len() + "Z 65528\n".len();
    let long = |size: usize| paper_of(HEAD, &format!("A {} 0 5", "1".repeat(size - around)));
    assert_eq!(long(MAX_BYTES).len(), MAX_BYTES);
    expect_same(&long(MAX_BYTES), "refused 3 5\n");
    expect_same(&long(MAX_BYTES + 1), "refused 0 1\n");
    for value in ["-9223372036854775808", "9223372036854775807"] {
        expect_same(&paper_of(HEAD, &format!("A 0 0 {value}")), &format!("accepted 1\n{MAIN}copy 0 0 {value}\n"));
    }
    let reads = repeat("R 0 0 0", 8);
    expect_same(&paper_of(HEAD, &reads), &format!("accepted 8\n{MAIN}"));
    expect_same(&paper_of(HEAD, &format!("{reads}; R 0 0 0")), "refused 11 19\n");
    let stores = repeat("A 0 0 5; S 0 0 5", 8);
    expect_same(&paper_of(HEAD, &stores), &format!("accepted 16\n{MAIN}copy 0 0 5\n"));
    expect_same(&paper_of(HEAD, &format!("{stores}; P 0 0 5")), "refused 19 19\n");
}

/// "One step: 8, 9, 5, row", with 25 "in place of 9": 25 comes before 5 and the row.
#[test]
fn one_event() {
    for (count, short, full) in [
        (1, None, None),
        (199, None, None),
        (200, Some(25), None),
        (201, Some(25), None),
        (1_999, Some(25), None),
        (2_000, Some(25), Some(9)),
        (2_001, Some(25), Some(9)),
    ] {
        let earlier = events_of(&repeat("A 0 0 5", count));
        for (event, number) in [("A 0 0 5", 0), ("A 2 0 5", 5), ("K 0 2", 5), ("U 0 1 0", 17), ("U 0 0 6", 18), ("R 0 0 0", 23)] {
            let e = events_of(event)[0];
            assert_eq!(judge_short(&earlier, TWO, &e), short.unwrap_or(number), "{count}, {event}");
            assert_eq!(judge(&earlier, TWO, &e), full.unwrap_or(number), "{count}, {event}");
        }
    }
}

/// One event has no head: the counts are taken as they are, by `judge_short` as by `judge`.
#[test]
fn one_event_with_other_counts() {
    let widest = Counts::plain(8, 16, 8);
    for (counts, event, number) in [
        (widest, "A 7 15 5", 0),
        (widest, "K 7 7", 0),
        (widest, "A 8 0 5", 5),
        (widest, "U 7 15 0", 17),
        (Counts::plain(9, 17, 9), "A 8 16 5", 0),
        (Counts::plain(0, 0, 0), "A 0 0 5", 5),
    ] {
        let e = events_of(event)[0];
        assert_eq!((judge_short(&[], counts, &e), judge(&[], counts, &e)), (number, number), "{event}");
    }
}

/// What a paper with a right trailer, head and `G` line prints in a course with these limits: 25 for
/// a head over them; 25 at the first event line over them, if the line is an event and no line before
/// it is refused; and otherwise what the full marker prints.
fn expected(paper: &[u8], limits: Limits) -> String {
    let parts = paper::find(paper).expect("parts");
    let (declared, most) = (parts.counts, limits.counts);
    if declared.threads > most.threads || declared.variables > most.variables || declared.locks > most.locks {
        return String::from("refused 1 25\n");
    }
    let place = line_of(declared, limits.events);
    let before = matches!(outcome(paper).verdict, Verdict::Refused(r) if r.line < place);
    let body = std::str::from_utf8(parts.body).expect("ASCII");
    match body.split_terminator('\n').nth(limits.events) {
        Some(line) if !before && paper::event(line.as_bytes()).is_some() => format!("refused {place} 25\n"),
        _ => print(paper),
    }
}

/// A paper without guards of `lines` random events that the full marker accepts. The line at the
/// place `fault`, if there is one, is 4, 5 or against the row in their stead.
pub(super) fn random_paper(dice: &mut Dice, counts: Counts, lines: usize, fault: usize) -> Vec<u8> {
    let mut es = Vec::new();
    while es.len() < lines {
        let kind = [U, A, L, S, R, W, K, N, P, B][dice.roll(10) as usize];
        let targets = if matches!(kind, K | N) { counts.locks } else { counts.variables };
        if targets == 0 {
            continue;
        }
        let free = Value::from(dice.roll(100));
        let e = fitting(&es, kind, dice.roll(counts.threads), dice.roll(targets), free);
        if judge(&es, counts, &e) == 0 {
            es.push(e);
        }
    }
    let text = text_of(&es);
    let mut events: Vec<&str> = text.split(';').collect();
    if fault < lines {
        events[fault] = ["rubbish", "A 8 0 5", "U 0 0 100"][dice.roll(3) as usize];
    }
    paper_of(&head_of(counts, None), &events.join(";"))
}

/// What was met on the way.
#[derive(Debug, Default)]
struct Seen {
    accepted: usize,
    /// Refused with 25 for the head, and for an event.
    head: usize,
    event: usize,
    /// Refused with 25 at the event that the full marker refuses with another number.
    other: usize,
    /// Refused with another number, and those at the first line over the limits.
    refused: usize,
    form: usize,
}

/// Checks what a course with these limits prints.
fn check(paper: &[u8], limits: Limits, seen: &mut Seen) {
    let (printed, full) = (print_within(paper, limits), print(paper));
    assert_eq!(printed, expected(paper, limits), "{limits:?}: {}", String::from_utf8_lossy(paper));
    let declared = paper::find(paper).expect("parts").counts;
    let place = format!("refused {} ", line_of(declared, limits.events));
    match (printed.starts_with("accepted"), printed.ends_with(" 25\n")) {
        (true, _) => seen.accepted += 1,
        (false, true) if printed == "refused 1 25\n" => seen.head += 1,
        (false, true) => {
            seen.event += 1;
            seen.other += usize::from(full.starts_with(&place));
        }
        (false, false) => {
            seen.refused += 1;
            seen.form += usize::from(printed.starts_with(&place));
        }
    }
}

#[test]
fn random_papers_around_the_short_limits() {
    let mut seen = Seen::default();
    for seed in 0..1_000 {
        let mut dice = Dice(seed);
        let over = u32::from(dice.roll(4) == 0);
        let counts = Counts::plain(1 + dice.roll(2 + over), 1 + dice.roll(4 + over), dice.roll(3 + over));
        let lines = 190 + dice.roll(21) as usize;
        let fault = [dice.roll(400), 198 + dice.roll(5)][dice.roll(2) as usize] as usize;
        let paper = random_paper(&mut dice, counts, lines, fault);
        assert_eq!(print_short(&paper), print_within(&paper, SHORT), "seed {seed}");
        check(&paper, SHORT, &mut seen);
    }
    println!("{seen:?}");
    assert!(seen.accepted > 50 && seen.head > 20 && seen.event > 50 && seen.refused > 50, "{seen:?}");
    assert!(seen.other > 10 && seen.form > 5, "{seen:?}");
}

/// "A short-course paper gets the full marker's verdict", its order included.
#[test]
fn ordered_papers_of_the_short_course() {
    let (mut orders, mut over) = (0, 0);
    for seed in 0..60 {
        let scope = Scope { counts: SHORT.counts, guards: &[0, 1, 0, 1], kinds: KINDS, unit: 1 };
        let (es, _) = walk(seed, &scope, 1_200);
        let paper = paper_of(GUARDED, &text_of(&es));
        let (short, full) = (outcome_short(&paper), outcome(&paper));
        assert_eq!(full.verdict, Verdict::Accepted(es.len()), "seed {seed}");
        if es.len() > 200 {
            assert_eq!(print_short(&paper), "refused 203 25\n", "seed {seed}");
            over += 1;
            continue;
        }
        assert_eq!(short, full, "seed {seed}");
        assert_eq!(demand3(&short), Ok(()), "seed {seed}");
        orders += usize::from(matches!(short.order, Order::Sections(_)));
    }
    println!("{orders}, {over}");
    assert!(orders >= 10 && over >= 10, "{orders}, {over}");
}

/// "the marking facts hold for every limit up to the full one": heads at every limit and one over it.
#[test]
fn heads_under_every_limit() {
    for threads in 1..=8 {
        for variables in 1..=16 {
            for locks in 0..=8 {
                let limits = Limits { counts: Counts::plain(threads, variables, locks), ..SHORT };
                let at = head_only(threads, variables, locks);
                assert_eq!(outcome_within(&at, limits), outcome(&at), "{limits:?}");
                for (t, v, l) in [(threads + 1, 1, 0), (1, variables + 1, 0), (1, 1, locks + 1)] {
                    let number = if t > 8 || v > 16 || l > 8 { 3 } else { 25 };
                    assert_eq!(print_within(&head_only(t, v, l), limits), format!("refused 1 {number}\n"), "{limits:?}");
                }
            }
        }
    }
}

/// The same for events.
#[test]
fn events_under_every_limit() {
    for events in (0..=300).chain([999, 1_000, 1_998, 1_999, 2_000]) {
        let limits = Limits { events, ..SHORT };
        let at = paper_of(HEAD, &repeat("A 0 0 5", events));
        assert_eq!(outcome_within(&at, limits), outcome(&at), "{events}");
        assert_eq!(outcome(&at).verdict, Verdict::Accepted(events));
        let over = paper_of(HEAD, &repeat("A 0 0 5", events + 1));
        assert_eq!(print_within(&over, limits), format!("refused {} 25\n", events + 3));
    }
}

#[test]
fn random_papers_under_random_limits() {
    let mut seen = Seen::default();
    for seed in 0..400 {
        let mut dice = Dice(seed);
        let counts = Counts::plain(1 + dice.roll(8), 1 + dice.roll(16), dice.roll(9));
        let lines = dice.roll(80);
        let fault = dice.roll(160) as usize;
        let paper = random_paper(&mut dice, counts, lines as usize, fault);
        assert_eq!(outcome_within(&paper, FULL), outcome(&paper), "seed {seed}");
        for round in 0..20 {
            // Every other limit leaves the head within it.
            let most = match round % 2 {
                0 => Counts::plain(1 + dice.roll(8), 1 + dice.roll(16), dice.roll(9)),
                _ => counts,
            };
            let events = [dice.roll(100) as usize, fault, lines as usize, 2_000][dice.roll(4) as usize];
            check(&paper, Limits { counts: most, events, ..SHORT }, &mut seen);
        }
    }
    println!("{seen:?}");
    assert!(seen.accepted > 300 && seen.head > 300 && seen.event > 300 && seen.refused > 300, "{seen:?}");
    assert!(seen.other > 50 && seen.form > 20, "{seen:?}");
}
