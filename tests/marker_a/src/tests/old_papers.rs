//! "Old papers whose values all lie within 32 bits give their old verdicts; a paper refused with 4
//! for a value within 64 bits is now marked by its events."

use super::*;
use crate::{listing, Refusal, Verdict};

/// How the value of an event line is read.
type Reading = fn(&str) -> Option<Value>;

/// 01: "a value outside 32 bits is 4".
const IN_32_BITS: Reading = read_as::<i32>;
/// (g): "A value outside 64 bits is 4".
const IN_64_BITS: Reading = read_as::<i64>;

/// The event of the line, its value read by `reading`; none where 4 refuses it.
fn event(line: &str, reading: Reading) -> Option<Event> {
    if line.starts_with(['K', 'N']) {
        return paper::event(line.as_bytes());
    }
    let (before, field) = line.rsplit_once(' ')?;
    let value = reading(field)?;
    paper::event(format!("{before} 0").as_bytes()).map(|e| Event { value, ..e })
}

/// The events before the refusal, and the refusal: "line by line 4, 9, 5 and the row".
fn marked(body: &str, counts: Counts, reading: Reading) -> (Vec<Event>, Option<Refusal>) {
    let mut es = Vec::new();
    for line in body.split_terminator('\n') {
        let e = event(line, reading);
        let number = e.map_or(4, |e| judge(&es, counts, &e));
        match (e, number) {
            (Some(e), 0) => es.push(e),
            _ => return (es.clone(), Some(Refusal { line: line_of(counts, es.len()), number })),
        }
    }
    (es, None)
}

/// The printed listing of a paper that 1, 2, 3 and 6 do not refuse, its values read by `reading`.
fn print_by(paper: &[u8], reading: Reading) -> String {
    let parts = paper::find(paper).expect("parts");
    let body = std::str::from_utf8(parts.body).expect("ASCII");
    let o = match marked(body, parts.counts, reading) {
        (_, Some(refusal)) => crate::refused(refusal),
        (es, None) => crate::accepted(parts.counts, parts.guards, es),
    };
    String::from_utf8(listing::listing(&o)).expect("ASCII")
}

/// What was met on the way.
#[derive(Debug, Default)]
struct Seen {
    accepted: usize,
    refused: usize,
    /// Refused with 18.
    differs: usize,
    /// Refused with 4 for a value within 64 bits; those accepted, refused at that line, and later.
    freed: usize,
    freed_accepted: usize,
    freed_there: usize,
    freed_later: usize,
    /// Refused with 4 for a value outside 64 bits.
    outside: usize,
}

impl Seen {
    fn count(&mut self, printed: &str) {
        self.accepted += usize::from(printed.starts_with("accepted"));
        self.refused += usize::from(printed.starts_with("refused"));
        self.differs += usize::from(printed.ends_with(" 18\n"));
    }
}

/// "Old papers whose values all lie within 32 bits give their old verdicts".
fn check_within_32_bits(paper: &[u8], seen: &mut Seen) {
    let printed = print(paper);
    assert_eq!(printed, print_by(paper, IN_32_BITS), "{}", String::from_utf8_lossy(paper));
    seen.count(&printed);
}

/// "a paper refused with 4 for a value within 64 bits is now marked by its events"; every other
/// paper prints the same under both readings.
fn check_any(paper: &[u8], seen: &mut Seen) {
    let shown = String::from_utf8_lossy(paper);
    let printed = print(paper);
    assert_eq!(printed, print_by(paper, IN_64_BITS), "{shown}");
    seen.count(&printed);
    let parts = paper::find(paper).expect("parts");
    let body = std::str::from_utf8(parts.body).expect("ASCII");
    let (before, refusal) = marked(body, parts.counts, IN_32_BITS);
    let line = body.split_terminator('\n').nth(before.len()).unwrap_or("");
    match (refusal, event(line, IN_64_BITS)) {
        (Some(Refusal { number: 4, .. }), Some(e)) => check_freed(paper, parts.counts, &before, &e, seen),
        (refusal, e) => {
            assert_eq!(printed, print_by(paper, IN_32_BITS), "{shown}");
            seen.outside += usize::from(refusal.is_some_and(|r| r.number == 4) && e.is_none());
        }
    }
}

/// The 32-bit reading refuses the paper with 4 at `e`, after the events `before`, for a value within
/// 64 bits. The lines before are judged the same, `e` is judged by 9, 5 and the row, and where it is
/// accepted the paper is marked on from there.
fn check_freed(paper: &[u8], counts: Counts, before: &[Event], e: &Event, seen: &mut Seen) {
    let place = line_of(counts, before.len());
    let number = judge(before, counts, e);
    let o = outcome(paper);
    seen.freed += 1;
    match o.verdict {
        Verdict::Accepted(_) => {
            assert_eq!((number, o.events.get(before.len())), (0, Some(e)));
            assert_eq!(o.events[..before.len()], *before);
            seen.freed_accepted += 1;
        }
        Verdict::Refused(r) if number == 0 => {
            assert!(r.line > place, "{r:?}");
            seen.freed_later += 1;
        }
        Verdict::Refused(r) => {
            assert_eq!(r, Refusal { line: place, number });
            seen.freed_there += 1;
        }
    }
}

/// Events over the values 0 to `values - 1`. Most are accepted; a few have another value than 18 asks
/// for, or are refused, and are kept.
fn random_events(dice: &mut Dice, values: usize) -> Vec<Event> {
    let mut es = Vec::new();
    let faults = dice.roll(3);
    for _ in 0..20 + dice.roll(100) {
        let kind = [U, A, L, S, R, W, K, N, P, B][dice.roll(10) as usize];
        let (thread, target) = (dice.roll(2), dice.roll(2));
        let other = Value::from(dice.roll(values as u32));
        let mut e = fitting(&es, kind, thread, target, other);
        if dice.roll(10) == 0 && !matches!(kind, K | N) {
            e.value = other;
        }
        let keep = match judge(&es, TWO, &e) {
            0 => true,
            18 => dice.roll(3) < faults,
            _ => dice.roll(300) < faults,
        };
        if keep {
            es.push(e);
        }
    }
    es
}

/// The lines; where one begins with one of the words, the value n in its last field is written as
/// the n-th of the names, from 0.
fn renamed(lines: &str, words: &[&str], names: &[&str]) -> String {
    let rename = |line: &str| match line.rsplit_once(' ') {
        Some((before, n)) if words.iter().any(|word| line.starts_with(word)) => {
            format!("{before} {}\n", names[n.parse::<usize>().expect("a value")])
        }
        _ => format!("{line}\n"),
    };
    lines.lines().map(rename).collect()
}

/// A paper of these events, with or without guards, and the values by their names.
fn paper_with(es: &[Event], guarded: bool, names: &[&str]) -> Vec<u8> {
    let head = if guarded { "H 2 2 2\nG 0 1\n" } else { TRACE_HEAD };
    let body = renamed(&text_of(es).replace(';', "\n"), &["U", "A", "L", "S", "R", "W", "P", "B"], names);
    with_trailer(format!("{head}{body}").as_bytes())
}

/// Values within 32 bits; the first is main memory's at the start.
const NARROW: [&str; 8] = ["0", "1", "-1", "5", "2147483647", "-2147483648", "65536", "-65536"];
/// Values within 64 bits, most of them outside 32 bits.
const WIDE: [&str; 8] =
    ["0", "5", "2147483648", "-2147483649", "4294967301", "-4294967296", "9223372036854775807", "-9223372036854775808"];
/// A few values outside 32 bits among the others.
const SOME_WIDE: [&str; 8] = ["0", "5", "-7", "2147483647", "-2147483648", "65536", "4294967301", "-9223372036854775808"];
/// Values outside 64 bits among the others.
const MIXED: [&str; 8] =
    ["0", "5", "-7", "2147483647", "4294967296", "9223372036854775808", "-9223372036854775809", "18446744073709551621"];

/// Looks at `papers` random papers with these values.
fn random_papers(papers: u64, names: &[&str], check: fn(&[u8], &mut Seen)) -> Seen {
    let mut seen = Seen::default();
    for seed in 0..papers {
        let es = random_events(&mut Dice(seed), names.len());
        check(&paper_with(&es, seed % 2 == 0, names), &mut seen);
    }
    println!("{seen:?}");
    seen
}

#[test]
fn random_papers_within_32_bits() {
    let seen = random_papers(3_000, &NARROW, check_within_32_bits);
    assert!(seen.accepted > 500 && seen.refused > 500 && seen.differs > 100, "{seen:?}");
    let seen = random_papers(1_000, &NARROW, check_any);
    assert!(seen.freed == 0 && seen.outside == 0 && seen.accepted > 100, "{seen:?}");
}

#[test]
fn random_papers_within_64_bits() {
    for names in [WIDE, SOME_WIDE] {
        let seen = random_papers(3_000, &names, check_any);
        assert!(seen.freed_accepted > 500 && seen.freed_there > 50 && seen.freed_later > 200, "{seen:?}");
        assert!(seen.differs > 100 && seen.outside == 0, "{seen:?}");
    }
}

#[test]
fn random_papers_with_values_outside() {
    let seen = random_papers(3_000, &MIXED, check_any);
    assert!(seen.outside > 200 && seen.freed_later > 200 && seen.accepted > 50, "{seen:?}");
}

/// The rules ask only which values are equal, and main memory starts at 0. So other values for the
/// same events, 0 for 0, give the same verdict, and main and copy lines with those values.
#[test]
fn verdicts_under_other_values() {
    let plain = ["0", "1", "2", "3", "4", "5", "6", "7"];
    // All of them agree in their low 32 bits.
    let high: Vec<String> = (0..8).map(|n: Value| (n << 32).to_string()).collect();
    let least: Vec<String> = (0..8).map(|n: Value| if n == 0 { 0 } else { Value::MIN + (n << 32) }.to_string()).collect();
    let (high, least): (Vec<&str>, Vec<&str>) = (high.iter().map(|n| &**n).collect(), least.iter().map(|n| &**n).collect());
    let mut seen = Seen::default();
    for seed in 0..1_500 {
        let es = random_events(&mut Dice(seed), plain.len());
        let guarded = seed % 2 == 0;
        let printed = print(&paper_with(&es, guarded, &plain));
        seen.count(&printed);
        for names in [&NARROW[..], &WIDE, &high, &least] {
            let expected = renamed(&printed, &["main", "copy"], names);
            assert_eq!(print(&paper_with(&es, guarded, names)), expected, "seed {seed}, {names:?}");
        }
    }
    assert!(seen.accepted > 200 && seen.differs > 50, "{seen:?}");
}

/// The events print this under 01's reading and that under (g)'s.
fn expect_both(head: &str, events: &str, old: &str, new: &str) {
    let paper = paper_of(head, events);
    assert_eq!(print_by(&paper, IN_32_BITS), old, "{events}");
    assert_eq!(print(&paper), new, "{events}");
    check_any(&paper, &mut Seen::default());
}

#[test]
fn marked_by_its_events() {
    let both = |events: &str, old: &str, new: &str| expect_both(TRACE_HEAD, events, old, new);
    both("A 0 0 2147483648", "refused 3 4\n", "accepted 1\nmain 0 0\nmain 1 0\ncopy 0 0 2147483648\n");
    both("P 0 1 -2147483649; W 0 1 -2147483649", "refused 3 4\n", "accepted 2\nmain 0 0\nmain 1 -2147483649\n");
    both("A 0 0 5; U 0 0 4294967301", "refused 4 4\n", "refused 4 18\n");
    both("U 0 0 4294967296", "refused 3 4\n", "refused 3 17\n");
    both("R 0 0 4294967296", "refused 3 4\n", "refused 3 18\n");
    both("A 9 0 4294967296", "refused 3 4\n", "refused 3 5\n");
    both("R 0 0 0; A 0 0 4294967296", "refused 4 4\n", "refused 4 23\n");
    both("W 0 0 9223372036854775807", "refused 3 4\n", "refused 3 10\n");
    both("A 0 0 -9223372036854775808; U 0 0 0", "refused 3 4\n", "refused 4 18\n");
    // Refused with 4 at a later line.
    both("A 0 0 4294967296; A 0 0 9223372036854775808", "refused 3 4\n", "refused 4 4\n");
    both("A 0 0 4294967296; A 0 0 5; rubbish", "refused 3 4\n", "refused 5 4\n");
    let full = repeat("A 0 0 5", 2_000);
    both(&format!("{full}; A 0 0 4294967296"), "refused 2003 4\n", "refused 2003 9\n");
}

/// An earlier line, or another fault in the value's own line, decides under both readings.
#[test]
fn refused_for_another_reason() {
    let same = |events: &str, printed: &str| expect_both(TRACE_HEAD, events, printed, printed);
    same("U 0 0 0; A 0 0 4294967296", "refused 3 17\n");
    same("A 0 0 5; A 0 2 5; A 0 0 4294967296", "refused 4 5\n");
    same("A 00 0 4294967296", "refused 3 4\n");
    same("A 0 0 04294967296", "refused 3 4\n");
    same("A 0 0 +4294967296", "refused 3 4\n");
    same("A 0 0 4294967296 0", "refused 3 4\n");
    same("K 0 0 4294967296", "refused 3 4\n");
    same("A 0 4294967296 5", "refused 3 5\n");
    same("A 0 0 9223372036854775808", "refused 3 4\n");
    same("A 0 0 -9223372036854775809; A 0 0 4294967296", "refused 3 4\n");
    same(&format!("A 0 0 1{}", "0".repeat(999)), "refused 3 4\n");
}

#[test]
fn values_at_the_ends_of_32_bits() {
    let same = |events: &str, printed: &str| expect_both(TRACE_HEAD, events, printed, printed);
    for value in ["2147483647", "-2147483648", "0", "-1"] {
        let copy = format!("accepted 1\nmain 0 0\nmain 1 0\ncopy 0 0 {value}\n");
        same(&format!("A 0 0 {value}"), &copy);
        same(&format!("A 0 0 {value}; U 0 0 5"), "refused 4 18\n");
    }
}

/// An accepted paper gets its order, or is denied it.
#[test]
fn ordered_by_its_events() {
    let events = "K 0 0; A 0 0 x; S 0 0 x; W 0 0 x; N 0 0; K 1 0; R 1 0 x; L 1 0 x; U 1 0 x; N 1 0";
    let printed = "accepted 10\nmain 0 x\ncopy 0 0 x\ncopy 1 0 x\nsection 0 3 7\nsection 1 8 12\n";
    for value in ["4294967301", "2147483648", "-2147483649", "9223372036854775807", "-9223372036854775808"] {
        let with = |text: &str| text.replace('x', value);
        expect_both("H 2 1 1\nG 0\n", &with(events), "refused 4 4\n", &with(printed));
        assert_eq!(demand3(&outcome(&paper_of("H 2 1 1\nG 0\n", &with(events)))), Ok(()));
        let unordered = with("accepted 1\nmain 0 0\ncopy 0 0 x\nunordered 3 20\n");
        expect_both("H 2 1 1\nG 0\n", &with("A 0 0 x"), "refused 3 4\n", &unordered);
    }
}
