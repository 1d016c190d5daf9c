//! The short course of 02 (e): at most 2 threads, 4 variables, 2 locks and 200 events. Papers about these limits, with listings worked
//! out by hand for both courses; and what its listing must be, given the full one.

use crate::expected::{around, each, joined, lines, text, times, Expected};
use crate::generate::close;

/// The head at the limits, and what is printed of main memory with it.
const HEAD: &str = "H 2 4 2";
const MAIN: &str = "main 0 0, main 1 0, main 2 0, main 3 0";

/// The line of the 201st event, without a `V` line and with one. A paper of 200 events has as many lines.
const LAST_LINE: usize = 203;
const LAST_LINE_BEHIND_V: usize = 204;

pub const OVER_HEAD: &str = "refused 1 25";
pub const OVER_EVENTS: &str = "refused 203 25";
pub const OVER_EVENTS_BEHIND_V: &str = "refused 204 25";

/// What is said in the short course: what the full one says, or 25.
#[derive(Clone, Copy)]
enum Short {
    Same,
    OverHead,
    OverEvents,
}
use Short::{OverEvents, OverHead, Same};

/// Heads and `G` lines without events: name, head, `G` line, listing, what is said in the short course.
const HEADS: &[(&str, &str, &str, &str, Short)] = &[
    ("at the limits", HEAD, "G -", "accepted 0, main 0 0, main 1 0, main 2 0, main 3 0", Same),
    ("at the limits, guarded", HEAD, "G 0 1 1 0", "accepted 0, main 0 0, main 1 0, main 2 0, main 3 0", Same),
    ("no locks", "H 2 4 0", "G -", "accepted 0, main 0 0, main 1 0, main 2 0, main 3 0", Same),
    ("three threads", "H 3 4 2", "G -", "accepted 0, main 0 0, main 1 0, main 2 0, main 3 0", OverHead),
    ("three threads alone", "H 3 1 0", "G -", "accepted 0, main 0 0", OverHead),
    ("eight threads", "H 8 1 0", "G -", "accepted 0, main 0 0", OverHead),
    ("five variables", "H 2 5 2", "G 0 1 0 1 0", "accepted 0, main 0 0, main 1 0, main 2 0, main 3 0, main 4 0", OverHead),
    ("five variables alone", "H 1 5 0", "G -", "accepted 0, main 0 0, main 1 0, main 2 0, main 3 0, main 4 0", OverHead),
    (
        "ten variables",
        "H 1 10 0",
        "G -",
        "accepted 0, main 0 0, main 1 0, main 2 0, main 3 0, main 4 0, main 5 0, main 6 0, main 7 0, main 8 0, main 9 0",
        OverHead,
    ),
    ("three locks", "H 2 4 3", "G -", "accepted 0, main 0 0, main 1 0, main 2 0, main 3 0", OverHead),
    ("three locks, guarded by the first two", "H 1 2 3", "G 0 1", "accepted 0, main 0 0, main 1 0", OverHead),
    ("eight locks alone", "H 1 1 8", "G 7", "accepted 0, main 0 0", OverHead),
    ("threads and variables", "H 3 5 2", "G -", "accepted 0, main 0 0, main 1 0, main 2 0, main 3 0, main 4 0", OverHead),
    ("threads and locks", "H 3 1 3", "G 2", "accepted 0, main 0 0", OverHead),
    ("variables and locks", "H 2 5 3", "G 2 2 2 2 2", "accepted 0, main 0 0, main 1 0, main 2 0, main 3 0, main 4 0", OverHead),
    ("all three", "H 3 5 3", "G -", "accepted 0, main 0 0, main 1 0, main 2 0, main 3 0, main 4 0", OverHead),
    // 25 before 6
    ("threads, guard undeclared", "H 3 1 1", "G 1", "refused 2 6", OverHead),
    ("variables, too few guards", "H 2 5 2", "G 0 1 0 1", "refused 2 6", OverHead),
    ("variables, too many guards", "H 2 5 2", "G 0 1 0 1 0 1", "refused 2 6", OverHead),
    ("locks, guard undeclared", "H 1 1 3", "G 3", "refused 2 6", OverHead),
    ("locks, blank guards", "H 1 1 3", "", "refused 2 6", OverHead),
    ("threads, an event for guards", "H 3 1 1", "A 0 0 0", "refused 2 6", OverHead),
    // 6 within the limits
    ("guard undeclared", HEAD, "G 0 1 2 0", "refused 2 6", Same),
    ("too few guards", HEAD, "G 0 1 1", "refused 2 6", Same),
    ("too many guards", HEAD, "G 0 1 1 0 0", "refused 2 6", Same),
    // 3 before 25
    ("nine threads, five variables", "H 9 5 2", "G -", "refused 1 3", Same),
    ("three threads, 17 variables", "H 3 17 2", "G -", "refused 1 3", Same),
    ("three threads, nine locks", "H 3 4 9", "G -", "refused 1 3", Same),
    ("no thread, three locks", "H 0 4 3", "G -", "refused 1 3", Same),
    ("three threads, no variable", "H 3 0 2", "G -", "refused 1 3", Same),
    ("three threads, three fields", "H 3 4", "G -", "refused 1 3", Same),
    ("three threads, five fields", "H 3 4 2 0", "G -", "refused 1 3", Same),
    ("three threads, leading zero", "H 3 4 02", "G -", "refused 1 3", Same),
    ("leading zero in three threads", "H 03 4 2", "G -", "refused 1 3", Same),
    ("three threads, a space behind", "H 3 4 2 ", "G -", "refused 1 3", Same),
    ("three threads, lower case", "h 3 4 2", "G -", "refused 1 3", Same),
    ("threads that wrap 32 bits", "H 4294967298 4 2", "G -", "refused 1 3", Same),
    ("threads that wrap 64 bits", "H 18446744073709551618 4 2", "G -", "refused 1 3", Same),
    ("head wrong and over, guards wrong", "H 9 5 3", "X", "refused 1 3", Same),
];

/// Bytes: name, bytes, listing, what is said in the short course.
const BYTES: &[(&str, &[u8], &str, Short)] = &[
    ("head over, no guards", b"H 3 1 0\nZ 8\n", "refused 2 6", OverHead),
    ("head over, a right trailer", b"H 3 1 3\nG -\nZ 12\n", "accepted 0, main 0 0", OverHead),
    // 2 before 25
    ("head over, trailer counts wrong", b"H 3 5 3\nG -\nZ 11\n", "refused 0 2", Same),
    ("head over, no trailer", b"H 3 5 3\nG -\n", "refused 0 2", Same),
    ("head over, no byte 10 at the end", b"H 3 5 3\nG -\nZ 12", "refused 0 2", Same),
];

/// Events of papers with few events: name, head, `G` line, events, listing, what is said in the short course.
const EVENTS: &[(&str, &str, &str, &str, &str, Short)] = &[
    ("head over, a use without a copy", "H 3 4 2", "G -", "U 0 0 0", "refused 3 17", OverHead),
    ("head over, no event", "H 2 5 2", "G -", "A 0 0 5, X", "refused 4 4", OverHead),
    ("head over, undeclared", "H 2 4 3", "G -", "K 0 3", "refused 3 5", OverHead),
    ("the third thread", "H 3 1 1", "G 0", "K 2 0, N 2 0", "accepted 2, main 0 0, section 2 3 4", OverHead),
    ("the third thread, not declared", "H 2 1 1", "G 0", "K 2 0, N 2 0", "refused 3 5", Same),
    ("the fifth variable, not declared", HEAD, "G -", "A 0 4 0", "refused 3 5", Same),
    ("the third lock, not declared", HEAD, "G -", "K 0 2", "refused 3 5", Same),
    ("the second thread, not declared", "H 1 4 2", "G -", "A 1 0 0", "refused 3 5", Same),
    ("the fourth variable, not declared", "H 2 3 2", "G -", "A 0 3 0", "refused 3 5", Same),
    ("the second lock, not declared", "H 2 4 1", "G -", "K 0 1", "refused 3 5", Same),
    (
        "the greatest numbers",
        HEAD,
        "G 1 1 1 1",
        "K 1 1, A 1 3 -9223372036854775808, S 1 3 -9223372036854775808, W 1 3 -9223372036854775808, N 1 1",
        "accepted 5, main 0 0, main 1 0, main 2 0, main 3 -9223372036854775808, copy 1 3 -9223372036854775808, section 1 3 7",
        Same,
    ),
    ("values with the same low 32 bits", HEAD, "G -", "A 1 3 5, U 1 3 4294967301", "refused 4 18", Same),
    ("20", HEAD, "G 0 0 0 0", "A 0 0 5", "accepted 1, main 0 0, main 1 0, main 2 0, main 3 0, copy 0 0 5, unordered 3 20", Same),
    (
        "21",
        HEAD,
        "G 0 0 0 0",
        "K 1 0, K 1 1, N 1 1, K 1 1",
        "accepted 4, main 0 0, main 1 0, main 2 0, main 3 0, unordered 6 21",
        Same,
    ),
    ("22", HEAD, "G 0 0 0 0", "P 0 0 5", "accepted 1, main 0 0, main 1 0, main 2 0, main 3 0, unordered 4 22", Same),
];

/// A 201st line: name, line, the listing of the full course after 200 assigns, what is said in the short course.
const LINES: &[(&str, &str, &str, Short)] = &[
    ("another letter", "X", "refused 203 4", Same),
    ("too few fields", "A 0 0", "refused 203 4", Same),
    ("too many fields", "A 0 0 5 0", "refused 203 4", Same),
    ("two zeros", "A 0 0 00", "refused 203 4", Same),
    ("a lock with a value", "K 0 0 0", "refused 203 4", Same),
    ("a value outside 64 bits", "A 0 0 9223372036854775808", "refused 203 4", Same),
    ("a space behind", "K 0 0 ", "refused 203 4", Same),
    ("a head", HEAD, "refused 203 4", Same),
    ("undeclared and malformed", "A 9 9 00", "refused 203 4", Same),
    ("thread undeclared", "A 2 0 5", "refused 203 5", OverEvents),
    ("variable undeclared", "A 0 4 5", "refused 203 5", OverEvents),
    ("lock undeclared", "K 0 2", "refused 203 5", OverEvents),
    ("thread that wraps 64 bits", "K 18446744073709551616 0", "refused 203 5", OverEvents),
    ("no partner", "L 0 0 0", "refused 203 10", OverEvents),
    ("not held", "N 0 0", "refused 203 12", OverEvents),
    ("not fresh", "S 0 0 0", "refused 203 14", OverEvents),
    ("not usable", "U 0 0 0", "refused 203 17", OverEvents),
    ("another value", "R 0 0 1", "refused 203 18", OverEvents),
    ("a dead read", "R 1 3 0", "refused 203 23", OverEvents),
];

/// What orders have behind `accepted` and main memory, the same in both courses: name, 200 events.
fn ordered() -> Vec<(&'static str, String, String)> {
    vec![
        ("100 sections", times(100, "K 0 0, N 0 0"), each(100, |i| format!("section 0 {} {}", 2 * i + 3, 2 * i + 4))),
        (
            "100 sections of two threads on two locks",
            each(100, |i| format!("K {0} {1}, N {0} {1}", i % 2, i / 2 % 2)),
            each(100, |i| format!("section {} {} {}", i % 2, 2 * i + 3, 2 * i + 4)),
        ),
        ("100 K in one section", joined([times(100, "K 1 1"), times(100, "N 1 1")]), "section 1 3 202".into()),
        (
            "the first K and the last N of a section, 99 sections between",
            around("K 0 0", 99, "K 1 1, N 1 1", "N 0 0"),
            joined(["section 0 3 202".into(), each(99, |i| format!("section 1 {} {}", 2 * i + 4, 2 * i + 5))]),
        ),
        (
            "the first K and the last K of a section, 98 sections between",
            around("K 0 0", 98, "K 1 1, N 1 1", "K 0 0, N 0 0, N 0 0"),
            joined([each(98, |i| format!("section 1 {} {}", 2 * i + 4, 2 * i + 5)), "section 0 3 202".into()]),
        ),
        (
            "196 uses in one section",
            around("K 1 0, R 1 3 0, L 1 3 0", 196, "U 1 3 0", "N 1 0"),
            "copy 1 3 0, section 1 3 202".into(),
        ),
    ]
}

/// Papers with about 200 events that have no order: name, `G` line, events, what the listing has behind main memory.
fn unordered() -> Vec<(&'static str, &'static str, String, &'static str)> {
    let sections = |n: usize| times(n, "K 0 0, N 0 0");
    let with = |n: usize, then: &str| joined([sections(n), then.into()]);
    let guards = "G 0 0 0 0";
    vec![
        ("no guards", "G -", sections(100), ""),
        ("20 at event 200", guards, with(99, "R 0 0 0, A 1 0 5"), ", copy 1 0 5, unordered 202 20"),
        ("21 at event 200", guards, with(98, "K 0 0, K 0 0, N 0 0, K 0 0"), ", unordered 202 21"),
        ("22, a lock held after event 200", guards, with(99, "K 0 0, K 0 0"), ", unordered 203 22"),
        ("22, an assign owed after event 200", guards, with(99, "R 0 1 0, P 0 0 5"), ", unordered 203 22"),
    ]
}

/// 201 events and more with guards: name, events, what the full course prints behind main memory.
fn past_200() -> Vec<(&'static str, String, String)> {
    let sections = |n: usize| times(n, "K 0 0, N 0 0");
    let entries = |n: usize| each(n, |i| format!("section 0 {} {}", 2 * i + 3, 2 * i + 4));
    vec![
        ("100 sections and a read", joined([sections(100), "R 0 0 0".into()]), entries(100)),
        ("101 sections", sections(101), entries(101)),
        (
            "one section over event 201",
            joined([sections(99), "R 0 0 0, K 0 0, N 0 0".into()]),
            joined([entries(99), "section 0 202 203".into()]),
        ),
        (
            "20 at event 200, and one event more",
            joined([sections(99), "R 0 0 0, A 1 0 5, R 0 0 0".into()]),
            "copy 1 0 5, unordered 202 20".into(),
        ),
        ("22 after event 201", joined([sections(100), "K 0 0".into()]), "unordered 204 22".into()),
    ]
}

/// A paper with its listing, and that of the short course.
fn expected(name: &str, paper: Vec<u8>, listing: &str, short: Short) -> (Expected, String) {
    let short = match short {
        Same => listing,
        OverHead => OVER_HEAD,
        OverEvents => OVER_EVENTS,
    };
    (Expected { name: format!("short course: {name}"), paper, listing: lines(listing) }, lines(short))
}

/// Papers with their listings, and those of the short course.
pub fn papers() -> Vec<(Expected, String)> {
    let mut list = Vec::new();
    for (name, head, guards, listing, short) in HEADS {
        list.push(expected(&format!("head: {name}"), text(head, guards, ""), listing, *short));
    }
    for (name, bytes, listing, short) in BYTES {
        list.push(expected(&format!("bytes: {name}"), bytes.to_vec(), listing, *short));
    }
    for (name, head, guards, events, listing, short) in EVENTS {
        list.push(expected(name, text(head, guards, events), listing, *short));
    }
    let mut add = |name: &str, head: &str, guards: &str, events: String, listing: &str, short: Short| {
        list.push(expected(name, text(head, guards, &events), listing, short))
    };
    // assigns: 199, 200, 201 and more
    let assigns = |n: usize| times(n, "A 1 3 5");
    let then = |n: usize, last: &str| joined([assigns(n), last.into()]);
    let taken = |n: usize| format!("accepted {n}, {MAIN}, copy 1 3 5");
    for n in [199, 200] {
        add(&format!("{n} events"), HEAD, "G -", assigns(n), &taken(n), Same);
    }
    for n in [201, 202, 2000] {
        add(&format!("{n} events"), HEAD, "G -", assigns(n), &taken(n), OverEvents);
    }
    add("2,001 events", HEAD, "G -", assigns(2001), "refused 2003 9", OverEvents);
    for (name, line, listing, short) in LINES {
        add(&format!("201st line: {name}"), HEAD, "G -", then(200, line), listing, *short);
    }
    let least = then(200, "A 0 0 -9223372036854775808");
    let listing = format!("accepted 201, {MAIN}, copy 0 0 -9223372036854775808, copy 1 3 5");
    add("201st line: the least value", HEAD, "G -", least, &listing, OverEvents);
    // another line behind or before the 201st
    add("202nd line is no event", HEAD, "G -", then(201, "X"), "refused 204 4", OverEvents);
    add("201st and 202nd line are no events", HEAD, "G -", then(200, "X, Y"), "refused 203 4", Same);
    add("202nd event bad", HEAD, "G -", then(201, "U 0 0 0"), "refused 204 17", OverEvents);
    for (name, line, number) in [("checked", "U 0 0 0", 17), ("undeclared", "A 2 0 0", 5), ("no event", "A 2 0", 4)] {
        let refused = format!("refused 202 {number}");
        add(&format!("event 200 is {name}"), HEAD, "G -", then(199, line), &refused, Same);
        let more = joined([assigns(199), line.into(), "A 0 0 0, X".into()]);
        add(&format!("event 200 is {name}, more behind"), HEAD, "G -", more, &refused, Same);
        let early = joined([assigns(50), line.into(), assigns(200)]);
        add(&format!("event 51 is {name}, 200 behind"), HEAD, "G -", early, &format!("refused 53 {number}"), Same);
    }
    // a head over the limits, and events
    for (n, listing) in [(200, taken(200)), (201, taken(201)), (2001, "refused 2003 9".into())] {
        add(&format!("head over, {n} events"), "H 3 4 2", "G -", assigns(n), &listing, OverHead);
    }
    add("head over, 201st line is no event", "H 2 4 3", "G -", then(200, "X"), "refused 203 4", OverHead);
    add("head wrong and over, 201 events", "H 9 5 2", "G -", assigns(201), "refused 1 3", Same);
    add("guards wrong, 201 events", HEAD, "G 0", assigns(201), "refused 2 6", Same);
    // orders
    for (name, events, rest) in ordered() {
        add(&format!("order: {name}"), HEAD, "G 0 0 1 0", events, &format!("accepted 200, {MAIN}, {rest}"), Same);
    }
    for (name, guards, events, rest) in unordered() {
        add(&format!("order: {name}"), HEAD, guards, events, &format!("accepted 200, {MAIN}{rest}"), Same);
    }
    for (name, events, rest) in past_200() {
        let listing = format!("accepted {}, {MAIN}, {rest}", events.split(", ").count());
        add(&format!("order: {name}"), HEAD, "G 0 0 0 0", events, &listing, OverEvents);
    }
    let one_less = joined([times(99, "K 0 0, N 0 0"), "R 0 0 0".into()]);
    let entries = each(99, |i| format!("section 0 {} {}", 2 * i + 3, 2 * i + 4));
    add("order: 199 events", HEAD, "G 1 1 1 1", one_less, &format!("accepted 199, {MAIN}, {entries}"), Same);
    // 1 and 2 before 25, with 201 events
    let mut long = format!("H 3 4 2\nG -\n{}", "A 1 3 5\n".repeat(201)).into_bytes();
    let short_by_one = [&long[..], format!("Z {}\n", long.len() - 1).as_bytes()].concat();
    list.push(expected("201 events, trailer counts wrong", short_by_one, "refused 0 2", Same));
    long.resize(65_537 - 9, b'1');
    long.push(10);
    list.push(expected("head over, 65,537 bytes", close(long), "refused 0 1", Same));
    list
}

/// Line and number of a refusal.
fn refused(listing: &str) -> Option<(usize, usize)> {
    let (line, number) = listing.strip_prefix("refused ")?.trim_end().split_once(' ')?;
    Some((line.parse().ok()?, number.parse().ok()?))
}

/// Whether a head that is right by the limits of the full course is over those of the short one.
fn over(paper: &[u8]) -> bool {
    let head = paper.split(|&b| b == 10).next().unwrap_or(&[]);
    let numbers = head.split(|&b| b == b' ').skip(1).map(|n| String::from_utf8_lossy(n).parse().unwrap_or(0));
    numbers.zip([2, 4, 2]).any(|(n, most): (usize, usize)| n > most)
}

/// Whether line 3 is meant as a `V` line.
pub fn has_v_line(paper: &[u8]) -> bool {
    paper.split(|&b| b == 10).nth(2).is_some_and(|line| line.first() == Some(&b'V'))
}

/// The line of the 201st event.
fn last_line(paper: &[u8]) -> usize {
    if has_v_line(paper) {
        LAST_LINE_BEHIND_V
    } else {
        LAST_LINE
    }
}

/// The listing of the short course, from that of the full one: the same, but for 25.
pub fn from_full(paper: &[u8], full: &str) -> String {
    let last = last_line(paper);
    match refused(full) {
        Some((_, 1..=3)) => full.into(),
        _ if over(paper) => lines(OVER_HEAD),
        Some((line, _)) if line < last => full.into(),
        Some((line, 4)) if line == last => full.into(),
        _ if paper.iter().filter(|&&b| b == 10).count() <= last => full.into(),
        _ => format!("refused {last} 25\n"),
    }
}

/// What must occur among papers about the limits: name, and what holds of a paper, its listing, and that of the short course.
pub type Situation = (&'static str, fn(&[u8], &str, &str) -> bool);

fn is_over_head(short: &str) -> bool {
    short.trim_end() == OVER_HEAD
}

fn is_over_events(short: &str) -> bool {
    [OVER_EVENTS, OVER_EVENTS_BEHIND_V].contains(&short.trim_end())
}

/// The listing of an accepted paper of 200 events whose last line begins and ends so.
fn ends(short: &str, begin: &str, end: &str) -> bool {
    let last = short.lines().last().unwrap_or("");
    short.starts_with("accepted 200\n") && last.starts_with(begin) && last.ends_with(end)
}

pub const SITUATIONS: [Situation; 28] = [
    ("25 at the head, accepted in the full course", |_, full, short| is_over_head(short) && refused(full).is_none()),
    ("25 at the head, 6 in the full course", |_, full, short| is_over_head(short) && refused(full) == Some((2, 6))),
    ("25 at the head, 6 at line 3 in the full course", |_, full, short| is_over_head(short) && refused(full) == Some((3, 6))),
    ("25 at the head, an event refused in the full course", |_, full, short| {
        is_over_head(short) && refused(full).is_some_and(|(line, number)| line > 2 && number != 6)
    }),
    ("3", |_, _, short| refused(short) == Some((1, 3))),
    ("6", |_, _, short| refused(short) == Some((2, 6))),
    ("6 at line 3", |_, _, short| refused(short) == Some((3, 6))),
    ("25 at event 201, accepted in the full course", |_, full, short| is_over_events(short) && refused(full).is_none()),
    ("25 at event 201 behind a V line, accepted in the full course", |_, full, short| {
        short.trim_end() == OVER_EVENTS_BEHIND_V && refused(full).is_none()
    }),
    ("25 at event 201, undeclared", |paper, full, short| is_over_events(short) && refused(full) == Some((last_line(paper), 5))),
    ("25 at event 201, which breaks a row", |paper, full, short| {
        is_over_events(short) && refused(full).is_some_and(|(line, number)| line == last_line(paper) && number > 9)
    }),
    ("25 at event 201, which breaks 26, 27 or 28", |paper, full, short| {
        is_over_events(short)
            && refused(full).is_some_and(|(line, number)| line == last_line(paper) && (26..=28).contains(&number))
    }),
    ("25 at event 201, which breaks 29 or 30", |paper, full, short| {
        is_over_events(short) && refused(full).is_some_and(|(line, number)| line == last_line(paper) && number > 28)
    }),
    ("25 at event 201, a later line refused in the full course", |paper, full, short| {
        is_over_events(short) && refused(full).is_some_and(|(line, _)| line > last_line(paper))
    }),
    ("4 at line 203", |_, _, short| refused(short) == Some((LAST_LINE, 4))),
    ("4 at line 204", |_, _, short| refused(short) == Some((LAST_LINE_BEHIND_V, 4))),
    ("event 200 refused", |paper, _, short| refused(short).is_some_and(|(line, _)| line + 1 == last_line(paper))),
    ("199 events accepted", |_, _, short| short.starts_with("accepted 199\n")),
    ("200 events with an order", |_, _, short| ends(short, "section ", "")),
    ("200 events with an order and a C", |paper, _, short| {
        ends(short, "section ", "") && paper.windows(2).any(|pair| pair == b"\nC")
    }),
    ("200 events with a Y, 22", |paper, _, short| {
        ends(short, "unordered 20", " 22") && paper.windows(2).any(|pair| pair == b"\nY")
    }),
    ("200 events behind a V line with an order", |paper, _, short| has_v_line(paper) && ends(short, "section ", "")),
    ("200 events without guards", |paper, _, short| ends(short, "", "") && paper.windows(5).any(|line| line == b"\nG -\n")),
    ("200 events behind a V line without guards", |paper, _, short| {
        has_v_line(paper) && ends(short, "", "") && paper.windows(5).any(|line| line == b"\nG -\n")
    }),
    ("200 events, 20", |_, _, short| ends(short, "unordered ", " 20")),
    ("200 events, 21", |_, _, short| ends(short, "unordered ", " 21")),
    ("200 events, 22", |_, _, short| ends(short, "unordered 203 22", "")),
    ("200 events behind a V line, 22", |_, _, short| ends(short, "unordered 204 22", "")),
];
