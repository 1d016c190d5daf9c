//! Papers about the number of K, with listings worked out by hand. One with an order has at most 1,000, for each K has its N.

use crate::expected::{around, each, joined, lines, text, times, Expected};

/// Papers of 2,000 events that have an order: name, events, what the listing has behind main memory. Guard of the variable is lock 0.
fn ordered() -> Vec<(&'static str, String, String)> {
    // four threads in turn, the other way round in the last turn
    let turn = |i: usize| if i < 996 { i % 4 } else { 3 - i % 4 };
    vec![
        ("1,000 sections", times(1000, "K 0 0, N 0 0"), each(1000, |i| format!("section 0 {} {}", 2 * i + 3, 2 * i + 4))),
        (
            "1,000 sections of eight threads on eight locks",
            each(1000, |i| format!("K {0} {1}, N {0} {1}", i % 8, i / 8 % 8)),
            each(1000, |i| format!("section {} {} {}", i % 8, 2 * i + 3, 2 * i + 4)),
        ),
        ("1,000 K in one section", joined([times(1000, "K 0 0"), times(1000, "N 0 0")]), "section 0 3 2002".into()),
        (
            "1,000 K in four sections at once, the last four in the opposite order",
            joined([each(1000, |i| format!("K {0} {0}", turn(i))), each(1000, |i| format!("N {0} {0}", i % 4))]),
            "section 3 6 2002, section 2 5 2001, section 1 4 2000, section 0 3 1999".into(),
        ),
        (
            "500 sections of two K on one lock",
            times(500, "K 0 0, K 0 0, N 0 0, N 0 0"),
            each(500, |i| format!("section 0 {} {}", 4 * i + 3, 4 * i + 6)),
        ),
        (
            "500 sections of two K on one lock, every second one inside the one before",
            times(250, "K 0 0, K 1 1, K 1 1, K 0 0, N 0 0, N 1 1, N 1 1, N 0 0"),
            each(250, |i| format!("section 1 {} {}, section 0 {} {}", 8 * i + 4, 8 * i + 9, 8 * i + 3, 8 * i + 10)),
        ),
        (
            "the first K and the last N of a section, 999 sections between",
            around("K 0 0", 999, "K 1 1, N 1 1", "N 0 0"),
            joined(["section 0 3 2002".into(), each(999, |i| format!("section 1 {} {}", 2 * i + 4, 2 * i + 5))]),
        ),
        (
            "the first K and the last K of a section, 998 sections between",
            around("K 0 0", 998, "K 1 1, N 1 1", "K 0 0, N 0 0, N 0 0"),
            joined([each(998, |i| format!("section 1 {} {}", 2 * i + 4, 2 * i + 5)), "section 0 3 2002".into()]),
        ),
        (
            "two K, 1,996 events of other kinds between",
            around("K 0 0, R 0 0 0, L 0 0 0", 1994, "U 0 0 0", "K 1 1, N 1 1, N 0 0"),
            "copy 0 0 0, section 0 3 2002, section 1 2000 2001".into(),
        ),
    ]
}

/// Papers without an order: name, `G` line, events, listing.
fn unordered() -> Vec<(&'static str, &'static str, String, &'static str)> {
    vec![
        (
            "1,000 K and 999 N",
            "G 0",
            around("R 0 0 0", 999, "K 0 0, N 0 0", "K 0 0"),
            "accepted 2000, main 0 0, unordered 2003 22",
        ),
        (
            "1,600 K, 400 sections after 1,200 of them",
            "G 0",
            joined([times(1200, "K 1 1"), times(400, "K 0 0, N 0 0")]),
            "accepted 2000, main 0 0, unordered 2003 22",
        ),
        ("2,000 K", "G 0", times(2000, "K 0 0"), "accepted 2000, main 0 0, unordered 2003 22"),
        (
            "21 at the 1,001st K",
            "G 0",
            joined([times(998, "K 0 0, N 0 0"), "K 0 0, K 0 0, N 0 0, K 0 0".into()]),
            "accepted 2000, main 0 0, unordered 2002 21",
        ),
        (
            "20 after 1,500 K",
            "G 0",
            joined([times(1001, "K 1 1"), times(499, "K 0 0, N 0 0"), "A 0 0 5".into()]),
            "accepted 2000, main 0 0, copy 0 0 5, unordered 2002 20",
        ),
        ("1,000 sections and one event more", "G 0", joined([times(1000, "K 0 0, N 0 0"), "K 0 0".into()]), "refused 2003 9"),
        ("1,000 sections and no guards", "G -", times(1000, "K 0 0, N 0 0"), "accepted 2000, main 0 0"),
    ]
}

pub fn papers() -> Vec<Expected> {
    let paper = |name: &str, guards: &str, events: &str, listing: &str| Expected {
        name: format!("locking: {name}"),
        paper: text("H 8 1 8", guards, events),
        listing: lines(listing),
    };
    let ordered = ordered().into_iter().map(|(name, events, rest)| {
        let listing = format!("accepted 2000, main 0 0, {rest}");
        paper(name, "G 0", &events, &listing)
    });
    let unordered = unordered().into_iter().map(|(name, guards, events, listing)| paper(name, guards, &events, listing));
    ordered.chain(unordered).collect()
}
