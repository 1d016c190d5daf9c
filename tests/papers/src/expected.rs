//! Papers with the listing that documents 01 and 02 (a), (d), (g) and (k) give, or that follows from their words, worked out by hand.
//! Those about the range of values are in `values`, those about the number of K in `locking`.

use crate::generate::close;
use crate::{locking, values};

pub struct Expected {
    pub name: String,
    pub paper: Vec<u8>,
    pub listing: String,
}

/// A paper from its head, `G` line and events, with commas for line ends; the trailer counts right.
pub fn text(head: &str, guards: &str, events: &str) -> Vec<u8> {
    let mut body = format!("{head}\n{guards}\n");
    for line in events.split(", ").filter(|line| !line.is_empty()) {
        body += line;
        body += "\n";
    }
    close(body.into_bytes())
}

/// A listing, with commas for line ends.
pub fn lines(listing: &str) -> String {
    listing.split(", ").map(|line| format!("{line}\n")).collect()
}

/// Lines joined by commas.
pub fn joined(lines: impl IntoIterator<Item = String>) -> String {
    lines.into_iter().collect::<Vec<String>>().join(", ")
}

/// The lines of each number below n.
pub fn each(n: usize, lines: impl Fn(usize) -> String) -> String {
    joined((0..n).map(lines))
}

/// So many times these lines.
pub fn times(n: usize, lines: &str) -> String {
    each(n, |_| lines.into())
}

/// These lines, so many times the next, and the last.
pub fn around(first: &str, n: usize, lines: &str, last: &str) -> String {
    joined([first.into(), times(n, lines), last.into()])
}

/// The paper of "One paper whole".
const WHOLE: &str = "H 2 1 1\nG 0\nK 0 0\nA 0 0 5\nS 0 0 5\nW 0 0 5\nN 0 0\nK 1 0\nR 1 0 5\nL 1 0 5\nU 1 0 5\nN 1 0\nZ 84\n";
const WHOLE_LISTING: &str = "accepted 10, main 0 5, copy 0 0 5, copy 1 0 5, section 0 3 7, section 1 8 12";

/// The 1-2-3 run of document 000, section 2.3.
const ONE_TWO_THREE: &str = "K 0 0, A 0 1 2, S 0 1 2, W 0 1 2, N 0 0, K 1 0, A 1 1 3, S 1 1 3, W 1 1 3, R 0 1 3, A 1 1 100, \
S 1 1 100, W 1 1 100, N 1 0, A 1 0 1, S 1 0 1, W 1 0 1, R 0 0 1, L 0 0 1, U 0 0 1, U 0 1 2, L 0 1 3, U 0 1 3";
const ONE_TWO_THREE_LISTING: &str = "accepted 23, main 0 1, main 1 100, copy 0 0 1, copy 0 1 3, copy 1 0 1, copy 1 1 100";

/// "Short traces", with what 02 (a) and (d) change: events and listing. Two threads, variables and locks, no guards.
const SHORT: &[(&str, &str)] = &[
    ("", "accepted 0, main 0 0, main 1 0"),
    ("U 0 0 0", "refused 3 17"),
    ("R 0 0 0, L 0 0 0, U 0 0 0", "accepted 3, main 0 0, main 1 0, copy 0 0 0"),
    ("R 0 0 0, K 0 0, L 0 0 0, U 0 0 0", "refused 6 17"),
    ("R 0 0 0, A 0 0 5, L 0 0 0", "refused 4 23"),
    ("R 0 0 0, A 0 0 5, S 0 0 5, W 0 0 5, L 0 0 0", "refused 4 23"),
    ("A 0 0 5, S 0 0 5, S 0 0 5", "refused 5 14"),
    ("A 0 0 5, K 0 0, S 0 0 5", "refused 5 17"),
    ("K 0 0, A 0 0 5, S 0 0 5, N 0 0", "refused 6 16"),
    ("P 0 0 5, W 0 0 5, B 0 0 5", "accepted 3, main 0 5, main 1 0, copy 0 0 5"),
    ("P 0 0 5, K 0 0", "refused 4 13"),
    ("K 0 0, K 0 0, N 0 0, K 1 0", "refused 6 11"),
    ("K 0 0, P 0 0 5, N 0 0", "accepted 3, main 0 0, main 1 0"),
];

/// Further traces on the words and the rows: name, events, listing. Two threads, variables and locks, no guards.
const TRACES: &[(&str, &str, &str)] = &[
    ("fresh is ended by B", "A 0 0 1, P 0 0 5, B 0 0 5, S 0 0 5", "refused 6 14"),
    ("fresh is not ended by P", "K 0 0, A 0 0 1, P 0 0 5, W 0 0 5, N 0 0", "refused 7 15"),
    ("fresh is ended by S", "A 0 0 5, S 0 0 5, W 0 0 5, R 0 0 5, L 0 0 5", "accepted 5, main 0 5, main 1 0, copy 0 0 5"),
    ("use between P and B", "A 0 0 1, P 0 0 5, U 0 0 1, B 0 0 5, U 0 0 5", "accepted 5, main 0 0, main 1 0, copy 0 0 5"),
    ("P sets no copy", "A 0 0 1, P 0 0 5, U 0 0 5", "refused 5 18"),
    (
        "assign between P and B",
        "P 0 0 5, A 0 0 1, U 0 0 1, B 0 0 5, U 0 0 5, W 0 0 5",
        "accepted 6, main 0 5, main 1 0, copy 0 0 5",
    ),
    ("store between P and B", "P 0 0 5, A 0 0 1, S 0 0 1", "refused 5 13"),
    ("load between P and B", "P 0 0 5, W 0 0 5, R 0 0 5, L 0 0 5", "refused 6 13"),
    ("load between P and B, fresh", "P 0 0 5, W 0 0 5, R 0 0 5, A 0 0 1, L 0 0 5", "refused 7 13"),
    ("load of another value between P and B", "P 0 0 5, W 0 0 5, R 0 0 5, L 0 0 6", "refused 6 13"),
    ("P between P and B", "P 0 0 5, P 0 0 5", "refused 4 13"),
    ("P and B of two variables", "P 0 0 5, P 0 1 6, B 0 1 6, B 0 0 5", "accepted 4, main 0 0, main 1 0, copy 0 0 5, copy 0 1 6"),
    ("owed on another variable bars no load", "R 0 1 0, P 0 0 5, L 0 1 0", "accepted 3, main 0 0, main 1 0, copy 0 1 0"),
    ("owed bars no unlock", "K 0 0, P 0 0 5, W 0 0 5, N 0 0, B 0 0 5", "accepted 5, main 0 5, main 1 0, copy 0 0 5"),
    ("owed of another thread", "P 0 0 5, K 1 0", "accepted 2, main 0 0, main 1 0"),
    ("B with nothing owed", "A 0 0 5, B 0 0 5", "refused 4 10"),
    ("B twice", "P 0 0 5, B 0 0 5, B 0 0 6", "refused 5 10"),
    ("B of another value", "P 0 0 5, B 0 0 6", "refused 4 18"),
    ("W of another value", "A 0 0 5, S 0 0 5, W 0 0 6", "refused 5 18"),
    ("W takes the oldest store", "A 0 0 1, S 0 0 1, P 0 0 2, B 0 0 2, W 0 0 2", "refused 7 18"),
    (
        "two stores, two writes",
        "A 0 0 1, S 0 0 1, A 0 0 2, S 0 0 2, W 0 0 1, W 0 0 2",
        "accepted 6, main 0 2, main 1 0, copy 0 0 2",
    ),
    ("W by another thread", "A 0 0 5, S 0 0 5, W 1 0 5", "refused 5 10"),
    ("L takes the oldest read", "R 0 0 0, A 1 0 5, S 1 0 5, W 1 0 5, R 0 0 5, L 0 0 5", "refused 8 18"),
    ("L without a read, owed and fresh", "A 0 0 1, P 0 0 5, L 0 0 0", "refused 5 10"),
    ("L without a read, fresh", "A 0 0 1, L 0 0 0", "refused 4 10"),
    ("L without a read, a store outstanding", "A 0 0 1, S 0 0 1, L 0 0 0", "refused 5 10"),
    // dead reads, at R: an outstanding store
    ("R with an outstanding store", "A 0 0 5, S 0 0 5, R 0 0 0, L 0 0 0", "refused 5 23"),
    ("R with an outstanding store, one written", "A 0 0 1, S 0 0 1, A 0 0 2, S 0 0 2, W 0 0 1, R 0 0 1", "refused 8 23"),
    ("R with an outstanding early store after its B", "P 0 0 5, B 0 0 5, R 0 0 0, L 0 0 0", "refused 5 23"),
    ("R with an outstanding early store before its B", "P 0 0 5, R 0 0 0, W 0 0 5, B 0 0 5, L 0 0 0", "refused 4 23"),
    ("R fresh and owed with an outstanding early store", "A 0 0 1, P 0 0 5, R 0 0 0", "refused 5 23"),
    ("R owed, an older store written and the early one not", "A 0 0 1, S 0 0 1, P 0 0 5, W 0 0 1, R 0 0 1", "refused 7 23"),
    ("R of another value with an outstanding store", "A 0 0 5, S 0 0 5, R 0 0 5", "refused 5 18"),
    (
        "R of another thread with an outstanding store",
        "A 0 0 5, S 0 0 5, R 1 0 0, L 1 0 0",
        "accepted 4, main 0 0, main 1 0, copy 0 0 5, copy 1 0 0",
    ),
    (
        "R of another variable with an outstanding store",
        "A 0 0 5, S 0 0 5, R 0 1 0, L 0 1 0",
        "accepted 4, main 0 0, main 1 0, copy 0 0 5, copy 0 1 0",
    ),
    // at R: a fresh assign, not owed
    ("R with a fresh assign", "A 0 0 5, R 0 0 0", "refused 4 23"),
    ("R with a fresh assign after a write", "A 0 0 1, S 0 0 1, W 0 0 1, A 0 0 2, R 0 0 1", "refused 7 23"),
    ("R with a fresh assign before a lock", "A 0 0 5, K 0 0, R 0 0 0", "refused 5 23"),
    ("R with a fresh assign after B", "P 0 0 5, W 0 0 5, B 0 0 5, A 0 0 6, R 0 0 5", "refused 7 23"),
    ("R with a fresh assign, owed on another variable", "P 0 1 7, W 0 1 7, A 0 0 5, R 0 0 0", "refused 6 23"),
    ("R with a fresh assign, owed by another thread", "P 1 0 7, W 1 0 7, A 0 0 5, R 0 0 7", "refused 6 23"),
    ("R of another value with a fresh assign", "A 0 0 5, R 0 0 5", "refused 4 18"),
    (
        "R of others with a fresh assign",
        "A 0 0 5, R 0 1 0, R 1 0 0, L 0 1 0, L 1 0 0",
        "accepted 5, main 0 0, main 1 0, copy 0 0 5, copy 0 1 0, copy 1 0 0",
    ),
    // at A: an outstanding read, not owed
    ("A with an outstanding read, one loaded", "R 0 0 0, R 0 0 0, L 0 0 0, A 0 0 5", "refused 6 23"),
    ("A with an outstanding read before a lock", "R 0 0 0, K 0 0, A 0 0 5", "refused 5 23"),
    ("A with an outstanding read after B", "P 0 0 5, W 0 0 5, R 0 0 5, B 0 0 5, A 0 0 1", "refused 7 23"),
    ("A with an outstanding read, owed on another variable", "P 0 1 5, R 0 0 0, A 0 0 1", "refused 5 23"),
    ("A with an outstanding read, owed by another thread", "P 1 0 5, R 0 0 0, A 0 0 1", "refused 5 23"),
    ("A after the load", "R 0 0 0, L 0 0 0, A 0 0 5", "accepted 3, main 0 0, main 1 0, copy 0 0 5"),
    (
        "A with outstanding reads of others",
        "R 0 1 0, R 1 0 0, A 0 0 5, L 0 1 0, L 1 0 0",
        "accepted 5, main 0 0, main 1 0, copy 0 0 5, copy 0 1 0, copy 1 0 0",
    ),
    // at P: an outstanding read
    ("P with an outstanding read", "R 0 0 0, P 0 0 5", "refused 4 23"),
    ("P with an outstanding read after B", "P 0 0 5, W 0 0 5, R 0 0 5, B 0 0 5, P 0 0 6", "refused 7 23"),
    ("P with an outstanding read, owed", "P 0 0 5, W 0 0 5, R 0 0 5, P 0 0 6", "refused 6 13"),
    ("P after the load", "R 0 0 0, L 0 0 0, P 0 0 5, W 0 0 5, B 0 0 5", "accepted 5, main 0 5, main 1 0, copy 0 0 5"),
    (
        "P with outstanding reads of others",
        "R 0 1 0, R 1 0 0, P 0 0 5, W 0 0 5, L 0 1 0, L 1 0 0",
        "accepted 6, main 0 5, main 1 0, copy 0 1 0, copy 1 0 0",
    ),
    // owed, and the early store written: the B comes before the load and ends fresh
    (
        "A between a read and B",
        "P 0 0 5, W 0 0 5, R 0 0 5, A 0 0 1, B 0 0 5, L 0 0 5",
        "accepted 6, main 0 5, main 1 0, copy 0 0 5",
    ),
    (
        "A between a read and B, used",
        "P 0 0 5, W 0 0 5, R 0 0 5, A 0 0 1, U 0 0 1, B 0 0 5, U 0 0 5, L 0 0 5, U 0 0 5",
        "accepted 9, main 0 5, main 1 0, copy 0 0 5",
    ),
    (
        "R owed with a fresh assign before P",
        "A 0 0 1, P 0 0 5, W 0 0 5, R 0 0 5, B 0 0 5, L 0 0 5",
        "accepted 6, main 0 5, main 1 0, copy 0 0 5",
    ),
    (
        "R owed with a fresh assign after P",
        "P 0 0 5, A 0 0 1, W 0 0 5, R 0 0 5, B 0 0 5, L 0 0 5",
        "accepted 6, main 0 5, main 1 0, copy 0 0 5",
    ),
    (
        "R owed of what another thread wrote",
        "P 0 0 5, W 0 0 5, A 1 0 7, S 1 0 7, W 1 0 7, R 0 0 7, A 0 0 1, B 0 0 5, L 0 0 7",
        "accepted 9, main 0 7, main 1 0, copy 0 0 7, copy 1 0 7",
    ),
    ("R after a write and B", "P 0 0 5, W 0 0 5, B 0 0 5, R 0 0 5, L 0 0 5", "accepted 5, main 0 5, main 1 0, copy 0 0 5"),
    (
        "L whose read came between a write and B",
        "P 0 0 5, W 0 0 5, R 0 0 5, B 0 0 5, L 0 0 5",
        "accepted 5, main 0 5, main 1 0, copy 0 0 5",
    ),
    (
        "writes of others do not matter",
        "R 0 0 0, A 1 0 5, S 1 0 5, W 1 0 5, L 0 0 0",
        "accepted 5, main 0 5, main 1 0, copy 0 0 0, copy 1 0 5",
    ),
    ("a lock spoils every copy", "A 0 0 5, A 0 1 6, K 0 0, U 0 1 6", "refused 6 17"),
    ("a lock taken again spoils copies", "K 0 0, A 0 0 5, K 0 0, U 0 0 5", "refused 6 17"),
    ("a lock of another thread spoils nothing", "A 0 0 5, K 1 0, U 0 0 5", "accepted 3, main 0 0, main 1 0, copy 0 0 5"),
    ("an unlock spoils nothing", "K 0 0, R 0 0 0, L 0 0 0, N 0 0, U 0 0 0", "accepted 5, main 0 0, main 1 0, copy 0 0 0"),
    ("a load after the lock of a read before it", "R 0 0 0, K 0 0, L 0 0 0", "accepted 3, main 0 0, main 1 0"),
    ("a read after the lock", "R 0 0 0, K 0 0, L 0 0 0, R 0 0 0, L 0 0 0, U 0 0 0", "accepted 6, main 0 0, main 1 0, copy 0 0 0"),
    ("U of another value", "A 0 0 5, U 0 0 -5", "refused 4 18"),
    ("U not usable and of another value", "A 0 0 5, K 0 0, U 0 0 6", "refused 5 17"),
    ("S not fresh and not usable", "S 0 0 0", "refused 3 14"),
    ("S of another value", "A 0 0 5, S 0 0 6", "refused 4 18"),
    ("R of another value", "R 0 0 5", "refused 3 18"),
    ("unlock of a lock not held", "N 0 0", "refused 3 12"),
    ("unlock of another's lock", "K 0 0, N 1 0", "refused 4 12"),
    ("unlock once too often", "K 0 0, N 0 0, N 0 0", "refused 5 12"),
    ("unlock not held before fresh", "A 0 0 5, N 0 0", "refused 4 12"),
    ("fresh bars unlock", "K 0 0, A 0 0 5, N 0 0", "refused 5 15"),
    ("fresh on another variable bars unlock", "K 0 0, A 0 1 5, N 0 0", "refused 5 15"),
    ("store of another variable bars unlock", "K 0 0, A 0 1 5, S 0 1 5, N 0 0", "refused 6 16"),
    ("fresh before store not written", "K 0 0, A 0 0 1, S 0 0 1, A 0 0 2, N 0 0", "refused 7 15"),
    // N while an early store waits for its assign and its write
    (
        "unlock over an early store, then W and B",
        "K 0 0, P 0 0 5, N 0 0, W 0 0 5, B 0 0 5",
        "accepted 5, main 0 5, main 1 0, copy 0 0 5",
    ),
    (
        "unlock over an early store, then B and W",
        "K 0 0, P 0 0 5, N 0 0, B 0 0 5, W 0 0 5",
        "accepted 5, main 0 5, main 1 0, copy 0 0 5",
    ),
    ("unlock over an early store, then B of another value", "K 0 0, P 0 0 5, N 0 0, B 0 0 6", "refused 6 18"),
    ("unlock over an early store, then a lock", "K 0 0, P 0 0 5, N 0 0, K 0 0", "refused 6 13"),
    ("unlock over an early store, then a read", "K 0 0, P 0 0 5, N 0 0, R 0 0 0", "refused 6 23"),
    (
        "unlock over an early store, then a read after its write",
        "K 0 0, P 0 0 5, N 0 0, W 0 0 5, R 0 0 5, B 0 0 5, L 0 0 5",
        "accepted 7, main 0 5, main 1 0, copy 0 0 5",
    ),
    (
        "unlock over an early store, a section of another thread before W",
        "K 0 0, P 0 0 5, N 0 0, K 1 0, R 1 0 0, L 1 0 0, U 1 0 0, N 1 0, W 0 0 5, B 0 0 5",
        "accepted 10, main 0 5, main 1 0, copy 0 0 5, copy 1 0 0",
    ),
    (
        "unlock of another lock over an early store",
        "K 0 0, K 0 1, P 0 0 5, N 0 1, W 0 0 5, N 0 0, B 0 0 5",
        "accepted 7, main 0 5, main 1 0, copy 0 0 5",
    ),
    ("two unlocks of one lock over an early store", "K 0 0, K 0 0, P 0 0 5, N 0 0, N 0 0", "accepted 5, main 0 0, main 1 0"),
    ("unlock over early stores of two variables", "K 0 0, P 0 0 5, P 0 1 6, N 0 0", "accepted 4, main 0 0, main 1 0"),
    ("unlock of a lock not held, with an early store", "P 0 0 5, N 0 0", "refused 4 12"),
    ("unlock after W of an early store", "K 0 0, P 0 0 5, W 0 0 5, N 0 0", "accepted 4, main 0 5, main 1 0"),
    // N after the B: the early store counts
    ("unlock after B", "K 0 0, P 0 0 5, B 0 0 5, N 0 0", "refused 6 16"),
    ("unlock after B and W", "K 0 0, P 0 0 5, B 0 0 5, W 0 0 5, N 0 0", "accepted 5, main 0 5, main 1 0, copy 0 0 5"),
    ("unlock after W and B", "K 0 0, P 0 0 5, W 0 0 5, B 0 0 5, N 0 0", "accepted 5, main 0 5, main 1 0, copy 0 0 5"),
    ("unlock before B and one after it", "K 0 0, K 0 0, P 0 0 5, N 0 0, B 0 0 5, N 0 0", "refused 8 16"),
    (
        "unlock before B and one after W",
        "K 0 0, K 0 0, P 0 0 5, N 0 0, B 0 0 5, W 0 0 5, N 0 0",
        "accepted 7, main 0 5, main 1 0, copy 0 0 5",
    ),
    ("unlock before B, a lock and an unlock after it", "K 0 0, P 0 0 5, N 0 0, B 0 0 5, K 0 0, N 0 0", "refused 8 16"),
    (
        "unlock before B, a lock and an unlock after W",
        "K 0 0, P 0 0 5, N 0 0, B 0 0 5, W 0 0 5, K 0 0, N 0 0",
        "accepted 7, main 0 5, main 1 0",
    ),
    ("unlock after B of one of two variables", "K 0 0, P 0 0 5, P 0 1 6, B 0 1 6, N 0 0", "refused 7 16"),
    (
        "unlock after B and W of one of two variables",
        "K 0 0, P 0 0 5, P 0 1 6, B 0 1 6, W 0 1 6, N 0 0",
        "accepted 6, main 0 0, main 1 6, copy 0 1 6",
    ),
    ("unlock with an assign between P and B", "K 0 0, P 0 0 5, A 0 0 1, B 0 0 5, N 0 0", "refused 7 16"),
    (
        "unlock with an assign between P and B, after W",
        "K 0 0, P 0 0 5, A 0 0 1, B 0 0 5, W 0 0 5, N 0 0",
        "accepted 6, main 0 5, main 1 0, copy 0 0 5",
    ),
    // N while an assign is owed: other stores count, and fresh assigns
    ("unlock with a store before P", "K 0 0, A 0 0 1, S 0 0 1, P 0 0 5, N 0 0", "refused 7 16"),
    (
        "unlock with a store before P, written before P",
        "K 0 0, A 0 0 1, S 0 0 1, W 0 0 1, P 0 0 5, N 0 0",
        "accepted 6, main 0 1, main 1 0, copy 0 0 1",
    ),
    (
        "unlock with a store before P, written after P",
        "K 0 0, A 0 0 1, S 0 0 1, P 0 0 5, W 0 0 1, N 0 0",
        "accepted 6, main 0 1, main 1 0, copy 0 0 1",
    ),
    (
        "unlock with two stores before P, one written",
        "K 0 0, A 0 0 1, S 0 0 1, A 0 0 2, S 0 0 2, P 0 0 5, W 0 0 1, N 0 0",
        "refused 10 16",
    ),
    ("unlock with P and B before P", "K 0 0, P 0 0 5, B 0 0 5, P 0 0 6, N 0 0", "refused 7 16"),
    (
        "unlock with P and B before P, the first written",
        "K 0 0, P 0 0 5, B 0 0 5, P 0 0 6, W 0 0 5, N 0 0",
        "accepted 6, main 0 5, main 1 0, copy 0 0 5",
    ),
    ("unlock with P on one variable and a store of another", "K 0 0, P 0 0 5, A 0 1 6, S 0 1 6, N 0 0", "refused 7 16"),
    (
        "unlock with P on one variable and a written store of another",
        "K 0 0, P 0 0 5, A 0 1 6, S 0 1 6, W 0 1 6, N 0 0",
        "accepted 6, main 0 0, main 1 6, copy 0 1 6",
    ),
    (
        "unlock with a written P on one variable and a store of another",
        "K 0 0, P 0 0 5, W 0 0 5, A 0 1 6, S 0 1 6, N 0 0",
        "refused 8 16",
    ),
    ("unlock with a store, owed by another thread", "K 0 0, P 1 0 6, A 0 0 5, S 0 0 5, N 0 0", "refused 7 16"),
    (
        "unlock with stores of another thread",
        "K 0 0, P 1 0 5, B 1 0 5, A 1 1 6, S 1 1 6, N 0 0",
        "accepted 6, main 0 0, main 1 0, copy 1 0 5, copy 1 1 6",
    ),
    ("unlock with a fresh assign after P", "K 0 0, P 0 0 5, A 0 0 1, N 0 0", "refused 6 15"),
    ("unlock with a fresh assign before P", "K 0 0, A 0 0 1, P 0 0 5, N 0 0", "refused 6 15"),
    ("unlock with P on one variable and a fresh assign of another", "K 0 0, P 0 0 5, A 0 1 6, N 0 0", "refused 6 15"),
    ("lock of another before owed", "K 0 0, P 1 0 5, K 1 0", "refused 5 11"),
    ("lock, unlock, lock by another", "K 0 0, N 0 0, K 1 0, N 1 0", "accepted 4, main 0 0, main 1 0"),
    ("owed on any variable bars a lock", "P 0 1 5, K 0 0", "refused 4 13"),
    (
        "least and greatest value",
        "A 0 0 -2147483648, A 0 1 2147483647",
        "accepted 2, main 0 0, main 1 0, copy 0 0 -2147483648, copy 0 1 2147483647",
    ),
    // numbers and forms of event lines
    ("value below zero", "A 0 0 -1", "accepted 1, main 0 0, main 1 0, copy 0 0 -1"),
    ("minus zero", "A 0 0 -0", "refused 3 4"),
    ("minus alone", "A 0 0 -", "refused 3 4"),
    ("two minuses", "A 0 0 --1", "refused 3 4"),
    ("minus behind", "A 0 0 1-", "refused 3 4"),
    ("two zeros", "A 0 0 00", "refused 3 4"),
    ("two zeros below zero", "A 0 0 -00", "refused 3 4"),
    ("no value, and its space", "A 0 0 ", "refused 3 4"),
    ("plus", "A 0 0 +1", "refused 3 4"),
    ("leading zero in a value", "A 0 0 01", "refused 3 4"),
    ("leading zero below zero", "A 0 0 -01", "refused 3 4"),
    ("leading zero in a thread", "A 00 0 0", "refused 3 4"),
    ("leading zero in a variable", "A 0 01 0", "refused 3 4"),
    ("minus in a thread", "A -1 0 0", "refused 3 4"),
    ("minus in a variable", "A 0 -1 0", "refused 3 4"),
    ("minus in a lock", "K 0 -1", "refused 3 4"),
    ("thread undeclared", "A 2 0 0", "refused 3 5"),
    ("variable undeclared", "A 0 2 0", "refused 3 5"),
    ("lock undeclared", "K 0 2", "refused 3 5"),
    ("thread of an unlock undeclared", "N 2 0", "refused 3 5"),
    ("thread and variable undeclared", "A 9 9 0", "refused 3 5"),
    ("thread that wraps 32 bits", "A 4294967296 0 0", "refused 3 5"),
    ("thread that wraps 64 bits", "A 18446744073709551616 0 0", "refused 3 5"),
    ("variable that wraps 64 bits", "A 0 18446744073709551616 0", "refused 3 5"),
    ("undeclared and malformed", "A 9 9 00", "refused 3 4"),
    ("undeclared before the row", "U 0 2 0", "refused 3 5"),
    ("too few fields", "U 0 0", "refused 3 4"),
    ("too many fields", "U 0 0 0 0", "refused 3 4"),
    ("lock with a value", "K 0 0 0", "refused 3 4"),
    ("lock without a number", "K 0", "refused 3 4"),
    ("letter alone", "A", "refused 3 4"),
    ("another letter", "X 0 0 0", "refused 3 4"),
    ("lower case", "a 0 0 0", "refused 3 4"),
    ("two letters", "AA 0 0 0", "refused 3 4"),
    ("trailing space", "A 0 0 0 ", "refused 3 4"),
    ("trailing space of a lock event", "N 0 0 ", "refused 3 4"),
    ("two spaces", "A 0  0 0", "refused 3 4"),
    ("two spaces after the letter", "A  0 0 0", "refused 3 4"),
    ("leading space", " A 0 0 0", "refused 3 4"),
    ("tab", "A\t0 0 0", "refused 3 4"),
    ("carriage return", "A 0 0 0\r", "refused 3 4"),
    ("zero byte", "A 0 0 0\0", "refused 3 4"),
    ("zero byte for a letter", "\0 0 0 0", "refused 3 4"),
    ("head in the body", "H 2 2 2", "refused 3 4"),
    ("guards in the body", "G -", "refused 3 4"),
    ("trailer in the body", "Z 12", "refused 3 4"),
    ("the row before the next line's form", "U 0 0 0, X", "refused 3 17"),
    ("undeclared before the next line's form", "U 9 0 0, U", "refused 3 5"),
    ("the form before the next line's numbers", "U, U 9 0 0", "refused 3 4"),
    ("the third line's form", "A 0 0 1, K 0 0, U 0 0", "refused 5 4"),
    (
        "all ten kinds",
        "K 0 0, R 0 0 0, L 0 0 0, U 0 0 0, A 0 0 5, S 0 0 5, W 0 0 5, P 0 0 6, W 0 0 6, B 0 0 6, N 0 0",
        "accepted 11, main 0 6, main 1 0, copy 0 0 6",
    ),
];

/// Head and `G` line: name, head, `G` line, listing; no events.
const HEADS: &[(&str, &str, &str, &str)] = &[
    ("smallest", "H 1 1 0", "G -", "accepted 0, main 0 0"),
    ("no thread", "H 0 1 0", "G -", "refused 1 3"),
    ("nine threads", "H 9 1 0", "G -", "refused 1 3"),
    ("no variable", "H 1 0 0", "G -", "refused 1 3"),
    ("17 variables", "H 1 17 0", "G -", "refused 1 3"),
    ("nine locks", "H 1 1 9", "G -", "refused 1 3"),
    ("huge", "H 4294967297 1 0", "G -", "refused 1 3"),
    ("wraps 64 bits", "H 18446744073709551617 1 0", "G -", "refused 1 3"),
    ("minus one", "H -1 1 0", "G -", "refused 1 3"),
    ("no space", "H1 1 0", "G -", "refused 1 3"),
    ("tab", "H 1 1\t0", "G -", "refused 1 3"),
    ("minus", "H 1 1 -0", "G -", "refused 1 3"),
    ("leading zero", "H 01 1 0", "G -", "refused 1 3"),
    ("three fields", "H 1 1", "G -", "refused 1 3"),
    ("five fields", "H 1 1 0 0", "G -", "refused 1 3"),
    ("trailing space", "H 1 1 0 ", "G -", "refused 1 3"),
    ("two spaces", "H  1 1 0", "G -", "refused 1 3"),
    ("lower case", "h 1 1 0", "G -", "refused 1 3"),
    ("carriage return", "H 1 1 0\r", "G -", "refused 1 3"),
    ("blank", "", "G -", "refused 1 3"),
    ("head before guards", "H 0 1 0", "X", "refused 1 3"),
    ("guards, no section", "H 1 2 2", "G 1 0", "accepted 0, main 0 0, main 1 0"),
    ("a lock guards twice", "H 1 2 2", "G 1 1", "accepted 0, main 0 0, main 1 0"),
    ("guard undeclared", "H 1 2 2", "G 1 2", "refused 2 6"),
    ("first guard undeclared", "H 1 2 2", "G 2 0", "refused 2 6"),
    ("guard that wraps", "H 1 1 2", "G 4294967296", "refused 2 6"),
    ("guard that wraps 64 bits", "H 1 2 2", "G 0 18446744073709551616", "refused 2 6"),
    ("guard without locks", "H 1 1 0", "G 0", "refused 2 6"),
    ("too few guards", "H 1 2 2", "G 1", "refused 2 6"),
    ("too many guards", "H 1 2 2", "G 1 0 1", "refused 2 6"),
    ("leading zero in a guard", "H 1 1 2", "G 01", "refused 2 6"),
    ("leading zero in the second guard", "H 1 2 2", "G 0 01", "refused 2 6"),
    ("minus in a guard", "H 1 1 2", "G -1", "refused 2 6"),
    ("minus in the first guard", "H 1 2 2", "G -1 0", "refused 2 6"),
    ("minus in the only guard of two", "H 1 2 2", "G -1", "refused 2 6"),
    ("minus zero guard", "H 1 1 2", "G -0", "refused 2 6"),
    ("dash and space", "H 1 1 2", "G - ", "refused 2 6"),
    ("two dashes", "H 1 2 2", "G - -", "refused 2 6"),
    ("lock and dash", "H 1 2 2", "G 0 -", "refused 2 6"),
    ("two spaces before a dash", "H 1 1 2", "G  -", "refused 2 6"),
    ("no space before a dash", "H 1 1 2", "G-", "refused 2 6"),
    ("zero byte before a dash", "H 1 1 2", "G\0-", "refused 2 6"),
    ("carriage return after a dash", "H 1 1 2", "G -\r", "refused 2 6"),
    ("G alone", "H 1 1 2", "G", "refused 2 6"),
    ("G and a space", "H 1 1 2", "G ", "refused 2 6"),
    ("G and a space at the end", "H 1 1 2", "G 0 ", "refused 2 6"),
    ("blank guards", "H 1 1 2", "", "refused 2 6"),
    ("an event for guards", "H 1 1 2", "A 0 0 0", "refused 2 6"),
];

/// Bytes and trailers: name, bytes, listing.
const BYTES: &[(&str, &[u8], &str)] = &[
    ("empty", b"", "refused 0 2"),
    ("byte 10 alone", b"\n", "refused 0 2"),
    ("trailer alone", b"Z 0\n", "refused 1 3"),
    ("trailer alone, no byte 10", b"Z 0", "refused 0 2"),
    ("head and trailer", b"H 1 1 0\nZ 8\n", "refused 2 6"),
    ("bad head and trailer", b"H 1 1 9\nZ 8\n", "refused 1 3"),
    ("right", b"H 1 1 0\nG -\nZ 12\n", "accepted 0, main 0 0"),
    ("no byte 10 at the end", b"H 1 1 0\nG -\nZ 12", "refused 0 2"),
    ("another byte at the end", b"H 1 1 0\nG -\nZ 12x", "refused 0 2"),
    ("byte 13 at the end", b"H 1 1 0\nG -\nZ 12\r", "refused 0 2"),
    ("byte 13 before byte 10", b"H 1 1 0\nG -\nZ 12\r\n", "refused 0 2"),
    ("byte 13 before every byte 10", b"H 1 1 0\r\nG -\r\nZ 14\r\n", "refused 0 2"),
    ("zero byte in the trailer", b"H 1 1 0\nG -\nZ 12\0\n", "refused 0 2"),
    ("counts one less", b"H 1 1 0\nG -\nZ 11\n", "refused 0 2"),
    ("counts one more", b"H 1 1 0\nG -\nZ 13\n", "refused 0 2"),
    ("leading zero", b"H 1 1 0\nG -\nZ 012\n", "refused 0 2"),
    ("plus", b"H 1 1 0\nG -\nZ +12\n", "refused 0 2"),
    ("two spaces", b"H 1 1 0\nG -\nZ  12\n", "refused 0 2"),
    ("no space", b"H 1 1 0\nG -\nZ12\n", "refused 0 2"),
    ("space after", b"H 1 1 0\nG -\nZ 12 \n", "refused 0 2"),
    ("lower case", b"H 1 1 0\nG -\nz 12\n", "refused 0 2"),
    ("no number", b"H 1 1 0\nG -\nZ\n", "refused 0 2"),
    ("wraps 32 bits", b"H 1 1 0\nG -\nZ 4294967308\n", "refused 0 2"),
    ("wraps 64 bits", b"H 1 1 0\nG -\nZ 18446744073709551628\n", "refused 0 2"),
    ("blank line after", b"H 1 1 0\nG -\nZ 12\n\n", "refused 0 2"),
    ("two trailers, the second counts right", b"H 1 1 0\nG -\nZ 12\nZ 17\n", "refused 3 4"),
    ("event after the trailer", b"H 1 1 0\nG -\nZ 12\nA 0 0 0\n", "refused 0 2"),
    ("blank body line", b"H 1 1 0\nG -\n\nZ 13\n", "refused 3 4"),
    ("trailer before the head", b"X\nX\nX\nZ 7\n", "refused 0 2"),
    ("the head after a right trailer", b"X\nX\nX\nZ 6\n", "refused 1 3"),
];

/// Orders: name, head, `G` line, events, listing.
const ORDERS: &[(&str, &str, &str, &str, &str)] = &[
    (
        "not by the first lock",
        "H 2 1 2",
        "G 1",
        "K 0 0, K 1 1, A 1 0 5, S 1 0 5, W 1 0 5, N 1 1, K 0 1, R 0 0 5, L 0 0 5, U 0 0 5, N 0 1, N 0 0",
        "accepted 12, main 0 5, copy 0 0 5, copy 1 0 5, section 1 4 8, section 0 3 14",
    ),
    (
        "not by the last unlock",
        "H 2 1 2",
        "G 0",
        "K 0 0, K 1 1, N 1 1, N 0 0",
        "accepted 4, main 0 0, section 0 3 6, section 1 4 5",
    ),
    (
        "a lock taken again counts as last",
        "H 2 1 2",
        "G 0",
        "K 0 0, K 1 1, N 1 1, K 0 0, N 0 0, N 0 0",
        "accepted 6, main 0 0, section 1 4 5, section 0 3 8",
    ),
    ("use without the guard", "H 1 1 1", "G 0", "R 0 0 0, L 0 0 0, U 0 0 0", "accepted 3, main 0 0, copy 0 0 0, unordered 5 20"),
    ("assign without the guard", "H 1 1 1", "G 0", "A 0 0 5", "accepted 1, main 0 0, copy 0 0 5, unordered 3 20"),
    ("B without the guard", "H 1 1 1", "G 0", "P 0 0 5, B 0 0 5", "accepted 2, main 0 0, copy 0 0 5, unordered 4 20"),
    (
        "under another lock",
        "H 1 1 2",
        "G 0",
        "K 0 1, A 0 0 5, S 0 0 5, W 0 0 5, N 0 1",
        "accepted 5, main 0 5, copy 0 0 5, unordered 4 20",
    ),
    (
        "under the guard that another holds",
        "H 2 1 1",
        "G 0",
        "K 0 0, A 1 0 5",
        "accepted 2, main 0 0, copy 1 0 5, unordered 4 20",
    ),
    ("loads and stores want no guard", "H 1 1 1", "G 0", "R 0 0 0, L 0 0 0", "accepted 2, main 0 0, copy 0 0 0"),
    ("early store without the guard", "H 1 1 1", "G 0", "P 0 0 5, W 0 0 5", "accepted 2, main 0 5, unordered 5 22"),
    (
        "early store over an unlock of another lock",
        "H 1 1 2",
        "G 0",
        "K 0 0, K 0 1, P 0 0 5, N 0 1, W 0 0 5, B 0 0 5, N 0 0",
        "accepted 7, main 0 5, copy 0 0 5, section 0 3 9",
    ),
    (
        "early store over an unlock, B before W",
        "H 1 1 2",
        "G 0",
        "K 0 0, K 0 1, P 0 0 5, N 0 1, B 0 0 5, W 0 0 5, N 0 0",
        "accepted 7, main 0 5, copy 0 0 5, section 0 3 9",
    ),
    ("early store over an unlock, B and no W", "H 1 1 2", "G 0", "K 0 0, K 0 1, P 0 0 5, N 0 1, B 0 0 5, N 0 0", "refused 8 16"),
    (
        "early store over two unlocks",
        "H 1 2 3",
        "G 0 2",
        "K 0 0, K 0 1, K 0 2, P 0 0 5, N 0 2, N 0 1, W 0 0 5, B 0 0 5, N 0 0",
        "accepted 9, main 0 5, main 1 0, copy 0 0 5, section 0 3 11",
    ),
    (
        "early store over an unlock of its guard taken twice",
        "H 1 1 1",
        "G 0",
        "K 0 0, K 0 0, P 0 0 5, N 0 0, W 0 0 5, B 0 0 5, N 0 0",
        "accepted 7, main 0 5, copy 0 0 5, section 0 3 9",
    ),
    (
        "early store over an unlock, uses before and after B",
        "H 1 1 2",
        "G 0",
        "K 0 0, K 0 1, R 0 0 0, L 0 0 0, P 0 0 5, N 0 1, U 0 0 0, B 0 0 5, U 0 0 5, W 0 0 5, N 0 0",
        "accepted 11, main 0 5, copy 0 0 5, section 0 3 13",
    ),
    (
        "early store over an unlock, an assign before B",
        "H 1 1 2",
        "G 0",
        "K 0 0, K 0 1, P 0 0 5, N 0 1, A 0 0 1, U 0 0 1, B 0 0 5, W 0 0 5, N 0 0",
        "accepted 9, main 0 5, copy 0 0 5, section 0 3 11",
    ),
    (
        "early store over an unlock, a section under that lock before W",
        "H 2 2 2",
        "G 0 1",
        "K 0 0, K 0 1, A 0 1 3, S 0 1 3, W 0 1 3, P 0 0 5, N 0 1, K 1 1, R 1 1 3, \
         L 1 1 3, U 1 1 3, A 1 1 4, S 1 1 4, W 1 1 4, N 1 1, W 0 0 5, B 0 0 5, N 0 0",
        "accepted 18, main 0 5, main 1 4, copy 0 0 5, copy 0 1 3, copy 1 1 4, section 0 3 20, section 1 10 17",
    ),
    (
        "early store over an unlock, read by another thread before W",
        "H 2 1 2",
        "G 0",
        "K 0 0, K 0 1, P 0 0 5, N 0 1, K 1 1, R 1 0 0, L 1 0 0, N 1 1, W 0 0 5, B 0 0 5, N 0 0",
        "accepted 11, main 0 5, copy 0 0 5, copy 1 0 0, section 0 3 13, section 1 7 10",
    ),
    (
        "early store over an unlock, used by another thread after it",
        "H 2 1 2",
        "G 0",
        "K 0 0, K 0 1, P 0 0 5, N 0 1, K 1 1, W 0 0 5, B 0 0 5, N 0 0, K 1 0, R 1 0 5, L 1 0 5, U 1 0 5, N 1 1, N 1 0",
        "accepted 14, main 0 5, copy 0 0 5, copy 1 0 5, section 0 3 10, section 1 7 16",
    ),
    (
        "early store over an unlock, a lock after B",
        "H 1 1 2",
        "G 0",
        "K 0 0, K 0 1, P 0 0 5, N 0 1, W 0 0 5, B 0 0 5, K 0 1, N 0 1, N 0 0",
        "accepted 9, main 0 5, unordered 9 21",
    ),
    (
        "early store over an unlock of its guard",
        "H 1 1 2",
        "G 0",
        "K 0 0, K 0 1, P 0 0 5, N 0 0, W 0 0 5, B 0 0 5, N 0 1",
        "accepted 7, main 0 5, copy 0 0 5, unordered 8 20",
    ),
    (
        "early store over the last unlock",
        "H 1 1 1",
        "G 0",
        "K 0 0, P 0 0 5, N 0 0, W 0 0 5, B 0 0 5",
        "accepted 5, main 0 5, copy 0 0 5, unordered 7 20",
    ),
    (
        "early store written before the last unlock, B after it",
        "H 1 1 1",
        "G 0",
        "K 0 0, P 0 0 5, W 0 0 5, N 0 0, B 0 0 5",
        "accepted 5, main 0 5, copy 0 0 5, unordered 7 20",
    ),
    ("early store over the last unlock, no B", "H 1 1 1", "G 0", "K 0 0, P 0 0 5, N 0 0", "accepted 3, main 0 0, unordered 6 22"),
    (
        "early store over the last unlock, W and no B",
        "H 1 1 1",
        "G 0",
        "K 0 0, P 0 0 5, N 0 0, W 0 0 5",
        "accepted 4, main 0 5, unordered 7 22",
    ),
    ("a dead read, and no guard", "H 1 1 1", "G 0", "R 0 0 0, A 0 0 5", "refused 4 23"),
    (
        "lock after an unlock",
        "H 1 1 2",
        "G 0",
        "K 0 0, K 0 1, N 0 1, K 0 1, N 0 1, N 0 0",
        "accepted 6, main 0 0, unordered 6 21",
    ),
    (
        "lock again after an unlock of the same",
        "H 1 1 1",
        "G 0",
        "K 0 0, K 0 0, N 0 0, K 0 0, N 0 0, N 0 0",
        "accepted 6, main 0 0, unordered 6 21",
    ),
    ("hand over hand", "H 1 1 2", "G 0", "K 0 0, K 0 1, N 0 0, N 0 1", "accepted 4, main 0 0, section 0 3 6"),
    (
        "a new section after the last unlock",
        "H 1 1 1",
        "G 0",
        "K 0 0, N 0 0, K 0 0, N 0 0",
        "accepted 4, main 0 0, section 0 3 4, section 0 5 6",
    ),
    (
        "an unlock of another thread",
        "H 2 1 2",
        "G 0",
        "K 0 0, K 1 1, N 1 1, K 0 1, N 0 1, N 0 0",
        "accepted 6, main 0 0, section 1 4 5, section 0 3 8",
    ),
    ("a lock held at the end", "H 1 1 1", "G 0", "K 0 0", "accepted 1, main 0 0, unordered 4 22"),
    ("an assign owed at the end", "H 1 1 1", "G 0", "K 0 0, P 0 0 5, W 0 0 5, N 0 0", "accepted 4, main 0 5, unordered 7 22"),
    (
        "20 before 21",
        "H 1 1 2",
        "G 0",
        "A 0 0 0, S 0 0 0, W 0 0 0, K 0 0, K 0 1, N 0 1, K 0 1",
        "accepted 7, main 0 0, unordered 3 20",
    ),
    ("21 before 20", "H 1 1 2", "G 0", "K 0 1, K 0 1, N 0 1, K 0 1, A 0 0 0", "accepted 5, main 0 0, copy 0 0 0, unordered 6 21"),
    ("20 before 22", "H 1 1 2", "G 0", "K 0 1, A 0 0 0", "accepted 2, main 0 0, copy 0 0 0, unordered 4 20"),
    ("no guards, no order", "H 1 1 1", "G -", "K 0 0", "accepted 1, main 0 0"),
];

pub fn papers() -> Vec<Expected> {
    let mut list = Vec::new();
    let mut add = |name: String, paper: Vec<u8>, listing: &str| list.push(Expected { name, paper, listing: lines(listing) });
    add("one paper whole".into(), WHOLE.into(), WHOLE_LISTING);
    add("one-two-three".into(), text("H 2 2 1", "G -", ONE_TWO_THREE), ONE_TWO_THREE_LISTING);
    add(
        "one-two-three guarded".into(),
        text("H 2 2 1", "G 0 0", ONE_TWO_THREE),
        &format!("{ONE_TWO_THREE_LISTING}, unordered 17 20"),
    );
    for (i, (events, listing)) in SHORT.iter().enumerate() {
        add(format!("short trace {}", i + 1), text("H 2 2 2", "G -", events), listing);
    }
    for (name, events, listing) in TRACES {
        add((*name).into(), text("H 2 2 2", "G -", events), listing);
    }
    for (name, head, guards, listing) in HEADS {
        add(format!("head: {name}"), text(head, guards, ""), listing);
    }
    for (name, bytes, listing) in BYTES {
        add(format!("bytes: {name}"), bytes.to_vec(), listing);
    }
    for (name, head, guards, events, listing) in ORDERS {
        add(format!("order: {name}"), text(head, guards, events), listing);
    }
    // eight and nine outstanding
    let reads = |n: usize| vec!["R 0 0 0"; n].join(", ");
    let stores = |n: usize| vec!["A 0 0 5, S 0 0 5"; n].join(", ");
    let early = |n: usize| vec!["P 0 0 5, B 0 0 5"; n].join(", ");
    let two = |events: String| text("H 2 2 2", "G -", &events);
    add("eight reads".into(), two(reads(8)), "accepted 8, main 0 0, main 1 0");
    add("nine reads".into(), two(reads(9)), "refused 11 19");
    add(
        "eight reads and one of another variable".into(),
        two(reads(8) + ", R 0 1 0, R 1 0 0"),
        "accepted 10, main 0 0, main 1 0",
    );
    add(
        "eight reads, a load, a read".into(),
        two(reads(8) + ", L 0 0 0, R 0 0 0"),
        "accepted 10, main 0 0, main 1 0, copy 0 0 0",
    );
    add("ninth read of another value".into(), two(reads(8) + ", R 0 0 1"), "refused 11 18");
    let late = |n: usize| "P 0 0 5, W 0 0 5".to_string() + &", R 0 0 5".repeat(n);
    add(
        "eight reads while owed, eight loads after B".into(),
        two(late(8) + ", A 0 0 1, B 0 0 5" + &", L 0 0 5".repeat(8)),
        "accepted 20, main 0 5, main 1 0, copy 0 0 5",
    );
    add("nine reads while owed".into(), two(late(9)), "refused 13 19");
    add("eight stores and a read".into(), two(stores(8) + ", R 0 0 0"), "refused 19 23");
    add("eight stores".into(), two(stores(8)), "accepted 16, main 0 0, main 1 0, copy 0 0 5");
    add("nine stores".into(), two(stores(9)), "refused 20 19");
    add("ninth store of another value".into(), two(stores(8) + ", A 0 0 5, S 0 0 6"), "refused 20 18");
    add("eight early stores".into(), two(early(8)), "accepted 16, main 0 0, main 1 0, copy 0 0 5");
    add("nine early stores".into(), two(early(8) + ", P 0 0 5"), "refused 19 19");
    add("early stores and stores in one queue".into(), two(early(4) + ", " + &stores(4) + ", P 0 0 5"), "refused 19 19");
    let eight = |written: usize| "K 0 0, ".to_string() + &stores(7) + ", P 0 0 5" + &", W 0 0 5".repeat(written) + ", N 0 0";
    add(
        "unlock over the last of eight stores, an early one".into(),
        two(eight(7)),
        "accepted 24, main 0 5, main 1 0, copy 0 0 5",
    );
    add("unlock over the last two of eight stores".into(), two(eight(6)), "refused 25 16");
    add("owed before eight outstanding".into(), two(early(7) + ", P 0 0 5, P 0 0 5"), "refused 18 13");
    // the greatest counts
    let memory = (0..16).map(|v| format!("main {v} 0")).collect::<Vec<String>>().join(", ");
    let greatest = |guards: String| text("H 8 16 8", &guards, "");
    add("greatest counts".into(), greatest("G -".into()), &format!("accepted 0, {memory}"));
    let early: String = (0..16).map(|v| format!(", P 7 {v} 5")).collect();
    let waiting = |then: &str| text("H 8 16 8", "G -", &format!("K 7 7{early}{then}, N 7 7"));
    add("unlock over sixteen early stores".into(), waiting(""), &format!("accepted 18, {memory}"));
    add("unlock over fifteen of sixteen early stores".into(), waiting(", B 7 15 5"), "refused 21 16");
    add("sixteen guards".into(), greatest(format!("G{}", " 7".repeat(16))), &format!("accepted 0, {memory}"));
    add("seventeen guards".into(), greatest(format!("G{}", " 7".repeat(17))), "refused 2 6");
    // 2,000 events and more
    let assigns = |n: usize| vec!["A 0 0 5"; n].join(", ");
    let full = "accepted 2000, main 0 0, main 1 0, copy 0 0 5";
    add("2,000 events".into(), two(assigns(2000)), full);
    add("event 2,000 is checked".into(), two(assigns(1999) + ", U 0 1 0"), "refused 2002 17");
    add("event 2,000 undeclared".into(), two(assigns(1999) + ", A 9 0 1"), "refused 2002 5");
    add("2,001 events".into(), two(assigns(2001)), "refused 2003 9");
    add("2,001st line is no event".into(), two(assigns(2000) + ", X"), "refused 2003 4");
    add("2,001st event undeclared".into(), two(assigns(2000) + ", A 9 0 0"), "refused 2003 9");
    add("2,001st event bad".into(), two(assigns(2000) + ", U 1 1 0"), "refused 2003 9");
    // 65,536 bytes and more: one long field. The trailer has 8 bytes.
    let long = |size: usize, before: &str, after: &str| {
        let mut body = format!("H 1 1 1\nG -\n{before}").into_bytes();
        body.resize(size - 8 - after.len() - 1, b'9');
        body.extend(after.bytes());
        body.push(10);
        let paper = close(body);
        assert_eq!(paper.len(), size);
        paper
    };
    add("65,536 bytes, thread too large".into(), long(65_536, "A ", " 0 0"), "refused 3 5");
    add("65,536 bytes, variable too large".into(), long(65_536, "A 0 ", " 0"), "refused 3 5");
    add("65,536 bytes, lock too large".into(), long(65_536, "K 0 ", ""), "refused 3 5");
    add("65,536 bytes, value too large".into(), long(65_536, "A 0 0 ", ""), "refused 3 4");
    add("65,536 bytes, value too small".into(), long(65_536, "A 0 0 -", ""), "refused 3 4");
    add("65,537 bytes".into(), long(65_537, "A ", " 0 0"), "refused 0 1");
    add("65,537 bytes 10".into(), vec![10; 65_537], "refused 0 1");
    add("65,536 bytes 10".into(), vec![10; 65_536], "refused 0 2");
    // numbers of a thousand digits
    let nines = "9".repeat(1_000);
    for (name, head, guards, events, listing) in [
        ("thread", "H 1 1 1", "G -", format!("A {nines} 0 0"), "refused 3 5"),
        ("variable", "H 1 1 1", "G -", format!("A 0 {nines} 0"), "refused 3 5"),
        ("lock", "H 1 1 1", "G -", format!("N 0 {nines}"), "refused 3 5"),
        ("lock, one and zeros", "H 1 1 1", "G -", format!("K 0 1{}", "0".repeat(3_000)), "refused 3 5"),
        ("value", "H 1 1 1", "G -", format!("A 0 0 {nines}"), "refused 3 4"),
        ("value below zero", "H 1 1 1", "G -", format!("A 0 0 -{nines}"), "refused 3 4"),
        ("zeros", "H 1 1 1", "G -", format!("A 0 0 {}", "0".repeat(1_000)), "refused 3 4"),
        ("all three", "H 1 1 1", "G -", format!("A {nines} {nines} {nines}"), "refused 3 4"),
        ("threads", &format!("H {nines} 1 1"), "G -", String::new(), "refused 1 3"),
        ("variables", &format!("H 1 {nines} 1"), "G -", String::new(), "refused 1 3"),
        ("locks", &format!("H 1 1 {nines}"), "G -", String::new(), "refused 1 3"),
        ("guard", "H 1 1 1", &format!("G {nines}"), String::new(), "refused 2 6"),
    ] {
        add(format!("a thousand digits: {name}"), text(head, guards, &events), listing);
    }
    add("a thousand digits: trailer".into(), format!("H 1 1 1\nG -\nZ {nines}\n").into_bytes(), "refused 0 2");
    // bytes over 127
    add("byte 255 in the head".into(), close(b"H 1 1 \xff\nG -\n".to_vec()), "refused 1 3");
    add("byte 255 in the guards".into(), close(b"H 1 1 1\nG \xff\n".to_vec()), "refused 2 6");
    add("byte 255 in an event".into(), close(b"H 1 1 1\nG -\nA 0 0 \xff\n".to_vec()), "refused 3 4");
    add("byte 128 behind an event".into(), close(b"H 1 1 1\nG -\nA 0 0 0\x80\n".to_vec()), "refused 3 4");
    add("byte 255 in the trailer".into(), b"H 1 1 1\nG -\nZ 12\xff\n".to_vec(), "refused 0 2");
    list.extend(locking::papers());
    list.extend(values::papers());
    list
}
