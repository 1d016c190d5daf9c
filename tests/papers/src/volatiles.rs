//! Volatile variables, 02 (f): the `V` line, the lines behind it, and 26, 27 and 28. Papers with listings worked out by hand, for both courses.

use crate::expected::{each, joined, lines, text, times, Expected};
use crate::generate::close;
use crate::short_course::{OVER_EVENTS, OVER_EVENTS_BEHIND_V, OVER_HEAD};

/// Two threads, four variables and two locks: what is printed of main memory.
const HEAD: &str = "H 2 4 2";
const MAIN: &str = "main 0 0, main 1 0, main 2 0, main 3 0";

/// `V` lines of four variables that are right.
const RIGHT: [&str; 7] = ["V 0", "V 3", "V 0 1", "V 0 3", "V 1 2", "V 1 2 3", "V 0 1 2 3"];

/// Lines 3 with first byte `V` that are wrong with four variables: 6 at line 3.
const WRONG: &[(&str, &str)] = &[
    ("empty", "V"),
    ("a space alone", "V "),
    ("a letter behind", "Vx"),
    ("no space", "V0"),
    ("two letters", "VV 0"),
    ("twice the same", "V 0 0"),
    ("falling", "V 1 0"),
    ("falling at the end", "V 0 2 1"),
    ("twice the same at the end", "V 0 1 1"),
    ("undeclared", "V 4"),
    ("the second undeclared", "V 0 4"),
    ("sixteen", "V 16"),
    ("all and one more", "V 0 1 2 3 4"),
    ("minus one", "V -1"),
    ("minus zero", "V -0"),
    ("a dash", "V -"),
    ("a dash behind", "V 0 -"),
    ("two zeros", "V 00"),
    ("leading zero", "V 01"),
    ("leading zero in the second", "V 0 01"),
    ("plus", "V +1"),
    ("a space behind", "V 0 "),
    ("a space behind all", "V 0 1 2 3 "),
    ("two spaces", "V  0"),
    ("two spaces between", "V 0  1"),
    ("tab", "V\t0"),
    ("tab between", "V 0\t1"),
    ("carriage return", "V 0\r"),
    ("zero byte", "V\0"),
    ("zero byte behind", "V 0\0"),
    ("a word behind", "V 0 x"),
    ("wraps 32 bits", "V 4294967296"),
    ("wraps 64 bits", "V 18446744073709551616"),
    ("the second wraps 64 bits", "V 0 18446744073709551617"),
    ("like an event", "V 0 0 5"),
];

/// Lines 3 that are no `V` lines, and what is said of them.
const OTHERS: &[(&str, &str, &str)] = &[
    ("lower case", "v 0", "refused 3 4"),
    ("a space before", " V 0", "refused 3 4"),
    ("carriage return alone", "\r", "refused 3 4"),
    ("the letter of a write", "W 0", "refused 3 4"),
    ("guards again", "G -", "refused 3 4"),
    ("a V line behind an event", "A 0 0 5, V 0", "refused 4 4"),
    ("two V lines", "V 0, V 1", "refused 4 4"),
    ("a V line behind a V line and an event", "V 0, A 1 1 5, V 1", "refused 5 4"),
    ("a wrong V line behind a V line", "V 0, V", "refused 4 4"),
];

/// Head, `G` line and line 3: name, head, `G` line, lines, listing, that of the short course where it is another.
const FRAMES: &[(&str, &str, &str, &str, &str, Option<&str>)] = &[
    ("one variable", "H 1 1 0", "G -", "V 0", "accepted 0, main 0 0", None),
    ("one variable, the second", "H 1 1 0", "G -", "V 1", "refused 3 6", None),
    ("guards wrong, V line wrong", HEAD, "G 0 1", "V 4", "refused 2 6", None),
    ("guards wrong, V line right", HEAD, "G", "V 0", "refused 2 6", None),
    ("V line for guards", HEAD, "V 0", "G -", "refused 2 6", None),
    ("head wrong, V line wrong", "H 9 4 2", "G -", "V", "refused 1 3", None),
    ("V line wrong, an event line wrong", HEAD, "G -", "V 1 1, X", "refused 3 6", None),
    ("head over, V line right", "H 3 1 1", "G 0", "V 0", "accepted 0, main 0 0", Some(OVER_HEAD)),
    ("head over, V line wrong", "H 3 1 1", "G 0", "V 1", "refused 3 6", Some(OVER_HEAD)),
    ("variables over, the fifth volatile", "H 2 5 2", "G -", "V 4, U 0 4 0", "refused 4 26", Some(OVER_HEAD)),
    ("guarded", HEAD, "G 0 1 1 0", "V 0 1 2 3", "accepted 0, main 0 0, main 1 0, main 2 0, main 3 0", None),
    // the lines of the events
    ("4", HEAD, "G -", "V 0, X", "refused 4 4", None),
    ("carriage return for an event", HEAD, "G -", "V 0, \r", "refused 4 4", None),
    ("4 in the second line", HEAD, "G -", "V 0, A 0 1 5, A 0 1", "refused 5 4", None),
    ("thread undeclared", HEAD, "G -", "V 0, A 2 0 0", "refused 4 5", None),
    ("variable undeclared", HEAD, "G -", "V 0, U 0 4 0", "refused 4 5", None),
    ("lock undeclared", HEAD, "G -", "V 0, K 0 2", "refused 4 5", None),
    ("5 before 28", HEAD, "G -", "V 0 1 2 3, P 2 0 5", "refused 4 5", None),
    ("a row of a plain variable", HEAD, "G -", "V 0, U 0 1 0", "refused 4 17", None),
    ("a row of a volatile variable", HEAD, "G -", "V 1, U 0 1 0", "refused 4 26", None),
    // orders
    (
        "one paper whole",
        "H 2 1 1",
        "G 0",
        "V 0, K 0 0, A 0 0 5, S 0 0 5, W 0 0 5, N 0 0, K 1 0, R 1 0 5, L 1 0 5, U 1 0 5, N 1 0",
        "accepted 10, main 0 5, copy 0 0 5, copy 1 0 5, section 0 4 8, section 1 9 13",
        None,
    ),
    (
        "not by the first lock",
        "H 2 1 2",
        "G 1",
        "V 0, K 0 0, K 1 1, A 1 0 5, S 1 0 5, W 1 0 5, N 1 1, K 0 1, R 0 0 5, L 0 0 5, U 0 0 5, N 0 1, N 0 0",
        "accepted 12, main 0 5, copy 0 0 5, copy 1 0 5, section 1 5 9, section 0 4 15",
        None,
    ),
    (
        "two volatile variables through two sections",
        "H 2 2 1",
        "G 0 0",
        "V 0 1, K 0 0, A 0 0 5, A 0 1 6, S 0 1 6, S 0 0 5, W 0 0 5, W 0 1 6, N 0 0, \
         K 1 0, R 1 1 6, R 1 0 5, L 1 0 5, L 1 1 6, U 1 1 6, U 1 0 5, N 1 0",
        "accepted 16, main 0 5, main 1 6, copy 0 0 5, copy 0 1 6, copy 1 0 5, copy 1 1 6, section 0 4 11, section 1 12 19",
        None,
    ),
    (
        "a plain variable's early store between",
        "H 1 2 1",
        "G 0 0",
        "V 1, K 0 0, P 0 0 5, R 0 1 0, L 0 1 0, U 0 1 0, W 0 0 5, B 0 0 5, A 0 1 6, S 0 1 6, W 0 1 6, N 0 0",
        "accepted 11, main 0 5, main 1 6, copy 0 0 5, copy 0 1 6, section 0 4 14",
        None,
    ),
    ("20", "H 1 1 1", "G 0", "V 0, A 0 0 5", "accepted 1, main 0 0, copy 0 0 5, unordered 4 20", None),
    ("20 at a use", "H 1 1 1", "G 0", "V 0, R 0 0 0, L 0 0 0, U 0 0 0", "accepted 3, main 0 0, copy 0 0 0, unordered 6 20", None),
    ("21", "H 1 1 2", "G 0", "V 0, K 0 0, K 0 1, N 0 1, K 0 1", "accepted 4, main 0 0, unordered 7 21", None),
    ("22, a lock held", "H 1 1 1", "G 0", "V 0, K 0 0", "accepted 1, main 0 0, unordered 5 22", None),
    ("22, an assign owed", "H 1 2 1", "G 0 0", "V 1, P 0 0 5", "accepted 1, main 0 0, main 1 0, unordered 5 22", None),
    ("26 and no guard", "H 1 1 1", "G 0", "V 0, A 0 0 5, A 0 0 6", "refused 5 26", None),
];

/// Bytes: name, bytes, listing.
const BYTES: &[(&str, &[u8], &str)] = &[
    ("V line and trailer", b"H 1 1 0\nG -\nV 0\nZ 16\n", "accepted 0, main 0 0"),
    ("wrong V line and trailer", b"H 1 1 0\nG -\nV\nZ 14\n", "refused 3 6"),
    ("trailer counts without the V line", b"H 1 1 0\nG -\nV 0\nZ 12\n", "refused 0 2"),
    ("wrong V line, trailer counts wrong", b"H 1 1 0\nG -\nV\nZ 13\n", "refused 0 2"),
    ("V line last", b"H 1 1 0\nG -\nZ 12\nV 0\n", "refused 0 2"),
    ("V line behind a trailer that counts right", b"H 1 1 0\nG -\nZ 12\nV 0\nZ 21\n", "refused 3 4"),
    ("V line for the trailer", b"H 1 1 0\nG -\nV 12\n", "refused 0 2"),
    ("blank line, then a V line", b"H 1 1 0\nG -\n\nV 0\nZ 17\n", "refused 3 4"),
    ("V line, then a blank line", b"H 1 1 0\nG -\nV 0\n\nZ 17\n", "refused 4 4"),
    ("byte 255 for a number", b"H 1 1 0\nG -\nV \xff\nZ 16\n", "refused 3 6"),
    ("byte 255 behind the letter", b"H 1 1 0\nG -\nV\xff\nZ 15\n", "refused 3 6"),
    ("no line 3 and a V in the guards", b"H 1 1 0\nG V\nZ 12\n", "refused 2 6"),
];

/// `V` lines of sixteen variables: line, whether it is right.
const SIXTEEN: [(&str, bool); 8] = [
    ("V 15", true),
    ("V 2 10", true),
    ("V 9 10 11", true),
    ("V 0 1 2 3 4 5 6 7 8 9 10 11 12 13 14 15", true),
    ("V 10 2", false),
    ("V 15 16", false),
    ("V 1 010", false),
    ("V 10 10", false),
];

/// Traces: name, `V` line, events, listing. Two threads, variables and locks, no guards.
const TRACES: &[(&str, &str, &str, &str)] = &[
    // U
    ("use after its load", "V 0 1", "R 0 0 0, L 0 0 0, U 0 0 0", "accepted 3, main 0 0, main 1 0, copy 0 0 0"),
    ("use first", "V 0 1", "U 0 0 0", "refused 4 26"),
    ("use after an assign", "V 0 1", "A 0 0 5, U 0 0 5", "refused 5 26"),
    ("use after a store", "V 0 1", "A 0 0 5, S 0 0 5, U 0 0 5", "refused 6 26"),
    ("use twice", "V 0 1", "R 0 0 0, L 0 0 0, U 0 0 0, U 0 0 0", "refused 7 26"),
    ("use after a read alone", "V 0 1", "R 0 0 0, U 0 0 0", "refused 5 26"),
    ("use of a plain variable twice", "V 1", "R 0 0 0, L 0 0 0, U 0 0 0, U 0 0 0", "accepted 4, main 0 0, main 1 0, copy 0 0 0"),
    ("read between load and use", "V 0 1", "R 0 0 0, L 0 0 0, R 0 0 0, U 0 0 0", "accepted 4, main 0 0, main 1 0, copy 0 0 0"),
    (
        "another thread between load and use",
        "V 0 1",
        "R 0 0 0, L 0 0 0, A 1 0 5, U 0 0 0",
        "accepted 4, main 0 0, main 1 0, copy 0 0 0, copy 1 0 5",
    ),
    ("lock between load and use", "V 0 1", "R 0 0 0, L 0 0 0, K 0 0, U 0 0 0", "refused 7 17"),
    ("lock between read and load", "V 0 1", "R 0 0 0, K 0 0, L 0 0 0, U 0 0 0", "refused 7 17"),
    ("use of another value", "V 0 1", "R 0 0 0, L 0 0 0, U 0 0 1", "refused 6 18"),
    // L
    ("load twice", "V 0 1", "R 0 0 0, R 0 0 0, L 0 0 0, L 0 0 0", "refused 7 26"),
    ("load after an assign", "V 0 1", "A 0 0 5, L 0 0 0", "refused 5 26"),
    ("load without a read", "V 0 1", "L 0 0 0", "refused 4 10"),
    ("load without a read after a load", "V 0 1", "R 0 0 0, L 0 0 0, L 0 0 0", "refused 6 26"),
    ("load of another value", "V 0 1", "R 0 0 0, L 0 0 5", "refused 5 18"),
    (
        "load after a store that is written",
        "V 0 1",
        "A 0 0 5, S 0 0 5, W 0 0 5, R 0 0 5, L 0 0 5, U 0 0 5",
        "accepted 6, main 0 5, main 1 0, copy 0 0 5",
    ),
    (
        "load and use twice",
        "V 0 1",
        "R 0 0 0, R 0 0 0, L 0 0 0, U 0 0 0, L 0 0 0, U 0 0 0",
        "accepted 6, main 0 0, main 1 0, copy 0 0 0",
    ),
    // A and S
    ("assign after a load", "V 0 1", "R 0 0 0, L 0 0 0, A 0 0 5", "refused 6 26"),
    ("assign twice", "V 0 1", "A 0 0 5, A 0 0 6", "refused 5 26"),
    ("assign after a use", "V 0 1", "R 0 0 0, L 0 0 0, U 0 0 0, A 0 0 5", "accepted 4, main 0 0, main 1 0, copy 0 0 5"),
    ("assign with an outstanding read", "V 0 1", "R 0 0 0, A 0 0 5", "refused 5 23"),
    ("assign with an outstanding read, after a load", "V 0 1", "R 0 0 0, R 0 0 0, L 0 0 0, A 0 0 5", "refused 7 26"),
    ("assign and store", "V 0 1", "A 0 0 5, S 0 0 5", "accepted 2, main 0 0, main 1 0, copy 0 0 5"),
    ("store first", "V 0 1", "S 0 0 0", "refused 4 26"),
    ("store after a load", "V 0 1", "R 0 0 0, L 0 0 0, S 0 0 0", "refused 6 26"),
    ("store twice", "V 0 1", "A 0 0 5, S 0 0 5, S 0 0 5", "refused 6 26"),
    ("store of another value", "V 0 1", "A 0 0 5, S 0 0 6", "refused 5 18"),
    ("lock between assign and store", "V 0 1", "A 0 0 5, K 0 0, S 0 0 5", "refused 6 17"),
    (
        "write between assign and store",
        "V 0 1",
        "A 0 0 1, S 0 0 1, A 0 0 2, W 0 0 1, S 0 0 2, W 0 0 2",
        "accepted 6, main 0 2, main 1 0, copy 0 0 2",
    ),
    ("read after an assign", "V 0 1", "A 0 0 5, R 0 0 0", "refused 5 23"),
    ("read with an outstanding store", "V 0 1", "A 0 0 5, S 0 0 5, R 0 0 0", "refused 6 23"),
    ("read of another value", "V 0 1", "R 0 0 5", "refused 4 18"),
    ("unlock with a fresh assign", "V 0 1", "K 0 0, A 0 0 5, N 0 0", "refused 6 15"),
    ("unlock with a store", "V 0 1", "K 0 0, A 0 0 5, S 0 0 5, N 0 0", "refused 7 16"),
    ("unlock of a lock not held", "V 0 1", "A 0 0 5, N 0 0", "refused 5 12"),
    // P and B
    ("early store", "V 0 1", "P 0 0 5", "refused 4 28"),
    ("early store of a plain variable", "V 1", "P 0 0 5, W 0 0 5, B 0 0 5", "accepted 3, main 0 5, main 1 0, copy 0 0 5"),
    ("early store after a use", "V 0 1", "R 0 0 0, L 0 0 0, U 0 0 0, P 0 0 5", "refused 7 28"),
    ("early store after a store", "V 0 1", "A 0 0 5, S 0 0 5, P 0 0 5", "refused 6 28"),
    ("early store after an assign", "V 0 1", "A 0 0 5, P 0 0 5", "refused 5 26"),
    ("early store after a load", "V 0 1", "R 0 0 0, L 0 0 0, P 0 0 5", "refused 6 26"),
    ("early store with an outstanding read", "V 0 1", "R 0 0 0, P 0 0 5", "refused 5 28"),
    ("announced assign", "V 0 1", "B 0 0 5", "refused 4 28"),
    ("announced assign after an assign", "V 0 1", "A 0 0 5, B 0 0 5", "refused 5 26"),
    ("announced assign after a load", "V 0 1", "R 0 0 0, L 0 0 0, B 0 0 0", "refused 6 26"),
    ("announced assign after a store", "V 0 1", "A 0 0 5, S 0 0 5, B 0 0 5", "refused 6 28"),
    // 27 at U: a volatile assign that is not written
    ("use while another is assigned", "V 0 1", "R 0 0 0, L 0 0 0, A 0 1 5, U 0 0 0", "refused 7 27"),
    (
        "use while a plain one is assigned",
        "V 0",
        "R 0 0 0, L 0 0 0, A 0 1 5, U 0 0 0",
        "accepted 4, main 0 0, main 1 0, copy 0 0 0, copy 0 1 5",
    ),
    (
        "use while another thread assigned",
        "V 0 1",
        "R 0 0 0, L 0 0 0, A 1 1 5, U 0 0 0",
        "accepted 4, main 0 0, main 1 0, copy 0 0 0, copy 1 1 5",
    ),
    ("use while another is stored", "V 0 1", "R 0 0 0, L 0 0 0, A 0 1 5, S 0 1 5, U 0 0 0", "refused 8 27"),
    (
        "use while a plain one is stored",
        "V 0",
        "R 0 0 0, L 0 0 0, A 0 1 5, S 0 1 5, U 0 0 0",
        "accepted 5, main 0 0, main 1 0, copy 0 0 0, copy 0 1 5",
    ),
    ("assigned before the read", "V 0 1", "A 0 1 5, R 0 0 0, L 0 0 0, U 0 0 0", "refused 7 27"),
    // one that is written after the read
    ("use of a read before a write", "V 0 1", "R 0 0 0, A 0 1 5, S 0 1 5, W 0 1 5, L 0 0 0, U 0 0 0", "refused 9 27"),
    (
        "use of a read before a write, loaded before it",
        "V 0 1",
        "R 0 0 0, L 0 0 0, A 0 1 5, S 0 1 5, W 0 1 5, U 0 0 0",
        "refused 9 27",
    ),
    (
        "use of a read after a write",
        "V 0 1",
        "A 0 1 5, S 0 1 5, W 0 1 5, R 0 0 0, L 0 0 0, U 0 0 0",
        "accepted 6, main 0 0, main 1 5, copy 0 0 0, copy 0 1 5",
    ),
    (
        "use of a read before a plain write",
        "V 0",
        "R 0 0 0, A 0 1 5, S 0 1 5, W 0 1 5, L 0 0 0, U 0 0 0",
        "accepted 6, main 0 0, main 1 5, copy 0 0 0, copy 0 1 5",
    ),
    (
        "use of a read before another thread's write",
        "V 0 1",
        "R 0 0 0, A 1 0 5, S 1 0 5, W 1 0 5, L 0 0 0, U 0 0 0",
        "accepted 6, main 0 5, main 1 0, copy 0 0 0, copy 1 0 5",
    ),
    // a use of a later read
    ("uses not in order of their reads", "V 0 1", "R 0 0 0, R 0 1 0, L 0 1 0, U 0 1 0, L 0 0 0, U 0 0 0", "refused 9 27"),
    ("loads in order, uses not", "V 0 1", "R 0 0 0, R 0 1 0, L 0 0 0, L 0 1 0, U 0 1 0, U 0 0 0", "refused 9 27"),
    (
        "uses in order, loads not",
        "V 0 1",
        "R 0 0 0, R 0 1 0, L 0 1 0, L 0 0 0, U 0 0 0, U 0 1 0",
        "accepted 6, main 0 0, main 1 0, copy 0 0 0, copy 0 1 0",
    ),
    (
        "uses of a plain variable not in order",
        "V 0",
        "R 0 0 0, R 0 1 0, L 0 1 0, U 0 1 0, L 0 0 0, U 0 0 0",
        "accepted 6, main 0 0, main 1 0, copy 0 0 0, copy 0 1 0",
    ),
    (
        "uses of two threads not in order",
        "V 0 1",
        "R 0 0 0, R 1 1 0, L 1 1 0, U 1 1 0, L 0 0 0, U 0 0 0",
        "accepted 6, main 0 0, main 1 0, copy 0 0 0, copy 1 1 0",
    ),
    ("27 before 17", "V 0 1", "R 0 0 0, A 0 1 5, K 0 0, L 0 0 0, U 0 0 0", "refused 8 27"),
    ("27 before 18", "V 0 1", "R 0 0 0, L 0 0 0, A 0 1 5, U 0 0 9", "refused 7 27"),
    ("26 before 27", "V 0 1", "R 0 0 0, L 0 0 0, U 0 0 0, A 0 1 5, U 0 0 0", "refused 8 26"),
    (
        "a load is not held to the order",
        "V 0 1",
        "R 0 0 0, A 0 1 5, L 0 0 0",
        "accepted 3, main 0 0, main 1 0, copy 0 0 0, copy 0 1 5",
    ),
    // 27 at W
    ("write before an earlier store", "V 0 1", "A 0 0 1, S 0 0 1, A 0 1 2, S 0 1 2, W 0 1 2", "refused 8 27"),
    ("write before an earlier assign that is not stored", "V 0 1", "A 0 0 1, A 0 1 2, S 0 1 2, W 0 1 2", "refused 7 27"),
    ("write by the order of stores", "V 0 1", "A 0 0 1, A 0 1 2, S 0 1 2, S 0 0 1, W 0 1 2", "refused 8 27"),
    (
        "writes by the order of assigns",
        "V 0 1",
        "A 0 0 1, A 0 1 2, S 0 1 2, S 0 0 1, W 0 0 1, W 0 1 2",
        "accepted 6, main 0 1, main 1 2, copy 0 0 1, copy 0 1 2",
    ),
    (
        "write before a later assign",
        "V 0 1",
        "A 0 0 1, S 0 0 1, A 0 1 2, W 0 0 1",
        "accepted 4, main 0 1, main 1 0, copy 0 0 1, copy 0 1 2",
    ),
    (
        "write before an earlier plain store",
        "V 1",
        "A 0 0 1, S 0 0 1, A 0 1 2, S 0 1 2, W 0 1 2",
        "accepted 5, main 0 0, main 1 2, copy 0 0 1, copy 0 1 2",
    ),
    (
        "plain write before an earlier volatile store",
        "V 0",
        "A 0 0 1, S 0 0 1, A 0 1 2, S 0 1 2, W 0 1 2",
        "accepted 5, main 0 0, main 1 2, copy 0 0 1, copy 0 1 2",
    ),
    (
        "write before another thread's earlier store",
        "V 0 1",
        "A 1 0 1, S 1 0 1, A 0 1 2, S 0 1 2, W 0 1 2",
        "accepted 5, main 0 0, main 1 2, copy 0 1 2, copy 1 0 1",
    ),
    (
        "the second of two writes before another's",
        "V 0 1",
        "A 0 0 1, S 0 0 1, A 0 1 2, S 0 1 2, A 0 0 3, S 0 0 3, W 0 0 1, W 0 0 3",
        "refused 11 27",
    ),
    ("write without a store", "V 0 1", "W 0 0 0", "refused 4 10"),
    ("write without a store while another is assigned", "V 0 1", "A 0 1 5, W 0 0 0", "refused 5 10"),
    ("write of another value", "V 0 1", "A 0 0 5, S 0 0 5, W 0 0 6", "refused 6 18"),
    ("write of another value before an earlier store", "V 0 1", "A 0 0 1, S 0 0 1, A 0 1 2, S 0 1 2, W 0 1 9", "refused 8 27"),
];

/// A paper with its listing, and that of the short course.
fn paper(name: &str, bytes: Vec<u8>, listing: &str, short: Option<&str>) -> (Expected, String) {
    let expected = Expected { name: format!("volatile: {name}"), paper: bytes, listing: lines(listing) };
    (expected, lines(short.unwrap_or(listing)))
}

/// Queues of eight on a volatile variable: events, listing.
fn eights() -> [(&'static str, String, &'static str); 4] {
    let stores = |n: usize| times(n, "A 0 0 5, S 0 0 5");
    let reads = |n: usize| times(n, "R 0 0 0");
    [
        ("eight stores", joined(["V 0 1".into(), stores(8)]), "accepted 16, main 0 0, main 1 0, copy 0 0 5"),
        ("nine stores", joined(["V 0 1".into(), stores(9)]), "refused 21 19"),
        ("nine reads", joined(["V 0 1".into(), reads(9)]), "refused 12 19"),
        (
            "eight reads, each loaded and used",
            joined(["V 0 1".into(), reads(8), times(8, "L 0 0 0, U 0 0 0")]),
            "accepted 24, main 0 0, main 1 0, copy 0 0 0",
        ),
    ]
}

/// Papers with about 200 and about 2,000 events behind a `V` line: name, events, listing, that of the short course where it is another.
fn limits() -> Vec<(String, String, String, Option<&'static str>)> {
    let assigns = |n: usize| times(n, "A 1 3 5");
    let of = |n: usize, last: &str| joined(["V 0".into(), assigns(n)].into_iter().chain((!last.is_empty()).then(|| last.into())));
    let taken = |n: usize| format!("accepted {n}, {MAIN}, copy 1 3 5");
    let over = Some(OVER_EVENTS_BEHIND_V);
    let list = [
        ("199 events", of(199, ""), taken(199), None),
        ("200 events", of(200, ""), taken(200), None),
        ("201 events", of(201, ""), taken(201), over),
        ("201st line is no event", of(200, "X"), "refused 204 4".into(), None),
        ("201st line is a V line", of(200, "V 0"), "refused 204 4".into(), None),
        ("201st event undeclared", of(200, "A 2 0 0"), "refused 204 5".into(), over),
        ("201st event of 26", of(200, "U 0 0 0"), "refused 204 26".into(), over),
        ("201st event of 28", of(200, "P 0 0 5"), "refused 204 28".into(), over),
        ("202nd line is no event", of(201, "X"), "refused 205 4".into(), over),
        ("event 200 of 26", of(199, "S 0 0 0"), "refused 203 26".into(), None),
        ("event 200 of 28, more behind", of(199, "B 0 0 5, X"), "refused 203 28".into(), None),
        ("2,000 events", of(2000, ""), taken(2000), over),
        ("event 2,000 of 26", of(1999, "U 0 0 0"), "refused 2003 26".into(), over),
        ("2,001 events", of(2001, ""), "refused 2004 9".into(), over),
        ("2,001st line is no event", of(2000, "X"), "refused 2004 4".into(), over),
        ("2,001st event undeclared", of(2000, "A 9 0 0"), "refused 2004 9".into(), over),
        ("2,001st event of 28", of(2000, "P 0 0 5"), "refused 2004 9".into(), over),
    ];
    list.into_iter().map(|(name, events, listing, short)| (name.into(), events, listing, short)).collect()
}

/// Guarded papers of as many events as there may be: name, events, what the listing has behind main memory, that of the short course.
fn orders() -> Vec<(&'static str, String, String, Option<&'static str>)> {
    let sections = |n: usize| joined(["V 0 3".into(), times(n, "K 0 0, N 0 0")]);
    let entries = |n: usize| each(n, |i| format!("section 0 {} {}", 2 * i + 4, 2 * i + 5));
    let over = Some(OVER_EVENTS_BEHIND_V);
    vec![
        ("100 sections", sections(100), format!("accepted 200, {MAIN}, {}", entries(100)), None),
        ("101 sections", sections(101), format!("accepted 202, {MAIN}, {}", entries(101)), over),
        ("1,000 sections", sections(1000), format!("accepted 2000, {MAIN}, {}", entries(1000)), over),
        ("1,000 sections and one event more", joined([sections(1000), "K 0 0".into()]), "refused 2004 9".into(), over),
        (
            "22 after event 200",
            joined([sections(99), "K 0 0, K 0 0".into()]),
            format!("accepted 200, {MAIN}, unordered 204 22"),
            None,
        ),
        (
            "22 after event 2,000",
            joined([sections(999), "K 0 0, K 0 0".into()]),
            format!("accepted 2000, {MAIN}, unordered 2004 22"),
            over,
        ),
        (
            "20 at event 200",
            joined([sections(99), "R 0 1 0, A 1 0 5".into()]),
            format!("accepted 200, {MAIN}, copy 1 0 5, unordered 203 20"),
            None,
        ),
    ]
}

/// Papers with their listings, and those of the short course.
pub fn papers() -> Vec<(Expected, String)> {
    let mut list = Vec::new();
    let empty = format!("accepted 0, {MAIN}");
    for line in RIGHT {
        list.push(paper(&format!("right line: {line}"), text(HEAD, "G -", line), &empty, None));
    }
    for (name, line) in WRONG {
        list.push(paper(&format!("wrong line: {name}"), text(HEAD, "G -", line), "refused 3 6", None));
        let behind = format!("{line}, A 0 0 5");
        list.push(paper(&format!("wrong line, an event behind: {name}"), text(HEAD, "G 0 0 0 0", &behind), "refused 3 6", None));
    }
    for (name, third, listing) in OTHERS {
        list.push(paper(&format!("no V line: {name}"), text(HEAD, "G -", third), listing, None));
    }
    for (name, head, guards, third, listing, short) in FRAMES {
        list.push(paper(name, text(head, guards, third), listing, *short));
    }
    for (name, bytes, listing) in BYTES {
        list.push(paper(&format!("bytes: {name}"), bytes.to_vec(), listing, None));
    }
    let sixteen = each(16, |v| format!("main {v} 0"));
    for (line, right) in SIXTEEN {
        let listing = if right { format!("accepted 0, {sixteen}") } else { "refused 3 6".into() };
        list.push(paper(&format!("sixteen variables: {line}"), text("H 8 16 8", "G -", line), &listing, Some(OVER_HEAD)));
    }
    for (name, line, events, listing) in TRACES {
        list.push(paper(name, text("H 2 2 2", "G -", &format!("{line}, {events}")), listing, None));
    }
    for (name, events, listing) in eights() {
        list.push(paper(name, text("H 2 2 2", "G -", &events), listing, None));
    }
    for (name, events, listing, short) in limits() {
        list.push(paper(&name, text(HEAD, "G -", &events), &listing, short));
    }
    for (name, events, listing, short) in orders() {
        list.push(paper(&format!("order: {name}"), text(HEAD, "G 0 0 0 0", &events), &listing, short));
    }
    // a V line that is wrong hides the events; without the line they are lines of their own
    let wrong = format!("V 4, {}", times(201, "A 1 3 5"));
    list.push(paper("wrong line, 201 events behind", text(HEAD, "G -", &wrong), "refused 3 6", None));
    let without = joined([times(200, "A 1 3 5"), "V 0".into()]);
    list.push(paper("no V line, one for the 201st event", text(HEAD, "G -", &without), "refused 203 4", None));
    let plain = joined([times(201, "A 1 3 5"), "V 0".into()]);
    list.push(paper("no V line, one for the 202nd event", text(HEAD, "G -", &plain), "refused 204 4", Some(OVER_EVENTS)));
    // numbers of a thousand digits, and 65,536 bytes
    let nines = "9".repeat(1_000);
    for (name, line) in [
        ("nines", format!("V {nines}")),
        ("nines behind a number", format!("V 0 {nines}")),
        ("zeros", format!("V {}", "0".repeat(1_000))),
        ("spaces", format!("V{}", " ".repeat(1_000))),
    ] {
        list.push(paper(&format!("a thousand {name}"), text(HEAD, "G -", &line), "refused 3 6", None));
    }
    let mut body = b"H 1 1 1\nG -\nV ".to_vec();
    body.resize(65_536 - 9, b'9');
    body.push(10);
    list.push(paper("65,536 bytes", close(body), "refused 3 6", None));
    list
}
