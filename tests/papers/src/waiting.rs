//! Waiting and notification, 02 (i): Y, F and C, 29 and 30, what they hold and spoil, and their sections. Papers with listings worked out by
//! hand, for both courses.

use crate::expected::{each, joined, lines, text, times, Expected};
use crate::generate::close;
use crate::short_course::{OVER_EVENTS, OVER_HEAD};

/// Two threads, four variables and two locks: what is printed of main memory.
const HEAD: &str = "H 2 4 2";
const MAIN: &str = "main 0 0, main 1 0, main 2 0, main 3 0";

/// Lines that are no events: 4.
const MALFORMED: [&str; 60] = [
    "Y",
    "Y ",
    "Y 0",
    "Y 0 ",
    "Y 0 0 ",
    "Y 0 0 0",
    "Y 0 0 -1",
    "Y  0 0",
    "Y 0  0",
    "Y -1 0",
    "Y 0 -1",
    "Y 0 -0",
    "Y 00 0",
    "Y 0 00",
    "Y +0 0",
    "Y 0 +0",
    "Y 0 x",
    "Y x 0",
    "Y0 0",
    "Y\t0 0",
    "Y 0 0\r",
    "YY 0 0",
    "y 0 0",
    " Y 0 0",
    "F",
    "F ",
    "F 0",
    "F 0 0",
    "F 0 0 ",
    "F 0 0 1 ",
    "F 0 0 1 0",
    "F 0 0  1",
    "F 0  0 1",
    "F 0 0 -1",
    "F 0 0 -0",
    "F 0 0 -9223372036854775808",
    "F 0 0 -18446744073709551616",
    "F 0 0 00",
    "F 0 0 01",
    "F 0 0 +1",
    "F 0 0 x",
    "F 0 0 1x",
    "F 0 0 1-",
    "F 0 0 -",
    "F 0 0\t1",
    "F 0 0 1\r",
    "F -1 0 1",
    "F 0 -1 1",
    "F 00 0 1",
    "f 0 0 1",
    "C",
    "C 0",
    "C 0 0 ",
    "C 0 0 0",
    "C 0 0 1",
    "C -1 0",
    "C 0 -1",
    "C 0 01",
    "CC 0 0",
    "c 0 0",
];

/// Events with a number that is not declared, with two threads, a variable and a lock: 5. A thread to be notified is a number like any other.
const UNDECLARED: [&str; 22] = [
    "Y 2 0",
    "Y 0 1",
    "Y 9 9",
    "Y 4294967296 0",
    "Y 0 18446744073709551616",
    "C 2 0",
    "C 0 1",
    "C 18446744073709551616 0",
    "C 0 4294967296",
    "F 2 0 0",
    "F 0 1 0",
    "F 0 0 2",
    "F 0 0 7",
    "F 0 0 8",
    "F 0 0 256",
    "F 0 0 4294967296",
    "F 0 0 9223372036854775807",
    "F 0 0 9223372036854775808",
    "F 0 0 18446744073709551615",
    "F 0 0 18446744073709551616",
    "F 0 0 340282366920938463463374607431768211456",
    "F 9 9 9",
];

/// Events of thread 0 that it may not do while it waits on lock 0: 29. It holds nothing.
const BARRED: [&str; 17] = [
    "U 0 0 0", "A 0 0 5", "L 0 0 0", "S 0 0 0", "K 0 0", "K 0 1", "N 0 0", "N 0 1", "P 0 0 5", "B 0 0 5", "Y 0 0", "Y 0 1",
    "F 0 0 0", "F 0 0 1", "F 0 1 0", "F 0 1 1", "A 0 1 0",
];

/// Traces: name, events, listing. Two threads, variables and locks, no guards.
const TRACES: &[(&str, &str, &str)] = &[
    // Y
    ("wait", "K 0 0, Y 0 0", "accepted 2, main 0 0, main 1 0"),
    ("wait without the lock", "Y 0 0", "refused 3 12"),
    ("wait with another's lock", "K 1 0, Y 0 0", "refused 4 12"),
    ("wait with another lock", "K 0 1, Y 0 0", "refused 4 12"),
    ("wait after the unlock", "K 0 0, N 0 0, Y 0 0", "refused 5 12"),
    ("wait with a fresh assign", "K 0 0, A 0 0 5, Y 0 0", "refused 5 15"),
    ("wait with a fresh assign of the other variable", "K 0 0, A 0 1 5, Y 0 0", "refused 5 15"),
    ("wait with a store", "K 0 0, A 0 0 5, S 0 0 5, Y 0 0", "refused 6 16"),
    ("wait after the write", "K 0 0, A 0 0 5, S 0 0 5, W 0 0 5, Y 0 0", "accepted 5, main 0 5, main 1 0, copy 0 0 5"),
    ("wait, 12 before 15", "A 0 0 5, Y 0 0", "refused 4 12"),
    ("wait, 12 before 16", "A 0 0 5, S 0 0 5, Y 0 0", "refused 5 12"),
    ("wait, 15 before 16", "K 0 0, A 0 0 5, S 0 0 5, A 0 0 6, Y 0 0", "refused 7 15"),
    ("wait with another's assign", "K 0 0, A 1 0 5, Y 0 0", "accepted 3, main 0 0, main 1 0, copy 1 0 5"),
    ("wait with another's store", "K 0 0, A 1 0 5, S 1 0 5, Y 0 0", "accepted 4, main 0 0, main 1 0, copy 1 0 5"),
    ("wait over an early store", "K 0 0, P 0 0 5, Y 0 0", "accepted 3, main 0 0, main 1 0"),
    ("wait over an early store that is assigned", "K 0 0, P 0 0 5, B 0 0 5, Y 0 0", "refused 6 16"),
    ("wait after an early store, its write and its assign", "K 0 0, P 0 0 5, W 0 0 5, B 0 0 5, Y 0 0",
     "accepted 5, main 0 5, main 1 0, copy 0 0 5"),
    ("wait over an early store with a fresh assign", "K 0 0, P 0 0 5, A 0 0 1, Y 0 0", "refused 6 15"),
    ("wait over an early store and an older one", "K 0 0, A 0 0 1, S 0 0 1, P 0 0 5, Y 0 0", "refused 7 16"),
    ("wait over an early store, the older one written", "K 0 0, A 0 0 1, S 0 0 1, P 0 0 5, W 0 0 1, Y 0 0",
     "accepted 6, main 0 1, main 1 0, copy 0 0 1"),
    ("wait over an early store and another variable's", "K 0 0, P 0 0 5, A 0 1 1, S 0 1 1, Y 0 0", "refused 7 16"),
    ("wait gives the lock up", "K 0 0, Y 0 0, K 1 0", "accepted 3, main 0 0, main 1 0"),
    ("wait gives every hold up", "K 0 0, K 0 0, K 0 0, Y 0 0, K 1 0", "accepted 5, main 0 0, main 1 0"),
    ("wait keeps the other lock", "K 0 0, K 0 1, Y 0 0, K 1 1", "refused 6 11"),
    ("wait gives up one of two locks", "K 0 0, K 0 1, Y 0 0, K 1 0", "accepted 4, main 0 0, main 1 0"),
    ("wait spoils no copy", "K 0 0, R 0 0 0, L 0 0 0, Y 0 0", "accepted 4, main 0 0, main 1 0, copy 0 0 0"),
    // 29
    ("use of a copy while waiting", "K 0 0, R 0 0 0, L 0 0 0, Y 0 0, U 0 0 0", "refused 7 29"),
    ("load of a read while waiting", "K 0 0, R 0 0 0, Y 0 0, L 0 0 0", "refused 6 29"),
    ("the owed assign while waiting", "K 0 0, P 0 0 5, Y 0 0, B 0 0 5", "refused 6 29"),
    ("assign with a read while waiting, 29 before 23", "K 0 0, R 0 0 0, Y 0 0, A 0 0 5", "refused 6 29"),
    ("unlock of the other lock while waiting", "K 0 0, K 0 1, Y 0 0, N 0 1", "refused 6 29"),
    ("lock of the other lock again while waiting", "K 0 0, K 0 1, Y 0 0, K 0 1", "refused 6 29"),
    ("wait on the other lock while waiting", "K 0 0, K 0 1, Y 0 0, Y 0 1", "refused 6 29"),
    ("lock of another's lock while waiting, 29 before 11", "K 0 0, Y 0 0, K 1 0, K 0 0", "refused 6 29"),
    ("lock while waiting and owing, 29 before 13", "K 0 0, P 0 0 5, Y 0 0, K 0 1", "refused 6 29"),
    ("both wait, one notifies", "K 0 0, Y 0 0, K 1 0, Y 1 0, F 1 0 0", "refused 7 29"),
    ("both wait on two locks, one notifies under its second", "K 0 0, Y 0 0, K 1 0, K 1 1, Y 1 1, F 1 0 0", "refused 8 29"),
    ("another thread is not barred", "K 0 0, Y 0 0, A 1 0 5", "accepted 3, main 0 0, main 1 0, copy 1 0 5"),
    ("not barred after coming back", "K 0 0, Y 0 0, K 1 0, F 1 0 0, N 1 0, C 0 0, A 0 0 5",
     "accepted 7, main 0 0, main 1 0, copy 0 0 5"),
    ("read while waiting", "K 0 0, Y 0 0, R 0 0 0", "accepted 3, main 0 0, main 1 0"),
    ("read of another value while waiting", "K 0 0, Y 0 0, R 0 0 1", "refused 5 18"),
    ("write while waiting", "K 0 0, P 0 0 5, Y 0 0, W 0 0 5", "accepted 4, main 0 5, main 1 0"),
    ("write of another value while waiting", "K 0 0, P 0 0 5, Y 0 0, W 0 0 6", "refused 6 18"),
    ("write without a store while waiting", "K 0 0, Y 0 0, W 0 0 0", "refused 5 10"),
    ("read with an early store while waiting", "K 0 0, P 0 0 5, Y 0 0, R 0 0 0", "refused 6 23"),
    ("read after the early store's write while waiting", "K 0 0, P 0 0 5, Y 0 0, W 0 0 5, R 0 0 5", "accepted 5, main 0 5, main 1 0"),
    // F
    ("notify", "K 0 0, Y 0 0, K 1 0, F 1 0 0", "accepted 4, main 0 0, main 1 0"),
    ("notify one that does not wait", "K 0 0, F 0 0 1", "refused 4 30"),
    ("notify itself", "K 0 0, F 0 0 0", "refused 4 30"),
    ("notify without the lock one that does not wait, 30 before 12", "F 0 0 1", "refused 3 30"),
    ("notify itself while waiting, 29 before 30", "K 0 0, Y 0 0, F 0 0 0", "refused 5 29"),
    ("notify on another lock", "K 0 0, Y 0 0, K 1 1, F 1 1 0", "refused 6 30"),
    ("notify twice", "K 0 0, Y 0 0, K 1 0, F 1 0 0, F 1 0 0", "refused 7 30"),
    ("notify twice, the lock taken again between", "K 0 0, Y 0 0, K 1 0, F 1 0 0, N 1 0, K 1 0, F 1 0 0", "refused 9 30"),
    ("notify twice, the second without the lock", "K 0 0, Y 0 0, K 1 0, F 1 0 0, N 1 0, F 1 0 0", "refused 8 30"),
    ("notify one that came back", "K 0 0, Y 0 0, K 1 0, F 1 0 0, N 1 0, C 0 0, N 0 0, K 1 0, F 1 0 0", "refused 11 30"),
    ("notify again after the second wait", "K 0 0, Y 0 0, K 1 0, F 1 0 0, N 1 0, C 0 0, Y 0 0, K 1 0, F 1 0 0",
     "accepted 9, main 0 0, main 1 0"),
    ("notify without the lock", "K 0 0, Y 0 0, F 1 0 0", "refused 5 12"),
    ("notify with another lock", "K 0 0, Y 0 0, K 1 1, F 1 0 0", "refused 6 12"),
    ("notify after the unlock", "K 0 0, Y 0 0, K 1 0, N 1 0, F 1 0 0", "refused 7 12"),
    ("notify after one of two unlocks", "K 0 0, Y 0 0, K 1 0, K 1 0, N 1 0, F 1 0 0", "accepted 6, main 0 0, main 1 0"),
    ("notify with a fresh assign", "K 0 0, Y 0 0, K 1 0, A 1 0 5, F 1 0 0", "accepted 5, main 0 0, main 1 0, copy 1 0 5"),
    ("notify with a store", "K 0 0, Y 0 0, K 1 0, A 1 0 5, S 1 0 5, F 1 0 0", "accepted 6, main 0 0, main 1 0, copy 1 0 5"),
    ("notify while owing", "K 0 0, Y 0 0, K 1 0, P 1 0 5, F 1 0 0", "accepted 5, main 0 0, main 1 0"),
    ("notify spoils no copy", "K 0 0, Y 0 0, K 1 0, R 1 0 0, L 1 0 0, F 1 0 0, U 1 0 0", "accepted 7, main 0 0, main 1 0, copy 1 0 0"),
    ("notify keeps the lock", "K 0 0, Y 0 0, K 1 0, F 1 0 0, C 0 0", "refused 7 11"),
    // C
    ("come back", "K 0 0, Y 0 0, K 1 0, F 1 0 0, N 1 0, C 0 0", "accepted 6, main 0 0, main 1 0"),
    ("come back without a wait", "C 0 0", "refused 3 30"),
    ("come back with the lock", "K 0 0, C 0 0", "refused 4 30"),
    ("come back without a wait, 30 before 11", "K 1 0, C 0 0", "refused 4 30"),
    ("come back without a wait, 30 before 13", "P 0 0 5, C 0 0", "refused 4 30"),
    ("come back without a notification", "K 0 0, Y 0 0, C 0 0", "refused 5 30"),
    ("come back without a notification, 30 before 11", "K 0 0, Y 0 0, K 1 0, C 0 0", "refused 6 30"),
    ("come back on another lock", "K 0 0, Y 0 0, K 1 0, F 1 0 0, N 1 0, C 0 1", "refused 8 30"),
    ("another comes back", "K 0 0, Y 0 0, K 1 0, F 1 0 0, N 1 0, C 1 0", "refused 8 30"),
    ("come back twice", "K 0 0, Y 0 0, K 1 0, F 1 0 0, N 1 0, C 0 0, C 0 0", "refused 9 30"),
    ("come back twice, the lock given up between", "K 0 0, Y 0 0, K 1 0, F 1 0 0, N 1 0, C 0 0, N 0 0, C 0 0", "refused 10 30"),
    ("come back by a notification before the wait", "K 0 0, Y 0 0, K 1 0, F 1 0 0, N 1 0, C 0 0, Y 0 0, C 0 0", "refused 10 30"),
    ("come back to another's lock", "K 0 0, Y 0 0, K 1 0, F 1 0 0, K 1 0, N 1 0, C 0 0", "refused 9 11"),
    ("come back after the notifier's wait", "K 0 0, Y 0 0, K 1 0, F 1 0 0, Y 1 0, C 0 0", "accepted 6, main 0 0, main 1 0"),
    ("come back while owing", "K 0 0, P 0 0 5, Y 0 0, K 1 0, F 1 0 0, N 1 0, C 0 0", "refused 9 13"),
    ("come back while owing, the early store written", "K 0 0, P 0 0 5, Y 0 0, K 1 0, F 1 0 0, N 1 0, W 0 0 5, C 0 0", "refused 10 13"),
    ("come back while owing, 11 before 13", "K 0 0, P 0 0 5, Y 0 0, K 1 0, F 1 0 0, C 0 0", "refused 8 11"),
    ("come back while another owes", "K 0 0, Y 0 0, K 1 0, F 1 0 0, P 1 0 5, N 1 0, C 0 0", "accepted 7, main 0 0, main 1 0"),
    ("come back with a lock held", "K 0 1, K 0 0, Y 0 0, K 1 0, F 1 0 0, N 1 0, C 0 0", "accepted 7, main 0 0, main 1 0"),
    // what is held after a C
    ("one hold taken again", "K 0 0, Y 0 0, K 1 0, F 1 0 0, N 1 0, C 0 0, N 0 0, N 0 0", "refused 10 12"),
    ("one hold taken again, another's lock", "K 0 0, Y 0 0, K 1 0, F 1 0 0, N 1 0, C 0 0, K 1 0", "refused 9 11"),
    ("two holds taken again, one given up", "K 0 0, K 0 0, Y 0 0, K 1 0, F 1 0 0, N 1 0, C 0 0, N 0 0, K 1 0", "refused 11 11"),
    ("two holds taken again, both given up", "K 0 0, K 0 0, Y 0 0, K 1 0, F 1 0 0, N 1 0, C 0 0, N 0 0, N 0 0, K 1 0",
     "accepted 10, main 0 0, main 1 0"),
    ("two holds taken again, three given up", "K 0 0, K 0 0, Y 0 0, K 1 0, F 1 0 0, N 1 0, C 0 0, N 0 0, N 0 0, N 0 0", "refused 12 12"),
    (
        "two holds, then three, two given up",
        "K 0 0, K 0 0, Y 0 0, K 1 0, F 1 0 0, N 1 0, C 0 0, K 0 0, Y 0 0, K 1 0, F 1 0 0, N 1 0, C 0 0, N 0 0, N 0 0, K 1 0",
        "refused 18 11",
    ),
    (
        "two holds, then three, all given up",
        "K 0 0, K 0 0, Y 0 0, K 1 0, F 1 0 0, N 1 0, C 0 0, K 0 0, Y 0 0, K 1 0, F 1 0 0, N 1 0, C 0 0, N 0 0, N 0 0, N 0 0, K 1 0",
        "accepted 17, main 0 0, main 1 0",
    ),
    (
        "two holds, one given up before the second wait",
        "K 0 0, K 0 0, Y 0 0, K 1 0, F 1 0 0, N 1 0, C 0 0, N 0 0, Y 0 0, K 1 0, F 1 0 0, N 1 0, C 0 0, N 0 0, K 1 0",
        "accepted 15, main 0 0, main 1 0",
    ),
    ("the holds of another lock stay", "K 0 1, K 0 1, K 0 0, Y 0 0, K 1 0, F 1 0 0, N 1 0, C 0 0, N 0 0, N 0 1, K 1 1", "refused 13 11"),
    // what a C spoils
    ("a copy before the wait", "K 0 0, A 0 0 5, S 0 0 5, W 0 0 5, Y 0 0, K 1 0, F 1 0 0, N 1 0, C 0 0, U 0 0 5", "refused 12 17"),
    ("a copy of another lock's variable", "K 0 0, R 0 1 0, L 0 1 0, Y 0 0, K 1 0, F 1 0 0, N 1 0, C 0 0", "accepted 8, main 0 0, main 1 0"),
    ("a read before the C", "K 0 0, Y 0 0, R 0 0 0, K 1 0, F 1 0 0, N 1 0, C 0 0, L 0 0 0, U 0 0 0", "refused 11 17"),
    ("a read after the C", "K 0 0, Y 0 0, K 1 0, F 1 0 0, N 1 0, C 0 0, R 0 0 0, L 0 0 0, U 0 0 0",
     "accepted 9, main 0 0, main 1 0, copy 0 0 0"),
    ("an assign after the C", "K 0 0, Y 0 0, K 1 0, F 1 0 0, N 1 0, C 0 0, A 0 0 5, U 0 0 5", "accepted 8, main 0 0, main 1 0, copy 0 0 5"),
    ("another's copy", "K 0 0, Y 0 0, K 1 0, F 1 0 0, R 1 0 0, L 1 0 0, N 1 0, C 0 0, U 1 0 0", "accepted 9, main 0 0, main 1 0, copy 1 0 0"),
    // 5 and 4 before 29 and 30
    ("undeclared variable while waiting", "K 0 0, Y 0 0, A 0 2 0", "refused 5 5"),
    ("undeclared lock while waiting", "K 0 0, Y 0 0, Y 0 2", "refused 5 5"),
    ("undeclared thread to be notified", "K 0 0, Y 0 0, F 1 0 2", "refused 5 5"),
    ("undeclared thread to be notified by a waiting one", "K 0 0, Y 0 0, F 0 0 9", "refused 5 5"),
    ("no event while waiting", "K 0 0, Y 0 0, A 0 0", "refused 5 4"),
];

/// Papers of other forms: name, head, `G` line, lines, listing, that of the short course where it is another.
const ORDERS: &[(&str, &str, &str, &str, &str, Option<&str>)] = &[
    ("no locks, wait", "H 1 1 0", "G -", "Y 0 0", "refused 3 5", None),
    ("no locks, notify", "H 1 1 0", "G -", "F 0 0 0", "refused 3 5", None),
    ("no locks, come back", "H 1 1 0", "G -", "C 0 0", "refused 3 5", None),
    (
        "producer and consumer",
        "H 2 1 1",
        "G 0",
        "K 0 0, Y 0 0, K 1 0, A 1 0 5, S 1 0 5, W 1 0 5, F 1 0 0, N 1 0, C 0 0, R 0 0 5, L 0 0 5, U 0 0 5, N 0 0",
        "accepted 13, main 0 5, copy 0 0 5, copy 1 0 5, section 0 3 4, section 1 5 10, section 0 11 15",
        None,
    ),
    (
        "there and back",
        "H 2 1 1",
        "G 0",
        "K 0 0, Y 0 0, K 1 0, A 1 0 1, S 1 0 1, W 1 0 1, F 1 0 0, Y 1 0, C 0 0, R 0 0 1, L 0 0 1, U 0 0 1, A 0 0 2, S 0 0 2, W 0 0 2, \
         F 0 0 1, N 0 0, C 1 0, R 1 0 2, L 1 0 2, U 1 0 2, N 1 0",
        "accepted 22, main 0 2, copy 0 0 2, copy 1 0 2, section 0 3 4, section 1 5 10, section 0 11 19, section 1 20 24",
        None,
    ),
    (
        "several holds",
        "H 2 1 1",
        "G 0",
        "K 0 0, K 0 0, Y 0 0, K 1 0, F 1 0 0, N 1 0, C 0 0, N 0 0, N 0 0",
        "accepted 9, main 0 0, section 0 3 5, section 1 6 8, section 0 9 11",
        None,
    ),
    (
        "a lock behind the C",
        "H 2 1 1",
        "G 0",
        "K 0 0, Y 0 0, K 1 0, F 1 0 0, N 1 0, C 0 0, K 0 0, N 0 0, N 0 0",
        "accepted 9, main 0 0, section 0 3 4, section 1 5 7, section 0 8 11",
        None,
    ),
    (
        "wait twice",
        "H 2 1 1",
        "G 0",
        "K 0 0, Y 0 0, K 1 0, F 1 0 0, N 1 0, C 0 0, Y 0 0, K 1 0, F 1 0 0, N 1 0, C 0 0, N 0 0",
        "accepted 12, main 0 0, section 0 3 4, section 1 5 7, section 0 8 9, section 1 10 12, section 0 13 14",
        None,
    ),
    (
        "the notifier holds another lock",
        "H 2 1 2",
        "G 0",
        "K 1 1, K 0 0, Y 0 0, K 1 0, F 1 0 0, N 1 0, N 1 1, C 0 0, N 0 0",
        "accepted 9, main 0 0, section 0 4 5, section 1 3 9, section 0 10 11",
        None,
    ),
    (
        "a section around the C",
        "H 2 1 2",
        "G 0",
        "K 0 0, Y 0 0, K 1 0, F 1 0 0, N 1 0, K 1 1, C 0 0, N 0 0, N 1 1",
        "accepted 9, main 0 0, section 0 3 4, section 1 5 7, section 1 8 11, section 0 9 10",
        None,
    ),
    (
        "a section that begins at a C, not by its first lock",
        "H 2 1 2",
        "G 0",
        "K 0 0, Y 0 0, K 1 0, F 1 0 0, N 1 0, C 0 0, K 1 1, N 1 1, K 0 1, N 0 1, N 0 0",
        "accepted 11, main 0 0, section 0 3 4, section 1 5 7, section 1 9 10, section 0 8 13",
        None,
    ),
    (
        "an unlock, then the wait that ends the section",
        "H 2 1 2",
        "G 0",
        "K 0 1, K 0 0, N 0 1, Y 0 0, K 1 0, F 1 0 0, N 1 0, C 0 0, N 0 0",
        "accepted 9, main 0 0, section 0 3 6, section 1 7 9, section 0 10 11",
        None,
    ),
    (
        "an assign behind the C",
        "H 2 1 1",
        "G 0",
        "K 0 0, Y 0 0, K 1 0, F 1 0 0, N 1 0, C 0 0, A 0 0 5, S 0 0 5, W 0 0 5, N 0 0",
        "accepted 10, main 0 5, copy 0 0 5, section 0 3 4, section 1 5 7, section 0 8 12",
        None,
    ),
    (
        "an early store behind the C",
        "H 2 1 1",
        "G 0",
        "K 0 0, Y 0 0, K 1 0, F 1 0 0, N 1 0, C 0 0, P 0 0 5, W 0 0 5, B 0 0 5, N 0 0",
        "accepted 10, main 0 5, copy 0 0 5, section 0 3 4, section 1 5 7, section 0 8 12",
        None,
    ),
    (
        "a read while waiting, loaded behind the C",
        "H 2 1 1",
        "G 0",
        "K 0 0, Y 0 0, R 0 0 0, K 1 0, F 1 0 0, N 1 0, C 0 0, L 0 0 0, N 0 0",
        "accepted 9, main 0 0, section 0 3 4, section 1 6 8, section 0 9 11",
        None,
    ),
    (
        "two wait, the second comes back first",
        "H 3 1 1",
        "G 0",
        "K 0 0, Y 0 0, K 1 0, Y 1 0, K 2 0, F 2 0 1, F 2 0 0, N 2 0, C 1 0, N 1 0, C 0 0, N 0 0",
        "accepted 12, main 0 0, section 0 3 4, section 1 5 6, section 2 7 10, section 1 11 12, section 0 13 14",
        Some(OVER_HEAD),
    ),
    (
        "two wait, one is notified, the other comes back",
        "H 3 1 1",
        "G 0",
        "K 0 0, Y 0 0, K 1 0, Y 1 0, K 2 0, F 2 0 1, N 2 0, C 0 0",
        "refused 10 30",
        Some(OVER_HEAD),
    ),
    (
        "two wait, one is notified and comes back",
        "H 3 1 1",
        "G 0",
        "K 0 0, Y 0 0, K 1 0, Y 1 0, K 2 0, F 2 0 1, N 2 0, C 1 0, N 1 0",
        "accepted 9, main 0 0, unordered 12 22",
        Some(OVER_HEAD),
    ),
    ("notify with a third's lock", "H 3 1 1", "G 0", "K 0 0, Y 0 0, K 2 0, F 1 0 0", "refused 6 12", Some(OVER_HEAD)),
    // 20
    ("20 while the lock is given up", "H 2 1 1", "G 0", "K 0 0, Y 0 0, A 1 0 5", "accepted 3, main 0 0, copy 1 0 5, unordered 5 20", None),
    (
        "20 behind a C on another lock",
        "H 2 1 2",
        "G 1",
        "K 0 0, Y 0 0, K 1 0, F 1 0 0, N 1 0, C 0 0, A 0 0 5",
        "accepted 7, main 0 0, copy 0 0 5, unordered 9 20",
        None,
    ),
    // 21
    (
        "21 at a C",
        "H 2 1 2",
        "G 0",
        "K 0 1, K 0 0, Y 0 0, K 1 0, F 1 0 0, N 1 0, C 0 0, N 0 0, N 0 1",
        "accepted 9, main 0 0, unordered 9 21",
        None,
    ),
    (
        "21 at a C, the other lock taken later",
        "H 2 1 2",
        "G 1",
        "K 0 0, K 0 1, Y 0 0, K 1 0, F 1 0 0, N 1 0, C 0 0, N 0 0, N 0 1",
        "accepted 9, main 0 0, unordered 9 21",
        None,
    ),
    (
        "21 at a K behind an N behind a C",
        "H 2 1 2",
        "G 0",
        "K 0 0, Y 0 0, K 1 0, F 1 0 0, N 1 0, C 0 0, K 0 1, N 0 1, K 0 1",
        "accepted 9, main 0 0, unordered 11 21",
        None,
    ),
    (
        "21 at a C before 22",
        "H 2 1 2",
        "G 0",
        "K 0 1, K 0 0, Y 0 0, K 1 0, F 1 0 0, N 1 0, C 0 0",
        "accepted 7, main 0 0, unordered 9 21",
        None,
    ),
    (
        "20 before 21 at a C",
        "H 2 1 2",
        "G 0",
        "K 0 1, K 0 0, Y 0 0, R 1 0 0, L 1 0 0, U 1 0 0, K 1 0, F 1 0 0, N 1 0, C 0 0",
        "accepted 10, main 0 0, unordered 8 20",
        None,
    ),
    // 22
    ("22, a thread waits", "H 2 1 1", "G 0", "K 0 0, Y 0 0", "accepted 2, main 0 0, unordered 5 22", None),
    ("a thread waits, no guards", "H 2 1 1", "G -", "K 0 0, Y 0 0", "accepted 2, main 0 0", None),
    ("22, one thread alone waits", "H 1 1 1", "G 0", "K 0 0, Y 0 0", "accepted 2, main 0 0, unordered 5 22", None),
    ("22, a notified thread waits", "H 2 1 1", "G 0", "K 0 0, Y 0 0, K 1 0, F 1 0 0, N 1 0", "accepted 5, main 0 0, unordered 8 22", None),
    ("22, both wait", "H 2 1 1", "G 0", "K 0 0, Y 0 0, K 1 0, Y 1 0", "accepted 4, main 0 0, unordered 7 22", None),
    ("22, a lock held behind a C", "H 2 1 1", "G 0", "K 0 0, Y 0 0, K 1 0, F 1 0 0, N 1 0, C 0 0",
     "accepted 6, main 0 0, unordered 9 22", None),
    ("22, one of two holds behind a C", "H 2 1 1", "G 0", "K 0 0, K 0 0, Y 0 0, K 1 0, F 1 0 0, N 1 0, C 0 0, N 0 0",
     "accepted 8, main 0 0, unordered 11 22", None),
    ("22, waiting and owing", "H 2 1 1", "G 0", "K 0 0, P 0 0 5, Y 0 0, W 0 0 5", "accepted 4, main 0 5, unordered 7 22", None),
    ("22, a lock held while waiting", "H 2 1 2", "G 0", "K 0 0, K 0 1, Y 0 0", "accepted 3, main 0 0, unordered 6 22", None),
    // behind a V line
    (
        "producer and consumer, volatile",
        "H 2 1 1",
        "G 0",
        "V 0, K 0 0, Y 0 0, K 1 0, A 1 0 5, S 1 0 5, W 1 0 5, F 1 0 0, N 1 0, C 0 0, R 0 0 5, L 0 0 5, U 0 0 5, N 0 0",
        "accepted 13, main 0 5, copy 0 0 5, copy 1 0 5, section 0 4 5, section 1 6 11, section 0 12 16",
        None,
    ),
    ("12 behind a V line", "H 2 1 1", "G 0", "V 0, Y 0 0", "refused 4 12", None),
    ("29 before 26", "H 2 1 1", "G 0", "V 0, K 0 0, Y 0 0, U 0 0 0", "refused 6 29", None),
    ("29 before 26 at an assign", "H 2 1 1", "G 0", "V 0, K 0 0, R 0 0 0, L 0 0 0, Y 0 0, A 0 0 5", "refused 8 29", None),
    ("29 before 28", "H 2 1 1", "G 0", "V 0, K 0 0, Y 0 0, P 0 0 5", "refused 6 29", None),
    ("30 behind a V line", "H 2 1 1", "G 0", "V 0, C 0 0", "refused 4 30", None),
    ("30 at F behind a V line", "H 2 1 1", "G 0", "V 0, K 0 0, F 0 0 1", "refused 5 30", None),
    ("11 behind a V line", "H 2 1 1", "G 0", "V 0, K 0 0, Y 0 0, K 1 0, F 1 0 0, C 0 0", "refused 8 11", None),
    ("15 behind a V line", "H 2 1 1", "G 0", "V 0, K 0 0, A 0 0 5, Y 0 0", "refused 6 15", None),
    ("16 behind a V line", "H 2 1 1", "G 0", "V 0, K 0 0, A 0 0 5, S 0 0 5, Y 0 0", "refused 7 16", None),
    ("17 behind a C, volatile", "H 2 1 1", "G 0", "V 0, K 0 0, R 0 0 0, L 0 0 0, Y 0 0, K 1 0, F 1 0 0, N 1 0, C 0 0, U 0 0 0",
     "refused 12 17", None),
    ("4 behind a V line", "H 2 1 1", "G 0", "V 0, F 0 0", "refused 4 4", None),
    ("5 behind a V line", "H 2 1 1", "G 0", "V 0, F 0 0 2", "refused 4 5", None),
    ("22 behind a V line", "H 2 1 1", "G 0", "V 0, K 0 0, Y 0 0", "accepted 2, main 0 0, unordered 6 22", None),
    (
        "21 behind a V line",
        "H 2 1 2",
        "G 0",
        "V 0, K 0 1, K 0 0, Y 0 0, K 1 0, F 1 0 0, N 1 0, C 0 0, N 0 0, N 0 1",
        "accepted 9, main 0 0, unordered 10 21",
        None,
    ),
];

/// A paper with its listing, and that of the short course.
fn paper(name: &str, bytes: Vec<u8>, listing: &str, short: Option<&str>) -> (Expected, String) {
    let expected = Expected { name: format!("waiting: {name}"), paper: bytes, listing: lines(listing) };
    (expected, lines(short.unwrap_or(listing)))
}

/// Papers with about 200 and about 2,000 events without guards: name, events, listing, that of the short course where it is another.
fn limits() -> Vec<(&'static str, String, String, Option<&'static str>)> {
    let then = |n: usize, last: &str| joined([times(n, "A 1 3 5"), last.into()]);
    let taken = |n: usize| format!("accepted {n}, {MAIN}, copy 1 3 5");
    let over = Some(OVER_EVENTS);
    vec![
        ("Y is event 200", then(198, "K 0 0, Y 0 0"), taken(200), None),
        ("Y is event 201", then(199, "K 0 0, Y 0 0"), taken(201), over),
        ("event 200 of 29", then(197, "K 0 0, Y 0 0, A 0 0 0"), "refused 202 29".into(), None),
        ("event 200 of 30", then(199, "C 0 0"), "refused 202 30".into(), None),
        ("event 201 of 29", then(198, "K 0 0, Y 0 0, A 0 0 0"), "refused 203 29".into(), over),
        ("event 201 of 30", then(198, "K 0 0, Y 0 0, C 0 0"), "refused 203 30".into(), over),
        ("event 201 of 12", then(198, "K 0 0, Y 0 0, F 1 0 0"), "refused 203 12".into(), over),
        ("event 201 undeclared", then(198, "K 0 0, Y 0 0, F 1 0 2"), "refused 203 5".into(), over),
        ("201st line is no event", then(198, "K 0 0, Y 0 0, F 1 0"), "refused 203 4".into(), None),
        ("201st line has a minus", then(200, "F 0 0 -1"), "refused 203 4".into(), None),
        ("Y is event 2,000", then(1998, "K 0 0, Y 0 0"), taken(2000), over),
        ("event 2,000 of 29", then(1997, "K 0 0, Y 0 0, N 0 0"), "refused 2002 29".into(), over),
        ("event 2,001 of 29", then(1998, "K 0 0, Y 0 0, N 0 0"), "refused 2003 9".into(), over),
        ("event 2,001 of 30", then(2000, "C 0 0"), "refused 2003 9".into(), over),
        ("2,001st line is no event", then(2000, "Y 0"), "refused 2003 4".into(), over),
    ]
}

/// Sections that end at a Y and begin at a C, with a K, F and N between: three to seven events, so many times; then so many of a K and N.
fn waits(n: usize, plain: usize) -> (String, String) {
    let events = joined([times(n, "K 0 0, Y 0 0, K 1 0, F 1 0 0, N 1 0, C 0 0, N 0 0"), times(plain, "K 0 0, N 0 0")]);
    let of = |i: usize| {
        let k = 7 * i + 3;
        format!("section 0 {k} {}, section 1 {} {}, section 0 {} {}", k + 1, k + 2, k + 4, k + 5, k + 6)
    };
    let rest = each(plain, |i| format!("section 0 {} {}", 7 * n + 2 * i + 3, 7 * n + 2 * i + 4));
    (events, joined([each(n, of), rest]))
}

/// Both threads wait for each other in turn: a section for every three events.
fn turns(n: usize) -> (String, String) {
    let turn = times(n, "F 1 0 0, Y 1 0, C 0 0, F 0 0 1, Y 0 0, C 1 0");
    let events = joined(["K 0 0, Y 0 0, K 1 0".into(), turn, "F 1 0 0, N 1 0, C 0 0, N 0 0".into()]);
    let sections = each(2 * n + 1, |k| format!("section {} {} {}", (k + 1) % 2, 3 * k + 5, 3 * k + 7));
    (events, joined(["section 0 3 4".into(), sections, format!("section 0 {} {}", 6 * n + 8, 6 * n + 9)]))
}

/// So many holds given up by a Y and taken again by a C.
fn holds(d: usize) -> (String, String) {
    let events = joined([times(d, "K 0 0"), "Y 0 0, K 1 0, F 1 0 0, N 1 0, C 0 0".into(), times(d, "N 0 0")]);
    (events, format!("section 0 3 {}, section 1 {} {}, section 0 {} {}", d + 3, d + 4, d + 6, d + 7, 2 * d + 7))
}

/// The same, and the notifier waits too: the K and C are one less than half of the events.
fn both_hold(d: usize) -> (String, String) {
    let between = "Y 0 0, K 1 0, F 1 0 0, Y 1 0, C 0 0, F 0 0 1".into();
    let events = joined([times(d, "K 0 0"), between, times(d, "N 0 0"), "C 1 0, N 1 0".into()]);
    let first = format!("section 0 3 {}, section 1 {} {}", d + 3, d + 4, d + 6);
    (events, format!("{first}, section 0 {} {}, section 1 {} {}", d + 7, 2 * d + 8, 2 * d + 9, 2 * d + 10))
}

/// Guarded papers of many events: name, events and sections, how many events, that of the short course where it is another.
fn orders() -> Vec<(&'static str, (String, String), usize, Option<&'static str>)> {
    let over = Some(OVER_EVENTS);
    vec![
        ("28 waits", waits(28, 2), 200, None),
        ("29 waits", waits(29, 1), 205, over),
        ("285 waits", waits(285, 2), 1999, over),
        ("32 turns", turns(32), 199, None),
        ("33 turns", turns(33), 205, over),
        ("332 turns", turns(332), 1999, over),
        ("97 holds", holds(97), 199, None),
        ("98 holds", holds(98), 201, over),
        ("997 holds", holds(997), 1999, over),
        ("96 holds, both wait", both_hold(96), 200, None),
        ("996 holds, both wait", both_hold(996), 2000, over),
    ]
}

/// Eight threads: seven wait, each on a lock of its own, and the last notifies them.
fn eight() -> (String, String) {
    let waits = each(7, |i| format!("K {i} {i}, Y {i} {i}"));
    let told = each(7, |i| format!("K 7 {i}, F 7 {i} {i}, N 7 {i}"));
    let back = each(7, |i| format!("C {i} {i}, N {i} {i}"));
    let sections = joined([
        each(7, |i| format!("section {i} {} {}", 2 * i + 3, 2 * i + 4)),
        each(7, |i| format!("section 7 {} {}", 3 * i + 17, 3 * i + 19)),
        each(7, |i| format!("section {i} {} {}", 2 * i + 38, 2 * i + 39)),
    ]);
    (joined([waits, told, back]), format!("accepted 49, main 0 0, {sections}"))
}

/// Papers with their listings, and those of the short course.
pub fn papers() -> Vec<(Expected, String)> {
    let mut list = Vec::new();
    for line in MALFORMED {
        list.push(paper(&format!("malformed: {line}"), text("H 2 1 2", "G -", line), "refused 3 4", None));
    }
    for line in UNDECLARED {
        list.push(paper(&format!("undeclared: {line}"), text("H 2 1 1", "G 0", line), "refused 3 5", None));
    }
    for line in BARRED {
        let waiting = format!("K 0 0, Y 0 0, {line}");
        list.push(paper(&format!("barred: {line}"), text("H 2 2 2", "G -", &waiting), "refused 5 29", None));
        let notified = format!("K 0 0, Y 0 0, K 1 0, F 1 0 0, {line}");
        list.push(paper(&format!("barred when notified: {line}"), text("H 2 2 2", "G 0 1", &notified), "refused 7 29", None));
        let free = format!("K 0 0, Y 0 0, K 1 0, F 1 0 0, N 1 0, {line}");
        list.push(paper(
            &format!("barred when notified, the lock free: {line}"),
            text("H 2 2 2", "G -", &free),
            "refused 8 29",
            None,
        ));
    }
    for (name, events, listing) in TRACES {
        list.push(paper(name, text("H 2 2 2", "G -", events), listing, None));
    }
    for (name, head, guards, events, listing, short) in ORDERS {
        list.push(paper(name, text(head, guards, events), listing, *short));
    }
    let reads = |n: usize| joined(["K 0 0, Y 0 0".into(), times(n, "R 0 0 0")]);
    list.push(paper("eight reads while waiting", text("H 2 2 2", "G -", &reads(8)), "accepted 10, main 0 0, main 1 0", None));
    list.push(paper("nine reads while waiting", text("H 2 2 2", "G -", &reads(9)), "refused 13 19", None));
    for (name, events, listing, short) in limits() {
        list.push(paper(name, text(HEAD, "G -", &events), &listing, short));
    }
    for (name, (events, sections), number, short) in orders() {
        let listing = format!("accepted {number}, {MAIN}, {sections}");
        list.push(paper(&format!("order: {name}"), text(HEAD, "G 0 0 0 0", &events), &listing, short));
    }
    let (events, listing) = eight();
    list.push(paper("eight threads", text("H 8 1 8", "G 7", &events), &listing, Some(OVER_HEAD)));
    let all = each(8, |i| format!("K {i} 0, Y {i} 0"));
    list.push(paper("all wait", text("H 8 1 1", "G 0", &all), "accepted 16, main 0 0, unordered 19 22", Some(OVER_HEAD)));
    // numbers of a thousand digits, and 65,536 bytes
    let (nines, zeros) = ("9".repeat(1_000), "0".repeat(1_000));
    for (name, line, number) in [
        ("thread to be notified", format!("F 0 0 {nines}"), 5),
        ("zeros for one", format!("F 0 0 {zeros}"), 4),
        ("minus nines for one", format!("F 0 0 -{nines}"), 4),
        ("lock of a Y", format!("Y 0 {nines}"), 5),
        ("thread of a C", format!("C {nines} 0"), 5),
        ("spaces behind a Y", format!("Y 0 0{}", " ".repeat(1_000)), 4),
    ] {
        let listing = format!("refused 3 {number}");
        list.push(paper(&format!("a thousand: {name}"), text("H 1 1 1", "G 0", &line), &listing, None));
    }
    for (line, number) in [("F 0 0 ", 5), ("C 0 ", 5), ("Y 0 0", 4), ("F 0 0 -", 4)] {
        let mut body = format!("H 1 1 1\nG -\n{line}").into_bytes();
        body.resize(65_536 - 9, b'9');
        body.push(10);
        list.push(paper(&format!("65,536 bytes: {line}"), close(body), &format!("refused 3 {number}"), None));
    }
    list
}
