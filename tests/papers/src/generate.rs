//! Papers and traces to mark.

use crate::by_a::After;
use crate::{Counts, Course, Event, Value};
use marker_b::{State, VARIABLES};

/// SplitMix64: the same seed gives the same papers.
pub struct Rng(u64);

impl Rng {
    pub fn new(seed: u64) -> Rng {
        Rng(seed)
    }

    pub fn next(&mut self) -> u64 {
        self.0 = self.0.wrapping_add(0x9E37_79B9_7F4A_7C15);
        let mut z = self.0;
        z = (z ^ (z >> 30)).wrapping_mul(0xBF58_476D_1CE4_E5B9);
        z = (z ^ (z >> 27)).wrapping_mul(0x94D0_49BB_1331_11EB);
        z ^ (z >> 31)
    }

    /// A number below n.
    pub fn below(&mut self, n: usize) -> usize {
        (self.next() % n as u64) as usize
    }

    pub fn between(&mut self, a: usize, b: usize) -> usize {
        a + self.below(b - a + 1)
    }

    /// True in `percent` of a hundred cases.
    pub fn chance(&mut self, percent: usize) -> bool {
        self.below(100) < percent
    }

    pub fn pick<T: Copy>(&mut self, list: &[T]) -> T {
        list[self.below(list.len())]
    }

    /// An index, by weight.
    pub fn weighted(&mut self, weights: &[usize]) -> usize {
        let mut n = self.below(weights.iter().sum());
        for (i, &w) in weights.iter().enumerate() {
            if n < w {
                return i;
            }
            n -= w;
        }
        unreachable!()
    }
}

pub const LETTERS: &[u8; 13] = b"UALSRWKNPBYFC";
/// Those of waiting, and the others.
pub const WAITING: &[u8] = b"YFC";
pub const OTHERS: &[u8] = b"UALSRWKNPB";

/// Every pair of a letter and a refusal of its row that a paper can have. No L of a paper meets 15 or 16: 23 comes before.
pub const PAIRS: [(u8, u32); 54] = [
    (b'U', 17),
    (b'U', 18),
    (b'A', 23),
    (b'L', 10),
    (b'L', 13),
    (b'L', 18),
    (b'S', 13),
    (b'S', 14),
    (b'S', 17),
    (b'S', 18),
    (b'S', 19),
    (b'R', 18),
    (b'R', 19),
    (b'R', 23),
    (b'W', 10),
    (b'W', 18),
    (b'K', 11),
    (b'K', 13),
    (b'N', 12),
    (b'N', 15),
    (b'N', 16),
    (b'P', 13),
    (b'P', 19),
    (b'P', 23),
    (b'B', 10),
    (b'B', 18),
    (b'U', 26),
    (b'A', 26),
    (b'L', 26),
    (b'S', 26),
    (b'P', 26),
    (b'B', 26),
    (b'U', 27),
    (b'W', 27),
    (b'P', 28),
    (b'B', 28),
    (b'Y', 12),
    (b'Y', 15),
    (b'Y', 16),
    (b'F', 12),
    (b'C', 11),
    (b'C', 13),
    (b'U', 29),
    (b'A', 29),
    (b'L', 29),
    (b'S', 29),
    (b'K', 29),
    (b'N', 29),
    (b'P', 29),
    (b'B', 29),
    (b'Y', 29),
    (b'F', 29),
    (b'F', 30),
    (b'C', 30),
];

/// Every letter and two refusals of its row that one event of a paper can break at once; the first is the answer. With an outstanding
/// read there is no outstanding store, no own write after it, and a fresh assign only where one is owed, so that L has no 16 beside 13, and R
/// and P have no 23 beside 19. A volatile variable is never owed, so that nothing has 13 beside 26 or 28; and W without a store has no 27.
/// 27 beside 26 at U is one of `VOLATILE_CASES`. A waiting thread has no fresh assign and no store but early ones that are owed, at most one
/// of a variable, so that 29 has neither 15 nor 19 beside it, and 16 at L alone.
pub const DOUBLES: [(u8, u32, u32); 84] = [
    (b'U', 17, 18),
    (b'L', 10, 13),
    (b'L', 10, 15),
    (b'L', 10, 16),
    (b'L', 13, 15),
    (b'L', 13, 18),
    (b'S', 13, 14),
    (b'S', 13, 17),
    (b'S', 13, 18),
    (b'S', 13, 19),
    (b'S', 14, 17),
    (b'S', 14, 18),
    (b'S', 14, 19),
    (b'S', 17, 18),
    (b'S', 17, 19),
    (b'S', 18, 19),
    (b'R', 18, 19),
    (b'R', 18, 23),
    (b'K', 11, 13),
    (b'N', 12, 15),
    (b'N', 12, 16),
    (b'N', 15, 16),
    (b'P', 13, 19),
    (b'P', 13, 23),
    (b'B', 10, 18),
    (b'U', 26, 17),
    (b'U', 26, 18),
    (b'U', 27, 17),
    (b'U', 27, 18),
    (b'A', 26, 23),
    (b'L', 26, 10),
    (b'L', 26, 15),
    (b'L', 26, 16),
    (b'L', 26, 18),
    (b'S', 26, 14),
    (b'S', 26, 17),
    (b'S', 26, 18),
    (b'S', 26, 19),
    (b'W', 27, 18),
    (b'P', 26, 28),
    (b'P', 26, 19),
    (b'P', 26, 23),
    (b'P', 28, 19),
    (b'P', 28, 23),
    (b'B', 26, 28),
    (b'B', 26, 10),
    (b'B', 28, 10),
    (b'Y', 12, 15),
    (b'Y', 12, 16),
    (b'Y', 15, 16),
    (b'C', 11, 13),
    (b'U', 29, 17),
    (b'U', 29, 18),
    (b'U', 29, 26),
    (b'U', 29, 27),
    (b'A', 29, 23),
    (b'A', 29, 26),
    (b'L', 29, 10),
    (b'L', 29, 13),
    (b'L', 29, 16),
    (b'L', 29, 18),
    (b'L', 29, 26),
    (b'S', 29, 13),
    (b'S', 29, 14),
    (b'S', 29, 17),
    (b'S', 29, 18),
    (b'S', 29, 26),
    (b'K', 29, 11),
    (b'K', 29, 13),
    (b'N', 29, 12),
    (b'P', 29, 13),
    (b'P', 29, 23),
    (b'P', 29, 26),
    (b'P', 29, 28),
    (b'B', 29, 10),
    (b'B', 29, 18),
    (b'B', 29, 26),
    (b'B', 29, 28),
    (b'Y', 29, 12),
    (b'F', 29, 30),
    (b'F', 29, 12),
    (b'F', 30, 12),
    (b'C', 30, 11),
    (b'C', 30, 13),
];

/// A letter that is refused with 26 on a volatile variable, and the thread's latest event on it, R and W left aside; 0 is none.
pub const NEIGHBOURS: [(u8, u8); 16] = [
    (b'U', 0),
    (b'U', b'U'),
    (b'U', b'A'),
    (b'U', b'S'),
    (b'S', 0),
    (b'S', b'U'),
    (b'S', b'L'),
    (b'S', b'S'),
    (b'A', b'A'),
    (b'A', b'L'),
    (b'L', b'A'),
    (b'L', b'L'),
    (b'P', b'A'),
    (b'P', b'L'),
    (b'B', b'A'),
    (b'B', b'L'),
];

/// A letter and a refusal of its row behind 26, 27 and 28 that a paper can have on a volatile variable.
pub const ON_VOLATILES: [(u8, u32); 13] = [
    (b'U', 17),
    (b'U', 18),
    (b'A', 23),
    (b'L', 10),
    (b'L', 18),
    (b'S', 17),
    (b'S', 18),
    (b'S', 19),
    (b'R', 18),
    (b'R', 19),
    (b'R', 23),
    (b'W', 10),
    (b'W', 18),
];

/// A letter, its answer, 0 where it is accepted, and what holds of the event and the events before it.
pub type Case = (u8, u32, fn(&After, &Event) -> bool);

/// Parts of a rule. T is the event's thread and V its variable.
pub const CASES: [Case; 17] = [
    // N: where T has a fresh assign it owes one too, and the early store is written; or waits for its write
    (b'N', 15, |after, e| {
        let written = |t, v| after.owed(t, v) && after.unwritten(t, v).is_empty();
        after.broken(e) == [15] && after.each(e, |t, v| !after.fresh(t, v) || written(t, v))
    }),
    (b'N', 15, |after, e| after.broken(e) == [15] && after.each(e, |t, v| !after.fresh(t, v) || after.early(t, v))),
    // N while an early store waits for its assign and its write; and an older store of its variable is written
    (b'N', 0, |after, e| after.some(e, |t, v| after.early(t, v))),
    (b'N', 0, |after, e| after.some(e, |t, v| after.early(t, v) && after.written(t, v))),
    // N: an older store than such an early one; early stores whose assigns are made; another variable's store beside such an early one; no
    // more stores outstanding than assigns owed
    (b'N', 16, |after, e| after.each(e, |t, v| after.owed(t, v) || after.unwritten(t, v).is_empty())),
    (b'N', 16, |after, e| after.each(e, |t, v| !after.owed(t, v) && !after.unwritten(t, v).contains(&b'S'))),
    (b'N', 16, |after, e| {
        after.some(e, |t, v| after.early(t, v)) && after.each(e, |t, v| !after.owed(t, v) || after.early(t, v))
    }),
    (b'N', 16, |after, e| {
        let stores: usize = after.variables().map(|v| after.unwritten(e.thread, v).len()).sum();
        stores <= after.variables().filter(|&v| after.owed(e.thread, v)).count()
    }),
    // R: an outstanding store alone; with an assign owed; a fresh assign alone; both
    (b'R', 23, |after, e| after.stores(e) > 0 && !after.is_fresh(e) && !after.is_owed(e)),
    (b'R', 23, |after, e| after.stores(e) > 0 && after.is_owed(e)),
    (b'R', 23, |after, e| after.stores(e) == 0 && after.is_fresh(e)),
    (b'R', 23, |after, e| after.stores(e) > 0 && after.is_fresh(e) && !after.is_owed(e)),
    // what is accepted while an assign is owed and its early store written: R, with a fresh assign too; A with an outstanding read
    (b'R', 0, |after, e| after.is_owed(e) && !after.is_fresh(e)),
    (b'R', 0, |after, e| after.is_owed(e) && after.is_fresh(e)),
    (b'A', 0, |after, e| after.is_owed(e) && after.reads(e) > 0),
    // and the load of such a read, after the B: with an A between read and B; with a fresh assign before the read
    (b'L', 0, |after, e| after.at_read(e).is_some_and(|then| then.is_owed(e)) && after.since_read(b'A', e)),
    (b'L', 0, |after, e| after.at_read(e).is_some_and(|then| then.is_owed(e) && then.is_fresh(e))),
];

/// Parts of 27, and what is accepted beside them; of traces with volatile variables.
pub const VOLATILE_CASES: [Case; 19] = [
    // U: out of order too, though not directly after its load
    (b'U', 26, |after, e| after.is_loaded(e) && after.use_parts(e).contains(&true)),
    // U: each part alone
    (b'U', 27, |after, e| after.use_parts(e) == [true, false, false, false]),
    (b'U', 27, |after, e| after.use_parts(e) == [false, true, false, false]),
    (b'U', 27, |after, e| after.use_parts(e) == [false, false, true, false]),
    (b'U', 27, |after, e| after.use_parts(e) == [false, false, false, true]),
    // W: each part alone
    (b'W', 27, |after, e| after.write_parts(e) == [true, false]),
    (b'W', 27, |after, e| after.write_parts(e) == [false, true]),
    // U after a write, or a use, of another volatile variable; while a plain one is unwritten; while another thread has a volatile one unwritten
    (b'U', 0, |after, e| after.is_volatile(e) && after.volatiles().any(|v| v != e.place && after.written(e.thread, v))),
    (b'U', 0, |after, e| after.is_volatile(e) && after.volatiles().any(|v| v != e.place && after.used(e.thread, v))),
    (b'U', 0, |after, e| after.is_volatile(e) && after.plain().any(|v| after.is_unwritten(e.thread, v))),
    (b'U', 0, |after, e| after.is_volatile(e) && after.others(e).any(|t| after.volatiles().any(|v| after.is_unwritten(t, v)))),
    // W on a volatile variable while a later volatile assign is unwritten; while an earlier plain one is; of another thread's before
    (b'W', 0, |after, e| after.is_volatile(e) && after.volatiles().any(|v| v != e.place && after.is_unwritten(e.thread, v))),
    (b'W', 0, |after, e| after.is_volatile(e) && after.plain().any(|v| after.earlier_assign(e, v).contains(&true))),
    (b'W', 0, |after, e| after.is_volatile(e) && after.others(e).any(|t| after.volatiles().any(|v| after.is_unwritten(t, v)))),
    // W on a plain variable while an earlier volatile assign is unwritten
    (b'W', 0, |after, e| !after.is_volatile(e) && after.write_parts(e).contains(&true)),
    // U behind an R or W after its L; S behind a W after its A
    (b'U', 0, |after, e| after.is_volatile(e) && after.since_own(b'R', e)),
    (b'S', 0, |after, e| after.is_volatile(e) && after.since_own(b'W', e)),
    // N: no assign but volatile ones is fresh, or unwritten
    (b'N', 15, |after, e| after.broken(e) == [15] && after.plain().all(|v| !after.fresh(e.thread, v))),
    (b'N', 16, |after, e| after.plain().all(|v| after.unwritten(e.thread, v).is_empty())),
];

/// The thread that an F notifies.
fn told(e: &Event) -> usize {
    e.value as usize
}

/// How many locks but the event's the thread holds.
fn other_holds(after: &After, e: &Event) -> usize {
    after.locks().filter(|&l| l != e.place && after.depth(e.thread, l) > 0).count()
}

/// Whether the event's thread waits on its lock; on another.
fn waits_here(after: &After, e: &Event) -> bool {
    after.waits_on(e.thread, e.place)
}

fn waits_elsewhere(after: &After, e: &Event) -> bool {
    after.is_waiting(e.thread) && !waits_here(after, e)
}

/// The locks on which the event's thread waits and is notified.
fn notified_on(after: &After, e: &Event) -> usize {
    after.locks().filter(|&l| after.is_notified(e.thread, l)).count()
}

/// How many threads but the event's wait on its lock.
fn other_waiters(after: &After, e: &Event) -> usize {
    after.others(e).filter(|&t| after.waits_on(t, e.place)).count()
}

/// How many threads but the event's hold its lock.
fn other_holders(after: &After, e: &Event) -> usize {
    after.others(e).filter(|&t| after.depth(t, e.place) > 0).count()
}

/// Parts of 29 and 30 and of the rules at Y, F and C, and what is accepted beside them; of traces with waiting.
pub const WAITING_CASES: [Case; 58] = [
    // 29: K on the lock that T waits on, on another, while T holds another; N of another that T holds; T is notified, or not
    (b'K', 29, waits_here),
    (b'K', 29, waits_elsewhere),
    (b'K', 29, |after, e| after.depth(e.thread, e.place) > 0),
    (b'N', 29, |after, e| after.broken(e) == [29]),
    (b'N', 29, waits_here),
    (b'K', 29, |after, e| notified_on(after, e) > 0),
    (b'A', 29, |after, e| notified_on(after, e) > 0),
    (b'A', 29, |after, e| notified_on(after, e) == 0),
    // 29: Y on the lock that T waits on; of another that T holds; F by a waiting thread that holds its lock, for one that may be notified
    (b'Y', 29, waits_here),
    (b'Y', 29, |after, e| after.broken(e) == [29]),
    (b'F', 29, |after, e| after.broken(e) == [29]),
    (b'F', 29, |after, e| told(e) == e.thread && waits_here(after, e)),
    // 29: a use, an assign, a load and a B that break nothing else
    (b'U', 29, |after, e| after.broken(e) == [29]),
    (b'A', 29, |after, e| after.broken(e) == [29]),
    (b'L', 29, |after, e| after.broken(e) == [29]),
    (b'B', 29, |after, e| after.broken(e) == [29]),
    // R and W of a waiting thread; W of its early store; R of one that is notified
    (b'R', 0, |after, e| after.is_waiting(e.thread)),
    (b'W', 0, |after, e| after.is_waiting(e.thread) && after.early(e.thread, e.place)),
    (b'R', 0, |after, e| notified_on(after, e) > 0),
    (b'R', 18, |after, e| after.is_waiting(e.thread)),
    (b'W', 10, |after, e| after.is_waiting(e.thread)),
    (b'R', 23, |after, e| after.is_waiting(e.thread)),
    // 30 at F: for itself, for one that does not wait, that waits on another lock, that is notified, that has come back
    (b'F', 30, |_, e| told(e) == e.thread),
    (b'F', 30, |after, e| after.broken(e) == [30] && !after.is_waiting(told(e)) && !after.came_back(told(e), e.place)),
    (b'F', 30, |after, e| after.broken(e) == [30] && after.is_waiting(told(e)) && !after.waits_on(told(e), e.place)),
    (b'F', 30, |after, e| after.broken(e) == [30] && after.is_notified(told(e), e.place)),
    (b'F', 30, |after, e| after.came_back(told(e), e.place) && !after.is_waiting(told(e))),
    // 30 at C: without a Y, with the lock held, after its C, not notified, waiting on another lock, notified on it, notified before its latest Y
    (b'C', 30, |after, e| after.broken(e) == [30] && !after.is_waiting(e.thread) && !after.came_back(e.thread, e.place)),
    (b'C', 30, |after, e| after.depth(e.thread, e.place) > 0),
    (b'C', 30, |after, e| after.came_back(e.thread, e.place) && !after.is_waiting(e.thread)),
    (b'C', 30, |after, e| after.broken(e) == [30] && waits_here(after, e)),
    (b'C', 30, |after, e| waits_elsewhere(after, e) && notified_on(after, e) == 0),
    (b'C', 30, |after, e| after.broken(e) == [30] && waits_elsewhere(after, e) && notified_on(after, e) > 0),
    (b'C', 30, |after, e| after.came_back(e.thread, e.place) && waits_here(after, e)),
    // 12 at F: the lock is free, or another's; T holds another
    (b'F', 12, |after, e| other_holders(after, e) == 0),
    (b'F', 12, |after, e| other_holders(after, e) > 0),
    (b'F', 12, |after, e| other_holds(after, e) > 0),
    // Y: the lock is free, or another's; early stores of which 16 asks, or not
    (b'Y', 12, |after, e| other_holders(after, e) == 0 && other_waiters(after, e) > 0),
    (b'Y', 12, |after, e| other_holders(after, e) > 0),
    (b'Y', 16, |after, e| after.each(e, |t, v| !after.owed(t, v) && !after.unwritten(t, v).contains(&b'S'))),
    (b'Y', 16, |after, e| after.some(e, |t, v| after.early(t, v))),
    (b'Y', 15, |after, e| after.broken(e) == [15] && after.some(e, |t, v| after.early(t, v))),
    (b'Y', 0, |after, e| after.some(e, |t, v| after.early(t, v))),
    (b'Y', 0, |after, e| after.depth(e.thread, e.place) > 1),
    (b'Y', 0, |after, e| other_holds(after, e) > 0),
    (b'Y', 0, |after, e| other_waiters(after, e) > 0),
    (b'Y', 0, |after, e| after.came_back(e.thread, e.place)),
    // F for one of two that wait; for one that was notified before its latest Y
    (b'F', 0, |after, e| other_waiters(after, e) > 1),
    (b'F', 0, |after, e| after.came_back(told(e), e.place)),
    // C of several holds, while another thread waits on the lock; 11 while another waits on it; 13 with the early store written, or not
    (b'C', 0, |after, e| after.remembered(e.thread, e.place) > 1),
    (b'C', 0, |after, e| other_waiters(after, e) > 0),
    (b'C', 11, |after, e| other_waiters(after, e) > 0),
    (b'C', 13, |after, e| after.each(e, |t, v| after.unwritten(t, v).is_empty())),
    (b'C', 13, |after, e| after.some(e, |t, v| after.early(t, v))),
    // after a C: 17 of a copy that was usable before it, and of a read before it; a use of what was read after it; K of another thread
    (b'U', 17, |after, e| after.latest_lock(e.thread) == b'C' && after.was_usable(e.thread, e.place)),
    (b'U', 17, |after, e| after.latest_lock(e.thread) == b'C' && after.is_loaded(e) && !after.was_usable(e.thread, e.place)),
    (b'U', 0, |after, e| after.latest_lock(e.thread) == b'C' && after.is_loaded(e)),
    (b'K', 11, |after, e| after.others(e).any(|t| after.depth(t, e.place) > 0 && after.latest_lock(t) == b'C')),
];

/// Values of many lengths, and about the ends of 32 and 64 bits. Some have the same low 32 bits as another, or as 0.
pub const OF_64_BITS: &[Value] = &[
    1,
    5,
    -1,
    -7,
    100,
    123_456_789,
    i32::MAX as Value,
    i32::MIN as Value,
    i32::MAX as Value + 1,
    i32::MIN as Value - 1,
    (1 << 32) - 7,
    (1 << 32) - 1,
    1 << 32,
    (1 << 32) + 1,
    (1 << 32) + 5,
    -1 << 32,
    99_999_999_999,
    -1_000_000_000_000_000,
    12_345_678_901_234_567,
    Value::MAX,
    Value::MAX - 1,
    Value::MIN + 1,
    Value::MIN,
];

/// The value with another bit in one place, which is one of the upper 32 in half of the cases.
pub fn one_bit_off(rng: &mut Rng, x: Value) -> Value {
    x ^ 1 << rng.below(64)
}

/// Whether an event of this letter is on a lock.
pub fn on_lock(letter: u8) -> bool {
    b"KNYFC".contains(&letter)
}

/// Every event of these letters with these numbers and values.
pub fn candidates(c: Counts, letters: &[u8], values: &[Value]) -> Vec<Event> {
    let threads: Vec<Value> = (0..c.threads as Value).collect();
    let mut list = Vec::new();
    for thread in 0..c.threads {
        for &letter in letters {
            let lock = on_lock(letter);
            let values = if letter == b'F' { &threads[..] } else { values };
            for place in 0..if lock { c.locks } else { c.variables } {
                for &value in if lock && letter != b'F' { &[0][..] } else { values } {
                    list.push(Event { letter, thread, place, value });
                }
            }
        }
    }
    list
}

/// A short trace: accepted events, and at most one after them that is refused with this number.
pub struct Short {
    pub counts: Counts,
    pub good: Vec<Event>,
    pub bad: Option<(Event, u32)>,
}

/// What the last event of a short trace is to be.
#[derive(Clone, Copy)]
pub enum Aim {
    Accepted,
    Undeclared,
    /// An event of this letter, refused with this number.
    Refused(u8, u32),
    /// The same, and it breaks this later rule of its row too.
    Both(u8, u32, u32),
    Case(Case),
    /// The same in a trace with volatile variables; with waiting.
    Volatile(Case),
    Waiting(Case),
    /// An event of this letter, refused with 26, where the thread's latest on its variable is the other; 0 is none.
    Neighbour(u8, u8),
    /// An event of this letter on a volatile variable, refused with this number.
    OnVolatile(u8, u32),
}

impl Aim {
    /// Whether a trace without volatile variables cannot meet it.
    fn needs_volatiles(&self) -> bool {
        match *self {
            Aim::Refused(_, number) => (26..=28).contains(&number),
            Aim::Both(_, number, later) => [number, later].iter().any(|n| (26..=28).contains(n)),
            Aim::Volatile(_) | Aim::Neighbour(..) | Aim::OnVolatile(..) => true,
            _ => false,
        }
    }

    /// Whether a trace without waiting cannot meet it.
    fn needs_waiting(&self) -> bool {
        match *self {
            Aim::Refused(letter, number) | Aim::Both(letter, number, _) => number >= 29 || WAITING.contains(&letter),
            Aim::Waiting(_) => true,
            _ => false,
        }
    }

    fn letter(&self) -> Option<u8> {
        self.event().map(|(letter, _, _)| letter)
    }

    /// The letter, its number and what else is wanted of an event, for the aims at one.
    fn event(self) -> Option<(u8, u32, Box<dyn Fn(&After, &Event) -> bool>)> {
        Some(match self {
            Aim::Accepted | Aim::Undeclared => return None,
            Aim::Refused(letter, number) => (letter, number, Box::new(|_, _| true)),
            Aim::Both(letter, number, later) => (letter, number, Box::new(move |after, e| after.broken(e).contains(&later))),
            Aim::Case((letter, number, holds))
            | Aim::Volatile((letter, number, holds))
            | Aim::Waiting((letter, number, holds)) => (letter, number, Box::new(holds)),
            Aim::Neighbour(letter, latest) => (letter, 26, Box::new(move |after, e| after.latest(e) == latest)),
            Aim::OnVolatile(letter, number) => (letter, number, Box::new(|after, e| after.is_volatile(e))),
        })
    }
}

/// Every aim: with `volatiles` those at the neighbours and at the rules behind 26 to 28 too.
pub fn aims(volatiles: bool) -> Vec<Aim> {
    let mut aims = vec![Aim::Accepted, Aim::Undeclared];
    aims.extend(PAIRS.map(|(letter, number)| Aim::Refused(letter, number)));
    aims.extend(DOUBLES.map(|(letter, number, later)| Aim::Both(letter, number, later)));
    aims.extend(CASES.map(Aim::Case));
    aims.extend(VOLATILE_CASES.map(Aim::Volatile));
    aims.extend(WAITING_CASES.map(Aim::Waiting));
    if volatiles {
        aims.extend(NEIGHBOURS.map(|(letter, latest)| Aim::Neighbour(letter, latest)));
        aims.extend(ON_VOLATILES.map(|(letter, number)| Aim::OnVolatile(letter, number)));
    }
    aims
}

/// One volatile variable of the declared ones, some, or all.
pub fn some_volatiles(rng: &mut Rng, variables: usize) -> [bool; VARIABLES] {
    let (one, way) = (rng.below(variables), rng.below(3));
    std::array::from_fn(|v| v < variables && (v == one || way == 2 || way == 1 && rng.chance(50)))
}

/// A short trace of at most `most` events, by marker A.
pub fn short(rng: &mut Rng, aim: Aim, most: usize) -> Short {
    loop {
        let mut counts = Counts::new(rng.between(2, 3), rng.between(2, 3), rng.between(2, 3));
        let volatiles = aim.needs_volatiles();
        if volatiles || rng.chance(20) {
            counts.volatiles = some_volatiles(rng, counts.variables);
        }
        let mut values = vec![0];
        while values.len() < 3 {
            let other = rng.pick(&values);
            let x = if rng.chance(40) { one_bit_off(rng, other) } else { rng.pick(OF_64_BITS) };
            if !values.contains(&x) {
                values.push(x);
            }
        }
        let waiting = aim.needs_waiting();
        // two threads and a lock or two meet each other more often
        if waiting && rng.chance(70) {
            (counts.threads, counts.locks) = (rng.pick(&[2, 2, 3]), rng.between(1, 2));
        }
        let letters = if waiting || rng.chance(20) { &LETTERS[..] } else { OTHERS };
        let all = candidates(counts, letters, &values);
        let mut weights: Vec<usize> = LETTERS.iter().map(|_| rng.pick(&[1, 2, 2, 3, 6])).collect();
        // on a volatile variable each L wants a U and each A an S
        if volatiles && rng.chance(70) {
            weights = LETTERS.iter().map(|l| if b"ULASRW".contains(l) { rng.pick(&[3, 4, 6]) } else { 1 }).collect();
        }
        // a Y wants its lock held, and an F by another thread that holds it before the C
        if waiting && rng.chance(80) {
            let [accesses, early, loads] = match aim.letter() {
                Some(b'U') => [1, 0, 6],
                Some(b'C' | b'B') => [0, rng.pick(&[0, 2, 4]), 0],
                _ => rng.pick(&[[1, 1, 1], [1, 1, 1], [1, 3, 3], [0, 0, 0]]),
            };
            let of = |l: u8| match l {
                b'F' | b'C' => 30,
                b'Y' => 8,
                b'K' | b'N' => 3,
                b'P' => early,
                b'R' | b'L' => loads,
                b'S' | b'W' | b'B' => 3,
                _ => accesses,
            };
            weights = LETTERS.iter().map(|&l| of(l)).collect();
        }
        let mut focus_percent = if waiting { rng.pick(&[0, 0, 30]) } else { rng.pick(&[0, 50, 80]) };
        // a thread and a variable, or a thread alone
        let variable = Some(rng.below(counts.variables));
        let mut focus = (rng.below(counts.threads), variable.filter(|_| !volatiles || rng.chance(50)));
        if let Aim::Refused(letter, 19) | Aim::Both(letter, _, 19) | Aim::OnVolatile(letter, 19) = aim {
            focus.1 = Some(rng.below(counts.variables));
            focus_percent = 97;
            weights = LETTERS.iter().map(|l| if b"ASPRBWK".contains(l) { 1 } else { 0 }).collect();
            let heavy: &[(u8, usize)] = match letter {
                b'R' => &[(b'R', 40)],
                _ => rng.pick(&[[(b'A', 4), (b'S', 60)].as_slice(), &[(b'P', 40), (b'B', 40)]]),
            };
            for (i, l) in LETTERS.iter().enumerate() {
                if let Some((_, w)) = heavy.iter().find(|(h, _)| h == l) {
                    weights[i] = *w;
                }
            }
        }
        let wanted = rng.between(0, most - 1);
        let mut good: Vec<Event> = Vec::new();
        loop {
            let near = |e: &Event| e.thread == focus.0 && (e.is_lock() || focus.1.is_none_or(|v| e.place == v));
            let after = After::new(counts, &good);
            let verdicts: Vec<Option<u32>> = all.iter().map(|e| after.refusal(e)).collect();
            if good.len() >= wanted {
                let fit: Vec<(Event, u32)> = match aim {
                    Aim::Accepted if good.len() == most => return Short { counts, good, bad: None },
                    Aim::Accepted => Vec::new(),
                    Aim::Undeclared => {
                        let mut e = rng.pick(&all);
                        match rng.below(3) {
                            _ if e.letter == b'F' && rng.chance(50) => e.value = (counts.threads + rng.below(3)) as Value,
                            0 => e.thread = counts.threads + rng.below(3),
                            1 => e.place = if e.is_lock() { counts.locks } else { counts.variables },
                            _ => (e.thread, e.place) = (7, 15),
                        }
                        vec![(e, 5)]
                    }
                    _ => {
                        let (letter, number, holds) = aim.event().expect("an aim at an event");
                        let of = all.iter().zip(&verdicts).filter(|(e, r)| e.letter == letter && r.unwrap_or(0) == number);
                        of.map(|(&e, _)| (e, number)).filter(|(e, _)| holds(&after, e)).collect()
                    }
                };
                if !fit.is_empty() {
                    let (last, number) = rng.pick(&fit);
                    if number > 0 {
                        return Short { counts, good, bad: Some((last, number)) };
                    }
                    good.push(last);
                    return Short { counts, good, bad: None };
                }
            }
            if good.len() + 1 >= most && !matches!(aim, Aim::Accepted) {
                break;
            }
            let focused = rng.chance(focus_percent);
            let open: Vec<Event> =
                all.iter().zip(&verdicts).filter(|(e, r)| r.is_none() && (!focused || near(e))).map(|(&e, _)| e).collect();
            // by letter first, so that kinds with many events do not crowd out the others
            let has = |letter: u8| open.iter().any(|e| e.letter == letter);
            let shares: Vec<usize> = LETTERS.iter().zip(&weights).map(|(&l, &w)| if has(l) { w } else { 0 }).collect();
            if shares.iter().sum::<usize>() == 0 {
                if focused {
                    continue;
                }
                break;
            }
            let letter = LETTERS[rng.weighted(&shares)];
            let of_letter: Vec<Event> = open.into_iter().filter(|e| e.letter == letter).collect();
            good.push(rng.pick(&of_letter));
        }
    }
}

// ---- papers

/// The bytes of a paper: head, `G` line, `V` line where a variable is volatile, and body with the trailer that counts right.
pub fn close(mut body: Vec<u8>) -> Vec<u8> {
    let n = body.len();
    body.extend(format!("Z {n}\n").bytes());
    body
}

pub fn paper(counts: Counts, guards: Option<&[usize]>, events: &[Event]) -> Vec<u8> {
    of_lines(counts, guards, events.iter().map(Event::line))
}

/// The same with any lines for events.
fn of_lines(counts: Counts, guards: Option<&[usize]>, lines: impl Iterator<Item = String>) -> Vec<u8> {
    let mut text = format!("H {} {} {}\nG", counts.threads, counts.variables, counts.locks);
    match guards {
        None => text += " -",
        Some(list) => list.iter().for_each(|l| text += &format!(" {l}")),
    }
    text += "\n";
    if counts.has_volatiles() {
        text += "V";
        (0..VARIABLES).filter(|&v| counts.volatiles[v]).for_each(|v| text += &format!(" {v}"));
        text += "\n";
    }
    for line in lines {
        text += &line;
        text += "\n";
    }
    close(text.into_bytes())
}

/// How a long trace is made.
struct Style {
    /// weights of the letters, as in `LETTERS`
    weights: [usize; 13],
    /// in how many of a hundred events the order's rules are kept
    discipline: usize,
    /// in how many of a hundred events no volatile L or A, and no read of one, is left without its U or S
    care: usize,
    /// in how many of a hundred events the thread stays the same as before
    stay: usize,
    values: Vec<Value>,
}

fn style(rng: &mut Rng, pool: &[Value]) -> Style {
    // an outstanding read bars an assign, so that loads weigh more than reads where assigns are wanted
    let weights = match rng.below(10) {
        // U A L S R W K N P B Y F C
        0 | 1 => [7, 6, 12, 6, 2, 6, 2, 2, 3, 5, 0, 0, 0],
        // early stores, with reads, assigns and uses between P and B
        2 => [6, 5, 8, 3, 2, 8, 1, 1, 8, 2, 0, 0, 0],
        // stores outstanding
        3 => [5, 12, 8, 20, 1, 3, 1, 1, 6, 9, 0, 0, 0],
        // reads outstanding over locks
        4 => [3, 5, 4, 4, 10, 6, 4, 4, 3, 3, 0, 0, 0],
        // locks, nested and repeated
        5 => [4, 4, 8, 4, 2, 6, 8, 6, 2, 3, 0, 0, 0],
        // early stores that wait, over unlocks too
        6 | 7 => [2, 2, 6, 3, 1, 1, 12, 6, 12, 1, 0, 0, 0],
        // loads
        8 => [8, 3, 10, 4, 4, 6, 2, 3, 1, 3, 0, 0, 0],
        _ => std::array::from_fn(|i| if i < OTHERS.len() { rng.pick(&[1, 2, 4, 8]) } else { 0 }),
    };
    let mut values = vec![0];
    for _ in 0..rng.between(1, 4) {
        values.push(rng.pick(pool));
    }
    Style { weights, discipline: rng.pick(&[100, 100, 100, 98, 60, 0]), care: 100, stay: rng.pick(&[0, 50, 90]), values }
}

/// The weights for a paper with waiting: in half of them threads hand values on from Y to C; in the others Y, F and C join the rest, and K come
/// often.
fn with_waiting(rng: &mut Rng, weights: &mut [usize; 13]) {
    if rng.chance(50) {
        // U A L S R W K N P B Y F C
        *weights = [5, 4, 30, 30, 4, 30, 6, 2, 1, 12, 5, 60, 60];
        return;
    }
    let of = rng.pick(&[[6, 3, 4, 20, 20], [3, 1, 2, 8, 12], [12, 2, 8, 40, 60], [4, 6, 3, 6, 6]]);
    (weights[6], weights[7]) = (weights[6].max(of[0]), weights[7].max(of[1]));
    weights[10..].copy_from_slice(&of[2..]);
}

fn any_event(rng: &mut Rng, counts: Counts, values: &[Value]) -> Event {
    let letter = rng.pick(LETTERS);
    let lock = on_lock(letter);
    Event {
        letter,
        thread: rng.below(counts.threads),
        place: if lock { rng.below(counts.locks.max(1)) } else { rng.below(counts.variables) },
        value: match letter {
            b'F' => rng.below(counts.threads) as Value,
            _ if lock => 0,
            _ => rng.pick(values),
        },
    }
}

/// Events that are refused: of waiting threads, and every Y, F and C.
fn untimely(rng: &mut Rng, state: &State) -> Vec<Event> {
    let counts = state.counts();
    let mut list: Vec<Event> = candidates(counts, WAITING, &[]);
    for (thread, _) in state.waits().iter().enumerate().filter(|(_, wait)| wait.lock != 0) {
        let place = rng.below(counts.variables);
        list.extend([b'U', b'A', b'S'].map(|letter| Event {
            letter,
            thread,
            place,
            value: state.due(letter, thread, place).unwrap_or(0),
        }));
        list.extend([b'K', b'N'].map(|letter| Event { letter, thread, place: rng.below(counts.locks), value: 0 }));
    }
    list.retain(|&e| state.judge(e) != 0);
    list
}

/// Every U and W with the value that is due that is refused with 27.
fn out_of_order(state: &State) -> Vec<Event> {
    let Counts { threads, variables, .. } = state.counts();
    let mut list = Vec::new();
    for thread in 0..threads {
        for place in (0..variables).filter(|&v| state.counts().volatiles[v]) {
            for letter in [b'U', b'W'] {
                let value = state.due(letter, thread, place).unwrap_or(0);
                list.push(Event { letter, thread, place, value });
            }
        }
    }
    list.retain(|&e| state.judge(e) == 27);
    list
}

/// An accepted event of thread t, by the style; none where there is none.
fn open_event(rng: &mut Rng, state: &State, style: &Style, t: usize, closing: bool) -> Option<Event> {
    let care = state.counts().has_volatiles() && rng.chance(style.care);
    let found = fit_event(rng, state, style, t, closing, care);
    if closing && care {
        found.or_else(|| fit_event(rng, state, style, t, closing, false))
    } else {
        found
    }
}

/// The same, with care or without. With `closing` only one that leads to nothing held, owed or outstanding: to that of a volatile variable
/// by its L and U.
fn fit_event(rng: &mut Rng, state: &State, style: &Style, t: usize, closing: bool, care: bool) -> Option<Event> {
    let counts = state.counts();
    let keep = closing || rng.chance(style.discipline);
    // whether a Y would leave no thread to notify another, which a disciplined paper does without
    let alone = (0..counts.threads).all(|u| u == t || state.waits()[u].lock != 0 && !state.waits()[u].notified);
    let mut open: [Vec<Event>; 13] = Default::default();
    for (i, &letter) in LETTERS.iter().enumerate().filter(|(i, _)| *i < OTHERS.len() || style.weights[*i] > 0) {
        let closes = |place: usize| match letter {
            b'S' | b'W' | b'N' | b'B' => true,
            b'L' | b'U' => counts.volatiles[place],
            _ => false,
        };
        let lock = on_lock(letter);
        for place in (0..if lock { counts.locks } else { counts.variables }).filter(|&place| !closing || closes(place)) {
            let value = match letter {
                b'F' => unheard(state, place).unwrap_or(t) as Value,
                _ if lock => 0,
                _ => state.due(letter, t, place).unwrap_or_else(|| rng.pick(&style.values)),
            };
            let e = Event { letter, thread: t, place, value };
            let denies = state.denies(e) || letter == b'Y' && alone;
            if state.judge(e) == 0 && !(keep && denies) && !(care && state.strands(e)) {
                open[i].push(e);
            }
        }
    }
    let shares: Vec<usize> = open.iter().zip(style.weights).map(|(events, w)| if events.is_empty() { 0 } else { w }).collect();
    if shares.iter().sum::<usize>() == 0 {
        return None;
    }
    let i = rng.weighted(&shares);
    Some(rng.pick(&open[i]))
}

/// A thread that waits on a lock and is not notified.
fn unheard(state: &State, l: usize) -> Option<usize> {
    state.waits().iter().position(|wait| wait.is_on(l) && !wait.notified)
}

/// Counts, guards and events.
pub type Trace = (Counts, Option<Vec<usize>>, Vec<Event>);

/// What a paper has, with values of 64 bits and, in `VOLATILE_SHARE` of a hundred, volatile variables, in `WAITING_SHARE` waiting; accepted but
/// for the bad events that are put in, so many in a hundred. An orderly paper has guards, keeps the order's rules, and ends with nothing held,
/// owed or outstanding and no thread waiting.
pub fn long(rng: &mut Rng, length: usize, bad_percent: usize, orderly: bool) -> Trace {
    let mut counts = long_counts(rng, orderly);
    let waiting = rng.chance(WAITING_SHARE);
    if waiting {
        (counts.threads, counts.locks) = (counts.threads.max(2), counts.locks.max(1));
        if rng.chance(50) {
            (counts.threads, counts.variables, counts.locks) = (rng.between(2, 4), counts.variables.min(2), rng.between(1, 2));
        }
    }
    if rng.chance(VOLATILE_SHARE) {
        counts.volatiles = some_volatiles(rng, counts.variables);
        // one lock for several threads, so that their sections hand values on
        if rng.chance(50) {
            (counts.threads, counts.locks) = (counts.threads.max(2), 1);
        }
    }
    long_with(rng, counts, OF_64_BITS, length, bad_percent, orderly, waiting)
}

/// In so many of a hundred papers some variables are volatile; some threads wait.
const VOLATILE_SHARE: usize = 40;
const WAITING_SHARE: usize = 35;

/// The same without volatile variables and waiting, with 0 and some of these values.
pub fn long_of(rng: &mut Rng, pool: &[Value], length: usize, bad_percent: usize, orderly: bool) -> Trace {
    let counts = long_counts(rng, orderly);
    long_with(rng, counts, pool, length, bad_percent, orderly, false)
}

/// Few threads, variables and locks in most papers. An orderly one has a lock.
pub fn long_counts(rng: &mut Rng, orderly: bool) -> Counts {
    let mut counts = match rng.below(10) {
        0 => Counts::new(8, 16, 8),
        1 => Counts::new(rng.between(1, 8), rng.between(1, 16), rng.between(0, 8)),
        2 => Counts::new(1, 1, rng.between(0, 2)),
        _ => Counts::new(rng.between(1, 3), rng.between(1, 3), rng.between(1, 3)),
    };
    if orderly {
        counts.locks = counts.locks.max(1);
    }
    counts
}

/// The same, with these counts. An orderly paper has a lock.
pub fn long_with(
    rng: &mut Rng,
    counts: Counts,
    pool: &[Value],
    length: usize,
    bad_percent: usize,
    orderly: bool,
    waiting: bool,
) -> Trace {
    let guarded = counts.locks > 0 && (orderly || rng.chance(65));
    let guards: Option<Vec<usize>> = guarded.then(|| (0..counts.variables).map(|_| rng.below(counts.locks)).collect());
    let mut style = style(rng, pool);
    if orderly {
        style.discipline = 100;
    } else if counts.has_volatiles() {
        style.care = rng.pick(&[100, 100, 100, 90, 0]);
    }
    if counts.has_volatiles() && rng.chance(60) {
        // U A L S R W K N P B: volatile values go through main memory, from section to section
        style.weights = [20, 8, 20, 20, 9, 20, 2, 14, 1, 4, 0, 0, 0];
    }
    if waiting {
        with_waiting(rng, &mut style.weights);
    }
    let mut state = State::new(Course::Full, counts, guards.as_deref());
    let mut events = Vec::new();
    let mut t = 0;
    let mut tries = 0;
    if waiting && bad_percent == 0 && rng.chance(25) {
        tries = usize::MAX;
        hand_on(rng, &mut state, guards.as_deref(), &style.values, length, &mut events);
    }
    while events.len() < length && tries < 4 * length + 100 {
        tries += 1;
        if bad_percent > 0 && rng.chance(bad_percent) {
            let mut e = any_event(rng, counts, &style.values);
            if let Some(due) = state.due(e.letter, e.thread, e.place).filter(|_| rng.chance(30)) {
                e.value = one_bit_off(rng, due);
            }
            if rng.chance(10) {
                e.thread = rng.below(9);
            }
            if rng.chance(10) {
                e.place = rng.below(17);
            }
            let late = out_of_order(&state);
            if !late.is_empty() && rng.chance(50) {
                e = rng.pick(&late);
            }
            let wrong = if waiting { untimely(rng, &state) } else { Vec::new() };
            if !wrong.is_empty() && rng.chance(60) {
                e = rng.pick(&wrong);
            }
            state.step(e);
            events.push(e);
        }
        if !rng.chance(style.stay) {
            t = rng.below(counts.threads);
        }
        if let Some(e) = open_event(rng, &state, &style, t, false) {
            assert_eq!(state.step(e), 0);
            events.push(e);
        }
    }
    // most papers end with nothing held, owed or outstanding
    if orderly || rng.chance(80) {
        settle(rng, &mut state, &style, &mut events);
    }
    (counts, guards, events)
}

/// What a producer or consumer does in one section: locks once or more, perhaps waits and comes back, reads and uses or assigns and stores,
/// notifies and unlocks. Its letters with their locks or variables, the first last.
fn round(rng: &mut Rng, counts: Counts, guards: Option<&[usize]>) -> Vec<(u8, usize)> {
    let l = rng.below(counts.locks);
    let own: Vec<usize> = (0..counts.variables).filter(|&v| guards.is_none_or(|guards| guards[v] == l)).collect();
    let locks = rng.pick(&[1, 1, 1, 2, 3]);
    let mut list = vec![(b'K', l); locks];
    if rng.chance(50) {
        list.extend([(b'Y', l), (b'C', l)]);
    }
    for _ in 0..rng.below(3) {
        if let Some(&v) = own.get(rng.below(own.len().max(1))) {
            list.extend(rng.pick(&[[(b'R', v), (b'L', v), (b'U', v)], [(b'A', v), (b'S', v), (b'W', v)]]));
        }
    }
    list.extend(vec![(b'F', l); rng.below(3)]);
    list.extend(vec![(b'N', l); locks]);
    list.reverse();
    list
}

/// Producers and consumers: each thread goes on with its round, in any turn, where it can.
fn hand_on(rng: &mut Rng, state: &mut State, guards: Option<&[usize]>, values: &[Value], length: usize, events: &mut Vec<Event>) {
    let counts = state.counts();
    let mut rounds: Vec<Vec<(u8, usize)>> = vec![Vec::new(); counts.threads];
    for _ in 0..20 * length {
        if events.len() >= length {
            break;
        }
        let thread = rng.below(counts.threads);
        if rounds[thread].is_empty() {
            rounds[thread] = round(rng, counts, guards);
        }
        let (letter, place) = *rounds[thread].last().expect("a round has events");
        let unheard = unheard(state, place);
        let others = (0..counts.threads).any(|u| u != thread && (state.waits()[u].lock == 0 || state.waits()[u].notified));
        // no one to be notified, or none who could notify: goes on without
        if letter == b'F' && unheard.is_none() || letter == b'Y' && !others {
            rounds[thread].pop();
            if letter == b'Y' {
                rounds[thread].pop();
            }
            continue;
        }
        let value = match letter {
            b'F' => unheard.unwrap_or(thread) as Value,
            _ if on_lock(letter) => 0,
            _ => state.due(letter, thread, place).unwrap_or_else(|| rng.pick(values)),
        };
        let e = Event { letter, thread, place, value };
        if state.step(e) == 0 {
            rounds[thread].pop();
            events.push(e);
        }
    }
}

/// Goes on, thread by thread, until nothing is held, owed or outstanding and no thread waits, where that can be.
fn settle(rng: &mut Rng, state: &mut State, style: &Style, events: &mut Vec<Event>) {
    loop {
        for t in 0..state.counts().threads {
            while state.busy(t) {
                let Some(e) = open_event(rng, state, style, t, true) else { break };
                assert_eq!(state.step(e), 0);
                events.push(e);
            }
        }
        let next = bring_back(rng, state);
        if next.is_empty() {
            return;
        }
        for e in next {
            assert_eq!(state.step(e), 0);
            events.push(e);
        }
    }
}

/// Events that bring a waiting thread nearer to its end: the C of one that is notified, or a K, F and N of another thread. None where no thread
/// can.
fn bring_back(rng: &mut Rng, state: &State) -> Vec<Event> {
    let Counts { threads, locks, .. } = state.counts();
    if state.waits().iter().all(|wait| wait.lock == 0) {
        return Vec::new();
    }
    let event = |letter: u8, thread: usize, place: usize, value: usize| Event { letter, thread, place, value: value as Value };
    let first = rng.below(threads);
    for u in (0..threads).map(|u| (first + u) % threads) {
        for l in 0..locks {
            let back = event(b'C', u, l, 0);
            if state.judge(back) == 0 {
                return vec![back];
            }
            if let Some(waiter) = unheard(state, l) {
                let all = vec![event(b'K', u, l, 0), event(b'F', u, l, waiter), event(b'N', u, l, 0)];
                let mut after = state.clone();
                if all.iter().all(|&e| after.step(e) == 0) {
                    return all;
                }
            }
        }
    }
    Vec::new()
}

const FIELDS: [&[u8]; 38] = [
    b"0",
    b"1",
    b"7",
    b"8",
    b"9",
    b"15",
    b"16",
    b"17",
    b"00",
    b"01",
    b"-0",
    b"-1",
    b"+1",
    b"",
    b"-",
    b"2147483647",
    b"2147483648",
    b"-2147483648",
    b"-2147483649",
    b"4294967296",
    b"-4294967297",
    b"999999999999999999",
    b"1000000000000000000",
    b"9223372036854775807",
    b"9223372036854775808",
    b"-9223372036854775808",
    b"-9223372036854775809",
    b"09223372036854775807",
    b"9999999999999999999",
    b"18446744073709551615",
    b"18446744073709551616",
    b"-18446744073709551617",
    b"340282366920938463463374607431768211456",
    b"-340282366920938463463374607431768211457",
    b"10000000000000000000000000000000000000000000000000000000000000000",
    b"99999999999999999999999999999999999999999999",
    b"x",
    b" ",
];

/// Lines that are meant as a `V` line and are wrong with up to four variables; with five some are right.
const WRONG_V_LINES: [&str; 20] = [
    "V",
    "V ",
    "V  0",
    "V 0 ",
    "V 0 0",
    "V 1 0",
    "V 0 2 1",
    "V 0  1",
    "V 4",
    "V 0 4",
    "V 0 16",
    "V 00",
    "V 0 01",
    "V -1",
    "V 0 -",
    "V0",
    "VV 0",
    "V\t0",
    "V 0\r",
    "V 18446744073709551616",
];

/// Puts a line that is meant as a `V` line behind the `G` line, right or wrong, in the place of line 3 if that is one.
fn other_v_line(rng: &mut Rng, body: &mut Vec<u8>) {
    let starts: Vec<usize> = (0..body.len()).filter(|&i| body[i] == 10).map(|i| i + 1).collect();
    if let [_, start, ..] = starts[..] {
        let end = if body.get(start) == Some(&b'V') { starts.get(2).copied().unwrap_or(start) } else { start };
        let line = if rng.chance(50) { rng.pick(&WRONG_V_LINES) } else { rng.pick(&["V 0", "V 1", "V 0 1", "V 0 1 2"]) };
        body.splice(start..end, format!("{line}\n").into_bytes());
    }
}

/// Changes some bytes of a paper; the trailer then counts right in half of the papers.
pub fn damage(rng: &mut Rng, paper: &[u8]) -> Vec<u8> {
    let before = paper[..paper.len() - 1].iter().rposition(|&b| b == 10).map_or(0, |i| i + 1);
    let mut body = paper[..before].to_vec();
    let mut whole = rng.chance(30);
    if whole {
        body = paper.to_vec();
    }
    for _ in 0..rng.between(1, 2) {
        let at = rng.below(body.len().max(1)).min(body.len());
        let starts: Vec<usize> =
            std::iter::once(0).chain(body.iter().enumerate().filter(|(_, &b)| b == 10).map(|(i, _)| i + 1)).collect();
        match rng.below(13) {
            0 if at < body.len() => {
                body.remove(at);
            }
            1 => body.insert(at, rng.pick(b"0123456789 -+UALSRWKNPBYFCHGVZz\n\r\t\0")),
            2 if at < body.len() => body[at] = rng.pick(b"0123456789 -+UALSRWKNPBYFCHGVZz\n\r\t\0\xff"),
            3 if at < body.len() => body[at] = rng.next() as u8,
            // a field that is another
            4..=7 => {
                let end = (at..body.len()).find(|&i| matches!(body[i], b' ' | 10)).unwrap_or(body.len());
                let start = (0..end).rev().find(|&i| matches!(body[i], b' ' | 10)).map_or(0, |i| i + 1);
                let field = rng.pick(&FIELDS);
                body.splice(start..end, field.iter().copied());
            }
            // a line twice, away, or one that is no event
            8 => {
                let s = rng.pick(&starts);
                let e = (s..body.len()).find(|&i| body[i] == 10).map_or(body.len(), |i| i + 1);
                let line = body[s..e].to_vec();
                body.splice(s..s, line);
            }
            9 => {
                let s = rng.pick(&starts);
                let e = (s..body.len()).find(|&i| body[i] == 10).map_or(body.len(), |i| i + 1);
                body.drain(s..e);
            }
            10 => {
                let s = rng.pick(&starts);
                let line: &[u8] = rng.pick(&[
                    b"\n".as_slice(),
                    b"Z 0\n",
                    b"G -\n",
                    b"V 0\n",
                    b"V\n",
                    b"H 1 1 1\n",
                    b"K 0\n",
                    b"K 0 0 0\n",
                    b"U 0 0\n",
                    b"U 0 0 0 0\n",
                    b"A 0 0 0 \n",
                    b" A 0 0 0\n",
                    b"A  0 0 0\n",
                    b"A 0 0 0\r\n",
                    b"a 0 0 0\n",
                    b"AA 0 0 0\n",
                    b"A 9 99 0\n",
                    b"A 0 0 -0\n",
                    b"N 0 -1\n",
                    b"Y 0\n",
                    b"Y 0 0 0\n",
                    b"F 0 0\n",
                    b"F 0 0 0\n",
                    b"F 0 0 -1\n",
                    b"F 0 0 00\n",
                    b"F 0 0 9\n",
                    b"F 0 0 18446744073709551616\n",
                    b"C 0 0 0\n",
                    b"c 0 0\n",
                ]);
                body.splice(s..s, line.iter().copied());
            }
            11 => other_v_line(rng, &mut body),
            _ => {
                body.truncate(at);
                whole = whole || rng.chance(50);
            }
        }
    }
    if whole {
        body
    } else {
        close(body)
    }
}

/// A short paper of this seed: accepted, or with bad events.
pub fn random_paper(seed: u64) -> Vec<u8> {
    short_paper(&mut Rng::new(seed))
}

fn short_paper(rng: &mut Rng) -> Vec<u8> {
    let length = match rng.below(100) {
        0..=4 => rng.between(0, 3),
        5..=79 => rng.between(4, 40),
        80..=98 => rng.between(40, 120),
        _ => rng.between(120, 400),
    };
    let bad_percent = rng.pick(&[0, 0, 0, 2, 5]);
    let orderly = bad_percent == 0 && rng.chance(20);
    let (counts, guards, events) = long(rng, length, bad_percent, orderly);
    paper(counts, guards.as_deref(), &events)
}

/// A short paper with damaged bytes.
pub fn damaged_paper(seed: u64) -> Vec<u8> {
    let mut rng = Rng::new(seed ^ 0x5555_0000_0000_0000);
    let whole = short_paper(&mut rng);
    damage(&mut rng, &whole)
}

/// A paper near the limits: about 2,000 events, or about 65,536 bytes.
pub fn large_paper(seed: u64) -> Vec<u8> {
    let mut rng = Rng::new(seed);
    if rng.chance(25) {
        let mut body = b"H 1 1 1\nG 0\n".to_vec();
        let mut field = vec![rng.pick(b"09"); 60_000 + rng.below(6_000)];
        field[0] = rng.pick(b"19");
        if rng.chance(VOLATILE_SHARE) {
            body.extend(rng.pick(&[b"V 0\n".as_slice(), b"V ", b"V 0 "]));
        }
        body.extend(rng.pick(&[b"A ".as_slice(), b"A 0 ", b"A 0 0 ", b"A 0 0 -", b"K ", b"N 0 ", b"F 0 0 ", b"C ", b""]));
        body.extend(field);
        body.extend(rng.pick(&[b" 0 0\n".as_slice(), b" 0\n", b"\n"]));
        return close(body);
    }
    // half of these papers have an order
    if rng.chance(50) {
        let length = 1_600 + rng.below(350);
        let (counts, guards, events) = long(&mut rng, length, 0, true);
        return paper(counts, guards.as_deref(), &events);
    }
    let length = 1_900 + rng.below(140);
    let (counts, guards, mut events) = long(&mut rng, length, 0, false);
    // in half of the others one event of the last hundred is another
    if rng.chance(50) {
        let at = events.len().saturating_sub(1 + rng.below(100));
        if let Some(e) = events.get_mut(at) {
            *e = any_event(&mut rng, counts, &[0, 1, 1 << 32]);
        }
    }
    // and some go on past 2,000 events
    while events.len() < length {
        events.push(any_event(&mut rng, counts, &[0, 1, 1 << 32]));
    }
    paper(counts, guards.as_deref(), &events)
}

/// A paper of about 2,000 events with many K, sections of several threads at once and locks taken again. Most have an order, and half of
/// those without waiting have 1,000 K.
pub fn paper_with_many_k(seed: u64) -> Vec<u8> {
    let mut rng = Rng::new(seed ^ 0x3333_0000_0000_0000);
    let mut counts = Counts::new(rng.between(2, 8), rng.between(1, 3), rng.between(2, 8));
    if rng.chance(VOLATILE_SHARE) {
        counts.volatiles = some_volatiles(&mut rng, counts.variables);
    }
    let guards: Vec<usize> = (0..counts.variables).map(|_| rng.below(counts.locks)).collect();
    // K and N alone; or reads, loads, uses and early stores too, but no A, which could not be stored after a K
    let others = rng.below(2);
    let (k, n) = rng.pick(&[(100, 100), (300, 100), (900, 100)]);
    let waiting = rng.chance(WAITING_SHARE);
    // U A L S R W K N P B Y F C
    let mut weights = [4 * others, 0, 4 * others, 0, 2 * others, 300, k, n, others, 300, 0, 0, 0];
    if waiting {
        weights[10..].copy_from_slice(&[rng.pick(&[2, 20, 60]), 400, 900]);
    }
    let style = Style { weights, discipline: 100, care: 100, stay: rng.pick(&[0, 50, 90]), values: vec![0, 1, 1 << 32] };
    // in one of five papers thread 0 takes lock 0 again and again and keeps it: no order, and in most of them more than 1,000 K
    let keeps = rng.chance(20);
    let fit = |e: &Event| !keeps || e.thread > 0 || (e.letter, e.place) == (b'K', 0);
    let mut state = State::new(Course::Full, counts, Some(&guards));
    let mut events: Vec<Event> = Vec::new();
    let (mut t, mut held) = (0, 0);
    // room for an N for each time that a lock is held or given up by a Y, for the B and W that are due, and to bring the waiting threads back
    let room = room_behind(others, waiting);
    while events.len() + if keeps { 0 } else { held + room } < 2_000 {
        if !rng.chance(style.stay) {
            t = rng.below(counts.threads);
        }
        if let Some(e) = open_event(&mut rng, &state, &style, t, false).filter(fit) {
            assert_eq!(state.step(e), 0);
            held = held + usize::from(e.letter == b'K') - usize::from(e.letter == b'N');
            events.push(e);
        }
    }
    if !keeps {
        settle(&mut rng, &mut state, &style, &mut events);
    }
    paper(counts, Some(&guards), &events)
}

/// Room for B and W, and for a K, F, N and C for each of eight threads.
fn room_behind(others: usize, waiting: bool) -> usize {
    50 * others + if waiting { 32 } else { 0 }
}

/// Lines to stand for the 201st event: some are none, some have an undeclared number, some break a rule of their row in most papers.
const AFTER_200: [&str; 28] = [
    "X",
    "",
    "A 0 0",
    "A 0 0 00",
    "K 0 0 0",
    "G -",
    "A 0 0 9223372036854775808",
    "V 0",
    "A 9 0 0",
    "A 0 16 0",
    "K 0 8",
    "N 18446744073709551616 0",
    "U 0 0 77",
    "R 0 1 77",
    "W 0 2 77",
    "B 0 0 77",
    "L 0 1 77",
    "P 0 0 77",
    "S 0 1 77",
    "B 0 2 77",
    "Y 0",
    "F 0 0",
    "C 0 0 0",
    "F 0 0 -1",
    "F 0 0 8",
    "Y 8 0",
    "F 0 0 0",
    "C 0 0",
];

/// A paper about the limits of the short course: 1 to 3 threads, 3 to 5 variables, 1 to 3 locks, and about 200 events.
pub fn paper_at_short_limits(seed: u64) -> Vec<u8> {
    let mut rng = Rng::new(seed ^ 0x7777_0000_0000_0000);
    let mut counts = Counts::new(rng.pick(&[1, 2, 2, 2, 2, 3]), rng.pick(&[3, 4, 4, 4, 4, 5]), rng.pick(&[1, 2, 2, 2, 2, 3]));
    if rng.chance(VOLATILE_SHARE) {
        counts.volatiles = some_volatiles(&mut rng, counts.variables);
    }
    let most = Course::Short.events() as usize;
    let number = if rng.chance(30) { most } else { rng.between(most - 5, most + 5) };
    let orderly = rng.chance(50);
    let waiting = rng.chance(WAITING_SHARE);
    counts.threads = counts.threads.max(if waiting { 2 } else { 1 });
    let (mut counts, guards, mut events) = of_length(&mut rng, counts, OF_64_BITS, number, orderly, waiting);
    // an event of the last ten is another
    if rng.chance(20) {
        let at = events.len() - 1 - rng.below(10);
        events[at] = any_event(&mut rng, counts, &[0, 1, 1 << 32]);
    }
    let mut lines: Vec<String> = events.iter().map(Event::line).collect();
    if lines.len() > most && rng.chance(50) {
        lines[most] = rng.pick(&AFTER_200).to_string();
    }
    // a wrong `V` line
    if rng.chance(6) {
        counts.volatiles = [false; VARIABLES];
        lines.insert(0, rng.pick(&WRONG_V_LINES).to_string());
    }
    // counts that no head has, or a lock that is not declared
    let guards = guards.map(|list| if rng.chance(5) { vec![counts.locks; list.len()] } else { list });
    let head =
        if rng.chance(4) { rng.pick(&[Counts { threads: 9, ..counts }, Counts { variables: 17, ..counts }]) } else { counts };
    let whole = of_lines(head, guards.as_deref(), lines.into_iter());
    if rng.chance(5) {
        damage(&mut rng, &whole)
    } else {
        whole
    }
}

/// Counts, guards and accepted events, so many where that can be: an orderly paper may have more, or no events to go on with.
pub fn of_length(rng: &mut Rng, counts: Counts, pool: &[Value], number: usize, orderly: bool, waiting: bool) -> Trace {
    let length = number - rng.between(10, 80);
    let (counts, guards, mut events) = long_with(rng, counts, pool, length, 0, orderly, waiting);
    go_on(rng, counts, guards.as_deref(), &mut events, number, (orderly, waiting));
    (counts, guards, events)
}

/// Goes on to so many events, in an orderly paper by reads and loads alone; or leaves away those behind so many, if it is no orderly one.
fn go_on(
    rng: &mut Rng,
    counts: Counts,
    guards: Option<&[usize]>,
    events: &mut Vec<Event>,
    number: usize,
    (orderly, waiting): (bool, bool),
) {
    if !orderly {
        events.truncate(number);
    }
    let mut state = State::new(Course::Full, counts, guards);
    for &e in events.iter() {
        assert_eq!(state.step(e), 0);
    }
    // U A L S R W K N P B Y F C
    let weights = match (orderly, waiting) {
        (true, _) => [0, 0, 1, 0, 1, 0, 0, 0, 0, 0, 0, 0, 0],
        (_, true) => [1; 13],
        _ => [1, 1, 1, 1, 1, 1, 1, 1, 1, 1, 0, 0, 0],
    };
    let style = Style { weights, discipline: 0, care: 100, stay: 0, values: vec![0, 1, 1 << 32] };
    // a thread may have assigns that can neither be stored nor read again
    for _ in 0..100 * number {
        if events.len() >= number {
            break;
        }
        let t = rng.below(counts.threads);
        if let Some(e) = open_event(rng, &state, &style, t, false) {
            assert_eq!(state.step(e), 0);
            events.push(e);
        }
    }
}
