//! What is kept for a thread and for a cell, and the rows of the letters as numbers, so that U, A, L, S, R, W, P and B all take one
//! path without a branch on the letter.

use crate::{Value, EVENTS, THREADS, VARIABLES};

/// What is kept for a thread.
#[derive(Clone, Copy, Default)]
pub struct Thread {
    /// three sets of variables, sixteen bits each: copies that are usable, fresh, owed; above them the number of outstanding stores
    pub sets: u64,
    /// the variables that are under their guard, a bit each
    pub under: u64,
    /// the locks that it holds, a bit each
    pub held: u32,
    /// the position of its last lock; positions count from 1
    pub last_lock: u32,
    /// the line where its section begins, and whether it unlocked in it
    pub first: u32,
    pub unlocked: bool,
}

/// What is kept for a thread that waits: the lock, and how many times it held it.
#[derive(Clone, Copy)]
pub struct Wait {
    pub lock: usize,
    pub depth: u32,
}

/// Whole sets.
pub const USABLE: u64 = 0xffff;
pub const FRESH: u64 = 0xffff << 16;
pub const OWED: u64 = 0xffff << 32;
/// One outstanding store.
pub const UNWRITTEN: u64 = 1 << 48;
/// Variable 0 in each set.
const FIRST: u64 = 1 | 1 << 16 | 1 << 32;

/// Each variable in the three sets.
pub static BITS: [u64; VARIABLES] = {
    let mut bits = [0; VARIABLES];
    let mut v = 0;
    while v < VARIABLES {
        bits[v] = FIRST << v;
        v += 1;
    }
    bits
};

/// What is kept for a thread and a variable: the copy, and the outstanding stores and reads, two queues of eight places.
#[repr(C, align(32))]
pub struct Cell {
    /// the lengths of the queues and their places, a byte each
    pub counts: [u8; 8],
    pub slots: [Value; 17],
    /// where the reads are among the events, by their places
    pub positions: [u16; 8],
}

const _: () = assert!(std::mem::size_of::<Cell>() == 160 && EVENTS <= u16::MAX as usize);

/// Main memory is a row of cells before those of the threads: its values are their copies.
pub const CELLS: usize = (1 + THREADS) * VARIABLES;

/// Bytes of `counts`: the lengths, where the next read or store comes in, where the oldest is, where the latest store is; and a zero.
pub const READS: usize = 0;
pub const STORES: usize = 1;
pub const READS_IN: usize = 2;
pub const READS_OUT: usize = 3;
const STORES_IN: usize = 4;
const STORES_OUT: usize = 5;
const STORES_LAST: usize = 6;
const ZERO: usize = 7;
/// A length is up to 8, a place up to 7; the reads' length has `OWING` more while an assign is owed. The sum of counts and steps is cut
/// to these bits.
pub const COUNTS: u64 = 0x00_07_07_07_07_07_0f_3f;
const OWING: u64 = 0x30 << (8 * READS);
/// A cell's counts before the first event: the place before 0 is 7.
pub const NO_COUNTS: u64 = 7 << (8 * STORES_LAST);

/// The slots: the copy, and where the queues begin.
pub const COPY: usize = 0;
const STORES_AT: usize = 1;
const READS_AT: usize = 9;

/// A slot: the one at `base` and as many further as the byte of the counts says.
#[derive(Clone, Copy)]
pub struct Pick {
    pub base: u32,
    pub count: u32,
}

const THE_COPY: Pick = pick(COPY, ZERO);

const fn pick(base: usize, count: usize) -> Pick {
    Pick { base: base as u32, count: count as u32 }
}

const fn one(count: usize) -> u64 {
    1 << (8 * count)
}

/// A length has this bit if it is 8, and if it is not 0 once 7 is added.
const fn full(length: usize) -> u64 {
    8 << (8 * length)
}

const fn seven(length: usize) -> u64 {
    7 << (8 * length)
}

/// The reads' length has this bit once this is added if it is not 0 and no assign is owed: 1 to 8 become 32 to 39, and with `OWING` 0
/// to 8 become 79 to 87.
const READ_BARS: u64 = 32 << (8 * READS);
const READ_PLUS: u64 = 31 << (8 * READS);

/// What an event of a letter asks, and what it does.
#[derive(Clone, Copy)]
#[repr(align(64))]
pub struct Row {
    pub letter: u8,
    /// the sets that are asked, and those of them that must have the variable; and the fresh set where it is asked unless one is owed
    pub sets: u64,
    pub sets_due: u64,
    pub unless_owed: u64,
    /// of the counts: what is added before, the bits that are asked, and those of them that must be there
    pub plus: u64,
    pub counts: u64,
    pub counts_due: u64,
    /// the value that the event must have, and all bits where it must
    pub due: Pick,
    pub value: u64,
    /// 1 where the oldest read makes the copy usable if it came after the last lock
    pub load: u64,
    /// 1 where the variable must be under its guard
    pub under: u64,
    /// the sets that the variable leaves and joins, and what is added to them
    pub clear: u64,
    pub set: u64,
    pub unwritten: u64,
    /// what is added to the counts
    pub step: u64,
    /// where the value goes
    pub to: Pick,
}

/// What a letter without a row has: a letter that leads to another row.
const NO_ROW: Row = Row {
    letter: b'u',
    sets: 0,
    sets_due: 0,
    unless_owed: 0,
    plus: 0,
    counts: 0,
    counts_due: 0,
    due: THE_COPY,
    value: u64::MAX,
    load: 0,
    under: 0,
    clear: 0,
    set: 0,
    unwritten: 0,
    step: 0,
    to: THE_COPY,
};

const STORED: Row = Row {
    counts: full(STORES),
    unwritten: UNWRITTEN,
    step: one(STORES) + one(STORES_IN) + one(STORES_LAST),
    to: pick(STORES_AT, STORES_IN),
    ..NO_ROW
};

const ROWS: [Row; 8] = [
    Row { letter: b'U', sets: USABLE, sets_due: USABLE, under: 1, ..NO_ROW },
    Row { letter: b'A', plus: READ_PLUS, counts: READ_BARS, value: 0, under: 1, set: USABLE | FRESH, ..NO_ROW },
    // 15 and 16 are not asked: the rows of R, A and P leave no read outstanding that would meet them
    Row {
        letter: b'L',
        sets: OWED,
        plus: seven(READS),
        counts: full(READS),
        counts_due: full(READS),
        due: pick(READS_AT, READS_OUT),
        load: 1,
        step: one(READS_OUT) - one(READS),
        ..NO_ROW
    },
    Row { letter: b'S', sets: OWED | FRESH | USABLE, sets_due: FRESH | USABLE, clear: FRESH, ..STORED },
    Row {
        letter: b'R',
        sets: FRESH,
        unless_owed: FRESH,
        plus: seven(STORES),
        counts: full(READS) | full(STORES),
        step: one(READS) + one(READS_IN),
        to: pick(READS_AT, READS_IN),
        ..NO_ROW
    },
    Row {
        letter: b'W',
        plus: seven(STORES),
        counts: full(STORES),
        counts_due: full(STORES),
        due: pick(STORES_AT, STORES_OUT),
        unwritten: UNWRITTEN.wrapping_neg(),
        step: one(STORES_OUT) - one(STORES),
        ..NO_ROW
    },
    Row {
        letter: b'P',
        sets: OWED,
        plus: seven(READS),
        counts: full(READS) | full(STORES),
        value: 0,
        set: OWED,
        step: STORED.step + OWING,
        ..STORED
    },
    // nothing is stored while an assign is owed, so that the announced value is in the latest store's place
    Row {
        letter: b'B',
        sets: OWED,
        sets_due: OWED,
        due: pick(STORES_AT, STORES_LAST),
        under: 1,
        clear: FRESH | OWED,
        set: USABLE,
        step: OWING.wrapping_neg(),
        ..NO_ROW
    },
];

/// The rows by the low five bits of their letters.
pub static TABLE: [Row; 32] = {
    let mut table = [NO_ROW; 32];
    let mut i = 0;
    while i < ROWS.len() {
        table[ROWS[i].letter as usize % 32] = ROWS[i];
        i += 1;
    }
    table
};

/// The first refusal in a letter's row, one of which holds: by the sets that have the variable, the lengths of its queues, and whether
/// the value is the due one.
#[cold]
#[inline(never)]
pub fn first_broken(letter: u8, sets: u64, counts: [u8; 8], same: bool) -> usize {
    let (usable, fresh, owed) = (sets & USABLE != 0, sets & FRESH != 0, sets & OWED != 0);
    let (reads, stores) = (counts[READS] % 16, counts[STORES]);
    match letter {
        b'U' if !usable => 17,
        b'U' => 18,
        b'A' => 23,
        b'L' if reads == 0 => 10,
        b'L' if owed => 13,
        b'L' => 18,
        b'S' if owed => 13,
        b'S' if !fresh => 14,
        b'S' if !usable => 17,
        b'S' if !same => 18,
        b'S' => 19,
        b'R' if !same => 18,
        b'R' if reads == 8 => 19,
        b'R' => 23,
        b'W' if stores == 0 => 10,
        b'W' => 18,
        b'P' if owed => 13,
        b'P' if stores == 8 => 19,
        b'P' => 23,
        b'B' if !owed => 10,
        _ => 18,
    }
}
