//! The event lines, read and marked in one loop.

use crate::fields::{load, long_fields, unread, wait_fields};
use crate::find::Found;
use crate::rows::*;
use crate::volatiles::Accesses;
use crate::{Counts, Limits, Value, EVENTS, FIRST_LINE, LOCKS, SECTIONS, THREADS, VARIABLES};
use std::marker::PhantomData;
use std::mem::MaybeUninit;

/// Reading a line by words takes bytes up to so many behind its start, and less than so many before it.
const AROUND: usize = 40;

/// How marking ended: after the last event, at an event that is refused or denies the order, or at a line with Y, F or C, which is marked
/// apart.
#[derive(Clone, Copy)]
pub enum End {
    Done,
    Refused(usize),
    Denied(usize),
    Apart,
}

/// Room for what is kept until the paper is known to be accepted. It is not cleared, but for the cells of what is declared.
pub struct Room {
    cells: [Cell; CELLS],
    what: [u32; EVENTS],
    values: [Value; EVENTS],
    /// entries of the order list, the position of the section's last lock in the upper half
    sections: [u64; SECTIONS],
    /// what is kept of the volatile variables, by thread; filled where there are any
    accesses: [Accesses; THREADS],
    /// what is kept of the waiting threads; that of the others is not filled
    waits: [Wait; THREADS],
    /// the last lines of the paper, with enough bytes around them
    tail: [u8; 3 * AROUND],
}

/// The state after some events.
pub struct Machine<'a> {
    counts: Counts,
    limits: Limits,
    guards: [u64; LOCKS],
    volatiles: u32,
    room: *mut Room,
    /// where the next line starts, where too few bytes follow, where the events end; and the length of the trailer behind
    at: *const u8,
    stop: *const u8,
    end: *const u8,
    trailer: usize,
    events: usize,
    closed: usize,
    threads: [Thread; THREADS],
    depths: [u32; LOCKS],
    /// the threads that wait, and those of them that are notified, a bit each
    waiting: u32,
    notified: u32,
    lent: PhantomData<(&'a [u8], &'a mut Room)>,
}

impl<'a> Machine<'a> {
    /// The state before the first event.
    #[inline(always)]
    pub fn new(found: &Found<'a>, room: &'a mut MaybeUninit<Room>) -> Machine<'a> {
        let room = room.as_mut_ptr();
        let start = found.paper.as_ptr();
        let by_words = found.paper.len().saturating_sub(AROUND - 1);
        let Counts { threads, variables, .. } = found.counts;
        for row in 0..1 + threads {
            // SAFETY: there are as many cells, and zeros are one.
            unsafe {
                let cells = (&raw mut (*room).cells).cast::<Cell>().add(VARIABLES * row);
                cells.write_bytes(0, variables);
                for v in 0..variables {
                    (*cells.add(v)).counts = NO_COUNTS.to_le_bytes();
                }
            }
        }
        if found.volatiles != 0 {
            // SAFETY: there are as many, and zeros are one.
            unsafe { (&raw mut (*room).accesses).cast::<Accesses>().write_bytes(0, threads) };
        }
        Machine {
            counts: found.counts,
            limits: found.limits,
            guards: found.guards,
            volatiles: found.volatiles,
            room,
            at: start.wrapping_add(found.start),
            stop: start.wrapping_add(by_words.min(found.end)),
            end: start.wrapping_add(found.end),
            trailer: found.paper.len() - found.end,
            events: 0,
            closed: 0,
            threads: [Thread::default(); THREADS],
            depths: [0; LOCKS],
            waiting: 0,
            notified: 0,
            lent: PhantomData,
        }
    }

    pub fn len(&self) -> usize {
        self.events
    }

    /// The line of the next event.
    pub fn line(&self) -> usize {
        self.events + FIRST_LINE + usize::from(self.volatiles != 0)
    }

    /// A lock is held, an assign owed, or a thread waits.
    pub fn is_open(&self) -> bool {
        self.waiting != 0 || self.threads.iter().any(|thread| thread.held != 0 || thread.sets & OWED != 0)
    }

    pub fn counts(&self) -> Counts {
        self.counts
    }

    /// Main memory of a declared variable.
    #[inline(always)]
    pub fn main(&self, v: usize) -> Value {
        // SAFETY: the row of main memory is filled.
        unsafe { (*self.room).cells[v].slots[COPY] }
    }

    /// A copy of a declared thread.
    #[inline(always)]
    pub fn copy(&self, t: usize, v: usize) -> Value {
        self.main(VARIABLES * (1 + t) + v)
    }

    /// The variables whose copies are usable, a bit each.
    pub fn usable(&self, t: usize) -> u64 {
        self.threads[t].sets & USABLE
    }

    /// The entries in order of their sections' last locks.
    pub fn sections(&self) -> &[u64] {
        // SAFETY: so many are filled.
        unsafe { std::slice::from_raw_parts((&raw const (*self.room).sections).cast(), self.closed) }
    }

    pub fn copy_records(&self, what: &mut [u32], values: &mut [Value]) {
        let n = self.events;
        // SAFETY: so many are filled, and at least as many lent.
        unsafe {
            what.as_mut_ptr().copy_from_nonoverlapping((&raw const (*self.room).what).cast(), n);
            values.as_mut_ptr().copy_from_nonoverlapping((&raw const (*self.room).values).cast(), n);
        }
    }

    /// Marks the events, with `order` up to one that denies the order. It goes on where it ended before.
    pub fn run(&mut self, order: bool) -> End {
        match (order, self.volatiles != 0) {
            (true, false) => self.run_for::<true, false>(),
            (false, false) => self.run_for::<false, false>(),
            (true, true) => self.run_for::<true, true>(),
            (false, true) => self.run_for::<false, true>(),
        }
    }

    /// The same; with `VOLATILE` there are volatile variables.
    fn run_for<const ORDER: bool, const VOLATILE: bool>(&mut self) -> End {
        loop {
            let end = if self.waiting == 0 {
                self.run_lines::<ORDER, VOLATILE, false>()
            } else {
                self.run_lines::<ORDER, VOLATILE, true>()
            };
            // SAFETY: 16 is said of an unlock alone, and its line is the next; so is a line that is marked apart.
            let end = match end {
                End::Refused(16) => unsafe { self.unlock_over_early::<ORDER, VOLATILE>() },
                End::Apart => unsafe { self.wait_line::<ORDER, VOLATILE>() },
                _ => return end,
            };
            if !matches!(end, End::Done) {
                return end;
            }
        }
    }

    /// The same, up to an unlock of a thread with outstanding stores, which is refused with 16, or to a line that is marked apart. With
    /// `WAITING` there are waiting threads.
    #[inline(never)]
    fn run_lines<const ORDER: bool, const VOLATILE: bool, const WAITING: bool>(&mut self) -> End {
        loop {
            // SAFETY: enough bytes of the paper, or of the tail, are around the lines that start before `stop`.
            let end = unsafe { self.run_by_words::<ORDER, VOLATILE, WAITING>() };
            if !matches!(end, End::Done) || self.at == self.end {
                return end;
            }
            // SAFETY: the events and the trailer that are left are fewer than `AROUND` bytes.
            unsafe { self.use_tail() };
        }
    }

    /// Goes on with the last lines in the tail.
    unsafe fn use_tail(&mut self) {
        let events = self.end.offset_from(self.at) as usize;
        let tail = (&raw mut (*self.room).tail).cast::<u8>();
        tail.write_bytes(0, 3 * AROUND);
        let tail = tail.add(AROUND);
        std::ptr::copy_nonoverlapping(self.at, tail, events + self.trailer);
        self.at = tail;
        self.end = tail.add(events);
        self.stop = self.end;
    }

    #[inline(always)]
    unsafe fn run_by_words<const ORDER: bool, const VOLATILE: bool, const WAITING: bool>(&mut self) -> End {
        let Counts { threads, variables, locks } = self.counts;
        let most = self.limits.events;
        let one_digit = variables.min(10);
        let what = (&raw mut (*self.room).what).cast::<u32>();
        let values = (&raw mut (*self.room).values).cast::<Value>();
        let mut at = self.at;
        let mut events = self.events;
        let stop = self.stop;
        let end = loop {
            if at >= stop {
                break End::Done;
            }
            let word = load(at);
            let letter = word as u8;
            let t = (word >> 16 & 15) as usize;
            let mut place = (word >> 32 & 15) as usize;
            let mut value = 0;
            let next;
            // a letter, a space, a digit, a space, a digit
            if word & 0xf0_ff_f0_ff_00 != 0x30_20_30_20_00 || t >= threads || events == most {
                break not_read(at, events, &self.limits);
            }
            if letter == b'K' || letter == b'N' {
                if place >= locks || (word >> 40) as u8 != 10 {
                    break not_read(at, events, &self.limits);
                }
                next = at.add(6);
                if WAITING && self.waiting >> t & 1 != 0 {
                    break End::Refused(29);
                }
                let end = if letter == b'K' {
                    self.lock::<ORDER, VOLATILE>(t, place, 1, events)
                } else {
                    self.unlock::<ORDER, VOLATILE, true, false>(t, place, events)
                };
                if !matches!(end, End::Done) {
                    break end;
                }
            } else {
                if word >> 40 & 0xff_f0_ff == 0x0a_30_20 && (word >> 48 & 15) < 10 && place < one_digit {
                    value = (word >> 48 & 15) as Value;
                    next = at.add(8);
                } else {
                    let Some(long) = long_fields(at, word, variables) else {
                        break not_read(at, events, &self.limits);
                    };
                    (place, value, next) = long;
                }
                let end = self.access::<ORDER, VOLATILE, WAITING>(letter, t, place, value, events);
                if !matches!(end, End::Done) {
                    break end;
                }
            }
            what.add(events).write(u32::from(letter) << 16 | (t << 8 | place) as u32);
            values.add(events).write(value);
            events += 1;
            at = next;
        };
        self.at = at;
        self.events = events;
        end
    }

    /// An event on a variable, whatever its letter: all that a row may ask and do, by the row's numbers. Letters follow each other
    /// without a pattern, and a wrong guess of a branch would cost more than what a row does not need.
    #[inline(always)]
    unsafe fn access<const ORDER: bool, const VOLATILE: bool, const WAITING: bool>(
        &mut self,
        letter: u8,
        t: usize,
        v: usize,
        value: Value,
        events: usize,
    ) -> End {
        let row = TABLE.get_unchecked(usize::from(letter % 32));
        if row.letter != letter {
            return if letter == b'F' { End::Apart } else { End::Refused(4) };
        }
        if WAITING && self.waiting >> t & 1 != 0 && letter != b'R' && letter != b'W' {
            return End::Refused(29);
        }
        let main = (&raw mut (*self.room).cells).cast::<Cell>().add(v);
        let cell = main.add(VARIABLES * (1 + t));
        let thread = self.threads.get_unchecked_mut(t);
        let bits = *BITS.get_unchecked(v);
        let counts = u64::from_le_bytes((*cell).counts);
        let accesses = (&raw mut (*self.room).accesses).cast::<Accesses>().add(t);
        let volatile = VOLATILE && self.volatiles >> v & 1 != 0;
        if volatile {
            let number = (*accesses).broken(letter, v, (*cell).counts);
            if number != 0 {
                return End::Refused(number);
            }
        }
        let due_cell = if letter == b'R' { main } else { cell };
        let due = slot(due_cell, cell, row.due).read();
        let read = u32::from(*(*cell).positions.get_unchecked(usize::from((*cell).counts[READS_OUT])));
        // shifted, the owed set lies over the fresh one
        let asked = thread.sets & !(thread.sets >> 16 & row.unless_owed);
        let broken = (asked ^ row.sets_due) & row.sets & bits
            | (counts.wrapping_add(row.plus) ^ row.counts_due) & row.counts
            | (due ^ value) as u64 & row.value;
        if broken != 0 {
            return End::Refused(first_broken(letter, thread.sets & bits, (*cell).counts, due == value));
        }
        if ORDER && row.under & !(thread.under >> v) != 0 {
            return End::Denied(20);
        }
        if volatile {
            (*accesses).take(letter, v, (*cell).counts, events as u16 + 1);
        }
        let to_cell = if letter == b'W' { main } else { cell };
        slot(to_cell, cell, row.to).write(value);
        // the position if it is a read. With eight outstanding the place is the oldest's, and this position does as well as its own: once
        // a lock has followed that read, the rows bar every event on the cell but the load, which has taken the position
        *(*cell).positions.get_unchecked_mut(usize::from((*cell).counts[READS_IN])) = events as u16 + 1;
        (*cell).counts = (counts.wrapping_add(row.step) & COUNTS).to_le_bytes();
        let joins = row.set & bits | (u64::from(read > thread.last_lock) & row.load) << v;
        thread.sets = (thread.sets & !(row.clear & bits) | joins).wrapping_add(row.unwritten);
        End::Done
    }

    /// A lock is taken: by a K once, by a C as often as its Y gave it up.
    #[inline(always)]
    unsafe fn lock<const ORDER: bool, const VOLATILE: bool>(&mut self, t: usize, l: usize, times: u32, events: usize) -> End {
        let thread = self.threads.get_unchecked_mut(t);
        let depth = self.depths.get_unchecked_mut(l);
        if (*depth != 0) & (thread.held >> l & 1 == 0) {
            return End::Refused(11);
        }
        if thread.sets & OWED != 0 {
            return End::Refused(13);
        }
        if ORDER && thread.unlocked {
            return End::Denied(21);
        }
        thread.first = if thread.held == 0 { (events + first_line::<VOLATILE>()) as u32 } else { thread.first };
        *depth += times;
        thread.held |= 1 << l;
        thread.last_lock = events as u32 + 1;
        thread.sets &= !USABLE;
        thread.under |= self.guards.get_unchecked(l);
        End::Done
    }

    /// With `STORES_BAR` every outstanding store bars it, else none; with `ALL` it gives up every hold, else one.
    #[inline(always)]
    unsafe fn unlock<const ORDER: bool, const VOLATILE: bool, const STORES_BAR: bool, const ALL: bool>(
        &mut self,
        t: usize,
        l: usize,
        events: usize,
    ) -> End {
        let thread = self.threads.get_unchecked_mut(t);
        let depth = self.depths.get_unchecked_mut(l);
        if thread.held >> l & 1 == 0 {
            return End::Refused(12);
        }
        if thread.sets & FRESH != 0 {
            return End::Refused(15);
        }
        if STORES_BAR && thread.sets >= UNWRITTEN {
            return End::Refused(16);
        }
        *depth = if ALL { 0 } else { *depth - 1 };
        let free = u32::from(*depth == 0);
        thread.held &= !(free << l);
        thread.under &= !(self.guards.get_unchecked(l) & u64::from(free).wrapping_neg());
        thread.unlocked = thread.held != 0;
        if ORDER && thread.held == 0 {
            self.close_section(t, events + first_line::<VOLATILE>());
        }
        End::Done
    }

    /// The unlock in the next line, whose thread has outstanding stores: it is taken in if all are early ones. Apart from the loop, which
    /// would be slower with a call that comes back to it.
    #[cold]
    #[inline(never)]
    unsafe fn unlock_over_early<const ORDER: bool, const VOLATILE: bool>(&mut self) -> End {
        let word = load(self.at);
        let (t, l) = ((word >> 16 & 15) as usize, (word >> 32 & 15) as usize);
        if !self.are_early(t) {
            return End::Refused(16);
        }
        self.unlock::<ORDER, VOLATILE, false, false>(t, l, self.events);
        self.add_record(b'N', t, l, 0);
        self.at = self.at.add(6);
        End::Done
    }

    /// Whether the outstanding stores of a thread all are early ones whose assigns are owed, at most one of a variable.
    unsafe fn are_early(&self, t: usize) -> bool {
        let sets = self.threads[t].sets;
        let stores = |v: usize| (*self.room).cells[VARIABLES * (1 + t) + v].counts[STORES];
        let early = (0..VARIABLES).filter(|&v| sets & OWED & BITS[v] != 0 && stores(v) > 0).count();
        sets / UNWRITTEN <= early as u64
    }

    /// Takes in the record of an event that is marked apart from the loop.
    unsafe fn add_record(&mut self, letter: u8, t: usize, place: usize, value: Value) {
        (*self.room).what[self.events] = u32::from(letter) << 16 | (t << 8 | place) as u32;
        (*self.room).values[self.events] = value;
        self.events += 1;
    }

    /// The next line, with Y, F or C. Apart from the loop, as papers have few of them.
    #[cold]
    #[inline(never)]
    unsafe fn wait_line<const ORDER: bool, const VOLATILE: bool>(&mut self) -> End {
        let Some((letter, t, l, u)) = wait_fields(self.at, self.counts).filter(|_| self.events < self.limits.events) else {
            return End::Refused(unread(self.at, self.events, &self.limits));
        };
        let end = match letter {
            b'Y' => self.wait::<ORDER, VOLATILE>(t, l),
            b'F' => self.notify(t, l, u),
            _ => self.come_back::<ORDER, VOLATILE>(t, l),
        };
        if matches!(end, End::Done) {
            self.add_record(letter, t, l, u as Value);
            self.at = self.at.add(if letter == b'F' { 8 } else { 6 });
        }
        end
    }

    /// A Y: asked as an unlock is.
    unsafe fn wait<const ORDER: bool, const VOLATILE: bool>(&mut self, t: usize, l: usize) -> End {
        if self.waiting >> t & 1 != 0 {
            return End::Refused(29);
        }
        let depth = self.depths[l];
        let end = if self.are_early(t) {
            self.unlock::<ORDER, VOLATILE, false, true>(t, l, self.events)
        } else {
            self.unlock::<ORDER, VOLATILE, true, true>(t, l, self.events)
        };
        if matches!(end, End::Done) {
            (*self.room).waits[t] = Wait { lock: l, depth };
            self.waiting |= 1 << t;
        }
        end
    }

    /// An F.
    unsafe fn notify(&mut self, t: usize, l: usize, u: usize) -> End {
        if self.waiting >> t & 1 != 0 {
            return End::Refused(29);
        }
        if !self.waits_on(u, l) || self.notified >> u & 1 != 0 {
            return End::Refused(30);
        }
        if self.threads[t].held >> l & 1 == 0 {
            return End::Refused(12);
        }
        self.notified |= 1 << u;
        End::Done
    }

    /// A C: asked as a lock is.
    unsafe fn come_back<const ORDER: bool, const VOLATILE: bool>(&mut self, t: usize, l: usize) -> End {
        if !self.waits_on(t, l) || self.notified >> t & 1 == 0 {
            return End::Refused(30);
        }
        let end = self.lock::<ORDER, VOLATILE>(t, l, (*self.room).waits[t].depth, self.events);
        if matches!(end, End::Done) {
            self.waiting &= !(1 << t);
            self.notified &= !(1 << t);
        }
        end
    }

    unsafe fn waits_on(&self, t: usize, l: usize) -> bool {
        self.waiting >> t & 1 != 0 && (*self.room).waits[t].lock == l
    }

    /// Adds the section of a thread that ends at a line. At most seven others are open at a time, so that few entries move.
    #[inline(always)]
    unsafe fn close_section(&mut self, t: usize, last: usize) {
        let thread = self.threads.get_unchecked(t);
        let lines = last << 12 | thread.first as usize;
        let entry = u64::from(thread.last_lock) << 32 | (t << 24 | lines) as u64;
        let list = (&raw mut (*self.room).sections).cast::<u64>();
        let mut place = self.closed;
        while place > 0 && *list.add(place - 1) > entry {
            *list.add(place) = *list.add(place - 1);
            place -= 1;
        }
        *list.add(place) = entry;
        self.closed += 1;
    }
}

/// The end at a line that the loop does not read.
#[cold]
#[inline(never)]
unsafe fn not_read(at: *const u8, events: usize, limits: &Limits) -> End {
    if matches!(*at, b'Y' | b'F' | b'C') {
        End::Apart
    } else {
        End::Refused(unread(at, events, limits))
    }
}

/// The line of the first event: it is behind the `V` line where there are volatile variables.
const fn first_line<const VOLATILE: bool>() -> usize {
    FIRST_LINE + VOLATILE as usize
}

/// The slot in a cell that is picked by the counts of this or another cell.
#[inline(always)]
unsafe fn slot(of: *mut Cell, counts: *const Cell, pick: Pick) -> *mut Value {
    let further = *(*counts).counts.get_unchecked(pick.count as usize);
    (&raw mut (*of).slots).cast::<Value>().add(pick.base as usize + usize::from(further))
}
