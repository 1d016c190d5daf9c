//! What is kept of the volatile variables beside the cells, for 26, 27 and 28. Nothing of it is touched where none is volatile.

use crate::rows::{READS_IN, READS_OUT, STORES};
use crate::VARIABLES;

/// What is kept for a thread. Zeros are the one before the first event.
#[derive(Clone, Copy)]
pub struct Accesses {
    /// the variables after whose L, and after whose A, no event of the thread but R and W has come, a bit each
    after_load: u32,
    after_assign: u32,
    /// the position of the last write, and of the last read that is used
    written: u16,
    used: u16,
    /// by variable, the position of the latest load's read; and those of the outstanding reads, by their places in the cell
    loaded: [u16; VARIABLES],
    reads: [[u16; 8]; VARIABLES],
    /// the variables of the assigns that are not written, in a ring from `oldest` to `next`: of one at most nine, eight of them stored
    unwritten: [u8; 256],
    oldest: u8,
    next: u8,
}

impl Accesses {
    /// The refusal of an event by 26, 27 or 28; 0 where none of them holds.
    #[inline(always)]
    pub unsafe fn broken(&self, letter: u8, v: usize, counts: [u8; 8]) -> usize {
        let load = self.after_load >> v & 1 != 0;
        let assign = self.after_assign >> v & 1 != 0;
        match letter {
            b'R' => 0,
            b'W' if counts[STORES] != 0 && usize::from(self.unwritten[usize::from(self.oldest)]) != v => 27,
            b'W' => 0,
            _ if (letter == b'U') != load || (letter == b'S') != assign => 26,
            b'U' if self.oldest != self.next => 27,
            b'U' if *self.loaded.get_unchecked(v) <= self.written.max(self.used) => 27,
            b'P' | b'B' => 28,
            _ => 0,
        }
    }

    /// Takes in an accepted event; the counts are the cell's before it.
    #[inline(always)]
    pub unsafe fn take(&mut self, letter: u8, v: usize, counts: [u8; 8], position: u16) {
        let reads = self.reads.get_unchecked_mut(v);
        let loaded = self.loaded.get_unchecked_mut(v);
        match letter {
            b'R' => *reads.get_unchecked_mut(usize::from(counts[READS_IN])) = position,
            b'L' => {
                *loaded = *reads.get_unchecked(usize::from(counts[READS_OUT]));
                self.after_load |= 1 << v;
            }
            b'U' => {
                // by 27 it is later than those used before
                self.used = *loaded;
                self.after_load &= !(1 << v);
            }
            b'A' => {
                self.unwritten[usize::from(self.next)] = v as u8;
                self.next = self.next.wrapping_add(1);
                self.after_assign |= 1 << v;
            }
            b'S' => self.after_assign &= !(1 << v),
            _ => {
                // a W, of the oldest by 27
                self.oldest = self.oldest.wrapping_add(1);
                self.written = position;
            }
        }
    }
}
