//! The fields of an event line, read by words of eight bytes.

use crate::{Counts, Limits, Value};
use std::arch::x86_64::{_mm_cmpeq_epi8, _mm_loadu_si128, _mm_movemask_epi8, _mm_set1_epi8};

/// Eight bytes, the first in the lowest place.
#[inline(always)]
pub unsafe fn load(at: *const u8) -> u64 {
    u64::from_le(at.cast::<u64>().read_unaligned())
}

/// Variable, value and next line of a line on a variable; none where they are no declared variable and no value. The word is the
/// line's first, with a letter, a thread and a digit in it.
#[inline(always)]
pub unsafe fn long_fields(at: *const u8, word: u64, variables: usize) -> Option<(usize, Value, *const u8)> {
    let (mut place, mut field) = ((word >> 32 & 15) as usize, 6);
    if (word >> 40) as u8 != b' ' {
        if word >> 32 & 0xff_f0_ff != 0x20_30_31 {
            return None;
        }
        (place, field) = (10 + (word >> 40 & 15) as usize, 7);
    } else if place > 9 {
        return None;
    }
    let (value, end) = value(at, word, field)?;
    (place < variables).then_some((place, value, end.add(1)))
}

/// The value that begins at byte 6 or 7 of a line, and where it ends; without a branch on its sign and its length up to 8 digits.
#[inline(always)]
unsafe fn value(at: *const u8, word: u64, field: usize) -> Option<(Value, *const u8)> {
    let mut ends = line_ends(at.add(5));
    if ends == 0 {
        ends = line_ends(at.add(21)) << 16;
    }
    let length = 5 + ends.trailing_zeros() as usize;
    let negative = usize::from((word >> (8 * field)) as u8 == b'-');
    let digits = length.wrapping_sub(field + negative);
    if digits.wrapping_sub(1) >= DIGITS {
        return None;
    }
    let end = at.add(length);
    let least = LENGTHS.get_unchecked(digits).1[negative];
    let (mut magnitude, mut bad) = up_to_eight(end, digits);
    if digits > 8 {
        let (middle, bad_too) = up_to_eight(end.sub(8), digits - 8);
        magnitude += 100_000_000 * middle;
        bad |= bad_too;
    }
    if digits > 16 {
        let (upper, bad_too) = up_to_eight(end.sub(16), digits - 16);
        magnitude = magnitude.wrapping_add(upper.wrapping_mul(10_000_000_000_000_000));
        bad |= bad_too | u64::from(magnitude > Value::MAX as u64 + negative as u64);
    }
    // no zero before other digits or behind a minus
    bad |= u64::from(magnitude < least);
    let value = if negative != 0 { magnitude.wrapping_neg() } else { magnitude };
    (bad == 0).then_some((value as Value, end))
}

/// Which of sixteen bytes are byte 10, a bit each.
#[inline(always)]
unsafe fn line_ends(at: *const u8) -> u32 {
    _mm_movemask_epi8(_mm_cmpeq_epi8(_mm_loadu_si128(at.cast()), _mm_set1_epi8(10))) as u32
}

/// The number of the last eight of so many digits before `end`, and a 0 if they are digits. With other bytes it is any of 32 bits.
#[inline(always)]
unsafe fn up_to_eight(end: *const u8, digits: usize) -> (u64, u64) {
    let kept = (load(end.sub(8)) ^ ZEROS) & LENGTHS.get_unchecked(digits).0;
    (eight(kept), over_nine(kept))
}

/// The digits of the longest value. A number of so many fits into 64 bits.
const DIGITS: usize = 19;

/// By the number of digits: the bytes of the last eight, and the least number that has so many, without a minus and with one.
static LENGTHS: [(u64, [u64; 2]); DIGITS + 1] = {
    let mut lengths = [(!0, [0, 1]); DIGITS + 1];
    let (mut n, mut power) = (1, 1);
    while n <= DIGITS {
        if n < 8 {
            lengths[n].0 = !0 << (64 - 8 * n);
        }
        if n > 1 {
            lengths[n].1 = [power, power];
        }
        power *= 10;
        n += 1;
    }
    lengths
};

const ZEROS: u64 = 0x3030_3030_3030_3030;

/// The high bit of the first byte that is over 9; bytes behind it may have theirs as well.
#[inline(always)]
fn over_nine(digits: u64) -> u64 {
    (digits.wrapping_add(0x7676_7676_7676_7676) | digits) & 0x8080_8080_8080_8080
}

/// The number of eight digits, the first in the lowest byte.
#[inline(always)]
fn eight(digits: u64) -> u64 {
    let pairs = (digits.wrapping_mul(10).wrapping_add(digits >> 8)) & 0x00ff_00ff_00ff_00ff;
    let fours = (pairs.wrapping_mul(100).wrapping_add(pairs >> 16)) & 0x0000_ffff_0000_ffff;
    (fours.wrapping_mul(10_000).wrapping_add(fours >> 32)) & 0xffff_ffff
}

/// Letter, thread, lock and notified thread of a line with Y, F or C, where 0 stands for the last if there is none; none where the line has
/// another form or a number that is not declared.
#[inline(always)]
pub unsafe fn wait_fields(at: *const u8, counts: Counts) -> Option<(u8, usize, usize, usize)> {
    let word = load(at);
    let (letter, t, l) = (word as u8, (word >> 16 & 15) as usize, (word >> 32 & 15) as usize);
    // a letter, a space, a digit, a space, a digit; behind F a space and a digit; byte 10
    let (formed, u) = if letter == b'F' {
        (word & 0xff_f0_ff_f0_ff_f0_ff_00 == 0x0a_30_20_30_20_30_20_00, (word >> 48 & 15) as usize)
    } else {
        (word & 0xff_f0_ff_f0_ff_00 == 0x0a_30_20_30_20_00, 0)
    };
    (formed && t < counts.threads && l < counts.locks && u < counts.threads).then_some((letter, t, l, u))
}

/// The refusal of a line that is not read otherwise: 4 if it is no event, that of the limit if as many events are in, and 5 is left.
#[cold]
#[inline(never)]
pub unsafe fn unread(at: *const u8, events: usize, limits: &Limits) -> usize {
    let mut c = Cursor(at);
    if c.event().is_none() {
        4
    } else if events == limits.events {
        limits.over
    } else {
        5
    }
}

/// Reads a line that ends with byte 10, never past that byte.
struct Cursor(*const u8);

impl Cursor {
    unsafe fn byte(&mut self, b: u8) -> Option<()> {
        (*self.0 == b).then(|| self.0 = self.0.add(1))
    }

    /// A number in the paper's form, held at the greatest `u64`, over all limits.
    unsafe fn number(&mut self) -> Option<u64> {
        let first = self.0;
        let mut n = 0u64;
        while (*self.0).is_ascii_digit() {
            n = n.saturating_mul(10).saturating_add(u64::from(*self.0 - b'0'));
            self.0 = self.0.add(1);
        }
        match self.0.offset_from(first) {
            0 => None,
            1 => Some(n),
            _ => (*first != b'0').then_some(n),
        }
    }

    /// Whether it is the form of an event, its value in range.
    unsafe fn event(&mut self) -> Option<()> {
        let letter = *self.0;
        if !b"UALSRWKNPBYFC".contains(&letter) {
            return None;
        }
        self.byte(letter)?;
        self.byte(b' ')?;
        self.number()?;
        self.byte(b' ')?;
        self.number()?;
        if letter == b'F' {
            self.byte(b' ')?;
            self.number()?;
        } else if !b"KNYC".contains(&letter) {
            self.byte(b' ')?;
            let negative = self.byte(b'-').is_some();
            let n = self.number()?;
            if n > Value::MAX as u64 + u64::from(negative) || negative && n == 0 {
                return None;
            }
        }
        self.byte(10)
    }
}
