//! The lines of the output. They are composed apart, by stores that are wider than what they write, and copied out at the end.

use crate::events::Machine;
use crate::Value;
use std::mem::MaybeUninit;

/// More than the longest listing, which has under 24,357 bytes: `accepted`, 16 variables, 128 copies and 1,000 sections.
pub type Lines = MaybeUninit<[u8; 24_576]>;

pub struct Listing<'a> {
    lines: &'a mut Lines,
    len: usize,
}

impl<'a> Listing<'a> {
    #[inline(always)]
    pub fn new(lines: &'a mut Lines) -> Listing<'a> {
        Listing { lines, len: 0 }
    }

    /// Copies the listing to the front of a longer output. Its length.
    #[inline(always)]
    pub fn copy_to(&self, out: &mut [u8]) -> usize {
        // SAFETY: so many bytes are written, and the output is longer.
        unsafe { std::ptr::copy_nonoverlapping(self.lines.as_ptr().cast::<u8>(), out.as_mut_ptr(), self.len) };
        self.len
    }

    /// Adds `n` of these bytes. There is room for all of them.
    #[inline(always)]
    fn push<const N: usize>(&mut self, bytes: [u8; N], n: usize) {
        // SAFETY: there is room for the longest listing and more than a line.
        unsafe { self.lines.as_mut_ptr().cast::<u8>().add(self.len).cast::<[u8; N]>().write_unaligned(bytes) };
        self.len += n;
    }

    #[inline(always)]
    fn word<const N: usize>(&mut self, word: &[u8; N]) {
        self.push(*word, N);
    }

    /// A space and a number under 10,000.
    #[inline(always)]
    fn small(&mut self, n: u32) {
        let (digits, len) = four(n);
        self.push((u64::from(digits) << 8 | u64::from(b' ')).to_le_bytes(), len + 1);
    }

    /// A space and a value.
    #[inline(always)]
    fn value(&mut self, value: Value) {
        self.push([b' ', b'-'], 1 + usize::from(value < 0));
        // fours of digits behind the first one to four, the last of them first
        let (mut n, mut fours, mut behind) = (value.unsigned_abs(), [0; 4], 0);
        while n >= 10_000 {
            fours[behind] = (n % 10_000) as u32;
            n /= 10_000;
            behind += 1;
        }
        let (digits, len) = four(n as u32);
        self.push(digits.to_le_bytes(), len);
        for &n in fours[..behind].iter().rev() {
            self.push((four_digits(n) | 0x3030_3030).to_le_bytes(), 4);
        }
    }

    /// A line of a word and two numbers.
    pub fn pair<const N: usize>(&mut self, word: &[u8; N], a: usize, b: usize) {
        self.word(word);
        self.small(a as u32);
        self.small(b as u32);
        self.word(b"\n");
    }

    /// The number of events, main memory and the usable copies.
    #[inline(always)]
    pub fn memories(&mut self, machine: &Machine) {
        self.word(b"accepted");
        self.small(machine.len() as u32);
        self.word(b"\n");
        let counts = machine.counts();
        for v in 0..counts.variables {
            self.word(b"main");
            self.small(v as u32);
            self.value(machine.main(v));
            self.word(b"\n");
        }
        for t in 0..counts.threads {
            let mut usable = machine.usable(t);
            while usable != 0 {
                let v = usable.trailing_zeros();
                usable &= usable - 1;
                self.word(b"copy ");
                self.push([b'0' + t as u8], 1);
                self.small(v);
                self.value(machine.copy(t, v as usize));
                self.word(b"\n");
            }
        }
    }

    /// The section lines; the entries go to the order list. Their number.
    #[inline(always)]
    pub fn sections(&mut self, sections: &[u64], list: &mut [u64]) -> usize {
        for (&section, entry) in sections.iter().zip(list) {
            *entry = section & 0xffff_ffff;
            self.word(b"section ");
            self.push([b'0' + (section >> 24) as u8], 1);
            self.small(section as u32 & 0xfff);
            self.small(section as u32 >> 12 & 0xfff);
            self.word(b"\n");
        }
        sections.len()
    }
}

/// The four digits of a number under 10,000, the first in the lowest byte.
#[inline(always)]
fn four_digits(n: u32) -> u32 {
    let hundreds = (n * 5243) >> 19;
    let pairs = hundreds | (n - 100 * hundreds) << 16;
    let tens = (pairs * 103) >> 10 & 0x000f_000f;
    tens | (pairs - 10 * tens) << 8
}

/// The number as text, the first in the lowest byte, and its length.
#[inline(always)]
fn four(n: u32) -> (u32, usize) {
    let digits = four_digits(n);
    let skip = (digits | 1 << 24).trailing_zeros() & 24;
    ((digits | 0x3030_3030) >> skip, 4 - skip as usize / 8)
}
