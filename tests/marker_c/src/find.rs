//! Trailer, head, `G` line and `V` line. Every number in them has few digits, so that a longer field is a wrong one.

use crate::{Counts, Limits, LOCKS, PAPER, THREADS, VARIABLES};

/// A paper whose frame is right.
pub struct Found<'a> {
    pub paper: &'a [u8],
    pub counts: Counts,
    pub limits: Limits,
    pub guarded: bool,
    /// for each lock the variables that it guards, a bit each
    pub guards: [u64; LOCKS],
    /// the volatile variables, a bit each
    pub volatiles: u32,
    /// where the events begin, and where the trailer does
    pub start: usize,
    pub end: usize,
}

/// The parts of a paper, or line and number of its refusal: 1, 2, 3, 25 or 6.
#[inline(always)]
pub fn find(paper: &[u8], limits: Limits) -> Result<Found<'_>, (usize, usize)> {
    if paper.len() > PAPER {
        return Err((0, 1));
    }
    let end = trailer(paper).ok_or((0, 2))?;
    let mut c = Cursor { paper, at: 0 };
    let counts = head(&mut c).ok_or((1, 3))?;
    let most = limits.counts;
    if counts.threads > most.threads || counts.variables > most.variables || counts.locks > most.locks {
        return Err((1, limits.over));
    }
    let guards = guards(&mut c, counts).ok_or((2, 6))?;
    let mut volatiles = 0;
    if c.paper[c.at] == b'V' {
        volatiles = volatile_line(&mut c, counts).ok_or((3, 6))?;
    }
    Ok(Found {
        paper,
        counts,
        limits,
        guarded: guards.is_some(),
        guards: guards.unwrap_or_default(),
        volatiles,
        start: c.at,
        end,
    })
}

/// Where the trailer begins: it is the last line and counts the bytes before it, at most five digits.
#[inline(always)]
fn trailer(paper: &[u8]) -> Option<usize> {
    let (&last, rest) = paper.split_last()?;
    let (mut number, mut power, mut at) = (0, 1, rest.len());
    while at > 0 && rest[at - 1].is_ascii_digit() && power < 1_000_000 {
        at -= 1;
        number += usize::from(rest[at] - b'0') * power;
        power *= 10;
    }
    let digits = rest.len() - at;
    let canonical = digits == 1 || digits > 1 && rest[at] != b'0';
    let start = at.checked_sub(2)?;
    let alone = start == 0 || rest[start - 1] == 10;
    (last == 10 && canonical && &rest[start..at] == b"Z " && alone && number == start).then_some(start)
}

/// Reads bytes from the left. What it reads ends at a byte 10 at the latest, and a found trailer ends with one.
struct Cursor<'a> {
    paper: &'a [u8],
    at: usize,
}

impl Cursor<'_> {
    #[inline(always)]
    fn next(&mut self) -> u8 {
        let b = self.paper[self.at];
        self.at += 1;
        b
    }

    #[inline(always)]
    fn byte(&mut self, b: u8) -> Option<()> {
        (self.next() == b).then_some(())
    }

    /// A space and a digit up to `most`.
    #[inline(always)]
    fn digit(&mut self, most: usize) -> Option<usize> {
        self.byte(b' ')?;
        let d = usize::from(self.next().wrapping_sub(b'0'));
        (d <= most).then_some(d)
    }
}

#[inline(always)]
fn head(c: &mut Cursor) -> Option<Counts> {
    c.byte(b'H')?;
    let threads = c.digit(THREADS)?;
    let mut variables = c.digit(9)?;
    if variables == 1 && c.paper[c.at] != b' ' {
        variables = 10 + usize::from(c.next().wrapping_sub(b'0'));
    }
    let locks = c.digit(LOCKS)?;
    c.byte(10)?;
    (threads > 0 && variables > 0 && variables <= VARIABLES).then_some(Counts { threads, variables, locks })
}

/// The variables of each lock; none inside for `G -`.
#[inline(always)]
fn guards(c: &mut Cursor, counts: Counts) -> Option<Option<[u64; LOCKS]>> {
    c.byte(b'G')?;
    if c.paper[c.at..].starts_with(b" -\n") {
        c.at += 3;
        return Some(None);
    }
    let mut guards = [0; LOCKS];
    for v in 0..counts.variables {
        let lock = c.digit(LOCKS - 1)?;
        if lock >= counts.locks {
            return None;
        }
        guards[lock] |= 1 << v;
    }
    c.byte(10)?;
    Some(Some(guards))
}

/// The variables of a `V` line, at least one and rising, a bit each.
#[cold]
#[inline(never)]
fn volatile_line(c: &mut Cursor, counts: Counts) -> Option<u32> {
    c.byte(b'V')?;
    let mut volatiles = 0;
    loop {
        let mut v = c.digit(9)?;
        if v == 1 && c.paper[c.at].is_ascii_digit() {
            v = 10 + usize::from(c.next() - b'0');
        }
        if v >= counts.variables || volatiles >> v != 0 {
            return None;
        }
        volatiles |= 1 << v;
        if c.paper[c.at] == 10 {
            c.at += 1;
            return Some(volatiles);
        }
    }
}
