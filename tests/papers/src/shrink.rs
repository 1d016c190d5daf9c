//! The smallest paper that still shows a difference.

use crate::generate::close;
use std::time::{Duration, Instant};

type Bad<'a> = &'a dyn Fn(&[u8]) -> bool;

/// A large paper may be left larger: the time for one is bounded.
const LIMIT: Duration = Duration::from_secs(5);

/// Takes away lines and bytes and makes numbers small, while `bad` holds.
pub fn shrink(paper: &[u8], bad: Bad) -> Vec<u8> {
    let start = Instant::now();
    let bad: Bad = &|p| start.elapsed() < LIMIT && bad(p);
    let mut best = paper.to_vec();
    loop {
        let before = best.clone();
        best = fewer_lines(&best, bad);
        best = smaller_numbers(&best, bad);
        best = fewer_volatiles(&best, bad);
        best = smaller_head(&best, bad);
        best = fewer_bytes(&best, bad);
        if best == before {
            return best;
        }
    }
}

/// The lines, each with its byte 10. Without the trailer where it counts right: it is then made anew.
struct Lines {
    list: Vec<Vec<u8>>,
    closed: bool,
}

impl Lines {
    fn of(paper: &[u8]) -> Lines {
        let mut list: Vec<Vec<u8>> = paper.split_inclusive(|&b| b == 10).map(<[u8]>::to_vec).collect();
        let closed = list.split_last().is_some_and(|(_, body)| close(body.concat()) == paper);
        if closed {
            list.pop();
        }
        Lines { list, closed }
    }

    fn paper(&self) -> Vec<u8> {
        if self.closed {
            close(self.list.concat())
        } else {
            self.list.concat()
        }
    }

    /// These lines instead, if they are still bad.
    fn try_other(&mut self, list: Vec<Vec<u8>>, bad: Bad) -> bool {
        let other = Lines { list, closed: self.closed };
        let better = bad(&other.paper());
        if better {
            *self = other;
        }
        better
    }
}

fn fewer_lines(paper: &[u8], bad: Bad) -> Vec<u8> {
    let mut lines = Lines::of(paper);
    let mut size = lines.list.len() / 2;
    while size > 0 {
        let mut at = 0;
        while at + size <= lines.list.len() {
            let mut less = lines.list.clone();
            less.drain(at..at + size);
            if !lines.try_other(less, bad) {
                at += 1;
            }
        }
        size /= 2;
    }
    // two lines that need each other, as lock and unlock
    let mut first = 0;
    while first < lines.list.len() && lines.list.len() <= 100 {
        let found = (first + 1..lines.list.len()).any(|second| {
            let mut less = lines.list.clone();
            less.remove(second);
            less.remove(first);
            lines.try_other(less, bad)
        });
        if !found {
            first += 1;
        }
    }
    lines.paper()
}

fn fields(line: &[u8]) -> Vec<Vec<u8>> {
    line.strip_suffix(b"\n").unwrap_or(line).split(|&b| b == b' ').map(<[u8]>::to_vec).collect()
}

fn joined(fields: &[Vec<u8>]) -> Vec<u8> {
    [fields.join(&b' '), b"\n".to_vec()].concat()
}

/// Whether a line with this first field is the head, a `G` line or a `V` line.
fn is_frame(first: &[u8]) -> bool {
    matches!(first, b"H" | b"G" | b"V")
}

/// Makes a thread, variable, lock or value another one, in all event lines at once.
fn smaller_numbers(paper: &[u8], bad: Bad) -> Vec<u8> {
    let mut lines = Lines::of(paper);
    // a lock stands in the second field of a line of three, a variable in that of a line of four
    for (count, field) in [(0, 1), (3, 2), (4, 2), (4, 3)] {
        let fits = |f: &[Vec<u8>]| f.len() > field && f.len() >= 3 && (count == 0 || f.len() == count) && !is_frame(&f[0]);
        let mut used: Vec<Vec<u8>> =
            lines.list.iter().map(|line| fields(line)).filter(|f| fits(f)).map(|f| f[field].clone()).collect();
        used.sort();
        used.dedup();
        for from in used {
            for to in [b"0".as_slice(), b"1", b"2"] {
                if (from.len(), &from[..]) <= (to.len(), to) {
                    break;
                }
                let other = lines
                    .list
                    .iter()
                    .map(|line| {
                        let mut f = fields(line);
                        if fits(&f) && f[field] == from {
                            f[field] = to.to_vec();
                            joined(&f)
                        } else {
                            line.clone()
                        }
                    })
                    .collect();
                if lines.try_other(other, bad) {
                    break;
                }
            }
        }
    }
    lines.paper()
}

/// Takes away numbers of the `V` line.
fn fewer_volatiles(paper: &[u8], bad: Bad) -> Vec<u8> {
    let mut lines = Lines::of(paper);
    let mut at = 1;
    while let Some(mut volatiles) = lines.list.get(2).map(|line| fields(line)).filter(|f| f[0] == b"V" && at < f.len()) {
        volatiles.remove(at);
        let mut other = lines.list.clone();
        other[2] = joined(&volatiles);
        if !lines.try_other(other, bad) {
            at += 1;
        }
    }
    lines.paper()
}

/// The `V` line without this number, where it is the last and not the only one; any other line as it is.
fn without_volatile(line: &[u8], number: usize) -> Vec<u8> {
    let mut volatiles = fields(line);
    let last = volatiles.last() == Some(&number.to_string().into_bytes());
    if volatiles[0] == b"V" && volatiles.len() > 2 && last {
        volatiles.pop();
        return joined(&volatiles);
    }
    line.to_vec()
}

/// Declares fewer threads, variables (with their guards, and not volatile) and locks; takes away the guards.
fn smaller_head(paper: &[u8], bad: Bad) -> Vec<u8> {
    let mut lines = Lines::of(paper);
    for field in 1..=3 {
        while let [head, guards, ..] = &lines.list[..] {
            let (mut h, mut g) = (fields(head), fields(guards));
            let Some(n) = h.get(field).and_then(|f| std::str::from_utf8(f).ok()).and_then(|f| f.parse::<usize>().ok()) else {
                break;
            };
            if n == 0 {
                break;
            }
            h[field] = (n - 1).to_string().into_bytes();
            if field == 2 && g.len() == n + 1 && n > 1 {
                g.pop();
            }
            let mut other = lines.list.clone();
            other[0] = joined(&h);
            other[1] = joined(&g);
            if field == 2 && other.len() > 2 {
                other[2] = without_volatile(&other[2], n - 1);
            }
            if !lines.try_other(other, bad) {
                break;
            }
        }
    }
    if lines.list.len() >= 2 && lines.list[1] != b"G -\n" {
        let mut other = lines.list.clone();
        other[1] = b"G -\n".to_vec();
        lines.try_other(other, bad);
    }
    lines.paper()
}

fn fewer_bytes(paper: &[u8], bad: Bad) -> Vec<u8> {
    if paper.len() > 2_000 {
        return paper.to_vec();
    }
    let mut best = paper.to_vec();
    let mut at = 0;
    while at < best.len() {
        let mut less = best.clone();
        less.remove(at);
        if bad(&less) {
            best = less;
        } else {
            at += 1;
        }
    }
    best
}
