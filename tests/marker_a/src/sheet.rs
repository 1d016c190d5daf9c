//! (j), "The session sheet."

use std::collections::BTreeMap;
use std::iter::once;
use std::ops::Range;

use crate::paper::{number, trailer};
use crate::{outcome, outcome_short, Outcome, Refusal, Verdict, MAX_BYTES};

/// "Papers of a sitting are joined end to end, in at most 65,536 bytes, else 1." The line is that of 1 in 01.
const TOO_LONG: Refusal = Refusal { line: 0, number: 1 };
/// "Turned away: 31 (line 0)".
const LOST: Refusal = Refusal { line: 0, number: 31 };

/// What is found in a sheet.
#[derive(Clone, Debug, PartialEq, Eq)]
pub enum Split {
    /// The papers, in their order.
    Papers(Vec<Range<usize>>),
    /// 31 is to be said.
    Lost,
}

// ---- the papers ----

/// "Find them from the last trailer backwards". "An empty sheet holds no papers". There is no limit of bytes here.
pub fn split(bytes: &[u8]) -> Split {
    let mut papers = Vec::new();
    let mut left = bytes;
    while !left.is_empty() {
        let Some(start) = last_paper(left) else { return Split::Lost };
        papers.push(start..left.len());
        left = &left[..start];
    }
    papers.reverse();
    Split::Papers(papers)
}

/// Where the last paper of what is left starts. None where "what is left does not end in a trailer, or a trailer points
/// before the first byte or not at an `H`". A start is before the trailer, for the trailer's own first byte is `Z`.
fn last_paper(left: &[u8]) -> Option<usize> {
    let (line, before) = last_trailer(left)?;
    let start = line.checked_sub(before)?;
    (left[start] == b'H').then_some(start)
}

/// "Last line, the trailer: `Z n`, where n is the number of bytes before it." Gives where the line starts, and n; too
/// large an n becomes usize::MAX.
fn last_trailer(left: &[u8]) -> Option<(usize, usize)> {
    let text = left.strip_suffix(b"\n")?;
    let line = text.iter().rposition(|&b| b == 10).map_or(0, |i| i + 1);
    let before = number(text[line..].strip_prefix(b"Z ")?)?;
    Some((line, usize::try_from(before).unwrap_or(usize::MAX)))
}

/// All ways to cut the bytes into parts that are papers, by trial of every cut. There is one at most: a way's last part
/// ends where the bytes end, so its trailer says where it starts, and the same holds of the parts before it.
pub fn splits(bytes: &[u8]) -> Vec<Vec<Range<usize>>> {
    splits_from(bytes, 0)
}

/// The same for the bytes from `start` on.
fn splits_from(bytes: &[u8], start: usize) -> Vec<Vec<Range<usize>>> {
    if start == bytes.len() {
        return vec![Vec::new()];
    }
    let ends = (start + 1..=bytes.len()).filter(|&end| is_paper(&bytes[start..end]));
    let ways_with = |end| splits_from(bytes, end).into_iter().map(move |rest| once(start..end).chain(rest).collect());
    ends.flat_map(ways_with).collect()
}

/// The part begins with `H` and ends in a right trailer.
fn is_paper(part: &[u8]) -> bool {
    part.first() == Some(&b'H') && trailer(part).is_some()
}

// ---- the counts ----

/// What is counted in a sheet.
#[derive(Clone, Debug, PartialEq, Eq)]
pub struct Tally {
    pub papers: usize,
    pub accepted: usize,
    /// How many papers are refused with each number that occurs, rising.
    pub refused: BTreeMap<u32, usize>,
}

/// The counts of a sheet, or its refusal; "no count is printed".
pub fn count(bytes: &[u8]) -> Result<Tally, Refusal> {
    count_with(bytes, outcome)
}

/// The same with each paper marked by the short course's marker.
pub fn count_short(bytes: &[u8]) -> Result<Tally, Refusal> {
    count_with(bytes, outcome_short)
}

/// "A paper with 20 to 22 counts as accepted": its verdict is, and only its order is denied.
fn count_with(bytes: &[u8], marking: fn(&[u8]) -> Outcome) -> Result<Tally, Refusal> {
    if bytes.len() > MAX_BYTES {
        return Err(TOO_LONG);
    }
    let Split::Papers(papers) = split(bytes) else { return Err(LOST) };
    let mut tally = Tally { papers: papers.len(), accepted: 0, refused: BTreeMap::new() };
    for paper in papers {
        match marking(&bytes[paper]).verdict {
            Verdict::Accepted(_) => tally.accepted += 1,
            Verdict::Refused(refusal) => *tally.refused.entry(refusal.number).or_insert(0) += 1,
        }
    }
    Ok(tally)
}

/// "accepted over papers in lowest terms, `0/1` where none is accepted": the smallest b for which some whole number a has
/// a * papers = accepted * b, and this a. The number of papers is such a b.
pub(crate) fn share(accepted: usize, papers: usize) -> (usize, usize) {
    if accepted == 0 {
        return (0, 1);
    }
    let b = (1..papers).find(|b| (accepted * b).is_multiple_of(papers)).unwrap_or(papers);
    (accepted * b / papers, b)
}

// ---- what is printed ----

/// What the program prints for a sheet.
pub fn sheet(bytes: &[u8]) -> Vec<u8> {
    printed(count(bytes))
}

/// What the program prints for a sheet in the short course.
pub fn sheet_short(bytes: &[u8]) -> Vec<u8> {
    printed(count_short(bytes))
}

/// "Otherwise it prints only `refused line number`".
fn printed(counted: Result<Tally, Refusal>) -> Vec<u8> {
    let text = match counted {
        Ok(tally) => lines(&tally),
        Err(refusal) => format!("refused {} {}\n", refusal.line, refusal.number),
    };
    text.into_bytes()
}

/// "a line each: `papers n`, `accepted n`, `refused k n` for each number k that occurs, rising, and `share a/b`".
fn lines(tally: &Tally) -> String {
    let mut text = format!("papers {}\naccepted {}\n", tally.papers, tally.accepted);
    for (number, papers) in &tally.refused {
        text += &format!("refused {number} {papers}\n");
    }
    let (a, b) = share(tally.accepted, tally.papers);
    text + &format!("share {a}/{b}\n")
}
