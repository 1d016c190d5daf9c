//! The form of a paper: lines, fields, numbers; head, `G` line, `V` line and trailer.

use crate::{Counts, Event, Kind, Limits, Refusal, Value, FULL, MAX_BYTES, MAX_LOCKS, MAX_THREADS, MAX_VARIABLES};

/// The parts of a paper that 1, 2, 3, 25 and 6 do not refuse.
#[derive(Clone, Debug, PartialEq, Eq)]
pub struct Parts<'a> {
    pub counts: Counts,
    /// One lock number per variable; none for `G -`.
    pub guards: Option<Vec<u32>>,
    /// The part that holds the events.
    pub body: &'a [u8],
}

/// "Whole paper: 1, 2, 3, 6".
pub fn find(paper: &[u8]) -> Result<Parts<'_>, Refusal> {
    find_within(paper, FULL)
}

/// The same in a course with these limits; 25 comes "after 3 for the head (line 1)".
pub(crate) fn find_within(paper: &[u8], limits: Limits) -> Result<Parts<'_>, Refusal> {
    if paper.len() > MAX_BYTES {
        return Err(Refusal { line: 0, number: 1 });
    }
    let end = trailer(paper).ok_or(Refusal { line: 0, number: 2 })?;
    let wrong_head = Refusal { line: 1, number: 3 };
    let (first, rest) = take_line(&paper[..end]).ok_or(wrong_head)?;
    let mut counts = head(first).ok_or(wrong_head)?;
    if over(counts, limits.counts) {
        return Err(Refusal { line: 1, number: 25 });
    }
    let wrong_guards = Refusal { line: 2, number: 6 };
    let (second, rest) = take_line(rest).ok_or(wrong_guards)?;
    let guards = guard_line(second, counts).ok_or(wrong_guards)?;
    if rest.first() != Some(&b'V') {
        return Ok(Parts { counts, guards, body: rest });
    }
    let wrong_volatiles = Refusal { line: 3, number: 6 };
    let (third, body) = take_line(rest).ok_or(wrong_volatiles)?;
    counts.volatiles = volatile_line(third, counts).ok_or(wrong_volatiles)?;
    Ok(Parts { counts, guards, body })
}

/// More than "at most" these threads, variables or locks. No right head is over the full limits.
fn over(counts: Counts, most: Counts) -> bool {
    counts.threads > most.threads || counts.variables > most.variables || counts.locks > most.locks
}

/// The first line without its byte 10, and what is behind it.
pub fn take_line(bytes: &[u8]) -> Option<(&[u8], &[u8])> {
    let end = bytes.iter().position(|&b| b == 10)?;
    Some((&bytes[..end], &bytes[end + 1..]))
}

/// "Last line, the trailer: `Z n`, where n is the number of bytes before it." Gives where it starts, if it is right.
pub fn trailer(paper: &[u8]) -> Option<usize> {
    let text = paper.strip_suffix(b"\n")?;
    let start = text.iter().rposition(|&b| b == 10).map_or(0, |i| i + 1);
    match fields(&text[start..])[..] {
        [b"Z", n] if number(n)? == start as u64 => Some(start),
        _ => None,
    }
}

/// "fields parted by one space".
fn fields(line: &[u8]) -> Vec<&[u8]> {
    line.split(|&b| b == b' ').collect()
}

/// "`H t v l`: threads 1 to 8, variables 1 to 16, locks 0 to 8."
fn head(line: &[u8]) -> Option<Counts> {
    match fields(line)[..] {
        [b"H", t, v, l] => {
            let threads = number_within(t, 1, MAX_THREADS)?;
            let variables = number_within(v, 1, MAX_VARIABLES)?;
            let locks = number_within(l, 0, MAX_LOCKS)?;
            Some(Counts::plain(threads, variables, locks))
        }
        _ => None,
    }
}

/// "`G` and one lock number per variable, or `G -` for no guards." The outer `None` is a wrong line.
fn guard_line(line: &[u8], counts: Counts) -> Option<Option<Vec<u32>>> {
    let fields = fields(line);
    let (letter, numbers) = fields.split_first()?;
    if *letter != b"G" {
        return None;
    }
    if *numbers == [b"-"] {
        return Some(None);
    }
    if numbers.len() != counts.variables as usize {
        return None;
    }
    let guards: Option<Vec<u32>> = numbers.iter().map(|field| number_below(field, counts.locks)).collect();
    guards.map(Some)
}

/// "An optional line `V` with rising variable numbers"; "a wrong or empty one is 6 at line 3."
fn volatile_line(line: &[u8], counts: Counts) -> Option<[bool; 16]> {
    let fields = fields(line);
    let (letter, numbers) = fields.split_first()?;
    if *letter != b"V" || numbers.is_empty() {
        return None;
    }
    let named: Option<Vec<u32>> = numbers.iter().map(|field| number_below(field, counts.variables)).collect();
    let named = named?;
    let rising = named.iter().zip(named.iter().skip(1)).all(|(a, b)| a < b);
    let mut volatiles = [false; 16];
    for v in named {
        *volatiles.get_mut(v as usize)? = true;
    }
    rising.then_some(volatiles)
}

/// An event line without its byte 10. A thread, variable or lock too large for u32 becomes u32::MAX.
pub fn event(line: &[u8]) -> Option<Event> {
    let fields = fields(line);
    let kind = kind(fields.first()?)?;
    match (kind, &fields[1..]) {
        (Kind::K | Kind::N | Kind::Y | Kind::C, [t, l]) => Some(Event { kind, thread: small(t)?, target: small(l)?, value: 0 }),
        (Kind::F, [t, l, u]) => Some(Event { kind, thread: small(t)?, target: small(l)?, value: Value::from(small(u)?) }),
        (Kind::U | Kind::A | Kind::L | Kind::S | Kind::R | Kind::W | Kind::P | Kind::B, [t, v, x]) => {
            Some(Event { kind, thread: small(t)?, target: small(v)?, value: value(x)? })
        }
        _ => None,
    }
}

/// The kind that a field of one letter names.
fn kind(field: &[u8]) -> Option<Kind> {
    match field {
        b"U" => Some(Kind::U),
        b"A" => Some(Kind::A),
        b"L" => Some(Kind::L),
        b"S" => Some(Kind::S),
        b"R" => Some(Kind::R),
        b"W" => Some(Kind::W),
        b"K" => Some(Kind::K),
        b"N" => Some(Kind::N),
        b"P" => Some(Kind::P),
        b"B" => Some(Kind::B),
        b"Y" => Some(Kind::Y),
        b"F" => Some(Kind::F),
        b"C" => Some(Kind::C),
        _ => None,
    }
}

/// "Numbers are base ten, no leading zeros, no plus sign". A number without sign; too large becomes u64::MAX.
pub fn number(field: &[u8]) -> Option<u64> {
    let digits = !field.is_empty() && field.iter().all(u8::is_ascii_digit);
    let leading_zero = field.len() > 1 && field[0] == b'0';
    if !digits || leading_zero {
        return None;
    }
    Some(field.iter().fold(0, |n: u64, &b| n.saturating_mul(10).saturating_add(u64::from(b - b'0'))))
}

/// A number without sign; too large for u32 becomes u32::MAX.
fn small(field: &[u8]) -> Option<u32> {
    Some(u32::try_from(number(field)?).unwrap_or(u32::MAX))
}

fn number_within(field: &[u8], low: u32, high: u32) -> Option<u32> {
    let n = small(field)?;
    (low <= n && n <= high).then_some(n)
}

fn number_below(field: &[u8], count: u32) -> Option<u32> {
    let n = small(field)?;
    (n < count).then_some(n)
}

/// "only a value may have a minus"; "no `-0`"; "A value outside 64 bits is 4."
pub fn value(field: &[u8]) -> Option<Value> {
    let (negative, digits) = match field.strip_prefix(b"-") {
        Some(digits) => (true, digits),
        None => (false, field),
    };
    let size = i128::from(number(digits)?);
    if negative && size == 0 {
        return None;
    }
    Value::try_from(if negative { -size } else { size }).ok()
}
