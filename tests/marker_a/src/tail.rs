//! (c), "A tail that finishes the paper."
//! A legal event here is one that no rule of its row and no 5 refuses; "the 2,000 limit set aside for it".

use crate::rules::{copy, depth, fresh, held, outstanding_reads, outstanding_stores, owed, usable};
use crate::rules::{declared_locks, declared_threads, declared_variables, expected, judge_within};
use crate::{line_of, paper, read_events, Counts, Event, Kind, Limits, Refusal, Value, FULL};
use Kind::*;

/// "An event is one of ten kinds". A tail has none of the three of (i): "A tail for papers with them is refused".
const TEN: [Kind; 10] = [U, A, L, S, R, W, K, N, P, B];

/// "the 2,000 limit set aside for it".
const NO_LIMIT: Limits = Limits { events: usize::MAX, ..FULL };

/// An event of a tail with the line that it would have in the paper: "a record we give has the line its event would
/// have in a paper."
#[derive(Clone, Copy, Debug, PartialEq, Eq)]
pub struct TailEvent {
    pub line: usize,
    pub event: Event,
}

/// "nothing is outstanding, fresh, owed or held" after these events.
pub fn is_finished(counts: &Counts, events: &[Event]) -> bool {
    declared_threads(*counts).all(|t| {
        declared_variables(*counts).all(|v| variable_is_finished(events, t, v))
            && declared_locks(*counts).all(|lock| !held(events, t, lock))
    })
}

/// Nothing of T on V is outstanding, fresh or owed.
fn variable_is_finished(events: &[Event], t: u32, v: u32) -> bool {
    outstanding_reads(events, t, v).is_empty()
        && outstanding_stores(events, t, v).is_empty()
        && !fresh(events, t, v)
        && !owed(events, t, v)
}

/// The event is legal behind these, however many they are.
fn legal(counts: &Counts, earlier: &[Event], e: &Event) -> bool {
    judge_within(earlier, *counts, e, NO_LIMIT) == 0
}

/// "each is legal, leaves nothing outstanding, fresh, owed or held".
pub fn finishes(counts: &Counts, events: &[Event], tail: &[Event]) -> bool {
    let mut list = events.to_vec();
    for e in tail {
        if !TEN.contains(&e.kind) || !legal(counts, &list, e) {
            return false;
        }
        list.push(*e);
    }
    is_finished(counts, &list)
}

// ---- by search ----

/// How many events a shortest tail has, found by trying all lists of 0, 1, 2 and up to `most` legal events.
/// "no such tail has fewer events": nothing is left out but what is longer.
pub fn search(counts: &Counts, events: &[Event], most: usize) -> Option<usize> {
    let mut list = events.to_vec();
    (0..=most).find(|&left| some_tail(counts, &mut list, left))
}

/// Whether some `left` legal events finish the list.
fn some_tail(counts: &Counts, list: &mut Vec<Event>, left: usize) -> bool {
    if left == 0 {
        return is_finished(counts, list);
    }
    legal_events(counts, list).into_iter().any(|e| {
        list.push(e);
        let found = some_tail(counts, list, left - 1);
        list.pop();
        found
    })
}

/// Every legal event of the ten kinds behind these; an A or P with each of two values.
pub(crate) fn legal_events(counts: &Counts, earlier: &[Event]) -> Vec<Event> {
    let mut list = Vec::new();
    for kind in TEN {
        let targets = if kind.on_lock() { declared_locks(*counts) } else { declared_variables(*counts) };
        for thread in declared_threads(*counts) {
            for target in targets.clone() {
                let event = Event { kind, thread, target, value: 0 };
                let tried = values(earlier, &event).into_iter().map(|value| Event { value, ..event });
                list.extend(tried.filter(|e| legal(counts, earlier, e)));
            }
        }
    }
    list
}

/// The values that the search tries. For U, S, L, W, R and B, 18 leaves one; where it has none to compare with, 10 or
/// 17 refuses whichever value. K and N have none. No rule asks about the value of an A or P, and none but 18 about a
/// value: another one there changes only the values of later events, and nothing that is outstanding, fresh, owed or
/// held. So one value of A and P would do; two are tried.
fn values(earlier: &[Event], e: &Event) -> Vec<Value> {
    match e.kind {
        A | P => vec![0, 1],
        _ => vec![expected(earlier, e).unwrap_or(0)],
    }
}

// ---- by counting ----

/// How many events a shortest tail has, for legal events without a `V` line and without Y, F, C.
/// No event changes what is outstanding, fresh or owed for two threads or two variables, nor one of these and a hold,
/// and none makes a copy usable but that of its own thread and variable. So what each thread needs on each variable and
/// lock is added up. Each hold needs an N; a K never helps.
pub fn length(counts: &Counts, events: &[Event]) -> usize {
    let on_variables = |t| declared_variables(*counts).map(|v| length_on(events, t, v)).sum::<usize>();
    let on_locks = |t| declared_locks(*counts).map(|lock| depth(events, t, lock)).sum::<usize>();
    declared_threads(*counts).map(|t| on_variables(t) + on_locks(t)).sum()
}

/// How many of them are by T on V. Each outstanding read needs an L, and each outstanding store a W.
/// What is owed needs its B, which "clears a fresh assign". Otherwise a fresh assign needs a store and its write: S and
/// W where the copy is usable. Where a K has spoiled it, 17 asks for another A before the S; P, B and W are three too.
/// That is enough: (a) leaves no outstanding read beside an outstanding store, nor beside a fresh assign with V not
/// owed.
fn length_on(events: &[Event], t: u32, v: u32) -> usize {
    let pairs = outstanding_reads(events, t, v).len() + outstanding_stores(events, t, v).len();
    let assign = match (owed(events, t, v), fresh(events, t, v), usable(events, t, v)) {
        (true, _, _) => 1,
        (false, true, true) => 2,
        (false, true, false) => 3,
        (false, false, _) => 0,
    };
    pairs + assign
}

// ---- a tail ----

/// A shortest tail of the paper, for a row of this many records. "a refused paper gives its own refusal"; "Turned away:
/// 24 (line 0), too few records for the tail, before anything is written."
pub fn tail(bytes: &[u8], places: usize) -> Result<Vec<TailEvent>, Refusal> {
    let parts = paper::find(bytes)?;
    let counts = parts.counts;
    let events = read_events(parts.body, counts, FULL)?;
    let turned_away = Refusal { line: 0, number: 24 };
    if has_no_tail(counts, &events) {
        return Err(turned_away);
    }
    let tail = shortest(counts, &events);
    if tail.len() > places {
        return Err(turned_away);
    }
    let with_line = |(i, event)| TailEvent { line: line_of(counts, events.len() + i), event };
    Ok(tail.into_iter().enumerate().map(with_line).collect())
}

/// "a tail for a paper with a `V` line is refused with 24"; Y, F, C: "A tail for papers with them is refused with 24."
fn has_no_tail(counts: Counts, events: &[Event]) -> bool {
    counts.volatiles.contains(&true) || events.iter().any(|e| matches!(e.kind, Y | F | C))
}

/// Thread by thread: what is left on each variable, then an N for each hold.
fn shortest(counts: Counts, events: &[Event]) -> Vec<Event> {
    let mut list = events.to_vec();
    for t in declared_threads(counts) {
        for v in declared_variables(counts) {
            while let Some(kind) = next_on(&list, t, v) {
                let e = with_value(&list, kind, t, v);
                list.push(e);
            }
        }
        for lock in declared_locks(counts) {
            while held(&list, t, lock) {
                list.push(Event { kind: N, thread: t, target: lock, value: 0 });
            }
        }
    }
    list.split_off(events.len())
}

/// The kind of T's next event on V. B comes first, since 13 bars L and S before it, and W before S, since 19 bars an S
/// while eight are outstanding.
fn next_on(list: &[Event], t: u32, v: u32) -> Option<Kind> {
    if owed(list, t, v) {
        Some(B)
    } else if !outstanding_reads(list, t, v).is_empty() {
        Some(L)
    } else if !outstanding_stores(list, t, v).is_empty() {
        Some(W)
    } else if fresh(list, t, v) {
        Some(if usable(list, t, v) { S } else { A })
    } else {
        None
    }
}

/// The event with the value that 18 asks for. It asks for none of an A, which assigns the copy's value again: that of
/// the assign not stored.
fn with_value(list: &[Event], kind: Kind, thread: u32, target: u32) -> Event {
    let event = Event { kind, thread, target, value: 0 };
    let value = if kind == A { copy(list, thread, target) } else { expected(list, &event) };
    Event { value: value.unwrap_or(0), ..event }
}
