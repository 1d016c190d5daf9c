//! Sections, the denials 20 to 22, and the plain memory of demand 3.

use crate::rules::{depth, held, owed, remembered, under, waits};
use crate::{line_of, Counts, Event, Kind, Value, MAX_LOCKS, MAX_THREADS, MAX_VARIABLES};

/// Lines of the section's first and last event, and of its last K.
#[derive(Clone, Copy, Debug, PartialEq, Eq)]
pub struct Section {
    pub thread: u32,
    pub first: usize,
    pub last: usize,
    pub last_lock: usize,
}

/// What the use in this line is given by the plain memory, and the value in the line.
#[derive(Clone, Copy, Debug, PartialEq, Eq)]
pub struct Given {
    pub line: usize,
    pub given: Value,
    pub stated: Value,
}

/// The event at `i` is a K by T, or a C by T that takes a hold again.
fn locks(events: &[Event], i: usize, t: u32) -> bool {
    let e = &events[i];
    e.thread == t && (e.kind == Kind::K || e.kind == Kind::C && remembered(&events[..i], t, e.target) > 0)
}

/// The event at `i` is an N by T, or a Y by T that gives up a hold.
fn unlocks(events: &[Event], i: usize, t: u32) -> bool {
    let e = &events[i];
    e.thread == t && (e.kind == Kind::N || e.kind == Kind::Y && depth(&events[..i], t, e.target) > 0)
}

/// T holds no lock after these events.
fn holds_nothing(events: &[Event], counts: Counts, t: u32) -> bool {
    !(0..counts.locks.min(MAX_LOCKS)).any(|lock| held(events, t, lock))
}

/// "The list is in order of each section's last K, one entry for each section."
pub fn sections(counts: Counts, events: &[Event]) -> Vec<Section> {
    let mut list: Vec<Section> = (0..events.len()).filter_map(|i| section_from(counts, events, i)).collect();
    list.sort_by_key(|section| section.last_lock);
    list
}

/// "A section runs from a K by a thread holding nothing to the N after which it holds nothing."
fn section_from(counts: Counts, events: &[Event], first: usize) -> Option<Section> {
    let thread = events[first].thread;
    if !locks(events, first, thread) || !holds_nothing(&events[..first], counts, thread) {
        return None;
    }
    let mut behind = first + 1..events.len();
    let last = behind.find(|&i| unlocks(events, i, thread) && holds_nothing(&events[..=i], counts, thread))?;
    let last_lock = (first..=last).rev().find(|&i| locks(events, i, thread))?;
    let line = |i| line_of(counts, i);
    Some(Section { thread, first: line(first), last: line(last), last_lock: line(last_lock) })
}

/// "Then, with guards, 20 and 21 event by event, 22 last." Number and line.
pub fn denial(counts: Counts, guards: &[u32], events: &[Event]) -> Option<(u32, usize)> {
    for i in 0..events.len() {
        if rule_20(guards, events, i) {
            return Some((20, line_of(counts, i)));
        }
        if rule_21(counts, events, i) {
            return Some((21, line_of(counts, i)));
        }
    }
    rule_22(counts, events).then(|| (22, line_of(counts, events.len())))
}

/// "Use or assign (U, A, B) not under its variable's guard."
fn rule_20(guards: &[u32], events: &[Event], i: usize) -> bool {
    let e = &events[i];
    matches!(e.kind, Kind::U | Kind::A | Kind::B) && !under(&events[..i], guards, e.thread, e.target)
}

/// "K by a thread after an N in the same section." The section still runs where T holds something after its latest N.
fn rule_21(counts: Counts, events: &[Event], i: usize) -> bool {
    let t = events[i].thread;
    if !locks(events, i, t) {
        return false;
    }
    let latest_unlock = (0..i).rev().find(|&j| unlocks(events, j, t));
    latest_unlock.is_some_and(|j| !holds_nothing(&events[..=j], counts, t))
}

/// "At the end a lock is held or an assign owed (trailer line)"; "a thread still waiting makes 22".
fn rule_22(counts: Counts, events: &[Event]) -> bool {
    (0..counts.threads.min(MAX_THREADS)).any(|t| {
        !holds_nothing(events, counts, t)
            || waits(events, counts, t)
            || (0..counts.variables.min(MAX_VARIABLES)).any(|v| owed(events, t, v))
    })
}

/// The plain memory of demand 3: what each use is given, in the order's sequence, and the memory at the end.
/// "The sections are run in the order's sequence, each to its end before the next."
pub fn plain_run(counts: Counts, order: &[Section], events: &[Event]) -> (Vec<Given>, Vec<Value>) {
    let mut memory = vec![0; MAX_VARIABLES as usize];
    let mut given = Vec::new();
    for section in order {
        run_section(counts, section, events, &mut memory, &mut given);
    }
    (given, memory)
}

/// "Of a section it takes the events of that section's thread, from the first line to the last, as they stand in the
/// paper." "A and B set their variable to the event's value. U changes nothing and is given its variable's value".
fn run_section(counts: Counts, section: &Section, events: &[Event], memory: &mut [Value], given: &mut Vec<Given>) {
    for (index, e) in events.iter().enumerate() {
        let line = line_of(counts, index);
        if e.thread != section.thread || line < section.first || section.last < line {
            continue;
        }
        match (e.kind, memory.get_mut(e.target as usize)) {
            (Kind::A | Kind::B, Some(cell)) => *cell = e.value,
            (Kind::U, Some(cell)) => given.push(Given { line, given: *cell, stated: e.value }),
            _ => (),
        }
    }
}
