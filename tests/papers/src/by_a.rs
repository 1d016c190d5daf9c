//! Marker A over marker B's events: its words and verdicts after a list of them.

use crate::{Counts, Course, Event, Value};
use marker_a::{rules, Kind};

pub fn counts(c: Counts) -> marker_a::Counts {
    let Counts { threads, variables, locks, volatiles } = c;
    marker_a::Counts { threads: threads as u32, variables: variables as u32, locks: locks as u32, volatiles }
}

pub fn event(e: &Event) -> marker_a::Event {
    let kind = match e.letter {
        b'U' => Kind::U,
        b'A' => Kind::A,
        b'L' => Kind::L,
        b'S' => Kind::S,
        b'R' => Kind::R,
        b'W' => Kind::W,
        b'K' => Kind::K,
        b'N' => Kind::N,
        b'P' => Kind::P,
        b'B' => Kind::B,
        b'Y' => Kind::Y,
        b'F' => Kind::F,
        b'C' => Kind::C,
        _ => unreachable!("no such letter"),
    };
    let number = |n: usize| u32::try_from(n).unwrap_or(u32::MAX);
    marker_a::Event { kind, thread: number(e.thread), target: number(e.place), value: e.value }
}

pub fn letter(kind: Kind) -> u8 {
    match kind {
        Kind::U => b'U',
        Kind::A => b'A',
        Kind::L => b'L',
        Kind::S => b'S',
        Kind::R => b'R',
        Kind::W => b'W',
        Kind::K => b'K',
        Kind::N => b'N',
        Kind::P => b'P',
        Kind::B => b'B',
        Kind::Y => b'Y',
        Kind::F => b'F',
        Kind::C => b'C',
    }
}

fn events(es: &[Event]) -> Vec<marker_a::Event> {
    es.iter().map(event).collect()
}

/// The words and verdicts after these events.
pub struct After {
    counts: marker_a::Counts,
    earlier: Vec<marker_a::Event>,
}

impl After {
    pub fn new(c: Counts, es: &[Event]) -> After {
        After { counts: counts(c), earlier: events(es) }
    }

    /// The refusal of the next event; none when it is accepted.
    pub fn refusal(&self, e: &Event) -> Option<u32> {
        Some(marker_a::judge(&self.earlier, self.counts, &event(e))).filter(|&number| number != 0)
    }

    /// Every rule of its row that the declared event breaks, in the row's order. Marker A has no 18 where there is nothing to differ from; a B
    /// for which nothing is owed has it here, beside its 10, where it differs from the value announced last, or from 0.
    pub fn broken(&self, e: &Event) -> Vec<u32> {
        let e = event(e);
        let (_, row) = rules::ROWS.iter().find(|(kind, _)| *kind == e.kind).expect("a row for each kind");
        let breaks =
            |number| rules::breaks(number, &self.earlier, self.counts, &e) || number == 18 && self.announced_otherwise(&e);
        row.iter().copied().filter(|&number| breaks(number)).collect()
    }

    /// Whether a B differs from the value of its thread's latest early store on the variable, owed or not; 0 where there is none.
    fn announced_otherwise(&self, e: &marker_a::Event) -> bool {
        let latest = self.last(e.thread as usize, e.target as usize, &[Kind::P]);
        e.kind == Kind::B && latest.map_or(0, |i| self.earlier[i].value) != e.value
    }

    pub fn variables(&self) -> std::ops::Range<usize> {
        0..self.counts.variables as usize
    }

    pub fn fresh(&self, t: usize, v: usize) -> bool {
        rules::fresh(&self.earlier, t as u32, v as u32)
    }

    pub fn owed(&self, t: usize, v: usize) -> bool {
        rules::owed(&self.earlier, t as u32, v as u32)
    }

    /// The letters of the outstanding stores, the oldest first.
    pub fn unwritten(&self, t: usize, v: usize) -> Vec<u8> {
        let places = rules::outstanding_stores(&self.earlier, t as u32, v as u32);
        places.into_iter().map(|i| if self.earlier[i].kind == Kind::P { b'P' } else { b'S' }).collect()
    }

    /// Whether an early store whose assign is owed is outstanding, and no other store.
    pub fn early(&self, t: usize, v: usize) -> bool {
        self.owed(t, v) && self.unwritten(t, v) == [b'P']
    }

    pub fn threads(&self) -> std::ops::Range<usize> {
        0..self.counts.threads as usize
    }

    pub fn locks(&self) -> std::ops::Range<usize> {
        0..self.counts.locks as usize
    }

    /// How many times a thread holds a lock.
    pub fn depth(&self, t: usize, l: usize) -> usize {
        rules::depth(&self.earlier, t as u32, l as u32)
    }

    /// How many holds a thread that waits on a lock gave up.
    pub fn remembered(&self, t: usize, l: usize) -> usize {
        rules::remembered(&self.earlier, t as u32, l as u32)
    }

    /// Whether a thread waits, on whichever lock.
    pub fn is_waiting(&self, t: usize) -> bool {
        rules::waits(&self.earlier, self.counts, t as u32)
    }

    pub fn waits_on(&self, t: usize, l: usize) -> bool {
        rules::waits_on(&self.earlier, t as u32, l as u32)
    }

    /// Whether a thread waits on a lock and is notified.
    pub fn is_notified(&self, t: usize, l: usize) -> bool {
        rules::notified(&self.earlier, t as u32, l as u32)
    }

    /// Whether a thread has come back on a lock.
    pub fn came_back(&self, t: usize, l: usize) -> bool {
        self.last(t, l, &[Kind::C]).is_some()
    }

    /// The letter of a thread's latest K or C, on whichever lock; 0 where there is none.
    pub fn latest_lock(&self, t: usize) -> u8 {
        let taken = |e: &&marker_a::Event| matches!(e.kind, Kind::K | Kind::C) && e.thread == t as u32;
        self.earlier.iter().rev().find(taken).map_or(0, |e| letter(e.kind))
    }

    /// Whether a thread had a usable copy before its latest K or C.
    pub fn was_usable(&self, t: usize, v: usize) -> bool {
        let taken = |e: &marker_a::Event| matches!(e.kind, Kind::K | Kind::C) && e.thread == t as u32;
        let before = &self.earlier[..self.earlier.iter().rposition(taken).unwrap_or(0)];
        rules::usable(before, t as u32, v as u32)
    }

    /// Whether a store was written.
    pub fn written(&self, t: usize, v: usize) -> bool {
        self.earlier.iter().any(|e| (e.kind, e.thread, e.target) == (Kind::W, t as u32, v as u32))
    }

    /// Whether a value was used.
    pub fn used(&self, t: usize, v: usize) -> bool {
        self.last(t, v, &[Kind::U]).is_some()
    }

    /// The threads but the event's.
    pub fn others(&self, e: &Event) -> impl Iterator<Item = usize> {
        let own = e.thread;
        (0..self.counts.threads as usize).filter(move |&t| t != own)
    }

    /// Whether this holds of an event's thread and each variable.
    pub fn each(&self, e: &Event, holds: impl Fn(usize, usize) -> bool) -> bool {
        self.variables().all(|v| holds(e.thread, v))
    }

    /// Whether this holds of an event's thread and some variable.
    pub fn some(&self, e: &Event, holds: impl Fn(usize, usize) -> bool) -> bool {
        self.variables().any(|v| holds(e.thread, v))
    }

    // of the thread and the variable of an event

    pub fn is_fresh(&self, e: &Event) -> bool {
        self.fresh(e.thread, e.place)
    }

    pub fn is_owed(&self, e: &Event) -> bool {
        self.owed(e.thread, e.place)
    }

    /// Whether the event is on a volatile variable.
    pub fn is_volatile(&self, e: &Event) -> bool {
        !e.is_lock() && self.counts.volatiles[e.place]
    }

    /// The letter of the thread's latest event on the variable, R and W left aside; 0 where there is none.
    pub fn latest(&self, e: &Event) -> u8 {
        let own = [Kind::U, Kind::A, Kind::L, Kind::S, Kind::P, Kind::B];
        self.last(e.thread, e.place, &own).map_or(0, |i| letter(self.earlier[i].kind))
    }

    /// The position of the latest of a thread's events of these kinds on a variable, from 0.
    fn last(&self, t: usize, v: usize, kinds: &[Kind]) -> Option<usize> {
        self.earlier.iter().rposition(|e| kinds.contains(&e.kind) && (e.thread, e.target) == (t as u32, v as u32))
    }

    /// Whether an event of this letter, thread and variable has come since the latest of the thread's own on the variable.
    pub fn since_own(&self, letter: u8, e: &Event) -> bool {
        let own = self.last(e.thread, e.place, &[Kind::U, Kind::A, Kind::L, Kind::S, Kind::P, Kind::B]);
        self.last(e.thread, e.place, &[event(&Event { letter, ..*e }).kind]) > own
    }

    /// The position of the read of the latest load among so many events, from 1; 0 where there is none.
    fn read_among(&self, n: usize, t: usize, v: usize) -> usize {
        let of = |kind: Kind| {
            let places = (0..n).filter(move |&i| {
                let e = &self.earlier[i];
                e.kind == kind && (e.thread, e.target) == (t as u32, v as u32)
            });
            places.collect::<Vec<usize>>()
        };
        of(Kind::L).len().checked_sub(1).map_or(0, |load| of(Kind::R)[load] + 1)
    }

    /// Whether a read is loaded.
    pub fn is_loaded(&self, e: &Event) -> bool {
        self.last(e.thread, e.place, &[Kind::L]).is_some()
    }

    /// The volatile variables, and those that are not.
    pub fn volatiles(&self) -> impl Iterator<Item = usize> + '_ {
        self.variables().filter(|&v| self.counts.volatiles[v])
    }

    pub fn plain(&self) -> impl Iterator<Item = usize> + '_ {
        self.variables().filter(|&v| !self.counts.volatiles[v])
    }

    /// Whether an assign is not written.
    pub fn is_unwritten(&self, t: usize, v: usize) -> bool {
        self.fresh(t, v) || !self.unwritten(t, v).is_empty()
    }

    /// The parts of 27 at a U that hold of some volatile variable: a fresh assign, an outstanding store, the last write not before the use's
    /// read, the read of the latest use not before it.
    pub fn use_parts(&self, e: &Event) -> [bool; 4] {
        let (t, now) = (e.thread, self.earlier.len());
        let read = self.read_among(now, t, e.place);
        let written = |v| self.last(t, v, &[Kind::W]).map_or(0, |i| i + 1);
        let used = |v| self.last(t, v, &[Kind::U]).map_or(0, |i| self.read_among(i, t, v));
        [
            self.volatiles().any(|v| self.fresh(t, v)),
            self.volatiles().any(|v| !self.unwritten(t, v).is_empty()),
            self.volatiles().any(|v| written(v) >= read),
            self.volatiles().any(|v| used(v) >= read),
        ]
    }

    /// The position of the assign of the oldest outstanding store, from 1; its own for an early one.
    fn oldest_assign(&self, t: usize, v: usize) -> Option<usize> {
        let store = *rules::outstanding_stores(&self.earlier, t as u32, v as u32).first()?;
        if self.earlier[store].kind == Kind::P {
            return Some(store + 1);
        }
        let before = After { counts: self.counts, earlier: self.earlier[..store].to_vec() };
        before.last(t, v, &[Kind::A]).map(|i| i + 1)
    }

    /// Of a W: whether a variable's oldest outstanding store has an earlier assign than the one that is written; whether a fresh assign is
    /// earlier.
    pub fn earlier_assign(&self, e: &Event, v: usize) -> [bool; 2] {
        let Some(written) = self.oldest_assign(e.thread, e.place) else { return [false; 2] };
        let assigned = self.last(e.thread, v, &[Kind::A]).map_or(0, |i| i + 1);
        [self.oldest_assign(e.thread, v).is_some_and(|assign| assign < written), self.fresh(e.thread, v) && assigned < written]
    }

    /// The parts of 27 at a W that hold of some volatile variable.
    pub fn write_parts(&self, e: &Event) -> [bool; 2] {
        [0, 1].map(|part| self.volatiles().any(|v| self.earlier_assign(e, v)[part]))
    }

    /// How many reads are outstanding.
    pub fn reads(&self, e: &Event) -> usize {
        rules::outstanding_reads(&self.earlier, e.thread as u32, e.place as u32).len()
    }

    /// How many stores are outstanding.
    pub fn stores(&self, e: &Event) -> usize {
        self.unwritten(e.thread, e.place).len()
    }

    /// The place of the oldest outstanding read.
    fn read(&self, e: &Event) -> Option<usize> {
        rules::outstanding_reads(&self.earlier, e.thread as u32, e.place as u32).first().copied()
    }

    /// The words and verdicts before the oldest outstanding read.
    pub fn at_read(&self, e: &Event) -> Option<After> {
        self.read(e).map(|place| After { counts: self.counts, earlier: self.earlier[..place].to_vec() })
    }

    /// Whether an event of this letter stands behind the oldest outstanding read.
    pub fn since_read(&self, letter: u8, e: &Event) -> bool {
        let wanted = event(&Event { letter, ..*e });
        let same = |e: &marker_a::Event| (e.kind, e.thread, e.target) == (wanted.kind, wanted.thread, wanted.target);
        self.read(e).is_some_and(|place| self.earlier[place..].iter().any(same))
    }

    /// Main memory, by variable.
    pub fn main(&self) -> Vec<Value> {
        (0..self.counts.variables).map(|v| rules::main_memory(&self.earlier, v)).collect()
    }

    /// Thread, variable and value of each usable copy.
    pub fn copies(&self) -> Vec<(u32, u32, Value)> {
        let cells = (0..self.counts.threads).flat_map(|t| (0..self.counts.variables).map(move |v| (t, v)));
        cells
            .filter(|&(t, v)| rules::usable(&self.earlier, t, v))
            .filter_map(|(t, v)| rules::copy(&self.earlier, t, v).map(|x| (t, v, x)))
            .collect()
    }
}

/// The refusal of an event after these, 0 when it is accepted. The counts are within the limits of the course.
pub fn judge(course: Course, earlier: &[marker_a::Event], counts: marker_a::Counts, e: &marker_a::Event) -> u32 {
    match course {
        Course::Full => marker_a::judge(earlier, counts, e),
        Course::Short => marker_a::judge_short(earlier, counts, e),
    }
}

/// What the program `mark` prints for a paper, with `--short` in the short course.
pub fn mark(course: Course, paper: &[u8]) -> String {
    let listing = match course {
        Course::Full => marker_a::mark(paper),
        Course::Short => marker_a::mark_short(paper),
    };
    String::from_utf8(listing).expect("a listing is ASCII")
}
