//! The tail of a paper: what the proved marker gives, held against marker A, with one place too few, and behind the paper.

use crate::c_api::{self, Tail};
use crate::whole::{ensure, Memory, Record};
use marker_a::{paper, tail, Event, Kind};
use papers::generate::Rng;
use papers::{by_a, Course, Value};
use std::cell::Cell;

/// The most events of a tail.
const TAIL: usize = 2_256;
/// At most so many more places are lent.
const MORE: usize = 16;
/// Marker A searches for a shorter tail where a paper has at most so many events, and its tail too.
const SEARCHED: usize = 3;

/// The tails that were given.
#[derive(Clone, Copy, Default)]
struct Given {
    number: usize,
    events: usize,
    longest: usize,
    searched: usize,
    appended: usize,
}

/// Two rows for tails, and what was given in them.
pub struct Tails {
    what: Memory<u32>,
    values: Memory<Value>,
    given: Cell<Given>,
}

/// Why a paper has no tail, by the listing and the events: its own refusal, or 24.
fn turned_away(listing: &str, volatile: bool, events: &[Event]) -> Option<Tail> {
    if let Some(refusal) = listing.strip_prefix("refused ") {
        let numbers: Vec<usize> = refusal.trim_end().split(' ').map(|n| n.parse().expect("a number")).collect();
        return Some(Tail { number: numbers[1], line: numbers[0], ..Tail::default() });
    }
    let waiting = events.iter().any(|e| matches!(e.kind, Kind::Y | Kind::F | Kind::C));
    (volatile || waiting).then_some(Tail { number: 24, ..Tail::default() })
}

/// The event of a record.
fn event((what, value): Record) -> Event {
    let part = |shift: u32| (what >> shift & 0xff) as usize;
    by_a::event(&papers::Event { letter: part(16) as u8, thread: part(8), place: part(0), value })
}

/// The line of an event of the ten kinds.
fn line(e: &Event) -> String {
    let letter = char::from(by_a::letter(e.kind));
    if e.kind.on_lock() {
        format!("{letter} {} {}\n", e.thread, e.target)
    } else {
        format!("{letter} {} {} {}\n", e.thread, e.target, e.value)
    }
}

/// The paper with these events behind its own.
fn appended(bytes: &[u8], events: &[Event]) -> Vec<u8> {
    let trailer = bytes[..bytes.len() - 1].iter().rposition(|&b| b == 10).expect("a trailer behind a head") + 1;
    let mut text = bytes[..trailer].to_vec();
    events.iter().for_each(|e| text.extend(line(e).bytes()));
    text.extend(format!("Z {}\n", text.len()).bytes());
    text
}

/// A paper of 2,000 events with the longest tail: each thread assigns each variable, and then locks a lock of its own, which leaves no copy usable.
pub fn longest() -> Vec<u8> {
    let assigns = (0..8).flat_map(|t| (0..16).map(move |v| format!("A {t} {v} 0\n")));
    let locks = (0..8).flat_map(|t| (0..234).map(move |_| format!("K {t} {t}\n")));
    let mut text: Vec<u8> = "H 8 16 8\nG -\n".bytes().chain(assigns.chain(locks).flat_map(String::into_bytes)).collect();
    text.extend(format!("Z {}\n", text.len()).bytes());
    text
}

/// The most events of a paper.
fn limit(course: Course) -> usize {
    match course {
        Course::Full => 2_000,
        Course::Short => 200,
    }
}

impl Tails {
    pub fn new() -> Tails {
        let mut rng = Rng::new(7);
        Tails {
            what: Memory::new(TAIL, || rng.next() as u32 | 1 << 31),
            values: Memory::new(TAIL, || rng.next() as Value | 1 << 62),
            given: Cell::default(),
        }
    }

    /// What is given of this paper, whose listing and events these are.
    pub fn check(&mut self, course: Course, bytes: &[u8], listing: &str, events: &[Event], with_a: bool) -> Result<(), String> {
        let places = TAIL + bytes.len() % (MORE + 1);
        let got = self.finish(course, bytes, places, places);
        let volatile = !listing.starts_with("refused") && paper::find(bytes).is_ok_and(|p| p.counts.volatiles.contains(&true));
        if let Some(wanted) = turned_away(listing, volatile, events) {
            ensure(got == wanted, || format!("{got:?}, wanted {wanted:?}"))?;
            return self.untouched();
        }
        let tail = self.given(got, events)?;
        self.exact(course, bytes, got)?;
        if with_a {
            self.by_a(bytes, events, &tail)?;
        }
        if events.len() + tail.len() <= limit(course) {
            self.behind(course, bytes, events, &tail)?;
        }
        let mut all = self.given.get();
        all.number += 1;
        all.events += tail.len();
        all.longest = all.longest.max(tail.len());
        self.given.set(all);
        Ok(())
    }

    fn finish(&mut self, course: Course, bytes: &[u8], what: usize, values: usize) -> Tail {
        c_api::finish(course, bytes, &mut self.what.places[..what], &mut self.values.places[..values])
    }

    fn untouched(&self) -> Result<(), String> {
        ensure(self.what.is(&[]) && self.values.is(&[]), || "a row is touched without a tail".into())
    }

    /// The events that are given, behind these; the rest of the rows is as it was, and they have their pattern again.
    fn given(&mut self, got: Tail, events: &[Event]) -> Result<Vec<Event>, String> {
        let wanted = Tail { number: 0, line: 0, events: got.events, first: 3 + events.len() };
        ensure(got == wanted && got.events <= TAIL, || format!("{got:?}, wanted {wanted:?}"))?;
        let n = got.events;
        let (what, values) = (self.what.places[..n].to_vec(), self.values.places[..n].to_vec());
        ensure(self.what.is(&what) && self.values.is(&values), || "a row is touched past the tail".into())?;
        self.what.renew_front(n);
        self.values.renew_front(n);
        Ok(what.into_iter().zip(values).map(event).collect())
    }

    /// With exactly the places that it needs, of one row or of both, the same is given; with one fewer of one row, 24 and nothing is touched.
    fn exact(&mut self, course: Course, bytes: &[u8], got: Tail) -> Result<(), String> {
        let n = got.events;
        for (what, values) in [(n, n), (n + 1, n)] {
            let again = self.finish(course, bytes, what, values);
            ensure(again == got, || format!("{what} and {values} places: {again:?}, wanted {got:?}"))?;
            self.what.renew_front(n);
            self.values.renew_front(n);
        }
        if n > 0 {
            for (what, values) in [(n - 1, n), (n, n - 1)] {
                let short = self.finish(course, bytes, what, values);
                let wanted = Tail { number: 24, ..Tail::default() };
                ensure(short == wanted, || format!("{what} and {values} places: {short:?}, wanted {wanted:?}"))?;
            }
        }
        self.untouched()
    }

    /// Marker A: as many events as it counts, legal, and nothing is left; and for a short paper no list of fewer events does so.
    fn by_a(&self, bytes: &[u8], events: &[Event], given: &[Event]) -> Result<(), String> {
        let counts = paper::find(bytes).expect("an accepted paper").counts;
        let wanted = tail::length(&counts, events);
        ensure(given.len() == wanted, || format!("a tail of {} events, marker A: {wanted}", given.len()))?;
        ensure(tail::finishes(&counts, events, given), || format!("a tail that does not finish: {given:?}"))?;
        if events.len() <= SEARCHED && given.len() <= SEARCHED && counts.threads * counts.variables <= 2 {
            let found = tail::search(&counts, events, given.len());
            ensure(found == Some(given.len()), || format!("a tail of {} events, marker A found {found:?}", given.len()))?;
            self.given.set(Given { searched: self.given.get().searched + 1, ..self.given.get() });
        }
        Ok(())
    }

    /// Behind its paper the tail is accepted, and nothing is left.
    fn behind(&mut self, course: Course, bytes: &[u8], events: &[Event], tail: &[Event]) -> Result<(), String> {
        let whole = appended(bytes, tail);
        let n = events.len() + tail.len();
        let listing = marker_b::mark(course, &whole);
        ensure(listing.lines().next() == Some(&format!("accepted {n}")), || format!("with its tail: {listing}"))?;
        let got = self.finish(course, &whole, 0, 0);
        let wanted = Tail { number: 0, line: 0, events: 0, first: 3 + n };
        ensure(got == wanted, || format!("with its tail: {got:?}, wanted {wanted:?}"))?;
        self.given.set(Given { appended: self.given.get().appended + 1, ..self.given.get() });
        Ok(())
    }

    /// How many tails were given.
    pub fn said(&self) -> String {
        let Given { number, events, longest, searched, appended } = self.given.get();
        format!(
            "tails: {number} with {events} events, the longest {longest}; {searched} searched for a shorter one by marker A, {appended} \
             marked behind their papers"
        )
    }
}

impl Default for Tails {
    fn default() -> Tails {
        Tails::new()
    }
}
