//! Every short list with volatile variables, beside 001's rules 4 followed event by event.

use super::*;
use crate::judge_short;
use crate::rules::{breaks, ROWS};

/// The lists to look at: the declared counts, and the kinds of their events.
struct Scope {
    counts: Counts,
    kinds: &'static [Kind],
}

impl Scope {
    /// Every event that may come after the list, with the value that 18 asks for. An A or P
    /// has a value of its own.
    fn next(&self, es: &[Event]) -> Vec<Event> {
        let own = es.len() as Value + 1;
        let mut events = Vec::new();
        for &kind in self.kinds {
            let targets = if matches!(kind, K | N) { self.counts.locks } else { self.counts.variables };
            for thread in 0..self.counts.threads {
                events.extend((0..targets).map(|target| fitting(es, kind, thread, target, own)));
            }
        }
        events
    }

    fn volatile(&self, e: &Event) -> bool {
        !matches!(e.kind, K | N) && self.counts.volatiles[e.target as usize]
    }
}

/// A thread's own events on a volatile variable, in their letters, are a beginning of (L U | A S)*.
fn neighbours_fit(letters: &[Kind]) -> bool {
    letters.chunks(2).all(|chunk| matches!(chunk, [L] | [A] | [L, U] | [A, S]))
}

/// The letters of the thread's own events on the variable, R and W left aside.
fn letters(es: &[Event], t: u32, v: u32) -> Vec<Kind> {
    let own = es.iter().filter(|e| e.thread == t && e.target == v && !matches!(e.kind, R | W | K | N));
    own.map(|e| e.kind).collect()
}

/// The messages of one thread and variable, followed event by event.
#[derive(Clone, Default)]
struct Messages {
    /// The places of the reads that are not loaded, and of the read that is loaded last.
    reads: Vec<usize>,
    loaded: Option<usize>,
    /// The entry of the last assign, and those of the stores that are not written.
    assigned: usize,
    stored: Vec<usize>,
}

/// For each use and assign of the thread on volatile variables, in their order, the place of its
/// read or write. An assign that is not written has none.
fn reads_and_writes(scope: &Scope, es: &[Event], t: u32) -> Vec<Option<usize>> {
    let mut messages = vec![Messages::default(); scope.counts.variables as usize];
    let mut entries = Vec::new();
    for (place, e) in es.iter().enumerate().filter(|(_, e)| e.thread == t && scope.volatile(e)) {
        let m = &mut messages[e.target as usize];
        match e.kind {
            R => m.reads.push(place),
            L if !m.reads.is_empty() => m.loaded = Some(m.reads.remove(0)),
            U => entries.push(m.loaded),
            A => {
                m.assigned = entries.len();
                entries.push(None);
            }
            S => m.stored.push(m.assigned),
            W if !m.stored.is_empty() => entries[m.stored.remove(0)] = Some(place),
            _ => {}
        }
    }
    entries
}

/// 001, 4.3: "If A precedes B , then P must precede Q". The places rise, and those that are still
/// to come are last.
fn order_fits(entries: &[Option<usize>]) -> bool {
    let made: Vec<usize> = entries.iter().flatten().copied().collect();
    made.is_sorted() && entries[..made.len()].iter().all(Option::is_some)
}

/// The number in the row without 26, 27 and 28.
fn behind(scope: &Scope, es: &[Event], e: &Event) -> u32 {
    let (_, row) = ROWS.into_iter().find(|(kind, _)| *kind == e.kind).expect("a row");
    let others = row.iter().copied().filter(|number| !matches!(number, 26..=28));
    others.into_iter().find(|&number| breaks(number, es, scope.counts, e)).unwrap_or(0)
}

/// The number by 001's rules 4: after the accepted list the event would have a wrong neighbour, would
/// bring reads and writes out of order, or is an early store or its assign.
fn expected(scope: &Scope, es: &[Event], e: &Event) -> u32 {
    let list = [es, &[*e]].concat();
    if !scope.volatile(e) {
        return behind(scope, es, e);
    }
    let early = matches!(e.kind, P | B);
    let before = letters(es, e.thread, e.target);
    if early {
        return if before.len() % 2 == 1 { 26 } else { 28 };
    }
    if !neighbours_fit(&letters(&list, e.thread, e.target)) {
        return 26;
    }
    if !order_fits(&reads_and_writes(scope, &list, e.thread)) {
        return 27;
    }
    behind(scope, es, e)
}

/// What was met on the way.
#[derive(Debug, Default)]
struct Seen {
    lists: usize,
    neighbour: usize,
    /// 27 at U and at W.
    at_use: usize,
    at_write: usize,
    early: usize,
    /// Refused by the row behind, and by one of the three alone.
    behind: usize,
    alone: usize,
}

impl Seen {
    fn count(&mut self, kind: Kind, number: u32, behind: u32) {
        match number {
            0 => {}
            26 => self.neighbour += 1,
            27 if kind == U => self.at_use += 1,
            27 => self.at_write += 1,
            28 => self.early += 1,
            _ => self.behind += 1,
        }
        self.alone += usize::from(number != 0 && behind == 0);
    }
}

/// Looks at the accepted list and at every accepted list that goes on from it with at most `left`
/// events.
fn visit(scope: &Scope, es: &mut Vec<Event>, left: usize, seen: &mut Seen) {
    check_list(scope, es);
    seen.lists += 1;
    if left == 0 {
        return;
    }
    for e in scope.next(es) {
        let number = judge(es, scope.counts, &e);
        check_number(scope, es, &e, number, seen);
        if number == 0 {
            es.push(e);
            visit(scope, es, left - 1, seen);
            es.pop();
        }
    }
}

/// Each thread's own events on a volatile variable are a beginning of (L U | A S)*, and its volatile
/// reads and writes come in the order of their uses and assigns.
fn check_list(scope: &Scope, es: &[Event]) {
    for t in 0..scope.counts.threads {
        assert!(order_fits(&reads_and_writes(scope, es, t)), "{es:?}");
        for v in (0..scope.counts.variables).filter(|&v| scope.counts.volatiles[v as usize]) {
            assert!(neighbours_fit(&letters(es, t, v)), "{es:?}");
        }
    }
}

/// The number is the one by 001's rules in both courses, and without a `V` line it is the one of the
/// row without 26, 27 and 28.
fn check_number(scope: &Scope, es: &[Event], e: &Event, number: u32, seen: &mut Seen) {
    let behind = behind(scope, es, e);
    let plain = Counts { volatiles: [false; 16], ..scope.counts };
    assert_eq!(number, expected(scope, es, e), "{es:?}, {e:?}");
    assert_eq!(number, judge_short(es, scope.counts, e), "{es:?}, {e:?}");
    assert_eq!(judge(es, plain, e), behind, "{es:?}, {e:?}");
    seen.count(e.kind, number, behind);
}

/// All ten kinds, and those that a volatile variable can have.
const ALL: &[Kind] = &[U, A, L, S, R, W, K, N, P, B];
const VOLATILE: &[Kind] = &[U, A, L, S, R, W];

/// Looks at every accepted list of at most `longest` events.
fn seen_in(counts: Counts, kinds: &'static [Kind], longest: usize) -> Seen {
    let mut seen = Seen::default();
    visit(&Scope { counts, kinds }, &mut Vec::new(), longest, &mut seen);
    println!("{seen:?}");
    assert!(seen.lists > 10_000 && seen.neighbour > 10_000 && seen.behind > 10_000 && seen.alone > 1_000, "{seen:?}");
    seen
}

#[test]
fn one_volatile_variable() {
    let seen = seen_in(with_volatiles(Counts::plain(1, 1, 1), &[0]), ALL, 10);
    assert!(seen.early > 1_000, "{seen:?}");
    // On one variable the plain rules keep the order.
    assert_eq!((seen.at_use, seen.at_write), (0, 0), "{seen:?}");
}

#[test]
fn a_volatile_and_a_plain_variable() {
    let seen = seen_in(with_volatiles(Counts::plain(1, 2, 1), &[1]), ALL, 6);
    assert!(seen.early > 1_000, "{seen:?}");
    assert_eq!((seen.at_use, seen.at_write), (0, 0), "{seen:?}");
}

#[test]
fn two_volatile_variables() {
    let seen = seen_in(with_volatiles(Counts::plain(1, 2, 0), &[0, 1]), VOLATILE, 9);
    assert!(seen.at_use > 1_000 && seen.at_write > 1_000, "{seen:?}");
}

#[test]
fn two_volatile_variables_and_a_lock() {
    let seen = seen_in(with_volatiles(Counts::plain(1, 2, 1), &[0, 1]), ALL, 7);
    assert!(seen.at_use > 100 && seen.at_write > 100 && seen.early > 1_000, "{seen:?}");
}

#[test]
fn two_of_three_variables() {
    let seen = seen_in(with_volatiles(Counts::plain(1, 3, 0), &[0, 2]), VOLATILE, 6);
    assert!(seen.at_use > 100 && seen.at_write > 100, "{seen:?}");
}

#[test]
fn two_threads() {
    seen_in(with_volatiles(Counts::plain(2, 1, 0), &[0]), VOLATILE, 8);
    let seen = seen_in(with_volatiles(Counts::plain(2, 2, 0), &[0, 1]), VOLATILE, 6);
    assert!(seen.at_use > 10 && seen.at_write > 10, "{seen:?}");
}

/// The rules that the lists are compared with can fail.
#[test]
fn rules_that_can_fail() {
    for (fits, letters) in [
        (true, &[][..]),
        (true, &[L, U, A, S, L]),
        (true, &[A]),
        (false, &[U]),
        (false, &[L, S]),
        (false, &[L, U, S]),
        (false, &[A, U]),
        (false, &[A, S, P]),
    ] {
        assert_eq!(neighbours_fit(letters), fits, "{letters:?}");
    }
    for (fits, entries) in [
        (true, &[][..]),
        (true, &[Some(1), Some(2), None, None]),
        (false, &[Some(2), Some(1)]),
        (false, &[None, Some(1)]),
        (false, &[Some(1), None, Some(2)]),
    ] {
        assert_eq!(order_fits(entries), fits, "{entries:?}");
    }
    let scope = Scope { counts: with_volatiles(TWO, &[0, 1]), kinds: VOLATILE };
    let es = events_of("R 0 0 0; A 0 1 5; L 0 0 0; S 0 1 5; U 0 0 0; R 1 0 0; W 0 1 5; A 0 1 6");
    assert_eq!(reads_and_writes(&scope, &es, 0), [Some(6), Some(0), None]);
}
