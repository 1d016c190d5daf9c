//! Every short list of one thread on one variable with one value: 23 refuses what leaves a
//! read that cannot be loaded, and nothing else.

use super::*;
use crate::rules::owed;

const ONE: Counts = Counts::plain(1, 1, 1);

/// The event of this kind by thread 0 on variable or lock 0 with value 0.
fn event(kind: Kind) -> Event {
    Event { kind, thread: 0, target: 0, value: 0 }
}

/// What was met on the way.
#[derive(Default)]
struct Seen {
    lists: usize,
    dead: usize,
    reads: usize,
    owed: usize,
}

/// Looks at the accepted list and at every accepted list that goes on from it with at most
/// `left` events, and at what 23 refuses, with at most `more` events after it.
fn visit(es: &mut Vec<Event>, left: usize, more: usize, seen: &mut Seen) {
    check_loads(es);
    check_reads(es, seen);
    if left == 0 {
        return;
    }
    for kind in [U, A, L, S, R, W, K, N, P, B] {
        let e = event(kind);
        let number = judge(es, ONE, &e);
        es.push(e);
        match number {
            0 => visit(es, left - 1, more, seen),
            23 => check_dead(es, more, seen),
            _ => {}
        }
        es.pop();
    }
}

/// "In a paper L can then no longer meet 15 or 16".
fn check_loads(es: &[Event]) {
    for value in [0, 1] {
        let number = judge(es, ONE, &Event { value, ..event(L) });
        assert!(!matches!(number, 15 | 16), "{es:?}: {number}");
    }
}

/// Every outstanding read can be loaded: after the B if owed, a load for each is accepted.
fn check_reads(es: &[Event], seen: &mut Seen) {
    let reads = outstanding_reads(es, 0, 0).len();
    let mut next = vec![event(L); reads];
    if owed(es, 0, 0) {
        next.insert(0, event(B));
        seen.owed += usize::from(reads > 0);
    }
    let mut list = es.to_vec();
    for e in next {
        assert_eq!(judge(&list, ONE, &e), 0, "{es:?}: {e:?}");
        list.push(e);
    }
    seen.lists += 1;
    seen.reads += reads;
}

/// The list ends in an event that only 23 refuses: a read is outstanding, and no list that
/// goes on from it with at most `more` events loads it.
fn check_dead(es: &mut Vec<Event>, more: usize, seen: &mut Seen) {
    assert!(!outstanding_reads(es, 0, 0).is_empty(), "{es:?}");
    assert!(!some_load(es, more), "{es:?}");
    seen.dead += 1;
}

/// The first outstanding read is loaded in a list that goes on with at most `left` events, 23
/// left aside: 23 is last in its rows, so it tells that no other rule is broken. No word looks
/// at an earlier U, so none is tried.
fn some_load(es: &mut Vec<Event>, left: usize) -> bool {
    if left == 0 {
        return false;
    }
    for kind in [L, A, S, R, W, K, N, P, B] {
        let e = event(kind);
        if !matches!(judge(es, ONE, &e), 0 | 23) {
            continue;
        }
        es.push(e);
        let found = kind == L || some_load(es, left - 1);
        es.pop();
        if found {
            return true;
        }
    }
    false
}

#[test]
fn every_short_list() {
    let mut seen = Seen::default();
    visit(&mut Vec::new(), 8, 0, &mut seen);
    assert!(seen.lists > 100_000 && seen.dead > 10_000 && seen.reads > 10_000 && seen.owed > 1_000);
}

#[test]
fn what_23_refuses_is_dead() {
    let mut seen = Seen::default();
    visit(&mut Vec::new(), 6, 5, &mut seen);
    assert!(seen.lists > 5_000 && seen.dead > 1_000 && seen.reads > 1_000 && seen.owed > 100);
}

#[test]
fn the_search_finds_a_load() {
    let may_yet_be_loaded = events_of("P 0 0 0; W 0 0 0; R 0 0 0; A 0 0 0");
    assert!(some_load(&mut may_yet_be_loaded.clone(), 2));
    assert!(!some_load(&mut may_yet_be_loaded.clone(), 1));
    assert!(!some_load(&mut events_of("R 0 0 0; A 0 0 0"), 5));
}
