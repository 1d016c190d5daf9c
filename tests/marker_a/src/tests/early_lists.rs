//! Every short list: 16 at N beside 16 at N with every outstanding store counted.

use super::*;
use crate::rules::{breaks, owed, ROWS};

/// The lists to look at: the declared counts, and the kinds of their events.
struct Scope {
    counts: Counts,
    kinds: &'static [Kind],
}

impl Scope {
    /// Every event that may come after the list, with the value that 18 asks for. An A or P
    /// has a value of its own.
    fn next(&self, es: &[Event]) -> Vec<Event> {
        let own = es.len() as Value + 1;
        let mut events = Vec::new();
        for &kind in self.kinds {
            let targets = if matches!(kind, K | N) { self.counts.locks } else { self.counts.variables };
            for thread in 0..self.counts.threads {
                events.extend((0..targets).map(|target| fitting(es, kind, thread, target, own)));
            }
        }
        events
    }

    /// Each thread and variable.
    fn cells(&self) -> impl Iterator<Item = (u32, u32)> + '_ {
        (0..self.counts.threads).flat_map(|t| (0..self.counts.variables).map(move |v| (t, v)))
    }
}

/// What was met on the way.
#[derive(Debug, Default)]
struct Seen {
    /// Lists accepted with every store counted, and the other accepted lists.
    strict: usize,
    more: usize,
    /// N that only the rule with every store counted refuses, and N that both refuse with 16.
    freed: usize,
    sixteen: usize,
    /// Owed variables with one outstanding store, and with several.
    one: usize,
    several: usize,
}

/// Main memory and the copies, followed event by event.
#[derive(Clone, Copy, Default)]
struct Memory {
    main: [Value; 2],
    copies: [[Option<Value>; 2]; 2],
}

impl Memory {
    fn after(mut self, e: &Event) -> Memory {
        let (t, v) = (e.thread as usize, e.target as usize);
        match e.kind {
            W => self.main[v] = e.value,
            A | B | L => self.copies[t][v] = Some(e.value),
            _ => {}
        }
        self
    }
}

/// The number in the row, where 16 at N counts every outstanding store.
fn every_store_counted(scope: &Scope, es: &[Event], e: &Event) -> u32 {
    let (_, row) = ROWS.into_iter().find(|(kind, _)| *kind == e.kind).expect("a row");
    let outstanding = |v| !outstanding_stores(es, e.thread, v).is_empty();
    let broken = |number| match (number, e.kind) {
        (16, N) => (0..scope.counts.variables).any(outstanding),
        _ => breaks(number, es, scope.counts, e),
    };
    row.iter().copied().find(|&number| broken(number)).unwrap_or(0)
}

/// "only an assign already made must reach main memory before the unlock": after the list some
/// store of T is not written and its assign is made. The stores are followed event by event.
fn made_and_not_written(es: &[Event], t: u32) -> bool {
    let mut stores: Vec<(u32, bool)> = Vec::new();
    for e in es.iter().filter(|e| e.thread == t) {
        match e.kind {
            S | P => stores.push((e.target, e.kind == S)),
            B => stores.iter_mut().filter(|store| store.0 == e.target).for_each(|store| store.1 = true),
            W => {
                let oldest = stores.iter().position(|store| store.0 == e.target);
                stores.remove(oldest.expect("a store"));
            }
            _ => {}
        }
    }
    stores.iter().any(|store| store.1)
}

/// Looks at the accepted list and at every accepted list that goes on from it with at most
/// `left` events. `strict`: it is accepted also where every store counts.
fn visit(scope: &Scope, es: &mut Vec<Event>, memory: Memory, strict: bool, left: usize, seen: &mut Seen) {
    check_stores(scope, es, seen);
    check_memory(scope, es, memory);
    *(if strict { &mut seen.strict } else { &mut seen.more }) += 1;
    if left == 0 {
        return;
    }
    for e in scope.next(es) {
        let number = judge(es, scope.counts, &e);
        let counted = every_store_counted(scope, es, &e);
        check_number(es, &e, number, counted, seen);
        if number == 0 {
            es.push(e);
            visit(scope, es, memory.after(&e), strict && counted == 0, left - 1, seen);
            es.pop();
        }
    }
}

/// The two numbers differ only where one is 16 at an N and the other 0, and 16 is told at an N
/// exactly where a store is not written and its assign is made.
fn check_number(es: &[Event], e: &Event, number: u32, counted: u32, seen: &mut Seen) {
    if number != counted {
        assert!(e.kind == N && counted == 16 && number == 0, "{es:?}, {e:?}: {counted}, {number}");
        seen.freed += 1;
    }
    if e.kind == N && matches!(number, 0 | 16) {
        assert_eq!(number == 16, made_and_not_written(es, e.thread), "{es:?}, {e:?}");
        seen.sixteen += usize::from(number == 16);
    }
}

/// Where V is owed and T has an outstanding store on V, the latest one is the last P, and only
/// it does not count. Where V is not owed every one counts. 16 at an N of T is broken exactly where
/// one counts, on whichever variable.
fn check_stores(scope: &Scope, es: &[Event], seen: &mut Seen) {
    let mut counted = [false; 2];
    for (t, v) in scope.cells() {
        let mut stores = outstanding_stores(es, t, v);
        if owed(es, t, v) && !stores.is_empty() {
            let last_p = es.iter().rposition(|e| e.kind == P && e.thread == t && e.target == v);
            assert_eq!(stores.pop(), last_p, "{es:?}");
            *(if stores.is_empty() { &mut seen.one } else { &mut seen.several }) += 1;
        }
        counted[t as usize] |= !stores.is_empty();
    }
    for thread in 0..scope.counts.threads {
        let unlock = Event { kind: N, thread, target: 0, value: 0 };
        assert_eq!(breaks(16, es, scope.counts, &unlock), counted[thread as usize], "{es:?}");
    }
}

/// The list's memories are those of its events, followed one by one.
fn check_memory(scope: &Scope, es: &[Event], memory: Memory) {
    for (t, v) in scope.cells() {
        assert_eq!(main_memory(es, v), memory.main[v as usize], "{es:?}");
        assert_eq!(copy(es, t, v), memory.copies[t as usize][v as usize], "{es:?}");
    }
}

/// The kinds that 12, 15 and 16 at N look at.
const AT_UNLOCK: &[Kind] = &[A, S, W, K, N, P, B];

/// Looks at every accepted list of at most `longest` events, and at enough of each sort.
fn check_all(counts: Counts, kinds: &'static [Kind], longest: usize) {
    let mut seen = Seen::default();
    visit(&Scope { counts, kinds }, &mut Vec::new(), Memory::default(), true, longest, &mut seen);
    println!("{seen:?}");
    assert!(seen.strict > 100_000 && seen.more > 1_000, "{seen:?}");
    assert!(seen.freed > 500 && seen.sixteen > 500, "{seen:?}");
    assert!(seen.one > 10_000 && seen.several > 1_000, "{seen:?}");
}

#[test]
fn every_kind() {
    check_all(Counts::plain(1, 1, 1), &[U, A, L, S, R, W, K, N, P, B], 8);
}

#[test]
fn kinds_at_unlock() {
    check_all(Counts::plain(1, 1, 1), AT_UNLOCK, 10);
}

#[test]
fn two_variables_and_locks() {
    check_all(Counts::plain(1, 2, 2), AT_UNLOCK, 7);
}

#[test]
fn two_threads() {
    check_all(Counts::plain(2, 1, 1), AT_UNLOCK, 7);
}

#[test]
fn two_of_each() {
    check_all(TWO, AT_UNLOCK, 5);
}
