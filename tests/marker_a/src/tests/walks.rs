//! Papers made step by step from accepted events; demand 3 is checked on those with an order.

use super::*;
use crate::rules::{fresh, held, owed, owed_store};
use crate::{Outcome, Verdict};

/// Kinds that finish something are drawn more often, so that sections are short.
pub(super) const KINDS: [Kind; 16] = [U, U, A, L, S, S, R, W, W, K, N, N, N, P, B, B];
/// More K and P, so that early stores wait over an N.
const WAITING: [Kind; 16] = [U, U, A, L, S, R, W, K, K, K, N, N, N, P, P, B];

/// What a walk draws its events from.
pub(super) struct Scope<'a> {
    pub(super) counts: Counts,
    pub(super) guards: &'a [u32],
    pub(super) kinds: [Kind; 16],
    /// An A or P has a multiple of this value.
    pub(super) unit: Value,
}

/// A random event whose value is the one that 18 asks for.
fn candidate(dice: &mut Dice, scope: &Scope, es: &[Event]) -> Event {
    let counts = scope.counts;
    let kind = scope.kinds[dice.roll(16) as usize];
    let thread = dice.roll(counts.threads);
    let lock_event = matches!(kind, K | N);
    let target = dice.roll(if lock_event { counts.locks } else { counts.variables });
    let free = if matches!(kind, A | P) { Value::from(dice.roll(100)) * scope.unit } else { 0 };
    fitting(es, kind, thread, target, free)
}

/// Whether 20 or 21 would deny the order at `e`.
fn denied(guards: &[u32], es: &[Event], e: &Event) -> bool {
    let guarded = matches!(e.kind, U | A | B | P);
    if guarded && !held(es, e.thread, guards[e.target as usize]) {
        return true;
    }
    let list = [es, &[*e]].concat();
    let all = Counts::plain(8, 16, 8);
    matches!(crate::denial(all, guards, &list), Some((20 | 21, _)))
}

/// A walk of accepted events that 20 and 21 do not deny, and how often 23 refused one.
/// "In a paper L can then no longer meet 15 or 16".
pub(super) fn walk(seed: u64, scope: &Scope, steps: usize) -> (Vec<Event>, usize) {
    let Scope { counts, guards, .. } = *scope;
    let mut dice = Dice(seed);
    let mut dead = 0;
    let mut es: Vec<Event> = Vec::new();
    for step in 0..steps {
        let e = candidate(&mut dice, scope, &es);
        // In the last third nothing new begins, so that the locks are given back.
        // A fresh assign that a K has made unusable can be stored only after another assign.
        let again = e.kind == A && fresh(&es, e.thread, e.target);
        if step * 3 > steps * 2 && matches!(e.kind, K | A | P) && !again {
            continue;
        }
        // An N on the guard of an owed variable would leave the B outside its guard.
        let loses_guard = e.kind == N && (0..counts.variables).any(|v| guards[v as usize] == e.target && owed(&es, e.thread, v));
        let number = judge(&es, counts, &e);
        assert!(e.kind != L || !matches!(number, 15 | 16), "seed {seed}, step {step}");
        dead += usize::from(number == 23);
        if loses_guard || number != 0 || denied(guards, &es, &e) {
            continue;
        }
        es.push(e);
    }
    (es, dead)
}

/// How many N have an early store that waits over them: outstanding, and its assign owed.
fn waits(counts: Counts, es: &[Event]) -> usize {
    let waiting = |before: &[Event], t| {
        (0..counts.variables)
            .any(|v| owed_store(before, t, v).is_some_and(|store| outstanding_stores(before, t, v).contains(&store)))
    };
    (0..es.len()).filter(|&i| es[i].kind == N && waiting(&es[..i], es[i].thread)).count()
}

/// What was met on the way, in the papers with an order; `dead` counts 23 in all of them.
#[derive(Debug, Default)]
pub(super) struct Seen {
    pub(super) orders: usize,
    pub(super) uses: usize,
    early: usize,
    waited: usize,
    slips: usize,
    dead: usize,
}

/// Checks demand 3 on the walks of these seeds.
pub(super) fn demand_3_on(seeds: u64, scope: &Scope, steps: usize) -> Seen {
    let Scope { counts, guards, .. } = *scope;
    let head = head_of(counts, Some(guards));
    let mut seen = Seen::default();
    for seed in 0..seeds {
        let (es, dead) = walk(seed, scope, steps);
        seen.dead += dead;
        let paper = paper_of(&head, &text_of(&es));
        let o = outcome(&paper);
        assert_eq!(o.verdict, Verdict::Accepted(es.len()), "seed {seed}");
        assert_eq!(o.events, es, "seed {seed}");
        assert_eq!(demand3(&o), Ok(()), "seed {seed}");
        let Order::Sections(mut list) = o.order.clone() else {
            continue;
        };
        seen.orders += 1;
        seen.uses += es.iter().filter(|e| e.kind == U).count();
        seen.early += es.iter().filter(|e| e.kind == B).count();
        seen.waited += waits(counts, &es);
        list.sort_by_key(|s| s.first);
        seen.slips += usize::from(demand3(&Outcome { order: Order::Sections(list), ..o }).is_err());
    }
    println!("{seen:?}");
    seen
}

/// Enough papers have an order, ordering by first lock fails on some of them, and 23 is met.
#[test]
fn demand_3_on_walks() {
    let counts = Counts::plain(3, 2, 2);
    let seen = demand_3_on(60, &Scope { counts, guards: &[0, 1], kinds: KINDS, unit: 1 }, 3_000);
    assert!(seen.orders >= 30 && seen.uses >= 100 && seen.early >= 30, "{seen:?}");
    assert!(seen.slips >= 1 && seen.dead >= 100, "{seen:?}");
}

/// "serial orders are promised for such papers too". Lock 2 guards nothing.
#[test]
fn demand_3_with_waiting_stores() {
    let counts = Counts::plain(2, 2, 3);
    let seen = demand_3_on(150, &Scope { counts, guards: &[0, 1], kinds: WAITING, unit: 1 }, 800);
    assert!(seen.orders >= 50 && seen.uses >= 100 && seen.waited >= 50, "{seen:?}");
}

/// The values differ only above their low 32 bits.
#[test]
fn demand_3_on_wide_values() {
    let counts = Counts::plain(3, 2, 2);
    for unit in [1 << 32, -(1 << 56)] {
        let seen = demand_3_on(20, &Scope { counts, guards: &[0, 1], kinds: KINDS, unit }, 3_000);
        assert!(seen.orders >= 10 && seen.uses >= 30 && seen.early >= 10 && seen.slips >= 1, "{seen:?}");
    }
}
