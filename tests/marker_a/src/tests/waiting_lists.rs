//! Every short list with Y, F and C, beside 001's section 7 and 002 followed event by event; orders
//! beside those of lists in which each Y and C is written out as N and K; and lists without the
//! three kinds beside the ten rows before them.

use super::short_course::random_paper;
use super::*;
use crate::rules::{breaks, depth, fresh, held, notified, owed, remembered, usable, waits, waits_on};
use crate::{denial, judge_short, sections, Outcome, Refusal, Section, Verdict};

// ---- 001 and 002, event by event ----

/// 001: "the function waitMode gives the current phase of the thread", with the lock on which it
/// waits and the "claimsToRegain".
#[derive(Clone, Copy, Debug, PartialEq, Eq)]
enum Mode {
    Active,
    Waiting(u32, usize),
    Notified(u32, usize),
}

/// The owner and the number of claims of each lock, and the mode of each thread.
#[derive(Clone, Debug)]
struct Machine {
    locks: Vec<(u32, usize)>,
    modes: Vec<Mode>,
}

impl Machine {
    fn new(counts: Counts) -> Machine {
        Machine { locks: vec![(0, 0); counts.locks as usize], modes: vec![Mode::Active; counts.threads as usize] }
    }

    /// The claims of the thread on the lock.
    fn claims(&self, t: u32, lock: u32) -> usize {
        let (owner, claims) = self.locks[lock as usize];
        if owner == t {
            claims
        } else {
            0
        }
    }

    fn free(&self, lock: u32) -> bool {
        self.locks[lock as usize].1 == 0
    }

    /// The number that a lock event gets, where no variable stands against it.
    fn number(&self, e: &Event) -> u32 {
        let (mode, own) = (self.modes[e.thread as usize], self.claims(e.thread, e.target));
        match (e.kind, mode) {
            (C, Mode::Notified(lock, _)) if lock == e.target => 11 * u32::from(!self.free(lock)),
            (C, _) => 30,
            (_, Mode::Waiting(..) | Mode::Notified(..)) => 29,
            (K, Mode::Active) => 11 * u32::from(own == 0 && !self.free(e.target)),
            (F, Mode::Active) if !matches!(self.modes[e.value as usize], Mode::Waiting(lock, _) if lock == e.target) => 30,
            (N | Y | F, Mode::Active) => 12 * u32::from(own == 0),
            _ => panic!("{e:?}"),
        }
    }

    /// 001: "k unlock actions are performed"; "waitMode(t) := relock"; "it attempts to regain k
    /// claims on the lock".
    fn after(mut self, e: &Event) -> Machine {
        let own = self.claims(e.thread, e.target);
        let lock = &mut self.locks[e.target as usize];
        match e.kind {
            K => *lock = (e.thread, own + 1),
            N => *lock = (e.thread, own - 1),
            Y => {
                *lock = (e.thread, 0);
                self.modes[e.thread as usize] = Mode::Waiting(e.target, own);
            }
            F => {
                let mode = &mut self.modes[e.value as usize];
                let Mode::Waiting(on, k) = *mode else { panic!("{e:?}") };
                *mode = Mode::Notified(on, k);
            }
            C => {
                let Mode::Notified(_, k) = self.modes[e.thread as usize] else { panic!("{e:?}") };
                *lock = (e.thread, k);
                self.modes[e.thread as usize] = Mode::Active;
            }
            _ => {}
        }
        self
    }
}

/// Every lock event of a declared thread on a declared lock; an F for each declared thread.
fn lock_events(counts: Counts) -> Vec<Event> {
    let mut events = Vec::new();
    for thread in 0..counts.threads {
        for target in 0..counts.locks {
            events.extend([K, N, Y, C].map(|kind| Event { kind, thread, target, value: 0 }));
            let notifies = |u: u32| Event { kind: F, thread, target, value: u.into() };
            events.extend((0..counts.threads).map(notifies));
        }
    }
    events
}

// ---- properties of an accepted list ----

/// The holds as K less N, where what each Y gives up and each C takes is added up: the list is cut at
/// the thread's Y on the lock. Up to the first Y there are K less N of them; the Y gives up all; after
/// a C there are those of the piece before, and K less N more.
fn holds_by_pieces(es: &[Event], t: u32, lock: u32) -> (usize, usize) {
    let own: Vec<&Event> = es.iter().filter(|e| e.thread == t && e.target == lock && e.kind.on_lock()).collect();
    let mut pieces = own.split(|e| e.kind == Y);
    let less = |piece: &[&Event]| {
        let count = |kind| piece.iter().filter(|e| e.kind == kind).count();
        (count(K), count(N), count(C))
    };
    let (k, n, _) = less(pieces.next().expect("a piece"));
    let (mut holds, mut given_up) = (k - n, 0);
    for piece in pieces {
        let (k, n, c) = less(piece);
        assert!(c <= 1 && (c == 1 || k + n == 0), "{es:?}");
        (holds, given_up) = if c == 1 { (holds.max(given_up) + k - n, 0) } else { (0, holds.max(given_up)) };
    }
    (holds, given_up)
}

/// A waiting thread has only C, R and W accepted; one that does not wait has no C.
fn check_waiting(counts: Counts, es: &[Event], t: u32) {
    let waiting = waits(es, counts, t);
    for kind in [U, A, L, S, P, B] {
        let e = fitting(es, kind, t, 0, 7);
        assert_eq!(judge(es, counts, &e) == 29, waiting, "{es:?}, {e:?}");
    }
    assert_eq!(judge(es, counts, &fitting(es, R, t, 0, 0)), 0, "{es:?}");
    for e in lock_events(counts).iter().filter(|e| e.thread == t) {
        let number = judge(es, counts, e);
        assert_eq!(number == 29, waiting && e.kind != C, "{es:?}, {e:?}");
        assert!(waiting || e.kind != C || number == 30, "{es:?}, {e:?}");
    }
}

/// Each C is the first after its Y, with just one F of its thread on its lock between them.
fn check_notifications(es: &[Event]) {
    for (i, c) in es.iter().enumerate().filter(|(_, e)| e.kind == C) {
        let y = es[..i].iter().rposition(|e| e.kind == Y && e.thread == c.thread).expect("a Y");
        assert_eq!(es[y].target, c.target, "{es:?}");
        let between = &es[y + 1..i];
        let notifies = |e: &&Event| e.kind == F && e.value == Value::from(c.thread);
        assert_eq!(between.iter().filter(notifies).count(), 1, "{es:?}");
        assert!(between.iter().filter(notifies).all(|f| f.target == c.target && f.thread != c.thread), "{es:?}");
        assert!(between.iter().all(|e| e.thread != c.thread), "{es:?}");
    }
}

/// The words about the list are those of the machine, and of the pieces.
fn check_words(counts: Counts, es: &[Event], machine: &Machine) {
    for t in 0..counts.threads {
        let mode = machine.modes[t as usize];
        assert_eq!(waits(es, counts, t), mode != Mode::Active, "{es:?}");
        for lock in 0..counts.locks {
            let given_up = match mode {
                Mode::Waiting(on, k) | Mode::Notified(on, k) if on == lock => k,
                _ => 0,
            };
            let holds = (depth(es, t, lock), remembered(es, t, lock));
            assert_eq!(holds, (machine.claims(t, lock), given_up), "{es:?}");
            assert_eq!(holds, holds_by_pieces(es, t, lock), "{es:?}");
            assert_eq!(held(es, t, lock), holds.0 > 0, "{es:?}");
            assert_eq!(waits_on(es, t, lock), given_up > 0, "{es:?}");
            assert_eq!(notified(es, t, lock), matches!(mode, Mode::Notified(on, _) if on == lock), "{es:?}");
        }
    }
    for lock in 0..counts.locks {
        assert!((0..counts.threads).filter(|&t| held(es, t, lock)).count() <= 1, "{es:?}");
    }
}

// ---- orders ----

/// "Y counts as an unlock of each hold given up and C as a lock of each taken again": the list with
/// as many N for each Y and K for each C, without F, and the place that each event comes from.
fn written_out(counts: Counts, es: &[Event]) -> (Vec<Event>, Vec<usize>) {
    let mut machine = Machine::new(counts);
    let (mut list, mut from) = (Vec::new(), Vec::new());
    for (place, e) in es.iter().enumerate() {
        let before = machine.clone();
        machine = machine.after(e);
        let (kind, times) = match e.kind {
            Y => (N, before.claims(e.thread, e.target)),
            C => (K, machine.claims(e.thread, e.target)),
            F => continue,
            kind => (kind, 1),
        };
        list.extend(vec![Event { kind, ..*e }; times]);
        from.extend(vec![place; times]);
    }
    (list, from)
}

/// Sections and denial are those of the list that is written out, with the lines that its events come
/// from, and 22 for a thread that still waits. Returns whether there is an order.
fn check_order(counts: Counts, guards: &[u32], es: &[Event]) -> bool {
    let (list, from) = written_out(counts, es);
    let line = |line: usize| line_of(counts, from[line - line_of(counts, 0)]);
    let same = |s: Section| Section { first: line(s.first), last: line(s.last), last_lock: line(s.last_lock), ..s };
    let expected: Vec<Section> = sections(counts, &list).into_iter().map(same).collect();
    assert_eq!(sections(counts, es), expected, "{es:?}");
    let trailer = Some((22, line_of(counts, es.len())));
    let denied = match denial(counts, guards, &list) {
        Some((22, _)) => trailer,
        Some((number, place)) => Some((number, line(place))),
        None if (0..counts.threads).any(|t| waits(es, counts, t)) => trailer,
        None => None,
    };
    assert_eq!(denial(counts, guards, es), denied, "{es:?}");
    denied.is_none()
}

// ---- every short list of lock events ----

/// What was met on the way.
#[derive(Debug, Default)]
struct Seen {
    lists: usize,
    /// Lists with a C, and those whose C takes more than one hold.
    back: usize,
    deep: usize,
    /// Lists with a thread that waits and holds another lock.
    holding: usize,
    /// Lists with an order, and those of them with a C.
    orders: usize,
    back_orders: usize,
    /// How often each number was told.
    told: [usize; 31],
}

impl Seen {
    fn count(&mut self, counts: Counts, es: &[Event], order: bool) {
        let back = es.iter().any(|e| e.kind == C);
        let deep = (0..es.len()).any(|i| es[i].kind == C && remembered(&es[..i], es[i].thread, es[i].target) > 1);
        let holds = |t| (0..counts.locks).any(|lock| held(es, t, lock));
        self.lists += 1;
        self.back += usize::from(back);
        self.deep += usize::from(deep);
        self.holding += usize::from((0..counts.threads).any(|t| waits(es, counts, t) && holds(t)));
        self.orders += usize::from(order);
        self.back_orders += usize::from(order && back);
    }
}

/// Looks at the accepted list and at every accepted list that goes on from it with at most `left`
/// lock events.
fn visit(counts: Counts, es: &mut Vec<Event>, machine: &Machine, left: usize, seen: &mut Seen) {
    check_words(counts, es, machine);
    check_notifications(es);
    (0..counts.threads).for_each(|t| check_waiting(counts, es, t));
    let order = check_order(counts, &[0], es);
    seen.count(counts, es, order);
    if left == 0 {
        return;
    }
    for e in lock_events(counts) {
        let number = machine.number(&e);
        assert_eq!((judge(es, counts, &e), judge_short(es, counts, &e)), (number, number), "{es:?}, {e:?}");
        seen.told[number as usize] += 1;
        if number == 0 {
            es.push(e);
            visit(counts, es, &machine.clone().after(&e), left - 1, seen);
            es.pop();
        }
    }
}

/// Looks at every accepted list of at most `longest` lock events.
fn seen_in(counts: Counts, longest: usize) -> Seen {
    let mut seen = Seen::default();
    visit(counts, &mut Vec::new(), &Machine::new(counts), longest, &mut seen);
    println!("{seen:?}");
    for number in [0, 11, 12, 29, 30] {
        assert!(seen.told[number] > 1_000, "{seen:?}");
    }
    seen
}

#[test]
fn two_threads_and_one_lock() {
    let seen = seen_in(Counts::plain(2, 1, 1), 11);
    assert!(seen.lists > 1_000 && seen.back > 100 && seen.deep > 10 && seen.back_orders > 10, "{seen:?}");
    assert_eq!(seen.holding, 0, "{seen:?}");
}

#[test]
fn two_threads_and_two_locks() {
    let seen = seen_in(Counts::plain(2, 1, 2), 9);
    assert!(seen.lists > 10_000 && seen.back > 100 && seen.deep > 10 && seen.holding > 1_000, "{seen:?}");
    assert!(seen.orders > 1_000 && seen.back_orders > 5, "{seen:?}");
}

#[test]
fn three_threads_and_one_lock() {
    let seen = seen_in(Counts::plain(3, 1, 1), 10);
    assert!(seen.lists > 10_000 && seen.back > 1_000 && seen.back_orders > 10, "{seen:?}");
}

/// With an owed assign, or with one whose store is outstanding, the row goes on to 13, 15 and 16 where
/// the machine refuses nothing.
#[test]
fn variables_behind_the_machine() {
    let counts = Counts::plain(2, 1, 1);
    for (before, at_k, at_n) in [("A 0 0 5", 0, 15), ("A 0 0 5; S 0 0 5", 0, 16), ("P 0 0 5", 13, 0), ("P 0 0 5; B 0 0 5", 0, 16)]
    {
        behind(counts, &mut Vec::new(), &Machine::new(counts), &events_of(before), (at_k, at_n), 6);
    }
}

/// After each accepted list of lock events in which thread 0 does not wait, the events `more` of
/// thread 0 come, and then one lock event.
fn behind(counts: Counts, es: &mut Vec<Event>, machine: &Machine, more: &[Event], at: (u32, u32), left: usize) {
    let list = [&es[..], more].concat();
    let free = !waits(es, counts, 0);
    for e in lock_events(counts) {
        let number = machine.number(&e);
        let expected = match (number, e.kind, e.thread) {
            (0, K | C, 0) => at.0,
            (0, N | Y, 0) => at.1,
            _ => number,
        };
        assert!(!free || judge(&list, counts, &e) == expected, "{list:?}, {e:?}: {expected}");
        if number == 0 && left > 0 {
            es.push(e);
            behind(counts, es, &machine.clone().after(&e), more, at, left - 1);
            es.pop();
        }
    }
}

// ---- demand 3 ----

/// The events of T that use the value of variable `v`, and those that put one of its own there.
fn get(es: &[Event], t: u32, v: u32) -> Vec<Event> {
    let value = main_memory(es, v);
    [R, L, U].map(|kind| Event { kind, thread: t, target: v, value }).to_vec()
}

fn put(es: &[Event], t: u32, v: u32) -> Vec<Event> {
    let value = es.len() as Value + 1;
    [A, S, W].map(|kind| Event { kind, thread: t, target: v, value }).to_vec()
}

/// What was met on the way: lists, orders, orders with a C, uses in them, and those that demand 3
/// denies where each thread's sections around a wait are one.
#[derive(Debug, Default)]
struct Demanded {
    lists: usize,
    orders: usize,
    back: usize,
    uses: usize,
    joined: usize,
}

/// Looks at the accepted list and at every one that goes on from it with at most `left` steps: a lock
/// event, or a get or a put under the variable's guard.
fn demanded(counts: Counts, guards: &[u32], es: &mut Vec<Event>, left: usize, seen: &mut Demanded) {
    check_demand(counts, guards, es, seen);
    if left == 0 {
        return;
    }
    let mut steps: Vec<Vec<Event>> = lock_events(counts).into_iter().map(|e| vec![e]).collect();
    for (t, v) in (0..counts.threads).flat_map(|t| (0..counts.variables).map(move |v| (t, v))) {
        if held(es, t, guards[v as usize]) && !waits(es, counts, t) {
            steps.extend([get(es, t, v), put(es, t, v)]);
        }
    }
    for step in steps {
        if judge(es, counts, &step[0]) != 0 {
            continue;
        }
        let before = es.len();
        for e in step {
            assert_eq!(judge(es, counts, &e), 0, "{es:?}, {e:?}");
            es.push(e);
        }
        demanded(counts, guards, es, left - 1, seen);
        es.truncate(before);
    }
}

fn check_demand(counts: Counts, guards: &[u32], es: &[Event], seen: &mut Demanded) {
    seen.lists += 1;
    if !check_order(counts, guards, es) {
        return;
    }
    let o = Outcome {
        verdict: Verdict::Accepted(es.len()),
        counts: Some(counts),
        guards: Some(guards.to_vec()),
        events: es.to_vec(),
        main: (0..counts.variables).map(|v| main_memory(es, v)).collect(),
        copies: Vec::new(),
        order: Order::Sections(sections(counts, es)),
    };
    assert_eq!(demand3(&o), Ok(()), "{es:?}");
    seen.orders += 1;
    seen.back += usize::from(es.iter().any(|e| e.kind == C));
    seen.uses += es.iter().filter(|e| e.kind == U).count();
    let order = Order::Sections(joined(counts, es));
    seen.joined += usize::from(demand3(&Outcome { order, ..o }).is_err());
}

/// A wrong order: a section that begins at a C is part of the one that ended at its Y.
fn joined(counts: Counts, es: &[Event]) -> Vec<Section> {
    let mut list: Vec<Section> = Vec::new();
    for s in sections(counts, es) {
        let first = es[s.first - line_of(counts, 0)];
        match list.iter_mut().rev().find(|before| before.thread == s.thread) {
            Some(before) if first.kind == C => before.last = s.last,
            _ => list.push(s),
        }
    }
    list
}

#[test]
fn demand_3_of_short_lists() {
    let mut seen = Demanded::default();
    demanded(Counts::plain(2, 1, 1), &[0], &mut Vec::new(), 10, &mut seen);
    println!("{seen:?}");
    assert!(seen.orders > 10_000 && seen.back > 100 && seen.uses > 1_000 && seen.joined > 10, "{seen:?}");
    let mut seen = Demanded::default();
    demanded(Counts::plain(2, 1, 2), &[0], &mut Vec::new(), 7, &mut seen);
    println!("{seen:?}");
    assert!(seen.orders > 1_000 && seen.uses > 100, "{seen:?}");
}

// ---- demand 3 on longer papers ----

/// Kinds that finish something are drawn more often.
const KINDS: [Kind; 20] = [U, U, A, L, S, S, R, W, W, K, K, N, N, P, B, Y, F, F, C, C];

/// A random event whose value is the one that 18 asks for.
fn candidate(dice: &mut Dice, counts: Counts, es: &[Event]) -> Event {
    let kind = KINDS[dice.roll(KINDS.len() as u32) as usize];
    let thread = dice.roll(counts.threads);
    let target = dice.roll(if kind.on_lock() { counts.locks } else { counts.variables });
    let free = dice.roll(if kind == F { counts.threads } else { 100 });
    fitting(es, kind, thread, target, free.into())
}

/// Whether the walk leaves the event out, so that orders are met: a Y where the thread owes an assign or
/// holds another lock, or no other thread is left; an N that gives up the guard of an owed variable;
/// a P without the guard. In the last third nothing new begins but a K to notify from.
fn left_out(counts: Counts, guards: &[u32], es: &[Event], e: &Event, late: bool) -> bool {
    let t = e.thread;
    let owes = |v| owed(es, t, v);
    match e.kind {
        Y => {
            let other_lock = (0..counts.locks).any(|lock| lock != e.target && held(es, t, lock));
            let alone = (0..counts.threads).all(|other| other == t || waits(es, counts, other));
            late || (0..counts.variables).any(owes) || other_lock || alone
        }
        N => (0..counts.variables).any(|v| guards[v as usize] == e.target && owes(v)),
        P => late || !held(es, t, guards[e.target as usize]),
        A => late && !fresh(es, t, e.target),
        K => {
            let to_notify = (0..counts.threads).any(|u| waits_on(es, u, e.target) && !notified(es, u, e.target));
            late && !(to_notify && (0..counts.locks).all(|lock| !held(es, t, lock)))
        }
        _ => false,
    }
}

/// A walk of accepted events that 20 and 21 do not deny.
fn waiting_walk(seed: u64, counts: Counts, guards: &[u32], steps: usize) -> Vec<Event> {
    let mut dice = Dice(seed);
    let mut es: Vec<Event> = Vec::new();
    for step in 0..steps {
        let e = candidate(&mut dice, counts, &es);
        if judge(&es, counts, &e) != 0 || left_out(counts, guards, &es, &e, step * 3 > steps * 2) {
            continue;
        }
        es.push(e);
        if matches!(denial(counts, guards, &es), Some((20 | 21, _))) {
            es.pop();
        }
    }
    es
}

/// Walks with three threads: the paper is accepted as it stands, and where there is an order demand 3
/// holds. On some of them it does not where the sections around each wait are one.
#[test]
fn demand_3_on_waiting_walks() {
    let counts = Counts::plain(3, 2, 2);
    let mut seen = Demanded::default();
    for seed in 0..150 {
        let es = waiting_walk(seed, counts, &[0, 1], 3_000);
        let o = outcome(&paper_of(&head_of(counts, Some(&[0, 1])), &text_of(&es)));
        assert_eq!((&o.verdict, &o.events), (&Verdict::Accepted(es.len()), &es), "seed {seed}");
        assert_eq!(matches!(o.order, Order::Sections(_)), check_order(counts, &[0, 1], &es), "seed {seed}");
        assert_eq!(demand3(&o), Ok(()), "seed {seed}");
        seen.lists += 1;
        if let Order::Sections(_) = o.order {
            seen.orders += 1;
            seen.back += es.iter().filter(|e| e.kind == C).count();
            seen.uses += es.iter().filter(|e| e.kind == U).count();
            let order = Order::Sections(joined(counts, &es));
            seen.joined += usize::from(demand3(&Outcome { order, ..o }).is_err());
        }
    }
    println!("{seen:?}");
    assert!(seen.orders >= 50 && seen.back >= 100 && seen.uses >= 100 && seen.joined >= 1, "{seen:?}");
}

// ---- papers without the three kinds ----

/// The ten rows before 02 (i).
const OLD_ROWS: [(Kind, &[u32]); 10] = [
    (U, &[26, 27, 28, 17, 18]),
    (A, &[26, 27, 28, 23]),
    (L, &[26, 27, 28, 10, 13, 15, 16, 18]),
    (S, &[26, 27, 28, 13, 14, 17, 18, 19]),
    (R, &[26, 27, 28, 18, 19, 23]),
    (W, &[26, 27, 28, 10, 18]),
    (K, &[26, 27, 28, 11, 13]),
    (N, &[26, 27, 28, 12, 15, 16]),
    (P, &[26, 27, 28, 13, 19, 23]),
    (B, &[26, 27, 28, 10, 18]),
];

/// "more K than N by T on that lock".
fn old_held(es: &[Event], t: u32, lock: u32) -> bool {
    let count = |kind| es.iter().filter(|e| e.kind == kind && e.thread == t && e.target == lock).count();
    count(K) > count(N)
}

/// "since T's last K, on whichever lock (or the start), there is an A or B of V, or an L whose read
/// came after that K": the reads that are not loaded are followed event by event.
fn old_usable(es: &[Event], t: u32, v: u32) -> bool {
    let (mut usable, mut since) = (false, 0);
    let mut reads = Vec::new();
    for (place, e) in es.iter().enumerate().filter(|(_, e)| e.thread == t && (e.kind == K || e.target == v)) {
        match e.kind {
            K => (usable, since) = (false, place),
            A | B => usable = true,
            R => reads.push(place),
            L => usable |= reads.remove(0) >= since,
            _ => {}
        }
    }
    usable
}

/// The number of the old row, with 11, 12 and 17 by the words above.
fn old_number(es: &[Event], counts: Counts, e: &Event) -> u32 {
    let (_, row) = OLD_ROWS.into_iter().find(|(kind, _)| *kind == e.kind).expect("a row");
    let broken = |number| match number {
        11 => (0..counts.threads).any(|t| t != e.thread && old_held(es, t, e.target)),
        12 => !old_held(es, e.thread, e.target),
        17 => !old_usable(es, e.thread, e.target),
        _ => breaks(number, es, counts, e),
    };
    row.iter().copied().find(|&number| broken(number)).unwrap_or(0)
}

/// 20 to 22 before 02 (i), followed event by event: the holds by thread and lock, and whether the
/// thread has given one back in its section.
fn old_denial(counts: Counts, guards: &[u32], es: &[Event]) -> Option<(u32, usize)> {
    let mut holds = [[0; 8]; 8];
    let mut given_back = [false; 8];
    for (place, e) in es.iter().enumerate() {
        let (t, target) = (e.thread as usize, e.target as usize);
        match e.kind {
            U | A | B if holds[t][guards[target] as usize] == 0 => return Some((20, line_of(counts, place))),
            K if given_back[t] => return Some((21, line_of(counts, place))),
            K => holds[t][target] += 1,
            N => {
                holds[t][target] -= 1;
                given_back[t] = holds[t].iter().any(|&times| times > 0);
            }
            _ => {}
        }
    }
    let owes = (0..counts.threads).any(|t| (0..counts.variables).any(|v| owed(es, t, v)));
    (owes || holds.iter().flatten().any(|&times| times > 0)).then_some((22, line_of(counts, es.len())))
}

/// Looks at the accepted list of the ten kinds and at every one that goes on from it with at most
/// `left` events: the number, 20 to 22 and the usable copies are the old ones. Returns how many lists.
fn old_lists(counts: Counts, kinds: &[Kind], es: &mut Vec<Event>, left: usize) -> usize {
    let guards = vec![0; counts.variables as usize];
    assert_eq!(denial(counts, &guards, es), old_denial(counts, &guards, es), "{es:?}");
    for (t, v) in (0..counts.threads).flat_map(|t| (0..counts.variables).map(move |v| (t, v))) {
        assert_eq!(usable(es, t, v), old_usable(es, t, v), "{es:?}");
    }
    let mut lists = 1;
    for &kind in kinds {
        let targets = if kind.on_lock() { counts.locks } else { counts.variables };
        for (thread, target) in (0..counts.threads).flat_map(|t| (0..targets).map(move |target| (t, target))) {
            let e = fitting(es, kind, thread, target, es.len() as Value + 1);
            let number = judge(es, counts, &e);
            assert_eq!(number, old_number(es, counts, &e), "{es:?}, {e:?}");
            assert!(!breaks(29, es, counts, &e) && !breaks(30, es, counts, &e), "{es:?}, {e:?}");
            if number == 0 && left > 0 {
                es.push(e);
                lists += old_lists(counts, kinds, es, left - 1);
                es.pop();
            }
        }
    }
    lists
}

#[test]
fn old_lists_keep_their_numbers() {
    let all = &[U, A, L, S, R, W, K, N, P, B];
    let volatile = with_volatiles(Counts::plain(2, 1, 1), &[0]);
    for (counts, kinds, longest) in [
        (Counts::plain(1, 1, 1), &all[..], 7),
        (Counts::plain(2, 1, 1), &all[..], 5),
        (Counts::plain(2, 2, 2), &all[..], 4),
        (volatile, &all[..], 5),
        (Counts::plain(2, 1, 2), &[K, N][..], 8),
        (Counts::plain(2, 1, 1), &[K, N, A, S, W, U][..], 6),
    ] {
        let lists = old_lists(counts, kinds, &mut Vec::new(), longest);
        println!("{counts:?}: {lists}");
        assert!(lists > 5_000, "{counts:?}: {lists}");
    }
}

/// What a paper without Y, F, C was given line by line: 4, 9, 5 and the old row.
fn old_verdict(paper: &[u8]) -> Verdict {
    let parts = paper::find(paper).expect("parts");
    let mut es = Vec::new();
    for line in std::str::from_utf8(parts.body).expect("ASCII").lines() {
        let refused = |number| Verdict::Refused(Refusal { line: line_of(parts.counts, es.len()), number });
        let Some(e) = paper::event(line.as_bytes()) else { return refused(4) };
        let targets = if matches!(e.kind, K | N) { parts.counts.locks } else { parts.counts.variables };
        if e.thread >= parts.counts.threads || e.target >= targets {
            return refused(5);
        }
        let number = old_number(&es, parts.counts, &e);
        if number != 0 {
            return refused(number);
        }
        es.push(e);
    }
    Verdict::Accepted(es.len())
}

#[test]
fn old_papers_keep_their_verdicts() {
    let (mut accepted, mut refused) = (0, 0);
    for seed in 0..300 {
        let mut dice = Dice(seed);
        let counts = Counts::plain(1 + dice.roll(3), 1 + dice.roll(3), dice.roll(3));
        let fault = dice.roll(160) as usize;
        let paper = random_paper(&mut dice, counts, 80, fault);
        let o = outcome(&paper);
        assert_eq!(o.verdict, old_verdict(&paper), "seed {seed}");
        if let Verdict::Accepted(_) = o.verdict {
            accepted += 1;
            let guards = vec![0; counts.variables as usize];
            assert_eq!(denial(counts, &guards, &o.events), old_denial(counts, &guards, &o.events), "seed {seed}");
        } else {
            refused += 1;
        }
    }
    assert!(accepted > 50 && refused > 50, "{accepted}, {refused}");
}

/// What the lists are compared with can fail.
#[test]
fn rules_that_can_fail() {
    let counts = Counts::plain(2, 1, 1);
    let machine = |events: &str| events_of(events).iter().fold(Machine::new(counts), |machine, e| machine.after(e));
    let after = machine("K 0 0; K 0 0; Y 0 0; K 1 0; F 1 0 0");
    assert_eq!(after.modes, [Mode::Notified(0, 2), Mode::Active]);
    assert_eq!((after.claims(0, 0), after.claims(1, 0)), (0, 1));
    for (event, number) in [("C 0 0", 11), ("K 0 0", 29), ("F 1 0 0", 30), ("C 1 0", 30), ("Y 1 0", 0), ("F 0 0 1", 29)] {
        assert_eq!(after.number(&events_of(event)[0]), number, "{event}");
    }
    let back = "K 0 0; K 0 0; Y 0 0; K 1 0; F 1 0 0; N 1 0; C 0 0; N 0 0";
    assert_eq!(machine(back).claims(0, 0), 1);
    assert_eq!(holds_by_pieces(&events_of(back), 0, 0), (1, 0));
    assert_eq!(holds_by_pieces(&events_of(back)[..5], 0, 0), (0, 2));
    let (list, from) = written_out(counts, &events_of(back));
    assert_eq!(list, events_of("K 0 0; K 0 0; N 0 0; N 0 0; K 1 0; N 1 0; K 0 0; K 0 0; N 0 0"));
    assert_eq!(from, [0, 1, 2, 2, 3, 5, 6, 6, 7]);
}
