//! The words about earlier events, the rules and the rows.
//! Positions are indices into the list of earlier events.

use crate::{Counts, Event, Kind, Limits, Value, FULL, MAX_LOCKS, MAX_THREADS, MAX_VARIABLES, SHORT};
use Kind::*;

/// The ten rows of 01 with 23 from (a), and the rows of Y, F and C from (i).
/// 26, 27, 28 "lead each row, in that order"; 29 and 30 "both ahead of 26".
pub const ROWS: [(Kind, &[u32]); 13] = [
    (U, &[29, 30, 26, 27, 28, 17, 18]),
    (A, &[29, 30, 26, 27, 28, 23]),
    (L, &[29, 30, 26, 27, 28, 10, 13, 15, 16, 18]),
    (S, &[29, 30, 26, 27, 28, 13, 14, 17, 18, 19]),
    (R, &[29, 30, 26, 27, 28, 18, 19, 23]),
    (W, &[29, 30, 26, 27, 28, 10, 18]),
    (K, &[29, 30, 26, 27, 28, 11, 13]),
    (N, &[29, 30, 26, 27, 28, 12, 15, 16]),
    (P, &[29, 30, 26, 27, 28, 13, 19, 23]),
    (B, &[29, 30, 26, 27, 28, 10, 18]),
    (Y, &[29, 30, 26, 27, 28, 12, 15, 16]),
    (F, &[29, 30, 26, 27, 28, 12]),
    (C, &[29, 30, 26, 27, 28, 11, 13]),
];

/// 0, or the number that this event gets after these.
pub fn judge(earlier: &[Event], counts: Counts, e: &Event) -> u32 {
    judge_within(earlier, counts, e, FULL)
}

/// The same in the short course.
pub fn judge_short(earlier: &[Event], counts: Counts, e: &Event) -> u32 {
    judge_within(earlier, counts, e, SHORT)
}

/// The same in a course with these limits: "9, 5 and the row", with 25 "in place of 9 for events" in the short one.
pub(crate) fn judge_within(earlier: &[Event], counts: Counts, e: &Event, limits: Limits) -> u32 {
    if earlier.len() >= limits.events {
        return limits.number;
    }
    if undeclared(counts, e) {
        return 5;
    }
    row(e.kind).iter().copied().find(|&number| breaks(number, earlier, counts, e)).unwrap_or(0)
}

/// "Thread, variable or lock not declared."
fn undeclared(counts: Counts, e: &Event) -> bool {
    let targets = if e.kind.on_lock() { counts.locks } else { counts.variables };
    let notified_undeclared = e.kind == F && (e.value < 0 || e.value >= Value::from(counts.threads));
    e.thread >= counts.threads || e.target >= targets || notified_undeclared
}

/// The row of a kind.
fn row(kind: Kind) -> &'static [u32] {
    ROWS.iter().find(|(k, _)| *k == kind).map_or(&[], |(_, numbers)| numbers)
}

/// Whether `e` breaks this one rule of the rows; never where its kind's row does not have the number.
pub fn breaks(number: u32, earlier: &[Event], counts: Counts, e: &Event) -> bool {
    row(e.kind).contains(&number) && broken(number, earlier, counts, e)
}

fn broken(number: u32, earlier: &[Event], counts: Counts, e: &Event) -> bool {
    match number {
        10 => rule_10(earlier, counts, e),
        11 => rule_11(earlier, counts, e),
        12 => rule_12(earlier, counts, e),
        13 => rule_13(earlier, counts, e),
        14 => rule_14(earlier, counts, e),
        15 => rule_15(earlier, counts, e),
        16 => rule_16(earlier, counts, e),
        17 => rule_17(earlier, counts, e),
        18 => rule_18(earlier, counts, e),
        19 => rule_19(earlier, counts, e),
        23 => rule_23(earlier, counts, e),
        26 => rule_26(earlier, counts, e),
        27 => rule_27(earlier, counts, e),
        28 => rule_28(earlier, counts, e),
        29 => rule_29(earlier, counts, e),
        30 => rule_30(earlier, counts, e),
        _ => false,
    }
}

// ---- finding events ----

/// Whether this event is by `t` on `target` and of one of these kinds.
fn is(e: &Event, t: u32, target: u32, kinds: &[Kind]) -> bool {
    e.thread == t && e.target == target && kinds.contains(&e.kind)
}

/// The positions of T's events of these kinds on this variable or lock.
fn positions(es: &[Event], t: u32, target: u32, kinds: &[Kind]) -> Vec<usize> {
    (0..es.len()).filter(|&i| is(&es[i], t, target, kinds)).collect()
}

/// The position of the latest of them.
fn latest(es: &[Event], t: u32, target: u32, kinds: &[Kind]) -> Option<usize> {
    es.iter().rposition(|e| is(e, t, target, kinds))
}

/// The kind of the latest of them.
fn latest_kind(es: &[Event], t: u32, target: u32, kinds: &[Kind]) -> Option<Kind> {
    latest(es, t, target, kinds).map(|i| es[i].kind)
}

pub(crate) fn declared_threads(counts: Counts) -> std::ops::Range<u32> {
    0..counts.threads.min(MAX_THREADS)
}

pub(crate) fn declared_variables(counts: Counts) -> std::ops::Range<u32> {
    0..counts.variables.min(MAX_VARIABLES)
}

pub(crate) fn declared_locks(counts: Counts) -> std::ops::Range<u32> {
    0..counts.locks.min(MAX_LOCKS)
}

// ---- words of 01 ----

/// The reads of T on V, in order.
fn reads(es: &[Event], t: u32, v: u32) -> Vec<usize> {
    positions(es, t, v, &[R])
}

/// The loads of T on V, in order.
fn loads(es: &[Event], t: u32, v: u32) -> Vec<usize> {
    positions(es, t, v, &[L])
}

/// The stores (S or P) of T on V, in order.
fn stores(es: &[Event], t: u32, v: u32) -> Vec<usize> {
    positions(es, t, v, &[S, P])
}

/// The writes of T on V, in order.
fn writes(es: &[Event], t: u32, v: u32) -> Vec<usize> {
    positions(es, t, v, &[W])
}

/// "The n-th load pairs with the n-th read of T on V"; "Unpaired reads and stores are outstanding."
pub fn outstanding_reads(es: &[Event], t: u32, v: u32) -> Vec<usize> {
    let paired = loads(es, t, v).len();
    reads(es, t, v).into_iter().skip(paired).collect()
}

/// "the n-th store (S or P) with the n-th write. Unpaired reads and stores are outstanding."
pub fn outstanding_stores(es: &[Event], t: u32, v: u32) -> Vec<usize> {
    let paired = writes(es, t, v).len();
    stores(es, t, v).into_iter().skip(paired).collect()
}

/// "Copy: the value of T's latest A, B or L on V."
pub fn copy(es: &[Event], t: u32, v: u32) -> Option<Value> {
    latest(es, t, v, &[A, B, L]).map(|i| es[i].value)
}

/// "Fresh: the latest of A, B, S is A."
pub fn fresh(es: &[Event], t: u32, v: u32) -> bool {
    latest_kind(es, t, v, &[A, B, S]) == Some(A)
}

/// "Owed: the latest of P, B is P."
pub fn owed(es: &[Event], t: u32, v: u32) -> bool {
    latest_kind(es, t, v, &[P, B]) == Some(P)
}

/// The store whose assign is owed: the latest P while V is owed.
pub fn owed_store(es: &[Event], t: u32, v: u32) -> Option<usize> {
    if owed(es, t, v) {
        latest(es, t, v, &[P])
    } else {
        None
    }
}

/// The first position after "T's last K, on whichever lock (or the start)"; C "spoils copies as K does".
fn since_last_lock(es: &[Event], t: u32) -> usize {
    es.iter().rposition(|e| e.thread == t && matches!(e.kind, K | C)).map_or(0, |k| k + 1)
}

/// "Usable: since T's last K, on whichever lock (or the start), there is an A or B of V, or an L whose read came
/// after that K."
pub fn usable(es: &[Event], t: u32, v: u32) -> bool {
    let since = since_last_lock(es, t);
    let assigned = latest(es, t, v, &[A, B]).is_some_and(|i| i >= since);
    assigned || loads(es, t, v).into_iter().zip(reads(es, t, v)).any(|(load, read)| load >= since && read >= since)
}

/// "Held by T: more K than N by T on that lock."
pub fn held(es: &[Event], t: u32, lock: u32) -> bool {
    depth(es, t, lock) > 0
}

/// How many holds T has on the lock.
pub fn depth(es: &[Event], t: u32, lock: u32) -> usize {
    usize::try_from(locks_over_unlocks(es, t, lock).0).unwrap_or(0)
}

/// The number that T's Y on the lock remembers until T's C on it; 0 where T does not wait on it.
pub fn remembered(es: &[Event], t: u32, lock: u32) -> usize {
    usize::try_from(locks_over_unlocks(es, t, lock).1).unwrap_or(0)
}

/// K less N by T on the lock, and what is remembered.
/// "Y counts as an unlock of each hold given up and C as a lock of each taken again".
fn locks_over_unlocks(es: &[Event], t: u32, lock: u32) -> (i64, i64) {
    let (mut over, mut kept) = (0, 0);
    for e in es.iter().filter(|e| is(e, t, lock, &[K, N, Y, C])) {
        (over, kept) = match e.kind {
            K => (over + 1, kept),
            N => (over - 1, kept),
            Y => (over.min(0), over.max(0)),
            _ => (over + kept, 0),
        };
    }
    (over, kept)
}

/// "Under V's guard: T holds the lock that the `G` line names for V."
pub fn under(es: &[Event], guards: &[u32], t: u32, v: u32) -> bool {
    guards.get(v as usize).is_some_and(|&lock| held(es, t, lock))
}

/// "Main memory of V: the value of the latest W on V, by any thread; 0 before one."
pub fn main_memory(es: &[Event], v: u32) -> Value {
    es.iter().rfind(|e| e.kind == W && e.target == v).map_or(0, |e| e.value)
}

// ---- words of (i) ----

/// "A thread waits from its Y to its C."
pub fn waits_on(es: &[Event], t: u32, lock: u32) -> bool {
    latest_kind(es, t, lock, &[Y, C]) == Some(Y)
}

/// Whether T waits on some lock.
pub fn waits(es: &[Event], counts: Counts, t: u32) -> bool {
    declared_locks(counts).any(|lock| waits_on(es, t, lock))
}

/// T waits on the lock, and since its Y there is an F for it on that lock.
pub fn notified(es: &[Event], t: u32, lock: u32) -> bool {
    match latest(es, t, lock, &[Y, C]) {
        Some(y) if es[y].kind == Y => es[y..].iter().any(|e| e.kind == F && e.target == lock && e.value == Value::from(t)),
        _ => false,
    }
}

// ---- words of (f) ----

/// What the `V` line names.
pub fn volatile(counts: Counts, v: u32) -> bool {
    counts.volatiles.get(v as usize).is_some_and(|&named| named)
}

/// The event is on a volatile variable.
fn on_volatile(counts: Counts, e: &Event) -> bool {
    !e.kind.on_lock() && volatile(counts, e.target)
}

fn volatile_variables(counts: Counts) -> impl Iterator<Item = u32> {
    (0..MAX_VARIABLES).filter(move |&v| volatile(counts, v))
}

/// "that thread's own events on it, R and W left aside".
fn own(es: &[Event], t: u32, v: u32) -> Vec<usize> {
    positions(es, t, v, &[U, A, L, S, P, B])
}

/// The pairs of T's own events on V, the second directly following the first, with these two kinds.
fn neighbours(es: &[Event], t: u32, v: u32, first: Kind, second: Kind) -> Vec<(usize, usize)> {
    let own = own(es, t, v);
    let pairs = own.iter().copied().zip(own.iter().copied().skip(1));
    pairs.filter(|&(i, j)| es[i].kind == first && es[j].kind == second).collect()
}

/// The place of a position in a rising list of positions.
fn place_in(list: &[usize], position: usize) -> Option<usize> {
    list.binary_search(&position).ok()
}

/// The read that pairs with the load at this position.
fn read_of_load(es: &[Event], t: u32, v: u32, load: usize) -> Option<usize> {
    let n = place_in(&loads(es, t, v), load)?;
    reads(es, t, v).get(n).copied()
}

/// The read of a use that would come now: that of the load which it directly follows.
fn read_of_next_use(es: &[Event], t: u32, v: u32) -> Option<usize> {
    let last = *own(es, t, v).last()?;
    if es[last].kind == L {
        read_of_load(es, t, v, last)
    } else {
        None
    }
}

/// The reads of T's uses of the volatile V: a use's read is that of the load which it directly follows.
fn reads_of_uses(es: &[Event], t: u32, v: u32) -> Vec<usize> {
    let (loads, reads) = (loads(es, t, v), reads(es, t, v));
    let read_of = |load| reads.get(place_in(&loads, load)?).copied();
    neighbours(es, t, v, L, U).into_iter().filter_map(|(load, _)| read_of(load)).collect()
}

/// T's assigns of the volatile V, each with its write: that of the store which directly follows it.
fn assigns_with_writes(es: &[Event], t: u32, v: u32) -> Vec<(usize, Option<usize>)> {
    let (stores, writes) = (stores(es, t, v), writes(es, t, v));
    let stored = neighbours(es, t, v, A, S);
    let write_of = |assign| {
        let (_, store) = *stored.iter().find(|(a, _)| *a == assign)?;
        writes.get(place_in(&stores, store)?).copied()
    };
    positions(es, t, v, &[A]).into_iter().map(|assign| (assign, write_of(assign))).collect()
}

/// The assign being written by a W that would come now: the one directly before the first outstanding store.
fn assign_being_written(es: &[Event], t: u32, v: u32) -> Option<usize> {
    let store = *outstanding_stores(es, t, v).first()?;
    neighbours(es, t, v, A, S).into_iter().find(|&(_, s)| s == store).map(|(assign, _)| assign)
}

// ---- the rules ----

/// "No partner: L without an outstanding read, W without an outstanding store, B when nothing is owed."
fn rule_10(earlier: &[Event], _counts: Counts, e: &Event) -> bool {
    match e.kind {
        L => outstanding_reads(earlier, e.thread, e.target).is_empty(),
        W => outstanding_stores(earlier, e.thread, e.target).is_empty(),
        B => !owed(earlier, e.thread, e.target),
        _ => false,
    }
}

/// "Lock held by another thread." "C is checked as K is".
fn rule_11(earlier: &[Event], counts: Counts, e: &Event) -> bool {
    matches!(e.kind, K | C) && declared_threads(counts).any(|t| t != e.thread && held(earlier, t, e.target))
}

/// "Unlock of a lock that T does not hold." "Y is checked as N is"; "F needs the lock held, else 12."
fn rule_12(earlier: &[Event], _counts: Counts, e: &Event) -> bool {
    matches!(e.kind, N | Y | F) && !held(earlier, e.thread, e.target)
}

/// "An owed assign bars it: K while T owes on some variable; L, S, P on V while T owes on V." "C is checked as K is".
fn rule_13(earlier: &[Event], counts: Counts, e: &Event) -> bool {
    match e.kind {
        K | C => declared_variables(counts).any(|v| owed(earlier, e.thread, v)),
        L | S | P => owed(earlier, e.thread, e.target),
        _ => false,
    }
}

/// "Store without a fresh assign."
fn rule_14(earlier: &[Event], _counts: Counts, e: &Event) -> bool {
    e.kind == S && !fresh(earlier, e.thread, e.target)
}

/// "Fresh assign not stored: L on V; N while T has a fresh assign on some variable." "Y is checked as N is".
fn rule_15(earlier: &[Event], counts: Counts, e: &Event) -> bool {
    match e.kind {
        L => fresh(earlier, e.thread, e.target),
        N | Y => declared_variables(counts).any(|v| fresh(earlier, e.thread, v)),
        _ => false,
    }
}

/// "Store not written: L with an outstanding store of T on V, or whose read came before a write of T on V; N while
/// T has an outstanding store." "Y is checked as N is".
fn rule_16(earlier: &[Event], counts: Counts, e: &Event) -> bool {
    match e.kind {
        L => !outstanding_stores(earlier, e.thread, e.target).is_empty() || read_before_a_write(earlier, e),
        N | Y => declared_variables(counts).any(|v| store_bars_unlock(earlier, e.thread, v)),
        _ => false,
    }
}

/// L "whose read came before a write of T on V".
fn read_before_a_write(earlier: &[Event], e: &Event) -> bool {
    let read = outstanding_reads(earlier, e.thread, e.target).first().copied();
    let last_write = latest(earlier, e.thread, e.target, &[W]);
    read.is_some_and(|r| last_write.is_some_and(|w| r < w))
}

/// "In 16 at N, a store whose assign is owed counts no longer."
fn store_bars_unlock(earlier: &[Event], t: u32, v: u32) -> bool {
    let exempt = owed_store(earlier, t, v);
    outstanding_stores(earlier, t, v).into_iter().any(|store| Some(store) != exempt)
}

/// "Copy not usable." In the rows of U and S.
fn rule_17(earlier: &[Event], _counts: Counts, e: &Event) -> bool {
    matches!(e.kind, U | S) && !usable(earlier, e.thread, e.target)
}

/// "Value differs: U and S from the copy, L from its read, W from its store, R from main memory, B from the announced
/// value." Where there is nothing to differ from, it does not differ.
fn rule_18(earlier: &[Event], _counts: Counts, e: &Event) -> bool {
    expected(earlier, e).is_some_and(|value| value != e.value)
}

/// The value that 18 compares with.
pub(crate) fn expected(earlier: &[Event], e: &Event) -> Option<Value> {
    let at = |position: Option<usize>| position.map(|i| earlier[i].value);
    match e.kind {
        U | S => copy(earlier, e.thread, e.target),
        L => at(outstanding_reads(earlier, e.thread, e.target).first().copied()),
        W => at(outstanding_stores(earlier, e.thread, e.target).first().copied()),
        R => Some(main_memory(earlier, e.target)),
        B => at(owed_store(earlier, e.thread, e.target)),
        _ => None,
    }
}

/// "Eight outstanding already: R, or S and P."
fn rule_19(earlier: &[Event], _counts: Counts, e: &Event) -> bool {
    match e.kind {
        R => outstanding_reads(earlier, e.thread, e.target).len() >= 8,
        S | P => outstanding_stores(earlier, e.thread, e.target).len() >= 8,
        _ => false,
    }
}

/// "an R while T has an outstanding store on V, or a fresh assign with V not owed; an A with V not owed, or a P,
/// while T has an outstanding read of V."
fn rule_23(earlier: &[Event], _counts: Counts, e: &Event) -> bool {
    let (t, v) = (e.thread, e.target);
    let store_waits = || !outstanding_stores(earlier, t, v).is_empty();
    let read_waits = || !outstanding_reads(earlier, t, v).is_empty();
    match e.kind {
        R => store_waits() || (fresh(earlier, t, v) && !owed(earlier, t, v)),
        A => !owed(earlier, t, v) && read_waits(),
        P => read_waits(),
        _ => false,
    }
}

/// "On a volatile variable, U must directly follow L and S directly follow A among that thread's own events on it,
/// R and W left aside, and after L or A nothing else may come."
fn rule_26(earlier: &[Event], counts: Counts, e: &Event) -> bool {
    if !on_volatile(counts, e) || matches!(e.kind, R | W) {
        return false;
    }
    let before = latest_kind(earlier, e.thread, e.target, &[U, A, L, S, P, B]);
    match e.kind {
        U => before != Some(L),
        S => before != Some(A),
        _ => before == Some(L) || before == Some(A),
    }
}

/// The two sentences of (f) about volatile order.
fn rule_27(earlier: &[Event], counts: Counts, e: &Event) -> bool {
    match e.kind {
        U => on_volatile(counts, e) && use_out_of_order(earlier, counts, e),
        W => on_volatile(counts, e) && write_out_of_order(earlier, counts, e),
        _ => false,
    }
}

/// "At U, its read must follow the writes of all the thread's earlier volatile assigns and the reads of its earlier
/// volatile uses." A write that has not come is not followed; a use without a read asks nothing.
fn use_out_of_order(earlier: &[Event], counts: Counts, e: &Event) -> bool {
    let t = e.thread;
    let Some(read) = read_of_next_use(earlier, t, e.target) else { return false };
    let follows = |write: Option<usize>| write.is_some_and(|w| w < read);
    volatile_variables(counts).any(|v| {
        assigns_with_writes(earlier, t, v).into_iter().any(|(_, write)| !follows(write))
            || reads_of_uses(earlier, t, v).into_iter().any(|other| other >= read)
    })
}

/// "At W on a volatile variable with a store outstanding, no volatile assign of the thread before the one being
/// written may be unwritten."
fn write_out_of_order(earlier: &[Event], counts: Counts, e: &Event) -> bool {
    let t = e.thread;
    let Some(being_written) = assign_being_written(earlier, t, e.target) else { return false };
    volatile_variables(counts)
        .any(|v| assigns_with_writes(earlier, t, v).into_iter().any(|(assign, write)| assign < being_written && write.is_none()))
}

/// "28, early store or its assign on a volatile".
fn rule_28(_earlier: &[Event], counts: Counts, e: &Event) -> bool {
    matches!(e.kind, P | B) && on_volatile(counts, e)
}

/// "29, event other than C, R or W of a waiting thread".
fn rule_29(earlier: &[Event], counts: Counts, e: &Event) -> bool {
    !matches!(e.kind, C | R | W) && waits(earlier, counts, e.thread)
}

/// "30, F for a thread not waiting on that lock or already notified, C by one not notified on it".
fn rule_30(earlier: &[Event], _counts: Counts, e: &Event) -> bool {
    match e.kind {
        F => match u32::try_from(e.value) {
            Ok(u) => !waits_on(earlier, u, e.target) || notified(earlier, u, e.target),
            Err(_) => true,
        },
        C => !notified(earlier, e.thread, e.target),
        _ => false,
    }
}
