//! What documents 01 and 02 (a), (d), (e), (f), (g) and (i) say of one step from a state that a caller hands in, over the fields of
//! `include/dabzhoni.h`, by the limits of a course.

use crate::c_api::{Cell, Hold, Ring, Slot, State, Wait};
use marker_a::rules::{self, ROWS};
use marker_a::Kind;
use papers::{by_a, Course, Event};

fn cell(t: usize, v: usize) -> usize {
    16 * t + v
}

/// The places of a queue, the oldest first.
fn queue(i: usize, q: Ring) -> impl Iterator<Item = usize> {
    (0..usize::from(q.len)).map(move |k| 8 * i + (usize::from(q.first) + k) % 8)
}

/// "8. The state handed in has a number out of range".
pub fn out_of_range(course: Course, s: &State) -> bool {
    let n = s.events as usize;
    let most = course.counts();
    let above = |slots: &[Slot], i: usize, q: Ring| queue(i, q).any(|p| slots[p].position > n);
    let counts = s.counts;
    // "declared counts as in the head"
    !(1..=most.threads).contains(&counts.threads)
        || !(1..=most.variables).contains(&counts.variables)
        || counts.locks > most.locks
        // "declared": a volatile variable is one of the head's
        || (0..16).any(|v| counts.volatiles[v] && v >= counts.variables)
        // "events so far at most 2,000"
        || s.events > course.events()
        // "at most 8 outstanding reads and 8 outstanding stores for each thread and variable"
        || s.cells.iter().any(|c| c.reads.len > 8 || c.stores.len > 8)
        // "a position or lock depth above the events so far"
        || s.cells.iter().any(|c| c.source > n || c.written > n || c.loaded > n || c.used > n || c.assigned > n)
        || s.cells.iter().enumerate().any(|(i, c)| above(&s.reads, i, c.reads) || above(&s.stores, i, c.stores))
        || s.locked.iter().any(|&p| p > n)
        || s.holds.iter().any(|a| a.depth > s.events)
        // "a holder undeclared; a holder without depth or depth without holder"
        || s.holds.iter().any(|a| a.holder > counts.threads || (a.holder == 0) != (a.depth == 0))
        // "a waiting thread's lock undeclared, or its remembered number 0 or above the events so far"
        || s.waits.iter().any(|w| w.lock != 0 && (w.lock > counts.locks || w.depth == 0 || w.depth > s.events))
}

/// The parts of 29 and 30 that a declared event meets: its thread waits; the thread that it is about, which F notifies or C is of, does not wait
/// at all; waits on another lock; is notified already, or not yet.
pub fn wait_parts(s: &State, e: &Event) -> [bool; 5] {
    let told = if e.letter == b'F' { e.value as usize } else { e.thread };
    let wait = s.waits[told];
    let about = matches!(e.letter, b'F' | b'C');
    let here = about && wait.lock == e.place + 1;
    [
        s.waits[e.thread].lock != 0,
        about && wait.lock == 0,
        about && wait.lock != 0 && !here,
        here && wait.notified,
        here && !wait.notified,
    ]
}

/// Whether the declared event breaks 29 or 30.
fn breaks_waiting(number: u32, s: &State, e: &Event) -> bool {
    let [waits, none, elsewhere, notified, unheard] = wait_parts(s, e);
    match (number, e.letter) {
        (29, b'C' | b'R' | b'W') => false,
        (29, _) => waits,
        (30, b'F') => none || elsewhere || notified,
        (30, b'C') => none || elsewhere || unheard,
        _ => false,
    }
}

/// The volatile variables.
fn volatiles(s: &State) -> impl Iterator<Item = usize> + '_ {
    (0..s.counts.variables).filter(|&v| s.counts.volatiles[v])
}

/// Whether a declared event is on a volatile variable.
pub fn is_volatile(s: &State, e: &Event) -> bool {
    !e.is_lock() && s.counts.volatiles[e.place]
}

/// The position of the assign of the oldest outstanding store.
fn oldest_assign(s: &State, t: usize, v: usize) -> Option<usize> {
    queue(cell(t, v), s.cells[cell(t, v)].stores).next().map(|i| s.stores[i].position)
}

/// The volatile variables of which each part of 27 holds at a U: a fresh assign, an outstanding store, the last write not before the use's
/// read, the read of the latest use not before it.
pub fn use_parts(s: &State, e: &Event) -> [Vec<usize>; 4] {
    let own = |v: usize| &s.cells[cell(e.thread, v)];
    let read = own(e.place).loaded;
    [
        volatiles(s).filter(|&v| own(v).fresh).collect(),
        volatiles(s).filter(|&v| own(v).stores.len > 0).collect(),
        volatiles(s).filter(|&v| own(v).written >= read).collect(),
        volatiles(s).filter(|&v| own(v).used >= read).collect(),
    ]
}

/// The same at a W: the assign of the oldest outstanding store is before that of the one to be written; a fresh assign is.
pub fn write_parts(s: &State, e: &Event) -> [Vec<usize>; 2] {
    let own = |v: usize| &s.cells[cell(e.thread, v)];
    let Some(assign) = oldest_assign(s, e.thread, e.place) else { return Default::default() };
    [
        volatiles(s).filter(|&v| oldest_assign(s, e.thread, v).is_some_and(|earlier| earlier < assign)).collect(),
        volatiles(s).filter(|&v| own(v).fresh && own(v).assigned < assign).collect(),
    ]
}

/// Whether the declared event breaks 26, 27 or 28.
fn breaks_volatile(number: u32, s: &State, e: &Event) -> bool {
    if !is_volatile(s, e) {
        return false;
    }
    let c = &s.cells[cell(e.thread, e.place)];
    match (number, e.letter) {
        (26, b'R' | b'W') => false,
        // "U must directly follow L and S directly follow A", "after L or A nothing else may come"
        (26, letter) => (letter == b'U') != c.after_load || (letter == b'S') != c.after_assign,
        (27, b'U') => use_parts(s, e).iter().any(|part| !part.is_empty()),
        (27, b'W') => write_parts(s, e).iter().any(|part| !part.is_empty()),
        (28, letter) => letter == b'P' || letter == b'B',
        _ => false,
    }
}

/// Whether the declared event breaks the rule of this number, "read from its own contents".
fn breaks(number: u32, s: &State, e: &Event) -> bool {
    match number {
        26..=28 => return breaks_volatile(number, s, e),
        29 | 30 => return breaks_waiting(number, s, e),
        _ => {}
    }
    let (t, p) = (e.thread, e.place);
    let own = |v: usize| &s.cells[cell(t, v)];
    let mut variables = 0..s.counts.variables;
    if e.is_lock() {
        let a = s.holds[p];
        return match (e.letter, number) {
            (b'K' | b'C', 11) => a.holder != 0 && a.holder != t + 1,
            (b'K' | b'C', 13) => variables.any(|v| own(v).pending),
            (b'N' | b'Y' | b'F', 12) => a.holder != t + 1,
            (b'N' | b'Y', 15) => variables.any(|v| own(v).fresh),
            // with an assign owed, the latest outstanding store is taken for the early one
            (b'N' | b'Y', 16) => variables.any(|v| own(v).stores.len > u8::from(own(v).pending)),
            _ => unreachable!("no rule of this row"),
        };
    }
    let c: &Cell = own(p);
    let read = queue(cell(t, p), c.reads).next().map(|i| s.reads[i]);
    let store = queue(cell(t, p), c.stores).next().map(|i| s.stores[i]);
    match (e.letter, number) {
        (b'L', 10) => read.is_none(),
        (b'W', 10) => store.is_none(),
        (b'B', 10) => !c.pending,
        (_, 13) => c.pending,
        (_, 14) => !c.fresh,
        (_, 15) => c.fresh,
        (_, 16) => store.is_some() || read.is_some_and(|r| r.position < c.written),
        (_, 17) => c.source <= s.locked[t],
        (b'U' | b'S', 18) => c.copy != e.value,
        (b'L', 18) => read.is_some_and(|r| r.value != e.value),
        (b'W', 18) => store.is_some_and(|w| w.value != e.value),
        (b'R', 18) => s.memory[p] != e.value,
        (b'B', 18) => c.announced != e.value,
        (b'R', 19) => c.reads.len >= 8,
        (_, 19) => c.stores.len >= 8,
        (b'R', 23) => store.is_some() || (c.fresh && !c.pending),
        (b'A', 23) => read.is_some() && !c.pending,
        (b'P', 23) => read.is_some(),
        _ => unreachable!("no rule of this row"),
    }
}

/// "One step: 8, 9, 5, row.", with 25 "in place of 9" in the short course. The numbers that the event breaks, where 8, 9, 25 and 5 stand
/// alone; the first is the answer.
pub fn broken(course: Course, s: &State, e: &Event) -> Vec<u32> {
    let places = if e.is_lock() { s.counts.locks } else { s.counts.variables };
    let notified = e.letter != b'F' || usize::try_from(e.value).is_ok_and(|u| u < s.counts.threads);
    if out_of_range(course, s) {
        vec![8]
    } else if s.events >= course.events() {
        vec![course.over()]
    } else if e.thread >= s.counts.threads || e.place >= places || !notified {
        vec![5]
    } else {
        let kind = by_a::event(e).kind;
        let (_, row) = ROWS.iter().find(|(k, _)| *k == kind).expect("a row for each kind");
        row.iter().copied().filter(|&number| breaks(number, s, e)).collect()
    }
}

/// Takes an accepted event into the state.
pub fn take(s: &mut State, e: &Event) {
    s.events += 1;
    let now = s.events as usize;
    if e.is_lock() {
        take_lock(s, e, now);
    } else {
        take_access(s, e, now);
    }
}

fn take_lock(s: &mut State, e: &Event, now: usize) {
    let (t, a) = (e.thread, &mut s.holds[e.place]);
    match e.letter {
        b'K' => *a = Hold { holder: t + 1, depth: a.depth + 1 },
        b'N' => {
            a.depth -= 1;
            a.holder = if a.depth == 0 { 0 } else { a.holder };
        }
        b'Y' => {
            s.waits[t] = Wait { lock: e.place + 1, depth: a.depth, notified: false };
            *a = Hold { holder: 0, depth: 0 };
        }
        b'F' => s.waits[e.value as usize].notified = true,
        // in a state that no events reach the lock may be held already; what the wait remembers is what is held then
        _ => {
            *a = Hold { holder: t + 1, depth: s.waits[t].depth };
            s.waits[t] = Wait { lock: 0, depth: 0, notified: false };
        }
    }
    if matches!(e.letter, b'K' | b'C') {
        s.locked[t] = now;
    }
}

fn take_access(s: &mut State, e: &Event, now: usize) {
    let (p, x) = (e.place, e.value);
    let i = cell(e.thread, p);
    let c = &mut s.cells[i];
    if e.letter != b'R' && e.letter != b'W' {
        (c.after_load, c.after_assign) = (e.letter == b'L', e.letter == b'A');
    }
    let behind = |q: Ring| 8 * i + (usize::from(q.first) + usize::from(q.len)) % 8;
    let popped = |q: Ring| Ring { first: ((usize::from(q.first) + 1) % 8) as u8, len: q.len - 1 };
    match e.letter {
        b'A' | b'B' => {
            c.copy = x;
            c.source = now;
            c.fresh = e.letter == b'A';
            c.assigned = if c.fresh { now } else { c.assigned };
            c.pending = c.pending && e.letter == b'A';
        }
        b'L' => {
            let read = s.reads[8 * i + usize::from(c.reads.first) % 8];
            c.copy = x;
            c.source = c.source.max(read.position);
            c.loaded = read.position;
            c.reads = popped(c.reads);
        }
        b'S' | b'P' => {
            // a store has the position of its assign, an early one its own
            let mut position = now;
            if e.letter == b'S' {
                c.fresh = false;
                position = c.assigned;
            } else {
                (c.pending, c.announced) = (true, x);
            }
            s.stores[behind(c.stores)] = Slot { value: x, position };
            c.stores.len += 1;
        }
        b'R' => {
            s.reads[behind(c.reads)] = Slot { value: x, position: now };
            c.reads.len += 1;
        }
        b'W' => {
            c.stores = popped(c.stores);
            c.written = now;
            s.memory[p] = x;
        }
        b'U' => c.used = c.loaded,
        _ => {}
    }
}

/// The positions, from 1, of a thread's events of these kinds on a variable.
fn positions(es: &[marker_a::Event], t: u32, v: u32, kinds: &[Kind]) -> Vec<usize> {
    let fits = |e: &marker_a::Event| kinds.contains(&e.kind) && (e.thread, e.target) == (t, v);
    (0..es.len()).filter(|&i| fits(&es[i])).map(|i| i + 1).collect()
}

/// The read of the latest load, by pairing; 0 where there is none.
fn read_of_latest_load(es: &[marker_a::Event], t: u32, v: u32) -> usize {
    let loads = positions(es, t, v, &[Kind::L]).len();
    loads.checked_sub(1).map_or(0, |last| positions(es, t, v, &[Kind::R])[last])
}

/// What (f) keeps of a thread and a variable, from the list: loaded, used, assigned, after_load and after_assign.
fn kept_of(es: &[marker_a::Event], t: u32, v: u32) -> (usize, usize, usize, bool, bool) {
    let last = |kinds: &[Kind]| positions(es, t, v, kinds).last().copied().unwrap_or(0);
    let own = last(&[Kind::U, Kind::A, Kind::L, Kind::S, Kind::P, Kind::B]);
    let latest = own.checked_sub(1).map(|i| es[i].kind);
    // of the events before the latest use
    let used = read_of_latest_load(&es[..last(&[Kind::U])], t, v);
    (read_of_latest_load(es, t, v), used, last(&[Kind::A]), latest == Some(Kind::L), latest == Some(Kind::A))
}

/// The position that the slot of a store has: its assign's, or its own for an early one.
fn position_of_store(es: &[marker_a::Event], place: usize) -> usize {
    let store = es[place];
    match store.kind {
        Kind::P => place + 1,
        _ => positions(&es[..place], store.thread, store.target, &[Kind::A]).last().copied().unwrap_or(0),
    }
}

/// What a thread waits for, from the list: lock and 1, the holds that its Y gave up, whether it is notified; zeros where it does not wait.
fn wait_of(s: &State, es: &[marker_a::Event], t: u32) -> (usize, usize, bool) {
    let lock = (0..s.counts.locks as u32).find(|&l| rules::waits_on(es, t, l));
    lock.map_or((0, 0, false), |l| (l as usize + 1, rules::remembered(es, t, l), rules::notified(es, t, l)))
}

/// The words of marker A over a list of accepted events, against the state's fields. The first that differs.
pub fn differs(s: &State, es: &[marker_a::Event]) -> Option<String> {
    use Kind::{C, K, W};
    let said = |right: bool, what: &str| (!right).then(|| what.to_string());
    let last = |kind, t: u32, v: Option<u32>| {
        let found = es.iter().rposition(|e| e.kind == kind && e.thread == t && v.is_none_or(|v| e.target == v));
        found.map_or(0, |i| i + 1)
    };
    let held = |slots: &[Slot], i: usize, q: Ring| queue(i, q).map(|p| slots[p]).collect::<Vec<Slot>>();
    let reads =
        |places: Vec<usize>| -> Vec<Slot> { places.into_iter().map(|i| Slot { value: es[i].value, position: i + 1 }).collect() };
    let stores = |places: Vec<usize>| -> Vec<Slot> {
        places.into_iter().map(|i| Slot { value: es[i].value, position: position_of_store(es, i) }).collect()
    };
    let mut wrong = said(s.events as usize == es.len(), "events");
    for t in 0..s.counts.threads as u32 {
        let locked = last(K, t, None).max(last(C, t, None));
        wrong = wrong.or_else(|| said(s.locked[t as usize] == locked, "last lock")).or_else(|| {
            let wait = s.waits[t as usize];
            said((wait.lock, wait.depth as usize, wait.notified) == wait_of(s, es, t), "wait")
        });
        for v in 0..s.counts.variables as u32 {
            let i = cell(t as usize, v as usize);
            let c = &s.cells[i];
            let usable = c.source > s.locked[t as usize];
            wrong = wrong
                .or_else(|| said(rules::copy(es, t, v).is_none_or(|x| c.copy == x), "copy"))
                .or_else(|| said(rules::fresh(es, t, v) == c.fresh, "fresh"))
                .or_else(|| said(rules::owed(es, t, v) == c.pending, "owed"))
                .or_else(|| said(rules::usable(es, t, v) == usable, "usable"))
                .or_else(|| said(last(W, t, Some(v)) == c.written, "last write"))
                .or_else(|| said(reads(rules::outstanding_reads(es, t, v)) == held(&s.reads, i, c.reads), "reads"))
                .or_else(|| said(stores(rules::outstanding_stores(es, t, v)) == held(&s.stores, i, c.stores), "stores"))
                .or_else(|| {
                    let kept = (c.loaded, c.used, c.assigned, c.after_load, c.after_assign);
                    said(kept_of(es, t, v) == kept, "loaded, used, assigned, after_load or after_assign")
                });
        }
        for l in 0..s.counts.locks as u32 {
            let a = s.holds[l as usize];
            let depth = if a.holder == t as usize + 1 { a.depth as usize } else { 0 };
            wrong = wrong.or_else(|| said(depth == rules::depth(es, t, l), "depth"));
        }
    }
    for v in 0..s.counts.variables {
        wrong = wrong.or_else(|| said(s.memory[v] == rules::main_memory(es, v as u32), "main memory"));
    }
    wrong
}
