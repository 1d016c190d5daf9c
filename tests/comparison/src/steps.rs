//! Single steps of the proved marker: from states that events reach, against marker A; from other states in range, and from states
//! out of range, against the model.

use crate::c_api::{Cell, Counts, Hold, Kept, Reply, Ring, Slot, State, Wait};
use crate::model;
use marker_a::paper;
use papers::generate::{self, on_lock, one_bit_off, some_volatiles, Rng, DOUBLES, LETTERS, OF_64_BITS, PAIRS, WAITING};
use papers::shrink::shrink;
use papers::{by_a, Course, Event, Value};
use std::collections::BTreeMap;

const PRINTED_FAILURES: usize = 20;

#[derive(Default)]
pub struct Tally {
    pub passed: usize,
    pub failed: usize,
    pub accepted: usize,
    pub refused: usize,
    /// how often the course's limit of events was the answer, along traces and from other states; and how often a step of the short course
    /// was held to the same one of the full course, accepted and refused
    pub over: [usize; 2],
    pub alike: [usize; 2],
    /// from states in range: how often a letter had an answer, and broke a later rule of its row too; 0 stands for none
    pub answers: BTreeMap<(u8, u32, u32), usize>,
    /// the same for each part of 16 at N, and at Y
    pub unlocks: [[usize; UNLOCKS.len()]; 2],
    /// and for 18 at a letter where the values have the same low 32 bits
    pub halves: BTreeMap<u8, usize>,
    /// for each part of 27 that held alone, at a letter, of its own variable or of another
    pub parts: BTreeMap<(u8, usize, bool), usize>,
    /// and for each of `VOLATILES` and of `WAITS`
    pub volatiles: [usize; VOLATILES.len()],
    pub waits: Vec<usize>,
}

impl Tally {
    /// Whether failures are still printed.
    fn prints(&self) -> bool {
        self.failed < PRINTED_FAILURES
    }

    /// The report of a failure in the last step of these events, with the smallest paper that shows it.
    fn smaller(&self, course: Course, said: Result<(), String>, counts: papers::Counts, events: &[Event]) -> Result<(), String> {
        said.map_err(|report| if self.prints() { smallest(course, counts, events, report) } else { report })
    }

    fn count(&mut self, reply: (usize, usize), said: Result<(), String>) {
        if reply.0 == 0 {
            self.accepted += 1;
        } else {
            self.refused += 1;
        }
        match said {
            Ok(()) => self.passed += 1,
            Err(report) => {
                if self.prints() {
                    println!("FAILED {report}");
                }
                self.failed += 1;
            }
        }
    }
}

fn kept_counts(c: papers::Counts) -> Counts {
    Counts { threads: c.threads, variables: c.variables, locks: c.locks, volatiles: c.volatiles }
}

/// One step: the reply that is wanted, and the state byte for byte as it was after a refusal, its padding included.
fn stepped(course: Course, before: &Kept, e: &Event, wanted: (usize, usize)) -> Result<Kept, String> {
    let mut before = before.clone();
    before.paint();
    let mut after = before.clone();
    let Reply { number, line } = after.step(course, e);
    if (number, line) != wanted {
        return Err(format!("{}: number and line {number} {line}, wanted {} {}", e.line(), wanted.0, wanted.1));
    }
    if number != 0 && after != before {
        return Err(format!("{}: refused, and the state is changed", e.line()));
    }
    Ok(after)
}

// ---- states that events reach

/// One step after these accepted events: marker A's verdict; and after an accepted one the state that replaying gives, which has
/// marker A's words.
fn after_events(
    course: Course,
    before: &Kept,
    counts: papers::Counts,
    earlier: &[Event],
    list: &[marker_a::Event],
    e: &Event,
) -> ((usize, usize), Result<(), String>) {
    let number = by_a::judge(course, list, by_a::counts(counts), &by_a::event(e)) as usize;
    let reply = if number == 0 { (0, 0) } else { (number, earlier.len() + counts.first_line() as usize) };
    let said = stepped(course, before, e, reply).and_then(|after| {
        if number != 0 {
            return Ok(());
        }
        let mut again = Kept::initial(kept_counts(counts));
        for e in earlier.iter().chain([e]) {
            again.step(course, e);
        }
        if *after != *again {
            return Err(format!("{}: replaying gives another state", e.line()));
        }
        let longer: Vec<marker_a::Event> = list.iter().copied().chain([by_a::event(e)]).collect();
        model::differs(&after, &longer).map_or(Ok(()), |word| Err(format!("{}: {word} in the state", e.line())))
    });
    (reply, said)
}

/// The events of a paper, one step after the other, up to the first that is refused or answered wrongly.
fn steps_of(course: Course, bytes: &[u8]) -> Result<(), String> {
    let Ok(parts) = paper::find(bytes) else { return Ok(()) };
    let c = parts.counts;
    let plain = papers::Counts::new(c.threads as usize, c.variables as usize, c.locks as usize);
    let counts = papers::Counts { volatiles: c.volatiles, ..plain };
    let mut state = Kept::initial(kept_counts(counts));
    let (mut earlier, mut list) = (Vec::new(), Vec::new());
    for line in parts.body.split(|&b| b == 10) {
        let Some(event) = paper::event(line) else { return Ok(()) };
        let (thread, place) = (event.thread as usize, event.target as usize);
        let e = Event { letter: line[0], thread, place, value: event.value };
        let (reply, said) = after_events(course, &state, counts, &earlier, &list, &e);
        said?;
        if reply.0 != 0 {
            return Ok(());
        }
        state.step(course, &e);
        earlier.push(e);
        list.push(event);
    }
    Ok(())
}

/// The smallest paper of these events whose last step is answered wrongly.
fn smallest(course: Course, counts: papers::Counts, events: &[Event], report: String) -> String {
    let whole = generate::paper(counts, None, events);
    let small = shrink(&whole, &|p| steps_of(course, p).is_err());
    let report = steps_of(course, &small).err().unwrap_or(report);
    format!("step, the smallest paper:\n{}{report}", String::from_utf8_lossy(&small))
}

/// The value that an event must bear, where something fixes it. A queue may be empty.
fn due(s: &State, letter: u8, thread: usize, place: usize) -> Option<Value> {
    let i = 16 * (thread % 8) + place % 16;
    let c = &s.cells[i];
    let oldest = |slots: &[Slot], q: Ring| slots[8 * i + usize::from(q.first) % 8].value;
    match letter {
        b'U' | b'S' => Some(c.copy),
        b'L' => Some(oldest(&s.reads, c.reads)),
        b'W' => Some(oldest(&s.stores, c.stores)),
        b'R' => Some(s.memory[place % 16]),
        b'B' => Some(c.announced),
        _ => None,
    }
}

/// An event, often one that some state accepts: declared in most cases, with the value that is due, or one that differs from it in one bit.
fn any_event(rng: &mut Rng, s: &State) -> Event {
    // 27 and what is accepted beside it more often, where a variable is volatile
    let letter = if s.counts.volatiles.contains(&true) && rng.chance(40) { rng.pick(b"UUWWS") } else { rng.pick(LETTERS) };
    let lock = on_lock(letter);
    let Counts { threads, variables, locks, .. } = s.counts;
    let mut number = |n: usize, usual: usize| match rng.below(40) {
        0 => usual,
        1 => usize::MAX,
        _ => rng.below(n.clamp(1, usual)),
    };
    let thread = number(threads, 8);
    let place = if lock { number(locks, 8) } else { number(variables, 16) };
    let due = due(s, letter, thread, place).unwrap_or_else(|| rng.pick(OF_64_BITS));
    let value = match rng.below(10) {
        0 => rng.next() as Value,
        1..=4 => one_bit_off(rng, due),
        _ => due,
    };
    let e = Event { letter, thread, place, value };
    if WAITING.contains(&letter) {
        timely(rng, s, e)
    } else {
        e
    }
}

/// A Y, F or C that some state accepts, in most cases: of a thread that holds the lock, for one that waits on it, of one that waits on it.
fn timely(rng: &mut Rng, s: &State, e: Event) -> Event {
    let Counts { threads, locks, .. } = s.counts;
    let value = match rng.below(20) {
        // not declared: negative, too large, with the low 32 bits of a declared one
        0 => rng.pick(&[-1, Value::MIN, threads as Value, 8, 255, Value::MAX]),
        1 => Value::from(rng.pick(&[1i32, -1])) << 32 | rng.below(threads.clamp(1, 8)) as Value,
        _ if e.letter == b'F' => rng.below(threads.clamp(1, 8)) as Value,
        _ => e.value,
    };
    let e = Event { value, ..e };
    let holds: Vec<(usize, usize)> =
        (0..locks.min(8)).filter(|&l| s.holds[l].holder != 0).map(|l| (s.holds[l].holder - 1, l)).collect();
    let waits: Vec<(usize, usize)> =
        (0..threads.min(8)).filter(|&t| s.waits[t].lock != 0).map(|t| (t, s.waits[t].lock - 1)).collect();
    if rng.chance(25) {
        return e;
    }
    match e.letter {
        b'Y' if !holds.is_empty() => {
            let (thread, place) = rng.pick(&holds);
            Event { thread, place, ..e }
        }
        b'C' if !waits.is_empty() => {
            let (thread, place) = rng.pick(&waits);
            Event { thread, place, ..e }
        }
        b'F' if !waits.is_empty() => {
            let (told, place) = rng.pick(&waits);
            let holder = holds.iter().find(|hold| hold.1 == place).map_or(e.thread, |hold| hold.0);
            let e = Event { value: told as Value, ..e };
            match rng.below(8) {
                // of another lock that its thread holds; of another's lock
                0 | 1 if !holds.is_empty() => {
                    let (thread, place) = rng.pick(&holds);
                    Event { thread, place, ..e }
                }
                2 | 3 => Event { place, ..e },
                _ => Event { thread: holder, place, ..e },
            }
        }
        _ => e,
    }
}

/// Counts of a course, and about so many accepted events, some of them over its limit.
fn trace(rng: &mut Rng, course: Course, length: usize) -> (papers::Counts, Vec<Event>) {
    let (counts, _, events) = match course {
        Course::Full => generate::long(rng, length, 0, false),
        Course::Short => {
            let most = course.counts();
            let (threads, variables) = (rng.between(1, most.threads), rng.between(1, most.variables));
            let mut counts = papers::Counts::new(threads, variables, rng.between(0, most.locks));
            if rng.chance(50) {
                counts.volatiles = some_volatiles(rng, variables);
            }
            let waiting = threads > 1 && counts.locks > 0 && rng.chance(50);
            generate::long_with(rng, counts, OF_64_BITS, length, 0, false, waiting)
        }
    };
    (counts, events)
}

/// Along one trace of about `length` events: each event up to the limit; and at `stops` places of it and at its end `each` other events, and
/// there the one past the limit, where the trace has it.
pub fn walk(tally: &mut Tally, rng: &mut Rng, course: Course, length: usize, stops: usize, each: usize) {
    let (counts, mut events) = trace(rng, course, length);
    let last = events.get(course.events() as usize).copied();
    events.truncate(course.events() as usize);
    let list: Vec<marker_a::Event> = events.iter().map(by_a::event).collect();
    let mut state = Kept::initial(kept_counts(counts));
    let share = events.len() / stops.max(1) + 1;
    for (i, next) in events.iter().map(Some).chain([None]).enumerate() {
        if i % share == 0 || next.is_none() {
            let others = (0..each).map(|_| any_event(rng, &state)).chain(last.filter(|_| next.is_none()));
            for e in others.collect::<Vec<Event>>() {
                let (reply, said) = after_events(course, &state, counts, &events[..i], &list[..i], &e);
                let said = tally.smaller(course, said, counts, &[&events[..i], &[e]].concat());
                tally.over[0] += usize::from(reply.0 == course.over() as usize);
                tally.count(reply, said);
            }
        }
        if let Some(e) = next {
            let said = stepped(course, &state, e, (0, 0)).map(|after| state = after);
            let said = tally.smaller(course, said, counts, &events[..=i]);
            tally.count((0, 0), said);
        }
    }
}

// ---- states that events need not reach

/// A number up to n: 0 and n more often than others.
fn position(rng: &mut Rng, n: usize) -> usize {
    let any = rng.below(n + 1);
    rng.pick(&[0, n, any])
}

/// A cell in range after n events.
fn cell_in_range(rng: &mut Rng, n: usize, bars: usize, value: &impl Fn(&mut Rng) -> Value) -> Cell {
    let ring = |rng: &mut Rng| Ring { first: rng.next() as u8, len: position(rng, 8) as u8 };
    let mut c = Cell {
        copy: value(rng),
        announced: value(rng),
        source: position(rng, n),
        written: position(rng, n),
        loaded: position(rng, n),
        used: position(rng, n),
        assigned: position(rng, n),
        reads: ring(rng),
        stores: ring(rng),
        fresh: rng.chance(30),
        pending: rng.chance(10),
        after_load: rng.chance(40),
        after_assign: rng.chance(30),
    };
    match bars {
        // half of the states have no thread that bars a lock or an unlock
        0 | 1 => (c.pending, c.fresh, c.stores.len) = (false, false, 0),
        // a quarter have early stores that wait, and few others
        2 => {
            (c.pending, c.fresh) = (rng.chance(50), false);
            c.stores.len = u8::from(c.pending && rng.chance(70)) + u8::from(rng.chance(8));
        }
        _ => {}
    }
    c
}

/// What a part of the cells of a calm state has: a fresh assign, outstanding stores, a late write, a late use.
type Theme = (bool, bool, bool, bool);
const THEMES: [Theme; 5] = [
    (true, false, false, false),
    (false, true, false, false),
    (false, false, true, false),
    (false, false, false, true),
    (true, true, false, false),
];

/// Makes a cell one whose thread seldom breaks 27, but by its theme: nothing is unwritten, and the read that is loaded came after what is
/// written and used.
fn calm(rng: &mut Rng, n: usize, theme: Theme, c: &mut Cell) {
    let half = n / 2;
    let mut has = |themed: bool| rng.chance(if themed { 25 } else { 1 });
    let (fresh, stores, written, used) = (has(theme.0), has(theme.1), has(theme.2), has(theme.3));
    c.fresh = fresh;
    c.stores.len = if stores { rng.between(1, 3) as u8 } else { 0 };
    c.written = position(rng, if written { n } else { half });
    c.used = position(rng, if used { n } else { half });
    c.loaded = n - position(rng, half);
    // an assign that is fresh is the latest event in most cells
    c.after_assign = if fresh { rng.chance(60) } else { rng.chance(5) };
    c.after_load = !c.after_assign && rng.chance(70);
}

/// A state in range, with anything in the places past a queue's count. In half of them some variables are volatile, and most of these are calm.
pub fn state_in_range(rng: &mut Rng, course: Course) -> Kept {
    let (most, events) = (course.counts(), course.events() as usize);
    let (threads, variables) = (rng.between(1, most.threads), rng.between(1, most.variables));
    let volatile = rng.chance(50);
    let volatiles = if volatile { some_volatiles(rng, variables) } else { [false; 16] };
    let counts = Counts { threads, variables, locks: rng.between(0, most.locks), volatiles };
    let mut s = Kept::initial(counts);
    let any = position(rng, events);
    let n = rng.pick(&[1, 50, events - 1, any, any, any]);
    s.events = n as u32;
    let few = rng.chance(50);
    let bars = rng.below(4);
    let theme = (volatile && rng.chance(60)).then(|| rng.pick(&THEMES));
    let near = rng.pick(OF_64_BITS);
    let pool = [near, one_bit_off(rng, near)];
    let value = |rng: &mut Rng| if few { rng.pick(&pool) } else { rng.next() as Value };
    for i in 0..128 {
        let mut c = cell_in_range(rng, n, bars, &value);
        if let Some(theme) = theme {
            calm(rng, n, theme, &mut c);
        }
        s.cells[i] = c;
        for k in 0..8 {
            s.reads[8 * i + k] = Slot { value: value(rng), position: rng.next() as usize };
            s.stores[8 * i + k] = Slot { value: value(rng), position: rng.next() as usize };
        }
        for k in 0..usize::from(c.reads.len) {
            s.reads[8 * i + (usize::from(c.reads.first) + k) % 8].position = position(rng, n);
        }
        for k in 0..usize::from(c.stores.len) {
            s.stores[8 * i + (usize::from(c.stores.first) + k) % 8].position = position(rng, n);
        }
    }
    for i in 0..8 {
        s.locked[i] = position(rng, n);
        if n > 0 && rng.chance(50) {
            s.holds[i] = Hold { holder: rng.between(1, counts.threads), depth: position(rng, n).max(1) as u32 };
        }
    }
    for x in s.memory.iter_mut() {
        *x = value(rng);
    }
    // in half of the states no thread waits, in a quarter few do; of one that does not, depth and notified may be anything
    let waiting = if n > 0 && counts.locks > 0 { rng.pick(&[0, 0, 20, 60]) } else { 0 };
    for wait in s.waits.iter_mut() {
        *wait = if rng.chance(waiting) {
            Wait { lock: rng.between(1, counts.locks), depth: position(rng, n).max(1) as u32, notified: rng.chance(50) }
        } else {
            Wait { lock: 0, depth: rng.next() as u32, notified: rng.chance(50) }
        };
    }
    s
}

/// A part of 16 at N and at Y: its name, the answer, and what holds of the thread's variables, of each whether an assign is owed and how many
/// stores are outstanding.
type Unlock = (&'static str, u32, fn(&[(bool, u8)]) -> bool);
const UNLOCKS: [Unlock; 4] = [
    ("one store and its assign owed", 0, |cells| cells.contains(&(true, 1))),
    ("two stores and an assign owed", 16, |cells| alone(cells, (true, 2))),
    ("one store and no assign owed", 16, |cells| alone(cells, (false, 1))),
    ("no more stores than assigns owed", 16, |cells| {
        let stores: usize = cells.iter().map(|c| usize::from(c.1)).sum();
        stores <= cells.iter().filter(|c| c.0).count()
    }),
];

/// Whether some variable is so, and the others have no store or an early one alone.
fn alone(cells: &[(bool, u8)], so: (bool, u8)) -> bool {
    cells.contains(&so) && cells.iter().all(|&c| c == so || c.1 == 0 || c == (true, 1))
}

/// Counts the parts of 16 that an N or Y with this answer meets.
fn count_unlock(tally: &mut Tally, s: &State, e: &Event, answer: u32) {
    let cells: Vec<(bool, u8)> =
        s.cells[16 * e.thread..][..s.counts.variables].iter().map(|c| (c.pending, c.stores.len)).collect();
    for ((_, number, holds), times) in UNLOCKS.iter().zip(&mut tally.unlocks[usize::from(e.letter == b'Y')]) {
        *times += usize::from(*number == answer && holds(&cells));
    }
}

/// What must occur of events on volatile variables: its name, the letter, the answer, and what holds of the state and the event.
type Volatile = (&'static str, u8, u32, fn(&State, &Event) -> bool);
const VOLATILES: [Volatile; 13] = [
    ("accepted, another written or used", b'U', 0, |s, e| others(s, e).any(|c| c.written > 0 && c.used > 0)),
    ("the last write at its read", b'U', 27, |s, e| others(s, e).any(|c| c.written == own(s, e).loaded)),
    ("the read of a use at its read", b'U', 27, |s, e| others(s, e).any(|c| c.used == own(s, e).loaded)),
    ("no read is loaded", b'U', 27, |s, e| own(s, e).loaded == 0),
    ("accepted", b'A', 0, |_, _| true),
    ("accepted", b'L', 0, |_, _| true),
    ("accepted", b'S', 0, |_, _| true),
    ("accepted, another has a store", b'W', 0, |s, e| others(s, e).any(|c| c.stores.len > 0)),
    ("accepted, another has a fresh assign", b'W', 0, |s, e| others(s, e).any(|c| c.fresh)),
    ("accepted, its own fresh assign", b'W', 0, |s, e| own(s, e).fresh),
    ("after a load and an assign", b'U', 26, |s, e| own(s, e).after_load && own(s, e).after_assign),
    ("after a load and an assign", b'S', 26, |s, e| own(s, e).after_load && own(s, e).after_assign),
    ("owed", b'B', 28, |s, e| own(s, e).pending),
];

/// What must occur of waiting: its name, the letter, the answer, and what holds of the state and the event.
type Waits = (&'static str, u8, u32, fn(&State, &Event) -> bool);
const WAITS: [Waits; 37] = [
    ("a negative thread", b'F', 5, |_, e| e.value < 0),
    ("a thread that is not declared", b'F', 5, |s, e| e.value >= s.counts.threads as Value),
    ("a thread with the low 32 bits of a declared one", b'F', 5, |s, e| (e.value as u32 as usize) < s.counts.threads),
    ("on the lock it waits on", b'K', 29, |s, e| s.waits[e.thread].lock == e.place + 1),
    ("on another lock", b'K', 29, |s, e| s.waits[e.thread].lock != e.place + 1),
    ("held", b'K', 29, |s, e| s.holds[e.place].holder == e.thread + 1),
    ("held", b'N', 29, |s, e| s.holds[e.place].holder == e.thread + 1),
    ("held, on the lock it waits on", b'Y', 29, |s, e| {
        s.holds[e.place].holder == e.thread + 1 && s.waits[e.thread].lock == e.place + 1
    }),
    ("held, on another lock", b'Y', 29, |s, e| s.holds[e.place].holder == e.thread + 1 && s.waits[e.thread].lock != e.place + 1),
    ("held, for one that may be notified", b'F', 29, |s, e| {
        s.holds[e.place].holder == e.thread + 1 && model::wait_parts(s, e)[4]
    }),
    ("notified", b'A', 29, |s, e| s.waits[e.thread].notified),
    ("not notified", b'A', 29, |s, e| !s.waits[e.thread].notified),
    ("notified", b'B', 29, |s, e| s.waits[e.thread].notified && own(s, e).pending),
    ("of a waiting thread", b'R', 0, |s, e| s.waits[e.thread].lock != 0),
    ("of a waiting thread", b'W', 0, |s, e| s.waits[e.thread].lock != 0),
    ("for itself, held", b'F', 30, |s, e| e.value == e.thread as Value && s.holds[e.place].holder == e.thread + 1),
    ("for one that does not wait", b'F', 30, |s, e| model::wait_parts(s, e)[1] && s.holds[e.place].holder == e.thread + 1),
    ("for one that waits on another lock", b'F', 30, |s, e| {
        model::wait_parts(s, e)[2] && s.holds[e.place].holder == e.thread + 1
    }),
    ("for one that waits on another lock, notified", b'F', 30, |s, e| {
        model::wait_parts(s, e)[2] && s.waits[e.value as usize].notified
    }),
    ("for one that is notified", b'F', 30, |s, e| model::wait_parts(s, e)[3] && s.holds[e.place].holder == e.thread + 1),
    ("for one that does not wait, its flag set", b'F', 30, |s, e| {
        model::wait_parts(s, e)[1] && s.waits[e.value as usize].notified
    }),
    ("the lock free", b'F', 12, |s, e| s.holds[e.place].holder == 0),
    ("the lock another's", b'F', 12, |s, e| s.holds[e.place].holder != 0),
    ("accepted, others wait", b'F', 0, |s, _| s.waits.iter().filter(|w| w.lock != 0).count() > 1),
    ("of one that does not wait, the lock free", b'C', 30, |s, e| model::wait_parts(s, e)[1] && s.holds[e.place].holder == 0),
    ("of one that does not wait, its flag set", b'C', 30, |s, e| model::wait_parts(s, e)[1] && s.waits[e.thread].notified),
    ("of one that waits on another lock, notified", b'C', 30, |s, e| {
        model::wait_parts(s, e)[2] && s.waits[e.thread].notified && s.holds[e.place].holder == 0
    }),
    ("of one that waits on another lock, not notified", b'C', 30, |s, e| {
        model::wait_parts(s, e)[2] && !s.waits[e.thread].notified
    }),
    ("of one that is not notified", b'C', 30, |s, e| model::wait_parts(s, e)[4] && s.holds[e.place].holder == 0),
    ("the lock free", b'C', 0, |s, e| s.holds[e.place].holder == 0),
    ("the lock its own, of another depth", b'C', 0, |s, e| {
        s.holds[e.place].holder == e.thread + 1 && s.holds[e.place].depth != s.waits[e.thread].depth
    }),
    ("as many holds as events", b'C', 0, |s, e| s.waits[e.thread].depth == s.events),
    ("of one that is notified", b'C', 11, |s, e| s.waits[e.thread].notified),
    ("of one that is notified", b'C', 13, |s, e| s.waits[e.thread].notified),
    ("several holds", b'Y', 0, |s, e| s.holds[e.place].depth > 1),
    ("another lock held", b'Y', 0, |s, e| s.holds.iter().enumerate().any(|(l, a)| l != e.place && a.holder == e.thread + 1)),
    ("another depth and flag in its wait", b'Y', 0, |s, e| {
        s.waits[e.thread].notified && s.waits[e.thread].depth != s.holds[e.place].depth
    }),
];

/// Counts what an event on or beside waiting threads with this answer meets. It is declared but for the thread that an F notifies.
fn count_waits(tally: &mut Tally, s: &State, e: &Event, answer: u32) {
    tally.waits.resize(WAITS.len(), 0);
    for ((_, letter, number, holds), times) in WAITS.iter().zip(&mut tally.waits) {
        *times += usize::from((*letter, *number) == (e.letter, answer) && holds(s, e));
    }
}

/// The cell of an event on a variable.
fn own<'a>(s: &'a State, e: &Event) -> &'a Cell {
    &s.cells[16 * e.thread + e.place]
}

/// The thread's cells of the other volatile variables.
fn others<'a>(s: &'a State, e: &Event) -> impl Iterator<Item = &'a Cell> {
    let (thread, place) = (e.thread, e.place);
    (0..s.counts.variables).filter(move |&v| v != place && s.counts.volatiles[v]).map(move |v| &s.cells[16 * thread + v])
}

/// The parts of 27 that an event must meet alone: letter, part, and whether of its own variable.
fn parts_of_27() -> Vec<(u8, usize, bool)> {
    let uses = (0..4).flat_map(|part| [(b'U', part, true), (b'U', part, false)]);
    // its own oldest store is not before itself
    uses.chain([(b'W', 0, false), (b'W', 1, true), (b'W', 1, false)]).collect()
}

/// Counts what an event on a volatile variable with this answer meets.
fn count_volatile(tally: &mut Tally, s: &State, e: &Event, answer: u32) {
    for ((_, letter, number, holds), times) in VOLATILES.iter().zip(&mut tally.volatiles) {
        *times += usize::from((*letter, *number) == (e.letter, answer) && holds(s, e));
    }
    if answer == 27 {
        let parts = if e.letter == b'U' { model::use_parts(s, e).to_vec() } else { model::write_parts(s, e).to_vec() };
        let of = |part: usize| parts[part].iter().map(move |&v| (e.letter, part, v == e.place));
        let mut all: Vec<(u8, usize, bool)> = (0..parts.len()).flat_map(of).collect();
        all.dedup();
        if let [alone] = all[..] {
            *tally.parts.entry(alone).or_insert(0) += 1;
        }
    }
}

/// One step against the model, the state after it included; in the short course against the full one too, where neither limit nor 8 is the
/// answer.
fn against_model(tally: &mut Tally, course: Course, before: &Kept, e: &Event) {
    let broken = model::broken(course, before, e);
    let number = broken.first().copied().unwrap_or(0);
    for later in [0].iter().chain(broken.iter().skip(1)) {
        *tally.answers.entry((e.letter, number, *later)).or_insert(0) += 1;
    }
    if matches!((e.letter, number), (b'N' | b'Y', 0 | 16)) {
        count_unlock(tally, before, e, number);
    }
    if number == 18 && due(before, e.letter, e.thread, e.place).is_some_and(|x| x as u32 == e.value as u32) {
        *tally.halves.entry(e.letter).or_insert(0) += 1;
    }
    if ![5, 8, course.over()].contains(&number) && model::is_volatile(before, e) {
        count_volatile(tally, before, e, number);
    }
    let places = if e.is_lock() { before.counts.locks } else { before.counts.variables };
    if ![8, course.over()].contains(&number) && e.thread < before.counts.threads && e.place < places {
        count_waits(tally, before, e, number);
    }
    tally.over[1] += usize::from(number == course.over());
    let line = if number == 8 { 0 } else { before.events as usize + before.counts.first_line() };
    let reply = if number == 0 { (0, 0) } else { (number as usize, line) };
    let said = stepped(course, before, e, reply).and_then(|after| {
        let mut wanted = before.clone();
        if reply.0 == 0 {
            model::take(&mut wanted, e);
        }
        if *after != *wanted {
            return Err(format!("{}: another state after it", e.line()));
        }
        if course == Course::Short && ![8, course.over()].contains(&number) {
            let full = stepped(Course::Full, before, e, reply).map_err(|report| format!("full course: {report}"))?;
            if *full != *after {
                return Err(format!("{}: the full course has another state after it", e.line()));
            }
            tally.alike[usize::from(number > 0)] += 1;
        }
        Ok(())
    });
    let shown =
        |report| format!("{report}; {:?}, {} events, {:?}, {:?}", before.counts, before.events, before.holds, before.waits);
    tally.count(reply, said.map_err(shown));
}

/// From a state in the range of a course, which may be another: its limits are 8 then.
pub fn in_range(tally: &mut Tally, rng: &mut Rng, course: Course, of: Course, each: usize) {
    let s = state_in_range(rng, of);
    assert!(!model::out_of_range(of, &s));
    for _ in 0..each {
        let e = any_event(rng, &s);
        against_model(tally, course, &s, &e);
    }
}

/// Refusals, and two of them at once, that no event of a paper meets: only a step from a state that no events reach.
const IN_NO_PAPER: [(u8, u32, u32); 21] = [
    (b'L', 15, 0),
    (b'L', 16, 0),
    (b'L', 13, 16),
    (b'L', 15, 16),
    (b'L', 15, 18),
    (b'L', 16, 18),
    (b'R', 19, 23),
    (b'P', 19, 23),
    (b'L', 26, 13),
    (b'S', 26, 13),
    (b'P', 26, 13),
    (b'P', 28, 13),
    (b'B', 26, 18),
    (b'B', 28, 18),
    (b'L', 29, 15),
    (b'S', 29, 19),
    (b'P', 29, 19),
    (b'N', 29, 15),
    (b'N', 29, 16),
    (b'Y', 29, 15),
    (b'Y', 29, 16),
];

/// Each refusal of each row, each two that one event can break, each part of 16 at N and at Y, and 18 of values with the same low 32 bits at
/// each letter occurred in the steps from states in range, each part of 27 alone, of its own variable and of another, and each of `VOLATILES`
/// and of `WAITS`; and the course's limit of events, there and along traces, and in the short course steps that were held to the full one.
/// Prints how often those with 15, 16, 23 or 26 to 30, these parts and the limits did.
pub fn every_answer(tally: &mut Tally, course: Course) {
    tally.waits.resize(WAITS.len(), 0);
    let pairs = PAIRS.map(|(letter, number)| (letter, number, 0));
    let mut all = Vec::new();
    for (letter, number, later) in pairs.into_iter().chain(DOUBLES).chain([(b'U', 26, 27)]).chain(IN_NO_PAPER) {
        let times = tally.answers.get(&(letter, number, later)).copied().unwrap_or(0);
        let beside = if later == 0 { String::new() } else { format!(" beside {later}") };
        let shown = [15, 16, 23, 26, 27, 28, 29, 30].iter().any(|n| [number, later].contains(n)) || WAITING.contains(&letter);
        all.push((number, format!("{number}{beside} at {}", letter as char), times, shown));
    }
    for (letter, unlocks) in ['N', 'Y'].into_iter().zip(tally.unlocks) {
        for ((name, number, _), times) in UNLOCKS.iter().zip(unlocks) {
            all.push((*number, format!("{number} at {letter}, {name}"), times, true));
        }
    }
    for letter in "ULSRWB".bytes() {
        let times = tally.halves.get(&letter).copied().unwrap_or(0);
        all.push((18, format!("18 at {}, the same low 32 bits", letter as char), times, true));
    }
    for (letter, part, same) in parts_of_27() {
        let times = tally.parts.get(&(letter, part, same)).copied().unwrap_or(0);
        let of = if same { "its own variable" } else { "another" };
        all.push((27, format!("27 at {}, part {} alone, of {of}", letter as char, part + 1), times, true));
    }
    for ((name, letter, number, _), times) in VOLATILES.iter().zip(tally.volatiles) {
        all.push((*number, format!("{number} at a volatile {}, {name}", *letter as char), times, true));
    }
    for ((name, letter, number, _), times) in WAITS.iter().zip(tally.waits.clone()) {
        all.push((*number, format!("{number} at {}, {name}", *letter as char), times, true));
    }
    let over = course.over();
    all.push((over, format!("{over} along a trace"), tally.over[0], true));
    all.push((over, format!("{over} from a state in range"), tally.over[1], true));
    if course == Course::Short {
        all.push((0, "an event accepted, as in the full course".into(), tally.alike[0], true));
        all.push((0, "an event refused, as in the full course".into(), tally.alike[1], true));
    }
    for (number, name, times, _) in &all {
        let said = if *times > 0 { Ok(()) } else { Err(format!("no step has {name}")) };
        tally.count((*number as usize, 0), said);
    }
    let shown: Vec<String> = all.into_iter().filter(|a| a.3).map(|(_, name, times, _)| format!("{name}: {times}")).collect();
    println!("    {}", shown.join("; "));
}

/// The numbers of refusal 8: how many places each has, and what puts the one at a place out of range and no other number.
type Spoil = fn(&mut State, usize, &mut Rng, Course);
const SPOILS: [(&str, usize, Spoil); 24] = [
    ("no thread", 1, |s, _, _, _| {
        s.counts.threads = 0;
        s.holds = [Hold { holder: 0, depth: 0 }; 8];
    }),
    ("threads", 4, |s, i, _, course| s.counts.threads = [course.counts().threads + 1, 9, 256, usize::MAX][i]),
    ("no variable", 1, |s, _, _, _| (s.counts.variables, s.counts.volatiles) = (0, [false; 16])),
    ("variables", 4, |s, i, _, course| s.counts.variables = [course.counts().variables + 1, 17, 256, usize::MAX][i]),
    ("locks", 4, |s, i, _, course| s.counts.locks = [course.counts().locks + 1, 9, 256, usize::MAX][i]),
    ("events", 4, |s, i, _, course| s.events = [course.events() + 1, 2_001, 65_536, u32::MAX][i]),
    ("reads", 128, |s, i, r, _| spoil_count(s.events, &mut s.cells[i].reads, &mut s.reads, i, r)),
    ("stores", 128, |s, i, r, _| spoil_count(s.events, &mut s.cells[i].stores, &mut s.stores, i, r)),
    ("position of a read", 1_024, |s, i, r, _| spoil_queue(s.events, &mut s.cells[i / 8].reads, &mut s.reads, i, r)),
    ("position of a store", 1_024, |s, i, r, _| spoil_queue(s.events, &mut s.cells[i / 8].stores, &mut s.stores, i, r)),
    ("source", 128, |s, i, r, _| s.cells[i].source = above(s.events, r)),
    ("last write", 128, |s, i, r, _| s.cells[i].written = above(s.events, r)),
    ("loaded", 128, |s, i, r, _| s.cells[i].loaded = above(s.events, r)),
    ("used", 128, |s, i, r, _| s.cells[i].used = above(s.events, r)),
    ("assigned", 128, |s, i, r, _| s.cells[i].assigned = above(s.events, r)),
    // one flag past the variables, of which there are fewer where that must be
    ("stray volatile", 15, |s, i, _, _| {
        s.counts.variables = s.counts.variables.min(i + 1);
        let variables = s.counts.variables;
        s.counts.volatiles.iter_mut().skip(variables).for_each(|flag| *flag = false);
        s.counts.volatiles[i + 1] = true;
    }),
    ("last lock", 8, |s, i, r, _| s.locked[i] = above(s.events, r)),
    ("depth", 8, |s, i, r, _| s.holds[i] = Hold { holder: 1, depth: r.pick(&[s.events + 1, 2_001, u32::MAX]) }),
    ("holder", 8, |s, i, r, _| s.holds[i] = Hold { holder: s.counts.threads + r.pick(&[1, 2, 8, 1 << 40]), depth: 1 }),
    ("holder without depth", 8, |s, i, r, _| s.holds[i] = Hold { holder: r.between(1, s.counts.threads), depth: 0 }),
    ("depth without holder", 8, |s, i, r, _| s.holds[i] = Hold { holder: 0, depth: r.pick(&[1, s.events]) }),
    ("lock of a wait", 8, |s, i, r, _| {
        let lock = r.pick(&[s.counts.locks + 1, s.counts.locks + 2, 256, 1 << 32, 1 << 32 | 1, usize::MAX]);
        s.waits[i] = Wait { lock, depth: 1, notified: r.chance(50) };
    }),
    ("no depth of a wait", 8, |s, i, r, _| spoil_wait(s, i, 0, r)),
    ("depth of a wait", 8, |s, i, r, _| spoil_wait(s, i, r.pick(&[s.events + 1, 2_001, u32::MAX]), r)),
];

/// A wait on a declared lock with this depth.
fn spoil_wait(s: &mut State, i: usize, depth: u32, rng: &mut Rng) {
    s.counts.locks = s.counts.locks.max(1);
    s.waits[i] = Wait { lock: rng.between(1, s.counts.locks), depth, notified: rng.chance(50) };
}

/// A position above n; some have the low 32 bits of one up to n.
fn above(n: u32, rng: &mut Rng) -> usize {
    let n = n as usize;
    let low = position(rng, n);
    let upper = rng.pick(&[1 << 32, 1 << 33, 1 << 63, usize::MAX << 32]);
    rng.pick(&[n + 1, 2_001, u32::MAX as usize, usize::MAX, upper | low, upper | low])
}

/// The count of cell i is above eight, and no position above the events.
fn spoil_count(n: u32, q: &mut Ring, slots: &mut [Slot], i: usize, rng: &mut Rng) {
    q.len = rng.pick(&[9, 16, 255]);
    for slot in &mut slots[8 * i..8 * i + 8] {
        slot.position = slot.position.min(n as usize);
    }
}

/// The position at place i, that of an outstanding one, is above the events.
fn spoil_queue(n: u32, q: &mut Ring, slots: &mut [Slot], i: usize, rng: &mut Rng) {
    let place = i % 8;
    let back = rng.below(8);
    *q = Ring { first: ((place + 8 - back) % 8) as u8, len: (back + 1) as u8 };
    for slot in &mut slots[i - place..i - place + 8] {
        slot.position = slot.position.min(n as usize);
    }
    slots[i].position = above(n, rng);
}

/// A state that events reach.
fn reached(rng: &mut Rng, course: Course) -> Kept {
    let length = rng.between(1, 60);
    let (counts, events) = trace(rng, course, length);
    let mut state = Kept::initial(kept_counts(counts));
    for e in &events {
        state.step(course, e);
    }
    state
}

/// From a state in range: each number of refusal 8 out of range in turn, at every place, with an event and with a byte that is no letter; and
/// every such byte from the state itself, and where no event may follow.
pub fn out_of_range(tally: &mut Tally, rng: &mut Rng, course: Course) {
    let mut s = if rng.chance(50) { reached(rng, course) } else { state_in_range(rng, course) };
    s.events = s.events.max(1);
    assert!(!model::out_of_range(course, &s));
    let others: Vec<u8> = (0..=255).filter(|letter| !LETTERS.contains(letter)).collect();
    for (name, places, spoil) in SPOILS {
        for i in 0..places {
            let mut bad = s.clone();
            spoil(&mut bad, i, rng, course);
            assert!(model::out_of_range(course, &bad), "{name} {i}");
            let e = any_event(rng, &s);
            for e in [e, Event { letter: rng.pick(&others), ..e }] {
                let said =
                    stepped(course, &bad, &e, (8, 0)).map(|_| ()).map_err(|report| format!("{name} {i} out of range: {report}"));
                tally.count((8, 0), said);
            }
        }
    }
    // 4 behind 8 and before 9
    let mut last = s.clone();
    last.events = course.events();
    assert!(!model::out_of_range(course, &last));
    for kept in [&s, &last] {
        for &letter in &others {
            let e = Event { letter, ..any_event(rng, &s) };
            let wanted = (4, kept.events as usize + kept.counts.first_line());
            tally.count(wanted, stepped(course, kept, &e, wanted).map(|_| ()));
        }
    }
}
