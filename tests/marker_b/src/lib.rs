//! Marker B: one pass over the bytes and a state that each event changes.

/// What a variable holds.
pub type Value = i64;

/// What the head declares, and which variables are volatile.
#[derive(Clone, Copy, Debug, PartialEq, Eq)]
pub struct Counts {
    pub threads: usize,
    pub variables: usize,
    pub locks: usize,
    pub volatiles: [bool; VARIABLES],
}

/// An event: its letter, thread, variable (or lock) and value. A lock event has no value: F has the notified thread there, the others 0.
#[derive(Clone, Copy, Debug, PartialEq, Eq)]
pub struct Event {
    pub letter: u8,
    pub thread: usize,
    pub place: usize,
    pub value: Value,
}

impl Event {
    /// It is on a lock.
    pub fn is_lock(&self) -> bool {
        matches!(self.letter, b'K' | b'N' | b'Y' | b'F' | b'C')
    }

    /// The event's line, without byte 10.
    pub fn line(&self) -> String {
        let letter = self.letter as char;
        if self.is_lock() && self.letter != b'F' {
            format!("{letter} {} {}", self.thread, self.place)
        } else {
            format!("{letter} {} {} {}", self.thread, self.place, self.value)
        }
    }
}

/// A course. Its papers and states have limits of their own.
#[derive(Clone, Copy, Debug, PartialEq, Eq)]
pub enum Course {
    Full,
    Short,
}

pub const COURSES: [Course; 2] = [Course::Full, Course::Short];

impl Course {
    /// How many threads, variables and locks may be declared.
    pub fn counts(self) -> Counts {
        match self {
            Course::Full => Counts::new(THREADS, VARIABLES, LOCKS),
            Course::Short => Counts::new(2, 4, 2),
        }
    }

    /// How many events there may be.
    pub fn events(self) -> u32 {
        match self {
            Course::Full => 2000,
            Course::Short => 200,
        }
    }

    /// The refusal of what is over these limits; no head that is right is over those of the full course.
    pub fn over(self) -> u32 {
        match self {
            Course::Full => 9,
            Course::Short => 25,
        }
    }
}

impl Counts {
    /// None is volatile.
    pub const fn new(threads: usize, variables: usize, locks: usize) -> Counts {
        Counts { threads, variables, locks, volatiles: [false; VARIABLES] }
    }

    /// Whether none is greater than that of another.
    pub fn within(self, most: Counts) -> bool {
        self.threads <= most.threads && self.variables <= most.variables && self.locks <= most.locks
    }

    pub fn has_volatiles(&self) -> bool {
        self.volatiles.contains(&true)
    }

    /// The line of the first event: it is behind the `V` line where there is one.
    pub fn first_line(&self) -> u32 {
        FIRST_LINE + u32::from(self.has_volatiles())
    }
}

/// The most of each in every course.
const THREADS: usize = 8;
pub const VARIABLES: usize = 16;
const LOCKS: usize = 8;
const ROOM: usize = 8;
const BYTES: usize = 65_536;
const FIRST_LINE: u32 = 3;

/// The outstanding reads or stores of a cell, in a ring: value and position. That of a store is its assign's, that of an early one its own.
#[derive(Clone, Copy, Default)]
struct Ring {
    slots: [(Value, u32); ROOM],
    start: usize,
    len: usize,
}

impl Ring {
    fn front(&self) -> Option<(Value, u32)> {
        (self.len > 0).then(|| self.slots[self.start])
    }

    fn full(&self) -> bool {
        self.len == ROOM
    }

    fn push(&mut self, value: Value, position: u32) {
        self.slots[(self.start + self.len) % ROOM] = (value, position);
        self.len += 1;
    }

    fn pop(&mut self) {
        self.start = (self.start + 1) % ROOM;
        self.len -= 1;
    }
}

/// What is kept for a thread and a variable. Positions count from 1; 0 is none.
#[derive(Clone, Copy, Default)]
struct Cell {
    reads: Ring,
    stores: Ring,
    copy: Value,
    /// the latest position among its assigns and the reads of its loads: usable when after the thread's last lock
    source: u32,
    last_write: u32,
    /// the reads of the latest load and of the latest use, and the latest A
    loaded: u32,
    used: u32,
    assigned: u32,
    /// the letter of the thread's latest event on the variable, R and W left aside; 0 is none
    latest: u8,
    announced: Value,
    fresh: bool,
    owed: bool,
}

/// What is kept for a thread: how many cells and stores bar its locks and unlocks, and the section it is in.
#[derive(Clone, Copy, Default)]
struct Thread {
    last_lock: u32,
    fresh: u32,
    owed: u32,
    /// the outstanding stores that bar an unlock: all but early ones whose assigns are owed
    unwritten: u32,
    depth: u32,
    section: u32,
    unlocked: bool,
}

#[derive(Clone, Copy, Default)]
struct Lock {
    holder: usize,
    depth: u32,
}

/// What a thread waits for: the lock's number plus 1, or 0 where it does not wait, how many times it held the lock, and whether it is notified.
#[repr(C)]
#[derive(Clone, Copy, Debug, Default, PartialEq, Eq)]
pub struct Wait {
    pub lock: usize,
    pub depth: u32,
    pub notified: bool,
}

const _: () = assert!(std::mem::size_of::<Wait>() == 16);

impl Wait {
    pub fn is_on(&self, l: usize) -> bool {
        self.lock == l + 1
    }
}

#[derive(Clone, Copy)]
struct Section {
    last_lock: u32,
    thread: usize,
    first: u32,
    last: u32,
}

/// The state after some accepted events.
#[derive(Clone)]
pub struct State {
    course: Course,
    counts: Counts,
    first_line: u32,
    guards: Option<[usize; VARIABLES]>,
    events: u32,
    cells: [[Cell; VARIABLES]; THREADS],
    threads: [Thread; THREADS],
    locks: [Lock; LOCKS],
    main: [Value; VARIABLES],
    sections: Vec<Section>,
    denied: Option<(u32, u32)>,
    waits: [Wait; THREADS],
}

impl State {
    pub fn new(course: Course, counts: Counts, guards: Option<&[usize]>) -> State {
        State {
            course,
            counts,
            first_line: counts.first_line(),
            guards: guards.map(|list| {
                let mut all = [0; VARIABLES];
                all[..list.len()].copy_from_slice(list);
                all
            }),
            events: 0,
            cells: Default::default(),
            threads: Default::default(),
            locks: Default::default(),
            main: [0; VARIABLES],
            sections: Vec::new(),
            denied: None,
            waits: Default::default(),
        }
    }

    fn holds(&self, t: usize, l: usize) -> bool {
        self.locks[l].depth > 0 && self.locks[l].holder == t
    }

    fn is_waiting(&self, t: usize) -> bool {
        self.waits[t].lock != 0
    }

    fn usable(&self, t: usize, v: usize) -> bool {
        self.cells[t][v].source > self.threads[t].last_lock
    }

    /// The line of the next event.
    fn line(&self) -> u32 {
        self.events + self.first_line
    }

    /// A thread's cells of the volatile variables.
    fn volatile_cells(&self, t: usize) -> impl Iterator<Item = &Cell> {
        self.cells[t].iter().zip(self.counts.volatiles).filter(|(_, volatile)| *volatile).map(|(cell, _)| cell)
    }

    /// Whether a use of a read would be out of the volatile order: a volatile assign of the thread is unwritten or was written after the read,
    /// or a read after it, or the same, is used already.
    fn use_is_late(&self, t: usize, read: u32) -> bool {
        self.volatile_cells(t).any(|c| c.fresh || c.stores.len > 0 || c.last_write >= read || c.used >= read)
    }

    /// Whether a write of this assign would be out of the volatile order: an earlier volatile assign of the thread is unwritten.
    fn write_is_early(&self, t: usize, assign: u32) -> bool {
        self.volatile_cells(t).any(|c| {
            let stored = c.stores.front().is_some_and(|(_, earlier)| earlier < assign);
            stored || (c.fresh && c.assigned < assign)
        })
    }

    /// The refusal of an event on a volatile variable by 26, 27 and 28; 0 where none of them holds.
    fn judge_volatile(&self, letter: u8, t: usize, v: usize) -> u32 {
        let cell = &self.cells[t][v];
        let own = letter != b'R' && letter != b'W';
        let neighbours = (letter == b'U') == (cell.latest == b'L') && (letter == b'S') == (cell.latest == b'A');
        match letter {
            _ if own && !neighbours => 26,
            b'U' if self.use_is_late(t, cell.loaded) => 27,
            b'W' if cell.stores.front().is_some_and(|(_, assign)| self.write_is_early(t, assign)) => 27,
            b'P' | b'B' => 28,
            _ => 0,
        }
    }

    /// Whether the thread and the variable or lock are declared, and the thread that F notifies.
    fn declares(&self, e: Event) -> bool {
        let Counts { threads, variables, locks, .. } = self.counts;
        let notified = e.letter != b'F' || (0..threads as Value).contains(&e.value);
        e.thread < threads && e.place < (if e.is_lock() { locks } else { variables }) && notified
    }

    /// The refusal of a declared event by 29 and 30; 0 where none of them holds.
    fn judge_waiting(&self, e: Event) -> u32 {
        let unheard = |u: usize| self.waits[u].is_on(e.place) && !self.waits[u].notified;
        let notified = |t: usize| self.waits[t].is_on(e.place) && self.waits[t].notified;
        match e.letter {
            b'R' | b'W' => 0,
            b'C' if !notified(e.thread) => 30,
            b'C' => 0,
            _ if self.is_waiting(e.thread) => 29,
            b'F' if !unheard(e.value as usize) => 30,
            _ => 0,
        }
    }

    /// The refusal of a declared event on a lock by the rest of its row.
    fn judge_lock(&self, letter: u8, t: usize, l: usize) -> u32 {
        let (thread, lock) = (&self.threads[t], self.locks[l]);
        match letter {
            b'K' | b'C' if lock.depth > 0 && lock.holder != t => 11,
            b'K' | b'C' if thread.owed > 0 => 13,
            b'N' | b'Y' | b'F' if !self.holds(t, l) => 12,
            b'N' | b'Y' if thread.fresh > 0 => 15,
            b'N' | b'Y' if thread.unwritten > 0 => 16,
            _ => 0,
        }
    }

    /// The refusal of the next event; 0 when it is accepted.
    pub fn judge(&self, e: Event) -> u32 {
        if self.events >= self.course.events() {
            return self.course.over();
        }
        if !self.declares(e) {
            return 5;
        }
        let mut number = self.judge_waiting(e);
        if number == 0 && !e.is_lock() && self.counts.volatiles[e.place] {
            number = self.judge_volatile(e.letter, e.thread, e.place);
        }
        match number {
            0 if e.is_lock() => self.judge_lock(e.letter, e.thread, e.place),
            0 => self.judge_access(e),
            _ => number,
        }
    }

    /// The refusal of a declared event on a variable by the rest of its row.
    fn judge_access(&self, e: Event) -> u32 {
        let Event { letter, thread: t, place: p, value: x } = e;
        let cell = &self.cells[t][p];
        match letter {
            b'U' if !self.usable(t, p) => 17,
            b'U' if cell.copy != x => 18,
            b'U' => 0,
            b'A' if cell.reads.len > 0 && !cell.owed => 23,
            b'A' => 0,
            b'L' => match cell.reads.front() {
                None => 10,
                Some(_) if cell.owed => 13,
                Some(_) if cell.fresh => 15,
                Some((_, position)) if cell.stores.len > 0 || position < cell.last_write => 16,
                Some((value, _)) if value != x => 18,
                Some(_) => 0,
            },
            b'S' if cell.owed => 13,
            b'S' if !cell.fresh => 14,
            b'S' if !self.usable(t, p) => 17,
            b'S' if cell.copy != x => 18,
            b'S' if cell.stores.full() => 19,
            b'S' => 0,
            b'R' if self.main[p] != x => 18,
            b'R' if cell.reads.full() => 19,
            b'R' if cell.stores.len > 0 || (cell.fresh && !cell.owed) => 23,
            b'R' => 0,
            b'W' => match cell.stores.front() {
                None => 10,
                Some((value, _)) if value != x => 18,
                Some(_) => 0,
            },
            b'P' if cell.owed => 13,
            b'P' if cell.stores.full() => 19,
            b'P' if cell.reads.len > 0 => 23,
            b'P' => 0,
            b'B' if !cell.owed => 10,
            b'B' if cell.announced != x => 18,
            b'B' => 0,
            _ => unreachable!("no such letter"),
        }
    }

    /// The next event broke a rule of the order: only the first one counts.
    fn deny(&mut self, number: u32) {
        if self.denied.is_none() {
            self.denied = Some((self.line(), number));
        }
    }

    /// Takes in an accepted event.
    fn take(&mut self, e: Event) {
        let Event { letter, thread: t, place: p, value: x } = e;
        if let (b'U' | b'A' | b'B', Some(guards)) = (letter, self.guards) {
            if !self.holds(t, guards[p]) {
                self.deny(20);
            }
        }
        if matches!(letter, b'K' | b'C') && self.threads[t].unlocked {
            self.deny(21);
        }
        match letter {
            b'K' => self.lock(t, p, self.locks[p].depth + 1),
            b'N' => self.unlock(t, p, self.locks[p].depth - 1),
            b'Y' => {
                self.waits[t] = Wait { lock: p + 1, depth: self.locks[p].depth, notified: false };
                self.unlock(t, p, 0);
            }
            b'F' => self.waits[x as usize].notified = true,
            b'C' => {
                self.lock(t, p, self.waits[t].depth);
                self.waits[t] = Wait::default();
            }
            _ => self.access(e),
        }
        self.events += 1;
    }

    /// The next event leaves the lock with this depth, which is greater.
    fn lock(&mut self, t: usize, l: usize, depth: u32) {
        let (line, now) = (self.line(), self.events + 1);
        let thread = &mut self.threads[t];
        if thread.depth == 0 {
            thread.section = line;
        }
        thread.depth += depth - self.locks[l].depth;
        thread.last_lock = now;
        self.locks[l] = Lock { holder: t, depth };
    }

    /// The next event leaves the lock with this depth, which is smaller.
    fn unlock(&mut self, t: usize, l: usize, depth: u32) {
        let line = self.line();
        let thread = &mut self.threads[t];
        thread.depth -= self.locks[l].depth - depth;
        thread.unlocked = thread.depth > 0;
        if thread.depth == 0 {
            self.sections.push(Section { last_lock: thread.last_lock, thread: t, first: thread.section, last: line });
        }
        self.locks[l].depth = depth;
    }

    /// Takes in an event on a variable, which is the next.
    fn access(&mut self, e: Event) {
        let Event { letter, thread: t, place: p, value: x } = e;
        let now = self.events + 1;
        let (thread, cell) = (&mut self.threads[t], &mut self.cells[t][p]);
        if letter != b'R' && letter != b'W' {
            cell.latest = letter;
        }
        match letter {
            b'U' => cell.used = cell.loaded,
            b'A' => {
                thread.fresh += u32::from(!cell.fresh);
                cell.fresh = true;
                cell.copy = x;
                cell.source = now;
                cell.assigned = now;
            }
            b'L' => {
                let (_, position) = cell.reads.front().unwrap();
                cell.reads.pop();
                cell.copy = x;
                cell.source = cell.source.max(position);
                cell.loaded = position;
            }
            b'S' => {
                thread.fresh -= 1;
                thread.unwritten += 1;
                cell.fresh = false;
                cell.stores.push(x, cell.assigned);
            }
            b'R' => cell.reads.push(x, now),
            b'W' => {
                // nothing is stored while an assign is owed, so that the last store left is the early one
                let early = cell.owed && cell.stores.len == 1;
                thread.unwritten -= u32::from(!early);
                cell.stores.pop();
                cell.last_write = now;
                self.main[p] = x;
            }
            b'P' => {
                thread.owed += 1;
                cell.owed = true;
                cell.announced = x;
                cell.stores.push(x, now);
            }
            b'B' => {
                thread.owed -= 1;
                thread.unwritten += u32::from(cell.stores.len > 0);
                thread.fresh -= u32::from(cell.fresh);
                cell.owed = false;
                cell.fresh = false;
                cell.copy = x;
                cell.source = now;
            }
            _ => {}
        }
    }

    /// One event: its refusal, and the state unchanged; or 0, and the state after it.
    pub fn step(&mut self, e: Event) -> u32 {
        let number = self.judge(e);
        if number == 0 {
            self.take(e);
        }
        number
    }

    /// Why the events have no order, after the last one.
    fn denial(&self) -> Option<(u32, u32)> {
        let open = self.threads.iter().any(|thread| thread.depth > 0 || thread.owed > 0);
        let open = open || self.waits.iter().any(|wait| wait.lock != 0);
        self.denied.or(open.then_some((self.line(), 22)))
    }

    /// The listing of an accepted paper.
    pub fn listing(&self) -> String {
        use std::fmt::Write;
        let mut out = String::new();
        writeln!(out, "accepted {}", self.events).unwrap();
        for (v, x) in self.main[..self.counts.variables].iter().enumerate() {
            writeln!(out, "main {v} {x}").unwrap();
        }
        for t in 0..self.counts.threads {
            for v in 0..self.counts.variables {
                if self.usable(t, v) {
                    writeln!(out, "copy {t} {v} {}", self.cells[t][v].copy).unwrap();
                }
            }
        }
        if self.guards.is_some() {
            if let Some((line, number)) = self.denial() {
                writeln!(out, "unordered {line} {number}").unwrap();
            } else {
                let mut sections = self.sections.clone();
                sections.sort_unstable_by_key(|s| s.last_lock);
                for s in sections {
                    writeln!(out, "section {} {} {}", s.thread, s.first, s.last).unwrap();
                }
            }
        }
        out
    }

    // ---- what a generator of papers looks at

    pub fn counts(&self) -> Counts {
        self.counts
    }

    pub fn len(&self) -> usize {
        self.events as usize
    }

    pub fn is_empty(&self) -> bool {
        self.events == 0
    }

    /// The value that an event of this letter must bear, where something fixes it.
    pub fn due(&self, letter: u8, t: usize, v: usize) -> Option<Value> {
        let cell = &self.cells[t][v];
        match letter {
            b'U' | b'S' => Some(cell.copy),
            b'L' => cell.reads.front().map(|s| s.0),
            b'W' => cell.stores.front().map(|s| s.0),
            b'R' => Some(self.main[v]),
            b'B' => Some(cell.announced),
            _ => None,
        }
    }

    /// An event that would deny the order.
    pub fn denies(&self, e: Event) -> bool {
        match (e.letter, self.guards) {
            (b'U' | b'A' | b'B' | b'P', Some(guards)) => !self.holds(e.thread, guards[e.place]),
            (b'K' | b'C', _) => self.threads[e.thread].unlocked,
            // with another lock held the C is after an unlock, and an owed assign bars it
            (b'Y', _) => {
                let thread = &self.threads[e.thread];
                thread.depth > self.locks[e.place].depth || thread.owed > 0
            }
            // the owed B must come under its guard, and 13 bars a K before it
            (b'N', Some(guards)) => {
                let owed = |v: usize| guards[v] == e.place && self.cells[e.thread][v].owed;
                self.locks[e.place].depth == 1 && (0..self.counts.variables).any(owed)
            }
            _ => false,
        }
    }

    /// An accepted event after which a volatile L or A of the thread, or the L of a read of it, can never have its U or S, or the U not be under
    /// its guard.
    pub fn strands(&self, e: Event) -> bool {
        let (t, v) = (e.thread, e.place);
        let last_lock = self.threads[t].last_lock;
        // the read of a load that is not used, else the oldest that is not loaded
        let unused = |c: &Cell| if c.latest == b'L' { Some(c.loaded) } else { c.reads.front().map(|(_, read)| read) };
        let unwritten = || self.volatile_cells(t).any(|c| c.fresh || c.stores.len > 0);
        if !e.is_lock() && !self.counts.volatiles[v] {
            return false;
        }
        match e.letter {
            b'R' => self.is_waiting(t) || unwritten() || self.guards.is_some_and(|guards| !self.holds(t, guards[v])),
            b'L' => self.cells[t][v].reads.front().is_some_and(|(_, read)| read <= last_lock || self.use_is_late(t, read)),
            b'U' => self.volatile_cells(t).filter_map(unused).any(|read| read < self.cells[t][v].loaded),
            b'A' => self.volatile_cells(t).any(|c| unused(c).is_some()),
            // a C comes behind a Y
            b'K' | b'Y' | b'C' => self.volatile_cells(t).any(|c| unused(c).is_some() || c.latest == b'A'),
            b'N' => self.guards.is_some() && self.volatile_cells(t).any(|c| unused(c).is_some()),
            _ => false,
        }
    }

    pub fn busy(&self, t: usize) -> bool {
        let thread = &self.threads[t];
        thread.depth > 0 || thread.owed > 0 || thread.fresh > 0 || thread.unwritten > 0 || self.is_waiting(t)
    }

    /// What each thread waits for.
    pub fn waits(&self) -> &[Wait; THREADS] {
        &self.waits
    }
}

// ---- bytes

/// Reads a line from the left. Each reader is none where the line has another form.
struct Cursor<'a> {
    line: &'a [u8],
    at: usize,
}

impl<'a> Cursor<'a> {
    fn new(line: &'a [u8]) -> Cursor<'a> {
        Cursor { line, at: 0 }
    }

    fn byte(&mut self, b: u8) -> Option<()> {
        (self.line.get(self.at) == Some(&b)).then(|| self.at += 1)
    }

    fn end(&self) -> Option<()> {
        (self.at == self.line.len()).then_some(())
    }

    /// Digits without a leading zero. Stops growing at the greatest `u64`, past every limit of the paper.
    fn digits(&mut self) -> Option<u64> {
        let first = self.at;
        let mut n = 0u64;
        while let Some(d @ b'0'..=b'9') = self.line.get(self.at) {
            n = n.saturating_mul(10).saturating_add(u64::from(d - b'0'));
            self.at += 1;
        }
        match self.at - first {
            0 => None,
            1 => Some(n),
            _ if self.line[first] == b'0' => None,
            _ => Some(n),
        }
    }

    fn spaced(&mut self) -> Option<u64> {
        self.byte(b' ')?;
        self.digits()
    }

    fn spaced_value(&mut self) -> Option<Value> {
        self.byte(b' ')?;
        if self.byte(b'-').is_none() {
            return Value::try_from(self.digits()?).ok();
        }
        match self.digits()? {
            0 => None,
            n => Value::checked_sub_unsigned(0, n),
        }
    }
}

fn read_head(line: &[u8]) -> Option<Counts> {
    let mut c = Cursor::new(line);
    c.byte(b'H')?;
    let (t, v, l) = (c.spaced()?, c.spaced()?, c.spaced()?);
    c.end()?;
    if t < 1 || t > THREADS as u64 || v < 1 || v > VARIABLES as u64 || l > LOCKS as u64 {
        return None;
    }
    Some(Counts::new(t as usize, v as usize, l as usize))
}

/// The locks of a `G` line; an empty list for `G -`.
fn read_guards(line: &[u8], counts: Counts) -> Option<Vec<usize>> {
    let mut c = Cursor::new(line);
    c.byte(b'G')?;
    let mut guards = Vec::new();
    if line != b"G -" {
        for _ in 0..counts.variables {
            let l = c.spaced()?;
            if l >= counts.locks as u64 {
                return None;
            }
            guards.push(l as usize);
        }
        c.end()?;
    }
    Some(guards)
}

/// The volatile variables of a `V` line: at least one, rising.
fn read_volatiles(line: &[u8], counts: Counts) -> Option<[bool; VARIABLES]> {
    let mut c = Cursor::new(line);
    c.byte(b'V')?;
    let mut volatiles = [false; VARIABLES];
    let mut least = 0;
    while least == 0 || c.end().is_none() {
        let v = c.spaced()?;
        if v < least || v >= counts.variables as u64 {
            return None;
        }
        volatiles[v as usize] = true;
        least = v + 1;
    }
    Some(volatiles)
}

fn read_event(line: &[u8]) -> Option<Event> {
    let letter = *line.first()?;
    let mut c = Cursor { line, at: 1 };
    let thread = match letter {
        b'U' | b'A' | b'L' | b'S' | b'R' | b'W' | b'K' | b'N' | b'P' | b'B' | b'Y' | b'F' | b'C' => c.spaced()? as usize,
        _ => return None,
    };
    let place = c.spaced()? as usize;
    let value = match letter {
        b'K' | b'N' | b'Y' | b'C' => 0,
        // a number that is too large stays one
        b'F' => Value::try_from(c.spaced()?).unwrap_or(Value::MAX),
        _ => c.spaced_value()?,
    };
    c.end()?;
    Some(Event { letter, thread, place, value })
}

/// The offset of the trailer, where the last line is one and counts right.
fn find_trailer(paper: &[u8]) -> Option<usize> {
    let (&last, rest) = paper.split_last()?;
    let start = rest.iter().rposition(|&b| b == 10).map_or(0, |i| i + 1);
    let mut c = Cursor::new(&rest[start..]);
    c.byte(b'Z')?;
    let n = c.spaced()?;
    c.end()?;
    (last == 10 && n == start as u64).then_some(start)
}

/// Takes the first line away from the rest, and its byte 10.
fn next_line<'a>(rest: &mut &'a [u8]) -> Option<&'a [u8]> {
    let end = rest.iter().position(|&b| b == 10)?;
    let line = &rest[..end];
    *rest = &rest[end + 1..];
    Some(line)
}

/// The state after the paper's events, or line and number of the refusal.
fn run(course: Course, paper: &[u8]) -> Result<State, (u32, u32)> {
    if paper.len() > BYTES {
        return Err((0, 1));
    }
    let mut rest = &paper[..find_trailer(paper).ok_or((0, 2))?];
    let mut counts = next_line(&mut rest).and_then(read_head).ok_or((1, 3))?;
    if !counts.within(course.counts()) {
        return Err((1, course.over()));
    }
    let guards = next_line(&mut rest).and_then(|line| read_guards(line, counts)).ok_or((2, 6))?;
    if rest.first() == Some(&b'V') {
        counts.volatiles = next_line(&mut rest).and_then(|line| read_volatiles(line, counts)).ok_or((3, 6))?;
    }
    let mut state = State::new(course, counts, if guards.is_empty() { None } else { Some(&guards) });
    while let Some(line) = next_line(&mut rest) {
        let at = state.line();
        let number = read_event(line).map_or(4, |e| state.step(e));
        if number != 0 {
            return Err((at, number));
        }
    }
    Ok(state)
}

/// What the program `mark` prints for a paper.
pub fn mark(course: Course, paper: &[u8]) -> String {
    match run(course, paper) {
        Ok(state) => state.listing(),
        Err((line, number)) => format!("refused {line} {number}\n"),
    }
}
