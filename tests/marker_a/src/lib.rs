//! A naive marker, written from documents 01 and 02, requests (a) to (g) and (i) to (k).
//! Every word is computed anew from the list of earlier events. (b) and (k) change no answer here: there is no table
//! of cells and no scratch.

pub mod listing;
pub mod order;
pub mod paper;
pub mod rules;
pub mod sheet;
pub mod tail;

#[cfg(test)]
mod tests;

pub use order::{denial, plain_run, sections, Given, Section};
pub use rules::{judge, judge_short};

/// "Paper over 65,536 bytes".
pub const MAX_BYTES: usize = 65_536;
/// "Then 0 to 2,000 event lines."
pub const MAX_EVENTS: usize = 2_000;
/// "threads 1 to 8".
pub const MAX_THREADS: u32 = 8;
/// "variables 1 to 16".
pub const MAX_VARIABLES: u32 = 16;
/// "locks 0 to 8".
pub const MAX_LOCKS: u32 = 8;

/// "Values become signed 64-bit whole numbers".
pub type Value = i64;

/// What the head declares, and what the `V` line names.
#[derive(Clone, Copy, Debug, PartialEq, Eq)]
pub struct Counts {
    pub threads: u32,
    pub variables: u32,
    pub locks: u32,
    /// What the `V` line names; all false without the line.
    pub volatiles: [bool; 16],
}

impl Counts {
    /// Counts of a paper without a `V` line.
    pub const fn plain(threads: u32, variables: u32, locks: u32) -> Counts {
        Counts { threads, variables, locks, volatiles: [false; 16] }
    }
}

/// The ten kinds of 01 and the three of (i).
#[derive(Clone, Copy, Debug, PartialEq, Eq)]
pub enum Kind {
    U,
    A,
    L,
    S,
    R,
    W,
    K,
    N,
    P,
    B,
    Y,
    F,
    C,
}

impl Kind {
    /// Whether the second number of the event is a lock.
    pub fn on_lock(self) -> bool {
        matches!(self, Kind::K | Kind::N | Kind::Y | Kind::F | Kind::C)
    }
}

/// `target` is the event's second number (lock or variable); `value` its third, 0 where the form has none.
#[derive(Clone, Copy, Debug, PartialEq, Eq)]
pub struct Event {
    pub kind: Kind,
    pub thread: u32,
    pub target: u32,
    pub value: Value,
}

/// "A refusal gives number and line and nothing else."
#[derive(Clone, Copy, Debug, PartialEq, Eq)]
pub struct Refusal {
    pub line: usize,
    pub number: u32,
}

/// What is decided about a paper.
#[derive(Clone, Copy, Debug, PartialEq, Eq)]
pub enum Verdict {
    /// Accepted, with the number of events.
    Accepted(usize),
    Refused(Refusal),
}

/// "thread, variable and value of each usable copy".
#[derive(Clone, Copy, Debug, PartialEq, Eq)]
pub struct UsableCopy {
    pub thread: u32,
    pub variable: u32,
    pub value: Value,
}

/// The order of a paper.
#[derive(Clone, Debug, PartialEq, Eq)]
pub enum Order {
    /// The paper is refused, or has `G -`.
    None,
    Sections(Vec<Section>),
    /// 20, 21 or 22, and its line.
    Denied {
        number: u32,
        line: usize,
    },
}

/// Everything about a paper. A refused one has no counts, guards, events, main memory, copies or order.
#[derive(Clone, Debug, PartialEq, Eq)]
pub struct Outcome {
    pub verdict: Verdict,
    pub counts: Option<Counts>,
    pub guards: Option<Vec<u32>>,
    pub events: Vec<Event>,
    pub main: Vec<Value>,
    pub copies: Vec<UsableCopy>,
    pub order: Order,
}

/// The limits of a course: "Both limits stay in force, each for its own entry".
#[derive(Clone, Copy, Debug, PartialEq, Eq)]
struct Limits {
    /// The most that a head may declare.
    counts: Counts,
    /// The most events.
    events: usize,
    /// The number of an event over them.
    number: u32,
}

/// The limits of 01, with 9 for an event over them.
const FULL: Limits = Limits { counts: Counts::plain(MAX_THREADS, MAX_VARIABLES, MAX_LOCKS), events: MAX_EVENTS, number: 9 };
/// "at most 2 threads, 4 variables, 2 locks and 200 events", with 25 "in place of 9 for events".
const SHORT: Limits = Limits { counts: Counts::plain(2, 4, 2), events: 200, number: 25 };

/// "For one step the line is the events so far plus 3"; "With it [the `V` line] events start at line 4, for a step too."
pub fn line_of(counts: Counts, index: usize) -> usize {
    let first = if counts.volatiles.contains(&true) { 4 } else { 3 };
    index.saturating_add(first)
}

/// What the program prints.
pub fn mark(paper: &[u8]) -> Vec<u8> {
    listing::listing(&outcome(paper))
}

/// What the program prints in the short course.
pub fn mark_short(paper: &[u8]) -> Vec<u8> {
    listing::listing(&outcome_short(paper))
}

/// Everything about a paper in the full course.
pub fn outcome(paper: &[u8]) -> Outcome {
    outcome_within(paper, FULL)
}

/// Everything about a paper in the short course.
pub fn outcome_short(paper: &[u8]) -> Outcome {
    outcome_within(paper, SHORT)
}

/// The outcome in a course with these limits.
fn outcome_within(paper: &[u8], limits: Limits) -> Outcome {
    match marked(paper, limits) {
        Ok(accepted) => accepted,
        Err(refusal) => refused(refusal),
    }
}

/// "Whole paper: 1, 2, 3, 6, then line by line".
fn marked(paper: &[u8], limits: Limits) -> Result<Outcome, Refusal> {
    let parts = paper::find_within(paper, limits)?;
    let events = read_events(parts.body, parts.counts, limits)?;
    Ok(accepted(parts.counts, parts.guards, events))
}

/// "line by line 4, 9, 5 and the row".
fn read_events(body: &[u8], counts: Counts, limits: Limits) -> Result<Vec<Event>, Refusal> {
    let mut events = Vec::new();
    let mut rest = body;
    while let Some((text, behind)) = paper::take_line(rest) {
        let line = line_of(counts, events.len());
        let event = paper::event(text).ok_or(Refusal { line, number: 4 })?;
        match rules::judge_within(&events, counts, &event, limits) {
            0 => events.push(event),
            number => return Err(Refusal { line, number }),
        }
        rest = behind;
    }
    Ok(events)
}

fn accepted(counts: Counts, guards: Option<Vec<u32>>, events: Vec<Event>) -> Outcome {
    Outcome {
        verdict: Verdict::Accepted(events.len()),
        counts: Some(counts),
        main: (0..counts.variables).map(|v| rules::main_memory(&events, v)).collect(),
        copies: usable_copies(counts, &events),
        order: order_of(counts, guards.as_deref(), &events),
        guards,
        events,
    }
}

fn refused(refusal: Refusal) -> Outcome {
    Outcome {
        verdict: Verdict::Refused(refusal),
        counts: None,
        guards: None,
        events: Vec::new(),
        main: Vec::new(),
        copies: Vec::new(),
        order: Order::None,
    }
}

/// "thread, variable and value of each usable copy, by thread then variable".
fn usable_copies(counts: Counts, events: &[Event]) -> Vec<UsableCopy> {
    let mut copies = Vec::new();
    for thread in 0..counts.threads {
        for variable in 0..counts.variables {
            if rules::usable(events, thread, variable) {
                if let Some(value) = rules::copy(events, thread, variable) {
                    copies.push(UsableCopy { thread, variable, value });
                }
            }
        }
    }
    copies
}

/// "Then, with guards, 20 and 21 event by event, 22 last." "20 to 22 refuse no paper, only its order".
fn order_of(counts: Counts, guards: Option<&[u32]>, events: &[Event]) -> Order {
    let Some(guards) = guards else { return Order::None };
    match denial(counts, guards, events) {
        Some((number, line)) => Order::Denied { number, line },
        None => Order::Sections(sections(counts, events)),
    }
}

/// Demand 3, asked of this outcome's own order, events and main memory.
pub fn demand3(o: &Outcome) -> Result<(), String> {
    let Some(counts) = o.counts else { return Ok(()) };
    match &o.order {
        Order::Sections(list) => same_as_plain_memory(counts, list, o),
        _ => no_fit_order(counts, o),
    }
}

/// "An order that omits sections, or none given to a fit paper, fails demand 3".
fn no_fit_order(counts: Counts, o: &Outcome) -> Result<(), String> {
    match &o.guards {
        Some(guards) if denial(counts, guards, &o.events).is_none() => Err("a fit paper has no order".to_string()),
        _ => Ok(()),
    }
}

/// "What each U is given equals the value in its line; what each variable has at the end equals its main memory
/// after the last event."
fn same_as_plain_memory(counts: Counts, list: &[Section], o: &Outcome) -> Result<(), String> {
    let (given, memory) = plain_run(counts, list, &o.events);
    for (index, event) in o.events.iter().enumerate() {
        if event.kind == Kind::U {
            use_is_right(line_of(counts, index), &given)?;
        }
    }
    for v in 0..counts.variables as usize {
        if memory.get(v) != o.main.get(v) {
            return Err(format!("variable {v}: plain memory {:?}, main memory {:?}", memory.get(v), o.main.get(v)));
        }
    }
    Ok(())
}

/// The use in this line is given one value, the one stated.
fn use_is_right(line: usize, given: &[Given]) -> Result<(), String> {
    let here: Vec<&Given> = given.iter().filter(|g| g.line == line).collect();
    match here[..] {
        [g] if g.given == g.stated => Ok(()),
        [g] => Err(format!("line {line}: use is given {}, states {}", g.given, g.stated)),
        _ => Err(format!("line {line}: use is given {} values", here.len())),
    }
}
