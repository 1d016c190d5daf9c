//! Marker A against other markers, over generated papers.

use crate::by_a::{self, After};
use crate::generate::{self, candidates, Rng, LETTERS, OTHERS};
use crate::short_course::{self, SITUATIONS};
use crate::shrink::shrink;
use crate::{expected, volatiles, waiting, Counts, Course, Event, Value};
use marker_a::Kind;
use marker_b::State;
use std::collections::BTreeMap;
use std::panic::{catch_unwind, AssertUnwindSafe};

/// Marks a paper in a course by all markers, by marker A only where that is asked for: the listing that they agree on, or what differs.
pub type Check = Box<dyn Fn(Course, &[u8], bool) -> Result<String, String>>;

/// Marker A against one other marker.
pub fn against_a(other: impl Fn(Course, &[u8]) -> String + 'static) -> Check {
    Box::new(move |course, paper, _| {
        let (a, b) = (by_a::mark(course, paper), other(course, paper));
        if a == b {
            Ok(a)
        } else {
            Err(format!("marker A:\n{a}other:\n{b}"))
        }
    })
}

/// Checks papers, and counts.
pub struct Comparison {
    check: Check,
    pub passed: usize,
    pub failed: usize,
    /// how often each kind of answer occurred, and each of the short course where that is another
    pub answers: BTreeMap<String, usize>,
    /// how many papers have an order and an unlock over which an early store waits
    pub early: usize,
    /// how many papers have an order and each part of `volatile_order`
    pub volatile_orders: [usize; 2],
    /// how many papers have each of `WAITS`
    pub waits: [usize; WAITS.len()],
    /// the same two among the random papers
    pub in_random: ([usize; 2], [usize; WAITS.len()]),
    /// of how many papers `has_many_k` holds, and how many of those with many K have an order and a C
    pub many_k: usize,
    pub many_k_waits: usize,
    /// how many papers there were of each of `SITUATIONS`
    pub situations: [usize; SITUATIONS.len()],
}

const PRINTED_FAILURES: usize = 20;
/// No paper has these answers: 23 refuses an earlier event of it.
const IN_NO_PAPER: [&str; 2] = ["refused 15 L", "refused 16 L"];
/// For so many random papers there must be at least one with an order and an unlock over which an early store waits.
const EARLY_IN: usize = 200;
/// For so many random papers there must be at least one with an order and each part of `volatile_order`.
const VOLATILE_ORDERS_IN: [usize; 2] = [40, 600];
/// For so many papers with many K there must be at least one of which `has_many_k` holds, and one with an order and a C.
const MANY_K_IN: usize = 4;
const MANY_K_WAITS_IN: usize = 10;
/// For so many papers about the limits of the short course there must be at least one of each of `SITUATIONS`.
const SITUATION_IN: usize = 1_000;
const FEW: Counts = Counts::new(2, 1, 1);
/// The same with its variable volatile; one thread with two volatile variables, and with a volatile and a plain one.
const ONE_VOLATILE: Counts = volatile(FEW, 1);
const TWO_VOLATILES: Counts = volatile(Counts::new(1, 2, 0), 2);
const MIXED: Counts = volatile(Counts::new(1, 2, 0), 1);
/// Two threads with two locks, and three with one.
const TWO_LOCKS: Counts = Counts::new(2, 1, 2);
const THREE_THREADS: Counts = Counts::new(3, 1, 1);
/// The letters of locks.
const ON_LOCKS: &[u8] = b"KNYFC";
/// Beginnings of traces with waiting, and how many events fewer come behind them: thread 0 waits; is notified; has come back; is notified and
/// owes an assign; waits on lock 0 and holds lock 1; has two holds again; both wait; it waits between a volatile load and its use.
const WAITING_TRACES: [(Counts, usize, &str); 8] = [
    (FEW, 1, "K 0 0, Y 0 0"),
    (FEW, 1, "K 0 0, Y 0 0, K 1 0, F 1 0 0"),
    (FEW, 1, "K 0 0, Y 0 0, K 1 0, F 1 0 0, N 1 0, C 0 0"),
    (FEW, 1, "K 0 0, P 0 0 1, Y 0 0, K 1 0, F 1 0 0, N 1 0"),
    (TWO_LOCKS, 2, "K 0 0, K 0 1, Y 0 0, K 1 0, F 1 0 0"),
    (FEW, 2, "K 0 0, K 0 0, Y 0 0, K 1 0, F 1 0 0, N 1 0, C 0 0"),
    (FEW, 2, "K 0 0, Y 0 0, K 1 0, F 1 0 0, Y 1 0"),
    (ONE_VOLATILE, 2, "K 0 0, R 0 0 0, L 0 0 0, Y 0 0, K 1 0, F 1 0 0"),
];

/// The same with the first so many variables volatile.
const fn volatile(mut counts: Counts, variables: usize) -> Counts {
    let mut v = 0;
    while v < variables {
        counts.volatiles[v] = true;
        v += 1;
    }
    counts
}

/// The kind of a paper's listing: the refusal, with the letter where it is one of a row, or what became of the order.
fn kind(paper: &[u8], listing: &str) -> String {
    let last = listing.lines().last().unwrap_or("");
    let number = last.rsplit(' ').next().unwrap_or("");
    match last.split(' ').next().unwrap_or("") {
        "refused" if number.parse().is_ok_and(|n: u32| n >= 10) => {
            let line = last.split(' ').nth(1).and_then(|n| n.parse().ok()).unwrap_or(1);
            let letter = paper.split(|&b| b == 10).nth(line - 1).and_then(|line| line.first());
            format!("refused {number} {}", *letter.unwrap_or(&b'?') as char)
        }
        "refused" if last.starts_with("refused 3 6") => "refused 06 at line 3".to_string(),
        "refused" => format!("refused {number:0>2}"),
        "unordered" => format!("unordered {number}"),
        "section" => match listing.lines().filter(|l| l.starts_with("section")).count() {
            1 => "ordered, 1 section".to_string(),
            2..=9 => "ordered, 2 to 9 sections".to_string(),
            _ => "ordered, 10 sections and more".to_string(),
        },
        _ => "accepted, no section".to_string(),
    }
}

/// Whether a paper that has an order has an unlock over which an early store waits: it is neither assigned nor written, and the lock is not
/// its variable's guard.
fn early(paper: &[u8]) -> bool {
    let parts = marker_a::paper::find(paper).expect("an accepted paper");
    let guards = parts.guards.expect("guards");
    // of a thread and variable: how many stores are outstanding, and whether an assign is owed
    let mut cells: BTreeMap<(u32, u32), (usize, bool)> = BTreeMap::new();
    parts.body.split(|&b| b == 10).filter_map(marker_a::paper::event).any(|e| {
        if e.kind == Kind::N {
            let mut waiting = cells.iter().filter(|(&(t, _), &(stores, owed))| t == e.thread && stores > 0 && owed);
            return waiting.any(|(&(_, v), _)| guards[v as usize] != e.target);
        }
        if e.kind.on_lock() {
            return false;
        }
        let (stores, owed) = cells.entry((e.thread, e.target)).or_default();
        match e.kind {
            Kind::S => *stores += 1,
            Kind::P => (*stores, *owed) = (*stores + 1, true),
            Kind::W => *stores -= 1,
            Kind::B => *owed = false,
            _ => {}
        }
        false
    })
}

/// Whether a paper that has an order has a use and a write of volatile variables; and a use of one that gives what another thread wrote.
fn volatile_order(paper: &[u8]) -> [bool; 2] {
    let parts = marker_a::paper::find(paper).expect("an accepted paper");
    let (mut used, mut given) = (false, false);
    // the thread of each volatile variable's last write
    let mut writers: BTreeMap<u32, u32> = BTreeMap::new();
    for e in parts.body.split(|&b| b == 10).filter_map(marker_a::paper::event) {
        if matches!(e.kind, Kind::U | Kind::W) && parts.counts.volatiles[e.target as usize] {
            if e.kind == Kind::W {
                writers.insert(e.target, e.thread);
            } else {
                used = true;
                given |= writers.get(&e.target).is_some_and(|&writer| writer != e.thread);
            }
        }
    }
    [used && !writers.is_empty(), given]
}

/// What there is of waiting in an accepted paper, by marker A's events.
#[derive(Default)]
pub struct Waited {
    ordered: bool,
    volatile: bool,
    /// how many C, the most holds that a Y gave up and a C took again, how many threads waited at once, and on how many locks
    back: usize,
    holds: usize,
    at_once: usize,
    locks: usize,
    /// whether a thread that came back used what another wrote while it waited; a thread holds another lock at a Y; it owes an assign there; R
    /// or W of a waiting thread; sections are not in order of their first K or C; a thread waits at the end
    given: bool,
    nested: bool,
    owing: bool,
    served: bool,
    other: bool,
    left: bool,
}

fn waited(paper: &[u8], listing: &str) -> Waited {
    let parts = marker_a::paper::find(paper).expect("an accepted paper");
    let kind = kind(paper, listing);
    let mut w =
        Waited { ordered: kind.starts_with("ordered"), volatile: parts.counts.volatiles.contains(&true), ..Waited::default() };
    // the holds of a thread and a lock; those that a waiting thread gave up, and its lock; what is owed; the writes that came while a thread
    // waited, kept until its next Y
    let mut holds: BTreeMap<(u32, u32), usize> = BTreeMap::new();
    let mut waiting: BTreeMap<u32, (u32, usize)> = BTreeMap::new();
    let mut owed: BTreeMap<(u32, u32), bool> = BTreeMap::new();
    let mut written: BTreeMap<(u32, u32), bool> = BTreeMap::new();
    let mut on: Vec<u32> = Vec::new();
    let events = parts.body.split(|&b| b == 10).filter_map(marker_a::paper::event);
    for e in events {
        let (t, p) = (e.thread, e.target);
        let others = holds.iter().any(|(&(u, l), &n)| u == t && l != p && n > 0);
        match e.kind {
            Kind::K => *holds.entry((t, p)).or_default() += 1,
            Kind::N => *holds.entry((t, p)).or_default() -= 1,
            Kind::Y => {
                let given_up = holds.insert((t, p), 0).unwrap_or(0);
                w.nested |= others;
                w.owing |= owed.iter().any(|(&(u, _), &owes)| u == t && owes);
                waiting.insert(t, (p, given_up));
                written.retain(|&(u, _), _| u != t);
                w.at_once = w.at_once.max(waiting.len());
            }
            Kind::C => {
                let (_, taken) = waiting.remove(&t).expect("a thread that waits");
                holds.insert((t, p), taken);
                w.back += 1;
                w.holds = w.holds.max(taken);
                on.push(p);
            }
            Kind::P | Kind::B => _ = owed.insert((t, p), e.kind == Kind::P),
            Kind::W => {
                waiting.keys().filter(|&&u| u != t).for_each(|&u| _ = written.insert((u, p), true));
                w.served |= waiting.contains_key(&t);
            }
            Kind::R => w.served |= waiting.contains_key(&t),
            Kind::A => _ = written.insert((t, p), false),
            Kind::U => w.given |= !waiting.contains_key(&t) && written.get(&(t, p)) == Some(&true),
            _ => {}
        }
    }
    on.sort_unstable();
    on.dedup();
    (w.locks, w.left, w.other) = (on.len(), !waiting.is_empty(), !by_first(listing));
    w
}

/// Whether the sections of a listing are in order of their first K or C.
fn by_first(listing: &str) -> bool {
    let sections = listing.lines().filter(|line| line.starts_with("section"));
    let firsts = sections.map(|line| line.split(' ').nth(2).and_then(|n| n.parse::<usize>().ok()));
    firsts.is_sorted()
}

/// What must occur of waiting among the random papers: its name, in how many papers it must be found once, and what holds of it.
type Waits = (&'static str, usize, fn(&Waited) -> bool);
pub const WAITS: [Waits; 13] = [
    ("ordered, and a thread comes back", 40, |w| w.ordered && w.back > 0),
    ("ordered, and a thread takes several holds again", 100, |w| w.ordered && w.holds > 1),
    ("ordered, and a thread that came back uses what another wrote meanwhile", 200, |w| w.ordered && w.given),
    ("ordered, and two threads wait at once", 100, |w| w.ordered && w.at_once > 1),
    ("ordered, and threads come back on two locks", 300, |w| w.ordered && w.locks > 1),
    ("ordered, and main memory reads for a waiting thread", 100, |w| w.ordered && w.served),
    ("ordered, and a thread comes back where there are volatile variables", 100, |w| w.ordered && w.back > 0 && w.volatile),
    ("ordered, and threads come back ten times and more", 4000, |w| w.ordered && w.back > 9),
    ("a thread comes back and holds another lock", 1000, |w| w.back > 0 && w.nested),
    ("a thread waits and owes an assign", 1000, |w| w.owing),
    ("a thread waits at the end", 100, |w| w.left),
    ("three threads wait at once", 400, |w| w.at_once > 2),
    ("ordered, not by the first K or C, and a thread comes back", 400, |w| w.ordered && w.back > 0 && w.other),
];

/// Whether a paper that has an order has more than 900 K, one of them on a lock that is held already, and sections that are not in order of
/// their first K.
fn has_many_k(paper: &[u8], listing: &str) -> bool {
    let body = marker_a::paper::find(paper).expect("an accepted paper").body;
    let mut depths: BTreeMap<u32, usize> = BTreeMap::new();
    let (mut number, mut again) = (0, false);
    let mut given_up: BTreeMap<u32, usize> = BTreeMap::new();
    for e in body.split(|&b| b == 10).filter_map(marker_a::paper::event) {
        match e.kind {
            Kind::K => {
                let depth = depths.entry(e.target).or_default();
                again |= *depth > 0;
                *depth += 1;
                number += 1;
            }
            Kind::N => *depths.entry(e.target).or_default() -= 1,
            Kind::Y => _ = given_up.insert(e.thread, depths.insert(e.target, 0).unwrap_or(0)),
            Kind::C => _ = depths.insert(e.target, given_up[&e.thread]),
            _ => {}
        }
    }
    number > 900 && again && !by_first(listing)
}

/// Whether a line begins with this letter.
fn has_letter(paper: &[u8], letter: u8) -> bool {
    paper.windows(2).any(|pair| pair == [10, letter])
}

/// Bytes as text, a line to a line; a long one is cut.
fn shown(paper: &[u8]) -> String {
    let mut text = paper.escape_ascii().to_string().replace("\\n", "\n");
    if text.len() > 2_000 {
        text.truncate(2_000);
        text += "..\n";
    }
    text
}

impl Comparison {
    pub fn with(check: Check) -> Comparison {
        Comparison {
            check,
            passed: 0,
            failed: 0,
            answers: BTreeMap::new(),
            early: 0,
            volatile_orders: [0; 2],
            waits: [0; WAITS.len()],
            in_random: ([0; 2], [0; WAITS.len()]),
            many_k: 0,
            many_k_waits: 0,
            situations: [0; SITUATIONS.len()],
        }
    }

    /// The listings of both courses.
    fn checked(&self, paper: &[u8], with_a: bool) -> Result<(String, String), String> {
        let listing = |course: Course| {
            let said = catch_unwind(AssertUnwindSafe(|| (self.check)(course, paper, with_a)));
            said.unwrap_or_else(|_| Err("panic\n".to_string())).map_err(|report| format!("{course:?} course: {report}"))
        };
        let (full, short) = (listing(Course::Full)?, listing(Course::Short)?);
        let wanted = short_course::from_full(paper, &full);
        if short == wanted {
            Ok((full, short))
        } else {
            Err(format!("full course:\n{full}short course:\n{short}wanted:\n{wanted}"))
        }
    }

    fn count(&mut self, failure: Option<String>) {
        match failure {
            None => self.passed += 1,
            Some(report) => {
                self.failed += 1;
                if self.failed <= PRINTED_FAILURES {
                    println!("{report}");
                }
            }
        }
    }

    /// One paper. A failure prints the smallest paper found that still fails.
    pub fn paper(&mut self, name: &str, paper: &[u8], with_a: bool) {
        let failure = match self.checked(paper, with_a) {
            Ok((listing, short)) => {
                if short != listing {
                    *self.answers.entry(format!("short course, {}", kind(paper, &short))).or_insert(0) += 1;
                }
                let kind = kind(paper, &listing);
                if !listing.starts_with("refused") && has_letter(paper, b'Y') {
                    let all = waited(paper, &listing);
                    for (number, (_, _, holds)) in self.waits.iter_mut().zip(WAITS) {
                        *number += usize::from(holds(&all));
                    }
                }
                if kind.starts_with("ordered") {
                    self.early += usize::from(early(paper));
                    for (number, holds) in self.volatile_orders.iter_mut().zip(volatile_order(paper)) {
                        *number += usize::from(holds);
                    }
                    self.many_k += usize::from(has_many_k(paper, &listing));
                }
                for ((_, holds), number) in SITUATIONS.iter().zip(&mut self.situations) {
                    *number += usize::from(holds(paper, &listing, &short));
                }
                let failure = IN_NO_PAPER.contains(&&kind[..]).then(|| format!("FAILED {name}: {kind}\n{}", shown(paper)));
                *self.answers.entry(kind).or_insert(0) += 1;
                failure
            }
            Err(first) if self.failed < PRINTED_FAILURES => {
                let small = shrink(paper, &|p| self.checked(p, with_a).is_err());
                let differs = self.checked(&small, with_a).err().unwrap_or(first);
                Some(format!("FAILED {name}, the smallest paper:\n{}{differs}", shown(&small)))
            }
            Err(_) => Some(String::new()),
        };
        self.count(failure);
    }

    /// The papers with known listings.
    pub fn known(&mut self) {
        let plain = expected::papers().into_iter().map(|e| (e, None));
        let both = short_course::papers().into_iter().chain(volatiles::papers()).chain(waiting::papers());
        let both = both.map(|(e, short)| (e, Some(short)));
        for (e, short) in plain.chain(both) {
            self.paper(&e.name, &e.paper, true);
            let failure = match self.checked(&e.paper, true) {
                Ok((full, of_short)) => {
                    let wanted = (&e.listing, short.as_ref().unwrap_or(&of_short));
                    ((&full, &of_short) != wanted).then(|| {
                        let (name, paper) = (&e.name, shown(&e.paper));
                        format!("FAILED {name}\n{paper}expected:\n{}{}got:\n{full}{of_short}", wanted.0, wanted.1)
                    })
                }
                Err(_) => Some(format!("FAILED {}: the markers differ", e.name)),
            };
            self.count(failure);
        }
    }

    /// Every trace of up to `most` events of these letters with these counts and values, without guards and, where there is a lock, with it for
    /// a guard. Nothing is looked at after a refused event, so a trace ends with its first one.
    pub fn every_short_trace(&mut self, counts: Counts, letters: &[u8], most: usize, values: &[Value]) {
        self.every_trace_from("", counts, letters, most, values);
    }

    /// The same behind these accepted events, which are not counted.
    fn every_trace_from(&mut self, begin: &str, counts: Counts, letters: &[u8], most: usize, values: &[Value]) {
        let all = candidates(counts, letters, values);
        let guards = vec![0; counts.variables];
        let guarded = (counts.locks > 0).then_some(Some(&guards[..]));
        for guards in guarded.into_iter().chain([None]) {
            let mut state = State::new(Course::Full, counts, guards);
            let mut events: Vec<Event> = begin.split(", ").filter(|line| !line.is_empty()).map(event_of).collect();
            let accepted = events.iter().all(|&e| state.step(e) == 0);
            assert!(accepted, "the beginning is accepted");
            let most = events.len() + most;
            self.extend(guards, &all, most, &mut events, &state);
        }
    }

    fn extend(&mut self, guards: Option<&[usize]>, all: &[Event], most: usize, events: &mut Vec<Event>, state: &State) {
        let counts = state.counts();
        self.paper("short trace", &generate::paper(counts, guards, events), true);
        if events.len() == most {
            return;
        }
        let after = After::new(counts, events);
        for &e in all {
            let refused = after.refusal(&e).is_some();
            let mut next = state.clone();
            let refused_too = next.step(e) != 0;
            events.push(e);
            if refused || refused_too {
                self.paper("short trace", &generate::paper(counts, guards, events), true);
            } else {
                self.extend(guards, all, most, events, &next);
            }
            events.pop();
        }
    }

    /// Every trace of up to `most` events with the same threads, variable and lock and the values 0 and 1, guarded, going on after refused
    /// events.
    pub fn every_trace(&mut self, most: usize) {
        let all = candidates(FEW, OTHERS, &[0, 1]);
        let mut traces: Vec<Vec<Event>> = vec![Vec::new()];
        for _ in 0..most {
            traces = traces.iter().flat_map(|es| all.iter().map(|&e| [&es[..], &[e]].concat())).collect();
            for events in &traces {
                self.paper("trace", &generate::paper(FEW, Some(&[0]), events), true);
            }
        }
    }

    /// Short traces, `each` for every letter and refusal, for every two that one event can break at once, and for every case; guarded in
    /// half of the papers.
    pub fn aimed(&mut self, seed: u64, each: usize) {
        let mut rng = Rng::new(seed);
        for aim in generate::aims(true) {
            for _ in 0..each {
                let s = generate::short(&mut rng, aim, 20);
                let guards: Vec<usize> = (0..s.counts.variables).map(|_| rng.below(s.counts.locks)).collect();
                let guards = rng.chance(50).then_some(&guards[..]);
                let events: Vec<Event> = s.good.iter().copied().chain(s.bad.map(|(e, _)| e)).collect();
                self.paper("aimed", &generate::paper(s.counts, guards, &events), true);
            }
        }
    }

    /// The papers of `number` seeds, marker A on the first `by_a` of them.
    fn seeds(&mut self, name: &str, make: fn(u64) -> Vec<u8>, first: u64, number: u64, by_a: u64) {
        for seed in first..first + number {
            match catch_unwind(|| make(seed)) {
                Ok(paper) => self.paper(&format!("{name} {seed}"), &paper, seed - first < by_a),
                Err(_) => self.count(Some(format!("FAILED {name} {seed}: marker B panics while the paper is made"))),
            }
        }
    }
}

/// The event of a line that is one.
fn event_of(line: &str) -> Event {
    let e = marker_a::paper::event(line.as_bytes()).expect("an event");
    Event { letter: by_a::letter(e.kind), thread: e.thread as usize, place: e.target as usize, value: e.value }
}

/// How much is compared.
#[derive(Clone, Copy)]
pub struct Size {
    /// the first seed
    pub seed: u64,
    /// accepted papers and papers with a bad event
    pub random: u64,
    /// papers with damaged bytes
    pub damaged: u64,
    /// papers near the limits, and on how many of them marker A is asked
    pub large: u64,
    pub large_by_a: u64,
    /// papers of about 2,000 events with many K
    pub many_k: u64,
    /// papers about the limits of the short course
    pub at_short_limits: u64,
    /// papers for each aim
    pub aimed: usize,
    /// the length up to which every trace is compared
    pub short: usize,
}

/// Compares all of it, prints each part and its answers. The numbers of papers that passed and failed.
pub fn run(check: Check, size: Size) -> (usize, usize) {
    std::panic::set_hook(Box::new(|_| {}));
    let mut comparison = Comparison::with(check);
    let mut before = 0;
    let mut part = |name: &str, run: &dyn Fn(&mut Comparison)| {
        let start = std::time::Instant::now();
        run(&mut comparison);
        let all = comparison.passed + comparison.failed;
        println!("{name}: {} in {:.1} s", all - before, start.elapsed().as_secs_f64());
        let answers: Vec<String> =
            std::mem::take(&mut comparison.answers).into_iter().map(|(answer, n)| format!("{answer}: {n}")).collect();
        println!("    {}", answers.join("; "));
        before = all;
    };
    let Size { seed, random, damaged, large, large_by_a, many_k, at_short_limits, aimed, short } = size;
    part("known listings", &|c| c.known());
    part("every short trace", &|c| c.every_short_trace(FEW, OTHERS, short, &[0, 1]));
    part("every short trace of values with the same low 32 bits", &|c| {
        c.every_short_trace(FEW, OTHERS, short.saturating_sub(1), &[0, 1 << 32])
    });
    part("every short trace with a volatile variable", &|c| c.every_short_trace(ONE_VOLATILE, OTHERS, short, &[0, 1]));
    part("every short trace with two volatile variables", &|c| c.every_short_trace(TWO_VOLATILES, OTHERS, short + 3, &[0]));
    part("every short trace with a volatile and a plain variable", &|c| c.every_short_trace(MIXED, OTHERS, short + 1, &[0]));
    part("every short trace of locks and waiting", &|c| c.every_short_trace(FEW, ON_LOCKS, short + 6, &[]));
    part("every short trace of two locks and waiting", &|c| c.every_short_trace(TWO_LOCKS, ON_LOCKS, short + 2, &[]));
    part("every short trace of three threads, a lock and waiting", &|c| {
        c.every_short_trace(THREE_THREADS, ON_LOCKS, short + 3, &[])
    });
    part("every short trace behind a Y", &|c| {
        for (counts, less, begin) in WAITING_TRACES {
            c.every_trace_from(begin, counts, LETTERS, short.saturating_sub(less), &[0, 1]);
        }
    });
    part("every trace, past refused events too", &|c| c.every_trace(short.saturating_sub(2)));
    part("aimed papers", &|c| c.aimed(seed, aimed));
    part("random papers", &|c| {
        (c.volatile_orders, c.waits) = ([0; 2], [0; WAITS.len()]);
        c.seeds("seed", generate::random_paper, seed, random, random);
        c.in_random = (c.volatile_orders, c.waits);
    });
    part("damaged papers", &|c| c.seeds("damaged seed", generate::damaged_paper, seed, damaged, damaged));
    part("large papers", &|c| c.seeds("large seed", generate::large_paper, seed, large, large_by_a));
    part("papers with many K", &|c| {
        (c.many_k, c.waits) = (0, [0; WAITS.len()]);
        c.seeds("many K, seed", generate::paper_with_many_k, seed, many_k, many_k);
        c.many_k_waits = c.waits[0];
    });
    part("papers at the limits of the short course", &|c| {
        c.situations = [0; SITUATIONS.len()];
        c.seeds("short course, seed", generate::paper_at_short_limits, seed, at_short_limits, at_short_limits)
    });
    let ([volatile, given], waits) = comparison.in_random;
    let [volatile_wanted, given_wanted] = VOLATILE_ORDERS_IN.map(|papers| random as usize / papers);
    for (what, found, wanted) in [
        ("an early store waits over an unlock", comparison.early, random as usize / EARLY_IN),
        ("volatile variables are used and written", volatile, volatile_wanted),
        ("a volatile variable gives what another thread wrote", given, given_wanted),
        ("more than 900 K, locks taken again, not by the first K", comparison.many_k, many_k as usize / MANY_K_IN),
        ("many K, and a thread comes back", comparison.many_k_waits, many_k as usize / MANY_K_WAITS_IN),
    ] {
        println!("ordered, and {what}: {found}");
        comparison.count((found < wanted).then(|| format!("FAILED: these are fewer than {wanted}")));
    }
    println!("waiting, among the random papers:");
    for ((what, papers, _), found) in WAITS.iter().zip(waits) {
        println!("    {what}: {found}");
        let wanted = random as usize / papers;
        comparison.count((found < wanted).then(|| format!("FAILED: these are fewer than {wanted}")));
    }
    let wanted = at_short_limits as usize / SITUATION_IN;
    let situations = comparison.situations;
    println!("at the limits of the short course:");
    for ((what, _), found) in SITUATIONS.iter().zip(situations) {
        println!("    {what}: {found}");
        comparison.count((found < wanted).then(|| format!("FAILED: these are fewer than {wanted}")));
    }
    let _ = std::panic::take_hook();
    (comparison.passed, comparison.failed)
}

/// The closing line, and the exit status.
pub fn close((passed, failed): (usize, usize)) -> ! {
    println!("{passed} passed, {failed} failed");
    std::process::exit(i32::from(failed > 0))
}
