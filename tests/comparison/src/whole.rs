//! One paper in one course by markers A, B, C and the proved marker; what the proved marker and C leave in the lent memory; and its tail.

use crate::c_api::{self, Marked};
use crate::tails::Tails;
use marker_a::order::Section;
use marker_a::{paper, rules, Kind, Outcome, Verdict};
use papers::generate::Rng;
use papers::short_course::has_v_line;
use papers::{by_a, Course, Value};
use std::cell::{Cell, RefCell};
use std::slice;

/// Places that must be lent.
pub(crate) const RECORDS: usize = 2_000;
pub(crate) const OUT: usize = 32_768;
pub(crate) const ORDER: usize = 1_000;
pub(crate) const SCRATCH: usize = 1_000;
/// At most so many places of scratch are lent.
const LONG_SCRATCH: usize = 3_000;
/// At most so many more places are lent of the others, and so many or more lie behind the lent ones.
const MORE: usize = 16;

/// Memory with a pattern in it; a part of it is lent.
pub(crate) struct Memory<T> {
    pattern: Vec<T>,
    pub(crate) places: Vec<T>,
}

impl<T: Copy + PartialEq> Memory<T> {
    pub(crate) fn new(size: usize, item: impl FnMut() -> T) -> Memory<T> {
        let pattern: Vec<T> = std::iter::repeat_with(item).take(size + 2 * MORE).collect();
        Memory { places: pattern.clone(), pattern }
    }

    /// Whether it begins with these, and the rest is as it was; or all of it.
    pub(crate) fn is(&self, front: &[T]) -> bool {
        let n = front.len();
        self.places[..n] == *front && self.places[n..] == self.pattern[n..]
    }

    pub(crate) fn renew(&mut self) {
        self.places.copy_from_slice(&self.pattern);
    }

    pub(crate) fn renew_front(&mut self, n: usize) {
        self.places[..n].copy_from_slice(&self.pattern[..n]);
    }
}

/// How much is lent of each.
#[derive(Clone, Copy, Debug)]
struct Lengths {
    what: usize,
    values: usize,
    out: usize,
    order: usize,
    scratch: usize,
}

impl Lengths {
    /// So many more places than must be lent, of each.
    fn with(more: usize) -> Lengths {
        Lengths { what: RECORDS + more, values: RECORDS + more, out: OUT + more, order: ORDER + more, scratch: SCRATCH + more }
    }

    /// What a paper of so many bytes is lent: exactly the scratch that must be lent, few places more, and many more.
    fn of(bytes: usize) -> [Lengths; 4] {
        let n = Lengths::with(bytes % (MORE + 1));
        [SCRATCH, n.scratch, 2 * SCRATCH, LONG_SCRATCH - bytes % (2 * SCRATCH)].map(|scratch| Lengths { scratch, ..n })
    }
}

struct Lent {
    what: Memory<u32>,
    values: Memory<Value>,
    out: Memory<u8>,
    order: Memory<u64>,
    scratch: Memory<u64>,
}

/// The markers that mark into lent memory.
#[derive(Clone, Copy, Debug)]
enum Marker {
    Proved,
    C,
}

const MARKERS: [Marker; 2] = [Marker::Proved, Marker::C];

/// The course, for marker C.
pub fn by_c(course: Course) -> marker_c::Course {
    match course {
        Course::Full => marker_c::Course::Full,
        Course::Short => marker_c::Course::Short,
    }
}

/// What marker C says, as the C interface hands it back.
fn said(m: marker_c::Marked) -> Marked {
    Marked {
        number: m.number,
        line: m.line,
        events: m.events,
        written: m.written,
        ordered: m.ordered,
        sections: m.sections,
        denial: m.denial,
        denial_line: m.denial_line,
    }
}

impl Lent {
    fn mark(&mut self, course: Course, marker: Marker, paper: &[u8], n: Lengths) -> Marked {
        let (what, values) = (&mut self.what.places[..n.what], &mut self.values.places[..n.values]);
        let out = &mut self.out.places[..n.out];
        let (order, scratch) = (&mut self.order.places[..n.order], &mut self.scratch.places[..n.scratch]);
        match marker {
            Marker::Proved => c_api::mark(course, paper, what, values, out, order, scratch),
            Marker::C => said(marker_c::mark(by_c(course), paper, what, values, out, order, scratch)),
        }
    }

    fn mark_unordered(&mut self, course: Course, marker: Marker, paper: &[u8], n: Lengths) -> Marked {
        let (what, values) = (&mut self.what.places[..n.what], &mut self.values.places[..n.values]);
        let out = &mut self.out.places[..n.out];
        match marker {
            Marker::Proved => c_api::mark_unordered(course, paper, what, values, out),
            Marker::C => said(marker_c::mark_unordered(by_c(course), paper, what, values, out)),
        }
    }

    fn renew(&mut self) {
        self.what.renew();
        self.values.renew();
        self.out.renew();
        self.order.renew();
        self.scratch.renew();
    }

    /// What is said, the listing and the records are as wanted, and no other place of output and records is touched. These have their
    /// pattern again then.
    fn told(&mut self, marked: Marked, wanted: Marked, listing: &str, records: &[Record]) -> Result<(), String> {
        let got = String::from_utf8_lossy(&self.out.places[..marked.written.min(OUT)]).into_owned();
        ensure(got == listing, || format!("markers A, B:\n{listing}this one:\n{got}"))?;
        ensure(marked == wanted, || format!("{marked:?}, wanted {wanted:?}"))?;
        ensure(self.out.is(listing.as_bytes()), || "output past the listing is touched".into())?;
        let (what, values): (Vec<u32>, Vec<Value>) = records.iter().copied().unzip();
        ensure(self.what.is(&what), || format!("records, wanted {what:x?}"))?;
        ensure(self.values.is(&values), || format!("values of the records, wanted {values:?}"))?;
        self.out.renew_front(listing.len());
        self.what.renew_front(what.len());
        self.values.renew_front(values.len());
        Ok(())
    }
}

/// The orders on which demand 3 was asked.
#[derive(Clone, Copy, Default)]
struct Orders {
    number: usize,
    uses: usize,
    /// those whose sections are not in order of their first locks
    other: usize,
    /// those of papers with volatile variables, and their uses
    volatile: usize,
    volatile_uses: usize,
    /// those of papers with a C, their C, and their uses
    waiting: usize,
    back: usize,
    waiting_uses: usize,
}

/// Checks papers.
pub struct Papers {
    lent: RefCell<Lent>,
    /// the lent memory has its pattern, as it has after each paper that passed
    clean: Cell<bool>,
    orders: Cell<Orders>,
    tails: RefCell<Tails>,
}

/// The record of an event, one number in each row: letter * 65536 + thread * 256 + variable or lock, and the value, which is the notified thread
/// for F and 0 for K, N, Y and C.
pub(crate) type Record = (u32, Value);

fn record(e: &marker_a::Event) -> Record {
    (u32::from(by_a::letter(e.kind)) * 65_536 + e.thread * 256 + e.target, e.value)
}

fn entry(thread: u64, first: u64, last: u64) -> u64 {
    thread * (1 << 24) + last * (1 << 12) + first
}

/// The section of an entry. The line of its last lock is not in it, and demand 3 does not look at it.
fn section(entry: u64) -> Section {
    let line = |shift: u32| (entry >> shift & 0xfff) as usize;
    Section { thread: (entry >> 24) as u32, first: line(0), last: line(12), last_lock: 0 }
}

/// The numbers after the first word of a line.
fn numbers(line: &str) -> Vec<u64> {
    line.split(' ').skip(1).map(|n| n.parse().expect("a number of a listing")).collect()
}

/// What a listing says must be said and be in the lent memory.
struct Wanted {
    marked: Marked,
    records: Vec<Record>,
    /// the entries, where there is an order
    order: Option<Vec<u64>>,
    events: Vec<marker_a::Event>,
}

fn wanted(bytes: &[u8], listing: &str) -> Wanted {
    let first = numbers(listing.lines().next().expect("a line"));
    let written = listing.len();
    if listing.starts_with("refused") {
        let marked = Marked { number: first[1] as usize, line: first[0] as usize, written, ..Marked::default() };
        return Wanted { marked, records: Vec::new(), order: None, events: Vec::new() };
    }
    let parts = paper::find(bytes).expect("an accepted paper");
    let lines = parts.body.split_inclusive(|&b| b == 10);
    let events: Vec<marker_a::Event> = lines.map(|line| paper::event(&line[..line.len() - 1]).expect("an event")).collect();
    let denied = listing.lines().last().filter(|line| line.starts_with("unordered")).map(numbers);
    let ordered = parts.guards.is_some() && denied.is_none();
    let sections = listing.lines().filter(|line| line.starts_with("section")).map(numbers);
    let entries: Vec<u64> = sections.map(|n| entry(n[0], n[1], n[2])).collect();
    Wanted {
        marked: Marked {
            events: first[0] as usize,
            written,
            ordered: usize::from(ordered),
            sections: entries.len(),
            denial: denied.as_ref().map_or(0, |n| n[1] as usize),
            denial_line: denied.as_ref().map_or(0, |n| n[0] as usize),
            ..Marked::default()
        },
        records: events.iter().map(record).collect(),
        order: ordered.then_some(entries),
        events,
    }
}

/// The listing without the lines about the order.
fn unordered(listing: &str) -> &str {
    let starts = ["\nsection", "\nunordered"].into_iter().filter_map(|line| listing.find(line));
    &listing[..starts.min().map_or(listing.len(), |at| at + 1)]
}

/// Demand 3, by marker A, of the order that the markers gave.
fn demand3(bytes: &[u8], events: Vec<marker_a::Event>, order: &[u64]) -> Result<usize, String> {
    let counts = paper::find(bytes).expect("an accepted paper").counts;
    let uses = events.iter().filter(|e| e.kind == Kind::U).count();
    let outcome = Outcome {
        verdict: Verdict::Accepted(events.len()),
        counts: Some(counts),
        guards: None,
        main: (0..counts.variables).map(|v| rules::main_memory(&events, v)).collect(),
        copies: Vec::new(),
        order: marker_a::Order::Sections(order.iter().copied().map(section).collect()),
        events,
    };
    marker_a::demand3(&outcome).map(|()| uses)
}

pub(crate) fn ensure(right: bool, what: impl FnOnce() -> String) -> Result<(), String> {
    if right {
        Ok(())
    } else {
        Err(what() + "\n")
    }
}

impl Papers {
    pub fn new() -> Papers {
        let mut rng = Rng::new(0);
        // no byte of a listing, no record, no entry of the order list and no zero is in a pattern; the scratch has numbers that could be
        // entries; a value may be any number
        let lent = Lent {
            what: Memory::new(RECORDS, || rng.next() as u32 | 1 << 31),
            values: Memory::new(RECORDS, || rng.next() as Value | 1 << 62),
            out: Memory::new(OUT, || rng.next() as u8 | 0x80),
            order: Memory::new(ORDER, || rng.next() | 1 << 63),
            scratch: Memory::new(LONG_SCRATCH, || rng.next() >> 37 | 1),
        };
        Papers { lent: RefCell::new(lent), clean: Cell::new(true), orders: Cell::default(), tails: RefCell::default() }
    }

    /// The listing that all markers agree on in a course, or what differs.
    pub fn check(&self, course: Course, bytes: &[u8], with_a: bool) -> Result<String, String> {
        let b = marker_b::mark(course, bytes);
        if with_a {
            let a = by_a::mark(course, bytes);
            ensure(a == b, || format!("marker A:\n{a}marker B:\n{b}"))?;
        }
        let mut lent = self.lent.borrow_mut();
        if !self.clean.replace(false) {
            lent.renew();
        }
        let wanted = wanted(bytes, &b);
        // all of the lengths where there is an order, otherwise one of them
        let all = Lengths::of(bytes.len());
        let lengths = if wanted.order.is_some() { &all[..] } else { slice::from_ref(&all[bytes.len() % all.len()]) };
        for marker in MARKERS {
            by(course, marker, &mut lent, bytes, lengths, &b, &wanted).map_err(|e| format!("{marker:?}: {e}"))?;
        }
        self.tails.borrow_mut().check(course, bytes, &b, &wanted.events, with_a).map_err(|e| format!("tail: {e}"))?;
        // in the short course the order is the full one's, for the listing is
        if let (Course::Full, Some(order)) = (course, &wanted.order) {
            let back = wanted.events.iter().filter(|e| e.kind == Kind::C).count();
            let uses = demand3(bytes, wanted.events, order).map_err(|e| format!("demand 3: {e}\n"))?;
            self.count(uses, order, has_v_line(bytes), back);
        }
        lent_too_little(course, &mut lent, bytes)?;
        self.clean.set(true);
        Ok(b)
    }

    /// On how many orders demand 3 was asked.
    pub fn orders(&self) -> String {
        let Orders { number, uses, other, volatile, volatile_uses, waiting, back, waiting_uses } = self.orders.get();
        format!(
            "demand 3: {number} orders with {uses} uses; {other} orders are not that of the first locks; {volatile} orders with \
             {volatile_uses} uses are of papers with volatile variables, {waiting} with {back} C and {waiting_uses} uses of papers with \
             waiting"
        )
    }

    /// Which tails were given.
    pub fn tails(&self) -> String {
        self.tails.borrow().said()
    }

    fn count(&self, uses: usize, order: &[u64], volatile: bool, back: usize) {
        let mut all = self.orders.get();
        all.number += 1;
        all.uses += uses;
        all.other += usize::from(!order.is_sorted_by_key(|&entry| section(entry).first));
        if volatile {
            all.volatile += 1;
            all.volatile_uses += uses;
        }
        if back > 0 {
            all.waiting += 1;
            all.back += back;
            all.waiting_uses += uses;
        }
        self.orders.set(all);
    }
}

/// One marker on one paper, with an order and each of these lengths, and where none is wanted. The lent memory has its pattern again
/// afterwards.
fn by(
    course: Course,
    marker: Marker,
    lent: &mut Lent,
    bytes: &[u8],
    lengths: &[Lengths],
    listing: &str,
    wanted: &Wanted,
) -> Result<(), String> {
    for &n in lengths {
        ordered(course, marker, lent, bytes, n, listing, wanted).map_err(|e| format!("scratch of {}: {e}", n.scratch))?;
    }
    let memories = unordered(listing);
    let brief = Marked { written: memories.len(), ordered: 0, sections: 0, denial: 0, denial_line: 0, ..wanted.marked };
    let marked = lent.mark_unordered(course, marker, bytes, lengths[0]);
    lent.told(marked, brief, memories, &wanted.records).map_err(|e| format!("no order wanted: {e}"))
}

/// One marker on one paper where an order is wanted, with these lengths.
fn ordered(
    course: Course,
    marker: Marker,
    lent: &mut Lent,
    bytes: &[u8],
    n: Lengths,
    listing: &str,
    wanted: &Wanted,
) -> Result<(), String> {
    let marked = lent.mark(course, marker, bytes, n);
    lent.told(marked, wanted.marked, listing, &wanted.records)?;
    let Some(entries) = &wanted.order else {
        return ensure(lent.order.is(&[]) && lent.scratch.is(&[]), || "order list or scratch touched without an order".into());
    };
    ensure(lent.order.is(entries), || format!("order list, wanted {entries:x?}"))?;
    ensure(lent.scratch.is(&vec![0; n.scratch]), || "the scratch after an order".into())?;
    lent.order.renew_front(entries.len());
    lent.scratch.renew();
    Ok(())
}

impl Default for Papers {
    fn default() -> Papers {
        Papers::new()
    }
}

/// Each of the five one place too short, and of the three where no order is wanted: 7, line 0, and nothing is touched.
fn lent_too_little(course: Course, lent: &mut Lent, bytes: &[u8]) -> Result<(), String> {
    let full = Lengths::with(0);
    let seven = Marked { number: 7, ..Marked::default() };
    let records =
        [Lengths { what: RECORDS - 1, ..full }, Lengths { values: RECORDS - 1, ..full }, Lengths { out: OUT - 1, ..full }];
    let order = [Lengths { order: ORDER - 1, ..full }, Lengths { scratch: SCRATCH - 1, ..full }];
    for marker in MARKERS {
        for n in records.into_iter().chain(order) {
            let marked = lent.mark(course, marker, bytes, n);
            ensure(marked == seven, || format!("{marker:?}, {n:?}: {marked:?}"))?;
        }
        for n in records {
            let marked = lent.mark_unordered(course, marker, bytes, n);
            ensure(marked == seven, || format!("{marker:?}, {n:?}, no order wanted: {marked:?}"))?;
        }
    }
    let records = lent.what.is(&[]) && lent.values.is(&[]);
    ensure(records && lent.out.is(&[]) && lent.order.is(&[]) && lent.scratch.is(&[]), || "memory is touched with 7".into())
}
