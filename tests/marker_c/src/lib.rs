//! Marker C: one pass over the bytes into lent memory, tuned by hand for speed, for x86-64. No heap: what must not be seen before the
//! paper is accepted is kept on the stack and copied out at the end.

mod events;
mod fields;
mod find;
mod listing;
mod rows;
mod volatiles;

use events::{End, Machine};
use listing::Listing;
use std::mem::MaybeUninit;

/// What a variable holds.
pub type Value = i64;

/// What is said of a trace, as in `include/dabzhoni.h`.
#[derive(Clone, Copy, Debug, Default, PartialEq, Eq)]
pub struct Marked {
    pub number: usize,
    pub line: usize,
    pub events: usize,
    pub written: usize,
    pub ordered: usize,
    pub sections: usize,
    pub denial: usize,
    pub denial_line: usize,
}

/// What the head declares.
#[derive(Clone, Copy)]
struct Counts {
    threads: usize,
    variables: usize,
    locks: usize,
}

/// A course. Its papers have limits of their own.
#[derive(Clone, Copy, Debug, PartialEq, Eq)]
pub enum Course {
    Full,
    Short,
}

/// What may be declared, how many events there may be, and the refusal of what is over; no head that is right is over the limits of the
/// full course.
#[derive(Clone, Copy)]
struct Limits {
    counts: Counts,
    events: usize,
    over: usize,
}

impl Course {
    fn limits(self) -> Limits {
        match self {
            Course::Full => {
                Limits { counts: Counts { threads: THREADS, variables: VARIABLES, locks: LOCKS }, events: EVENTS, over: 9 }
            }
            Course::Short => Limits { counts: Counts { threads: 2, variables: 4, locks: 2 }, events: 200, over: 25 },
        }
    }
}

/// The most of each in every course.
const THREADS: usize = 8;
const VARIABLES: usize = 16;
const LOCKS: usize = 8;
const EVENTS: usize = 2_000;
const SECTIONS: usize = 1_000;
const SCRATCH: usize = 1_000;
const PAPER: usize = 65_536;
const OUT: usize = 32_768;
/// The line of the first event, without a `V` line.
const FIRST_LINE: usize = 3;

/// Where an order goes.
struct Order<'a> {
    list: &'a mut [u64],
    scratch: &'a mut [u64],
}

/// Marks a paper into lent memory, its order included.
pub fn mark(
    course: Course,
    paper: &[u8],
    what: &mut [u32],
    values: &mut [Value],
    out: &mut [u8],
    order: &mut [u64],
    scratch: &mut [u64],
) -> Marked {
    if order.len() < SECTIONS || scratch.len() < SCRATCH {
        return Marked { number: 7, ..Marked::default() };
    }
    into(course, paper, what, values, out, Some(Order { list: order, scratch }))
}

/// The same where no order is wanted.
pub fn mark_unordered(course: Course, paper: &[u8], what: &mut [u32], values: &mut [Value], out: &mut [u8]) -> Marked {
    into(course, paper, what, values, out, None)
}

#[inline(always)]
fn into(course: Course, paper: &[u8], what: &mut [u32], values: &mut [Value], out: &mut [u8], order: Option<Order>) -> Marked {
    if what.len() < EVENTS || values.len() < EVENTS || out.len() < OUT {
        return Marked { number: 7, ..Marked::default() };
    }
    let found = match find::find(paper, course.limits()) {
        Ok(found) => found,
        Err((line, number)) => return refused(out, line, number),
    };
    let order = if found.guarded { order } else { None };
    let mut room = MaybeUninit::uninit();
    let mut machine = Machine::new(&found, &mut room);
    let mut end = machine.run(order.is_some());
    let mut denial = (0, 0);
    if let End::Denied(number) = end {
        denial = (machine.line(), number);
        end = machine.run(false);
    }
    if let End::Refused(number) = end {
        return refused(out, machine.line(), number);
    }
    if order.is_some() && denial.1 == 0 && machine.is_open() {
        denial = (machine.line(), 22);
    }
    machine.copy_records(what, values);
    let mut lines = MaybeUninit::uninit();
    let mut listing = Listing::new(&mut lines);
    listing.memories(&machine);
    let (mut ordered, mut sections) = (0, 0);
    if let Some(order) = order {
        if denial.1 == 0 {
            order.scratch.fill(0);
            ordered = 1;
            sections = listing.sections(machine.sections(), order.list);
        } else {
            listing.pair(b"unordered", denial.0, denial.1);
        }
    }
    Marked {
        events: machine.len(),
        written: listing.copy_to(out),
        ordered,
        sections,
        denial: denial.1,
        denial_line: denial.0,
        ..Marked::default()
    }
}

#[cold]
fn refused(out: &mut [u8], line: usize, number: usize) -> Marked {
    let mut lines = MaybeUninit::uninit();
    let mut listing = Listing::new(&mut lines);
    listing.pair(b"refused", line, number);
    Marked { number, line, written: listing.copy_to(out), ..Marked::default() }
}
