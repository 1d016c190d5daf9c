//! The markers that are timed, each a whole job: read, mark, records, order, listing.

use comparison::c_api;
use comparison::whole::by_c;
use papers::{Course, Value};
use std::hint::black_box;

/// Memory to mark papers into. It is not cleared between papers.
pub struct Lent {
    what: Vec<u32>,
    values: Vec<Value>,
    out: Vec<u8>,
    order: Vec<u64>,
    scratch: Vec<u64>,
}

impl Default for Lent {
    fn default() -> Lent {
        Lent {
            what: vec![0; 2_000],
            values: vec![0; 2_000],
            out: vec![0; 32_768],
            order: vec![0; 1_000],
            scratch: vec![0; 1_000],
        }
    }
}

#[derive(Clone, Copy, PartialEq, Eq)]
pub enum Marker {
    Proved,
    B,
    C,
}

pub const MARKERS: [Marker; 3] = [Marker::Proved, Marker::B, Marker::C];

impl Marker {
    /// Marks a paper in a course. B makes the listing alone, on the heap.
    #[inline(always)]
    pub fn mark(self, course: Course, paper: &[u8], lent: &mut Lent) {
        let Lent { what, values, out, order, scratch } = lent;
        match self {
            Marker::Proved => _ = black_box(c_api::mark(course, paper, what, values, out, order, scratch)),
            Marker::B => _ = black_box(marker_b::mark(course, paper)),
            Marker::C => _ = black_box(marker_c::mark(by_c(course), paper, what, values, out, order, scratch)),
        }
    }
}

/// Counts the papers of a sheet.
pub fn count(sheet: &[u8], lent: &mut Lent) {
    black_box(c_api::sheet(Course::Full, sheet, &mut lent.out));
}

/// Marks a paper without an order.
pub fn mark_unordered(paper: &[u8], lent: &mut Lent) {
    let Lent { what, values, out, .. } = lent;
    black_box(c_api::mark_unordered(Course::Full, paper, what, values, out));
}
