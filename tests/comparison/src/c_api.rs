//! The C interface of the proved marker, as `include/dabzhoni.h` declares it.

use papers::{Course, Event, Value};
use std::mem::{offset_of, size_of};
use std::ops::Range;

#[repr(C)]
#[derive(Clone, Copy, Debug, PartialEq, Eq)]
pub struct Counts {
    pub threads: usize,
    pub variables: usize,
    pub locks: usize,
    pub volatiles: [bool; 16],
}

impl Counts {
    /// The line of the first event.
    pub fn first_line(&self) -> usize {
        3 + usize::from(self.volatiles.contains(&true))
    }
}

#[repr(C)]
#[derive(Clone, Copy, Debug, PartialEq, Eq)]
pub struct Ring {
    pub first: u8,
    pub len: u8,
}

#[repr(C)]
#[derive(Clone, Copy, Debug, PartialEq, Eq)]
pub struct Cell {
    pub copy: Value,
    pub announced: Value,
    pub source: usize,
    pub written: usize,
    pub loaded: usize,
    pub used: usize,
    pub assigned: usize,
    pub reads: Ring,
    pub stores: Ring,
    pub fresh: bool,
    pub pending: bool,
    pub after_load: bool,
    pub after_assign: bool,
}

#[repr(C)]
#[derive(Clone, Copy, Debug, PartialEq, Eq)]
pub struct Slot {
    pub value: Value,
    pub position: usize,
}

#[repr(C)]
#[derive(Clone, Copy, Debug, PartialEq, Eq)]
pub struct Hold {
    pub holder: usize,
    pub depth: u32,
}

#[repr(C)]
#[derive(Clone, Copy, Debug, PartialEq, Eq)]
pub struct Wait {
    pub lock: usize,
    pub depth: u32,
    pub notified: bool,
}

#[repr(C)]
#[derive(Debug, PartialEq, Eq)]
pub struct State {
    pub counts: Counts,
    pub events: u32,
    pub cells: [Cell; 128],
    pub reads: [Slot; 1024],
    pub stores: [Slot; 1024],
    pub locked: [usize; 8],
    pub holds: [Hold; 8],
    pub memory: [Value; 16],
    pub waits: [Wait; 8],
}

/// Bytes of a state, its padding included.
pub const STATE_BYTES: usize = 41_456;
const _: () = assert!(offset_of!(Counts, volatiles) == 24 && size_of::<Counts>() == 40 && size_of::<Ring>() == 2);
const _: () = assert!(offset_of!(Cell, written) == 24 && offset_of!(Cell, loaded) == 32 && offset_of!(Cell, used) == 40);
const _: () = assert!(offset_of!(Cell, assigned) == 48 && offset_of!(Cell, reads) == 56 && offset_of!(Cell, stores) == 58);
const _: () = assert!(offset_of!(Cell, fresh) == 60 && offset_of!(Cell, pending) == 61 && offset_of!(Cell, after_load) == 62);
const _: () = assert!(offset_of!(Cell, after_assign) == 63 && size_of::<Cell>() == 64);
const _: () = assert!(offset_of!(Slot, position) == 8 && size_of::<Slot>() == 16);
const _: () = assert!(offset_of!(Hold, depth) == 8 && size_of::<Hold>() == 16);
const _: () = assert!(offset_of!(Wait, depth) == 8 && offset_of!(Wait, notified) == 12 && size_of::<Wait>() == 16);
const _: () = assert!(offset_of!(State, events) == 40 && offset_of!(State, cells) == 48 && offset_of!(State, reads) == 8_240);
const _: () = assert!(offset_of!(State, stores) == 24_624 && offset_of!(State, locked) == 41_008);
const _: () = assert!(offset_of!(State, holds) == 41_072 && offset_of!(State, memory) == 41_200);
const _: () = assert!(offset_of!(State, waits) == 41_328);
const _: () = assert!(size_of::<State>() == STATE_BYTES);

/// The bytes of a state's padding: behind the events, each hold and each wait.
fn padding() -> impl Iterator<Item = Range<usize>> {
    let holds = (0..8).map(|i| offset_of!(State, holds) + 16 * i).map(|hold| hold + 12..hold + 16);
    let waits = (0..8).map(|i| offset_of!(State, waits) + 16 * i).map(|wait| wait + 13..wait + 16);
    [44..48].into_iter().chain(holds).chain(waits)
}

#[repr(C)]
#[derive(Clone, Copy, Debug, PartialEq, Eq)]
pub struct Reply {
    pub number: usize,
    pub line: usize,
}

/// What is said of a trace.
#[repr(C)]
#[derive(Clone, Copy, Debug, Default, PartialEq, Eq)]
pub struct Marked {
    pub number: usize,
    pub line: usize,
    pub events: usize,
    pub written: usize,
    pub ordered: usize,
    pub sections: usize,
    pub denial: usize,
    pub denial_line: usize,
}

const _: () = assert!(offset_of!(Marked, ordered) == 32 && offset_of!(Marked, denial_line) == 56 && size_of::<Marked>() == 64);

/// What is said of a tail.
#[repr(C)]
#[derive(Clone, Copy, Debug, Default, PartialEq, Eq)]
pub struct Tail {
    pub number: usize,
    pub line: usize,
    pub events: usize,
    pub first: usize,
}

const _: () = assert!(offset_of!(Tail, events) == 16 && offset_of!(Tail, first) == 24 && size_of::<Tail>() == 32);

/// What is said of a sheet.
#[repr(C)]
#[derive(Clone, Copy, Debug, Default, PartialEq, Eq)]
pub struct Sheet {
    pub number: usize,
    pub line: usize,
    pub papers: usize,
    pub accepted: usize,
    pub written: usize,
}

const _: () = assert!(offset_of!(Sheet, papers) == 16 && offset_of!(Sheet, accepted) == 24 && offset_of!(Sheet, written) == 32);
const _: () = assert!(size_of::<Sheet>() == 40);

#[link(name = "c_api", kind = "static")]
extern "C" {
    fn dabzhoni_initial(state: *mut State, threads: usize, variables: usize, locks: usize);
    fn dabzhoni_step(state: *mut State, letter: u8, thread: usize, place: usize, value: Value) -> Reply;
    fn dabzhoni_step_short(state: *mut State, letter: u8, thread: usize, place: usize, value: Value) -> Reply;
    fn dabzhoni_mark(
        paper: *const u8,
        paper_len: usize,
        what: *mut u32,
        what_len: usize,
        values: *mut Value,
        values_len: usize,
        out: *mut u8,
        out_len: usize,
        order: *mut u64,
        order_len: usize,
        scratch: *mut u64,
        scratch_len: usize,
    ) -> Marked;
    fn dabzhoni_mark_short(
        paper: *const u8,
        paper_len: usize,
        what: *mut u32,
        what_len: usize,
        values: *mut Value,
        values_len: usize,
        out: *mut u8,
        out_len: usize,
        order: *mut u64,
        order_len: usize,
        scratch: *mut u64,
        scratch_len: usize,
    ) -> Marked;
    fn dabzhoni_mark_unordered(
        paper: *const u8,
        paper_len: usize,
        what: *mut u32,
        what_len: usize,
        values: *mut Value,
        values_len: usize,
        out: *mut u8,
        out_len: usize,
    ) -> Marked;
    fn dabzhoni_mark_short_unordered(
        paper: *const u8,
        paper_len: usize,
        what: *mut u32,
        what_len: usize,
        values: *mut Value,
        values_len: usize,
        out: *mut u8,
        out_len: usize,
    ) -> Marked;
    fn dabzhoni_finish(
        paper: *const u8,
        paper_len: usize,
        what: *mut u32,
        what_len: usize,
        values: *mut Value,
        values_len: usize,
    ) -> Tail;
    fn dabzhoni_finish_short(
        paper: *const u8,
        paper_len: usize,
        what: *mut u32,
        what_len: usize,
        values: *mut Value,
        values_len: usize,
    ) -> Tail;
    fn dabzhoni_sheet(sheet: *const u8, sheet_len: usize, out: *mut u8, out_len: usize) -> Sheet;
    fn dabzhoni_sheet_short(sheet: *const u8, sheet_len: usize, out: *mut u8, out_len: usize) -> Sheet;
}

/// The memory of a state, byte for byte.
#[repr(C, align(8))]
#[derive(Clone, PartialEq, Eq)]
pub struct Kept {
    bytes: [u8; STATE_BYTES],
}

impl Kept {
    /// The state before the first event, in memory that had another: every bool was true.
    pub fn initial(counts: Counts) -> Kept {
        let mut kept = Kept { bytes: [1; STATE_BYTES] };
        // SAFETY: the pointer is to the memory of a state, aligned to 8, and nothing else refers to it.
        unsafe { dabzhoni_initial(&mut *kept, counts.threads, counts.variables, counts.locks) };
        assert_eq!(kept.counts, Counts { volatiles: [false; 16], ..counts }, "the counts of the state before the first event");
        kept.counts.volatiles = counts.volatiles;
        kept
    }

    /// Fills the padding with a byte that is not zero.
    pub fn paint(&mut self) {
        padding().for_each(|bytes| self.bytes[bytes].fill(0xa5));
    }

    pub fn step(&mut self, course: Course, e: &Event) -> Reply {
        let step = match course {
            Course::Full => dabzhoni_step,
            Course::Short => dabzhoni_step_short,
        };
        // SAFETY: as above.
        unsafe { step(&mut **self, e.letter, e.thread, e.place, e.value) }
    }
}

impl std::ops::Deref for Kept {
    type Target = State;
    fn deref(&self) -> &State {
        // SAFETY: of the size and alignment of a state, whose bools are written as bools alone.
        unsafe { &*self.bytes.as_ptr().cast() }
    }
}

impl std::ops::DerefMut for Kept {
    fn deref_mut(&mut self) -> &mut State {
        // SAFETY: as above.
        unsafe { &mut *self.bytes.as_mut_ptr().cast() }
    }
}

/// Marks a paper into lent memory.
pub fn mark(
    course: Course,
    paper: &[u8],
    what: &mut [u32],
    values: &mut [Value],
    out: &mut [u8],
    order: &mut [u64],
    scratch: &mut [u64],
) -> Marked {
    let mark = match course {
        Course::Full => dabzhoni_mark,
        Course::Short => dabzhoni_mark_short,
    };
    // SAFETY: six slices that do not overlap, each with its own length.
    unsafe {
        mark(
            paper.as_ptr(),
            paper.len(),
            what.as_mut_ptr(),
            what.len(),
            values.as_mut_ptr(),
            values.len(),
            out.as_mut_ptr(),
            out.len(),
            order.as_mut_ptr(),
            order.len(),
            scratch.as_mut_ptr(),
            scratch.len(),
        )
    }
}

/// Marks a paper where no order is wanted.
pub fn mark_unordered(course: Course, paper: &[u8], what: &mut [u32], values: &mut [Value], out: &mut [u8]) -> Marked {
    let mark = match course {
        Course::Full => dabzhoni_mark_unordered,
        Course::Short => dabzhoni_mark_short_unordered,
    };
    // SAFETY: four slices that do not overlap, each with its own length.
    unsafe {
        mark(
            paper.as_ptr(),
            paper.len(),
            what.as_mut_ptr(),
            what.len(),
            values.as_mut_ptr(),
            values.len(),
            out.as_mut_ptr(),
            out.len(),
        )
    }
}

/// Gives the tail of a paper into two lent rows.
pub fn finish(course: Course, paper: &[u8], what: &mut [u32], values: &mut [Value]) -> Tail {
    let finish = match course {
        Course::Full => dabzhoni_finish,
        Course::Short => dabzhoni_finish_short,
    };
    // SAFETY: three slices that do not overlap, each with its own length.
    unsafe { finish(paper.as_ptr(), paper.len(), what.as_mut_ptr(), what.len(), values.as_mut_ptr(), values.len()) }
}

/// Counts the papers of a sheet into a lent output.
pub fn sheet(course: Course, sheet: &[u8], out: &mut [u8]) -> Sheet {
    let count = match course {
        Course::Full => dabzhoni_sheet,
        Course::Short => dabzhoni_sheet_short,
    };
    // SAFETY: two slices that do not overlap, each with its own length.
    unsafe { count(sheet.as_ptr(), sheet.len(), out.as_mut_ptr(), out.len()) }
}
