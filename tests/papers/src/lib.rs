//! Papers to mark, and what compares markers on them.

pub mod antt;
pub mod by_a;
pub mod compare;
pub mod expected;
pub mod generate;
pub mod locking;
pub mod short_course;
pub mod shrink;
pub mod values;
pub mod volatiles;
pub mod waiting;

pub use marker_b::{Counts, Course, Event, Value, COURSES};
