//! Papers to time markers on, and the markers.

pub mod counter;
pub mod markers;
pub mod mixes;
