//! Reads a paper from standard input and writes its listing; with `--short` that of the short course.

use marker_c::Course;
use std::io::{Read, Write};

fn main() {
    let course = match std::env::args().nth(1).as_deref() {
        None => Course::Full,
        Some("--short") => Course::Short,
        Some(other) => panic!("{other}: only --short is known"),
    };
    let mut paper = Vec::new();
    std::io::stdin().read_to_end(&mut paper).expect("standard input");
    let (mut what, mut values, mut out) = ([0; 2_000], [0; 2_000], [0; 32_768]);
    let (mut order, mut scratch) = ([0; 1_000], [0; 1_000]);
    let marked = marker_c::mark(course, &paper, &mut what, &mut values, &mut out, &mut order, &mut scratch);
    std::io::stdout().write_all(&out[..marked.written]).expect("standard output");
}
