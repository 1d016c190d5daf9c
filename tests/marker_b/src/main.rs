//! Reads a paper from standard input and writes its listing; with `--short` that of the short course.

use marker_b::Course;
use std::io::{Read, Write};

fn main() {
    let course = match std::env::args().nth(1).as_deref() {
        None => Course::Full,
        Some("--short") => Course::Short,
        Some(other) => panic!("{other}: only --short is known"),
    };
    let mut paper = Vec::new();
    std::io::stdin().read_to_end(&mut paper).expect("standard input");
    std::io::stdout().write_all(marker_b::mark(course, &paper).as_bytes()).expect("standard output");
}
