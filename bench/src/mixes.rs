//! The papers. All are accepted.

use papers::generate::{self, Rng};
use papers::{short_course, Counts, Course, Value};
use std::iter::{once, repeat_n, repeat_with};

pub type Paper = Vec<u8>;

/// Values within 32 bits, to pick from.
const OF_32_BITS: &[Value] = &[1, 2, 5, -1, -7, 100, 65_536, 123_456_789, i32::MAX as Value, i32::MIN as Value];

const LARGEST: &str = "H 8 16 8";
const ONE_LOCK: &str = "G 0 0 0 0 0 0 0 0 0 0 0 0 0 0 0 0";

/// A paper from its head, its guards and its event lines.
fn paper(head: &str, guards: &str, lines: impl Iterator<Item = String>) -> Paper {
    let lines: String = lines.map(|line| line + "\n").collect();
    generate::close(format!("{head}\n{guards}\n{lines}").into_bytes())
}

/// A random paper of so many events, with values of 32 bits: the front of a longer one.
fn random(rng: &mut Rng, length: usize) -> Paper {
    loop {
        let (counts, guards, events) = generate::long_of(rng, OF_32_BITS, length, 0, false);
        if let Some(front) = events.get(..length) {
            return generate::paper(counts, guards.as_deref(), front);
        }
    }
}

/// So many random papers from a seed.
pub fn randoms(seed: u64, length: usize, number: usize) -> Vec<Paper> {
    let mut rng = Rng::new(seed);
    (0..number).map(|_| random(&mut rng, length)).collect()
}

/// Counts, guards and events with volatile variables and values of 32 bits, and about so many events.
fn volatile(rng: &mut Rng, length: usize, orderly: bool) -> generate::Trace {
    let mut counts = generate::long_counts(rng, orderly);
    counts.volatiles = generate::some_volatiles(rng, counts.variables);
    generate::long_with(rng, counts, OF_32_BITS, length, 0, orderly, false)
}

/// So many random papers with volatile variables from a seed, each of so many events.
pub fn volatile_randoms(seed: u64, length: usize, number: usize) -> Vec<Paper> {
    let mut rng = Rng::new(seed);
    let made = || {
        let (counts, guards, events) = volatile(&mut rng, length, false);
        events.get(..length).map(|front| generate::paper(counts, guards.as_deref(), front))
    };
    repeat_with(made).flatten().take(number).collect()
}

/// So many papers with volatile variables that have an order, of up to so many events and not much fewer.
pub fn volatile_ordered(length: usize, number: usize) -> Vec<Paper> {
    let mut rng = Rng::new(9);
    let made = || {
        let (counts, guards, events) = volatile(&mut rng, length - length / 10, true);
        generate::paper(counts, guards.as_deref(), &events)
    };
    let enough = |p: &Paper| {
        (length - length / 10..=length).contains(&events(p)) && marker_b::mark(Course::Full, p).contains("\nsection ")
    };
    repeat_with(made).filter(enough).take(number).collect()
}

/// Papers that have an order, with values of 32 bits, of up to so many events and not much fewer, whose counts are fit.
pub fn ordered(length: usize, number: usize, fit: impl Fn(Counts) -> bool) -> Vec<Paper> {
    let long = |seed, length| generate::long_of(&mut Rng::new(seed), OF_32_BITS, length, 0, true);
    let fits = |seed: &u64| fit(long(*seed, 0).0);
    let made = |seed| {
        let (counts, guards, events) = long(seed, length - length / 10);
        generate::paper(counts, guards.as_deref(), &events)
    };
    let enough = |p: &Paper| {
        (length - length / 10..=length).contains(&events(p)) && marker_b::mark(Course::Full, p).contains("\nsection ")
    };
    (1..).filter(fits).map(made).filter(enough).take(number).collect()
}

/// So many papers of 200 events at the limits of the short course, with values of 32 bits; all or none have an order.
pub fn at_short_limits(number: usize, orderly: bool) -> Vec<Paper> {
    let (counts, length) = (Course::Short.counts(), Course::Short.events() as usize);
    let mut rng = Rng::new(7);
    let made = || {
        let (counts, guards, events) = generate::of_length(&mut rng, counts, OF_32_BITS, length, orderly, false);
        generate::paper(counts, guards.as_deref(), &events)
    };
    let fit = |p: &Paper| events(p) == length && marker_b::mark(Course::Short, p).contains("\nsection ") == orderly;
    repeat_with(made).filter(fit).take(number).collect()
}

pub fn is_accepted(p: &Paper) -> bool {
    marker_b::mark(Course::Full, p).starts_with("accepted")
}

/// How many events a paper has: its lines but the head, the `G` line, the `V` line and the trailer.
pub fn events(paper: &Paper) -> usize {
    paper.iter().filter(|&&b| b == 10).count() - 3 - usize::from(short_course::has_v_line(paper))
}

/// The same paper with no guards.
pub fn unguarded(p: &Paper) -> Paper {
    let text = std::str::from_utf8(p).expect("ASCII");
    let lines: Vec<&str> = text.lines().collect();
    paper(lines[0], "G -", lines[2..lines.len() - 1].iter().map(|line| line.to_string()))
}

/// Empty sections, one after the other.
pub fn sections() -> Vec<Paper> {
    vec![paper(LARGEST, ONE_LOCK, (0..2000).map(|i| format!("{} {} 0", ['K', 'N'][i % 2], i / 2 % 8)))]
}

/// Locks taken again and again by a thread that holds them.
pub fn nested() -> Vec<Paper> {
    vec![paper(LARGEST, ONE_LOCK, (0..2000).map(|i| format!("{} 0 {}", ['K', 'N'][i / 1000], i % 8)))]
}

/// Uses of one variable in one section.
pub fn uses() -> Vec<Paper> {
    let before = ["K 0 0", "R 0 0 0", "L 0 0 0"].into_iter().map(String::from);
    let uses = repeat_n(String::from("U 0 0 0"), 1996);
    vec![paper("H 1 1 1", "G 0", before.chain(uses).chain(once(String::from("N 0 0"))))]
}

/// Assigns of all variables by all threads.
pub fn assigns() -> Vec<Paper> {
    vec![paper(LARGEST, "G -", (0..2000).map(|i| format!("A {} {} {}", i % 8, i / 8 % 16, i)))]
}

/// Each read loaded at once.
pub fn loads() -> Vec<Paper> {
    vec![paper(LARGEST, "G -", (0..2000).map(|i| format!("{} {} {} 0", ['R', 'L'][i % 2], i / 2 % 8, i / 16 % 16)))]
}

/// Assigns, stores and writes of values from this one on, on all variables.
fn stores_from(first: Value) -> Vec<Paper> {
    let line = |i: usize| format!("{} 7 {} {}", ['A', 'S', 'W'][i % 3], i / 3 % 16, first + (i / 3) as Value);
    vec![paper(LARGEST, "G -", (0..1998).map(line))]
}

/// The same with long values of 32 bits, 11 bytes each.
pub fn stores() -> Vec<Paper> {
    stores_from(i32::MIN.into())
}

/// The same with the longest values, 20 bytes each.
pub fn longest() -> Vec<Paper> {
    stores_from(Value::MIN)
}

/// Sections of twenty events with the ten letters of document 01, by all threads on all variables. The paper has an order.
pub fn regular(length: usize) -> Paper {
    let mut main = [0; 16];
    let mut lines = Vec::new();
    for i in 0..length / 20 {
        let (t, v, l, x) = (i % 8, i % 16, i % 8, 37 * i as Value);
        lines.push(format!("K {t} {l}"));
        for letter in "RLU".chars() {
            lines.push(format!("{letter} {t} {v} {}", main[v]));
        }
        for (letters, value) in [("ASWU", x), ("ASWU", -x - 1), ("PWBUUUU", 3)] {
            lines.extend(letters.chars().map(|letter| format!("{letter} {t} {v} {value}")));
        }
        lines.push(format!("N {t} {l}"));
        main[v] = 3;
    }
    paper(LARGEST, "G 0 1 2 3 4 5 6 7 0 1 2 3 4 5 6 7", lines.into_iter())
}

/// Sections of eight events by all threads on all variables, which are volatile. The paper has an order.
pub fn volatile_regular(length: usize) -> Paper {
    let mut main = [0; 16];
    let mut lines = vec![String::from("V 0 1 2 3 4 5 6 7 8 9 10 11 12 13 14 15")];
    for i in 0..length / 8 {
        let (t, v, l, x) = (i % 8, i % 16, i % 8, 37 * i as Value);
        lines.push(format!("K {t} {l}"));
        for (letters, value) in [("RLU", main[v]), ("ASW", x)] {
            lines.extend(letters.chars().map(|letter| format!("{letter} {t} {v} {value}")));
        }
        lines.push(format!("N {t} {l}"));
        main[v] = x;
    }
    paper(LARGEST, "G 0 1 2 3 4 5 6 7 0 1 2 3 4 5 6 7", lines.into_iter())
}
