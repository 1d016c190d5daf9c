//! Times the proved marker and markers B and C on the same papers, in one run: `bench MARK MARKER_B MARKER_C`, the programs for the
//! last table. Prints tables in markdown. Each time is the least of several rounds, in which the markers take turns.

use bench::counter::Counter;
use bench::markers::{self, Lent, Marker, MARKERS};
use bench::mixes::{self, Paper};
use papers::{Counts, Course, COURSES};
use std::fs::File;
use std::process::{Command, Stdio};
use std::time::Instant;

const ROUNDS: usize = 150;
/// About so many events are marked by each marker in a round: few, so that some rounds are left alone by other load.
const EVENTS: usize = 40_000;
/// What a paper costs besides its events, in events, so that rounds of short papers take no longer.
const PAPER: usize = 75;

/// Nanoseconds for all of the papers, of each marker in the full course.
type Times = [f64; 3];

/// The least time for all the papers.
fn times(papers: &[Paper]) -> Times {
    least(papers, MARKERS.map(|marker| (marker, Course::Full)))
}

/// The least time for all the papers, of each of these markers in a course.
fn least<const N: usize>(papers: &[Paper], entries: [(Marker, Course); N]) -> [f64; N] {
    assert!(papers.iter().all(mixes::is_accepted));
    let repeats = EVENTS.div_ceil(events(papers) + PAPER * papers.len());
    let mut lent = Lent::default();
    let mut least = [f64::MAX; N];
    for _ in 0..ROUNDS {
        for ((marker, course), least) in entries.into_iter().zip(&mut least) {
            let start = Instant::now();
            for _ in 0..repeats {
                papers.iter().for_each(|p| marker.mark(course, p, &mut lent));
            }
            *least = least.min(start.elapsed().as_nanos() as f64 / repeats as f64);
        }
    }
    least
}

fn events(papers: &[Paper]) -> usize {
    papers.iter().map(mixes::events).sum()
}

/// The cells of a row: each marker's number, a part of its time, and the ratios of the proved marker to the others.
fn cells(times: Times, parts: f64) -> String {
    let [proved, b, c] = times.map(|t| t / parts);
    let digits = if proved < 10.0 { 2 } else { 1 };
    format!("{proved:.digits$} | {b:.digits$} | {c:.digits$} | {:.2} | {:.2}", proved / b, proved / c)
}

fn head(columns: &[&str]) {
    println!("\n| {} |\n|{}", columns.join(" | "), "---|".repeat(columns.len()));
}

fn by_mix() {
    head(&["papers of 2,000 events, ns an event", "proved", "B", "C", "proved / B", "proved / C"]);
    let row = |name: &str, papers: &[Paper]| println!("| {name} | {} |", cells(times(papers), events(papers) as f64));
    for seed in 1..=4 {
        row(&format!("random, seed {seed}"), &mixes::randoms(seed, 2000, 5));
    }
    for (threads, variables, locks) in [(2, 2, 2), (8, 16, 8)] {
        let name = format!("guarded, {threads} threads, {variables} variables, {locks} locks");
        row(&name, &mixes::ordered(2000, 5, |counts| counts == Counts::new(threads, variables, locks)));
    }
    row("guarded, all letters in turn", &[mixes::regular(2000)]);
    row("K, N: empty sections", &mixes::sections());
    row("K, N: nested locks", &mixes::nested());
    row("U: uses in one section", &mixes::uses());
    row("A: assigns", &mixes::assigns());
    row("R, L: reads and loads", &mixes::loads());
    row("A, S, W: long values", &mixes::stores());
    row("A, S, W: the longest values", &mixes::longest());
    for seed in 1..=2 {
        row(&format!("volatile variables, random, seed {seed}"), &mixes::volatile_randoms(seed, 2000, 5));
    }
    row("volatile variables, guarded", &mixes::volatile_ordered(2000, 5));
    row("volatile variables, R, L, U and A, S, W in turn", &[mixes::volatile_regular(2000)]);
}

fn by_length() {
    let columns = ["random papers, events", "proved, ns an event", "B", "C", "proved / B", "proved / C"];
    head(&[&columns[..], &["proved, µs a paper", "B", "C"]].concat());
    for n in [5, 10, 20, 50, 100, 200, 500, 1000, 2000] {
        let papers = mixes::randoms(50, n, (5000 / n).clamp(20, 500));
        let all = times(&papers);
        let [proved, b, c] = all.map(|t| t / 1000.0 / papers.len() as f64);
        println!("| {n} | {} | {proved:.2} | {b:.2} | {c:.2} |", cells(all, events(&papers) as f64));
    }
}

/// What the order costs: papers that have one, and the same papers without guards.
fn by_order() {
    let columns = ["papers with an order, events", "proved, ns an event", "C", "without guards, proved", "C"];
    head(&[&columns[..], &["20 to 22, order and section lines, proved", "C"]].concat());
    for n in [100, 500, 1000, 2000] {
        let guarded = mixes::ordered(n, 10, |_| true);
        let plain: Vec<Paper> = guarded.iter().map(mixes::unguarded).collect();
        let part = events(&guarded) as f64;
        let [proved, _, c] = times(&guarded).map(|t| t / part);
        let [proved_plain, _, c_plain] = times(&plain).map(|t| t / part);
        let rest = format!("{:.1} | {:.1}", proved - proved_plain, c - c_plain);
        println!("| about {n} | {proved:.1} | {c:.1} | {proved_plain:.1} | {c_plain:.1} | {rest} |");
    }
}

/// The same papers through the entries of both courses.
fn by_course() {
    let columns = ["2 threads, 4 variables, 2 locks, 200 events, ns an event", "proved, full", "short", "short / full"];
    head(&[&columns[..], &["B, full", "short", "short / full", "C, full", "short", "short / full"]].concat());
    for (name, orderly) in [("without an order", false), ("with an order", true)] {
        let papers = mixes::at_short_limits(25, orderly);
        let part = events(&papers) as f64;
        // Another marker has its turn before each, so that no entry goes over papers that its marker has just marked.
        let [full, short] = COURSES.map(|course| MARKERS.map(|marker| (marker, course)));
        let all = least(&papers, [full[0], full[1], full[2], short[0], short[1], short[2]]);
        let cells = all[..3].iter().zip(&all[3..]).map(|(f, s)| format!("{:.1} | {:.1} | {:.2}", f / part, s / part, s / f));
        println!("| {name} | {} |", cells.collect::<Vec<String>>().join(" | "));
    }
}

/// As many of the papers, in turn, as a sheet of 65,536 bytes has room for.
fn fill(papers: &[Paper]) -> Vec<Paper> {
    let mut room = 65_536;
    let fits = |p: &&Paper| {
        let fits = p.len() <= room;
        room -= if fits { p.len() } else { 0 };
        fits
    };
    papers.iter().cycle().take_while(fits).cloned().collect()
}

/// Sheets, and their papers one by one, without an order but with records and listing.
fn by_sheet() {
    head(&["sheets of full length", "papers", "ms a sheet", "µs a paper", "one by one, µs a paper", "sheet / one by one"]);
    let smallest: Paper = b"H\nZ 2\n".to_vec();
    let empty: Paper = b"H 1 1 0\nG -\nZ 12\n".to_vec();
    let row = |name: &str, papers: &[Paper]| {
        let (papers, mut lent) = (fill(papers), Lent::default());
        let sheet = papers.concat();
        let [mut whole, mut single] = [f64::MAX; 2];
        for _ in 0..ROUNDS {
            let start = Instant::now();
            markers::count(&sheet, &mut lent);
            whole = whole.min(start.elapsed().as_nanos() as f64);
            let start = Instant::now();
            papers.iter().for_each(|p| markers::mark_unordered(p, &mut lent));
            single = single.min(start.elapsed().as_nanos() as f64);
        }
        let [a, b] = [whole, single].map(|t| t / 1000.0 / papers.len() as f64);
        println!("| {name} | {} | {:.2} | {a:.2} | {b:.2} | {:.2} |", papers.len(), whole / 1e6, whole / single);
    };
    row("a bare `H` each, refused with 3", &[smallest]);
    row("no events", &[empty]);
    for n in [5, 50, 500] {
        row(&format!("{n} random events"), &mixes::randoms(50, n, 40));
    }
}

/// Instructions, where the machine counts them.
fn by_instructions() {
    let Some(counter) = Counter::instructions() else {
        return println!("\nThis machine does not count instructions; `bench/instructions` counts them under valgrind.");
    };
    head(&["all letters in turn, instructions an event", "proved", "B", "C", "proved / B", "proved / C"]);
    for n in [100, 1000, 2000] {
        let paper = mixes::regular(n);
        let mut lent = Lent::default();
        let counts = MARKERS.map(|marker: Marker| {
            let least = (0..ROUNDS).map(|_| counter.count(|| marker.mark(Course::Full, &paper, &mut lent))).min();
            least.unwrap_or(0) as f64
        });
        println!("| {n} events | {} |", cells(counts, n as f64));
    }
}

/// The time of a process that reads the file, in microseconds.
fn process(program: &str, file: &str) -> f64 {
    let start = Instant::now();
    let input = File::open(file).expect(file);
    let output = Command::new(program).stdin(input).stdout(Stdio::piped()).output().expect(program);
    assert!(output.status.success(), "{program}");
    start.elapsed().as_nanos() as f64 / 1000.0
}

fn by_process(programs: &[String]) {
    let file = std::env::temp_dir().join(format!("bench.{}", std::process::id()));
    let name = file.to_str().expect("a path in UTF-8");
    std::fs::write(&file, &mixes::ordered(2000, 1, |_| true)[0]).expect(name);
    let mut least = vec![f64::MAX; programs.len()];
    for _ in 0..200 {
        for (program, least) in programs.iter().zip(&mut least) {
            *least = least.min(process(program, name));
        }
    }
    std::fs::remove_file(&file).expect(name);
    head(&["one process, one paper of about 2,000 events", "µs"]);
    for (name, time) in ["`mark`", "B", "C", "`cat`"].into_iter().zip(least) {
        println!("| {name} | {time:.0} |");
    }
}

fn main() {
    let mut programs: Vec<String> = std::env::args().skip(1).collect();
    assert_eq!(programs.len(), 3, "bench MARK MARKER_B MARKER_C");
    programs.push(String::from("cat"));
    by_mix();
    by_length();
    by_order();
    by_course();
    by_sheet();
    by_instructions();
    by_process(&programs);
}
