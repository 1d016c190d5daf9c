//! Tests, and the helpers that build papers.

mod compared_values;
mod dead_reads;
mod each_request;
mod each_rule;
mod early_lists;
mod early_stores;
mod format;
mod long_listings;
mod long_orders;
mod marking;
mod old_papers;
mod ordering;
mod sheet_lists;
mod sheets;
mod short_course;
mod short_lists;
mod tail_lists;
mod tails;
mod traces;
mod values;
mod volatile_lists;
mod volatiles;
mod waiting;
mod waiting_lists;
mod walks;
mod whole_papers;

use std::str::FromStr;

use crate::rules::{copy, main_memory, outstanding_reads, outstanding_stores};
use crate::Kind::{self, A, B, C, F, K, L, N, P, R, S, U, W, Y};
use crate::{demand3, judge, line_of, mark, outcome, paper, Counts, Event, Order, Value, MAX_VARIABLES};

/// The head and `G` line of the short traces: "Two threads, variables and locks."
const TRACE_HEAD: &str = "H 2 2 2\nG -\n";
/// The counts of that head.
const TWO: Counts = Counts::plain(2, 2, 2);

/// The counts with these volatile variables.
fn with_volatiles(counts: Counts, named: &[u32]) -> Counts {
    Counts { volatiles: std::array::from_fn(|v| named.contains(&(v as u32))), ..counts }
}

/// The lines of a paper before its events: `H`, `G`, and `V` if there are volatile variables.
fn head_of(counts: Counts, guards: Option<&[u32]>) -> String {
    let listed = |numbers: &[u32]| numbers.iter().map(|n| format!(" {n}")).collect::<String>();
    let guards = guards.map_or(String::from(" -"), listed);
    let volatiles: Vec<u32> = (0..MAX_VARIABLES).filter(|&v| counts.volatiles[v as usize]).collect();
    let v_line = if volatiles.is_empty() { String::new() } else { format!("V{}\n", listed(&volatiles)) };
    format!("H {} {} {}\nG{guards}\n{v_line}", counts.threads, counts.variables, counts.locks)
}

/// The bytes, and a right trailer after them.
fn with_trailer(before: &[u8]) -> Vec<u8> {
    let mut paper = before.to_vec();
    paper.extend_from_slice(format!("Z {}\n", before.len()).as_bytes());
    paper
}

/// A paper of this head and `G` line, these events parted by `;`, and a right trailer.
fn paper_of(head: &str, events: &str) -> Vec<u8> {
    let mut text = head.to_string();
    for event in events.split(';').map(str::trim).filter(|e| !e.is_empty()) {
        text.push_str(event);
        text.push('\n');
    }
    with_trailer(text.as_bytes())
}

/// A paper of these lines parted by `;`, blank ones too, and a right trailer.
fn paper_of_lines(lines: &str) -> Vec<u8> {
    let text: String = lines.split(';').map(|line| format!("{}\n", line.trim())).collect();
    with_trailer(text.as_bytes())
}

/// What `mark` prints for a paper of these lines.
fn printed(lines: &str) -> String {
    print(&paper_of_lines(lines))
}

/// What `mark` prints, as text.
fn print(paper: &[u8]) -> String {
    String::from_utf8(mark(paper)).expect("ASCII")
}

/// The first line that `mark` prints.
fn first_line(paper: &[u8]) -> String {
    print(paper).lines().next().unwrap_or("").to_string()
}

/// The events parted by `;`.
fn events_of(events: &str) -> Vec<Event> {
    events.split(';').map(str::trim).filter(|e| !e.is_empty()).map(|e| paper::event(e.as_bytes()).expect("an event")).collect()
}

fn expect_accepted(head: &str, events: &str) {
    let count = events_of(events).len();
    assert_eq!(first_line(&paper_of(head, events)), format!("accepted {count}"), "{events}");
}

/// The paper is refused with this number at its last event, and accepted without it.
fn expect_refused_last(head: &str, events: &str, number: u32) {
    let count = events.split(';').filter(|e| !e.trim().is_empty()).count();
    let line = head.lines().count() + count;
    assert_eq!(first_line(&paper_of(head, events)), format!("refused {line} {number}"), "{events}");
    let before = events.trim_end_matches([';', ' ']).rfind(';').map_or("", |end| &events[..end]);
    expect_accepted(head, before);
}

/// What `judge` says of the last event after the others, whether or not a paper can hold them.
fn judged(events: &str) -> u32 {
    judged_in(TWO, events)
}

/// The same in a paper with these counts.
fn judged_in(counts: Counts, events: &str) -> u32 {
    let list = events_of(events);
    let (e, earlier) = list.split_last().expect("an event");
    judge(earlier, counts, e)
}

/// The first refusal of an event after those before it: number and event, from 1; (0, n) where all n are accepted.
fn verdict_with(counts: Counts, trace: &str) -> (u32, usize) {
    let list = events_of(trace);
    let mut numbers = (0..list.len()).map(|i| (judge(&list[..i], counts, &list[i]), i + 1));
    numbers.find(|&(number, _)| number != 0).unwrap_or((0, list.len()))
}

/// The same in a paper with the counts of the short traces.
fn verdict(trace: &str) -> (u32, usize) {
    verdict_with(TWO, trace)
}

/// The bytes are refused with this line and number.
fn expect_refused(paper: &[u8], line: usize, number: u32) {
    let shown = String::from_utf8_lossy(&paper[..paper.len().min(120)]).into_owned();
    assert_eq!(print(paper), format!("refused {line} {number}\n"), "{shown:?}");
}

/// An accepted paper with guards gets `unordered line number` and no section.
fn expect_unordered(head: &str, events: &str, line: usize, number: u32) {
    let text = print(&paper_of(head, events));
    assert!(text.starts_with("accepted"), "{events}: {text}");
    assert!(text.ends_with(&format!("\nunordered {line} {number}\n")), "{events}: {text}");
    assert!(!text.contains("section"), "{events}: {text}");
}

/// The printed sections of a paper with an order, after demand 3 has been checked.
fn printed_sections(head: &str, events: &str) -> Vec<String> {
    let paper = paper_of(head, events);
    let o = outcome(&paper);
    assert!(matches!(o.order, Order::Sections(_)), "{events}: {o:?}");
    assert_eq!(demand3(&o), Ok(()), "{events}");
    print(&paper).lines().filter(|l| l.starts_with("section")).map(String::from).collect()
}

/// The event with the value that 18 asks for; an A or P has the value `free`, and an F notifies the
/// thread `free`.
fn fitting(es: &[Event], kind: Kind, thread: u32, target: u32, free: Value) -> Event {
    let first = |places: Vec<usize>| places.first().map_or(0, |&i| es[i].value);
    let value = match kind {
        U | S => copy(es, thread, target).unwrap_or(0),
        L => first(outstanding_reads(es, thread, target)),
        W => first(outstanding_stores(es, thread, target)),
        R => main_memory(es, target),
        A | P | F => free,
        B => es.iter().rev().find(|e| e.kind == P && e.thread == thread && e.target == target).map_or(0, |e| e.value),
        K | N | Y | C => 0,
    };
    Event { kind, thread, target, value }
}

/// The events parted by `;`, as `paper_of` takes them.
fn text_of(es: &[Event]) -> String {
    let line = |e: &Event| match e.kind {
        K | N | Y | C => format!("{:?} {} {}", e.kind, e.thread, e.target),
        _ => format!("{:?} {} {} {}", e.kind, e.thread, e.target, e.value),
    };
    es.iter().map(line).collect::<Vec<_>>().join(";")
}

/// A linear congruential generator.
struct Dice(u64);

impl Dice {
    fn roll(&mut self, sides: u32) -> u32 {
        self.0 = self.0.wrapping_mul(6364136223846793005).wrapping_add(1442695040888963407);
        ((self.0 >> 33) % u64::from(sides)) as u32
    }
}

/// A value of the width of `T`, read by `T` itself. It is written again to see its form: "no leading
/// zeros, no plus sign, no `-0`".
fn read_as<T: FromStr + ToString + Into<Value>>(field: &str) -> Option<Value> {
    let n: T = field.parse().ok()?;
    (n.to_string() == field).then(|| n.into())
}

/// The events with `x` for their values, and an event of this kind by thread 0 on variable 0 with
/// the value `y` after them.
fn followed(before: &str, x: &str, kind: Kind, y: &str) -> String {
    format!("{}; {kind:?} 0 0 {y}", before.replace('x', x))
}

/// `times` copies of the events.
fn repeat(events: &str, times: usize) -> String {
    vec![events; times].join(";")
}
