//! What the program prints.

use crate::{Order, Outcome, Section, Verdict};

/// The listing of an outcome.
pub fn listing(o: &Outcome) -> Vec<u8> {
    let text = match o.verdict {
        Verdict::Refused(refusal) => format!("refused {} {}\n", refusal.line, refusal.number),
        Verdict::Accepted(events) => accepted(events, o),
    };
    text.into_bytes()
}

/// "Events; each declared variable, rising, and its value in main memory; thread, variable and value of each usable
/// copy, by thread then variable; thread, first and last line of each section."
fn accepted(events: usize, o: &Outcome) -> String {
    let mut text = format!("accepted {events}\n");
    for (variable, value) in o.main.iter().enumerate() {
        text += &format!("main {variable} {value}\n");
    }
    for copy in &o.copies {
        text += &format!("copy {} {} {}\n", copy.thread, copy.variable, copy.value);
    }
    text + &order(&o.order)
}

/// "for 20 to 22 the sections give way to `unordered line number`. With `G -` there are neither."
fn order(order: &Order) -> String {
    match order {
        Order::None => String::new(),
        Order::Sections(list) => list.iter().map(section).collect(),
        Order::Denied { number, line } => format!("unordered {line} {number}\n"),
    }
}

fn section(s: &Section) -> String {
    format!("section {} {} {}\n", s.thread, s.first, s.last)
}
