//! Marks one regular paper of so many events, the second time in the function `counted`, for `bench/instructions`:
//! `counted MARKER EVENTS`.

use bench::markers::{Lent, Marker};
use bench::mixes;
use papers::Course;

#[no_mangle]
#[inline(never)]
pub fn counted(marker: Marker, paper: &[u8], lent: &mut Lent) {
    marker.mark(Course::Full, paper, lent);
}

fn main() {
    let args: Vec<String> = std::env::args().collect();
    let [_, marker, events] = &args[..] else { panic!("counted MARKER EVENTS") };
    let marker = match marker.as_str() {
        "proved" => Marker::Proved,
        "B" => Marker::B,
        "C" => Marker::C,
        _ => panic!("proved, B or C"),
    };
    let events = events.parse().expect("a number");
    let paper = mixes::regular(events);
    let mut lent = Lent::default();
    marker.mark(Course::Full, &paper, &mut lent);
    counted(marker, &paper, &mut lent);
}
