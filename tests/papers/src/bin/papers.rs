//! Writes papers and their listings, NAME.txt, NAME.out and, for the short course, NAME.short: `papers DIR [RANDOM]`, the papers with known
//! listings and some random ones. The listings that are not known are marker A's. A number before the name keeps names apart that agree in
//! their letters and digits.

use papers::{by_a, expected, generate, short_course, volatiles, waiting, Course};
use std::path::Path;

fn main() {
    let mut args = std::env::args().skip(1);
    let dir = args.next().expect("a folder");
    let random: u64 = args.next().map_or(0, |a| a.parse().expect("a number"));
    std::fs::create_dir_all(&dir).expect("the folder");
    let write = |name: &str, paper: &[u8], listing: &str, short: &str| {
        for (end, bytes) in [("txt", paper), ("out", listing.as_bytes()), ("short", short.as_bytes())] {
            std::fs::write(Path::new(&dir).join(format!("{name}.{end}")), bytes).expect(name);
        }
    };
    let short = |paper: &[u8]| by_a::mark(Course::Short, paper);
    let plain = expected::papers().into_iter().map(|e| {
        let short = short(&e.paper);
        (e, short)
    });
    let known = plain.chain(short_course::papers()).chain(volatiles::papers()).chain(waiting::papers());
    for (number, (e, short)) in known.enumerate() {
        let words: Vec<String> =
            e.name.split(|c: char| !c.is_ascii_alphanumeric()).filter(|w| !w.is_empty()).map(str::to_ascii_lowercase).collect();
        write(&format!("{:04}-{}", number + 1, words.join("-")), &e.paper, &e.listing, &short);
    }
    for seed in 1..=random {
        let paper = if seed % 3 == 0 { generate::damaged_paper(seed) } else { generate::random_paper(seed) };
        write(&format!("seed-{seed:05}"), &paper, &by_a::mark(Course::Full, &paper), &short(&paper));
    }
}
