//! Marker A against marker B: `compare [RANDOM [LARGE [SHORT]]]`, how many random and large papers, and the length of the traces
//! that are all compared. The last line is `N passed, M failed`.

use papers::compare::{against_a, close, run, Size};

fn main() {
    let args: Vec<u64> = std::env::args().skip(1).map(|a| a.parse().expect("a number")).collect();
    let arg = |i: usize, usual: u64| args.get(i).copied().unwrap_or(usual);
    let (random, large, short) = (arg(0, 20_000), arg(1, 40), arg(2, 4) as usize);
    let size = Size {
        seed: 1,
        random,
        damaged: random / 2,
        large,
        large_by_a: large,
        many_k: large,
        at_short_limits: random / 4,
        aimed: 40,
        short,
    };
    close(run(against_a(marker_b::mark), size));
}
