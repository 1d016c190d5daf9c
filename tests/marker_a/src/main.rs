//! Reads a paper from standard input and prints its listing; `--short` selects the short course.
//! With `--tail` it prints `tail n` in its place, how many events the paper's tail has, or `refused line number`.
//! With `--sheet` it reads a session sheet and prints its counts; `--short` marks its papers in the short course.

use std::io::{Read, Write};

fn main() {
    let has = |flag: &str| std::env::args_os().skip(1).any(|argument| argument == flag);
    let mut input = Vec::new();
    let read = std::io::stdin().take(marker_a::MAX_BYTES as u64 + 1).read_to_end(&mut input);
    if let Err(error) = read {
        eprintln!("standard input: {error}");
        std::process::exit(1);
    }
    let text = match (has("--tail"), has("--sheet"), has("--short")) {
        (true, _, _) => tail(&input).into_bytes(),
        (false, true, false) => marker_a::sheet::sheet(&input),
        (false, true, true) => marker_a::sheet::sheet_short(&input),
        (false, false, false) => marker_a::mark(&input),
        (false, false, true) => marker_a::mark_short(&input),
    };
    if let Err(error) = std::io::stdout().write_all(&text) {
        eprintln!("standard output: {error}");
        std::process::exit(1);
    }
}

fn tail(paper: &[u8]) -> String {
    match marker_a::tail::tail(paper, usize::MAX) {
        Ok(events) => format!("tail {}\n", events.len()),
        Err(refusal) => format!("refused {} {}\n", refusal.line, refusal.number),
    }
}
