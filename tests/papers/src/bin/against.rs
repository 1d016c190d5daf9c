//! Marker A against a program that reads a paper from standard input and prints its listing, with `--short` that of the short course:
//! `against PROGRAM [RANDOM [LARGE [SHORT]]]`. The last line is `N passed, M failed`.

use papers::compare::{against_a, close, run, Size};
use papers::Course;
use std::io::Write;
use std::process::{Command, Stdio};

fn listing(program: &str, course: Course, paper: &[u8]) -> String {
    let mut child = Command::new(program)
        .args((course == Course::Short).then_some("--short"))
        .stdin(Stdio::piped())
        .stdout(Stdio::piped())
        .stderr(Stdio::null())
        .spawn()
        .expect("the program starts");
    // a program may stop reading early
    let _ = child.stdin.take().expect("its input").write_all(paper);
    let output = child.wait_with_output().expect("its output");
    String::from_utf8_lossy(&output.stdout).into_owned()
}

fn main() {
    let mut args = std::env::args().skip(1);
    let program = args.next().expect("a program");
    let numbers: Vec<u64> = args.map(|a| a.parse().expect("a number")).collect();
    let arg = |i: usize, usual: u64| numbers.get(i).copied().unwrap_or(usual);
    let (random, large, short) = (arg(0, 2_000), arg(1, 50), arg(2, 2) as usize);
    let size = Size {
        seed: 1,
        random,
        damaged: random / 2,
        large,
        large_by_a: large,
        many_k: large,
        at_short_limits: random,
        aimed: 4,
        short,
    };
    close(run(against_a(move |course, paper| listing(&program, course, paper)), size));
}
