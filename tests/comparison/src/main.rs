//! The proved marker against markers A, B and C: `comparison [TIMES [SEED]]`, TIMES as many papers, sheets and steps as in the gate, from
//! this seed.
//! The last line is `N passed, M failed`.

use comparison::sheets;
use comparison::steps::{self, Tally};
use comparison::tails;
use comparison::whole::Papers;
use papers::compare::{close, run, Size};
use papers::generate::Rng;
use papers::{Course, COURSES};
use std::rc::Rc;
use std::thread;
use std::time::Instant;

fn main() {
    let args: Vec<u64> = std::env::args().skip(1).map(|a| a.parse().expect("a number")).collect();
    let (times, seed) = (args.first().copied().unwrap_or(1), args.get(1).copied().unwrap_or(1));
    let size = Size {
        seed,
        random: 200_000 * times,
        damaged: 100_000 * times,
        large: 300 * times,
        large_by_a: 300 * times,
        many_k: 100 * times,
        at_short_limits: 20_000 * times,
        aimed: 40 * times as usize,
        short: 5,
    };
    // The steps and the sheets run beside the papers.
    let others = thread::spawn(move || {
        let steps = COURSES.map(|course| all_steps(course, times as usize, seed));
        (steps, sheets::all(times as usize, seed))
    });
    let papers = Rc::new(Papers::new());
    let same = Rc::clone(&papers);
    let (mut passed, mut failed) = run(Box::new(move |course, paper, with_a| same.check(course, paper, with_a)), size);
    match papers.check(Course::Full, &tails::longest(), true) {
        Ok(_) => passed += 1,
        Err(what) => {
            println!("the paper with the longest tail: {what}");
            failed += 1;
        }
    }
    println!("{}\n{}", papers.orders(), papers.tails());
    let (steps, (lines, of_sheets)) = others.join().expect("the steps and the sheets");
    print!("{lines}");
    (passed, failed) = (passed + of_sheets.0, failed + of_sheets.1);
    for (lines, tally) in steps {
        print!("{lines}");
        (passed, failed) = (passed + tally.passed, failed + tally.failed);
    }
    close((passed, failed))
}

/// What is said of the steps of a course, a line for each part, and how they went.
fn all_steps(course: Course, times: usize, seed: u64) -> (String, Tally) {
    let mut rng = Rng::new(seed);
    let mut tally = Tally::default();
    let mut lines = String::new();
    let mut part = |name: &str, count: usize, one: &mut dyn FnMut(&mut Tally, &mut Rng)| {
        let start = Instant::now();
        let (passed, accepted) = (tally.passed + tally.failed, tally.accepted);
        for _ in 0..count * times {
            one(&mut tally, &mut rng);
        }
        let (passed, accepted) = (tally.passed + tally.failed - passed, tally.accepted - accepted);
        let seconds = start.elapsed().as_secs_f64();
        lines += &format!("{course:?} course, {name}: {passed} in {seconds:.1} s, {accepted} accepted\n");
    };
    part("steps along traces", 600, &mut |tally, rng| {
        let length = rng.between(0, 80);
        steps::walk(tally, rng, course, length, 6, 20)
    });
    let (long, most) = match course {
        Course::Full => (4, 2_000),
        Course::Short => (40, 210),
    };
    part("steps along long traces", long, &mut |tally, rng| steps::walk(tally, rng, course, most, 2, 40));
    part("steps from states in range", 4_000, &mut |tally, rng| steps::in_range(tally, rng, course, course, 40));
    if course == Course::Short {
        let full = Course::Full;
        part("steps from states in range of the full course", 300, &mut |tally, rng| {
            steps::in_range(tally, rng, course, full, 4)
        });
    }
    part("steps from states out of range", 20, &mut |tally, rng| steps::out_of_range(tally, rng, course));
    steps::every_answer(&mut tally, course);
    (lines, tally)
}
