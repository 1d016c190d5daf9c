//! (c) on many lists: the tail by search, by counting, and as given.

use super::*;
use crate::rules::{fresh, owed, usable};
use crate::tail::{finishes, is_finished, legal_events, length, search, tail};
use crate::Verdict;

/// What was met on the way: lists, those whose tail the search found, and the longest found.
#[derive(Debug, Default)]
struct Seen {
    lists: usize,
    found: usize,
    longest: usize,
}

/// The search up to `most` events finds what is counted, or nothing where more are counted.
fn compare(counts: &Counts, es: &[Event], most: usize, seen: &mut Seen) {
    let counted = length(counts, es);
    let found = search(counts, es, most);
    assert_eq!(found, (counted <= most).then_some(counted), "{}: {counted}", text_of(es));
    assert_eq!(is_finished(counts, es), counted == 0, "{}", text_of(es));
    let cells = (counts.threads * counts.variables) as usize;
    assert!(counted <= es.len() + 2 * cells, "{}: {counted}", text_of(es));
    seen.lists += 1;
    seen.found += usize::from(found.is_some());
    seen.longest = seen.longest.max(found.unwrap_or(0));
}

/// The list and every legal one that goes on from it with at most `left` events.
fn visit(counts: &Counts, es: &mut Vec<Event>, left: usize, most: usize, seen: &mut Seen) {
    compare(counts, es, most, seen);
    if left == 0 {
        return;
    }
    for e in legal_events(counts, es) {
        es.push(e);
        visit(counts, es, left - 1, most, seen);
        es.pop();
    }
}

fn visited(counts: Counts, left: usize, most: usize) -> Seen {
    let mut seen = Seen::default();
    visit(&counts, &mut Vec::new(), left, most, &mut seen);
    println!("{seen:?}");
    seen
}

/// Every tail of these lists is within the search.
#[test]
fn one_thread_variable_and_lock() {
    let seen = visited(Counts::plain(1, 1, 1), 5, 7);
    assert!(seen.lists > 7_000 && seen.found == seen.lists && seen.longest == 7, "{seen:?}");
}

#[test]
fn two_of_one_sort() {
    for counts in [Counts::plain(2, 1, 1), Counts::plain(1, 2, 1), Counts::plain(1, 1, 2)] {
        let seen = visited(counts, 3, 4);
        assert!(seen.lists > 300 && seen.found * 10 > seen.lists * 8 && seen.longest == 4, "{counts:?}: {seen:?}");
    }
}

#[test]
fn two_of_each() {
    let seen = visited(TWO, 2, 3);
    assert!(seen.lists > 500 && seen.found > 300 && seen.longest == 3, "{seen:?}");
}

// ---- random lists ----

/// Without and with early stores: 13 bars a K where something is owed, and the K spoil copies.
const KINDS: [[Kind; 16]; 2] =
    [[U, A, A, A, A, L, S, S, R, R, W, W, K, K, K, N], [U, A, A, L, L, S, R, R, R, W, W, K, N, P, P, B]];

/// A legal list of at most `steps` events.
fn random_list(dice: &mut Dice, counts: Counts, steps: usize) -> Vec<Event> {
    let mut es = Vec::new();
    let kinds = KINDS[dice.roll(2) as usize];
    for _ in 0..steps {
        let kind = kinds[dice.roll(16) as usize];
        let targets = if kind.on_lock() { counts.locks } else { counts.variables };
        let (thread, target) = (dice.roll(counts.threads), dice.roll(targets.max(1)));
        let e = fitting(&es, kind, thread, target, Value::from(dice.roll(3)));
        if judge(&es, counts, &e) == 0 {
            es.push(e);
        }
    }
    es
}

#[test]
fn search_on_random_lists() {
    for (counts, steps, most) in [(TWO, 14, 3), (Counts::plain(2, 1, 1), 20, 4), (Counts::plain(1, 1, 1), 40, 6)] {
        let mut seen = Seen::default();
        for seed in 0..400 {
            let mut dice = Dice(seed);
            let steps = dice.roll(steps) as usize;
            compare(&counts, &random_list(&mut dice, counts, steps), most, &mut seen);
        }
        println!("{counts:?}: {seen:?}");
        assert!(seen.found >= 100 && seen.longest == most, "{counts:?}: {seen:?}");
    }
}

/// The search offers every legal event of the ten kinds; those with other values are an A or P, which is legal with
/// every value or with none.
#[test]
fn the_search_tries_every_legal_event() {
    let mut tried = 0;
    for seed in 0..60 {
        let es = random_list(&mut Dice(seed), TWO, 40);
        let offered = legal_events(&TWO, &es);
        let numbers = || (0..3).flat_map(|t| (0..3).flat_map(move |x| (-1..4).map(move |value| (t, x, value))));
        for kind in [U, A, L, S, R, W, K, N, P, B] {
            for (thread, target, value) in numbers().filter(|&(_, _, value)| !kind.on_lock() || value == 0) {
                let e = Event { kind, thread, target, value };
                let as_offered = if matches!(kind, A | P) { Event { value: value.clamp(0, 1), ..e } } else { e };
                let legal = judge(&es, TWO, &e) == 0;
                assert_eq!(offered.contains(&as_offered), legal, "{}: {e:?}", text_of(&es));
                tried += usize::from(legal);
            }
        }
    }
    assert!(tried > 1_000, "{tried}");
}

// ---- tails as given ----

/// What the lists have left, for a thread and variable: reads behind an owed assign, fresh and owed, fresh and usable,
/// fresh and spoiled.
fn left_over(counts: Counts, es: &[Event], met: &mut [usize; 4]) {
    for (t, v) in (0..counts.threads).flat_map(|t| (0..counts.variables).map(move |v| (t, v))) {
        let (reads, stores) = (outstanding_reads(es, t, v).len(), outstanding_stores(es, t, v).len());
        let (fresh, owed, usable) = (fresh(es, t, v), owed(es, t, v), usable(es, t, v));
        // (a): such a read could never be loaded.
        assert!(reads == 0 || stores == 0 && (owed || !fresh), "{}", text_of(es));
        met[0] += usize::from(reads > 0 && owed);
        met[1] += usize::from(fresh && owed);
        met[2] += usize::from(fresh && !owed && usable);
        met[3] += usize::from(fresh && !owed && !usable);
    }
}

/// The tail of a paper of these events is legal, finishes it, is as long as counted, and stands in the lines behind the
/// last event. With the tail the paper is accepted and finished, unless it has over 2,000 events.
fn check_tail(counts: Counts, guards: Option<&[u32]>, es: &[Event]) -> usize {
    let head = head_of(counts, guards);
    let paper = paper_of(&head, &text_of(es));
    let counted = length(&counts, es);
    let given = tail(&paper, counted).expect("a tail");
    let events: Vec<Event> = given.iter().map(|g| g.event).collect();
    assert_eq!(events.len(), counted, "{}", text_of(es));
    assert!(finishes(&counts, es, &events), "{}: {}", text_of(es), text_of(&events));
    assert!(given.iter().map(|g| g.line).eq(es.len() + 3..es.len() + 3 + counted), "{given:?}");
    assert!(counted == 0 || tail(&paper, counted - 1).is_err(), "{}", text_of(es));
    let whole = [es, &events[..]].concat();
    if whole.len() <= 2_000 {
        let extended = paper_of(&head, &text_of(&whole));
        let o = outcome(&extended);
        assert_eq!(o.verdict, Verdict::Accepted(whole.len()), "{}", text_of(&whole));
        assert!(is_finished(&counts, &o.events));
        assert_eq!(tail(&extended, 0), Ok(Vec::new()));
        let text = String::from_utf8(extended).expect("ASCII");
        let lines: Vec<&str> = text.lines().collect();
        assert!(given.iter().all(|g| lines[g.line - 1] == text_of(&[g.event])), "{given:?}");
    }
    counted
}

#[test]
fn tails_of_random_papers() {
    let (mut met, mut longest) = ([0; 4], 0);
    for seed in 0..300 {
        let mut dice = Dice(seed);
        let counts = Counts::plain(1 + dice.roll(3), 1 + dice.roll(3), dice.roll(3));
        let guards: Vec<u32> = (0..counts.variables).map(|_| dice.roll(counts.locks.max(1))).collect();
        let guards = (counts.locks > 0 && dice.roll(2) == 0).then_some(&guards[..]);
        let steps = dice.roll(120) as usize;
        let es = random_list(&mut dice, counts, steps);
        left_over(counts, &es, &mut met);
        longest = longest.max(check_tail(counts, guards, &es));
    }
    println!("{met:?} {longest}");
    assert!(met.iter().all(|&n| n >= 30) && longest >= 30, "{met:?} {longest}");
}

/// All threads, variables and locks.
#[test]
fn tails_of_long_papers() {
    let counts = Counts::plain(8, 16, 8);
    for seed in 0..6 {
        let mut dice = Dice(seed);
        let es = random_list(&mut dice, counts, 4_000);
        let counted = check_tail(counts, None, &es);
        println!("{} {counted}", es.len());
        assert!(es.len() > 1_200 && counted > 300, "{} {counted}", es.len());
    }
}
