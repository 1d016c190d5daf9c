//! 02 (k): "Give the same order from scratch of 1,000 numbers."

use super::*;
use crate::listing::listing;
use crate::{denial, sections, Outcome, Section, Verdict, MAX_EVENTS};

/// 7: "its limit for the scratch becomes 1,000".
const SCRATCH: usize = 1_000;
/// 8 threads and locks; lock 0 guards the only variable.
const HEAD: &str = "H 8 1 8\nG 0\n";
/// The counts of that head.
const COUNTS: Counts = Counts::plain(8, 1, 8);

/// The order of a list in which every section ends, from one number for each section: the line of
/// its last K. The events are followed one by one. A section goes to the place that is the number
/// of sections with an earlier last K.
fn from_scratch(events: &[Event]) -> Vec<Section> {
    let mut scratch = [0; SCRATCH];
    let mut list: Vec<Section> = Vec::new();
    // How many locks each thread holds, and the place of its latest section in the list.
    let (mut depth, mut latest) = ([0; 8], [0; 8]);
    for (i, e) in events.iter().enumerate() {
        let (t, line) = (e.thread as usize, line_of(COUNTS, i));
        match e.kind {
            K => {
                if depth[t] == 0 {
                    latest[t] = list.len();
                    list.push(Section { thread: e.thread, first: line, last: 0, last_lock: 0 });
                }
                scratch[latest[t]] = line;
                depth[t] += 1;
            }
            N => {
                list[latest[t]].last = line;
                depth[t] -= 1;
            }
            _ => {}
        }
    }
    let scratch = &scratch[..list.len()];
    let mut order = list.clone();
    for (s, &last_lock) in list.iter().zip(scratch) {
        let place = scratch.iter().filter(|&&other| other < last_lock).count();
        order[place] = Section { last_lock, ..*s };
    }
    order
}

/// A paper of 2,000 events has this order: thread, and the places of the first K and the last N of
/// each section.
fn expect_order(events: &str, order: impl IntoIterator<Item = (u32, usize, usize)>) {
    let list = events_of(events);
    assert_eq!(list.len(), MAX_EVENTS);
    let line = |(t, first, last)| format!("section {t} {} {}", line_of(COUNTS, first), line_of(COUNTS, last));
    let expected: Vec<String> = order.into_iter().map(line).collect();
    assert_eq!(printed_sections(HEAD, events), expected);
    assert_eq!(sections(COUNTS, &list), from_scratch(&list));
}

/// The events of each of these numbers, one after the other.
fn each(numbers: impl IntoIterator<Item = usize>, events: impl Fn(usize) -> String) -> String {
    numbers.into_iter().map(events).collect::<Vec<_>>().join(";")
}

#[test]
fn a_thousand_sections_in_turn() {
    let events = each(0..1_000, |n| format!("K {} 0; N {} 0", n % 8, n % 8));
    expect_order(&events, (0..1_000).map(|n| (n as u32 % 8, 2 * n, 2 * n + 1)));
}

/// Eight sections run at a time, and the one that begins first ends last.
#[test]
fn a_thousand_sections_nested() {
    let round = format!("{}; {}", each(0..8, |t| format!("K {t} {t}")), each((0..8).rev(), |t| format!("N {t} {t}")));
    let order = (0..125).flat_map(|n| (0..8).map(move |t| (t as u32, 16 * n + t, 16 * n + 15 - t)));
    expect_order(&repeat(&round, 125), order);
}

/// Each thread takes its own lock once more, in the opposite sequence.
#[test]
fn last_locks_in_the_opposite_sequence() {
    let (rising, falling) = (each(0..8, |t| format!("K {t} {t}")), each((0..8).rev(), |t| format!("K {t} {t}")));
    let round = format!("{rising}; {falling}; {}", each(0..8, |t| format!("N {t} {t}; N {t} {t}")));
    let order = |n: usize| (0..8).rev().map(move |t| (t as u32, 32 * n + t, 32 * n + 17 + 2 * t));
    let rest = (0..8).map(|n| (0, 1_984 + 2 * n, 1_985 + 2 * n));
    expect_order(&format!("{}; {}", repeat(&round, 62), repeat("K 0 0; N 0 0", 8)), (0..62).flat_map(order).chain(rest));
}

/// The section that begins first is last in the order.
#[test]
fn first_section_last_in_the_order() {
    let events = format!("K 0 0; {}; K 0 2; N 0 2; N 0 0", repeat("K 1 1; N 1 1", 998));
    expect_order(&events, (0..998).map(|n| (1, 2 * n + 1, 2 * n + 2)).chain([(0, 0, 1_999)]));
    // Seven of them, their last K in the opposite sequence.
    let (first, last) = (each(0..7, |t| format!("K {t} {t}")), each((0..7).rev(), |t| format!("K {t} {t}")));
    let events = format!("{first}; {}; {last}; {}", repeat("K 7 7; N 7 7", 986), each(0..7, |t| format!("N {t} {t}; N {t} {t}")));
    let short = (0..986).map(|n| (7, 2 * n + 7, 2 * n + 8));
    expect_order(&events, short.chain((0..7).rev().map(|t| (t as u32, t, 1_987 + 2 * t))));
}

/// The section that ends last is first in the order.
#[test]
fn last_end_first_in_the_order() {
    let events = format!("K 0 0; {}; N 0 0", repeat("K 1 1; N 1 1", 999));
    expect_order(&events, [(0, 0, 1_999)].into_iter().chain((0..999).map(|n| (1, 2 * n + 1, 2 * n + 2))));
}

/// A lock is held up to 1,000 times.
#[test]
fn deep_sections() {
    let locks = |times| repeat("K 0 0", times);
    let unlocks = |times| repeat("N 0 0", times);
    expect_order(&format!("{}; {}", locks(1_000), unlocks(1_000)), [(0, 0, 1_999)]);
    let after = format!("{}; K 1 1; N 1 1; {}", locks(999), unlocks(999));
    expect_order(&after, [(0, 0, 1_999), (1, 999, 1_000)]);
    let before = format!("{}; K 1 1; K 0 0; N 1 1; {}", locks(998), unlocks(999));
    expect_order(&before, [(1, 998, 1_000), (0, 0, 1_999)]);
}

/// Few sections, and lines over 1,000.
#[test]
fn sections_in_the_last_lines() {
    let before = repeat("R 0 0 0; L 0 0 0", 998);
    expect_order(&format!("{before}; K 1 1; K 0 0; N 0 0; N 1 1"), [(1, 1_996, 1_999), (0, 1_997, 1_998)]);
    let before = format!("K 1 1; {}; R 0 0 0", repeat("R 0 0 0; L 0 0 0", 996));
    expect_order(&format!("{before}; K 0 0; N 0 0; K 1 0; N 1 0; N 1 1; L 0 0 0"), [(0, 1_994, 1_995), (1, 0, 1_998)]);
}

/// Threads 0 to 6 take locks of their own, and then in the opposite sequence the guard. Under it
/// each uses the value of the one before and puts the next. Demand 3 holds of the order, and not of
/// the sequence of the first K.
#[test]
fn long_serial_order() {
    let put =
        |t: usize, n: usize| format!("R {t} 0 {n}; L {t} 0 {n}; U {t} 0 {n}; A {t} 0 {m}; S {t} 0 {m}; W {t} 0 {m}", m = n + 1);
    let section = |t: usize, n: usize| format!("K {t} 0; {}; N {t} 0; N {t} {}", put(t, n), t + 1);
    let round = |n: usize| {
        let own = each(0..7, |t| format!("K {t} {}", t + 1));
        format!("{own}; {}", each(0..7, |place| section(6 - place, 7 * n + place)))
    };
    let events = format!("{}; {}", each(0..28, round), repeat("K 7 7; N 7 7", 20));
    let order = |n: usize| (0..7).map(move |place| (6 - place as u32, 70 * n + 6 - place, 70 * n + 15 + 9 * place));
    expect_order(&events, (0..28).flat_map(order).chain((0..20).map(|n| (7, 1_960 + 2 * n, 1_961 + 2 * n))));
    let o = outcome(&paper_of(HEAD, &events));
    assert_eq!(o.main, [196]);
    let mut list = sections(COUNTS, &o.events);
    list.sort_by_key(|s| s.first);
    assert!(demand3(&Outcome { order: Order::Sections(list), ..o }).is_err());
}

/// No other limit is moved: 2,000 events, and so 1,000 sections.
#[test]
fn one_section_more() {
    let full = repeat("K 0 0; N 0 0", 1_000);
    let o = outcome(&paper_of(HEAD, &full));
    assert_eq!(o.verdict, Verdict::Accepted(MAX_EVENTS));
    assert_eq!(sections(COUNTS, &o.events).len(), SCRATCH);
    for more in ["K 0 0; N 0 0", "K 1 1", "N 0 0", "A 0 0 5"] {
        expect_refused(&paper_of(HEAD, &format!("{full}; {more}")), 2_003, 9);
    }
}

/// "20 to 22 refuse no paper, only its order", at the last event and at the trailer.
#[test]
fn no_order_after_many_sections() {
    let after = |sections, events: &str| format!("{}; {events}", repeat("K 0 0; N 0 0", sections));
    expect_unordered(HEAD, &after(999, "K 0 1; A 0 0 5"), 2_002, 20);
    expect_unordered(HEAD, &after(998, "K 0 0; K 0 1; N 0 1; K 0 1"), 2_002, 21);
    expect_unordered(HEAD, &after(999, "K 0 0; K 0 0"), 2_003, 22);
    expect_unordered(HEAD, &after(999, "P 0 0 5; W 0 0 5"), 2_003, 22);
    // "With `G -` there are neither."
    assert_eq!(print(&paper_of("H 8 1 8\nG -\n", &repeat("K 0 0; N 0 0", 1_000))), "accepted 2000\nmain 0 0\n");
}

/// 2,000 K and N that have an order: a thread takes a lock that no other holds, unless it has given
/// one back in the same section, and at the end no lock is held. Of 10 draws `unlocks` are an N.
fn random_locks(seed: u64, unlocks: u32) -> Vec<Event> {
    let mut dice = Dice(seed);
    let mut es: Vec<Event> = Vec::new();
    // By thread and lock.
    let mut depth = [[0; 8]; 8];
    let mut given_back = [false; 8];
    while es.len() < MAX_EVENTS {
        let kind = if dice.roll(10) < unlocks { N } else { K };
        let (thread, target) = (dice.roll(8), dice.roll(8));
        let (t, lock) = (thread as usize, target as usize);
        let fits = match kind {
            K => {
                let room = es.len() + depth.iter().flatten().sum::<usize>() < MAX_EVENTS;
                room && !given_back[t] && (0..8).all(|other| other == t || depth[other][lock] == 0)
            }
            _ => depth[t][lock] > 0,
        };
        if !fits {
            continue;
        }
        if kind == K {
            depth[t][lock] += 1;
        } else {
            depth[t][lock] -= 1;
            given_back[t] = depth[t].iter().any(|&times| times > 0);
        }
        es.push(Event { kind, thread, target, value: 0 });
    }
    es
}

/// What was met on the way.
#[derive(Debug, Default)]
struct Seen {
    lists: usize,
    orders: usize,
    /// Orders that are not in the sequence of the first K, and of the last N.
    not_by_first: usize,
    not_by_last: usize,
    /// Orders of more than 500 sections, and of fewer than 200.
    many: usize,
    few: usize,
}

impl Seen {
    fn count(&mut self, order: &[Section]) {
        self.orders += 1;
        self.not_by_first += usize::from(!order.is_sorted_by_key(|s| s.first));
        self.not_by_last += usize::from(!order.is_sorted_by_key(|s| s.last));
        self.many += usize::from(order.len() > 500);
        self.few += usize::from(order.len() < 200);
    }
}

/// Long papers, some with many sections and some with few and deep ones.
#[test]
fn random_long_orders() {
    let mut seen = Seen::default();
    for seed in 0..18 {
        let es = random_locks(seed, 1 + seed as u32 % 9);
        let o = outcome(&paper_of(HEAD, &text_of(&es)));
        let order = from_scratch(&es);
        assert_eq!(o.verdict, Verdict::Accepted(MAX_EVENTS), "seed {seed}");
        assert_eq!(o.order, Order::Sections(order.clone()), "seed {seed}");
        let printed: String = order.iter().map(|s| format!("section {} {} {}\n", s.thread, s.first, s.last)).collect();
        assert_eq!(listing(&o), format!("accepted 2000\nmain 0 0\n{printed}").as_bytes(), "seed {seed}");
        seen.count(&order);
    }
    println!("{seen:?}");
    assert!(seen.not_by_first > 10 && seen.not_by_last > 10 && seen.many > 3 && seen.few > 3, "{seen:?}");
}

/// Looks at the accepted list of K and N and at every one that goes on from it with at most `left`
/// events: a section has a K and an N of its own, and an order is the one from the scratch.
fn visit(es: &mut Vec<Event>, left: usize, seen: &mut Seen) {
    let list = sections(TWO, es);
    assert!(2 * list.len() <= es.len(), "{es:?}");
    seen.lists += 1;
    if denial(TWO, &[0, 1], es).is_none() {
        assert_eq!(list, from_scratch(es), "{es:?}");
        seen.count(&list);
    }
    if left == 0 {
        return;
    }
    for kind in [K, N] {
        for (thread, target) in [(0, 0), (0, 1), (1, 0), (1, 1)] {
            let e = Event { kind, thread, target, value: 0 };
            if judge(es, TWO, &e) == 0 {
                es.push(e);
                visit(es, left - 1, seen);
                es.pop();
            }
        }
    }
}

#[test]
fn every_short_list_of_locks() {
    let mut seen = Seen::default();
    visit(&mut Vec::new(), 10, &mut seen);
    println!("{seen:?}");
    assert!(seen.lists > 1_000_000 && seen.orders > 10_000, "{seen:?}");
    assert!(seen.not_by_first > 1_000 && seen.not_by_last > 1_000, "{seen:?}");
}
