//! The form of papers, orders and demand 3, and any input.

use super::*;
use crate::rules::{breaks, ROWS};
use crate::{denial, mark_short, plain_run, sections, Given, Outcome, Section, Verdict};

// ---- form ----

#[test]
fn form_trailer_and_size() {
    let wrong: [&[u8]; 12] = [
        b"",
        b"\n",
        b"Z 0",
        b"Z 1\n",
        b"Z 00\n",
        b"Z -0\n",
        b"Z\n",
        b"Z 0 \n",
        b" Z 0\n",
        b"Z  0\n",
        b"H 1 1 0\nG -\nZ 13\n",
        b"H 1 1 0\nG -\nZ 12\n\n",
    ];
    for text in wrong {
        assert_eq!(mark(text), b"refused 0 2\n", "{text:?}");
    }
    assert_eq!(mark(b"Z 0\n"), b"refused 1 3\n");
    assert_eq!(mark(b"H 1 1 0\nZ 8\n"), b"refused 2 6\n");
    assert_eq!(mark(b"H 1 1 0\nG -\nZ 12\n"), b"accepted 0\nmain 0 0\n");
    assert_eq!(mark(&[b'x'; 65_537]), b"refused 0 1\n");
    assert_eq!(mark(&[b'x'; 65_536]), b"refused 0 2\n");
    let mut full = b"H 1 1 0\nG -\n".to_vec();
    full.resize(65_527, b'x');
    full.extend_from_slice(b"\nZ 65528\n");
    assert_eq!(full.len(), 65_536);
    assert_eq!(mark(&full), b"refused 3 4\n");
}

#[test]
fn form_head() {
    for wrong in [
        "H",
        "H 1 1",
        "H 1 1 0 0",
        "H 0 1 0",
        "H 9 1 0",
        "H 1 0 0",
        "H 1 17 0",
        "H 1 1 9",
        "H 01 1 0",
        "H +1 1 0",
        "H 1 1 -0",
        "H 1 1 -1",
        " H 1 1 0",
        "H 1 1 0 ",
        "H  1 1 0",
        "h 1 1 0",
        "H 1 1 99999999999999999999999",
        "",
        "H 4294967297 1 0",
        "H 1 1 0\r",
        "Hé 1 1 0",
    ] {
        assert_eq!(mark(&with_trailer(format!("{wrong}\nG -\n").as_bytes())), b"refused 1 3\n", "{wrong}");
    }
    assert!(printed("H 8 16 8;G -").starts_with("accepted 0\n"));
}

#[test]
fn form_guards() {
    for wrong in [
        "G",
        "G ",
        "G 0",
        "G 0 0 0",
        "G 0 2",
        "G 0 -",
        "G - ",
        "G - -",
        "G 0 -1",
        "G 00 0",
        "G  0 0",
        "G 0 0 ",
        "g 0 0",
        "",
        "G 0 99999999999999999999",
        "G 0 4294967296",
    ] {
        assert_eq!(mark(&with_trailer(format!("H 1 2 2\n{wrong}\n").as_bytes())), b"refused 2 6\n", "{wrong}");
    }
    assert_eq!(printed("H 1 2 2;G 1 0"), "accepted 0\nmain 0 0\nmain 1 0\n");
    assert_eq!(printed("H 1 1 0;G 0"), "refused 2 6\n");
    assert_eq!(outcome(&paper_of_lines("H 1 2 2;G 1 0")).order, Order::Sections(vec![]));
    assert_eq!(outcome(&paper_of_lines("H 1 2 2;G -")).order, Order::None);
}

#[test]
fn form_events() {
    for wrong in [
        "",
        " ",
        "U",
        "U 0",
        "U 0 0",
        "U 0 0 0 0",
        "U 0 0 -0",
        "U 0 0 +0",
        "U 0 0 00",
        "U 0 0 -",
        "U 0 0 --1",
        "U 0 0 -01",
        "U -1 0 0",
        "U 0 -1 0",
        "U 00 0 0",
        "U 0 0 0 ",
        " U 0 0 0",
        "U  0 0 0",
        "u 0 0 0",
        "UU 0 0 0",
        "K 0",
        "K 0 0 0",
        "N 0 0 0",
        "Y 0",
        "Y 0 0 0",
        "C 0 0 0",
        "F 0 0",
        "F 0 0 -1",
        "F 0 0 0 0",
        "F 0 0 00",
        "X 0 0 0",
        "Z 0",
        "H 1 1 0",
        "G -",
        "U 0 0 0\r",
        "U\t0 0 0",
        "U 0 0 1e1",
        "K 99 x",
        "U 9 0 9223372036854775808",
    ] {
        assert_eq!(mark(&with_trailer(format!("H 1 1 1\nG -\n{wrong}\n").as_bytes())), b"refused 3 4\n", "{wrong}");
    }
    for large in [
        "U 1 0 0",
        "U 0 1 0",
        "U 4294967296 0 0",
        "U 0 18446744073709551616 0",
        "K 0 99999999999999999999999999",
        "F 0 0 4294967296",
        "F 0 0 99999999999999999999999",
        "Y 1 0",
    ] {
        assert_eq!(mark(&with_trailer(format!("H 1 1 1\nG -\n{large}\n").as_bytes())), b"refused 3 5\n", "{large}");
    }
    let bytes = b"H 1 1 0\nG -\nU 0 0 \xff\nZ 20\n";
    assert_eq!(mark(bytes), b"refused 3 4\n");
}

#[test]
fn form_functions() {
    use crate::paper::*;
    assert_eq!(number(b"0"), Some(0));
    assert_eq!(number(b"18446744073709551616"), Some(u64::MAX));
    assert_eq!(number(b""), None);
    assert_eq!(value(b"-1"), Some(-1));
    assert_eq!(value(b"-0"), None);
    assert_eq!(take_line(b"ab\nc"), Some((&b"ab"[..], &b"c"[..])));
    assert_eq!(take_line(b"ab"), None);
    assert_eq!(trailer(b"xy\nZ 3\n"), Some(3));
    assert_eq!(event(b"F 1 2 4294967299").unwrap().value, i64::from(u32::MAX));
    let text = paper_of_two();
    let parts = find(&text).unwrap();
    assert_eq!(parts.body, b"K 0 0\nN 0 0\n");
    assert_eq!(parts.guards, Some(vec![0]));
}

fn paper_of_two() -> Vec<u8> {
    paper_of_lines("H 1 1 1;G 0;K 0 0;N 0 0")
}

// ---- order and demand 3 ----

#[test]
fn order_20_21_22() {
    assert_eq!(printed("H 1 1 1;G 0;A 0 0 5"), "accepted 1\nmain 0 0\ncopy 0 0 5\nunordered 3 20\n");
    assert_eq!(printed("H 1 1 2;G 0;K 0 1;A 0 0 5"), "accepted 2\nmain 0 0\ncopy 0 0 5\nunordered 4 20\n");
    assert_eq!(printed("H 1 1 1;G 0;P 0 0 5;B 0 0 5"), "accepted 2\nmain 0 0\ncopy 0 0 5\nunordered 4 20\n");
    assert_eq!(printed("H 1 1 2;G 0;K 0 0;K 0 1;N 0 1;K 0 1"), "accepted 4\nmain 0 0\nunordered 6 21\n");
    assert_eq!(printed("H 1 1 2;G 0;K 0 0;K 0 0;N 0 0;K 0 0"), "accepted 4\nmain 0 0\nunordered 6 21\n");
    assert_eq!(printed("H 1 1 2;G 0;K 0 0;N 0 0;K 0 0"), "accepted 3\nmain 0 0\nunordered 6 22\n");
    assert_eq!(printed("H 1 1 1;G 0;P 0 0 5"), "accepted 1\nmain 0 0\nunordered 4 22\n");
    assert_eq!(printed("H 1 2 1;G 0 0;V 1;K 0 0"), "accepted 1\nmain 0 0\nmain 1 0\nunordered 5 22\n");
    assert_eq!(printed("H 1 1 1;G -;A 0 0 5"), "accepted 1\nmain 0 0\ncopy 0 0 5\n");
    assert_eq!(outcome(&paper_of_lines("H 1 1 1;G 0;A 0 0 5")).order, Order::Denied { number: 20, line: 3 });
}

/// "Thread 0 takes lock 0; thread 1 takes lock 1, assigns, stores, is written, unlocks; thread 0 takes lock 1 and uses
/// the new value. Thread 1 goes first."
#[test]
fn order_by_last_lock() {
    let text = "H 2 1 2;G 1;K 0 0;K 1 1;A 1 0 5;S 1 0 5;W 1 0 5;N 1 1;K 0 1;R 0 0 5;L 0 0 5;U 0 0 5;N 0 1;N 0 0";
    let want = "accepted 12\nmain 0 5\ncopy 0 0 5\ncopy 1 0 5\nsection 1 4 8\nsection 0 3 14\n";
    assert_eq!(printed(text), want);
    let mut o = outcome(&paper_of_lines(text));
    assert_eq!(demand3(&o), Ok(()));
    let list = sections(TWO, &o.events);
    assert_eq!(list[1], Section { thread: 0, first: 3, last: 14, last_lock: 9 });
    let (given, memory) = plain_run(o.counts.unwrap(), &list, &o.events);
    assert_eq!(given, vec![Given { line: 12, given: 5, stated: 5 }]);
    assert_eq!((memory.len(), memory[0]), (16, 5));
    o.order = Order::Sections(vec![list[1], list[0]]);
    assert!(demand3(&o).is_err());
    o.order = Order::Sections(vec![list[0]]);
    assert!(demand3(&o).is_err());
    o.order = Order::Sections(vec![]);
    assert!(demand3(&o).is_err());
    o.order = Order::None;
    assert!(demand3(&o).is_err());
    o.guards = None;
    assert_eq!(demand3(&o), Ok(()));
    o.order = Order::Sections(list);
    o.main = vec![4];
    assert!(demand3(&o).is_err());
}

#[test]
fn order_early_store_across_an_unlock() {
    let text = "H 1 1 2;G 0;K 0 0;K 0 1;P 0 0 5;N 0 1;W 0 0 5;B 0 0 5;N 0 0";
    assert_eq!(printed(text), "accepted 7\nmain 0 5\ncopy 0 0 5\nsection 0 3 9\n");
    assert_eq!(demand3(&outcome(&paper_of_lines(text))), Ok(()));
}

// ---- any input ----

/// A random event of any kind.
fn random_event(dice: &mut Dice, threads: u32, targets: u32) -> Event {
    let (kind, _) = ROWS[dice.roll(13) as usize];
    let value = Value::from(dice.roll(4)) - 1;
    Event { kind, thread: dice.roll(threads), target: dice.roll(targets), value }
}

#[test]
fn any_list_is_answered() {
    let mut dice = Dice(1);
    let mut list = Vec::new();
    let mut counts = Counts::plain(2, 2, 2);
    counts.volatiles[1] = true;
    for _ in 0..300 {
        let e = random_event(&mut dice, 4, 4);
        let number = judge(&list, counts, &e);
        assert_eq!(number == 0, !matches!(number, 1..=33));
        for n in 0..40 {
            breaks(n, &list, counts, &e);
        }
        list.push(e);
    }
    list.push(Event { kind: Kind::U, thread: u32::MAX, target: u32::MAX, value: i64::MIN });
    let whole = sections(counts, &list);
    plain_run(counts, &whole, &list);
    denial(counts, &[], &list);
    judge(&list, Counts::plain(u32::MAX, u32::MAX, u32::MAX), &list[0]);
}

#[test]
fn any_bytes_are_answered() {
    let mut dice = Dice(2);
    let base = paper_of_lines("H 2 2 2;G 0 1;V 1;K 0 0;A 0 0 5;S 0 0 5;W 0 0 5;N 0 0");
    for _ in 0..3000 {
        let mut text = base.clone();
        let place = dice.roll(text.len() as u32) as usize;
        text[place] = dice.roll(256) as u8;
        text.truncate(text.len() - dice.roll(2) as usize);
        mark(&text);
        mark_short(&text);
    }
}

/// Random accepted papers: demand 3 holds, and L meets neither 15 nor 16.
#[test]
fn random_papers_meet_demand_3() {
    let mut dice = Dice(3);
    let mut ordered = 0;
    for round in 0..1500 {
        let mut counts = Counts::plain(2, 2, 2);
        counts.volatiles[1] = round % 3 == 0;
        let guards = vec![dice.roll(2), dice.roll(2)];
        let (list, order) = random_run(&mut dice, counts, &guards);
        let main = (0..2).map(|v| main_memory(&list, v)).collect();
        let verdict = Verdict::Accepted(list.len());
        ordered += u32::from(matches!(&order, Order::Sections(s) if s.len() > 2));
        let o = Outcome { verdict, counts: Some(counts), guards: Some(guards), events: list, main, copies: vec![], order };
        assert_eq!(demand3(&o), Ok(()), "{o:?}");
    }
    assert!(ordered > 100, "{ordered}");
}

/// Accepted events that are not denied by 20 or 21, as far as they go; at the end only kinds that finish something.
fn random_run(dice: &mut Dice, counts: Counts, guards: &[u32]) -> (Vec<Event>, Order) {
    let mut list = Vec::new();
    let mut best = 0;
    for turn in 0..500 {
        let mut e = random_event(dice, 2, 2);
        e.value = e.value.max(0) % 2;
        let rare = matches!(e.kind, Kind::Y | Kind::P | Kind::K);
        let starts = rare || matches!(e.kind, Kind::A | Kind::R);
        if rare && dice.roll(5) != 0 || starts && turn > 300 && best != list.len() {
            continue;
        }
        let number = judge(&list, counts, &e);
        assert!(e.kind != Kind::L || !matches!(number, 15 | 16));
        if number != 0 {
            continue;
        }
        list.push(e);
        match denial(counts, guards, &list) {
            None => best = list.len(),
            Some((22, _)) => (),
            Some(_) => {
                list.pop();
            }
        }
    }
    list.truncate(best);
    let order = Order::Sections(sections(counts, &list));
    (list, order)
}

/// Papers of about 2,000 events that ask much of each word.
#[test]
fn large_papers() {
    let volatile = "R 0 0 0\nL 0 0 0\nU 0 0 0\n".repeat(666);
    let stores = "A 0 0 1\nS 0 0 1\nW 0 0 1\nR 0 0 1\nL 0 0 1\nU 0 0 1\n".repeat(333);
    let locks = "K 0 7\nN 0 7\n".repeat(1000);
    let waits = "K 0 7\nY 0 7\nK 1 7\nF 1 7 0\nN 1 7\nC 0 7\nN 0 7\n".repeat(285);
    for body in [volatile, stores, locks, waits] {
        let text = with_trailer(format!("H 8 16 8\nG 0 0 0 0 0 0 0 0 0 0 0 0 0 0 0 0\nV 0 1 2 3 4 5 6 7\n{body}").as_bytes());
        assert!(mark(&text).starts_with(b"accepted"));
    }
}
