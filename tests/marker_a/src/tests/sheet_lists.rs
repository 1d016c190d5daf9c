//! (j) on many sheets: the papers as joined, as found backwards, and by trial of every cut.

use std::ops::Range;

use super::sheets::{print_sheet, print_sheet_short, BARE, SMALL};
use super::short_course::print_short;
use super::walks::{walk, Scope, KINDS};
use super::*;
use crate::sheet::{count, split, splits, Split};

/// Sheets that were met: with one way to cut them, lost, and the most papers in one.
#[derive(Debug, Default)]
struct Seen {
    whole: usize,
    lost: usize,
    most: usize,
}

/// What `split` finds is the only way to cut the sheet; where it finds nothing there is none.
fn compare(bytes: &[u8], seen: &mut Seen) {
    let ways = splits(bytes);
    match split(bytes) {
        Split::Papers(papers) => {
            seen.whole += 1;
            seen.most = seen.most.max(papers.len());
            assert_eq!(ways, [papers], "{:?}", String::from_utf8_lossy(bytes));
        }
        Split::Lost => {
            seen.lost += 1;
            assert_eq!(ways.len(), 0, "{:?}", String::from_utf8_lossy(bytes));
        }
    }
}

// ---- every small sheet ----

/// Every list of at most `most` of these pieces, joined.
fn visit(pieces: &[&[u8]], most: usize, bytes: &mut Vec<u8>, check: &mut dyn FnMut(&[u8])) {
    check(bytes);
    if most == 0 {
        return;
    }
    for piece in pieces {
        bytes.extend_from_slice(piece);
        visit(pieces, most - 1, bytes, check);
        bytes.truncate(bytes.len() - piece.len());
    }
}

/// Of up to seven bytes `H`, 10, `Z`, space, 2, 3 and 4, nine are sheets: the empty one, `H` with `Z 2`, and `H`, any
/// byte, `Z 3`. So no paper has under six bytes.
#[test]
fn every_sheet_of_seven_bytes() {
    let mut seen = Seen::default();
    let bytes: Vec<&[u8]> = b"H\nZ 234".chunks(1).collect();
    visit(&bytes, 7, &mut Vec::new(), &mut |bytes| compare(bytes, &mut seen));
    assert_eq!((seen.whole, seen.most, seen.whole + seen.lost), (9, 1, (7usize.pow(8) - 1) / 6), "{seen:?}");
}

const PIECES: [&[u8]; 8] = [b"H", b"\n", b"H\n", b"Z 2\n", b"Z 3\n", b"Z 6\n", b"Z 8\n", b"Z 12\n"];

#[test]
fn every_sheet_of_six_pieces() {
    let mut seen = Seen::default();
    visit(&PIECES, 6, &mut Vec::new(), &mut |bytes| compare(bytes, &mut seen));
    println!("{seen:?}");
    assert!(seen.whole > 300 && seen.lost > 100_000 && seen.most == 3, "{seen:?}");
}

/// A paper by how it is made: bytes that begin with `H` and end in byte 10, and a right trailer after them.
fn made_as_paper(part: &[u8]) -> bool {
    let before = |n: &usize| part[..*n].ends_with(b"\n") && with_trailer(&part[..*n]) == part;
    part.starts_with(b"H") && (1..part.len()).any(|n| before(&n))
}

/// The ways to cut these bytes, by trial of every set of cuts.
fn ways_by_sets(bytes: &[u8]) -> Vec<Vec<Range<usize>>> {
    let sets = 0..1u32 << (bytes.len() - 1);
    let parts = |set: u32| {
        let inner = (1..bytes.len()).filter(|cut| set >> (cut - 1) & 1 == 1);
        let cuts: Vec<usize> = [0].into_iter().chain(inner).chain([bytes.len()]).collect();
        cuts.windows(2).map(|pair| pair[0]..pair[1]).collect::<Vec<_>>()
    };
    sets.map(parts).filter(|parts| parts.iter().all(|part| made_as_paper(&bytes[part.clone()]))).collect()
}

/// `splits` finds every way.
#[test]
fn every_set_of_cuts() {
    let (mut sheets, mut cut) = (0, 0);
    visit(&PIECES, 4, &mut Vec::new(), &mut |bytes| {
        if (1..=12).contains(&bytes.len()) {
            let ways = ways_by_sets(bytes);
            sheets += 1;
            cut += ways.len();
            assert_eq!(splits(bytes), ways, "{:?}", String::from_utf8_lossy(bytes));
        }
    });
    println!("{sheets} {cut}");
    assert!(sheets > 1_000 && cut > 20, "{sheets} {cut}");
}

// ---- random sheets ----

/// An accepted paper; with guards it has an order, or 22 denies it.
fn walked(dice: &mut Dice) -> Vec<Event> {
    let counts = Counts::plain(2, 2, 2);
    walk(u64::from(dice.roll(10_000)), &Scope { counts, guards: &[0, 1], kinds: KINDS, unit: 1 }, dice.roll(60) as usize).0
}

/// A paper of walked events with one left out, repeated or changed, or with a line put in.
fn slipped(dice: &mut Dice) -> Vec<u8> {
    let mut lines: Vec<String> = text_of(&walked(dice)).split(';').map(String::from).collect();
    let place = dice.roll(lines.len() as u32) as usize;
    match dice.roll(5) {
        0 => drop(lines.remove(place)),
        1 => lines.insert(place, lines[place].clone()),
        2 => lines[place].push('1'),
        3 => lines.insert(place, format!("Z {}", dice.roll(100))),
        _ => lines.insert(place, ["X", "A 9 0 0", "Y 0 0", "C 1 1", "L 1 1 0"][dice.roll(5) as usize].to_string()),
    }
    paper_of("H 2 2 2\nG 0 1\n", &lines.join(";"))
}

/// `H`, random bytes or pieces of papers, and byte 10.
fn rubbish(dice: &mut Dice) -> Vec<u8> {
    let mut bytes = b"H".to_vec();
    for _ in 0..dice.roll(12) {
        match dice.roll(3) {
            0 => bytes.push(dice.roll(256) as u8),
            1 => bytes.extend_from_slice(PIECES[dice.roll(8) as usize]),
            _ => bytes.extend_from_slice([BARE, SMALL, b" 1 1 0\nG -\n"][dice.roll(3) as usize]),
        }
    }
    bytes.push(10);
    bytes
}

/// A paper that begins with `H` and ends in a right trailer.
fn random_part(dice: &mut Dice) -> Vec<u8> {
    match dice.roll(9) {
        0 => BARE.to_vec(),
        1 => SMALL.to_vec(),
        2 | 3 => paper_of("H 2 2 2\nG 0 1\n", &text_of(&walked(dice))),
        4 | 5 => slipped(dice),
        6 => with_trailer(&rubbish(dice)),
        7 => paper_of(&format!("H {} {} {}\nG -\n", dice.roll(11), dice.roll(19), dice.roll(11)), ""),
        // A sheet of two papers as one.
        _ => with_trailer(&[random_part(dice), random_part(dice)].concat()),
    }
}

/// The places of these papers when they are joined.
fn places(papers: &[Vec<u8>]) -> Vec<Range<usize>> {
    let mut end = 0;
    let place = |paper: &Vec<u8>| {
        let start = end;
        end += paper.len();
        start..end
    };
    papers.iter().map(place).collect()
}

/// The number with which a listing refuses its paper, from its text.
fn refused_number(listing: &str) -> Option<u32> {
    listing.strip_prefix("refused ").map(|line| line.trim_end().split(' ').nth(1).expect("number").parse().expect("digits"))
}

/// The greatest common divisor, by Euclid.
fn divisor(a: usize, b: usize) -> usize {
    if b == 0 {
        a
    } else {
        divisor(b, a % b)
    }
}

/// What is to be printed for a sheet of papers with these listings.
fn expected(listings: &[String]) -> String {
    let numbers: Vec<u32> = listings.iter().filter_map(|listing| refused_number(listing)).collect();
    let of = |k: u32| numbers.iter().filter(|&&number| number == k).count();
    let refused: String = (0..100).filter(|&k| of(k) > 0).map(|k| format!("refused {k} {}\n", of(k))).collect();
    let (papers, accepted) = (listings.len(), listings.len() - numbers.len());
    let d = divisor(papers, accepted).max(1);
    let (a, b) = if accepted == 0 { (0, 1) } else { (accepted / d, papers / d) };
    format!("papers {papers}\naccepted {accepted}\n{refused}share {a}/{b}\n")
}

/// 1 and 2 refuse the sheet or lose it; 7, 8 and 24 are asked of no paper; 20 to 22 refuse none.
const NEVER: [u32; 10] = [0, 1, 2, 7, 8, 20, 21, 22, 24, 31];

/// Papers are found where they were joined, and each is counted with the verdict that it has alone.
#[test]
fn random_sheets() {
    let (mut seen, mut numbers, mut denied) = (Seen::default(), [0; 34], 0);
    for seed in 0..1_500 {
        let mut dice = Dice(seed);
        let papers: Vec<Vec<u8>> = (0..dice.roll(9)).map(|_| random_part(&mut dice)).collect();
        let bytes = papers.concat();
        assert_eq!(split(&bytes), Split::Papers(places(&papers)), "{seed}");
        if bytes.len() <= 700 {
            compare(&bytes, &mut seen);
        }
        let listings: Vec<String> = papers.iter().map(|paper| print(paper)).collect();
        assert_eq!(print_sheet(&bytes), expected(&listings), "{seed}");
        let short: Vec<String> = papers.iter().map(|paper| print_short(paper)).collect();
        assert_eq!(print_sheet_short(&bytes), expected(&short), "{seed}");
        listings.iter().filter_map(|text| refused_number(text)).for_each(|number| numbers[number as usize] += 1);
        denied += listings.iter().filter(|text| text.contains("unordered")).count();
    }
    println!("{seen:?} {numbers:?} {denied}");
    assert!(seen.whole > 700 && seen.lost == 0 && seen.most == 8 && denied > 100, "{seen:?} {denied}");
    assert!(NEVER.iter().all(|&k| numbers[k as usize] == 0) && numbers[25] == 0, "{numbers:?}");
    assert!(numbers.iter().filter(|&&n| n > 0).count() >= 10, "{numbers:?}");
}

/// The last number of each line that begins with this word.
fn last_numbers(text: &str, word: &str) -> Vec<usize> {
    let lines = text.lines().filter(|line| line.starts_with(word));
    lines.map(|line| line.rsplit(' ').next().expect("a field").parse().expect("digits")).collect()
}

/// "The counts add up to the papers."
#[test]
fn counts_add_up() {
    let mut papers = 0;
    for seed in 0..300 {
        let mut dice = Dice(seed);
        let bytes: Vec<u8> = (0..dice.roll(30)).flat_map(|_| random_part(&mut dice)).collect();
        let Split::Papers(found) = split(&bytes) else { panic!("{seed}") };
        let tally = count(&bytes).expect("counts");
        assert_eq!((tally.papers, tally.accepted + tally.refused.values().sum::<usize>()), (found.len(), found.len()), "{seed}");
        assert!(tally.refused.values().all(|&n| n > 0), "{seed}: {tally:?}");
        // The lines as printed.
        let text = print_sheet(&bytes);
        let refused: usize = last_numbers(&text, "refused").iter().sum();
        assert_eq!(last_numbers(&text, "papers"), [last_numbers(&text, "accepted")[0] + refused], "{text}");
        papers += found.len();
    }
    assert!(papers > 3_000, "{papers}");
}

// ---- damage ----

/// What a byte of a right paper is.
#[derive(Clone, Copy, Debug, PartialEq, Eq)]
enum Role {
    /// Between the `H` and the byte 10 before the trailer.
    Inner,
    /// A digit of the trailer.
    Digit,
    /// The `H`, the byte 10 before the trailer, or the trailer's `Z`, space and byte 10.
    Fixed,
}

/// The roles of the bytes of a paper.
fn roles(paper: &[u8]) -> Vec<Role> {
    let text = &paper[..paper.len() - 1];
    let line = text.iter().rposition(|&b| b == 10).expect("two lines") + 1;
    let role = |i: usize| match i {
        i if i > 0 && i + 1 < line => Role::Inner,
        i if i >= line + 2 && i < text.len() => Role::Digit,
        _ => Role::Fixed,
    };
    (0..paper.len()).map(role).collect()
}

/// Every other byte in every place. For an inner byte it leaves the papers as they are, and for a fixed one the sheet is
/// lost. For a digit the sheet is lost or holds other papers.
#[test]
fn every_byte_changed() {
    let papers = [BARE.to_vec(), SMALL.to_vec(), paper_of("H 1 1 0\nG -\n", "A 0 0 5"), BARE.to_vec(), with_trailer(BARE)];
    let bytes = papers.concat();
    let right = split(&bytes);
    let roles: Vec<Role> = papers.iter().flat_map(|paper| roles(paper)).collect();
    let (mut seen, mut digits) = (Seen::default(), [0; 3]);
    for place in 0..bytes.len() {
        for byte in (0..=255).filter(|&byte| byte != bytes[place]) {
            let mut damaged = bytes.clone();
            damaged[place] = byte;
            compare(&damaged, &mut seen);
            let found = split(&damaged);
            match roles[place] {
                Role::Inner => assert_eq!(found, right, "{place}: {byte}"),
                Role::Fixed => assert_eq!(found, Split::Lost, "{place}: {byte}"),
                Role::Digit if found == Split::Lost => digits[0] += 1,
                Role::Digit if found == right => digits[1] += 1,
                Role::Digit => digits[2] += 1,
            }
        }
    }
    println!("{seen:?} {digits:?}");
    assert!(digits[0] > 1_000 && digits[1] == 0 && digits[2] > 0 && seen.whole > 5_000, "{seen:?} {digits:?}");
}

/// One byte changed, left out or put in, in random sheets; the byte is often one that papers and trailers have.
#[test]
fn random_damage() {
    let mut seen = Seen::default();
    for seed in 0..20_000 {
        let mut dice = Dice(seed);
        let mut bytes: Vec<u8> = BARE.repeat(dice.roll(3) as usize);
        (0..1 + dice.roll(3)).for_each(|_| bytes.extend(with_trailer(&rubbish(&mut dice))));
        assert_ne!(split(&bytes), Split::Lost, "{seed}");
        let place = dice.roll(bytes.len() as u32) as usize;
        let byte = if dice.roll(2) == 0 { dice.roll(256) as u8 } else { b"HZ \n0123456789"[dice.roll(14) as usize] };
        match dice.roll(3) {
            0 => bytes[place] = byte,
            1 => drop(bytes.remove(place)),
            _ => bytes.insert(place, byte),
        }
        compare(&bytes, &mut seen);
    }
    println!("{seen:?}");
    assert!(seen.whole > 1_000 && seen.lost > 5_000, "{seen:?}");
}

/// Each trailer in turn points at each `H` before it. Where this begins a paper, that paper goes on to the trailer, and
/// those before and behind stay as they are.
#[test]
fn every_trailer_at_every_h() {
    let (mut seen, mut joined) = (Seen::default(), 0);
    for seed in 0..300 {
        let mut dice = Dice(seed);
        let texts: Vec<Vec<u8>> = (0..1 + dice.roll(4)).map(|_| rubbish(&mut dice)).collect();
        let papers: Vec<Vec<u8>> = texts.iter().map(|text| with_trailer(text)).collect();
        for (i, text) in texts.iter().enumerate() {
            let before = [papers[..i].concat(), text.clone()].concat();
            for h in (0..before.len()).filter(|&h| before[h] == b'H') {
                let trailer = format!("Z {}\n", before.len() - h).into_bytes();
                let bytes = [&before[..], &trailer, &papers[i + 1..].concat()].concat();
                compare(&bytes, &mut seen);
                if let Some(first) = (0..=i).find(|&first| papers[..first].concat().len() == h) {
                    let one = [&before[h..], &trailer].concat();
                    let expected = [&papers[..first], &[one], &papers[i + 1..]].concat();
                    assert_eq!(split(&bytes), Split::Papers(places(&expected)), "{seed}");
                    joined += i - first;
                }
            }
        }
    }
    println!("{seen:?} {joined}");
    assert!(seen.whole > 1_000 && seen.lost > 1_000 && joined > 500, "{seen:?} {joined}");
}
