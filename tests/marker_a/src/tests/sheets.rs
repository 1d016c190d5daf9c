//! (j), "The session sheet": the papers that are found, what is counted and printed, and what is turned away.

use super::*;
use crate::sheet::{count, count_short, share, sheet, sheet_short, split, splits, Split};
use crate::{mark_short, Refusal, MAX_BYTES};

/// The shortest paper, of six bytes: its head is wrong.
pub(super) const BARE: &[u8] = b"H\nZ 2\n";
/// The shortest accepted paper, of 17 bytes.
pub(super) const SMALL: &[u8] = b"H 1 1 0\nG -\nZ 12\n";
/// What is printed for a sheet without papers.
const NONE: &str = "papers 0\naccepted 0\nshare 0/1\n";

/// What `sheet` prints, as text.
pub(super) fn print_sheet(bytes: &[u8]) -> String {
    String::from_utf8(sheet(bytes)).expect("ASCII")
}

/// What `sheet_short` prints, as text.
pub(super) fn print_sheet_short(bytes: &[u8]) -> String {
    String::from_utf8(sheet_short(bytes)).expect("ASCII")
}

/// Both courses print this for the sheet.
fn expect_printed(bytes: &[u8], text: &str) {
    let shown = String::from_utf8_lossy(&bytes[..bytes.len().min(120)]).into_owned();
    assert_eq!(print_sheet(bytes), text, "{shown:?}");
    assert_eq!(print_sheet_short(bytes), text, "{shown:?}");
}

/// The sheet holds papers of these lengths, and can be cut in no other way.
fn expect_lengths(bytes: &[u8], lengths: &[usize]) {
    let shown = String::from_utf8_lossy(bytes);
    let Split::Papers(papers) = split(bytes) else { panic!("{shown:?}") };
    assert_eq!(papers.iter().map(|paper| paper.len()).collect::<Vec<_>>(), lengths, "{shown:?}");
    assert_eq!(splits(bytes), [papers], "{shown:?}");
}

/// The sheet is refused with 31, and there is no way to cut it.
fn expect_lost(bytes: &[u8]) {
    let shown = String::from_utf8_lossy(bytes);
    assert_eq!(split(bytes), Split::Lost, "{shown:?}");
    assert_eq!(splits(bytes).len(), 0, "{shown:?}");
    assert_eq!(count(bytes), Err(Refusal { line: 0, number: 31 }), "{shown:?}");
    assert_eq!(count_short(bytes), Err(Refusal { line: 0, number: 31 }), "{shown:?}");
    expect_printed(bytes, "refused 0 31\n");
}

/// The bytes are refused with 31 alone, in front of a right paper, behind one, and between two.
fn expect_lost_everywhere(bytes: &[u8]) {
    expect_lost(bytes);
    expect_lost(&[bytes, SMALL].concat());
    expect_lost(&[SMALL, bytes].concat());
    expect_lost(&[SMALL, bytes, BARE].concat());
}

// ---- the papers ----

/// "An empty sheet holds no papers and prints `papers 0`, `accepted 0`, `share 0/1`."
#[test]
fn the_empty_sheet() {
    expect_printed(b"", NONE);
    assert_eq!(split(b""), Split::Papers(Vec::new()));
    assert_eq!(splits(b""), [[]]);
    for byte in 0..=255 {
        expect_lost(&[byte]);
    }
}

#[test]
fn one_paper() {
    expect_printed(SMALL, "papers 1\naccepted 1\nshare 1/1\n");
    expect_lengths(SMALL, &[17]);
    let listing = paper_of_lines("H 2 1 1;G 0;K 0 0;A 0 0 5;S 0 0 5;W 0 0 5;N 0 0;K 1 0;R 1 0 5;L 1 0 5;U 1 0 5;N 1 0");
    assert!(listing.ends_with(b"Z 84\n"));
    expect_printed(&listing, "papers 1\naccepted 1\nshare 1/1\n");
    expect_printed(&paper_of(TRACE_HEAD, "U 0 0 0"), "papers 1\naccepted 0\nrefused 17 1\nshare 0/1\n");
}

/// A head and a trailer are enough for a paper; the head need not be right.
#[test]
fn bare_heads() {
    expect_printed(BARE, "papers 1\naccepted 0\nrefused 3 1\nshare 0/1\n");
    expect_printed(&BARE.repeat(3), "papers 3\naccepted 0\nrefused 3 3\nshare 0/1\n");
    expect_lengths(&BARE.repeat(3), &[6, 6, 6]);
    expect_printed(b"H 1 1 0\nZ 8\n", "papers 1\naccepted 0\nrefused 6 1\nshare 0/1\n");
    for head in ["H", "HH", "H\n", "H 9 9 9", "H\0", "Hé", "H\nH"] {
        let paper = with_trailer(format!("{head}\n").as_bytes());
        expect_lengths(&[&paper, SMALL, &paper].concat(), &[paper.len(), 17, paper.len()]);
    }
}

/// The places of the papers, and what is counted.
#[test]
fn many_papers() {
    let refused = paper_of(TRACE_HEAD, "A 0 0 5; U 0 0 6");
    let papers = [SMALL, &refused, BARE, SMALL, &refused, SMALL, &paper_of(TRACE_HEAD, "X"), &refused];
    let bytes = papers.concat();
    expect_lengths(&bytes, &[17, 33, 6, 17, 33, 17, 19, 33]);
    let Split::Papers(found) = split(&bytes) else { panic!("lost") };
    assert!(found.iter().zip(papers).all(|(place, paper)| &bytes[place.clone()] == paper), "{found:?}");
    expect_printed(&bytes, "papers 8\naccepted 3\nrefused 3 1\nrefused 4 1\nrefused 18 3\nshare 3/8\n");
    // In another order the counts are the same.
    let turned: Vec<&[u8]> = papers.into_iter().rev().collect();
    expect_lengths(&turned.concat(), &[33, 19, 17, 33, 17, 6, 33, 17]);
    assert_eq!(sheet(&turned.concat()), sheet(&bytes));
}

/// "from the last trailer backwards": the last trailer says where its paper starts, whatever is in between.
#[test]
fn lines_that_look_like_trailers() {
    // In the place of events and of the `G` line.
    let lines = b"H 1 1 0\nG -\nZ 12\nZ 17\n";
    expect_printed(lines, "papers 1\naccepted 0\nrefused 4 1\nshare 0/1\n");
    expect_lengths(lines, &[22]);
    expect_lengths(b"H\nZ 2\nZ 6\n", &[10]);
    expect_lengths(b"H\nZ 2\nZ 6\nZ 10\nZ 15\n", &[20]);
    expect_lengths(b"H\nZ 2\nZ 2\nZ 10\n", &[15]);
    expect_lengths(b"H\nZ 2\nZ 6\nZ 10\nZ 15\nH\nZ 2\n", &[20, 6]);
    // The last one decides, whatever the others point at.
    expect_lost(b"H\nZ 2\nZ 6\nZ 9\n");
    expect_lost(b"H\nZ 2\nZ 2\n");
}

/// The lines of a whole sheet in a paper are this paper's.
#[test]
fn papers_in_a_paper() {
    let inner = [BARE, SMALL, BARE].concat();
    let outer = with_trailer(&[&b"H 1 1 0\nG -\n"[..], &inner].concat());
    expect_lengths(&outer, &[outer.len()]);
    expect_printed(&outer, "papers 1\naccepted 0\nrefused 4 1\nshare 0/1\n");
    // The same sheet with a trailer of its own, and behind papers.
    let whole = with_trailer(&inner);
    expect_lengths(&inner, &[6, 17, 6]);
    expect_lengths(&whole, &[34]);
    expect_lengths(&[BARE, &whole, SMALL, &outer].concat(), &[6, 34, 17, outer.len()]);
    // One digit decides whether they are two papers or one.
    expect_lengths(b"H\nZ 2\nH\nZ 2\n", &[6, 6]);
    expect_lengths(b"H\nZ 2\nH\nZ 8\n", &[12]);
}

/// Alone, each of these is a paper refused with 2; in a sheet the same bytes are papers with right trailers.
#[test]
fn what_is_2_alone() {
    let two = [SMALL, SMALL].concat();
    assert_eq!(print(&two), "refused 0 2\n");
    expect_printed(&two, "papers 2\naccepted 2\nshare 1/1\n");
    // The second trailer points at the first paper's head.
    assert_eq!(print(b"H\nZ 8\n"), "refused 0 2\n");
    expect_lost(b"H\nZ 8\n");
    expect_printed(b"H\nZ 2\nH\nZ 8\n", "papers 1\naccepted 0\nrefused 3 1\nshare 0/1\n");
}

// ---- what is turned away ----

/// `Z 0` points at its own `Z`.
#[test]
fn a_trailer_that_points_at_itself() {
    expect_lost_everywhere(b"Z 0\n");
    expect_lost_everywhere(b"H 1 1 0\nG -\nZ 0\n");
    expect_lost_everywhere(b"H\nZ 0\n");
    // A paper by itself, refused with 3: "not at an `H`".
    assert_eq!(print(b"Z 0\n"), "refused 1 3\n");
}

/// "or a trailer points before the first byte".
#[test]
fn a_trailer_that_points_before_the_first_byte() {
    for bytes in ["Z 1\n", "Z 4\n", "H\nZ 3\n", "H\nZ 4\n", "H\nZ 6\n", "H 1 1 0\nG -\nZ 13\n", "H 1 1 0\nG -\nZ 65536\n"] {
        expect_lost(bytes.as_bytes());
        expect_lost(&[bytes.as_bytes(), SMALL].concat());
    }
    // Two bytes before the second line are eight in the sheet; nine are too many.
    expect_lengths(b"H\nZ 2\nH\nZ 8\n", &[12]);
    expect_lost(b"H\nZ 2\nH\nZ 9\n");
    expect_lost(b"H\nZ 3\nH\nZ 2\n");
    let long = "9".repeat(1_000);
    for n in ["4294967295", "4294967296", "18446744073709551615", "18446744073709551616", &long] {
        expect_lost_everywhere(format!("H\nZ {n}\n").as_bytes());
    }
    // 2 more than a power of two.
    for n in ["258", "65538", "4294967298", "18446744073709551618", "340282366920938463463374607431768211458"] {
        expect_lost_everywhere(format!("H\nZ {n}\n").as_bytes());
    }
}

/// "or not at an `H`".
#[test]
fn a_trailer_that_points_elsewhere() {
    for byte in (0..=255).filter(|&byte| byte != b'H') {
        expect_lost(&[byte, b'\n', b'Z', b' ', b'2', b'\n']);
    }
    for text in ["xH\nZ 3\n", " H\nZ 3\n", "\nH\nZ 3\n", "H\nZ 1\n", "H 1 1 0\nG -\nZ 11\n", "H 1 1 0\nG -\nZ 4\n"] {
        expect_lost_everywhere(text.as_bytes());
    }
    expect_lost_everywhere(b"h 1 1 0\nG -\nZ 12\n");
    // A paper by itself, refused with 3.
    assert_eq!(print(b"G -\nZ 4\n"), "refused 1 3\n");
    expect_lost_everywhere(b"G -\nZ 4\n");
    // Each number but 12, in a paper and behind one.
    for n in (0..40).filter(|&n| n != 12) {
        expect_lost(format!("H 1 1 0\nG -\nZ {n}\n").as_bytes());
        if n != 29 {
            expect_lost(format!("H 1 1 0\nG -\nZ 12\nH 1 1 0\nG -\nZ {n}\n").as_bytes());
        }
    }
}

/// The trailer points at an `H` that begins no paper: what is left does not end in a trailer.
#[test]
fn another_h() {
    for text in ["xH\nZ 2\n", "H\nH\nZ 2\n", "HH\nZ 2\n", "A 0 0 5\nH\nZ 2\n", "Z 0\nH\nZ 2\n", "H\nZ 2H\nZ 2\n"] {
        expect_lost_everywhere(text.as_bytes());
    }
    expect_lengths(b"HH\nZ 3\n", &[7]);
    expect_lengths(b"H\nZ 2H\nZ 7\n", &[11]);
    expect_lengths(b"H\nZ 2\nHH\nZ 3\n", &[6, 7]);
    expect_lost(b"H\nZ 2\nHH\nZ 2\n");
}

/// "what is left does not end in a trailer": the form of the line.
#[test]
fn no_trailer_at_the_end() {
    for trailer in [
        "", "2", "Z", "Z ", "Z2", "Z  2", "Z 2 ", " Z 2", "Z 02", "Z 002", "Z +2", "Z -2", "Z 2 2", "Z 2 0", "Z 2\r", "Z 2\0",
        "Z\t2", "z 2", "ZZ 2", "H 2", "Z 2x", "Z x2", "Z 2.", "Z 2e0", "Z 0x2", "Z 2\n", "ZH 2", "Z é", "Z -0", "Z -",
    ] {
        expect_lost_everywhere(format!("H\n{trailer}\n").as_bytes());
    }
    // Leading zeros, however many.
    expect_lost_everywhere(format!("H\nZ {}2\n", "0".repeat(1_000)).as_bytes());
}

/// "each line ended by byte 10": the last byte is missing, or another one.
#[test]
fn no_line_end_at_the_end() {
    expect_lengths(b"H\nZ 2\n", &[6]);
    for end in ["", "\r", "\0", " ", "\n\n", "\nx", "\r\n"] {
        expect_lost_everywhere(format!("H\nZ 2{end}").as_bytes());
        expect_lost_everywhere(format!("H 1 1 0\nG -\nZ 12{end}").as_bytes());
    }
}

/// Bytes in front of the first paper, between papers and behind the last.
#[test]
fn bytes_beside_the_papers() {
    for extra in
        ["\n", "x", "x\n", "A 0 0 5\n", "H 1 1 0\nG -\n", "H\n", "Z\n", "Z 1\n", "Z 99\n", " ", "\0", "H 1 1 0\nG -\nZ 12"]
    {
        expect_lost_everywhere(extra.as_bytes());
    }
    // Every end of a sheet that does not begin with a paper, and every beginning that does not end with one.
    let bytes = [SMALL, BARE, SMALL].concat();
    for cut in 0..=bytes.len() {
        let whole = [0, 17, 23, 40].contains(&cut);
        assert_eq!(split(&bytes[cut..]) != Split::Lost, whole, "{cut}");
        assert_eq!(split(&bytes[..cut]) != Split::Lost, whole, "{cut}");
    }
}

/// "no count is printed", however many papers are right.
#[test]
fn nothing_is_counted_in_a_lost_sheet() {
    let many = SMALL.repeat(100);
    assert_eq!(print_sheet(&many), "papers 100\naccepted 100\nshare 1/1\n");
    expect_printed(&[&many[..], b"\n"].concat(), "refused 0 31\n");
    expect_printed(&[b"\n", &many[..]].concat(), "refused 0 31\n");
    expect_printed(&[&many[..], b"H\nZ 1\n", &many[..]].concat(), "refused 0 31\n");
}

// ---- the counts ----

/// "A paper with 20 to 22 counts as accepted."
#[test]
fn papers_without_an_order() {
    let denied = [("A 0 0 5", 3, 20), ("K 0 0; K 0 1; N 0 1; K 0 1", 6, 21), ("K 0 0", 4, 22)];
    let head = "H 1 1 2\nG 0\n";
    for (events, line, number) in denied {
        expect_unordered(head, events, line, number);
        expect_printed(&paper_of(head, events), "papers 1\naccepted 1\nshare 1/1\n");
    }
    let waiting = paper_of(head, "K 0 0; Y 0 0");
    assert!(print(&waiting).ends_with("unordered 5 22\n"));
    let papers: Vec<Vec<u8>> = denied.map(|(events, ..)| paper_of(head, events)).into_iter().chain([waiting]).collect();
    expect_printed(&papers.concat(), "papers 4\naccepted 4\nshare 1/1\n");
    expect_printed(&[&papers.concat(), BARE].concat(), "papers 5\naccepted 4\nrefused 3 1\nshare 4/5\n");
}

/// A paper for each number that can occur in the full course, and one more for some.
fn one_of_each() -> Vec<(u32, Vec<u8>)> {
    let lines = [
        (3, "H"),
        (3, "H 9 1 0;G -"),
        (4, "H 1 1 0;G -;X"),
        (5, "H 1 1 0;G -;A 1 0 5"),
        (6, "H 1 1 0"),
        (6, "H 1 1 0;G -;V"),
        (10, "H 1 1 0;G -;L 0 0 0"),
        (11, "H 2 1 1;G -;K 0 0;K 1 0"),
        (12, "H 1 1 1;G -;N 0 0"),
        (13, "H 1 1 1;G -;P 0 0 5;K 0 0"),
        (14, "H 1 1 0;G -;S 0 0 0"),
        (15, "H 1 1 1;G -;K 0 0;A 0 0 5;N 0 0"),
        (16, "H 1 1 1;G -;K 0 0;A 0 0 5;S 0 0 5;N 0 0"),
        (17, "H 1 1 0;G -;U 0 0 0"),
        (18, "H 1 1 0;G -;R 0 0 1"),
        (19, "H 1 1 0;G -;R 0 0 0;R 0 0 0;R 0 0 0;R 0 0 0;R 0 0 0;R 0 0 0;R 0 0 0;R 0 0 0;R 0 0 0"),
        (23, "H 1 1 0;G -;R 0 0 0;A 0 0 5"),
        (26, "H 1 1 0;G -;V 0;U 0 0 0"),
        (27, "H 1 2 0;G -;V 0 1;A 0 1 1;R 0 0 0;L 0 0 0;U 0 0 0"),
        (28, "H 1 1 0;G -;V 0;P 0 0 5"),
        (29, "H 1 1 1;G -;K 0 0;Y 0 0;A 0 0 5"),
        (30, "H 1 1 1;G -;C 0 0"),
    ];
    let nine = (9, paper_of(TRACE_HEAD, &repeat("A 0 0 5", 2_001)));
    lines.into_iter().map(|(number, text)| (number, paper_of_lines(text))).chain([nine]).collect()
}

/// The lines `refused k n` of a sheet.
fn refused_lines(text: &str) -> Vec<(u32, usize)> {
    let numbers = |line: &str| {
        let (number, papers) = line.strip_prefix("refused ")?.split_once(' ')?;
        Some((number.parse().ok()?, papers.parse().ok()?))
    };
    text.lines().filter_map(numbers).collect()
}

/// "`refused k n` for each number k that occurs, rising".
#[test]
fn every_number_that_occurs() {
    let each = one_of_each();
    for (number, paper) in &each {
        let refused = |number| format!("papers 1\naccepted 0\nrefused {number} 1\nshare 0/1\n");
        assert_eq!(print_sheet(paper), refused(*number));
        // The short course has 25 in the place of 9.
        assert_eq!(print_sheet_short(paper), refused(if *number == 9 { 25 } else { *number }));
    }
    let rising = [3, 4, 5, 6, 9, 10, 11, 12, 13, 14, 15, 16, 17, 18, 19, 23, 26, 27, 28, 29, 30];
    let of_each = |number| if matches!(number, 3 | 6) { 2 } else { 1 };
    let papers: Vec<u8> = each.iter().rev().flat_map(|(_, paper)| paper.clone()).collect();
    let text = print_sheet(&papers);
    assert_eq!(refused_lines(&text), rising.map(|number| (number, of_each(number))));
    assert!(text.starts_with("papers 23\naccepted 0\nrefused 3 2\n") && text.ends_with("refused 30 1\nshare 0/1\n"), "{text}");
    // Without 9 the short course has the same numbers; 9 and 10 rise as numbers and not as text.
    let without_9: Vec<u8> = each.iter().filter(|(number, _)| *number != 9).flat_map(|(_, paper)| paper.clone()).collect();
    assert_eq!(sheet_short(&without_9), sheet(&without_9));
    let two = [&each[6].1[..], &each[22].1].concat();
    assert_eq!(print_sheet(&two), "papers 2\naccepted 0\nrefused 9 1\nrefused 10 1\nshare 0/1\n");
}

/// A number counted as often as its papers occur, in whichever places they stand.
#[test]
fn how_often_each_number_occurs() {
    let each: Vec<(u32, Vec<u8>)> = one_of_each().into_iter().filter(|(number, _)| !matches!(number, 3 | 6 | 9)).collect();
    let mut bytes = Vec::new();
    for round in 0..each.len() {
        each.iter().skip(round).for_each(|(_, paper)| bytes.extend_from_slice(paper));
        bytes.extend_from_slice(SMALL);
    }
    let n = each.len();
    let expected: Vec<(u32, usize)> = each.iter().enumerate().map(|(i, (number, _))| (*number, i + 1)).collect();
    let text = print_sheet(&bytes);
    assert_eq!(refused_lines(&text), expected);
    let papers = n + n * (n + 1) / 2;
    assert!(text.starts_with(&format!("papers {papers}\naccepted {n}\n")), "{text}");
}

/// A paper that is found ends in a right trailer and is no longer than its sheet, so it is refused with neither 1 nor 2.
/// 7 and 8 need something lent or handed in, 24 a tail, 31 a sheet; 20 to 22 refuse no paper, 25 none in the full course.
#[test]
fn numbers_that_never_occur() {
    let over = with_trailer(&[&b"H 1 1 0\nG -\n"[..], &vec![b'x'; MAX_BYTES], b"\n"].concat());
    assert_eq!(print(&over), "refused 0 1\n");
    expect_printed(&over, "refused 0 1\n");
    assert_eq!(print(b"H 1 1 0\nG -\nZ 11\n"), "refused 0 2\n");
    expect_printed(b"H 1 1 0\nG -\nZ 11\n", "refused 0 31\n");
    // Beside right papers too: the one that is 1 or 2 refuses the sheet.
    expect_printed(&[SMALL, &over].concat(), "refused 0 1\n");
    expect_printed(&[SMALL, b"H 1 1 0\nG -\nZ 11\n"].concat(), "refused 0 31\n");
    expect_printed(&[b"H 1 1 0\nG -\nZ 11\n", SMALL].concat(), "refused 0 31\n");
}

/// "accepted over papers in lowest terms": the fraction has the value, and no number above 1 divides both.
#[test]
fn shares() {
    assert_eq!((share(0, 0), share(0, 1), share(0, 7)), ((0, 1), (0, 1), (0, 1)));
    assert_eq!((share(1, 1), share(7, 7), share(1, 2)), ((1, 1), (1, 1), (1, 2)));
    assert_eq!((share(2, 4), share(4, 6), share(6, 4 + 5)), ((1, 2), (2, 3), (2, 3)));
    for papers in 1..=120 {
        for accepted in 0..=papers {
            let (a, b) = share(accepted, papers);
            assert_eq!(a * papers, accepted * b, "{accepted} of {papers}");
            assert!(b > 0 && (2..=b).all(|d| a % d != 0 || b % d != 0), "{accepted} of {papers}: {a}/{b}");
        }
    }
}

/// The printed share of sheets of up to twelve papers.
#[test]
fn printed_shares() {
    for papers in 1..=12 {
        for accepted in 0..=papers {
            let bytes = [BARE.repeat(papers - accepted), SMALL.repeat(accepted)].concat();
            let refused = if accepted == papers { String::new() } else { format!("refused 3 {}\n", papers - accepted) };
            let divisor = (1..=papers).filter(|d| accepted % d == 0 && papers % d == 0).max().unwrap_or(1);
            let share = format!("share {}/{}\n", accepted / divisor, papers / divisor);
            expect_printed(&bytes, &format!("papers {papers}\naccepted {accepted}\n{refused}{share}"));
        }
    }
    expect_printed(&BARE.repeat(5), "papers 5\naccepted 0\nrefused 3 5\nshare 0/1\n");
    expect_printed(&SMALL.repeat(5), "papers 5\naccepted 5\nshare 1/1\n");
}

/// "at most 2 threads, 4 variables, 2 locks and 200 events": 25 is a number like the others.
#[test]
fn the_short_course() {
    let over = [paper_of("H 3 1 0\nG -\n", ""), paper_of(TRACE_HEAD, &repeat("A 0 0 5", 201))];
    let within = [paper_of("H 2 4 2\nG -\n", ""), paper_of(TRACE_HEAD, &repeat("A 0 0 5", 200))];
    for paper in over.iter().chain(&within) {
        assert_eq!(print_sheet(paper), "papers 1\naccepted 1\nshare 1/1\n");
        let short = if over.contains(paper) { "accepted 0\nrefused 25 1\nshare 0/1" } else { "accepted 1\nshare 1/1" };
        assert_eq!(print_sheet_short(paper), format!("papers 1\n{short}\n"));
        assert_eq!(mark_short(paper).starts_with(b"accepted"), within.contains(paper));
    }
    let dead = paper_of("H 3 1 0\nG -\n", "R 0 0 0; A 0 0 5");
    let third = paper_of(TRACE_HEAD, "Y 0 0");
    let bytes = [&over.concat(), &third, &dead, &within.concat(), BARE].concat();
    let full = "papers 7\naccepted 4\nrefused 3 1\nrefused 12 1\nrefused 23 1\nshare 4/7\n";
    let short = "papers 7\naccepted 2\nrefused 3 1\nrefused 12 1\nrefused 25 3\nshare 2/7\n";
    assert_eq!((print_sheet(&bytes), print_sheet_short(&bytes)), (full.to_string(), short.to_string()));
}

// ---- the size ----

/// "in at most 65,536 bytes, else 1": papers of a sheet of this many bytes, by its last paper.
fn full_sheet(last: &[u8]) -> Vec<u8> {
    [&BARE.repeat(10_921), last].concat()
}

#[test]
fn exactly_65_536_bytes() {
    let bytes = full_sheet(b"H 1 1\nZ 6\n");
    assert_eq!(bytes.len(), MAX_BYTES);
    expect_printed(&bytes, "papers 10922\naccepted 0\nrefused 3 10922\nshare 0/1\n");
    let lost = full_sheet(b"H 1 1\nZ 7\n");
    assert_eq!(lost.len(), MAX_BYTES);
    expect_printed(&lost, "refused 0 31\n");
}

/// 1 comes before 31, and `split` has no limit.
#[test]
fn exactly_65_537_bytes() {
    let bytes = full_sheet(b"H 1 1 \nZ 7\n");
    assert_eq!(bytes.len(), MAX_BYTES + 1);
    expect_printed(&bytes, "refused 0 1\n");
    assert!(matches!(split(&bytes), Split::Papers(papers) if papers.len() == 10_922));
    let lost = full_sheet(b"H 1 1 \nZ 8\n");
    assert_eq!((lost.len(), split(&lost)), (MAX_BYTES + 1, Split::Lost));
    expect_printed(&lost, "refused 0 1\n");
    for byte in [0, 10, b'H', b'Z', b'9'] {
        expect_printed(&vec![byte; MAX_BYTES], "refused 0 31\n");
        expect_printed(&vec![byte; MAX_BYTES + 1], "refused 0 1\n");
    }
    expect_printed(&SMALL.repeat(10_000), "refused 0 1\n");
}

/// One paper of this many bytes, whose only event has a long thread number.
fn paper_of_size(size: usize) -> Vec<u8> {
    let paper = paper_of_lines(&format!("H 1 1 0;G -;A {} 0 5", "1".repeat(size - 27)));
    assert_eq!(paper.len(), size);
    paper
}

#[test]
fn one_long_paper() {
    expect_printed(&paper_of_size(MAX_BYTES), "papers 1\naccepted 0\nrefused 5 1\nshare 0/1\n");
    expect_printed(&paper_of_size(MAX_BYTES + 1), "refused 0 1\n");
    // Two that fit alone and do not fit together, and two that do.
    let (long, rest) = (paper_of_size(MAX_BYTES - 17), paper_of_size(MAX_BYTES - 16));
    expect_printed(&[&long, SMALL].concat(), "papers 2\naccepted 1\nrefused 5 1\nshare 1/2\n");
    expect_printed(&[SMALL, &long].concat(), "papers 2\naccepted 1\nrefused 5 1\nshare 1/2\n");
    expect_printed(&[&rest, SMALL].concat(), "refused 0 1\n");
    expect_printed(&rest, "papers 1\naccepted 0\nrefused 5 1\nshare 0/1\n");
}

/// No paper has under six bytes, so 10,922 are the most; 3,855 accepted ones.
#[test]
fn the_most_papers() {
    let bytes = BARE.repeat(10_922);
    assert_eq!(bytes.len(), MAX_BYTES - 4);
    expect_printed(&bytes, "papers 10922\naccepted 0\nrefused 3 10922\nshare 0/1\n");
    expect_printed(&BARE.repeat(10_923), "refused 0 1\n");
    let accepted = SMALL.repeat(3_855);
    assert_eq!(accepted.len(), MAX_BYTES - 1);
    expect_printed(&accepted, "papers 3855\naccepted 3855\nshare 1/1\n");
    expect_printed(&SMALL.repeat(3_856), "refused 0 1\n");
    // The largest b, and a share of large numbers that is reduced.
    let one = [SMALL, &BARE.repeat(10_919)].concat();
    expect_printed(&one, "papers 10920\naccepted 1\nrefused 3 10919\nshare 1/10920\n");
    let mixed = [BARE.repeat(5_000), SMALL.repeat(2_000)].concat();
    expect_printed(&mixed, "papers 7000\naccepted 2000\nrefused 3 5000\nshare 2/7\n");
}
