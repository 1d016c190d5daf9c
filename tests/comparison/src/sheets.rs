//! Session sheets: what the proved marker counts and prints, held against marker A and against what it says of each paper alone, and with an
//! output that is too short.

use crate::c_api::{self, Sheet};
use crate::whole::{ensure, Memory, ORDER, OUT, RECORDS, SCRATCH};
use marker_a::sheet::{self, Split};
use papers::generate::{self, close, Aim, Rng};
use papers::{expected, short_course, volatiles, waiting, Course, Event, Value, COURSES};
use std::collections::BTreeSet;
use std::panic::{catch_unwind, AssertUnwindSafe};
use std::time::Instant;

/// The most bytes of a sheet.
const BYTES: usize = 65_536;
/// The smallest paper of a sheet.
const SMALLEST: &[u8] = b"H\nZ 2\n";
/// At most so many bytes of output are lent.
const LONG_OUT: usize = 40_000;
/// Marker A tries every cut of sheets of up to so many bytes.
const CUT: usize = 160;
const PRINTED_FAILURES: usize = 20;
/// The numbers with which a paper of a sheet is refused in both courses; 9 is one of the full course, 25 one of the short course.
const NUMBERS: [usize; 20] = [3, 4, 5, 6, 10, 11, 12, 13, 14, 15, 16, 17, 18, 19, 23, 26, 27, 28, 29, 30];
/// Why a sheet is 31.
const CAUSES: [&str; 4] = ["no line feed at the end", "no trailer", "before the first byte", "not at an H"];
/// The lines of small sheets.
const LINES: [&str; 8] = ["H\n", "H 1 1 0\n", "G -\n", "Z 0\n", "Z 2\n", "Z 6\n", "Z 8\n", "Z 12\n"];
/// Papers of few bytes: refused with 3, 6, 4 and 17, accepted, with 22, and with a whole paper inside.
const SMALL: [&str; 8] = [
    "H\nZ 2\n",
    "HZ\nZ 3\n",
    "H 1 1 0\nZ 8\n",
    "H 1 1 0\nG -\nZ 12\n",
    "H 1 1 0\nG -\nX\nZ 14\n",
    "H 1 1 0\nG -\nU 0 0 0\nZ 20\n",
    "H 1 1 1\nG 0\nK 0 0\nZ 18\n",
    "H 1 1 0\nH 1 1 0\nG -\nZ 12\nZ 25\n",
];
/// Last lines of `H` and this line, of which the first alone is a right trailer. Three have the low 32, 63 or 64 bits of a right one.
const TRAILERS: [&str; 26] = [
    "Z 2\n",
    "Z 2",
    "Z 1\n",
    "Z 3\n",
    "Z 0\n",
    "Z 02\n",
    "Z +2\n",
    "Z -2\n",
    "Z 2 \n",
    "Z  2\n",
    " Z 2\n",
    "Z 2\r\n",
    "Z 2\n\n",
    "Z 2\0\n",
    "Z 2 2\n",
    "Z\n",
    "Z \n",
    "Z2\n",
    "z 2\n",
    "H 2\n",
    "Z :\n",
    "Z /\n",
    "Z 4294967298\n",
    "Z 9223372036854775810\n",
    "Z 18446744073709551618\n",
    "Z 18446744073709551615\n",
];

/// The body of a paper, up to its last line.
fn body(paper: &[u8]) -> &[u8] {
    let text = paper.strip_suffix(b"\n").unwrap_or(paper);
    &paper[..text.iter().rposition(|&b| b == 10).map_or(0, |i| i + 1)]
}

/// Whether a paper begins with `H` and has a right trailer: joined to others it is found again.
fn joins(paper: &[u8]) -> bool {
    paper.first() == Some(&b'H') && close(body(paper).to_vec()) == paper
}

/// Where the last paper starts, or why there is none.
fn start(left: &[u8]) -> Result<usize, usize> {
    let text = left.strip_suffix(b"\n").ok_or(0usize)?;
    let at = text.iter().rposition(|&b| b == 10).map_or(0, |i| i + 1);
    let number = text[at..].strip_prefix(b"Z ").ok_or(1usize)?;
    let digits = !number.is_empty() && number.iter().all(u8::is_ascii_digit) && (number[0] != b'0' || number.len() == 1);
    let number = digits.then(|| std::str::from_utf8(number).expect("digits").parse().unwrap_or(usize::MAX)).ok_or(1usize)?;
    let start = at.checked_sub(number).ok_or(2usize)?;
    if left[start] == b'H' {
        Ok(start)
    } else {
        Err(3)
    }
}

/// Why a sheet is 31, and whether papers are found behind.
fn cause(sheet: &[u8]) -> Option<(usize, bool)> {
    let mut left = sheet;
    while !left.is_empty() {
        match start(left) {
            Ok(start) => left = &left[..start],
            Err(cause) => return Some((cause, left.len() < sheet.len())),
        }
    }
    None
}

/// What marker A prints.
fn by_a(course: Course, sheet: &[u8]) -> String {
    let text = match course {
        Course::Full => sheet::sheet(sheet),
        Course::Short => sheet::sheet_short(sheet),
    };
    String::from_utf8(text).expect("the text is ASCII")
}

/// What the C interface hands back with a text.
fn handed_back(text: &str) -> Sheet {
    let numbers: Vec<usize> = text.split([' ', '\n']).filter_map(|word| word.parse().ok()).collect();
    let written = text.len();
    if text.starts_with("refused") {
        Sheet { number: numbers[1], line: numbers[0], written, ..Sheet::default() }
    } else {
        Sheet { papers: numbers[0], accepted: numbers[1], written, ..Sheet::default() }
    }
}

/// The text of papers with these numbers, 0 where one is accepted.
fn text_of(numbers: &[usize]) -> String {
    let times = |k: usize| numbers.iter().filter(|&&n| n == k).count();
    let (papers, accepted) = (numbers.len(), times(0));
    let mut text = format!("papers {papers}\naccepted {accepted}\n");
    for k in (1..100).filter(|&k| times(k) > 0) {
        text += &format!("refused {k} {}\n", times(k));
    }
    // Euclid's algorithm
    let (mut a, mut b) = (accepted, papers);
    while b > 0 {
        (a, b) = (b, a % b);
    }
    text + &if accepted == 0 { "share 0/1\n".to_string() } else { format!("share {}/{}\n", accepted / a, papers / a) }
}

/// Bytes as text; a long one is cut.
fn shown(sheet: &[u8]) -> String {
    let text = sheet[..sheet.len().min(1_000)].escape_ascii().to_string().replace("\\n", "\n");
    format!("{} bytes:\n{text}\n", sheet.len())
}

/// What occurred in the sheets.
#[derive(Default)]
struct Seen {
    /// the course and the number of a refused paper
    numbers: BTreeSet<(&'static str, usize)>,
    /// 20 to 22 of an accepted paper
    denials: BTreeSet<usize>,
    /// the index in `CAUSES`, and whether papers are found behind
    causes: BTreeSet<(usize, bool)>,
}

fn name(course: Course) -> &'static str {
    match course {
        Course::Full => "full course",
        Course::Short => "short course",
    }
}

/// Memory to mark a paper alone.
struct Alone {
    what: Vec<u32>,
    values: Vec<Value>,
    out: Vec<u8>,
    order: Vec<u64>,
    scratch: Vec<u64>,
}

impl Alone {
    fn new() -> Alone {
        Alone {
            what: vec![0; RECORDS],
            values: vec![0; RECORDS],
            out: vec![0; OUT],
            order: vec![0; ORDER],
            scratch: vec![0; SCRATCH],
        }
    }

    /// The number of the paper's refusal, and that of its order's.
    fn mark(&mut self, course: Course, paper: &[u8]) -> (usize, usize) {
        let Alone { what, values, out, order, scratch } = self;
        let marked = c_api::mark(course, paper, what, values, out, order, scratch);
        (marked.number, marked.denial)
    }
}

/// Checks sheets, and counts.
pub struct Sheets {
    out: Memory<u8>,
    alone: Alone,
    /// short papers, each with a refusal of its own
    aimed: Vec<Vec<u8>>,
    seen: Seen,
    pub passed: usize,
    pub failed: usize,
}

impl Sheets {
    pub fn new(rng: &mut Rng) -> Sheets {
        Sheets {
            aimed: generate::aims(true).into_iter().flat_map(|aim| aimed(rng, aim)).collect(),
            // no byte of a text is in the pattern
            out: Memory::new(LONG_OUT, || rng.next() as u8 | 0x80),
            alone: Alone::new(),
            seen: Seen::default(),
            passed: 0,
            failed: 0,
        }
    }

    /// One sheet in both courses; where it was made by joining papers, these.
    fn check(&mut self, sheet: &[u8], papers: Option<&[Vec<u8>]>) -> Result<(), String> {
        let cause = cause(sheet);
        for course in COURSES {
            let text = by_a(course, sheet);
            let wanted = handed_back(&text);
            self.lent(course, sheet, wanted, &text).map_err(|e| format!("{}: {e}", name(course)))?;
            if let Some(papers) = papers {
                self.joined(course, papers, &text)?;
            }
            let lost = cause.is_some() && sheet.len() <= BYTES;
            ensure(lost == (wanted.number == 31), || format!("{wanted:?}, but {:?}", cause.map(|(c, _)| CAUSES[c])))?;
            let refused = text.lines().filter(|line| line.starts_with("refused") && wanted.number == 0);
            let numbers = refused.filter_map(|line| line.split(' ').nth(1).and_then(|k| k.parse().ok()));
            self.seen.numbers.extend(numbers.map(|k| (name(course), k)));
            if sheet.len() <= CUT {
                every_cut(sheet, wanted)?;
            }
        }
        self.seen.causes.extend(cause.filter(|_| sheet.len() <= BYTES));
        Ok(())
    }

    /// With exactly the output that must be lent, and with more: the text, what is handed back, and nothing is touched past the text. With
    /// less: 7, and nothing is touched.
    fn lent(&mut self, course: Course, sheet: &[u8], wanted: Sheet, text: &str) -> Result<(), String> {
        for length in [OUT, OUT + 1 + sheet.len() % (LONG_OUT - OUT)] {
            let got = c_api::sheet(course, sheet, &mut self.out.places[..length]);
            let printed = String::from_utf8_lossy(&self.out.places[..got.written.min(OUT)]).into_owned();
            ensure(printed == text, || format!("marker A:\n{text}this one:\n{printed}"))?;
            ensure(got == wanted, || format!("{got:?}, wanted {wanted:?}"))?;
            ensure(self.out.is(text.as_bytes()), || format!("{length} bytes of output, and others than the text are touched"))?;
            self.out.renew_front(text.len());
        }
        for length in [OUT - 1, sheet.len() % OUT] {
            let got = c_api::sheet(course, sheet, &mut self.out.places[..length]);
            let wanted = Sheet { number: 7, ..Sheet::default() };
            ensure(got == wanted, || format!("{length} bytes of output: {got:?}, wanted {wanted:?}"))?;
            ensure(self.out.is(&[]), || format!("{length} bytes of output: it is touched with 7"))?;
        }
        Ok(())
    }

    /// The counts are those of what the marker says of each paper alone.
    fn joined(&mut self, course: Course, papers: &[Vec<u8>], text: &str) -> Result<(), String> {
        let said: Vec<(usize, usize)> = papers.iter().map(|paper| self.alone.mark(course, paper)).collect();
        let numbers: Vec<usize> = said.iter().map(|&(number, _)| number).collect();
        let wanted = text_of(&numbers);
        ensure(text == wanted, || format!("{}, the papers alone:\n{wanted}the sheet:\n{text}", name(course)))?;
        self.seen.denials.extend(said.iter().map(|&(_, denial)| denial).filter(|&denial| denial > 0));
        Ok(())
    }

    /// One sheet. A failure prints the smallest sheet found that still fails.
    fn sheet(&mut self, what: &str, sheet: &[u8], papers: Option<&[Vec<u8>]>) {
        match self.checked(sheet, papers) {
            Ok(()) => self.passed += 1,
            Err(first) => {
                self.failed += 1;
                if self.failed <= PRINTED_FAILURES {
                    let small = self.smaller(sheet);
                    let differs = self.checked(&small, None).err().unwrap_or(first);
                    println!("FAILED sheet, {what}, the smallest, {}{differs}", shown(&small));
                }
            }
        }
    }

    /// The same in memory that has its pattern, afterwards too.
    fn checked(&mut self, sheet: &[u8], papers: Option<&[Vec<u8>]>) -> Result<(), String> {
        let said = catch_unwind(AssertUnwindSafe(|| self.check(sheet, papers)));
        let said = said.unwrap_or_else(|_| Err("panic\n".to_string()));
        if said.is_err() {
            self.out.renew();
        }
        said
    }

    /// The sheet without those of its papers that it does not need to fail.
    fn smaller(&mut self, sheet: &[u8]) -> Vec<u8> {
        let Split::Papers(ranges) = sheet::split(sheet) else { return sheet.to_vec() };
        let mut papers: Vec<&[u8]> = ranges.into_iter().map(|range| &sheet[range]).collect();
        for i in (0..papers.len().min(100)).rev() {
            let paper = papers.remove(i);
            if self.checked(&papers.concat(), None).is_ok() {
                papers.insert(i, paper);
            }
        }
        papers.concat()
    }

    /// Papers joined. In more than 65,536 bytes none is counted.
    fn join(&mut self, what: &str, papers: &[Vec<u8>]) {
        let sheet = papers.concat();
        self.sheet(what, &sheet, (sheet.len() <= BYTES).then_some(papers));
    }

    /// A paper by itself.
    fn single(&mut self, what: &str, paper: &[u8]) {
        if joins(paper) {
            self.join(what, &[paper.to_vec()]);
        } else {
            self.sheet(what, paper, None);
        }
    }
}

/// Marker A's trial of every cut: one way where the papers are counted, none with 31.
fn every_cut(sheet: &[u8], wanted: Sheet) -> Result<(), String> {
    let ways = sheet::splits(sheet);
    let right = match &ways[..] {
        [] => wanted.number == 31,
        [papers] => wanted.number == 0 && papers.len() == wanted.papers,
        _ => false,
    };
    ensure(right, || format!("{wanted:?}, marker A cuts it so: {ways:?}"))
}

// ---- the sheets

/// A short paper with this refusal, guarded and not.
fn aimed(rng: &mut Rng, aim: Aim) -> [Vec<u8>; 2] {
    let s = generate::short(rng, aim, 20);
    let guards: Vec<usize> = (0..s.counts.variables).map(|_| rng.below(s.counts.locks)).collect();
    let events: Vec<Event> = s.good.iter().copied().chain(s.bad.map(|(e, _)| e)).collect();
    [Some(&guards[..]), None].map(|guards| generate::paper(s.counts, guards, &events))
}

impl Sheets {
    /// The empty sheet, and each last line of `TRAILERS` alone, behind a paper and in front of one.
    fn trailers(&mut self) {
        self.join("the empty sheet", &[]);
        for last in TRAILERS {
            let paper = [b"H\n", last.as_bytes()].concat();
            self.sheet("a last line", &paper, None);
            for other in SMALL {
                self.sheet("a last line behind a paper", &[other.as_bytes(), &paper].concat(), None);
                self.sheet("a last line in front of a paper", &[&paper, other.as_bytes()].concat(), None);
            }
        }
    }

    /// Every sheet of up to `most` lines of `LINES`.
    fn every(&mut self, most: usize) {
        let mut sheets: Vec<String> = vec![String::new()];
        for _ in 0..most {
            sheets = sheets.iter().flat_map(|sheet| LINES.map(|line| sheet.clone() + line)).collect();
            for sheet in &sheets {
                self.sheet("lines", sheet.as_bytes(), None);
            }
        }
    }

    /// One paper of each generator.
    fn singles(&mut self, seed: u64) {
        self.single("random paper", &generate::random_paper(seed));
        self.single("damaged paper", &generate::damaged_paper(seed));
        if seed % 10 == 0 {
            self.single("paper at the limits of the short course", &generate::paper_at_short_limits(seed));
        }
        if seed % 200 == 0 {
            self.single("large paper", &generate::large_paper(seed));
            self.single("paper with many K", &generate::paper_with_many_k(seed));
        }
    }

    /// The papers with known listings.
    fn known(&mut self) {
        let both = short_course::papers().into_iter().chain(volatiles::papers()).chain(waiting::papers());
        for e in expected::papers().into_iter().chain(both.map(|(e, _)| e)) {
            self.single(&e.name, &e.paper);
        }
    }

    /// A paper that is found again.
    fn paper(&self, rng: &mut Rng) -> Vec<u8> {
        loop {
            let seed = rng.next();
            let paper = match rng.below(12) {
                0..=1 => rng.pick(&SMALL).into(),
                2..=5 => generate::random_paper(seed),
                6..=7 => generate::damaged_paper(seed),
                8 if rng.chance(20) => generate::paper_at_short_limits(seed),
                _ => self.aimed[rng.below(self.aimed.len())].clone(),
            };
            if joins(&paper) {
                return paper;
            }
        }
    }

    /// So many papers, or as many of them as a sheet has room for.
    fn papers(&self, rng: &mut Rng, number: usize) -> Vec<Vec<u8>> {
        let mut room = BYTES;
        let all = (0..number).map(|_| self.paper(rng));
        all.take_while(|paper| room.checked_sub(paper.len()).inspect(|&left| room = left).is_some()).collect()
    }

    /// Up to 60 papers, and the same damaged.
    fn random(&mut self, rng: &mut Rng) {
        let number = rng.between(0, 60);
        let papers = self.papers(rng, number);
        self.join("random", &papers);
        self.damaged(rng, &papers);
    }

    /// Up to 8 papers of few bytes, and the same damaged.
    fn small(&mut self, rng: &mut Rng) {
        let papers: Vec<Vec<u8>> = (0..rng.between(0, 8)).map(|_| rng.pick(&SMALL).into()).collect();
        self.join("small", &papers);
        self.damaged(rng, &papers);
    }

    /// A sheet with one fault, or with two papers made one.
    fn damaged(&mut self, rng: &mut Rng, papers: &[Vec<u8>]) {
        if papers.len() > 1 && rng.chance(10) {
            return self.join("a trailer that points at an earlier paper", &merged(rng, papers));
        }
        let sheet = if papers.is_empty() || rng.chance(40) { other_bytes(rng, papers) } else { other_trailer(rng, papers) };
        self.sheet("damaged", &sheet, None);
    }
}

/// The papers with some that follow each other made one: the trailer of the last of them points at the first.
fn merged(rng: &mut Rng, papers: &[Vec<u8>]) -> Vec<Vec<u8>> {
    let first = rng.below(papers.len() - 1);
    let last = rng.between(first + 1, papers.len() - 1);
    let one = close([&papers[first..last].concat(), body(&papers[last])].concat());
    [&papers[..first], &[one], &papers[last + 1..]].concat()
}

/// A byte changed, dropped or added, or other bytes in front, behind or between.
fn other_bytes(rng: &mut Rng, papers: &[Vec<u8>]) -> Vec<u8> {
    let mut sheet = papers.concat();
    let at = rng.below(sheet.len() + 1);
    let byte = if rng.chance(50) { rng.pick(b"0129 -HGZ\n\r\0") } else { rng.next() as u8 };
    let others: &[u8] =
        rng.pick(&[b"\n".as_slice(), b" ", b"X\n", b"Z 0\n", b"G -\n", b"H", b"H\n", b"\xef\xbb\xbf", b"H 1 1 0\nG -\n"]);
    let border = papers[..rng.below(papers.len() + 1)].concat().len();
    match rng.below(6) {
        0 if at < sheet.len() => sheet[at] = byte,
        1 if at < sheet.len() => _ = sheet.remove(at),
        2 => sheet.insert(at, byte),
        3 => _ = sheet.splice(0..0, others.iter().copied()),
        4 => sheet.extend(others),
        _ => _ = sheet.splice(border..border, others.iter().copied()),
    }
    sheet
}

/// One trailer with another number: one more or less, 0, that of another paper's `H`, of a line of its own paper or of another, of a byte of
/// its own, before the first byte, very large, or with a zero before it.
fn other_trailer(rng: &mut Rng, papers: &[Vec<u8>]) -> Vec<u8> {
    let i = rng.below(papers.len());
    let front = papers[..i].concat();
    let own = body(&papers[i]);
    let before = [&front, own].concat();
    let (n, at) = (own.len(), before.len());
    let starts = |part: &[u8]| -> Vec<usize> { (0..part.len()).filter(|&j| j == 0 || part[j - 1] == 10).collect() };
    let heads: Vec<usize> = (0..i).map(|j| papers[..j].concat().len()).chain([front.len()]).collect();
    let number = match rng.below(10) {
        0 => n + 1,
        1 => n - 1,
        2 => 0,
        3 => at - rng.pick(&heads),
        4 => n - rng.pick(&starts(own)),
        5 => at - rng.pick(&starts(&before)),
        6 => rng.below(n + 1),
        7 => at + 1 + rng.below(9),
        8 => n.wrapping_add(rng.pick(&[1 << 16, 1 << 32, 1 << 63])),
        _ => at,
    };
    let zero = if rng.chance(5) { "0" } else { "" };
    [before, format!("Z {zero}{number}\n").into_bytes(), papers[i + 1..].concat()].concat()
}

// ---- sheets of about 65,536 bytes

/// A paper of so many bytes: these lines and one of this byte; none where no trailer fits.
fn filled(front: &str, length: usize, byte: u8) -> Option<Vec<u8>> {
    let mut bodies = (1..7).filter_map(|digits| Some((digits, length.checked_sub(digits + 3)?)));
    let (_, body) = bodies.find(|(digits, body)| body.to_string().len() == *digits && *body > front.len())?;
    let mut text = front.as_bytes().to_vec();
    text.resize(body - 1, byte);
    text.push(10);
    Some(close(text))
}

/// Papers of so many bytes in all: smallest ones, and a longer one at each of three places; one alone; and one of many events.
fn joined_to(total: usize) -> Vec<Vec<Vec<u8>>> {
    const FRONT: &str = "H 1 1 0\nG -\n";
    let smallest = |n: usize| vec![SMALLEST.to_vec(); n];
    let mut all = Vec::new();
    for most in [BYTES / SMALLEST.len(), 5_000, 3] {
        let fill = |n: usize| filled(FRONT, total - n * SMALLEST.len(), b'X').map(|paper| (n, paper));
        let (n, longer) = (0..=most.min(total / SMALLEST.len())).rev().find_map(fill).expect("a longer paper");
        for k in [0, n / 2, n] {
            all.push([smallest(k), vec![longer.clone()], smallest(n - k)].concat());
        }
    }
    let locks = "H 1 1 1\nG 0\n".to_string() + &"K 0 0\n".repeat((total - 40) / 6);
    let alone = b" XHZ0".iter().map(|&byte| filled(FRONT, total, byte)).chain([filled(&locks, total, b'X')]);
    all.extend(alone.flatten().map(|paper| vec![paper]));
    all
}

/// Sheets of so many bytes with a long last line: spaces, digits and zeros, in a paper behind, in front of and without another.
fn long_lines(total: usize) -> Vec<Vec<u8>> {
    let mut all = Vec::new();
    let ends = [("Z", ' ', "\n"), ("Z ", ' ', "2\n"), ("Z 2", ' ', "\n"), ("", ' ', "\n"), ("Z ", '9', "\n"), ("Z 1", '0', "\n")];
    for (first, fill, last) in ends.into_iter().chain([("Z ", '0', "2\n"), ("Z 2", '0', "\n"), ("", '\n', ""), ("", 'H', "")]) {
        let around = [("H\n", ""), ("H 1 1 0\nG -\nZ 12\nH\n", ""), ("H\n", "H\nZ 2\n"), ("H\nZ 2\nH\n", "H 1 1 0\nG -\nZ 12\n")];
        for (front, behind) in around {
            let rest = total - [front, first, last, behind].concat().len();
            all.push(format!("{front}{first}{}{last}{behind}", fill.to_string().repeat(rest)).into_bytes());
        }
    }
    all
}

impl Sheets {
    fn at_limit(&mut self) {
        for total in [BYTES - 1, BYTES, BYTES + 1, BYTES + 2, 2 * BYTES] {
            for papers in joined_to(total) {
                assert_eq!(papers.concat().len(), total, "the length of a sheet");
                self.join("about 65,536 bytes", &papers);
            }
            for sheet in long_lines(total) {
                assert_eq!(sheet.len(), total, "the length of a sheet");
                self.sheet("a long line", &sheet, None);
            }
        }
        for number in [10_921, 10_922, 10_923] {
            self.join("the most papers", &vec![SMALLEST.to_vec(); number]);
        }
    }

    /// Each number of a refused paper, in each course, each of 20 to 22 and each cause of 31 must have occurred.
    fn every_answer(&mut self) {
        let mut missing: Vec<String> = Vec::new();
        for (course, more) in [("full course", 9), ("short course", 25)] {
            let numbers = NUMBERS.into_iter().chain([more]);
            missing.extend(numbers.filter(|&k| !self.seen.numbers.contains(&(course, k))).map(|k| format!("{course}, {k}")));
        }
        missing.extend((20..23).filter(|k| !self.seen.denials.contains(k)).map(|k| k.to_string()));
        let causes = (0..CAUSES.len()).flat_map(|c| [(c, false), (c, true)]);
        missing.extend(causes.filter(|c| !self.seen.causes.contains(c)).map(|(c, behind)| format!("{} {behind}", CAUSES[c])));
        if missing.is_empty() {
            self.passed += 1;
        } else {
            println!("FAILED sheets: these do not occur: {missing:?}");
            self.failed += 1;
        }
    }
}

/// All sheets, `times` as many random ones as in the gate: what is said of them, a line for each part, and how many passed and failed.
pub fn all(times: usize, seed: u64) -> (String, (usize, usize)) {
    let mut rng = Rng::new(seed);
    let (mut sheets, mut lines) = (Sheets::new(&mut rng), String::new());
    let mut part = |name: &str, count: usize, one: &mut dyn FnMut(&mut Sheets, usize)| {
        let (start, before) = (Instant::now(), sheets.passed + sheets.failed);
        (0..count).for_each(|i| one(&mut sheets, i));
        let number = sheets.passed + sheets.failed - before;
        lines += &format!("sheets, {name}: {number} in {:.1} s\n", start.elapsed().as_secs_f64());
    };
    part("last lines", 1, &mut |sheets, _| sheets.trailers());
    part("every sheet of few lines", 1, &mut |sheets, _| sheets.every(5));
    part("one paper with a known listing", 1, &mut |sheets, _| sheets.known());
    part("one paper", 2_000 * times, &mut |sheets, i| sheets.singles(seed + i as u64));
    part("small papers", 20_000 * times, &mut |sheets, _| sheets.small(&mut rng));
    part("random papers", 600 * times, &mut |sheets, _| sheets.random(&mut rng));
    part("about 65,536 bytes", 1, &mut |sheets, _| sheets.at_limit());
    sheets.every_answer();
    (lines, (sheets.passed, sheets.failed))
}
