//! Papers about the range of values, with listings worked out by hand: a value has 64 bits, and what lies outside is 4.

use crate::expected::{lines, text, Expected};
use crate::generate::close;
use crate::Value;

/// The least value. No other has more bytes.
const LEAST: &str = "-9223372036854775808";

/// The kinds that have a value.
const KINDS: &str = "UALSRWPB";

/// Values in range: the ends of 64 and 32 bits and those beside them, numbers that wrap 32 bits, 2^53 + 1 and 10^18.
const INSIDE: [&str; 14] = [
    "9223372036854775807",
    "9223372036854775806",
    "-9223372036854775807",
    "-9223372036854775808",
    "2147483647",
    "2147483648",
    "-2147483648",
    "-2147483649",
    "4294967295",
    "4294967296",
    "-4294967296",
    "4294967297",
    "9007199254740993",
    "1000000000000000000",
];

/// Values out of range, at each kind: one past each end, numbers that wrap 64 bits or 128.
const OUTSIDE: [&str; 14] = [
    "9223372036854775808",
    "-9223372036854775809",
    "9999999999999999999",
    "10000000000000000000",
    "-10000000000000000000",
    "18446744073709551615",
    "18446744073709551616",
    "18446744073709551617",
    "-18446744073709551615",
    "-18446744073709551616",
    "-18446744073709551617",
    "340282366920938463463374607431768211456",
    "340282366920938463463374607431768211461",
    "-340282366920938463463374607431768211456",
];

/// Values in another form.
const FORMS: [(&str, &str); 11] = [
    ("leading zero", "09223372036854775807"),
    ("leading zero below zero", "-09223372036854775808"),
    ("nineteen zeros and one", "00000000000000000001"),
    ("eighteen zeros and one below zero", "-0000000000000000001"),
    ("twenty zeros", "00000000000000000000"),
    ("plus", "+9223372036854775807"),
    ("two minuses", "--9223372036854775808"),
    ("minus behind", "9223372036854775807-"),
    ("space behind", "9223372036854775807 "),
    ("space inside", "92233720 36854775807"),
    ("carriage return", "-9223372036854775808\r"),
];

/// Values that are told apart, two and two: first those with the same low 32 bits.
const PAIRS: [(&str, &str); 14] = [
    ("0", "4294967296"),
    ("0", "-4294967296"),
    ("0", "-9223372036854775808"),
    ("1", "-9223372036854775807"),
    ("-1", "9223372036854775807"),
    ("-1", "4294967295"),
    ("5", "4294967301"),
    ("-7", "4294967289"),
    ("-2147483648", "2147483648"),
    ("2147483647", "-2147483649"),
    // the same upper 32 bits, the same digits, the same once rounded to 53 bits
    ("9223372036854775807", "9223372036854775806"),
    ("-9223372036854775808", "-9223372036854775807"),
    ("9223372036854775807", "-9223372036854775807"),
    ("9007199254740992", "9007199254740993"),
];

/// Where values are compared: the events, `x` and `y` for two values, and the line that is refused with 18.
const COMPARED: [(&str, &str, usize); 9] = [
    ("use after an assign", "A 0 0 x, U 0 0 y", 4),
    ("use after a load", "A 1 0 x, S 1 0 x, W 1 0 x, R 0 0 x, L 0 0 x, U 0 0 y", 8),
    ("use after an announced assign", "P 0 0 x, B 0 0 x, U 0 0 y", 5),
    ("store", "A 0 0 x, S 0 0 y", 4),
    ("write of a store", "A 0 0 x, S 0 0 x, W 0 0 y", 5),
    ("write of an early store", "P 0 0 x, W 0 0 y", 4),
    ("read", "A 0 0 x, S 0 0 x, W 0 0 x, R 1 0 y", 6),
    ("load", "A 0 0 x, S 0 0 x, W 0 0 x, R 1 0 x, L 1 0 y", 7),
    ("announced assign", "P 0 0 x, B 0 0 y", 4),
];

/// Each of these values, and whether it is in range.
fn in_and_out() -> impl Iterator<Item = (&'static str, bool)> {
    INSIDE.map(|x| (x, true)).into_iter().chain(OUTSIDE.map(|x| (x, false)))
}

/// Sixteen variables that are 0 in main memory, in a listing.
fn sixteen_zeros() -> String {
    (0..16).map(|v| format!("main {v} 0\n")).collect()
}

/// A value in a name.
fn named(value: &str) -> String {
    value.replace('-', "minus ")
}

/// A paper of two threads, variables and locks without guards.
fn two(name: String, events: &str, listing: &str) -> Expected {
    Expected { name: format!("values: {name}"), paper: text("H 2 2 2", "G -", events), listing: lines(listing) }
}

/// Each value as the first event of each kind.
fn at_each_kind() -> impl Iterator<Item = Expected> {
    let each = KINDS.chars().flat_map(|kind| in_and_out().map(move |(x, inside)| (kind, x, inside)));
    each.map(|(kind, x, inside)| {
        let listing = match kind {
            _ if !inside => "refused 3 4".into(),
            'U' => "refused 3 17".into(),
            'A' => format!("accepted 1, main 0 0, main 1 0, copy 0 0 {x}"),
            'S' => "refused 3 14".into(),
            'R' => "refused 3 18".into(),
            'P' => "accepted 1, main 0 0, main 1 0".into(),
            _ => "refused 3 10".into(),
        };
        two(format!("{kind} of {}", named(x)), &format!("{kind} 0 0 {x}"), &listing)
    })
}

/// Each value where the line is refused with another number than 4 if its form is right: 5, and 9 past 2,000 events.
fn form_before_others() -> impl Iterator<Item = Expected> {
    let full = "A 0 0 5, ".repeat(2_000);
    in_and_out().flat_map(move |(x, inside)| {
        let (name, undeclared, late) = (named(x), format!("A 9 9 {x}"), format!("{full}U 0 0 {x}"));
        let (five, nine) = if inside { ("refused 3 5", "refused 2003 9") } else { ("refused 3 4", "refused 2003 4") };
        [two(format!("undeclared, {name}"), &undeclared, five), two(format!("2,001st event, {name}"), &late, nine)]
    })
}

/// Each value through copies, queues, announced values and main memory: without an order, and in two sections.
fn through_all() -> impl Iterator<Item = Expected> {
    const EVENTS: &str = "A 0 0 x, U 0 0 x, S 0 0 x, W 0 0 x, P 0 1 x, W 0 1 x, B 0 1 x, U 0 1 x, \
                          R 1 0 x, R 1 1 x, L 1 1 x, L 1 0 x, U 1 0 x, U 1 1 x";
    const LISTING: &str = "accepted 14, main 0 x, main 1 x, copy 0 0 x, copy 0 1 x, copy 1 0 x, copy 1 1 x";
    const SECTIONS: &str = "K 0 0, A 0 0 x, S 0 0 x, W 0 0 x, N 0 0, K 1 0, R 1 0 x, L 1 0 x, U 1 0 x, N 1 0";
    const ORDER: &str = "accepted 10, main 0 x, copy 0 0 x, copy 1 0 x, section 0 3 7, section 1 8 12";
    INSIDE.into_iter().flat_map(|x| {
        let ordered = Expected {
            name: format!("values: sections with {}", named(x)),
            paper: text("H 2 1 1", "G 0", &SECTIONS.replace('x', x)),
            listing: lines(&ORDER.replace('x', x)),
        };
        [two(format!("all of {}", named(x)), &EVENTS.replace('x', x), &LISTING.replace('x', x)), ordered]
    })
}

/// Two values that are told apart wherever values are compared, either of them first.
fn compared() -> impl Iterator<Item = Expected> {
    let pairs = PAIRS.into_iter().flat_map(|(x, y)| [(x, y), (y, x)]);
    pairs.flat_map(|(x, y)| {
        COMPARED.map(|(name, events, line)| {
            let name = format!("{name}, {} and {}", named(x), named(y));
            two(name, &events.replace('x', x).replace('y', y), &format!("refused {line} 18"))
        })
    })
}

/// Queues of eight values with the same low 32 bits; the first out is the first in.
fn queues() -> [Expected; 5] {
    let of = |k: Value| (k << 32) + 5;
    let all = |events: &str| (0..8).map(|k| events.replace('x', &of(k).to_string())).collect::<Vec<String>>().join(", ");
    let (first, last) = (of(1), of(7));
    let stores = all("A 0 0 x, S 0 0 x");
    let early = all("P 0 0 x, B 0 0 x");
    let reads = all("A 1 0 x, S 1 0 x, W 1 0 x, R 0 0 x");
    let (writes, loads) = (all("W 0 0 x"), all("L 0 0 x, U 0 0 x"));
    let stored = format!("accepted 24, main 0 {last}, main 1 0, copy 0 0 {last}");
    let read = format!("accepted 48, main 0 {last}, main 1 0, copy 0 0 {last}, copy 1 0 {last}");
    [
        two("eight stores".into(), &format!("{stores}, {writes}"), &stored),
        two("eight early stores".into(), &format!("{early}, {writes}"), &stored),
        two("eight reads".into(), &format!("{reads}, {loads}"), &read),
        two("eight stores, the second written".into(), &format!("{stores}, W 0 0 {first}"), "refused 19 18"),
        two("eight reads, the second loaded".into(), &format!("{reads}, L 0 0 {first}"), "refused 35 18"),
    ]
}

/// An assign of the greatest counts: its value in range, or not.
fn assigned(name: String, value: &[u8], inside: bool) -> Expected {
    let paper = close([b"H 8 16 8\nG -\nA 7 15 ", value, b"\n"].concat());
    let accepted = || format!("accepted 1\n{}copy 7 15 {}\n", sixteen_zeros(), String::from_utf8_lossy(value));
    Expected { name: format!("values: {name}"), paper, listing: if inside { accepted() } else { "refused 3 4\n".into() } }
}

/// Of every length; and a byte in each place that is no digit.
fn lengths() -> Vec<Expected> {
    let mut list = Vec::new();
    for n in 1..=40 {
        for (digit, most) in [("1", 19), ("9", 18)] {
            let value = digit.repeat(n);
            list.push(assigned(format!("{n} times {digit}"), value.as_bytes(), n <= most));
            list.push(assigned(format!("{n} times {digit} below zero"), format!("-{value}").as_bytes(), n <= most));
        }
    }
    for place in 0..19 {
        for byte in [b'/', b':', b'0' | 0x80] {
            let mut value = b"1234567890123456789".to_vec();
            value[place] = byte;
            list.push(assigned(format!("byte {byte} in place {place}"), &value, false));
        }
    }
    list
}

/// The least number above each end, and the greatest below, that differs from it first in each place.
fn limits() -> Vec<Expected> {
    let mut list = Vec::new();
    for (sign, end) in [("", "9223372036854775807"), ("-", "9223372036854775808")] {
        for place in 0..19 {
            let (front, digit, behind) = (&end[..place], end.as_bytes()[place], 18 - place);
            if digit < b'9' {
                let value = format!("{sign}{front}{}{}", (digit + 1) as char, "0".repeat(behind));
                list.push(assigned(format!("past an end in a place, {}", named(&value)), value.as_bytes(), false));
            }
            if digit > b'0' {
                let value = format!("{sign}{front}{}{}", (digit - 1) as char, "9".repeat(behind));
                list.push(assigned(format!("before an end in a place, {}", named(&value)), value.as_bytes(), true));
            }
        }
    }
    list
}

/// A thousand digits, whose low 64 bits and low 128 bits are those of 0 or 5.
fn thousands() -> impl Iterator<Item = Expected> {
    let zeros = "0".repeat(998);
    let values = [
        ("wraps to 0", format!("10{zeros}")),
        ("wraps to 5", format!("1{zeros}5")),
        ("wraps to 0 below zero", format!("-10{zeros}")),
        ("wraps to 5 below zero", format!("-1{zeros}5")),
    ];
    let each = KINDS.chars().flat_map(move |kind| values.clone().map(|value| (kind, value)));
    each.map(|(kind, (name, x))| two(format!("a thousand digits, {name}: {kind}"), &format!("{kind} 0 0 {x}"), "refused 3 4"))
}

/// A long listing: main memory and 128 copies of the least value, and sections in all other events. Thread 1 assigns, stores and writes
/// each variable, the others load it, thread 0 after its sections.
fn long_listing() -> Expected {
    const EMPTY: usize = 863;
    let each = |letters: &[&str], t: usize| -> Vec<String> {
        (0..16).flat_map(|v| letters.iter().map(move |letter| format!("{letter} {t} {v} {LEAST}"))).collect()
    };
    let mut events = [vec!["K 1 0".into()], each(&["A", "S", "W"], 1), vec!["N 1 0".into()]].concat();
    events.extend((2..8).flat_map(|t| each(&["R", "L"], t)));
    events.extend(vec!["K 0 0, N 0 0".to_string(); EMPTY]);
    events.extend(each(&["R", "L"], 0));
    let main = (0..16).map(|v| format!("main {v} {LEAST}"));
    let copies = (0..8).flat_map(|t| (0..16).map(move |v| format!("copy {t} {v} {LEAST}")));
    let sections = (0..EMPTY).map(|i| format!("section 0 {} {}", 2 * i + 245, 2 * i + 246));
    let memories = ["accepted 2000".into()].into_iter().chain(main).chain(copies);
    let listing: Vec<String> = memories.chain(["section 1 3 52".into()]).chain(sections).collect();
    let listing = lines(&listing.join(", "));
    assert!(listing.len() < 32_768);
    let paper = text("H 8 16 8", &format!("G{}", " 0".repeat(16)), &events.join(", "));
    Expected { name: "values: a long listing".into(), paper, listing }
}

/// As many events of the longest lines as there may be.
fn most() -> Expected {
    let paper = text("H 8 16 8", "G -", &vec![format!("A 7 15 {LEAST}"); 2_000].join(", "));
    let listing = format!("accepted 2000\n{}copy 7 15 {LEAST}\n", sixteen_zeros());
    Expected { name: "values: 2,000 events".into(), paper, listing }
}

pub fn papers() -> Vec<Expected> {
    let forms = FORMS.into_iter().map(|(name, x)| two(name.into(), &format!("A 0 0 {x}"), "refused 3 4"));
    let mut list: Vec<Expected> =
        at_each_kind().chain(form_before_others()).chain(through_all()).chain(compared()).chain(forms).collect();
    list.extend(queues());
    list.extend(lengths());
    list.extend(limits());
    list.extend(thousands());
    list.extend([long_listing(), most()]);
    list
}
