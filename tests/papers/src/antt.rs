//! Short traces with marker A's answers as a file of definitions, to be compared by `refl`.

use crate::by_a::After;
use crate::generate::{aims, candidates, short, Aim, Rng, Short, LETTERS};
use crate::{Counts, Event, Value};

fn value(x: Value) -> String {
    if x >= 0 {
        format!("(pos {x})")
    } else {
        format!("(negsuc {})", -(x + 1))
    }
}

fn event(e: &Event) -> String {
    let name = match e.letter {
        b'U' => "Use",
        b'A' => "Assign",
        b'L' => "Load",
        b'S' => "Store",
        b'R' => "Read",
        b'W' => "Write",
        b'K' => "Lock",
        b'N' => "Unlock",
        b'P' => "PrescientStore",
        b'B' => "PrescientAssign",
        b'Y' => "Wait",
        b'F' => "Notify",
        b'C' => "Resume",
        _ => unreachable!(),
    };
    if e.letter == b'F' {
        format!("ev {} ({name} {} {})", e.thread, e.place, e.value)
    } else if e.is_lock() {
        format!("ev {} ({name} {})", e.thread, e.place)
    } else {
        format!("ev {} ({name} {} {})", e.thread, e.place, value(e.value))
    }
}

fn list(items: impl Iterator<Item = String>) -> String {
    let mut out = String::new();
    for item in items {
        out += &item;
        out += " ∷ ";
    }
    out + "[]"
}

fn volatiles(c: Counts) -> String {
    list(c.volatiles.iter().map(bool::to_string))
}

fn case(s: &Short) -> String {
    let marked = match s.bad {
        None => "accepted".to_string(),
        Some((_, number)) => format!("(refused {number} {})", s.good.len() + s.counts.first_line() as usize),
    };
    let after = After::new(s.counts, &s.good);
    format!(
        "case {} {} {} ({}) ({}) ({}) {marked} ({}) ({})",
        s.counts.threads,
        s.counts.variables,
        s.counts.locks,
        volatiles(s.counts),
        list(s.good.iter().map(event)),
        list(s.bad.iter().map(|(e, _)| event(e))),
        list(after.main().into_iter().map(value)),
        list(after.copies().into_iter().map(|(t, v, x)| format!("cp {t} {v} {}", value(x)))),
    )
}

const USES: &str = "use Rattle.std.specs.Prelude.{ℕ, ◌≡◌, refl, Bool, true, false, List, [], ◌∷◌, ◌++◌, map, reverse, ℤ, pos, negsuc}
use Rattle.rules.specs.declared.Kind.{Kind}
use Rattle.rules.specs.declared.Kind.TheVariants.{Use, Assign, Load, Store, Read, Write, Lock, Unlock, PrescientStore, PrescientAssign, Wait, Notify, Resume}
use Rattle.rules.specs.declared.Event.{Event}
use Rattle.rules.specs.declared.Counts.{Counts}
use Rattle.rules.specs.Events.{capped, is, of, on, subject_of, on_lock, locks, unlocks, eq_z}
use Rattle.rules.specs.Limits.{full, volatile, any_volatile, first_line, declared}
use Rattle.rules.specs.Words.{latest, value_in, letter_in, last_at, count, in_order, by, locks_by, reads, stores, copy, fresh, pending, announced, last_lock, last_write, usable, grip_after, grip, depth, remembered, tells, notified, main, after_load, after_assign, loaded_read, used_read, last_assign}
use Rattle.rules.specs.Rules.{words_of, some, no_partner, lock_taken, not_held, pending_bars, not_fresh, not_stored, read_before_write, unwritten, not_written, not_usable, differs, eight_already, dead_read, wrong_neighbour, bars_use, bars_write, use_barred, write_barred, volatile_order, prescient_volatile, waits, of_waiting, not_notified, breaks, rows, row_in, first_broken, judge, answer, verdict, Marked, accepted, refused, mark_from, mark}
use Rattle.rules.specs.Memories.{Copy, below, each, memory, copies}
use Rattle.rules.specs.Traces.{ev}

unfoldable pub cp : ℕ → ℕ → ℤ → Copy
cp t v x = record { thread = t; variable = v; value = x }

";

const UNFOLDING: &str = "ev cp capped is of on subject_of on_lock locks unlocks eq_z volatile any_volatile first_line declared latest value_in letter_in last_at count in_order by locks_by reads stores copy fresh pending announced last_lock last_write usable grip_after grip depth remembered tells notified main after_load after_assign loaded_read used_read last_assign words_of some no_partner lock_taken not_held pending_bars not_fresh not_stored read_before_write unwritten not_written not_usable differs eight_already dead_read wrong_neighbour bars_use bars_write use_barred write_barred volatile_order prescient_volatile waits of_waiting not_notified breaks rows row_in first_broken judge answer verdict mark_from mark below each memory copies";

const CASES: &str = "pub record Case : Type 0 where
  pub head : Counts
  pub good : List Event
  pub bad : List Event
  pub marked : Marked
  pub memory0 : List ℤ
  pub copies0 : List Copy

unfoldable pub case : ℕ → ℕ → ℕ → List Bool → List Event → List Event → Marked → List ℤ → List Copy → Case
case t v l ws es bs m xs cs = record { head = record { threads = t; variables = v; locks = l; volatiles = ws }; good = es; bad = bs; marked = m; memory0 = xs; copies0 = cs }

unfoldable pub again : Case → Case
again r = record {
  head = r.head;
  good = r.good;
  bad = r.bad;
  marked = mark full r.head (r.good ++ r.bad);
  memory0 = memory r.head (words_of (reverse r.good));
  copies0 = copies r.head (words_of (reverse r.good));
}
";

/// So many traces are compared by one `refl`, which the prover computes within its steps.
const PART: usize = 150;

/// The traces of one batch: some accepted, some undeclared, `each` for every pair of a letter and a refusal, for every two refusals that
/// one event can break at once, and for every case, those with volatile variables and with waiting included.
pub fn batch(seed: u64, each: usize, most: usize) -> Vec<Short> {
    let mut rng = Rng::new(seed);
    let times = |aim: &Aim| match aim {
        Aim::Accepted => 8 * each,
        Aim::Undeclared => 3 * each,
        _ => each,
    };
    let all: Vec<Aim> = aims(false).into_iter().flat_map(|aim| vec![aim; times(&aim)]).collect();
    all.into_iter().map(|aim| short(&mut rng, aim, most)).collect()
}

/// Each trace: verdict, main memory and usable copies after the accepted events.
pub fn file(traces: &[Short]) -> String {
    let part = |(number, part): (usize, &[Short])| {
        let cases = list(part.iter().map(|s| case(s) + "\n   "));
        format!(
            "
unfoldable pub random{number} : List Case
random{number} =
    {cases}

pub random{number}_agree : map again random{number} ≡ random{number}
unfolding random{number} case again {UNFOLDING}
random{number}_agree = refl
"
        )
    };
    let parts: String = traces.chunks(PART).enumerate().map(part).collect();
    format!("-- Random traces, and what marker A says of them.\n{USES}{CASES}{parts}")
}

const NODES: &str = "pub record Node : Type 0 where
  pub events : List Event
  pub verdicts : List ℕ
  pub memory0 : List ℤ
  pub copies0 : List Copy

unfoldable pub node : List Event → List ℕ → List ℤ → List Copy → Node
node es ns xs cs = record { events = es; verdicts = ns; memory0 = xs; copies0 = cs }

";

/// Every accepted trace of fewer than `most` events, with two threads, one variable, one lock and two values.
pub fn accepted(most: usize) -> Vec<Vec<Event>> {
    let all = candidates(FEW, LETTERS, &VALUES);
    let mut found = vec![Vec::new()];
    let mut at = 0;
    while at < found.len() {
        let events: Vec<Event> = found[at].clone();
        at += 1;
        if events.len() + 1 < most {
            let after = After::new(FEW, &events);
            for &e in &all {
                if after.refusal(&e).is_none() {
                    found.push([&events[..], &[e]].concat());
                }
            }
        }
    }
    found
}

const FEW: Counts = Counts::new(2, 1, 1);
const VALUES: [Value; 2] = [0, 1];

/// Each accepted trace: the verdict on every next event, main memory and usable copies.
pub fn every_file(traces: &[Vec<Event>]) -> String {
    let all = candidates(FEW, LETTERS, &VALUES);
    let next = list(all.iter().map(event));
    let nodes = list(traces.iter().map(|es| {
        let after = After::new(FEW, es);
        format!(
            "node ({}) ({}) ({}) ({})\n   ",
            list(es.iter().map(event)),
            list(all.iter().map(|e| after.refusal(e).unwrap_or(0).to_string())),
            list(after.main().into_iter().map(value)),
            list(after.copies().into_iter().map(|(t, v, x)| format!("cp {t} {v} {}", value(x)))),
        )
    }));
    format!(
        "-- Short traces, and what marker A says of every next event.
{USES}{NODES}abbrev pub few : Counts
few = record {{ threads = 2; variables = 1; locks = 1; volatiles = {} }}

unfoldable pub next : List Event
next = {next}

unfoldable pub again : Node → Node
again r = record {{
  events = r.events;
  verdicts = map (verdict full few (reverse r.events)) next;
  memory0 = memory few (words_of (reverse r.events));
  copies0 = copies few (words_of (reverse r.events));
}}

unfoldable pub nodes : List Node
nodes =
    {nodes}

pub every_agree : map again nodes ≡ nodes
unfolding nodes node next again {UNFOLDING}
every_agree = refl
",
        volatiles(FEW)
    )
}
