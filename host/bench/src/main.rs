//! How long a conversion takes: the library through its C entry, beside the reference on boxed trees, and beside a plain
//! copy of the rows, which no conversion can go below. And how long it takes to name bindings.
//!
//!   bash tools/host.sh bench            what is lent stays as it is between calls
//!   bash tools/host.sh bench cleared    what is lent is set to 0 before each call, in the time of the library and of the
//!                                       copy; the reference allocates its result, as ever
//!   bash tools/host.sh bench ample      as much room for rows as `thawcopper::convert` lends, in which the library need not
//!                                       count them first
//!
//!   bash tools/host.sh bench names      made names and base text alone
//!
//!   bash tools/host.sh bench profile SHAPE MODE    the library alone for 3 seconds, or for as many calls as the variable CALLS
//!                                       says, for a profiler; SHAPE is `script`, `small`, `deep`, `functions`, `methods`,
//!                                       `accessors`, `list` or `constructor`, MODE a mode
//!
//! Same tables, same process, release build. The three take turns: a round is a run of each, a run as many calls as take
//! about 2 milliseconds, and there are 11 rounds. Figures are nanoseconds a row of the table, the median of the rounds.
//! A ratio is taken in each round; the median, the least and the most are printed. But for `ample`, lent is just the room
//! of the result.
//! Time is the thread's own processor time (Linux), so that other work on the machine counts less.

mod names;
mod shapes;

use std::hint::black_box;

use shapes::Table;
use thawcopper::{raw, Switches};
use thawcopper_reference as reference;

const ROUNDS: usize = 11;

struct Lent {
    rows: Vec<u8>,
    names: Vec<u8>,
    text: Vec<u8>,
    out_rows: Vec<u8>,
    out_bindings: Vec<u8>,
    cleared: bool,
}

impl Lent {
    fn library(&mut self, switches: Switches) {
        if self.cleared {
            self.out_rows.fill(0);
            self.out_bindings.fill(0);
        }
        let answer =
            raw::convert(&switches, &self.rows, &self.names, &self.text, &mut self.out_rows, &mut self.out_bindings);
        black_box(answer);
    }

    fn reference(&mut self, switches: Switches) {
        let switches = reference::Switches {
            arrow: switches.arrow,
            async_to_generator: switches.async_to_generator,
            async_generator_functions: switches.async_generator_functions,
        };
        let _ = black_box(reference::convert(
            reference::Options { switches, tablet: false },
            &self.rows,
            &self.names,
            &self.text,
            self.out_rows.len(),
            self.out_bindings.len(),
        ));
    }

    fn copy(&mut self, _: Switches) {
        if self.cleared {
            self.out_rows.fill(0);
            self.out_bindings.fill(0);
        }
        self.out_rows[..self.rows.len()].copy_from_slice(&self.rows);
        black_box(&mut self.out_rows);
    }
}

#[repr(C)]
struct Timespec {
    seconds: i64,
    nanoseconds: i64,
}

extern "C" {
    fn clock_gettime(clock: i32, time: *mut Timespec) -> i32;
}

const CLOCK_THREAD_CPUTIME_ID: i32 = 3;

/// The thread's processor time in nanoseconds.
fn now() -> i64 {
    let mut time = Timespec { seconds: 0, nanoseconds: 0 };
    // SAFETY: `time` has the C library's layout on 64-bit Linux, and lives through the call.
    let status = unsafe { clock_gettime(CLOCK_THREAD_CPUTIME_ID, &mut time) };
    assert_eq!(status, 0, "there is no clock of the thread's time");
    time.seconds * 1_000_000_000 + time.nanoseconds
}

/// Nanoseconds of one call, from so many.
fn run<T>(lent: &mut T, calls: u32, one: impl Fn(&mut T)) -> f64 {
    let start = now();
    for _ in 0..calls {
        one(black_box(lent));
    }
    (now() - start) as f64 / f64::from(calls)
}

/// As many calls as take about 2 milliseconds.
fn calls_for<T>(lent: &mut T, one: impl Fn(&mut T)) -> u32 {
    let once = run(lent, 3, one);
    (2e6 / once.max(1.0)).clamp(1.0, 1e6) as u32
}

/// Median, least, most.
fn spread(mut list: Vec<f64>) -> [f64; 3] {
    list.sort_by(f64::total_cmp);
    [list[list.len() / 2], list[0], list[list.len() - 1]]
}

const MODES: [(&str, Switches); 3] =
    [("Disabled", Switches::OFF), ("AsyncOnly", Switches::ASYNC), ("Enabled", Switches::ARROWS)];

/// What was measured of a table in a mode.
struct Measured {
    what: String,
    mode: &'static str,
    rows: usize,
    /// Nanoseconds a row of the table, median.
    library: f64,
    /// Library by reference, and library by copy: median, least, most.
    by_reference: [f64; 3],
    by_copy: [f64; 3],
}

fn words(list: impl IntoIterator<Item = u32>) -> Vec<u8> {
    list.into_iter().flat_map(u32::to_le_bytes).collect()
}

/// What is lent: whether it is set to 0 before each call, and whether there is room to spare.
#[derive(Clone, Copy)]
struct Way {
    cleared: bool,
    ample: bool,
}

fn measure(what: &str, table: Table, way: Way, all: &mut Vec<Measured>) {
    let count = table.rows.len();
    let rows = words(table.rows.into_iter().flatten());
    let names = words(table.names);
    for (mode, switches) in MODES {
        let converted = thawcopper::convert(
            &switches,
            &thawcopper::Table::from_bytes(rows.clone(), names.clone(), table.text.clone()),
        );
        let converted = match converted {
            Ok(converted) => converted,
            Err(refusal) => {
                println!("{}, {}: {}", what, mode, refusal);
                std::process::exit(1);
            }
        };
        let room = if way.ample { 11 * count + 16 } else { converted.rows.len() };
        let mut lent = Lent {
            rows: rows.clone(),
            names: names.clone(),
            text: table.text.clone(),
            out_rows: vec![0; room * 16],
            out_bindings: vec![0; converted.bindings.len() * 12],
            cleared: way.cleared,
        };
        let ways: [fn(&mut Lent, Switches); 3] = [Lent::library, Lent::reference, Lent::copy];
        let calls = ways.map(|one| calls_for(&mut lent, |lent| one(lent, black_box(switches))));
        let mut times = [Vec::new(), Vec::new(), Vec::new()];
        for _ in 0..ROUNDS {
            for way in 0..3 {
                let one = ways[way];
                times[way].push(run(&mut lent, calls[way], |lent| one(lent, black_box(switches))) / count as f64);
            }
        }
        let ratio = |over: usize| spread((0..ROUNDS).map(|n| times[0][n] / times[over][n]).collect());
        let (by_reference, by_copy) = (ratio(1), ratio(2));
        let [library, reference, copy] = times.map(|list| spread(list)[0]);
        println!(
            "{:<36} {:>6} {:<9} {:>8.2} {:>8.2} {:>6.2}   {:>6.2} ({:.2} to {:.2})   {:>7.1} ({:.1} to {:.1})",
            what,
            count,
            mode,
            library,
            reference,
            copy,
            by_reference[0],
            by_reference[1],
            by_reference[2],
            by_copy[0],
            by_copy[1],
            by_copy[2]
        );
        all.push(Measured { what: what.to_string(), mode, rows: count, library, by_reference, by_copy });
    }
}

/// Calls the library alone for 3 seconds.
fn profile(shape: &str, mode: &str) {
    let table = match shape {
        "script" => shapes::ordinary(1_024),
        "accessors" => shapes::accessors(2_000),
        "constructor" => shapes::constructor(),
        "list" => shapes::list(),
        "methods" => shapes::methods(),
        "functions" => shapes::functions(),
        "deep" => shapes::deep(),
        "small" => shapes::ordinary(16),
        _ => panic!("no shape is called {}", shape),
    };
    let switches = MODES.iter().find(|(name, _)| *name == mode).expect("Disabled, AsyncOnly or Enabled").1;
    let mut lent = Lent {
        rows: words(table.rows.into_iter().flatten()),
        names: words(table.names),
        text: table.text,
        out_rows: vec![0; 16 * 8 * shapes::MOST_ROWS],
        out_bindings: vec![0; 12 * shapes::MOST_ROWS],
        cleared: false,
    };
    let start = now();
    let mut calls = 0u64;
    let most: u64 = std::env::var("CALLS").map_or(u64::MAX, |n| n.parse().unwrap());
    while calls < most && now() - start < 3_000_000_000 {
        lent.library(switches);
        calls += 1;
    }
    println!("{} calls", calls);
}

fn main() {
    let arguments: Vec<String> = std::env::args().skip(1).collect();
    if let [word, shape, mode] = &arguments[..] {
        if word == "profile" {
            return profile(shape, mode);
        }
    }
    if arguments == ["names"] {
        return names::measure();
    }
    let way = Way {
        cleared: arguments.iter().any(|word| word == "cleared"),
        ample: arguments.iter().any(|word| word == "ample"),
    };
    println!(
        "nanoseconds a row of the table; lent is {}, {} before each call",
        if way.ample { "room to spare" } else { "just the room of the result" },
        if way.cleared { "set to 0" } else { "not cleared" }
    );
    println!(
        "{:<36} {:>6} {:<9} {:>8} {:>8} {:>6}   {:<22}   {}",
        "table", "rows", "mode", "library", "referen.", "copy", "library / reference", "library / copy"
    );
    let mut all = Vec::new();
    for rows in [16, 64, 256, 1_024, 4_096, 16_384] {
        measure("a script", shapes::ordinary(rows), way, &mut all);
    }
    measure("arrows in arrows, depth 128", shapes::deep(), way, &mut all);
    measure("2,340 functions that each capture", shapes::functions(), way, &mut all);
    measure("2,730 methods that each read this", shapes::methods(), way, &mut all);
    for count in [125, 500, 2_000] {
        measure(&format!("{} accessors in one frame", count), shapes::accessors(count), way, &mut all);
    }
    measure("a list of 16,000 statements", shapes::list(), way, &mut all);
    measure("a constructor of 16,000 statements", shapes::constructor(), way, &mut all);
    goals(&all);
    println!("\nnames made to share one bucket of the library's, for which there is no goal:");
    measure("5,459 reads of 2,048 accessors", shapes::one_bucket(), way, &mut all);
    names::measure();
}

fn told(met: bool) -> &'static str {
    if met {
        "met"
    } else {
        "MISSED"
    }
}

/// The goals, and whether they are met.
fn goals(all: &[Measured]) {
    println!();
    let slower: Vec<String> = all
        .iter()
        .filter(|m| m.by_reference[0] > 1.0)
        .map(|m| format!("{} ({} rows) {}: {:.2} times", m.what, m.rows, m.mode, m.by_reference[0]))
        .collect();
    println!("{}: at least as fast as the reference on every table and mode", told(slower.is_empty()));
    for line in slower {
        println!("    slower: {}", line);
    }
    for m in all.iter().filter(|m| m.what == "a script" && m.rows == 1_024 && m.mode == "Enabled") {
        let [median, least, most] = m.by_copy;
        println!(
            "{}: a script of 1,024 rows in Enabled within 10 times the copy: {:.1} times ({:.1} to {:.1})",
            told(median <= 10.0),
            median,
            least,
            most
        );
    }
    for (mode, _) in MODES {
        let a_row = |what: &str, rows: usize| {
            all.iter().find(|m| m.what == what && m.rows == rows && m.mode == mode).map_or(f64::NAN, |m| m.library)
        };
        let (some, most) = (a_row("a script", 1_024), a_row("a script", 16_384));
        println!(
            "{}: linear growth, {}: {:.1} ns a row at 1,024 rows, {:.1} at 16,384",
            told(most <= 1.5 * some),
            mode,
            some,
            most
        );
        let accessors: Vec<&Measured> =
            all.iter().filter(|m| m.what.ends_with("in one frame") && m.mode == mode).collect();
        if let (Some(few), Some(many)) = (accessors.first(), accessors.last()) {
            println!(
                "{}: linear growth, {}: {:.1} ns a row with 125 accessors in one frame, {:.1} with 2,000",
                told(many.library <= 1.5 * few.library),
                mode,
                few.library,
                many.library
            );
        }
    }
}
