//! Stored conversions: the form that the repository's replay programs read. The head of a file says what it is.

use std::collections::{BTreeSet, HashSet};
use std::fmt::Write as _;
use std::fs;
use std::process::exit;

use thawcopper::{Options, Switches};
use thawcopper_reference as reference;

use crate::call::{Comparer, Entry, Input, Room, Table, EIGHT};
use crate::families::{around_the_tablets_limits, bad_rows, constructors, damaged_copy, worked};
use crate::numbers::OF_A_CONVERSION;
use crate::random::{table, Random, Style};

/// What a conversion answers, in numbers and words.
#[derive(PartialEq, Debug)]
struct Answer {
    numbers: [u32; 4],
    rows: Vec<[u32; 4]>,
    bindings: Vec<[u32; 3]>,
}

/// The reference's, with that word for options.
fn answer(word: u32, input: &Input, room: Room) -> Answer {
    let options = reference::Options::of_word(word);
    match reference::convert(options, input.rows(), input.names(), input.text(), room.rows, room.bindings) {
        Ok(r) => {
            Answer { numbers: [0, 0, r.rows.len() as u32, r.bindings.len() as u32], rows: r.rows, bindings: r.bindings }
        }
        Err(r) => Answer { numbers: [r.number, r.place, 0, 0], rows: Vec::new(), bindings: Vec::new() },
    }
}

/// The numbers of a file, without its comments.
struct Numbers {
    list: Vec<u32>,
    at: usize,
}

impl Numbers {
    fn of(text: &str) -> Numbers {
        let mut list = Vec::new();
        for line in text.lines() {
            let line = line.split('#').next().unwrap_or("");
            for word in line.split_whitespace() {
                match word.parse() {
                    Ok(number) => list.push(number),
                    Err(_) => stop(&format!("'{}' is no number", word)),
                }
            }
        }
        Numbers { list, at: 0 }
    }

    fn next(&mut self) -> u32 {
        if self.at == self.list.len() {
            stop("the file ends inside a conversion");
        }
        self.at += 1;
        self.list[self.at - 1]
    }

    fn some<const N: usize>(&mut self) -> [u32; N] {
        let mut list = [0; N];
        for word in &mut list {
            *word = self.next();
        }
        list
    }

    /// Runs of items; word `grows` of an item grows by the run's step.
    fn runs<const N: usize>(&mut self, grows: usize) -> Vec<[u32; N]> {
        let mut items = Vec::new();
        for _ in 0..self.next() {
            let mut item = self.some::<N>();
            let [times, step] = self.some();
            for _ in 0..times {
                items.push(item);
                item[grows] = item[grows].wrapping_add(step);
            }
        }
        items
    }
}

fn stop(what: &str) -> ! {
    eprintln!("{}", what);
    exit(1)
}

/// The reference against the answers stored in a file, and the library too.
pub fn check(file: &str) {
    let text = fs::read_to_string(file).unwrap_or_else(|e| stop(&format!("{}: {}", file, e)));
    let mut numbers = Numbers::of(&text);
    let mut count = 0;
    let mut differ = 0;
    let mut comparer = Comparer::new();
    while numbers.at < numbers.list.len() {
        count += 1;
        let [own, word] = numbers.some();
        if own != count {
            stop(&format!("conversion {} has number {}", count, own));
        }
        let [rows, bindings] = numbers.some();
        let room = Room { rows: rows as usize, bindings: bindings as usize };
        let rows = numbers.runs(3);
        let more_rows = numbers.next() as usize;
        let names = numbers.runs(0);
        let more_names = numbers.next() as usize;
        let text = numbers.runs(0).into_iter().map(|[byte]: [u32; 1]| byte as u8).collect();
        let table = Table { rows, more_rows, names, more_names, text };
        let stored = Answer { numbers: numbers.some(), rows: numbers.runs(3), bindings: numbers.runs(2) };
        let input = Input::of(&table);
        let wanted = answer(word, &input, room);
        if wanted != stored {
            differ += 1;
            println!("conversion {}: stored {:?}, the reference {:?}", count, stored.numbers, wanted.numbers);
        }
        // As the print room by the entry with switches too.
        let switches = EIGHT.into_iter().find(|s| Options::new(*s).bits() == word).map(Entry::Convert);
        for entry in [Some(Entry::ConvertWith(word)), switches].into_iter().flatten() {
            if let Err(difference) = comparer.one(entry, &input, room) {
                differ += 1;
                println!("conversion {}: {}", count, difference);
            }
        }
    }
    println!("{} stored conversions, {} differ", count, differ);
    if differ != 0 || count == 0 {
        exit(1);
    }
}

const HEAD: &str = "\
# Conversions, with the answers of host/reference, an implementation on boxed trees that shares nothing with the code
# that reads this. Made by `compare sample` (host/compare/src/stored.rs): the worked tables; small tables for the faults
# of a row, by both callers; then random tables, damaged ones among them, from a fixed seed, in settings and with room by
# turns; one is taken where its answer has something that no earlier one of its mode has: a row under a parent, a refusal
# of a row, a use of a binding; a bad row is one for all modes. Behind them stand tables around a tablet's limits, by both
# callers; and as a tablet the worked tables, and random ones that are too deep for it.
#
# Numbers are decimal, apart by blanks and line ends; '#' starts a comment that ends with its line.
# A conversion is, in this order:
#   its own number, from 1; the options: 1 arrow, 2 async, 4 asyncgen, 8 tablet
#   how many bytes are lent for rows, and for bindings
#   the number of runs of rows; for each run: kind attr name end, times, step
#   how many zero bytes stand behind the rows
#   the number of runs of name pairs; for each run: start length, times, step
#   how many zero bytes stand behind the pairs
#   the number of runs of text bytes; for each run: byte, times, step
#   the answer: number place rows bindings
#   the rows of the result: the number of runs, and each as above
#   the bindings: the number of runs; for each run: use property frame, times, step
# A run has `times` items. The row's end, the record's frame, the pair's start or the byte grows by `step` from each item
# to the next. All bytes lent hold 165 before the call; those behind the counted rows and bindings must hold it afterwards.
";

/// Runs of items, a run of rows a line, others on one line. Items that differ only in the word that grows, by one step,
/// share a run.
fn write_runs<const N: usize>(out: &mut String, items: &[[u32; N]], grows: usize) {
    let mut runs: Vec<([u32; N], u32, u32)> = Vec::new();
    for item in items {
        if let Some((first, times, step)) = runs.last_mut() {
            let same = (0..N).all(|i| i == grows || item[i] == first[i]);
            let before = first[grows].wrapping_add(step.wrapping_mul(*times - 1));
            let next = item[grows].wrapping_sub(before);
            if same && next < 1000 && (*times == 1 || next == *step) {
                *step = next;
                *times += 1;
                continue;
            }
        }
        runs.push((*item, 1, 0));
    }
    let between = if N == 4 { "\n" } else { "  " };
    let _ = write!(out, "{}", runs.len());
    for (first, times, step) in runs {
        out.push_str(between);
        for word in first {
            let _ = write!(out, "{} ", word);
        }
        let _ = write!(out, "{} {}", times, step);
    }
    out.push('\n');
}

/// What an answer shows, by mode and caller: what of it is new decides whether it is taken.
fn shows(word: u32, table: &Table, answer: &Answer, seen: &mut HashSet<[u32; 7]>) -> usize {
    let options = reference::Options::of_word(word);
    let mode = match reference::Mode::of(options.switches) {
        reference::Mode::Disabled => 0,
        reference::Mode::Enabled => 1,
        reference::Mode::AsyncOnly => 2,
    };
    let [number, place, ..] = answer.numbers;
    // A bad row is told alike in each mode and to both callers.
    let by = if matches!(number, 21..=25) { 6 } else { mode + 3 * u32::from(options.tablet) };
    let mut new = 0;
    let mut see = |what: [u32; 6]| {
        let [a, b, c, d, e, f] = what;
        new += usize::from(seen.insert([by, a, b, c, d, e, f]));
    };
    if number != 0 {
        let row = table.rows.get(place as usize).copied().unwrap_or([0; 4]);
        let row = if matches!(number, 21..=25 | 3 | 5..=8) { row } else { [0; 4] };
        see([1, number, row[0].min(30), row[1].min(16), 0, 0]);
        // One is enough.
        return 2 * new;
    }
    // In Disabled the result is the table.
    if mode == 0 {
        see([2, table.rows.len().min(20) as u32, 0, 0, 0, 0]);
        return 2 * new;
    }
    let mut open: Vec<usize> = Vec::new();
    for (i, row) in answer.rows.iter().enumerate() {
        while open.last().map_or(false, |last| answer.rows[*last][3] as usize <= i) {
            open.pop();
        }
        let attr = |r: &[u32; 4]| if matches!(r[0], 6 | 8 | 15) { 0 } else { r[1] };
        if let Some(parent) = open.last() {
            let parent = &answer.rows[*parent];
            see([3, parent[0], attr(parent), row[0], attr(row), 0]);
        }
        open.push(i);
    }
    for binding in &answer.bindings {
        let frame = table.rows[binding[2] as usize];
        see([4, binding[0], u32::from(binding[1] != 0), frame[0], frame[1], answer.bindings.len().min(6) as u32]);
    }
    new
}

/// What the program that replays such a file has place for.
const MOST_BYTES: usize = 1_048_575;
const MOST_NUMBERS: usize = 327_680;

/// Writes a sample of the reference's answers.
pub fn write(file: &str) {
    let mut out = HEAD.to_string();
    let mut random = Random::new(1);
    let mut seen = HashSet::new();
    let mut met = BTreeSet::new();
    let mut count = 0;
    let mut take = |out: &mut String, word: u32, table: &Table, turn: usize, least: usize| {
        let input = Input::of(table);
        let plenty = Room { rows: 1 << 18, bindings: 1 << 16 };
        let whole = answer(word, &input, plenty);
        let new = shows(word, table, &whole, &mut seen);
        if new < least {
            return;
        }
        let [_, _, rows, bindings] = whole.numbers;
        let exact = Room { rows: rows as usize * 16, bindings: bindings as usize * 12 };
        let room = match turn % 8 {
            0 if rows > 0 => Room { rows: exact.rows - 1, ..exact },
            1 if bindings > 0 => Room { bindings: exact.bindings - 1, ..exact },
            2 | 3 => Room { rows: exact.rows + 15, bindings: exact.bindings + 11 },
            4 => Room { rows: exact.rows + 160, bindings: exact.bindings + 24 },
            _ => exact,
        };
        let answer = answer(word, &input, room);
        met.insert(answer.numbers[0]);
        count += 1;
        let _ = writeln!(out, "\n{} {}\n{} {}", count, word, room.rows, room.bindings);
        write_runs(out, &table.rows, 3);
        let _ = writeln!(out, "{}", table.more_rows);
        write_runs(out, &table.names, 0);
        let _ = writeln!(out, "{}", table.more_names);
        let text: Vec<[u32; 1]> = table.text.iter().map(|byte| [u32::from(*byte)]).collect();
        write_runs(out, &text, 0);
        let [number, place, rows, bindings] = answer.numbers;
        let _ = writeln!(out, "{} {} {} {}", number, place, rows, bindings);
        write_runs(out, &answer.rows, 3);
        write_runs(out, &answer.bindings, 2);
    };
    fn print_room(switches: Switches) -> u32 {
        Options::new(switches).bits()
    }
    fn tablet(switches: Switches) -> u32 {
        Options::new(switches).tablet(true).bits()
    }
    // These in exact room; the constructors whether or not they show something new.
    for table in constructors() {
        for switches in EIGHT {
            take(&mut out, print_room(switches), &table, 5, 0);
        }
    }
    for table in worked() {
        for switches in EIGHT {
            take(&mut out, print_room(switches), &table, 5, 1);
        }
    }
    for (turn, table) in bad_rows().iter().enumerate() {
        let caller = if turn / 8 % 2 == 0 { print_room } else { tablet };
        take(&mut out, caller(EIGHT[turn % 8]), table, 5, 0);
    }
    for turn in 1..=30_000 {
        let style = Style {
            rows: 4 + random.below(20),
            deepest: 40,
            careless: random.of(&[10, 1_000]),
            keen: random.of(&[1, 4, 9]),
            field_arrows: random.one_in(4),
        };
        let mut made = table(&mut random, style);
        if random.one_in(8) {
            made = damaged_copy(&mut random, &made);
        }
        let switches = random.of(&EIGHT);
        take(&mut out, print_room(switches), &made, turn, 2);
    }
    for table in around_the_tablets_limits() {
        for switches in [Switches::OFF, Switches::ASYNC, Switches::ARROWS] {
            for word in [print_room(switches), tablet(switches)] {
                take(&mut out, word, &table, 5, 0);
            }
        }
    }
    // In any setting and room.
    for table in constructors().iter().chain(&worked()) {
        take(&mut out, tablet(random.of(&EIGHT)), table, random.below(8), 0);
    }
    // One for each kind of row that is the first too deep.
    let mut kinds = HashSet::new();
    for _ in 0..4_000 {
        let style = Style { rows: 60, deepest: 40, careless: 1_000, keen: 4, field_arrows: false };
        let made = table(&mut random, style);
        let word = tablet(random.of(&EIGHT));
        let [number, place, ..] = answer(word, &Input::of(&made), Room { rows: 0, bindings: 0 }).numbers;
        if number == 3 && kinds.insert(made.rows[place as usize][0]) {
            take(&mut out, word, &made, 5, 0);
        }
    }
    let every = BTreeSet::from_iter([0].into_iter().chain(OF_A_CONVERSION));
    if met != every {
        stop(&format!("the numbers {:?} are met, but the numbers are {:?}", met, every));
    }
    let numbers = Numbers::of(&out).list.len();
    if out.len() > MOST_BYTES || numbers > MOST_NUMBERS {
        stop(&format!("{} bytes and {} numbers are more than may be replayed", out.len(), numbers));
    }
    if let Err(e) = fs::write(file, &out) {
        stop(&format!("{}: {}", file, e));
    }
    println!("{} conversions written", count);
}
