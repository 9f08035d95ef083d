//! Compares the library, over its C boundary, with the reference: every number returned and every byte lent, as the
//! print room and as a tablet; what a tablet accepts with what the print room gets; where the rows of each result come
//! from, as the package finds it; and the names of bindings, with how the rows of a result are spelled by them.
//!
//!   compare                     the fixed seed's run, which the gate makes
//!   compare long SEED MINUTES   random tables from another seed, for about so many minutes
//!   compare more                all tables once more, a size up
//!   compare stored FILE         the reference against the answers stored in a file of conversions
//!   compare sample FILE         writes a sample of the reference's answers in that form
//!
//! A difference is told with its table, made as small as it goes, and ends the run with status 1. So does a number that
//! is retired or unknown; and where the fixed seed's run does not meet every number that there is, or not each fault of a
//! row on row 0, elsewhere and together with each other one, it says which and ends with status 1 too.

mod all;
mod call;
mod families;
mod grammar;
mod name_lists;
mod names;
mod numbers;
mod random;
mod small;
mod stored;

use std::process::exit;
use std::time::{Duration, Instant};

use call::{Rooms, Tally};
use families::*;
use name_lists::made_names;

const SEED: u64 = 20_261_116;

struct Total(Tally);

impl Total {
    fn add(&mut self, what: &str, run: impl FnOnce() -> Result<Tally, Found>) {
        let start = Instant::now();
        match run() {
            Ok(tally) => {
                let seconds = start.elapsed().as_secs_f64();
                println!("  {}: {} tables, {} calls, {:.1} s", what, tally.tables, tally.calls, seconds);
                self.0.add(&tally);
            }
            Err(found) => {
                println!("{}: DIFFERENCE: {}", what, found.difference);
                if let Some(table) = found.table {
                    small::tell(table);
                }
                exit(1);
            }
        }
    }

    fn tell(&self) {
        let Tally { tables, calls, answers, bad_rows, with_bindings, origins, .. } = &self.0;
        println!(
            "{} tables and {} calls compared, 0 differ; {} accepted ({} with bindings)",
            tables,
            calls,
            answers.of(0),
            with_bindings
        );
        println!(
            "{} of the calls as a tablet: {} accepted, with the print room's bytes; {} refused by a limit of its own",
            self.0.tablet_calls, self.0.tablet_accepted, self.0.tablet_refused
        );
        println!("origins of the rows of {} results compared, 0 differ", origins);
        println!(
            "{} of the calls made names, {} in all; {} spellings looked up, {} of them none",
            self.0.names_calls,
            self.0.names,
            self.0.spellings,
            answers.of(18)
        );
        println!("refused by number: {}", answers.told());
        println!("tables by their first bad row: {}", bad_rows.told());
    }

    /// Every number was met.
    fn met(&self) {
        let never = [self.0.answers.never_met(), self.0.bad_rows.never_met()].concat();
        if !never.is_empty() {
            println!("NOT MET: {}", never.join("; "));
            exit(1);
        }
    }
}

fn fixed(total: &mut Total) {
    total.add("base text", || base_texts(SEED, 100_000));
    total.add("made names", || made_names(SEED + 7, 20_000));
    total.add("names as UTF-8", || all_utf8(0));
    total.add("all ends", || all_ends(0));
    total.add("all lists of children", || all_children(0));
    total.add("all words of a row", || all_words(0));
    total.add("damaged copies", || damaged_tables(SEED + 1, 8_000, 40));
    total.add("both sides of each limit", || limits(SEED + 2, 4));
    total.add("random, some 1,000 rows", || random_tables(SEED + 3, 200, 1_000, Rooms::Some));
    total.add("random, some 400 rows", || random_tables(SEED + 6, 200, 400, Rooms::Some));
    total.add("random, some 50 rows", || random_tables(SEED + 4, 6_000, 50, Rooms::All));
    total.add("random, some 10 rows", || random_tables(SEED + 5, 12_000, 10, Rooms::All));
    total.add("all constructors", || all_constructors(0));
    total.add("all expressions in a context", || all_expressions(0));
    total.add("all tables over an alphabet", || all_tables(0));
}

fn more(total: &mut Total) {
    total.add("names as UTF-8", || all_utf8(1));
    total.add("all ends", || all_ends(1));
    total.add("all lists of children", || all_children(1));
    total.add("all words of a row", || all_words(1));
    total.add("all constructors", || all_constructors(1));
    total.add("all tables over an alphabet", || all_tables(1));
    total.add("all expressions in a context", || all_expressions(1));
}

fn long(total: &mut Total, seed: u64, minutes: u64) {
    let start = Instant::now();
    let mut seed = seed.wrapping_mul(1_000_003);
    while start.elapsed() < Duration::from_secs(60 * minutes) {
        seed = seed.wrapping_add(10);
        println!("seed {}", seed);
        total.add("random, some 10 rows", || random_tables(seed, 5_000, 10, Rooms::All));
        total.add("random, some 50 rows", || random_tables(seed + 1, 5_000, 50, Rooms::All));
        total.add("random, some 1,000 rows", || random_tables(seed + 2, 200, 1_000, Rooms::Some));
        total.add("random, some 400 rows", || random_tables(seed + 7, 500, 400, Rooms::Some));
        total.add("random, some 6,000 rows", || random_tables(seed + 3, 20, 6_000, Rooms::Some));
        total.add("damaged copies", || damaged_tables(seed + 4, 5_000, 40));
        total.add("both sides of each limit", || limits(seed + 5, 4));
        total.add("base text", || base_texts(seed + 6, 50_000));
        total.add("made names", || made_names(seed + 8, 50_000));
    }
}

fn usage() -> ! {
    eprintln!("usage: compare [long SEED MINUTES | more | stored FILE | sample FILE]");
    exit(2)
}

fn main() {
    let arguments: Vec<String> = std::env::args().skip(1).collect();
    let arguments: Vec<&str> = arguments.iter().map(String::as_str).collect();
    let mut total = Total(Tally::default());
    match arguments[..] {
        [] => {
            fixed(&mut total);
            total.tell();
            return total.met();
        }
        ["long", seed, minutes] => match (seed.parse(), minutes.parse()) {
            (Ok(seed), Ok(minutes)) => long(&mut total, seed, minutes),
            _ => usage(),
        },
        ["more"] => more(&mut total),
        ["stored", file] => return stored::check(file),
        ["sample", file] => return stored::write(file),
        _ => usage(),
    }
    total.tell();
}
