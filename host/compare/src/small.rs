//! A table that shows a difference, made as small as it goes.

use std::time::{Duration, Instant};

use thawcopper::Switches;

use crate::call::{Comparer, Difference, Input, Rooms, Table, EIGHT};

/// The setting, the rooms and the turns in which a table differs.
#[derive(Clone, Copy)]
struct Where {
    switches: Switches,
    rooms: Rooms,
    turn: usize,
    /// How many tables came before.
    before: u64,
    /// Whether it is called as a tablet too.
    tablet: bool,
}

fn differs(table: &Table, at: Where) -> Option<Difference> {
    Comparer::after(at.before).setting(at.switches, &Input::of(table), at.rooms, at.turn, at.tablet).err()
}

/// The first setting that shows the difference, with as few rooms as do, and without a tablet where that does.
fn found(table: &Table) -> Option<Where> {
    for (rooms, turns, befores) in [(Rooms::Some, 4, 4), (Rooms::All, 1, 20)] {
        for tablet in [false, true] {
            for turn in 0..turns {
                for before in 0..befores {
                    for switches in EIGHT {
                        let at = Where { switches, rooms, turn, before, tablet };
                        if differs(table, at).is_some() {
                            return Some(at);
                        }
                    }
                }
            }
        }
    }
    None
}

/// Without row `at` and what is below it.
fn without(table: &Table, at: usize) -> Option<Table> {
    let end = table.rows[at][3] as usize;
    if at == 0 || end <= at || end > table.rows.len() {
        return None;
    }
    let mut less = table.clone();
    less.rows.drain(at..end);
    for row in &mut less.rows {
        if row[3] as usize >= end {
            row[3] -= (end - at) as u32;
        }
    }
    Some(less)
}

/// With the subtree of row `inner`, below row `at`, in that one's place.
fn hoisted(table: &Table, at: usize, inner: usize) -> Option<Table> {
    let end = table.rows[at][3] as usize;
    let inner_end = table.rows[inner][3] as usize;
    if at == 0 || inner <= at || inner_end <= inner || inner_end > end || end > table.rows.len() {
        return None;
    }
    let gone = (end - at) - (inner_end - inner);
    let mut less = table.clone();
    less.rows.truncate(at);
    less.rows.extend(table.rows[inner..inner_end].iter().map(|row| {
        let mut row = *row;
        row[3] = row[3].wrapping_sub((inner - at) as u32);
        row
    }));
    less.rows.extend_from_slice(&table.rows[end..]);
    for (i, row) in less.rows.iter_mut().enumerate() {
        let moved = i >= at && i < at + inner_end - inner;
        if !moved && row[3] as usize >= end {
            row[3] -= gone as u32;
        }
    }
    Some(less)
}

/// Tables of more rows are only made smaller by taking subtrees away.
const FEW: usize = 400;

/// For how long a smaller table is looked for.
const PATIENCE: Duration = Duration::from_secs(30);

/// Takes subtrees away, from the front; then puts subtrees in the place of those around them.
pub fn tell(mut table: Table) {
    let place = match found(&table) {
        Some(place) => place,
        None => {
            println!("it does not differ when it is tried again");
            return;
        }
    };
    let start = Instant::now();
    let patient = || start.elapsed() < PATIENCE;
    let mut before = table.rows.len() + 1;
    while table.rows.len() < before && patient() {
        before = table.rows.len();
        let mut at = 1;
        while at < table.rows.len() && patient() {
            match without(&table, at) {
                Some(less) if differs(&less, place).is_some() => table = less,
                _ => at += 1,
            }
        }
        let mut at = 1;
        while at < table.rows.len() && table.rows.len() <= FEW && patient() {
            let end = (table.rows[at][3] as usize).min(table.rows.len());
            let less = (at + 1..end)
                .filter_map(|inner| hoisted(&table, at, inner))
                .find(|less| differs(less, place).is_some());
            match less {
                Some(less) => table = less,
                None => at += 1,
            }
        }
    }
    println!("the smallest table found ({} rows):", table.rows.len());
    for row in &table.rows {
        println!("{} {} {} {}", row[0], row[1], row[2], row[3]);
    }
    println!("behind the rows {} bytes, behind the names {}", table.more_rows, table.more_names);
    if table.names.len() <= 32 {
        println!("names {:?} text {:?}", table.names, String::from_utf8_lossy(&table.text));
    }
    if let Some(difference) = differs(&table, place) {
        println!("{}", difference);
    }
}
