//! Refusals 6, 7 and 8, read outward as the request states them.

use crate::converter::Mode;
use crate::table::Table;
use crate::{refused, Refused};

enum Owner {
    Function { constructor: bool, method_like: bool },
    StaticBlock,
    FieldValue,
    Program,
}

pub fn check(table: &Table, mode: Mode) -> Result<(), Refused> {
    let rows = &table.rows;
    for (i, row) in rows.iter().enumerate() {
        if row.kind == 10 && !super_allowed(table, i) {
            return refused(6, i);
        }
    }
    for (i, row) in rows.iter().enumerate() {
        if row.kind == 22 && row.attr & 4 != 0 {
            let value = if row.attr & 1 == 0 { i + 1 } else { rows[i + 1].end as usize };
            let held = &rows[value..row.end as usize];
            if held.iter().any(|r| r.kind == 10 || mode == Mode::AsyncOnly && r.kind == 16) {
                return refused(7, i);
            }
        }
    }
    if mode == Mode::AsyncOnly {
        for (i, row) in rows.iter().enumerate() {
            if matches!(row.kind, 3 | 17 | 20) && table.spelled(row.name, b"arguments") {
                return refused(8, i);
            }
        }
    }
    Ok(())
}

/// "Outward, past Arrows, the nearest Function, StaticBlock, Field value or Program."
fn owner(table: &Table, row: usize) -> Owner {
    let rows = &table.rows;
    let mut inner = row;
    loop {
        let outer = table.parent[inner] as usize;
        match rows[outer].kind {
            0 => return Owner::Program,
            17 => {
                let holder = &rows[table.parent[outer] as usize];
                let last = rows[outer].end == holder.end;
                let method_like = last && (holder.kind == 21 || holder.kind == 25 && holder.attr & 2 != 0);
                return Owner::Function { constructor: rows[outer].attr & 4 != 0, method_like };
            }
            22 if rows[outer].attr & 4 != 0 && rows[inner].end == rows[outer].end => return Owner::FieldValue,
            23 => return Owner::StaticBlock,
            _ => inner = outer,
        }
    }
}

fn super_allowed(table: &Table, row: usize) -> bool {
    let called = table.rows[table.parent[row] as usize].kind == 14;
    match owner(table, row) {
        Owner::Function { constructor, method_like } => {
            if called {
                constructor
            } else {
                method_like
            }
        }
        Owner::StaticBlock | Owner::FieldValue => !called,
        Owner::Program => false,
    }
}
