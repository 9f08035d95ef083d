//! Where the rows of a result come from.
//!
//! Without the rows that were put in, the rows of a result stand in the order of the table's rows, and none of those is
//! missing but the ones that fell away. So one pass over the result is enough, with the next row of the table at hand:
//! what was put in is known by the made bindings in it, and what fell away by the row that took its place.

use crate::{Binding, Kind, Row, Table, Use};

const EXPR_STMT: u32 = Kind::ExprStmt as u32;
const VAR: u32 = Kind::Var as u32;
const DECLARATOR: u32 = Kind::Declarator as u32;
const THIS: u32 = Kind::This as u32;
const SUPER: u32 = Kind::Super as u32;
const IDENT: u32 = Kind::Ident as u32;
const MEMBER: u32 = Kind::Member as u32;
const COMPUTED: u32 = Kind::Computed as u32;
const CALL: u32 = Kind::Call as u32;
const ASSIGN: u32 = Kind::Assign as u32;
const ARROW: u32 = Kind::Arrow as u32;
const FUNCTION: u32 = Kind::Function as u32;
const SEQUENCE: u32 = Kind::Sequence as u32;
const TARGET: u32 = Kind::Target as u32;

/// The rows of a result, looked at for what was put in.
struct Found<'a> {
    rows: &'a [Row],
    bindings: &'a [Binding],
}

impl Found<'_> {
    fn is(&self, row: usize, kind: u32) -> bool {
        self.rows.get(row).map_or(false, |row| row.kind == kind)
    }

    /// Past the row, whatever the rows are, so that a pass over them ends.
    fn end(&self, row: usize) -> usize {
        (self.rows[row].end as usize).clamp(row + 1, self.rows.len())
    }

    /// The use of the made binding that an Ident names.
    fn made(&self, row: usize) -> Option<Use> {
        match self.rows.get(row) {
            Some(ident) if ident.kind == IDENT && ident.attr == 1 => {
                Some(self.bindings[ident.name as usize - 1].purpose)
            }
            _ => None,
        }
    }

    /// The Ident of an accessor: only its calls have one, since the Var that declares it has a Declarator.
    fn is_accessor(&self, row: usize) -> bool {
        matches!(self.made(row), Some(Use::Get | Use::Set))
    }

    /// A call of an accessor.
    fn calls_accessor(&self, row: usize) -> bool {
        self.is(row, CALL) && self.is_accessor(row + 1)
    }

    /// The Var that goes first in a frame. A table's own has no Declarator with attr 1.
    fn declares_made(&self, row: usize) -> bool {
        self.is(row, VAR) && self.is(row + 1, DECLARATOR) && self.rows[row + 1].attr == 1
    }

    /// `captured = this`. A table's own assigns to no `this`, and so to no binding that captures it.
    fn assigns_captured(&self, row: usize) -> bool {
        self.is(row, ASSIGN) && self.is(row + 1, TARGET) && self.made(row + 2) == Some(Use::This)
    }

    /// Whether the row was put in with all that is below it: the Var of a frame, `captured = this`, the statement of it.
    fn is_added_whole(&self, row: usize) -> bool {
        self.declares_made(row)
            || self.assigns_captured(row)
            || self.is(row, EXPR_STMT) && self.assigns_captured(row + 1)
    }

    /// The Sequence of a called Super and `captured = this`.
    fn is_added_sequence(&self, row: usize) -> bool {
        self.is(row, SEQUENCE) && self.assigns_captured(self.end(row + 1))
    }

    /// The property `call` of an accessor's answer.
    fn is_call_property(&self, row: usize) -> bool {
        self.is(row, MEMBER) && self.rows[row].attr == 1
    }

    /// Whether a row of the table may have become that row of the result.
    fn may_come_from(&self, row: usize, given: &Row) -> bool {
        if self.is(row, given.kind) {
            return true;
        }
        match given.kind {
            THIS => self.made(row) == Some(Use::This),
            SUPER => self.is_accessor(row),
            MEMBER | COMPUTED => self.calls_accessor(row) || self.is_accessor(row),
            ASSIGN => self.calls_accessor(row),
            ARROW => self.is(row, FUNCTION),
            _ => false,
        }
    }
}

/// The origin of each row.
pub fn origins(rows: &[Row], bindings: &[Binding], table: &Table) -> Vec<Option<usize>> {
    let found = Found { rows, bindings };
    let mut origins = Vec::with_capacity(rows.len());
    // Rows further on that are known to be put in.
    let mut added = vec![false; rows.len()];
    // The next row of the table.
    let mut next = 0;
    while origins.len() < rows.len() {
        let row = origins.len();
        if found.is_added_whole(row) {
            origins.resize(found.end(row), None);
            continue;
        }
        if found.is_call_property(row) {
            // And `this`, captured or not, which is the argument behind it.
            added[row] = true;
            added[found.end(row)] = true;
        }
        if added[row] || found.is_added_sequence(row) {
            origins.push(None);
            continue;
        }
        let given = match table.row(next) {
            Some(given) if found.may_come_from(row, &given) => given,
            _ => panic!("row {} of the result does not come from row {} of this table", row, next),
        };
        origins.push(Some(next));
        next += 1;
        match given.kind {
            // The Target of a rewritten assignment fell away,
            ASSIGN if found.calls_accessor(row) => next += 1,
            // and the Super below it.
            MEMBER | COMPUTED if found.is_accessor(row) => next += 1,
            // The expression is in a Body and a Return behind the Params.
            ARROW if found.is(row, FUNCTION) && given.attr & 2 != 0 => {
                let body = found.end(row + 1);
                added[body] = true;
                added[body + 1] = true;
            }
            _ => {}
        }
    }
    assert!(table.row(next).is_none(), "row {} of this table has no row in the result", next);
    origins
}
