//! What is wrong with a bad row: found in its table, and said in words.

use std::fmt;

use crate::rules::{attrs_of, broken_by, held_by, naming_of, Broken, Naming};
use crate::{Kind, Row, Table};

/// What is wrong with a row, one case for each number from 21 to 25. Of several faults of a row it is the one with the
/// lowest number.
///
/// Its words say what was expected, and what is there:
///
/// ```
/// use thawcopper::{Fault, Kind, Misfit};
///
/// let misfit = Misfit::Children { attr: 0, children: 2, faulty: None };
/// let fault = Fault::Place { kind: Kind::Return, misfit };
/// assert_eq!(fault.number(), 24);
/// assert_eq!(fault.to_string(), "a Return holds one expression or none; it has 2 children");
/// ```
///
/// There may be more of them one day, so a `match` has an arm for the others:
///
/// ```
/// use thawcopper::{convert, Fault, Node, Refusal, Switches, Table};
///
/// // `return this;` with name 3, in a table that has no names
/// let script = Node::program([Node::return_(Node::this()).name_number(3)]);
/// match convert(&Switches::OFF, &Table::from_tree(&script)) {
///     Err(Refusal::BadRow { row, fault: Fault::Name { name, .. } }) => assert_eq!((row, name), (1, 3)),
///     other => panic!("{:?}", other),
/// }
/// ```
#[derive(Clone, Copy, Debug, PartialEq, Eq, Hash)]
#[non_exhaustive]
pub enum Fault {
    /// 21: there is no kind of this number.
    Kind { kind: u32 },
    /// 22: the row's kind or its place does not allow this attr. Row 0 has no parent.
    Attr { kind: Kind, attr: u32, parent: Option<Parent> },
    /// 23: the end is not past the row or is past its parent's end, or, in row 0, is not the number of rows. One from
    /// `least` to `most` was expected. Row 0 has no parent.
    End { kind: Kind, end: u32, least: u32, most: u32, parent: Option<Parent> },
    /// 24: the row may not stand where it stands, or has too few or too many children.
    Place { kind: Kind, misfit: Misfit },
    /// 25: the row's kind does not allow this name in a table of so many names.
    Name { kind: Kind, name: u32, names: u32 },
}

/// What [`Fault::Place`] tells apart.
#[derive(Clone, Copy, Debug, PartialEq, Eq, Hash)]
#[non_exhaustive]
pub enum Misfit {
    /// The row is row 0, and no Program.
    First,
    /// Its parent cannot hold it there.
    Under { parent: Parent },
    /// It has so many children, and its kind and this attr ask for another number. A child whose end is at fault counts
    /// as the last, and is `faulty`: there may be rows behind it that were meant to be children too.
    Children { attr: u32, children: u32, faulty: Option<u32> },
}

/// The row that a bad row stands under.
#[derive(Clone, Copy, Debug, PartialEq, Eq, Hash)]
pub struct Parent {
    /// The parent's own number.
    pub row: u32,
    pub kind: Kind,
    pub attr: u32,
    /// Which of its children the bad row is, from 1.
    pub child: u32,
}

impl Fault {
    /// The number that the library gives for it.
    pub fn number(self) -> u32 {
        match self {
            Fault::Kind { .. } => 21,
            Fault::Attr { .. } => 22,
            Fault::End { .. } => 23,
            Fault::Place { .. } => 24,
            Fault::Name { .. } => 25,
        }
    }

    /// The fault of that number in the row at `place`, which is the first bad one of the table; none where the row does
    /// not show it. Of 24 the library is believed where the number of children is right.
    pub(crate) fn find(number: u32, place: u32, table: &Table) -> Option<Fault> {
        let at = place as usize;
        let row = table.row(at)?;
        let Some(kind) = row.kind() else {
            return if number == 21 { Some(Fault::Kind { kind: row.kind }) } else { None };
        };
        let parent = if at == 0 { None } else { Some(parent_of(at, table)?) };
        let bad = Bad { table, at, row, kind, parent };
        match number {
            22 => bad.attr(),
            23 => bad.end(),
            24 => bad.place(),
            25 => bad.name(),
            _ => None,
        }
    }
}

/// The row that a row stands under. The rows before it are sound, so it is the last of them that ends past it.
fn parent_of(at: usize, table: &Table) -> Option<Parent> {
    let ends_past = |above: &usize| table.row(*above).map_or(false, |row| row.end as usize > at);
    let above = (0..at).rev().find(ends_past)?;
    let row = table.row(above)?;
    let (child, _) = children_of(table, above, at + 1);
    Some(Parent { row: above as u32, kind: row.kind()?, attr: row.attr, child })
}

/// How many children a row has that ends there, and the last of them where its own end is at fault.
fn children_of(table: &Table, at: usize, end: usize) -> (u32, Option<u32>) {
    let (mut count, mut child) = (0, at + 1);
    while let Some(row) = table.row(child).filter(|_| child < end) {
        count += 1;
        let past = row.end as usize;
        if past <= child || past > end {
            return (count, Some(child as u32));
        }
        child = past;
    }
    (count, None)
}

/// A bad row of a known kind.
struct Bad<'a> {
    table: &'a Table,
    at: usize,
    row: Row,
    kind: Kind,
    parent: Option<Parent>,
}

impl Bad<'_> {
    fn attr(&self) -> Option<Fault> {
        let Bad { kind, parent, row: Row { attr, .. }, .. } = *self;
        broken_by(kind, attr, parent).map(|_| Fault::Attr { kind, attr, parent })
    }

    fn end(&self) -> Option<Fault> {
        let Bad { kind, parent, row: Row { end, .. }, .. } = *self;
        let rows = (self.table.row_bytes().len() / 16) as u32;
        let (least, most) = match parent {
            None => (rows, rows),
            Some(parent) => (self.at as u32 + 1, self.table.row(parent.row as usize)?.end),
        };
        if (least..=most).contains(&end) {
            return None;
        }
        Some(Fault::End { kind, end, least, most, parent })
    }

    /// Whether a parent can hold the row is not tested here: where the number of children is right, it cannot.
    fn place(&self) -> Option<Fault> {
        let Bad { kind, row: Row { attr, end, .. }, .. } = *self;
        let (children, faulty) = children_of(self.table, self.at, end as usize);
        let (least, most, _) = held_by(kind, attr);
        let misfit = match self.parent {
            None if kind == Kind::Program => return None,
            None => Misfit::First,
            Some(parent) if (least..=most).contains(&children) => Misfit::Under { parent },
            Some(_) => Misfit::Children { attr, children, faulty },
        };
        Some(Fault::Place { kind, misfit })
    }

    fn name(&self) -> Option<Fault> {
        let Bad { kind, row: Row { attr, name, .. }, .. } = *self;
        let names = (self.table.name_bytes().len() / 8) as u32;
        let allowed = match naming_of(kind) {
            // With attr 1 it is a row of a result, whose name is not tested.
            Naming::One => attr == 1 || (1..=names).contains(&name),
            Naming::OneOrNone => name <= names,
            Naming::None => name == 0,
            Naming::Any => true,
        };
        if allowed {
            return None;
        }
        Some(Fault::Name { kind, name, names })
    }
}

// The words.

/// A kind behind its article.
struct A(Kind);

impl fmt::Display for A {
    fn fmt(&self, f: &mut fmt::Formatter) -> fmt::Result {
        use Kind::*;
        let article = match self.0 {
            ExprStmt | Other | Opaque | Ident | Assign | Arrow | Object | Arguments => "an",
            _ => "a",
        };
        write!(f, "{} {:?}", article, self.0)
    }
}

/// A row of that kind with its place: under its parent, or row 0.
struct Standing(Kind, Option<Parent>);

impl fmt::Display for Standing {
    fn fmt(&self, f: &mut fmt::Formatter) -> fmt::Result {
        match self.1 {
            None => write!(f, "the first row, {},", A(self.0)),
            Some(parent) => write!(f, "{} under the {:?} in row {}", A(self.0), parent.kind, parent.row),
        }
    }
}

/// What a row of that kind and attr holds. The attr is told where it matters.
struct Holds(Kind, u32);

impl fmt::Display for Holds {
    fn fmt(&self, f: &mut fmt::Formatter) -> fmt::Result {
        use Kind::*;
        let Holds(kind, attr) = *self;
        write!(f, "{}", A(kind))?;
        if matches!(kind, Arrow | Class | Method | Field | Property) {
            write!(f, " with attr {}", attr)?;
        }
        write!(f, " holds {}", held_by(kind, attr).2)
    }
}

impl fmt::Display for Fault {
    fn fmt(&self, f: &mut fmt::Formatter) -> fmt::Result {
        match *self {
            Fault::Kind { kind } => write!(f, "there is no kind {}: the kinds are 0 to 6 and 8 to 28", kind),
            Fault::Attr { kind, attr, parent } => say_attr(f, kind, attr, parent),
            Fault::End { kind, end, least, most, parent } => {
                write!(f, "{} ends at ", Standing(kind, parent))?;
                say_ends(f, least, most, parent)?;
                write!(f, "; its end is {}", end)
            }
            Fault::Place { kind, misfit } => say_place(f, kind, misfit),
            Fault::Name { kind, name, names } => {
                write!(f, "{} has ", A(kind))?;
                say_names(f, naming_of(kind), names)?;
                write!(f, "; it has {}", name)
            }
        }
    }
}

fn say_attr(f: &mut fmt::Formatter, kind: Kind, attr: u32, parent: Option<Parent>) -> fmt::Result {
    let standing = Standing(kind, parent);
    match broken_by(kind, attr, parent) {
        Some(Broken::Statement) => {
            write!(f, "{} is a statement, with bit 3 (8) in its attr; it has attr {}", standing, attr)
        }
        Some(Broken::NoStatement) => {
            write!(f, "{} is no statement, and has no bit 3 (8) in its attr; it has attr {}", standing, attr)
        }
        Some(Broken::Constructor) => write!(
            f,
            "{} has bit 2 (4) in its attr alone, and only as the last child of a Method that is not static; it has \
             attr {}",
            A(kind),
            attr
        ),
        Some(Broken::Kind) | None => write!(f, "{} has attr {}; it has {}", A(kind), attrs_of(kind).1, attr),
    }
}

fn say_ends(f: &mut fmt::Formatter, least: u32, most: u32, parent: Option<Parent>) -> fmt::Result {
    match parent {
        None => write!(f, "the number of rows, which is {}", most),
        Some(_) if least == most => write!(f, "{}, past its row and not past its parent's end", least),
        Some(_) => write!(f, "{} to {}, past its row and not past its parent's end", least, most),
    }
}

fn say_place(f: &mut fmt::Formatter, kind: Kind, misfit: Misfit) -> fmt::Result {
    match misfit {
        Misfit::First => write!(f, "the first row is a Program; this is {}", A(kind)),
        Misfit::Under { parent } => {
            match kind {
                Kind::Super => {
                    f.write_str("a Super stands only as the first child of a Member, Computed or Call; this is")?
                }
                _ => write!(f, "{}; this is {},", Holds(parent.kind, parent.attr), A(kind))?,
            }
            write!(f, " child {} of the {:?} in row {}", parent.child, parent.kind, parent.row)
        }
        Misfit::Children { attr, children, faulty } => {
            write!(f, "{}; it has ", Holds(kind, attr))?;
            match children {
                0 => f.write_str("no children")?,
                1 => f.write_str("1 child")?,
                _ => write!(f, "{} children", children)?,
            }
            match faulty {
                Some(child) => write!(f, ", as row {}, whose end is at fault, counts as the last", child),
                None => Ok(()),
            }
        }
    }
}

fn say_names(f: &mut fmt::Formatter, naming: Naming, names: u32) -> fmt::Result {
    match (naming, names) {
        (Naming::None, _) => f.write_str("name 0"),
        (Naming::OneOrNone, 0) => f.write_str("name 0, as there are no names"),
        (Naming::OneOrNone, 1) => f.write_str("name 0, or 1, the number of the only name"),
        (Naming::OneOrNone, _) => write!(f, "name 0, or the number of a name, 1 to {}", names),
        (Naming::One, 0) => f.write_str("the number of a name, but there are no names"),
        (Naming::One, 1) => f.write_str("the number of the only name, 1"),
        (Naming::One, _) => write!(f, "the number of a name, 1 to {}", names),
        (Naming::Any, _) => f.write_str("any number as its name"),
    }
}
