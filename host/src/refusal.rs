//! Refusals, in words.

use std::error::Error;
use std::fmt;

use crate::{Fault, Table};

/// Why a table was turned away, or a base text or the names of bindings were not given. Rows are counted from 0, names and bindings from 1.
#[derive(Clone, Copy, Debug, PartialEq, Eq, Hash)]
#[non_exhaustive]
pub enum Refusal {
    /// 1: a piece is not whole, the rows are none or over 16,384 (on a tablet over 512), the names over 4,096, the text
    /// over 65,535 bytes.
    Sizes,
    /// 3: the row is deeper than 128, or on a tablet than 32; row 0 has depth 0.
    TooDeep { row: u32 },
    /// 4: the name is not inside the text, has no or over 255 bytes, or is not UTF-8.
    BadName { name: u32 },
    /// 5: the row is of a sort that only results have.
    MadeRow { row: u32 },
    /// 6: no method around this `super`, or no constructor around a called one.
    Super { row: u32 },
    /// 7: the value of this class field has a `super`, or an arrow while only async code is converted.
    Field { row: u32 },
    /// 8: a binding is called `arguments` while only async code is converted.
    ArgumentsBinding { row: u32 },
    /// 9: what was lent is too short for the result.
    NoRoom,
    /// 10: the property of the binding starts with a letter that base text cannot upper-case.
    UnknownLetter { binding: u32 },
    /// 11: there is no binding of that number, or its record cannot be one.
    BadBinding { binding: u32 },
    /// 21 to 25: the row has another kind, attr, end, place, number of children or name than it may have. The fault says
    /// which, and what was expected.
    BadRow { row: u32, fault: Fault },
    /// A number that this package does not know, or a bad row in which it does not find what the number says, because the
    /// table is another one.
    Unknown { number: u32, place: u32 },
}

impl Refusal {
    /// The refusal of that number and place, which the library returned for that table; none for 0.
    ///
    /// What is wrong with a bad row, the library tells by its number alone; all else is read from the table. Nothing is
    /// allocated.
    ///
    /// ```
    /// use thawcopper::{Fault, Kind, Misfit, Node, Refusal, Table};
    ///
    /// // A Return of two expressions, which is row 1.
    /// let table = Table::from_tree(&Node::program([Node::return_(Node::this()).child(Node::ident("a"))]));
    /// let refusal = Refusal::from_numbers(24, 1, &table).unwrap();
    /// let misfit = Misfit::Children { attr: 0, children: 2, faulty: None };
    /// assert_eq!(refusal, Refusal::BadRow { row: 1, fault: Fault::Place { kind: Kind::Return, misfit } });
    /// assert_eq!(refusal.to_string(), "row 1: a Return holds one expression or none; it has 2 children");
    /// assert_eq!(refusal.numbers(), (24, 1));
    ///
    /// // 2 is not given any more.
    /// assert_eq!(Refusal::from_numbers(2, 1, &table), Some(Refusal::Unknown { number: 2, place: 1 }));
    /// ```
    pub fn from_numbers(number: u32, place: u32, table: &Table) -> Option<Refusal> {
        Some(match number {
            0 => return None,
            1 => Refusal::Sizes,
            3 => Refusal::TooDeep { row: place },
            4 => Refusal::BadName { name: place },
            5 => Refusal::MadeRow { row: place },
            6 => Refusal::Super { row: place },
            7 => Refusal::Field { row: place },
            8 => Refusal::ArgumentsBinding { row: place },
            9 => Refusal::NoRoom,
            10 => Refusal::UnknownLetter { binding: place },
            11 => Refusal::BadBinding { binding: place },
            21..=25 => match Fault::find(number, place, table) {
                Some(fault) => Refusal::BadRow { row: place, fault },
                None => Refusal::Unknown { number, place },
            },
            _ => Refusal::Unknown { number, place },
        })
    }

    /// The number and the place that the library returned.
    pub fn numbers(self) -> (u32, u32) {
        match self {
            Refusal::Sizes => (1, 0),
            Refusal::TooDeep { row } => (3, row),
            Refusal::BadName { name } => (4, name),
            Refusal::MadeRow { row } => (5, row),
            Refusal::Super { row } => (6, row),
            Refusal::Field { row } => (7, row),
            Refusal::ArgumentsBinding { row } => (8, row),
            Refusal::NoRoom => (9, 0),
            Refusal::UnknownLetter { binding } => (10, binding),
            Refusal::BadBinding { binding } => (11, binding),
            Refusal::BadRow { row, fault } => (fault.number(), row),
            Refusal::Unknown { number, place } => (number, place),
        }
    }
}

impl fmt::Display for Refusal {
    fn fmt(&self, f: &mut fmt::Formatter) -> fmt::Result {
        match self {
            Refusal::Sizes => f.write_str(
                "the table has the wrong size: 1 to 16384 rows, or to 512 on a tablet, up to 4096 names and up to \
                 65535 bytes of text are converted",
            ),
            Refusal::TooDeep { row } => write!(f, "row {}: nested deeper than 128, or than 32 on a tablet", row),
            Refusal::BadName { name } => {
                write!(f, "name {}: outside of the text, empty, longer than 255 bytes, or not UTF-8", name)
            }
            Refusal::MadeRow { row } => write!(f, "row {}: this sort of row is only found in a converted table", row),
            Refusal::Super { row } => write!(f, "row {}: `super` may not stand here", row),
            Refusal::Field { row } => {
                write!(
                    f,
                    "row {}: the value of this class field holds a `super` or an arrow, which is not converted",
                    row
                )
            }
            Refusal::ArgumentsBinding { row } => {
                write!(f, "row {}: a variable, function or class is called `arguments`; give it another name", row)
            }
            Refusal::NoRoom => f.write_str("the memory lent is too short for the result"),
            Refusal::UnknownLetter { binding } => {
                write!(f, "binding {}: the property's first letter has no known upper case", binding)
            }
            Refusal::BadBinding { binding } => {
                write!(f, "binding {}: there is none, or its record is not one", binding)
            }
            Refusal::BadRow { row, fault } => write!(f, "row {}: {}", row, fault),
            Refusal::Unknown { number, place } => write!(f, "refusal {} at {}", number, place),
        }
    }
}

impl Error for Refusal {}
