//! Tables: rows, names and text.

use std::collections::HashMap;
use std::iter::FusedIterator;

use crate::node::Step;
use crate::{Name, Node};

/// The kinds of rows. `docs/FORMAT.md` says which children and which attr each has.
///
/// There may be more of them one day, so a `match` has an arm for the others. All that there are now are not enough:
///
/// ```compile_fail,E0004
/// use thawcopper::Kind::{self, *};
///
/// fn known(kind: Kind) -> bool {
///     match kind {
///         Program | ExprStmt | Var | Declarator | Return | Block | Other | Opaque | This | Super | Ident | Member => true,
///         Computed | Call | Assign | Arrow | Function | Params | Body | Class | Method | Field | StaticBlock => true,
///         Object | Property | Sequence | Arguments | Target => true,
///     }
/// }
/// ```
///
/// ```
/// use thawcopper::Kind::{self, *};
///
/// fn known(kind: Kind) -> bool {
///     match kind {
///         Program | ExprStmt | Var | Declarator | Return | Block | Other | Opaque | This | Super | Ident | Member => true,
///         Computed | Call | Assign | Arrow | Function | Params | Body | Class | Method | Field | StaticBlock => true,
///         Object | Property | Sequence | Arguments | Target => true,
///         _ => false,
///     }
/// }
/// assert!(Kind::ALL.iter().all(|kind| known(*kind)));
/// ```
#[derive(Clone, Copy, Debug, PartialEq, Eq, Hash)]
#[repr(u32)]
#[non_exhaustive]
pub enum Kind {
    Program = 0,
    ExprStmt = 1,
    Var = 2,
    Declarator = 3,
    Return = 4,
    Block = 5,
    Other = 6,
    Opaque = 8,
    This = 9,
    Super = 10,
    Ident = 11,
    Member = 12,
    Computed = 13,
    Call = 14,
    Assign = 15,
    Arrow = 16,
    Function = 17,
    Params = 18,
    Body = 19,
    Class = 20,
    Method = 21,
    Field = 22,
    StaticBlock = 23,
    Object = 24,
    Property = 25,
    Sequence = 26,
    Arguments = 27,
    Target = 28,
}

impl Kind {
    /// All kinds, by number.
    pub const ALL: &'static [Kind] = &[
        Kind::Program,
        Kind::ExprStmt,
        Kind::Var,
        Kind::Declarator,
        Kind::Return,
        Kind::Block,
        Kind::Other,
        Kind::Opaque,
        Kind::This,
        Kind::Super,
        Kind::Ident,
        Kind::Member,
        Kind::Computed,
        Kind::Call,
        Kind::Assign,
        Kind::Arrow,
        Kind::Function,
        Kind::Params,
        Kind::Body,
        Kind::Class,
        Kind::Method,
        Kind::Field,
        Kind::StaticBlock,
        Kind::Object,
        Kind::Property,
        Kind::Sequence,
        Kind::Arguments,
        Kind::Target,
    ];

    /// The kind of that number, if there is one.
    pub fn from_number(number: u32) -> Option<Kind> {
        Kind::ALL.iter().copied().find(|kind| *kind as u32 == number)
    }
}

/// Little-endian words.
pub(crate) fn words<const N: usize>(bytes: &[u8]) -> [u32; N] {
    let mut list = [0; N];
    for (word, b) in list.iter_mut().zip(bytes.chunks_exact(4)) {
        *word = u32::from_le_bytes([b[0], b[1], b[2], b[3]]);
    }
    list
}

/// A row, as it stands in memory: four words. Its numbers may be any, since a table may be wrong.
#[derive(Clone, Copy, Debug, PartialEq, Eq, Hash)]
pub struct Row {
    pub kind: u32,
    pub attr: u32,
    /// The number of a name, from 1, or 0 for none. In a result, the number of a binding where attr is 1 on a Declarator
    /// or an Ident.
    pub name: u32,
    /// One past the last row of the subtree.
    pub end: u32,
}

impl Row {
    /// The row's kind, if its number is one.
    pub fn kind(&self) -> Option<Kind> {
        Kind::from_number(self.kind)
    }

    /// The rows of some bytes, 16 each; bytes that are no whole row are left out.
    pub fn list(bytes: &[u8]) -> Vec<Row> {
        let row = |b| {
            let [kind, attr, name, end] = words(b);
            Row { kind, attr, name, end }
        };
        bytes.chunks_exact(16).map(row).collect()
    }

    /// The children of a row among its rows: their numbers, from first to last. A row that is not there has none.
    ///
    /// In rows that are wrong, a child whose end is not past it or is past its parent's counts as the last.
    ///
    /// ```
    /// use thawcopper::{Node, Row, Table};
    ///
    /// // a(b.c, this)
    /// let call = Node::call(Node::ident("a"), [Node::member(Node::ident("b"), "c"), Node::this()]);
    /// let rows = Table::from_tree(&Node::program([Node::statement(call)])).rows();
    /// let children: Vec<usize> = Row::children(&rows, 2).collect();
    /// assert_eq!(children, [3, 4, 6]);
    /// ```
    pub fn children(rows: &[Row], row: usize) -> Children<'_> {
        let end = rows.get(row).map_or(0, |row| rows.len().min(row.end as usize));
        Children { rows, next: row.saturating_add(1), end }
    }
}

/// The numbers of a row's children: see [`Row::children`].
#[derive(Clone, Debug)]
pub struct Children<'a> {
    rows: &'a [Row],
    next: usize,
    end: usize,
}

impl Iterator for Children<'_> {
    type Item = usize;

    fn next(&mut self) -> Option<usize> {
        if self.next >= self.end {
            return None;
        }
        let child = self.next;
        let end = self.rows[child].end as usize;
        self.next = if end > child { end } else { self.end };
        Some(child)
    }
}

impl FusedIterator for Children<'_> {}

/// What a binding was made for.
///
/// There may be more of them one day, so a `match` has an arm for the others. All that there are now are not enough:
///
/// ```compile_fail,E0004
/// use thawcopper::Use;
///
/// fn captures(purpose: Use) -> bool {
///     match purpose {
///         Use::This | Use::Arguments => true,
///         Use::Get | Use::Set | Use::Prop | Use::Value => false,
///     }
/// }
/// ```
///
/// ```
/// use thawcopper::Use;
///
/// fn captures(purpose: Use) -> bool {
///     match purpose {
///         Use::This | Use::Arguments => true,
///         Use::Get | Use::Set | Use::Prop | Use::Value => false,
///         _ => false,
///     }
/// }
/// assert!(captures(Use::This));
/// ```
#[derive(Clone, Copy, Debug, PartialEq, Eq, Hash)]
#[repr(u32)]
#[non_exhaustive]
pub enum Use {
    /// Captures `this`.
    This = 1,
    /// Captures `arguments`.
    Arguments = 2,
    /// An arrow that reads a property of `super`.
    Get = 3,
    /// An arrow that assigns to a property of `super`.
    Set = 4,
    /// An accessor's parameter for the property's key.
    Prop = 5,
    /// An accessor's parameter for the assigned value.
    Value = 6,
}

/// A made binding.
#[derive(Clone, Copy, Debug, PartialEq, Eq, Hash)]
pub struct Binding {
    pub purpose: Use,
    /// The name number of an accessor's property; 0 for a computed one and for other uses.
    pub property: u32,
    /// The row, in the table that was converted, of the Function, StaticBlock or Program that declares it.
    pub frame: u32,
}

impl Binding {
    /// The bindings of some bytes that the library wrote, 12 each.
    ///
    /// # Panics
    ///
    /// If a use is none of the six.
    pub fn list(bytes: &[u8]) -> Vec<Binding> {
        let binding = |b| {
            let [purpose, property, frame] = words(b);
            let purpose = match purpose {
                1 => Use::This,
                2 => Use::Arguments,
                3 => Use::Get,
                4 => Use::Set,
                5 => Use::Prop,
                6 => Use::Value,
                _ => panic!("a binding has no use {}", purpose),
            };
            Binding { purpose, property, frame }
        };
        bytes.chunks_exact(12).map(binding).collect()
    }

    /// The bytes of some bindings, as the library reads them.
    pub fn bytes(bindings: &[Binding]) -> Vec<u8> {
        bindings.iter().flat_map(|b| [b.purpose as u32, b.property, b.frame]).flat_map(u32::to_le_bytes).collect()
    }
}

/// A script: its rows, its names, and the text that the names are parts of, as the library reads them.
///
/// [`Table::from_tree`] lays one out; [`Table::from_bytes`] takes any bytes, which are checked by
/// [`convert`](crate::convert), not before. Tables are equal if their bytes are.
#[derive(Clone, Debug, Default)]
pub struct Table {
    rows: Vec<u8>,
    names: Vec<u8>,
    text: Vec<u8>,
    /// The numbers of the names up to `numbered`, by how they are spelled; of names spelled alike the first.
    numbers: HashMap<String, u32>,
    numbered: usize,
}

impl PartialEq for Table {
    fn eq(&self, other: &Table) -> bool {
        self.rows == other.rows && self.names == other.names && self.text == other.text
    }
}

impl Eq for Table {}

impl Table {
    /// A table of these bytes: rows of four little-endian words, names of two (start and length), and the text.
    pub fn from_bytes(rows: Vec<u8>, names: Vec<u8>, text: Vec<u8>) -> Table {
        Table { rows, names, text, numbers: HashMap::new(), numbered: 0 }
    }

    /// Lays the rows of a tree out in preorder. Names that are spelled alike get one number.
    ///
    /// ```
    /// use thawcopper::{Node, Row, Table};
    ///
    /// // a(b, a)
    /// let call = Node::call(Node::ident("a"), [Node::ident("b"), Node::ident("a")]);
    /// let table = Table::from_tree(&Node::program([Node::statement(call)]));
    /// assert_eq!(table.rows()[2], Row { kind: 14, attr: 0, name: 0, end: 6 });
    /// assert_eq!(table.rows()[5], Row { kind: 11, attr: 0, name: 1, end: 6 });
    /// assert_eq!(table.name(2), Some("b"));
    /// ```
    pub fn from_tree(tree: &Node) -> Table {
        let mut table = Table::default();
        let mut open = Vec::new();
        for step in tree.steps() {
            match step {
                Step::In(node) => {
                    open.push(table.rows.len());
                    let name = match node.get_name() {
                        Name::None => 0,
                        Name::Number(number) => *number,
                        Name::Spelled(spelled) => table.add_name(spelled),
                    };
                    for word in [node.get_kind() as u32, node.get_attr(), name, 0] {
                        table.rows.extend_from_slice(&word.to_le_bytes());
                    }
                }
                Step::Out => {
                    let at = open.pop().expect("a node is left after it was entered");
                    let end = (table.rows.len() / 16) as u32;
                    table.rows[at + 12..at + 16].copy_from_slice(&end.to_le_bytes());
                }
            }
        }
        table
    }

    /// The tree of the rows; none where they are not one: see [`Node::from_rows`].
    ///
    /// ```
    /// use thawcopper::{Node, Table};
    ///
    /// let script = Node::program([Node::statement(Node::call(Node::ident("a"), [Node::this()]))]);
    /// assert_eq!(Table::from_tree(&script).tree(), Some(script));
    /// ```
    pub fn tree(&self) -> Option<Node> {
        if self.rows.len() % 16 != 0 {
            return None;
        }
        Node::from_rows(&self.rows(), self)
    }

    /// The number of a name, which is added where it is new.
    pub fn add_name(&mut self, spelled: &str) -> u32 {
        self.number_names();
        if let Some(number) = self.numbers.get(spelled) {
            return *number;
        }
        for word in [self.text.len() as u32, spelled.len() as u32] {
            self.names.extend_from_slice(&word.to_le_bytes());
        }
        self.text.extend_from_slice(spelled.as_bytes());
        let number = (self.names.len() / 8) as u32;
        self.numbers.insert(spelled.to_string(), number);
        self.numbered = self.names.len() / 8;
        number
    }

    /// Brings `numbers` up to all names that are there.
    fn number_names(&mut self) {
        while self.numbered < self.names.len() / 8 {
            self.numbered += 1;
            let number = self.numbered as u32;
            if let Some(spelled) = self.name(number).map(str::to_string) {
                self.numbers.entry(spelled).or_insert(number);
            }
        }
    }

    /// The name of that number, from 1, if it is one.
    pub fn name(&self, number: u32) -> Option<&str> {
        let pair = self.names.chunks_exact(8).nth((number as usize).checked_sub(1)?)?;
        let [start, length] = words(pair);
        let bytes = self.text.get(start as usize..(start as usize).checked_add(length as usize)?)?;
        std::str::from_utf8(bytes).ok()
    }

    /// The rows.
    pub fn rows(&self) -> Vec<Row> {
        Row::list(&self.rows)
    }

    /// The row of that number, if there is one.
    pub fn row(&self, number: usize) -> Option<Row> {
        let [kind, attr, name, end] = words(self.rows.chunks_exact(16).nth(number)?);
        Some(Row { kind, attr, name, end })
    }

    /// The rows as the library reads them.
    pub fn row_bytes(&self) -> &[u8] {
        &self.rows
    }

    /// The names as the library reads them.
    pub fn name_bytes(&self) -> &[u8] {
        &self.names
    }

    /// The text that the names are parts of.
    pub fn text_bytes(&self) -> &[u8] {
        &self.text
    }
}
