//! Calls the Thawcopper converter, a proved library, from Rust.
//!
//! A script goes in as a [`Table`] of rows, its tree in preorder. [`convert`] answers the rows of the converted script
//! and the list of the bindings that were made, or a [`Refusal`] that says what is wrong with the table and where.
//!
//! ```
//! use thawcopper::{convert, Kind, Node, Switches, Table};
//!
//! // () => this
//! let script = Node::program([Node::statement(Node::arrow([], Node::this()))]);
//! let table = Table::from_tree(&script);
//!
//! let converted = convert(&Switches::ARROWS, &table).unwrap();
//!
//! // var _this = this; (function () { return _this; })
//! let kinds: Vec<_> = converted.rows.iter().map(|row| row.kind().unwrap()).collect();
//! use Kind::*;
//! assert_eq!(kinds, [Program, Var, Declarator, This, ExprStmt, Function, Params, Body, Return, Ident]);
//!
//! // The last row is an Ident of binding 1, which is called `_this`.
//! let names = converted.names(&table).unwrap();
//! assert_eq!(names.spelling(&table, &converted.rows[9]), Some("_this"));
//! ```
//!
//! The package has no dependencies. It links `libthawcopper.a`, which `tools/build.sh archive` writes; the build script
//! looks for it in `../target/staticlib`, or in the directory that `THAWCOPPER_LIB_DIR` names. The archive is for x86-64.
//!
//! [`convert_with`] takes [`Options`], which beside the [`Switches`] say whether it is the print room that calls, as
//! [`convert`] does, or a contractors' tablet, which takes smaller tables.
//!
//! [`Converted::names`] gives each binding a name that no other has, and [`Names::spelling`] the spelling of a row by it.
//!
//! A call takes up to 896 KiB of stack, which a thread of Rust's default size has; on a tablet 192 KiB are enough.
//! Making names takes under 1 MiB.

mod fault;
mod names;
mod node;
mod origins;
mod refusal;
mod rules;
mod table;

pub mod raw;

pub use fault::{Fault, Misfit, Parent};
pub use names::{make_names, make_names_into, NameCounts, Names, NamesIter};
pub use node::{Name, Node};
pub use refusal::Refusal;
pub use table::{Binding, Children, Kind, Row, Table, Use};

/// What is to be converted.
///
/// With `arrow` on, plain arrow functions become functions. Else, with one of the others on, only what async code needs
/// is done: `this`, `super` and `arguments` are made safe for code that will be moved into a generator. With all of them
/// off the table is checked and copied.
#[derive(Clone, Copy, Debug, Default, PartialEq, Eq, Hash)]
pub struct Switches {
    /// Arrow functions become functions.
    pub arrow: bool,
    /// Async functions and async arrows will be moved.
    pub async_to_generator: bool,
    /// Async generators will be moved.
    pub async_generator_functions: bool,
}

impl Switches {
    /// Arrow functions become functions, nothing else.
    pub const ARROWS: Switches = Switches { arrow: true, async_to_generator: false, async_generator_functions: false };
    /// Arrow functions stay; all async code will be moved.
    pub const ASYNC: Switches = Switches { arrow: false, async_to_generator: true, async_generator_functions: true };
    /// Nothing is converted.
    pub const OFF: Switches = Switches { arrow: false, async_to_generator: false, async_generator_functions: false };
}

/// What is to be converted, and for whom.
///
/// The print room takes tables of up to 16,384 rows, nested down to depth 128; a contractors' tablet takes 512 rows and
/// depth 32. What is beyond the caller's own numbers is refused, by [`Refusal::Sizes`] and [`Refusal::TooDeep`]; all
/// else is the same for both. So what a tablet accepts, the print room converts to the same rows and bindings. The
/// limits are on the table that is lent: a result may have more rows.
///
/// Options are the print room's until they are told to be a tablet's:
///
/// ```
/// use thawcopper::{convert_with, Node, Options, Refusal, Switches, Table};
///
/// let print_room = Options::new(Switches::ARROWS);
/// let tablet = print_room.tablet(true);
///
/// // 256 times `this;`, which are 513 rows
/// let table = Table::from_tree(&Node::program((0..256).map(|_| Node::statement(Node::this()))));
/// assert_eq!(convert_with(&print_room, &table).unwrap().rows.len(), 513);
/// assert_eq!(convert_with(&tablet, &table), Err(Refusal::Sizes));
/// ```
///
/// They are made by functions, and changed by functions or by their fields. Later versions may have more fields, so a
/// literal with those of today does not compile outside of this package:
///
/// ```compile_fail,E0639
/// use thawcopper::{Options, Switches};
///
/// let tablet = Options { switches: Switches::ARROWS, tablet: true };
/// ```
///
/// ```
/// use thawcopper::{Options, Switches};
///
/// let tablet = Options::new(Switches::ARROWS).tablet(true);
/// let mut same = Options::from(Switches::ARROWS);
/// same.tablet = true;
/// assert_eq!(tablet, same);
/// ```
#[derive(Clone, Copy, Debug, Default, PartialEq, Eq, Hash)]
#[non_exhaustive]
pub struct Options {
    /// What is to be converted.
    pub switches: Switches,
    /// Whether a tablet calls; else it is the print room.
    pub tablet: bool,
}

impl Options {
    /// The print room's, with these switches.
    pub const fn new(switches: Switches) -> Options {
        Options { switches, tablet: false }
    }

    /// The same options, for a tablet or for the print room.
    pub const fn tablet(self, tablet: bool) -> Options {
        Options { tablet, ..self }
    }

    /// The options as the word that the C entry takes: see [`raw::convert_with`].
    ///
    /// ```
    /// use thawcopper::{raw, Options, Switches};
    ///
    /// assert_eq!(Options::default().bits(), 0);
    /// assert_eq!(Options::new(Switches::ARROWS).tablet(true).bits(), raw::ARROW | raw::TABLET);
    /// ```
    pub fn bits(&self) -> u32 {
        let Switches { arrow, async_to_generator, async_generator_functions } = self.switches;
        u32::from(arrow) * raw::ARROW
            | u32::from(async_to_generator) * raw::ASYNC_TO_GENERATOR
            | u32::from(async_generator_functions) * raw::ASYNC_GENERATORS
            | u32::from(self.tablet) * raw::TABLET
    }
}

impl From<Switches> for Options {
    fn from(switches: Switches) -> Options {
        Options::new(switches)
    }
}

/// A converted script.
///
/// It is read from row 0 on, by [`children`](Converted::children) or as a whole [`tree`](Converted::tree). What a host
/// knows of a script beside its rows, such as literals and positions, it finds again by
/// [`origins`](Converted::origins):
///
/// ```
/// use thawcopper::{convert, Converted, Node, Switches, Table};
///
/// // f(() => this.a)
/// let arrow = Node::arrow([], Node::member(Node::this(), "a"));
/// let script = Node::program([Node::statement(Node::call(Node::ident("f"), [arrow]))]);
/// let table = Table::from_tree(&script);
/// let converted = convert(&Switches::ARROWS, &table).unwrap();
///
/// fn print(converted: &Converted, origins: &[Option<usize>], row: usize, depth: usize, out: &mut String) {
///     let from = origins[row].map_or("added".to_string(), |origin| format!("from row {}", origin));
///     let kind = converted.rows[row].kind().unwrap();
///     *out += &format!("{:indent$}{:?}, {}\n", "", kind, from, indent = 2 * depth);
///     for child in converted.children(row) {
///         print(converted, origins, child, depth + 1, out);
///     }
/// }
///
/// let mut out = String::new();
/// print(&converted, &converted.origins(&table), 0, 0, &mut out);
/// assert_eq!(out, "\
/// Program, from row 0
///   Var, added
///     Declarator, added
///       This, added
///   ExprStmt, from row 1
///     Call, from row 2
///       Ident, from row 3
///       Function, from row 4
///         Params, from row 5
///         Body, added
///           Return, added
///             Member, from row 6
///               Ident, from row 7
/// ");
/// ```
#[derive(Clone, Debug, PartialEq, Eq)]
pub struct Converted {
    /// The rows of the result. A name number with attr 0 is one of the table's names; with attr 1, on a Declarator or an
    /// Ident, it is the number of a binding.
    pub rows: Vec<Row>,
    /// The bindings that were made; binding number 1 stands first.
    pub bindings: Vec<Binding>,
}

impl Converted {
    /// The children of a row of the result: their numbers, from first to last. See [`Row::children`].
    pub fn children(&self, row: usize) -> Children<'_> {
        Row::children(&self.rows, row)
    }

    /// The result as a tree, with the names of the table that was converted; see [`Node::from_rows`].
    ///
    /// ```
    /// use thawcopper::{convert, Kind, Node, Switches, Table};
    ///
    /// // () => this
    /// let table = Table::from_tree(&Node::program([Node::statement(Node::arrow([], Node::this()))]));
    /// let tree = convert(&Switches::ARROWS, &table).unwrap().tree(&table);
    ///
    /// // var _this = this; (function () { return _this; }), where _this is binding 1
    /// let declarator = Node::new(Kind::Declarator).attr(1).name_number(1).child(Node::this());
    /// let ident = Node::new(Kind::Ident).attr(1).name_number(1);
    /// let function = Node::function([], [Node::return_(ident)]);
    /// assert_eq!(tree, Node::program([Node::var([declarator]), Node::statement(function)]));
    /// ```
    ///
    /// # Panics
    ///
    /// If the rows were changed and are no tree any more.
    pub fn tree(&self, table: &Table) -> Node {
        Node::from_rows(&self.rows, table).expect("the rows of a result are a tree")
    }

    /// For each row of the result the row that it comes from in the table that was converted; none where it was added.
    ///
    /// A row that stays as it is comes from itself, and a row that is rewritten from the row in whose place it stands:
    ///
    /// | in the table | in the result | comes from |
    /// |---|---|---|
    /// | `this` | a captured Ident | the This |
    /// | `arguments` | a captured Ident | the Ident |
    /// | an Arrow | a Function | the Arrow; its Params from the Arrow's, and its Body from the Arrow's if that has one |
    /// | `super.p`, `super[k]` | the Call `get()`, `get(k)` | the Member or Computed; the Ident `get` from the Super |
    /// | `super.p = v`, `super[k] = v` | the Call `set(v)`, `set(k, v)` | the Assign; the Ident `set` from the Member or Computed |
    /// | `super.m(a)`, `super[k](a)` | the Call `get().call(this, a)`, `get(k).call(this, a)` | the Call; what is below it as above |
    ///
    /// What stands below them, such as `k`, `v` and `a`, comes from where it stood. Added are
    ///
    /// - the Var that goes first in a frame, with all that is in it, the accessors too;
    /// - the Body and the Return around the expression of an Arrow that becomes a Function;
    /// - the Member with the property `call`, and the This or captured Ident that is the first argument there;
    /// - `captured = this` after a called Super, with all that is in it: as a statement, with the ExprStmt, or in a
    ///   Sequence, which is added too, while the Call in it is not.
    ///
    /// So no two rows come from one, and the rows that they come from grow from each to the next. Of a rewritten
    /// assignment no row comes from the Target and from the Super; every other row of the table has one that comes from
    /// it. `docs/FORMAT.md` tells the same to other hosts ("Which row was which").
    ///
    /// ```
    /// use thawcopper::{convert, Node, Switches, Table};
    ///
    /// // class C { async m() { super.f(); } }
    /// // rows: Program, Class, Method, Function, Params, Body, ExprStmt, Call, Member, Super
    /// let call = Node::call(Node::member(Node::super_(), "f"), []);
    /// let method = Node::method(Node::function([], [Node::statement(call)]).async_());
    /// let table = Table::from_tree(&Node::program([Node::class(None, [method]).name("C").declaration()]));
    ///
    /// // class C { async m() { var _get = () => super.f, _this = this; _get().call(_this); } }
    /// let origins = convert(&Switches::ASYNC, &table).unwrap().origins(&table);
    /// assert_eq!(origins[..6], [Some(0), Some(1), Some(2), Some(3), Some(4), Some(5)]);
    /// // the Var: two Declarators, one with Arrow, Params, Member, Super, one with This
    /// assert_eq!(origins[6..14], [None; 8]);
    /// // ExprStmt, Call, Member `call`, Call of the accessor, its Ident, the Ident of `this`
    /// assert_eq!(origins[14..], [Some(6), Some(7), None, Some(8), Some(9), None]);
    /// ```
    ///
    /// # Panics
    ///
    /// If the rows show that it was another table that was converted.
    pub fn origins(&self, table: &Table) -> Vec<Option<usize>> {
        origins::origins(&self.rows, &self.bindings, table)
    }

    /// The names of the bindings, over those of the table that was converted: see [`make_names`].
    ///
    /// ```
    /// use thawcopper::{convert, Node, Switches, Table};
    ///
    /// // class C { async m() { super[k] = _value; } }
    /// let access = Node::computed(Node::super_(), Node::ident("k"));
    /// let statement = Node::statement(Node::assign(access, Node::ident("_value")));
    /// let class = Node::class(None, [Node::method(Node::function([], [statement]).async_())]).declaration();
    /// let table = Table::from_tree(&Node::program([class]));
    ///
    /// // var _superprop_set = (_prop, _value2) => super[_prop] = _value2; _superprop_set(k, _value);
    /// let names = convert(&Switches::ASYNC, &table).unwrap().names(&table).unwrap();
    /// assert_eq!(names.iter().collect::<Vec<_>>(), ["_superprop_set", "_prop", "_value2"]);
    /// ```
    pub fn names(&self, table: &Table) -> Result<Names, Refusal> {
        make_names(&self.bindings, table)
    }

    /// What binding `number`, from 1, is called before it is made unique, as [`names`](Converted::names) does: see
    /// [`base_text`].
    pub fn base_text(&self, table: &Table, number: u32) -> Result<String, Refusal> {
        base_text(&self.bindings, table, number)
    }
}

/// How many rows and bindings were written.
#[derive(Clone, Copy, Debug, PartialEq, Eq)]
pub struct Counts {
    /// Rows, 16 bytes each, at the front of the bytes lent for rows.
    pub rows: usize,
    /// Bindings, 12 bytes each, at the front of the bytes lent for bindings.
    pub bindings: usize,
}

/// Converts a table as the print room, with as much room as the result needs. Never answers [`Refusal::NoRoom`].
///
/// ```
/// use thawcopper::{convert, Node, Refusal, Switches, Table};
///
/// // super.name, outside of any method: row 3 is the super.
/// let script = Node::program([Node::statement(Node::member(Node::super_(), "name"))]);
/// let refusal = convert(&Switches::ASYNC, &Table::from_tree(&script)).unwrap_err();
/// assert_eq!(refusal, Refusal::Super { row: 3 });
/// assert_eq!(refusal.to_string(), "row 3: `super` may not stand here");
/// ```
pub fn convert(switches: &Switches, table: &Table) -> Result<Converted, Refusal> {
    convert_with(&Options::new(*switches), table)
}

/// Converts a table with these options, with as much room as the result needs. Never answers [`Refusal::NoRoom`].
///
/// ```
/// use thawcopper::{convert, convert_with, Node, Options, Refusal, Switches, Table};
///
/// // `this` in arrows: the statement has depth 1, the outermost arrow 2 and `this` one more than the innermost.
/// let script = |arrows: usize| {
///     let nested = (0..arrows).fold(Node::this(), |inner, _| Node::arrow([], inner));
///     Table::from_tree(&Node::program([Node::statement(nested)]))
/// };
/// let tablet = Options::new(Switches::ARROWS).tablet(true);
///
/// // What a tablet accepts is the same in the print room.
/// let converted = convert_with(&tablet, &script(30)).unwrap();
/// assert_eq!(converted, convert(&Switches::ARROWS, &script(30)).unwrap());
///
/// // An arrow and its Params are two rows, so the row of depth 33 is the Params of the last arrow.
/// let refusal = convert_with(&tablet, &script(31)).unwrap_err();
/// assert_eq!(refusal, Refusal::TooDeep { row: 63 });
/// assert_eq!(refusal.to_string(), "row 63: nested deeper than 128, or than 32 on a tablet");
/// assert!(convert(&Switches::ARROWS, &script(31)).is_ok());
/// ```
pub fn convert_with(options: &Options, table: &Table) -> Result<Converted, Refusal> {
    let given = table.row_bytes().len() / 16;
    // With 8 rows for each row of the table and 11 for each binding the library need not count first; most scripts have
    // fewer bindings than a quarter of their rows. No more than 19 rows are made for one, so this ends.
    let mut room_rows = (11 * given + 16) * 16;
    let mut room_bindings = (given / 4 + 16) * 12;
    loop {
        let mut rows = vec![0; room_rows];
        let mut bindings = vec![0; room_bindings];
        match convert_into_with(options, table, &mut rows, &mut bindings) {
            Err(Refusal::NoRoom) => {
                room_rows *= 2;
                room_bindings *= 2;
            }
            Err(refusal) => return Err(refusal),
            Ok(counts) => {
                return Ok(Converted {
                    rows: Row::list(&rows[..counts.rows * 16]),
                    bindings: Binding::list(&bindings[..counts.bindings * 12]),
                })
            }
        }
    }
}

/// Converts a table as the print room into lent bytes, and allocates nothing.
///
/// Rows have 16 bytes, four little-endian words; bindings have 12. A refusal leaves all bytes as they were, and an
/// acceptance those behind the counted rows and bindings. [`Row::list`] and [`Binding::list`] read them.
///
/// ```
/// use thawcopper::{convert_into, Counts, Node, Refusal, Row, Switches, Table};
///
/// let table = Table::from_tree(&Node::program([Node::statement(Node::arrow([], Node::this()))]));
/// let (mut rows, mut bindings) = ([0; 16 * 10], [0; 12]);
/// let counts = convert_into(&Switches::ARROWS, &table, &mut rows, &mut bindings).unwrap();
/// assert_eq!(counts, Counts { rows: 10, bindings: 1 });
/// assert_eq!(Row::list(&rows)[9], Row { kind: 11, attr: 1, name: 1, end: 10 });
///
/// let short = convert_into(&Switches::ARROWS, &table, &mut rows[1..], &mut bindings);
/// assert_eq!(short, Err(Refusal::NoRoom));
/// ```
pub fn convert_into(
    switches: &Switches,
    table: &Table,
    out_rows: &mut [u8],
    out_bindings: &mut [u8],
) -> Result<Counts, Refusal> {
    let (rows, names, text) = (table.row_bytes(), table.name_bytes(), table.text_bytes());
    counted(raw::convert(switches, rows, names, text, out_rows, out_bindings), table)
}

/// Converts a table with these options into lent bytes, and allocates nothing: [`convert_into`] says what is written.
///
/// ```
/// use thawcopper::{convert_into, convert_into_with, Counts, Node, Options, Switches, Table};
///
/// let table = Table::from_tree(&Node::program([Node::statement(Node::arrow([], Node::this()))]));
/// let tablet = Options::new(Switches::ARROWS).tablet(true);
/// let (mut rows, mut bindings) = ([0; 16 * 10], [0; 12]);
/// let counts = convert_into_with(&tablet, &table, &mut rows, &mut bindings).unwrap();
/// assert_eq!(counts, Counts { rows: 10, bindings: 1 });
///
/// let (mut same_rows, mut same_bindings) = ([0; 16 * 10], [0; 12]);
/// assert_eq!(convert_into(&Switches::ARROWS, &table, &mut same_rows, &mut same_bindings), Ok(counts));
/// assert_eq!((rows, bindings), (same_rows, same_bindings));
/// ```
pub fn convert_into_with(
    options: &Options,
    table: &Table,
    out_rows: &mut [u8],
    out_bindings: &mut [u8],
) -> Result<Counts, Refusal> {
    let (rows, names, text) = (table.row_bytes(), table.name_bytes(), table.text_bytes());
    counted(raw::convert_with(options.bits(), rows, names, text, out_rows, out_bindings), table)
}

fn counted(answer: raw::Answer, table: &Table) -> Result<Counts, Refusal> {
    match Refusal::from_numbers(answer.refusal, answer.place, table) {
        Some(refusal) => Err(refusal),
        None => Ok(Counts { rows: answer.rows as usize, bindings: answer.bindings as usize }),
    }
}

/// What binding `number`, from 1, is called before it is made unique, as [`make_names`] does: `this`, `arguments`, `prop`,
/// `value`, or `superprop_get` or `superprop_set` and the property with its first letter upper-cased.
///
/// ```
/// use thawcopper::{base_text, Binding, Refusal, Table, Use};
///
/// let mut table = Table::default();
/// let name = table.add_name("größe");
/// let bindings = [Binding { purpose: Use::Get, property: name, frame: 0 }];
/// assert_eq!(base_text(&bindings, &table, 1).unwrap(), "superprop_getGröße");
/// assert_eq!(base_text(&bindings, &table, 2), Err(Refusal::BadBinding { binding: 2 }));
/// ```
pub fn base_text(bindings: &[Binding], table: &Table, number: u32) -> Result<String, Refusal> {
    let bindings = Binding::bytes(bindings);
    // The longest base, and a name of 255 bytes whose first letter may grow by a byte.
    let mut out = [0; 13 + 255 + 4];
    let answer = raw::base_text(number, &bindings, table.name_bytes(), table.text_bytes(), &mut out);
    match Refusal::from_numbers(answer.refusal, answer.place, table) {
        Some(refusal) => Err(refusal),
        None => {
            let spelled = out[..answer.bytes as usize].to_vec();
            Ok(String::from_utf8(spelled).expect("base text is UTF-8"))
        }
    }
}

#[cfg(test)]
mod tests;
