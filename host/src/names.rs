//! Made names: what bindings are called, and how the rows of a result are spelled.

use std::fmt;
use std::iter::FusedIterator;

use crate::table::words;
use crate::{raw, Binding, Kind, Refusal, Row, Table};

/// The names of a result's bindings, by their numbers: no two are the same, and none is a name of the table.
///
/// [`Converted::names`](crate::Converted::names) and [`make_names`] make them.
///
/// ```
/// use thawcopper::{convert, Node, Switches, Table};
///
/// // function f() { return () => this; }  function _this() { return () => this; }
/// let returns = || [Node::return_(Node::arrow([], Node::this()))];
/// let function = |name: &str| Node::function([], returns()).name(name).declaration();
/// let table = Table::from_tree(&Node::program([function("f"), function("_this")]));
///
/// let converted = convert(&Switches::ARROWS, &table).unwrap();
/// let names = converted.names(&table).unwrap();
/// assert_eq!(names.iter().collect::<Vec<_>>(), ["_this2", "_this3"]);
/// assert_eq!(names.get(2), Some("_this3"));
/// ```
#[derive(Clone, Default, PartialEq, Eq)]
pub struct Names {
    /// Of each binding, where its name starts in the text and how many bytes it has, as the library wrote them.
    pairs: Vec<u8>,
    text: String,
}

impl Names {
    /// How many there are: as many as bindings.
    pub fn len(&self) -> usize {
        self.pairs.len() / 8
    }

    /// Whether there are none.
    pub fn is_empty(&self) -> bool {
        self.pairs.is_empty()
    }

    /// The name of that binding, from 1, if there is one.
    pub fn get(&self, binding: u32) -> Option<&str> {
        let pair = self.pairs.chunks_exact(8).nth((binding as usize).checked_sub(1)?)?;
        let [start, length] = words(pair);
        self.text.get(start as usize..start as usize + length as usize)
    }

    /// The names, that of binding 1 first.
    pub fn iter(&self) -> NamesIter<'_> {
        NamesIter { names: self, next: 1 }
    }

    /// How a row of the result is spelled that is an Ident or a Declarator: a name of the table that was converted
    /// where its attr is 0, a made name where it is 1. None for other rows, which have no made names, and for a number
    /// that is no name.
    ///
    /// ```
    /// use thawcopper::{convert, Node, Switches, Table};
    ///
    /// // f(() => this)
    /// let call = Node::call(Node::ident("f"), [Node::arrow([], Node::this())]);
    /// let table = Table::from_tree(&Node::program([Node::statement(call)]));
    /// let converted = convert(&Switches::ARROWS, &table).unwrap();
    /// let names = converted.names(&table).unwrap();
    ///
    /// // var _this = this; f(function () { return _this; });
    /// let spelled: Vec<_> = converted.rows.iter().filter_map(|row| names.spelling(&table, row)).collect();
    /// assert_eq!(spelled, ["_this", "f", "_this"]);
    /// ```
    pub fn spelling<'a>(&'a self, table: &'a Table, row: &Row) -> Option<&'a str> {
        if !matches!(row.kind(), Some(Kind::Ident | Kind::Declarator)) {
            return None;
        }
        let (names, text) = (table.name_bytes(), table.text_bytes());
        let made = self.text.as_bytes();
        let part = raw::spelling(row.attr, row.name, names, text, &self.pairs, made);
        if part.refusal != 0 {
            return None;
        }
        let of = if row.attr == 0 { text } else { made };
        let bytes = &of[part.start as usize..part.start as usize + part.bytes as usize];
        std::str::from_utf8(bytes).ok()
    }

    /// The pairs as the library wrote them and reads them, 8 bytes for each binding: see [`raw::spelling`].
    pub fn pair_bytes(&self) -> &[u8] {
        &self.pairs
    }

    /// The text that the names are parts of, without gaps.
    pub fn text(&self) -> &str {
        &self.text
    }
}

impl fmt::Debug for Names {
    fn fmt(&self, f: &mut fmt::Formatter) -> fmt::Result {
        f.debug_list().entries(self).finish()
    }
}

impl<'a> IntoIterator for &'a Names {
    type Item = &'a str;
    type IntoIter = NamesIter<'a>;

    fn into_iter(self) -> NamesIter<'a> {
        self.iter()
    }
}

/// The names of [`Names`], that of binding 1 first.
#[derive(Clone)]
pub struct NamesIter<'a> {
    names: &'a Names,
    next: u32,
}

impl<'a> Iterator for NamesIter<'a> {
    type Item = &'a str;

    fn next(&mut self) -> Option<&'a str> {
        let name = self.names.get(self.next)?;
        self.next += 1;
        Some(name)
    }

    fn size_hint(&self) -> (usize, Option<usize>) {
        let left = self.names.len() + 1 - self.next as usize;
        (left, Some(left))
    }
}

impl ExactSizeIterator for NamesIter<'_> {}
impl FusedIterator for NamesIter<'_> {}

/// How many names were made, and how many bytes they have.
#[derive(Clone, Copy, Debug, PartialEq, Eq)]
pub struct NameCounts {
    /// Pairs, 8 bytes each, at the front of the bytes lent for pairs.
    pub pairs: usize,
    /// Bytes at the front of the bytes lent for text.
    pub bytes: usize,
}

/// The bytes that the names of these bindings have at most.
pub(crate) fn room(bindings: &[Binding], table: &Table) -> usize {
    // An underscore, the longest base, the letters by which the first one of a property grows, and a number up to
    // 69,631, which is 4,096 names and 65,535 bindings together.
    let each = 1 + 13 + 4 + 5;
    let property = |binding: &Binding| {
        let pair = table.name_bytes().chunks_exact(8).nth((binding.property as usize).checked_sub(1)?)?;
        let [_, length] = words(pair);
        // A longer one is refused.
        Some(length.min(255) as usize)
    };
    bindings.iter().map(|binding| each + property(binding).unwrap_or(0)).sum()
}

/// Makes the names of these bindings, over the names of the table that was converted. Never answers
/// [`Refusal::NoRoom`].
///
/// A made name is an underscore and the [`base_text`](crate::base_text) of the binding. Where that is taken, by a name
/// of the table or by a binding before, the smallest number from 2 up that frees it stands behind it.
///
/// ```
/// use thawcopper::{make_names, Binding, Refusal, Table, Use};
///
/// let mut table = Table::default();
/// let (cyrillic, chinese) = (table.add_name("яма"), table.add_name("坑"));
/// let this = Binding { purpose: Use::This, property: 0, frame: 0 };
/// let get = |property| Binding { purpose: Use::Get, property, frame: 0 };
///
/// let names = make_names(&[this, this, get(cyrillic)], &table).unwrap();
/// assert_eq!(format!("{:?}", names), r#"["_this", "_this2", "_superprop_getЯма"]"#);
///
/// let refusal = make_names(&[this, this, get(chinese)], &table).unwrap_err();
/// assert_eq!(refusal, Refusal::UnknownLetter { binding: 3 });
/// assert_eq!(refusal.to_string(), "binding 3: the property's first letter has no known upper case");
/// ```
pub fn make_names(bindings: &[Binding], table: &Table) -> Result<Names, Refusal> {
    let records = Binding::bytes(bindings);
    let mut room = room(bindings, table);
    // That much is enough; a library whose names are longer is called again.
    loop {
        let (mut pairs, mut text) = (vec![0; 8 * bindings.len()], vec![0; room]);
        match make_names_into(&records, table, &mut pairs, &mut text) {
            Err(Refusal::NoRoom) => room = 2 * room + 64,
            Err(refusal) => return Err(refusal),
            Ok(counts) => {
                pairs.truncate(8 * counts.pairs);
                text.truncate(counts.bytes);
                return Ok(Names { pairs, text: String::from_utf8(text).expect("made names are UTF-8") });
            }
        }
    }
}

/// Makes the names of bindings into lent bytes, and allocates nothing.
///
/// The bindings are bytes as [`convert_into`](crate::convert_into) writes them, 12 each; the table is the one that was
/// converted. The names stand end to end at the front of `out_text`, and at the front of `out_pairs` is for each binding
/// its pair of little-endian words: where its name starts, and how many bytes it has. A refusal leaves all bytes as they
/// were, and an acceptance those behind. A name has up to 274 bytes, a few more in later versions. So the pairs are not
/// fit to be names of a table, which have up to 255. [`raw::spelling`] reads them.
///
/// ```
/// use thawcopper::{convert_into, make_names_into, NameCounts, Node, Refusal, Switches, Table};
///
/// let table = Table::from_tree(&Node::program([Node::statement(Node::arrow([], Node::this()))]));
/// let (mut rows, mut bindings) = ([0; 16 * 10], [0; 12]);
/// convert_into(&Switches::ARROWS, &table, &mut rows, &mut bindings).unwrap();
///
/// let (mut pairs, mut text) = ([0; 8], [0; 5]);
/// let counts = make_names_into(&bindings, &table, &mut pairs, &mut text).unwrap();
/// assert_eq!(counts, NameCounts { pairs: 1, bytes: 5 });
/// assert_eq!((pairs, &text), ([0, 0, 0, 0, 5, 0, 0, 0], b"_this"));
///
/// let short = make_names_into(&bindings, &table, &mut pairs, &mut text[1..]);
/// assert_eq!(short, Err(Refusal::NoRoom));
/// ```
pub fn make_names_into(
    bindings: &[u8],
    table: &Table,
    out_pairs: &mut [u8],
    out_text: &mut [u8],
) -> Result<NameCounts, Refusal> {
    let answer = raw::make_names(bindings, table.name_bytes(), table.text_bytes(), out_pairs, out_text);
    match Refusal::from_numbers(answer.refusal, answer.place, table) {
        Some(refusal) => Err(refusal),
        None => Ok(NameCounts { pairs: answer.pairs as usize, bytes: answer.bytes as usize }),
    }
}
