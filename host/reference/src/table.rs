//! Reading a table: the sections "Rows" and "Turned away" of the request, refusals 1, 4, 21 to 25, 3, 5. Change request
//! No. 3 has 21 to 25 where 2 stood: one number for each thing that may be wrong with a row.

use crate::{refused, Limits, Refused, MOST_NAMES, MOST_TEXT};

#[derive(Clone, Copy)]
pub struct Row {
    pub kind: u32,
    pub attr: u32,
    pub name: u32,
    pub end: u32,
}

/// A table that the refusals 1, 4, 21 to 25, 3 and 5 let through.
pub struct Table<'a> {
    pub rows: Vec<Row>,
    /// Each row's parent; row 0 has itself.
    pub parent: Vec<u32>,
    pub names: Vec<&'a [u8]>,
}

impl Table<'_> {
    pub fn spelled(&self, number: u32, word: &[u8]) -> bool {
        number != 0 && self.names[number as usize - 1] == word
    }
}

/// Little-endian words.
pub fn words(bytes: &[u8]) -> impl Iterator<Item = u32> + '_ {
    bytes.chunks_exact(4).map(|b| u32::from_le_bytes([b[0], b[1], b[2], b[3]]))
}

/// Sizes of names and text: part of 1.
pub fn sizes_of_names(names: &[u8], text: &[u8]) -> bool {
    names.len() % 8 == 0 && names.len() / 8 <= MOST_NAMES && text.len() <= MOST_TEXT
}

/// The names by number, or the first bad one.
pub fn read_names<'a>(names: &[u8], text: &'a [u8]) -> Result<Vec<&'a [u8]>, Refused> {
    let mut list = Vec::with_capacity(names.len() / 8);
    for pair in names.chunks_exact(8) {
        let number = list.len() + 1;
        let mut pair = words(pair);
        let (start, length) = (pair.next().unwrap() as usize, pair.next().unwrap() as usize);
        if length == 0 || length > 255 || start + length > text.len() {
            return refused(4, number);
        }
        let bytes = &text[start..start + length];
        if std::str::from_utf8(bytes).is_err() {
            return refused(4, number);
        }
        list.push(bytes);
    }
    Ok(list)
}

fn read_rows(rows: &[u8]) -> Vec<Row> {
    let row = |b: &[u8]| {
        let mut w = words(b);
        let mut next = || w.next().unwrap();
        Row { kind: next(), attr: next(), name: next(), end: next() }
    };
    rows.chunks_exact(16).map(row).collect()
}

/// The table of what is lent, with the limits of the caller.
pub fn read<'a>(rows: &[u8], names: &[u8], text: &'a [u8], limits: Limits) -> Result<Table<'a>, Refused> {
    let count = rows.len() / 16;
    if rows.len() % 16 != 0 || count == 0 || count > limits.rows || !sizes_of_names(names, text) {
        return refused(1, 0);
    }
    let names = read_names(names, text)?;
    let rows = read_rows(rows);
    let (parent, too_deep) = match check_rows(&rows, names.len() as u32, limits.depth) {
        Ok(found) => found,
        Err(bad) => return refused(bad.faults[0], bad.row),
    };
    if let Some(row) = too_deep {
        return refused(3, row);
    }
    if let Some(row) = rows.iter().position(only_in_results) {
        return refused(5, row);
    }
    Ok(Table { rows, parent, names })
}

/// The rows that 5 names.
fn only_in_results(row: &Row) -> bool {
    row.kind == 27 || matches!(row.kind, 3 | 11 | 12) && row.attr == 1
}

/// What may stand at some place.
#[derive(Clone, Copy, PartialEq, Eq)]
enum Place {
    Root,
    Statement,
    Expression,
    /// An expression, or Super.
    Object,
    /// Below Other.
    AnyPart,
    /// Below Opaque.
    ExpressionPart,
    Declarator,
    Params,
    Body,
    ClassMember,
    /// The Function of a Method; whether that one is static.
    MethodFunction(bool),
    /// The Function of a Property with bit 1.
    PropertyFunction,
    ObjectPart,
    Target,
    TargetChild,
}

/// A bad row.
#[derive(Clone, Debug, PartialEq, Eq)]
pub struct BadRow {
    pub row: usize,
    /// The numbers of all tests of the row that fail, rising. The first is told.
    pub faults: Vec<u32>,
}

/// The first bad row of whole rows over so many names.
pub fn bad_row(rows: &[u8], names: usize) -> Option<BadRow> {
    check_rows(&read_rows(rows), names as u32, u32::MAX).err()
}

/// 21 to 25: goes along the rows, gives each child its place, and stops at the first bad row. Answers the parents, and
/// the first row that is deeper than `deepest`.
fn check_rows(rows: &[Row], names: u32, deepest: u32) -> Result<(Vec<u32>, Option<usize>), BadRow> {
    let count = rows.len();
    let mut place = vec![Place::Root; count];
    let mut parent = vec![0u32; count];
    let mut depth = vec![0u32; count];
    let mut too_deep = None;
    for i in 0..count {
        let row = &rows[i];
        let mut below = 0;
        for child in children(rows, i) {
            parent[child] = i as u32;
            depth[child] = depth[i] + 1;
            if depth[child] > deepest && too_deep.map_or(true, |row| child < row) {
                too_deep = Some(child);
            }
            // A child too many has no place; its parent is told.
            place[child] = place_below(row, below).unwrap_or(Place::Root);
            below += 1;
        }
        let ends = if i == 0 { Ends::At(count as u32) } else { Ends::Within(i as u32, rows[parent[i] as usize].end) };
        let tests = tests(row, place[i], ends, below, names);
        if tests.iter().any(|(_, good)| !good) {
            let faults = tests.iter().filter(|(_, good)| !good).map(|(number, _)| *number).collect();
            return Err(BadRow { row: i, faults });
        }
    }
    Ok((parent, too_deep))
}

/// The children of row `i`, by hopping over their ends. One whose end is at fault counts as the last.
fn children(rows: &[Row], i: usize) -> impl Iterator<Item = usize> + '_ {
    let end = (rows[i].end as usize).min(rows.len());
    let mut next = i + 1;
    std::iter::from_fn(move || {
        let child = next;
        if child >= end {
            return None;
        }
        let after = rows[child].end as usize;
        next = if after > child { after } else { end };
        Some(child)
    })
}

/// The five tests of one row, each made by itself, with the number that is told where it fails. A row of unknown kind is
/// told as that, whatever the other tests say of it.
fn tests(row: &Row, place: Place, ends: Ends, children: usize, names: u32) -> [(u32, bool); 5] {
    [
        (21, known_kind(row)),
        (22, known_attr(row) && declares_right(row, place) && constructs_right(row, place)),
        (23, ends_right(row, ends)),
        (24, held(row, place) && right_number(row, children)),
        (25, known_name(row, names)),
    ]
}

fn bit(row: &Row, n: u32) -> bool {
    row.attr >> n & 1 == 1
}

/// What the child of that number, from 0, has to be; none if there is no such child.
fn place_below(row: &Row, child: usize) -> Option<Place> {
    use Place::*;
    // A key stands first where bit 0 is set.
    let after_key = |child: usize| if bit(row, 0) { child.checked_sub(1) } else { Some(child) };
    let only = |p: Place| if child == 0 { Some(p) } else { None };
    match row.kind {
        0 | 5 | 19 | 23 => Some(Statement),
        1 | 3 | 4 => only(Expression),
        2 | 18 => Some(Declarator),
        6 => Some(AnyPart),
        8 => Some(ExpressionPart),
        12 => only(Object),
        13 => match child {
            0 => Some(Object),
            1 => Some(Expression),
            _ => None,
        },
        14 => Some(if child == 0 { Object } else { Expression }),
        15 => match child {
            0 => Some(Target),
            1 => Some(Expression),
            _ => None,
        },
        16 => match child {
            0 => Some(Params),
            1 => Some(if bit(row, 1) { Expression } else { Body }),
            _ => None,
        },
        17 => match child {
            0 => Some(Params),
            1 => Some(Body),
            _ => None,
        },
        20 => Some(if child == 0 && bit(row, 0) { Expression } else { ClassMember }),
        21 => match after_key(child) {
            None => Some(Expression),
            Some(0) => Some(MethodFunction(bit(row, 1))),
            Some(_) => None,
        },
        22 => match after_key(child) {
            None => Some(Expression),
            Some(0) if bit(row, 2) => Some(Expression),
            Some(_) => None,
        },
        24 => Some(ObjectPart),
        25 => match after_key(child) {
            None => Some(Expression),
            Some(0) => Some(if bit(row, 1) { PropertyFunction } else { Expression }),
            Some(_) => None,
        },
        26 => Some(Expression),
        28 => only(TargetChild),
        _ => None,
    }
}

/// 21: there is no kind 7, and none above 28.
fn known_kind(row: &Row) -> bool {
    row.kind <= 28 && row.kind != 7
}

/// 22, as far as the kind says it: "Other attr bits are 0."
fn known_attr(row: &Row) -> bool {
    let most = match row.kind {
        2 => 2,
        3 | 5 | 11 | 12 | 27 => 1,
        6 | 8 => u32::MAX,
        15 | 17 => 15,
        16 | 21 | 25 => 3,
        20 => return row.attr & !0b1001 == 0,
        22 => 7,
        _ => 0,
    };
    row.attr <= most
}

/// 22: a Function or Class has bit 3 in a statement's place and nowhere else; below Other, which holds statements and
/// expressions, it may have it or not. This is asked of one that its parent can't hold, too.
fn declares_right(row: &Row, place: Place) -> bool {
    match place {
        _ if !matches!(row.kind, 17 | 20) => true,
        Place::Statement => bit(row, 3),
        Place::AnyPart => true,
        _ => !bit(row, 3),
    }
}

/// 22: "Bit 2 of Function stands alone, on the last child of a non-static Method."
fn constructs_right(row: &Row, place: Place) -> bool {
    row.kind != 17 || !bit(row, 2) || row.attr == 4 && place == Place::MethodFunction(false)
}

/// Where a row may end.
#[derive(Clone, Copy)]
enum Ends {
    /// Row 0: at the number of rows.
    At(u32),
    /// Past the first of these and no further than the second.
    Within(u32, u32),
}

/// 23
fn ends_right(row: &Row, ends: Ends) -> bool {
    match ends {
        Ends::At(count) => row.end == count,
        Ends::Within(past, last) => row.end > past && row.end <= last,
    }
}

/// Kinds of statements; of a Function or Class 22 looks at bit 3.
fn is_statement(kind: u32) -> bool {
    matches!(kind, 1 | 2 | 4 | 5 | 6 | 17 | 20)
}

/// Kinds of expressions, Super left out.
fn is_expression(kind: u32) -> bool {
    matches!(kind, 8 | 9 | 11..=17 | 20 | 24 | 26 | 27)
}

/// 24: whether the place holds a row of that kind.
fn held(row: &Row, place: Place) -> bool {
    use Place::*;
    let kind = row.kind;
    match place {
        Root => kind == 0,
        Statement => is_statement(kind),
        Expression => is_expression(kind),
        Object => is_expression(kind) || kind == 10,
        AnyPart => is_statement(kind) || is_expression(kind) || kind == 28,
        ExpressionPart => is_expression(kind) || kind == 28,
        Declarator => kind == 3,
        Params => kind == 18,
        Body => kind == 19,
        ClassMember => matches!(kind, 21 | 22 | 23),
        MethodFunction(_) | PropertyFunction => kind == 17,
        ObjectPart => kind == 25 || is_expression(kind),
        Target => kind == 28,
        TargetChild => matches!(kind, 8 | 11 | 12 | 13),
    }
}

/// 24: whether a row has neither too few nor too many children.
fn right_number(row: &Row, children: usize) -> bool {
    let key = usize::from(bit(row, 0));
    let value = usize::from(bit(row, 2));
    let (least, most) = match row.kind {
        1 | 12 | 28 => (1, 1),
        3 | 4 => (0, 1),
        9 | 10 | 11 | 27 => (0, 0),
        13 | 15 | 16 | 17 => (2, 2),
        14 => (1, usize::MAX),
        20 => (key, usize::MAX),
        21 | 25 => (key + 1, key + 1),
        22 => (key + value, key + value),
        26 => (2, usize::MAX),
        _ => (0, usize::MAX),
    };
    least <= children && children <= most
}

/// 25. The names of rows that 5 names are not tested.
fn known_name(row: &Row, names: u32) -> bool {
    match row.kind {
        6 | 8 => true,
        _ if only_in_results(row) => true,
        3 | 11 | 12 => row.name != 0 && row.name <= names,
        17 | 20 => row.name <= names,
        _ => row.name == 0,
    }
}

#[cfg(test)]
mod tests {
    use super::{bad_row, read, BadRow};
    use crate::Limits;

    fn bytes(rows: &[[u32; 4]]) -> Vec<u8> {
        rows.iter().flatten().flat_map(|w| w.to_le_bytes()).collect()
    }

    /// Number and place over one name, as the print room; 0 and 0 for a table that is let through.
    fn told(rows: &[[u32; 4]]) -> (u32, u32) {
        let read = read(&bytes(rows), &[0, 0, 0, 0, 1, 0, 0, 0], b"x", Limits::of(false));
        let told = read.err().map_or((0, 0), |refused| (refused.number, refused.place));
        // What is told of a bad row is the lowest of its faults.
        let bad = bad_row(&bytes(rows), 1).map(|bad| (bad.faults[0], bad.row as u32));
        assert_eq!(bad, Some(told).filter(|(number, _)| matches!(number, 21..=25)));
        told
    }

    /// A subtree with its size in the place of its end.
    type Tree = Vec<[u32; 4]>;

    fn tree(kind: u32, attr: u32, children: &[Tree]) -> Tree {
        let inside = children.concat();
        let name = u32::from(matches!((kind, attr), (3 | 11 | 12, 0)));
        [vec![[kind, attr, name, inside.len() as u32 + 1]], inside].concat()
    }

    fn leaf(kind: u32) -> Tree {
        tree(kind, 0, &[])
    }

    /// The table of a tree.
    fn laid(tree: &[[u32; 4]]) -> Vec<[u32; 4]> {
        tree.iter().enumerate().map(|(i, &[kind, attr, name, size])| [kind, attr, name, i as u32 + size]).collect()
    }

    /// A tree of that kind and attr with as few children as it may have, each the smallest for its place.
    fn smallest(kind: u32, attr: u32) -> Tree {
        let this = || leaf(9);
        let key = if attr & 1 == 1 { vec![this()] } else { vec![] };
        let function = || tree(17, 0, &[leaf(18), leaf(19)]);
        let below = match kind {
            1 | 12 | 14 => vec![this()],
            13 | 26 => vec![this(), this()],
            15 => vec![tree(28, 0, &[leaf(11)]), this()],
            16 => vec![leaf(18), if attr & 2 == 2 { this() } else { leaf(19) }],
            17 => vec![leaf(18), leaf(19)],
            20 => key,
            21 => [key, vec![function()]].concat(),
            22 if attr & 4 == 4 => [key, vec![this()]].concat(),
            22 => key,
            25 if attr & 2 == 2 => [key, vec![function()]].concat(),
            25 => [key, vec![this()]].concat(),
            28 => vec![leaf(11)],
            _ => vec![],
        };
        tree(kind, attr, &below)
    }

    fn program(below: Tree) -> Tree {
        tree(0, 0, &[below])
    }

    fn statement(below: Tree) -> Tree {
        program(tree(1, 0, &[below]))
    }

    fn class(member: Tree) -> Tree {
        program(tree(20, 8, &[member]))
    }

    fn object(part: Tree) -> Tree {
        statement(tree(24, 0, &[part]))
    }

    /// Each place that a row can have: what it is, the number that the row has there, and a tree with the row in it.
    const PLACES: [(&str, u32, fn(Tree) -> Tree); 24] = [
        ("root", 0, |row| row),
        ("statement", 1, program),
        ("in a block", 2, |row| program(tree(5, 1, &[row]))),
        ("in a static block", 3, |row| class(tree(23, 0, &[row]))),
        ("in a body", 4, |row| program(tree(17, 8, &[leaf(18), tree(19, 0, &[row])]))),
        ("below Other", 2, |row| program(tree(6, 0, &[row]))),
        ("expression", 2, statement),
        ("below Opaque", 3, |row| statement(tree(8, 0, &[row]))),
        ("object", 3, |row| statement(tree(13, 0, &[row, leaf(9)]))),
        ("key", 3, |row| class(tree(22, 1, &[row]))),
        ("method's key", 3, |row| class(tree(21, 1, &[row, smallest(17, 0)]))),
        ("heritage", 2, |row| program(tree(20, 9, &[row]))),
        ("declarator", 2, |row| program(tree(2, 0, &[row]))),
        ("params", 3, |row| statement(tree(16, 0, &[row, leaf(19)]))),
        ("body", 4, |row| statement(tree(16, 0, &[leaf(18), row]))),
        ("member", 2, class),
        ("method", 3, |row| class(tree(21, 0, &[row]))),
        ("keyed method", 4, |row| class(tree(21, 1, &[leaf(9), row]))),
        ("static method", 3, |row| class(tree(21, 2, &[row]))),
        ("part of an object", 3, object),
        ("property", 4, |row| object(tree(25, 0, &[row]))),
        ("property method", 4, |row| object(tree(25, 2, &[row]))),
        ("target", 3, |row| statement(tree(15, 0, &[row, leaf(9)]))),
        ("in a target", 3, |row| program(tree(6, 0, &[tree(28, 0, &[row])]))),
    ];

    fn places() -> impl Iterator<Item = &'static str> {
        PLACES.iter().map(|(what, ..)| *what)
    }

    /// The number that is told of a row in a place, or 0 where it is good, 5 being told only behind that.
    fn told_in(place: &str, row: Tree) -> u32 {
        let (_, at, around) = PLACES.iter().find(|(what, ..)| *what == place).unwrap();
        match told(&laid(&around(row))) {
            (0 | 5, _) => 0,
            (number, row) if row == *at => number,
            told => panic!("{}: {:?}, not of row {}", place, told, at),
        }
    }

    #[test]
    fn the_examples_of_the_format() {
        assert_eq!(told(&[[0, 0, 0, 1]]), (0, 0));
        assert_eq!(told(&[[0, 0, 0, 2]]), (23, 0));
        assert_eq!(told(&[[0, 0, 0, 2], [4, 0, 0, 1]]), (23, 1));
        assert_eq!(told(&[[0, 0, 0, 2], [1, 0, 0, 2]]), (24, 1));
        assert_eq!(told(&[[0, 0, 0, 3], [1, 0, 0, 3], [10, 0, 0, 3]]), (24, 2));
        assert_eq!(told(&[[0, 0, 0, 3], [1, 0, 0, 3], [11, 1, 9, 3]]), (5, 2));
    }

    #[test]
    fn kinds() {
        for kind in [7, 29, 30, 31, 64, 1 << 16, u32::MAX] {
            for place in places() {
                assert_eq!(told_in(place, leaf(kind)), 21, "{} {}", kind, place);
                // No other word of it is told.
                assert_eq!(told_in(place, vec![[kind, 3, 9, 1]]), 21);
            }
        }
        // Every other kind is good in some place and in no place 21.
        for kind in (0..=28).filter(|kind| *kind != 7) {
            let numbers: Vec<u32> = places().map(|place| told_in(place, smallest(kind, 0))).collect();
            assert!(numbers.contains(&0) && !numbers.contains(&21), "{} {:?}", kind, numbers);
        }
    }

    #[test]
    fn attrs_by_kind() {
        let attrs = (0..=33).chain((5..32).map(|bit| 1 << bit)).chain([u32::MAX]);
        for attr in attrs {
            for (kind, place, good) in [
                (0, "root", attr == 0),
                (1, "statement", attr == 0),
                (2, "statement", attr <= 2),
                (3, "declarator", attr <= 1),
                (4, "statement", attr == 0),
                (5, "statement", attr <= 1),
                (6, "statement", true),
                (8, "expression", true),
                (9, "expression", attr == 0),
                (10, "object", attr == 0),
                (11, "expression", attr <= 1),
                (12, "expression", attr <= 1),
                (13, "expression", attr == 0),
                (14, "expression", attr == 0),
                (15, "expression", attr <= 15),
                (16, "expression", attr <= 3),
                (17, "expression", attr <= 3),
                (17, "statement", (8..=11).contains(&attr)),
                (17, "below Other", attr <= 3 || (8..=11).contains(&attr)),
                (17, "method", attr <= 4),
                (17, "static method", attr <= 3),
                (17, "property method", attr <= 3),
                (18, "params", attr == 0),
                (19, "body", attr == 0),
                (20, "expression", attr <= 1),
                (20, "statement", attr == 8 || attr == 9),
                (20, "below Other", matches!(attr, 0 | 1 | 8 | 9)),
                (21, "member", attr <= 3),
                (22, "member", attr <= 7),
                (23, "member", attr == 0),
                (24, "expression", attr == 0),
                (25, "part of an object", attr <= 3),
                (26, "expression", attr == 0),
                (27, "expression", attr <= 1),
                (28, "below Other", attr == 0),
            ] {
                let wanted = if good { 0 } else { 22 };
                assert_eq!(told_in(place, smallest(kind, attr)), wanted, "{} {} {}", kind, attr, place);
            }
        }
    }

    #[test]
    fn bit_3_of_a_function_or_class_by_its_place() {
        for place in places() {
            let a_statement = matches!(place, "statement" | "in a block" | "in a static block" | "in a body");
            for kind in [17, 20] {
                let good = match place {
                    "expression" | "below Opaque" | "object" | "key" | "method's key" | "heritage" => true,
                    "property" | "part of an object" => true,
                    "method" | "keyed method" | "static method" | "property method" => kind == 17,
                    _ => a_statement || place == "below Other",
                };
                // One that its parent can't hold is told as that, but by its bit first.
                let if_held = if good { 0 } else { 24 };
                let clear = if a_statement { 22 } else { if_held };
                let set = if a_statement || place == "below Other" { if_held } else { 22 };
                assert_eq!(told_in(place, smallest(kind, 0)), clear, "{} {}", kind, place);
                assert_eq!(told_in(place, smallest(kind, 8)), set, "{} {}", kind, place);
            }
        }
    }

    #[test]
    fn bit_2_of_a_function_by_its_place() {
        for place in places() {
            // Alone on the last child of a Method that is not static; also where its parent can't hold it.
            let good = matches!(place, "method" | "keyed method");
            assert_eq!(told_in(place, smallest(17, 4)), if good { 0 } else { 22 }, "{}", place);
            for attr in [5, 6, 7, 12, 13, 14, 15] {
                assert_eq!(told_in(place, smallest(17, attr)), 22, "{} {}", attr, place);
            }
        }
    }

    #[test]
    fn ends() {
        // Row 0 ends at the number of rows.
        for end in [0, 1, 2, 4, u32::MAX] {
            assert_eq!(told(&[[0, 0, 0, end], [4, 0, 0, 2], [4, 0, 0, 3]]), (23, 0));
        }
        // Any other past itself, and no later than its parent.
        let rows = |end: u32| [[0, 0, 0, 5], [1, 0, 0, 4], [8, 0, 0, end], [9, 0, 0, 4], [4, 0, 0, 5]];
        for end in [0, 1, 2, 5, 6, u32::MAX] {
            assert_eq!(told(&rows(end)), (23, 2));
        }
        assert_eq!(told(&rows(4)), (0, 0));
        // One that is past itself and too early leaves its parent a child more.
        assert_eq!(told(&rows(3)), (24, 1));
        // Past all rows.
        assert_eq!(told(&[[0, 0, 0, 2], [4, 0, 0, 3]]), (23, 1));
    }

    #[test]
    fn a_child_whose_end_is_at_fault_counts_as_the_last() {
        for bad in [0, 1, 3, 6, u32::MAX] {
            // A Computed then has one child, which is too few; a Call has enough, and the child is told.
            let rows = |kind: u32| [[0, 0, 0, 5], [1, 0, 0, 5], [kind, 0, 0, 5], [9, 0, 0, bad], [9, 0, 0, 5]];
            assert_eq!(told(&rows(13)), (24, 2));
            assert_eq!(told(&rows(14)), (23, 3));
            // It counts: a Return may have it, a This may not.
            let rows = |kind: u32| [[0, 0, 0, 5], [6, 0, 0, 5], [kind, 0, 0, 5], [9, 0, 0, bad], [9, 0, 0, 5]];
            assert_eq!(told(&rows(4)), (23, 3));
            assert_eq!(told(&rows(9)), (24, 2));
            // Its own lower fault is told, and any fault of the parent before it.
            let rows = |parent: [u32; 3], kind: u32, attr: u32| {
                let [of, at, name] = parent;
                [[0, 0, 0, 5], [6, 0, 0, 5], [of, at, name, 5], [kind, attr, 0, bad], [9, 0, 0, 5]]
            };
            assert_eq!(told(&rows([4, 0, 0], 29, 0)), (21, 3));
            assert_eq!(told(&rows([4, 0, 0], 9, 1)), (22, 3));
            assert_eq!(told(&rows([4, 0, 0], 18, 0)), (23, 3));
            assert_eq!(told(&rows([4, 0, 1], 29, 0)), (25, 2));
            assert_eq!(told(&rows([13, 0, 0], 29, 0)), (24, 2));
        }
    }

    #[test]
    fn numbers_of_children() {
        // Kind, attr and place, the fewest children, and the most where there is such a number.
        for (kind, attr, place, least, most) in [
            (1, 0, "statement", 1, Some(1)),
            (3, 0, "declarator", 0, Some(1)),
            (4, 0, "statement", 0, Some(1)),
            (8, 0, "expression", 0, None),
            (9, 0, "expression", 0, Some(0)),
            (10, 0, "object", 0, Some(0)),
            (11, 0, "expression", 0, Some(0)),
            (12, 0, "expression", 1, Some(1)),
            (13, 0, "expression", 2, Some(2)),
            (14, 0, "expression", 1, None),
            (15, 0, "expression", 2, Some(2)),
            (16, 0, "expression", 2, Some(2)),
            (16, 2, "expression", 2, Some(2)),
            (17, 0, "expression", 2, Some(2)),
            (20, 0, "expression", 0, None),
            (20, 1, "expression", 1, None),
            (21, 0, "member", 1, Some(1)),
            (21, 1, "member", 2, Some(2)),
            (22, 0, "member", 0, Some(0)),
            (22, 1, "member", 1, Some(1)),
            (22, 4, "member", 1, Some(1)),
            (22, 5, "member", 2, Some(2)),
            (24, 0, "expression", 0, None),
            (25, 0, "part of an object", 1, Some(1)),
            (25, 1, "part of an object", 2, Some(2)),
            (26, 0, "expression", 2, None),
            (27, 0, "expression", 0, Some(0)),
            (28, 0, "below Other", 1, Some(1)),
        ] {
            for count in 0..4 {
                let (_, at, around) = PLACES.iter().find(|(what, ..)| *what == place).unwrap();
                let told = told(&laid(&around(tree(kind, attr, &vec![leaf(9); count]))));
                let good = count >= least && most.map_or(true, |most| count <= most);
                // Where the number is right, a child may be told that its parent can't hold there.
                assert_eq!(told == (24, *at), !good, "{} {} {}: {:?}", kind, attr, count, told);
            }
        }
    }

    #[test]
    fn names() {
        for name in [0, 1, 2, u32::MAX] {
            for kind in (0..=28).filter(|kind| *kind != 7) {
                let place = places().find(|place| told_in(place, smallest(kind, 0)) == 0).unwrap();
                let mut row = smallest(kind, 0);
                row[0][2] = name;
                let good = match kind {
                    3 | 11 | 12 => name == 1,
                    17 | 20 => name <= 1,
                    6 | 8 | 27 => true,
                    _ => name == 0,
                };
                assert_eq!(told_in(place, row), if good { 0 } else { 25 }, "{} {}", kind, name);
            }
            // Not tested on rows of a result.
            for (kind, place) in [(3, "declarator"), (11, "expression"), (12, "expression"), (27, "expression")] {
                let mut row = smallest(kind, 1);
                row[0][2] = name;
                assert_eq!(told_in(place, row), 0);
            }
        }
    }

    #[test]
    fn super_out_of_place_is_24() {
        for place in places() {
            assert_eq!(told_in(place, leaf(10)), if place == "object" { 0 } else { 24 }, "{}", place);
        }
    }

    /// A row of number `at` that has the faults of these classes, bit 0 being 21, and otherwise is good: a Program as row
    /// 0 of one row, else a Return below a Program, without children.
    fn with_faults(classes: u32, at: u32) -> [u32; 4] {
        let fault = |class: u32| classes >> (class - 21) & 1 == 1;
        let good = if at == 0 { 0 } else { 4 };
        let misplaced = if at == 0 { 4 } else { 18 };
        let kind = if fault(24) { misplaced } else { good };
        let kind = if fault(21) { 29 } else { kind };
        [kind, u32::from(fault(22)), u32::from(fault(25)), if fault(23) { at } else { at + 1 }]
    }

    #[test]
    fn several_faults_of_one_row() {
        // All choices of classes, the ten pairs among them: on row 0, and on another row.
        for classes in 1..32u32 {
            let lowest = 21 + classes.trailing_zeros();
            assert_eq!(told(&[with_faults(classes, 0)]), (lowest, 0), "{:05b}", classes);
            let rows = [[0, 0, 0, 3], with_faults(classes, 1), [4, 0, 0, 3]];
            assert_eq!(told(&rows), (lowest, 1), "{:05b}", classes);
            // All are found, and of an unknown kind also that nothing holds it.
            for (row, rows) in [(0, vec![with_faults(classes, 0)]), (1, rows.to_vec())] {
                let found = if classes & 1 == 1 { classes | 8 } else { classes };
                let faults = (21..=25).filter(|number| found >> (number - 21) & 1 == 1).collect();
                assert_eq!(bad_row(&bytes(&rows), 1), Some(BadRow { row, faults }));
            }
        }
        assert_eq!(bad_row(&bytes(&[with_faults(0, 0)]), 1), None);
    }

    #[test]
    fn the_ten_pairs() {
        for (row, number) in [
            ([29, 1, 0, 2], 21),
            ([29, 0, 0, 1], 21),
            ([29, 0, 0, 2], 21),
            ([29, 0, 1, 2], 21),
            ([4, 1, 0, 1], 22),
            ([9, 1, 0, 2], 22),
            // With too few children.
            ([1, 1, 0, 2], 22),
            ([4, 1, 1, 2], 22),
            ([9, 0, 0, 1], 23),
            ([1, 0, 0, 3], 23),
            ([4, 0, 1, 1], 23),
            ([9, 0, 1, 2], 24),
            ([1, 0, 1, 2], 24),
        ] {
            assert_eq!(told(&[[0, 0, 0, 2], row]), (number, 1), "{:?}", row);
        }
        // With too many children: attr and end before it, the name behind.
        let rows =
            |attr: u32, name: u32, end: u32| [[0, 0, 0, 4], [1, attr, name, end], [9, 0, 0, 3], [9, 0, 0, 4]].to_vec();
        assert_eq!(told(&rows(0, 0, 4)), (24, 1));
        assert_eq!(told(&rows(0, 1, 4)), (24, 1));
        assert_eq!(told(&rows(1, 1, 4)), (22, 1));
        assert_eq!(told(&rows(1, 1, 5)), (22, 1));
        assert_eq!(told(&rows(0, 1, 5)), (23, 1));
    }

    #[test]
    fn each_class_on_row_0() {
        for kind in [7, 29, u32::MAX] {
            assert_eq!(told(&[[kind, 0, 0, 1]]), (21, 0));
        }
        assert_eq!(told(&[[0, 1, 0, 1]]), (22, 0));
        assert_eq!(told(&[[0, 0, 0, 0]]), (23, 0));
        assert_eq!(told(&[[0, 0, 1, 1]]), (25, 0));
        for kind in (1..=28).filter(|kind| *kind != 7) {
            assert_eq!(told(&laid(&smallest(kind, 0))), (24, 0), "{}", kind);
        }
        // A Function or Class is none either, and where its bits are not those of an expression it is told by them.
        assert_eq!(told(&laid(&smallest(17, 8))), (22, 0));
        assert_eq!(told(&laid(&smallest(17, 4))), (22, 0));
        assert_eq!(told(&laid(&smallest(20, 8))), (22, 0));
        // With a wrong number of children, which is 24 too.
        assert_eq!(told(&[[1, 0, 0, 1]]), (24, 0));
    }

    #[test]
    fn each_class_behind_another_bad_row() {
        for first in 0..5 {
            for second in 0..5 {
                // Behind a sibling that does not end its parent's count.
                let rows = [[0, 0, 0, 3], with_faults(1 << first, 1), with_faults(1 << second, 2)];
                assert_eq!(told(&rows), (21 + first, 1));
                // And below row 0.
                let mut rows = [with_faults(1 << first, 0), with_faults(1 << second, 1)];
                rows[0][3] += 1;
                assert_eq!(told(&rows), (21 + first, 0));
            }
            // Behind rows that are good.
            let rows = [[0, 0, 0, 4], [5, 0, 0, 3], [4, 0, 0, 3], with_faults(1 << first, 3)];
            assert_eq!(told(&rows), (21 + first, 3));
        }
    }
}
