//! A second reading of the request in plain Rust on boxed trees, for comparison only.
//!
//! It was written from the request and from oxc_transformer's `arrow_function_converter.rs`, and shares no code and no
//! tables with the Rattle side. `table` reads rows and has the refusals 1, 4, 21 to 25, 3 and 5, with the limits of the
//! caller (change request No. 1: `Limits`) and a number for each sort of fault that a row may have (No. 3), `owners` has
//! 6, 7 and 8, both from the request. `converter` follows the Rust: one traversal with enter and exit, and the Rust's
//! stacks. So where the request says "from a This outward" in one sentence, this has what the Rust does, and the two
//! readings check each other. `tree` is the tree between, `build` makes it from rows and `lay` lays it out again. Each
//! node of the tree keeps the row that it was read from, so that `lay` can tell where each row of a result comes from.
//! `base_text` is module 2, and `made_names` the names of bindings and the spelling of an Ident (change request No. 2).
//!
//! ```text
//! rows, names, text -> table::read -> owners::check -> build -> converter -> lay -> rows
//! ```

mod after_super;
mod base_text;
mod build;
mod converter;
mod lay;
mod made_names;
mod owners;
mod table;
mod tree;

pub use base_text::base_text;
pub use converter::Mode;
pub use made_names::{made, make_names, spelling, Made};
pub use table::{bad_row, BadRow};

/// The three switches.
#[derive(Clone, Copy, Debug, PartialEq, Eq)]
pub struct Switches {
    pub arrow: bool,
    pub async_to_generator: bool,
    pub async_generator_functions: bool,
}

/// What a conversion is told beside its table.
#[derive(Clone, Copy, Debug, PartialEq, Eq)]
pub struct Options {
    pub switches: Switches,
    /// Whether a contractors' tablet calls; else the print room does.
    pub tablet: bool,
}

impl Options {
    /// The options as one word: 1 arrow, 2 async, 4 asyncgen, 8 tablet. No other bit is looked at.
    pub fn of_word(word: u32) -> Options {
        let on = |bit: u32| word & bit != 0;
        let switches = Switches { arrow: on(1), async_to_generator: on(2), async_generator_functions: on(4) };
        Options { switches, tablet: on(8) }
    }
}

/// The request's number of a refusal, and its place.
#[derive(Clone, Copy, Debug, PartialEq, Eq)]
pub struct Refused {
    pub number: u32,
    pub place: u32,
}

pub(crate) fn refused<T>(number: u32, place: usize) -> Result<T, Refused> {
    Err(Refused { number, place: place as u32 })
}

/// A result: its rows (kind, attr, name, end) and its bindings (use, property, frame).
#[derive(Clone, Debug, PartialEq, Eq)]
pub struct Result01 {
    pub rows: Vec<[u32; 4]>,
    pub bindings: Vec<[u32; 3]>,
}

/// The limits of the request that are one for both callers, which the comparison goes round.
pub const MOST_NAMES: usize = 4_096;
pub const MOST_TEXT: usize = 65_535;
pub const MOST_RECORDS: usize = 65_535;

/// The limits that each caller has of its own, of a table that is lent. A result may have more rows.
#[derive(Clone, Copy, Debug, PartialEq, Eq)]
pub struct Limits {
    pub rows: usize,
    /// Row 0 has depth 0.
    pub depth: u32,
}

impl Limits {
    /// "The contractors' tablet build takes at most 512 rows and depth 32; the print room keeps 16,384 and 128."
    pub const fn of(tablet: bool) -> Limits {
        if tablet {
            Limits { rows: 512, depth: 32 }
        } else {
            Limits { rows: 16_384, depth: 128 }
        }
    }
}

/// The conversion of a table, given how many bytes there are for the rows and for the bindings of the result.
pub fn convert(
    options: Options,
    rows: &[u8],
    names: &[u8],
    text: &[u8],
    room_rows: usize,
    room_bindings: usize,
) -> Result<Result01, Refused> {
    let result = match converted(options, rows, names, text)? {
        Converted::Copied(rows) => Result01 { rows, bindings: Vec::new() },
        Converted::Tree(program, bindings) => Result01 { rows: lay::rows(&program), bindings },
    };
    if result.rows.len() > room_rows / 16 || result.bindings.len() > room_bindings / 12 {
        return refused(9, 0);
    }
    Ok(result)
}

/// The conversion with all the room that it needs, and for each row of the result the row of the table that it comes
/// from; none where it is added.
pub fn convert_with_origins(
    options: Options,
    rows: &[u8],
    names: &[u8],
    text: &[u8],
) -> Result<(Result01, Vec<Option<u32>>), Refused> {
    match converted(options, rows, names, text)? {
        Converted::Copied(rows) => {
            let origins = (0..rows.len() as u32).map(Some).collect();
            Ok((Result01 { rows, bindings: Vec::new() }, origins))
        }
        Converted::Tree(program, bindings) => {
            let (rows, origins) = lay::rows_and_origins(&program);
            let origins = origins.into_iter().map(|row| Some(row).filter(|row| *row != tree::ADDED)).collect();
            Ok((Result01 { rows, bindings }, origins))
        }
    }
}

enum Converted {
    /// In Disabled: the rows as they are.
    Copied(Vec<[u32; 4]>),
    /// The tree of the result, and the bindings.
    Tree(tree::Program, Vec<[u32; 3]>),
}

fn converted(options: Options, rows: &[u8], names: &[u8], text: &[u8]) -> Result<Converted, Refused> {
    let Options { switches, tablet } = options;
    let table = table::read(rows, names, text, Limits::of(tablet))?;
    let mode = Mode::of(switches);
    if mode == Mode::Disabled {
        return Ok(Converted::Copied(table.rows.iter().map(|r| [r.kind, r.attr, r.name, r.end]).collect()));
    }
    owners::check(&table, mode)?;
    let mut program = build::program(&table.rows);
    let bindings = converter::Converter::new(switches, &table.names).convert(&mut program);
    Ok(Converted::Tree(program, bindings))
}

#[cfg(test)]
mod tests {
    use super::*;

    fn words(list: &[u32]) -> Vec<u8> {
        list.iter().flat_map(|w| w.to_le_bytes()).collect()
    }

    const ARROWS: Switches = Switches { arrow: true, async_to_generator: false, async_generator_functions: false };
    const ASYNC: Switches = Switches { arrow: false, async_to_generator: true, async_generator_functions: false };
    const OFF: Switches = Switches { arrow: false, async_to_generator: false, async_generator_functions: false };

    fn print_room(switches: Switches) -> Options {
        Options { switches, tablet: false }
    }

    fn tablet(switches: Switches) -> Options {
        Options { switches, tablet: true }
    }

    #[test]
    fn the_sheet() {
        let rows = words(&[0, 0, 0, 5, 1, 0, 0, 5, 16, 2, 0, 5, 18, 0, 0, 4, 9, 0, 0, 5]);
        let enabled = print_room(ARROWS);
        let result = convert(enabled, &rows, &[], &[], 160, 12).unwrap();
        let wanted = [
            [0, 0, 0, 10],
            [2, 0, 0, 4],
            [3, 1, 1, 4],
            [9, 0, 0, 4],
            [1, 0, 0, 10],
            [17, 0, 0, 10],
            [18, 0, 0, 7],
            [19, 0, 0, 10],
            [4, 0, 0, 10],
            [11, 1, 1, 10],
        ];
        assert_eq!(result.rows, wanted);
        assert_eq!(result.bindings, [[1, 0, 0]]);
        assert_eq!(convert(enabled, &rows, &[], &[], 159, 12), refused(9, 0));
        assert_eq!(convert(enabled, &rows, &[], &[], 160, 11), refused(9, 0));
        let (again, origins) = convert_with_origins(enabled, &rows, &[], &[]).unwrap();
        assert_eq!(again, result);
        let added = None;
        let wanted = [Some(0), added, added, added, Some(1), Some(2), Some(3), added, added, Some(4)];
        assert_eq!(origins, wanted);
    }

    #[test]
    fn origins_of_rewritten_rows() {
        // class { async x() { super.x; super[this] = this; super.x(this); } }
        let rows = [
            [0, 0, 0, 21],
            [20, 8, 0, 21],
            [21, 0, 0, 21],
            [17, 1, 0, 21],
            [18, 0, 0, 5],
            [19, 0, 0, 21],
            [1, 0, 0, 9],
            [12, 0, 1, 9],
            [10, 0, 0, 9],
            [1, 0, 0, 16],
            [15, 0, 0, 16],
            [28, 0, 0, 15],
            [13, 0, 0, 15],
            [10, 0, 0, 14],
            [9, 0, 0, 15],
            [9, 0, 0, 16],
            [1, 0, 0, 21],
            [14, 0, 0, 21],
            [12, 0, 1, 20],
            [10, 0, 0, 20],
            [9, 0, 0, 21],
        ];
        let rows = words(&rows.concat());
        let (result, origins) = convert_with_origins(print_room(ASYNC), &rows, &words(&[0, 1]), b"x").unwrap();
        // The Var has rows 6 to 24: itself, get (5), set (11), this (2). Left out are the Target and the Super of the
        // assignment, in rows 11 and 13.
        let (head, rest) = (&origins[..6], &origins[25..]);
        assert_eq!(head, (0..6).map(Some).collect::<Vec<_>>());
        assert!(origins[6..25].iter().all(|origin| origin.is_none()));
        let kinds: Vec<u32> = result.rows[25..].iter().map(|row| row[0]).collect();
        assert_eq!(kinds, [1, 14, 11, 1, 14, 11, 11, 11, 1, 14, 12, 14, 11, 11, 11]);
        let added = None;
        let get = [Some(6), Some(7), Some(8)];
        let set = [Some(9), Some(10), Some(12), Some(14), Some(15)];
        let call = [Some(16), Some(17), added, Some(18), Some(19), added, Some(20)];
        assert_eq!(rest, [&get[..], &set[..], &call[..]].concat());
    }

    #[test]
    fn a_tree_laid_out_again_is_the_table() {
        // class x extends Opaque { [x]() {} x = Opaque; static {} } and an assignment to super.x, a call, an object.
        let rows = [
            [0, 0, 0, 28],
            [20, 9, 1, 14],
            [8, 7, 9, 3],
            [21, 1, 0, 8],
            [11, 0, 1, 5],
            [17, 3, 0, 8],
            [18, 0, 0, 7],
            [19, 0, 0, 8],
            [22, 6, 0, 10],
            [8, 0, 0, 10],
            [23, 0, 0, 14],
            [5, 1, 0, 12],
            [4, 0, 0, 14],
            [9, 0, 0, 14],
            [1, 0, 0, 20],
            [15, 3, 0, 20],
            [28, 0, 0, 19],
            [12, 0, 1, 19],
            [10, 0, 0, 19],
            [9, 0, 0, 20],
            [6, 5, 4, 28],
            [2, 2, 0, 23],
            [3, 0, 1, 23],
            [24, 0, 0, 26],
            [25, 0, 0, 26],
            [9, 0, 0, 26],
            [28, 0, 0, 28],
            [11, 0, 1, 28],
        ];
        let bytes = words(&rows.concat());
        let table = table::read(&bytes, &words(&[0, 1]), b"x", Limits::of(false)).unwrap();
        let program = build::program(&table.rows);
        assert_eq!(lay::rows(&program), rows);
        // Unchanged, each row comes from itself.
        let (laid, origins) = lay::rows_and_origins(&program);
        assert_eq!(laid, rows);
        assert_eq!(origins, (0..28).collect::<Vec<u32>>());
    }

    /// What the caller answers, with room for all: how many rows the result has, or the refusal.
    fn told(options: Options, rows: &[[u32; 4]]) -> Result<usize, Refused> {
        let rows = words(&rows.concat());
        let whole = convert(options, &rows, &words(&[0, 1]), b"x", 1 << 20, 1 << 20);
        // The other way to ask has no room that could be short.
        let with_origins = convert_with_origins(options, &rows, &words(&[0, 1]), b"x");
        assert_eq!(with_origins.map(|(result, _)| result), whole);
        whole.map(|result| result.rows.len())
    }

    /// A Program with Returns, so many rows in all.
    fn wide(count: u32) -> Vec<[u32; 4]> {
        let returns = (1..count).map(|row| [4, 0, 0, row + 1]);
        std::iter::once([0, 0, 0, count]).chain(returns).collect()
    }

    /// Below a Program a Return, and an ExprStmt with Opaques in one another down to that depth; so the row of depth d,
    /// from 1, has number d + 1.
    fn deep(depth: u32) -> Vec<[u32; 4]> {
        let end = depth + 2;
        let opaques = (2..=depth).map(|_| [8, 0, 0, end]);
        [[0, 0, 0, end], [4, 0, 0, 2], [1, 0, 0, end]].into_iter().chain(opaques).collect()
    }

    #[test]
    fn each_caller_has_its_own_number_of_rows() {
        for switches in [OFF, ASYNC, ARROWS] {
            for count in [511, 512] {
                assert_eq!(told(tablet(switches), &wide(count)), Ok(count as usize));
                assert_eq!(told(print_room(switches), &wide(count)), Ok(count as usize));
            }
            assert_eq!(told(tablet(switches), &wide(513)), refused(1, 0));
            assert_eq!(told(print_room(switches), &wide(513)), Ok(513));
            assert_eq!(told(tablet(switches), &wide(16_384)), refused(1, 0));
            assert_eq!(told(print_room(switches), &wide(16_384)), Ok(16_384));
            assert_eq!(told(print_room(switches), &wide(16_385)), refused(1, 0));
        }
        assert_eq!(told(tablet(OFF), &[]), refused(1, 0));
        // The other sizes are one for both.
        for options in [print_room(OFF), tablet(OFF)] {
            let rows = words(&wide(2).concat());
            let names = |count: usize| words(&[0, 1].repeat(count));
            assert!(convert(options, &rows, &names(4_096), &[b'x'; 65_535], 32, 0).is_ok());
            assert_eq!(convert(options, &rows, &names(4_097), b"x", 32, 0), refused(1, 0));
            assert_eq!(convert(options, &rows, &names(1), &[b'x'; 65_536], 32, 0), refused(1, 0));
            assert_eq!(convert(options, &rows[1..], &names(1), b"x", 32, 0), refused(1, 0));
            assert_eq!(convert(options, &rows, &names(1), b"x", 31, 0), refused(9, 0));
        }
    }

    #[test]
    fn each_caller_has_its_own_depth() {
        for switches in [OFF, ASYNC, ARROWS] {
            for depth in [31, 32] {
                assert_eq!(told(tablet(switches), &deep(depth)), Ok(depth as usize + 2));
                assert_eq!(told(print_room(switches), &deep(depth)), Ok(depth as usize + 2));
            }
            for depth in [33, 34, 128, 129, 200] {
                assert_eq!(told(tablet(switches), &deep(depth)), refused(3, 34));
            }
            assert_eq!(told(print_room(switches), &deep(33)), Ok(35));
            assert_eq!(told(print_room(switches), &deep(128)), Ok(130));
            assert_eq!(told(print_room(switches), &deep(129)), refused(3, 130));
        }
    }

    #[test]
    fn the_order_is_the_same_for_both_callers() {
        let bad_name = |options: Options, rows: &[[u32; 4]]| {
            convert(options, &words(&rows.concat()), &words(&[0, 2]), b"x", 1 << 20, 1 << 20)
        };
        // 1 before 4, 4 before 3.
        assert_eq!(bad_name(tablet(OFF), &wide(513)), refused(1, 0));
        assert_eq!(bad_name(print_room(OFF), &wide(513)), refused(4, 1));
        assert_eq!(bad_name(tablet(OFF), &deep(33)), refused(4, 1));
        // 21 to 25 before 3, though the row that is too deep comes first.
        let bad = [[29, 0, 0, 36], [4, 1, 0, 36], [4, 0, 0, 35], [9, 0, 0, 36], [4, 0, 1, 36]];
        for (number, row) in (21..).zip(bad) {
            let mut rows = deep(33);
            rows.push(row);
            rows[0][3] = 36;
            assert_eq!(told(tablet(OFF), &rows), refused(number, 35));
            assert_eq!(told(print_room(OFF), &rows), refused(number, 35));
            // 4 before them.
            assert_eq!(bad_name(tablet(OFF), &rows), refused(4, 1));
        }
        // 3 before 5, though the row that only a result has, a Member with attr 1, comes first.
        let mut rows = deep(33);
        rows[3] = [12, 1, 0, 35];
        assert_eq!(told(tablet(OFF), &rows), refused(3, 34));
        assert_eq!(told(print_room(OFF), &rows), refused(5, 3));
    }

    #[test]
    fn a_result_may_have_more_rows_than_a_tablet_lends() {
        // 127 times `() => this`: 509 rows, which become a Var of 3 rows and 6 for each.
        let mut rows = vec![[0, 0, 0, 509]];
        for n in 0..127 {
            let at = 1 + 4 * n;
            rows.extend([[1, 0, 0, at + 4], [16, 2, 0, at + 4], [18, 0, 0, at + 3], [9, 0, 0, at + 4]]);
        }
        let bytes = words(&rows.concat());
        let result = convert(tablet(ARROWS), &bytes, &[], &[], 16 * 766, 12).unwrap();
        assert_eq!((result.rows.len(), result.bindings.len()), (766, 1));
        assert_eq!(convert(print_room(ARROWS), &bytes, &[], &[], 16 * 766, 12), Ok(result));
        assert_eq!(convert(tablet(ARROWS), &bytes, &[], &[], 16 * 766 - 1, 12), refused(9, 0));
    }

    #[test]
    fn the_bits_of_the_options() {
        for word in 0..16 {
            let Options { switches, tablet } = Options::of_word(word);
            let on = [switches.arrow, switches.async_to_generator, switches.async_generator_functions, tablet];
            assert_eq!(on, [word & 1 != 0, word & 2 != 0, word & 4 != 0, word & 8 != 0]);
            // A bit without a name changes nothing.
            for bit in 4..32 {
                assert_eq!(Options::of_word(word | 1 << bit), Options::of_word(word));
            }
        }
    }
}
