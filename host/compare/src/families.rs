//! The families of tables that are compared.

use crate::all::All;
use crate::call::{BaseTexts, Comparer, Difference, Input, Rooms, Table, Tablet, Tally, EIGHT};
use crate::grammar::{children, laid, Head, Place, Tree};
use crate::random::{names, table, Random, Style, SPELLINGS};
use thawcopper::Switches;
use thawcopper_reference::{Limits, MOST_NAMES, MOST_RECORDS, MOST_TEXT};

/// A difference, and the table that has it.
pub struct Found {
    pub table: Option<Table>,
    pub difference: Difference,
}

struct Run {
    comparer: Comparer,
}

impl Run {
    fn new() -> Run {
        Run { comparer: Comparer::new() }
    }

    fn settings(&mut self, table: &Table, list: &[Switches], rooms: Rooms, tablet: Tablet) -> Result<(), Found> {
        let compared = self.comparer.table(table, list, rooms, tablet);
        compared.map_err(|difference| Found { table: Some(table.clone()), difference })
    }

    fn eight(&mut self, table: &Table, rooms: Rooms, tablet: Tablet) -> Result<(), Found> {
        self.settings(table, &EIGHT, rooms, tablet)
    }

    /// In two settings: what is refused before the switches matter.
    fn two(&mut self, table: &Table) -> Result<(), Found> {
        self.settings(table, &[EIGHT[0], EIGHT[4]], Rooms::Some, Tablet::ByTurns)
    }

    fn tally(self) -> Tally {
        self.comparer.tally
    }
}

fn of_tree(tree: &[[u32; 4]]) -> Table {
    of_rows(laid(tree))
}

fn of_rows(rows: Vec<[u32; 4]>) -> Table {
    let (names, text) = names();
    Table { rows, more_rows: 0, names, more_names: 0, text }
}

// Rows for the alphabets. Name 1 is `a`, 2 and 4 are `foo`, 3 and 5 are `arguments`.
const PROGRAM: Head = [0, 0, 0];
const STATEMENT: Head = [1, 0, 0];
const VAR: Head = [2, 0, 0];
const DECLARATOR: Head = [3, 0, 1];
const RETURN: Head = [4, 0, 0];
const BLOCK: Head = [5, 0, 0];
const CASE: Head = [5, 1, 0];
const OTHER: Head = [6, 0, 0];
const OPAQUE: Head = [8, 0, 0];
const THIS: Head = [9, 0, 0];
const SUPER: Head = [10, 0, 0];
const ARGUMENTS: Head = [11, 0, 3];
const MEMBER: Head = [12, 0, 2];
const SAME_MEMBER: Head = [12, 0, 4];
const COMPUTED: Head = [13, 0, 0];
const CALL: Head = [14, 0, 0];
const ASSIGN: Head = [15, 1, 0];
const ARROW_BODY: Head = [16, 0, 0];
const ASYNC_BODY: Head = [16, 1, 0];
const ARROW: Head = [16, 2, 0];
const ASYNC: Head = [16, 3, 0];
const PARAMS: Head = [18, 0, 0];
const BODY: Head = [19, 0, 0];
const CLASS: Head = [20, 8, 0];
const CLASS_EXPRESSION: Head = [20, 0, 0];
const HEIR: Head = [20, 1, 0];
const METHOD: Head = [21, 0, 0];
const KEYED: Head = [21, 1, 0];
const STATIC_METHOD: Head = [21, 2, 0];
const FIELD: Head = [22, 4, 0];
const KEYED_FIELD: Head = [22, 1, 0];
const STATIC_BLOCK: Head = [23, 0, 0];
const OBJECT: Head = [24, 0, 0];
const PROPERTY: Head = [25, 0, 0];
const PROPERTY_METHOD: Head = [25, 2, 0];
const KEYED_PROPERTY: Head = [25, 1, 0];
const SEQUENCE: Head = [26, 0, 0];
const TARGET: Head = [28, 0, 0];

const fn function(attr: u32) -> Head {
    [17, attr, 0]
}

/// An alphabet, and the size of the largest tables over it.
struct Alphabet {
    what: &'static str,
    heads: Vec<Head>,
    most: usize,
}

fn alphabets(more: usize) -> Vec<Alphabet> {
    vec![
        Alphabet {
            what: "this, arrows, functions",
            heads: vec![
                PROGRAM,
                STATEMENT,
                THIS,
                ARROW_BODY,
                ASYNC_BODY,
                ARROW,
                ASYNC,
                function(8),
                function(9),
                PARAMS,
                BODY,
            ],
            most: 14 + 2 * more,
        },
        Alphabet {
            what: "arguments, default values",
            heads: vec![PROGRAM, STATEMENT, ARGUMENTS, THIS, ARROW, ASYNC, function(0), PARAMS, BODY, DECLARATOR],
            most: 12 + 2 * more,
        },
        Alphabet {
            what: "methods and super",
            heads: vec![PROGRAM, CLASS, METHOD, function(1), PARAMS, BODY, STATEMENT, THIS, SUPER, MEMBER, CALL, ARROW],
            most: 11 + more,
        },
        Alphabet {
            what: "a row of each kind",
            heads: vec![
                PROGRAM,
                STATEMENT,
                VAR,
                DECLARATOR,
                RETURN,
                BLOCK,
                OTHER,
                OPAQUE,
                THIS,
                SUPER,
                ARGUMENTS,
                MEMBER,
                COMPUTED,
                CALL,
                ASSIGN,
                ARROW,
                function(1),
                function(8),
                PARAMS,
                BODY,
                CLASS,
                CLASS_EXPRESSION,
                METHOD,
                FIELD,
                STATIC_BLOCK,
                OBJECT,
                PROPERTY,
                SEQUENCE,
                TARGET,
            ],
            most: 5 + more,
        },
    ]
}

/// All tables over the alphabets, in all eight settings, one of them as a tablet too.
pub fn all_tables(more: usize) -> Result<Tally, Found> {
    let mut run = Run::new();
    for alphabet in alphabets(more) {
        let mut all = All::over(&alphabet.heads);
        let mut count = 0;
        for size in 1..=alphabet.most {
            for tree in all.trees(Place::Program, size).iter() {
                run.eight(&of_tree(tree), Rooms::Some, Tablet::ByTurns)?;
                count += 1;
            }
        }
        println!(
            "    {}: {} tables, all of up to {} rows over {} rows",
            alphabet.what,
            count,
            alphabet.most,
            alphabet.heads.len()
        );
    }
    Ok(run.tally())
}

fn tree(head: Head, children: &[Tree]) -> Tree {
    let inside = children.concat();
    let mut tree = vec![[head[0], head[1], head[2], inside.len() as u32 + 1]];
    tree.extend(inside);
    tree
}

fn leaf(head: Head) -> Tree {
    tree(head, &[])
}

fn function_of(attr: u32, params: &[Tree], body: &[Tree]) -> Tree {
    tree(function(attr), &[tree(PARAMS, params), tree(BODY, body)])
}

fn arrow_of(head: Head, inside: Tree) -> Tree {
    tree(head, &[leaf(PARAMS), inside])
}

fn method_of(method: Head, attr: u32, params: &[Tree], body: &[Tree]) -> Tree {
    tree(PROGRAM, &[tree(CLASS, &[tree(method, &[function_of(attr, params, body)])])])
}

fn statement(expression: Tree) -> Tree {
    tree(STATEMENT, &[expression])
}

fn reads_this() -> Tree {
    statement(arrow_of(ARROW, leaf(THIS)))
}

/// Places for an expression in a whole table.
fn contexts() -> Vec<(&'static str, fn(Tree) -> Tree)> {
    fn in_async_method(body: Vec<Tree>) -> Tree {
        method_of(METHOD, 1, &[], &body)
    }
    vec![
        ("Program", |e| tree(PROGRAM, &[statement(e)])),
        ("a method", |e| method_of(METHOD, 0, &[], &[statement(e)])),
        ("an async method", |e| in_async_method(vec![statement(e)])),
        ("a static async generator method", |e| method_of(STATIC_METHOD, 3, &[], &[statement(e)])),
        ("an async method's params", |e| method_of(METHOD, 1, &[tree(DECLARATOR, &[e])], &[])),
        ("a constructor", |e| method_of(METHOD, 4, &[], &[statement(e), reads_this()])),
        ("a constructor's params", |e| method_of(METHOD, 4, &[tree(DECLARATOR, &[e])], &[reads_this()])),
        ("a class's heritage in a constructor", |e| {
            let class = tree(HEIR, &[e]);
            method_of(METHOD, 4, &[], &[statement(class), reads_this()])
        }),
        ("a method's key in an async method", |e| {
            let keyed = tree(KEYED, &[e, function_of(0, &[], &[])]);
            in_async_method(vec![tree(CLASS, &[keyed])])
        }),
        ("a field's key in an async method", |e| in_async_method(vec![tree(CLASS, &[tree(KEYED_FIELD, &[e])])])),
        ("the key of a field with a value in an async method", |e| {
            in_async_method(vec![tree(CLASS, &[tree([22, 5, 0], &[e, leaf(THIS)])])])
        }),
        ("a function as a method's key", |e| {
            let keyed = tree(KEYED, &[function_of(1, &[], &[statement(e)]), function_of(0, &[], &[])]);
            tree(PROGRAM, &[tree(CLASS, &[keyed])])
        }),
        ("a function as the key of an object's method", |e| {
            let keyed = tree([25, 3, 0], &[function_of(1, &[], &[statement(e)]), function_of(1, &[], &[])]);
            tree(PROGRAM, &[statement(tree(OBJECT, &[keyed]))])
        }),
        ("a field's value", |e| tree(PROGRAM, &[tree(CLASS, &[tree(FIELD, &[e])])])),
        ("a static block in an async method", |e| {
            in_async_method(vec![tree(CLASS, &[tree(STATIC_BLOCK, &[statement(e)])])])
        }),
        ("an object's async method", |e| {
            let method = tree(PROPERTY_METHOD, &[function_of(1, &[], &[statement(e)])]);
            tree(PROGRAM, &[statement(tree(OBJECT, &[method]))])
        }),
        ("an object's async function, and its key, in an async method", |e| {
            let property = tree(PROPERTY, &[function_of(1, &[], &[statement(leaf(THIS))])]);
            let keyed = tree(KEYED_PROPERTY, &[e, leaf(THIS)]);
            in_async_method(vec![statement(tree(OBJECT, &[property, keyed]))])
        }),
        ("an async arrow in a method", |e| method_of(METHOD, 0, &[], &[statement(arrow_of(ASYNC, e))])),
        ("an async arrow in a constructor", |e| {
            method_of(METHOD, 4, &[], &[tree(VAR, &[tree(DECLARATOR, &[arrow_of(ASYNC, e)])])])
        }),
    ]
}

/// All expressions up to a size, in each context.
pub fn all_expressions(more: usize) -> Result<Tally, Found> {
    let heads =
        [THIS, SUPER, ARGUMENTS, MEMBER, SAME_MEMBER, COMPUTED, CALL, ASSIGN, TARGET, ARROW, ASYNC, PARAMS, OPAQUE];
    let most = 5 + more;
    let mut run = Run::new();
    let mut all = All::over(&heads);
    let mut count = 0;
    let contexts = contexts();
    for size in 1..=most {
        for expression in all.trees(Place::Expression, size).iter() {
            count += 1;
            for (_, context) in &contexts {
                run.eight(&of_tree(&context(expression.clone())), Rooms::Some, Tablet::ByTurns)?;
            }
        }
    }
    println!(
        "    {} expressions, all of up to {} rows over {} rows, in {} contexts",
        count,
        most,
        heads.len(),
        contexts.len()
    );
    Ok(run.tally())
}

/// All bodies up to a size in a constructor that captures `this`: module 7.
pub fn all_constructors(more: usize) -> Result<Tally, Found> {
    let alphabets = [
        Alphabet { what: "lists and super()", heads: vec![BODY, STATEMENT, BLOCK, CALL, SUPER], most: 11 + more },
        Alphabet {
            what: "all that super() may stand in",
            heads: vec![
                BODY,
                STATEMENT,
                BLOCK,
                CASE,
                OTHER,
                CALL,
                SUPER,
                ARROW,
                ASYNC_BODY,
                PARAMS,
                SEQUENCE,
                CLASS,
                KEYED_FIELD,
            ],
            most: 6 + more,
        },
    ];
    let mut run = Run::new();
    for alphabet in alphabets {
        let mut all = All::over(&alphabet.heads);
        let mut count = 0;
        for size in 1..=alphabet.most {
            for body in all.trees(Place::Body, size).iter() {
                count += 1;
                // The body's statements, and `() => this` behind them.
                let inside = [&body[1..], &reads_this()[..]].concat();
                let constructor = method_of(METHOD, 4, &[], &[inside]);
                run.eight(&of_tree(&constructor), Rooms::Some, Tablet::ByTurns)?;
            }
        }
        println!(
            "    {}: {} bodies, all of up to {} rows over {} rows",
            alphabet.what,
            count,
            alphabet.most,
            alphabet.heads.len()
        );
    }
    Ok(run.tally())
}

/// Every kind and attr with every list of up to two (three, if more) smallest children, at a place that fits the kind:
/// most of them break the form.
pub fn all_children(more: usize) -> Result<Tally, Found> {
    let this = || leaf(THIS);
    let target = || tree(TARGET, &[leaf(ARGUMENTS)]);
    let smallest: Vec<Tree> = vec![
        leaf(PROGRAM),
        statement(this()),
        leaf(VAR),
        leaf(DECLARATOR),
        leaf([3, 1, 0]),
        leaf(RETURN),
        leaf(BLOCK),
        leaf(OTHER),
        leaf([7, 0, 0]),
        leaf(OPAQUE),
        this(),
        leaf(SUPER),
        leaf(ARGUMENTS),
        leaf([11, 0, 0]),
        tree(MEMBER, &[leaf(SUPER)]),
        tree([12, 1, 99], &[this()]),
        tree(COMPUTED, &[this(), this()]),
        tree(CALL, &[leaf(SUPER)]),
        tree(ASSIGN, &[target(), this()]),
        arrow_of(ARROW, this()),
        function_of(0, &[], &[]),
        function_of(4, &[], &[]),
        function_of(8, &[], &[]),
        leaf(PARAMS),
        leaf(BODY),
        leaf(CLASS),
        leaf(CLASS_EXPRESSION),
        tree(METHOD, &[function_of(1, &[], &[])]),
        leaf([22, 0, 0]),
        leaf(STATIC_BLOCK),
        leaf(OBJECT),
        tree(PROPERTY, &[this()]),
        tree(SEQUENCE, &[this(), this()]),
        leaf([27, 1, 5]),
        leaf([27, 2, 0]),
        target(),
        leaf([29, 0, 0]),
    ];
    let mut run = Run::new();
    let longest = 2 + usize::from(more > 0);
    let mut lists: Vec<Vec<Tree>> = vec![Vec::new()];
    let mut from = 0;
    for _ in 0..longest {
        let to = lists.len();
        for at in from..to {
            for child in &smallest {
                let mut list = lists[at].clone();
                list.push(child.clone());
                lists.push(list);
            }
        }
        from = to;
    }
    for kind in 0..30 {
        // Attrs beyond the largest that a kind knows are all alike.
        let attrs = if matches!(kind, 15 | 17) { 17 } else { 10 };
        for attr in 0..attrs {
            let named = if matches!(kind, 3 | 11 | 12) { 1 } else { 0 };
            for list in &lists {
                let row = tree([kind, attr, named], list);
                run.two(&of_tree(&placed(kind, attr, row)))?;
            }
        }
    }
    println!("    each kind and attr with {} lists of up to {} children", lists.len(), longest);
    Ok(run.tally())
}

/// A whole table with that row where its kind belongs.
fn placed(kind: u32, attr: u32, row: Tree) -> Tree {
    match kind {
        0 => row,
        1 | 2 | 4 | 5 | 6 => tree(PROGRAM, &[row]),
        3 => tree(PROGRAM, &[tree(VAR, &[row])]),
        10 => tree(PROGRAM, &[statement(tree(MEMBER, &[row]))]),
        17 if attr & 4 != 0 => tree(PROGRAM, &[tree(CLASS, &[tree(METHOD, &[row])])]),
        17 | 20 if attr & 8 != 0 => tree(PROGRAM, &[row]),
        18 => tree(PROGRAM, &[tree(function(8), &[row, leaf(BODY)])]),
        19 => tree(PROGRAM, &[tree(function(8), &[leaf(PARAMS), row])]),
        21..=23 => tree(PROGRAM, &[tree(CLASS, &[row])]),
        25 => tree(PROGRAM, &[statement(tree(OBJECT, &[row]))]),
        28 => tree(PROGRAM, &[tree(OTHER, &[row])]),
        _ => tree(PROGRAM, &[statement(row)]),
    }
}

/// Places for a row in a whole table, each with the number that the row has there. Behind the statement that it is in
/// stands a Return.
fn places() -> Vec<(usize, fn(Tree) -> Tree)> {
    fn program(inside: Tree) -> Tree {
        tree(PROGRAM, &[inside, leaf(RETURN)])
    }
    fn expression(inside: Tree) -> Tree {
        program(statement(inside))
    }
    fn class(member: Tree) -> Tree {
        program(tree(CLASS, &[member]))
    }
    fn object(part: Tree) -> Tree {
        expression(tree(OBJECT, &[part]))
    }
    vec![
        (0, |row| row),
        (1, program),
        (2, |row| program(tree(BLOCK, &[row]))),
        (3, |row| class(tree(STATIC_BLOCK, &[row]))),
        (2, |row| program(tree(OTHER, &[row]))),
        (2, expression),
        (3, |row| expression(tree(OPAQUE, &[row]))),
        (3, |row| expression(tree(COMPUTED, &[row, leaf(THIS)]))),
        (4, |row| expression(tree(CALL, &[leaf(THIS), row]))),
        (4, |row| expression(arrow_of(ARROW, row))),
        (2, |row| program(tree([20, 9, 0], &[row]))),
        (2, |row| program(tree(VAR, &[row]))),
        (2, |row| program(tree(function(8), &[row, leaf(BODY)]))),
        (3, |row| program(tree(function(8), &[leaf(PARAMS), row]))),
        (2, class),
        (3, |row| class(tree(METHOD, &[row]))),
        (3, |row| class(tree(STATIC_METHOD, &[row]))),
        (3, |row| class(tree(KEYED, &[row, function_of(0, &[], &[])]))),
        (4, |row| class(tree(KEYED, &[leaf(THIS), row]))),
        (3, object),
        (4, |row| object(tree(PROPERTY, &[row]))),
        (4, |row| object(tree(PROPERTY_METHOD, &[row]))),
        (3, |row| expression(tree(ASSIGN, &[row, leaf(THIS)]))),
        (3, |row| program(tree(OTHER, &[tree(TARGET, &[row])]))),
    ]
}

/// The smallest tree for a place.
fn smallest_at(place: Place) -> Tree {
    use Place::*;
    match place {
        Program => leaf(PROGRAM),
        Statement | AnyPart => leaf(RETURN),
        Expression | Object | ObjectPart | ExpressionPart => leaf(THIS),
        Declarator => leaf(DECLARATOR),
        Params => leaf(PARAMS),
        Body => leaf(BODY),
        ClassMember => leaf(STATIC_BLOCK),
        MethodFunction(_) | PropertyFunction => function_of(0, &[], &[]),
        Target => tree(TARGET, &[leaf(ARGUMENTS)]),
        TargetChild => leaf(ARGUMENTS),
    }
}

/// Every kind, attr, name and end of one row, at each place, with the children that it wants, one fewer and one more:
/// most of them break the form, many in more than one way. In one of five the last row is of no kind.
pub fn all_words(more: usize) -> Result<Tally, Found> {
    let mut run = Run::new();
    let places = places();
    for (at, around) in &places {
        for kind in 0..31 {
            let attrs = if more > 0 || matches!(kind, 15 | 17) { 17 } else { 10 };
            for attr in 0..attrs {
                let (first, _) = children([kind, attr, 0]);
                let right: Vec<Tree> = first.into_iter().map(smallest_at).collect();
                let fewer = right.split_last().map(|(_, fewer)| fewer.to_vec());
                let further = [&right[..], &[leaf(THIS)]].concat();
                for list in [Some(right), fewer, Some(further)].into_iter().flatten() {
                    let mut table = of_tree(&around(tree([kind, attr, 0], &list)));
                    let [.., end] = table.rows[*at];
                    for name in [0, 1, SPELLINGS.len() as u32 + 1] {
                        for end in [end, *at as u32, end + 1, u32::MAX] {
                            table.rows[*at] = [kind, attr, name, end];
                            let last = table.rows.len() - 1;
                            let kept = table.rows[last];
                            if last > *at && run.comparer.tally.tables % 5 == 0 {
                                table.rows[last][0] = 29;
                            }
                            run.two(&table)?;
                            table.rows[last] = kept;
                        }
                    }
                }
            }
        }
    }
    println!("    each kind and attr, 3 names and 4 ends of a row, at {} places", places.len());
    Ok(run.tally())
}

/// Every end: all tables of 3 rows over all kinds, and all of 4 and 5 rows over a few, well-formed or not.
pub fn all_ends(more: usize) -> Result<Tally, Found> {
    let mut run = Run::new();
    let mut two = |rows: Vec<[u32; 4]>| run.two(&of_rows(rows));
    for first in 0..30 {
        for second in 0..30 {
            for attrs in 0..9 {
                for ends in 0..25 {
                    let name = |kind| u32::from(matches!(kind, 3 | 11 | 12));
                    two(vec![
                        [0, 0, 0, 3],
                        [first, attrs % 3, name(first), ends % 5],
                        [second, attrs / 3, name(second), ends / 5],
                    ])?;
                }
            }
        }
    }
    let few: &[Head] = &[RETURN, OPAQUE, COMPUTED, SEQUENCE, BLOCK, STATEMENT];
    for length in [3, 4] {
        let ends = length as u32 + 3;
        let each = few.len() as u64 * u64::from(ends);
        // With 4 rows below the Program, one in 7 of them.
        let step = if length == 4 && more == 0 { 7 } else { 1 };
        let mut number = 0;
        while number < each.pow(length as u32) {
            let mut rest = number;
            let mut rows = vec![[0, 0, 0, length as u32 + 1]];
            for _ in 0..length {
                let one = rest % each;
                rest /= each;
                let head = few[(one / u64::from(ends)) as usize];
                rows.push([head[0], head[1], head[2], (one % u64::from(ends)) as u32]);
            }
            two(rows)?;
            number += step;
        }
    }
    Ok(run.tally())
}

/// Random tables, by the seed; as a tablet too.
pub fn random_tables(seed: u64, tables: u64, rows: usize, rooms: Rooms) -> Result<Tally, Found> {
    let mut run = Run::new();
    let mut random = Random::new(seed);
    for _ in 0..tables {
        let style = a_style(&mut random, rows);
        run.eight(&table(&mut random, style), rooms, Tablet::Each)?;
    }
    Ok(run.tally())
}

fn a_style(random: &mut Random, rows: usize) -> Style {
    Style {
        rows: 1 + rows / 4 + random.below(rows),
        deepest: random.of(&[12, 25, 60, 110]),
        careless: random.of(&[20, 300, 100_000]),
        keen: random.of(&[0, 1, 4, 9]),
        field_arrows: random.one_in(4),
    }
}

/// Damaged copies of random tables; as a tablet too.
pub fn damaged_tables(seed: u64, tables: u64, rows: usize) -> Result<Tally, Found> {
    let mut run = Run::new();
    let mut random = Random::new(seed);
    for _ in 0..tables {
        let style = a_style(&mut random, rows);
        let whole = table(&mut random, style);
        for _ in 0..8 {
            let mut copy = whole.clone();
            for _ in 0..1 + random.below(2) {
                damage(&mut random, &mut copy);
            }
            run.eight(&copy, Rooms::Some, Tablet::Each)?;
        }
        for _ in 0..4 {
            let mut copy = whole.clone();
            damage_a_row(&mut random, &mut copy);
            run.eight(&copy, Rooms::Some, Tablet::Each)?;
        }
    }
    Ok(run.tally())
}

/// Damages up to three words of one row, in one of four of row 0.
fn damage_a_row(random: &mut Random, table: &mut Table) {
    let row = if random.one_in(4) { 0 } else { random.below(table.rows.len()) };
    for _ in 0..1 + random.below(3) {
        damage_word(random, table, row);
    }
}

fn damage_word(random: &mut Random, table: &mut Table, row: usize) {
    let count = table.rows.len() as u32;
    let words = &mut table.rows[row];
    match random.below(9) {
        0 | 1 => words[0] = random.below(31) as u32,
        2 | 3 => words[1] ^= 1 << random.below(6),
        4 => words[2] = random.of(&[0, 1, 3, 12, 13, 14, u32::MAX]),
        5 => words[3] = words[3].wrapping_add(1),
        6 => words[3] = words[3].wrapping_sub(1),
        7 => words[3] = random.of(&[0, row as u32, row as u32 + 1, count, count + 1, u32::MAX]),
        _ => {
            let word = random.below(4);
            words[word] ^= 1 << random.below(32);
        }
    }
}

fn damage(random: &mut Random, table: &mut Table) {
    if table.rows.is_empty() || table.names.is_empty() || table.text.is_empty() {
        return;
    }
    let row = random.below(table.rows.len());
    let name = random.below(table.names.len());
    let byte = random.below(table.text.len());
    match random.below(16) {
        0..=8 => damage_word(random, table, row),
        9 => {
            table.rows.remove(row);
        }
        10 => {
            let copied = table.rows[random.below(table.rows.len())];
            table.rows.insert(row, copied);
        }
        11 => {
            let other = random.below(table.rows.len());
            table.rows.swap(row, other);
        }
        12 => table.more_rows = random.of(&[1, 4, 8, 15]),
        13 => {
            if random.one_in(4) {
                table.more_names = random.of(&[1, 4, 7]);
            } else {
                let word = random.below(2);
                table.names[name][word] =
                    random.of(&[0, 1, 255, 256, table.text.len() as u32, table.text.len() as u32 + 1, u32::MAX]);
            }
        }
        14 => table.text[byte] = random.of(&[0x80, 0xC0, 0xC3, 0xED, 0xF4, 0xFF]),
        _ => {
            table.text.truncate(byte);
        }
    }
}

/// UTF-8: every pair of bytes as a name, and all starts of 3 and 4 bytes with what matters behind them.
pub fn all_utf8(more: usize) -> Result<Tally, Found> {
    let mut run = Run::new();
    let marks = [0x00, 0x41, 0x7F, 0x80, 0x8F, 0x90, 0x9F, 0xA0, 0xBF, 0xC0, 0xC2, 0xE0, 0xED, 0xF0, 0xFF];
    let mut one = |text: Vec<u8>| {
        let table =
            Table { rows: vec![[0, 0, 0, 1]], more_rows: 0, names: vec![[0, text.len() as u32]], more_names: 0, text };
        run.two(&table)
    };
    for first in 0..=255 {
        one(vec![first])?;
        for second in 0..=255 {
            one(vec![first, second])?;
        }
    }
    for first in 0xC0..=255 {
        for second in 0x70..=0xC8 {
            for third in marks {
                one(vec![first, second, third])?;
                if more > 0 || third >= 0x7F {
                    for fourth in marks {
                        one(vec![first, second, third, fourth])?;
                    }
                }
            }
        }
    }
    Ok(run.tally())
}

/// Tables on both sides of each limit, of the print room's and of a tablet's, by both callers.
pub fn limits(seed: u64, rounds: usize) -> Result<Tally, Found> {
    let mut run = Run::new();
    let mut random = Random::new(seed);
    for round in 0..rounds {
        for limits in [Limits::of(false), Limits::of(true)] {
            let deepest = limits.depth as usize;
            // Rows: a random table with rows without work up to the limit; more of them where they are small.
            let style = Style {
                rows: limits.rows,
                deepest: deepest * 3 / 4,
                careless: 1_000_000,
                keen: 2 + round % 3,
                field_arrows: round % 4 == 3,
            };
            for _ in 0..1 + 4_096 / limits.rows {
                for count in limits.rows - 1..=limits.rows + 1 {
                    run.eight(&of_count(&mut random, style, count), Rooms::Some, Tablet::Each)?;
                }
            }
            // Depth: chains that end on each side of the limit.
            for depth in deepest - 4..=deepest + 2 {
                run.eight(&chain(&mut random, depth), Rooms::All, Tablet::Each)?;
            }
        }
    }
    for table in around_the_tablets_limits() {
        run.eight(&table, Rooms::All, Tablet::Each)?;
    }
    // No rows.
    run.eight(&of_rows(Vec::new()), Rooms::All, Tablet::Each)?;
    // Names and text.
    for (count, length) in
        [(MOST_NAMES - 1, 15), (MOST_NAMES, 15), (MOST_NAMES + 1, 15), (255, 255), (256, 255), (257, 255), (256, 256)]
    {
        for more in 0..4 {
            let mut whole = of_rows(vec![
                [0, 0, 0, 3],
                [1, 0, 0, 3],
                [11, 0, random.of(&[1, count as u32 - 1, count as u32, count as u32 + 1]), 3],
            ]);
            whole.text = (0..count * length).map(|n| b'a' + (n % 26) as u8).collect();
            whole.names = (0..count).map(|n| [(n * length) as u32, length as u32]).collect();
            whole.text.resize((whole.text.len() / MOST_TEXT.max(1)) * MOST_TEXT.max(1) + MOST_TEXT - 2 + more, b'z');
            run.eight(&whole, Rooms::Some, Tablet::Each)?;
            whole.text.truncate(MOST_TEXT - 2 + more);
            run.eight(&whole, Rooms::Some, Tablet::Each)?;
            let end = (whole.text.len() as u32).saturating_sub(255);
            for start in end - 1..end + 2 {
                whole.names = vec![[start, 255], [start, 254], [u32::MAX, 2], [2, u32::MAX]];
                run.eight(&whole, Rooms::Some, Tablet::Each)?;
                whole.names.truncate(2);
                run.eight(&whole, Rooms::Some, Tablet::Each)?;
                whole.names.truncate(1);
                run.eight(&whole, Rooms::Some, Tablet::Each)?;
            }
        }
    }
    // Frames, captures and accessors without number: arrows in functions, accessors in one frame.
    for shape in 0..8 {
        for limits in [Limits::of(false), Limits::of(true)] {
            run.eight(&crowded(shape, limits.rows), Rooms::Some, Tablet::Each)?;
        }
    }
    Ok(run.tally())
}

/// A random table of just that many rows: statements are dropped from its end, and Returns put behind it.
fn of_count(random: &mut Random, style: Style, count: usize) -> Table {
    let mut whole = table(random, style);
    if whole.rows.len() > count {
        let mut end = 1;
        while (whole.rows[end][3] as usize) <= count {
            end = whole.rows[end][3] as usize;
        }
        whole.rows.truncate(end);
    }
    while whole.rows.len() < count {
        let end = whole.rows.len() as u32 + 1;
        whole.rows.push([4, 0, 0, end]);
    }
    whole.rows[0][3] = count as u32;
    whole
}

/// A path down to that depth, through rows that the rules look at.
fn chain(random: &mut Random, depth: usize) -> Table {
    let mut inner = leaf(random.of(&[THIS, ARGUMENTS, [8, 1, 2]]));
    let mut height = 0;
    // The Program is at depth 0 and the statement at 1, so the innermost row is at height + 2.
    while height + 2 < depth {
        let left = depth - 2 - height;
        let choice = if left >= 6 { random.below(6) } else { random.below(4) };
        let (wrapped, steps) = match choice {
            0 => (arrow_of(ARROW, inner), 1),
            1 => (arrow_of(ASYNC, inner), 1),
            2 => (tree(OPAQUE, &[inner]), 1),
            3 => (tree(CALL, &[inner, leaf(THIS)]), 1),
            4 => (function_of(random.below(4) as u32, &[], &[statement(inner)]), 3),
            _ => {
                let method = tree(PROPERTY_METHOD, &[function_of(random.below(4) as u32, &[], &[statement(inner)])]);
                (tree(OBJECT, &[method]), 5)
            }
        };
        inner = wrapped;
        height += steps;
    }
    of_tree(&tree(PROGRAM, &[statement(inner)]))
}

/// Frames, captures and accessors, as many as that number of rows has place for.
fn crowded(shape: usize, rows: usize) -> Table {
    let reads = statement(arrow_of(ARROW, leaf(THIS)));
    let most = rows - 8;
    let many = |one: &Tree| -> Tree { one.iter().copied().cycle().take(most / one.len() * one.len()).collect() };
    let spelled = |name: u32| tree([12, 0, name], &[leaf(SUPER)]);
    match shape {
        // As many functions that capture as there may be.
        0 => of_tree(&tree(PROGRAM, &[many(&function_of(8, &[], &[reads]))])),
        // Async methods, static blocks.
        1 => {
            let one = tree(METHOD, &[function_of(1, &[], &[tree(RETURN, &[leaf(THIS)])])]);
            of_tree(&tree(PROGRAM, &[tree(CLASS, &[many(&one)])]))
        }
        2 => {
            let one = tree(STATIC_BLOCK, &[reads]);
            of_tree(&tree(PROGRAM, &[tree(CLASS, &[many(&one)])]))
        }
        // Accessors: distinct properties in one frame, and one computed accessor in each of many frames.
        3 => {
            let count = 600.min(most as u32 / 6);
            let statements: Vec<Tree> = (1..=count)
                .map(|n| {
                    if n % 3 == 0 {
                        statement(tree(ASSIGN, &[tree(TARGET, &[spelled(n)]), leaf(THIS)]))
                    } else {
                        statement(tree(CALL, &[spelled(n)]))
                    }
                })
                .collect();
            let mut whole = of_tree(&method_of(METHOD, 1, &[], &statements));
            whole.text = (1..=count).flat_map(|n| format!("p{:04}", n / 2).into_bytes()).collect();
            whole.names = (0..count).map(|n| [n * 5, 5]).collect();
            whole
        }
        4 => {
            let assign = tree(ASSIGN, &[tree(TARGET, &[tree(COMPUTED, &[leaf(SUPER), leaf(THIS)])]), leaf(THIS)]);
            let one = tree(METHOD, &[function_of(3, &[], &[statement(assign)])]);
            of_tree(&tree(PROGRAM, &[tree(CLASS, &[many(&one)])]))
        }
        // Properties whose bytes give one number by the library's hash, each read twice; and a few properties in each of
        // many frames.
        5 => {
            let count = 512.min(most as u32 / 8);
            let statements: Vec<Tree> =
                (1..=count).chain(1..=count).map(|n| statement(tree(CALL, &[spelled(n)]))).collect();
            let mut whole = of_tree(&method_of(METHOD, 1, &[], &statements));
            let name = |n: u32| (0..9).flat_map(move |bit| if n >> bit & 1 == 0 { *b"aa" } else { *b"bB" });
            whole.text = (0..count).flat_map(name).collect();
            whole.names = (0..count).map(|n| [n * 18, 18]).collect();
            whole
        }
        6 => {
            let reads: Vec<Tree> = (1..=7).chain(3..=5).map(|n| statement(spelled(n))).collect();
            let one = tree(METHOD, &[function_of(1, &[], &reads)]);
            let mut whole = of_tree(&tree(PROGRAM, &[tree(CLASS, &[many(&one)])]));
            whole.text = b"abcdefg".to_vec();
            whole.names = (0..7).map(|n| [n, 1]).collect();
            whole
        }
        // Constructors.
        _ => {
            let one = tree(METHOD, &[function_of(4, &[], &[statement(tree(CALL, &[leaf(SUPER)])), reads])]);
            of_tree(&tree(PROGRAM, &[tree(CLASS, &[many(&one)])]))
        }
    }
}

/// Base text: records of all uses, properties and frames, damaged ones, all rooms, limits.
pub fn base_texts(seed: u64, calls: u64) -> Result<Tally, Found> {
    let mut base = BaseTexts::new();
    let mut random = Random::new(seed);
    let told = |difference| Found { table: None, difference };
    let words = |list: &[u32]| -> Vec<u8> { list.iter().flat_map(|w| w.to_le_bytes()).collect() };
    // Each first character of the table's ranges and around them.
    for code in (0..0x500).chain([0x7FF, 0x800, 0xFFFF, 0x10000, 0x10FFFF]) {
        if let Some(first) = char::from_u32(code) {
            let text = format!("{}\u{e9}z", first).into_bytes();
            for purpose in [3, 4] {
                let whole =
                    base.one(1, &words(&[purpose, 1, 7]), &words(&[0, text.len() as u32]), &text, 300).map_err(told)?;
                for room in [whole, whole.saturating_sub(1), whole + 1, 0] {
                    base.one(1, &words(&[purpose, 1, 7]), &words(&[0, text.len() as u32]), &text, room)
                        .map_err(told)?;
                }
            }
        }
    }
    // Every record over a few words, asked for under every number.
    for purpose in 0..8 {
        for property in [0, 1, 2, 3, u32::MAX] {
            for frame in [0, 16_383, 16_384, u32::MAX] {
                for number in 0..4 {
                    for room in [0, 3, 4, 5, 9, 13, 14, 20] {
                        let bindings = words(&[9, 9, u32::MAX, purpose, property, frame]);
                        base.one(number, &bindings, &words(&[0, 1, 1, 2]), b"bcd", room).map_err(told)?;
                    }
                }
            }
        }
    }
    // Sizes.
    for records in [MOST_RECORDS, MOST_RECORDS + 1] {
        for more in [0, 1, 4, 11] {
            let mut bindings = words(&[1, 0, 0]).repeat(records);
            bindings.resize(bindings.len() + more, 0);
            base.one(records as u32, &bindings, &[], &[], 300).map_err(told)?;
        }
    }
    for names in [MOST_NAMES, MOST_NAMES + 1] {
        for more in [0, 1, 4] {
            for text in [MOST_TEXT, MOST_TEXT + 1] {
                let mut pairs = words(&[3, 255]).repeat(names);
                pairs.resize(pairs.len() + more, 0);
                base.one(1, &words(&[3, names as u32, 0]), &pairs, &vec![b'x'; text], 300).map_err(told)?;
            }
        }
    }
    // Random ones, some damaged.
    for _ in 0..calls {
        let (names, text) = names();
        let mut table = Table { rows: vec![[0, 0, 0, 1]], more_rows: 0, names, more_names: 0, text };
        if random.one_in(3) {
            damage(&mut random, &mut table);
        }
        let input = Input::of(&table);
        let count = random.below(5);
        let mut bindings: Vec<u32> = Vec::new();
        for _ in 0..count {
            let property = if random.one_in(4) { 0 } else { random.below(14) as u32 };
            bindings.extend([random.below(8) as u32, property, random.of(&[0, 5, 16_383, 16_384])]);
        }
        let mut bindings = words(&bindings);
        if random.one_in(20) {
            bindings.push(0);
        }
        let number = random.below(count + 2) as u32;
        let room = random.below(40);
        base.one(number, &bindings, input.names(), input.text(), room).map_err(told)?;
    }
    Ok(base.tally)
}

/// A damaged copy of a table; in one of two the damage is to one row.
pub fn damaged_copy(random: &mut Random, whole: &Table) -> Table {
    let mut copy = whole.clone();
    if random.one_in(2) {
        damage(random, &mut copy);
    } else {
        damage_a_row(random, &mut copy);
    }
    copy
}

/// Row `at`, a Program if that is 0 and else a Return, with the faults of those of 21 to 25 whose bits are set: bit 0 is
/// 21.
fn with_faults(at: u32, faults: u32) -> [u32; 4] {
    let has = |number: u32| faults >> (number - 21) & 1;
    let (good, misplaced) = if at == 0 { (PROGRAM, RETURN) } else { (RETURN, THIS) };
    let kind = match (has(21), has(24)) {
        (1, _) => 29,
        (_, 1) => misplaced[0],
        _ => good[0],
    };
    [kind, has(22), has(25), at + 1 - has(23)]
}

/// Small tables for 21 to 25: each choice of faults on row 0 and on another row, each fault on a row behind each other one,
/// and a Function and a Class with and without bits 2 and 3 at each place.
pub fn bad_rows() -> Vec<Table> {
    let mut tables = Vec::new();
    for faults in 1..32 {
        tables.push(vec![with_faults(0, faults)]);
        tables.push(vec![[0, 0, 0, 3], with_faults(1, faults), [4, 0, 0, 3]]);
    }
    for first in 0..5 {
        for second in 0..5 {
            tables.push(vec![[0, 0, 0, 3], with_faults(1, 1 << first), with_faults(2, 1 << second)]);
        }
    }
    for (_, around) in places() {
        for attr in [0, 4, 8] {
            tables.push(laid(&around(function_of(attr, &[], &[]))));
            tables.push(laid(&around(leaf([20, attr, 0]))));
        }
    }
    let one_name = |rows| Table { names: vec![[0, 1]], text: b"a".to_vec(), ..of_rows(rows) };
    tables.into_iter().map(one_name).collect()
}

/// A small table for each context, with what the rules are about in it.
pub fn worked() -> Vec<Table> {
    let dot = || tree(MEMBER, &[leaf(SUPER)]);
    let at = || tree(COMPUTED, &[leaf(SUPER), leaf(THIS)]);
    let set = |access: Tree| tree(ASSIGN, &[tree(TARGET, &[access]), leaf(ARGUMENTS)]);
    let expressions = vec![
        arrow_of(ARROW, leaf(THIS)),
        tree(CALL, &[dot(), arrow_of(ASYNC, leaf(ARGUMENTS))]),
        tree(SEQUENCE, &[tree(CALL, &[at()]), set(at()), set(dot()), dot()]),
        tree(CALL, &[leaf(SUPER), tree(CALL, &[leaf(SUPER), arrow_of(ARROW, leaf(THIS))])]),
    ];
    let mut tables = Vec::new();
    for (_, context) in contexts() {
        for expression in &expressions {
            tables.push(of_tree(&context(expression.clone())));
        }
    }
    tables
}

/// Constructors that capture `this`, with `super()` in a list, twice, in lists below, and in no list.
pub fn constructors() -> Vec<Table> {
    let call = || statement(tree(CALL, &[leaf(SUPER)]));
    let bodies = [
        vec![call(), call(), reads_this()],
        vec![tree(BLOCK, &[call(), call()]), tree(CASE, &[call()]), call(), reads_this()],
        vec![tree(OTHER, &[call(), tree(BLOCK, &[call()])]), reads_this(), call()],
        vec![tree(RETURN, &[tree(SEQUENCE, &[tree(CALL, &[leaf(SUPER)]), arrow_of(ARROW, leaf(THIS))])])],
    ];
    bodies.iter().map(|body| of_tree(&method_of(METHOD, 4, &[], body))).collect()
}

/// Tables on both sides of a tablet's limits: of rows, of depth, and of both; and beyond them with something else that
/// is refused. With arrows on, the results of the largest have more rows than a tablet takes.
pub fn around_the_tablets_limits() -> Vec<Table> {
    let Limits { rows, depth } = Limits::of(true);
    let depth = depth as usize;
    // () => opaque(opaque(.. this)), down to that depth: the statement has depth 1 and the arrow 2.
    let deep = |depth: usize| {
        let nested = (3..depth).fold(leaf(THIS), |inner, _| tree(OPAQUE, &[inner]));
        statement(arrow_of(ARROW, nested))
    };
    // With Returns before and behind it, so many rows in all.
    let laid_out = |rows: usize, depth: usize| {
        let middle = deep(depth);
        let behind = rows - 2 - middle.len();
        let whole = of_tree(&tree(PROGRAM, &[leaf(RETURN), middle, leaf(RETURN).repeat(behind)]));
        Table { names: Vec::new(), text: Vec::new(), ..whole }
    };
    let few = depth + 10;
    let wide = [rows - 1, rows, rows + 1].map(|rows| laid_out(rows, 3));
    let deep = [depth - 1, depth, depth + 1].map(|depth| laid_out(few, depth));
    let both = [(rows, depth), (rows, depth + 1), (rows + 1, depth + 1)].map(|(rows, depth)| laid_out(rows, depth));
    // A name outside of the text, which comes between 1 and 3.
    let named = [laid_out(rows + 1, 3), laid_out(few, depth + 1)].map(|table| Table { names: vec![[0, 1]], ..table });
    // A bad row behind the one that is too deep, and a row of a result before it.
    let mut bad = laid_out(few, depth + 1);
    bad.rows[few - 1][1] = 1;
    let mut made = laid_out(few, depth + 1);
    made.rows[5][..2].copy_from_slice(&[12, 1]);
    wide.into_iter().chain(deep).chain(both).chain(named).chain([bad, made]).collect()
}
