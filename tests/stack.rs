//! How much stack a conversion takes, through the C entries as a host links them: the deepest tables that are accepted,
//! with 64, 1,024 and 16,384 rows, the most for which the local arrays have the same size; and as a tablet, with the
//! 512 rows and the depth that it takes at most. And how much it takes to make names: for the longest list of bindings,
//! over the most names, and over such that block them.
//!
//! `.ci/run` says how it is built, with the package of host/.
//!
//! Each table is converted in a thread whose stack is that of its size below, what the thread itself needs included, and
//! each list named in one of 1 MiB; one that needs more ends the test by a signal. The word `measure` as an argument
//! prints the least stack that each of them needs, in steps of 4 KiB.

use std::process::{Command, ExitCode};

use thawcopper::{make_names_into, raw, Binding, Kind, NameCounts, Node, Options, Switches, Table, Use};

/// A caller's tables of a size: their rows, the depth down to which they are nested, and the stack in which every one
/// of them is converted, in KiB.
struct Size {
    tablet: bool,
    rows: usize,
    deepest: usize,
    stack: usize,
}

/// The print room's, and a tablet's, whose stack the header tells.
const SIZES: [Size; 4] = [
    Size { tablet: false, rows: 64, deepest: 128, stack: 128 },
    Size { tablet: false, rows: 1_024, deepest: 128, stack: 256 },
    Size { tablet: false, rows: 16_384, deepest: 128, stack: 1_024 },
    Size { tablet: true, rows: 512, deepest: 32, stack: 192 },
];

const HEADER: &str = include_str!("../host/include/thawcopper.h");

/// A statement that reads `this` in an arrow.
fn reads_this() -> Node {
    Node::statement(Node::arrow([], Node::this()))
}

/// A statement at depth 1 that nests `shape` down to that depth.
fn nest(shape: &str, depth: usize) -> Node {
    let around = |count: usize, inner: Node, wrap: fn(Node) -> Node| (0..count).fold(inner, |inner, _| wrap(inner));
    let expression = |wrap: fn(Node) -> Node| Node::statement(around(depth - 2, Node::this(), wrap));
    match shape {
        "arrows" => expression(|inner| Node::arrow([], inner)),
        "async arrows" => expression(|inner| Node::arrow([], inner).async_()),
        "calls" => expression(|inner| Node::call(inner, [])),
        "members" => expression(|inner| Node::member(inner, "a")),
        "blocks" => around(depth - 3, reads_this(), |inner| Node::block([inner])),
        "functions" => around((depth - 3) / 2, reads_this(), |inner| Node::function([], [inner]).declaration()),
        _ => unreachable!(),
    }
}

/// A Program that nests `shape` as deep as the size allows, and has just its rows.
fn table(shape: &str, size: &Size) -> Table {
    let rows = size.rows;
    let with = |depth: usize, more: usize| {
        let statements = (0..more / 2).map(|_| Node::statement(Node::this()));
        let last = (0..more % 2).map(|_| Node::new(Kind::Return));
        Table::from_tree(&Node::program(std::iter::once(nest(shape, depth)).chain(statements).chain(last)))
    };
    let depth = (3..=size.deepest).rev().find(|depth| with(*depth, 0).rows().len() <= rows).unwrap();
    with(depth, rows - with(depth, 0).rows().len())
}

const SHAPES: [&str; 6] = ["arrows", "async arrows", "calls", "members", "blocks", "functions"];

fn modes() -> [(&'static str, Switches); 3] {
    let switches = |arrow, moved| Switches { arrow, async_to_generator: moved, async_generator_functions: moved };
    [("Disabled", switches(false, false)), ("AsyncOnly", switches(false, true)), ("Enabled", switches(true, true))]
}

/// Converts in a thread of that stack: with much room and with just enough, for which the library counts first; and as
/// the print room by each of its two entries.
fn run(shape: &str, size: &Size, switches: Switches, stack: usize) -> raw::Answer {
    let (table, count, tablet) = (table(shape, size), size.rows, size.tablet);
    let thread = std::thread::Builder::new().stack_size(stack).spawn(move || {
        let (rows, names, text) = (table.row_bytes(), table.name_bytes(), table.text_bytes());
        let options = Options::new(switches).tablet(tablet).bits();
        let call = |rows_lent: usize, bindings_lent: usize| {
            let (mut out_rows, mut bindings) = (vec![0u8; 16 * rows_lent], vec![0u8; 12 * bindings_lent]);
            let answer = raw::convert_with(options, rows, names, text, &mut out_rows, &mut bindings);
            if !tablet {
                assert_eq!(raw::convert(&switches, rows, names, text, &mut out_rows, &mut bindings), answer);
            }
            answer
        };
        let answer = call(20 * count, count);
        assert_eq!(call(answer.rows as usize, answer.bindings as usize), answer);
        answer
    });
    thread.unwrap().join().unwrap()
}

/// The stack in which every list is named, in KiB; the header tells it.
const NAMING: usize = 1_024;

/// A list of bindings, over so many names: captures of `this`, or accessors of the names by turns.
struct List {
    what: &'static str,
    bindings: usize,
    names: usize,
    name: fn(usize) -> String,
    purpose: Use,
}

/// The longest, and for what `measure` prints some that are shorter.
const LISTS: [List; 8] = [
    List { what: "captures", bindings: 64, names: 64, name: own, purpose: Use::This },
    List { what: "captures", bindings: 512, names: 512, name: own, purpose: Use::This },
    List { what: "captures", bindings: 16_383, names: 4_096, name: own, purpose: Use::This },
    List { what: "captures", bindings: 65_535, names: 0, name: own, purpose: Use::This },
    List { what: "captures", bindings: 65_535, names: 4_096, name: own, purpose: Use::This },
    List { what: "blocked captures", bindings: 65_535, names: 4_096, name: blocking, purpose: Use::This },
    List { what: "accessors", bindings: 65_535, names: 4_096, name: own, purpose: Use::Get },
    List { what: "long accessors", bindings: 65_535, names: 257, name: long, purpose: Use::Set },
];

fn own(n: usize) -> String {
    format!("property{n:04}")
}

fn blocking(n: usize) -> String {
    if n == 0 {
        "_this".to_string()
    } else {
        format!("_this{}", n + 1)
    }
}

/// 255 bytes.
fn long(n: usize) -> String {
    format!("{}{n:04}", "x".repeat(251))
}

/// Makes the names of a list in a thread of that stack, with so much room for each, and then with a byte less.
fn name(list: &List, stack: usize) -> NameCounts {
    let mut table = Table::default();
    for n in 0..list.names {
        table.add_name(&(list.name)(n));
    }
    let count = list.bindings;
    let property = |n: usize| if list.purpose == Use::This { 0 } else { 1 + (n % list.names) as u32 };
    let binding = |n: usize| Binding { purpose: list.purpose, property: property(n), frame: (n % 16_384) as u32 };
    let bindings = Binding::bytes(&(0..count).map(binding).collect::<Vec<_>>());
    let (mut pairs, mut text) = (vec![0; 8 * count], vec![0; 274 * count]);
    let thread = std::thread::Builder::new().stack_size(stack).spawn(move || {
        let counts = make_names_into(&bindings, &table, &mut pairs, &mut text).unwrap();
        assert!(make_names_into(&bindings, &table, &mut pairs, &mut text[..counts.bytes - 1]).is_err());
        counts
    });
    thread.unwrap().join().unwrap()
}

/// Whether a process of its own ends well, told these words and that stack.
fn enough(words: &[usize], stack: usize) -> bool {
    let me = std::env::current_exe().unwrap();
    let words = words.iter().chain([&stack]).map(|x| x.to_string());
    Command::new(me).args(words).stderr(std::process::Stdio::null()).status().unwrap().success()
}

/// The least stack in which that is so, in KiB.
fn least(words: &[usize]) -> usize {
    let (mut low, mut high) = (1, 512);
    while low < high {
        let mid = (low + high) / 2;
        if enough(words, mid * 4_096) {
            high = mid
        } else {
            low = mid + 1
        }
    }
    4 * low
}

/// Names every list, or measures it.
fn lists(measure: bool) {
    let told = "a thread of 1 MiB has that too";
    assert!(NAMING == 1_024 && HEADER.contains(told), "the header does not tell that {told}");
    for (l, list) in LISTS.iter().enumerate() {
        let List { what, bindings, names, .. } = list;
        if measure {
            println!("{what:16} {bindings:6} bindings {names:5} names {:5} KiB", least(&[l]));
        } else {
            assert_eq!(name(list, NAMING * 1_024).pairs, *bindings, "{what} {bindings} {names}");
        }
    }
    if !measure {
        println!("{} lists of bindings named, each in {NAMING} KiB", LISTS.len());
    }
}

fn main() -> ExitCode {
    let words: Vec<String> = std::env::args().skip(1).collect();
    let numbers: Vec<usize> = words.iter().filter_map(|w| w.parse().ok()).collect();
    match numbers[..] {
        [shape, size, mode, stack] => {
            let answer = run(SHAPES[shape], &SIZES[size], modes()[mode].1, stack);
            return ExitCode::from((answer.refusal != 0) as u8);
        }
        [list, stack] => {
            name(&LISTS[list], stack);
            return ExitCode::SUCCESS;
        }
        _ => {}
    }
    let measure = words.iter().any(|w| w == "measure");
    let mut tables = 0;
    for (s, shape) in SHAPES.iter().enumerate() {
        for (z, size) in SIZES.iter().enumerate() {
            let rows = size.rows;
            let told = format!("a stack of {} KiB is enough", size.stack);
            assert!(!size.tablet || HEADER.contains(&told), "the header does not tell of {told}");
            for (m, (mode, switches)) in modes().into_iter().enumerate() {
                if measure {
                    let caller = if size.tablet { "tablet" } else { "print room" };
                    println!("{shape:14} {rows:6} rows {caller:10} {mode:10} {:5} KiB", least(&[s, z, m]));
                    continue;
                }
                let answer = run(shape, size, switches, size.stack * 1_024);
                assert_eq!((answer.refusal, answer.place), (0, 0), "{shape} {rows} {mode}");
                assert!(answer.rows as usize >= rows, "{shape} {rows} {mode}");
                tables += 1;
            }
        }
    }
    if !measure {
        println!("{tables} deep tables converted, each in the stack of its size");
    }
    lists(measure);
    ExitCode::SUCCESS
}
