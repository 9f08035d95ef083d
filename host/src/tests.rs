use super::*;

fn reads_this() -> Node {
    Node::statement(Node::arrow([], Node::this()))
}

fn sheet() -> Table {
    Table::from_tree(&Node::program([reads_this()]))
}

fn rows(list: &[[u32; 4]]) -> Vec<Row> {
    list.iter().map(|&[kind, attr, name, end]| Row { kind, attr, name, end }).collect()
}

/// A class with one method, async.
fn in_async_method(statements: impl IntoIterator<Item = Node>) -> Table {
    let method = Node::method(Node::function([], statements).async_());
    Table::from_tree(&Node::program([Node::class(None, [method]).declaration()]))
}

/// A class with a constructor.
fn in_constructor(statements: impl IntoIterator<Item = Node>) -> Table {
    let class = Node::class(Some(Node::ident("B")), [Node::constructor([], statements)]);
    Table::from_tree(&Node::program([class.declaration()]))
}

#[test]
fn the_sheet() {
    let table = sheet();
    assert_eq!(table.rows(), rows(&[[0, 0, 0, 5], [1, 0, 0, 5], [16, 2, 0, 5], [18, 0, 0, 4], [9, 0, 0, 5]]));
    let converted = convert(&Switches::ARROWS, &table).unwrap();
    assert_eq!(
        converted.rows,
        rows(&[
            [0, 0, 0, 10],
            [2, 0, 0, 4],
            [3, 1, 1, 4],
            [9, 0, 0, 4],
            [1, 0, 0, 10],
            [17, 0, 0, 10],
            [18, 0, 0, 7],
            [19, 0, 0, 10],
            [4, 0, 0, 10],
            [11, 1, 1, 10],
        ])
    );
    assert_eq!(converted.bindings, [Binding { purpose: Use::This, property: 0, frame: 0 }]);
    assert_eq!(convert(&Switches::OFF, &table).unwrap().rows, table.rows());
}

#[test]
fn room_grows_as_needed() {
    // An async method that reads and assigns 500 properties of super: the result has several times the rows.
    let statements = (0..500).flat_map(|n| {
        let name = format!("property{}", n);
        let read = Node::call(Node::member(Node::super_(), &name), []);
        let assigned = Node::assign(Node::member(Node::super_(), &name), Node::this());
        [Node::statement(read), Node::statement(assigned)]
    });
    let table = in_async_method(statements);
    let converted = convert(&Switches::ASYNC, &table).unwrap();
    assert!(converted.rows.len() > 2 * table.rows().len());
    assert_eq!(converted.bindings.len(), 1 + 3 * 500);
    assert_eq!(converted.base_text(&table, 1).unwrap(), "superprop_getProperty0");
    let mut rows = vec![0; converted.rows.len() * 16];
    let mut bindings = vec![0; converted.bindings.len() * 12];
    assert!(convert_into(&Switches::ASYNC, &table, &mut rows, &mut bindings).is_ok());
    assert_eq!(Row::list(&rows), converted.rows);
    assert_eq!(Binding::list(&bindings), converted.bindings);
    assert_eq!(Binding::bytes(&converted.bindings), bindings);
    let short = rows.len() - 1;
    assert_eq!(convert_into(&Switches::ASYNC, &table, &mut rows[..short], &mut bindings), Err(Refusal::NoRoom));
}

#[test]
fn every_refusal_of_convert() {
    let refusal = |switches: &Switches, tree: Node| convert(switches, &Table::from_tree(&tree)).unwrap_err();
    assert_eq!(convert(&Switches::OFF, &Table::default()), Err(Refusal::Sizes));
    let parent = Parent { row: 0, kind: Kind::Program, attr: 0, child: 1 };
    let fault = Fault::Place { kind: Kind::This, misfit: Misfit::Under { parent } };
    assert_eq!(refusal(&Switches::OFF, Node::program([Node::this()])), Refusal::BadRow { row: 1, fault });
    let deep = (0..128).fold(Node::this(), |inner, _| Node::computed(inner, Node::this()));
    assert_eq!(refusal(&Switches::OFF, Node::program([Node::statement(deep)])), Refusal::TooDeep { row: 129 });
    assert_eq!(
        refusal(&Switches::OFF, Node::program([Node::statement(Node::ident(""))])),
        Refusal::BadName { name: 1 }
    );
    assert_eq!(
        refusal(&Switches::OFF, Node::program([Node::statement(Node::new(Kind::Arguments))])),
        Refusal::MadeRow { row: 2 }
    );
    let called = Node::call(Node::super_(), []);
    assert_eq!(refusal(&Switches::ARROWS, Node::program([Node::statement(called)])), Refusal::Super { row: 3 });
    let class = Node::class(None, [Node::field(Some(Node::arrow([], Node::this())))]).declaration();
    assert_eq!(refusal(&Switches::ASYNC, Node::program([class])), Refusal::Field { row: 2 });
    let var = Node::var([Node::declarator("arguments", None)]);
    assert_eq!(refusal(&Switches::ASYNC, Node::program([var])), Refusal::ArgumentsBinding { row: 2 });
}

#[test]
fn every_refusal_of_base_text() {
    let mut table = Table::default();
    let name = table.add_name("一");
    let get = |property| [Binding { purpose: Use::Get, property, frame: 0 }];
    assert_eq!(base_text(&get(0), &table, 1).unwrap(), "superprop_get");
    assert_eq!(base_text(&get(name), &table, 1), Err(Refusal::UnknownLetter { binding: 1 }));
    assert_eq!(base_text(&get(2), &table, 1), Err(Refusal::BadBinding { binding: 1 }));
    assert_eq!(base_text(&get(0), &table, 0), Err(Refusal::BadBinding { binding: 0 }));
    let long = "ÿ".repeat(127);
    let property = table.add_name(&long);
    assert_eq!(base_text(&get(property), &table, 1).unwrap(), format!("superprop_getŸ{}", &long[2..]));
    table.add_name(&"x".repeat(256));
    assert_eq!(base_text(&get(0), &table, 1), Err(Refusal::BadName { name: 3 }));
    let odd = Table::from_bytes(Vec::new(), vec![0; 4], Vec::new());
    assert_eq!(base_text(&get(0), &odd, 1), Err(Refusal::Sizes));
}

fn this(frame: u32) -> Binding {
    Binding { purpose: Use::This, property: 0, frame }
}

fn get(property: u32) -> Binding {
    Binding { purpose: Use::Get, property, frame: 0 }
}

fn set(property: u32) -> Binding {
    Binding { purpose: Use::Set, property, frame: 0 }
}

fn named(bindings: &[Binding], table: &Table) -> Vec<String> {
    let names = make_names(bindings, table).unwrap();
    assert!(names.text().len() <= names::room(bindings, table));
    assert_eq!((names.len(), names.is_empty()), (bindings.len(), bindings.is_empty()));
    // In just the room that they need, and with a byte less each way.
    let (records, lengths) = (Binding::bytes(bindings), [names.pair_bytes().len(), names.text().len()]);
    let into = |pairs_lent: usize, text_lent: usize| {
        let (mut pairs, mut text) = (vec![165; pairs_lent], vec![165; text_lent]);
        let counts = make_names_into(&records, table, &mut pairs, &mut text);
        (counts, pairs, text)
    };
    let (counts, pairs, text) = into(lengths[0] + 7, lengths[1] + 1);
    assert_eq!(counts, Ok(NameCounts { pairs: bindings.len(), bytes: lengths[1] }));
    assert_eq!(pairs, [names.pair_bytes(), &[165; 7]].concat());
    assert_eq!(text, [names.text().as_bytes(), &[165]].concat());
    if !bindings.is_empty() {
        for (less_pairs, less_text) in [(1, 0), (0, 1)] {
            let (counts, pairs, text) = into(lengths[0] - less_pairs, lengths[1] - less_text);
            assert_eq!(counts, Err(Refusal::NoRoom));
            assert!(pairs.iter().chain(&text).all(|byte| *byte == 165));
        }
    }
    let list: Vec<String> = names.iter().map(str::to_string).collect();
    assert_eq!(list.concat(), names.text());
    list
}

#[test]
fn names_are_numbered_where_they_are_taken() {
    let mut table = Table::default();
    assert_eq!(named(&[], &table), [""; 0]);
    assert_eq!(named(&[this(0), this(1), this(1)], &table), ["_this", "_this2", "_this3"]);
    let [p, p2, sharp] = ["p", "p2", "\u{df}"].map(|name| table.add_name(name));
    table.add_name("_this");
    table.add_name("_this02");
    table.add_name("_this3");
    table.add_name("_superprop_getP3");
    assert_eq!(named(&[this(0), this(1)], &table), ["_this2", "_this4"]);
    let list = [get(p), get(p2), get(p), get(p), set(sharp), get(0), Binding { purpose: Use::Arguments, ..this(0) }];
    let wanted = [
        "_superprop_getP",
        "_superprop_getP2",
        "_superprop_getP4",
        "_superprop_getP5",
        "_superprop_setSS",
        "_superprop_get",
        "_arguments",
    ];
    assert_eq!(named(&list, &table), wanted);
    assert_eq!(named(&[get(p), get(p), get(p2)], &table)[1..], ["_superprop_getP2", "_superprop_getP22"]);
}

#[test]
fn the_longest_and_the_most_names() {
    // A property of 255 bytes, and names that are taken up to a number of 4 digits.
    let mut table = Table::default();
    let long = table.add_name(&format!("{}x", "ß".repeat(127)));
    let list = named(&vec![set(long); 1_200], &table);
    let base = format!("_superprop_setSS{}x", "ß".repeat(126));
    assert_eq!((&list[0], base.len()), (&base, 269));
    assert_eq!(list[1_199], format!("{}1200", base));
    // As many bindings as may be, as many names as may be, and a number of 5 digits.
    let mut table = Table::default();
    table.add_name("_this");
    for number in 2..=4_096 {
        table.add_name(&format!("_this{}", number));
    }
    let list = named(&vec![this(16_383); 65_535], &table);
    assert_eq!([&list[0], &list[65_534]], ["_this4097", "_this69631"]);
    assert_eq!(make_names(&vec![this(0); 65_536], &table), Err(Refusal::Sizes));
    table.add_name("one more");
    assert_eq!(make_names(&[], &table), Err(Refusal::Sizes));
}

#[test]
fn every_refusal_of_made_names() {
    let mut table = Table::default();
    let (greek, a) = (table.add_name("\u{3b1}"), table.add_name("a"));
    assert_eq!(named(&[get(a)], &table), ["_superprop_getA"]);
    // 11 and 10 by the binding.
    assert_eq!(make_names(&[get(a), get(greek), get(3)], &table), Err(Refusal::UnknownLetter { binding: 2 }));
    assert_eq!(make_names(&[get(a), get(3), get(greek)], &table), Err(Refusal::BadBinding { binding: 2 }));
    assert_eq!(make_names(&[this(0), this(16_384)], &table), Err(Refusal::BadBinding { binding: 2 }));
    // 9 behind them.
    let short = |bindings: &[Binding]| make_names_into(&Binding::bytes(bindings), &table, &mut [], &mut []);
    assert_eq!(short(&[this(0), get(greek)]), Err(Refusal::UnknownLetter { binding: 2 }));
    assert_eq!(short(&[this(0)]), Err(Refusal::NoRoom));
    assert_eq!(short(&[]), Ok(NameCounts { pairs: 0, bytes: 0 }));
    // 1 and 4 before them, and without a binding too.
    assert_eq!(make_names_into(&[1; 11], &table, &mut [], &mut []), Err(Refusal::Sizes));
    table.add_name("");
    assert_eq!(make_names(&[get(greek)], &table), Err(Refusal::BadName { name: 3 }));
    assert_eq!(make_names(&[], &table), Err(Refusal::BadName { name: 3 }));
    let odd = Table::from_bytes(Vec::new(), vec![0; 4], Vec::new());
    assert_eq!(make_names(&[], &odd), Err(Refusal::Sizes));
}

#[test]
fn the_examples_of_the_format_page() {
    let mut table = Table::default();
    assert_eq!((table.add_name("_this"), table.add_name("p")), (1, 2));
    let records = [this(0), get(2), this(4), Binding { frame: 4, ..get(2) }];
    assert_eq!(named(&records[..1], &table), ["_this2"]);
    let names = make_names(&records, &table).unwrap();
    assert_eq!(names.text(), "_this2_superprop_getP_this3_superprop_getP2");
    let pairs: Vec<u8> = [0u32, 6, 6, 15, 21, 6, 27, 16].iter().flat_map(|word| word.to_le_bytes()).collect();
    assert_eq!(names.pair_bytes(), pairs);
    let bad = [Binding { purpose: Use::Arguments, ..this(0) }, Binding { property: 1, ..this(0) }];
    assert_eq!(make_names(&bad, &table), Err(Refusal::BadBinding { binding: 2 }));
    let part = |attr, number| {
        let (names_lent, text) = (table.name_bytes(), table.text_bytes());
        let part = raw::spelling(attr, number, names_lent, text, &pairs, names.text().as_bytes());
        [part.refusal, part.start, part.bytes]
    };
    assert_eq!([part(0, 2), part(1, 1), part(1, 4)], [[0, 5, 1], [0, 0, 6], [0, 27, 16]]);
    assert_eq!([part(0, 3), part(1, 0), part(2, 1)], [[raw::NO_SPELLING, 0, 0]; 3]);
}

#[test]
fn the_bad_rows_of_the_format_page() {
    let page = include_str!("../../docs/FORMAT.md");
    let (_, behind) = page.split_once("| rows (kind attr name end) | answer | why |\n|---|---|---|\n").unwrap();
    let lines: Vec<Vec<&str>> = behind
        .lines()
        .take_while(|line| !line.is_empty())
        .map(|line| line.split('|').map(str::trim).collect())
        .collect();
    assert!(lines.len() >= 10);
    for line in lines {
        let words = line[1].split(|c: char| !c.is_ascii_digit()).filter(|word| !word.is_empty());
        let rows = words.flat_map(|word| word.parse::<u32>().unwrap().to_le_bytes()).collect();
        let refusal = convert(&Switches::OFF, &Table::from_bytes(rows, Vec::new(), Vec::new())).err();
        let (number, place) = refusal.map_or((0, 0), Refusal::numbers);
        assert_eq!(line[2], format!("{}, place {}", number, place), "{}", line[1]);
    }
}

#[test]
fn the_spelling_of_a_row() {
    // class { async m(_this) { super.p(a); } }, without a name for the class or the method
    let call = Node::call(Node::member(Node::super_(), "p"), [Node::ident("a")]);
    let function = Node::function([Node::declarator("_this", None)], [Node::statement(call)]).async_();
    let class = Node::class(None, [Node::method(function)]).declaration();
    let table = Table::from_tree(&Node::program([class]));
    let converted = convert(&Switches::ASYNC, &table).unwrap();
    let names = converted.names(&table).unwrap();
    assert_eq!(format!("{:?}", names), r#"["_superprop_getP", "_this2"]"#);
    assert_eq!([0, 1, 2, 3, u32::MAX].map(|n| names.get(n).is_some()), [false, true, true, false, false]);
    let mut iter = names.iter();
    assert_eq!((iter.len(), iter.next(), iter.len()), (2, Some("_superprop_getP"), 1));
    assert_eq!((iter.next(), iter.next(), iter.next(), iter.len()), (Some("_this2"), None, None, 0));
    let spelled: Vec<(Kind, &str)> = converted
        .rows
        .iter()
        .filter_map(|row| names.spelling(&table, row).map(|spelled| (row.kind().unwrap(), spelled)))
        .collect();
    use Kind::{Declarator, Ident};
    let wanted = [
        (Declarator, "_this"),
        (Declarator, "_superprop_getP"),
        (Declarator, "_this2"),
        (Ident, "_superprop_getP"),
        (Ident, "_this2"),
        (Ident, "a"),
    ];
    assert_eq!(spelled, wanted);
    // Numbers and attrs that are none, and rows that are not spelled so.
    let row = |kind: u32, attr, name| Row { kind, attr, name, end: 1 };
    assert_eq!(names.spelling(&table, &row(11, 0, 1)), Some("_this"));
    for (attr, name) in [(0, 0), (0, 4), (1, 0), (1, 3), (2, 1), (u32::MAX, 1), (1, u32::MAX)] {
        assert_eq!(names.spelling(&table, &row(11, attr, name)), None);
    }
    for kind in [0, 8, 12, 17, 20, 99] {
        assert_eq!(names.spelling(&table, &row(kind, 0, 1)), None);
    }
    // Over another table: what is no text is not spelled.
    let other = Table::from_bytes(
        Vec::new(),
        [[0u32, 1], [0, 3], [1, 0]].concat().iter().flat_map(|w| w.to_le_bytes()).collect(),
        vec![0xFF],
    );
    assert_eq!([1, 2, 3].map(|n| names.spelling(&other, &row(11, 0, n))), [None, None, Some("")]);
}

#[test]
fn refusals_have_numbers_and_words() {
    let table = sheet();
    for number in 1..30 {
        let refusal = Refusal::from_numbers(number, 7, &table).unwrap();
        let place = if number == 1 || number == 9 { 0 } else { 7 };
        assert_eq!(refusal.numbers(), (number, place));
        let words = refusal.to_string();
        assert!(place == 0 || words.contains('7'), "{}", words);
        // 2 is retired, and the table has no row 7.
        let known = matches!(number, 1 | 3..=11);
        assert_eq!(refusal == Refusal::Unknown { number, place: 7 }, !known, "{}", number);
    }
    assert_eq!(Refusal::from_numbers(0, 0, &table), None);
    // Both callers' limits, since a refusal does not know its caller.
    let sizes = Refusal::Sizes.to_string();
    assert!(sizes.contains("1 to 16384 rows, or to 512 on a tablet"), "{}", sizes);
    assert_eq!(Refusal::TooDeep { row: 33 }.to_string(), "row 33: nested deeper than 128, or than 32 on a tablet");
}

/// The tables of tools/row_sentences, with the number, the row and the sentence of each.
fn bad_rows() -> Vec<(Table, u32, u32, &'static str)> {
    let is_told = |line: &&str| !line.is_empty() && !line.starts_with('#');
    let lines: Vec<&str> = include_str!("../../tools/row_sentences").lines().filter(is_told).collect();
    let entry = |pair: &[&'static str]| {
        let (names, rows) = pair[0].strip_prefix("names ").unwrap().split_once(" rows ").unwrap();
        let names = (0..names.parse().unwrap()).flat_map(|start: u32| [start, 1]);
        let words = rows.split(", ").flat_map(|row| row.split(' ')).map(|word| word.parse().unwrap());
        let bytes = |words: Vec<u32>| words.into_iter().flat_map(u32::to_le_bytes).collect::<Vec<u8>>();
        let table = Table::from_bytes(bytes(words.collect()), bytes(names.collect()), vec![b'a'; 4_096]);
        let (number, sentence) = pair[1].split_once(' ').unwrap();
        let row = sentence.strip_prefix("row ").unwrap().split_once(':').unwrap().0;
        (table, number.parse().unwrap(), row.parse().unwrap(), sentence)
    };
    lines.chunks(2).map(entry).collect()
}

fn is_unknown(number: u32, place: u32, table: &Table) -> bool {
    Refusal::from_numbers(number, place, table) == Some(Refusal::Unknown { number, place })
}

#[test]
fn each_bad_row_has_its_sentence() {
    let list = bad_rows();
    assert!(list.len() >= 190);
    for (table, number, row, sentence) in list {
        let refusal = Refusal::from_numbers(number, row, &table).unwrap();
        assert_eq!(refusal.to_string(), sentence);
        assert_eq!(refusal.numbers(), (number, row), "{}", sentence);
        assert!(matches!(refusal, Refusal::BadRow { fault, .. } if fault.number() == number), "{}", sentence);
        assert_eq!(convert(&Switches::OFF, &table), Err(refusal), "{}", sentence);
        // The row has no fault of a lower number, as far as it is looked for; a row without a kind has no other.
        let others = if number == 21 { 22..26 } else { 21..number };
        for other in others.filter(|other| number == 21 || *other != 24) {
            assert!(is_unknown(other, row, &table), "{} of {}", other, sentence);
        }
    }
}

#[test]
fn a_row_that_shows_no_fault_is_unknown() {
    // Sound rows. Whether a parent can hold its child is not looked at again.
    let mut table = in_async_method([reads_this(), Node::statement(Node::ident("a"))]);
    table.add_name("b");
    for number in 21..=25 {
        for place in 0..table.rows().len() as u32 {
            assert_eq!(is_unknown(number, place, &table), number != 24 || place == 0, "{} {}", number, place);
        }
    }
    // No such row, and no rows.
    for place in [13, 14, u32::MAX - 1, u32::MAX] {
        assert!((20..30).all(|number| is_unknown(number, place, &table)));
    }
    assert!((20..30).all(|number| is_unknown(number, 0, &Table::default())));
    // A parent without a kind, and none.
    for end in [2, 1] {
        let words: [u32; 8] = [7, 0, 0, end, 4, 1, 1, 0];
        let table =
            Table::from_bytes(words.iter().flat_map(|word| word.to_le_bytes()).collect(), Vec::new(), Vec::new());
        assert!((22..=25).all(|number| is_unknown(number, 1, &table)));
    }
}

#[test]
fn any_bytes_have_a_refusal() {
    // Words that are often right, from a simple generator.
    let mut state = 1u64;
    let mut next = move |below: u64| {
        state = state.wrapping_mul(6_364_136_223_846_793_005).wrapping_add(1_442_695_040_888_963_407);
        (state >> 33) % below
    };
    for size in 0..2_000 {
        let mut bytes = Vec::new();
        for _ in 0..size % 12 {
            for below in [31, 18, 4, 14] {
                let word = if next(20) == 0 { u32::MAX - next(3) as u32 } else { next(below) as u32 };
                bytes.extend_from_slice(&word.to_le_bytes());
            }
        }
        bytes.extend(std::iter::repeat(0).take(size % 16));
        let table = Table::from_bytes(bytes, vec![0; size % 40], Vec::new());
        for number in 21..=25 {
            for place in (0..14).chain([u32::MAX]) {
                let refusal = Refusal::from_numbers(number, place, &table).unwrap();
                assert_eq!(refusal.numbers(), (number, place));
                assert!(!refusal.to_string().is_empty());
            }
        }
    }
}

#[test]
fn options_are_bits_of_one_word() {
    for bits in 0..16 {
        let on = |bit: u32| bits & bit != 0;
        let switches = Switches {
            arrow: on(raw::ARROW),
            async_to_generator: on(raw::ASYNC_TO_GENERATOR),
            async_generator_functions: on(raw::ASYNC_GENERATORS),
        };
        let options = Options::new(switches).tablet(on(raw::TABLET));
        assert_eq!((options.bits(), options.switches, options.tablet), (bits, switches, on(8)));
        assert_eq!(options.tablet(false), Options::from(switches));
    }
    assert_eq!(Options::default(), Options::new(Switches::OFF));
    assert_eq!(Options::default(), Options { switches: Switches::default(), tablet: false });
}

/// What the print room answers, and what a tablet does, by every function that converts.
fn by_callers(switches: &Switches, table: &Table) -> [Result<Converted, Refusal>; 2] {
    [false, true].map(|tablet| {
        let options = Options::new(*switches).tablet(tablet);
        let found = convert_with(&options, table);
        let (rows, bindings) = found.as_ref().map_or((4, 2), |whole| (whole.rows.len(), whole.bindings.len()));
        let (mut out_rows, mut out_bindings) = (vec![165; 16 * rows], vec![165; 12 * bindings]);
        let counts = convert_into_with(&options, table, &mut out_rows, &mut out_bindings);
        match &found {
            Ok(whole) => {
                assert_eq!(counts, Ok(Counts { rows, bindings }));
                assert_eq!(Row::list(&out_rows), whole.rows);
                assert_eq!(Binding::list(&out_bindings), whole.bindings);
            }
            Err(refusal) => {
                assert_eq!(counts, Err(*refusal));
                assert!(out_rows.iter().chain(&out_bindings).all(|byte| *byte == 165));
            }
        }
        if !tablet {
            let (mut same_rows, mut same_bindings) = (vec![165; 16 * rows], vec![165; 12 * bindings]);
            assert_eq!(convert_into(switches, table, &mut same_rows, &mut same_bindings), counts);
            assert_eq!((same_rows, same_bindings), (out_rows, out_bindings));
            assert_eq!(convert(switches, table), found);
        }
        found
    })
}

const MODES: [Switches; 5] = [
    Switches::OFF,
    Switches::ASYNC,
    Switches { async_generator_functions: false, ..Switches::ASYNC },
    Switches { async_to_generator: false, ..Switches::ASYNC },
    Switches::ARROWS,
];

#[test]
fn rows_at_the_limit_of_each_caller() {
    // () => this; and Returns behind it
    let wide = |rows: usize| {
        let returns = (5..rows).map(|_| Node::new(Kind::Return));
        let table = Table::from_tree(&Node::program(std::iter::once(reads_this()).chain(returns)));
        assert_eq!(table.rows().len(), rows);
        table
    };
    for switches in MODES {
        for rows in [511, 512] {
            let [print_room, tablet] = by_callers(&switches, &wide(rows));
            assert_eq!(tablet, print_room);
            assert!(tablet.unwrap().rows.len() >= rows);
        }
        for rows in [513, 16_384] {
            let [print_room, tablet] = by_callers(&switches, &wide(rows));
            assert_eq!(tablet, Err(Refusal::Sizes));
            assert!(print_room.unwrap().rows.len() >= rows);
        }
        assert_eq!(by_callers(&switches, &wide(16_385)), [Err(Refusal::Sizes), Err(Refusal::Sizes)]);
    }
}

#[test]
fn depth_at_the_limit_of_each_caller() {
    // A Return, then `this` in arrows: `this` has the depth, and stands behind the Params of the last arrow, which are
    // as deep.
    let deep = |depth: usize| {
        let nested = (0..depth - 2).fold(Node::this(), |inner, _| Node::arrow([], inner));
        Table::from_tree(&Node::program([Node::new(Kind::Return), Node::statement(nested)]))
    };
    for switches in MODES {
        for depth in [31, 32] {
            let [print_room, tablet] = by_callers(&switches, &deep(depth));
            assert_eq!(tablet, print_room);
            assert!(tablet.is_ok());
        }
        for depth in [33, 128] {
            let [print_room, tablet] = by_callers(&switches, &deep(depth));
            assert_eq!(tablet, Err(Refusal::TooDeep { row: 64 }));
            assert!(print_room.is_ok());
        }
        let refused = [Refusal::TooDeep { row: 256 }, Refusal::TooDeep { row: 64 }];
        assert_eq!(by_callers(&switches, &deep(129)), refused.map(Err));
    }
}

#[test]
fn what_a_tablet_accepts_is_the_same_in_the_print_room() {
    let called = || Node::statement(Node::call(Node::super_(), []));
    let access = || Node::member(Node::super_(), "p");
    let moved = Node::arrow([], Node::call(Node::ident("f"), [Node::ident("arguments"), Node::this()])).async_();
    let tables = [
        sheet(),
        Table::from_tree(&Node::program([Node::statement(moved)])),
        in_async_method([Node::statement(Node::call(access(), [Node::this()]))]),
        in_async_method([Node::statement(Node::assign(access(), Node::arrow([], Node::this())))]),
        in_constructor([called(), reads_this()]),
        in_constructor([Node::return_(Node::sequence([Node::call(Node::super_(), []), access()])), reads_this()]),
    ];
    for table in tables {
        for switches in MODES {
            let [print_room, tablet] = by_callers(&switches, &table);
            assert!(tablet.is_ok());
            assert_eq!(tablet, print_room);
        }
    }
    // And so is what it refuses, unless it is at its own limits.
    let outside = Table::from_tree(&Node::program([Node::statement(access())]));
    assert_eq!(
        by_callers(&Switches::ARROWS, &outside),
        [Err(Refusal::Super { row: 3 }), Err(Refusal::Super { row: 3 })]
    );
}

#[test]
fn a_result_may_have_more_rows_than_a_tablet_takes() {
    // 127 times `() => this`: a row and 4 for each become a row, a Var of 3 and 6 for each.
    let table = Table::from_tree(&Node::program((0..127).map(|_| reads_this())));
    assert_eq!(table.rows().len(), 509);
    let [print_room, tablet] = by_callers(&Switches::ARROWS, &table);
    assert_eq!(tablet, print_room);
    let converted = tablet.unwrap();
    assert_eq!((converted.rows.len(), converted.bindings.len()), (766, 1));
    // 125 accessors: more bindings than there is room for at first.
    let reads = (0..125).map(|n| Node::statement(Node::member(Node::super_(), &format!("p{}", n))));
    let table = in_async_method(reads);
    assert_eq!(table.rows().len(), 6 + 3 * 125);
    let [print_room, tablet] = by_callers(&Switches::ASYNC, &table);
    assert_eq!(tablet, print_room);
    assert_eq!(tablet.unwrap().rows.len(), 6 + 1 + (5 + 3) * 125);
}

#[test]
fn kinds_have_their_numbers() {
    for number in 0..40 {
        assert_eq!(Kind::from_number(number).is_some(), number <= 28 && number != 7);
    }
    assert!(Kind::ALL.windows(2).all(|pair| (pair[0] as u32) < pair[1] as u32));
}

#[test]
fn tables_are_equal_by_their_bytes() {
    let laid = Table::from_tree(&Node::program([Node::statement(Node::ident("a"))]));
    let taken = |table: &Table| {
        let (rows, names, text) = (table.row_bytes(), table.name_bytes(), table.text_bytes());
        Table::from_bytes(rows.to_vec(), names.to_vec(), text.to_vec())
    };
    assert_eq!(laid, taken(&laid));
    // Asked for or not, a name that is there changes nothing.
    let mut asked = taken(&laid);
    asked.add_name("a");
    assert_eq!(asked, laid);
    let mut more = laid.clone();
    more.add_name("b");
    assert_ne!(more, laid);
    assert_ne!(Table::from_bytes(vec![1], vec![], vec![]), Table::default());
    assert_ne!(Table::from_bytes(vec![], vec![1], vec![]), Table::default());
    assert_ne!(Table::from_bytes(vec![], vec![], vec![1]), Table::default());
}

#[test]
fn a_name_that_is_there_keeps_its_number() {
    let names: Vec<u8> = [0u32, 1, 1, 2, 0, 1, 5, 9].iter().flat_map(|word| word.to_le_bytes()).collect();
    // Names 1 and 3 are `a`, name 2 is `bc`, name 4 is not inside the text.
    let mut table = Table::from_bytes(Vec::new(), names, b"abc".to_vec());
    assert_eq!(table.add_name("bc"), 2);
    assert_eq!(table.add_name("a"), 1);
    assert_eq!(table.add_name("b"), 5);
    assert_eq!(table.add_name("b"), 5);
    assert_eq!((table.name(5), table.text_bytes()), (Some("b"), &b"abcb"[..]));
}

#[test]
fn a_tree_of_any_depth_is_the_librarys_to_refuse() {
    let members = |depth: usize| (0..depth).fold(Node::this(), |inner, _| Node::member(inner, "a"));
    let laid = |depth: usize| {
        // A stack that has no room for a frame for each level.
        let thread = std::thread::Builder::new().stack_size(128 * 1024).spawn(move || {
            let script = Node::program([Node::statement(members(depth))]);
            let table = Table::from_tree(&script);
            let copy = script.clone();
            assert!(copy == script);
            assert!(format!("{:?}", copy).ends_with(&"]".repeat(depth + 2)));
            assert!(table.tree() == Some(script));
            table
        });
        thread.unwrap().join().unwrap()
    };
    assert_eq!(convert(&Switches::ARROWS, &laid(126)).unwrap().rows.len(), 129);
    assert_eq!(convert(&Switches::ARROWS, &laid(127)), Err(Refusal::TooDeep { row: 129 }));
    assert_eq!(convert(&Switches::ARROWS, &laid(16_000)), Err(Refusal::TooDeep { row: 129 }));
    // More rows than a table may have: that is told first.
    assert_eq!(convert(&Switches::ARROWS, &laid(30_000)), Err(Refusal::Sizes));
}

#[test]
fn every_builder_makes_its_rows() {
    let value = || Node::opaque([]).attr(7).name_number(9);
    let members = vec![
        (Node::constructor([], []), "Method [Function 4 [Params, Body]]"),
        (
            Node::method(Node::function([], []).async_().generator()).static_().key(value()),
            "Method 3 [Opaque 7 #9, Function 3 [Params, Body]]",
        ),
        (Node::field(None), "Field"),
        (Node::field(Some(Node::this())).static_().key(value()), "Field 7 [Opaque 7 #9, This]"),
        (Node::static_block([Node::block([])]), "StaticBlock [Block]"),
    ];
    let parts = vec![
        (Node::property(value()), "Property [Opaque 7 #9]"),
        (Node::property(value()).key(Node::this()), "Property 1 [This, Opaque 7 #9]"),
        (Node::property_method(Node::function([], [])), "Property 2 [Function [Params, Body]]"),
        (Node::ident("spread"), "Ident \"spread\""),
    ];
    let expressions = vec![
        (
            Node::arrow_with_body([Node::declarator("p", Some(value()))], [Node::return_(Node::this())]).async_(),
            "Arrow 1 [Params [Declarator \"p\" [Opaque 7 #9]], Body [Return [This]]]",
        ),
        (Node::arrow([], Node::this()).async_(), "Arrow 3 [Params, This]"),
        (Node::computed(Node::ident("p"), value()), "Computed [Ident \"p\", Opaque 7 #9]"),
        (Node::assign(Node::ident("p"), value()).attr(3), "Assign 3 [Target [Ident \"p\"], Opaque 7 #9]"),
        (Node::sequence([Node::this(), value()]), "Sequence [This, Opaque 7 #9]"),
        (Node::class(None, []), "Class"),
    ];
    let statements = vec![
        (Node::class(Some(value()), []).name("C").declaration(), "Class 9 \"C\" [Opaque 7 #9]"),
        (Node::function([], []).name("f").declaration(), "Function 8 \"f\" [Params, Body]"),
        (Node::var([]), "Var"),
        (Node::let_([Node::declarator("p", None)]), "Var 1 [Declarator \"p\"]"),
        (Node::const_([Node::declarator("p", Some(value()))]), "Var 2 [Declarator \"p\" [Opaque 7 #9]]"),
        (Node::case([Node::block([])]), "Block 1 [Block]"),
        (
            Node::other([Node::target(Node::ident("p")), Node::block([])]).attr(8).name_number(2),
            "Other 8 #2 [Target [Ident \"p\"], Block]",
        ),
    ];
    let all = |list: Vec<(Node, &str)>| -> Vec<Node> {
        let checked = list.into_iter().map(|(node, printed)| {
            assert_eq!(format!("{:?}", node), printed);
            node
        });
        checked.collect()
    };
    // All of them in a script, which the library finds to be sound.
    let mut script = all(statements);
    script.push(Node::class(None, all(members)).declaration());
    script.push(Node::statement(Node::object(all(parts))));
    script.extend(all(expressions).into_iter().map(Node::statement));
    let script = Node::program(script);
    let table = Table::from_tree(&script);
    assert_eq!(convert(&Switches::OFF, &table).unwrap().rows, table.rows());
    assert_eq!(table.tree(), Some(script));
}

#[test]
fn nodes_differ_by_every_part() {
    let one = || Node::new(Kind::Opaque).child(Node::this());
    let list = [
        one(),
        one().attr(1),
        one().name("a"),
        one().name("b"),
        one().name_number(1),
        one().child(Node::this()),
        Node::new(Kind::Opaque),
        Node::new(Kind::Other).child(Node::this()),
        Node::new(Kind::Opaque).child(one()),
    ];
    for (i, a) in list.iter().enumerate() {
        for (j, b) in list.iter().enumerate() {
            assert_eq!(a == b, i == j, "{:?} {:?}", a, b);
            assert_eq!(a.clone() == *b, i == j);
        }
    }
    assert_eq!(one().name_number(0), one());
    let named = one().attr(5).name("a");
    assert_eq!((named.get_kind(), named.get_attr()), (Kind::Opaque, 5));
    assert_eq!((named.get_name(), named.get_children()), (&Name::Spelled("a".to_string()), &[Node::this()][..]));
}

#[test]
fn children_are_found_by_hopping() {
    let children = |rows: &[Row], row: usize| Row::children(rows, row).collect::<Vec<usize>>();
    let converted = convert(&Switches::ARROWS, &sheet()).unwrap();
    assert_eq!(converted.children(0).collect::<Vec<_>>(), [1, 4]);
    assert_eq!(converted.children(5).collect::<Vec<_>>(), [6, 7]);
    assert_eq!(converted.children(9).count(), 0);
    assert_eq!(converted.children(10).count(), 0);
    assert_eq!(converted.children(usize::MAX).count(), 0);
    // Ends that are not past their row, and past their parent's or all rows.
    assert_eq!(children(&rows(&[[0, 0, 0, 4], [8, 0, 0, 2], [8, 0, 0, 2], [8, 0, 0, 4]]), 0), [1, 2]);
    assert_eq!(children(&rows(&[[0, 0, 0, 3], [8, 0, 0, 9], [8, 0, 0, 3]]), 0), [1]);
    assert_eq!(children(&rows(&[[0, 0, 0, 9], [8, 0, 0, 2], [8, 0, 0, 3]]), 0), [1, 2]);
}

#[test]
fn rows_that_are_no_tree() {
    let tree = |list: &[[u32; 4]]| Node::from_rows(&rows(list), &Table::default());
    assert_eq!(tree(&[[0, 0, 0, 1]]), Some(Node::program([])));
    assert_eq!(tree(&[]), None);
    assert_eq!(tree(&[[0, 0, 0, 2]]), None);
    assert_eq!(tree(&[[0, 0, 0, 1], [4, 0, 0, 2]]), None);
    assert_eq!(tree(&[[0, 0, 0, 2], [4, 0, 0, 1]]), None);
    assert_eq!(tree(&[[0, 0, 0, 3], [5, 0, 0, 2], [4, 0, 0, 4]]), None);
    assert_eq!(tree(&[[0, 0, 0, 4], [5, 0, 0, 3], [4, 0, 0, 4], [4, 0, 0, 4]]), None);
    assert_eq!(tree(&[[0, 0, 0, 2], [7, 0, 0, 2]]), None);
    // A byte behind the last row.
    let mut bytes = sheet().row_bytes().to_vec();
    assert!(Table::from_bytes(bytes.clone(), Vec::new(), Vec::new()).tree().is_some());
    bytes.push(0);
    assert!(Table::from_bytes(bytes, Vec::new(), Vec::new()).tree().is_none());
}

#[test]
fn names_in_a_tree() {
    // Of the name that is there, one that is not, a binding, and numbers that are kept.
    let list = [
        [0, 0, 0, 8],
        [1, 0, 0, 3],
        [11, 0, 1, 3],
        [1, 0, 0, 5],
        [11, 0, 2, 5],
        [6, 0, 1, 8],
        [8, 0, 1, 7],
        [11, 1, 1, 8],
    ];
    let mut table = Table::default();
    table.add_name("a");
    let kept = Node::other([Node::opaque([]).name_number(1), Node::new(Kind::Ident).attr(1).name_number(1)]);
    let wanted = Node::program([
        Node::statement(Node::ident("a")),
        Node::statement(Node::new(Kind::Ident).name_number(2)),
        kept.name_number(1),
    ]);
    assert_eq!(Node::from_rows(&rows(&list), &table), Some(wanted));
}

/// The origins of a conversion, with what holds of all: they grow, and the rows left out are those of these numbers.
fn origins(switches: &Switches, table: &Table, left_out: &[usize]) -> Vec<(Kind, Option<usize>)> {
    let converted = convert(switches, table).unwrap();
    let origins = converted.origins(table);
    let grown: Vec<usize> = origins.iter().copied().flatten().collect();
    let wanted: Vec<usize> = (0..table.rows().len()).filter(|row| !left_out.contains(row)).collect();
    assert_eq!(grown, wanted);
    // The result as a tree is the result again, with its names numbered by first use.
    let tree = converted.tree(table);
    assert_eq!(Table::from_tree(&tree).tree(), Some(tree));
    converted.rows.iter().map(|row| row.kind().unwrap()).zip(origins).collect()
}

#[test]
fn origins_of_arrows_and_captures() {
    use Kind::*;
    let table = sheet();
    assert!(origins(&Switches::OFF, &table, &[]).iter().enumerate().all(|(row, (_, from))| *from == Some(row)));
    assert_eq!(
        origins(&Switches::ARROWS, &table, &[])[4..],
        [(ExprStmt, Some(1)), (Function, Some(2)), (Params, Some(3)), (Body, None), (Return, None), (Ident, Some(4))]
    );
    // (p = () => { return; }) => { arguments; }, plain and then async: the bodies are the script's own
    let inner = Node::arrow_with_body([], [Node::new(Return)]);
    let outer =
        Node::arrow_with_body([Node::declarator("p", Some(inner))], [Node::statement(Node::ident("arguments"))]);
    let table = Table::from_tree(&Node::program([Node::statement(outer.clone())]));
    let converted = origins(&Switches::ARROWS, &table, &[]);
    assert!(converted.iter().enumerate().all(|(row, (_, from))| *from == Some(row)));
    assert_eq!(converted.iter().filter(|(kind, _)| *kind == Function).count(), 2);
    let table = Table::from_tree(&Node::program([Node::statement(outer.async_())]));
    let converted = origins(&Switches::ASYNC, &table, &[]);
    assert_eq!(converted[1..4], [(Var, None), (Declarator, None), (Arguments, None)]);
    assert_eq!(converted.last(), Some(&(Ident, Some(11))));
}

#[test]
fn origins_of_super() {
    use Kind::*;
    let dot = || Node::member(Node::super_(), "p");
    let at = || Node::computed(Node::super_(), Node::ident("k"));
    let value = || Node::ident("v");
    // Each as the one statement of a method: its rows from 7 on in the table, and behind the Var in the result.
    let cases = [
        (dot(), vec![], vec![(Call, Some(7)), (Ident, Some(8))]),
        (at(), vec![], vec![(Call, Some(7)), (Ident, Some(8)), (Ident, Some(9))]),
        (Node::assign(dot(), value()), vec![8, 10], vec![(Call, Some(7)), (Ident, Some(9)), (Ident, Some(11))]),
        (
            Node::assign(at(), value()),
            vec![8, 10],
            vec![(Call, Some(7)), (Ident, Some(9)), (Ident, Some(11)), (Ident, Some(12))],
        ),
        (
            Node::call(dot(), [value()]),
            vec![],
            vec![(Call, Some(7)), (Member, None), (Call, Some(8)), (Ident, Some(9)), (Ident, None), (Ident, Some(10))],
        ),
        (
            Node::call(at(), [value()]),
            vec![],
            vec![
                (Call, Some(7)),
                (Member, None),
                (Call, Some(8)),
                (Ident, Some(9)),
                (Ident, Some(10)),
                (Ident, None),
                (Ident, Some(11)),
            ],
        ),
    ];
    for (expression, left_out, wanted) in cases {
        let table = in_async_method([Node::statement(expression)]);
        let converted = origins(&Switches::ASYNC, &table, &left_out);
        let statement = converted.iter().position(|row| *row == (ExprStmt, Some(6))).unwrap();
        assert_eq!(converted[6], (Var, None));
        assert!(converted[6..statement].iter().all(|(_, from)| from.is_none()));
        assert_eq!(converted[statement + 1..], wanted);
    }
    // Below a Target that is no assignment's `super` stays; a key that is an access itself is rewritten too.
    let part = Node::opaque([Node::target(at())]);
    origins(&Switches::ASYNC, &in_async_method([Node::statement(part)]), &[]);
    let nested = Node::computed(Node::super_(), Node::computed(Node::super_(), dot()));
    origins(&Switches::ASYNC, &in_async_method([Node::statement(nested)]), &[]);
    let nested = Node::assign(Node::computed(Node::super_(), Node::assign(dot(), at())), dot());
    origins(&Switches::ASYNC, &in_async_method([Node::statement(nested)]), &[8, 10, 12, 14]);
}

#[test]
fn origins_after_super_calls() {
    use Kind::*;
    let called = || Node::call(Node::super_(), []);
    let reads = || Node::statement(Node::arrow([], Node::this()));
    let assignment = [(Assign, None), (Target, None), (Ident, None), (This, None)];
    // class extends B { constructor() { super(); () => this; } }
    let converted = origins(&Switches::ARROWS, &in_constructor([Node::statement(called()), reads()]), &[]);
    assert_eq!(converted[7..9], [(Var, None), (Declarator, None)]);
    assert_eq!(converted[9..13], [(ExprStmt, Some(7)), (Call, Some(8)), (Super, Some(9)), (ExprStmt, None)]);
    assert_eq!(converted[13..17], assignment);
    assert_eq!(converted[17], (ExprStmt, Some(10)));
    // .. { return super(); () => this; } and with a Sequence of the script's own around it
    let converted = origins(&Switches::ARROWS, &in_constructor([Node::return_(called()), reads()]), &[]);
    assert_eq!(converted[9..13], [(Return, Some(7)), (Sequence, None), (Call, Some(8)), (Super, Some(9))]);
    assert_eq!(converted[13..17], assignment);
    let sequence = Node::return_(Node::sequence([called(), Node::assign(Node::ident("a"), Node::this())]));
    let converted = origins(&Switches::ARROWS, &in_constructor([sequence, reads()]), &[]);
    assert_eq!(converted[10..12], [(Sequence, Some(8)), (Sequence, None)]);
    assert_eq!(converted[18..22], [(Assign, Some(11)), (Target, Some(12)), (Ident, Some(13)), (This, Some(14))]);
    // `arguments = this`, captured, is the script's own.
    let own = Node::assign(Node::ident("arguments"), Node::this());
    let table = Table::from_tree(&Node::program([Node::statement(Node::arrow([], own).async_())]));
    let converted = origins(&Switches::ASYNC, &table, &[]);
    let own = [(Assign, Some(4)), (Target, Some(5)), (Ident, Some(6)), (Ident, Some(7))];
    assert_eq!(converted[converted.len() - 4..], own);
}

#[test]
#[should_panic(expected = "row 2 of the result does not come from row 2 of this table")]
fn origins_of_another_table() {
    let other = Table::from_tree(&Node::program([Node::statement(Node::this())]));
    convert(&Switches::OFF, &sheet()).unwrap().origins(&other);
}

#[test]
#[should_panic(expected = "row 5 of this table has no row in the result")]
fn origins_of_a_longer_table() {
    let reads = || Node::statement(Node::arrow([], Node::this()));
    let longer = Table::from_tree(&Node::program([reads(), reads()]));
    convert(&Switches::ARROWS, &sheet()).unwrap().origins(&longer);
}
