//! Lists of records, names and pairs that are made up for made names and spellings.

use thawcopper_reference::{MOST_NAMES, MOST_RECORDS, MOST_TEXT};

use crate::call::{bytes, Difference, Tally};
use crate::families::Found;
use crate::names::{Given, Lookup, MadeNames};
use crate::random::Random;

/// Properties, of which the last has a letter that base text does not know; then names that are like made ones.
const PROPERTIES: [&str; 8] = ["p", "p2", "P", "2", "\u{df}", "\u{44f}", "p22", "\u{3b1}"];
const LIKE_MADE: [&str; 16] = [
    "_this",
    "_this2",
    "_superprop_getP",
    "_superprop_getP2",
    "_superprop_get2",
    "_superprop_setSS",
    "_this02",
    "_this3",
    "_this10",
    "_this1",
    "_thi",
    "this",
    "_superprop_getP22",
    "_superprop_set\u{42f}",
    "_arguments",
    "_value2",
];

const THIS: [u32; 3] = [1, 0, 0];

/// Records with these properties, or with none.
const RECORDS: [[u32; 3]; 15] = [
    THIS,
    [2, 0, 1],
    [3, 0, 2],
    [3, 1, 3],
    [3, 2, 4],
    [3, 3, 5],
    [3, 4, 6],
    [3, 7, 7],
    [4, 5, 8],
    [4, 6, 9],
    [4, 0, 10],
    [5, 0, 11],
    [6, 0, 16_383],
    // 10
    [3, 8, 12],
    // 11
    [7, 0, 13],
];

struct Run {
    made: MadeNames,
    tally: Tally,
    turn: usize,
}

/// Names laid end to end: their pairs, and the text.
fn laid<'a>(list: impl IntoIterator<Item = &'a str>) -> (Vec<[u32; 2]>, Vec<u8>) {
    let (mut pairs, mut text) = (Vec::new(), Vec::new());
    for name in list {
        pairs.push([text.len() as u32, name.len() as u32]);
        text.extend_from_slice(name.as_bytes());
    }
    (pairs, text)
}

impl Run {
    /// In several rooms; answers whether it is accepted.
    fn bytes(&mut self, bindings: &[u8], names: &[u8], text: &[u8]) -> Result<bool, Found> {
        self.turn += 1;
        let copy = [bindings, names, text].map(<[u8]>::to_vec);
        let made = self.made.rooms(Given { bindings, names, text }, self.turn, &mut self.tally);
        let told = |difference: Difference| {
            let words = |bytes: &[u8]| -> Vec<u32> {
                bytes.chunks_exact(4).take(60).map(|b| u32::from_le_bytes([b[0], b[1], b[2], b[3]])).collect()
            };
            let shown = String::from_utf8_lossy(&text[..text.len().min(300)]);
            let given = format!("records {:?}, names {:?}, text {:?}", words(bindings), words(names), shown);
            Found { table: None, difference: format!("{}; {}", difference, given) }
        };
        let made = made.map_err(told)?;
        if std::hint::black_box([bindings, names, text]) != [&copy[0][..], &copy[1], &copy[2]] {
            return Err(told("what was handed over was written to".to_string()));
        }
        Ok(made.is_ok())
    }

    fn list(&mut self, records: &[[u32; 3]], names: &[[u32; 2]], text: &[u8]) -> Result<bool, Found> {
        self.bytes(&bytes(records, 0), &bytes(names, 0), text)
    }
}

/// Made names: lists of which some run into one another, damaged ones, and those on both sides of each limit.
pub fn made_names(seed: u64, lists: u64) -> Result<Tally, Found> {
    let mut run = Run { made: MadeNames::new(), tally: Tally::default(), turn: 0 };
    all_lists(&mut run)?;
    long_lists(&mut run)?;
    sizes(&mut run)?;
    let mut random = Random::new(seed);
    for _ in 0..lists {
        a_list(&mut run, &mut random)?;
    }
    spellings(&mut run)?;
    Ok(run.tally)
}

/// All lists of up to three records, each over the properties and some of the names that are like made ones: up to two
/// records over all choices of the first six, three over some.
fn all_lists(run: &mut Run) -> Result<(), Found> {
    // All of one length.
    let mut lists: Vec<Vec<[u32; 3]>> = vec![Vec::new()];
    for length in 0..=3 {
        let choices: Vec<u32> = if length < 3 { (0..64).collect() } else { vec![0, 1, 6, 12, 28, 63] };
        for list in &lists {
            for chosen in &choices {
                let like_made = LIKE_MADE[..6].iter().enumerate().filter(|(n, _)| chosen >> n & 1 == 1);
                let (names, text) = laid(PROPERTIES.into_iter().chain(like_made.map(|(_, name)| *name)));
                run.list(list, &names, &text)?;
            }
        }
        lists = lists.iter().flat_map(|list| RECORDS.map(|record| [&list[..], &[record]].concat())).collect();
    }
    Ok(())
}

/// Numbers of more and more digits, and names that are taken up to one of them.
fn long_lists(run: &mut Run) -> Result<(), Found> {
    for count in [8, 9, 10, 11, 98, 99, 100, 101, 998, 999, 1_000, 1_001, 9_998, 9_999, 10_000, 10_001, 16_383] {
        run.list(&vec![THIS; count], &[], b"")?;
        // With `_this` taken, and with a number in the middle taken.
        let middle = format!("_this{}", count / 2);
        for taken in [vec!["_this"], vec![&middle], vec!["_this", &middle, "_this3"]] {
            let (names, text) = laid(taken);
            run.list(&vec![THIS; count], &names, &text)?;
        }
    }
    // Names that block one base, all of them, all but one, and from the last to the first.
    let blocking: Vec<String> =
        (1..=MOST_NAMES).map(|n| if n == 1 { "_this".to_string() } else { format!("_this{}", n) }).collect();
    let (names, text) = laid(blocking.iter().map(String::as_str));
    let backward: Vec<[u32; 2]> = names.iter().rev().copied().collect();
    for records in [vec![THIS], vec![THIS; 1_000], vec![[2, 0, 0], THIS, [3, 7, 0], THIS]] {
        run.list(&records, &names, &text)?;
        run.list(&records, &backward, &text)?;
        for gap in [0, 1, 9, 98, 2_000, MOST_NAMES - 1] {
            let mut less = names.clone();
            less.remove(gap);
            run.list(&records, &less, &text)?;
        }
    }
    // Properties of 255 bytes, with numbers of up to 4 digits behind them.
    for first in ["a", "\u{df}", "\u{ff}", "\u{44f}", "\u{3b1}"] {
        let name = format!("{}{}", first, "x".repeat(255 - first.len()));
        let (names, text) = laid([name.as_str()]);
        for count in [1, 2, 12, 1_100] {
            run.list(&vec![[3, 1, 0]; count], &names, &text)?;
        }
    }
    // Many properties: the same under many numbers, each of its own, and some that have one number by the library's hash.
    let own: Vec<String> = (0..2_000).map(|n| format!("property{:04}", n)).collect();
    let one_bucket = |n: usize| (0..9).map(|bit| if n >> bit & 1 == 0 { "aa" } else { "bB" }).collect::<String>();
    let one_bucket: Vec<String> = (0..512).map(one_bucket).collect();
    let the_same = vec!["p".to_string(); 2_000];
    for spelled in [own, one_bucket, the_same] {
        let (names, text) = laid(spelled.iter().map(String::as_str));
        let gets = (1..=names.len() as u32).map(|property| [3, property, 0]);
        let sets = (1..=names.len() as u32).map(|property| [4, property, 0]);
        run.list(&gets.clone().chain(gets.rev()).chain(sets).collect::<Vec<_>>(), &names, &text)?;
    }
    Ok(())
}

/// Both sides of the limits: of records, names and text.
fn sizes(run: &mut Run) -> Result<(), Found> {
    let (blocking, blocking_text) = laid(["_this", "_this2", "_this65000"]);
    for count in [MOST_RECORDS - 1, MOST_RECORDS, MOST_RECORDS + 1] {
        let by_turns: Vec<[u32; 3]> = RECORDS[..3].iter().copied().cycle().take(count).collect();
        for (records, names, text) in
            [(vec![THIS; count], &[][..], &b""[..]), (by_turns, &blocking[..], &blocking_text[..])]
        {
            let accepted = run.list(&records, names, text)?;
            assert_eq!(accepted, count <= MOST_RECORDS, "{} records", count);
        }
    }
    for more in [1, 4, 8, 11] {
        run.bytes(&bytes(&vec![THIS; MOST_RECORDS - 1], more), &[], b"")?;
        run.bytes(&bytes(&[THIS; 2], more), &[], b"")?;
        run.bytes(&vec![0; more], &[], b"")?;
    }
    for count in [MOST_NAMES, MOST_NAMES + 1] {
        for more in [0, 1, 4] {
            for length in [MOST_TEXT, MOST_TEXT + 1] {
                let text: Vec<u8> = b"_this".iter().copied().chain(std::iter::repeat(b'x')).take(length).collect();
                let names: Vec<[u32; 2]> = (0..count as u32).map(|n| [n % 7, 5 + n % 250]).collect();
                for records in [&[][..], &[THIS], &[THIS, [3, count as u32, 0], [3, 8, 0], [3, 8, 0]]] {
                    run.bytes(&bytes(records, 0), &bytes(&names, more), &text)?;
                }
            }
        }
    }
    Ok(())
}

/// A random list of records over random names, some of them damaged.
fn a_list(run: &mut Run, random: &mut Random) -> Result<(), Found> {
    let all = [&PROPERTIES[..], &LIKE_MADE].concat();
    let mut chosen: Vec<&str> = PROPERTIES.to_vec();
    for _ in 0..random.below(14) {
        chosen.push(random.of(&all));
    }
    let (mut names, mut text) = laid(chosen);
    // Names that share bytes: fronts of others.
    for _ in 0..random.below(4) {
        let [start, length] = random.of(&names);
        names.push([start, 1 + random.below(length as usize) as u32]);
    }
    // Without what is refused, mostly.
    let most = if random.one_in(3) { RECORDS.len() } else { RECORDS.len() - 2 };
    let few = 1 + random.below(most);
    let length = random.of(&[3, 12, 40]);
    let mut records: Vec<[u32; 3]> = (0..random.below(length)).map(|_| RECORDS[random.below(few)]).collect();
    // A front that ends inside of a character is refused; most lists are to pass that.
    if !random.one_in(4) {
        names.retain(|[start, length]| {
            let (start, length) = (*start as usize, *length as usize);
            std::str::from_utf8(&text[start..start + length]).is_ok()
        });
    }
    let (mut more_records, mut more_names) = (0, 0);
    if random.one_in(3) && !records.is_empty() {
        let record = random.below(records.len());
        let (count, name) = (names.len() as u32, random.below(names.len()));
        match random.below(9) {
            0 => records[record][0] = random.of(&[0, 7, 8, 257, u32::MAX]),
            1 => records[record] = [random.of(&[3, 4]), random.of(&[count, count + 1, u32::MAX]), 0],
            2 => records[record] = [random.of(&[1, 2, 5, 6]), random.of(&[0, 1, count, count + 1]), 0],
            3 => records[record][2] = random.of(&[16_382, 16_383, 16_384, 65_536, u32::MAX]),
            4 => records[record] = [random.of(&[3, 4]), 8, 0],
            5 => more_records = random.of(&[1, 4, 8, 11]),
            6 => more_names = random.of(&[1, 4, 7]),
            7 => names[name][random.below(2)] = random.of(&[0, 255, 256, text.len() as u32, u32::MAX]),
            _ => {
                let byte = random.below(text.len());
                text[byte] = random.of(&[b'_', b'2', b'p', 0x80, 0xC3, 0xFF]);
            }
        }
    }
    run.bytes(&bytes(&records, more_records), &bytes(&names, more_names), &text)?;
    Ok(())
}

/// Spellings over pairs on both sides of the end of their text, by all attrs and numbers around those that there are.
fn spellings(run: &mut Run) -> Result<(), Found> {
    let told = |difference| Found { table: None, difference };
    let edges = [0, 1, 4, 5, 6, 255, 256, 300, 301, 0x8000_0000, u32::MAX - 4, u32::MAX - 1, u32::MAX];
    let pairs: Vec<[u32; 2]> = edges.iter().flat_map(|start| edges.map(|length| [*start, length])).collect();
    let text = [b'x'; 301];
    for length in [0, 5, 300, 301] {
        for other in [0, 4, 6, 301] {
            for (cut, more) in [(0, 0), (0, 7), (pairs.len() - 1, 0), (pairs.len() - 2, 4)] {
                let (whole, less) = (bytes(&pairs, 0), bytes(&pairs[cut..], more));
                let lookup =
                    |names, made_pairs| Lookup { names, text: &text[..length], made_pairs, made_text: &text[..other] };
                for looked_up in [lookup(&whole, &less), lookup(&less, &whole), lookup(&[], &whole)] {
                    for attr in [0, 1, 2, 3, 256, 0x8000_0000, 0x8000_0001, u32::MAX] {
                        let count = pairs.len() as u32;
                        let beyond = [count + 1, 1 << 29, 1 << 29 | 1, 0x8000_0001, u32::MAX - 1, u32::MAX];
                        for number in (0..=count).chain(beyond) {
                            looked_up.one(attr, number, &mut run.tally).map_err(told)?;
                        }
                    }
                }
            }
        }
    }
    Ok(())
}
