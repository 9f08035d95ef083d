//! Made names and the spelling of an Ident: change request No. 2, from its words.

use std::collections::{HashMap, HashSet};

use crate::base_text;
use crate::table::words;
use crate::{refused, Refused};

/// Made names: a pair (start, length) for each binding, and the text that they are parts of.
#[derive(Clone, Debug, PartialEq, Eq)]
pub struct Made {
    pub pairs: Vec<[u32; 2]>,
    pub text: Vec<u8>,
}

impl Made {
    /// Whether there is room for it: so many bytes for pairs, of which whole ones count, and for text. "9 also where made
    /// text or pairs have no room, tested last"
    pub fn fits(&self, room_pairs: usize, room_text: usize) -> bool {
        self.pairs.len() <= room_pairs / 8 && self.text.len() <= room_text
    }
}

/// The names of all bindings, given how many bytes there are for pairs and for text.
pub fn make_names(
    bindings: &[u8],
    names: &[u8],
    text: &[u8],
    room_pairs: usize,
    room_text: usize,
) -> Result<Made, Refused> {
    let made = made(bindings, names, text)?;
    if made.fits(room_pairs, room_text) {
        Ok(made)
    } else {
        refused(9, 0)
    }
}

/// The names of all bindings, with all the room that they need.
pub fn made(bindings: &[u8], names: &[u8], text: &[u8]) -> Result<Made, Refused> {
    let (records, names) = base_text::front(bindings, names, text)?;
    // "then 11 or 10 at the first binding that meets one"
    let bases: Result<Vec<String>, Refused> =
        records.iter().zip(1..).map(|(record, number)| base_text::spelled(*record, number, &names)).collect();
    let bases = bases?;
    // "Taken means equal to a name of the table or to a made name with a lower number."
    let mut taken: HashSet<Vec<u8>> = names.iter().map(|name| name.to_vec()).collect();
    // The number of the last name that was made of a base, 1 for the bare form: all up to it are taken for good.
    let mut last: HashMap<&str, u64> = HashMap::new();
    let mut made = Made { pairs: Vec::new(), text: Vec::new() };
    for base in &bases {
        let number = last.entry(base).or_insert(0);
        let name = loop {
            *number += 1;
            // "an underscore and the base text; if that is taken, the smallest whole number from 2 up that frees it is
            // put behind it"
            let name = if *number == 1 { format!("_{}", base) } else { format!("_{}{}", base, number) };
            if taken.insert(name.clone().into_bytes()) {
                break name;
            }
        };
        made.pairs.push([made.text.len() as u32, name.len() as u32]);
        made.text.extend_from_slice(name.as_bytes());
    }
    Ok(made)
}

/// Where the spelling of an Ident starts and how many bytes it has, in the script's text (attr 0) or in the made text
/// (attr 1); none where 18 is told.
pub fn spelling(
    attr: u32,
    number: u32,
    names: &[u8],
    text: &[u8],
    made_pairs: &[u8],
    made_text: &[u8],
) -> Option<(u32, u32)> {
    let (pairs, text) = match attr {
        0 => (names, text),
        1 => (made_pairs, made_text),
        _ => return None,
    };
    let pair: Vec<u32> = words(pairs.chunks_exact(8).nth((number as usize).checked_sub(1)?)?).collect();
    let (start, length) = (pair[0], pair[1]);
    let end = u64::from(start) + u64::from(length);
    Some((start, length)).filter(|_| end <= text.len() as u64)
}

#[cfg(test)]
mod tests {
    use super::{make_names, refused, spelling, Made, Refused};

    fn bytes(list: &[u32]) -> Vec<u8> {
        list.iter().flat_map(|w| w.to_le_bytes()).collect()
    }

    /// Names laid end to end.
    fn laid(list: &[&str]) -> (Vec<u8>, Vec<u8>) {
        let text = list.concat().into_bytes();
        let mut start = 0;
        let mut pairs = Vec::new();
        for name in list {
            pairs.extend([start, name.len() as u32]);
            start += name.len() as u32;
        }
        (bytes(&pairs), text)
    }

    /// The made names of records (use, property), in just the room that they need.
    fn made(records: &[[u32; 2]], names: &[&str]) -> Result<Vec<String>, Refused> {
        let bindings =
            bytes(&records.iter().flat_map(|[purpose, property]| [*purpose, *property, 7]).collect::<Vec<_>>());
        let (pairs, text) = laid(names);
        let whole = make_names(&bindings, &pairs, &text, usize::MAX, usize::MAX)?;
        let (room_pairs, room_text) = (8 * whole.pairs.len(), whole.text.len());
        assert_eq!(make_names(&bindings, &pairs, &text, room_pairs + 7, room_text).as_ref(), Ok(&whole));
        if !records.is_empty() {
            assert_eq!(make_names(&bindings, &pairs, &text, room_pairs - 1, room_text), refused(9, 0));
            assert_eq!(make_names(&bindings, &pairs, &text, room_pairs, room_text - 1), refused(9, 0));
        }
        let made_pairs = bytes(&whole.pairs.concat());
        let mut end = 0;
        let mut list = Vec::new();
        for number in 1..=records.len() as u32 {
            let (start, length) = spelling(1, number, &pairs, &text, &made_pairs, &whole.text).unwrap();
            assert_eq!(start, end);
            end += length;
            list.push(String::from_utf8(whole.text[start as usize..end as usize].to_vec()).unwrap());
        }
        assert_eq!(end as usize, whole.text.len());
        Ok(list)
    }

    const THIS: [u32; 2] = [1, 0];

    #[test]
    fn a_number_where_it_is_taken() {
        assert_eq!(made(&[], &[]).unwrap(), [""; 0]);
        assert_eq!(made(&[THIS, THIS, [2, 0], THIS], &[]).unwrap(), ["_this", "_this2", "_arguments", "_this3"]);
        assert_eq!(made(&[THIS], &["_this"]).unwrap(), ["_this2"]);
        assert_eq!(made(&[THIS, THIS], &["_this2"]).unwrap(), ["_this", "_this3"]);
        assert_eq!(made(&[THIS, THIS], &["_this", "_this02", "_this3"]).unwrap(), ["_this2", "_this4"]);
        let many = made(&vec![THIS; 101], &["_this"]).unwrap();
        assert_eq!([&many[0], &many[8], &many[98], &many[100]], ["_this2", "_this10", "_this100", "_this102"]);
    }

    #[test]
    fn bases_that_run_into_one_another() {
        let names = ["p", "p2", "P", "2", "\u{df}", "SS", "_superprop_getP3"];
        let records = [[3, 1], [3, 3], [3, 2], [3, 1], [3, 0], [3, 0], [3, 4], [4, 5], [4, 6]];
        let wanted = [
            "_superprop_getP",
            "_superprop_getP2",
            "_superprop_getP22",
            "_superprop_getP4",
            "_superprop_get",
            "_superprop_get2",
            "_superprop_get22",
            "_superprop_setSS",
            "_superprop_setSS2",
        ];
        assert_eq!(made(&records, &names).unwrap(), wanted);
    }

    #[test]
    fn the_order_of_the_answers() {
        let greek = ["\u{3b1}", "a"];
        assert_eq!(made(&[THIS, [3, 1], [7, 0]], &greek), refused(10, 2));
        assert_eq!(made(&[THIS, [7, 0], [3, 1]], &greek), refused(11, 2));
        assert_eq!(made(&[[3, 3]], &greek), refused(11, 1));
        assert_eq!(made(&[[1, 1]], &greek), refused(11, 1));
        // A name that no binding has.
        assert_eq!(made(&[THIS, [3, 2]], &greek).unwrap(), ["_this", "_superprop_getA"]);
        // 1 and 4 without a binding too, 1 before 4 before all others, and 9 last.
        let all = usize::MAX;
        assert_eq!(make_names(&[], &[0; 7], b"", all, all), refused(1, 0));
        assert_eq!(make_names(&[], &bytes(&[0, 1, 0, 0]), b"x", all, all), refused(4, 2));
        assert_eq!(make_names(&[0; 13], &bytes(&[0, 0]), b"", 0, 0), refused(1, 0));
        assert_eq!(make_names(&bytes(&[9, 0, 0]), &bytes(&[0, 0]), b"", 0, 0), refused(4, 1));
        assert_eq!(make_names(&bytes(&[1, 0, 16_384]), &[], b"", 0, 0), refused(11, 1));
        assert_eq!(make_names(&bytes(&[1, 0, 16_383]), &[], b"", 0, 0), refused(9, 0));
        assert_eq!(make_names(&[], &[], b"", 0, 0), Ok(Made { pairs: Vec::new(), text: Vec::new() }));
        let records = |count: usize| bytes(&[1, 0, 0]).repeat(count);
        let whole = make_names(&records(65_535), &[], b"", all, all).unwrap();
        assert_eq!((whole.pairs.len(), &whole.text[whole.text.len() - 10..]), (65_535, &b"_this65535"[..]));
        assert_eq!(make_names(&records(65_536), &[], b"", all, all), refused(1, 0));
    }

    #[test]
    fn the_longest_made_name() {
        // A name of 255 bytes behind the longest base and an underscore, and a number, which has up to 5 digits.
        let long = format!("\u{df}{}", "x".repeat(253));
        let list = made(&vec![[3, 1]; 12], &[&long]).unwrap();
        assert_eq!([list[0].len(), list[1].len(), list[11].len()], [269, 270, 271]);
    }

    /// By the request's words alone, with no memory of what was tried.
    fn slowly(bases: &[&str], names: &[&str]) -> Vec<String> {
        let mut list: Vec<String> = Vec::new();
        for base in bases {
            let taken = |name: &String| names.contains(&name.as_str()) || list.contains(name);
            let bare = format!("_{}", base);
            let numbered = (2..).map(|number| format!("{}{}", bare, number));
            let made = std::iter::once(bare.clone()).chain(numbered).find(|name| !taken(name)).unwrap();
            list.push(made);
        }
        list
    }

    #[test]
    fn the_numbers_are_the_smallest() {
        let names = ["p", "p2", "P22", "_superprop_getP2", "_superprop_getP23", "_superprop_getP", "_this3", "_prop"];
        let bases = ["this", "prop", "superprop_getP", "superprop_getP2", "superprop_getP22"];
        let records = [THIS, [5, 0], [3, 1], [3, 2], [3, 3]];
        let mut state = 1u32;
        for round in 0..2_000 {
            let mut next = |below: usize| {
                state = state.wrapping_mul(1_664_525).wrapping_add(1_013_904_223);
                (state >> 16) as usize % below
            };
            let chosen: Vec<usize> = (0..next(20)).map(|_| next(records.len())).collect();
            // The first three are there for the properties.
            let known: Vec<&str> = (0..names.len()).filter(|n| *n < 3 || next(2) == 0).map(|n| names[n]).collect();
            let listed: Vec<[u32; 2]> = chosen.iter().map(|n| records[*n]).collect();
            let based: Vec<&str> = chosen.iter().map(|n| bases[*n]).collect();
            assert_eq!(made(&listed, &known).unwrap(), slowly(&based, &known), "round {}", round);
        }
    }

    #[test]
    fn spellings() {
        let (names, made_pairs) = (bytes(&[0, 2, 2, 1, 3, 0, 3, 1, u32::MAX, 2]), bytes(&[1, 4, 0, 5, 5, 0]));
        let of = |attr, number| spelling(attr, number, &names, b"abc", &made_pairs, b"_this");
        assert_eq!(
            [0, 1, 2, 3, 4, 5, 6].map(|n| of(0, n)),
            [None, Some((0, 2)), Some((2, 1)), Some((3, 0)), None, None, None]
        );
        assert_eq!([0, 1, 2, 3, 4].map(|n| of(1, n)), [None, Some((1, 4)), Some((0, 5)), Some((5, 0)), None]);
        assert_eq!(of(0, u32::MAX), None);
        for attr in [2, 3, u32::MAX] {
            assert_eq!(of(attr, 1), None);
        }
        // Bytes that are no whole pair are no pair.
        assert_eq!(spelling(0, 2, &names[..15], b"abc", &made_pairs, b"_this"), None);
        assert_eq!(spelling(0, 1, &names[..15], b"abc", &made_pairs, b"_this"), Some((0, 2)));
    }
}
