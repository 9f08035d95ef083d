//! Base text: module 2 of the request, with the Rust's `generate_super_binding_name`.

use crate::table::{read_names, sizes_of_names, words};
use crate::{refused, Refused, MOST_RECORDS};

/// A binding: use, property, frame.
pub type Record = [u32; 3];

/// 1 and 4: the records, and the names by number.
pub fn front<'a>(bindings: &[u8], names: &[u8], text: &'a [u8]) -> Result<(Vec<Record>, Vec<&'a [u8]>), Refused> {
    if bindings.len() % 12 != 0 || bindings.len() / 12 > MOST_RECORDS || !sizes_of_names(names, text) {
        return refused(1, 0);
    }
    let names = read_names(names, text)?;
    let record = |b: &[u8]| {
        let mut w = words(b);
        let mut next = || w.next().unwrap();
        [next(), next(), next()]
    };
    Ok((bindings.chunks_exact(12).map(record).collect(), names))
}

/// 11 and 10 of binding `number`, whose record is this, or its base text.
pub fn spelled([purpose, property, frame]: Record, number: usize, names: &[&[u8]]) -> Result<String, Refused> {
    let accessor = purpose == 3 || purpose == 4;
    if !(1..=6).contains(&purpose) || property as usize > names.len() || property != 0 && !accessor || frame > 16_383 {
        return refused(11, number);
    }
    let mut base = match purpose {
        1 => "this",
        2 => "arguments",
        3 => "superprop_get",
        4 => "superprop_set",
        5 => "prop",
        _ => "value",
    }
    .to_string();
    if property != 0 {
        let spelled = std::str::from_utf8(names[property as usize - 1]).expect("names were found to be UTF-8");
        let mut chars = spelled.chars();
        let first = chars.next().expect("names are not empty");
        match first as u32 {
            0..=0x7F => {
                let byte = first as u8;
                base.push((if byte >= b'a' { byte ^ 0x20 } else { byte }) as char);
            }
            0x80..=0xFF | 0x400..=0x45F => base.extend(first.to_uppercase()),
            _ => return refused(10, number),
        }
        base.push_str(chars.as_str());
    }
    Ok(base)
}

/// The base text of binding `number`, from 1, given how many bytes there are for it.
pub fn base_text(number: u32, bindings: &[u8], names: &[u8], text: &[u8], room: usize) -> Result<Vec<u8>, Refused> {
    let (records, names) = front(bindings, names, text)?;
    let number = number as usize;
    if number == 0 || number > records.len() {
        return refused(11, number);
    }
    let base = spelled(records[number - 1], number, &names)?;
    if base.len() > room {
        return refused(9, 0);
    }
    Ok(base.into_bytes())
}
