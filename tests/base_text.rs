//! Base text's C entry, linked as a host links it, against the Rust library's `char::to_uppercase` and the crate's short
//! way for ASCII, for every first character that there is.
//!
//! `.ci/run` says how it is built, with the package of host/.
//!
//! Prints how many characters were tried; a difference ends it with a panic.

use std::collections::BTreeMap;

use thawcopper::raw;

fn words(list: &[u32]) -> Vec<u8> {
    list.iter().flat_map(|w| w.to_le_bytes()).collect()
}

/// What the C entry writes for a get accessor of that property, or its refusal.
fn get_accessor(property: &str) -> Result<String, (u32, u32)> {
    let bindings = words(&[3, 1, 0]);
    let names = words(&[0, property.len() as u32]);
    let mut out = [0u8; 64];
    let answer = raw::base_text(1, &bindings, &names, property.as_bytes(), &mut out);
    if answer.refusal != 0 {
        assert_eq!(answer.bytes, 0);
        assert_eq!(out, [0; 64]);
        return Err((answer.refusal, answer.place));
    }
    assert_eq!(answer.place, 0);
    Ok(String::from_utf8(out[..answer.bytes as usize].to_vec()).unwrap())
}

fn upper(c: char) -> String {
    c.to_uppercase().collect()
}

/// The crate's short way (arrow_function_converter.rs, `ascii_ident_first_char_uppercase`).
fn short_way(b: u8) -> char {
    (b ^ (u8::from(b >= b'a') * 0b0010_0000)) as char
}

fn in_table(code: u32) -> bool {
    (0x80..=0xFF).contains(&code) || (0x400..=0x45F).contains(&code)
}

fn main() {
    let mut tried = BTreeMap::new();
    for c in (0..0x110000).filter_map(char::from_u32) {
        let (what, wanted) = if c.is_ascii() {
            // The short way is Unicode's but for the five characters after `z`.
            assert_eq!(short_way(c as u8).to_string() == upper(c), c <= 'z', "{c:?}");
            ("ASCII", Ok(format!("superprop_get{}x", short_way(c as u8))))
        } else if in_table(c as u32) {
            ("in the table", Ok(format!("superprop_get{}x", upper(c))))
        } else {
            ("refused", Err((10, 1)))
        };
        assert_eq!(get_accessor(&format!("{c}x")), wanted, "{c:?}");
        *tried.entry(what).or_insert(0) += 1;
    }
    println!("first characters: {tried:?}");
}
