//! The 224 mappings of crates/letters/specs/Letters.antt against the Rust library's `char::to_uppercase`.
//!
//!   rustc -o letters tests/letters.rs && ./letters crates/letters/specs/Letters.antt
//!
//! Prints the library's Unicode version; a difference ends it with a panic.

/// The lines `up 0x00DF (0x0053 ∷ 0x0053 ∷ []) ∷` of the definition `uppers`, which has no others.
fn mappings(text: &str) -> Vec<(u32, String)> {
    let list = text.split_once("\nuppers =\n").and_then(|(_, rest)| rest.split_once("\n    []\n")).unwrap().0;
    let number = |word: &str| u32::from_str_radix(word.strip_prefix("0x")?, 16).ok();
    let entry = |line: &str| {
        let (code, capitals) = line.strip_prefix("    up ")?.strip_suffix(" ∷ []) ∷")?.split_once(" (")?;
        let capitals = capitals.split(" ∷ ").map(|word| char::from_u32(number(word)?)).collect::<Option<_>>()?;
        Some((number(code)?, capitals))
    };
    list.lines().map(|line| entry(line).unwrap_or_else(|| panic!("an entry of another form: {line}"))).collect()
}

fn upper(c: char) -> String {
    c.to_uppercase().collect()
}

fn main() {
    let path = std::env::args().nth(1).expect("the path of Letters.antt");
    let listed = mappings(&std::fs::read_to_string(path).unwrap());
    let codes: Vec<u32> = listed.iter().map(|entry| entry.0).collect();
    assert_eq!(codes, (0x80..=0xFF).chain(0x400..=0x45F).collect::<Vec<u32>>());
    for (code, capitals) in &listed {
        assert_eq!(*capitals, upper(char::from_u32(*code).unwrap()), "U+{code:04X}");
    }
    println!("{} mappings as in the Rust library's Unicode {:?}", listed.len(), char::UNICODE_VERSION);
}
