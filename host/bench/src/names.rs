//! How long made names take, and base text: the library through its C entries, beside the reference.

use std::hint::black_box;

use thawcopper::raw;
use thawcopper_reference as reference;

use crate::{calls_for, run, spread, told, words, ROUNDS};

/// What is handed over to make names, and what is lent for them.
struct Lent {
    bindings: Vec<u8>,
    names: Vec<u8>,
    text: Vec<u8>,
    out_pairs: Vec<u8>,
    out_text: Vec<u8>,
}

impl Lent {
    /// Names in just the room that they need.
    fn new(bindings: &[[u32; 3]], spelled: &[String]) -> Lent {
        let bindings = words(bindings.concat());
        let text = spelled.concat().into_bytes();
        let mut start = 0;
        let pairs = spelled.iter().flat_map(|name| {
            start += name.len() as u32;
            [start - name.len() as u32, name.len() as u32]
        });
        let names = words(pairs);
        let made = reference::made(&bindings, &names, &text).expect("the names can be made");
        let (out_pairs, out_text) = (vec![0; 8 * made.pairs.len()], vec![0; made.text.len()]);
        Lent { bindings, names, text, out_pairs, out_text }
    }

    fn library(&mut self) {
        let Lent { bindings, names, text, out_pairs, out_text } = self;
        let answer = raw::make_names(bindings, names, text, out_pairs, out_text);
        assert_eq!(answer.refusal, 0);
    }

    fn reference(&mut self) {
        let Lent { bindings, names, text, out_pairs, out_text } = self;
        let _ = black_box(reference::make_names(bindings, names, text, out_pairs.len(), out_text.len()));
    }

    fn base_text(&mut self) {
        let answer = raw::base_text(1, &self.bindings, &self.names, &self.text, &mut self.out_text);
        assert_eq!(answer.refusal, 0);
    }

    fn reference_base_text(&mut self) {
        let Lent { bindings, names, text, out_text, .. } = self;
        let _ = black_box(reference::base_text(1, bindings, names, text, out_text.len()));
    }

    /// Prints nanoseconds a piece of both, and the ratio; answers the library's.
    fn measure(&mut self, what: &str, pieces: usize, ways: [fn(&mut Lent); 2]) -> f64 {
        let calls = ways.map(|one| calls_for(self, one));
        let mut times = [Vec::new(), Vec::new()];
        for _ in 0..ROUNDS {
            for way in 0..2 {
                times[way].push(run(self, calls[way], ways[way]) / pieces as f64);
            }
        }
        let [ratio, least, most] = spread((0..ROUNDS).map(|n| times[0][n] / times[1][n]).collect());
        let [library, reference] = times.map(|list| spread(list)[0]);
        println!("{what:<56} {library:>9.1} {reference:>9.1}   {ratio:>6.2} ({least:.2} to {most:.2})");
        library
    }

    fn names(&mut self, what: &str) -> f64 {
        self.measure(what, self.out_pairs.len() / 8, [Lent::library, Lent::reference])
    }
}

fn captures(count: u32) -> Vec<[u32; 3]> {
    (0..count).map(|frame| [1, 0, frame % 16_384]).collect()
}

fn gets(count: usize) -> Vec<[u32; 3]> {
    (1..=count as u32).map(|property| [3, property, 0]).collect()
}

/// Prints nanoseconds a binding, and a call of base text; then the goal, and whether it is met.
pub fn measure() {
    println!("\nnanoseconds a binding that is named, in just the room of the names");
    println!("{:<56} {:>9} {:>9}   {}", "bindings", "library", "referen.", "library / reference");
    let some = Lent::new(&captures(1_024), &[]).names("1,024 captures of this");
    let most = Lent::new(&captures(16_383), &[]).names("16,383 captures of this");
    Lent::new(&captures(65_535), &[]).names("65,535 captures of this");
    let blocking: Vec<String> =
        (1..=4_096).map(|n| if n == 1 { "_this".to_string() } else { format!("_this{n}") }).collect();
    Lent::new(&captures(1), &blocking).names("1 capture, 4,096 names that block it");
    Lent::new(&captures(1_000), &blocking).names("1,000 captures, 4,096 names that block them");
    let own: Vec<String> = (0..2_000).map(|n| format!("property{n:04}")).collect();
    Lent::new(&gets(own.len()), &own).names("2,000 accessors with names of their own");
    let parts = |n: u32| (0..11).map(move |bit| if n >> bit & 1 == 0 { "aa" } else { "bB" });
    let one_bucket: Vec<String> = (0..2_048).map(|n| parts(n).collect()).collect();
    Lent::new(&gets(one_bucket.len()), &one_bucket).names("2,048 accessors, names made to share a bucket");

    println!("\nnanoseconds a call of base text");
    for (what, property) in [("an ASCII property", "property"), ("a Cyrillic property", "свойство")] {
        let mut lent = Lent::new(&gets(1), &[property.to_string()]);
        lent.measure(what, 1, [Lent::base_text, Lent::reference_base_text]);
    }

    println!(
        "\n{}: linear growth: {:.1} ns a binding at 1,024 captures, {:.1} at 16,383, at most twice as much",
        told(most <= 2.0 * some),
        some,
        most
    );
}
