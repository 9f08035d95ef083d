//! Made names and spellings: one call of each side, compared in every number and every byte lent; and what the package
//! makes of them.

use thawcopper::{raw, Converted, Table};
use thawcopper_reference as reference;

use crate::call::{bytes, Difference, Lent, Tally};

/// What is handed over to make names: bindings, names and text.
#[derive(Clone, Copy)]
pub struct Given<'a> {
    pub bindings: &'a [u8],
    pub names: &'a [u8],
    pub text: &'a [u8],
}

/// How much is lent, in bytes.
#[derive(Clone, Copy, Debug)]
pub struct Room {
    pub pairs: usize,
    pub text: usize,
}

/// What is lent for names.
pub struct MadeNames {
    pairs: Lent,
    text: Lent,
}

impl MadeNames {
    pub fn new() -> MadeNames {
        MadeNames { pairs: Lent::new(), text: Lent::new() }
    }

    /// One call of the library, against what the reference answers in that room.
    fn against(
        &mut self,
        given: Given,
        room: Room,
        wanted: &Result<reference::Made, reference::Refused>,
        tally: &mut Tally,
    ) -> Result<(), Difference> {
        let (numbers, pairs, text): ([u32; 4], Vec<u8>, &[u8]) = match wanted {
            Ok(made) => ([0, 0, made.pairs.len() as u32, made.text.len() as u32], bytes(&made.pairs, 0), &made.text),
            Err(r) => ([r.number, r.place, 0, 0], Vec::new(), &[]),
        };
        let Given { bindings, names, text: script } = given;
        let answer = raw::make_names(bindings, names, script, self.pairs.lend(room.pairs), self.text.lend(room.text));
        let got = [answer.refusal, answer.place, answer.pairs, answer.bytes];
        tally.calls += 1;
        tally.names_calls += 1;
        tally.names += u64::from(numbers[2]);
        let told = |what: String| Err(format!("made names, {:?}: {}", room, what));
        if let Err(difference) = tally.answers.count(numbers[0], got[0]) {
            return told(difference);
        }
        if got != numbers {
            return told(format!("the reference answers {:?}, the library {:?}", numbers, got));
        }
        if !self.pairs.holds(&pairs) {
            return told(format!("answer {:?}, but the pairs lent differ", numbers));
        }
        if !self.text.holds(text) {
            return told(format!("answer {:?}, but the text lent differs", numbers));
        }
        Ok(())
    }

    /// In just the room that the names need, with a byte less each way, and by turns with bytes to spare that are no whole
    /// pair, with a pair more, with none, and with plenty. Answers what the reference makes with room for all.
    pub fn rooms(
        &mut self,
        given: Given,
        turn: usize,
        tally: &mut Tally,
    ) -> Result<Result<reference::Made, reference::Refused>, Difference> {
        let Given { bindings, names, text } = given;
        let whole = reference::made(bindings, names, text);
        let no_room = Err(reference::Refused { number: 9, place: 0 });
        let exact = match &whole {
            Ok(made) => Room { pairs: 8 * made.pairs.len(), text: made.text.len() },
            Err(_) => Room { pairs: 0, text: 0 },
        };
        self.against(given, exact, &whole, tally)?;
        let mut further = match turn % 4 {
            0 => vec![Room { pairs: exact.pairs + 7, text: exact.text + 1 }],
            1 => vec![Room { pairs: exact.pairs + 8, text: exact.text + 19 }],
            2 => vec![Room { pairs: 0, text: exact.text + 19 }, Room { pairs: exact.pairs + 8, text: 0 }],
            _ => vec![Room { pairs: 2 * exact.pairs + 100, text: 2 * exact.text + 100 }],
        };
        if exact.pairs > 0 {
            further.push(Room { pairs: exact.pairs - 1, ..exact });
            further.push(Room { text: exact.text - 1, ..exact });
        }
        for room in further {
            let short = matches!(&whole, Ok(made) if !made.fits(room.pairs, room.text));
            self.against(given, room, if short { &no_room } else { &whole }, tally)?;
        }
        Ok(whole)
    }

    /// The bindings of a result, which are these bytes: what is made of them in several rooms, how each Ident and
    /// Declarator is spelled, and the same by the package.
    pub fn of_result(
        &mut self,
        converted: &Converted,
        bindings: &[u8],
        table: &Table,
        turn: usize,
        tally: &mut Tally,
    ) -> Result<(), Difference> {
        let (names, text) = (table.name_bytes(), table.text_bytes());
        let whole = self.rooms(Given { bindings, names, text }, turn, tally)?;
        if turn % 2 == 0 && !bindings.is_empty() {
            // And over names behind the table's that are taken.
            let (names, text) = with_taken(names, text);
            let _ = self.rooms(Given { bindings, names: &names, text: &text }, turn / 2, tally)?;
        }
        let by_package = converted.names(table);
        let (made, by_package) = match (whole, by_package) {
            (Ok(made), Ok(by_package)) => (made, by_package),
            (Err(r), Err(refusal)) if refusal.numbers() == (r.number, r.place) => return Ok(()),
            (whole, by_package) => {
                let whole = whole.map(|made| made.pairs.len());
                return Err(format!("made names: the reference has {:?}, the package {:?}", whole, by_package));
            }
        };
        let pairs = bytes(&made.pairs, 0);
        let part = |start: u32, length: u32| &made.text[start as usize..start as usize + length as usize];
        let by_pairs = made.pairs.iter().map(|[start, length]| part(*start, *length));
        if !by_pairs.eq(by_package.iter().map(str::as_bytes)) || by_package.len() != made.pairs.len() {
            return Err(format!("made names: the package has {:?}, the reference {:?}", by_package, made.text));
        }
        for (at, row) in converted.rows.iter().enumerate() {
            if !matches!(row.kind, 3 | 11) {
                continue;
            }
            let told = |what: String| Err(format!("row {} of the result, {:?}: {}", at, row, what));
            let looked_up = Lookup { names, text, made_pairs: &pairs, made_text: &made.text };
            let wanted = match looked_up.one(row.attr, row.name, tally) {
                // A result has no other rows of these kinds than such that are spelled.
                Ok(Some(wanted)) => wanted,
                Ok(None) => return told("it has no spelling".to_string()),
                Err(difference) => return told(difference),
            };
            let got = by_package.spelling(table, row);
            if got.map(str::as_bytes) != Some(wanted) {
                return told(format!("spelled {:?}, by the package {:?}", String::from_utf8_lossy(wanted), got));
            }
        }
        // Numbers and attrs beyond those of the rows.
        let looked_up = Lookup { names, text, made_pairs: &pairs, made_text: &made.text };
        let (count, most) = ((names.len() / 8) as u32, made.pairs.len() as u32);
        for attr in [0, 1, 2, u32::MAX] {
            for number in [0, 1, count, count + 1, most, most + 1, u32::MAX] {
                looked_up.one(attr, number, tally)?;
            }
        }
        Ok(())
    }
}

/// Names and text with some behind them that are like the made names of a result.
fn with_taken(names: &[u8], text: &[u8]) -> (Vec<u8>, Vec<u8>) {
    let (mut names, mut text) = (names.to_vec(), text.to_vec());
    for name in ["_this", "_this2", "_arguments", "_superprop_getFoo", "_superprop_getFoo3", "_superprop_set", "_value"]
    {
        for word in [text.len() as u32, name.len() as u32] {
            names.extend_from_slice(&word.to_le_bytes());
        }
        text.extend_from_slice(name.as_bytes());
    }
    (names, text)
}

/// What spellings are looked up in.
#[derive(Clone, Copy)]
pub struct Lookup<'a> {
    pub names: &'a [u8],
    pub text: &'a [u8],
    pub made_pairs: &'a [u8],
    pub made_text: &'a [u8],
}

impl<'a> Lookup<'a> {
    /// One call of each side; the part that both have.
    pub fn one(&self, attr: u32, number: u32, tally: &mut Tally) -> Result<Option<&'a [u8]>, Difference> {
        let Lookup { names, text, made_pairs, made_text } = *self;
        let found = reference::spelling(attr, number, names, text, made_pairs, made_text);
        let wanted = match found {
            Some((start, length)) => [0, start, length],
            None => [raw::NO_SPELLING, 0, 0],
        };
        let part = raw::spelling(attr, number, names, text, made_pairs, made_text);
        let got = [part.refusal, part.start, part.bytes];
        tally.spellings += 1;
        let told = |what: String| Err(format!("spelling of {} with attr {}: {}", number, attr, what));
        if found.is_none() {
            if let Err(difference) = tally.answers.count(wanted[0], got[0]) {
                return told(difference);
            }
        }
        if got != wanted {
            return told(format!("the reference answers {:?}, the library {:?}", wanted, got));
        }
        let of = if attr == 0 { text } else { made_text };
        Ok(found.map(|(start, length)| &of[start as usize..start as usize + length as usize]))
    }
}
