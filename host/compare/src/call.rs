//! One call of each side, compared in every number and every byte lent; and where the rows of a result come from.

use std::panic::{catch_unwind, AssertUnwindSafe};

use thawcopper::{raw, Binding, Converted, Options, Row, Switches};
use thawcopper_reference as reference;

use crate::names::MadeNames;
use crate::numbers::{Answers, BadRows};

/// Bytes of a table.
#[derive(Clone)]
pub struct Table {
    pub rows: Vec<[u32; 4]>,
    /// Bytes behind the rows.
    pub more_rows: usize,
    pub names: Vec<[u32; 2]>,
    /// Bytes behind the names.
    pub more_names: usize,
    pub text: Vec<u8>,
}

pub fn bytes<'a, const N: usize>(words: impl IntoIterator<Item = &'a [u32; N]>, more: usize) -> Vec<u8> {
    let mut list: Vec<u8> = words.into_iter().flat_map(|w| w.iter()).flat_map(|w| w.to_le_bytes()).collect();
    list.resize(list.len() + more, 0);
    list
}

pub const EIGHT: [Switches; 8] = {
    let mut list = [Switches { arrow: false, async_to_generator: false, async_generator_functions: false }; 8];
    let mut i = 0;
    while i < 8 {
        list[i].arrow = i & 4 != 0;
        list[i].async_to_generator = i & 2 != 0;
        list[i].async_generator_functions = i & 1 != 0;
        i += 1;
    }
    list
};

fn of_reference(s: Switches) -> reference::Switches {
    reference::Switches {
        arrow: s.arrow,
        async_to_generator: s.async_to_generator,
        async_generator_functions: s.async_generator_functions,
    }
}

/// The entry that is called, with what it is told beside a table.
#[derive(Clone, Copy, Debug)]
pub enum Entry {
    /// `thawcopper_convert`.
    Convert(Switches),
    /// `thawcopper_convert_with`, with that word.
    ConvertWith(u32),
}

/// The bits of the word that have no name.
const NAMELESS: u32 = !(raw::ARROW | raw::ASYNC_TO_GENERATOR | raw::ASYNC_GENERATORS | raw::TABLET);

impl Entry {
    /// The print room's entries by turns: the one with switches, and the one with options, with and without bits that
    /// have no name.
    fn print_room(switches: Switches, turn: usize) -> Entry {
        let word = Options::new(switches).bits();
        match turn % 4 {
            0 | 2 => Entry::Convert(switches),
            1 => Entry::ConvertWith(word),
            _ => Entry::ConvertWith(word | NAMELESS),
        }
    }

    /// The tablet's entry, by turns with and without such bits.
    fn tablet(switches: Switches, turn: usize) -> Entry {
        let word = Options::new(switches).tablet(true).bits();
        Entry::ConvertWith(if turn % 2 == 0 { word } else { word | NAMELESS })
    }

    /// What the reference is told.
    fn options(self) -> reference::Options {
        match self {
            Entry::Convert(switches) => reference::Options { switches: of_reference(switches), tablet: false },
            Entry::ConvertWith(word) => reference::Options::of_word(word),
        }
    }

    fn call(self, input: &Input, out_rows: &mut [u8], out_bindings: &mut [u8]) -> raw::Answer {
        let (rows, names, text) = (input.rows(), input.names(), input.text());
        match self {
            Entry::Convert(switches) => raw::convert(&switches, rows, names, text, out_rows, out_bindings),
            Entry::ConvertWith(word) => raw::convert_with(word, rows, names, text, out_rows, out_bindings),
        }
    }
}

/// A difference, in words.
pub type Difference = String;

/// How many bytes on each side of what is lent are looked at too. It is odd, so that what is lent is not aligned.
const GUARD: usize = 33;

/// Memory to lend, filled with a pattern before each call.
pub struct Lent {
    pattern: Vec<u8>,
    buffer: Vec<u8>,
    length: usize,
}

impl Lent {
    pub fn new() -> Lent {
        Lent { pattern: Vec::new(), buffer: Vec::new(), length: 0 }
    }

    pub fn lend(&mut self, length: usize) -> &mut [u8] {
        let whole = length + 2 * GUARD;
        while self.pattern.len() < whole {
            // No word of it is a likely one, and no two rows of it are alike.
            let n = self.pattern.len();
            self.pattern.push((n * 37 + n / 256 * 11 + 165) as u8 | 0x80);
        }
        if self.buffer.len() < whole {
            self.buffer.resize(whole, 0);
        }
        self.length = length;
        self.buffer[..whole].copy_from_slice(&self.pattern[..whole]);
        &mut self.buffer[GUARD..GUARD + length]
    }

    /// What was lent.
    pub fn lent(&self) -> &[u8] {
        &self.buffer[GUARD..GUARD + self.length]
    }

    /// Whether the front is this, and all else the pattern.
    pub fn holds(&self, front: &[u8]) -> bool {
        let whole = self.length + 2 * GUARD;
        let behind = GUARD + front.len();
        self.buffer[..GUARD] == self.pattern[..GUARD]
            && &self.buffer[GUARD..behind] == front
            && self.buffer[behind..whole] == self.pattern[behind..whole]
    }
}

/// What was compared.
#[derive(Default)]
pub struct Tally {
    pub tables: u64,
    pub calls: u64,
    /// Spellings that were found are not among them.
    pub answers: Answers,
    /// Of the tables that 21 to 25 are told of.
    pub bad_rows: BadRows,
    /// Acceptances with bindings.
    pub with_bindings: u64,
    /// Results whose origins were compared.
    pub origins: u64,
    /// Calls as a tablet; how many were accepted, and refused by 1 or 3 where the print room does not answer the same.
    pub tablet_calls: u64,
    pub tablet_accepted: u64,
    pub tablet_refused: u64,
    /// Calls that make names; and the names of those that were accepted.
    pub names_calls: u64,
    pub names: u64,
    /// Spellings that were looked up.
    pub spellings: u64,
}

impl Tally {
    pub fn add(&mut self, more: &Tally) {
        self.tables += more.tables;
        self.calls += more.calls;
        self.answers.add(&more.answers);
        self.bad_rows.add(&more.bad_rows);
        self.with_bindings += more.with_bindings;
        self.origins += more.origins;
        self.tablet_calls += more.tablet_calls;
        self.tablet_accepted += more.tablet_accepted;
        self.tablet_refused += more.tablet_refused;
        self.names_calls += more.names_calls;
        self.names += more.names;
        self.spellings += more.spellings;
    }
}

/// What a caller lends, and the four numbers of its last call.
struct Caller {
    rows: Lent,
    bindings: Lent,
    told: [u32; 4],
}

impl Caller {
    fn new() -> Caller {
        Caller { rows: Lent::new(), bindings: Lent::new(), told: [0; 4] }
    }
}

/// Compares calls, and counts them.
pub struct Comparer {
    print_room: Caller,
    tablet: Caller,
    names: MadeNames,
    pub tally: Tally,
}

/// How much is lent, in bytes.
#[derive(Clone, Copy, Debug)]
pub struct Room {
    pub rows: usize,
    pub bindings: usize,
}

/// Which settings of a table are called as a tablet too, and have the names of their bindings compared.
#[derive(Clone, Copy, PartialEq)]
pub enum Tablet {
    Each,
    /// One of eight, the next for each table.
    ByTurns,
}

/// Which rooms are tried.
#[derive(Clone, Copy, PartialEq)]
pub enum Rooms {
    /// Exact; one byte short, rows and bindings by turns; and in two of the eight settings so much that rows are not counted.
    Some,
    /// Exact, short by one byte of each, with bytes to spare that are no whole row, none, plenty, and around so much that
    /// rows are not counted.
    All,
}

/// A table's bytes as they are handed over, and a copy.
pub struct Input {
    table: thawcopper::Table,
    copy: thawcopper::Table,
}

impl Input {
    pub fn of(table: &Table) -> Input {
        let rows = bytes(&table.rows, table.more_rows);
        let names = bytes(&table.names, table.more_names);
        let table = thawcopper::Table::from_bytes(rows, names, table.text.clone());
        Input { copy: table.clone(), table }
    }

    pub fn rows(&self) -> &[u8] {
        self.table.row_bytes()
    }

    pub fn names(&self) -> &[u8] {
        self.table.name_bytes()
    }

    pub fn text(&self) -> &[u8] {
        self.table.text_bytes()
    }

    fn untouched(&self) -> bool {
        self.table == self.copy
    }
}

impl Comparer {
    pub fn new() -> Comparer {
        Comparer::after(0)
    }

    /// As if that many tables had been compared before, which is what turns go by.
    pub fn after(tables: u64) -> Comparer {
        let tally = Tally { tables, ..Tally::default() };
        Comparer { print_room: Caller::new(), tablet: Caller::new(), names: MadeNames::new(), tally }
    }

    /// One call on each side, with that room.
    pub fn one(&mut self, entry: Entry, input: &Input, room: Room) -> Result<(), Difference> {
        let wanted =
            reference::convert(entry.options(), input.rows(), input.names(), input.text(), room.rows, room.bindings);
        self.against(entry, input, room, &wanted)
    }

    fn against(
        &mut self,
        entry: Entry,
        input: &Input,
        room: Room,
        wanted: &Result<reference::Result01, reference::Refused>,
    ) -> Result<(), Difference> {
        let (numbers, rows, bindings) = match wanted {
            Ok(r) => ([0, 0, r.rows.len() as u32, r.bindings.len() as u32], bytes(&r.rows, 0), bytes(&r.bindings, 0)),
            Err(r) => ([r.number, r.place, 0, 0], Vec::new(), Vec::new()),
        };
        let caller = if entry.options().tablet { &mut self.tablet } else { &mut self.print_room };
        let answer = entry.call(input, caller.rows.lend(room.rows), caller.bindings.lend(room.bindings));
        caller.told = [answer.refusal, answer.place, answer.rows, answer.bindings];
        let told = |what: String| Err(format!("{:?} {:?}: {}", entry, room, what));
        self.tally.calls += 1;
        self.tally.with_bindings += u64::from(numbers[3] != 0);
        if let Err(difference) = self.tally.answers.count(numbers[0], caller.told[0]) {
            return told(difference);
        }
        if caller.told != numbers {
            return told(format!("the reference answers {:?}, the library {:?}", numbers, caller.told));
        }
        if !caller.rows.holds(&rows) {
            return told(format!("answer {:?}, but the rows lent differ", numbers));
        }
        if !caller.bindings.holds(&bindings) {
            return told(format!("answer {:?}, but the bindings lent differ", numbers));
        }
        if !input.untouched() {
            return told("the table was written to".to_string());
        }
        Ok(())
    }

    /// The call that the print room made last, once more as a tablet. Where it is not refused by 1 or 3, it gives the
    /// print room's numbers and bytes.
    fn as_tablet(&mut self, entry: Entry, input: &Input, room: Room) -> Result<(), Difference> {
        self.one(entry, input, room)?;
        let Comparer { print_room, tablet, tally, .. } = self;
        let same = tablet.told == print_room.told
            && tablet.rows.lent() == print_room.rows.lent()
            && tablet.bindings.lent() == print_room.bindings.lent();
        let own = matches!(tablet.told[0], 1 | 3);
        tally.tablet_calls += 1;
        tally.tablet_accepted += u64::from(tablet.told[0] == 0);
        tally.tablet_refused += u64::from(own && !same);
        if own || same {
            return Ok(());
        }
        Err(format!(
            "{:?} {:?}: the print room has answer {:?}, the tablet {:?}, with other bytes lent",
            entry, room, print_room.told, tablet.told
        ))
    }

    /// The result that was written last, in just the room that it needs.
    fn converted(&self) -> Converted {
        let rows = Row::list(self.print_room.rows.lent());
        Converted { rows, bindings: Binding::list(self.print_room.bindings.lent()) }
    }

    /// Where its rows come from.
    fn origins(
        &mut self,
        switches: Switches,
        input: &Input,
        converted: &Converted,
        wanted: &[Option<u32>],
    ) -> Result<(), Difference> {
        self.tally.origins += 1;
        let told = |what: String| Err(format!("{:?}: {}", switches, what));
        let got = match catch_unwind(AssertUnwindSafe(|| converted.origins(&input.table))) {
            Ok(got) => got,
            Err(_) => return told("the package finds no origins".to_string()),
        };
        if got.len() != wanted.len() {
            return told(format!("{} rows and {} origins", wanted.len(), got.len()));
        }
        let parted = got.iter().zip(wanted).position(|(got, wanted)| *got != wanted.map(|row| row as usize));
        match parted {
            None => Ok(()),
            Some(row) => told(format!(
                "row {} of the result comes from {:?} by the reference, from {:?} by the package",
                row, wanted[row], got[row]
            )),
        }
    }

    /// A table in these settings.
    pub fn table(
        &mut self,
        table: &Table,
        settings: &[Switches],
        rooms: Rooms,
        tablet: Tablet,
    ) -> Result<(), Difference> {
        let input = Input::of(table);
        self.tally.tables += 1;
        for (turn, switches) in settings.iter().enumerate() {
            let too = tablet == Tablet::Each || self.tally.tables % 8 == turn as u64;
            self.setting(*switches, &input, rooms, turn, too)?;
        }
        // A bad row is told in each setting and room alike.
        if let [21..=25, ..] = self.print_room.told {
            if let Some(bad) = reference::bad_row(input.rows(), input.names().len() / 8) {
                self.tally.bad_rows.count(&bad);
            }
        }
        Ok(())
    }

    /// A table in one setting: what the reference answers where there is room for all, then less and more room; and as
    /// a tablet too, with the names of the bindings, or not.
    pub fn setting(
        &mut self,
        switches: Switches,
        input: &Input,
        rooms: Rooms,
        turn: usize,
        tablet: bool,
    ) -> Result<(), Difference> {
        // The entries change from call to call, and from table to table.
        let turns = turn + self.tally.tables as usize;
        let entry = |call: usize| Entry::print_room(switches, turns + call);
        let options = entry(0).options();
        let found = reference::convert_with_origins(options, input.rows(), input.names(), input.text());
        let (wanted, origins) = match found {
            Ok((result, origins)) => (Ok(result), origins),
            Err(refused) => (Err(refused), Vec::new()),
        };
        let plenty = Room { rows: input.rows().len() * 2 + 64, bindings: input.rows().len() / 4 + 64 };
        let none = Room { rows: 0, bindings: 0 };
        let exact = match &wanted {
            Ok(r) => Room { rows: r.rows.len() * 16, bindings: r.bindings.len() * 12 },
            Err(_) => none,
        };
        self.against(entry(0), input, exact, &wanted)?;
        if wanted.is_ok() {
            let converted = self.converted();
            self.origins(switches, input, &converted, &origins)?;
            if tablet {
                let bindings = self.print_room.bindings.lent();
                self.names.of_result(&converted, bindings, &input.table, turns, &mut self.tally)?;
                if !input.untouched() {
                    return Err(format!("{:?}: the table was written to as names were made", switches));
                }
            }
        }
        if tablet {
            self.as_tablet(Entry::tablet(switches, turns), input, exact)?;
        }
        if wanted.is_err() {
            return if rooms == Rooms::All { self.against(entry(1), input, plenty, &wanted) } else { Ok(()) };
        }
        let short_rows = Room { rows: exact.rows - 1, ..exact };
        let short_bindings = Room { bindings: exact.bindings.saturating_sub(1), ..exact };
        // From this much room on the library need not count the rows first.
        let ample = Room { rows: 8 * input.rows().len() + 11 * 16 * (exact.bindings / 12), ..exact };
        if rooms == Rooms::Some {
            let short = if turn % 2 == 0 || exact.bindings == 0 { short_rows } else { short_bindings };
            self.one(entry(1), input, short)?;
            return if turn % 4 == 3 { self.against(entry(2), input, ample, &wanted) } else { Ok(()) };
        }
        let spare = Room { rows: exact.rows + 15, bindings: exact.bindings + 11 };
        let more = Room { rows: exact.rows + 16, bindings: exact.bindings + 12 };
        let fewer = Room { rows: exact.rows.saturating_sub(160), bindings: exact.bindings + 120 };
        let nearly = Room { rows: ample.rows - 1, ..exact };
        let ample_short = Room { rows: ample.rows, ..short_bindings };
        let further = [short_rows, short_bindings, spare, more, none, fewer, plenty, ample, nearly, ample_short];
        for (call, room) in further.into_iter().enumerate() {
            self.one(entry(call + 1), input, room)?;
            // As a tablet in one of these rooms, by turns.
            if tablet && turns % further.len() == call {
                self.as_tablet(Entry::tablet(switches, turns), input, room)?;
            }
        }
        Ok(())
    }
}

/// One call of base text on each side.
pub struct BaseTexts {
    out: Lent,
    pub tally: Tally,
}

impl BaseTexts {
    pub fn new() -> BaseTexts {
        BaseTexts { out: Lent::new(), tally: Tally::default() }
    }

    pub fn one(
        &mut self,
        number: u32,
        bindings: &[u8],
        names: &[u8],
        text: &[u8],
        room: usize,
    ) -> Result<usize, Difference> {
        let (numbers, written) = match reference::base_text(number, bindings, names, text, room) {
            Ok(written) => ([0, 0, written.len() as u32], written),
            Err(r) => ([r.number, r.place, 0], Vec::new()),
        };
        let answer = raw::base_text(number, bindings, names, text, self.out.lend(room));
        let got = [answer.refusal, answer.place, answer.bytes];
        self.tally.calls += 1;
        self.tally.answers.count(numbers[0], got[0]).map_err(|difference| format!("base text: {}", difference))?;
        if got != numbers {
            return Err(format!("base text: the reference answers {:?}, the library {:?}", numbers, got));
        }
        if !self.out.holds(&written) {
            return Err(format!("base text: answer {:?}, but the bytes lent differ", numbers));
        }
        Ok(written.len())
    }
}
