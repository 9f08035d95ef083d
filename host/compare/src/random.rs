//! Random numbers from a seed, and random tables.

use crate::call::Table;
use crate::grammar::{children, fits, laid, one_or_none, Head, Place};

/// splitmix64
pub struct Random(u64);

impl Random {
    pub fn new(seed: u64) -> Random {
        Random(seed)
    }

    pub fn next(&mut self) -> u64 {
        self.0 = self.0.wrapping_add(0x9E37_79B9_7F4A_7C15);
        let mut z = self.0;
        z = (z ^ (z >> 30)).wrapping_mul(0xBF58_476D_1CE4_E5B9);
        z = (z ^ (z >> 27)).wrapping_mul(0x94D0_49BB_1331_11EB);
        z ^ (z >> 31)
    }

    pub fn below(&mut self, n: usize) -> usize {
        (self.next() % n as u64) as usize
    }

    pub fn one_in(&mut self, n: usize) -> bool {
        self.below(n) == 0
    }

    pub fn of<T: Copy>(&mut self, list: &[T]) -> T {
        list[self.below(list.len())]
    }
}

/// Spellings that rules look at, twice each under two numbers, and some that they do not.
pub const SPELLINGS: [&str; 12] =
    ["a", "foo", "arguments", "foo", "arguments", "call", "\u{e4}b", "Argument", "argumentsx", "\u{44f}", "z1", "fo"];

pub fn names() -> (Vec<[u32; 2]>, Vec<u8>) {
    let mut names = Vec::new();
    let mut text = Vec::new();
    for spelled in SPELLINGS {
        names.push([text.len() as u32, spelled.len() as u32]);
        text.extend_from_slice(spelled.as_bytes());
    }
    (names, text)
}

/// What is around a place, so that most tables are accepted.
#[derive(Clone, Copy)]
struct Around {
    /// The owner allows `super.x`, and `super()`.
    access: bool,
    call: bool,
    /// A Super may stand right here.
    super_here: bool,
    /// In a Field's value.
    field: bool,
    depth: usize,
}

/// How a random table is made.
#[derive(Clone, Copy)]
pub struct Style {
    /// About how many rows.
    pub rows: usize,
    pub deepest: usize,
    /// One in so many is not looked after: a Super anywhere, an arrow in a Field, a binding called `arguments`.
    pub careless: usize,
    /// Rows that the rules are about are this much more likely.
    pub keen: usize,
    /// Whether a Field's value may hold an Arrow, which AsyncOnly refuses.
    pub field_arrows: bool,
}

pub struct Maker<'a> {
    random: &'a mut Random,
    style: Style,
    left: usize,
    tree: Vec<[u32; 4]>,
}

/// A table of about that many rows.
pub fn table(random: &mut Random, style: Style) -> Table {
    let mut maker = Maker { random, style, left: style.rows, tree: vec![[0, 0, 0, 0]] };
    let around = Around { access: false, call: false, super_here: false, field: false, depth: 1 };
    while maker.left > 0 {
        // A statement gets a share of what is left, so that later ones get some.
        let all = maker.left;
        maker.left = (1 + maker.random.below(all)).max(all.min(12));
        let share = maker.left;
        maker.at(Place::Statement, around);
        maker.left = all.saturating_sub((share - maker.left.min(share)).max(1));
    }
    let size = maker.tree.len() as u32;
    maker.tree[0][3] = size;
    let rows = laid(&maker.tree);
    let (names, text) = names();
    Table { rows, more_rows: 0, names, more_names: 0, text }
}

const ARGUMENTS: [u32; 2] = [3, 5];

impl Maker<'_> {
    fn careless(&mut self) -> bool {
        self.random.one_in(self.style.careless)
    }

    /// A row at that place, with all below it.
    fn at(&mut self, place: Place, around: Around) {
        if place == Place::Statement && around.call && !around.field && self.random.one_in(6) {
            return self.super_statement(around);
        }
        let head = self.head(place, around);
        let at = self.tree.len();
        self.left = self.left.saturating_sub(1);
        self.tree.push([head[0], head[1], head[2], 0]);
        let room = around.depth < self.style.deepest;
        if one_or_none(head) {
            if self.left > 0 && room && !self.random.one_in(3) {
                self.at(Place::Expression, self.around(head, place, 0, around));
            }
        } else {
            let (first, rest) = children(head);
            let fixed = first.len();
            for (child, below) in first.into_iter().enumerate() {
                self.at(below, self.around(head, place, child, around));
            }
            if let Some(below) = rest {
                let inner = self.around(head, place, fixed.max(1), around);
                let first = self.around(head, place, fixed, around);
                let mut any = fixed > 0;
                while self.left > 0 && room && !self.random.one_in(4) {
                    self.at(below, if any { inner } else { first });
                    any = true;
                }
            }
        }
        self.tree[at][3] = (self.tree.len() - at) as u32;
    }

    /// `super(..)` as a statement, with an argument at times.
    fn super_statement(&mut self, around: Around) {
        let at = self.tree.len();
        self.tree.extend([[1, 0, 0, 0], [14, 0, 0, 0], [10, 0, 0, 1]]);
        self.left = self.left.saturating_sub(3);
        if self.random.one_in(3) {
            self.at(Place::Expression, Around { depth: around.depth + 2, super_here: false, ..around });
        }
        let size = (self.tree.len() - at) as u32;
        self.tree[at][3] = size;
        self.tree[at + 1][3] = size - 1;
    }

    /// What is around a row's child.
    fn around(&self, head: Head, place: Place, child: usize, around: Around) -> Around {
        let mut inner = Around { depth: around.depth + 1, super_here: false, ..around };
        match head[0] {
            12 | 13 if child == 0 => inner.super_here = around.access,
            14 if child == 0 => inner.super_here = around.call,
            17 => {
                inner.access = matches!(place, Place::MethodFunction(_) | Place::PropertyFunction);
                inner.call = head[1] & 4 != 0;
            }
            // The value is the last of the key and the value.
            22 if head[1] & 4 != 0 && child as u32 == head[1] & 1 => inner.field = true,
            23 => {
                inner.access = true;
                inner.call = false;
            }
            _ => {}
        }
        inner
    }

    fn name(&mut self) -> u32 {
        1 + self.random.below(SPELLINGS.len()) as u32
    }

    fn binding(&mut self) -> u32 {
        let name = self.name();
        if ARGUMENTS.contains(&name) && !self.careless() {
            1
        } else {
            name
        }
    }

    /// A row's kind, attr and name; a leaf where nothing is left.
    fn head(&mut self, place: Place, around: Around) -> Head {
        let out = self.left <= 1 || around.depth + 3 >= self.style.deepest;
        if around.super_here && !around.field && self.random.one_in(3) {
            return [10, 0, 0];
        }
        loop {
            let head = self.candidate(place, out);
            if fits(head, place) && self.wanted(head, around) {
                return head;
            }
        }
    }

    fn candidate(&mut self, place: Place, out: bool) -> Head {
        let kind = match place {
            Place::Program => 0,
            Place::Declarator => 3,
            Place::Params => 18,
            Place::Body => 19,
            Place::MethodFunction(_) | Place::PropertyFunction => 17,
            Place::Target => 28,
            Place::ClassMember => self.random.of(&[21, 21, 21, 22, 23]),
            Place::TargetChild => self.random.of(&[11, 12, 12, 13, 8]),
            Place::Statement if out => self.random.of(&[4, 5, 2]),
            Place::Statement => self.random.of(&[1, 1, 1, 1, 2, 4, 5, 6, 17, 20]),
            Place::Expression | Place::ExpressionPart | Place::ObjectPart if out => self.random.of(&[9, 9, 11]),
            Place::Object if out => self.random.of(&[9, 10, 10, 11]),
            Place::AnyPart if out => self.random.of(&[9, 4, 11]),
            _ if self.random.below(self.style.keen + 1) > 0 => {
                self.random.of(&[9, 9, 10, 11, 12, 12, 13, 14, 14, 15, 16, 16, 16, 17, 20, 24, 25])
            }
            _ => self.random.of(&[1, 2, 4, 5, 6, 8, 8, 9, 11, 12, 13, 14, 15, 16, 17, 20, 24, 25, 26, 28]),
        };
        let method = matches!(place, Place::MethodFunction(false));
        let attr = match kind {
            2 => self.random.below(3) as u32,
            5 => self.random.below(2) as u32,
            6 | 8 => self.random.of(&[0, 1, 2, 77, u32::MAX]),
            15 => self.random.below(16) as u32,
            16 => self.random.below(4) as u32,
            17 if method && self.random.one_in(3) => 4,
            17 => self.random.below(4) as u32 | if place == Place::Statement { 8 } else { self.random.of(&[0, 8]) },
            20 => self.random.below(2) as u32 | if place == Place::Statement { 8 } else { self.random.of(&[0, 8]) },
            21 => self.random.of(&[0, 0, 0, 1, 2, 3]),
            22 => self.random.below(8) as u32,
            25 => self.random.of(&[0, 1, 2, 2, 3]),
            _ => 0,
        };
        let name = match kind {
            3 => self.binding(),
            11 if self.random.one_in(3) => self.random.of(&ARGUMENTS),
            11 | 12 => self.name(),
            17 | 20 if self.random.one_in(3) => self.binding(),
            6 | 8 => self.random.of(&[0, 0, 3, 99, u32::MAX]),
            _ => 0,
        };
        [kind, attr, name]
    }

    fn wanted(&mut self, head: Head, around: Around) -> bool {
        match head[0] {
            10 => (around.super_here && !around.field) || self.random.one_in(self.style.careless * 4),
            16 => !around.field || self.style.field_arrows || self.careless(),
            _ => true,
        }
    }
}
