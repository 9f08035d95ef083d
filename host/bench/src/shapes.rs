//! The tables that are timed.

const PROGRAM: u32 = 0;
const EXPR_STMT: u32 = 1;
const VAR: u32 = 2;
const DECLARATOR: u32 = 3;
const RETURN: u32 = 4;
const BLOCK: u32 = 5;
const OTHER: u32 = 6;
const OPAQUE: u32 = 8;
const THIS: u32 = 9;
const SUPER: u32 = 10;
const IDENT: u32 = 11;
const MEMBER: u32 = 12;
const CALL: u32 = 14;
const ASSIGN: u32 = 15;
const ARROW: u32 = 16;
const FUNCTION: u32 = 17;
const PARAMS: u32 = 18;
const BODY: u32 = 19;
const CLASS: u32 = 20;
const METHOD: u32 = 21;
const OBJECT: u32 = 24;
const PROPERTY: u32 = 25;
const TARGET: u32 = 28;

const ASYNC: u32 = 1;
const EXPRESSION: u32 = 2;
const CONSTRUCTOR: u32 = 4;
const DECLARATION: u32 = 8;

pub const MOST_ROWS: usize = 16_384;

/// A table that is being written: a row's end is known when it is closed.
pub struct Table {
    pub rows: Vec<[u32; 4]>,
    pub names: Vec<u32>,
    pub text: Vec<u8>,
}

impl Table {
    fn new() -> Table {
        let mut table = Table { rows: Vec::new(), names: Vec::new(), text: Vec::new() };
        for name in ["alpha", "beta", "gamma", "delta", "arguments"] {
            table.name(name.as_bytes());
        }
        table
    }

    fn name(&mut self, spelled: &[u8]) -> u32 {
        self.names.extend([self.text.len() as u32, spelled.len() as u32]);
        self.text.extend(spelled);
        self.names.len() as u32 / 2
    }

    fn row(&mut self, kind: u32, attr: u32, name: u32, inside: impl FnOnce(&mut Table)) {
        let at = self.rows.len();
        self.rows.push([kind, attr, name, 0]);
        inside(self);
        self.rows[at][3] = self.rows.len() as u32;
    }

    fn of(&mut self, kind: u32, inside: impl FnOnce(&mut Table)) {
        self.row(kind, 0, 0, inside);
    }

    fn leaf(&mut self, kind: u32) {
        self.row(kind, 0, 0, |_| ());
    }

    fn ident(&mut self, name: u32) {
        self.row(IDENT, 0, name, |_| ());
    }

    fn member(&mut self, name: u32, object: impl FnOnce(&mut Table)) {
        self.row(MEMBER, 0, name, object);
    }

    fn this_dot(&mut self, name: u32) {
        self.member(name, |t| t.leaf(THIS));
    }

    fn super_dot(&mut self, name: u32) {
        self.member(name, |t| t.leaf(SUPER));
    }

    fn params(&mut self, names: &[u32]) {
        self.of(PARAMS, |t| {
            for name in names {
                t.row(DECLARATOR, 0, *name, |_| ());
            }
        });
    }

    fn function(&mut self, attr: u32, name: u32, params: &[u32], inside: impl FnOnce(&mut Table)) {
        self.row(FUNCTION, attr, name, |t| {
            t.params(params);
            t.of(BODY, inside);
        });
    }

    fn method(&mut self, attr: u32, inside: impl FnOnce(&mut Table)) {
        self.of(METHOD, |t| t.function(attr, 0, &[1], inside));
    }

    fn arrow(&mut self, attr: u32, inside: impl FnOnce(&mut Table)) {
        self.row(ARROW, attr | EXPRESSION, 0, |t| {
            t.params(&[]);
            inside(t);
        });
    }

    /// `() => this` as a statement: 4 rows.
    fn reads_this(&mut self) {
        self.of(EXPR_STMT, |t| t.arrow(0, |t| t.leaf(THIS)));
    }

    /// `super(alpha)` as a statement.
    fn super_call(&mut self) {
        self.of(EXPR_STMT, |t| {
            t.of(CALL, |t| {
                t.leaf(SUPER);
                t.ident(1);
            })
        });
    }

    /// function alpha(alpha, beta) { var gamma = alpha.beta; return beta.map(() => this.delta(gamma)); }
    fn a_function(&mut self) {
        self.function(DECLARATION, 1, &[1, 2], |t| {
            t.of(VAR, |t| t.row(DECLARATOR, 0, 3, |t| t.member(2, |t| t.ident(1))));
            t.of(RETURN, |t| {
                t.of(CALL, |t| {
                    t.member(4, |t| t.ident(2));
                    t.arrow(0, |t| {
                        t.of(CALL, |t| {
                            t.this_dot(4);
                            t.ident(3);
                        })
                    });
                })
            });
        });
    }

    /// A class with a constructor, a method that calls super's, and an async method.
    fn a_class(&mut self) {
        self.row(CLASS, DECLARATION | 1, 2, |t| {
            t.ident(1);
            t.method(CONSTRUCTOR, |t| {
                t.super_call();
                t.of(EXPR_STMT, |t| {
                    t.of(ASSIGN, |t| {
                        t.of(TARGET, |t| t.this_dot(1));
                        t.ident(1);
                    })
                });
                t.of(EXPR_STMT, |t| {
                    t.of(CALL, |t| {
                        t.ident(1);
                        t.arrow(0, |t| t.this_dot(2));
                    })
                });
            });
            t.method(0, |t| {
                t.of(RETURN, |t| {
                    t.of(CALL, |t| {
                        t.super_dot(3);
                        t.ident(1);
                    })
                })
            });
            t.method(ASYNC, |t| {
                t.row(OTHER, 3, 0, |t| {
                    t.this_dot(1);
                    t.of(BLOCK, |t| t.of(RETURN, |t| t.this_dot(2)));
                });
                t.of(EXPR_STMT, |t| {
                    t.row(OPAQUE, 1, 0, |t| {
                        t.of(CALL, |t| {
                            t.super_dot(3);
                            t.leaf(THIS);
                            t.row(OPAQUE, 7, 0, |_| ());
                        })
                    })
                });
                t.of(RETURN, |t| t.super_dot(4));
            });
        });
    }

    /// alpha({ m() { return () => this }, delta }, async () => arguments)
    fn a_call(&mut self) {
        self.of(EXPR_STMT, |t| {
            t.of(CALL, |t| {
                t.ident(1);
                t.of(OBJECT, |t| {
                    t.row(PROPERTY, 2, 0, |t| {
                        t.function(0, 0, &[], |t| t.of(RETURN, |t| t.arrow(0, |t| t.leaf(THIS))))
                    });
                    t.of(PROPERTY, |t| t.ident(4));
                });
                t.arrow(ASYNC, |t| t.ident(5));
            })
        });
    }

    /// Rows without any work, up to that many.
    fn pad(&mut self, rows: usize) {
        while self.rows.len() < rows {
            self.leaf(RETURN);
        }
    }
}

/// A script of that many rows: functions, classes and calls by turns, while there is room for one.
pub fn ordinary(rows: usize) -> Table {
    let mut table = Table::new();
    table.of(PROGRAM, |t| {
        let pieces: [fn(&mut Table); 3] = [Table::a_function, Table::a_class, Table::a_call];
        let mut without_room = 0;
        for piece in pieces.iter().cycle() {
            let before = t.rows.len();
            piece(t);
            if t.rows.len() <= rows {
                without_room = 0;
                continue;
            }
            t.rows.truncate(before);
            without_room += 1;
            if without_room == pieces.len() {
                break;
            }
        }
        t.pad(rows);
    });
    table
}

/// Arrows in an async arrow down to depth 128, with `this` at the bottom: 254 rows for each such statement.
pub fn deep() -> Table {
    fn down(t: &mut Table, left: usize) {
        if left == 0 {
            t.leaf(THIS);
        } else {
            t.arrow(0, |t| down(t, left - 1));
        }
    }
    let mut table = Table::new();
    table.of(PROGRAM, |t| {
        while t.rows.len() + 254 <= MOST_ROWS {
            t.of(EXPR_STMT, |t| t.arrow(ASYNC, |t| down(t, 125)));
        }
        t.pad(MOST_ROWS);
    });
    table
}

/// As many functions that each capture as the limit of rows allows.
pub fn functions() -> Table {
    let mut table = Table::new();
    table.of(PROGRAM, |t| {
        while t.rows.len() + 7 <= MOST_ROWS {
            t.function(DECLARATION, 1, &[], Table::reads_this);
        }
    });
    table
}

/// As many async methods that each read `this` as the limit of rows allows.
pub fn methods() -> Table {
    let mut table = Table::new();
    table.of(PROGRAM, |t| {
        t.row(CLASS, DECLARATION, 1, |t| {
            while t.rows.len() + 6 <= MOST_ROWS {
                t.of(METHOD, |t| t.function(ASYNC, 0, &[], |t| t.of(RETURN, |t| t.leaf(THIS))));
            }
        })
    });
    table
}

/// An async method that reads so many distinct properties of super.
pub fn accessors(count: u32) -> Table {
    let mut table = Table::new();
    let names: Vec<u32> = (0..count).map(|n| table.name(format!("property{n:04}").as_bytes())).collect();
    reads(table, names)
}

/// The same with names that were made so that the library has all of them in one bucket: as many as fit, in as many rows as
/// may be.
pub fn one_bucket() -> Table {
    let mut table = Table::new();
    let parts = |n: u32| (0..11).flat_map(move |bit| if n >> bit & 1 == 0 { *b"aa" } else { *b"bB" });
    let names: Vec<u32> = (0..2_048).map(|n| table.name(&parts(n).collect::<Vec<u8>>())).collect();
    let most = (MOST_ROWS - 7) / 3;
    reads(table, names.into_iter().cycle().take(most).collect())
}

/// An async method that reads these properties of `super`.
fn reads(mut table: Table, names: Vec<u32>) -> Table {
    table.of(PROGRAM, |t| {
        t.row(CLASS, DECLARATION, 1, |t| {
            t.method(ASYNC, |t| {
                for name in names {
                    t.of(EXPR_STMT, |t| t.super_dot(name));
                }
            })
        })
    });
    table
}

/// One list of 16,000 statements at Program.
pub fn list() -> Table {
    let mut table = Table::new();
    table.of(PROGRAM, |t| t.pad(16_001));
    table
}

/// A constructor whose list of 16,000 statements ends with `super()` and `() => this`.
pub fn constructor() -> Table {
    let mut table = Table::new();
    table.of(PROGRAM, |t| {
        t.row(CLASS, DECLARATION, 1, |t| {
            t.method(CONSTRUCTOR, |t| {
                let first = t.rows.len();
                t.pad(first + 15_998);
                t.super_call();
                t.reads_this();
            })
        })
    });
    table
}
