//! What a row of each kind may have, as `docs/FORMAT.md` tells it in "Rows": its attr, its children and its name. The
//! library tests rows; this is for the words in which a bad one is told. Which kinds may stand in which place is not here.

use crate::{Kind, Parent};

/// A rule for attrs.
pub(crate) enum Broken {
    /// A kind has only so many attrs.
    Kind,
    /// A Function or Class that is a statement has bit 3.
    Statement,
    /// One that is no statement has not.
    NoStatement,
    /// Bit 2 of a Function stands alone, and on the last child of a Method that is not static.
    Constructor,
}

/// The rule that an attr breaks, if it breaks one.
pub(crate) fn broken_by(kind: Kind, attr: u32, parent: Option<Parent>) -> Option<Broken> {
    use Kind::*;
    let (most, _) = attrs_of(kind);
    if attr > most || kind == Class && attr & 6 != 0 {
        return Some(Broken::Kind);
    }
    if !matches!(kind, Function | Class) {
        return None;
    }
    let declared = attr & 8 != 0;
    match parent.map(|parent| parent.kind) {
        Some(Other) => {}
        Some(Program | Block | Body | StaticBlock) if declared => {}
        Some(Program | Block | Body | StaticBlock) => return Some(Broken::Statement),
        _ if declared => return Some(Broken::NoStatement),
        _ => {}
    }
    if kind == Function && attr & 4 != 0 && !(attr == 4 && parent.map_or(false, is_for_constructor)) {
        return Some(Broken::Constructor);
    }
    None
}

/// Whether it is the last child of a Method that is not static.
fn is_for_constructor(parent: Parent) -> bool {
    parent.kind == Kind::Method && parent.attr & 2 == 0 && parent.child == 1 + parent.attr % 2
}

/// The attrs that a kind may have: a number past which there is none, and all of them in words. Which of them a Function or
/// Class has, its place says too.
pub(crate) fn attrs_of(kind: Kind) -> (u32, &'static str) {
    use Kind::*;
    match kind {
        Program | ExprStmt | Return | This | Super | Computed | Call | Params | Body | StaticBlock | Object
        | Sequence | Target => (0, "0"),
        Declarator | Ident | Member => (1, "0, or 1 in a result only"),
        Block => (1, "0 or 1"),
        Arguments => (1, "0 or 1, in a result only"),
        Var => (2, "0, 1 or 2"),
        Arrow | Method | Property => (3, "0 to 3"),
        Field => (7, "0 to 7"),
        Class => (9, "0, 1, 8 or 9"),
        Assign => (15, "0 to 15"),
        Function => (15, "0 to 4 or 8 to 11"),
        Other | Opaque => (u32::MAX, "any number"),
    }
}

/// What a row of that kind and attr holds: the least and the most children, and what they are.
pub(crate) fn held_by(kind: Kind, attr: u32) -> (u32, u32, &'static str) {
    use Kind::*;
    const MANY: u32 = u32::MAX;
    let [bit0, bit1, bit2] = [1, 2, 4].map(|bit| attr & bit != 0);
    match kind {
        Program | Block | Body | StaticBlock => (0, MANY, "statements"),
        Var | Params => (0, MANY, "Declarators"),
        Other => (0, MANY, "statements, expressions and Targets"),
        Opaque => (0, MANY, "expressions and Targets"),
        Object => (0, MANY, "Properties and expressions"),
        This | Super | Ident | Arguments => (0, 0, "nothing"),
        ExprStmt => (1, 1, "one expression"),
        Declarator | Return => (0, 1, "one expression or none"),
        Sequence => (2, MANY, "two or more expressions"),
        Member => (1, 1, "one expression, which may be a Super"),
        Computed => (2, 2, "two expressions, the first of which may be a Super"),
        Call => (1, MANY, "one or more expressions, the first of which may be a Super"),
        Assign => (2, 2, "a Target and an expression"),
        Target => (1, 1, "one Ident, Member, Computed or Opaque"),
        Arrow if bit1 => (2, 2, "Params and an expression"),
        Arrow | Function => (2, 2, "Params and a Body"),
        Class if bit0 => (1, MANY, "a heritage, which is an expression, and then Methods, Fields and StaticBlocks"),
        Class => (0, MANY, "Methods, Fields and StaticBlocks, and no heritage"),
        Method => keyed(bit0, true),
        Property => keyed(bit0, bit1),
        Field if bit2 => keyed(bit0, false),
        Field if bit0 => (1, 1, "a key, which is an expression, and no value"),
        Field => (0, 0, "no key and no value"),
    }
}

/// What is held by a row that has a key or none, and then a Function or another value.
fn keyed(key: bool, function: bool) -> (u32, u32, &'static str) {
    match (key, function) {
        (true, true) => (2, 2, "a key, which is an expression, and a Function"),
        (true, false) => (2, 2, "a key and a value, which are expressions"),
        (false, true) => (1, 1, "a Function and no key"),
        (false, false) => (1, 1, "a value, which is an expression, and no key"),
    }
}

/// What name a row has.
pub(crate) enum Naming {
    /// The number of a name.
    One,
    /// The number of a name, or 0.
    OneOrNone,
    /// 0.
    None,
    /// Any number, which is not looked at.
    Any,
}

pub(crate) fn naming_of(kind: Kind) -> Naming {
    use Kind::*;
    match kind {
        Declarator | Ident | Member => Naming::One,
        Function | Class => Naming::OneOrNone,
        Other | Opaque | Arguments => Naming::Any,
        Program | ExprStmt | Var | Return | Block | This | Super | Computed | Call | Assign | Arrow | Params | Body
        | Method | Field | StaticBlock | Object | Property | Sequence | Target => Naming::None,
    }
}
