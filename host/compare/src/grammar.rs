//! Which children a row has: for making tables, not for judging them.

/// What may stand at a place.
#[derive(Clone, Copy, Debug, PartialEq, Eq, Hash)]
pub enum Place {
    Program,
    Statement,
    Expression,
    /// An expression or Super.
    Object,
    Declarator,
    Params,
    Body,
    ClassMember,
    /// A Method's Function; whether that is static.
    MethodFunction(bool),
    PropertyFunction,
    ObjectPart,
    Target,
    TargetChild,
    /// Below Other, and below Opaque.
    AnyPart,
    ExpressionPart,
}

/// Kind, attr and name of a row.
pub type Head = [u32; 3];

/// The places of a row's children: the first ones, then any number of the last.
pub fn children(head: Head) -> (Vec<Place>, Option<Place>) {
    use Place::*;
    let [kind, attr, _] = head;
    let key = || if attr & 1 != 0 { vec![Expression] } else { Vec::new() };
    let and = |mut list: Vec<Place>, p: Place| {
        list.push(p);
        list
    };
    match kind {
        0 | 5 | 19 | 23 => (vec![], Some(Statement)),
        1 => (vec![Expression], None),
        2 | 18 => (vec![], Some(Declarator)),
        6 => (vec![], Some(AnyPart)),
        8 => (vec![], Some(ExpressionPart)),
        12 => (vec![Object], None),
        13 => (vec![Object, Expression], None),
        14 => (vec![Object], Some(Expression)),
        15 => (vec![Target, Expression], None),
        16 => (vec![Params, if attr & 2 != 0 { Expression } else { Body }], None),
        17 => (vec![Params, Body], None),
        20 => (key(), Some(ClassMember)),
        21 => (and(key(), MethodFunction(attr & 2 != 0)), None),
        22 => (if attr & 4 != 0 { and(key(), Expression) } else { key() }, None),
        24 => (vec![], Some(ObjectPart)),
        25 => (and(key(), if attr & 2 != 0 { PropertyFunction } else { Expression }), None),
        26 => (vec![Expression, Expression], Some(Expression)),
        28 => (vec![TargetChild], None),
        _ => (vec![], None),
    }
}

/// Whether a Declarator or a Return: an expression or none.
pub fn one_or_none(head: Head) -> bool {
    matches!(head[0], 3 | 4)
}

/// Whether a row may stand at a place.
pub fn fits(head: Head, place: Place) -> bool {
    use Place::*;
    let [kind, attr, _] = head;
    let declaration = attr & 8 != 0;
    let constructor = kind == 17 && attr & 4 != 0;
    let statement = matches!(kind, 1 | 2 | 4 | 5 | 6) || matches!(kind, 17 | 20) && declaration;
    let expression =
        matches!(kind, 8 | 9 | 11..=16 | 24 | 26) || matches!(kind, 17 | 20) && !declaration && !constructor;
    match place {
        Program => kind == 0,
        Statement => statement,
        Expression => expression,
        Object => expression || kind == 10,
        Declarator => kind == 3,
        Params => kind == 18,
        Body => kind == 19,
        ClassMember => matches!(kind, 21..=23),
        MethodFunction(is_static) => kind == 17 && !declaration && !(constructor && is_static),
        PropertyFunction => kind == 17 && !declaration && !constructor,
        ObjectPart => expression || kind == 25,
        Target => kind == 28,
        TargetChild => matches!(kind, 8 | 11 | 12 | 13),
        AnyPart => statement || expression || kind == 28,
        ExpressionPart => expression || kind == 28,
    }
}

/// A subtree in preorder: kind, attr, name, and how many rows it has.
pub type Tree = Vec<[u32; 4]>;

/// The rows of a table: each row's end for its size.
pub fn laid(tree: &[[u32; 4]]) -> Vec<[u32; 4]> {
    tree.iter().enumerate().map(|(i, &[kind, attr, name, size])| [kind, attr, name, i as u32 + size]).collect()
}
