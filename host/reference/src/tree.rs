//! The tree: statements hold expressions, which hold functions and classes, which hold statements.
//!
//! Each node that stands for a row has the row of the table that it was read from, which it keeps on its way through the
//! conversion; a node that takes another's place takes its row over.

/// The row of a node that the conversion adds.
pub const ADDED: u32 = u32::MAX;

/// A name of the table, or a made binding by its number.
#[derive(Clone, Copy)]
pub enum Name {
    Given(u32),
    Made(u32),
}

/// It is row 0.
pub struct Program {
    pub body: Vec<Statement>,
}

pub enum Statement {
    Expression { row: u32, expression: Expression },
    Var(Var),
    Return { row: u32, value: Option<Expression> },
    Block(Block),
    Other(Held),
    Function(Box<Function>),
    Class(Box<Class>),
}

pub struct Var {
    pub row: u32,
    pub kind: u32,
    pub declarators: Vec<Declarator>,
}

pub struct Declarator {
    pub row: u32,
    pub name: Name,
    pub init: Option<Expression>,
}

pub struct Block {
    pub row: u32,
    pub case: bool,
    pub body: Vec<Statement>,
}

/// Other, or Opaque: what no rule looks at.
pub struct Held {
    pub row: u32,
    pub attr: u32,
    pub name: u32,
    pub parts: Vec<Part>,
}

pub enum Part {
    Statement(Statement),
    Expression(Expression),
    Target(Target),
}

pub enum Expression {
    Opaque(Box<Held>),
    This {
        row: u32,
    },
    Super {
        row: u32,
    },
    Ident(Ident),
    Member(Box<Member>),
    Computed(Box<Computed>),
    Call(Box<Call>),
    Assign(Box<Assign>),
    Arrow(Box<Arrow>),
    Function(Box<Function>),
    Class(Box<Class>),
    Object(Box<Object>),
    Sequence(Box<Sequence>),
    /// Always added.
    Arguments {
        guarded: bool,
    },
}

pub struct Ident {
    pub row: u32,
    pub name: Name,
}

pub struct Member {
    pub row: u32,
    pub object: Expression,
    pub property: MemberName,
}

#[derive(Clone, Copy)]
pub enum MemberName {
    Given(u32),
    /// The property `call`.
    Call,
}

pub struct Computed {
    pub row: u32,
    pub object: Expression,
    pub key: Expression,
}

pub struct Call {
    pub row: u32,
    pub callee: Expression,
    pub arguments: Vec<Expression>,
}

pub struct Assign {
    pub row: u32,
    pub operator: u32,
    pub target: Target,
    pub right: Expression,
}

pub struct Target {
    pub row: u32,
    pub place: Assigned,
}

/// What is assigned to.
pub enum Assigned {
    Ident(Ident),
    Member(Box<Member>),
    Computed(Box<Computed>),
    Opaque(Box<Held>),
}

pub struct Arrow {
    pub row: u32,
    pub is_async: bool,
    pub params: Params,
    pub body: ArrowBody,
}

pub struct Params {
    pub row: u32,
    pub declarators: Vec<Declarator>,
}

pub struct Body {
    pub row: u32,
    pub statements: Vec<Statement>,
}

pub enum ArrowBody {
    Expression(Expression),
    Body(Body),
}

pub struct Function {
    pub row: u32,
    pub is_async: bool,
    pub is_generator: bool,
    pub is_constructor: bool,
    pub is_declaration: bool,
    pub name: u32,
    pub params: Params,
    pub body: Body,
}

pub struct Class {
    pub row: u32,
    pub is_declaration: bool,
    pub name: u32,
    pub heritage: Option<Expression>,
    pub members: Vec<ClassMember>,
}

pub enum ClassMember {
    Method(Method),
    Field(Field),
    StaticBlock(StaticBlock),
}

pub struct Method {
    pub row: u32,
    pub is_static: bool,
    pub key: Option<Expression>,
    pub function: Box<Function>,
}

pub struct Field {
    pub row: u32,
    pub is_static: bool,
    pub key: Option<Expression>,
    pub value: Option<Expression>,
}

pub struct StaticBlock {
    pub row: u32,
    pub body: Vec<Statement>,
}

pub struct Object {
    pub row: u32,
    pub parts: Vec<ObjectPart>,
}

pub enum ObjectPart {
    Property(Property),
    Expression(Expression),
}

pub struct Property {
    pub row: u32,
    pub is_method: bool,
    pub key: Option<Expression>,
    pub value: Expression,
}

pub struct Sequence {
    pub row: u32,
    pub expressions: Vec<Expression>,
}
