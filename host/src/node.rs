//! The tree that a table is laid out from, and that rows are read as.
//!
//! Nothing here goes down a tree by recursion, so that a tree of any depth can be made, laid out, copied, compared,
//! printed and dropped, and it is the library that says where it is too deep.

use std::fmt;
use std::mem;
use std::slice;

use crate::{Kind, Row, Table};

/// The name of a [`Node`].
#[derive(Clone, Debug, PartialEq, Eq, Hash)]
pub enum Name {
    /// None: 0 in the row.
    None,
    /// A number that is kept as it is: of a made binding where attr is 1 on a Declarator or an Ident, any on Other and
    /// Opaque.
    Number(u32),
    /// A name that gets its number when the tree is laid out.
    Spelled(String),
}

/// A node of the tree that a table is laid out from.
///
/// [`Node::new`] makes one of any kind; the functions below are for the common ones. Nothing is checked here: what the
/// library does not allow it refuses, with the row.
///
/// ```
/// use thawcopper::{convert, Node, Switches, Table};
///
/// // class C { async m() { return super.name; } }
/// let function = Node::function([], [Node::return_(Node::member(Node::super_(), "name"))]).async_();
/// let class = Node::class(None, [Node::method(function)]).name("C").declaration();
/// let table = Table::from_tree(&Node::program([class]));
///
/// let converted = convert(&Switches::ASYNC, &table).unwrap();
/// assert_eq!(converted.base_text(&table, 1).unwrap(), "superprop_getName");
/// ```
///
/// Printed by `{:?}`, a node is its kind, its attr and its name where it has them, and its children:
///
/// ```
/// use thawcopper::Node;
///
/// let script = Node::program([Node::statement(Node::arrow([], Node::member(Node::this(), "a")))]);
/// assert_eq!(format!("{:?}", script), r#"Program [ExprStmt [Arrow 2 [Params, Member "a" [This]]]]"#);
/// ```
pub struct Node {
    kind: Kind,
    attr: u32,
    name: Name,
    children: Vec<Node>,
}

impl Node {
    /// An Arrow's or a Function's bit: async.
    pub const ASYNC: u32 = 1;
    /// An Arrow's bit: its body is an expression.
    pub const EXPRESSION: u32 = 2;
    /// A Function's bit: generator.
    pub const GENERATOR: u32 = 2;
    /// A Function's bit: constructor.
    pub const CONSTRUCTOR: u32 = 4;
    /// A Function's or a Class's bit: it stands as a statement.
    pub const DECLARATION: u32 = 8;
    /// A Method's, Field's or Property's bit: a computed key stands first; a Class's: its heritage does.
    pub const KEY: u32 = 1;
    /// A Method's or Field's bit: static.
    pub const STATIC: u32 = 2;
    /// A Property's bit: its value is a Function written as a method.
    pub const METHOD: u32 = 2;
    /// A Field's bit: it has a value.
    pub const VALUE: u32 = 4;
    /// A Var's attr: `let`.
    pub const LET: u32 = 1;
    /// A Var's attr: `const`.
    pub const CONST: u32 = 2;
    /// A Block's attr: the list of a switch case.
    pub const CASE: u32 = 1;
}

/// Any node, and what is said of one.
impl Node {
    /// A node without attr, name or children.
    pub fn new(kind: Kind) -> Node {
        Node { kind, attr: 0, name: Name::None, children: Vec::new() }
    }

    /// With these bits, or this number, as attr, in place of what it was.
    pub fn attr(mut self, attr: u32) -> Node {
        self.attr = attr;
        self
    }

    /// With these bits of attr set, beside those that are.
    pub fn bits(mut self, bits: u32) -> Node {
        self.attr |= bits;
        self
    }

    /// With this name.
    pub fn name(mut self, spelled: &str) -> Node {
        self.name = Name::Spelled(spelled.to_string());
        self
    }

    /// With this number as its name; 0 is none. Other and Opaque keep any number.
    pub fn name_number(mut self, number: u32) -> Node {
        self.name = if number == 0 { Name::None } else { Name::Number(number) };
        self
    }

    /// With one child more.
    pub fn child(mut self, child: Node) -> Node {
        self.children.push(child);
        self
    }

    /// With some children more.
    pub fn children(mut self, children: impl IntoIterator<Item = Node>) -> Node {
        self.children.extend(children);
        self
    }

    /// An async Function or Arrow.
    pub fn async_(self) -> Node {
        self.bits(Node::ASYNC)
    }

    /// A generator Function.
    pub fn generator(self) -> Node {
        self.bits(Node::GENERATOR)
    }

    /// A Function or Class that stands as a statement.
    pub fn declaration(self) -> Node {
        self.bits(Node::DECLARATION)
    }

    /// A static Method or Field.
    pub fn static_(self) -> Node {
        self.bits(Node::STATIC)
    }

    /// A Method, Field or Property with this computed key, which goes before the children it has.
    pub fn key(mut self, key: Node) -> Node {
        self.children.insert(0, key);
        self.bits(Node::KEY)
    }

    /// Its kind.
    pub fn get_kind(&self) -> Kind {
        self.kind
    }

    /// Its attr.
    pub fn get_attr(&self) -> u32 {
        self.attr
    }

    /// Its name.
    pub fn get_name(&self) -> &Name {
        &self.name
    }

    /// Its children.
    pub fn get_children(&self) -> &[Node] {
        &self.children
    }
}

/// Statements.
impl Node {
    /// A whole script.
    pub fn program(statements: impl IntoIterator<Item = Node>) -> Node {
        Node::new(Kind::Program).children(statements)
    }

    /// An expression as a statement.
    pub fn statement(expression: Node) -> Node {
        Node::new(Kind::ExprStmt).child(expression)
    }

    /// `var declarators`
    pub fn var(declarators: impl IntoIterator<Item = Node>) -> Node {
        Node::new(Kind::Var).children(declarators)
    }

    /// `let declarators`
    pub fn let_(declarators: impl IntoIterator<Item = Node>) -> Node {
        Node::var(declarators).attr(Node::LET)
    }

    /// `const declarators`
    pub fn const_(declarators: impl IntoIterator<Item = Node>) -> Node {
        Node::var(declarators).attr(Node::CONST)
    }

    /// A parameter or variable, without or with an initialiser.
    pub fn declarator(name: &str, init: Option<Node>) -> Node {
        Node::new(Kind::Declarator).name(name).children(init)
    }

    /// `return expression`
    pub fn return_(expression: Node) -> Node {
        Node::new(Kind::Return).child(expression)
    }

    /// `{ statements }`
    pub fn block(statements: impl IntoIterator<Item = Node>) -> Node {
        Node::new(Kind::Block).children(statements)
    }

    /// The statements of a switch case.
    pub fn case(statements: impl IntoIterator<Item = Node>) -> Node {
        Node::block(statements).attr(Node::CASE)
    }

    /// A statement that no rule is about, such as `if` or `for`: the statements, expressions and Targets in it, in order.
    /// Its attr and its name are the host's own and are kept.
    pub fn other(parts: impl IntoIterator<Item = Node>) -> Node {
        Node::new(Kind::Other).children(parts)
    }
}

/// Expressions.
impl Node {
    /// An expression that no rule is about, such as a literal or an operator: the expressions and Targets in it, in
    /// order. Its attr and its name are the host's own and are kept.
    pub fn opaque(parts: impl IntoIterator<Item = Node>) -> Node {
        Node::new(Kind::Opaque).children(parts)
    }

    /// `this`
    pub fn this() -> Node {
        Node::new(Kind::This)
    }

    /// `super`, the object of a member or the callee of a call.
    pub fn super_() -> Node {
        Node::new(Kind::Super)
    }

    /// A name that is read.
    pub fn ident(name: &str) -> Node {
        Node::new(Kind::Ident).name(name)
    }

    /// `object.name`
    pub fn member(object: Node, name: &str) -> Node {
        Node::new(Kind::Member).name(name).child(object)
    }

    /// `object[key]`
    pub fn computed(object: Node, key: Node) -> Node {
        Node::new(Kind::Computed).child(object).child(key)
    }

    /// `callee(arguments)`
    pub fn call(callee: Node, arguments: impl IntoIterator<Item = Node>) -> Node {
        Node::new(Kind::Call).child(callee).children(arguments)
    }

    /// `target = right`; the target is an Ident, Member, Computed or Opaque. The attr is that of `=`.
    pub fn assign(target: Node, right: Node) -> Node {
        Node::new(Kind::Assign).child(Node::target(target)).child(right)
    }

    /// What is assigned to, below an Assign, Other or Opaque: an Ident, Member, Computed or Opaque.
    pub fn target(place: Node) -> Node {
        Node::new(Kind::Target).child(place)
    }

    /// `(params) => expression`
    pub fn arrow(params: impl IntoIterator<Item = Node>, expression: Node) -> Node {
        Node::new(Kind::Arrow).attr(Node::EXPRESSION).child(Node::params(params)).child(expression)
    }

    /// `(params) => { body }`
    pub fn arrow_with_body(params: impl IntoIterator<Item = Node>, body: impl IntoIterator<Item = Node>) -> Node {
        Node::new(Kind::Arrow).child(Node::params(params)).child(Node::body(body))
    }

    /// `function (params) { body }`, an expression.
    pub fn function(params: impl IntoIterator<Item = Node>, body: impl IntoIterator<Item = Node>) -> Node {
        Node::new(Kind::Function).child(Node::params(params)).child(Node::body(body))
    }

    /// The parameters of a function or arrow.
    pub fn params(declarators: impl IntoIterator<Item = Node>) -> Node {
        Node::new(Kind::Params).children(declarators)
    }

    /// The statements of a function or arrow.
    pub fn body(statements: impl IntoIterator<Item = Node>) -> Node {
        Node::new(Kind::Body).children(statements)
    }

    /// `first, second, ..`; two or more.
    pub fn sequence(expressions: impl IntoIterator<Item = Node>) -> Node {
        Node::new(Kind::Sequence).children(expressions)
    }
}

/// Classes and objects.
impl Node {
    /// `class extends heritage { members }`, an expression. The members are methods, fields and static blocks.
    ///
    /// ```
    /// use thawcopper::{convert, Node, Switches, Table};
    ///
    /// // class C extends B { constructor() { super(); this.x = () => this; } static y = 1; }
    /// let reads = Node::assign(Node::member(Node::this(), "x"), Node::arrow([], Node::this()));
    /// let body = [Node::statement(Node::call(Node::super_(), [])), Node::statement(reads)];
    /// let members = [Node::constructor([], body), Node::field(Some(Node::opaque([]))).static_()];
    /// let class = Node::class(Some(Node::ident("B")), members).name("C").declaration();
    ///
    /// let table = Table::from_tree(&Node::program([class]));
    /// assert!(convert(&Switches::ARROWS, &table).is_ok());
    /// ```
    pub fn class(heritage: Option<Node>, members: impl IntoIterator<Item = Node>) -> Node {
        let bits = if heritage.is_some() { Node::KEY } else { 0 };
        Node::new(Kind::Class).attr(bits).children(heritage).children(members)
    }

    /// A method of a class: a getter and a setter too, which the converter does not tell apart.
    pub fn method(function: Node) -> Node {
        Node::new(Kind::Method).child(function)
    }

    /// `constructor(params) { body }`
    pub fn constructor(params: impl IntoIterator<Item = Node>, body: impl IntoIterator<Item = Node>) -> Node {
        Node::method(Node::function(params, body).bits(Node::CONSTRUCTOR))
    }

    /// A field of a class, without or with a value.
    pub fn field(value: Option<Node>) -> Node {
        let bits = if value.is_some() { Node::VALUE } else { 0 };
        Node::new(Kind::Field).attr(bits).children(value)
    }

    /// `static { statements }`
    pub fn static_block(statements: impl IntoIterator<Item = Node>) -> Node {
        Node::new(Kind::StaticBlock).children(statements)
    }

    /// `{ parts }`: properties, and what is spread as an expression.
    ///
    /// ```
    /// use thawcopper::{Node, Row, Table};
    ///
    /// // ({ a: 1, [b]: 2, async c() {} }), with an Opaque for each number
    /// let parts = [
    ///     Node::property(Node::opaque([])),
    ///     Node::property(Node::opaque([])).key(Node::ident("b")),
    ///     Node::property_method(Node::function([], []).async_()),
    /// ];
    /// let table = Table::from_tree(&Node::program([Node::statement(Node::object(parts))]));
    /// assert_eq!(table.rows()[8], Row { kind: 25, attr: Node::METHOD, name: 0, end: 12 });
    /// ```
    pub fn object(parts: impl IntoIterator<Item = Node>) -> Node {
        Node::new(Kind::Object).children(parts)
    }

    /// A property of an object. What it is called has no row, unless it is computed: [`Node::key`].
    pub fn property(value: Node) -> Node {
        Node::new(Kind::Property).child(value)
    }

    /// A property that is written as a method.
    pub fn property_method(function: Node) -> Node {
        Node::property(function).bits(Node::METHOD)
    }
}

/// Rows read as a tree.
impl Node {
    /// The tree of some rows, with the names of a table; none where they are not one tree of known kinds, from a row 0
    /// that ends with the last one. What else is wrong with them it does not see.
    ///
    /// A number that is one of the table's names is spelled. Other and Opaque keep their number, and so do a Declarator
    /// and an Ident with attr 1, where it is that of a binding.
    pub fn from_rows(rows: &[Row], table: &Table) -> Option<Node> {
        let mut open = Open::default();
        let mut ends = Vec::new();
        for (at, row) in rows.iter().enumerate() {
            while ends.last() == Some(&at) {
                ends.pop();
                open.close();
            }
            let end = row.end as usize;
            let sound = match ends.last() {
                None => end == rows.len(),
                Some(most) => end > at && end <= *most,
            };
            if !sound {
                return None;
            }
            let kind = row.kind()?;
            let mut node = Node::new(kind).attr(row.attr).name_number(row.name);
            let kept = match kind {
                Kind::Other | Kind::Opaque => true,
                Kind::Declarator | Kind::Ident => row.attr == 1,
                _ => false,
            };
            if let (false, Some(spelled)) = (kept, table.name(row.name)) {
                node = node.name(spelled);
            }
            open.enter(node);
            ends.push(end);
        }
        let mut root = None;
        for _ in ends {
            root = open.close();
        }
        root
    }
}

/// The nodes around the one that is being made, outermost first.
#[derive(Default)]
struct Open(Vec<Node>);

impl Open {
    fn enter(&mut self, node: Node) {
        self.0.push(node);
    }

    /// Gives the innermost one to the one around it, or answers it where it is the last.
    fn close(&mut self) -> Option<Node> {
        let node = self.0.pop()?;
        match self.0.last_mut() {
            Some(outer) => outer.children.push(node),
            None => return Some(node),
        }
        None
    }
}

/// A step of the walk through a tree: into a node, or out of the one that was entered last.
pub(crate) enum Step<'a> {
    In(&'a Node),
    Out,
}

/// The walk through a tree, in preorder.
pub(crate) struct Steps<'a> {
    root: Option<&'a Node>,
    open: Vec<slice::Iter<'a, Node>>,
}

impl<'a> Iterator for Steps<'a> {
    type Item = Step<'a>;

    fn next(&mut self) -> Option<Step<'a>> {
        let node = match self.root.take() {
            Some(root) => Some(root),
            None => self.open.last_mut()?.next(),
        };
        match node {
            Some(node) => {
                self.open.push(node.children.iter());
                Some(Step::In(node))
            }
            None => {
                self.open.pop();
                Some(Step::Out)
            }
        }
    }
}

impl Node {
    pub(crate) fn steps(&self) -> Steps<'_> {
        Steps { root: Some(self), open: Vec::new() }
    }

    fn head(&self) -> (Kind, u32, &Name) {
        (self.kind, self.attr, &self.name)
    }
}

impl Clone for Node {
    fn clone(&self) -> Node {
        let mut open = Open::default();
        let mut copy = None;
        for step in self.steps() {
            match step {
                Step::In(node) => open.enter(Node {
                    kind: node.kind,
                    attr: node.attr,
                    name: node.name.clone(),
                    children: Vec::with_capacity(node.children.len()),
                }),
                Step::Out => copy = open.close(),
            }
        }
        copy.expect("a walk ends where it leaves the root")
    }
}

impl PartialEq for Node {
    fn eq(&self, other: &Node) -> bool {
        let (mut one, mut two) = (self.steps(), other.steps());
        loop {
            match (one.next(), two.next()) {
                (None, None) => return true,
                (Some(Step::Out), Some(Step::Out)) => {}
                (Some(Step::In(a)), Some(Step::In(b))) if a.head() == b.head() => {}
                _ => return false,
            }
        }
    }
}

impl Eq for Node {}

impl fmt::Debug for Node {
    fn fmt(&self, f: &mut fmt::Formatter) -> fmt::Result {
        // How many children of each open node were printed.
        let mut printed: Vec<usize> = Vec::new();
        for step in self.steps() {
            match step {
                Step::In(node) => {
                    if let Some(before) = printed.last_mut() {
                        f.write_str(if *before == 0 { " [" } else { ", " })?;
                        *before += 1;
                    }
                    write!(f, "{:?}", node.kind)?;
                    if node.attr != 0 {
                        write!(f, " {}", node.attr)?;
                    }
                    match &node.name {
                        Name::None => {}
                        Name::Number(number) => write!(f, " #{}", number)?,
                        Name::Spelled(spelled) => write!(f, " {:?}", spelled)?,
                    }
                    printed.push(0);
                }
                Step::Out => {
                    if printed.pop() != Some(0) {
                        f.write_str("]")?;
                    }
                }
            }
        }
        Ok(())
    }
}

impl Drop for Node {
    fn drop(&mut self) {
        let mut below = mem::take(&mut self.children);
        while let Some(mut node) = below.pop() {
            below.append(&mut node.children);
        }
    }
}
