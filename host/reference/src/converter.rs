//! The conversion: one traversal, with the enter and exit functions and the stacks of the Rust's
//! `ArrowFunctionConverter`. The function names are the Rust's. Left out is what the request leaves to the host or
//! turns away before: JSX, functions without a body, arrows in a class field's value in AsyncOnly, and bindings called
//! `arguments`.

use std::collections::HashMap;
use std::mem;

use crate::after_super::ThisAfterSuper;
use crate::tree::*;
use crate::Switches;

#[derive(Clone, Copy, Debug, PartialEq, Eq)]
pub enum Mode {
    Disabled,
    Enabled,
    AsyncOnly,
}

impl Mode {
    pub fn of(switches: Switches) -> Mode {
        if switches.arrow {
            Mode::Enabled
        } else if switches.async_to_generator || switches.async_generator_functions {
            Mode::AsyncOnly
        } else {
            Mode::Disabled
        }
    }
}

/// The ancestors at which the Rust's search for a block that affects `this` stops or looks closer.
#[derive(Clone, Copy)]
enum Ancestor {
    ProgramBody,
    FunctionParams,
    FunctionBody {
        is_async: bool,
        is_generator: bool,
        method_like: bool,
    },
    /// Params or body.
    Arrow {
        is_async: bool,
    },
    FieldValue,
    StaticBlockBody,
}

/// An entry of a stack: the input row of the frame that it was pushed for, and what was made there.
struct Frame<T> {
    row: u32,
    made: T,
}

/// The accessors of a frame in the order of their first use, and each by assignment or not and by property; the empty
/// property is that of the computed ones.
#[derive(Default)]
struct SuperMethods<'a> {
    list: Vec<SuperMethod>,
    by_key: HashMap<(bool, &'a [u8]), usize>,
}

struct SuperMethod {
    binding: u32,
    is_assignment: bool,
    /// The property's name; none if computed.
    property: Option<u32>,
}

pub struct Converter<'a> {
    names: &'a [&'a [u8]],
    mode: Mode,
    async_to_generator: bool,
    async_generator_functions: bool,
    this_var_stack: Vec<Frame<Option<u32>>>,
    arguments_var_stack: Vec<Frame<Option<u32>>>,
    constructor_super_stack: Vec<bool>,
    arguments_needs_transform_stack: Vec<bool>,
    super_methods_stack: Vec<Frame<SuperMethods<'a>>>,
    super_needs_transform_stack: Vec<bool>,
    ancestors: Vec<Ancestor>,
    bindings: Vec<[u32; 3]>,
}

const THIS: u32 = 1;
const ARGUMENTS: u32 = 2;
const GET: u32 = 3;
const SET: u32 = 4;
const PROP: u32 = 5;
const VALUE: u32 = 6;

fn last<T>(stack: &mut [T]) -> &mut T {
    stack.last_mut().expect("the stack is never empty")
}

fn make(bindings: &mut Vec<[u32; 3]>, purpose: u32, property: u32, frame: u32) -> u32 {
    bindings.push([purpose, property, frame]);
    bindings.len() as u32
}

fn taken(expression: &mut Expression) -> Expression {
    mem::replace(expression, Expression::This { row: ADDED })
}

impl<'a> Converter<'a> {
    pub fn new(switches: Switches, names: &'a [&'a [u8]]) -> Self {
        Converter {
            names,
            mode: Mode::of(switches),
            async_to_generator: switches.async_to_generator,
            async_generator_functions: switches.async_generator_functions,
            this_var_stack: vec![Frame { row: 0, made: None }],
            arguments_var_stack: vec![Frame { row: 0, made: None }],
            constructor_super_stack: vec![false],
            arguments_needs_transform_stack: vec![false],
            super_methods_stack: vec![Frame { row: 0, made: SuperMethods::default() }],
            super_needs_transform_stack: vec![false],
            ancestors: Vec::new(),
            bindings: Vec::new(),
        }
    }

    /// Converts the tree where it stands, and answers the records of the bindings.
    pub fn convert(mut self, program: &mut Program) -> Vec<[u32; 3]> {
        self.below(Ancestor::ProgramBody, |c| c.statements(&mut program.body));
        self.exit_program(program);
        self.bindings
    }

    fn is_async_only(&self) -> bool {
        self.mode == Mode::AsyncOnly
    }

    fn will_transform_async_function(&self, is_async: bool, is_generator: bool) -> bool {
        is_async && if is_generator { self.async_generator_functions } else { self.async_to_generator }
    }
}

/// The traversal, in the order of the tree.
impl Converter<'_> {
    fn below(&mut self, ancestor: Ancestor, inside: impl FnOnce(&mut Self)) {
        self.ancestors.push(ancestor);
        inside(self);
        self.ancestors.pop();
    }

    fn statements(&mut self, list: &mut [Statement]) {
        for statement in list {
            self.statement(statement);
        }
    }

    fn statement(&mut self, statement: &mut Statement) {
        match statement {
            Statement::Expression { expression, .. } => self.expression(expression),
            Statement::Var(v) => self.declarators(&mut v.declarators),
            Statement::Return { value, .. } => self.optional(value),
            Statement::Block(b) => self.statements(&mut b.body),
            Statement::Other(h) => self.held(h),
            Statement::Function(f) => self.function(f, false),
            Statement::Class(c) => self.class(c),
        }
    }

    fn held(&mut self, held: &mut Held) {
        for part in &mut held.parts {
            match part {
                Part::Statement(s) => self.statement(s),
                Part::Expression(e) => self.expression(e),
                Part::Target(t) => self.target(t),
            }
        }
    }

    fn declarators(&mut self, list: &mut [Declarator]) {
        for declarator in list {
            self.optional(&mut declarator.init);
        }
    }

    fn optional(&mut self, expression: &mut Option<Expression>) {
        if let Some(expression) = expression {
            self.expression(expression);
        }
    }

    fn expressions(&mut self, list: &mut [Expression]) {
        for expression in list {
            self.expression(expression);
        }
    }

    fn expression(&mut self, expression: &mut Expression) {
        self.enter_expression(expression);
        match expression {
            Expression::Opaque(h) => self.held(h),
            Expression::This { .. } | Expression::Super { .. } | Expression::Arguments { .. } => {}
            Expression::Ident(ident) => self.enter_identifier_reference(ident),
            Expression::Member(m) => self.expression(&mut m.object),
            Expression::Computed(c) => {
                self.expression(&mut c.object);
                self.expression(&mut c.key);
            }
            Expression::Call(c) => {
                self.expression(&mut c.callee);
                self.expressions(&mut c.arguments);
            }
            Expression::Assign(a) => {
                self.target(&mut a.target);
                self.expression(&mut a.right);
            }
            Expression::Arrow(a) => self.arrow(a),
            Expression::Function(f) => self.function(f, false),
            Expression::Class(c) => self.class(c),
            Expression::Object(o) => {
                for part in &mut o.parts {
                    match part {
                        ObjectPart::Property(p) => self.property(p),
                        ObjectPart::Expression(e) => self.expression(e),
                    }
                }
            }
            Expression::Sequence(s) => self.expressions(&mut s.expressions),
        }
        self.exit_expression(expression);
    }

    /// A target is no expression, so `enter_expression` does not see it; what stands below it is.
    fn target(&mut self, target: &mut Target) {
        match &mut target.place {
            Assigned::Ident(ident) => self.enter_identifier_reference(ident),
            Assigned::Member(m) => self.expression(&mut m.object),
            Assigned::Computed(c) => {
                self.expression(&mut c.object);
                self.expression(&mut c.key);
            }
            Assigned::Opaque(h) => self.held(h),
        }
    }

    fn arrow(&mut self, arrow: &mut Arrow) {
        let is_async = arrow.is_async;
        self.enter_arrow_function_expression(arrow);
        self.below(Ancestor::Arrow { is_async }, |c| {
            c.declarators(&mut arrow.params.declarators);
            match &mut arrow.body {
                ArrowBody::Expression(e) => c.expression(e),
                ArrowBody::Body(b) => c.statements(&mut b.statements),
            }
        });
        self.exit_arrow_function_body();
        self.exit_arrow_function_expression();
    }

    fn function(&mut self, function: &mut Function, method_like: bool) {
        self.enter_function(function, method_like);
        self.below(Ancestor::FunctionParams, |c| c.declarators(&mut function.params.declarators));
        let (is_async, is_generator) = (function.is_async, function.is_generator);
        self.below(Ancestor::FunctionBody { is_async, is_generator, method_like }, |c| {
            c.enter_function_body(is_async, is_generator, method_like);
            c.statements(&mut function.body.statements);
            c.exit_function_body();
        });
        self.exit_function(function, method_like);
    }

    fn class(&mut self, class: &mut Class) {
        self.optional(&mut class.heritage);
        for member in &mut class.members {
            match member {
                ClassMember::Method(m) => {
                    self.optional(&mut m.key);
                    self.function(&mut m.function, true);
                }
                ClassMember::Field(f) => {
                    self.optional(&mut f.key);
                    self.below(Ancestor::FieldValue, |c| c.optional(&mut f.value));
                }
                ClassMember::StaticBlock(b) => {
                    self.enter_static_block(b);
                    self.below(Ancestor::StaticBlockBody, |c| c.statements(&mut b.body));
                    self.exit_static_block(b);
                }
            }
        }
    }

    fn property(&mut self, property: &mut Property) {
        self.optional(&mut property.key);
        match &mut property.value {
            Expression::Function(f) => self.function(f, property.is_method),
            value => self.expression(value),
        }
    }
}

/// Enter and exit.
impl Converter<'_> {
    fn exit_program(&mut self, program: &mut Program) {
        let this_var = self.this_var_stack.pop().unwrap().made;
        let arguments_var = self.arguments_var_stack.pop().unwrap().made;
        let top = Top { row: 0, is_program: true, is_constructor: false, this_var, arguments_var };
        self.insert_variable_statement_at_the_top_of_statements(&mut program.body, top, None);
    }

    fn enter_function(&mut self, function: &Function, method_like: bool) {
        let row = function.row;
        self.this_var_stack.push(Frame { row, made: None });
        self.arguments_var_stack.push(Frame { row, made: None });
        self.constructor_super_stack.push(false);
        if method_like {
            self.super_methods_stack.push(Frame { row, made: SuperMethods::default() });
            let moved = self.will_transform_async_function(function.is_async, function.is_generator);
            self.super_needs_transform_stack.push(moved);
        }
    }

    fn exit_function(&mut self, function: &mut Function, method_like: bool) {
        let this_var = self.this_var_stack.pop().unwrap().made;
        let arguments_var = self.arguments_var_stack.pop().unwrap().made;
        let super_methods = if method_like {
            self.super_needs_transform_stack.pop();
            self.super_methods_stack.pop().map(|frame| frame.made.list)
        } else {
            None
        };
        let top = Top {
            row: function.row,
            is_program: false,
            is_constructor: function.is_constructor,
            this_var,
            arguments_var,
        };
        self.insert_variable_statement_at_the_top_of_statements(&mut function.body.statements, top, super_methods);
        self.constructor_super_stack.pop();
    }

    fn enter_arrow_function_expression(&mut self, arrow: &Arrow) {
        if self.is_async_only() {
            let moved = self.will_transform_async_function(arrow.is_async, false);
            let previous = *last(&mut self.arguments_needs_transform_stack);
            self.arguments_needs_transform_stack.push(previous || moved);
            let previous = *last(&mut self.super_needs_transform_stack);
            self.super_needs_transform_stack.push(moved || previous);
        }
    }

    fn exit_arrow_function_body(&mut self) {
        if self.is_async_only() {
            self.arguments_needs_transform_stack.pop();
        }
    }

    fn exit_arrow_function_expression(&mut self) {
        if self.is_async_only() {
            self.super_needs_transform_stack.pop();
        }
    }

    fn enter_function_body(&mut self, is_async: bool, is_generator: bool, method_like: bool) {
        if self.is_async_only() {
            let moved = self.will_transform_async_function(is_async, is_generator);
            self.arguments_needs_transform_stack.push(moved && method_like);
        }
    }

    fn exit_function_body(&mut self) {
        if self.is_async_only() {
            self.arguments_needs_transform_stack.pop();
        }
    }

    fn enter_static_block(&mut self, block: &StaticBlock) {
        self.this_var_stack.push(Frame { row: block.row, made: None });
        self.super_methods_stack.push(Frame { row: block.row, made: SuperMethods::default() });
    }

    fn exit_static_block(&mut self, block: &mut StaticBlock) {
        let this_var = self.this_var_stack.pop().unwrap().made;
        let super_methods = self.super_methods_stack.pop().map(|frame| frame.made.list);
        let top = Top { row: block.row, is_program: false, is_constructor: false, this_var, arguments_var: None };
        self.insert_variable_statement_at_the_top_of_statements(&mut block.body, top, super_methods);
    }

    fn enter_expression(&mut self, expression: &mut Expression) {
        let new = match expression {
            Expression::This { row } => self.get_this_identifier(*row),
            Expression::Super { .. } => {
                *last(&mut self.constructor_super_stack) = true;
                None
            }
            Expression::Call(call) => self.transform_call_expression_for_super(call),
            Expression::Assign(assign) => self.transform_assignment_expression_for_super(assign),
            Expression::Member(_) | Expression::Computed(_) => {
                self.transform_member_expression_for_super(expression, None)
            }
            _ => None,
        };
        if let Some(new) = new {
            *expression = new;
        }
    }

    fn exit_expression(&mut self, expression: &mut Expression) {
        if let Expression::Arrow(arrow) = expression {
            if self.is_async_only() || arrow.is_async {
                return;
            }
            let row = arrow.row;
            let params = Params { row: arrow.params.row, declarators: mem::take(&mut arrow.params.declarators) };
            let nothing = ArrowBody::Body(Body { row: ADDED, statements: Vec::new() });
            let body = match mem::replace(&mut arrow.body, nothing) {
                ArrowBody::Body(body) => body,
                ArrowBody::Expression(e) => {
                    Body { row: ADDED, statements: vec![Statement::Return { row: ADDED, value: Some(e) }] }
                }
            };
            *expression = Expression::Function(Box::new(Function {
                row,
                is_async: false,
                is_generator: false,
                is_constructor: false,
                is_declaration: false,
                name: 0,
                params,
                body,
            }));
        }
    }

    fn enter_identifier_reference(&mut self, ident: &mut Ident) {
        if !*last(&mut self.arguments_needs_transform_stack) {
            return;
        }
        match ident.name {
            Name::Given(n) if self.names[n as usize - 1] == b"arguments" => {
                let frame = last(&mut self.arguments_var_stack);
                let bindings = &mut self.bindings;
                let row = frame.row;
                ident.name = Name::Made(*frame.made.get_or_insert_with(|| make(bindings, ARGUMENTS, 0, row)));
            }
            _ => {}
        }
    }
}

/// What the Rust transforms.
impl Converter<'_> {
    fn get_this_identifier(&mut self, row: u32) -> Option<Expression> {
        if !self.is_in_this_affected_block() {
            return None;
        }
        let frame = last(&mut self.this_var_stack);
        let bindings = &mut self.bindings;
        let at = frame.row;
        let name = Name::Made(*frame.made.get_or_insert_with(|| make(bindings, THIS, 0, at)));
        Some(Expression::Ident(Ident { row, name }))
    }

    /// The Rust's `get_scope_id_from_this_affected_block`, without the scope.
    fn is_in_this_affected_block(&self) -> bool {
        for ancestor in self.ancestors.iter().rev() {
            match *ancestor {
                Ancestor::ProgramBody | Ancestor::FunctionParams | Ancestor::FieldValue | Ancestor::StaticBlockBody => {
                    return false
                }
                Ancestor::Arrow { is_async } => {
                    if self.is_async_only() && !self.will_transform_async_function(is_async, false) {
                        continue;
                    }
                    return true;
                }
                Ancestor::FunctionBody { is_async, is_generator, method_like } => {
                    return self.will_transform_async_function(is_async, is_generator) && method_like;
                }
            }
        }
        unreachable!("the Program is an ancestor of every expression")
    }

    fn transform_member_expression_for_super(
        &mut self,
        expression: &mut Expression,
        assign_value: Option<&mut Expression>,
    ) -> Option<Expression> {
        if !*last(&mut self.super_needs_transform_stack) {
            return None;
        }
        let (access, object, property, argument) = match expression {
            Expression::Computed(c) => match c.object {
                Expression::Super { row } => (c.row, row, None, Some(taken(&mut c.key))),
                _ => return None,
            },
            Expression::Member(m) => match (&m.object, m.property) {
                (Expression::Super { row }, MemberName::Given(n)) => (m.row, *row, Some(n), None),
                _ => return None,
            },
            _ => return None,
        };
        let is_assignment = assign_value.is_some();
        let spelled: &[u8] = match property {
            Some(n) => self.names[n as usize - 1],
            None => b"",
        };
        let Frame { row, made } = last(&mut self.super_methods_stack);
        let SuperMethods { list, by_key } = made;
        let bindings = &mut self.bindings;
        let place = *by_key.entry((is_assignment, spelled)).or_insert_with(|| {
            let purpose = if is_assignment { SET } else { GET };
            let binding = make(bindings, purpose, property.unwrap_or(0), *row);
            list.push(SuperMethod { binding, is_assignment, property });
            list.len() - 1
        });
        // The accessor stands for what is assigned to, or for the object of what is read.
        let row = if is_assignment { access } else { object };
        let callee = Expression::Ident(Ident { row, name: Name::Made(list[place].binding) });
        let arguments = argument.into_iter().chain(assign_value.map(taken)).collect();
        Some(Expression::Call(Box::new(Call { row: access, callee, arguments })))
    }

    fn transform_call_expression_for_super(&mut self, call: &mut Call) -> Option<Expression> {
        if !matches!(call.callee, Expression::Member(_) | Expression::Computed(_)) {
            return None;
        }
        let object = self.transform_member_expression_for_super(&mut call.callee, None)?;
        let mut arguments = Vec::with_capacity(call.arguments.len() + 1);
        arguments.push(Expression::This { row: ADDED });
        arguments.append(&mut call.arguments);
        let callee = Expression::Member(Box::new(Member { row: ADDED, object, property: MemberName::Call }));
        Some(Expression::Call(Box::new(Call { row: call.row, callee, arguments })))
    }

    fn transform_assignment_expression_for_super(&mut self, assign: &mut Assign) -> Option<Expression> {
        if !*last(&mut self.super_needs_transform_stack) {
            return None;
        }
        let is_super = match &assign.target.place {
            Assigned::Member(m) => matches!(m.object, Expression::Super { .. }),
            Assigned::Computed(c) => matches!(c.object, Expression::Super { .. }),
            Assigned::Ident(_) | Assigned::Opaque(_) => false,
        };
        if !is_super {
            return None;
        }
        let nothing = Assigned::Ident(Ident { row: ADDED, name: Name::Made(0) });
        let mut target = match mem::replace(&mut assign.target.place, nothing) {
            Assigned::Member(m) => Expression::Member(m),
            Assigned::Computed(c) => Expression::Computed(c),
            Assigned::Ident(_) | Assigned::Opaque(_) => unreachable!("the target has a super"),
        };
        let mut new = self.transform_member_expression_for_super(&mut target, Some(&mut assign.right));
        if let Some(Expression::Call(call)) = &mut new {
            // The call stands for the whole assignment.
            call.row = assign.row;
        }
        new
    }
}

/// A frame that closes.
struct Top {
    row: u32,
    is_program: bool,
    is_constructor: bool,
    this_var: Option<u32>,
    arguments_var: Option<u32>,
}

impl Converter<'_> {
    fn insert_variable_statement_at_the_top_of_statements(
        &mut self,
        statements: &mut Vec<Statement>,
        top: Top,
        super_methods: Option<Vec<SuperMethod>>,
    ) {
        let mut declarators = Vec::new();
        if let Some(binding) = top.arguments_var {
            let init = Some(Expression::Arguments { guarded: top.is_program });
            declarators.push(Declarator { row: ADDED, name: Name::Made(binding), init });
        }
        for super_method in super_methods.into_iter().flatten() {
            declarators.push(self.generate_super_method(top.row, super_method));
        }
        if let Some(binding) = top.this_var {
            let init = if top.is_constructor && *last(&mut self.constructor_super_stack) {
                ThisAfterSuper { this_var: binding }.visit_statements(statements);
                None
            } else {
                Some(Expression::This { row: ADDED })
            };
            declarators.push(Declarator { row: ADDED, name: Name::Made(binding), init });
        }
        if !declarators.is_empty() {
            statements.insert(0, Statement::Var(Var { row: ADDED, kind: 0, declarators }));
        }
    }

    fn generate_super_method(&mut self, row: u32, super_method: SuperMethod) -> Declarator {
        let mut declarators = Vec::new();
        let mut param = |purpose: u32| {
            let name = Name::Made(make(&mut self.bindings, purpose, 0, row));
            declarators.push(Declarator { row: ADDED, name, init: None });
            Expression::Ident(Ident { row: ADDED, name })
        };
        let object = Expression::Super { row: ADDED };
        let access = match super_method.property {
            None => Assigned::Computed(Box::new(Computed { row: ADDED, object, key: param(PROP) })),
            Some(n) => Assigned::Member(Box::new(Member { row: ADDED, object, property: MemberName::Given(n) })),
        };
        let body = if super_method.is_assignment {
            let right = param(VALUE);
            let target = Target { row: ADDED, place: access };
            Expression::Assign(Box::new(Assign { row: ADDED, operator: 0, target, right }))
        } else {
            match access {
                Assigned::Computed(c) => Expression::Computed(c),
                Assigned::Member(m) => Expression::Member(m),
                Assigned::Ident(_) | Assigned::Opaque(_) => unreachable!("an accessor has an access"),
            }
        };
        let params = Params { row: ADDED, declarators };
        let arrow = Arrow { row: ADDED, is_async: false, params, body: ArrowBody::Expression(body) };
        let init = Some(Expression::Arrow(Box::new(arrow)));
        Declarator { row: ADDED, name: Name::Made(super_method.binding), init }
    }
}
