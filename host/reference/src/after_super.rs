//! `captured = this` after `super()`: the Rust's `ConstructorBodyThisAfterSuperInserter`, a visitor over the converted
//! body of a constructor.

use std::mem;

use crate::tree::*;

pub struct ThisAfterSuper {
    /// The binding that captures `this`.
    pub this_var: u32,
}

fn is_super_call(expression: &Expression) -> bool {
    match expression {
        Expression::Call(call) => matches!(call.callee, Expression::Super { .. }),
        _ => false,
    }
}

impl ThisAfterSuper {
    fn assignment(&self) -> Expression {
        let ident = Ident { row: ADDED, name: Name::Made(self.this_var) };
        Expression::Assign(Box::new(Assign {
            row: ADDED,
            operator: 0,
            target: Target { row: ADDED, place: Assigned::Ident(ident) },
            right: Expression::This { row: ADDED },
        }))
    }

    pub fn visit_statements(&self, statements: &mut Vec<Statement>) {
        for index in 0..statements.len() {
            match &mut statements[index] {
                Statement::Expression { expression: Expression::Call(call), .. }
                    if matches!(call.callee, Expression::Super { .. }) =>
                {
                    self.visit_expressions(&mut call.arguments);
                    let expression = self.assignment();
                    statements.insert(index + 1, Statement::Expression { row: ADDED, expression });
                    return;
                }
                statement => self.visit_statement(statement),
            }
        }
    }

    fn visit_statement(&self, statement: &mut Statement) {
        match statement {
            Statement::Expression { expression, .. } => self.visit_expression(expression),
            Statement::Var(v) => self.visit_declarators(&mut v.declarators),
            Statement::Return { value, .. } => self.visit_optional(value),
            Statement::Block(b) => self.visit_statements(&mut b.body),
            Statement::Other(h) => self.visit_held(h),
            Statement::Function(_) => {}
            Statement::Class(c) => self.visit_class(c),
        }
    }

    fn visit_held(&self, held: &mut Held) {
        for part in &mut held.parts {
            match part {
                Part::Statement(s) => self.visit_statement(s),
                Part::Expression(e) => self.visit_expression(e),
                Part::Target(t) => self.visit_target(t),
            }
        }
    }

    fn visit_declarators(&self, list: &mut [Declarator]) {
        for declarator in list {
            self.visit_optional(&mut declarator.init);
        }
    }

    fn visit_optional(&self, expression: &mut Option<Expression>) {
        if let Some(expression) = expression {
            self.visit_expression(expression);
        }
    }

    fn visit_expressions(&self, list: &mut [Expression]) {
        for expression in list {
            self.visit_expression(expression);
        }
    }

    fn visit_expression(&self, expression: &mut Expression) {
        if is_super_call(expression) {
            let call = mem::replace(expression, Expression::This { row: ADDED });
            let expressions = vec![call, self.assignment()];
            *expression = Expression::Sequence(Box::new(Sequence { row: ADDED, expressions }));
            return;
        }
        match expression {
            Expression::Opaque(h) => self.visit_held(h),
            Expression::This { .. } | Expression::Super { .. } => {}
            Expression::Ident(_) | Expression::Arguments { .. } => {}
            Expression::Member(m) => self.visit_expression(&mut m.object),
            Expression::Computed(c) => {
                self.visit_expression(&mut c.object);
                self.visit_expression(&mut c.key);
            }
            Expression::Call(c) => {
                self.visit_expression(&mut c.callee);
                self.visit_expressions(&mut c.arguments);
            }
            Expression::Assign(a) => {
                self.visit_target(&mut a.target);
                self.visit_expression(&mut a.right);
            }
            Expression::Arrow(a) => {
                self.visit_declarators(&mut a.params.declarators);
                match &mut a.body {
                    ArrowBody::Expression(e) => self.visit_expression(e),
                    ArrowBody::Body(b) => self.visit_statements(&mut b.statements),
                }
            }
            Expression::Function(_) => {}
            Expression::Class(c) => self.visit_class(c),
            Expression::Object(o) => {
                for part in &mut o.parts {
                    match part {
                        ObjectPart::Property(p) => {
                            self.visit_optional(&mut p.key);
                            self.visit_expression(&mut p.value);
                        }
                        ObjectPart::Expression(e) => self.visit_expression(e),
                    }
                }
            }
            Expression::Sequence(s) => self.visit_expressions(&mut s.expressions),
        }
    }

    fn visit_target(&self, target: &mut Target) {
        match &mut target.place {
            Assigned::Ident(_) => {}
            Assigned::Member(m) => self.visit_expression(&mut m.object),
            Assigned::Computed(c) => {
                self.visit_expression(&mut c.object);
                self.visit_expression(&mut c.key);
            }
            Assigned::Opaque(h) => self.visit_held(h),
        }
    }

    /// Only the heritage and computed keys: what else is in a class has its own `super`.
    fn visit_class(&self, class: &mut Class) {
        self.visit_optional(&mut class.heritage);
        for member in &mut class.members {
            match member {
                ClassMember::Method(m) => self.visit_optional(&mut m.key),
                ClassMember::Field(f) => self.visit_optional(&mut f.key),
                ClassMember::StaticBlock(_) => {}
            }
        }
    }
}
