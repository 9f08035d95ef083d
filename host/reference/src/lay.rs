//! From a tree to rows.

use crate::tree::*;

struct Writer {
    rows: Vec<[u32; 4]>,
    /// The row of the table that each row comes from, where that is wanted.
    origins: Option<Vec<u32>>,
}

pub fn rows(program: &Program) -> Vec<[u32; 4]> {
    let mut writer = Writer { rows: Vec::new(), origins: None };
    writer.program(program);
    writer.rows
}

/// The rows, and where each comes from: a row of the table, or ADDED.
pub fn rows_and_origins(program: &Program) -> (Vec<[u32; 4]>, Vec<u32>) {
    let mut writer = Writer { rows: Vec::new(), origins: Some(Vec::new()) };
    writer.program(program);
    (writer.rows, writer.origins.unwrap_or_default())
}

impl Writer {
    /// A row that comes from row `from`.
    fn row(&mut self, from: u32, kind: u32, attr: u32, name: u32, inside: impl FnOnce(&mut Writer)) {
        let at = self.rows.len();
        self.rows.push([kind, attr, name, 0]);
        if let Some(origins) = &mut self.origins {
            origins.push(from);
        }
        inside(self);
        self.rows[at][3] = self.rows.len() as u32;
    }

    /// A row whose attr 1 says that its name is a made binding.
    fn named(&mut self, from: u32, kind: u32, name: Name, inside: impl FnOnce(&mut Writer)) {
        match name {
            Name::Given(n) => self.row(from, kind, 0, n, inside),
            Name::Made(n) => self.row(from, kind, 1, n, inside),
        }
    }

    fn program(&mut self, program: &Program) {
        self.row(0, 0, 0, 0, |w| w.statements(&program.body));
    }

    fn statements(&mut self, list: &[Statement]) {
        for statement in list {
            self.statement(statement);
        }
    }

    fn expressions(&mut self, list: &[Expression]) {
        for expression in list {
            self.expression(expression);
        }
    }

    fn optional(&mut self, expression: &Option<Expression>) {
        if let Some(expression) = expression {
            self.expression(expression);
        }
    }

    fn statement(&mut self, statement: &Statement) {
        match statement {
            Statement::Expression { row, expression } => self.row(*row, 1, 0, 0, |w| w.expression(expression)),
            Statement::Var(v) => self.row(v.row, 2, v.kind, 0, |w| w.declarators(&v.declarators)),
            Statement::Return { row, value } => self.row(*row, 4, 0, 0, |w| w.optional(value)),
            Statement::Block(b) => self.row(b.row, 5, u32::from(b.case), 0, |w| w.statements(&b.body)),
            Statement::Other(h) => self.held(6, h),
            Statement::Function(f) => self.function(f),
            Statement::Class(c) => self.class(c),
        }
    }

    fn held(&mut self, kind: u32, held: &Held) {
        self.row(held.row, kind, held.attr, held.name, |w| {
            for part in &held.parts {
                match part {
                    Part::Statement(s) => w.statement(s),
                    Part::Expression(e) => w.expression(e),
                    Part::Target(t) => w.target(t),
                }
            }
        });
    }

    fn declarators(&mut self, list: &[Declarator]) {
        for declarator in list {
            self.named(declarator.row, 3, declarator.name, |w| w.optional(&declarator.init));
        }
    }

    fn expression(&mut self, expression: &Expression) {
        match expression {
            Expression::Opaque(h) => self.held(8, h),
            Expression::This { row } => self.row(*row, 9, 0, 0, |_| ()),
            Expression::Super { row } => self.row(*row, 10, 0, 0, |_| ()),
            Expression::Ident(i) => self.ident(i),
            Expression::Member(m) => self.member(m),
            Expression::Computed(c) => self.computed(c),
            Expression::Call(c) => self.row(c.row, 14, 0, 0, |w| {
                w.expression(&c.callee);
                w.expressions(&c.arguments);
            }),
            Expression::Assign(a) => self.row(a.row, 15, a.operator, 0, |w| {
                w.target(&a.target);
                w.expression(&a.right);
            }),
            Expression::Arrow(a) => self.arrow(a),
            Expression::Function(f) => self.function(f),
            Expression::Class(c) => self.class(c),
            Expression::Object(o) => self.row(o.row, 24, 0, 0, |w| {
                for part in &o.parts {
                    match part {
                        ObjectPart::Property(p) => w.property(p),
                        ObjectPart::Expression(e) => w.expression(e),
                    }
                }
            }),
            Expression::Sequence(s) => self.row(s.row, 26, 0, 0, |w| w.expressions(&s.expressions)),
            Expression::Arguments { guarded } => self.row(ADDED, 27, u32::from(*guarded), 0, |_| ()),
        }
    }

    fn ident(&mut self, ident: &Ident) {
        self.named(ident.row, 11, ident.name, |_| ());
    }

    fn member(&mut self, member: &Member) {
        let (attr, name) = match member.property {
            MemberName::Given(n) => (0, n),
            MemberName::Call => (1, 0),
        };
        self.row(member.row, 12, attr, name, |w| w.expression(&member.object));
    }

    fn computed(&mut self, computed: &Computed) {
        self.row(computed.row, 13, 0, 0, |w| {
            w.expression(&computed.object);
            w.expression(&computed.key);
        });
    }

    fn target(&mut self, target: &Target) {
        self.row(target.row, 28, 0, 0, |w| match &target.place {
            Assigned::Ident(i) => w.ident(i),
            Assigned::Member(m) => w.member(m),
            Assigned::Computed(c) => w.computed(c),
            Assigned::Opaque(h) => w.held(8, h),
        });
    }

    fn params(&mut self, params: &Params) {
        self.row(params.row, 18, 0, 0, |w| w.declarators(&params.declarators));
    }

    fn body(&mut self, body: &Body) {
        self.row(body.row, 19, 0, 0, |w| w.statements(&body.statements));
    }

    fn arrow(&mut self, arrow: &Arrow) {
        let expression = matches!(arrow.body, ArrowBody::Expression(_));
        self.row(arrow.row, 16, u32::from(arrow.is_async) | u32::from(expression) << 1, 0, |w| {
            w.params(&arrow.params);
            match &arrow.body {
                ArrowBody::Expression(e) => w.expression(e),
                ArrowBody::Body(b) => w.body(b),
            }
        });
    }

    fn function(&mut self, function: &Function) {
        let attr = u32::from(function.is_async)
            | u32::from(function.is_generator) << 1
            | u32::from(function.is_constructor) << 2
            | u32::from(function.is_declaration) << 3;
        self.row(function.row, 17, attr, function.name, |w| {
            w.params(&function.params);
            w.body(&function.body);
        });
    }

    fn class(&mut self, class: &Class) {
        let attr = u32::from(class.heritage.is_some()) | u32::from(class.is_declaration) << 3;
        self.row(class.row, 20, attr, class.name, |w| {
            w.optional(&class.heritage);
            for member in &class.members {
                w.class_member(member);
            }
        });
    }

    fn class_member(&mut self, member: &ClassMember) {
        match member {
            ClassMember::Method(m) => {
                let attr = u32::from(m.key.is_some()) | u32::from(m.is_static) << 1;
                self.row(m.row, 21, attr, 0, |w| {
                    w.optional(&m.key);
                    w.function(&m.function);
                });
            }
            ClassMember::Field(f) => {
                let attr = u32::from(f.key.is_some()) | u32::from(f.is_static) << 1 | u32::from(f.value.is_some()) << 2;
                self.row(f.row, 22, attr, 0, |w| {
                    w.optional(&f.key);
                    w.optional(&f.value);
                });
            }
            ClassMember::StaticBlock(b) => self.row(b.row, 23, 0, 0, |w| w.statements(&b.body)),
        }
    }

    fn property(&mut self, property: &Property) {
        let attr = u32::from(property.key.is_some()) | u32::from(property.is_method) << 1;
        self.row(property.row, 25, attr, 0, |w| {
            w.optional(&property.key);
            w.expression(&property.value);
        });
    }
}
