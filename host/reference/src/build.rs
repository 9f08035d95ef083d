//! From the rows of a table that was let through to a tree.

use crate::table::Row;
use crate::tree::*;

struct Reader<'a> {
    rows: &'a [Row],
    at: usize,
}

pub fn program(rows: &[Row]) -> Program {
    Program { body: Reader { rows, at: 1 }.statements(rows.len() as u32) }
}

impl<'a> Reader<'a> {
    /// The next row and its number.
    fn next(&mut self) -> (u32, &'a Row) {
        self.at += 1;
        (self.at as u32 - 1, &self.rows[self.at - 1])
    }

    fn list<T>(&mut self, end: u32, mut one: impl FnMut(&mut Self) -> T) -> Vec<T> {
        let mut list = Vec::new();
        while self.at < end as usize {
            list.push(one(self));
        }
        list
    }

    fn one_or_none(&mut self, end: u32) -> Option<Expression> {
        if self.at < end as usize {
            Some(self.expression())
        } else {
            None
        }
    }

    fn statements(&mut self, end: u32) -> Vec<Statement> {
        self.list(end, Self::statement)
    }

    fn statement(&mut self) -> Statement {
        let (at, row) = self.next();
        match row.kind {
            1 => Statement::Expression { row: at, expression: self.expression() },
            2 => {
                let declarators = self.list(row.end, Self::declarator);
                Statement::Var(Var { row: at, kind: row.attr, declarators })
            }
            4 => Statement::Return { row: at, value: self.one_or_none(row.end) },
            5 => Statement::Block(Block { row: at, case: row.attr == 1, body: self.statements(row.end) }),
            6 => Statement::Other(self.held(at, row)),
            17 => Statement::Function(self.function(at, row)),
            20 => Statement::Class(self.class(at, row)),
            kind => unreachable!("kind {} as a statement", kind),
        }
    }

    fn held(&mut self, at: u32, row: &Row) -> Held {
        Held { row: at, attr: row.attr, name: row.name, parts: self.list(row.end, Self::part) }
    }

    fn part(&mut self) -> Part {
        let row = &self.rows[self.at];
        match row.kind {
            1 | 2 | 4 | 5 | 6 => Part::Statement(self.statement()),
            17 | 20 if row.attr & 8 != 0 => Part::Statement(self.statement()),
            28 => Part::Target(self.target()),
            _ => Part::Expression(self.expression()),
        }
    }

    fn declarator(&mut self) -> Declarator {
        let (at, row) = self.next();
        Declarator { row: at, name: Name::Given(row.name), init: self.one_or_none(row.end) }
    }

    fn expression(&mut self) -> Expression {
        let (at, row) = self.next();
        match row.kind {
            8 => Expression::Opaque(Box::new(self.held(at, row))),
            9 => Expression::This { row: at },
            10 => Expression::Super { row: at },
            11 => Expression::Ident(Ident { row: at, name: Name::Given(row.name) }),
            12 => Expression::Member(self.member(at, row)),
            13 => Expression::Computed(self.computed(at)),
            14 => {
                let callee = self.expression();
                let arguments = self.list(row.end, Self::expression);
                Expression::Call(Box::new(Call { row: at, callee, arguments }))
            }
            15 => {
                let target = self.target();
                let right = self.expression();
                Expression::Assign(Box::new(Assign { row: at, operator: row.attr, target, right }))
            }
            16 => Expression::Arrow(Box::new(self.arrow(at, row))),
            17 => Expression::Function(self.function(at, row)),
            20 => Expression::Class(self.class(at, row)),
            24 => {
                let parts = self.list(row.end, Self::object_part);
                Expression::Object(Box::new(Object { row: at, parts }))
            }
            26 => {
                let expressions = self.list(row.end, Self::expression);
                Expression::Sequence(Box::new(Sequence { row: at, expressions }))
            }
            kind => unreachable!("kind {} as an expression", kind),
        }
    }

    fn member(&mut self, at: u32, row: &Row) -> Box<Member> {
        Box::new(Member { row: at, object: self.expression(), property: MemberName::Given(row.name) })
    }

    fn computed(&mut self, at: u32) -> Box<Computed> {
        Box::new(Computed { row: at, object: self.expression(), key: self.expression() })
    }

    fn target(&mut self) -> Target {
        let (target, _) = self.next();
        let (at, row) = self.next();
        let place = match row.kind {
            8 => Assigned::Opaque(Box::new(self.held(at, row))),
            11 => Assigned::Ident(Ident { row: at, name: Name::Given(row.name) }),
            12 => Assigned::Member(self.member(at, row)),
            13 => Assigned::Computed(self.computed(at)),
            kind => unreachable!("kind {} as a target", kind),
        };
        Target { row: target, place }
    }

    fn params(&mut self) -> Params {
        let (at, row) = self.next();
        Params { row: at, declarators: self.list(row.end, Self::declarator) }
    }

    fn body(&mut self) -> Body {
        let (at, row) = self.next();
        Body { row: at, statements: self.statements(row.end) }
    }

    fn arrow(&mut self, at: u32, row: &Row) -> Arrow {
        let params = self.params();
        let body =
            if row.attr & 2 != 0 { ArrowBody::Expression(self.expression()) } else { ArrowBody::Body(self.body()) };
        Arrow { row: at, is_async: row.attr & 1 != 0, params, body }
    }

    fn function(&mut self, at: u32, row: &Row) -> Box<Function> {
        Box::new(Function {
            row: at,
            is_async: row.attr & 1 != 0,
            is_generator: row.attr & 2 != 0,
            is_constructor: row.attr & 4 != 0,
            is_declaration: row.attr & 8 != 0,
            name: row.name,
            params: self.params(),
            body: self.body(),
        })
    }

    fn key(&mut self, row: &Row) -> Option<Expression> {
        if row.attr & 1 != 0 {
            Some(self.expression())
        } else {
            None
        }
    }

    fn class(&mut self, at: u32, row: &Row) -> Box<Class> {
        Box::new(Class {
            row: at,
            is_declaration: row.attr & 8 != 0,
            name: row.name,
            heritage: self.key(row),
            members: self.list(row.end, Self::class_member),
        })
    }

    fn class_member(&mut self) -> ClassMember {
        let (at, row) = self.next();
        let is_static = row.attr & 2 != 0;
        match row.kind {
            21 => {
                let key = self.key(row);
                let (function, of) = self.next();
                ClassMember::Method(Method { row: at, is_static, key, function: self.function(function, of) })
            }
            22 => {
                let key = self.key(row);
                ClassMember::Field(Field { row: at, is_static, key, value: self.one_or_none(row.end) })
            }
            23 => ClassMember::StaticBlock(StaticBlock { row: at, body: self.statements(row.end) }),
            kind => unreachable!("kind {} as a member", kind),
        }
    }

    fn object_part(&mut self) -> ObjectPart {
        if self.rows[self.at].kind != 25 {
            return ObjectPart::Expression(self.expression());
        }
        let (at, row) = self.next();
        let key = self.key(row);
        ObjectPart::Property(Property { row: at, is_method: row.attr & 2 != 0, key, value: self.expression() })
    }
}
