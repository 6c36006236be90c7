// A visitor that lowering never calls: scopes are left empty.
use super::{Declaration, Expr, Function, StatementKind};

pub trait MutVisitor {
    fn visit_expr(&mut self, expr: &mut Expr);
    fn visit_function(&mut self, function: &mut Function);
    fn visit_declaration(&mut self, declaration: &mut Declaration);
    fn visit_statement(&mut self, statement: &mut StatementKind);
}

pub fn walk_expr<V: MutVisitor>(_: &mut V, _: &mut Expr) {
    unreachable!("scopes are not computed");
}

pub fn walk_statement<V: MutVisitor>(_: &mut V, _: &mut StatementKind) {
    unreachable!("scopes are not computed");
}
