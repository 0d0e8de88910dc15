//! The Rust's tree as ours.

use crate::syntax::{
    BinOp, Binding, Chirality, Clause, Def, Id, Identifier, IfSort, Name, Pair, Prog, Statement, Ty,
};
use axcut::syntax as rust;
use axcut::syntax::statements;

pub fn prog(prog: &rust::Prog) -> Prog {
    Prog {
        defs: prog.defs.iter().map(def).collect(),
        max_id: id(prog.max_id),
    }
}

fn def(def: &rust::Def) -> Def {
    Def {
        name: identifier(&def.name),
        params: bindings(&def.context),
        body: statement(&def.body),
    }
}

fn statement(source: &rust::Statement) -> Statement {
    match source {
        rust::Statement::Substitute(substitute) => Statement::Substitute {
            rearrange: substitute.rearrange.iter().map(pair).collect(),
            next: boxed(&substitute.next),
        },
        rust::Statement::Call(call) => Statement::Call {
            label: identifier(&call.label),
            args: bindings(&call.args),
        },
        rust::Statement::Let(r#let) => Statement::Let {
            var: identifier(&r#let.var),
            ty: ty(&r#let.ty),
            tag: identifier(&r#let.tag),
            args: bindings(&r#let.args),
            next: boxed(&r#let.next),
        },
        rust::Statement::Switch(switch) => Statement::Switch {
            var: identifier(&switch.var),
            ty: ty(&switch.ty),
            clauses: switch.clauses.iter().map(clause).collect(),
        },
        rust::Statement::Create(create) => Statement::Create {
            var: identifier(&create.var),
            ty: ty(&create.ty),
            environment: create.context.as_ref().map(bindings),
            clauses: create.clauses.iter().map(clause).collect(),
            next: boxed(&create.next),
        },
        rust::Statement::Invoke(invoke) => Statement::Invoke {
            var: identifier(&invoke.var),
            tag: identifier(&invoke.tag),
            ty: ty(&invoke.ty),
            args: bindings(&invoke.args),
        },
        rust::Statement::Literal(literal) => Statement::Literal {
            lit: literal.lit,
            var: identifier(&literal.var),
            next: boxed(&literal.next),
        },
        rust::Statement::Op(op) => Statement::Op {
            fst: identifier(&op.fst),
            op: bin_op(&op.op),
            snd: identifier(&op.snd),
            var: identifier(&op.var),
            next: boxed(&op.next),
        },
        rust::Statement::IfC(ifc) => Statement::IfC {
            sort: if_sort(ifc.sort),
            fst: identifier(&ifc.fst),
            snd: ifc.snd.as_ref().map(identifier),
            thenc: boxed(&ifc.thenc),
            elsec: boxed(&ifc.elsec),
        },
        rust::Statement::PrintI64(print) => Statement::PrintI64 {
            newline: print.newline,
            var: identifier(&print.var),
            next: boxed(&print.next),
        },
        rust::Statement::Exit(exit) => Statement::Exit {
            var: identifier(&exit.var),
        },
    }
}

fn boxed(source: &rust::Statement) -> Box<Statement> {
    Box::new(statement(source))
}

fn clause(clause: &statements::Clause) -> Clause {
    Clause {
        xtor: identifier(&clause.xtor),
        params: bindings(&clause.context),
        body: statement(&clause.body),
    }
}

fn pair((target, source): &(rust::ContextBinding, rust::Identifier)) -> Pair {
    Pair {
        target: binding(target),
        source: identifier(source),
    }
}

fn bindings(context: &rust::TypingContext) -> Vec<Binding> {
    context.bindings.iter().map(binding).collect()
}

fn binding(binding: &rust::ContextBinding) -> Binding {
    Binding {
        var: identifier(&binding.var),
        chi: chirality(&binding.chi),
        ty: ty(&binding.ty),
    }
}

fn identifier(identifier: &rust::Identifier) -> Identifier {
    Identifier {
        name: name(&identifier.name),
        id: id(identifier.id),
    }
}

fn name(spelling: &str) -> Name {
    Name(spelling.parse().expect("the pass copies spellings"))
}

pub fn id(id: rust::ID) -> Id {
    Id(u32::try_from(id).expect("2,000 records draw fewer than 2^32 IDs"))
}

fn ty(ty: &rust::Ty) -> Ty {
    match ty {
        rust::Ty::I64 => Ty::I64,
        rust::Ty::Decl(name) => Ty::Decl(identifier(name)),
    }
}

fn chirality(chirality: &rust::Chirality) -> Chirality {
    match chirality {
        rust::Chirality::Prd => Chirality::Prd,
        rust::Chirality::Cns => Chirality::Cns,
        rust::Chirality::Ext => Chirality::Ext,
    }
}

fn bin_op(op: &statements::BinOp) -> BinOp {
    match op {
        statements::BinOp::Div => BinOp::Div,
        statements::BinOp::Prod => BinOp::Prod,
        statements::BinOp::Rem => BinOp::Rem,
        statements::BinOp::Sum => BinOp::Sum,
        statements::BinOp::Sub => BinOp::Sub,
    }
}

fn if_sort(sort: statements::ifc::IfSort) -> IfSort {
    match sort {
        statements::ifc::IfSort::Equal => IfSort::Equal,
        statements::ifc::IfSort::NotEqual => IfSort::NotEqual,
        statements::ifc::IfSort::Less => IfSort::Less,
        statements::ifc::IfSort::LessOrEqual => IfSort::LessOrEqual,
        statements::ifc::IfSort::Greater => IfSort::Greater,
        statements::ifc::IfSort::GreaterOrEqual => IfSort::GreaterOrEqual,
    }
}
