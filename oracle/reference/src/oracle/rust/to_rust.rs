//! Our tree as the Rust's. A name's spelling is its number in decimal.

use crate::syntax::{
    BinOp, Binding, Chirality, Clause, Def, Id, Identifier, IfSort, Name, Pair, Prog, Statement, Ty,
};
use axcut::syntax as rust;
use axcut::syntax::statements;

use std::rc::Rc;

pub fn prog(prog: &Prog) -> rust::Prog {
    rust::Prog {
        defs: prog.defs.iter().map(def).collect(),
        types: Vec::new(),
        max_id: id(prog.max_id),
    }
}

fn def(def: &Def) -> rust::Def {
    rust::Def {
        name: identifier(&def.name),
        context: context(&def.params),
        body: statement(&def.body),
    }
}

pub fn statement(source: &Statement) -> rust::Statement {
    match source {
        Statement::Substitute { rearrange, next } => statements::Substitute {
            rearrange: rearrange.iter().map(pair).collect(),
            next: shared(next),
        }
        .into(),
        Statement::Call { label, args } => statements::Call {
            label: identifier(label),
            args: context(args),
        }
        .into(),
        Statement::Let {
            var,
            ty: its_type,
            tag,
            args,
            next,
        } => statements::Let {
            var: identifier(var),
            ty: ty(its_type),
            tag: identifier(tag),
            args: context(args),
            next: shared(next),
            free_vars_next: None,
        }
        .into(),
        Statement::Switch {
            var,
            ty: its_type,
            clauses,
        } => statements::Switch {
            var: identifier(var),
            ty: ty(its_type),
            clauses: clauses.iter().map(clause).collect(),
            free_vars_clauses: None,
        }
        .into(),
        Statement::Create {
            var,
            ty: its_type,
            environment,
            clauses,
            next,
        } => statements::Create {
            var: identifier(var),
            ty: ty(its_type),
            context: environment.as_deref().map(context),
            clauses: clauses.iter().map(clause).collect(),
            free_vars_clauses: None,
            next: shared(next),
            free_vars_next: None,
        }
        .into(),
        Statement::Invoke {
            var,
            tag,
            ty: its_type,
            args,
        } => statements::Invoke {
            var: identifier(var),
            tag: identifier(tag),
            ty: ty(its_type),
            args: context(args),
        }
        .into(),
        Statement::Literal { lit, var, next } => statements::Literal {
            lit: *lit,
            var: identifier(var),
            next: shared(next),
            free_vars_next: None,
        }
        .into(),
        Statement::Op {
            fst,
            op,
            snd,
            var,
            next,
        } => statements::Op {
            fst: identifier(fst),
            op: bin_op(*op),
            snd: identifier(snd),
            var: identifier(var),
            next: shared(next),
            free_vars_next: None,
        }
        .into(),
        Statement::IfC {
            sort,
            fst,
            snd,
            thenc,
            elsec,
        } => statements::IfC {
            sort: if_sort(*sort),
            fst: identifier(fst),
            snd: snd.as_ref().map(identifier),
            thenc: shared(thenc),
            elsec: shared(elsec),
        }
        .into(),
        Statement::PrintI64 { newline, var, next } => statements::PrintI64 {
            newline: *newline,
            var: identifier(var),
            next: shared(next),
            free_vars_next: None,
        }
        .into(),
        Statement::Exit { var } => statements::Exit {
            var: identifier(var),
        }
        .into(),
    }
}

fn shared(source: &Statement) -> Rc<rust::Statement> {
    Rc::new(statement(source))
}

fn clause(clause: &Clause) -> statements::Clause {
    statements::Clause {
        xtor: identifier(&clause.xtor),
        context: context(&clause.params),
        body: shared(&clause.body),
    }
}

fn pair(pair: &Pair) -> (rust::ContextBinding, rust::Identifier) {
    (binding(&pair.target), identifier(&pair.source))
}

fn context(bindings: &[Binding]) -> rust::TypingContext {
    rust::TypingContext {
        bindings: bindings.iter().map(binding).collect(),
    }
}

fn binding(binding: &Binding) -> rust::ContextBinding {
    rust::ContextBinding {
        var: identifier(&binding.var),
        chi: chirality(binding.chi),
        ty: ty(&binding.ty),
    }
}

fn identifier(identifier: &Identifier) -> rust::Identifier {
    rust::Identifier {
        name: spelling(identifier.name),
        id: id(identifier.id),
    }
}

fn spelling(name: Name) -> String {
    name.0.to_string()
}

fn id(id: Id) -> rust::ID {
    id.0 as rust::ID
}

fn ty(ty: &Ty) -> rust::Ty {
    match ty {
        Ty::I64 => rust::Ty::I64,
        Ty::Decl(name) => rust::Ty::Decl(identifier(name)),
    }
}

fn chirality(chirality: Chirality) -> rust::Chirality {
    match chirality {
        Chirality::Prd => rust::Chirality::Prd,
        Chirality::Cns => rust::Chirality::Cns,
        Chirality::Ext => rust::Chirality::Ext,
    }
}

fn bin_op(op: BinOp) -> statements::BinOp {
    match op {
        BinOp::Div => statements::BinOp::Div,
        BinOp::Prod => statements::BinOp::Prod,
        BinOp::Rem => statements::BinOp::Rem,
        BinOp::Sum => statements::BinOp::Sum,
        BinOp::Sub => statements::BinOp::Sub,
    }
}

fn if_sort(sort: IfSort) -> statements::ifc::IfSort {
    match sort {
        IfSort::Equal => statements::ifc::IfSort::Equal,
        IfSort::NotEqual => statements::ifc::IfSort::NotEqual,
        IfSort::Less => statements::ifc::IfSort::Less,
        IfSort::LessOrEqual => statements::ifc::IfSort::LessOrEqual,
        IfSort::Greater => statements::ifc::IfSort::Greater,
        IfSort::GreaterOrEqual => statements::ifc::IfSort::GreaterOrEqual,
    }
}
