//! Short ways to write statements of the Rust down.

use axcut::syntax::statements::ifc::IfSort;
use axcut::syntax::statements::{
    BinOp, Call, Clause, Create, Exit, IfC, Invoke, Let, Literal, Op, PrintI64, Substitute, Switch,
};
use axcut::syntax::{Chirality, ContextBinding, ID, Identifier, Statement, Ty, TypingContext};
use axcut::traits::free_vars::FreeVars;
use axcut::traits::linearize::Linearizing;

use std::collections::HashSet;
use std::rc::Rc;

pub fn named(name: &str, id: ID) -> Identifier {
    Identifier {
        name: name.to_string(),
        id,
    }
}

pub fn var(id: ID) -> Identifier {
    named("x", id)
}

pub fn ty() -> Ty {
    Ty::Decl(named("T", 0))
}

pub fn binding(id: ID, chi: Chirality, ty: Ty) -> ContextBinding {
    ContextBinding {
        var: var(id),
        chi,
        ty,
    }
}

pub fn ext(id: ID) -> ContextBinding {
    binding(id, Chirality::Ext, Ty::I64)
}

pub fn prd(id: ID) -> ContextBinding {
    binding(id, Chirality::Prd, ty())
}

pub fn cns(id: ID) -> ContextBinding {
    binding(id, Chirality::Cns, ty())
}

pub fn exts(ids: &[ID]) -> TypingContext {
    ids.iter().map(|&id| ext(id)).collect::<Vec<_>>().into()
}

pub fn call(args: Vec<ContextBinding>) -> Statement {
    Call {
        label: named("f", 0),
        args: args.into(),
    }
    .into()
}

pub fn clause(params: Vec<ContextBinding>, body: Statement) -> Clause {
    Clause {
        xtor: named("K", 0),
        context: params.into(),
        body: Rc::new(body),
    }
}

pub fn substitute(pairs: Vec<(ContextBinding, ID)>, next: Statement) -> Statement {
    let rearrange = pairs
        .into_iter()
        .map(|(target, source)| (target, var(source)))
        .collect();
    spelled(rearrange, next)
}

pub fn spelled(rearrange: Vec<(ContextBinding, Identifier)>, next: Statement) -> Statement {
    Substitute {
        rearrange,
        next: Rc::new(next),
    }
    .into()
}

pub fn invoke(id: ID, args: Vec<ContextBinding>) -> Statement {
    Invoke {
        var: var(id),
        tag: named("K", 0),
        ty: ty(),
        args: args.into(),
    }
    .into()
}

pub fn switch(id: ID, clauses: Vec<Clause>) -> Statement {
    Switch {
        var: var(id),
        ty: ty(),
        clauses,
        free_vars_clauses: None,
    }
    .into()
}

pub fn let_(id: ID, args: Vec<ContextBinding>, next: Statement) -> Statement {
    Let {
        var: var(id),
        ty: ty(),
        tag: named("K", 0),
        args: args.into(),
        next: Rc::new(next),
        free_vars_next: None,
    }
    .into()
}

pub fn create(
    id: ID,
    environment: Option<Vec<ContextBinding>>,
    clauses: Vec<Clause>,
    next: Statement,
) -> Statement {
    Create {
        var: var(id),
        ty: ty(),
        context: environment.map(TypingContext::from),
        clauses,
        free_vars_clauses: None,
        next: Rc::new(next),
        free_vars_next: None,
    }
    .into()
}

pub fn literal(lit: i64, id: ID, next: Statement) -> Statement {
    Literal {
        lit,
        var: var(id),
        next: Rc::new(next),
        free_vars_next: None,
    }
    .into()
}

pub fn ifc(fst: ID, thenc: Statement, elsec: Statement) -> Statement {
    IfC {
        sort: IfSort::Equal,
        fst: var(fst),
        snd: None,
        thenc: Rc::new(thenc),
        elsec: Rc::new(elsec),
    }
    .into()
}

pub fn sum(fst: ID, snd: ID, id: ID, next: Statement) -> Statement {
    Op {
        fst: var(fst),
        op: BinOp::Sum,
        snd: var(snd),
        var: var(id),
        next: Rc::new(next),
        free_vars_next: None,
    }
    .into()
}

pub fn print_i64(newline: bool, var: Identifier, next: Statement) -> Statement {
    PrintI64 {
        newline,
        var,
        next: Rc::new(next),
        free_vars_next: None,
    }
    .into()
}

pub fn exit(var: Identifier) -> Statement {
    Exit { var }.into()
}

/// The statement linearized in the context at the max_id, and the max_id after it.
pub fn linearized(
    context: Vec<ContextBinding>,
    statement: Statement,
    mut max_id: ID,
) -> (Statement, ID) {
    let annotated = statement.free_vars(&mut HashSet::new());
    let linearized = annotated.linearize(context.into(), &mut max_id);
    (linearized, max_id)
}
