//! Short ways to write programs down.

use reference::image::order;
use reference::syntax::{
    BinOp, Binding, Chirality, Clause, Def, Id, Identifier, IfSort, Name, Pair, Prog, Statement, Ty,
};

/// The name of every variable, label and tag that is written down by an ID or number alone.
const NAME: u16 = 7;

pub fn var(id: u32) -> Identifier {
    named(NAME, id)
}

pub fn named(name: u16, id: u32) -> Identifier {
    Identifier {
        name: Name(name),
        id: Id(id),
    }
}

/// A label or a tag.
pub fn label(name: u16) -> Identifier {
    named(name, 0)
}

pub fn ty() -> Ty {
    Ty::Decl(label(9))
}

pub fn ext(id: u32) -> Binding {
    binding(id, Chirality::Ext, Ty::I64)
}

pub fn prd(id: u32) -> Binding {
    binding(id, Chirality::Prd, ty())
}

pub fn cns(id: u32) -> Binding {
    binding(id, Chirality::Cns, ty())
}

pub fn binding(id: u32, chi: Chirality, ty: Ty) -> Binding {
    Binding {
        var: var(id),
        chi,
        ty,
    }
}

/// Integer bindings with the IDs from the first to the last.
pub fn exts(first: u32, last: u32) -> Vec<Binding> {
    (first..=last).map(ext).collect()
}

pub fn pair(target: Binding, source: u32) -> Pair {
    Pair {
        target,
        source: var(source),
    }
}

pub fn clause(tag: u16, params: Vec<Binding>, body: Statement) -> Clause {
    Clause {
        xtor: label(tag),
        params,
        body,
    }
}

pub fn substitute(rearrange: Vec<Pair>, next: Statement) -> Statement {
    Statement::Substitute {
        rearrange,
        next: Box::new(next),
    }
}

pub fn call(args: Vec<Binding>) -> Statement {
    Statement::Call {
        label: label(0),
        args,
    }
}

pub fn let_(id: u32, args: Vec<Binding>, next: Statement) -> Statement {
    Statement::Let {
        var: var(id),
        ty: ty(),
        tag: label(1),
        args,
        next: Box::new(next),
    }
}

pub fn switch(id: u32, clauses: Vec<Clause>) -> Statement {
    Statement::Switch {
        var: var(id),
        ty: ty(),
        clauses,
    }
}

pub fn create(id: u32, clauses: Vec<Clause>, next: Statement) -> Statement {
    create_with(id, None, clauses, next)
}

pub fn create_with(
    id: u32,
    environment: Option<Vec<Binding>>,
    clauses: Vec<Clause>,
    next: Statement,
) -> Statement {
    Statement::Create {
        var: var(id),
        ty: ty(),
        environment,
        clauses,
        next: Box::new(next),
    }
}

pub fn invoke(id: u32, args: Vec<Binding>) -> Statement {
    Statement::Invoke {
        var: var(id),
        tag: label(1),
        ty: ty(),
        args,
    }
}

pub fn literal(lit: i64, id: u32, next: Statement) -> Statement {
    Statement::Literal {
        lit,
        var: var(id),
        next: Box::new(next),
    }
}

pub fn op(fst: u32, op: BinOp, snd: u32, id: u32, next: Statement) -> Statement {
    Statement::Op {
        fst: var(fst),
        op,
        snd: var(snd),
        var: var(id),
        next: Box::new(next),
    }
}

pub fn ifc(fst: u32, snd: Option<u32>, thenc: Statement, elsec: Statement) -> Statement {
    Statement::IfC {
        sort: IfSort::Equal,
        fst: var(fst),
        snd: snd.map(var),
        thenc: Box::new(thenc),
        elsec: Box::new(elsec),
    }
}

pub fn print_i64(newline: bool, id: u32, next: Statement) -> Statement {
    Statement::PrintI64 {
        newline,
        var: var(id),
        next: Box::new(next),
    }
}

pub fn exit(id: u32) -> Statement {
    Statement::Exit { var: var(id) }
}

pub fn def(name: u16, params: Vec<Binding>, body: Statement) -> Def {
    Def {
        name: label(name),
        params,
        body,
    }
}

/// The program of one definition.
pub fn one(max_id: u32, params: Vec<Binding>, body: Statement) -> Prog {
    prog(max_id, vec![def(0, params, body)])
}

pub fn prog(max_id: u32, defs: Vec<Def>) -> Prog {
    Prog {
        defs,
        max_id: Id(max_id),
    }
}

/// The image of a program within the limits of its fields.
pub fn image(prog: &Prog) -> Vec<u8> {
    order::frame(prog).write()
}
