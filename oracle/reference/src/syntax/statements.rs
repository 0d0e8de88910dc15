//! The eleven statements, and clauses.

use super::{Binding, Identifier, Ty};

#[derive(Debug, Clone, Copy, PartialEq, Eq)]
pub enum BinOp {
    Div,
    Prod,
    Rem,
    Sum,
    Sub,
}

#[derive(Debug, Clone, Copy, PartialEq, Eq)]
pub enum IfSort {
    Equal,
    NotEqual,
    Less,
    LessOrEqual,
    Greater,
    GreaterOrEqual,
}

/// A pair of a Substitute: target from source.
#[derive(Debug, Clone, Copy, PartialEq, Eq)]
pub struct Pair {
    pub target: Binding,
    pub source: Identifier,
}

#[derive(Debug, Clone, PartialEq, Eq)]
pub struct Clause {
    pub xtor: Identifier,
    pub params: Vec<Binding>,
    pub body: Statement,
}

#[derive(Debug, Clone, PartialEq, Eq)]
pub enum Statement {
    Substitute {
        rearrange: Vec<Pair>,
        next: Box<Statement>,
    },
    Call {
        label: Identifier,
        args: Vec<Binding>,
    },
    Let {
        var: Identifier,
        ty: Ty,
        tag: Identifier,
        args: Vec<Binding>,
        next: Box<Statement>,
    },
    Switch {
        var: Identifier,
        ty: Ty,
        clauses: Vec<Clause>,
    },
    Create {
        var: Identifier,
        ty: Ty,
        environment: Option<Vec<Binding>>,
        clauses: Vec<Clause>,
        next: Box<Statement>,
    },
    Invoke {
        var: Identifier,
        tag: Identifier,
        ty: Ty,
        args: Vec<Binding>,
    },
    Literal {
        lit: i64,
        var: Identifier,
        next: Box<Statement>,
    },
    Op {
        fst: Identifier,
        op: BinOp,
        snd: Identifier,
        var: Identifier,
        next: Box<Statement>,
    },
    IfC {
        sort: IfSort,
        fst: Identifier,
        snd: Option<Identifier>,
        thenc: Box<Statement>,
        elsec: Box<Statement>,
    },
    PrintI64 {
        newline: bool,
        var: Identifier,
        next: Box<Statement>,
    },
    Exit {
        var: Identifier,
    },
}
