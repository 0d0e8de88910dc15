//! Flat records, one for each kind byte.

use crate::syntax::{BinOp, Binding, Identifier, IfSort, Pair, Ty};

#[derive(Debug, Clone, PartialEq, Eq)]
pub enum Record {
    Definition {
        name: Identifier,
        params: Vec<Binding>,
    },
    Substitute {
        rearrange: Vec<Pair>,
    },
    Call {
        label: Identifier,
        args: Vec<Binding>,
    },
    Let {
        var: Identifier,
        ty: Ty,
        tag: Identifier,
        args: Vec<Binding>,
    },
    Switch {
        var: Identifier,
        ty: Ty,
        clauses: u8,
    },
    Create {
        var: Identifier,
        ty: Ty,
        environment: Option<Vec<Binding>>,
        clauses: u8,
    },
    Invoke {
        var: Identifier,
        tag: Identifier,
        ty: Ty,
        args: Vec<Binding>,
    },
    Literal {
        lit: i64,
        var: Identifier,
    },
    Op {
        fst: Identifier,
        op: BinOp,
        snd: Identifier,
        var: Identifier,
    },
    IfC {
        sort: IfSort,
        fst: Identifier,
        snd: Option<Identifier>,
    },
    Clause {
        xtor: Identifier,
        params: Vec<Binding>,
    },
    PrintI64 {
        newline: bool,
        var: Identifier,
    },
    Exit {
        var: Identifier,
    },
}

impl Record {
    /// Question 4 allows every count up to this.
    pub const LARGEST_COUNT: u8 = 128;

    pub fn kind(&self) -> u8 {
        match self {
            Record::Definition { .. } => 1,
            Record::Substitute { .. } => 2,
            Record::Call { .. } => 3,
            Record::Let { .. } => 4,
            Record::Switch { .. } => 5,
            Record::Create { .. } => 6,
            Record::Invoke { .. } => 7,
            Record::Literal { .. } => 8,
            Record::Op { .. } => 9,
            Record::IfC { .. } => 10,
            Record::Clause { .. } => 11,
            Record::PrintI64 { .. } => 12,
            Record::Exit { .. } => 13,
        }
    }
}
