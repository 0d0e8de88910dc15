//! Programs whose runs go on as long as they are stepped: a definition that calls itself.

use generators::build::{
    call, clause, cns, create, def, exit, ext, exts, ifc, invoke, label, let_, literal, one, op,
    prd, print_i64, prog, switch,
};
use reference::syntax::{BinOp, Binding, Prog, Statement};

/// Every statement but Exit: eleven steps around, in which a Let and a Create make a cell each.
pub fn mixed() -> Prog {
    let again = ifc(10, None, exit(12), call(vec![ext(10), ext(12)]));
    let summed = op(11, BinOp::Sum, 3, 12, again);
    let matched = switch(9, vec![clause(1, exts(10, 11), summed)]);
    let closed = clause(1, vec![ext(8), prd(9)], matched);
    let invoked = invoke(7, vec![ext(1), prd(6)]);
    let created = create(7, vec![closed], print_i64(true, 4, invoked));
    let added = op(2, BinOp::Sum, 1, 5, let_(6, exts(4, 5), created));
    let body = literal(1, 3, op(1, BinOp::Sub, 3, 4, added));
    one(12, exts(1, 2), body)
}

/// What a loop over many cells does.
#[derive(Debug, Clone, Copy, PartialEq, Eq)]
pub enum Over {
    /// It looks into two cells, by a Switch and by an Invoke, and makes none: six steps around.
    Reads,
    /// It makes two cells, by a Let and by a Create, and looks into two: eight steps around.
    Makes,
}

impl Over {
    pub const ALL: [Over; 2] = [Over::Reads, Over::Makes];

    pub fn name(self) -> &'static str {
        match self {
            Over::Reads => "cells are read",
            Over::Makes => "cells are made and read",
        }
    }
}

/// The label of the loop in a program with many cells.
pub const LOOP: u16 = 2;
/// The cells that such a program makes beside those of its first parameter.
pub const OTHER_CELLS: usize = 2;

/// A program that makes so many cells as its first parameter says, and two more; then the loop begins.
pub fn cells(over: Over) -> Prog {
    let first = let_(3, exts(1, 1), call_of(1, vec![ext(1), prd(3), ext(2)]));
    let again = call_of(LOOP, vec![prd(5), cns(21), ext(20)]);
    let closed = clause(1, vec![ext(20), cns(21)], again);
    let begins = call_of(LOOP, vec![prd(5), cns(9), ext(6)]);
    let made = let_(8, exts(4, 4), call_of(1, vec![ext(22), prd(8), ext(6)]));
    let counted = literal(1, 7, op(4, BinOp::Sub, 7, 22, made));
    let fill = ifc(4, None, create(9, vec![closed], begins), counted);
    let defs = vec![
        def(0, exts(1, 2), first),
        def(1, vec![ext(4), prd(5), ext(6)], fill),
        def(LOOP, vec![prd(10), cns(11), ext(12)], around(over)),
    ];
    prog(22, defs)
}

/// The loop's body: 10 is a cell of a Let, 11 one of a Create, 12 counts down.
fn around(over: Over) -> Statement {
    let looked = match over {
        Over::Reads => {
            let invoked = invoke(11, vec![ext(14), cns(11)]);
            switch(10, vec![clause(1, exts(15, 15), invoked)])
        }
        Over::Makes => {
            let again = call_of(LOOP, vec![prd(16), cns(11), ext(14)]);
            let matched = switch(10, vec![clause(1, exts(15, 15), invoke(17, Vec::new()))]);
            let created = create(17, vec![clause(1, Vec::new(), again)], matched);
            let_(16, exts(14, 14), created)
        }
    };
    let judged = ifc(14, None, exit(14), looked);
    literal(1, 13, op(12, BinOp::Sub, 13, 14, judged))
}

fn call_of(name: u16, args: Vec<Binding>) -> Statement {
    Statement::Call {
        label: label(name),
        args,
    }
}

/// Which statements a loop over many entries has.
#[derive(Debug, Clone, Copy, PartialEq, Eq)]
pub enum Touching {
    Values,
    Closures,
    Integers,
}

impl Touching {
    pub const ALL: [Touching; 3] = [Touching::Values, Touching::Closures, Touching::Integers];

    pub fn name(self) -> &'static str {
        match self {
            Touching::Values => "Let, Switch, Call",
            Touching::Closures => "Create, Invoke, Call",
            Touching::Integers => "Literal, Op, IfC, PrintI64",
        }
    }
}

/// The most entries of such a loop: a Switch has them twice in scope, and its own variable.
pub const MOST_ENTRIES: u32 = 31;

/// A loop over so many parameters. All of them go into a cell and come out of it again, or they stand in
/// the environment, where the last one is looked up, and there are 16 steps to a Call.
pub fn entries(touching: Touching, count: u32) -> Prog {
    let params = exts(1, count);
    let body = match touching {
        Touching::Values => {
            let fields = exts(101, 100 + count);
            let again = call(fields.clone());
            let_(
                100,
                params.clone(),
                switch(100, vec![clause(1, fields, again)]),
            )
        }
        Touching::Closures => {
            let again = clause(1, Vec::new(), call(params.clone()));
            create(100, vec![again], invoke(100, Vec::new()))
        }
        Touching::Integers => (0..4).rev().fold(call(params.clone()), |next, place| {
            integers(count, 100 + 2 * place, next)
        }),
    };
    one(100 + MOST_ENTRIES, params, body)
}

/// A literal, an Op that binds the ID behind it, an IfC and a PrintI64 of the last parameter.
fn integers(last: u32, id: u32, next: Statement) -> Statement {
    let judged = ifc(last, None, exit(last), print_i64(false, last, next));
    literal(1, id, op(last, BinOp::Sum, id, id + 1, judged))
}
