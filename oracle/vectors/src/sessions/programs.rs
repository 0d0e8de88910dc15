//! Programs whose runs come by every kind of statement, each with the values of a start.

use generators::build::{
    call, clause, cns, create, def, exit, ext, exts, ifc, image, invoke, label, let_, literal, one,
    op, prd, print_i64, prog, switch, ty, var,
};
use generators::{linear, stores};
use reference::machines::Given::{self, Int, Outside};
use reference::syntax::{BinOp, Binding, Prog, Statement};
use stepper::Machine;

/// A program, and the values of a start of its first definition.
pub struct Run {
    prog: Prog,
    given: Vec<Given>,
}

impl Run {
    /// For the linear machine the output of the pass.
    pub fn image(&self, machine: Machine) -> Vec<u8> {
        match machine {
            Machine::Source => image(&self.prog),
            Machine::Linear => image(&linear::linearized(self.prog.clone())),
        }
    }

    pub fn values(&self) -> Vec<u8> {
        stores::values(&self.given)
    }
}

pub fn all() -> Vec<Run> {
    vec![
        cells(),
        closure(),
        counting(),
        outside(),
        stuck(),
        dropping(),
        growing(),
        repeating(),
    ]
}

/// A cell within a cell, taken apart again.
pub fn cells() -> Run {
    let shown = print_i64(true, 5, exit(6));
    let taken = switch(4, vec![clause(2, vec![ext(5), prd(6)], shown)]);
    let both = tagged(2, 4, vec![ext(1), prd(3)], taken);
    Run {
        prog: one(6, vec![ext(1)], literal(7, 2, let_(3, vec![ext(2)], both))),
        given: vec![Int(-3)],
    }
}

/// A closure with an entry, invoked with an argument.
pub fn closure() -> Run {
    let other = clause(2, exts(4, 5), exit(4));
    let shown = print_i64(false, 5, exit(2));
    let taken = clause(1, vec![ext(4)], op(4, BinOp::Prod, 2, 5, shown));
    let body = create(3, vec![other, taken], invoke(3, vec![ext(1)]));
    Run {
        prog: one(5, exts(1, 2), body),
        given: vec![Int(6), Int(-7)],
    }
}

/// A definition that calls itself until it is at 0.
fn counting() -> Run {
    let again = print_i64(false, 3, call(vec![ext(3)]));
    let less = literal(1, 2, op(1, BinOp::Sub, 2, 3, again));
    Run {
        prog: one(3, vec![ext(1)], ifc(1, None, exit(1), less)),
        given: vec![Int(2)],
    }
}

/// An outside number invoked with a cell, an integer and itself.
pub fn outside() -> Run {
    let last = invoke(2, vec![prd(3), ext(1), cns(2)]);
    Run {
        prog: one(3, vec![ext(1), cns(2)], let_(3, vec![ext(1)], last)),
        given: vec![Int(i64::MIN), Outside(255)],
    }
}

/// A Switch on an integer: no next step, and not because of an ID.
fn stuck() -> Run {
    let taken = switch(2, vec![clause(1, Vec::new(), exit(1))]);
    Run {
        prog: one(2, vec![ext(1)], literal(0, 2, taken)),
        given: vec![Int(1)],
    }
}

/// Values that are dropped and one that is doubled: the pass writes Substitutes before several
/// statements.
fn dropping() -> Run {
    let last = tagged(2, 5, vec![ext(4), ext(1), ext(4)], exit(5));
    let shown = op(1, BinOp::Rem, 2, 4, print_i64(true, 2, last));
    Run {
        prog: one(5, exts(1, 3), shown),
        given: vec![Int(17), Int(-5), Int(1)],
    }
}

/// An Invoke after which there is more than before: arguments that are repeated, and on the linear
/// machine what the closure holds.
fn growing() -> Run {
    let sum = |fst, snd, id, next| op(fst, BinOp::Sum, snd, id, next);
    let held = sum(1, 2, 9, sum(9, 3, 10, exit(10)));
    let taken = clause(1, exts(5, 8), held);
    let args = vec![ext(3); 4];
    Run {
        prog: one(10, exts(1, 3), create(4, vec![taken], invoke(4, args))),
        given: vec![Int(1), Int(2), Int(i64::MAX)],
    }
}

/// A Call after which there is more than before, on the source machine.
fn repeating() -> Run {
    let first = def(0, vec![ext(1)], call_of(1, vec![ext(1); 4]));
    let second = def(1, exts(1, 4), exit(4));
    Run {
        prog: prog(4, vec![first, second]),
        given: vec![Outside(0)],
    }
}

fn call_of(name: u16, args: Vec<Binding>) -> Statement {
    Statement::Call {
        label: label(name),
        args,
    }
}

/// A Let with that tag.
fn tagged(tag: u16, id: u32, args: Vec<Binding>, next: Statement) -> Statement {
    Statement::Let {
        var: var(id),
        ty: ty(),
        tag: label(tag),
        args,
        next: Box::new(next),
    }
}
