//! All small images and all small programs.

use crate::build::{
    self, call, clause, create, exit, ext, ifc, invoke, let_, literal, one, op, print_i64, switch,
};
use reference::syntax::{BinOp, Binding, Prog, Statement};

/// Every image of at most 8 bytes, each 0, 1 or 2.
pub fn images() -> Vec<Vec<u8>> {
    let mut all: Vec<Vec<u8>> = vec![Vec::new()];
    let mut begin = 0;
    for _ in 0..8 {
        let end = all.len();
        for shorter in begin..end {
            for byte in 0..3 {
                let mut image = all[shorter].clone();
                image.push(byte);
                all.push(image);
            }
        }
        begin = end;
    }
    all
}

/// How many IDs the small programs have.
const IDS: u32 = 2;

/// Every program of one definition whose body is at most two statements deep, with IDs 0 and 1, lists
/// of at most two, at most one clause in each place, and one spelling and type.
pub fn programs() -> Vec<Prog> {
    let bodies = statements(2);
    let mut all = Vec::with_capacity(bodies.len() * lists().len());
    for params in lists() {
        for body in &bodies {
            all.push(one(IDS - 1, params.clone(), body.clone()));
        }
    }
    all
}

fn lists() -> Vec<Vec<Binding>> {
    let mut lists = vec![Vec::new()];
    for first in 0..IDS {
        lists.push(vec![ext(first)]);
        for second in 0..IDS {
            lists.push(vec![ext(first), ext(second)]);
        }
    }
    lists
}

fn statements(depth: usize) -> Vec<Statement> {
    let mut all = leaves();
    if depth == 1 {
        return all;
    }
    let inner = statements(depth - 1);
    for next in &inner {
        all.extend(before(next));
        for id in 0..IDS {
            for params in lists() {
                all.push(switch(id, vec![clause(1, params, next.clone())]));
            }
        }
        for other in &inner {
            all.extend(forks(next, other));
        }
    }
    all
}

/// The statements with nothing after them.
fn leaves() -> Vec<Statement> {
    let mut all: Vec<Statement> = lists().into_iter().map(call).collect();
    for id in 0..IDS {
        all.push(switch(id, Vec::new()));
        all.push(exit(id));
        all.extend(lists().into_iter().map(|args| invoke(id, args)));
    }
    all
}

/// The statements with one next, and no clause.
fn before(next: &Statement) -> Vec<Statement> {
    let mut all = Vec::new();
    for id in 0..IDS {
        all.push(literal(1, id, next.clone()));
        all.push(create(id, Vec::new(), next.clone()));
        for newline in [false, true] {
            all.push(print_i64(newline, id, next.clone()));
        }
        for args in lists() {
            all.push(let_(id, args, next.clone()));
        }
        for fst in 0..IDS {
            for snd in 0..IDS {
                all.push(op(fst, BinOp::Sum, snd, id, next.clone()));
            }
        }
    }
    all
}

/// The statements with two statements below them.
fn forks(first: &Statement, second: &Statement) -> Vec<Statement> {
    let mut all = Vec::new();
    for id in 0..IDS {
        for snd in [None, Some(0), Some(1)] {
            all.push(ifc(id, snd, first.clone(), second.clone()));
        }
        for params in lists() {
            let clauses = vec![clause(1, params, first.clone())];
            all.push(create(id, clauses, second.clone()));
        }
    }
    all
}

/// The small programs' images.
pub fn program_images() -> impl Iterator<Item = Vec<u8>> {
    programs().into_iter().map(|prog| build::image(&prog))
}
