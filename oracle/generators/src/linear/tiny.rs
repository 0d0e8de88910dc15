//! Tiny linear programs with few IDs, tags and labels. The list is kept as the machine would have it,
//! and mostly taken from: so every way to stop and to get stuck comes often.

use crate::build::{
    clause, def, exit, ext, ifc, label, literal, op, pair, print_i64, prog, substitute, var,
};
use crate::rng::Rng;
use reference::syntax::{BinOp, Binding, Clause, Prog, Statement};

/// IDs and names are below these.
const IDS: usize = 6;
const NAMES: usize = 3;
/// The longest list that is written down.
const LONGEST: usize = 3;
const DEEPEST: usize = 9;

pub fn tiny(rng: &mut Rng) -> Prog {
    let defs = (0..rng.within(1, 3))
        .map(|_| {
            let params = ids(rng, &[]);
            let body = statement(rng, &params, 1);
            def(name(rng), bindings(&params), body)
        })
        .collect();
    prog(0, defs)
}

fn name(rng: &mut Rng) -> u16 {
    rng.below(NAMES) as u16
}

fn id(rng: &mut Rng) -> u32 {
    rng.below(IDS) as u32
}

/// Some IDs, mostly other ones than these and than each other.
fn ids(rng: &mut Rng, taken: &[u32]) -> Vec<u32> {
    let mut found = Vec::new();
    for _ in 0..rng.below(LONGEST + 1) {
        let new = new_id(rng, &[taken, &found].concat());
        found.push(new);
    }
    found
}

fn new_id(rng: &mut Rng, taken: &[u32]) -> u32 {
    let free: Vec<u32> = (0..IDS as u32).filter(|id| !taken.contains(id)).collect();
    if free.is_empty() || rng.below(24) == 0 {
        id(rng)
    } else {
        *rng.pick(&free)
    }
}

/// An ID of the list, mostly.
fn used(rng: &mut Rng, list: &[u32]) -> u32 {
    if list.is_empty() || rng.below(24) == 0 {
        id(rng)
    } else {
        *rng.pick(list)
    }
}

fn bindings(ids: &[u32]) -> Vec<Binding> {
    ids.iter().map(|&id| ext(id)).collect()
}

/// The last IDs of the list and those before them, mostly.
fn taken(rng: &mut Rng, list: &[u32]) -> (Vec<u32>, Vec<u32>) {
    let kept = list.len() - rng.below(list.len().min(LONGEST) + 1);
    let (before, last) = list.split_at(kept);
    let last = if rng.below(24) == 0 {
        ids(rng, &[])
    } else {
        last.to_vec()
    };
    (before.to_vec(), last)
}

/// The last ID of the list, and those before it.
fn last(rng: &mut Rng, list: &[u32]) -> (Vec<u32>, u32) {
    match list.split_last() {
        Some((&last, before)) if rng.below(24) > 0 => (before.to_vec(), last),
        _ => (list.to_vec(), id(rng)),
    }
}

fn with(list: &[u32], id: u32) -> Vec<u32> {
    [list, &[id]].concat()
}

fn statement(rng: &mut Rng, list: &[u32], depth: usize) -> Statement {
    let leaf = depth >= DEEPEST;
    match rng.below(if leaf { 3 } else { 16 }) {
        0 => Statement::Call {
            label: label(name(rng)),
            args: bindings(&ids(rng, &[])),
        },
        1 => exit(used(rng, list)),
        2 => Statement::Invoke {
            var: var(last(rng, list).1),
            tag: label(name(rng)),
            ty: crate::build::ty(),
            args: bindings(&ids(rng, &[])),
        },
        3 | 4 => {
            let targets = ids(rng, &[]);
            let pairs = targets
                .iter()
                .map(|&target| pair(ext(target), used(rng, list)))
                .collect();
            substitute(pairs, statement(rng, &targets, depth + 1))
        }
        5..8 => {
            let (before, args) = taken(rng, list);
            let made = new_id(rng, &before);
            Statement::Let {
                var: var(made),
                ty: crate::build::ty(),
                tag: label(name(rng)),
                args: bindings(&args),
                next: Box::new(statement(rng, &with(&before, made), depth + 1)),
            }
        }
        8 | 9 => {
            let (before, found) = last(rng, list);
            Statement::Switch {
                var: var(found),
                ty: crate::build::ty(),
                clauses: clauses(rng, depth, &before, false),
            }
        }
        10 | 11 => create(rng, list, depth),
        12 => {
            let new = new_id(rng, list);
            let lit = rng.below(3) as i64 - 1;
            literal(lit, new, statement(rng, &with(list, new), depth + 1))
        }
        13 => {
            let (fst, snd) = (used(rng, list), used(rng, list));
            let new = new_id(rng, list);
            let kind = *rng.pick(&[BinOp::Div, BinOp::Prod, BinOp::Rem, BinOp::Sum, BinOp::Sub]);
            let next = statement(rng, &with(list, new), depth + 1);
            op(fst, kind, snd, new, next)
        }
        14 => {
            let fst = used(rng, list);
            let snd = rng.chance(8).then(|| used(rng, list));
            let thenc = statement(rng, list, depth + 1);
            ifc(fst, snd, thenc, statement(rng, list, depth + 1))
        }
        _ => {
            let shown = used(rng, list);
            print_i64(rng.chance(8), shown, statement(rng, list, depth + 1))
        }
    }
}

fn create(rng: &mut Rng, list: &[u32], depth: usize) -> Statement {
    let (before, environment) = taken(rng, list);
    let made = new_id(rng, &before);
    Statement::Create {
        var: var(made),
        ty: crate::build::ty(),
        environment: (rng.below(24) > 0).then(|| bindings(&environment)),
        clauses: clauses(rng, depth, &environment, true),
        next: Box::new(statement(rng, &with(&before, made), depth + 1)),
    }
}

/// Clauses whose parameters come before the other entries, or behind them.
fn clauses(rng: &mut Rng, depth: usize, others: &[u32], first: bool) -> Vec<Clause> {
    (0..rng.below(NAMES + 1))
        .map(|_| {
            let params = ids(rng, others);
            let list = if first {
                [&params, others].concat()
            } else {
                [others, &params].concat()
            };
            let body = statement(rng, &list, depth + 2);
            clause(name(rng), bindings(&params), body)
        })
        .collect()
}
