//! How many bindings are in the contexts of a linearized program, by the rules of the linear machine.

use reference::syntax::{Clause, Prog, Statement};

/// What was met on the way.
#[derive(Debug, Clone, Default, PartialEq, Eq)]
pub struct Seen {
    /// The statements of the source, and the bindings in their contexts, before any Substitute.
    pub statements: usize,
    pub bindings: usize,
    pub largest: usize,
    /// The deepest statement of the source (a body is depth 1), and the most clauses on one way down.
    pub depth: usize,
    pub clauses: usize,
}

/// Where a statement is.
#[derive(Clone, Copy)]
struct Place {
    context: usize,
    depth: usize,
    clauses: usize,
}

impl Place {
    fn next(self, context: usize) -> Place {
        Place {
            context,
            depth: self.depth + 1,
            ..self
        }
    }

    fn clause(self, context: usize) -> Place {
        Place {
            clauses: self.clauses + 1,
            ..self.next(context)
        }
    }
}

pub fn program(linear: &Prog, seen: &mut Seen) {
    for def in &linear.defs {
        let place = Place {
            context: def.params.len(),
            depth: 1,
            clauses: 0,
        };
        entered(&def.body, place, seen);
    }
}

/// A statement of the source, or the Substitute before it.
fn entered(linear: &Statement, place: Place, seen: &mut Seen) {
    seen.statements += 1;
    seen.bindings += place.context;
    seen.largest = seen.largest.max(place.context);
    seen.depth = seen.depth.max(place.depth);
    seen.clauses = seen.clauses.max(place.clauses);
    match linear {
        Statement::Substitute { rearrange, next } => {
            let context = rearrange.len();
            below(next, Place { context, ..place }, seen);
        }
        _ => below(linear, place, seen),
    }
}

/// What comes below a statement with that context, which is right.
fn below(linear: &Statement, place: Place, seen: &mut Seen) {
    let context = place.context;
    match linear {
        Statement::Call { .. } | Statement::Invoke { .. } | Statement::Exit { .. } => {}
        Statement::Substitute { .. } => unreachable!("the pass makes no two in a row"),
        Statement::Let { args, next, .. } => {
            entered(next, place.next(context - args.len() + 1), seen);
        }
        Statement::Switch { clauses, .. } => {
            bodies(clauses, context - 1, place, seen);
        }
        Statement::Create {
            environment,
            clauses,
            next,
            ..
        } => {
            let environment = environment.as_ref().map_or(0, Vec::len);
            bodies(clauses, environment, place, seen);
            entered(next, place.next(context - environment + 1), seen);
        }
        Statement::Literal { next, .. } | Statement::Op { next, .. } => {
            entered(next, place.next(context + 1), seen);
        }
        Statement::PrintI64 { next, .. } => entered(next, place.next(context), seen),
        Statement::IfC { thenc, elsec, .. } => {
            entered(thenc, place.next(context), seen);
            entered(elsec, place.next(context), seen);
        }
    }
}

fn bodies(clauses: &[Clause], beside: usize, place: Place, seen: &mut Seen) {
    for clause in clauses {
        let context = beside + clause.params.len();
        entered(&clause.body, place.clause(context), seen);
    }
}

#[cfg(test)]
mod tests {
    use super::*;
    use generators::build::{call, clause, create, exts, one, switch};
    use generators::changes::every_kind;
    use reference::oracle::Oracle;

    fn seen(source: &Prog) -> Seen {
        let oracle = Oracle::new(&generators::build::image(source));
        let mut seen = Seen::default();
        program(oracle.linearized().expect("a yes to 1 to 10"), &mut seen);
        seen
    }

    #[test]
    fn a_call() {
        let prog = one(2, exts(1, 2), call(exts(1, 1)));
        let expected = Seen {
            statements: 1,
            bindings: 2,
            largest: 2,
            depth: 1,
            clauses: 0,
        };
        assert_eq!(seen(&prog), expected);
    }

    #[test]
    fn through_clauses() {
        // the Create [1 2], its clause [3 1], the Switch below it [2 4], and its clause [2]
        let body = create(
            4,
            vec![clause(1, exts(3, 3), call(exts(1, 1)))],
            switch(4, vec![clause(1, Vec::new(), call(exts(2, 2)))]),
        );
        let expected = Seen {
            statements: 4,
            bindings: 2 + 2 + 2 + 1,
            largest: 2,
            depth: 3,
            clauses: 1,
        };
        assert_eq!(seen(&one(4, exts(1, 2), body)), expected);
    }

    #[test]
    fn every_statement_is_met() {
        let seen = seen(&every_kind());
        assert_eq!(seen.statements, 10);
    }
}
