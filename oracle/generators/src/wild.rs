//! Programs that have a yes to questions 1 to 10, of all kinds and shapes. Whether their runs get far
//! does not matter here.
//!
//! Beside the scope a list of live bindings is kept, as if the program were linear already: where
//! every statement takes what it needs from the end of it, the pass inserts no Substitute. How often
//! a statement strays from that is one of the knobs.

mod output;
mod shape;
mod variables;

use crate::rng::Rng;
use crate::statements::Statements;
use reference::image::{LARGEST, LARGEST_ID, frame, order};
use reference::syntax::{BinOp, Binding, Chirality, Clause, Def, Id, IfSort, Prog, Statement};
use shape::Shape;

/// A program of any shape that has a yes to questions 1 to 10.
pub fn program(rng: &mut Rng) -> Prog {
    program_of(rng, Statements::All)
}

/// Such a program with these statements.
pub fn program_of(rng: &mut Rng, statements: Statements) -> Prog {
    let mut shape = Shape::any(rng, statements);
    loop {
        let prog = of_shape(rng, &shape);
        if frame::image_length(&order::records(&prog)) <= LARGEST {
            return prog;
        }
        shape.count = 1 + shape.count / 2;
        shape.records = 1 + shape.records / 2;
    }
}

/// A program of that shape; its image may be too large.
fn of_shape(rng: &mut Rng, shape: &Shape) -> Prog {
    let mut wild = Wild {
        rng,
        shape,
        scope: Vec::new(),
        live: Vec::new(),
        largest: 0,
    };
    let defs = wild.definitions();
    let largest = wild.largest;
    Prog {
        defs,
        max_id: Id(max_id(rng, largest)),
    }
}

/// Some max_id that is not below the largest binder.
fn max_id(rng: &mut Rng, largest: u32) -> u32 {
    let above = LARGEST_ID - largest;
    let more = match rng.below(8) {
        0..4 => 0,
        4 => above,
        5 => above - above.min(rng.below(80) as u32),
        _ => rng.below(40) as u32,
    };
    largest + more.min(above)
}

struct Wild<'a> {
    rng: &'a mut Rng,
    shape: &'a Shape,
    scope: Vec<Binding>,
    live: Vec<Binding>,
    largest: u32,
}

impl Wild<'_> {
    fn definitions(&mut self) -> Vec<Def> {
        let mut left = self.shape.records;
        let mut defs = Vec::new();
        let most = self.shape.definitions.max(1);
        while left >= 2 && defs.len() < most {
            let share = if defs.len() + 1 == most {
                left
            } else {
                self.rng.within(2, left.min(2 + 2 * left / most))
            };
            left -= share;
            defs.push(self.definition(share - 1));
        }
        defs
    }

    fn definition(&mut self, budget: usize) -> Def {
        self.scope.clear();
        let params = self.params();
        let body = self.below(&params, params.clone(), budget, 1);
        Def {
            name: self.identifier(),
            params,
            body,
        }
    }

    /// A statement with the binders added to the scope, and these bindings live.
    fn below(
        &mut self,
        binders: &[Binding],
        live: Vec<Binding>,
        budget: usize,
        depth: usize,
    ) -> Statement {
        let outside = self.scope.len();
        let live_outside = std::mem::replace(&mut self.live, live);
        self.scope.extend(binders);
        let statement = self.statement(budget, depth);
        self.scope.truncate(outside);
        self.live = live_outside;
        statement
    }

    fn next(
        &mut self,
        binder: Binding,
        live: Vec<Binding>,
        budget: usize,
        depth: usize,
    ) -> Box<Statement> {
        let mut live = live;
        live.push(binder);
        Box::new(self.below(&[binder], live, budget - 1, depth + 1))
    }

    /// A statement of at most so many records.
    fn statement(&mut self, budget: usize, depth: usize) -> Statement {
        if budget >= 2 && depth < self.shape.depth && self.prints() {
            return self.print_i64(budget, depth);
        }
        let weights = self.shape.kinds;
        let total: usize = weights.iter().sum();
        let room = budget >= 3 && depth < self.shape.depth && total > 0;
        if !room || self.rng.chance(self.shape.leaf) {
            return self.leaf();
        }
        let mut at = self.rng.below(total);
        let kind = weights.iter().position(|&weight| {
            let found = at < weight;
            at = at.saturating_sub(weight);
            found
        });
        let binds = self.scope.len() < self.shape.scope;
        let uses = !self.scope.is_empty();
        match kind {
            Some(0) if binds => self.r#let(budget, depth),
            Some(1) if uses && self.switches() => self.switch(budget, depth),
            Some(2) if binds => self.create(budget, depth),
            Some(3) if binds => self.literal(budget, depth),
            Some(4) if binds && uses => self.op(budget, depth),
            Some(5) if uses => self.ifc(budget, depth),
            _ if binds && !uses => self.literal(budget, depth),
            _ if uses && self.rng.chance(10) => self.ifc(budget, depth),
            _ => self.leaf(),
        }
    }

    /// Whether the last live binding is one that a Switch takes as it is, or it does not matter.
    fn switches(&mut self) -> bool {
        let fits = self
            .live
            .last()
            .is_some_and(|last| last.chi == Chirality::Prd);
        fits || self.rng.chance(4)
    }

    fn leaf(&mut self) -> Statement {
        if self.exits() {
            return self.exit();
        }
        let strays = self.strays();
        let uses = !self.scope.is_empty();
        let invokes = match self.live.last() {
            Some(last) if !strays => last.chi == Chirality::Cns,
            _ => uses && self.rng.chance(8),
        };
        if invokes {
            self.invoke(strays)
        } else if uses && self.rng.chance(1) {
            Statement::Switch {
                var: self.use_of().var,
                ty: self.ty(),
                clauses: Vec::new(),
            }
        } else {
            self.call(strays)
        }
    }

    fn call(&mut self, strays: bool) -> Statement {
        let args = if strays {
            self.args()
        } else {
            self.exactly(self.live.clone())
        };
        Statement::Call {
            label: self.identifier(),
            args,
        }
    }

    fn invoke(&mut self, strays: bool) -> Statement {
        let (closure, args) = match self.live.split_last() {
            Some((&closure, rest)) if !strays => {
                let rest = rest.to_vec();
                (self.respelled(closure), self.exactly(rest))
            }
            _ => (self.use_of(), self.args()),
        };
        Statement::Invoke {
            var: closure.var,
            tag: self.identifier(),
            ty: closure.ty,
            args,
        }
    }

    fn r#let(&mut self, budget: usize, depth: usize) -> Statement {
        let (args, live) = self.last_live();
        let args = self.respelled_all(args);
        let binder = self.binder(Chirality::Prd);
        Statement::Let {
            var: binder.var,
            ty: binder.ty,
            tag: self.identifier(),
            args,
            next: self.next(binder, live, budget, depth),
        }
    }

    fn switch(&mut self, budget: usize, depth: usize) -> Statement {
        let mut live = self.live.clone();
        let (var, ty) = match live.pop() {
            Some(last) if !self.strays() => (self.respelled(last).var, last.ty),
            _ => (self.use_of().var, self.ty()),
        };
        let clauses = self.clauses(budget - 1, depth, &live, false);
        Statement::Switch { var, ty, clauses }
    }

    fn create(&mut self, budget: usize, depth: usize) -> Statement {
        let (environment, live) = self.last_live();
        let binder = self.binder(Chirality::Cns);
        let for_clauses = match self.rng.below(4) {
            0 => budget - 2,
            1 => budget.min(8) - 2,
            _ => self.rng.below(budget - 1),
        };
        let clauses = self.clauses(for_clauses, depth, &environment, true);
        let used: usize = clauses.iter().map(|clause| 1 + size(&clause.body)).sum();
        Statement::Create {
            var: binder.var,
            ty: binder.ty,
            environment: None,
            clauses,
            next: self.next(binder, live, budget - used, depth),
        }
    }

    /// Clauses whose bodies have the environment live, behind the parameters or before them.
    fn clauses(
        &mut self,
        budget: usize,
        depth: usize,
        environment: &[Binding],
        behind: bool,
    ) -> Vec<Clause> {
        let most = (budget / 2).min(self.shape.count);
        let few = if self.rng.chance(12) {
            most.min(3)
        } else {
            most
        };
        let count = self.rng.within(few.min(1), few);
        let mut left = budget;
        (0..count)
            .map(|place| {
                let later = 2 * (count - place - 1);
                let share = self
                    .rng
                    .within(2, (left - later).min(2 + 2 * budget / count));
                left -= share;
                let params = self.params();
                let live = if behind {
                    [&params, environment].concat()
                } else {
                    [environment, &params].concat()
                };
                Clause {
                    xtor: self.identifier(),
                    body: self.below(&params, live, share - 1, depth + 1),
                    params,
                }
            })
            .collect()
    }

    fn literal(&mut self, budget: usize, depth: usize) -> Statement {
        let binder = self.integer();
        Statement::Literal {
            lit: self.rng.number() as i64 >> self.rng.below(64),
            var: binder.var,
            next: self.next(binder, self.live.clone(), budget, depth),
        }
    }

    fn op(&mut self, budget: usize, depth: usize) -> Statement {
        let binder = self.integer();
        Statement::Op {
            fst: self.live_use().var,
            op: *self
                .rng
                .pick(&[BinOp::Div, BinOp::Prod, BinOp::Rem, BinOp::Sum, BinOp::Sub]),
            snd: self.live_use().var,
            var: binder.var,
            next: self.next(binder, self.live.clone(), budget, depth),
        }
    }

    fn ifc(&mut self, budget: usize, depth: usize) -> Statement {
        // now and then nearly all of it goes one way, else no branch gets deep
        let for_then = match self.rng.below(4) {
            0 => 1,
            1 => budget - 2,
            _ => self.rng.within(1, budget - 2),
        };
        let thenc = self.statement(for_then, depth + 1);
        let elsec = self.statement(budget - 1 - for_then, depth + 1);
        Statement::IfC {
            sort: *self.rng.pick(&[
                IfSort::Equal,
                IfSort::NotEqual,
                IfSort::Less,
                IfSort::LessOrEqual,
                IfSort::Greater,
                IfSort::GreaterOrEqual,
            ]),
            fst: self.live_use().var,
            snd: self.rng.chance(10).then(|| self.live_use().var),
            thenc: Box::new(thenc),
            elsec: Box::new(elsec),
        }
    }
}

/// The records of a statement.
fn size(statement: &Statement) -> usize {
    let of_clauses =
        |clauses: &[Clause]| -> usize { clauses.iter().map(|clause| 1 + size(&clause.body)).sum() };
    1 + match statement {
        Statement::Call { .. } | Statement::Invoke { .. } | Statement::Exit { .. } => 0,
        Statement::Substitute { next, .. }
        | Statement::Let { next, .. }
        | Statement::Literal { next, .. }
        | Statement::Op { next, .. }
        | Statement::PrintI64 { next, .. } => size(next),
        Statement::Switch { clauses, .. } => of_clauses(clauses),
        Statement::Create { clauses, next, .. } => of_clauses(clauses) + size(next),
        Statement::IfC { thenc, elsec, .. } => size(thenc) + size(elsec),
    }
}
