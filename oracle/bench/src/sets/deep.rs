//! Images whose definitions are 64 statements deep: one way down through statements of all kinds,
//! half of it through clauses, with a Call or an Invoke in every other branch.

use super::Image;
use generators::{Rng, build};
use reference::questions::Limits;
use reference::syntax::{
    BinOp, Binding, Chirality, Clause, Def, Id, Identifier, IfSort, Prog, Statement,
};

const DEFINITIONS: usize = 2;

pub fn image(rng: &mut Rng) -> Image {
    loop {
        let mut last_id = 0;
        let defs = (0..DEFINITIONS)
            .map(|place| definition(rng, &mut last_id, place as u16))
            .collect();
        let max_id = Id(last_id);
        // the output may be too large
        if let Some(image) = Image::accepted(Prog { defs, max_id }) {
            return image;
        }
    }
}

fn definition(rng: &mut Rng, last_id: &mut u32, place: u16) -> Def {
    let mut deep = Deep {
        rng,
        last_id,
        scope: Vec::new(),
    };
    let params: Vec<Binding> = (0..4).map(|_| deep.any_binder()).collect();
    let body = deep.below(&params, |deep| deep.way(1));
    Def {
        name: build::label(place),
        params,
        body,
    }
}

struct Deep<'a> {
    rng: &'a mut Rng,
    last_id: &'a mut u32,
    scope: Vec<Binding>,
}

impl Deep<'_> {
    /// The statement of that depth on the way down.
    fn way(&mut self, depth: usize) -> Statement {
        if depth == Limits::DEPTH {
            return self.leaf();
        }
        // in a scope that is nearly full only the two that need not bind
        let binds = self.scope.len() + 3 < Limits::SCOPE;
        let kind = if binds {
            self.rng.below(16)
        } else {
            self.rng.below(6)
        };
        match kind {
            0 | 1 => self.ifc(depth),
            2..6 => self.switch(depth),
            6..8 => self.literal(depth),
            8..10 => self.op(depth),
            10..12 => self.r#let(depth),
            12..15 => self.create(depth, true),
            _ => self.create(depth, false),
        }
    }

    fn below(
        &mut self,
        binders: &[Binding],
        statement: impl FnOnce(&mut Self) -> Statement,
    ) -> Statement {
        let outside = self.scope.len();
        self.scope.extend(binders);
        let statement = statement(self);
        self.scope.truncate(outside);
        statement
    }

    fn next(&mut self, binder: Binding, depth: usize) -> Box<Statement> {
        Box::new(self.below(&[binder], |deep| deep.way(depth + 1)))
    }

    fn leaf(&mut self) -> Statement {
        let closure = self.find(Chirality::Cns);
        let args = self.args();
        match closure {
            Some(closure) if self.rng.chance(8) => Statement::Invoke {
                var: closure.var,
                tag: self.label(),
                ty: closure.ty,
                args,
            },
            _ => Statement::Call {
                label: self.label(),
                args,
            },
        }
    }

    fn ifc(&mut self, depth: usize) -> Statement {
        let fst = self.integer();
        let snd = self.rng.chance(8).then(|| self.integer());
        let (way, leaf) = (self.way(depth + 1), self.leaf());
        let (thenc, elsec) = if self.rng.chance(8) {
            (way, leaf)
        } else {
            (leaf, way)
        };
        Statement::IfC {
            sort: IfSort::Less,
            fst,
            snd,
            thenc: Box::new(thenc),
            elsec: Box::new(elsec),
        }
    }

    fn switch(&mut self, depth: usize) -> Statement {
        let found = self.find(Chirality::Prd);
        let matched = found.unwrap_or_else(|| self.recent());
        Statement::Switch {
            var: matched.var,
            ty: matched.ty,
            clauses: self.clauses(depth, true),
        }
    }

    fn literal(&mut self, depth: usize) -> Statement {
        let binder = self.binder(Chirality::Ext);
        Statement::Literal {
            lit: self.rng.number() as i64 >> self.rng.below(64),
            var: binder.var,
            next: self.next(binder, depth),
        }
    }

    fn op(&mut self, depth: usize) -> Statement {
        let binder = self.binder(Chirality::Ext);
        Statement::Op {
            fst: self.integer(),
            op: BinOp::Sum,
            snd: self.integer(),
            var: binder.var,
            next: self.next(binder, depth),
        }
    }

    fn r#let(&mut self, depth: usize) -> Statement {
        let binder = self.binder(Chirality::Prd);
        Statement::Let {
            var: binder.var,
            ty: binder.ty,
            tag: self.label(),
            args: self.args(),
            next: self.next(binder, depth),
        }
    }

    /// The way goes on through a clause, or in the next.
    fn create(&mut self, depth: usize, through_clause: bool) -> Statement {
        let binder = self.binder(Chirality::Cns);
        let clauses = self.clauses(depth, through_clause);
        let next = if through_clause {
            Box::new(self.below(&[binder], Self::leaf))
        } else {
            self.next(binder, depth)
        };
        Statement::Create {
            var: binder.var,
            ty: binder.ty,
            environment: None,
            clauses,
            next,
        }
    }

    /// One to three clauses. The way goes on through one of them, or none.
    fn clauses(&mut self, depth: usize, way: bool) -> Vec<Clause> {
        let count = self.rng.within(1, 3);
        let way = if way { self.rng.below(count) } else { count };
        (0..count)
            .map(|place| {
                let params = self.binders(2);
                let body = self.below(&params, |deep| {
                    if place == way {
                        deep.way(depth + 1)
                    } else {
                        deep.leaf()
                    }
                });
                Clause {
                    xtor: build::label(100 + place as u16),
                    params,
                    body,
                }
            })
            .collect()
    }

    fn binders(&mut self, most: usize) -> Vec<Binding> {
        let room = Limits::SCOPE - 1 - self.scope.len();
        let count = self.rng.within(0, most.min(room));
        (0..count).map(|_| self.any_binder()).collect()
    }

    fn any_binder(&mut self) -> Binding {
        let chirality = [Chirality::Prd, Chirality::Cns, Chirality::Ext];
        let chirality = *self.rng.pick(&chirality);
        self.binder(chirality)
    }

    fn binder(&mut self, chi: Chirality) -> Binding {
        *self.last_id += 1;
        match chi {
            Chirality::Prd => build::prd(*self.last_id),
            Chirality::Cns => build::cns(*self.last_id),
            Chirality::Ext => build::ext(*self.last_id),
        }
    }

    fn label(&mut self) -> Identifier {
        build::label(self.rng.below(20) as u16)
    }

    fn integer(&mut self) -> Identifier {
        let found = self.find(Chirality::Ext);
        found.unwrap_or_else(|| self.recent()).var
    }

    fn args(&mut self) -> Vec<Binding> {
        (0..self.rng.within(0, 4)).map(|_| self.recent()).collect()
    }

    /// A variable in scope, mostly one of the last eight.
    fn recent(&mut self) -> Binding {
        let count = self.scope.len();
        let among = if self.rng.chance(12) { 8 } else { count };
        self.scope[count - 1 - self.rng.below(among.min(count))]
    }

    /// One of the last variables of that chirality.
    fn find(&mut self, chi: Chirality) -> Option<Binding> {
        let found: Vec<Binding> = self
            .scope
            .iter()
            .rev()
            .filter(|binding| binding.chi == chi)
            .take(4)
            .copied()
            .collect();
        (!found.is_empty()).then(|| *self.rng.pick(&found))
    }
}
