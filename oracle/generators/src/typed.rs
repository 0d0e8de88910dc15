//! Accepted programs whose runs get far: variables have sorts, a Switch knows the tags of its cells,
//! an Invoke the methods of its closure, and a Call has what its definition takes. Now and then a
//! statement takes a variable of another sort, or leaves a clause out, so that runs also get stuck.

mod output;
mod signature;

use crate::build;
use crate::rng::Rng;
use crate::statements::Statements;
use reference::syntax::{
    BinOp, Binding, Clause, Def, Id, Identifier, IfSort, Name, Prog, Statement,
};
use signature::{Signature, Sort, TYPES, type_of, xtor_name};

/// A program with a yes to questions 1 to 10.
pub fn program(rng: &mut Rng) -> Prog {
    program_of(rng, Statements::All)
}

/// Such a program with these statements.
pub fn program_of(rng: &mut Rng, statements: Statements) -> Prog {
    let signature = Signature::any(rng);
    let mut typed = Typed {
        slips: *rng.pick(&[0, 0, 0, 1]),
        reuses: rng.chance(8),
        prints: statements.output(|| *rng.pick(&[0, 1, 2, 4])),
        exits: statements.output(|| *rng.pick(&[0, 1, 3, 6])),
        budget: 0,
        last_id: 0,
        scope: Vec::new(),
        signature: &signature,
        rng,
    };
    let defs = (0..signature.definitions.len())
        .map(|place| typed.definition(place))
        .collect();
    Prog {
        max_id: Id(typed.last_id),
        defs,
    }
}

struct Typed<'a> {
    rng: &'a mut Rng,
    signature: &'a Signature,
    scope: Vec<(Binding, Sort)>,
    last_id: u32,
    /// The statements that a body may still have.
    budget: usize,
    /// How often of 64 a statement does not keep to the sorts.
    slips: usize,
    /// Whether binders take the least ID that is not in scope, instead of a new one.
    reuses: bool,
    /// How often of 16 a PrintI64 comes before another statement, and an Exit ends a branch.
    prints: usize,
    exits: usize,
}

const DEEPEST: usize = 20;

impl Typed<'_> {
    fn definition(&mut self, place: usize) -> Def {
        self.scope.clear();
        self.budget = self.rng.within(3, 40);
        let params = self.binders(&self.signature.definitions[place]);
        Def {
            name: build::label(place as u16),
            body: self.below(&params, 1),
            params: bindings(&params),
        }
    }

    fn below(&mut self, binders: &[(Binding, Sort)], depth: usize) -> Statement {
        let outside = self.scope.len();
        self.scope.extend(binders);
        let statement = self.statement(depth);
        self.scope.truncate(outside);
        statement
    }

    fn next(&mut self, binder: (Binding, Sort), depth: usize) -> Box<Statement> {
        Box::new(self.below(&[binder], depth + 1))
    }

    fn statement(&mut self, depth: usize) -> Statement {
        self.budget = self.budget.saturating_sub(1);
        if self.budget == 0 || depth >= DEEPEST || self.scope.len() > 40 {
            return self.leaf();
        }
        if self.prints() {
            return self.print_i64(depth);
        }
        let int = self.find(Sort::Int);
        match self.rng.below(16) {
            0 | 1 => self.literal(depth),
            2..5 if int.is_some() => self.op(depth),
            5 | 6 if int.is_some() => self.ifc(depth),
            7..10 => self.r#let(depth),
            10 | 11 => self.switch(depth),
            12 | 13 => self.create(depth),
            14 => self.leaf(),
            _ => self.literal(depth),
        }
    }

    fn leaf(&mut self) -> Statement {
        if self.exits() {
            return self.exit();
        }
        let codata = self.rng.below(TYPES);
        if self.rng.chance(7)
            && let Some(var) = self.find(Sort::Codata(codata))
        {
            let methods = &self.signature.codata[codata];
            let xtor = self.rng.below(methods.len());
            return Statement::Invoke {
                var: var.var,
                tag: build::label(xtor_name(false, codata, xtor)),
                ty: var.ty,
                args: self.args(&methods[xtor]),
            };
        }
        let place = self.rng.below(self.signature.definitions.len());
        Statement::Call {
            label: build::label(place as u16),
            args: self.args(&self.signature.definitions[place]),
        }
    }

    fn literal(&mut self, depth: usize) -> Statement {
        let binder = self.binder(Sort::Int, &[]);
        Statement::Literal {
            lit: integer(self.rng),
            var: binder.0.var,
            next: self.next(binder, depth),
        }
    }

    fn op(&mut self, depth: usize) -> Statement {
        let args = self.args(&[Sort::Int, Sort::Int]);
        let binder = self.binder(Sort::Int, &[]);
        // a division now and then has no result
        let op = match self.rng.below(16) {
            0 => BinOp::Div,
            1 => BinOp::Rem,
            2..6 => BinOp::Prod,
            6..11 => BinOp::Sum,
            _ => BinOp::Sub,
        };
        Statement::Op {
            fst: args[0].var,
            op,
            snd: args[1].var,
            var: binder.0.var,
            next: self.next(binder, depth),
        }
    }

    fn ifc(&mut self, depth: usize) -> Statement {
        let args = self.args(&[Sort::Int, Sort::Int]);
        Statement::IfC {
            sort: *self.rng.pick(&[
                IfSort::Equal,
                IfSort::NotEqual,
                IfSort::Less,
                IfSort::LessOrEqual,
                IfSort::Greater,
                IfSort::GreaterOrEqual,
            ]),
            fst: args[0].var,
            snd: self.rng.chance(8).then_some(args[1].var),
            thenc: Box::new(self.below(&[], depth + 1)),
            elsec: Box::new(self.below(&[], depth + 1)),
        }
    }

    fn r#let(&mut self, depth: usize) -> Statement {
        let ty = self.rng.below(TYPES);
        let xtors = &self.signature.data[ty];
        let xtor = self.rng.below(xtors.len());
        let args = self.args(&xtors[xtor]);
        let binder = self.binder(Sort::Data(ty), &[]);
        Statement::Let {
            var: binder.0.var,
            ty: binder.0.ty,
            tag: build::label(xtor_name(true, ty, xtor)),
            args,
            next: self.next(binder, depth),
        }
    }

    fn switch(&mut self, depth: usize) -> Statement {
        let ty = self.rng.below(TYPES);
        let Some(var) = self.find(Sort::Data(ty)) else {
            return self.r#let(depth);
        };
        let clauses = self.clauses(true, ty, &self.signature.data[ty], depth);
        Statement::Switch {
            var: var.var,
            ty: var.ty,
            clauses,
        }
    }

    fn create(&mut self, depth: usize) -> Statement {
        let ty = self.rng.below(TYPES);
        let clauses = self.clauses(false, ty, &self.signature.codata[ty], depth);
        let binder = self.binder(Sort::Codata(ty), &[]);
        Statement::Create {
            var: binder.0.var,
            ty: binder.0.ty,
            environment: None,
            clauses,
            next: self.next(binder, depth),
        }
    }

    fn clauses(&mut self, data: bool, ty: usize, xtors: &[Vec<Sort>], depth: usize) -> Vec<Clause> {
        let mut clauses: Vec<Clause> = Vec::new();
        for (xtor, sorts) in xtors.iter().enumerate() {
            if self.slips() {
                continue;
            }
            let params = self.binders(sorts);
            clauses.push(Clause {
                xtor: build::label(xtor_name(data, ty, xtor)),
                body: self.below(&params, depth + 1),
                params: bindings(&params),
            });
        }
        self.rng.shuffle(&mut clauses);
        clauses
    }

    fn slips(&mut self) -> bool {
        self.rng.below(64) < self.slips
    }

    /// A variable of the sort, where there is one; the newer ones more often.
    fn find(&mut self, sort: Sort) -> Option<Binding> {
        let found: Vec<Binding> = self
            .scope
            .iter()
            .filter(|(_, its_sort)| *its_sort == sort)
            .map(|(binding, _)| *binding)
            .collect();
        let newest = found.len().checked_sub(1)?;
        let back = self.rng.below(found.len()).min(self.rng.below(found.len()));
        Some(found[newest - back])
    }

    /// A variable of each sort, or of another where there is none.
    fn args(&mut self, sorts: &[Sort]) -> Vec<Binding> {
        let mut args = Vec::new();
        for &sort in sorts {
            let found = if self.slips() { None } else { self.find(sort) };
            match found {
                Some(binding) => args.push(self.respelled(binding)),
                None if self.scope.is_empty() => {}
                None => args.push(self.rng.pick(&self.scope).0),
            }
        }
        args
    }

    /// A use that may be spelled in another way, which no run can show.
    fn respelled(&mut self, mut binding: Binding) -> Binding {
        if self.rng.chance(1) {
            binding.var.name = self.name();
        }
        binding
    }

    fn name(&mut self) -> Name {
        Name(self.rng.below(3) as u16)
    }

    fn binders(&mut self, sorts: &[Sort]) -> Vec<(Binding, Sort)> {
        let mut list = Vec::new();
        for &sort in sorts {
            list.push(self.binder(sort, &list));
        }
        list
    }

    fn binder(&mut self, sort: Sort, list: &[(Binding, Sort)]) -> (Binding, Sort) {
        let (chi, ty) = type_of(sort);
        let var = Identifier {
            name: self.name(),
            id: self.new_id(list),
        };
        (Binding { var, chi, ty }, sort)
    }

    fn new_id(&mut self, list: &[(Binding, Sort)]) -> Id {
        let first = if self.reuses { 0 } else { self.last_id + 1 };
        let taken = |id: Id| {
            let is = |binder: &(Binding, Sort)| binder.0.var.id == id;
            self.scope.iter().any(is) || list.iter().any(is)
        };
        let id = (first..)
            .map(Id)
            .find(|&id| !taken(id))
            .expect("there are more IDs than places in scope");
        self.last_id = self.last_id.max(id.0);
        id
    }
}

fn bindings(binders: &[(Binding, Sort)]) -> Vec<Binding> {
    binders.iter().map(|(binding, _)| *binding).collect()
}

/// An integer, often a small one or one at an end.
pub fn integer(rng: &mut Rng) -> i64 {
    match rng.below(8) {
        0 => 0,
        1 => i64::MIN,
        2 => i64::MAX,
        3 => -1,
        4 => rng.number() as i64,
        _ => rng.within(0, 20) as i64 - 10,
    }
}
