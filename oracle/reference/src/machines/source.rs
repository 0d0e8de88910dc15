//! The source machine: "an environment by ID".

use super::state::{Cell, Entries, Given, Start, State, Value};
use super::{Event, Outcome, integers, lookup};
use crate::syntax::{BinOp, Binding, Clause, Id, Identifier, IfSort, Name, Prog, Statement};

#[derive(Debug, Clone)]
pub struct Source<'a> {
    prog: &'a Prog,
    pub state: State<'a>,
}

impl<'a> Source<'a> {
    /// "A start names a definition by its place among the definitions, from 0."
    pub fn start(prog: &'a Prog, place: usize, given: &[Given]) -> Start<Source<'a>> {
        let values: Vec<Value> = given.iter().map(|&value| value.into()).collect();
        let begun = prog.defs.get(place).and_then(|def| {
            let state = State::new(&def.body, lookup::bind(&def.params, &values)?);
            Some(Source { prog, state })
        });
        begun.map_or(Start::NotBegun, Start::Begun)
    }

    /// The next step, if there is one; this machine has no IDs to stop for.
    pub fn step(&mut self) -> Outcome {
        self.next().map_or(Outcome::Halts, Outcome::Shows)
    }

    fn next(&mut self) -> Option<Event> {
        if self.state.ended {
            return None;
        }
        match self.state.at {
            Statement::Substitute { .. } => None,
            Statement::Call { label, args } => self.call(label.name, args),
            Statement::Let {
                var,
                tag,
                args,
                next,
                ..
            } => self.r#let(var.id, tag.name, args, next),
            Statement::Switch { var, clauses, .. } => self.switch(var.id, clauses),
            Statement::Create {
                var, clauses, next, ..
            } => Some(self.create(var.id, clauses, next)),
            Statement::Invoke { var, tag, args, .. } => self.invoke(var.id, tag.name, args),
            Statement::Literal { lit, var, next } => {
                Some(self.go_on(Event::Literal(*lit), var.id, Value::Int(*lit), next))
            }
            Statement::Op {
                fst,
                op,
                snd,
                var,
                next,
            } => self.op(fst.id, *op, snd.id, var.id, next),
            Statement::IfC {
                sort,
                fst,
                snd,
                thenc,
                elsec,
            } => self.ifc(*sort, fst.id, *snd, thenc, elsec),
            Statement::PrintI64 { newline, var, next } => self.print_i64(*newline, var.id, next),
            Statement::Exit { var } => self.exit(var.id),
        }
    }

    /// "Let, Create, Literal and Op add var."
    fn go_on(&mut self, event: Event, var: Id, value: Value, next: &'a Statement) -> Event {
        add(&mut self.state.entries, var, value);
        self.state.at = next;
        event
    }

    /// "Call has the parameters only."
    fn call(&mut self, label: Name, args: &[Binding]) -> Option<Event> {
        let values = self.values(args)?;
        let def = lookup::definition(self.prog, label)?;
        self.state.entries = lookup::bind(&def.params, &values)?;
        self.state.at = &def.body;
        Some(Event::Call { label })
    }

    fn r#let(
        &mut self,
        var: Id,
        tag: Name,
        args: &[Binding],
        next: &'a Statement,
    ) -> Option<Event> {
        let fields = self.values(args)?;
        let cell = self.state.make(Cell::Xtor { tag, fields });
        Some(self.go_on(Event::Let { cell, tag }, var, Value::Cell(cell), next))
    }

    /// "Switch the fields under the clause's names."
    fn switch(&mut self, var: Id, clauses: &'a [Clause]) -> Option<Event> {
        let value = lookup::value(&self.state.entries, var)?;
        let (cell, tag, fields) = lookup::xtor(&self.state.cells, value)?;
        let clause = lookup::clause(clauses, tag)?;
        let new = lookup::bind(&clause.params, fields)?;
        add_all(&mut self.state.entries, new);
        self.state.at = &clause.body;
        Some(Event::Switch { cell, tag })
    }

    /// "Create's cell holds it whole, before var is added."
    fn create(&mut self, var: Id, clauses: &'a [Clause], next: &'a Statement) -> Event {
        let entries = self.state.entries.clone();
        let cell = self.state.make(Cell::Closure { entries, clauses });
        self.go_on(Event::Create { cell }, var, Value::Cell(cell), next)
    }

    /// "Invoke runs the clause in it with the parameters added."
    fn invoke(&mut self, var: Id, tag: Name, args: &[Binding]) -> Option<Event> {
        let value = lookup::value(&self.state.entries, var)?;
        let args = self.values(args)?;
        if let Value::Outside(number) = value {
            self.state.ended = true;
            return Some(Event::InvokeOutside { number, tag, args });
        }
        let (cell, entries, clauses) = lookup::closure(&self.state.cells, value)?;
        let clause = lookup::clause(clauses, tag)?;
        let new = lookup::bind(&clause.params, &args)?;
        let mut entries = entries.clone();
        add_all(&mut entries, new);
        self.state.entries = entries;
        self.state.at = &clause.body;
        Some(Event::Invoke { cell, tag })
    }

    fn op(&mut self, fst: Id, op: BinOp, snd: Id, var: Id, next: &'a Statement) -> Option<Event> {
        let result = integers::evaluate(op, self.int(fst)?, self.int(snd)?)?;
        Some(self.go_on(Event::Op(result), var, Value::Int(result), next))
    }

    /// "IfC without snd compares with 0."
    fn ifc(
        &mut self,
        sort: IfSort,
        fst: Id,
        snd: Option<Identifier>,
        thenc: &'a Statement,
        elsec: &'a Statement,
    ) -> Option<Event> {
        let fst = self.int(fst)?;
        let snd = match snd {
            Some(snd) => self.int(snd.id)?,
            None => 0,
        };
        let then_branch = integers::holds(sort, fst, snd);
        self.state.at = if then_branch { thenc } else { elsec };
        Some(Event::IfC { then_branch })
    }

    /// "PrintI64 needs an integer, reads it and shows it with the newline byte."
    fn print_i64(&mut self, newline: bool, var: Id, next: &'a Statement) -> Option<Event> {
        let value = self.int(var)?;
        self.state.at = next;
        Some(Event::PrintI64 { value, newline })
    }

    /// "Exit shows its value, of whatever sort, and ends the run, whatever else the environment
    /// holds."
    fn exit(&mut self, var: Id) -> Option<Event> {
        let value = lookup::value(&self.state.entries, var)?;
        self.state.ended = true;
        Some(Event::Exit { value })
    }

    fn int(&self, id: Id) -> Option<i64> {
        lookup::int(lookup::value(&self.state.entries, id)?)
    }

    fn values(&self, args: &[Binding]) -> Option<Vec<Value>> {
        args.iter()
            .map(|arg| lookup::value(&self.state.entries, arg.var.id))
            .collect()
    }
}

fn add(entries: &mut Entries, id: Id, value: Value) {
    match entries.iter_mut().find(|(known, _)| *known == id) {
        Some(entry) => entry.1 = value,
        None => entries.push((id, value)),
    }
}

fn add_all(entries: &mut Entries, new: Entries) {
    for (id, value) in new {
        add(entries, id, value);
    }
}
