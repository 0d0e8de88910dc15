//! The linear machine: "an ordered list of ID and value".

use super::state::{Cell, Entries, Given, Start, State, Value};
use super::{Event, Outcome, integers, lookup};
use crate::syntax::{BinOp, Binding, Clause, Id, Identifier, IfSort, Name, Pair, Prog, Statement};

#[derive(Debug, Clone)]
pub struct Linear<'a> {
    prog: &'a Prog,
    pub state: State<'a>,
}

/// Why there is no next step. "To stop is to have no next step because of an ID; this goes before a
/// wrong sort of value, but IDs that a clause or definition brings count only once it is found and
/// the counts agree."
enum NoStep {
    Halts,
    Stops,
}

type Next<T> = Result<T, NoStep>;

fn or_halt<T>(there: Option<T>) -> Next<T> {
    there.ok_or(NoStep::Halts)
}

fn or_stop<T>(there: Option<T>) -> Next<T> {
    there.ok_or(NoStep::Stops)
}

fn stop_unless(right: bool) -> Next<()> {
    if right { Ok(()) } else { Err(NoStep::Stops) }
}

impl<'a> Linear<'a> {
    pub fn start(prog: &'a Prog, place: usize, given: &[Given]) -> Start<Linear<'a>> {
        let values: Vec<Value> = given.iter().map(|&value| value.into()).collect();
        let begun = prog
            .defs
            .get(place)
            .and_then(|def| Some((def, lookup::bind(&def.params, &values)?)));
        match begun {
            None => Start::NotBegun,
            Some((_, entries)) if !distinct(&entries) => Start::Stopped,
            Some((def, entries)) => Start::Begun(Linear {
                prog,
                state: State::new(&def.body, entries),
            }),
        }
    }

    pub fn step(&mut self) -> Outcome {
        match self.next() {
            Ok(Some(event)) => Outcome::Shows(event),
            Ok(None) => Outcome::Silent,
            Err(NoStep::Halts) => Outcome::Halts,
            Err(NoStep::Stops) => Outcome::Stops,
        }
    }

    fn next(&mut self) -> Next<Option<Event>> {
        if self.state.ended {
            return Err(NoStep::Halts);
        }
        match self.state.at {
            Statement::Substitute { rearrange, next } => {
                self.substitute(rearrange, next)?;
                return Ok(None);
            }
            Statement::Call { label, .. } => self.call(label.name),
            Statement::Let {
                var,
                tag,
                args,
                next,
                ..
            } => self.r#let(var.id, tag.name, args, next),
            Statement::Switch { var, clauses, .. } => self.switch(var.id, clauses),
            Statement::Create {
                var,
                environment,
                clauses,
                next,
                ..
            } => self.create(var.id, environment.as_deref(), clauses, next),
            Statement::Invoke { var, tag, .. } => self.invoke(var.id, tag.name),
            Statement::Literal { lit, var, next } => {
                self.go_on(Event::Literal(*lit), var.id, Value::Int(*lit), next)
            }
            Statement::Op {
                fst,
                op,
                snd,
                var,
                next,
            } => self.op(fst.id, *op, snd.id, var.id, next),
            Statement::IfC {
                sort,
                fst,
                snd,
                thenc,
                elsec,
            } => self.ifc(*sort, fst.id, *snd, thenc, elsec),
            Statement::PrintI64 { newline, var, next } => self.print_i64(*newline, var.id, next),
            Statement::Exit { var } => self.exit(var.id),
        }
        .map(Some)
    }

    /// "Literal and Op append." A step that would leave an ID twice stops.
    fn go_on(&mut self, event: Event, var: Id, value: Value, next: &'a Statement) -> Next<Event> {
        stop_unless(!has(&self.state.entries, var))?;
        self.state.entries.push((var, value));
        self.state.at = next;
        Ok(event)
    }

    /// "Substitute rebuilds it from its pairs; repeated targets or an absent source stop."
    fn substitute(&mut self, rearrange: &[Pair], next: &'a Statement) -> Next<()> {
        let rebuilt: Option<Entries> = rearrange
            .iter()
            .map(|pair| {
                let value = lookup::value(&self.state.entries, pair.source.id)?;
                Some((pair.target.var.id, value))
            })
            .collect();
        let rebuilt = or_stop(rebuilt)?;
        stop_unless(distinct(&rebuilt))?;
        self.state.entries = rebuilt;
        self.state.at = next;
        Ok(())
    }

    /// "Call renames all."
    fn call(&mut self, label: Name) -> Next<Event> {
        let def = or_halt(lookup::definition(self.prog, label))?;
        let renamed = or_halt(lookup::bind(&def.params, &values(&self.state.entries)))?;
        stop_unless(distinct(&renamed))?;
        self.state.entries = renamed;
        self.state.at = &def.body;
        Ok(Event::Call { label })
    }

    /// "Let consumes the last entries, whose IDs must be its args, and appends var."
    fn r#let(&mut self, var: Id, tag: Name, args: &[Binding], next: &'a Statement) -> Next<Event> {
        let kept = self.before(args)?;
        stop_unless(!has(&self.state.entries[..kept], var))?;
        let fields = values(&self.state.entries.split_off(kept));
        let cell = self.state.make(Cell::Xtor { tag, fields });
        self.go_on(Event::Let { cell, tag }, var, Value::Cell(cell), next)
    }

    /// "Switch consumes the last, which must be var, and appends the fields under the clause's
    /// names."
    fn switch(&mut self, var: Id, clauses: &'a [Clause]) -> Next<Event> {
        let (value, kept) = self.last(var)?;
        let (cell, tag, fields) = or_halt(lookup::xtor(&self.state.cells, value))?;
        let clause = or_halt(lookup::clause(clauses, tag))?;
        let new = or_halt(lookup::bind(&clause.params, fields))?;
        let entries = [kept, &new].concat();
        stop_unless(distinct(&entries))?;
        self.state.entries = entries;
        self.state.at = &clause.body;
        Ok(Event::Switch { cell, tag })
    }

    /// "Create consumes the last, which must be its environment (without one it stops), and appends
    /// var."
    fn create(
        &mut self,
        var: Id,
        environment: Option<&[Binding]>,
        clauses: &'a [Clause],
        next: &'a Statement,
    ) -> Next<Event> {
        let kept = self.before(or_stop(environment)?)?;
        stop_unless(!has(&self.state.entries[..kept], var))?;
        let entries = self.state.entries.split_off(kept);
        let cell = self.state.make(Cell::Closure { entries, clauses });
        self.go_on(Event::Create { cell }, var, Value::Cell(cell), next)
    }

    /// "Invoke's last must be var; the rest become the clause's parameters, followed by the
    /// closure's entries."
    fn invoke(&mut self, var: Id, tag: Name) -> Next<Event> {
        let (value, rest) = self.last(var)?;
        let args = values(rest);
        if let Value::Outside(number) = value {
            self.state.ended = true;
            return Ok(Event::InvokeOutside { number, tag, args });
        }
        let (cell, closed, clauses) = or_halt(lookup::closure(&self.state.cells, value))?;
        let clause = or_halt(lookup::clause(clauses, tag))?;
        let new = or_halt(lookup::bind(&clause.params, &args))?;
        let entries = [new.as_slice(), closed].concat();
        stop_unless(distinct(&entries))?;
        self.state.entries = entries;
        self.state.at = &clause.body;
        Ok(Event::Invoke { cell, tag })
    }

    /// "Op and IfC only read." That var is there already goes before a wrong sort of value and
    /// before a division without a result.
    fn op(&mut self, fst: Id, op: BinOp, snd: Id, var: Id, next: &'a Statement) -> Next<Event> {
        let fst = or_stop(lookup::value(&self.state.entries, fst))?;
        let snd = or_stop(lookup::value(&self.state.entries, snd))?;
        stop_unless(!has(&self.state.entries, var))?;
        let fst = or_halt(lookup::int(fst))?;
        let snd = or_halt(lookup::int(snd))?;
        let result = or_halt(integers::evaluate(op, fst, snd))?;
        self.go_on(Event::Op(result), var, Value::Int(result), next)
    }

    fn ifc(
        &mut self,
        sort: IfSort,
        fst: Id,
        snd: Option<Identifier>,
        thenc: &'a Statement,
        elsec: &'a Statement,
    ) -> Next<Event> {
        let fst = or_stop(lookup::value(&self.state.entries, fst))?;
        let snd = match snd {
            Some(snd) => or_stop(lookup::value(&self.state.entries, snd.id))?,
            None => Value::Int(0),
        };
        let fst = or_halt(lookup::int(fst))?;
        let snd = or_halt(lookup::int(snd))?;
        let then_branch = integers::holds(sort, fst, snd);
        self.state.at = if then_branch { thenc } else { elsec };
        Ok(Event::IfC { then_branch })
    }

    /// It reads only, wherever its var stands: an absent var stops, before a wrong sort of value has
    /// no next step.
    fn print_i64(&mut self, newline: bool, var: Id, next: &'a Statement) -> Next<Event> {
        let value = or_stop(lookup::value(&self.state.entries, var))?;
        let value = or_halt(lookup::int(value))?;
        self.state.at = next;
        Ok(Event::PrintI64 { value, newline })
    }

    /// Every sort of value will do, and every list that holds var.
    fn exit(&mut self, var: Id) -> Next<Event> {
        let value = or_stop(lookup::value(&self.state.entries, var))?;
        self.state.ended = true;
        Ok(Event::Exit { value })
    }

    /// How many entries stand before the last ones, whose IDs must be these.
    fn before(&self, wanted: &[Binding]) -> Next<usize> {
        let entries = &self.state.entries;
        let kept = or_stop(entries.len().checked_sub(wanted.len()))?;
        let last = entries[kept..].iter().map(|(id, _)| *id);
        stop_unless(last.eq(wanted.iter().map(|binding| binding.var.id)))?;
        Ok(kept)
    }

    /// The value of the last entry, which must be var, and the entries before it.
    fn last(&self, var: Id) -> Next<(Value, &[(Id, Value)])> {
        match self.state.entries.split_last() {
            Some(((id, value), rest)) if *id == var => Ok((*value, rest)),
            _ => Err(NoStep::Stops),
        }
    }
}

fn values(entries: &[(Id, Value)]) -> Vec<Value> {
    entries.iter().map(|(_, value)| *value).collect()
}

fn has(entries: &[(Id, Value)], id: Id) -> bool {
    entries.iter().any(|(known, _)| *known == id)
}

fn distinct(entries: &[(Id, Value)]) -> bool {
    entries
        .iter()
        .enumerate()
        .all(|(place, (id, _))| !has(&entries[..place], *id))
}
