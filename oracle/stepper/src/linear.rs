//! The linear machine's next step. "An ordered list of ID and value."
//!
//! "To stop is to have no next step because of an ID; this goes before a wrong sort of value, but IDs
//! that a clause or definition brings count only once it is found and the counts agree." So each rule
//! asks what the statement's own IDs must be, then what else is needed, and last whether the new list
//! has an ID twice where a clause or definition brought IDs.
//!
//! "Any step that would leave an ID twice" stops: that is asked of every list that a step makes. IfC,
//! PrintI64 and Exit only read, and an Invoke of an outside number ends the run: they make no list.

use crate::arithmetic::{compares, result};
use crate::event::Event;
use crate::program::Program;
use crate::state::{Cell, Entry, State, Value};
use crate::step::{Change, No, Step, bound, closure, find, integer, matched};
use reference::image::Record;
use reference::syntax::{BinOp, Binding, Id, Identifier, IfSort, Name, Pair};

/// The next step of a run that has not ended.
pub fn next(program: &Program, state: &State) -> Result<Step, No> {
    let at = At {
        program,
        state,
        list: &state.entries,
    };
    match program.record(state.position) {
        Record::Substitute { rearrange } => at.substitute(rearrange),
        Record::Call { label, .. } => at.call(label.name),
        Record::Let { var, tag, args, .. } => at.r#let(var.id, tag.name, args),
        Record::Switch { var, .. } => at.switch(var.id),
        Record::Create {
            var, environment, ..
        } => at.create(var.id, environment.as_deref()),
        Record::Invoke { var, tag, .. } => at.invoke(var.id, tag.name),
        Record::Literal { lit, var } => at.literal(*lit, var.id),
        Record::Op { fst, op, snd, var } => at.op(fst.id, *op, snd.id, var.id),
        Record::IfC { sort, fst, snd } => at.ifc(*sort, fst.id, snd.as_ref()),
        Record::PrintI64 { newline, var } => at.print_i64(*newline, var.id),
        Record::Exit { var } => at.exit(var.id),
        Record::Definition { .. } | Record::Clause { .. } => Err(No::Next),
    }
}

/// A state and what it stands in.
struct At<'a> {
    program: &'a Program,
    state: &'a State,
    list: &'a [Entry],
}

impl<'a> At<'a> {
    fn after(&self) -> usize {
        self.program.next(self.state.position)
    }

    fn there(&self, id: Id) -> Result<Value, No> {
        find(self.list, id).ok_or(No::Id)
    }

    /// The entries before the last ones, and the last ones, whose IDs must be these.
    fn split(&self, last: &[Binding]) -> Result<(&'a [Entry], &'a [Entry]), No> {
        let kept = self.list.len().checked_sub(last.len()).ok_or(No::Id)?;
        let (before, taken) = self.list.split_at(kept);
        let same = taken
            .iter()
            .zip(last)
            .all(|(entry, binding)| entry.id == binding.var.id.0);
        if same {
            Ok((before, taken))
        } else {
            Err(No::Id)
        }
    }

    /// The entries before the last one, and its value; it must be var.
    fn split_var(&self, var: Id) -> Result<(&'a [Entry], Value), No> {
        match self.list.split_last() {
            Some((last, before)) if last.id == var.0 => Ok((before, last.value)),
            _ => Err(No::Id),
        }
    }

    /// "Substitute rebuilds it from its pairs; repeated targets or an absent source stop."
    fn substitute(&self, pairs: &[Pair]) -> Result<Step, No> {
        let mut entries = Vec::with_capacity(pairs.len());
        for pair in pairs {
            entries.push(entry(pair.target.var.id, self.there(pair.source.id)?));
        }
        Ok(Step {
            change: Change::Goes {
                position: self.after(),
                entries: distinct(entries)?,
                cell: None,
            },
            event: None,
        })
    }

    /// "Call renames all."
    fn call(&self, label: Name) -> Result<Step, No> {
        let definition = self.program.labelled(label).ok_or(No::Next)?;
        let params = self.program.params(definition);
        let renamed = bound(params, &values(self.list)).ok_or(No::Next)?;
        let body = self.program.next(definition);
        Ok(Step::goes(Event::call(label), body, distinct(renamed)?))
    }

    /// "Let consumes the last entries, whose IDs must be its args, and appends var."
    fn r#let(&self, var: Id, tag: Name, args: &[Binding]) -> Result<Step, No> {
        let (before, taken) = self.split(args)?;
        let cell = self.state.cells.len();
        let entries = appended(before, var, Value::Cell(cell))?;
        let made = Cell::Let {
            tag: tag.0,
            values: values(taken),
        };
        Ok(Step::makes(
            Event::r#let(cell, tag),
            self.after(),
            entries,
            made,
        ))
    }

    /// "Switch consumes the last, which must be var, and appends the fields under the clause's names."
    fn switch(&self, var: Id) -> Result<Step, No> {
        let (before, value) = self.split_var(var)?;
        let (cell, tag, values) = matched(self.state, value).ok_or(No::Next)?;
        let tag = Name(tag);
        let clause = self
            .program
            .clause(self.state.position, tag)
            .ok_or(No::Next)?;
        let fields = bound(self.program.params(clause), values).ok_or(No::Next)?;
        let entries = distinct([before, &fields].concat())?;
        let body = self.program.next(clause);
        Ok(Step::goes(Event::switch(cell, tag), body, entries))
    }

    /// "Create consumes the last, which must be its environment (without one it stops), and appends
    /// var."
    fn create(&self, var: Id, environment: Option<&[Binding]>) -> Result<Step, No> {
        let (before, taken) = self.split(environment.ok_or(No::Id)?)?;
        let cell = self.state.cells.len();
        let entries = appended(before, var, Value::Cell(cell))?;
        let made = Cell::Create {
            place: self.state.position,
            entries: taken.to_vec(),
        };
        Ok(Step::makes(
            Event::create(cell),
            self.after(),
            entries,
            made,
        ))
    }

    /// "Invoke's last must be var; the rest become the clause's parameters, followed by the closure's
    /// entries."
    fn invoke(&self, var: Id, tag: Name) -> Result<Step, No> {
        let (before, value) = self.split_var(var)?;
        let args = values(before);
        if let Value::Outside(number) = value {
            return Ok(Step::ends(Event::invoke_outside(number, tag, args)));
        }
        let (cell, create, held) = closure(self.state, value).ok_or(No::Next)?;
        let clause = self.program.clause(create, tag).ok_or(No::Next)?;
        let params = bound(self.program.params(clause), &args).ok_or(No::Next)?;
        let entries = distinct([&params, held].concat())?;
        let body = self.program.next(clause);
        Ok(Step::goes(Event::invoke(cell, tag), body, entries))
    }

    /// "Literal and Op append."
    fn literal(&self, lit: i64, var: Id) -> Result<Step, No> {
        let entries = appended(self.list, var, Value::Integer(lit))?;
        Ok(Step::goes(Event::literal(lit), self.after(), entries))
    }

    fn op(&self, fst: Id, op: BinOp, snd: Id, var: Id) -> Result<Step, No> {
        let (fst, snd) = (self.there(fst)?, self.there(snd)?);
        // of the IDs, which go first; the value is not known yet
        appended(self.list, var, Value::Integer(0))?;
        let made = integer(fst)
            .zip(integer(snd))
            .and_then(|(fst, snd)| result(op, fst, snd))
            .ok_or(No::Next)?;
        let entries = appended(self.list, var, Value::Integer(made))?;
        Ok(Step::goes(Event::op(made), self.after(), entries))
    }

    /// "IfC without snd compares with 0."
    fn ifc(&self, sort: IfSort, fst: Id, snd: Option<&Identifier>) -> Result<Step, No> {
        let fst = self.there(fst)?;
        let snd = match snd {
            Some(snd) => self.there(snd.id)?,
            None => Value::Integer(0),
        };
        let (fst, snd) = integer(fst).zip(integer(snd)).ok_or(No::Next)?;
        let then_branch = compares(sort, fst, snd);
        let branch = if then_branch {
            self.after()
        } else {
            self.program.else_branch(self.state.position)
        };
        Ok(Step::goes(
            Event::ifc(then_branch),
            branch,
            self.list.to_vec(),
        ))
    }

    /// "PrintI64 needs an integer, reads it and shows it with the newline byte."
    fn print_i64(&self, newline: bool, var: Id) -> Result<Step, No> {
        let shown = integer(self.there(var)?).ok_or(No::Next)?;
        let event = Event::print_i64(shown, newline);
        Ok(Step::goes(event, self.after(), self.list.to_vec()))
    }

    /// "Exit shows its value, of whatever sort, and ends the run, whatever else the environment holds."
    fn exit(&self, var: Id) -> Result<Step, No> {
        Ok(Step::ends(Event::exit(self.there(var)?)))
    }
}

fn entry(id: Id, value: Value) -> Entry {
    Entry { id: id.0, value }
}

fn values(entries: &[Entry]) -> Vec<Value> {
    entries.iter().map(|entry| entry.value).collect()
}

fn appended(before: &[Entry], var: Id, value: Value) -> Result<Vec<Entry>, No> {
    distinct([before, &[entry(var, value)]].concat())
}

/// The list, where it has no ID twice.
fn distinct(entries: Vec<Entry>) -> Result<Vec<Entry>, No> {
    if repeats(&entries) {
        Err(No::Id)
    } else {
        Ok(entries)
    }
}

/// Whether an ID is in the list twice.
pub fn repeats(entries: &[Entry]) -> bool {
    let mut ids: Vec<u32> = entries.iter().map(|entry| entry.id).collect();
    ids.sort_unstable();
    ids.windows(2).any(|two| two[0] == two[1])
}
