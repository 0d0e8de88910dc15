//! The source machine's next step. "An environment by ID": what is added stands in front, in the order
//! of its list, and shadows what has its ID.

use crate::arithmetic::{compares, result};
use crate::event::Event;
use crate::program::Program;
use crate::state::{Cell, Entry, State, Value};
use crate::step::{Step, bound, closure, find, integer, matched};
use reference::image::Record;
use reference::syntax::{Binding, Id, Identifier, Name};

/// The next step of a run that has not ended. "A wrong sort of value, a wrong count, an absent variable,
/// a missing label or clause, or a statement without a rule: no next step."
pub fn next(program: &Program, state: &State) -> Option<Step> {
    let here = state.position;
    let environment = &state.entries;
    let int = |var: &Identifier| find(environment, var.id).and_then(integer);
    match program.record(here) {
        Record::Call { label, args } => {
            let values = all(environment, args)?;
            let definition = program.labelled(label.name)?;
            let params = bound(program.params(definition), &values)?;
            let body = program.next(definition);
            Some(Step::goes(Event::call(label.name), body, params))
        }
        Record::Let { var, tag, args, .. } => {
            let made = Cell::Let {
                tag: tag.name.0,
                values: all(environment, args)?,
            };
            let cell = state.cells.len();
            let entries = front(&[entry(var.id, Value::Cell(cell))], environment);
            let event = Event::r#let(cell, tag.name);
            Some(Step::makes(event, program.next(here), entries, made))
        }
        Record::Switch { var, .. } => {
            let (cell, tag, values) = matched(state, find(environment, var.id)?)?;
            let clause = program.clause(here, Name(tag))?;
            let fields = bound(program.params(clause), values)?;
            let entries = front(&fields, environment);
            let event = Event::switch(cell, Name(tag));
            Some(Step::goes(event, program.next(clause), entries))
        }
        Record::Create { var, .. } => {
            let made = Cell::Create {
                place: here,
                entries: environment.clone(),
            };
            let cell = state.cells.len();
            let entries = front(&[entry(var.id, Value::Cell(cell))], environment);
            let event = Event::create(cell);
            Some(Step::makes(event, program.next(here), entries, made))
        }
        Record::Invoke { var, tag, args, .. } => {
            let called = find(environment, var.id)?;
            let values = all(environment, args)?;
            invoke(program, state, called, tag.name, values)
        }
        Record::Literal { lit, var } => {
            let entries = front(&[entry(var.id, Value::Integer(*lit))], environment);
            Some(Step::goes(
                Event::literal(*lit),
                program.next(here),
                entries,
            ))
        }
        Record::Op { fst, op, snd, var } => {
            let made = result(*op, int(fst)?, int(snd)?)?;
            let entries = front(&[entry(var.id, Value::Integer(made))], environment);
            Some(Step::goes(Event::op(made), program.next(here), entries))
        }
        Record::IfC { sort, fst, snd } => {
            let fst = int(fst)?;
            let snd = match snd {
                Some(snd) => int(snd)?,
                None => 0,
            };
            let then_branch = compares(*sort, fst, snd);
            let branch = if then_branch {
                program.next(here)
            } else {
                program.else_branch(here)
            };
            Some(Step::goes(
                Event::ifc(then_branch),
                branch,
                environment.clone(),
            ))
        }
        Record::PrintI64 { newline, var } => {
            let event = Event::print_i64(int(var)?, *newline);
            Some(Step::goes(event, program.next(here), environment.clone()))
        }
        Record::Exit { var } => Some(Step::ends(Event::exit(find(environment, var.id)?))),
        // no rule; the others are no statements
        Record::Substitute { .. } | Record::Definition { .. } | Record::Clause { .. } => None,
    }
}

/// "Invoke runs the clause in it with the parameters added." Of an outside number it ends the run.
fn invoke(
    program: &Program,
    state: &State,
    called: Value,
    tag: Name,
    values: Vec<Value>,
) -> Option<Step> {
    if let Value::Outside(number) = called {
        return Some(Step::ends(Event::invoke_outside(number, tag, values)));
    }
    let (cell, create, held) = closure(state, called)?;
    let clause = program.clause(create, tag)?;
    let params = bound(program.params(clause), &values)?;
    let entries = front(&params, held);
    Some(Step::goes(
        Event::invoke(cell, tag),
        program.next(clause),
        entries,
    ))
}

fn all(environment: &[Entry], args: &[Binding]) -> Option<Vec<Value>> {
    args.iter()
        .map(|arg| find(environment, arg.var.id))
        .collect()
}

fn entry(id: Id, value: Value) -> Entry {
    Entry { id: id.0, value }
}

fn front(new: &[Entry], environment: &[Entry]) -> Vec<Entry> {
    [new, environment].concat()
}
