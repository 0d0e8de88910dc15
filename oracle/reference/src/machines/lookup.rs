//! Lookups that both machines make.

use super::Value;
use super::state::{Cell, Entries};
use crate::syntax::{Binding, Clause, Def, Id, Name, Prog};

pub fn value(entries: &Entries, id: Id) -> Option<Value> {
    entries
        .iter()
        .find(|(known, _)| *known == id)
        .map(|(_, value)| *value)
}

pub fn int(value: Value) -> Option<i64> {
    match value {
        Value::Int(number) => Some(number),
        Value::Cell(_) | Value::Outside(_) => None,
    }
}

/// "Lookup of a label, or of a clause by tag, is by name, first found."
pub fn definition(prog: &Prog, label: Name) -> Option<&Def> {
    prog.defs.iter().find(|def| def.name.name == label)
}

pub fn clause(clauses: &[Clause], tag: Name) -> Option<&Clause> {
    clauses.iter().find(|clause| clause.xtor.name == tag)
}

/// The values under the parameters' names, where the counts agree.
pub fn bind(params: &[Binding], values: &[Value]) -> Option<Entries> {
    (params.len() == values.len()).then(|| {
        params
            .iter()
            .map(|param| param.var.id)
            .zip(values.iter().copied())
            .collect()
    })
}

/// The number, tag and fields of a cell that a Let made.
pub fn xtor<'c>(cells: &'c [Cell], value: Value) -> Option<(usize, Name, &'c [Value])> {
    let Value::Cell(number) = value else {
        return None;
    };
    match cells.get(number)? {
        Cell::Xtor { tag, fields } => Some((number, *tag, fields)),
        Cell::Closure { .. } => None,
    }
}

/// The number, entries and clauses of a cell that a Create made.
pub fn closure<'a, 'c>(
    cells: &'c [Cell<'a>],
    value: Value,
) -> Option<(usize, &'c Entries, &'a [Clause])> {
    let Value::Cell(number) = value else {
        return None;
    };
    match cells.get(number)? {
        Cell::Closure { entries, clauses } => Some((number, entries, clauses)),
        Cell::Xtor { .. } => None,
    }
}
