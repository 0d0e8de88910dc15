//! What the machines of `reference` show and are, in the words and bytes of the steppers.

use reference::image::{Record, order};
use reference::machines::{self, Event};
use reference::syntax::{Clause, Id, Name, Prog, Statement};
use std::collections::HashMap;
use stepper::{Cell, Entry, State, Value};

/// An event's bytes, from the layout.
pub fn bytes(event: &Event) -> Vec<u8> {
    let cell = |kind, name, cell: usize| head(kind, 1, name, 0, cell as i64);
    match event {
        Event::Call { label } => head(3, 0, label.0, 0, 0),
        Event::Let { cell: number, tag } => cell(4, tag.0, *number),
        Event::Switch { cell: number, tag } => cell(5, tag.0, *number),
        Event::Create { cell: number } => cell(6, 0, *number),
        Event::Invoke { cell: number, tag } => cell(7, tag.0, *number),
        Event::InvokeOutside { number, tag, args } => {
            let mut bytes = head(7, 2, tag.0, args.len() as u32, (*number).into());
            for &arg in args {
                let (sort, long) = sorted(arg);
                bytes.extend(head(sort, 0, 0, 0, long));
            }
            bytes
        }
        Event::Literal(integer) => head(8, 0, 0, 0, *integer),
        Event::Op(integer) => head(9, 0, 0, 0, *integer),
        Event::IfC { then_branch } => head(10, (*then_branch).into(), 0, 0, 0),
        Event::PrintI64 { value, newline } => head(12, (*newline).into(), 0, 0, *value),
        Event::Exit { value } => {
            let (sort, long) = sorted(*value);
            head(13, sort, 0, 0, long)
        }
    }
}

fn head(first: u8, second: u8, name: u16, count: u32, long: i64) -> Vec<u8> {
    let mut bytes = vec![first, second];
    bytes.extend(name.to_le_bytes());
    bytes.extend(count.to_le_bytes());
    bytes.extend(long.to_le_bytes());
    bytes
}

fn sorted(value: machines::Value) -> (u8, i64) {
    match value {
        machines::Value::Int(integer) => (0, integer),
        machines::Value::Cell(number) => (1, number as i64),
        machines::Value::Outside(number) => (2, number.into()),
    }
}

/// Where the statements of a program stand among its records.
pub struct Places<'a> {
    statements: HashMap<usize, &'a Statement>,
    indexes: HashMap<*const Statement, usize>,
    /// The clauses of each Create by its index.
    clauses: HashMap<usize, &'a [Clause]>,
}

impl<'a> Places<'a> {
    pub fn of(prog: &'a Prog) -> Places<'a> {
        let mut places = Places {
            statements: HashMap::new(),
            indexes: HashMap::new(),
            clauses: HashMap::new(),
        };
        let mut index = 0;
        for def in &prog.defs {
            index += 1;
            places.below(&def.body, &mut index);
        }
        let records = order::records(prog);
        assert_eq!(index, records.len());
        let is_create = |index: &usize| matches!(records[*index], Record::Create { .. });
        assert!(places.clauses.keys().all(is_create));
        places
    }

    fn below(&mut self, statement: &'a Statement, index: &mut usize) {
        self.statements.insert(*index, statement);
        self.indexes.insert(statement, *index);
        if let Statement::Create { clauses, .. } = statement {
            self.clauses.insert(*index, clauses);
        }
        *index += 1;
        if let Statement::Switch { clauses, .. } | Statement::Create { clauses, .. } = statement {
            for clause in clauses {
                *index += 1;
                self.below(&clause.body, index);
            }
        }
        match statement {
            Statement::Substitute { next, .. }
            | Statement::Let { next, .. }
            | Statement::Create { next, .. }
            | Statement::Literal { next, .. }
            | Statement::Op { next, .. }
            | Statement::PrintI64 { next, .. } => self.below(next, index),
            Statement::IfC { thenc, elsec, .. } => {
                self.below(thenc, index);
                self.below(elsec, index);
            }
            Statement::Call { .. }
            | Statement::Switch { .. }
            | Statement::Invoke { .. }
            | Statement::Exit { .. } => {}
        }
    }

    /// The state in the machine's own form.
    pub fn model(&self, state: &State) -> machines::State<'a> {
        let cell = |cell: &Cell| match cell {
            Cell::Let { tag, values } => machines::Cell::Xtor {
                tag: Name(*tag),
                fields: values.iter().map(|&held| of_model(held)).collect(),
            },
            Cell::Create { place, entries } => machines::Cell::Closure {
                entries: in_model(entries),
                clauses: self.clauses[place],
            },
        };
        machines::State {
            at: self.statements[&state.position],
            entries: in_model(&state.entries),
            cells: state.cells.iter().map(cell).collect(),
            ended: state.ended,
        }
    }

    /// Whether the two states are the same. The source machine's environment is one by ID: its order is
    /// the stepper's own.
    pub fn same(&self, state: &State, machine: &machines::State, ordered: bool) -> bool {
        let cells = state.cells.iter().zip(&machine.cells);
        state.position == self.indexes[&std::ptr::from_ref(machine.at)]
            && state.ended == machine.ended
            && listed(ordered, &state.entries) == entries(ordered, &machine.entries)
            && state.cells.len() == machine.cells.len()
            && cells
                .into_iter()
                .all(|(cell, other)| self.same_cell(cell, other, ordered))
    }

    fn same_cell(&self, cell: &Cell, other: &machines::Cell, ordered: bool) -> bool {
        match (cell, other) {
            (Cell::Let { tag, values }, machines::Cell::Xtor { tag: name, fields }) => {
                *tag == name.0 && values.iter().copied().eq(fields.iter().copied().map(value))
            }
            (
                Cell::Create {
                    place,
                    entries: held,
                },
                machines::Cell::Closure {
                    entries: others,
                    clauses,
                },
            ) => {
                std::ptr::eq(self.clauses[place], *clauses)
                    && listed(ordered, held) == entries(ordered, others)
            }
            _ => false,
        }
    }
}

fn value(value: machines::Value) -> Value {
    match value {
        machines::Value::Int(integer) => Value::Integer(integer),
        machines::Value::Cell(number) => Value::Cell(number),
        machines::Value::Outside(number) => Value::Outside(number),
    }
}

fn of_model(held: Value) -> machines::Value {
    match held {
        Value::Integer(integer) => machines::Value::Int(integer),
        Value::Cell(number) => machines::Value::Cell(number),
        Value::Outside(number) => machines::Value::Outside(number),
    }
}

fn in_model(entries: &[Entry]) -> Vec<(Id, machines::Value)> {
    let pairs = entries.iter();
    pairs
        .map(|entry| (Id(entry.id), of_model(entry.value)))
        .collect()
}

fn listed(ordered: bool, entries: &[Entry]) -> Vec<(u32, Value)> {
    let pairs = entries.iter().map(|entry| (entry.id, entry.value));
    by_id_unless(ordered, pairs.collect())
}

fn entries(ordered: bool, entries: &[(Id, machines::Value)]) -> Vec<(u32, Value)> {
    let pairs = entries.iter().map(|&(id, held)| (id.0, value(held)));
    by_id_unless(ordered, pairs.collect())
}

/// In an environment by ID the first entry of an ID counts, and the order does not.
fn by_id_unless(ordered: bool, mut pairs: Vec<(u32, Value)>) -> Vec<(u32, Value)> {
    if !ordered {
        pairs.sort_by_key(|&(id, _)| id);
        pairs.dedup_by_key(|&mut (id, _)| id);
    }
    pairs
}
