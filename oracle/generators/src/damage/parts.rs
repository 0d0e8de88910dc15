//! The parts of a record that a damage changes.

use reference::image::Record;
use reference::syntax::{Binding, Identifier};

/// The variables that the record binds.
pub fn binders(record: &mut Record) -> Vec<&mut Identifier> {
    match record {
        Record::Definition { params, .. } | Record::Clause { params, .. } => vars(params),
        Record::Let { var, .. }
        | Record::Create { var, .. }
        | Record::Literal { var, .. }
        | Record::Op { var, .. } => vec![var],
        Record::Substitute { .. }
        | Record::Call { .. }
        | Record::Switch { .. }
        | Record::Invoke { .. }
        | Record::IfC { .. }
        | Record::PrintI64 { .. }
        | Record::Exit { .. } => Vec::new(),
    }
}

/// The variables that the record uses.
pub fn uses(record: &mut Record) -> Vec<&mut Identifier> {
    match record {
        Record::Call { args, .. } | Record::Let { args, .. } => vars(args),
        Record::Invoke { var, args, .. } => {
            let mut uses = vars(args);
            uses.push(var);
            uses
        }
        Record::Switch { var, .. } | Record::PrintI64 { var, .. } | Record::Exit { var } => {
            vec![var]
        }
        Record::Op { fst, snd, .. } => vec![fst, snd],
        Record::IfC { fst, snd, .. } => {
            let mut uses = vec![fst];
            uses.extend(snd);
            uses
        }
        Record::Definition { .. }
        | Record::Clause { .. }
        | Record::Substitute { .. }
        | Record::Create { .. }
        | Record::Literal { .. } => Vec::new(),
    }
}

/// The list of bindings of the record.
pub fn list(record: &mut Record) -> Option<&mut Vec<Binding>> {
    match record {
        Record::Definition { params: list, .. }
        | Record::Clause { params: list, .. }
        | Record::Call { args: list, .. }
        | Record::Let { args: list, .. }
        | Record::Invoke { args: list, .. } => Some(list),
        Record::Substitute { .. }
        | Record::Switch { .. }
        | Record::Create { .. }
        | Record::Literal { .. }
        | Record::Op { .. }
        | Record::IfC { .. }
        | Record::PrintI64 { .. }
        | Record::Exit { .. } => None,
    }
}

fn vars(bindings: &mut [Binding]) -> Vec<&mut Identifier> {
    bindings
        .iter_mut()
        .map(|binding| &mut binding.var)
        .collect()
}
