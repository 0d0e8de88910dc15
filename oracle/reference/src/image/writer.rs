//! Writing one record at the end of some bytes.

use super::Record;
use crate::syntax::{BinOp, Binding, Chirality, Id, Identifier, IfSort, Pair, Ty};

/// # Panics
///
/// Where an ID or a count has no room in its field.
pub fn record(out: &mut Vec<u8>, record: &Record) {
    out.push(record.kind());
    match record {
        Record::Definition { name, params } => {
            identifier(out, name);
            list(out, params);
        }
        Record::Substitute { rearrange } => {
            count(out, rearrange.len());
            rearrange.iter().for_each(|each| pair(out, each));
        }
        Record::Call { label, args } => {
            identifier(out, label);
            list(out, args);
        }
        Record::Let {
            var,
            ty: its_type,
            tag,
            args,
        } => {
            identifier(out, var);
            ty(out, its_type);
            identifier(out, tag);
            list(out, args);
        }
        Record::Switch {
            var,
            ty: its_type,
            clauses,
        } => {
            identifier(out, var);
            ty(out, its_type);
            out.push(*clauses);
        }
        Record::Create {
            var,
            ty: its_type,
            environment,
            clauses,
        } => {
            identifier(out, var);
            ty(out, its_type);
            out.push(environment.is_some().into());
            if let Some(bindings) = environment {
                list(out, bindings);
            }
            out.push(*clauses);
        }
        Record::Invoke {
            var,
            tag,
            ty: its_type,
            args,
        } => {
            identifier(out, var);
            identifier(out, tag);
            ty(out, its_type);
            list(out, args);
        }
        Record::Literal { lit, var } => {
            out.extend(lit.to_le_bytes());
            identifier(out, var);
        }
        Record::Op { fst, op, snd, var } => {
            identifier(out, fst);
            out.push(bin_op(*op));
            identifier(out, snd);
            identifier(out, var);
        }
        Record::IfC { sort, fst, snd } => {
            out.push(if_sort(*sort));
            identifier(out, fst);
            out.push(snd.is_some().into());
            if let Some(second) = snd {
                identifier(out, second);
            }
        }
        Record::Clause { xtor, params } => {
            identifier(out, xtor);
            list(out, params);
        }
        Record::PrintI64 { newline, var } => {
            out.push((*newline).into());
            identifier(out, var);
        }
        Record::Exit { var } => identifier(out, var),
    }
}

/// "An annotation is a two-byte count and the IDs ascending, two bytes each."
pub fn annotation(out: &mut Vec<u8>, ascending: &[Id]) {
    let count = u16::try_from(ascending.len()).expect("an image has fewer uses");
    out.extend(count.to_le_bytes());
    ascending.iter().for_each(|&each| id(out, each));
}

/// The bytes that `record` writes: an ID has two bytes whatever it is, so this is known before
/// question 11.
pub fn record_length(record: &Record) -> usize {
    const IDENTIFIER: usize = 4;
    const TYPE: usize = 5;
    const BINDING: usize = 10;
    const PAIR: usize = 14;
    let list = |bindings: &Vec<Binding>| 1 + BINDING * bindings.len();
    1 + match record {
        Record::Definition { params, .. } => IDENTIFIER + list(params),
        Record::Substitute { rearrange } => 1 + PAIR * rearrange.len(),
        Record::Call { args, .. } => IDENTIFIER + list(args),
        Record::Let { args, .. } => IDENTIFIER + TYPE + IDENTIFIER + list(args),
        Record::Switch { .. } => IDENTIFIER + TYPE + 1,
        Record::Create { environment, .. } => {
            IDENTIFIER + TYPE + 1 + environment.as_ref().map_or(0, list) + 1
        }
        Record::Invoke { args, .. } => IDENTIFIER + IDENTIFIER + TYPE + list(args),
        Record::Literal { .. } => 8 + IDENTIFIER,
        Record::Op { .. } => IDENTIFIER + 1 + IDENTIFIER + IDENTIFIER,
        Record::IfC { snd, .. } => 1 + IDENTIFIER + 1 + snd.map_or(0, |_| IDENTIFIER),
        Record::Clause { params, .. } => IDENTIFIER + list(params),
        Record::PrintI64 { .. } => 1 + IDENTIFIER,
        Record::Exit { .. } => IDENTIFIER,
    }
}

fn count(out: &mut Vec<u8>, count: usize) {
    out.push(u8::try_from(count).expect("a count has one byte"));
}

fn id(out: &mut Vec<u8>, id: Id) {
    let field = u16::try_from(id.0).expect("an ID has two bytes");
    out.extend(field.to_le_bytes());
}

fn identifier(out: &mut Vec<u8>, identifier: &Identifier) {
    out.extend(identifier.name.0.to_le_bytes());
    id(out, identifier.id);
}

fn ty(out: &mut Vec<u8>, ty: &Ty) {
    match ty {
        Ty::I64 => out.extend([0; 5]),
        Ty::Decl(name) => {
            out.push(1);
            identifier(out, name);
        }
    }
}

fn binding(out: &mut Vec<u8>, binding: &Binding) {
    identifier(out, &binding.var);
    out.push(match binding.chi {
        Chirality::Prd => 0,
        Chirality::Cns => 1,
        Chirality::Ext => 2,
    });
    ty(out, &binding.ty);
}

fn list(out: &mut Vec<u8>, bindings: &[Binding]) {
    count(out, bindings.len());
    bindings.iter().for_each(|each| binding(out, each));
}

fn pair(out: &mut Vec<u8>, pair: &Pair) {
    binding(out, &pair.target);
    identifier(out, &pair.source);
}

fn bin_op(op: BinOp) -> u8 {
    match op {
        BinOp::Div => 0,
        BinOp::Prod => 1,
        BinOp::Rem => 2,
        BinOp::Sum => 3,
        BinOp::Sub => 4,
    }
}

fn if_sort(sort: IfSort) -> u8 {
    match sort {
        IfSort::Equal => 0,
        IfSort::NotEqual => 1,
        IfSort::Less => 2,
        IfSort::LessOrEqual => 3,
        IfSort::Greater => 4,
        IfSort::GreaterOrEqual => 5,
    }
}
