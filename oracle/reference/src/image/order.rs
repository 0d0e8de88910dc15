//! Records in pre-order, and the trees that they stand for.

use super::{Frame, Header, LAYOUT, Record};
use crate::questions::Question;
use crate::syntax::{Clause, Def, Id, Prog, Statement};

/// Question 5 allows bodies of this depth.
pub const DEEPEST: usize = 128;

/// "Are the records D definitions in the order above, at most 128 statements deep (a body is depth
/// 1)?"
pub fn program(frame: &Frame) -> Result<Prog, Question> {
    let mut records = frame.records.iter();
    let defs: Option<Vec<Def>> = (0..frame.header.definitions)
        .map(|_| definition(&mut records))
        .collect();
    match defs {
        Some(defs) if records.len() == 0 => Ok(Prog {
            defs,
            max_id: Id(frame.header.max_id.into()),
        }),
        _ => Err(Question::Order),
    }
}

type Records<'a> = std::slice::Iter<'a, Record>;

fn definition(records: &mut Records) -> Option<Def> {
    let Record::Definition { name, params } = records.next()? else {
        return None;
    };
    Some(Def {
        name: *name,
        params: params.clone(),
        body: statement(records, DEEPEST)?,
    })
}

fn clause(records: &mut Records, deepest: usize) -> Option<Clause> {
    let Record::Clause { xtor, params } = records.next()? else {
        return None;
    };
    Some(Clause {
        xtor: *xtor,
        params: params.clone(),
        body: statement(records, deepest)?,
    })
}

fn clauses(records: &mut Records, count: u8, deepest: usize) -> Option<Vec<Clause>> {
    (0..count).map(|_| clause(records, deepest)).collect()
}

fn next(records: &mut Records, deepest: usize) -> Option<Box<Statement>> {
    statement(records, deepest).map(Box::new)
}

fn statement(records: &mut Records, deepest: usize) -> Option<Statement> {
    let deepest = deepest.checked_sub(1)?;
    Some(match records.next()? {
        Record::Substitute { rearrange } => Statement::Substitute {
            rearrange: rearrange.clone(),
            next: next(records, deepest)?,
        },
        Record::Call { label, args } => Statement::Call {
            label: *label,
            args: args.clone(),
        },
        Record::Let { var, ty, tag, args } => Statement::Let {
            var: *var,
            ty: *ty,
            tag: *tag,
            args: args.clone(),
            next: next(records, deepest)?,
        },
        Record::Switch {
            var,
            ty,
            clauses: count,
        } => Statement::Switch {
            var: *var,
            ty: *ty,
            clauses: clauses(records, *count, deepest)?,
        },
        Record::Create {
            var,
            ty,
            environment,
            clauses: count,
        } => Statement::Create {
            var: *var,
            ty: *ty,
            environment: environment.clone(),
            clauses: clauses(records, *count, deepest)?,
            next: next(records, deepest)?,
        },
        Record::Invoke { var, tag, ty, args } => Statement::Invoke {
            var: *var,
            tag: *tag,
            ty: *ty,
            args: args.clone(),
        },
        Record::Literal { lit, var } => Statement::Literal {
            lit: *lit,
            var: *var,
            next: next(records, deepest)?,
        },
        Record::Op { fst, op, snd, var } => Statement::Op {
            fst: *fst,
            op: *op,
            snd: *snd,
            var: *var,
            next: next(records, deepest)?,
        },
        Record::IfC { sort, fst, snd } => Statement::IfC {
            sort: *sort,
            fst: *fst,
            snd: *snd,
            thenc: next(records, deepest)?,
            elsec: next(records, deepest)?,
        },
        Record::PrintI64 { newline, var } => Statement::PrintI64 {
            newline: *newline,
            var: *var,
            next: next(records, deepest)?,
        },
        Record::Exit { var } => Statement::Exit { var: *var },
        Record::Definition { .. } | Record::Clause { .. } => return None,
    })
}

/// The frame of a program whose max_id fits its field.
pub fn frame(prog: &Prog) -> Frame {
    let records = records(prog);
    Frame {
        header: Header {
            layout: LAYOUT,
            definitions: field(prog.defs.len()),
            max_id: u16::try_from(prog.max_id.0).expect("max_id has two bytes"),
            records: field(records.len()),
        },
        records,
    }
}

fn field(number: usize) -> u16 {
    u16::try_from(number).expect("D and N have two bytes")
}

/// "Order is pre-order: a definition, then its body; a statement, then its clauses (each followed by
/// its body), then its next, or then-branch before else-branch."
pub fn records(prog: &Prog) -> Vec<Record> {
    let mut out = Vec::new();
    for def in &prog.defs {
        out.push(Record::Definition {
            name: def.name,
            params: def.params.clone(),
        });
        flatten(&def.body, &mut out);
    }
    out
}

fn flatten_clauses(clauses: &[Clause], out: &mut Vec<Record>) {
    for clause in clauses {
        out.push(Record::Clause {
            xtor: clause.xtor,
            params: clause.params.clone(),
        });
        flatten(&clause.body, out);
    }
}

fn count(clauses: &[Clause]) -> u8 {
    u8::try_from(clauses.len()).expect("a clause count has one byte")
}

fn flatten(statement: &Statement, out: &mut Vec<Record>) {
    match statement {
        Statement::Substitute { rearrange, next } => {
            out.push(Record::Substitute {
                rearrange: rearrange.clone(),
            });
            flatten(next, out);
        }
        Statement::Call { label, args } => out.push(Record::Call {
            label: *label,
            args: args.clone(),
        }),
        Statement::Let {
            var,
            ty,
            tag,
            args,
            next,
        } => {
            out.push(Record::Let {
                var: *var,
                ty: *ty,
                tag: *tag,
                args: args.clone(),
            });
            flatten(next, out);
        }
        Statement::Switch { var, ty, clauses } => {
            out.push(Record::Switch {
                var: *var,
                ty: *ty,
                clauses: count(clauses),
            });
            flatten_clauses(clauses, out);
        }
        Statement::Create {
            var,
            ty,
            environment,
            clauses,
            next,
        } => {
            out.push(Record::Create {
                var: *var,
                ty: *ty,
                environment: environment.clone(),
                clauses: count(clauses),
            });
            flatten_clauses(clauses, out);
            flatten(next, out);
        }
        Statement::Invoke { var, tag, ty, args } => out.push(Record::Invoke {
            var: *var,
            tag: *tag,
            ty: *ty,
            args: args.clone(),
        }),
        Statement::Literal { lit, var, next } => {
            out.push(Record::Literal {
                lit: *lit,
                var: *var,
            });
            flatten(next, out);
        }
        Statement::Op {
            fst,
            op,
            snd,
            var,
            next,
        } => {
            out.push(Record::Op {
                fst: *fst,
                op: *op,
                snd: *snd,
                var: *var,
            });
            flatten(next, out);
        }
        Statement::IfC {
            sort,
            fst,
            snd,
            thenc,
            elsec,
        } => {
            out.push(Record::IfC {
                sort: *sort,
                fst: *fst,
                snd: *snd,
            });
            flatten(thenc, out);
            flatten(elsec, out);
        }
        Statement::PrintI64 { newline, var, next } => {
            out.push(Record::PrintI64 {
                newline: *newline,
                var: *var,
            });
            flatten(next, out);
        }
        Statement::Exit { var } => out.push(Record::Exit { var: *var }),
    }
}
