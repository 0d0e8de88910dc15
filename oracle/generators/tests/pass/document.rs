//! The pass as document 01 tells it, and the errors that it warns of: the generated programs must
//! tell them apart from the Rust.
//!
//! The renaming that Create starts is carried along instead of being applied to the next at once.

use crate::free::free;
use crate::reading::Reading;
use reference::syntax::{Binding, Chirality, Def, Id, Identifier, Pair, Prog, Statement, Ty};

use std::collections::{BTreeMap, BTreeSet};

pub fn linearize(prog: &Prog, reading: Reading) -> Prog {
    let mut pass = Pass {
        max_id: prog.max_id.0,
        reading,
    };
    let defs = prog
        .defs
        .iter()
        .enumerate()
        .map(|(place, def)| {
            if place > 0 && reading == Reading::FirstDefinitionOnly {
                return def.clone();
            }
            Def {
                body: pass.statement(&def.body, &def.params, &Renaming::new()),
                ..def.clone()
            }
        })
        .collect();
    Prog {
        defs,
        max_id: Id(pass.max_id),
    }
}

/// What stands for a variable of the source since Creates have renamed.
pub type Renaming = BTreeMap<Id, Identifier>;

pub fn renamed(var: Identifier, renaming: &Renaming) -> Identifier {
    *renaming.get(&var.id).unwrap_or(&var)
}

pub fn renamed_all(bindings: &[Binding], renaming: &Renaming) -> Vec<Binding> {
    bindings
        .iter()
        .map(|binding| Binding {
            var: renamed(binding.var, renaming),
            ..*binding
        })
        .collect()
}

pub fn renamed_ids(ids: BTreeSet<Id>, renaming: &Renaming) -> BTreeSet<Id> {
    ids.into_iter()
        .map(|id| renaming.get(&id).map_or(id, |var| var.id))
        .collect()
}

pub struct Pass {
    max_id: u32,
    pub reading: Reading,
}

impl Pass {
    pub fn fresh(&mut self, binding: Binding) -> Binding {
        self.max_id += 1;
        Binding {
            var: Identifier {
                id: Id(self.max_id),
                ..binding.var
            },
            ..binding
        }
    }

    /// "Renames a binding whose ID is in the clash set or came earlier in the list, from left to
    /// right."
    pub fn freshen(&mut self, bindings: &[Binding], mut clashes: BTreeSet<Id>) -> Vec<Binding> {
        bindings
            .iter()
            .map(|&binding| match clashes.insert(binding.var.id) {
                true => binding,
                false => self.fresh(binding),
            })
            .collect()
    }

    /// "k bindings are retained; retained ones at places below k stay; the free places below k,
    /// ascending, take the retained ones at k and beyond, last first."
    pub fn filter(&self, context: &[Binding], set: &BTreeSet<Id>) -> Vec<Binding> {
        let is_retained = |binding: &&Binding| set.contains(&binding.var.id);
        let retained: Vec<Binding> = context.iter().filter(is_retained).copied().collect();
        if self.reading == Reading::FiltersStably {
            return retained;
        }
        let (below, beyond) = context.split_at(retained.len());
        let mut beyond: Vec<&Binding> = beyond.iter().filter(is_retained).collect();
        below
            .iter()
            .map(|binding| match is_retained(&binding) {
                true => *binding,
                false => *beyond.pop().expect("as many as free places"),
            })
            .collect()
    }

    pub fn differ(&self, context: &[Binding], wanted: &[Binding]) -> bool {
        if self.reading == Reading::ComparesIds {
            let ids = |bindings: &[Binding]| -> Vec<Id> {
                bindings.iter().map(|binding| binding.var.id).collect()
            };
            return ids(context) != ids(wanted);
        }
        context != wanted
    }

    pub fn statement(
        &mut self,
        statement: &Statement,
        context: &[Binding],
        renaming: &Renaming,
    ) -> Statement {
        match statement {
            Statement::Substitute { .. } => unreachable!("question 6"),
            Statement::Call { label, args } => {
                let args = renamed_all(args, renaming);
                let call = Statement::Call {
                    label: *label,
                    args: Vec::new(),
                };
                if !self.differ(context, &args) {
                    return call;
                }
                let targets = self.freshen(&args, BTreeSet::new());
                substitute(targets, &args, call)
            }
            Statement::Invoke { var, tag, ty, args } => {
                let closure = Binding {
                    var: renamed(*var, renaming),
                    chi: Chirality::Cns,
                    ty: *ty,
                };
                let args = renamed_all(args, renaming);
                let wanted = [args.as_slice(), &[closure]].concat();
                let invoke = Statement::Invoke {
                    var: closure.var,
                    tag: *tag,
                    ty: *ty,
                    args: Vec::new(),
                };
                if !self.differ(context, &wanted) {
                    return invoke;
                }
                let mut targets = self.freshen(&args, BTreeSet::from([closure.var.id]));
                targets.push(closure);
                substitute(targets, &wanted, invoke)
            }
            Statement::Let { .. } => self.r#let(statement, context, renaming),
            Statement::Switch { .. } => self.switch(statement, context, renaming),
            Statement::Create { .. } => self.create(statement, context, renaming),
            Statement::Literal { lit, var, next } => {
                let retained = self.filter(context, &renamed_ids(free(next), renaming));
                let next = self.next(next, &retained, integer(*var), renaming);
                let literal = Statement::Literal {
                    lit: *lit,
                    var: *var,
                    next,
                };
                self.only_retained(context, retained, literal)
            }
            Statement::Op {
                fst,
                op,
                snd,
                var,
                next,
            } => {
                let (fst, snd) = (renamed(*fst, renaming), renamed(*snd, renaming));
                let mut set = renamed_ids(free(next), renaming);
                if self.reading != Reading::OpDropsInputs {
                    set.extend([fst.id, snd.id]);
                }
                let retained = self.filter(context, &set);
                let next = self.next(next, &retained, integer(*var), renaming);
                let op = Statement::Op {
                    fst,
                    op: *op,
                    snd,
                    var: *var,
                    next,
                };
                self.only_retained(context, retained, op)
            }
            Statement::IfC {
                sort,
                fst,
                snd,
                thenc,
                elsec,
            } => Statement::IfC {
                sort: *sort,
                fst: renamed(*fst, renaming),
                snd: snd.map(|snd| renamed(snd, renaming)),
                thenc: Box::new(self.statement(thenc, context, renaming)),
                elsec: Box::new(self.statement(elsec, context, renaming)),
            },
            Statement::PrintI64 { newline, var, next } => {
                self.print_i64(*newline, renamed(*var, renaming), next, context, renaming)
            }
            Statement::Exit { var } => self.exit(*var, context, renaming),
        }
    }

    pub fn only_retained(
        &self,
        context: &[Binding],
        retained: Vec<Binding>,
        statement: Statement,
    ) -> Statement {
        if self.differ(context, &retained) {
            substitute(retained.clone(), &retained, statement)
        } else {
            statement
        }
    }

    pub fn next(
        &mut self,
        next: &Statement,
        retained: &[Binding],
        binder: Binding,
        renaming: &Renaming,
    ) -> Box<Statement> {
        let context = [retained, &[binder]].concat();
        Box::new(self.statement(next, &context, renaming))
    }
}

fn integer(var: Identifier) -> Binding {
    Binding {
        var,
        chi: Chirality::Ext,
        ty: Ty::I64,
    }
}

pub fn substitute(targets: Vec<Binding>, wanted: &[Binding], next: Statement) -> Statement {
    let rearrange = targets
        .into_iter()
        .zip(wanted)
        .map(|(target, source)| Pair {
            target,
            source: source.var,
        })
        .collect();
    Statement::Substitute {
        rearrange,
        next: Box::new(next),
    }
}
