//! The statements that make a cell or take one: Let, Switch and Create.

use crate::document::{Pass, Renaming, renamed, renamed_all, renamed_ids, substitute};
use crate::free::{free, free_in_clauses, ids};
use crate::reading::Reading;
use reference::syntax::{Binding, Chirality, Clause, Statement};

use std::collections::BTreeSet;

impl Pass {
    pub fn r#let(
        &mut self,
        statement: &Statement,
        context: &[Binding],
        renaming: &Renaming,
    ) -> Statement {
        let Statement::Let {
            var,
            ty,
            tag,
            args,
            next,
        } = statement
        else {
            unreachable!()
        };
        let binder = Binding {
            var: *var,
            chi: Chirality::Prd,
            ty: *ty,
        };
        let args = renamed_all(args, renaming);
        let retained = self.filter(context, &renamed_ids(free(next), renaming));
        let wanted = [retained.as_slice(), &args].concat();
        let differ = self.differ(context, &wanted);
        let clashes = match self.reading {
            Reading::LetIgnoresClashes => BTreeSet::new(),
            _ => ids(&retained),
        };
        let of = |args, next| Statement::Let {
            var: *var,
            ty: *ty,
            tag: *tag,
            args,
            next,
        };
        if !differ {
            let next = self.next(next, &retained, binder, renaming);
            return of(args, next);
        }
        let (fresh, next) = if self.reading == Reading::LetDrawsLast {
            let next = self.next(next, &retained, binder, renaming);
            (self.freshen(&args, clashes), next)
        } else {
            let fresh = self.freshen(&args, clashes);
            let next = self.next(next, &retained, binder, renaming);
            (fresh, next)
        };
        let targets = [retained.as_slice(), &fresh].concat();
        substitute(targets, &wanted, of(fresh, next))
    }

    pub fn switch(
        &mut self,
        statement: &Statement,
        context: &[Binding],
        renaming: &Renaming,
    ) -> Statement {
        let Statement::Switch { var, ty, clauses } = statement else {
            unreachable!()
        };
        let matched = Binding {
            var: renamed(*var, renaming),
            chi: Chirality::Prd,
            ty: *ty,
        };
        let retained = self.filter(context, &renamed_ids(free_in_clauses(clauses), renaming));
        let wanted = [retained.as_slice(), &[matched]].concat();
        let draws = ids(&retained).contains(&matched.var.id);
        let mut target = matched;
        let first = self.reading == Reading::SwitchDrawsFirst;
        let differ = self.differ(context, &wanted);
        if differ && draws && first {
            target = self.fresh(matched);
        }
        let clauses = self.clauses(clauses, renaming, |params| [&retained, params].concat());
        if differ && draws && !first {
            target = self.fresh(matched);
        }
        let switch = Statement::Switch {
            var: target.var,
            ty: *ty,
            clauses,
        };
        if !differ {
            return switch;
        }
        let targets = [retained.as_slice(), &[target]].concat();
        substitute(targets, &wanted, switch)
    }

    pub fn create(
        &mut self,
        statement: &Statement,
        context: &[Binding],
        renaming: &Renaming,
    ) -> Statement {
        let Statement::Create {
            var,
            ty,
            clauses,
            next,
            ..
        } = statement
        else {
            unreachable!()
        };
        let binder = Binding {
            var: *var,
            chi: Chirality::Cns,
            ty: *ty,
        };
        let retained = self.filter(context, &renamed_ids(free(next), renaming));
        let mut split = context.to_vec();
        if self.reading != Reading::DoesNotSplit {
            split.rotate_left(retained.len());
        }
        let environment = self.filter(&split, &renamed_ids(free_in_clauses(clauses), renaming));
        let wanted = [retained.as_slice(), &environment].concat();
        let differ = self.differ(context, &wanted);

        let in_clauses = |params: &[Binding]| [params, &environment].concat();
        let early = self.reading == Reading::NextBeforeClauses;
        let mut done = None;
        if !early && self.reading != Reading::RenamesClauses {
            done = Some(self.clauses(clauses, renaming, in_clauses));
        }
        let fresh = if differ {
            self.freshen(&retained, ids(&environment))
        } else {
            retained.clone()
        };
        let mut later = renaming.clone();
        if differ {
            self.rename(&mut later, next, &retained, &fresh);
        }
        let next = self.next(next, &fresh, binder, &later);
        let clauses = match done {
            Some(clauses) => clauses,
            None if early => self.clauses(clauses, renaming, in_clauses),
            None => self.clauses(clauses, &later, in_clauses),
        };
        let create = Statement::Create {
            var: *var,
            ty: *ty,
            environment: Some(environment.clone()),
            clauses,
            next,
        };
        if !differ {
            return create;
        }
        let targets = [fresh.as_slice(), &environment].concat();
        substitute(targets, &wanted, create)
    }

    /// Each free variable of the next now has the context's identifier.
    fn rename(
        &self,
        renaming: &mut Renaming,
        next: &Statement,
        retained: &[Binding],
        fresh: &[Binding],
    ) {
        for id in free(next) {
            let now = renaming.get(&id).map_or(id, |var| var.id);
            let place = retained.iter().position(|binding| binding.var.id == now);
            if let Some(place) = place {
                let kept =
                    self.reading == Reading::KeepsSpelling && fresh[place] == retained[place];
                if !kept {
                    renaming.insert(id, fresh[place].var);
                }
            }
        }
    }

    fn clauses(
        &mut self,
        clauses: &[Clause],
        renaming: &Renaming,
        context: impl Fn(&[Binding]) -> Vec<Binding>,
    ) -> Vec<Clause> {
        clauses
            .iter()
            .map(|clause| Clause {
                xtor: clause.xtor,
                params: clause.params.clone(),
                body: self.statement(&clause.body, &context(&clause.params), renaming),
            })
            .collect()
    }
}
