//! PrintI64 and Exit. "PrintI64 retains what its next has free and its own var, in one filter, binds
//! nothing, draws nothing"; "Exit is left as it is".

use crate::document::{Pass, Renaming, renamed, renamed_ids, substitute};
use crate::free::free;
use crate::reading::Reading;
use reference::syntax::{Binding, Identifier, Statement};

use std::collections::BTreeSet;

impl Pass {
    pub fn print_i64(
        &mut self,
        newline: bool,
        var: Identifier,
        next: &Statement,
        context: &[Binding],
        renaming: &Renaming,
    ) -> Statement {
        let retained = self.retained(var, next, context, renaming);
        let mut in_next = retained.clone();
        match self.reading {
            Reading::PrintConsumesVar => in_next.retain(|binding| binding.var.id != var.id),
            Reading::PrintDraws if self.differ(context, &retained) => {
                // an ID that nothing takes
                self.fresh(retained[0]);
            }
            _ => {}
        }
        let next = Box::new(self.statement(next, &in_next, renaming));
        let print = Statement::PrintI64 { newline, var, next };
        if self.reading == Reading::PrintAlwaysSubstitutes {
            return substitute(retained.clone(), &retained, print);
        }
        self.only_retained(context, retained, print)
    }

    fn retained(
        &self,
        var: Identifier,
        next: &Statement,
        context: &[Binding],
        renaming: &Renaming,
    ) -> Vec<Binding> {
        let mut set = renamed_ids(free(next), renaming);
        match self.reading {
            Reading::PrintHandsAllOn => return context.to_vec(),
            Reading::PrintDropsVar => {}
            Reading::PrintFiltersTwice if !set.contains(&var.id) => {
                let own = self.filter(context, &BTreeSet::from([var.id]));
                return [self.filter(context, &set), own].concat();
            }
            _ => {
                set.insert(var.id);
            }
        }
        self.filter(context, &set)
    }

    pub fn exit(&self, var: Identifier, context: &[Binding], renaming: &Renaming) -> Statement {
        let now = renamed(var, renaming);
        let var = match self.reading {
            Reading::ExitKeepsVar => var,
            Reading::ExitKeepsSpelling => Identifier { id: now.id, ..var },
            _ => now,
        };
        let exit = Statement::Exit { var };
        if self.reading != Reading::ExitSubstitutes {
            return exit;
        }
        let alone = self.filter(context, &BTreeSet::from([var.id]));
        self.only_retained(context, alone, exit)
    }
}
