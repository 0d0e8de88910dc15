//! The variables that a statement uses and binds, and the other identifiers in it.

use super::Wild;
use reference::questions::Limits;
use reference::syntax::{Binding, Chirality, Id, Identifier, Name, Ty};

impl Wild<'_> {
    pub(super) fn strays(&mut self) -> bool {
        self.rng.chance(self.shape.stray)
    }

    /// What a statement consumes, and what stays live.
    pub(super) fn last_live(&mut self) -> (Vec<Binding>, Vec<Binding>) {
        if self.strays() {
            return (self.args(), self.live.clone());
        }
        let most = self.live.len().min(self.shape.count);
        let kept = self.live.len() - self.rng.within(0, most);
        let (kept, last) = self.live.split_at(kept);
        (last.to_vec(), kept.to_vec())
    }

    /// The list itself where a count allows it, else some args.
    pub(super) fn exactly(&mut self, list: Vec<Binding>) -> Vec<Binding> {
        if list.len() <= Limits::COUNT {
            self.respelled_all(list)
        } else {
            self.args()
        }
    }

    pub(super) fn args(&mut self) -> Vec<Binding> {
        if self.scope.is_empty() {
            return Vec::new();
        }
        let most = self.shape.count;
        let count = self.rng.within(0, most);
        match self.rng.below(4) {
            // one variable again and again
            0 => vec![self.use_of(); count],
            // the scope in another order
            1 => {
                let mut all = self.scope.clone();
                self.rng.shuffle(&mut all);
                all.truncate(count);
                self.respelled_all(all)
            }
            _ => (0..count).map(|_| self.use_of()).collect(),
        }
    }

    /// A use of a variable in scope.
    pub(super) fn use_of(&mut self) -> Binding {
        let binding = *self.rng.pick(&self.scope);
        self.respelled(binding)
    }

    /// A use of that variable, which may be spelled or typed in another way.
    pub(super) fn respelled(&mut self, mut binding: Binding) -> Binding {
        if self.rng.chance(self.shape.respell) {
            match self.rng.below(4) {
                0 => binding.ty = self.ty(),
                1 => binding.chi = self.chirality(),
                _ => binding.var.name = self.name(),
            }
        }
        binding
    }

    pub(super) fn respelled_all(&mut self, bindings: Vec<Binding>) -> Vec<Binding> {
        bindings
            .into_iter()
            .map(|binding| self.respelled(binding))
            .collect()
    }

    pub(super) fn live_use(&mut self) -> Binding {
        if self.live.is_empty() || self.strays() {
            self.use_of()
        } else {
            let binding = *self.rng.pick(&self.live);
            self.respelled(binding)
        }
    }

    pub(super) fn params(&mut self) -> Vec<Binding> {
        let room = self.shape.scope - self.scope.len().min(self.shape.scope);
        let most = room.min(self.shape.count);
        let few = if self.rng.chance(8) {
            most.min(3)
        } else {
            most
        };
        let mut params: Vec<Binding> = Vec::new();
        for _ in 0..self.rng.within(0, few) {
            let id = self.new_id(&params);
            params.push(Binding {
                var: self.variable(id),
                chi: self.chirality(),
                ty: self.ty(),
            });
        }
        params
    }

    pub(super) fn binder(&mut self, chi: Chirality) -> Binding {
        let id = self.new_id(&[]);
        Binding {
            var: self.variable(id),
            chi,
            ty: self.ty(),
        }
    }

    pub(super) fn integer(&mut self) -> Binding {
        Binding {
            ty: Ty::I64,
            ..self.binder(Chirality::Ext)
        }
    }

    /// An ID that is neither in scope nor in the list.
    pub(super) fn new_id(&mut self, list: &[Binding]) -> Id {
        let first = self.rng.below(self.shape.ids as usize) as u32;
        let taken = |id: Id| {
            let is = |binding: &Binding| binding.var.id == id;
            self.scope.iter().any(is) || list.iter().any(is)
        };
        let id = (first..)
            .map(|offset| Id(self.shape.first_id + offset))
            .find(|&id| !taken(id))
            .expect("there are more IDs than places in scope");
        self.largest = self.largest.max(id.0);
        id
    }

    pub(super) fn variable(&mut self, id: Id) -> Identifier {
        Identifier {
            name: self.name(),
            id,
        }
    }

    pub(super) fn name(&mut self) -> Name {
        Name(self.rng.below(self.shape.names) as u16)
    }

    /// A label, a tag or a type's name, whose ID says nothing.
    pub(super) fn identifier(&mut self) -> Identifier {
        Identifier {
            name: self.name(),
            id: Id(if self.rng.chance(14) {
                0
            } else {
                self.rng.below(65_536) as u32
            }),
        }
    }

    pub(super) fn ty(&mut self) -> Ty {
        if self.rng.chance(5) {
            Ty::I64
        } else {
            Ty::Decl(self.identifier())
        }
    }

    pub(super) fn chirality(&mut self) -> Chirality {
        *self
            .rng
            .pick(&[Chirality::Prd, Chirality::Cns, Chirality::Ext])
    }
}
