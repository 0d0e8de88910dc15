//! The sorts of variables, and what definitions and xtors take.

use crate::build;
use crate::rng::Rng;
use reference::syntax::{Chirality, Ty};

#[derive(Debug, Clone, Copy, PartialEq, Eq)]
pub enum Sort {
    Int,
    Data(usize),
    Codata(usize),
}

/// The parameter sorts of each definition, and those of each xtor of each data and codata type.
pub struct Signature {
    pub definitions: Vec<Vec<Sort>>,
    pub data: Vec<Vec<Vec<Sort>>>,
    pub codata: Vec<Vec<Vec<Sort>>>,
}

pub const TYPES: usize = 2;
const XTORS: usize = 3;

impl Signature {
    pub fn any(rng: &mut Rng) -> Signature {
        let definitions = rng.within(1, 4);
        let sorts = |rng: &mut Rng, least: usize, most: usize| -> Vec<Sort> {
            (0..rng.within(least, most)).map(|_| sort(rng)).collect()
        };
        let types = |rng: &mut Rng| -> Vec<Vec<Vec<Sort>>> {
            (0..TYPES)
                .map(|_| {
                    (0..rng.within(1, XTORS))
                        .map(|_| sorts(rng, 0, 3))
                        .collect()
                })
                .collect()
        };
        let mut definitions: Vec<Vec<Sort>> = (0..definitions).map(|_| sorts(rng, 1, 4)).collect();
        // a start gives integers and outside numbers only
        for sort in &mut definitions[0] {
            if let Sort::Data(_) = sort {
                *sort = Sort::Int;
            }
        }
        Signature {
            definitions,
            data: types(rng),
            codata: types(rng),
        }
    }
}

fn sort(rng: &mut Rng) -> Sort {
    match rng.below(4) {
        0 => Sort::Data(rng.below(TYPES)),
        1 => Sort::Codata(rng.below(TYPES)),
        _ => Sort::Int,
    }
}

/// The name of an xtor, and of a type's tag.
pub fn xtor_name(data: bool, ty: usize, xtor: usize) -> u16 {
    (100 + 50 * usize::from(data) + 10 * ty + xtor) as u16
}

pub fn type_of(sort: Sort) -> (Chirality, Ty) {
    match sort {
        Sort::Int => (Chirality::Ext, Ty::I64),
        Sort::Data(ty) => (Chirality::Prd, Ty::Decl(build::label(20 + ty as u16))),
        Sort::Codata(ty) => (Chirality::Cns, Ty::Decl(build::label(30 + ty as u16))),
    }
}
