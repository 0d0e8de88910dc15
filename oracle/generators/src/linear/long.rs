//! A linear program whose list gets longer than any count in an image.

use crate::build::{
    clause, cns, create_with, ext, exts, invoke, let_, one, pair, substitute, switch,
};
use reference::syntax::{Binding, Prog, Statement};

/// The most values that `long` takes: a Substitute has two more pairs.
pub const LONGEST: u32 = 126;

/// One cell of so many values is taken apart three times: into a closure, into its arguments, and behind
/// both of them. The last value, which is invoked at the end, is meant to be an outside number: so
/// three times as many values but one are shown.
pub fn long(values: u32) -> Prog {
    let fields = |first: u32| exts(first + 1, first + values);
    let ids = |first: u32| first + 1..=first + values;
    let last = invoke(4_000 + values, Vec::new());
    let behind = switch(502, vec![clause(1, fields(4_000), last)]);
    let arguments = ordered(ids(3_000).chain([600]), invoke(600, Vec::new()));
    let taken = switch(501, vec![clause(1, fields(3_000), arguments)]);
    let created = create_with(
        600,
        Some([fields(1_000), vec![ext(502)]].concat()),
        vec![clause(1, fields(2_000), behind)],
        ordered([600, 501], taken),
    );
    let closed = ordered([501].into_iter().chain(ids(1_000)).chain([502]), created);
    let copies = [501, 502, 503].map(|id| pair(ext(id), 500)).to_vec();
    let copied = substitute(copies, switch(503, vec![clause(1, fields(1_000), closed)]));
    let mut params: Vec<Binding> = fields(0);
    params.pop();
    params.push(cns(values));
    one(0, params, let_(500, fields(0), copied))
}

/// The entries with these IDs, in this order.
fn ordered(ids: impl IntoIterator<Item = u32>, next: Statement) -> Statement {
    let pairs = ids.into_iter().map(|id| pair(ext(id), id)).collect();
    substitute(pairs, next)
}
