//! Images whose calls need much stack: 64 statements deep in one way each, with short contexts and
//! with long ones, and the largest substitutions.

use crate::sets::Image;
use generators::boundaries::sizes;
use generators::build::{
    call, clause, create, exit, ext, exts, ifc, invoke, let_, literal, one, op, print_i64, switch,
};
use reference::questions::Limits;
use reference::syntax::{BinOp, Binding, Prog, Statement};

/// Images of one sort, each of which linearization answers with 0.
pub type Worst = (String, Vec<Image>);

type Level = fn(u32, Statement) -> Statement;
type Leaf = fn() -> Statement;

/// A level that binds its own ID, or none.
const LEVELS: [(&str, bool, Level); 9] = [
    ("Switch, by its clause", false, |_, below| {
        switch(1, vec![clause(1, Vec::new(), below)])
    }),
    ("Create, by its clause", false, |_, below| {
        create(200, vec![clause(1, Vec::new(), below)], call(Vec::new()))
    }),
    ("Create, by its next", true, |id, below| {
        create(id, vec![clause(1, Vec::new(), call(exts(1, 1)))], below)
    }),
    ("Let", true, |id, below| let_(id, exts(1, 1), below)),
    ("Literal", true, |id, below| literal(1, id, below)),
    ("Op", true, |id, below| op(1, BinOp::Sum, 1, id, below)),
    ("IfC, by then", false, |_, below| {
        ifc(1, Some(1), below, call(Vec::new()))
    }),
    ("IfC, by else", false, |_, below| {
        ifc(1, None, call(Vec::new()), below)
    }),
    ("PrintI64", false, |_, below| print_i64(true, 1, below)),
];

/// The last statement: where a Substitute is needed, and Exit.
const LEAVES: [Leaf; 4] = [
    || call(doubled()),
    || invoke(1, doubled()),
    || switch(1, Vec::new()),
    || exit(1),
];

fn doubled() -> Vec<Binding> {
    vec![ext(1); 2]
}

pub fn all() -> Vec<Worst> {
    let image = |prog: Prog| Image::accepted(prog).expect("within the limits");
    let mut all = Vec::new();
    for (level, binds, make) in LEVELS {
        let images = LEAVES.map(|end| image(nested(binds, make, end())));
        all.push((format!("64 deep: {level}"), images.into()));
    }
    for (level, binds, make) in LEVELS {
        if !binds {
            let name = format!("64 deep, contexts of 63: {level}");
            all.push((name, vec![image(full(make))]));
        }
    }
    let pairs = [
        sizes::create_pairs(),
        sizes::let_pairs(),
        sizes::switch_pairs(),
    ];
    let pairs = pairs.map(image).into();
    all.push(("65, 95 and 126 pairs".to_string(), pairs));
    let deepest = image(sizes::deepest());
    all.push(("128 deep when linearized".to_string(), vec![deepest]));
    all
}

/// The statement 63 levels down, with one parameter in scope.
fn nested(binds: bool, make: Level, end: Statement) -> Prog {
    let body =
        (2..=Limits::DEPTH as u32).fold(end, |below, id| make(if binds { id } else { 0 }, below));
    one(300, exts(1, 1), body)
}

/// The same with 63 in scope from the second statement on (a Create has one more below it), all of
/// them used in the end.
fn full(make: Level) -> Prog {
    let end = ifc(2, None, call(exts(1, 32)), call(exts(33, 63)));
    let body = (0..Limits::DEPTH - 3).fold(end, |below, _| make(0, below));
    let clauses = vec![clause(1, exts(33, 63), body)];
    one(300, exts(1, 32), switch(2, clauses))
}

#[cfg(test)]
mod tests {
    use super::*;
    use crate::contexts::{Seen, program};

    #[test]
    fn they_are_deep_and_full() {
        let mut deepest = 0;
        for (name, image) in all()
            .iter()
            .flat_map(|(name, images)| images.iter().map(move |image| (name, image)))
        {
            let mut seen = Seen::default();
            program(&image.linear, &mut seen);
            if name.starts_with("64 deep") {
                assert_eq!(seen.depth, 64, "{name}");
            }
            if name.contains("contexts of 63") {
                assert_eq!(seen.largest, 63, "{name}");
            }
            if name.contains("by its clause") {
                assert!(seen.clauses >= 61, "{name}");
            }
            deepest = deepest.max(seen.depth);
        }
        assert_eq!(deepest, 64);
    }
}
