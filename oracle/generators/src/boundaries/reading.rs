//! Questions 1 to 5, and the depth of question 7.

use super::{Call, Table};
use crate::build::{
    call, clause, create, create_with, def, exit, ext, exts, ifc, image, invoke, let_, literal,
    named, one, op, pair, prd, print_i64, prog, substitute, switch, var,
};
use reference::image::{ENTRY_BYTES, Frame, HEADER_BYTES, Header, Record};
use reference::syntax::{BinOp, Prog, Statement};

pub fn rows(table: &mut Table) {
    length(table);
    layout(table);
    tiling(table);
    codes(table);
    counts(table);
    order_of_records(table);
    depth(table);
}

/// A program whose image has 65,535 bytes: a Literal has 17 with its entry, a definition and a Call
/// with k bindings 10 + 10 k each.
fn largest() -> Prog {
    let mut defs = vec![def(0, exts(1, 32), call(exts(1, 32))); 99];
    defs.push(def(0, exts(1, 13), call(Vec::new())));
    defs.push(def(0, Vec::new(), literal(1, 1, call(Vec::new()))));
    prog(32, defs)
}

fn length(table: &mut Table) {
    let empty = image(&prog(5, Vec::new()));
    for length in 0..8 {
        let what = format!("{length} bytes");
        table.image(&what, empty[..length].to_vec(), Call::Read, 1);
    }
    table.image("8 bytes", empty.clone(), Call::Read, 0);
    table.image("8 bytes", empty, super::LINEARIZE, 0);
    let largest = image(&largest());
    assert_eq!(largest.len(), 65_535);
    table.image("65,535 bytes", largest.clone(), Call::Read, 0);
    table.image("65,535 bytes", largest.clone(), super::LINEARIZE, 0);
    let mut larger = largest;
    larger.push(0);
    table.image("65,536 bytes", larger, Call::Read, 1);
}

fn layout(table: &mut Table) {
    for bytes in [[0, 0], [2, 0], [1, 1], [255, 255]] {
        let mut image = image(&one(0, Vec::new(), call(Vec::new())));
        image[..2].copy_from_slice(&bytes);
        table.image("another layout number", image, Call::Read, 2);
    }
}

/// Definitions of two records each, and one more record or none.
fn many(definitions: usize, odd: bool) -> Prog {
    let mut defs = vec![def(0, Vec::new(), call(Vec::new())); definitions];
    if odd {
        defs[0].body = literal(1, 1, call(Vec::new()));
    }
    prog(1, defs)
}

fn tiling(table: &mut Table) {
    table.read("4,000 records", &many(2_000, false), 0);
    table.read("4,001 records", &many(2_000, true), 3);
    let good = image(&one(0, Vec::new(), call(Vec::new())));
    let mut damaged = |what: &str, change: fn(&mut Vec<u8>), number: u8| {
        let mut image = good.clone();
        change(&mut image);
        table.image(what, image, Call::Read, number);
    };
    damaged("a byte after the last record", |image| image.push(0), 3);
    damaged("a byte less", |image| image.truncate(image.len() - 1), 3);
    damaged("the first offset larger", |image| image[8] += 1, 3);
    damaged("the first offset smaller", |image| image[8] -= 1, 3);
    damaged("a gap between records", |image| image[10] -= 1, 3);
    damaged("records that overlap", |image| image[10] += 1, 3);
    damaged("the last length larger", |image| image[14] += 1, 3);
    damaged("the last length smaller", |image| image[14] -= 1, 3);
    damaged("entries exchanged", |image| image[8..16].rotate_left(4), 3);
    damaged("more records than entries", |image| image[6] = 3, 3);
    damaged("fewer records than entries", |image| image[6] = 1, 3);
    damaged(
        "no records, but bytes",
        |image| {
            image[2] = 0;
            image[6] = 0;
        },
        3,
    );
    damaged("N of 65,535", |image| image[6..8].fill(255), 3);
    damaged(
        "an empty record",
        |image| {
            // the first record ends where it begins, the second has all twelve bytes
            image[10] = 0;
            image[12] -= 6;
            image[14] += 6;
        },
        4,
    );
}

/// The image with one byte of one record changed.
pub(super) fn changed_at(mut image: Vec<u8>, record: usize, byte: usize, to: u8) -> Vec<u8> {
    let at = usize::from(field(&image, HEADER_BYTES + ENTRY_BYTES * record));
    image[at + byte] = to;
    image
}

fn changed(body: Statement, record: usize, byte: usize, to: u8) -> Vec<u8> {
    let image = image(&one(9, vec![ext(1), prd(2)], body));
    changed_at(image, record, byte, to)
}

/// The image with one byte more or less at the end of one record, and a directory that tiles.
pub(super) fn resized(mut image: Vec<u8>, record: usize, longer: bool) -> Vec<u8> {
    let by = |number: u16| if longer { number + 1 } else { number - 1 };
    let entry = |record: usize| HEADER_BYTES + ENTRY_BYTES * record;
    let (offset, length) = (
        field(&image, entry(record)),
        field(&image, entry(record) + 2),
    );
    let end = usize::from(offset + length);
    if longer {
        image.insert(end, 0);
    } else {
        image.remove(end - 1);
    }
    set_field(&mut image, entry(record) + 2, by(length));
    for later in record + 1..usize::from(field(&image, 6)) {
        let moved = by(field(&image, entry(later)));
        set_field(&mut image, entry(later), moved);
    }
    image
}

fn field(image: &[u8], at: usize) -> u16 {
    u16::from_le_bytes([image[at], image[at + 1]])
}

fn set_field(image: &mut [u8], at: usize, number: u16) {
    image[at..at + 2].copy_from_slice(&number.to_le_bytes());
}

fn codes(table: &mut Table) {
    let mut code = |what: &str, body: Statement, record: usize, byte: usize, to: u8, number: u8| {
        let image = changed(body, record, byte, to);
        table.image(&format!("{what} {to}"), image, Call::Read, number);
    };
    let leaf = || call(vec![ext(1)]);
    // of 12 and 13 too: a Call's bytes are of another length than theirs
    for kind in [0, 12, 13, 14, 15, 255] {
        code("kind", leaf(), 1, 0, kind, 4);
    }
    for (chirality, number) in [(0, 0), (1, 0), (2, 0), (3, 4)] {
        code("chirality", leaf(), 1, 10, chirality, number);
    }
    for (byte, number) in [(0, 0), (1, 0), (2, 4)] {
        code("type", leaf(), 1, 11, byte, number);
    }
    for byte in 12..16 {
        code("a byte of I64", leaf(), 1, byte, 1, 4);
    }
    for byte in 0..7 {
        let number = if byte <= 4 { 0 } else { 4 };
        let body = op(1, BinOp::Sum, 1, 3, leaf());
        code("Op byte", body, 1, 5, byte, number);
    }
    for byte in 0..8 {
        let number = if byte <= 5 { 0 } else { 4 };
        let body = ifc(1, None, leaf(), leaf());
        code("IfC byte", body, 1, 1, byte, number);
    }
    code("IfC's mark", ifc(1, None, leaf(), leaf()), 1, 6, 2, 4);
    code(
        "IfC's mark without snd",
        ifc(1, None, leaf(), leaf()),
        1,
        6,
        1,
        4,
    );
    code(
        "IfC's mark with snd",
        ifc(1, Some(1), leaf(), leaf()),
        1,
        6,
        0,
        4,
    );
    let body = create(3, Vec::new(), leaf());
    code("Create's mark", body.clone(), 1, 10, 2, 4);
    code("Create's mark without a list", body, 1, 10, 1, 4);
    code("a count without its bindings", leaf(), 1, 5, 2, 4);
    code("a count with too many bindings", leaf(), 1, 5, 0, 4);
    let body = switch(2, Vec::new());
    code("a type of Switch", body.clone(), 1, 5, 2, 4);
    code("a type of Switch", body, 1, 5, 1, 0);
    // kinds of the same form, in places where they may not stand
    code("a definition's kind", leaf(), 0, 0, 3, 5);
    code("a Call's kind", leaf(), 1, 0, 1, 5);
    code("a Call's kind", leaf(), 1, 0, 11, 5);
}

fn counts(table: &mut Table) {
    let clauses = |count| vec![clause(1, Vec::new(), call(Vec::new())); count];
    let mut count = |what: &str, of: &dyn Fn(usize) -> Statement| {
        let refused = |body| one(9, vec![ext(1)], body);
        table.read(&format!("128 {what}"), &refused(of(128)), 0);
        table.read(&format!("129 {what}"), &refused(of(129)), 4);
    };
    count("args of Call", &|count| call(vec![ext(1); count]));
    count("args of Invoke", &|count| invoke(1, vec![ext(1); count]));
    count("args of Let", &|count| {
        let_(2, vec![ext(1); count], call(Vec::new()))
    });
    count("pairs", &|count| {
        substitute(vec![pair(ext(1), 1); count], call(Vec::new()))
    });
    count("bindings in an environment", &|count| {
        create_with(2, Some(vec![ext(1); count]), Vec::new(), call(Vec::new()))
    });
    count("clauses of Switch", &|count| switch(1, clauses(count)));
    count("clauses of Create", &|count| {
        create(2, clauses(count), call(Vec::new()))
    });
    count("parameters of a clause", &|count| {
        switch(1, vec![clause(1, vec![ext(1); count], call(Vec::new()))])
    });
    table.read(
        "128 parameters",
        &one(128, exts(1, 128), call(Vec::new())),
        0,
    );
    table.read(
        "129 parameters",
        &one(129, exts(1, 129), call(Vec::new())),
        4,
    );
}

/// The image of these records, with max_id 9.
pub(super) fn framed(definitions: u16, records: Vec<Record>) -> Vec<u8> {
    let header = Header {
        layout: 1,
        definitions,
        max_id: 9,
        records: records.len() as u16,
    };
    Frame { header, records }.write()
}

fn order_of_records(table: &mut Table) {
    let definition = || Record::Definition {
        name: named(1, 0),
        params: Vec::new(),
    };
    let leaf = || Record::Call {
        label: named(1, 0),
        args: Vec::new(),
    };
    let clause = || Record::Clause {
        xtor: named(1, 0),
        params: Vec::new(),
    };
    let literal = || Record::Literal {
        lit: 1,
        var: var(1),
    };
    let switch = |clauses| Record::Switch {
        var: var(1),
        ty: crate::build::ty(),
        clauses,
    };
    let ifc = || Record::IfC {
        sort: reference::syntax::IfSort::Less,
        fst: var(1),
        snd: None,
    };
    let mut ordered = |what: &str, definitions: u16, records: Vec<Record>, number: u8| {
        let image = framed(definitions, records);
        table.image(what, image, Call::Read, number);
    };
    ordered("no definition", 0, vec![], 0);
    ordered("no definition of one", 1, vec![], 5);
    ordered("a definition", 1, vec![definition(), leaf()], 0);
    ordered("a definition of two", 2, vec![definition(), leaf()], 5);
    ordered("a definition of none", 0, vec![definition(), leaf()], 5);
    ordered("D of 65,535", 65_535, vec![definition(), leaf()], 5);
    ordered("no body", 1, vec![definition()], 5);
    ordered("two bodies", 1, vec![definition(), leaf(), leaf()], 5);
    ordered("a body alone", 1, vec![leaf(), leaf()], 5);
    ordered("a clause for a body", 1, vec![definition(), clause()], 5);
    ordered("no next", 1, vec![definition(), literal()], 5);
    ordered("a next", 1, vec![definition(), literal(), leaf()], 0);
    ordered("no clause", 1, vec![definition(), switch(0)], 0);
    ordered("no clause of one", 1, vec![definition(), switch(1)], 5);
    ordered(
        "a statement for a clause",
        1,
        vec![definition(), switch(1), leaf(), leaf()],
        5,
    );
    ordered(
        "a clause",
        1,
        vec![definition(), switch(1), clause(), leaf()],
        0,
    );
    ordered(
        "a clause of none",
        1,
        vec![definition(), switch(0), clause(), leaf()],
        5,
    );
    ordered("one branch", 1, vec![definition(), ifc(), leaf()], 5);
    ordered(
        "two branches",
        1,
        vec![definition(), ifc(), leaf(), leaf()],
        0,
    );
}

/// A body so many statements deep, by Literals.
fn literals(depth: u32) -> Statement {
    (1..depth).fold(call(Vec::new()), |next, id| literal(1, id, next))
}

/// A body so many statements deep, by clauses or branches on the last way.
fn clauses(depth: u32) -> Statement {
    (1..depth).fold(call(Vec::new()), |body, _| {
        switch(1, vec![clause(1, Vec::new(), body)])
    })
}

fn branches(depth: u32) -> Statement {
    (1..depth).fold(call(Vec::new()), |elsec, _| {
        ifc(1, None, call(Vec::new()), elsec)
    })
}

fn closures(depth: u32) -> Statement {
    (1..depth).fold(call(Vec::new()), |body, _| {
        create(5, vec![clause(1, Vec::new(), body)], call(Vec::new()))
    })
}

/// A body so many statements deep, by PrintI64s and an Exit.
fn prints(depth: u32) -> Statement {
    (1..depth).fold(exit(1), |next, place| print_i64(place % 2 == 0, 1, next))
}

fn depth(table: &mut Table) {
    let bodies = [(Vec::new(), literals as fn(u32) -> Statement)]
        .into_iter()
        .chain([clauses, branches, closures, prints].map(|of_depth| (vec![ext(1)], of_depth as _)));
    for (params, of_depth) in bodies {
        let deep = |depth| one(200, params.clone(), of_depth(depth));
        table.read("depth 128", &deep(128), 0);
        table.read("depth 129", &deep(129), 5);
        table.check("depth 64", &deep(64), 0);
        table.check("depth 65", &deep(65), 7);
    }
}
