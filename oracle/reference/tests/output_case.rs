//! PrintI64 and Exit in a whole case, byte for byte.

use reference::calls;
use reference::oracle::{Answer, Oracle};
use reference::syntax::{Binding, Chirality, Def, Id, Identifier, Name, Prog, Statement, Ty};

const SOURCE: [u8; 57] = [
    0x01, 0x00, 0x01, 0x00, 0x02, 0x00, 0x03, 0x00, // header
    0x14, 0x00, 0x1A, 0x00, 0x2E, 0x00, 0x06, 0x00, 0x34, 0x00, 0x05, 0x00, // directory
    0x01, 0x01, 0x00, 0x00, 0x00, 0x02, // definition
    0x02, 0x00, 0x01, 0x00, 0x02, 0x00, 0x00, 0x00, 0x00, 0x00, // its parameters
    0x03, 0x00, 0x02, 0x00, 0x02, 0x00, 0x00, 0x00, 0x00, 0x00, //
    0x0C, 0x01, 0x02, 0x00, 0x01, 0x00, // PrintI64
    0x0D, 0x03, 0x00, 0x02, 0x00, // Exit
];

const NEWLINE: usize = 47;
const PRINTED: usize = 50;
const EXITED: usize = 55;

fn identifier(name: u16, id: u32) -> Identifier {
    Identifier {
        name: Name(name),
        id: Id(id),
    }
}

fn integer(var: Identifier) -> Binding {
    Binding {
        var,
        chi: Chirality::Ext,
        ty: Ty::I64,
    }
}

/// One definition (name 1, ID 0) of name 2 ID 1 and name 3 ID 2: PrintI64 of the first, with a
/// newline, and Exit of the second.
fn program() -> Prog {
    let (first, second) = (identifier(2, 1), identifier(3, 2));
    Prog {
        defs: vec![Def {
            name: identifier(1, 0),
            params: vec![integer(first), integer(second)],
            body: Statement::PrintI64 {
                newline: true,
                var: first,
                next: Box::new(Statement::Exit { var: second }),
            },
        }],
        max_id: Id(2),
    }
}

/// The number of each call on the image with one byte changed: reading, the scope check,
/// linearization, and annotation of the PrintI64.
fn numbers(at: usize, to: u8) -> [u8; 4] {
    let mut image = SOURCE;
    image[at] = to;
    let mut out = [0xA5; 100];
    [
        calls::read(&image),
        calls::check(&image),
        calls::linearize(&image, &mut out),
        calls::annotate(&image, 1, &mut out),
    ]
    .map(|answer| answer.number)
}

fn accepted(length: usize) -> Answer {
    Answer {
        number: 0,
        length,
        max_id: 2,
    }
}

#[test]
fn it_reads_as_the_program() {
    assert_eq!(Oracle::new(&SOURCE).program(), Ok(&program()));
    assert_eq!(reference::image::order::frame(&program()).write(), SOURCE);
    assert_eq!(calls::read(&SOURCE), accepted(0));
    assert_eq!(calls::check(&SOURCE), accepted(0));
}

/// Both parameters are used, so the context is right, and Exit is left as it is.
#[test]
fn it_linearizes_to_itself() {
    let mut out = [0xA5; 57];
    assert_eq!(calls::linearize(&SOURCE, &mut out), accepted(57));
    assert_eq!(out, SOURCE);
}

/// With the first parameter alone, PrintI64 drops the second: a Substitute of one pair, 16 bytes and
/// an entry of 4.
#[test]
fn print_drops_what_nothing_uses() {
    let mut image = SOURCE;
    image[EXITED] = 1;
    let mut out = [0xA5; 77];
    assert_eq!(calls::linearize(&image, &mut out), accepted(77));
    let substitute = [
        0x02, 0x01, 0x02, 0x00, 0x01, 0x00, 0x02, 0x00, 0x00, 0x00, 0x00, 0x00, // target
        0x02, 0x00, 0x01, 0x00, // source
    ];
    assert_eq!(out[50..66], substitute);
    assert_eq!(out[66..], image[46..]);
}

#[test]
fn print_has_an_annotation_and_exit_none() {
    let mut out = [0xA5; 5];
    assert_eq!(calls::annotate(&SOURCE, 1, &mut out), accepted(4));
    // the Exit's variable, and not its own
    assert_eq!(out, [0x01, 0x00, 0x02, 0x00, 0xA5]);
    let mut image = SOURCE;
    image[EXITED] = 1;
    assert_eq!(calls::annotate(&image, 1, &mut out), accepted(4));
    assert_eq!(out, [0x01, 0x00, 0x01, 0x00, 0xA5]);
    for record in [0, 2, 3] {
        assert_eq!(calls::annotate(&SOURCE, record, &mut out).number, 13);
    }
    assert_eq!(calls::annotate(&SOURCE, 1, &mut [0; 3]).number, 12);
}

#[test]
fn numbers_for_no() {
    assert_eq!(numbers(NEWLINE, 0), [0, 0, 0, 0]);
    for byte in 2..=u8::MAX {
        assert_eq!(numbers(NEWLINE, byte), [4; 4]);
    }
    for kind in [0, 13, 14, 255] {
        assert_eq!(numbers(46, kind), [4; 4]);
    }
    for kind in [0, 12, 14, 255] {
        assert_eq!(numbers(52, kind), [4; 4]);
    }
    // variables that are not in scope, which annotation does not ask
    assert_eq!(numbers(PRINTED, 3), [0, 9, 9, 0]);
    assert_eq!(numbers(EXITED, 3), [0, 9, 9, 0]);
    assert_eq!(numbers(EXITED, 1), [0, 0, 0, 0]);
}
