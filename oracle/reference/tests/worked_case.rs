//! The whole case of document 01, byte for byte.

use reference::calls;
use reference::oracle::{Answer, Oracle};
use reference::syntax::{Binding, Chirality, Def, Id, Identifier, Name, Prog, Statement, Ty};

const SOURCE: [u8; 55] = [
    0x01, 0x00, 0x01, 0x00, 0x01, 0x00, 0x03, 0x00, // header
    0x14, 0x00, 0x06, 0x00, 0x1A, 0x00, 0x0D, 0x00, 0x27, 0x00, 0x10, 0x00, // directory
    0x01, 0x01, 0x00, 0x00, 0x00, 0x00, // definition
    0x08, 0x07, 0x00, 0x00, 0x00, 0x00, 0x00, 0x00, 0x00, 0x02, 0x00, 0x01, 0x00, // Literal
    0x03, 0x01, 0x00, 0x00, 0x00, 0x01, 0x02, 0x00, 0x01, 0x00, 0x02, 0x00, 0x00, 0x00, 0x00,
    0x00, // Call
];

fn identifier(name: u16, id: u32) -> Identifier {
    Identifier {
        name: Name(name),
        id: Id(id),
    }
}

/// "One definition (name 1, ID 0), Literal 7 to name 2 ID 1, Call of name 1 with it."
fn program() -> Prog {
    let call = Statement::Call {
        label: identifier(1, 0),
        args: vec![Binding {
            var: identifier(2, 1),
            chi: Chirality::Ext,
            ty: Ty::I64,
        }],
    };
    Prog {
        defs: vec![Def {
            name: identifier(1, 0),
            params: vec![],
            body: Statement::Literal {
                lit: 7,
                var: identifier(2, 1),
                next: Box::new(call),
            },
        }],
        max_id: Id(1),
    }
}

/// "The last pair becomes 27 00 06 00 and the Call ends after a zero count."
fn linearized() -> Vec<u8> {
    let mut image = SOURCE[..45].to_vec();
    image[16..20].copy_from_slice(&[0x27, 0x00, 0x06, 0x00]);
    image[44] = 0;
    image
}

fn accepted(length: usize) -> Answer {
    Answer {
        number: 0,
        length,
        max_id: 1,
    }
}

fn refused(number: u8) -> Answer {
    Answer {
        number,
        length: 0,
        max_id: 0,
    }
}

#[test]
fn it_reads_as_the_program() {
    assert_eq!(Oracle::new(&SOURCE).program(), Ok(&program()));
    assert_eq!(reference::image::order::frame(&program()).write(), SOURCE);
    assert_eq!(calls::read(&SOURCE), accepted(0));
    assert_eq!(calls::check(&SOURCE), accepted(0));
}

#[test]
fn it_linearizes_to_45_bytes() {
    let mut out = [0xA5; 50];
    assert_eq!(calls::linearize(&SOURCE, &mut out), accepted(45));
    assert_eq!(out[..45], linearized());
    // "After acceptance, bytes past the length stay."
    assert_eq!(out[45..], [0xA5; 5]);
    let mut exact = [0xA5; 45];
    assert_eq!(calls::linearize(&SOURCE, &mut exact), accepted(45));
    assert_eq!(exact[..], linearized());
}

#[test]
fn it_does_not_fit_44_bytes() {
    let mut out = [0xA5; 44];
    assert_eq!(calls::linearize(&SOURCE, &mut out), refused(12));
    assert_eq!(out, [0; 44]);
}

#[test]
fn its_literal_has_an_annotation() {
    let mut out = [0xA5; 6];
    assert_eq!(calls::annotate(&SOURCE, 1, &mut out), accepted(4));
    assert_eq!(out, [0x01, 0x00, 0x01, 0x00, 0xA5, 0xA5]);
    for record in [0, 2, 3] {
        let mut out = [0xA5; 6];
        assert_eq!(calls::annotate(&SOURCE, record, &mut out), refused(13));
        assert_eq!(out, [0xA5; 6]);
    }
    let mut out = [0xA5; 3];
    assert_eq!(calls::annotate(&SOURCE, 1, &mut out), refused(12));
    assert_eq!(out, [0; 3]);
}

#[test]
fn a_refusal_leaves_the_buffer() {
    let mut image = SOURCE;
    image[0] = 2;
    let mut out = [0xA5; 50];
    assert_eq!(calls::read(&image), refused(2));
    assert_eq!(calls::check(&image), refused(2));
    assert_eq!(calls::linearize(&image, &mut out), refused(2));
    assert_eq!(calls::annotate(&image, 1, &mut out), refused(2));
    assert_eq!(out, [0xA5; 50]);
}
