//! Events from their bytes, and values to theirs.

use axcut::{events, values, Event, Given, Value};

/// An event without argument values.
fn shown(kind: u8, sort: u8, name: u16, number: i64) -> Vec<u8> {
    let mut bytes = vec![kind, sort];
    bytes.extend(name.to_le_bytes());
    bytes.extend([0; 4]);
    bytes.extend(number.to_le_bytes());
    bytes
}

/// The event of an Invoke of an outside number with these argument values.
fn shown_outside(number: i64, args: &[[i64; 2]]) -> Vec<u8> {
    let mut bytes = shown(7, 2, 513, number);
    bytes[4..8].copy_from_slice(&(args.len() as u32).to_le_bytes());
    for [sort, value] in args {
        bytes.extend(shown(*sort as u8, 0, 0, *value));
    }
    bytes
}

fn one(bytes: &[u8]) -> Option<Event> {
    events(bytes).map(|mut all| {
        assert_eq!(all.len(), 1);
        all.remove(0)
    })
}

#[test]
fn each_kind() {
    let (tag, cell, then_branch) = (513, 9, true);
    let cases = [
        (shown(3, 0, 513, 0), Event::Call { label: 513 }),
        (shown(4, 1, 513, 9), Event::Let { tag, cell }),
        (shown(5, 1, 513, 9), Event::Switch { tag, cell }),
        (shown(6, 1, 0, 9), Event::Create { cell }),
        (shown(7, 1, 513, 9), Event::Invoke { tag, cell }),
        (shown(8, 0, 0, i64::MIN), Event::Literal(i64::MIN)),
        (shown(9, 0, 0, -1), Event::Op(-1)),
        (shown(10, 1, 0, 0), Event::IfC { then_branch }),
        (shown(13, 0, 0, -3), Event::Exit(Value::Integer(-3))),
        (shown(13, 1, 0, 4), Event::Exit(Value::Cell(4))),
        (shown(13, 2, 0, 255), Event::Exit(Value::Outside(255))),
    ];
    for (bytes, event) in cases {
        assert_eq!(one(&bytes), Some(event));
    }
    let then_branch = false;
    assert_eq!(one(&shown(10, 0, 0, 0)), Some(Event::IfC { then_branch }));
    for newline in [false, true] {
        let event = Event::PrintI64 {
            integer: -3,
            newline,
        };
        assert_eq!(one(&shown(12, newline.into(), 0, -3)), Some(event));
    }
}

#[test]
fn an_outside_number_and_its_arguments() {
    let bytes = shown_outside(7, &[[0, -3], [1, 4], [2, 255]]);
    let args = vec![Value::Integer(-3), Value::Cell(4), Value::Outside(255)];
    let (tag, outside) = (513, 7);
    let event = Event::InvokeOutside { tag, outside, args };
    assert_eq!(one(&bytes), Some(event));
    let args = Vec::new();
    let event = Event::InvokeOutside { tag, outside, args };
    assert_eq!(one(&shown_outside(7, &[])), Some(event));
}

#[test]
fn events_one_after_another() {
    assert_eq!(events(&[]), Some(Vec::new()));
    let parts = [
        shown(8, 0, 0, 7),
        shown_outside(7, &[[0, 1]]),
        shown(9, 0, 0, 8),
    ];
    let bytes = parts.concat();
    let all = events(&bytes).unwrap();
    assert_eq!(
        (all.len(), &all[0], &all[2]),
        (3, &Event::Literal(7), &Event::Op(8))
    );
    let (first, rest) = Event::read(&bytes).unwrap();
    assert_eq!((first, rest), (Event::Literal(7), &bytes[16..]));
}

#[test]
fn what_is_no_event() {
    let wrong = [
        shown(0, 0, 0, 0),
        shown(1, 0, 0, 0),
        shown(2, 0, 0, 0),
        shown(11, 0, 0, 0),
        shown(14, 0, 0, 0),
        shown(3, 0, 513, 1),
        shown(3, 1, 513, 0),
        shown(4, 0, 513, 9),
        shown(6, 1, 513, 9),
        shown(7, 0, 513, 9),
        shown(8, 0, 513, 7),
        shown(10, 2, 0, 0),
        shown(10, 1, 0, 1),
        shown(12, 2, 0, 7),
        shown(13, 3, 0, 7),
        shown(13, 2, 0, 256),
        shown_outside(256, &[]),
        shown_outside(7, &[[3, 0]]),
        shown_outside(7, &[[2, 256]]),
    ];
    for bytes in wrong {
        assert_eq!(events(&bytes), None, "{bytes:?}");
    }
    let whole = shown_outside(7, &[[0, 1], [0, 2]]);
    for length in 1..whole.len() {
        assert_eq!(events(&whole[..length]), None, "{length}");
    }
    // spare bytes of an argument value, a count where there are no arguments
    let mut spare = shown_outside(7, &[[0, 1]]);
    spare[16 + 4] = 1;
    assert_eq!(events(&spare), None);
    let mut counted = [shown(8, 0, 0, 7), shown(8, 0, 0, 7)].concat();
    counted[4] = 1;
    assert_eq!(events(&counted), None);
}

#[test]
fn values_of_a_start() {
    let bytes = values(&[Given::Integer(-3), Given::Outside(255)]);
    assert_eq!(bytes[..16], shown(0, 0, 0, -3));
    assert_eq!(bytes[16..], shown(2, 0, 0, 255));
    assert_eq!(values(&[]), []);
}
