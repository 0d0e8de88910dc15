//! The sentences of the layout and of the requests one by one.

use generators::build::{
    call, clause, cns, create, create_with, def, exit, ext, exts, ifc, image, invoke, label, let_,
    literal, one, op, pair, print_i64, prog, substitute, switch,
};
use generators::stores;
use reference::machines::Given::{self, Int, Outside};
use reference::syntax::{BinOp, Prog, Statement};
use stepper::{Answer, Cell, Entry, Machine, State, Stepper, Value, start, step, store};

use Machine::{Linear, Source};

fn answer(number: u8, made: u64, length: usize) -> Answer {
    Answer {
        number,
        made,
        length,
    }
}

/// A store of 400 bytes after a start of the first definition.
fn begun(machine: Machine, prog: &Prog, given: &[Given]) -> Vec<u8> {
    let mut store = vec![0xA5; 400];
    let number = start(machine, &image(prog), 0, &stores::values(given), &mut store);
    assert_eq!(number, 0);
    store
}

fn read(machine: Machine, prog: &Prog, store: &[u8]) -> State {
    let stepper = Stepper::new(machine, &image(prog));
    store::state(stepper.program().unwrap(), store).expect("a state")
}

/// The IDs of the entries after so many steps.
fn ids_after(machine: Machine, prog: &Prog, given: &[Given], steps: u64) -> Vec<u32> {
    let mut store = begun(machine, prog, given);
    let made = step(machine, &image(prog), steps, &mut store, &mut [0; 400]);
    assert_eq!((made.number, made.made), (0, steps));
    let state = read(machine, prog, &store);
    state.entries.iter().map(|entry| entry.id).collect()
}

/// A step of the machine from that state, in a store with room: the answer, and whether the flag of a
/// stop is set after it.
fn from(machine: Machine, prog: &Prog, state: &State) -> (u64, bool) {
    let mut store = store::bytes(state);
    store.resize(1_000, 0xA5);
    let before = store.clone();
    let made = step(machine, &image(prog), 1, &mut store, &mut [0; 400]);
    assert_eq!(made.number, 0);
    assert!(made.made == 1 || store == before);
    (made.made, read(machine, prog, &store).stopped)
}

fn integers(ids: &[u32]) -> Vec<Entry> {
    ids.iter()
        .map(|&id| Entry {
            id,
            value: Value::Integer(id.into()),
        })
        .collect()
}

fn at(position: usize, entries: Vec<Entry>) -> State {
    State {
        position,
        ended: false,
        stopped: false,
        cells: Vec::new(),
        entries,
    }
}

fn leaf() -> Statement {
    call(Vec::new())
}

/// The newest list is in front, and each list is in its own order.
#[test]
fn the_source_environment_is_newest_list_first() {
    let clauses = |ids, body| vec![clause(1, ids, body)];
    let body = let_(3, exts(1, 2), switch(3, clauses(exts(4, 5), exit(5))));
    let source = one(5, exts(1, 2), body);
    let given = [Int(1), Int(2)];
    assert_eq!(ids_after(Source, &source, &given, 0), [1, 2]);
    assert_eq!(ids_after(Source, &source, &given, 1), [3, 1, 2]);
    assert_eq!(ids_after(Source, &source, &given, 2), [4, 5, 3, 1, 2]);
    // what a Create holds is what was there before its var, and an Invoke adds in front of it
    let body = create(3, clauses(exts(4, 5), exit(5)), invoke(3, exts(1, 2)));
    let source = one(5, exts(1, 2), body);
    assert_eq!(ids_after(Source, &source, &given, 1), [3, 1, 2]);
    assert_eq!(ids_after(Source, &source, &given, 2), [4, 5, 1, 2]);
    let called = one(3, exts(1, 2), literal(1, 3, call(vec![ext(3), ext(1)])));
    assert_eq!(ids_after(Source, &called, &given, 2), [1, 2]);
}

/// In a forged store an ID may be there already: the new entry shadows it, and both stay.
#[test]
fn an_id_of_the_source_is_shadowed() {
    let source = one(2, vec![], literal(7, 1, print_i64(true, 1, exit(1))));
    let mut store = store::bytes(&at(1, integers(&[1, 1])));
    store.resize(400, 0);
    let mut events = [0; 48];
    let made = step(Source, &image(&source), 9, &mut store, &mut events);
    assert_eq!(made, answer(0, 3, 48));
    assert_eq!([events[8], events[24], events[40]], [7, 7, 7]);
    let state = read(Source, &source, &store);
    let values: Vec<Value> = state.entries.iter().map(|entry| entry.value).collect();
    assert_eq!(values, [7, 1, 1].map(Value::Integer));
}

#[test]
fn the_linear_list_is_in_its_own_order() {
    let given = [Int(1), Int(2), Int(3)];
    let of = |body, steps| ids_after(Linear, &one(9, exts(1, 3), body), &given, steps);
    let pairs = vec![pair(ext(5), 3), pair(ext(4), 3), pair(ext(1), 1)];
    assert_eq!(of(substitute(pairs, leaf()), 1), [5, 4, 1]);
    let made = let_(
        4,
        exts(2, 3),
        switch(4, vec![clause(1, exts(5, 6), exit(1))]),
    );
    assert_eq!(of(made.clone(), 1), [1, 4]);
    assert_eq!(of(made, 2), [1, 5, 6]);
    let clauses = vec![clause(1, vec![ext(7)], exit(1))];
    let made = create_with(4, Some(exts(2, 3)), clauses, invoke(4, vec![]));
    assert_eq!(of(made.clone(), 1), [1, 4]);
    assert_eq!(of(made, 2), [7, 2, 3]);
    assert_eq!(of(literal(1, 9, leaf()), 1), [1, 2, 3, 9]);
    assert_eq!(of(op(1, BinOp::Sum, 2, 9, leaf()), 1), [1, 2, 3, 9]);
    assert_eq!(of(ifc(1, None, leaf(), leaf()), 1), [1, 2, 3]);
    assert_eq!(of(print_i64(true, 1, leaf()), 1), [1, 2, 3]);
}

/// A Substitute is a step, and needs no room for an event.
#[test]
fn a_substitute_counts() {
    let swapped = || vec![pair(ext(1), 2), pair(ext(2), 1)];
    let body = substitute(swapped(), substitute(swapped(), exit(1)));
    let linear = one(2, exts(1, 2), body);
    let image = image(&linear);
    let begun = begun(Linear, &linear, &[Int(1), Int(2)]);
    for (steps, expected) in [(0, (0, 0)), (1, (0, 1)), (2, (0, 2)), (3, (15, 2))] {
        let mut store = begun.clone();
        let made = step(Linear, &image, steps, &mut store, &mut []);
        assert_eq!(made, answer(expected.0, expected.1, 0));
    }
    let mut store = begun;
    let made = step(Linear, &image, u64::MAX, &mut store, &mut [0; 16]);
    assert_eq!(made, answer(0, 3, 16));
}

/// The step that ends a run changes the ended flag alone.
#[test]
fn an_end_changes_the_flag_alone() {
    let exits = one(2, vec![ext(1), cns(2)], exit(1));
    let invokes = one(2, vec![ext(1), cns(2)], invoke(2, vec![ext(1)]));
    for machine in [Source, Linear] {
        for (prog, length) in [(&exits, 16), (&invokes, 32)] {
            let mut store = begun(machine, prog, &[Int(1), Outside(9)]);
            let mut expected = store.clone();
            expected[4] = 1;
            let image = image(prog);
            let made = step(machine, &image, 5, &mut store, &mut [0; 32]);
            assert_eq!(made, answer(0, 1, length));
            assert_eq!(store, expected);
            let made = step(machine, &image, 5, &mut store, &mut []);
            assert_eq!(made, answer(0, 0, 0));
            assert_eq!(store, expected);
        }
    }
}

/// Bytes behind the state are what longer states of the call left there.
#[test]
fn longer_states_leave_bytes_behind() {
    let drops = |next| substitute(vec![], next);
    let linear = one(3, exts(1, 2), literal(-1, 3, drops(literal(5, 1, exit(1)))));
    let mut store = begun(Linear, &linear, &[Int(1), Int(2)]);
    let made = step(Linear, &image(&linear), 2, &mut store, &mut [0; 16]);
    assert_eq!(made, answer(0, 2, 16));
    assert_eq!(store[24..32], [0; 8]);
    // three entries that are no part of the state any more
    assert_eq!([store[68], store[84], store[100]], [1, 2, 3]);
    assert_eq!(store[104..112], [0xFF; 8]);
    assert_eq!(store[112..], [0xA5; 400 - 112]);
    step(Linear, &image(&linear), 1, &mut store, &mut [0; 16]);
    assert_eq!([store[68], store[72], store[84], store[100]], [1, 5, 2, 3]);
}

/// The stopped flag looks ahead: the step or start after which the machine stops sets it.
#[test]
fn the_stopped_flag() {
    let stopped = |prog: &Prog, given: &[Given], steps: u64| {
        let mut store = begun(Linear, prog, given);
        let made = step(Linear, &image(prog), steps, &mut store, &mut [0; 400]);
        assert_eq!(made.number, 0);
        (made.made, store[4], store[5])
    };
    let doubled = one(1, vec![ext(1), ext(1)], exit(1));
    assert_eq!(stopped(&doubled, &[Int(1), Int(2)], 0), (0, 0, 1));
    assert_eq!(stopped(&doubled, &[Int(1), Int(2)], 5), (0, 0, 1));
    let absent = one(1, vec![ext(1)], exit(2));
    assert_eq!(stopped(&absent, &[Int(1)], 0), (0, 0, 1));
    let later = one(
        9,
        vec![ext(1)],
        literal(1, 2, literal(1, 3, switch(1, vec![]))),
    );
    assert_eq!(stopped(&later, &[Int(1)], 0), (0, 0, 0));
    assert_eq!(stopped(&later, &[Int(1)], 1), (1, 0, 0));
    assert_eq!(stopped(&later, &[Int(1)], 2), (2, 0, 1));
    assert_eq!(stopped(&later, &[Int(1)], 3), (2, 0, 1));
    // stuck for a value, and not for an ID
    let stuck = one(9, vec![ext(1)], literal(1, 2, switch(2, vec![])));
    assert_eq!(stopped(&stuck, &[Int(1)], 9), (1, 0, 0));
    // the source machine never sets it
    let source = one(9, exts(1, 2), literal(1, 3, switch(1, vec![])));
    let mut store = begun(Source, &source, &[Int(1), Int(2)]);
    let made = step(Source, &image(&source), 9, &mut store, &mut [0; 400]);
    assert_eq!((made, store[5]), (answer(0, 1, 16), 0));
}

/// A set flag forbids every step, for either stepper; a clear one where the machine stops stays clear.
#[test]
fn forged_flags() {
    let prog = one(2, vec![ext(1)], exit(1));
    for machine in [Source, Linear] {
        for flags in [[0, 1], [1, 0], [1, 1]] {
            let mut store = begun(machine, &prog, &[Int(1)]);
            store[4..6].copy_from_slice(&flags);
            let before = store.clone();
            let made = step(machine, &image(&prog), 9, &mut store, &mut []);
            assert_eq!(made, answer(0, 0, 0));
            assert_eq!(store, before);
        }
    }
    let absent = one(1, vec![ext(1)], exit(2));
    let mut store = begun(Linear, &absent, &[Int(1)]);
    store[5] = 0;
    let before = store.clone();
    let made = step(Linear, &image(&absent), 9, &mut store, &mut []);
    assert_eq!(made, answer(0, 0, 0));
    assert_eq!(store, before);
}

/// "Any step that would leave an ID twice" stops. A forged list may have one: what only reads goes on.
#[test]
fn lists_with_an_id_twice() {
    let of = |body: Statement, entries: &[u32]| {
        from(Linear, &one(9, vec![], body), &at(1, integers(entries))).0
    };
    // made of other entries, or none
    assert_eq!(of(substitute(vec![pair(ext(1), 2)], leaf()), &[2, 2]), 1);
    assert_eq!(of(literal(1, 5, leaf()), &[1, 2]), 1);
    assert_eq!(of(literal(1, 5, leaf()), &[1, 1]), 0);
    assert_eq!(of(op(1, BinOp::Sum, 1, 5, leaf()), &[1, 1]), 0);
    assert_eq!(of(let_(5, vec![ext(3)], leaf()), &[1, 1, 3]), 0);
    assert_eq!(of(let_(5, vec![ext(1), ext(1)], leaf()), &[3, 1, 1]), 1);
    assert_eq!(of(create_with(5, Some(vec![]), vec![], leaf()), &[1, 1]), 0);
    let both = Some(vec![ext(1), ext(1)]);
    assert_eq!(of(create_with(5, both, vec![], leaf()), &[3, 1, 1]), 1);
    assert_eq!(of(ifc(1, None, leaf(), leaf()), &[1, 1]), 1);
    assert_eq!(of(print_i64(true, 1, leaf()), &[1, 1]), 1);
    assert_eq!(of(exit(1), &[1, 1]), 1);
    let outside = |ids: &[u32]| {
        let mut entries = integers(ids);
        entries.last_mut().unwrap().value = Value::Outside(3);
        from(Linear, &one(9, vec![], invoke(1, vec![])), &at(1, entries)).0
    };
    assert_eq!(outside(&[2, 2, 1]), 1);
    assert_eq!(outside(&[1, 1]), 1);
    let switched = |ids: &[u32]| {
        let body = switch(1, vec![clause(1, vec![], leaf())]);
        let mut entries = integers(ids);
        entries.last_mut().unwrap().value = Value::Cell(0);
        let cells = vec![Cell::Let {
            tag: 1,
            values: vec![],
        }];
        let state = State {
            cells,
            ..at(1, entries)
        };
        from(Linear, &one(9, vec![], body), &state).0
    };
    assert_eq!(switched(&[2, 3, 1]), 1);
    assert_eq!(switched(&[2, 2, 1]), 0);
    // the first of two counts
    let mut events = [0; 16];
    let exits = one(9, vec![], exit(1));
    let mut entries = integers(&[1, 1]);
    entries[0].value = Value::Integer(77);
    let mut store = store::bytes(&at(1, entries));
    step(Linear, &image(&exits), 1, &mut store, &mut events);
    assert_eq!(events[8], 77);
}

/// IDs of a store are never cut to those of the image.
#[test]
fn ids_above_the_images() {
    for machine in [Source, Linear] {
        let prog = one(9, vec![ext(1)], print_i64(false, 1, exit(1)));
        assert_eq!(from(machine, &prog, &at(1, integers(&[65_537]))).0, 0);
        assert_eq!(from(machine, &prog, &at(1, integers(&[65_537, 1]))).0, 1);
        assert_eq!(from(machine, &prog, &at(1, integers(&[1 << 31 | 1]))).0, 0);
    }
    // they are other IDs where a list is asked for doubles, too
    let appends = one(9, vec![], literal(1, 1, leaf()));
    assert_eq!(from(Linear, &appends, &at(1, integers(&[65_537]))).0, 1);
}

/// The first clause or label that is found decides, also with a wrong count.
#[test]
fn the_first_found_decides() {
    let called = prog(
        9,
        vec![
            def(1, vec![ext(1)], leaf()),
            def(0, vec![], leaf()),
            def(0, vec![ext(1)], leaf()),
        ],
    );
    let of = |prog: &Prog, position: usize, entries: &[u32]| {
        [Source, Linear].map(|machine| from(machine, prog, &at(position, integers(entries))).0)
    };
    assert_eq!(of(&called, 1, &[]), [1, 1]);
    // the label with one parameter is the second one
    assert_eq!(of(&called, 5, &[1]), [1, 0]);
    let clauses = vec![
        clause(1, vec![], leaf()),
        clause(1, vec![ext(2)], leaf()),
        clause(2, vec![ext(2)], leaf()),
    ];
    let switches = one(9, vec![ext(1)], switch(1, clauses));
    let cell = |tag, values| State {
        cells: vec![Cell::Let { tag, values }],
        entries: vec![Entry {
            id: 1,
            value: Value::Cell(0),
        }],
        ..at(1, vec![])
    };
    let held = || vec![Value::Integer(1)];
    for machine in [Source, Linear] {
        assert_eq!(from(machine, &switches, &cell(1, vec![])).0, 1);
        assert_eq!(from(machine, &switches, &cell(1, held())), (0, false));
        assert_eq!(from(machine, &switches, &cell(2, held())).0, 1);
        assert_eq!(from(machine, &switches, &cell(3, held())), (0, false));
    }
}

/// Cells may refer to later ones and to themselves, and a closure's entries need not be its Create's.
#[test]
fn forged_cells() {
    let body = switch(1, vec![clause(1, vec![ext(2)], switch(2, vec![]))]);
    let switches = one(9, vec![ext(1)], body);
    let cell = |number| Cell::Let {
        tag: 1,
        values: vec![Value::Cell(number)],
    };
    let entries = || {
        vec![Entry {
            id: 1,
            value: Value::Cell(0),
        }]
    };
    for machine in [Source, Linear] {
        for held in [0, 1] {
            let state = State {
                cells: vec![cell(held), cell(0)],
                ..at(1, entries())
            };
            assert_eq!(from(machine, &switches, &state).0, 1);
        }
        let closure = vec![clause(1, vec![], exit(8))];
        let environment = (machine == Linear).then(Vec::new);
        let invokes = one(
            9,
            vec![ext(8)],
            create_with(1, environment, closure, invoke(1, vec![])),
        );
        let state = State {
            cells: vec![Cell::Create {
                place: 1,
                entries: integers(&[65_540, 8]),
            }],
            ..at(4, entries())
        };
        assert_eq!(from(machine, &invokes, &state), (1, false));
    }
}

/// What a start's values may be.
#[test]
fn values_of_a_start() {
    let prog = one(2, exts(1, 2), exit(1));
    let image = image(&prog);
    let right = stores::values(&[Int(-1), Outside(255)]);
    let number = |values: &[u8]| {
        let numbers = [Source, Linear].map(|machine| {
            let mut store = [0xA5; 96];
            let number = start(machine, &image, 0, values, &mut store);
            assert!(number == 0 || store == [0xA5; 96]);
            number
        });
        assert_eq!(numbers[0], numbers[1]);
        numbers[0]
    };
    assert_eq!(number(&right), 0);
    for length in (0..=50).filter(|&length| length != 32) {
        let mut values = right.clone();
        values.resize(length, 0);
        assert_eq!(number(&values), 14, "{length}");
    }
    // a cell, a cell's own slot, spare bytes, an ID; an outside number above 255
    for (at, byte, expected) in [
        (0, 1, 14),
        (0, 3, 14),
        (0, 4, 14),
        (0, 5, 14),
        (0, 255, 14),
        (0, 2, 14),
        (1, 1, 14),
        (3, 1, 14),
        (4, 1, 14),
        (7, 128, 14),
        (8, 0, 0),
        (15, 0, 0),
        (16, 0, 0),
        (24, 0, 0),
        (25, 1, 14),
        (31, 128, 14),
    ] {
        let mut values = right.clone();
        values[at] = byte;
        assert_eq!(number(&values), expected, "byte {at}");
    }
    for place in [1, 2, 1 << 16, 1 << 32, usize::MAX] {
        for machine in [Source, Linear] {
            assert_eq!(start(machine, &image, place, &right, &mut [0; 96]), 14);
        }
    }
}

/// The image's own questions go first, 14 next, 15 last.
#[test]
fn the_order_of_the_questions() {
    let linear = image(&one(1, vec![ext(1)], substitute(vec![], leaf())));
    let unbound = image(&one(1, vec![ext(1)], exit(3)));
    let both = |image: &[u8]| {
        [Source, Linear].map(|machine| {
            // a wrong start into no store, and a wrong store
            let begins = start(machine, image, 9, &[], &mut []);
            let steps = step(machine, image, 1, &mut [1; 80], &mut []);
            assert_eq!(steps, answer(begins, 0, 0));
            begins
        })
    };
    assert_eq!(both(&[]), [1, 1]);
    assert_eq!(both(&[2, 0, 0, 0, 0, 0, 0, 0]), [2, 2]);
    assert_eq!(both(&linear), [6, 14]);
    assert_eq!(both(&unbound), [9, 14]);
    // a program without definitions has no start and no store
    assert_eq!(both(&[1, 0, 0, 0, 0, 0, 0, 0]), [14, 14]);
    // 15 at a start comes last, and under 64 bytes a store is 14 at a step
    let right = image(&one(1, vec![ext(1)], exit(1)));
    assert_eq!(start(Source, &right, 0, &[0; 16], &mut [0; 79]), 15);
    assert_eq!(start(Source, &right, 0, &[0; 16], &mut []), 15);
    assert_eq!(start(Source, &right, 0, &[1; 16], &mut []), 14);
    assert_eq!(step(Source, &right, 0, &mut [0; 63], &mut []).number, 14);
    // with no step asked for there is no 15
    let mut store = begun(Source, &one(1, vec![ext(1)], exit(1)), &[Int(1)]);
    assert_eq!(
        step(Source, &right, 0, &mut store, &mut []),
        answer(0, 0, 0)
    );
    assert_eq!(
        step(Source, &right, 1, &mut store, &mut []),
        answer(15, 0, 0)
    );
    assert_eq!(
        step(Source, &right, 1, &mut store, &mut [0; 15]),
        answer(15, 0, 0)
    );
}

/// A position is the place of a statement's record.
#[test]
fn positions() {
    let source = generators::changes::every_kind();
    let records = reference::image::order::records(&source);
    let begun = begun(Source, &source, &[Int(1)]);
    for place in 0..records.len() as u32 + 3 {
        let mut store = begun.clone();
        store[0..4].copy_from_slice(&place.to_le_bytes());
        let kind = records
            .get(place as usize)
            .map(reference::image::Record::kind);
        let number = step(Source, &image(&source), 0, &mut store, &mut []).number;
        let statement = matches!(kind, Some(2..=10 | 12..=13));
        assert_eq!(number == 0, statement, "{place}");
    }
}

/// A label is a name, and its ID does not matter.
#[test]
fn labels_by_name() {
    let mut called = label(5);
    called.id = reference::syntax::Id(77);
    let body = Statement::Call {
        label: called,
        args: vec![],
    };
    let prog = prog(1, vec![def(0, vec![], body), def(5, vec![], leaf())]);
    for machine in [Source, Linear] {
        let mut store = begun(machine, &prog, &[]);
        let mut events = [0; 16];
        let made = step(machine, &image(&prog), 1, &mut store, &mut events);
        assert_eq!(made, answer(0, 1, 16));
        assert_eq!(events[..4], [3, 0, 5, 0]);
        assert_eq!(store[..4], [3, 0, 0, 0]);
    }
}
