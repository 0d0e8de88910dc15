//! The machines' rules, one by one: what they show, and whether they halt or stop.

mod output;

use generators::build::{
    call, clause, cns, create, create_with, def, ext, exts, ifc, invoke, label, let_, literal, one,
    op, pair, prd, prog, substitute, switch,
};
use reference::machines::{Event, Given, Linear, Outcome, Source, Start, Value, evaluate, holds};
use reference::syntax::{BinOp, IfSort, Name, Prog, Statement};

use Given::{Int, Outside};
use Outcome::{Halts, Shows, Silent, Stops};

fn source_steps(prog: &Prog, given: &[Given], steps: usize) -> Vec<Outcome> {
    let Start::Begun(mut machine) = Source::start(prog, 0, given) else {
        panic!("begun")
    };
    (0..steps).map(|_| machine.step()).collect()
}

fn linear_steps(prog: &Prog, given: &[Given], steps: usize) -> Vec<Outcome> {
    let Start::Begun(mut machine) = Linear::start(prog, 0, given) else {
        panic!("begun")
    };
    (0..steps).map(|_| machine.step()).collect()
}

fn first(prog: &Prog, given: &[Given]) -> Outcome {
    linear_steps(prog, given, 1).remove(0)
}

fn leaf() -> Statement {
    call(Vec::new())
}

#[test]
fn op_and_its_edges() {
    for (op, fst, snd, result) in [
        (BinOp::Sum, i64::MAX, 1, Some(i64::MIN)),
        (BinOp::Sub, i64::MIN, 1, Some(i64::MAX)),
        (BinOp::Prod, i64::MIN, -1, Some(i64::MIN)),
        (BinOp::Prod, 1 << 32, 1 << 32, Some(0)),
        (BinOp::Div, -7, 2, Some(-3)),
        (BinOp::Rem, -7, 2, Some(-1)),
        (BinOp::Rem, 7, -2, Some(1)),
        (BinOp::Div, 1, 0, None),
        (BinOp::Rem, 1, 0, None),
        (BinOp::Div, i64::MIN, -1, None),
        (BinOp::Rem, i64::MIN, -1, None),
    ] {
        assert_eq!(evaluate(op, fst, snd), result, "{op:?} {fst} {snd}");
    }
}

#[test]
fn comparisons() {
    let sorts = [
        (IfSort::Equal, [false, true, false]),
        (IfSort::NotEqual, [true, false, true]),
        (IfSort::Less, [true, false, false]),
        (IfSort::LessOrEqual, [true, true, false]),
        (IfSort::Greater, [false, false, true]),
        (IfSort::GreaterOrEqual, [false, true, true]),
    ];
    for (sort, expected) in sorts {
        assert_eq!(
            [-1, 0, 1].map(|fst| holds(sort, fst, 0)),
            expected,
            "{sort:?}"
        );
    }
}

/// Create, Literal, Let, Switch, IfC, Invoke of the closure, Op, and Invoke of the outside number.
fn every_event() -> Prog {
    let closure = clause(
        1,
        vec![ext(3), cns(4)],
        op(3, BinOp::Sum, 1, 5, invoke(4, vec![ext(5)])),
    );
    let branches = ifc(9, Some(10), invoke(2, vec![ext(9), cns(11)]), leaf());
    let switched = switch(8, vec![clause(1, exts(9, 10), branches)]);
    let body = create(
        2,
        vec![closure],
        literal(7, 6, let_(8, vec![ext(6), ext(6)], switched)),
    );
    one(11, vec![ext(1), cns(11)], body)
}

#[test]
fn a_source_run() {
    let tag = Name(1);
    let shown = [
        Event::Create { cell: 0 },
        Event::Literal(7),
        Event::Let { cell: 1, tag },
        Event::Switch { cell: 1, tag },
        Event::IfC { then_branch: true },
        Event::Invoke { cell: 0, tag },
        Event::Op(12),
        Event::InvokeOutside {
            number: 3,
            tag,
            args: vec![Value::Int(12)],
        },
    ];
    let mut expected: Vec<Outcome> = shown.map(Shows).into();
    expected.extend([Halts, Halts]);
    assert_eq!(
        source_steps(&every_event(), &[Int(5), Outside(3)], 10),
        expected
    );
}

#[test]
fn starts() {
    let prog = prog(
        1,
        vec![
            def(0, vec![ext(1)], leaf()),
            def(1, vec![ext(1), ext(1)], leaf()),
        ],
    );
    let source = |place, given: &[Given]| Source::start(&prog, place, given);
    let linear = |place, given: &[Given]| Linear::start(&prog, place, given);
    assert!(matches!(source(0, &[Int(1)]), Start::Begun(_)));
    assert!(matches!(linear(0, &[Int(1)]), Start::Begun(_)));
    for (place, given) in [
        (0, vec![]),
        (0, vec![Int(1); 2]),
        (2, vec![]),
        (1, vec![Int(1)]),
    ] {
        assert!(matches!(source(place, &given), Start::NotBegun));
        assert!(matches!(linear(place, &given), Start::NotBegun));
    }
    assert!(matches!(linear(1, &[Int(1), Int(2)]), Start::Stopped));
}

#[test]
fn the_source_machine_has_no_rule_for_substitute() {
    let prog = one(1, vec![ext(1)], substitute(vec![pair(ext(1), 1)], leaf()));
    assert_eq!(source_steps(&prog, &[Int(1)], 1), [Halts]);
    assert_eq!(linear_steps(&prog, &[Int(1)], 1), [Silent]);
}

/// The linear machine's first step from two integers 1 and 2, or from an integer and an outside
/// number.
fn step(body: Statement) -> Outcome {
    first(&one(9, exts(1, 2), body), &[Int(1), Int(0)])
}

#[test]
fn substitute_stops() {
    let of = |pairs| step(substitute(pairs, leaf()));
    assert_eq!(of(vec![pair(ext(1), 2), pair(ext(2), 1)]), Silent);
    assert_eq!(of(vec![pair(ext(3), 1), pair(ext(3), 1)]), Stops);
    assert_eq!(of(vec![pair(ext(3), 4)]), Stops);
    assert_eq!(of(vec![]), Silent);
}

#[test]
fn let_consumes_the_last() {
    let shows = Shows(Event::Let {
        cell: 0,
        tag: Name(1),
    });
    assert_eq!(step(let_(3, exts(1, 2), leaf())), shows);
    assert_eq!(step(let_(3, vec![], leaf())), shows);
    // var may take the ID of what is consumed
    assert_eq!(step(let_(2, vec![ext(2)], leaf())), shows);
    assert_eq!(step(let_(1, vec![ext(2)], leaf())), Stops);
    assert_eq!(step(let_(3, vec![ext(1)], leaf())), Stops);
    assert_eq!(step(let_(3, vec![ext(2), ext(1)], leaf())), Stops);
    assert_eq!(step(let_(3, exts(1, 3), leaf())), Stops);
}

#[test]
fn create_consumes_its_environment() {
    let shows = Shows(Event::Create { cell: 0 });
    let of = |id, environment| step(create_with(id, environment, vec![], leaf()));
    assert_eq!(of(3, Some(exts(1, 2))), shows);
    assert_eq!(of(3, Some(vec![])), shows);
    assert_eq!(of(2, Some(vec![ext(2)])), shows);
    assert_eq!(of(1, Some(vec![ext(2)])), Stops);
    assert_eq!(of(3, Some(vec![ext(1)])), Stops);
    assert_eq!(of(3, None), Stops);
}

#[test]
fn switch_stops_for_an_id_before_it_halts_for_a_value() {
    assert_eq!(step(switch(1, vec![])), Stops);
    assert_eq!(step(switch(2, vec![])), Halts);
    let after = |clauses| {
        let body = let_(3, vec![ext(2)], switch(3, clauses));
        linear_steps(&one(9, exts(1, 2), body), &[Int(1), Int(0)], 2).remove(1)
    };
    let shows = Shows(Event::Switch {
        cell: 0,
        tag: Name(1),
    });
    assert_eq!(after(vec![clause(1, vec![ext(4)], leaf())]), shows);
    // IDs that a clause brings count only once it is found and the counts agree
    assert_eq!(after(vec![clause(1, vec![ext(1)], leaf())]), Stops);
    assert_eq!(after(vec![clause(2, vec![ext(1)], leaf())]), Halts);
    assert_eq!(after(vec![clause(1, vec![ext(1), ext(1)], leaf())]), Halts);
    let first_found = vec![clause(1, vec![], leaf()), clause(1, vec![ext(4)], leaf())];
    assert_eq!(after(first_found), Halts);
}

#[test]
fn invoke_takes_the_last() {
    assert_eq!(step(invoke(1, vec![])), Stops);
    assert_eq!(step(invoke(2, vec![])), Halts);
    let outside = one(9, vec![ext(1), cns(2)], invoke(2, vec![ext(8)]));
    // args aren't read
    let shows = Shows(Event::InvokeOutside {
        number: 200,
        tag: Name(1),
        args: vec![Value::Int(1)],
    });
    assert_eq!(
        linear_steps(&outside, &[Int(1), Outside(200)], 2),
        [shows, Halts]
    );
    let after = |clauses| {
        let body = create_with(3, Some(vec![ext(2)]), clauses, invoke(3, vec![]));
        linear_steps(&one(9, exts(1, 2), body), &[Int(1), Int(0)], 2).remove(1)
    };
    let shows = Shows(Event::Invoke {
        cell: 0,
        tag: Name(1),
    });
    assert_eq!(after(vec![clause(1, vec![ext(4)], leaf())]), shows);
    assert_eq!(after(vec![clause(1, vec![ext(2)], leaf())]), Stops);
    assert_eq!(after(vec![clause(1, vec![], leaf())]), Halts);
    assert_eq!(after(vec![clause(2, vec![ext(2)], leaf())]), Halts);
}

#[test]
fn call_renames_all() {
    let of = |params, name| {
        let call = Statement::Call {
            label: label(name),
            args: vec![],
        };
        let defs = vec![def(0, exts(1, 2), call), def(1, params, leaf())];
        first(&prog(9, defs), &[Int(1), Int(2)])
    };
    assert_eq!(of(exts(3, 4), 1), Shows(Event::Call { label: Name(1) }));
    assert_eq!(of(vec![ext(3), ext(3)], 1), Stops);
    assert_eq!(of(vec![ext(3)], 1), Halts);
    assert_eq!(of(vec![ext(3), ext(3)], 2), Halts);
}

#[test]
fn op_stops_for_an_id_before_it_halts() {
    let of = |fst, kind, snd, id| step(op(fst, kind, snd, id, leaf()));
    assert_eq!(of(1, BinOp::Sum, 2, 3), Shows(Event::Op(1)));
    assert_eq!(of(4, BinOp::Sum, 2, 3), Stops);
    assert_eq!(of(1, BinOp::Sum, 4, 3), Stops);
    assert_eq!(of(1, BinOp::Div, 2, 3), Halts);
    assert_eq!(of(1, BinOp::Div, 2, 2), Stops);
    let sorts = |id| {
        let body = op(1, BinOp::Sum, 2, id, leaf());
        first(&one(9, vec![ext(1), prd(2)], body), &[Int(1), Outside(0)])
    };
    assert_eq!(sorts(3), Halts);
    assert_eq!(sorts(1), Stops);
}

#[test]
fn literal_and_ifc() {
    assert_eq!(step(literal(5, 3, leaf())), Shows(Event::Literal(5)));
    assert_eq!(step(literal(5, 2, leaf())), Stops);
    let branch = |then_branch| Shows(Event::IfC { then_branch });
    assert_eq!(step(ifc(1, Some(2), leaf(), leaf())), branch(false));
    assert_eq!(step(ifc(2, None, leaf(), leaf())), branch(true));
    assert_eq!(step(ifc(3, None, leaf(), leaf())), Stops);
    assert_eq!(step(ifc(1, Some(3), leaf(), leaf())), Stops);
    let sorts = |snd| {
        let body = ifc(2, snd, leaf(), leaf());
        first(&one(9, vec![ext(1), prd(2)], body), &[Int(1), Outside(0)])
    };
    assert_eq!(sorts(None), Halts);
    assert_eq!(sorts(Some(3)), Stops);
}

/// A state without a next step is left as it was.
#[test]
fn a_machine_without_a_next_step_stays() {
    let prog = one(9, exts(1, 2), let_(1, vec![ext(2)], leaf()));
    let Start::Begun(mut machine) = Linear::start(&prog, 0, &[Int(1), Int(2)]) else {
        panic!("begun")
    };
    let before = format!("{:?}", machine.state);
    assert_eq!([machine.step(), machine.step()], [Stops, Stops]);
    assert_eq!(format!("{:?}", machine.state), before);
}

/// "Create's cell holds it whole, before var is added."
#[test]
fn a_closure_of_the_source_machine_holds_all_but_its_var() {
    let of = |used| {
        let closure = vec![clause(1, vec![], call(vec![ext(used)]))];
        let body = create(2, closure, invoke(2, vec![]));
        let defs = vec![def(5, vec![ext(1)], body), def(0, vec![ext(1)], leaf())];
        source_steps(&prog(2, defs), &[Int(1)], 3).remove(2)
    };
    assert_eq!(of(1), Shows(Event::Call { label: Name(0) }));
    assert_eq!(of(2), Halts);
}
