//! PrintI64 and Exit.

use super::{linear_steps, source_steps};
use generators::build::{cns, create_with, exit, ext, exts, let_, literal, one, prd, print_i64};
use reference::machines::{Event, Given, Linear, Outcome, Source, Start, Value};
use reference::syntax::{Binding, Name, Prog, Statement};

use Given::{Int, Outside};
use Outcome::{Halts, Shows, Stops};

fn shows(value: i64, newline: bool) -> Outcome {
    Shows(Event::PrintI64 { value, newline })
}

fn exits(value: Value) -> Outcome {
    Shows(Event::Exit { value })
}

/// So many steps of both machines, which are the same.
fn steps(params: Vec<Binding>, given: &[Given], body: Statement, steps: usize) -> Vec<Outcome> {
    let prog = one(9, params, body);
    let shown = source_steps(&prog, given, steps);
    assert_eq!(linear_steps(&prog, given, steps), shown);
    shown
}

/// The first step of the source machine and of the linear one.
fn first(params: Vec<Binding>, given: &[Given], body: Statement) -> (Outcome, Outcome) {
    let prog = one(9, params, body);
    let source = source_steps(&prog, given, 1).remove(0);
    (source, linear_steps(&prog, given, 1).remove(0))
}

#[test]
fn print_shows_its_integer_and_the_newline_byte() {
    let body = print_i64(true, 2, print_i64(false, 1, print_i64(true, 2, exit(1))));
    let shown = [
        shows(i64::MIN, true),
        shows(5, false),
        shows(i64::MIN, true),
        exits(Value::Int(5)),
        Halts,
        Halts,
    ];
    assert_eq!(steps(exts(1, 2), &[Int(5), Int(i64::MIN)], body, 6), shown);
}

#[test]
fn events_are_the_same_when_all_in_them_is() {
    assert_ne!(shows(1, true), shows(1, false));
    assert_ne!(shows(1, true), shows(2, true));
    assert_ne!(shows(1, false), exits(Value::Int(1)));
    assert_ne!(exits(Value::Int(1)), exits(Value::Int(2)));
    assert_ne!(exits(Value::Int(1)), exits(Value::Cell(1)));
    assert_ne!(exits(Value::Outside(1)), exits(Value::Cell(1)));
}

/// The entries of both machines after one step.
fn entries(prog: &Prog, given: &[Given]) -> [String; 2] {
    let (Start::Begun(mut source), Start::Begun(mut linear)) =
        (Source::start(prog, 0, given), Linear::start(prog, 0, given))
    else {
        panic!("begun")
    };
    source.step();
    linear.step();
    [source.state.entries, linear.state.entries].map(|entries| format!("{entries:?}"))
}

#[test]
fn everything_stays_behind_print() {
    let given = [Int(1), Int(2), Outside(3)];
    let params = || vec![ext(1), ext(2), cns(3)];
    let expected = "[(Id(1), Int(1)), (Id(2), Int(2)), (Id(3), Outside(3))]";
    for id in [1, 2] {
        let prog = one(9, params(), print_i64(true, id, exit(3)));
        assert_eq!(entries(&prog, &given), [expected; 2]);
    }
}

#[test]
fn print_needs_an_integer() {
    let of = |id| {
        let params = vec![ext(1), prd(2)];
        first(params, &[Int(1), Outside(2)], print_i64(false, id, exit(1)))
    };
    assert_eq!(of(1), (shows(1, false), shows(1, false)));
    assert_eq!(of(2), (Halts, Halts));
    // an absent var stops
    assert_eq!(of(3), (Halts, Stops));
    let cell = let_(3, Vec::new(), print_i64(true, 3, exit(1)));
    let let_shows = Shows(Event::Let {
        cell: 0,
        tag: Name(1),
    });
    let shown = steps(vec![ext(1)], &[Int(1)], cell, 3);
    assert_eq!(shown, [let_shows, Halts, Halts]);
}

#[test]
fn exit_shows_every_sort_of_value() {
    let params = || vec![ext(1), cns(2)];
    let given = [Int(-1), Outside(255)];
    assert_eq!(
        steps(params(), &given, exit(1), 3),
        [exits(Value::Int(-1)), Halts, Halts]
    );
    assert_eq!(
        steps(params(), &given, exit(2), 2),
        [exits(Value::Outside(255)), Halts]
    );
    let made = let_(3, Vec::new(), let_(4, Vec::new(), exit(4)));
    assert_eq!(
        steps(params(), &given, made, 4)[2..],
        [exits(Value::Cell(1)), Halts]
    );
    let closure = create_with(3, Some(Vec::new()), Vec::new(), exit(3));
    assert_eq!(
        steps(params(), &given, closure, 3)[1..],
        [exits(Value::Cell(0)), Halts]
    );
    let number = literal(9, 3, exit(3));
    assert_eq!(
        steps(params(), &given, number, 3)[1..],
        [exits(Value::Int(9)), Halts]
    );
}

/// Whatever else the environment holds.
#[test]
fn exit_takes_every_list_that_holds_its_var() {
    let given: Vec<Given> = (1..=32).map(Int).collect();
    for id in [1, 17, 32] {
        let shown = steps(exts(1, 32), &given, exit(id), 2);
        assert_eq!(shown, [exits(Value::Int(id.into())), Halts]);
    }
}

#[test]
fn exit_of_an_absent_variable() {
    let of = |params, given: &[Given], id| first(params, given, exit(id));
    assert_eq!(of(vec![ext(1)], &[Int(1)], 2), (Halts, Stops));
    assert_eq!(of(Vec::new(), &[], 0), (Halts, Stops));
    // the run has not ended
    let prog = one(9, vec![ext(1)], exit(2));
    let Start::Begun(mut linear) = Linear::start(&prog, 0, &[Int(1)]) else {
        panic!("begun")
    };
    assert_eq!([linear.step(), linear.step()], [Stops, Stops]);
    assert!(!linear.state.ended);
}
